/* The swap board: rings and chains of machines, cleared by a proved routine.
 *
 * Every call takes every input, ends, and does nothing undefined, provided that each pointer leads to as much memory as the call says and that
 * memory lent for writing overlaps no other memory lent. A pointer with a length of 0 must not be null. 128 KB of stack are enough for every
 * call (swap_clear uses some 100 KB, swap_fill_best 65 KB, the others less than 1 KB). */
#ifndef SWAPBOARD_H
#define SWAPBOARD_H

#include <stddef.h>
#include <stdint.h>

#ifdef __cplusplus
extern "C" {
#endif

/* number is 0 where the input was accepted, and first and second are what the call says; else number is that of the first cause met, at is its
 * spot (a record, or 0), first and second are 0, and all lent memory holds what it held. */
struct swap_answer {
    uint64_t number;
    uint64_t at;
    uint64_t first;
    uint64_t second;
};

/* Reads a pool, 12 bytes for each place, to a pool value: its places, its houses, and for each of 14 places the set of the places that it gives to and the
 * weeks that it has waited, 0 for places that are not there. Refused by 1 to 5 and 18 to 20. first: places; second: houses. */
struct swap_answer swap_read_pool(const uint8_t *pool, size_t pool_length, uint16_t gives[14], uint16_t weeks[14]);

/* Fills the exchange table of a pool value: for every set of places, those that can stand last in a ring or chain that uses exactly the set and begins at
 * its lowest place; 0 where there is none. Refused by 6, 7, 8. first: entries written, 2 to the power of places; all beyond them is untouched. */
struct swap_answer swap_fill_exchanges(uint8_t places, uint8_t houses, const uint16_t gives[14], const uint16_t weeks[14], uint8_t lc, uint8_t lp,
                                       uint16_t *table, size_t table_length);

/* Fills the best table: for every set of places, the greatest members * 65536 + weeks that pairwise disjoint, marked, nonempty sets inside it can hold; only
 * members' weeks count. A set is marked where its entry in the lent exchange table, which may hold anything, is not 0. The nonempty parts of a set are tried from
 * the set itself down by number, until one is marked and, with the best of the rest, serves every member in the set; a set without members tries none.
 * Refused by 6, 8, 9. first: entries written; second: parts tried over all sets; all beyond the entries is untouched. */
struct swap_answer swap_fill_best(uint8_t places, uint8_t houses, const uint16_t gives[14], const uint16_t weeks[14], const uint16_t *exchanges,
                                  size_t exchanges_length, uint32_t *table, size_t table_length);

/* Clears a pool: the plan that serves most members, among those the one whose members have waited most weeks together, and among those the one whose
 * records come first byte by byte. Refused as reading is, and by 7, 8, 9, 10: for n places each table needs 2 to the power n entries and the plan 16 * n
 * bytes (16384 and 224 are enough for every pool). first: members served; second: records, which stand at the front of plan. Both tables are filled; all
 * beyond the entries and records named is untouched. */
struct swap_answer swap_clear(const uint8_t *pool, size_t pool_length, uint8_t lc, uint8_t lp, uint16_t *exchanges, size_t exchanges_length,
                              uint32_t *best, size_t best_length, uint8_t *plan, size_t plan_length);

/* Checks a plan: accepted where its bytes are the record form of a legal plan of the pool under the limits. Refused as reading is, and
 * by 7, 11 to 17. first: members served. */
struct swap_answer swap_check(const uint8_t *pool, size_t pool_length, uint8_t lc, uint8_t lp, const uint8_t *plan, size_t plan_length);

#ifdef __cplusplus
}
#endif

#endif
