/* Clears pool A of the swap board at limits 2, 2 and prints the answer as the workshop program does.
 *
 * From the project's root:
 *   cc -I include -o served examples/c/served.c target/staticlib/libcapi.a && ./served */
#include <stdint.h>
#include <stdio.h>

#include "swapboard.h"

enum { RECORD = 12, PLACES = 6, HOUSES = 1, PLAN_RECORD = 16, RING = 82, NO_PLACE = 255 };
enum { LC = 2, LP = 2 };

/* Kind, class, grade, least grade taken, classes taken (four bytes), weeks waited and machine number (two bytes each, the low one first). */
static const uint8_t pool[PLACES * RECORD] = {
    72, 0, 50, 0,  0,  0, 0, 0, 0, 0, 1, 0, /* a house machine */
    77, 1, 50, 40, 5,  0, 0, 0, 0, 0, 2, 0, /* members from here on */
    77, 2, 50, 40, 2,  0, 0, 0, 0, 0, 3, 0,
    77, 3, 50, 40, 20, 0, 0, 0, 0, 0, 4, 0,
    77, 4, 50, 40, 8,  0, 0, 0, 0, 0, 5, 0,
    77, 5, 50, 40, 16, 0, 0, 0, 0, 0, 6, 0,
};

/* The room that six places need; the routine allocates nothing itself. */
static uint16_t exchanges[1 << PLACES];
static uint32_t best[1 << PLACES];
static uint8_t plan[PLAN_RECORD * PLACES];

static void print_record(const uint8_t *record)
{
    printf("%s", record[14] == RING ? "ring" : "chain");
    for (int i = 0; i < 14 && record[i] != NO_PLACE; i++)
        printf(" %d", record[i]);
    printf("\n");
}

int main(void)
{
    struct swap_answer answer =
        swap_clear(pool, sizeof pool, LC, LP, exchanges, 1 << PLACES, best, 1 << PLACES, plan, sizeof plan);

    if (answer.number != 0) {
        printf("refused %d %d\n", (int)answer.number, (int)answer.at);
        return 1;
    }
    printf("served %d of %d\n", (int)answer.first, PLACES - HOUSES);
    for (uint64_t k = 0; k < answer.second; k++)
        print_record(plan + PLAN_RECORD * k);
    return 0;
}
