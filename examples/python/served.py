#!/usr/bin/env python3
"""Clears pool A of the swap board at limits 2, 2 and prints the answer as the workshop program does.

    served.py [SHARED_OBJECT]

Without a shared object one is built from the project's static library."""

import ctypes
import pathlib
import subprocess
import sys
import tempfile

PROJECT = pathlib.Path(__file__).resolve().parents[2]
RECORD, PLAN_RECORD, HOUSE, RING, NO_PLACE = 12, 16, 72, 82, 255
LC, LP = 2, 2

# Kind, class, grade, least grade taken, classes taken (four bytes), weeks waited and machine number (two bytes each, the low one first).
POOL_A = [
    [72, 0, 50, 0, 0, 0, 0, 0, 0, 0, 1, 0],
    [77, 1, 50, 40, 5, 0, 0, 0, 0, 0, 2, 0],
    [77, 2, 50, 40, 2, 0, 0, 0, 0, 0, 3, 0],
    [77, 3, 50, 40, 20, 0, 0, 0, 0, 0, 4, 0],
    [77, 4, 50, 40, 8, 0, 0, 0, 0, 0, 5, 0],
    [77, 5, 50, 40, 16, 0, 0, 0, 0, 0, 6, 0],
]


class Answer(ctypes.Structure):
    """struct swap_answer: number 0 where accepted, else the cause and its spot."""

    _fields_ = [(name, ctypes.c_uint64) for name in ("number", "at", "first", "second")]


def load(path):
    library = ctypes.CDLL(path)
    size, byte, pointer = ctypes.c_size_t, ctypes.c_uint8, ctypes.c_void_p
    lent = [pointer, size]
    library.swap_clear.argtypes = [ctypes.c_char_p, size, byte, byte] + lent * 3
    library.swap_clear.restype = Answer
    return library


def build_and_load():
    archive = PROJECT / "target/staticlib/libcapi.a"
    with tempfile.TemporaryDirectory() as folder:
        shared = f"{folder}/libswapboard.so"
        whole = ["-Wl,--whole-archive", archive, "-Wl,--no-whole-archive"]
        subprocess.run(["gcc", "-shared", *whole, "-o", shared], check=True)
        return load(shared)


def clear(library, pool, lc, lp):
    """The answer and the plan records written."""
    # ctypes cuts a number down to its byte: 258 would pass for 2.
    if not (0 <= lc <= 255 and 0 <= lp <= 255):
        raise ValueError("a limit is one byte")
    # A pool of more than 14 records is refused by 2 before its room matters.
    places = min(len(pool) // RECORD, 14)
    exchanges = (ctypes.c_uint16 * (1 << places))()
    best = (ctypes.c_uint32 * (1 << places))()
    plan = (ctypes.c_uint8 * (PLAN_RECORD * places))()
    answer = library.swap_clear(
        pool, len(pool), lc, lp, exchanges, len(exchanges), best, len(best), plan, len(plan)
    )
    starts = range(0, PLAN_RECORD * answer.second, PLAN_RECORD)
    return answer, [plan[start : start + PLAN_RECORD] for start in starts]


def line(record):
    kind = "ring" if record[14] == RING else "chain"
    places = [str(place) for place in record[:14] if place != NO_PLACE]
    return " ".join([kind, *places])


def main():
    library = load(sys.argv[1]) if len(sys.argv) > 1 else build_and_load()
    answer, records = clear(library, bytes(sum(POOL_A, [])), LC, LP)
    if answer.number != 0:
        print("refused", answer.number, answer.at)
        return 1
    members = sum(record[0] != HOUSE for record in POOL_A)
    print("served", answer.first, "of", members)
    for record in records:
        print(line(record))
    return 0


if __name__ == "__main__":
    sys.exit(main())
