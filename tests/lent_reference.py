#!/usr/bin/env python3
"""What the program lent must print. The pairs of degree 3 are filtered by Euclid's algorithm (list_reference.py); the last pair of degree
31 is worked by counting choices (reference.py)."""
from list_reference import pairs
from reference import pair_at

LAST = 2 * (4**30 - 1) // 3 - 1


FULL = 10**18


def turns(degree, position, mark, given, bonder, times, entry, length):
    """Turns over a record whose mark 5 is stored as `mark` and whose count 6 is `given`, the others 0, and which holds 6 and 12 at first;
    each draws for the bonder."""
    counts, pair = [0] * 8, (6, 12)
    counts[6] = given
    for _ in range(times):
        if not 1 <= degree <= 31 or position > length or mark > length + 1 or max(counts) > FULL:
            look = "refused 3"
        elif position == length:
            look = "spent"
        else:
            look = "{} {}".format(*pair)
        draw = look
        if look != "refused 3" and bonder > 7:
            draw = "refused 20"
        elif look[0].isdigit() and counts[bonder] == FULL:
            draw = "refused 21"
        elif look[0].isdigit():
            position += 1
            counts[bonder] += 1
            pair = entry(position) if position < length else (0, 0)
        print(f"look: {look} draw: {draw} record: {degree} {position} 0 0 0 0 0 {mark} 0 0", *counts, *pair)


def opened(reply, name=b"", *lists):
    """The answer, the name, and nine levels of each of the three slices in turn: 9 stood there before."""
    slices = [[*levels, *[9] * 9] for levels in (*lists, (), (), ())]
    print("open:", reply, "name:", *name, "levels:", *(slices[k][i] for i in range(9) for k in range(3)))


third = pairs(3)
of_third = third.__getitem__, len(third)
turns(3, 0, 0, 0, 6, 12, *of_third)
turns(3, 0, 11, 5, 0, 1, *of_third)
turns(3, 0, 12, 0, 0, 1, *of_third)
turns(3, 0, 0, FULL - 1, 6, 3, *of_third)
turns(3, 0, 0, FULL, 7, 1, *of_third)
turns(3, 10, 0, FULL, 6, 1, *of_third)
turns(3, 0, 0, FULL + 1, 7, 1, *of_third)
turns(3, 0, 0, 2**64 - 1, 8, 1, *of_third)
turns(3, 0, 0, 0, 8, 1, *of_third)
turns(3, 10, 0, 0, 2**32 - 1, 1, *of_third)
turns(1, 0, 1, 0, 7, 2, None, 0)
turns(31, LAST - 1, LAST + 2, 0, 6, 4, lambda position: pair_at(31, position), LAST + 1)
turns(31, LAST + 1, 2**64 - 1, 0, 0, 1, None, LAST + 1)
turns(31, LAST + 2, 0, 0, 0, 1, None, LAST + 1)
turns(0, 0, 0, 0, 0, 1, None, 0)
turns(32, 0, 0, 0, 0, 1, None, 0)
opened("2 7 5 18 3 1 0", b"A~ ", [100, 110, 120, 130], [200, 220, 240, 260])
opened("refused 9")
opened("refused 17")
opened("refused 9")
opened("3 9 11 30 2 2 13", b"S~", range(1, 9), range(16, 8, -1), range(90, 126, 5))
opened("refused 9")
opened("refused 17")
