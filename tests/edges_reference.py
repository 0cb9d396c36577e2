#!/usr/bin/env python3
"""What the crate edges must print: document 01's entries on the edges as the paper gives them; no pair, chain or symbol is computed."""

LENGTHS = {1: 0, 2: 2, 3: 10, 4: 42}
DEGREE_3 = [(11, 9), (9, 11), (15, 13), (13, 15), (13, 9), (9, 13), (11, 13), (13, 11), (15, 11), (11, 15)]
DEGREE_4 = {0: "19 17", 41: "19 25", 42: "refused 2"}
CHAINS = {(15, 11): ([1, 2, 3, 3], 1), (15, 9): ([1, 3, 2], 3), (9, 9): ([1], 9)}
F_ROWS = ["0132", "3201", "2310", "1023"]
G_ROWS = ["0123", "1032", "2301", "3210"]
FILE = bytes.fromhex("01 02 07 05 64 6E 78 82 01 C8 01 DC 01 F0 01 84 02 01 41")
POWERS = [100, 110, 120, 130]
FORCES = [200, 220, 240, 260]


def say(*words):
    print(*words)


def padded(values, size):
    """Lent memory was 9 before, and entries behind what is put stay."""
    values = list(values)
    return values + [9] * (size - len(values))


def chain(n, f, g, reply, quotients):
    say(f"chain {n} {f} {g}: {reply}")
    say("quotients:", *padded(quotients, 32))


def reading(reply, powers, forces, name=b""):
    say("read:", reply)
    say("name:", *name)
    say("powers:", *padded(powers, 64))
    say("forces:", *padded(forces, 64))
    say("times:", *padded([], 64))


for n, count in LENGTHS.items():
    say(f"length {n}: {count}")
for position, (f, g) in enumerate(DEGREE_3):
    say(f"pair 3 {position}: {f} {g}")
for position, reply in DEGREE_4.items():
    say(f"pair 4 {position}: {reply}")
for (f, g), (quotients, divisor) in CHAINS.items():
    chain(3, f, g, f"{len(quotients)} {divisor}", quotients)
for row in range(4):
    for col in range(4):
        say(f"site 2 {row} {col}: {F_ROWS[row][col]} {G_ROWS[row][col]}")
say("sheet: done")
say("bytes:", *padded((symbol for f, g in zip("".join(F_ROWS), "".join(G_ROWS)) for symbol in (f, g)), 34))
say("start 1: 1 0 0 0 0")
say("look: spent")
say("draw: spent")
say("record: 1 0 0 0 0")
for n in (0, 32):
    say(f"order {n}: refused 1")
    say(f"length {n}: refused 1")
    say(f"pair {n} 0: refused 1")
    say(f"pairs from {n} 0: refused 1 9 9")
    say(f"position {n}: refused 1")
    chain(n, 7, 5, "refused 1", [])
    say(f"site {n} 0 0: refused 1")
    say(f"start {n}: refused 1")
reading(f"2 7 5 {len(FILE) - 1} 1 1", POWERS, FORCES, b"A")
reading("refused 17", [], [])
reading("refused 9", [], [])
say("write:", len(FILE))
say("file:", *FILE)
