#!/usr/bin/env python3
"""What the crate list_cases must print, computed another way: all pairs of odd codes are filtered by Euclid's algorithm, and sorted by the
key that document 01's order gives a pair, which is read off its chain of quotients.

With an argument it prints what the list program prints for that input, in full: list_reference.py 10"""
import sys


def divided(a, b):
    quotient = 0
    while a.bit_length() >= b.bit_length():
        shift = a.bit_length() - b.bit_length()
        quotient ^= 1 << shift
        a ^= b << shift
    return quotient, a


def chain(f, g):
    """The quotients of Euclid's algorithm, and the greatest common divisor."""
    quotients = []
    while g:
        quotient, rest = divided(f, g)
        quotients.append(quotient)
        f, g = g, rest
    return quotients, f


def bits(quotient):
    """The intermediate bits of a quotient of degree d, from x^(d-1) down to x, and its constant term."""
    digits = [int(digit) for digit in bin(quotient)[3:]]
    return digits[:-1], digits[-1]


def key(quotients):
    """Where a pair stands: the chain's first quotient is the last one, 1, and quotient 1 is the chain's last."""
    assert quotients[0] == 1
    built = quotients[:0:-1]
    inner = [bit for quotient in built for bit in bits(quotient)[0]]
    return len(built), [q.bit_length() - 1 for q in built], inner, [bits(q)[1] for q in built]


def pairs(n):
    found = []
    codes = range(2**n + 1, 2 ** (n + 1), 2)
    for f in codes:
        for g in codes:
            quotients, divisor = chain(f, g)
            if divisor == 1:
                found.append((key(quotients), f, g))
    return [(f, g) for _, f, g in sorted(found)]


def degree(text):
    """One or two decimal digits and a newline, and nothing else."""
    if len(text) not in (2, 3) or text[-1] != "\n" or any(c not in "0123456789" for c in text[:-1]):
        return None
    n = int(text[:-1])
    return n if 1 <= n <= 10 else None


def answer(text):
    n = degree(text)
    if n is None:
        return ["refused 1\n"]
    listed = pairs(n)
    return [f"{n} {len(listed)}\n"] + [f"{j} {f} {g}\n" for j, (f, g) in enumerate(listed)]


def checksum(lines):
    total = 0
    for byte in "".join(lines).encode():
        total = (total * 31 + byte) % 2**32
    return total


def case(text, whole=True):
    lines = answer(text)
    if not whole:
        lines = lines[:2] + lines[-1:] + [f"checksum {checksum(lines)}\n"]
    return f"input {text}|\n" + "".join(lines)


def cases():
    yield case("2\n")
    yield case("10\n", whole=False)
    for text in ["0\n", "11\n", "", "3", "+3\n", "03\n", "003\n", "3\n\n", "10\nx", "1\n", "3\n", "6\n"]:
        yield case(text)


if __name__ == "__main__":
    if len(sys.argv) > 1:
        sys.stdout.write("".join(answer(sys.argv[1] + "\n")))
    else:
        sys.stdout.write("".join(cases()))
