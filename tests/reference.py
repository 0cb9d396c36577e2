#!/usr/bin/env python3
"""The values that the crate compare must print, computed another way: polynomials are sets of exponents in the arithmetic, lists of pairs
and of triples are filtered by plain Euclid, the pairs sorted by the key that document 01's order gives, sites are worked cell by cell,
sheets made elsewhere are judged by sorted rows and columns and by the set of their pairs, and trial files and saved walks are read and
written from the documents. Run it to make crates/compare/stdout.

With an argument the lists go up to that degree: reference.py 10"""
import sys
from functools import cache
from itertools import combinations, product
from math import comb


def exponents(code):
    return {j for j in range(code.bit_length()) if code >> j & 1}


def code_of(exps):
    return sum(1 << j for j in exps)


def times(a, b):
    out = set()
    for i in a:
        out ^= {i + j for j in b}
    return out


def divided(a, b):
    if not b:
        return set(), a
    quotient, rest = set(), set(a)
    while rest and max(rest) >= max(b):
        shift = max(rest) - max(b)
        quotient ^= {shift}
        rest ^= {j + shift for j in b}
    return quotient, rest


def refusal(n, a):
    if not a or max(a) != n:
        return 6
    return 0 if 0 in a else 7


def chain(f, g):
    """The quotients of Euclid's algorithm and the last divisor, on codes as whole numbers for speed."""
    quotients = []
    while g:
        quotient, top = 0, g.bit_length()
        while f.bit_length() >= top:
            shift = f.bit_length() - top
            quotient |= 1 << shift
            f ^= g << shift
        quotients.append(quotient)
        f, g = g, f
    return quotients, f


def key(quotients):
    """Document 01's order: the number of quotients, their degrees, the intermediate bits as one number, the constant terms."""
    sequence = quotients[:0:-1]
    degrees = [q.bit_length() - 1 for q in sequence]
    bits = "".join(format(q, "b")[1:-1] for q in sequence)
    return len(sequence), degrees, int(bits or "0", 2), [q & 1 for q in sequence]


@cache
def coprime_pairs(n):
    odd = range(2**n + 1, 2 ** (n + 1), 2)
    found = []
    for f in odd:
        for g in odd:
            quotients, divisor = chain(f, g)
            if divisor == 1:
                found.append((key(quotients), f, g))
    found.sort()
    return [(f, g) for _, f, g in found]


def symbol(n, f, row, col):
    cells = [row >> (n - 1 - i) & 1 for i in range(n)] + [col >> (n - 1 - i) & 1 for i in range(n)]
    out = 0
    for i in range(n):
        out = out * 2 + sum((f >> j & 1) * cells[i + j] for j in range(n + 1)) % 2
    return out


def generator(state=1):
    while True:
        yield state, state % 2**32 >> state % 32
        state = (state * 1664525 + 1013904223) % 2**32


def mixed(total, *values):
    for value in values:
        total = (total * 31 + value % 2**32 + value // 2**32) % 2**32
    return total


def arithmetic():
    total, draws = 0, generator()
    for _ in range(20000):
        (_, a_code), (_, b_code) = next(draws), next(draws)
        a, b = exponents(a_code), exponents(b_code)
        quotient, rest = divided(a, b)
        total = mixed(total, code_of(times(a, b)), code_of(quotient), code_of(rest), max(a, default=0), refusal(b_code % 33, a))
    return total


def pair_of(n, first, second):
    """Two odd codes of degree n from two numbers."""
    return 2**n + first % 2**n | 1, 2**n + second % 2**n | 1


def chains():
    total, draws = 0, generator(7)
    for i in range(5000):
        n = i % 31 + 1
        f, g = pair_of(n, next(draws)[0], next(draws)[0])
        quotients, divisor = chain(f, g)
        total = mixed(total, len(quotients), divisor, *quotients)
    return total


def sites():
    total, draws = 0, generator(11)
    for i in range(3000):
        n = i % 31 + 1
        f, g = pair_of(n, next(draws)[0], next(draws)[0])
        row, col = next(draws)[0] % 2**n, next(draws)[0] % 2**n
        total = mixed(total, symbol(n, f, row, col), symbol(n, g, row, col))
    return total


# A degree and a coprime pair for each sheet.
PAIRS = [(2, 7, 5), (3, 15, 13), (4, 19, 17), (5, 37, 59), (6, 67, 97)]


def sheets():
    total = 0
    for n, f, g in PAIRS:
        for row in range(2**n):
            for col in range(2**n):
                total = mixed(total, symbol(n, f, row, col), symbol(n, g, row, col))
    return total


FILES = [
    bytes.fromhex("01 02 07 05 64 6E 78 82 01 C8 01 DC 01 F0 01 84 02 01 41"),
    bytes.fromhex("01 03 0F 0B 00 01 7F 80 01 FF 7F 80 80 01 81 80 01 FF FF 03 05 09 46 AC 02 AD 02 84 07 A0 9C 01 FE FF 03")
    + b"\x08Line 3 ~",
    bytes.fromhex("01 02 05 07 01 02 03 04 09 C0 3E C1 3E E0 D4 03 00"),
    bytes.fromhex("01 03 0B 0D AC 02 00 FF FF 03 01 80 08 7F 02 80 01 05 03 FF FF 03 00 83 18 04 80 08 06 02 53 7E"),
]

# Of version 2: with levels of one byte and no name; with levels of up to three bytes, in no order.
THREES = [
    bytes.fromhex("02 03 09 0B 0D 01 02 03 04 05 06 07 08 10 0F 0E 0D 0C 0B 0A 09 5A 5F 64 69 6E 73 78 7D 00"),
    bytes.fromhex("02 03 0D 0F 0B AC 02 00 FF FF 03 01 80 08 7F 02 80 01 05 03 FF FF 03 00 83 18 04 80 08 06")
    + bytes.fromhex("00 81 80 01 7F 80 01 FF FF 03 01 81 08 81 10 02 53 7E"),
]


class Refused(Exception):
    """With the number of the documents."""


def must(holds, number):
    if not holds:
        raise Refused(number)


def number_at(file, at):
    """A number in groups of seven bits, lowest first, and the place behind it."""
    ends = [k for k in range(at, min(at + 10, len(file))) if file[k] < 128]
    must(ends or len(file) - at >= 10, 9)
    must(ends and (ends[0] == at or file[ends[0]]), 10)
    value = sum(file[k] % 128 << 7 * (k - at) for k in range(at, ends[0] + 1))
    must(value < 2**64, 10)
    return value, ends[0] + 1


def number_bytes(value):
    """A number as a file has it: the groups are the digits to the base 128."""
    digits = [value % 128]
    while value >= 128:
        value //= 128
        digits.append(value % 128)
    return bytes([128 + digit for digit in digits[:-1]] + digits[-1:])


def levels_at(file, at, count):
    levels = []
    while len(levels) < count:
        level, at = number_at(file, at)
        must(level < 2**16, 13)
        must(level not in levels, 14)
        levels.append(level)
    return levels, at


def code_at(file, at, n):
    code, at = number_at(file, at)
    must(code.bit_length() == n + 1, 6)
    must(code % 2, 7)
    return code, at


def parsed(file):
    """Degree, f, g, the name's place and length, the version and h, which is 0 at version 1; then two or three lists of levels."""
    version, at = number_at(file, 0)
    must(version in (1, 2), 11)
    n, at = number_at(file, at)
    must(2 <= n <= 6, 12)
    codes, lists = [], []
    for _ in range(version + 1):
        code, at = code_at(file, at, n)
        codes.append(code)
    must(all(chain(f, g)[1] == 1 for f, g in combinations(codes, 2)), 8)
    for _ in range(version + 1):
        levels, at = levels_at(file, at, 2**n)
        lists.append(levels)
    size, at = number_at(file, at)
    must(size <= 40, 15)
    must(at + size <= len(file), 9)
    must(all(32 <= byte <= 126 for byte in file[at : at + size]), 16)
    must(at + size == len(file), 17)
    return [n, *codes[:2], at, size, version, codes[2] if version == 2 else 0], lists


def reading(total, file):
    """The answer behind the three slices of 64 levels, in which 7, 8 and 9 stood before."""
    try:
        answer, lists = parsed(file)
    except Refused as refused:
        answer, lists = refused.args, []
    for levels, before in zip((*lists, [], [], []), (7, 8, 9)):
        total = mixed(total, *levels, *[before] * (64 - len(levels)))
    return mixed(total, *answer)


def changes(file):
    """The file with every value at every place."""
    for at in range(len(file)):
        for value in range(256):
            yield file[:at] + bytes([value]) + file[at + 1 :]


def damaged(files):
    total = 0
    for file in files:
        for changed in changes(file):
            total = reading(total, changed)
        for size in range(len(file) + 1):
            total = reading(total, file[:size])
    return total


def longer(file):
    """The file, whose numbers have one byte each, with every number in five to eleven bytes: the lowest group is the old number's and the
    others are 0, or all are 127; but for the last, which is one of seven. For each the file with its number and the file's parts: before
    the number's last byte, with it, all."""
    for at in range(len(file)):
        for more in range(4, 11):
            for groups in (bytes([file[at] | 128]) + b"\x80" * (more - 1), b"\xff" * more):
                for last in (0, 1, 2, 13, 15, 16, 127):
                    front = file[:at] + groups
                    yield front, front + bytes([last]), front + bytes([last]) + file[at + 1 :]


def long():
    total = 0
    for parts in longer(THREES[0]):
        for part in parts:
            total = reading(total, part)
    return total


def coded():
    """The first file of version 2 with every three codes from 7 to 16."""
    total = 0
    for f in range(7, 17):
        for g in range(7, 17):
            for h in range(7, 17):
                total = reading(total, THREES[0][:2] + bytes([f, g, h]) + THREES[0][5:])
    return total


def entries():
    """Document 01's entries on files without the mark, and a version above 4294967295."""
    total = 0
    for size in (40, 41):
        total = reading(total, FILES[0][:17] + bytes([size]) + b"A" * size)
    return reading(reading(total, bytes.fromhex("82 00")), bytes.fromhex("FF FF FF FF 1F"))


def lists(most):
    """Degree, length and checksum of each list; up to degree 8, how many positions are found back: all of them."""
    for n in range(2, most + 1):
        pairs = coprime_pairs(n)
        total = 0
        for f, g in pairs:
            total = mixed(total, f, g)
        print(n, len(pairs), total, len(pairs) if n <= 8 else 0)


@cache
def kept_words(k):
    """The automaton's steps, and for each state and m up to k how many words of m letters lead from it to (1,0)."""
    step = {("10", 0): "01", ("10", 1): "11", ("11", 0): "11", ("11", 1): "01", ("01", 0): "10", ("01", 1): "10"}
    count = {(state, 0): int(state == "10") for state in ("10", "11", "01")}
    for m in range(1, k + 1):
        for state in ("10", "11", "01"):
            count[state, m] = count[step[state, 0], m - 1] + count[step[state, 1], m - 1]
    return step, count


@cache
def pair_at(n, position):
    """The pair at a position by counting choices one after the other: k, each degree, the bits, each letter."""
    k = 2
    while True:
        step, count = kept_words(k)
        block = comb(n - 1, k - 1) * 2 ** (n - k) * count["10", k]
        if position < block:
            break
        position, k = position - block, k + 1
    word_index, rest = position % count["10", k], position // count["10", k]
    bits, index = rest % 2 ** (n - k), rest // 2 ** (n - k)
    degrees, left = [], n
    for part in range(k, 1, -1):
        d = 1
        while index >= comb(left - d - 1, part - 2):
            index, d = index - comb(left - d - 1, part - 2), d + 1
        degrees.append(d)
        left -= d
    degrees.append(left)
    text = format(bits, "b").zfill(n - k) if n > k else ""
    r, s, state = {0}, set(), "10"
    for part, d in enumerate(degrees):
        zeros = count[step[state, 0], k - part - 1]
        letter = int(word_index >= zeros)
        word_index -= zeros * letter
        state = step[state, letter]
        middle, text = text[: d - 1], text[d - 1 :]
        r, s = times(exponents(int("1" + middle + str(letter), 2)), r) ^ s, r
    return code_of(r ^ s), code_of(r)


def chain_lengths():
    """Degree, a checksum of the chains' lengths, how many reach n + 1 and where the first of them stands. Up to degree 8 the whole list is
    looked through; above, with no checksum, the blocks before the last are counted and the last one's words. Degrees 0 and 32 get 1."""
    print("longest", 0, 0, 1)
    for n in range(1, 32):
        if n <= 8:
            lengths = [len(chain(f, g)[0]) for f, g in coprime_pairs(n)]
            reached = [j for j, length in enumerate(lengths) if length == n + 1]
            print("longest", n, mixed(0, *lengths), *([len(reached), reached[0]] if reached else ["none"]))
        else:
            words = kept_words(n)[1]
            print("longest", n, 0, words["10", n], sum(comb(n - 1, k - 1) * 2 ** (n - k) * words["10", k] for k in range(2, n)))
    print("longest", 32, 0, 1)


def unordered():
    """For each second list, made of the pairs of the list whose swap has not come before: degree, number of entries, and a checksum with the
    refusal behind its end. Then a checksum of the last entry of degree 31 and of what is refused: the entry behind it, 2^63 and 2^64 - 1;
    degrees 1, 0 and 32."""
    for n in range(2, 11):
        kept = {}
        for f, g in coprime_pairs(n):
            if (g, f) not in kept:
                kept[f, g] = True
        print("unordered", n, len(kept), mixed(0, *(code for pair in kept for code in pair), 2))
    print("unordered ends", mixed(0, *pair_at(31, 2 * (4**30 - 1) // 3 - 2), 2, 2, 2, 2, 1, 1))


@cache
def coprime_triples(n):
    """Every three odd codes of degree n of which each two are coprime; None at a degree that is refused."""
    if not 2 <= n <= 6:
        return None
    odd = range(2**n + 1, 2 ** (n + 1), 2)
    coprime = {(f, g) for f in odd for g in odd if chain(f, g)[1] == 1}
    return [(f, g, h) for f in odd for g in odd for h in odd if {(f, g), (f, h), (g, h)} <= coprime]


def triple_at(n, position):
    """The codes, or 12, or 255 for spent."""
    listed = coprime_triples(n)
    if listed is None:
        return (12,)
    return listed[position] if position < len(listed) else (255,)


def triples():
    """For each degree a checksum of its triples and of spent from their end up to position 11600, at 2^32 and at 2^64 - 1; degrees 1 and 7
    always get 12. Then all triples of degree 3, the last of the other degrees, and what is said behind them."""
    for n in range(1, 8):
        total = 0
        for position in (*range(11600), 2**32, 2**64 - 1):
            total = mixed(total, *triple_at(n, position))
        print("triples", n, total)
    lines = [(3, position) for position in range(13)] + [(1, 0), (2, 0), (4, 149), (4, 150), (5, 1379), (5, 1380)]
    lines += [(6, position) for position in (0, 11573, 11574, 2**32, 2**64 - 1)] + [(7, 0), (7, 2**64 - 1)]
    for n, position in lines:
        codes = triple_at(n, position)
        print("triple", n, position, *(["spent"] if codes == (255,) else codes))


def sheets3():
    """For each degree a checksum of the sheets of twelve triples spread over its list, or of 12 or 255 where there is none. Then one of what
    codes that make no sheet are refused by: their degree; the degree or constant term of f, of g, of h; any two that share a factor."""
    for n, step in zip(range(1, 8), (1, 1, 1, 13, 115, 964, 1)):
        total = 0
        for i in range(12):
            codes = triple_at(n, i * step)
            if len(codes) == 1:
                total = mixed(total, *codes)
                continue
            for row in range(2**n):
                for col in range(2**n):
                    total = mixed(total, *(symbol(n, code, row, col) for code in codes))
        print("sheet3", n, total)
    print("sheet3 refused", mixed(0, 12, 12, 6, 7, 6, 7, 6, 7, 8, 8, 8, 8))


def judged(order, sheet):
    """What is said of a sheet that was made elsewhere, in the words of request l: 0, or the number that it is turned away with."""
    if not 3 <= order <= 64:
        return 26
    if len(sheet) < 2 * order**2:
        return 4
    symbols = list(range(order))
    sites = list(zip(sheet[0 : 2 * order**2 : 2], sheet[1 : 2 * order**2 : 2]))
    if not set().union(*sites) <= set(symbols):
        return 27
    rows = [sites[start : start + order] for start in range(0, order**2, order)]
    lines = [*rows, *zip(*rows)]
    latin = all(sorted(run) == symbols for line in lines for run in zip(*line))
    return 0 if latin and len(set(sites)) == order**2 else 28


def laid(order, first, second):
    """The sheet of two squares in 8200 bytes, with 255 behind it."""
    sheet = [square(row, col) % order for row in range(order) for col in range(order) for square in (first, second)]
    return (sheet + [255] * 8200)[:8200]


def replaced(sheet, *changes):
    changed = list(sheet)
    for place, byte in changes:
        changed[place] = byte
    return changed


def examined(order, sheet):
    """The sheet with bytes behind it. Of the orders 1 to 64 also alone; one byte short; so with a byte that is no symbol; with no bytes.
    With a byte raised by one modulo the order, set to the order, set to 255: the last one, then some spread over the sheet. With bytes
    exchanged: two sites of a row, their second symbols, two sites of a column, two rows, the first symbols of two sites in two rows."""
    yield sheet
    if 1 <= order <= 64:
        size, row = 2 * order**2, 2 * order
        yield from (sheet[:size], sheet[: size - 1], [255, *sheet[1 : size - 1]], [])
        for place in (size - 1, *range(0, size, size // 14 * 2 + 1)):
            for byte in ((sheet[place] + 1) % order, order, 255):
                yield replaced(sheet, (place, byte))
        rows = [(at, row + at) for at in range(row)]
        for places in ([(0, 2), (1, 3)], [(1, 3)], rows[:2], rows, [(0, 2), (row, row + 2)]):
            yield replaced(sheet, *((at, sheet[other]) for two in places for at, other in (two, two[::-1])))


def seven(order):
    """Five squares, and two in which the last digits to the base 4 are added in the field of four elements, and the rest modulo a quarter
    of the order; in the second of them the columns are multiplied by 2 first, the digits in the field."""
    quarter = order // 4
    return [
        lambda i, j: i,
        lambda i, j: j,
        lambda i, j: i + j,
        lambda i, j: i + 2 * j,
        lambda i, j: 2 * i + j,
        lambda i, j: (i // 4 + j // 4) % quarter * 4 + (i ^ j) % 4,
        lambda i, j: (i // 4 + j // 4 * 2) % quarter * 4 + (i % 4 ^ (0, 2, 3, 1)[j % 4]),
    ]


def made():
    """For each order a checksum of what is said of the sheets of every two of five squares, and of one sheet with its changes. Then one of
    a sheet of order 5 as one of three orders above 64, and one of sheets that the library writes with the same changes."""
    for order in range(67):
        squares = seven(order)
        sheets = [laid(order, *two) for two in product(squares[:5], repeat=2)]
        sheets += examined(order, laid(order, *(squares[2:4] if order % 4 else squares[5:])))
        print("made", order, mixed(0, *(judged(order, sheet) for sheet in sheets)))
    five = laid(5, *seven(5)[2:4])
    print("made far", mixed(0, *(judged(order, five) for order in (2**8 + 5, 2**16 + 5, 2**32 - 2**8 + 5))))
    total = 0
    for n, *codes in PAIRS:
        whole = laid(2**n, *(lambda row, col, code=code: symbol(n, code, row, col) for code in codes))
        total = mixed(total, *(judged(2**n, sheet) for sheet in examined(2**n, whole)))
    print("made written", total)


def length(n):
    return 2 * (4 ** (n - 1) - 1) // 3


class Walk:
    """A mark is 0 or its position plus 1, as in saved walks. Degree 0 is the walk of a refusal."""

    def __init__(self, n=0, place=0, marks=(0,) * 8, counts=(0,) * 8):
        self.n, self.place, self.marks, self.counts = n, place, list(marks), list(counts)

    def next_pair(self):
        """0 and 0 at the end. Long lists are not made: there the pair is worked by counting."""
        if self.n == 0 or self.place == length(self.n):
            return 0, 0
        return coprime_pairs(self.n)[self.place] if self.n <= 8 else pair_at(self.n, self.place)

    def record(self):
        return self.n, self.place, *self.marks, *self.counts, *self.next_pair()

    def returns(self, mark):
        if mark == 8:
            return 18
        if self.marks[mark] == 0:
            return 19
        self.place = self.marks[mark] - 1
        return 0

    def sets(self, mark):
        if mark == 8:
            return 18
        self.marks[mark] = self.place + 1
        return 0

    def draws(self, bonder):
        if bonder == 8:
            return (20,)
        if self.place == length(self.n):
            return (255,)
        if self.counts[bonder] == 10**18:
            return (21,)
        pair = self.next_pair()
        self.place += 1
        self.counts[bonder] += 1
        return pair

    def calls(self, count):
        """What calls answer, each with the next pair after it. They draw for the bonders 0 to 8 in turn, but for every sixteenth, which sets
        one of the marks 0 to 8, and every 64th, which goes back to one."""
        for i in range(count):
            if self.n == 0:
                yield 3
            elif i % 64 == 45:
                yield self.returns(i // 64 % 9)
            elif i % 16 == 5:
                yield self.sets(i // 16 % 9)
            else:
                yield from self.draws(i % 9)
            yield from self.next_pair()


def walks():
    """For each degree a checksum of what a start and 3000 calls answer, each with the next pair after it, and of the position and the counts
    after all. Degrees 0 and 32 get 1 and then always 3."""
    for n in (*range(9), 32):
        walk = Walk(n if n < 32 else 0)
        total = mixed(0, 0 if walk.n else 1, *walk.next_pair(), *walk.calls(3000))
        print("walk", n, mixed(total, walk.place, *walk.counts))


def saved(walk):
    return b"".join(number_bytes(number) for number in (2, walk.n, walk.place, *walk.marks, *walk.counts))


def loaded(file):
    """The walk of a file of kind 1 or 2, in the words of request i."""
    kind, at = number_at(file, 0)
    must(kind in (1, 2), 22)
    numbers = []
    for place in range(2 if kind == 1 else 18):
        number, at = number_at(file, at)
        must(place < 10 or number <= 10**18, 23)
        numbers.append(number)
    must(at == len(file), 17)
    n, place, marks, counts = *numbers[:2], numbers[2:10] or [0] * 8, numbers[10:] or [0] * 8
    must(1 <= n <= 31 and place <= length(n) and max(marks) <= length(n) + 1, 3)
    return Walk(n, place, marks, counts)


def loading(total, file):
    """The checksum with the answer and the record, and the walk."""
    try:
        walk, answer = loaded(file), 0
    except Refused as refused:
        walk, answer = Walk(), *refused.args
    return mixed(total, answer, *walk.record()), walk


def saving(total, walk, good, rooms):
    """The checksum with what saving answers in each room, and its bytes after that, which were 170."""
    file = saved(walk)
    for room in rooms:
        written = file if good and len(file) <= room else b""
        total = mixed(total, len(written) if written else 4 if good else 3, *written, *[170] * (room - len(written)))
    return total


def old(n, place):
    return number_bytes(1) + number_bytes(n) + number_bytes(place)


def damaged_walks(file):
    """Every change of one byte, then every length up to 160, with bytes 170 behind the file."""
    total = 0
    for changed in changes(file):
        total = loading(total, changed)[0]
    for size in range(161):
        total = loading(total, (file + b"\xaa" * 160)[:size])[0]
    return total


SMALL = bytes([2, 4, 42, 0, 1, 21, 42, 43, 0, 7, 2, 0, 1, 2, 3, 64, 127, 5, 9])


def saves():
    """For each walk, which has made 100 calls from its place with counts of one to nine bytes: degree, the file's length, and checksums of
    160 bytes that held 170 and are written to, of the walk read back with 40 calls on it, and of damaged files. Then one of a small file
    with longer numbers, which also have a byte behind them; one of what saving says of records at the limits and above, in much room and
    in little, and one of a record with the least and the greatest numbers of one to nine bytes; for each degree one of files of kind 1 at
    ten places; and two of such files damaged."""
    for n, place in ((1, 0), (2, 0), (4, 20), (17, length(17) - 40), (31, 123456789012345678)):
        walk = Walk(n, place, [0] * 8, [0, 127, 128, 2**14 - 1, 2**32 - 1, 10**18 - 5, 10**18, 5])
        for _ in walk.calls(100):
            pass
        file = saved(walk)
        total, again = loading(0, file)
        total = mixed(mixed(total, *again.calls(40)), *again.record())
        print("saved", n, len(file), mixed(0, *file, *[170] * (160 - len(file))), total, damaged_walks(file))
    total = 0
    for parts in longer(SMALL):
        for part in (*parts, parts[-1] + b"\0"):
            total = loading(total, part)[0]
    print("saved long", total)
    total = 0
    for n, place, mark, count, good in (
        (0, 0, 0, 0, False),
        (32, 0, 0, 0, False),
        (4, 42, 43, 10**18, True),
        (5, 170, 127, 10**18, True),
        (5, 170, 171, 10**18, True),
        (5, 171, 171, 10**18, False),
        (5, 170, 172, 10**18, False),
        (5, 170, 171, 10**18 + 1, False),
    ):
        total = saving(total, Walk(n, place, [*range(7), mark], [*range(7, 14), count]), good, (160, 28, 27))
    ends = [number for groups in range(1, 9) for number in (128**groups - 1, 128**groups)]
    print("saved limits", total, saving(0, Walk(31, 0, ends[:8], ends[8:]), True, (160, 83, 82)))
    for n in range(33):
        total, end = 0, length(n) if 1 <= n <= 31 else 0
        places = 0, end // 9, end // 5, end // 3, end // 2, end - end // 3, end - end // 7, end - end % 7, end, end + 1
        for place in places:
            total, walk = loading(total, old(n, place))
            total = mixed(mixed(total, *walk.calls(10)), *walk.record())
        print("kind 1", n, total)
    print("kind 1 damaged", damaged_walks(old(4, 42)), damaged_walks(old(31, length(31))))


def spread():
    """A hundred positions spread over the list of degree 31, the last one, and the refusal behind it."""
    total, length = 0, 2 * (4**30 - 1) // 3
    for i in range(100):
        total = mixed(total, *pair_at(31, length // 100 * i + i))
    return mixed(total, *pair_at(31, length - 1), 2)


if __name__ == "__main__":
    print(arithmetic())
    print(chains())
    print(sites())
    print(sheets())
    lists(int(sys.argv[1]) if len(sys.argv) > 1 else 12)
    chain_lengths()
    unordered()
    triples()
    sheets3()
    made()
    walks()
    saves()
    print(spread(), 101)
    print(damaged(FILES))
    print(entries())
    print("version 2", damaged(THREES), coded())
    print("long", long())
