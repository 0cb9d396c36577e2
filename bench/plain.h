/*
 * The library's calls once more, in plain C written for speed: what a ratio of the benchmark is taken against. Each has the parameters and
 * the answers of the call of the same name in dinnowell.h. plain_tables fills the tables and is called once, before everything else.
 */
#ifndef PLAIN_H
#define PLAIN_H

#include "dinnowell.h"
#include <string.h>

/* Calls are kept as calls, as the library's are. */
#define PLAIN_CALL static __attribute__((noinline)) uint32_t

/* The states of the words, and where a letter leads from each. */
enum { PLAIN_10, PLAIN_11, PLAIN_01, PLAIN_STATES };
static const uint8_t plain_next[PLAIN_STATES][2] = {{PLAIN_01, PLAIN_11}, {PLAIN_11, PLAIN_01}, {PLAIN_10, PLAIN_10}};

static uint32_t plain_compositions[32][32];      /* of n into k parts */
static uint64_t plain_words[32][PLAIN_STATES];   /* words of so many letters that lead from a state to (1,0) */
static uint64_t plain_zeros[32][PLAIN_STATES];   /* of those with one letter more, how many begin with 0 */
static uint64_t plain_first[32][34];             /* by degree n and k: the position of the first pair of k quotients; n + 1: the length */
static uint32_t plain_coprimes[64];              /* by half a code of degree n, rounded down: bit k is 1 if 2^n + 2k + 1 is coprime to it */
static uint32_t plain_triples[64];               /* by the same half: triples that begin with the code */
static uint32_t plain_all_triples[7];            /* by degree: all triples */
static uint64_t plain_bits[64];                  /* by symbol: the set of it alone, a bit for each symbol */

/* Row m of the tables, from the row before it. */
static void plain_row(uint32_t m)
{
    plain_compositions[0][0] = 1;
    for (uint32_t k = 1; k <= m; k++)
        plain_compositions[m][k] = plain_compositions[m - 1][k - 1] + plain_compositions[m - 1][k];
    for (uint32_t s = 0; s < PLAIN_STATES; s++)
        plain_words[m][s] = m == 0 ? s == PLAIN_10 : plain_words[m - 1][plain_next[s][0]] + plain_words[m - 1][plain_next[s][1]];
    for (uint32_t s = 0; s < PLAIN_STATES; s++)
        plain_zeros[m][s] = plain_words[m][plain_next[s][0]];
    for (uint32_t k = 2; k <= m; k++)
        plain_first[m][k + 1] = plain_first[m][k] + ((plain_compositions[m][k] * plain_words[k][PLAIN_10]) << (m - k));
}

/* How many bits are 1, by sums of neighbours: plain x86-64 has no instruction for it, and the compiler would call a function. */
static inline uint32_t plain_ones(uint32_t bits)
{
    bits -= bits >> 1 & 0x55555555;
    bits = (bits & 0x33333333) + (bits >> 2 & 0x33333333);
    return ((bits + (bits >> 4)) & 0x0f0f0f0f) * 0x01010101 >> 24;
}

/* The degree of a code that is not 0. */
static inline uint32_t plain_degree(uint32_t code)
{
    return 31 - (uint32_t)__builtin_clz(code);
}

/* What a code of degree n is refused for. */
static inline uint32_t plain_code(uint32_t n, uint32_t code)
{
    return code >> n != 1 ? DW_REFUSED_CODE_DEGREE : code % 2 == 0 ? DW_REFUSED_CONSTANT_TERM : DW_SERVED;
}

/* The same for two. */
static inline uint32_t plain_codes(uint32_t n, uint32_t f, uint32_t g)
{
    uint32_t why = plain_code(n, f);
    return why != DW_SERVED ? why : plain_code(n, g);
}

/* The remainder of a by b, which is not 0, by shifts and leading zeros; the quotient goes to *quotient. */
static inline uint32_t plain_divide(uint32_t a, uint32_t b, uint32_t *quotient)
{
    uint32_t q = 0, d = plain_degree(b);
    while (a >= 1u << d) {
        uint32_t shift = plain_degree(a) - d;
        q |= 1u << shift;
        a ^= b << shift;
    }
    *quotient = q;
    return a;
}

/* Whether f and g have no common factor: Euclid's algorithm comes to the remainder 1. */
static inline int plain_coprime(uint32_t f, uint32_t g)
{
    while (g > 1) {
        uint32_t quotient, rest = plain_divide(f, g, &quotient);
        f = g;
        g = rest;
    }
    return g == 1;
}

/* The tables of triples at degree n, by Euclid's algorithm on every two codes. */
static void plain_triple_row(uint32_t n)
{
    uint32_t first = 1u << (n - 1);
    for (uint32_t f = first; f < 2 * first; f++)
        for (uint32_t g = first; g < 2 * first; g++)
            plain_coprimes[f] |= (uint32_t)plain_coprime(2 * f + 1, 2 * g + 1) << (g - first);
    for (uint32_t f = first; f < 2 * first; f++) {
        for (uint32_t left = plain_coprimes[f]; left != 0; left &= left - 1)
            plain_triples[f] += plain_ones(plain_coprimes[f] & plain_coprimes[first + (uint32_t)__builtin_ctz(left)]);
        plain_all_triples[n] += plain_triples[f];
    }
}

/* Fills the tables. */
static void plain_tables(void)
{
    for (uint32_t m = 0; m < 32; m++)
        plain_row(m);
    for (uint32_t n = 2; n < 7; n++)
        plain_triple_row(n);
    for (uint32_t symbol = 0; symbol < 64; symbol++)
        plain_bits[symbol] = UINT64_C(1) << symbol;
}

/* Euclid's quotients, and how many; the last divisor goes to *divisor. */
static inline size_t plain_quotients(uint32_t f, uint32_t g, uint32_t *quotients, uint32_t *divisor)
{
    size_t count = 0;
    while (g != 0) {
        uint32_t rest = plain_divide(f, g, &quotients[count++]);
        f = g;
        g = rest;
    }
    *divisor = f;
    return count;
}

PLAIN_CALL plain_chain(uint32_t n, uint32_t f, uint32_t g, uint32_t *quotients, size_t room, size_t *count, uint32_t *divisor)
{
    if (n < 1 || n > 31)
        return DW_REFUSED_DEGREE_RANGE;
    uint32_t why = plain_codes(n, f, g);
    if (why != DW_SERVED)
        return why;
    if (room < DW_CHAIN_ROOM)
        return DW_REFUSED_SLICE_LENGTH;
    *count = plain_quotients(f, g, quotients, divisor);
    return DW_SERVED;
}

/* The word of k letters at an index among the kept ones, letter 1 in the highest of k bits; with no branch on a letter. */
static inline uint32_t plain_word(uint32_t k, uint64_t index)
{
    uint32_t word = 0, state = PLAIN_10;
    while (k-- > 0) {
        uint64_t zeros = plain_zeros[k][state];
        uint32_t letter = index >= zeros;
        index -= zeros & -(uint64_t)letter;
        word = 2 * word + letter;
        state = plain_next[state][letter];
    }
    return word;
}

/* What a position stands for: the number k of quotients, the word, and the intermediate bits with the composition's index above them. */
typedef struct plain_place {
    uint32_t k, word;
    uint64_t bits;
} plain_place;

static inline plain_place plain_seek(uint32_t n, uint64_t position)
{
    uint32_t k = 2;
    while (plain_first[n][k + 1] <= position)
        k++;
    uint64_t rest = position - plain_first[n][k], words = plain_words[k][PLAIN_10];
    return (plain_place){k, plain_word(k, rest % words), rest / words};
}

/* The pair at a position below the length: one pass over the gaps between n ones. No branch on what a gap is, as none could be foreseen. */
static inline void plain_pair(uint32_t n, uint64_t position, uint32_t *f, uint32_t *g)
{
    plain_place place = plain_seek(n, position);
    uint32_t index = (uint32_t)(place.bits >> (n - place.k)), commas = place.k - 1, r = 1, s = 0, product = 1;
    for (uint32_t ones = n - 1; ones > 0; ones--) {
        uint32_t with_comma = plain_compositions[ones][commas];
        uint32_t comma = -(uint32_t)(index < with_comma);
        uint32_t bit = (comma & place.word >> commas) | (~comma & (uint32_t)(place.bits >> ((ones - 1 - commas) & 63)));
        product = product << 1 ^ (r & -(bit & 1)) ^ (s & comma);
        s ^= (s ^ r) & comma;
        r ^= (r ^ product) & comma;
        index -= with_comma & ~comma;
        commas += comma;
    }
    *g = product << 1 ^ (r & -(place.word & 1)) ^ s;
    *f = *g ^ r;
}

/* The same for positions that rise: neighbours have the same gaps, so that the branches are foreseen. */
static inline void plain_next_pair(uint32_t n, uint64_t position, uint32_t *f, uint32_t *g)
{
    plain_place place = plain_seek(n, position);
    uint32_t index = (uint32_t)(place.bits >> (n - place.k)), commas = place.k - 1, r = 1, s = 0, product = 1;
    for (uint32_t ones = n - 1; ones > 0; ones--) {
        uint32_t with_comma = plain_compositions[ones][commas];
        if (index < with_comma) {
            product = product << 1 ^ (r & -(place.word >> commas & 1)) ^ s;
            s = r;
            r = product;
            commas--;
        } else {
            product = product << 1 ^ (r & -(uint32_t)(place.bits >> (ones - 1 - commas) & 1));
            index -= with_comma;
        }
    }
    *g = product << 1 ^ (r & -(place.word & 1)) ^ s;
    *f = *g ^ r;
}

PLAIN_CALL plain_pair_at(uint32_t n, uint64_t position, uint32_t *f, uint32_t *g)
{
    if (n < 1 || n > 31)
        return DW_REFUSED_DEGREE_RANGE;
    if (position >= plain_first[n][n + 1])
        return DW_REFUSED_POSITION_RANGE;
    plain_pair(n, position, f, g);
    return DW_SERVED;
}

PLAIN_CALL plain_unordered_pair_at(uint32_t n, uint64_t entry, uint32_t *f, uint32_t *g)
{
    if (n < 1 || n > 31)
        return DW_REFUSED_DEGREE_RANGE;
    if (entry >= plain_first[n][n + 1] / 2)
        return DW_REFUSED_POSITION_RANGE;
    plain_pair(n, 2 * entry, f, g);
    return DW_SERVED;
}

/* Passes over all triples of one f after the other, then of one g after the other that is coprime to it, then over single ones. */
PLAIN_CALL plain_triple_at(uint32_t n, uint64_t position, uint32_t *f, uint32_t *g, uint32_t *h)
{
    if (n < 2 || n > 6)
        return DW_REFUSED_SHEET_DEGREE;
    if (position >= plain_all_triples[n])
        return DW_SPENT;
    uint32_t first = 1u << (n - 1), half = first, rest = (uint32_t)position;
    while (plain_triples[half] <= rest)
        rest -= plain_triples[half++];
    uint32_t row = plain_coprimes[half], left = row, other, common, count;
    for (;; left &= left - 1) {
        other = first + (uint32_t)__builtin_ctz(left);
        common = row & plain_coprimes[other];
        count = plain_ones(common);
        if (rest < count)
            break;
        rest -= count;
    }
    for (; rest > 0; rest--)
        common &= common - 1;
    *f = 2 * half + 1;
    *g = 2 * other + 1;
    *h = 2 * (first + (uint32_t)__builtin_ctz(common)) + 1;
    return DW_SERVED;
}

/* By the formula; two loads from tables take about as long. */
PLAIN_CALL plain_longest_chains(uint32_t n, uint64_t *count, uint64_t *first)
{
    if (n < 1 || n > 31)
        return DW_REFUSED_DEGREE_RANGE;
    uint64_t power = UINT64_C(1) << n, pairs = (n % 2 ? power - 2 : power + 2) / 3;
    *count = pairs;
    if (pairs > 0)
        *first = (power * power / 2 - 2) / 3 - pairs;
    return DW_SERVED;
}

/* The test of a record that every call on a walk makes. */
static int plain_bad_walk(const dw_walk *walk)
{
    uint32_t n = walk->degree;
    if (n < 1 || n > 31 || walk->position > plain_first[n][n + 1])
        return 1;
    int bad = 0;
    for (int i = 0; i < DW_MARKS; i++)
        bad |= walk->marks[i] > plain_first[n][n + 1] + 1;
    for (int i = 0; i < DW_BONDERS; i++)
        bad |= walk->counts[i] > DW_FULL_COUNT;
    return bad;
}

/* Draws meet positions that rise, so their next pair is worked with branches. */
static inline void plain_keep_rising(dw_walk *walk)
{
    walk->f = walk->g = 0;
    if (walk->position < plain_first[walk->degree][walk->degree + 1])
        plain_next_pair(walk->degree, walk->position, &walk->f, &walk->g);
}

/* A return leads anywhere, so its next pair is worked without. */
static inline void plain_keep_any(dw_walk *walk)
{
    walk->f = walk->g = 0;
    if (walk->position < plain_first[walk->degree][walk->degree + 1])
        plain_pair(walk->degree, walk->position, &walk->f, &walk->g);
}

/* The first pair of a list by its closed form. */
PLAIN_CALL plain_start(uint32_t n, dw_walk *walk)
{
    if (n < 1 || n > 31)
        return DW_REFUSED_DEGREE_RANGE;
    walk->degree = n;
    walk->position = 0;
    for (int i = 0; i < DW_MARKS; i++)
        walk->marks[i] = 0;
    for (int i = 0; i < DW_BONDERS; i++)
        walk->counts[i] = 0;
    walk->f = n > 1 ? (1u << n) + 3 : 0;
    walk->g = n > 1 ? (1u << n) + 1 : 0;
    return DW_SERVED;
}

PLAIN_CALL plain_look(const dw_walk *walk, uint32_t *f, uint32_t *g)
{
    uint32_t n = walk->degree;
    if (plain_bad_walk(walk))
        return DW_REFUSED_WALK_RECORD;
    if (walk->position == plain_first[n][n + 1])
        return DW_SPENT;
    *f = walk->f;
    *g = walk->g;
    return DW_SERVED;
}

PLAIN_CALL plain_draw(dw_walk *walk, uint32_t bonder, uint32_t *f, uint32_t *g)
{
    uint32_t n = walk->degree;
    if (plain_bad_walk(walk))
        return DW_REFUSED_WALK_RECORD;
    if (bonder >= DW_BONDERS)
        return DW_REFUSED_BONDER_RANGE;
    if (walk->position == plain_first[n][n + 1])
        return DW_SPENT;
    if (walk->counts[bonder] == DW_FULL_COUNT)
        return DW_REFUSED_BONDER_FULL;
    *f = walk->f;
    *g = walk->g;
    walk->position++;
    walk->counts[bonder]++;
    plain_keep_rising(walk);
    return DW_SERVED;
}

/* What refuses a call on a mark, whether it is empty or not. */
static inline uint32_t plain_checked_mark(const dw_walk *walk, uint32_t mark)
{
    return plain_bad_walk(walk) ? DW_REFUSED_WALK_RECORD : mark >= DW_MARKS ? DW_REFUSED_MARK_RANGE : DW_SERVED;
}

PLAIN_CALL plain_set_mark(dw_walk *walk, uint32_t mark)
{
    uint32_t status = plain_checked_mark(walk, mark);
    if (status == DW_SERVED)
        walk->marks[mark] = walk->position + 1;
    return status;
}

PLAIN_CALL plain_go_back(dw_walk *walk, uint32_t mark)
{
    uint32_t status = plain_checked_mark(walk, mark);
    if (status != DW_SERVED)
        return status;
    if (walk->marks[mark] == 0)
        return DW_REFUSED_MARK_EMPTY;
    walk->position = walk->marks[mark] - 1;
    plain_keep_any(walk);
    return DW_SERVED;
}

/* The position of k quotients, the last one first. A degree d passes over all compositions of the ones left with a smaller degree first. */
static inline uint64_t plain_rank(uint32_t n, uint32_t k, const uint32_t *quotients)
{
    uint64_t bits = 0, word = 0, composition = 0;
    uint32_t state = PLAIN_10, ones = n;
    for (uint32_t left = k; left-- > 0;) {
        uint32_t q = quotients[left], d = plain_degree(q), letter = q % 2;
        composition += plain_compositions[ones][left + 1] - plain_compositions[ones - d + 1][left + 1];
        ones -= d;
        bits = bits << (d - 1) | (q ^ 1u << d) >> 1;
        word += plain_zeros[left][state] & -(uint64_t)letter;
        state = plain_next[state][letter];
    }
    return plain_first[n][k] + (composition << (n - k) | bits) * plain_words[k][PLAIN_10] + word;
}

PLAIN_CALL plain_position_of(uint32_t n, uint32_t f, uint32_t g, uint64_t *position)
{
    uint32_t quotients[DW_CHAIN_ROOM], divisor;
    if (n < 1 || n > 31)
        return DW_REFUSED_DEGREE_RANGE;
    uint32_t why = plain_codes(n, f, g);
    if (why != DW_SERVED)
        return why;
    size_t count = plain_quotients(f, g, quotients, &divisor);
    if (divisor != 1)
        return DW_REFUSED_COMMON_FACTOR;
    *position = plain_rank(n, (uint32_t)count - 1, quotients + 1);
    return DW_SERVED;
}

/* A symbol is the middle of the product of its code with the line of cells: a sum of shifts, for both codes in one pass. */
PLAIN_CALL plain_site(uint32_t n, uint32_t f, uint32_t g, uint32_t row, uint32_t col, uint32_t *first, uint32_t *second)
{
    if (n < 1 || n > 31)
        return DW_REFUSED_DEGREE_RANGE;
    uint32_t why = plain_codes(n, f, g), of_f = 0, of_g = 0;
    if (why != DW_SERVED)
        return why;
    if ((row | col) >> n != 0)
        return DW_REFUSED_SITE_RANGE;
    uint64_t line = (uint64_t)row << n | col;
    for (uint32_t j = 0; j <= n; j++) {
        uint32_t cells = (uint32_t)(line >> (n - j));
        of_f ^= cells & -(f >> j & 1);
        of_g ^= cells & -(g >> j & 1);
    }
    *first = of_f & ((1u << n) - 1);
    *second = of_g & ((1u << n) - 1);
    return DW_SERVED;
}

/* What degree and codes of a sheet or a file are refused for. */
static inline uint32_t plain_head(uint32_t n, uint32_t f, uint32_t g)
{
    if (n < 2 || n > 6)
        return DW_REFUSED_SHEET_DEGREE;
    uint32_t why = plain_codes(n, f, g);
    return why != DW_SERVED ? why : !plain_coprime(f, g) ? DW_REFUSED_COMMON_FACTOR : DW_SERVED;
}

/* Whether each two of three odd codes of degree n have no common factor, by the table. */
static inline int plain_coprime3(uint32_t n, uint32_t f, uint32_t g, uint32_t h)
{
    uint32_t first = 1u << (n - 1), of_f = plain_coprimes[f / 2], of_g = plain_coprimes[g / 2];
    return of_f >> (g / 2 - first) & of_f >> (h / 2 - first) & of_g >> (h / 2 - first) & 1;
}

/* The same as plain_head for three codes. */
static inline uint32_t plain_head3(uint32_t n, uint32_t f, uint32_t g, uint32_t h)
{
    if (n < 2 || n > 6)
        return DW_REFUSED_SHEET_DEGREE;
    uint32_t why = plain_codes(n, f, g);
    if (why != DW_SERVED || (why = plain_code(n, h)) != DW_SERVED)
        return why;
    return !plain_coprime3(n, f, g, h) ? DW_REFUSED_COMMON_FACTOR : DW_SERVED;
}

/* Doubles a table of parts: behind the `count` that stand there, the same with `part` added. */
static inline void plain_double(uint16_t *parts, uint32_t count, uint32_t part)
{
    for (uint32_t i = 0; i < count; i++)
        parts[count + i] = (uint16_t)(parts[i] ^ part);
}

/* Both symbols, g's in the high byte, of each row in column 0 (down = 0) or of each column in row 0 (down = n). */
static inline void plain_parts(uint32_t n, uint32_t f, uint32_t g, uint32_t down, uint16_t *parts)
{
    uint32_t mask = (1u << n) - 1;
    parts[0] = 0;
    for (uint32_t bit = 0; bit < n; bit++)
        plain_double(parts, 1u << bit, (g << bit >> down & mask) << 8 | (f << bit >> down & mask));
}

/* One row of a sheet: the row's part added to each column's, four sites at once. */
static inline void plain_sheet_row(uint8_t *sites, uint32_t order, uint16_t row, const uint16_t *cols)
{
    for (uint32_t col = 0; col < order; col += 4) {
        uint64_t four;
        memcpy(&four, cols + col, 8);
        four ^= row * UINT64_C(0x0001000100010001);
        memcpy(sites + 2 * col, &four, 8);
    }
}

PLAIN_CALL plain_sheet(uint32_t n, uint32_t f, uint32_t g, uint8_t *sheet, size_t room)
{
    uint16_t rows[64], cols[64];
    uint32_t why = plain_head(n, f, g);
    if (why != DW_SERVED)
        return why;
    uint32_t order = 1u << n;
    if (room < 2 * order * order)
        return DW_REFUSED_SLICE_LENGTH;
    plain_parts(n, f, g, 0, rows);
    plain_parts(n, f, g, n, cols);
    for (uint32_t row = 0; row < order; row++)
        plain_sheet_row(sheet + 2 * order * row, order, rows[row], cols);
    return DW_SERVED;
}

/* Three symbols, h's in the third byte, of the row (down = 0) or column (down = n) in which one bit is 1. */
static inline uint32_t plain_part3(uint32_t n, uint32_t f, uint32_t g, uint32_t h, uint32_t bit, uint32_t down)
{
    uint32_t mask = (1u << n) - 1;
    return (h << bit >> down & mask) << 16 | (g << bit >> down & mask) << 8 | (f << bit >> down & mask);
}

static inline void plain_add(uint8_t *restrict to, const uint8_t *restrict from, const uint8_t *restrict added, size_t bytes)
{
    for (size_t i = 0; i < bytes; i++)
        to[i] = from[i] ^ added[i];
}

/* Doubles a sheet of three: behind the bytes that stand there, the same with `part` added to each site, 16 sites at once. */
static inline void plain_double3(uint8_t *sheet, size_t bytes, uint64_t part)
{
    const uint64_t words[3] = {part | part << 24 | part << 48, part >> 16 | part << 8 | part << 32 | part << 56,
                               part >> 8 | part << 16 | part << 40};
    uint8_t added[48];
    memcpy(added, words, 24);
    memcpy(added + 24, words, 24);
    if (bytes < 48)
        plain_add(sheet + bytes, sheet, added, bytes);
    else
        for (size_t at = 0; at < bytes; at += 48)
            plain_add(sheet + bytes + at, sheet + at, added, 48);
}

/* By doubling: site 0, then for each bit of the column the rest of row 0, then for each bit of the row the rows. */
PLAIN_CALL plain_sheet3(uint32_t n, uint32_t f, uint32_t g, uint32_t h, uint8_t *sheet, size_t room)
{
    uint32_t why = plain_head3(n, f, g, h);
    if (why != DW_SERVED)
        return why;
    if (room < (size_t)3 << 2 * n)
        return DW_REFUSED_SLICE_LENGTH;
    memset(sheet, 0, 3);
    for (uint32_t bit = 0; bit < n; bit++)
        plain_double3(sheet, (size_t)3 << bit, plain_part3(n, f, g, h, bit, n));
    for (uint32_t bit = 0; bit < n; bit++)
        plain_double3(sheet, (size_t)3 << (n + bit), plain_part3(n, f, g, h, bit, 0));
    return DW_SERVED;
}

/* Which symbols came: in each column, of the first square and of the second; and of the second beside each symbol of the first. */
typedef struct plain_sets {
    uint64_t cols[64][2], pairs[64];
} plain_sets;

/* Puts two rows into the sets, so that those of the columns are read and written once for both. Whether each row has all symbols. */
static inline int plain_two_rows(plain_sets *sets, const uint8_t *one, const uint8_t *other, size_t order, uint64_t all)
{
    uint64_t rows[2][2] = {{0, 0}, {0, 0}};
    for (size_t col = 0; col < order; col++, one += 2, other += 2) {
        const uint64_t a[2] = {plain_bits[one[0]], plain_bits[one[1]]}, b[2] = {plain_bits[other[0]], plain_bits[other[1]]};
        for (int square = 0; square < 2; square++) {
            rows[0][square] |= a[square];
            rows[1][square] |= b[square];
            sets->cols[col][square] |= a[square] | b[square];
        }
        sets->pairs[one[0]] |= a[1];
        sets->pairs[other[0]] |= b[1];
    }
    return (rows[0][0] & rows[0][1] & rows[1][0] & rows[1][1]) == all;
}

/* Whether all bytes are below a limit, by the highest, which the compiler takes of 16 at once. */
static inline int plain_below(const uint8_t *bytes, size_t count, uint32_t limit)
{
    uint8_t most = 0;
    for (size_t i = 0; i < count; i++)
        most = bytes[i] > most ? bytes[i] : most;
    return most < limit;
}

/* Of an odd order the last row is put into the sets twice, which they do not show. */
PLAIN_CALL plain_check_sheet(uint32_t order, const uint8_t *sheet, size_t length)
{
    size_t n = order;
    plain_sets sets = {0};
    if (n < 3 || n > 64)
        return DW_REFUSED_ORDER_RANGE;
    if (length < 2 * n * n)
        return DW_REFUSED_SLICE_LENGTH;
    if (!plain_below(sheet, 2 * n * n, order))
        return DW_REFUSED_SYMBOL_RANGE;
    uint64_t all = UINT64_MAX >> (64 - n), common = all;
    for (size_t row = 0; row < n; row += 2)
        if (!plain_two_rows(&sets, sheet + 2 * n * row, sheet + 2 * n * (row + 1 < n ? row + 1 : row), n, all))
            return DW_REFUSED_NOT_GRAECO_LATIN;
    for (size_t i = 0; i < n; i++)
        common &= sets.cols[i][0] & sets.cols[i][1] & sets.pairs[i];
    return common != all ? DW_REFUSED_NOT_GRAECO_LATIN : DW_SERVED;
}

/* The number at *at, which moves behind it. Of a tenth byte one bit is left, so it stands apart. */
static inline uint32_t plain_number(const uint8_t **at, const uint8_t *end, uint64_t *number)
{
    uint64_t sum = 0;
    for (int shift = 0; shift < 63; shift += 7) {
        if (*at == end)
            return DW_REFUSED_FILE_ENDS;
        uint8_t byte = *(*at)++;
        sum |= (uint64_t)(byte & 127) << shift;
        if (byte < 128) {
            *number = sum;
            return byte == 0 && shift > 0 ? DW_REFUSED_NUMBER_FORM : DW_SERVED;
        }
    }
    if (*at == end)
        return DW_REFUSED_FILE_ENDS;
    *number = sum | UINT64_C(1) << 63;
    return *(*at)++ != 1 ? DW_REFUSED_NUMBER_FORM : DW_SERVED;
}

/* One code of degree n. */
static inline uint32_t plain_read_code(const uint8_t **at, const uint8_t *end, uint32_t n, uint32_t *code)
{
    uint64_t number;
    uint32_t why = plain_number(at, end, &number);
    if (why != DW_SERVED)
        return why;
    *code = (uint32_t)number;
    return number > UINT32_MAX ? DW_REFUSED_CODE_DEGREE : plain_code(n, *code);
}

/* The fields before the levels; version 1 has two codes. */
static inline uint32_t plain_read_head(const uint8_t **at, const uint8_t *end, uint32_t *version, uint32_t *n, uint32_t *codes)
{
    uint64_t number;
    uint32_t why;
    if ((why = plain_number(at, end, &number)) != DW_SERVED)
        return why;
    if (number != 1 && number != 2)
        return DW_REFUSED_VERSION;
    *version = (uint32_t)number;
    if ((why = plain_number(at, end, &number)) != DW_SERVED)
        return why;
    if (number < 2 || number > 6)
        return DW_REFUSED_SHEET_DEGREE;
    *n = (uint32_t)number;
    for (uint32_t i = 0; i <= *version; i++)
        if ((why = plain_read_code(at, end, *n, &codes[i])) != DW_SERVED)
            return why;
    int coprime = *version == 1 ? plain_coprime(codes[0], codes[1]) : plain_coprime3(*n, codes[0], codes[1], codes[2]);
    return !coprime ? DW_REFUSED_COMMON_FACTOR : DW_SERVED;
}

/* Whether levels rise strictly. */
static inline int plain_rising(const uint16_t *levels, size_t count)
{
    uint32_t wrong = 0;
    for (size_t i = 1; i < count; i++)
        wrong |= levels[i] <= levels[i - 1];
    return !wrong;
}

/* Whether a level is one of those given. */
static inline int plain_among(const uint16_t *levels, size_t count, uint16_t level)
{
    uint32_t found = 0;
    for (size_t i = 0; i < count; i++)
        found |= levels[i] == level;
    return found != 0;
}

/* Whether no level comes twice. A level is looked for only if an earlier one has the same remainder by 1024. */
static inline int plain_distinct(const uint16_t *levels, size_t count)
{
    if (plain_rising(levels, count))
        return 1;
    uint8_t seen[1024] = {0};
    for (size_t i = 0; i < count; i++) {
        if (seen[levels[i] % 1024] && plain_among(levels, i, levels[i]))
            return 0;
        seen[levels[i] % 1024] = 1;
    }
    return 1;
}

/* One list of levels. A level that comes twice is refused before what stopped the reading behind it. */
static inline uint32_t plain_read_levels(const uint8_t **at, const uint8_t *end, uint32_t count, uint16_t *levels)
{
    uint32_t i, why = DW_SERVED;
    for (i = 0; i < count; i++) {
        uint64_t level;
        if ((why = plain_number(at, end, &level)) != DW_SERVED)
            break;
        if (level > 65535) {
            why = DW_REFUSED_LEVEL_RANGE;
            break;
        }
        levels[i] = (uint16_t)level;
    }
    return !plain_distinct(levels, i) ? DW_REFUSED_LEVEL_REPEATED : why;
}

/* Whether all bytes are from 32 to 126. */
static inline int plain_printable(const uint8_t *bytes, size_t size)
{
    uint32_t wrong = 0;
    for (size_t i = 0; i < size; i++)
        wrong |= (uint8_t)(bytes[i] - 32) > 94;
    return !wrong;
}

/* The name's length; the name stands from *at to the end. */
static inline uint32_t plain_read_name(const uint8_t **at, const uint8_t *end, uint64_t *size)
{
    uint32_t why = plain_number(at, end, size);
    if (why != DW_SERVED)
        return why;
    if (*size > 40)
        return DW_REFUSED_NAME_LENGTH;
    if ((size_t)(end - *at) < *size)
        return DW_REFUSED_FILE_ENDS;
    if (!plain_printable(*at, *size))
        return DW_REFUSED_NAME_BYTE;
    return (size_t)(end - *at) > *size ? DW_REFUSED_TRAILING_BYTES : DW_SERVED;
}

/* The levels are kept aside until the whole file is found right. */
PLAIN_CALL plain_read(const uint8_t *file, size_t length, uint16_t *powers, size_t powers_room, uint16_t *forces, size_t forces_room,
                      uint16_t *times, size_t times_room, uint32_t *degree, uint32_t *f, uint32_t *g, size_t *name_offset,
                      size_t *name_length, uint32_t *version, uint32_t *h)
{
    const uint8_t *at = file, *end = file + length;
    uint16_t levels[3][DW_LEVELS_ROOM];
    uint32_t v, n, codes[3], why;
    uint64_t size;
    if (powers_room < DW_LEVELS_ROOM || forces_room < DW_LEVELS_ROOM || times_room < DW_LEVELS_ROOM)
        return DW_REFUSED_SLICE_LENGTH;
    if ((why = plain_read_head(&at, end, &v, &n, codes)) != DW_SERVED)
        return why;
    for (uint32_t list = 0; list <= v; list++)
        if ((why = plain_read_levels(&at, end, 1u << n, levels[list])) != DW_SERVED)
            return why;
    if ((why = plain_read_name(&at, end, &size)) != DW_SERVED)
        return why;
    memcpy(powers, levels[0], sizeof(uint16_t) << n);
    memcpy(forces, levels[1], sizeof(uint16_t) << n);
    if (v == 2) {
        memcpy(times, levels[2], sizeof(uint16_t) << n);
        *h = codes[2];
    }
    *degree = n;
    *f = codes[0];
    *g = codes[1];
    *name_offset = (size_t)(at - file);
    *name_length = size;
    *version = v;
    return DW_SERVED;
}

/* Puts the bytes of a number, and gives the place behind them. */
static inline uint8_t *plain_put(uint8_t *at, uint64_t number)
{
    for (; number >= 128; number >>= 7)
        *at++ = (uint8_t)(number | 128);
    *at++ = (uint8_t)number;
    return at;
}

/* The same for a list of levels. */
static inline uint8_t *plain_put_levels(uint8_t *at, const uint16_t *levels, size_t count)
{
    for (size_t i = 0; i < count; i++)
        at = plain_put(at, levels[i]);
    return at;
}

/* The file is made aside, where the longest has room, and copied if it fits. */
PLAIN_CALL plain_write(uint32_t version, uint32_t n, uint32_t f, uint32_t g, uint32_t h, const uint16_t *powers, size_t powers_count,
                       const uint16_t *forces, size_t forces_count, const uint16_t *times, size_t times_count, const uint8_t *name,
                       size_t name_length, uint8_t *file, size_t room, size_t *length)
{
    uint8_t made[5 + 3 * 64 * 3 + 1 + 40], *at = made;
    if (version != 1 && version != 2)
        return DW_REFUSED_VERSION;
    int third = version == 2;
    uint32_t why = third ? plain_head3(n, f, g, h) : plain_head(n, f, g);
    if (why != DW_SERVED)
        return why;
    if (powers_count != (size_t)1 << n || forces_count != (size_t)1 << n || (third && times_count != (size_t)1 << n))
        return DW_REFUSED_SLICE_LENGTH;
    if (!plain_distinct(powers, powers_count) || !plain_distinct(forces, forces_count) || (third && !plain_distinct(times, times_count)))
        return DW_REFUSED_LEVEL_REPEATED;
    if (name_length > 40)
        return DW_REFUSED_NAME_LENGTH;
    if (!plain_printable(name, name_length))
        return DW_REFUSED_NAME_BYTE;
    at = plain_put(plain_put(plain_put(plain_put(at, version), n), f), g);
    at = third ? plain_put(at, h) : at;
    at = plain_put_levels(plain_put_levels(at, powers, powers_count), forces, forces_count);
    at = third ? plain_put_levels(at, times, times_count) : at;
    at = plain_put(at, (uint32_t)name_length);
    memcpy(at, name, name_length);
    at += name_length;
    if ((size_t)(at - made) > room)
        return DW_REFUSED_SLICE_LENGTH;
    memcpy(file, made, (size_t)(at - made));
    *length = (size_t)(at - made);
    return DW_SERVED;
}

/* The file is made in place, where the longest has room; else aside, and copied if it fits. */
PLAIN_CALL plain_save(const dw_walk *walk, uint8_t *out, size_t room, size_t *size)
{
    uint8_t made[DW_SAVED_ROOM], *to = room < DW_SAVED_ROOM ? made : out;
    if (plain_bad_walk(walk))
        return DW_REFUSED_WALK_RECORD;
    uint8_t *at = plain_put(plain_put(plain_put(to, 2), walk->degree), walk->position);
    for (int i = 0; i < DW_MARKS; i++)
        at = plain_put(at, walk->marks[i]);
    for (int i = 0; i < DW_BONDERS; i++)
        at = plain_put(at, walk->counts[i]);
    size_t length = (size_t)(at - to);
    if (length > room)
        return DW_REFUSED_SLICE_LENGTH;
    if (to == made)
        memcpy(out, made, length);
    *size = length;
    return DW_SERVED;
}

/* The marks and counts of kind 2. */
static inline uint32_t plain_load_rest(const uint8_t **at, const uint8_t *end, dw_walk *walk)
{
    uint32_t why;
    for (int i = 0; i < DW_MARKS; i++)
        if ((why = plain_number(at, end, &walk->marks[i])) != DW_SERVED)
            return why;
    for (int i = 0; i < DW_BONDERS; i++) {
        if ((why = plain_number(at, end, &walk->counts[i])) != DW_SERVED)
            return why;
        if (walk->counts[i] > DW_FULL_COUNT)
            return DW_REFUSED_COUNT_RANGE;
    }
    return DW_SERVED;
}

/* The record of a file, but for its next pair. */
static inline uint32_t plain_load_record(const uint8_t *file, size_t length, dw_walk *made)
{
    const uint8_t *at = file, *end = file + length;
    uint64_t kind, n;
    uint32_t why;
    if ((why = plain_number(&at, end, &kind)) != DW_SERVED)
        return why;
    if (kind != 1 && kind != 2)
        return DW_REFUSED_SAVED_KIND;
    if ((why = plain_number(&at, end, &n)) != DW_SERVED || (why = plain_number(&at, end, &made->position)) != DW_SERVED)
        return why;
    if (kind == 2 && (why = plain_load_rest(&at, end, made)) != DW_SERVED)
        return why;
    if (at != end)
        return DW_REFUSED_TRAILING_BYTES;
    made->degree = n > 31 ? 0 : (uint32_t)n;
    return plain_bad_walk(made) ? DW_REFUSED_WALK_RECORD : DW_SERVED;
}

/* A file is read with its next pair worked as a return works it; and, for positions that rise, as a draw does. */
PLAIN_CALL plain_load(const uint8_t *file, size_t length, dw_walk *walk)
{
    dw_walk made = {0};
    uint32_t why = plain_load_record(file, length, &made);
    if (why != DW_SERVED)
        return why;
    plain_keep_any(&made);
    *walk = made;
    return DW_SERVED;
}

PLAIN_CALL plain_load_rising(const uint8_t *file, size_t length, dw_walk *walk)
{
    dw_walk made = {0};
    uint32_t why = plain_load_record(file, length, &made);
    if (why != DW_SERVED)
        return why;
    plain_keep_rising(&made);
    *walk = made;
    return DW_SERVED;
}

#endif
