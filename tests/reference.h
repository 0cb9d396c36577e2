/* Documents 01 and 02, as far as 02 has landed, written once more for the test, sharing nothing with the library: slow and plain. */
#ifndef REFERENCE_H
#define REFERENCE_H

#include <stddef.h>
#include <stdint.h>
#include <string.h>

static int ref_degree(uint64_t code)
{
    int d = -1;
    for (; code != 0; code >>= 1)
        d++;
    return d;
}

/* The quotient of a by b; *rest is the remainder. */
static uint32_t ref_divide(uint32_t a, uint32_t b, uint32_t *rest)
{
    uint32_t q = 0;
    while (ref_degree(a) >= ref_degree(b)) {
        int shift = ref_degree(a) - ref_degree(b);
        q |= 1u << shift;
        a ^= b << shift;
    }
    *rest = a;
    return q;
}

/* How many quotients there are; they go to out, the greatest common divisor to *divisor. */
static size_t ref_chain(uint32_t f, uint32_t g, uint32_t *out, uint32_t *divisor)
{
    size_t count = 0;
    while (g != 0) {
        uint32_t rest;
        out[count++] = ref_divide(f, g, &rest);
        f = g;
        g = rest;
    }
    *divisor = f;
    return count;
}

static uint64_t ref_length(uint32_t n)
{
    return 2 * ((UINT64_C(1) << (2 * (n - 1))) - 1) / 3;
}

static uint32_t ref_code(uint32_t n, uint64_t code)
{
    return ref_degree(code) != (int)n ? 6 : code % 2 == 0 ? 7 : 0;
}

static uint32_t ref_codes(uint32_t n, uint32_t f, uint32_t g)
{
    uint32_t first = ref_code(n, f);
    return first != 0 ? first : ref_code(n, g);
}

static uint32_t ref_coprime(uint32_t n, uint32_t f, uint32_t g)
{
    uint32_t codes = ref_codes(n, f, g), quotients[64], divisor;
    if (codes != 0)
        return codes;
    ref_chain(f, g, quotients, &divisor);
    return divisor != 1 ? 8 : 0;
}

/* How many words of k letters lead from a state, written as its two bits, to (1,0). */
static uint64_t ref_words(uint32_t k, uint32_t state)
{
    if (k == 0)
        return state == 2;
    if (state == 2)
        return ref_words(k - 1, 1) + ref_words(k - 1, 3);
    if (state == 3)
        return ref_words(k - 1, 3) + ref_words(k - 1, 1);
    return 2 * ref_words(k - 1, 2);
}

static uint32_t ref_next(uint32_t state, uint32_t letter)
{
    if (state == 1)
        return 2;
    return (state == 2) == (letter == 0) ? 1 : 3;
}

static uint64_t ref_choose(uint32_t n, uint32_t k)
{
    uint64_t c = 1;
    for (uint32_t i = 0; i < k; i++)
        c = c * (n - i) / (i + 1);
    return k > n ? 0 : c;
}

/* The word at an index among the kept ones, letter 1 in the highest of k bits. */
static uint32_t ref_word(uint32_t k, uint64_t index, const uint64_t counts[32][4])
{
    uint32_t word = 0, state = 2;
    for (uint32_t left = k; left > 0; left--) {
        uint64_t zeros = counts[left - 1][ref_next(state, 0)];
        uint32_t letter = index >= zeros;
        index -= letter ? zeros : 0;
        word = 2 * word + letter;
        state = ref_next(state, letter);
    }
    return word;
}

/* The degrees of the composition of n into k parts at an index. */
static void ref_composition(uint32_t n, uint32_t k, uint64_t index, uint32_t *degrees)
{
    for (uint32_t i = 0; i < k; i++) {
        uint32_t d = 1, parts = k - i - 1;
        for (; parts > 0; d++) {
            uint64_t count = n < d + 1 ? 0 : ref_choose(n - d - 1, parts - 1);
            if (index < count)
                break;
            index -= count;
        }
        degrees[i] = parts > 0 ? d : n;
        n -= degrees[i];
    }
}

static uint64_t ref_times(uint64_t a, uint64_t b)
{
    uint64_t sum = 0;
    for (; b != 0; b >>= 1, a <<= 1)
        sum ^= b & 1 ? a : 0;
    return sum;
}

static void ref_pair(uint32_t n, uint64_t position, uint32_t *f, uint32_t *g)
{
    static uint64_t counts[32][4];
    for (uint32_t k = counts[0][2] ? 32 : 0; k < 32; k++)
        for (uint32_t state = 1; state < 4; state++)
            counts[k][state] = k < 12 ? ref_words(k, state)
                                      : counts[k - 1][ref_next(state, 0)] + counts[k - 1][ref_next(state, 1)];
    uint32_t k = 2;
    uint64_t size;
    while ((size = (ref_choose(n - 1, k - 1) * counts[k][2]) << (n - k)) <= position) {
        position -= size;
        k++;
    }
    uint32_t degrees[32], word = ref_word(k, position % counts[k][2], counts), left = n - k;
    uint64_t bits = position / counts[k][2] % (UINT64_C(1) << (n - k));
    ref_composition(n, k, position / counts[k][2] >> (n - k), degrees);
    uint64_t r = 1, s = 0;
    for (uint32_t i = 0; i < k; i++) {
        left -= degrees[i] - 1;
        uint64_t middle = (bits >> left) % (UINT64_C(1) << (degrees[i] - 1));
        uint64_t quotient = (UINT64_C(1) << degrees[i]) + 2 * middle + (word >> (k - 1 - i)) % 2;
        uint64_t next = ref_times(quotient, r) ^ s;
        s = r;
        r = next;
    }
    *f = (uint32_t)(r ^ s);
    *g = (uint32_t)r;
}

/* The first position of the list whose pair has n + 1 quotients, or the list's length: no chain is shorter than one before it. */
static uint64_t ref_longest(uint32_t n)
{
    uint64_t low = 0, high = ref_length(n);
    while (low < high) {
        uint64_t middle = (low + high) / 2;
        uint32_t f, g, quotients[64], divisor;
        ref_pair(n, middle, &f, &g);
        if (ref_chain(f, g, quotients, &divisor) == n + 1)
            high = middle;
        else
            low = middle + 1;
    }
    return low;
}

/* The triple at a position of its list, or the number of a refusal, or 255 for spent. The lists are made once: every three odd codes of a
 * degree are tried, h fastest. */
static uint32_t ref_triple(uint32_t n, uint64_t position, uint32_t codes[3])
{
    static uint32_t listed[7][1 << 15][3], counts[7];
    for (uint32_t m = counts[6] ? 7 : 2; m < 7; m++)
        for (uint32_t f = (1u << m) + 1; f < 2u << m; f += 2)
            for (uint32_t g = (1u << m) + 1; g < 2u << m; g += 2)
                for (uint32_t h = (1u << m) + 1; h < 2u << m; h += 2)
                    if (ref_coprime(m, f, g) == 0 && ref_coprime(m, f, h) == 0 && ref_coprime(m, g, h) == 0) {
                        uint32_t *next = listed[m][counts[m]++];
                        next[0] = f;
                        next[1] = g;
                        next[2] = h;
                    }
    if (n < 2 || n > 6)
        return 12;
    if (position >= counts[n])
        return 255;
    memcpy(codes, listed[n][position], sizeof listed[n][position]);
    return 0;
}

static uint32_t ref_symbol(uint32_t n, uint32_t code, uint32_t row, uint32_t col)
{
    uint32_t cells[64], symbol = 0;
    for (uint32_t i = 0; i < n; i++) {
        cells[i] = row >> (n - 1 - i) & 1;
        cells[n + i] = col >> (n - 1 - i) & 1;
    }
    for (uint32_t i = 0; i < n; i++) {
        uint32_t ones = 0;
        for (uint32_t j = 0; j <= n; j++)
            ones += (code >> j & 1) * cells[i + j];
        symbol = 2 * symbol + ones % 2;
    }
    return symbol;
}

/* What several codes are refused for: the degree and the constant term of one after the other, then a common factor of any two. */
static uint32_t ref_pairwise(uint32_t n, const uint32_t *codes, int many)
{
    uint32_t why = 0, quotients[64], divisor;
    for (int i = 0; i < many && why == 0; i++)
        why = ref_code(n, codes[i]);
    for (int i = 0; i < many; i++)
        for (int k = 0; k < i && why == 0; k++) {
            ref_chain(codes[k], codes[i], quotients, &divisor);
            why = divisor != 1 ? 8 : 0;
        }
    return why;
}

/* The sheet of several codes; gives how many bytes it has. */
static size_t ref_sheet(uint32_t n, const uint32_t *codes, int many, uint8_t *sheet)
{
    size_t put = 0;
    for (uint32_t row = 0; row < 1u << n; row++)
        for (uint32_t col = 0; col < 1u << n; col++)
            for (int i = 0; i < many; i++)
                sheet[put++] = (uint8_t)ref_symbol(n, codes[i], row, col);
    return put;
}

/* In which of five ways a sheet of symbols below its order fails, as bits: rows of the first square, rows of the second, columns of the
 * first, columns of the second, pairs. Everything that should come once is counted. */
static uint32_t ref_faults(uint32_t order, const uint8_t *sheet)
{
    static uint32_t counts[5][64][64];
    uint32_t faults = 0;
    for (int way = 0; way < 5; way++)
        for (uint32_t i = 0; i < order; i++)
            memset(counts[way][i], 0, order * sizeof counts[way][i][0]);
    for (uint32_t row = 0; row < order; row++)
        for (uint32_t col = 0; col < order; col++) {
            uint32_t first = *sheet++, second = *sheet++;
            counts[0][row][first]++;
            counts[1][row][second]++;
            counts[2][col][first]++;
            counts[3][col][second]++;
            counts[4][first][second]++;
        }
    for (int way = 0; way < 5; way++)
        for (uint32_t i = 0; i < order; i++)
            for (uint32_t k = 0; k < order; k++)
                faults |= counts[way][i][k] != 1 ? 1u << way : 0;
    return faults;
}

static uint32_t ref_check_sheet(uint32_t order, const uint8_t *sheet, size_t length)
{
    if (order < 3 || order > 64)
        return 26;
    if (length < 2 * order * order)
        return 4;
    for (uint32_t i = 0; i < 2 * order * order; i++)
        if (sheet[i] >= order)
            return 27;
    return ref_faults(order, sheet) != 0 ? 28 : 0;
}

/* A file's content; the name is a part of the file. */
typedef struct ref_trial {
    uint32_t version, n, codes[3];
    uint16_t levels[3][64];
    size_t name, size;
} ref_trial;

/* How many codes a trial has, and how many lists. */
static int ref_settings(uint32_t version)
{
    return version == 1 ? 2 : 3;
}

/* A number in groups of seven bits, the lowest first, and *at behind it. Its bytes are counted before anything is said of its value. */
static uint32_t ref_number(const uint8_t *file, size_t length, size_t *at, uint64_t *number)
{
    const uint8_t *bytes = file + *at;
    size_t left = length - *at, size = 0;
    do {
        if (size == 10)
            return 10;
        if (size == left)
            return 9;
    } while (bytes[size++] >= 128);
    uint64_t sum = 0;
    for (size_t i = size; i > 0; i--) {
        uint64_t group = bytes[i - 1] % 128;
        if (sum > (UINT64_MAX - group) / 128)
            return 10;
        sum = 128 * sum + group;
    }
    *at += size;
    *number = sum;
    return size > 1 && bytes[size - 1] == 0 ? 10 : 0;
}

/* Whether the level at a place is equal to an earlier one. */
static int ref_repeated(const uint16_t *levels, size_t place)
{
    for (size_t i = 0; i < place; i++)
        if (levels[i] == levels[place])
            return 1;
    return 0;
}

static uint32_t ref_levels(const uint8_t *file, size_t length, size_t *at, uint32_t count, uint16_t *levels)
{
    for (uint32_t i = 0; i < count; i++) {
        uint64_t level;
        uint32_t form = ref_number(file, length, at, &level);
        if (form != 0)
            return form;
        if (level > 65535)
            return 13;
        levels[i] = (uint16_t)level;
        if (ref_repeated(levels, i))
            return 14;
    }
    return 0;
}

/* A number is narrowed only where its field has room for it. */
static uint32_t ref_head(const uint8_t *file, size_t length, size_t *at, ref_trial *t)
{
    uint64_t number;
    uint32_t why;
    if ((why = ref_number(file, length, at, &number)) != 0)
        return why;
    if (number != 1 && number != 2)
        return 11;
    t->version = (uint32_t)number;
    if ((why = ref_number(file, length, at, &number)) != 0)
        return why;
    if (number < 2 || number > 6)
        return 12;
    t->n = (uint32_t)number;
    for (int i = 0; i < ref_settings(t->version); i++) {
        if ((why = ref_number(file, length, at, &number)) != 0 || (why = ref_code(t->n, number)) != 0)
            return why;
        t->codes[i] = (uint32_t)number;
    }
    return ref_pairwise(t->n, t->codes, ref_settings(t->version));
}

static uint32_t ref_printable(const uint8_t *name, size_t size)
{
    for (size_t i = 0; i < size; i++)
        if (name[i] < 32 || name[i] > 126)
            return 0;
    return 1;
}

static uint32_t ref_read(const uint8_t *file, size_t length, ref_trial *t)
{
    size_t at = 0;
    uint64_t size;
    uint32_t why = ref_head(file, length, &at, t);
    for (int i = 0; why == 0 && i < ref_settings(t->version); i++)
        why = ref_levels(file, length, &at, 1u << t->n, t->levels[i]);
    if (why != 0 || (why = ref_number(file, length, &at, &size)) != 0)
        return why;
    if (size > 40)
        return 15;
    if (length - at < size)
        return 9;
    t->name = at;
    t->size = size;
    if (!ref_printable(file + at, size))
        return 16;
    return at + size < length ? 17 : 0;
}

static size_t ref_put(uint8_t *out, size_t at, uint64_t number)
{
    for (; number >= 128; number /= 128)
        out[at++] = (uint8_t)(number % 128 + 128);
    out[at++] = (uint8_t)number;
    return at;
}

/* The bytes of a content, as they stand, right or wrong. */
static size_t ref_encode(const ref_trial *t, const uint8_t *name, const size_t *counts, uint8_t *out)
{
    size_t at = ref_put(out, ref_put(out, 0, t->version), t->n);
    for (int i = 0; i < ref_settings(t->version); i++)
        at = ref_put(out, at, t->codes[i]);
    for (int list = 0; list < ref_settings(t->version); list++)
        for (size_t i = 0; i < counts[list]; i++)
            at = ref_put(out, at, t->levels[list][i]);
    at = ref_put(out, at, t->size);
    memcpy(out + at, name, t->size);
    return at + t->size;
}

/* What the writer refuses a content for, but for the room. */
static uint32_t ref_content(const ref_trial *t, const uint8_t *name, const size_t *counts)
{
    if (t->version != 1 && t->version != 2)
        return 11;
    if (t->n < 2 || t->n > 6)
        return 12;
    uint32_t why = ref_pairwise(t->n, t->codes, ref_settings(t->version));
    if (why != 0)
        return why;
    for (int list = 0; list < ref_settings(t->version); list++)
        if (counts[list] != (size_t)1 << t->n)
            return 4;
    for (int list = 0; list < ref_settings(t->version); list++)
        for (size_t i = 1; i < counts[list]; i++)
            if (ref_repeated(t->levels[list], i))
                return 14;
    if (t->size > 40)
        return 15;
    return ref_printable(name, t->size) ? 0 : 16;
}

#endif
