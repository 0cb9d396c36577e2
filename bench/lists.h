/* Ways to list all pairs of a degree, each into `out`, two numbers a pair; each gives how many pairs it listed. */
#ifndef LISTS_H
#define LISTS_H

#include "plain.h"

typedef uint32_t list_pair_at(uint32_t n, uint64_t position, uint32_t *f, uint32_t *g);

/* One pair after the other by a call for the pair at a position, to the list's end. */
static size_t list_rising(list_pair_at *pair_at, uint32_t n, uint32_t *out)
{
    size_t pairs = 0;
    while (pair_at(n, pairs, out + 2 * pairs, out + 2 * pairs + 1) == DW_SERVED)
        pairs++;
    return pairs;
}

/* The same at so many positions, which come in any order. */
static size_t list_shuffled(list_pair_at *pair_at, uint32_t n, const uint32_t *positions, size_t count, uint32_t *out)
{
    size_t pairs = 0;
    while (pairs < count && pair_at(n, positions[pairs], out + 2 * pairs, out + 2 * pairs + 1) == DW_SERVED)
        pairs++;
    return pairs;
}

/* Every two odd codes of degree n are tried by Euclid's algorithm. */
static size_t filter_c(uint32_t n, uint32_t *out)
{
    size_t pairs = 0;
    for (uint32_t f = (1u << n) + 1; f < 2u << n; f += 2)
        for (uint32_t g = (1u << n) + 1; g < 2u << n; g += 2)
            if (plain_coprime(f, g)) {
                out[2 * pairs] = f;
                out[2 * pairs++ + 1] = g;
            }
    return pairs;
}

/* The product of a quotient, which is not 0, and r. */
static inline uint32_t list_times(uint32_t q, uint32_t r)
{
    uint32_t sum = 0;
    for (; q != 0; q >>= 1, r <<= 1)
        sum ^= r & -(q & 1);
    return sum;
}

/* The pairs of all kept words behind the letters read so far, which words share; `left` quotients without constant terms remain. */
static uint32_t *list_words(const uint32_t *quotients, uint32_t left, uint32_t state, uint32_t r, uint32_t s, uint32_t *out)
{
    if (left == 0) {
        out[0] = r ^ s;
        out[1] = r;
        return out + 2;
    }
    uint32_t next = list_times(*quotients, r) ^ s;
    for (uint32_t letter = 0; letter < 2; letter++, next ^= r)
        if (plain_words[left - 1][plain_next[state][letter]] != 0)
            out = list_words(quotients + 1, left - 1, plain_next[state][letter], next, r, out);
    return out;
}

/* Puts intermediate bits into quotients of the given degrees. */
static void list_quotients(const uint32_t *degrees, uint32_t k, uint32_t bits, uint32_t *quotients)
{
    for (uint32_t i = k; i-- > 0; bits >>= degrees[i] - 1)
        quotients[i] = 1u << degrees[i] | (bits << 1 & ((1u << degrees[i]) - 1));
}

/* The next composition in dictionary order; 0 behind the last one. */
static int list_next(uint32_t *degrees, uint32_t k)
{
    uint32_t i = k - 1;
    while (i > 0 && degrees[i] == 1)
        i--;
    if (i == 0)
        return 0;
    uint32_t rest = degrees[i] - 1;
    degrees[i] = 1;
    degrees[i - 1]++;
    degrees[k - 1] = rest;
    return 1;
}

/* All pairs of k quotients. */
static uint32_t *list_block(uint32_t n, uint32_t k, uint32_t *out)
{
    uint32_t degrees[32], quotients[32];
    for (uint32_t i = 0; i < k; i++)
        degrees[i] = i < k - 1 ? 1 : n - k + 1;
    do
        for (uint32_t bits = 0; bits < 1u << (n - k); bits++) {
            list_quotients(degrees, k, bits, quotients);
            out = list_words(quotients, k, PLAIN_10, 1, 0, out);
        }
    while (list_next(degrees, k));
    return out;
}

/* The list in its order, by document 01's nested loops. */
static size_t list_in_order(uint32_t n, uint32_t *out)
{
    uint32_t *end = out;
    for (uint32_t k = 2; k <= n; k++)
        end = list_block(n, k, end);
    return (size_t)(end - out) / 2;
}

#endif
