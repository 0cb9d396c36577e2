/* Numbers in groups of seven bits as no writer puts them, to stand in any field of a file: each is refused by 9 or by 10 whatever the field
 * is. And good ones of one byte to ten, on which the field's own rule decides. */
#ifndef NUMBERS_H
#define NUMBERS_H

#include "reference.h"

/* Bytes in place of a number; whether the file ends behind them; what they are refused by; and whether they are of the few that are tried
 * together with other damages. */
typedef struct odd_number {
    uint8_t bytes[12];
    size_t size;
    int ends, few;
    uint32_t answer;
} odd_number;

enum { ODD_MOST = 128, LONG_MOST = 32 };

static odd_number odd_numbers[ODD_MOST];
static uint32_t odd_count;

/* So many bytes that say that more follow, but for the last. */
static void add_odd(size_t size, uint8_t more, uint8_t last, int ends, uint32_t answer, int few)
{
    odd_number *odd = &odd_numbers[odd_count++];
    memset(odd->bytes, more, sizeof odd->bytes);
    if (size > 0)
        odd->bytes[size - 1] = last;
    odd->size = size;
    odd->ends = ends;
    odd->few = few;
    odd->answer = answer;
}

/* Unfinished at the file's end after no byte to twelve; finished by a needless 0 after one byte to eleven; of ten bytes and above 2^64 - 1;
 * and of eleven or twelve. The groups are all zeros or all ones. */
static void make_odd_numbers(void)
{
    static const uint8_t mores[2] = { 0x80, 0xff }, tenths[] = { 2, 3, 4, 64, 127 };
    if (odd_count > 0)
        return;
    for (uint32_t i = 0; i < 2; i++) {
        for (size_t size = 0; size <= 12; size++)
            add_odd(size, mores[i], mores[i], 1, size < 10 ? 9 : 10, i == size % 2 && (size < 2 || size == 5 || size == 9 || size == 10));
        for (size_t size = 2; size <= 12; size++)
            add_odd(size, mores[i], 0, 0, 10, i == 0 && (size == 2 || size == 10));
        for (size_t k = 0; k < sizeof tenths; k++)
            add_odd(10, mores[i], tenths[k], 0, 10, i == 1 && k == 0);
        for (size_t size = 11; size <= 12; size++)
            add_odd(size, mores[i], 1, 0, 10, i == 0 && size == 11);
    }
}

/* Values for a field whose good value is given: ends of bytes, of 32 and of 64 bits, numbers whose low bits alone are the good one, and
 * the neighbours of a limit. Gives how many there are. */
static int long_values(uint64_t good, uint64_t limit, uint64_t values[LONG_MOST])
{
    static const int ends[] = { 7, 8, 16, 31, 32, 35, 63 };
    const uint64_t others[] = { 0, 1, 2, 3, 31, UINT64_MAX - 1, UINT64_MAX, limit - 1, limit, limit + 1, limit + 2 };
    int many = 0;
    for (int i = 0; i < 7; i++) {
        uint64_t end = UINT64_C(1) << ends[i];
        values[many++] = end - 1;
        values[many++] = end;
        values[many++] = end + good;
    }
    for (size_t i = 0; i < sizeof others / sizeof others[0]; i++)
        values[many++] = others[i];
    return many;
}

#endif
