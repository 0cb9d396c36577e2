/* Sheets as customers may bring them, made without the library: good ones of every order from 3 to 64 but 6, which has none; and ways to
 * change a sheet. */
#ifndef SHEETS_H
#define SHEETS_H

#include "reference.h"

/* A sheet and its order; there is room for one of order 65, and for bytes behind it. */
typedef struct any_sheet {
    uint32_t order;
    uint8_t bytes[9216];
} any_sheet;

static size_t size_of(const any_sheet *s)
{
    return 2 * (size_t)s->order * s->order;
}

/* The symbol of square 0 or 1 at a site. */
static uint8_t *symbol(any_sheet *s, uint32_t row, uint32_t col, uint32_t square)
{
    return &s->bytes[2 * (row * s->order + col) + square];
}

static void put(any_sheet *s, uint32_t row, uint32_t col, uint32_t first, uint32_t second)
{
    *symbol(s, row, col, 0) = (uint8_t)first;
    *symbol(s, row, col, 1) = (uint8_t)second;
}

static any_sheet empty(uint32_t order)
{
    any_sheet s;
    memset(&s, 0, sizeof s);
    s.order = order;
    return s;
}

/* The sheet of a i + b j and c i + d j, modulo its order. With 1, 1, 1, 2 it is good if the order is odd. */
static any_sheet linear(uint32_t order, uint32_t a, uint32_t b, uint32_t c, uint32_t d)
{
    any_sheet s = empty(order);
    for (uint32_t i = 0; i < order; i++)
        for (uint32_t j = 0; j < order; j++)
            put(&s, i, j, (a * i + b * j) % order, (c * i + d * j) % order);
    return s;
}

/* The sheet of i + j and x i + j in the field of 2^n elements. */
static any_sheet field(uint32_t n)
{
    static const uint32_t moduli[7] = { 0, 0, 7, 11, 19, 37, 67 };
    any_sheet s = empty(1u << n);
    for (uint32_t i = 0; i < s.order; i++)
        for (uint32_t j = 0; j < s.order; j++) {
            uint32_t times_x;
            ref_divide(2 * i, moduli[n], &times_x);
            put(&s, i, j, i ^ j, times_x ^ j);
        }
    return s;
}

/* The direct product: every row, column and symbol is one of a with one of b. */
static any_sheet product(any_sheet a, any_sheet b)
{
    any_sheet s = empty(a.order * b.order);
    for (uint32_t row = 0; row < s.order; row++)
        for (uint32_t col = 0; col < s.order; col++) {
            const uint8_t *of_a = symbol(&a, row / b.order, col / b.order, 0), *of_b = symbol(&b, row % b.order, col % b.order, 0);
            put(&s, row, col, of_a[0] * b.order + of_b[0], of_a[1] * b.order + of_b[1]);
        }
    return s;
}

/* What a sheet of order u + k is made of (a quasi-difference matrix): residues modulo u, and k extra numbers behind them, with
 * u = 2k + 1 + 4w. The numbers are w threes of residues and then k twos; extra is k and threes is w. */
typedef struct differences {
    uint32_t extra, threes;
    uint8_t numbers[64];
} differences;

/* A site is four numbers: its row, its column and its symbols. From one four come three more by exchanges, and from each of these u by
 * adding every residue to its residues. */
static void put_fours(any_sheet *s, uint32_t u, uint32_t a, uint32_t b, uint32_t c, uint32_t d)
{
    const uint32_t fours[4][4] = { { a, b, c, d }, { b, a, d, c }, { c, d, a, b }, { d, c, b, a } };
    for (uint32_t i = 0; i < 4 * u; i++) {
        uint32_t four[4];
        for (int k = 0; k < 4; k++)
            four[k] = fours[i / u][k] < u ? (fours[i / u][k] + i % u) % u : fours[i / u][k];
        put(s, four[0], four[1], four[2], four[3]);
    }
}

static any_sheet good(uint32_t order);

/* The sheet: at any two places its fours have each difference of residues once, and each extra number once beside a residue. The extra
 * numbers among themselves have a sheet of their own. */
static any_sheet by_differences(const differences *d)
{
    uint32_t u = 2 * d->extra + 1 + 4 * d->threes;
    const uint8_t *next = d->numbers;
    any_sheet s = empty(u + d->extra), corner = good(d->extra);
    for (uint32_t i = 0; i < u; i++)
        put(&s, i, i, i, i);
    for (uint32_t i = 0; i < d->threes; i++, next += 3)
        put_fours(&s, u, 0, next[0], next[1], next[2]);
    for (uint32_t i = 0; i < d->extra; i++, next += 2)
        put_fours(&s, u, 0, next[0], next[1], u + i);
    for (uint32_t i = 0; i < d->extra; i++)
        for (uint32_t j = 0; j < d->extra; j++)
            put(&s, u + i, u + j, u + *symbol(&corner, i, j, 0), u + *symbol(&corner, i, j, 1));
    return s;
}

/* That of Bose, Shrikhande and Parker, of order 3m + 1 where order m has a sheet: the twos are i and -i. */
static any_sheet of_bose(uint32_t m)
{
    differences d = { m, 0, { 0 } };
    for (uint32_t i = 1; i <= m; i++) {
        d.numbers[2 * i - 2] = (uint8_t)i;
        d.numbers[2 * i - 1] = (uint8_t)(2 * m + 1 - i);
    }
    return by_differences(&d);
}

/* The orders twice an odd number that are no 3m + 1: 14, 18, 26, 30, 38, 42, 50, 54 and 62. The numbers were found by trying. */
static const differences found[] = {
    { 3, 1, { 1, 2, 4, 3, 6, 4, 10, 5, 7 } },
    { 3, 2, { 1, 2, 4, 3, 5, 9, 5, 8, 6, 11, 7, 14 } },
    { 7, 1, { 1, 2, 4, 3, 15, 4, 14, 5, 13, 6, 11, 7, 1, 8, 10, 9, 12 } },
    { 7, 2, { 1, 2, 4, 3, 1, 8, 4, 16, 5, 15, 6, 13, 8, 14, 9, 12, 10, 19, 11, 6 } },
    { 11, 1, { 1, 2, 4, 3, 23, 4, 26, 5, 22, 6, 19, 7, 18, 8, 20, 9, 17, 10, 16, 11, 14, 12, 21, 13, 15 } },
    { 11, 2, { 1, 2, 4, 3, 1, 7, 4, 26, 5, 22, 7, 23, 8, 21, 9, 20, 10, 18, 11, 17, 12, 24, 13, 16, 14, 19, 15, 25 } },
    { 15, 1, { 1, 2, 4, 3, 31, 4, 34, 5, 30, 6, 29, 7, 28, 8, 25, 9, 24, 10, 26, 11, 22, 12, 21, 13, 19, 14, 27, 15, 23, 16, 18, 17, 20 } },
    { 15, 2, { 1, 2, 4, 3, 1, 7, 4, 34, 5, 33, 7, 32, 8, 28, 9, 27, 10, 26, 11, 24, 12, 29, 13, 25, 14, 22, 15, 21, 16, 31, 17, 20, 18, 23,
               19, 9 } },
    { 19, 1, { 1, 2, 4, 3, 39, 4, 42, 5, 38, 6, 37, 7, 36, 8, 35, 9, 34, 10, 31, 11, 30, 12, 32, 13, 28, 14, 27, 15, 26, 16, 33, 17, 25,
               18, 24, 19, 22, 20, 29, 21, 23 } },
};

/* A good sheet of any order from 3 to 64 but 6: cyclic, of a field, a product of these, or by differences. */
static any_sheet good(uint32_t order)
{
    uint32_t n = (uint32_t)ref_degree(order & (0 - order));
    if (n == 0)
        return linear(order, 1, 1, 1, 2);
    if (n > 1)
        return order == 1u << n ? field(n) : product(field(n), linear(order >> n, 1, 1, 1, 2));
    for (size_t i = 0; i < sizeof found / sizeof found[0]; i++)
        if (3 * found[i].extra + 1 + 4 * found[i].threes == order)
            return by_differences(&found[i]);
    return of_bose((order - 1) / 3);
}

/* A conjugate of the sheet: part i of a site, of its row, column, first and second symbol, becomes its part parts[i]. A good sheet stays
 * good. */
static any_sheet conjugate(any_sheet s, const uint32_t parts[4])
{
    any_sheet t = empty(s.order);
    for (uint32_t row = 0; row < s.order; row++)
        for (uint32_t col = 0; col < s.order; col++) {
            const uint32_t four[4] = { row, col, *symbol(&s, row, col, 0), *symbol(&s, row, col, 1) };
            put(&t, four[parts[0]], four[parts[1]], four[parts[2]], four[parts[3]]);
        }
    return t;
}

/* One of the 24 orders of four things. */
static void order_of_four(uint32_t index, uint32_t parts[4])
{
    uint32_t left[4] = { 0, 1, 2, 3 };
    for (uint32_t i = 0; i < 4; i++) {
        uint32_t take = index % (4 - i);
        index /= 4 - i;
        parts[i] = left[take];
        memmove(left + take, left + take + 1, (3 - take) * sizeof left[0]);
    }
}

static void exchange(uint8_t *a, uint8_t *b)
{
    uint8_t kept = *a;
    *a = *b;
    *b = kept;
}

/* Two rows, or two columns, exchanged in one of the squares. */
static void exchange_rows(any_sheet *s, uint32_t a, uint32_t b, uint32_t square)
{
    for (uint32_t i = 0; i < s->order; i++)
        exchange(symbol(s, a, i, square), symbol(s, b, i, square));
}

static void exchange_cols(any_sheet *s, uint32_t a, uint32_t b, uint32_t square)
{
    for (uint32_t i = 0; i < s->order; i++)
        exchange(symbol(s, i, a, square), symbol(s, i, b, square));
}

/* Two columns exchanged in both squares, but only at as few rows, from a given one on, as leave each column the first square's symbols that
 * it had. Then nothing can fail but the columns of the second square. */
static void exchange_cycle(any_sheet *s, uint32_t a, uint32_t b, uint32_t row)
{
    uint8_t lost = *symbol(s, row, a, 0), came;
    do {
        exchange(symbol(s, row, a, 0), symbol(s, row, b, 0));
        exchange(symbol(s, row, a, 1), symbol(s, row, b, 1));
        came = *symbol(s, row, a, 0);
        uint32_t other = 0;
        while (other < s->order - 1 && (other == row || *symbol(s, other, a, 0) != came))
            other++;
        row = other;
    } while (came != lost);
}

#endif
