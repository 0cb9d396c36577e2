/* Saved walks as document 02 sets them out, made and read without the library: a list of numbers, and each number's bytes. */
#ifndef SAVED_H
#define SAVED_H

#include "numbers.h"

/* The numbers of a saved walk: kind, degree, position, eight marks, eight counts. Kind 1 ends behind the position. */
enum { OF_KIND, OF_DEGREE, OF_POSITION, OF_MARKS, OF_COUNTS = OF_MARKS + 8, SAVED_NUMBERS = OF_COUNTS + 8, SAVED_MOST = 320 };

static uint32_t ref_saved_count(uint64_t kind)
{
    return kind == 1 ? OF_MARKS : SAVED_NUMBERS;
}

/* What a number that stands in its field is refused for at once. */
static uint32_t ref_saved_number(uint32_t at, uint64_t number)
{
    if (at == OF_KIND)
        return number == 1 || number == 2 ? 0 : 22;
    return at >= OF_COUNTS && number > UINT64_C(1000000000000000000) ? 23 : 0;
}

/* What a degree, a position and marks are refused for, when all else is right. */
static uint32_t ref_saved_place(const uint64_t *numbers)
{
    if (numbers[OF_DEGREE] < 1 || numbers[OF_DEGREE] > 31)
        return 3;
    uint64_t length = ref_length((uint32_t)numbers[OF_DEGREE]);
    uint32_t why = numbers[OF_POSITION] > length ? 3 : 0;
    for (int i = 0; i < 8; i++)
        why = numbers[OF_MARKS + i] > length + 1 ? 3 : why;
    return why;
}

/* What a file is refused for, and where it is not, its numbers; those that kind 1 does not have are 0. */
static uint32_t ref_load(const uint8_t *file, size_t length, uint64_t numbers[SAVED_NUMBERS])
{
    size_t at = 0;
    uint32_t why = 0;
    memset(numbers, 0, SAVED_NUMBERS * sizeof numbers[0]);
    for (uint32_t i = 0; i < ref_saved_count(numbers[OF_KIND]); i++)
        if ((why = ref_number(file, length, &at, &numbers[i])) != 0 || (why = ref_saved_number(i, numbers[i])) != 0)
            return why;
    return at < length ? 17 : ref_saved_place(numbers);
}

/* The bytes of numbers, as they stand, right or wrong; gives how many. */
static size_t ref_save(const uint64_t *numbers, uint8_t *out)
{
    size_t at = 0;
    for (uint32_t i = 0; i < ref_saved_count(numbers[OF_KIND]); i++)
        at = ref_put(out, at, numbers[i]);
    return at;
}

/* A saved walk of numbers in any form. The file ends behind a form that ends it; else bytes may stand behind the last number. */
typedef struct raw_saved {
    odd_number numbers[SAVED_NUMBERS];
    uint32_t count;
    uint8_t behind[4];
    size_t behind_count;
} raw_saved;

/* A number as a writer puts it. */
static odd_number even_number(uint64_t number)
{
    odd_number even;
    memset(&even, 0, sizeof even);
    even.size = ref_put(even.bytes, 0, number);
    return even;
}

static raw_saved raw_saved_of(const uint64_t *numbers)
{
    raw_saved raw;
    memset(&raw, 0, sizeof raw);
    raw.count = ref_saved_count(numbers[OF_KIND]);
    for (uint32_t i = 0; i < raw.count; i++)
        raw.numbers[i] = even_number(numbers[i]);
    return raw;
}

static size_t put_saved(const raw_saved *raw, uint8_t *file)
{
    size_t at = 0;
    for (uint32_t i = 0; i < raw->count; i++) {
        memcpy(file + at, raw->numbers[i].bytes, raw->numbers[i].size);
        at += raw->numbers[i].size;
        if (raw->numbers[i].ends)
            return at;
    }
    memcpy(file + at, raw->behind, raw->behind_count);
    return at + raw->behind_count;
}

/* One thing wrong with a saved walk: at which of its numbers, or behind them; what it is refused by; and when that is looked for. */
typedef struct defect {
    uint32_t at;
    odd_number form;
    uint32_t answer, when;
} defect;

enum { BEHIND_LAST = 4 * SAVED_NUMBERS, AT_THE_END };

/* A number in an odd form, or one that is refused by 22, by 23 or, when the whole file is read, by 3. */
static defect odd_defect(uint32_t at, odd_number form)
{
    defect d = { at, form, form.answer, 4 * at };
    return d;
}

static defect value_defect(uint32_t at, uint64_t value, uint32_t answer)
{
    defect d = { at, even_number(value), answer, answer == 3 ? (uint32_t)AT_THE_END : 4 * at + 1 };
    return d;
}

/* A byte behind the last number. */
static defect trailing_defect(uint8_t byte)
{
    defect d = { SAVED_NUMBERS, even_number(0), 17, BEHIND_LAST };
    d.form.bytes[0] = byte;
    return d;
}

static void spoil_saved(raw_saved *raw, const defect *d)
{
    if (d->at == SAVED_NUMBERS)
        raw->behind[raw->behind_count++] = d->form.bytes[0];
    else
        raw->numbers[d->at] = d->form;
}

/* What a value is refused for in a good file of a degree, by its field alone. */
static uint32_t answer_to(uint32_t at, uint64_t value, uint32_t n)
{
    uint64_t length = ref_length(n);
    if (at == OF_KIND)
        return value == 2 ? 0 : 22;
    if (at == OF_DEGREE)
        return value == n ? 0 : 3;
    if (at == OF_POSITION)
        return value <= length ? 0 : 3;
    return at < OF_COUNTS ? (value <= length + 1 ? 0 : 3) : value <= UINT64_C(1000000000000000000) ? 0 : 23;
}

#endif
