/*
 * How much stack each function of dinnowell.h takes, held to DW_STACK_ROOM. A call runs on a stack of its own, filled with a pattern: as
 * far as the pattern is gone the stack was used. What a function takes that does nothing is taken off. This measures and proves nothing. It
 * is linked with every symbol bound at the start: otherwise what the dynamic linker takes to find memcpy would count, at its first call.
 */
#define _XOPEN_SOURCE 700
#include "dinnowell.h"

#include <stdio.h>
#include <string.h>
#include <ucontext.h>

enum { SIZE = 1 << 16, PATTERN = 0xa5, ROUNDS = 2000 };

static union {
    long double aligned;
    uint8_t bytes[SIZE];
} stack;
static ucontext_t here, there;

static size_t used(void (*job)(void))
{
    size_t untouched = 0;
    memset(stack.bytes, PATTERN, SIZE);
    getcontext(&there);
    there.uc_stack.ss_sp = stack.bytes;
    there.uc_stack.ss_size = SIZE;
    there.uc_link = &here;
    makecontext(&there, job, 0);
    swapcontext(&here, &there);
    while (untouched < SIZE && stack.bytes[untouched] == PATTERN)
        untouched++;
    return SIZE - untouched;
}

/* What the calls are given, and what they return. */
static uint32_t version, n, f, g, h, row, col, first, second, third, codes[256], status;
static uint64_t position, number;
static uint16_t levels[DW_LEVELS_ROOM], powers[DW_LEVELS_ROOM], forces[DW_LEVELS_ROOM], times[DW_LEVELS_ROOM];
static uint8_t name[DW_NAME_ROOM], file[DW_FILE_ROOM], sheet[DW_SHEET3_ROOM], saved[DW_SAVED_ROOM];
static size_t room, length, saved_length, count, offset;
static dw_walk walk;

static void nothing(void)
{
}

static void calls_length(void)
{
    status = dw_length(n, &number);
}

static void calls_pair_at(void)
{
    status = dw_pair_at(n, position, &f, &g);
}

static void calls_unordered_pair_at(void)
{
    status = dw_unordered_pair_at(n, position / 2, &first, &second);
}

static void calls_triple_at(void)
{
    status = dw_triple_at(n, position, &f, &g, &h);
}

static void calls_pairs_from(void)
{
    status = dw_pairs_from(n, position, codes, room, &count);
}

static void calls_position_of(void)
{
    status = dw_position_of(n, f, g, &number);
}

static void calls_chain(void)
{
    status = dw_chain(n, f, g, codes, DW_CHAIN_ROOM, &count, &first);
}

static void calls_longest_chains(void)
{
    status = dw_longest_chains(n, &number, &position);
}

static void calls_site(void)
{
    status = dw_site(n, f, g, row, col, &first, &second);
}

static void calls_sheet(void)
{
    status = dw_sheet(n, f, g, sheet, sizeof sheet);
}

static void calls_sheet3(void)
{
    status = dw_sheet3(n, f, g, h, sheet, sizeof sheet);
}

static void calls_check_sheet(void)
{
    status = dw_check_sheet(1u << n, sheet, sizeof sheet);
}

static void calls_read(void)
{
    status = dw_read(file, length, powers, DW_LEVELS_ROOM, forces, DW_LEVELS_ROOM, times, DW_LEVELS_ROOM, &first, &f, &g, &offset, &count,
                     &second, &third);
}

static void calls_write(void)
{
    size_t order = (size_t)1 << n;
    status = dw_write(version, n, f, g, h, levels, order, levels, order, levels, order, name, sizeof name, file, sizeof file, &length);
}

static void calls_start(void)
{
    status = dw_start(n, &walk);
}

static void calls_look(void)
{
    status = dw_look(&walk, &first, &second);
}

static void calls_draw(void)
{
    status = dw_draw(&walk, n % DW_BONDERS, &first, &second);
}

static void calls_set_mark(void)
{
    status = dw_set_mark(&walk, n % DW_MARKS);
}

static void calls_go_back(void)
{
    status = dw_go_back(&walk, n % DW_MARKS);
}

static void calls_save(void)
{
    status = dw_save(&walk, saved, sizeof saved, &saved_length);
}

static void calls_load(void)
{
    status = dw_load(saved, saved_length, &walk);
}

static struct {
    const char *name;
    void (*job)(void);
    size_t most;
} calls[] = {
    { "dw_longest_chains", calls_longest_chains, 0 }, { "dw_length", calls_length, 0 }, { "dw_start", calls_start, 0 },
    /* With a position. */
    { "dw_pair_at", calls_pair_at, 0 }, { "dw_unordered_pair_at", calls_unordered_pair_at, 0 }, { "dw_pairs_from", calls_pairs_from, 0 },
    { "dw_position_of", calls_position_of, 0 }, { "dw_chain", calls_chain, 0 }, { "dw_site", calls_site, 0 },
    { "dw_look", calls_look, 0 }, { "dw_draw", calls_draw, 0 }, { "dw_set_mark", calls_set_mark, 0 }, { "dw_go_back", calls_go_back, 0 },
    { "dw_save", calls_save, 0 }, { "dw_load", calls_load, 0 },
    /* With a position among triples. */
    { "dw_triple_at", calls_triple_at, 0 }, { "dw_sheet3", calls_sheet3, 0 },
    /* With a degree of sheets, and for files a version. */
    { "dw_write", calls_write, 0 }, { "dw_read", calls_read, 0 }, { "dw_sheet", calls_sheet, 0 },
    { "dw_check_sheet", calls_check_sheet, 0 },
};
enum { PLACED = 3, OF_TRIPLES = 15, OF_SHEETS = 17, CALLS = sizeof calls / sizeof calls[0] };

static int served = 1;

/* Some of the calls one after the other; those that take codes take the pair of dw_pair_at or the triple of dw_triple_at, dw_read takes
 * what dw_write wrote, dw_load what dw_save wrote, and dw_check_sheet what dw_sheet wrote. */
static void measure(size_t from, size_t to)
{
    for (size_t i = from; i < to; i++) {
        size_t bytes = used(calls[i].job);
        served = served && status == DW_SERVED;
        calls[i].most = bytes > calls[i].most ? bytes : calls[i].most;
    }
}

static uint64_t draw(uint64_t below)
{
    static uint64_t state = 20261115;
    state ^= state << 13;
    state ^= state >> 7;
    state ^= state << 17;
    return state % below;
}

int main(void)
{
    static const uint64_t triples[] = { 12, 150, 1380, 11574 };
    size_t least = used(nothing), most = 0;
    /* Levels that fall, with one remainder by 1024: each is looked for among those before it. */
    for (size_t i = 0; i < DW_LEVELS_ROOM; i++)
        levels[i] = (uint16_t)(65535 - 1024 * i);
    memset(name, 'A', sizeof name);

    /* Half of the positions are near the end of the list, where pairs have the most quotients. */
    for (uint32_t i = 0; i < ROUNDS; i++) {
        n = i % 4 ? 31 : 2 + (uint32_t)draw(30);
        row = (uint32_t)draw((uint64_t)1 << n);
        col = (uint32_t)draw((uint64_t)1 << n);
        room = 2 + (size_t)draw(255);
        measure(0, PLACED);
        position = i % 2 ? draw(number) : number - 1 - draw(UINT64_MAX >> draw(64)) % number;
        walk.degree = n;
        walk.position = position;
        measure(PLACED, OF_TRIPLES);
    }
    version = 1;
    for (n = 2; n <= 6; n++) {
        measure(0, PLACED);
        position = number - 1;
        measure(PLACED, PLACED + 1);
        measure(OF_SHEETS, CALLS);
    }
    /* Degree 2 has no triple to serve. */
    version = 2;
    for (uint32_t i = 0; i < ROUNDS; i++) {
        n = 3 + i % 4;
        position = draw(triples[i % 4]);
        measure(OF_TRIPLES, CALLS);
    }

    for (size_t i = 0; i < CALLS; i++) {
        printf("%-20s %5zu bytes of stack\n", calls[i].name, calls[i].most - least);
        most = calls[i].most - least > most ? calls[i].most - least : most;
    }
    if (!served)
        printf("a call was not served\n");
    return !served || most > DW_STACK_ROOM;
}
