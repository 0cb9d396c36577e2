/*
 * Every function of dinnowell.h against tests/reference.h, on random arguments, valid and damaged. Whatever a call is lent there has
 * exactly the size that the call is told, and guard bytes around it; after each call every byte of it is compared.
 */
#include "dinnowell.h"
#include "numbers.h"
#include "reference.h"
#include "saved.h"
#include "sheets.h"

#include <inttypes.h>
#include <stdio.h>
#include <stdlib.h>

/* The header's names are documents 01's and 02's numbers: the rest of this file, and reference.h, speak in numbers. */
#ifdef __cplusplus
#define CHECK(condition) static_assert(condition, #condition)
#else
#define CHECK(condition) _Static_assert(condition, #condition)
#endif
CHECK(DW_SERVED == 0 && DW_SPENT == 255);
CHECK(DW_REFUSED_DEGREE_RANGE == 1 && DW_REFUSED_POSITION_RANGE == 2 && DW_REFUSED_WALK_RECORD == 3 && DW_REFUSED_SLICE_LENGTH == 4);
CHECK(DW_REFUSED_SITE_RANGE == 5 && DW_REFUSED_CODE_DEGREE == 6 && DW_REFUSED_CONSTANT_TERM == 7 && DW_REFUSED_COMMON_FACTOR == 8);
CHECK(DW_REFUSED_FILE_ENDS == 9 && DW_REFUSED_NUMBER_FORM == 10 && DW_REFUSED_VERSION == 11 && DW_REFUSED_SHEET_DEGREE == 12);
CHECK(DW_REFUSED_LEVEL_RANGE == 13 && DW_REFUSED_LEVEL_REPEATED == 14 && DW_REFUSED_NAME_LENGTH == 15 && DW_REFUSED_NAME_BYTE == 16);
CHECK(DW_REFUSED_TRAILING_BYTES == 17 && DW_REFUSED_MARK_RANGE == 18 && DW_REFUSED_MARK_EMPTY == 19 && DW_REFUSED_BONDER_RANGE == 20);
CHECK(DW_REFUSED_SAVED_KIND == 22 && DW_REFUSED_COUNT_RANGE == 23 && DW_SAVED_ROOM == 155);
CHECK(DW_REFUSED_ORDER_RANGE == 26 && DW_REFUSED_SYMBOL_RANGE == 27 && DW_REFUSED_NOT_GRAECO_LATIN == 28);
CHECK(DW_REFUSED_BONDER_FULL == 21 && DW_MARKS == 8 && DW_BONDERS == 8 && DW_FULL_COUNT == UINT64_C(1000000000000000000));
CHECK(DW_CHAIN_ROOM == 32 && DW_LEVELS_ROOM == 64 && DW_SHEET_ROOM == 8192 && DW_SHEET3_ROOM == 12288 && DW_FILE_ROOM == 622);
CHECK(DW_NAME_ROOM == 40 && DW_STACK_ROOM == 8192 && DW_VERSION_MAJOR == 6 && DW_VERSION_MINOR == 2 && DW_VERSION == 6002);

enum { SEED = 20261115, GUARD = 64, LARGEST = 1 << 14, SLOTS = 16 };

static uint64_t state = SEED;
static uint64_t calls, served;
/* Bit k: number k was returned; bit 63: spent. */
static uint64_t seen;

static uint64_t bit(uint32_t k)
{
    return UINT64_C(1) << k;
}

static uint32_t draw(uint32_t below)
{
    state ^= state << 13;
    state ^= state >> 7;
    state ^= state << 17;
    return (uint32_t)((state >> 24) % below);
}

static uint64_t draw64(void)
{
    uint64_t high = draw(1u << 31);
    return high << 33 ^ (uint64_t)draw(1u << 31) << 16 ^ draw(1u << 16);
}

static void fail(const char *what)
{
    printf("differs: %s, call %" PRIu64 "\n", what, calls);
    exit(1);
}

static void expect(int holds, const char *what)
{
    if (!holds)
        fail(what);
}

static void count(uint32_t got, uint32_t want, const char *what)
{
    calls++;
    expect(got == want, what);
    seen |= bit(got == DW_SPENT ? 63 : got);
    served += got == DW_SERVED;
}

/* Memory to lend, with a copy of what it should hold. */
static union {
    uint64_t aligned;
    uint8_t bytes[GUARD + LARGEST + GUARD];
} memory[SLOTS];
static uint8_t should[SLOTS][GUARD + LARGEST + GUARD];
static size_t lent[SLOTS];

static void *lend(int slot, size_t bytes)
{
    lent[slot] = bytes;
    for (size_t i = 0; i < GUARD + bytes + GUARD; i++)
        memory[slot].bytes[i] = (uint8_t)draw(256);
    memcpy(should[slot], memory[slot].bytes, GUARD + bytes + GUARD);
    return memory[slot].bytes + GUARD;
}

/* The same, with content that the call reads. */
static void *lend_copy(int slot, const void *content, size_t bytes)
{
    void *place = lend(slot, bytes);
    memcpy(place, content, bytes);
    memcpy(should[slot] + GUARD, content, bytes);
    return place;
}

static uint32_t *lend_u32(int slot)
{
    return (uint32_t *)lend(slot, sizeof(uint32_t));
}

static uint64_t *lend_u64(int slot)
{
    return (uint64_t *)lend(slot, sizeof(uint64_t));
}

static size_t *lend_size(int slot)
{
    return (size_t *)lend(slot, sizeof(size_t));
}

/* The bytes in front are what they should be, the others as they were. */
static void came_back(int slot, const void *front, size_t bytes, const char *what)
{
    if (bytes > 0)
        memcpy(should[slot] + GUARD, front, bytes);
    expect(memcmp(should[slot], memory[slot].bytes, GUARD + lent[slot] + GUARD) == 0, what);
}

/* A number behind a pointer: this one where the call is served, otherwise the old one. */
static void came_u32(int slot, uint32_t refused, uint32_t number, const char *what)
{
    came_back(slot, &number, refused ? 0 : sizeof number, what);
}

static void came_u64(int slot, uint32_t refused, uint64_t number, const char *what)
{
    came_back(slot, &number, refused ? 0 : sizeof number, what);
}

static void came_size(int slot, uint32_t refused, size_t number, const char *what)
{
    came_back(slot, &number, refused ? 0 : sizeof number, what);
}

/* A degree, mostly a good one. */
static uint32_t some_degree(uint32_t low, uint32_t high)
{
    if (draw(16) == 0)
        return draw(2) ? draw(40) : (uint32_t)draw64();
    return low + draw(high - low + 1);
}

/* A code, mostly good at degree n. */
static uint32_t some_code(uint32_t n)
{
    uint32_t top = 1u << (n % 32), code = top | (uint32_t)(draw64() % top) | 1;
    if (draw(32) == 0)
        return code & ~1u;
    return draw(32) == 0 ? (uint32_t)draw64() : code;
}

static int out_of_range(uint32_t n)
{
    return n < 1 || n > 31;
}

static void try_length(void)
{
    uint32_t n = some_degree(1, 31), want = out_of_range(n) ? 1 : 0;
    count(dw_length(n, lend_u64(0)), want, "dw_length");
    came_u64(0, want, want ? 0 : ref_length(n), "dw_length: pairs");
}

static void try_pair_at(void)
{
    uint32_t n = some_degree(1, 31), f = 0, g = 0;
    uint64_t length = out_of_range(n) ? 0 : ref_length(n);
    uint64_t position = length && draw(16) ? draw64() % length : draw(4) ? length + draw(2) : draw64();
    uint32_t want = out_of_range(n) ? 1 : position >= length ? 2 : 0;
    if (want == 0)
        ref_pair(n, position, &f, &g);
    uint32_t *to_f = lend_u32(0), *to_g = lend_u32(1);
    count(dw_pair_at(n, position, to_f, to_g), want, "dw_pair_at");
    came_u32(0, want, f, "dw_pair_at: f");
    came_u32(1, want, g, "dw_pair_at: g");
}

static void try_unordered_pair_at(void)
{
    uint32_t n = some_degree(1, 31), f = 0, g = 0;
    uint64_t entries = out_of_range(n) ? 0 : ref_length(n) / 2;
    uint64_t entry = entries && draw(16) ? draw64() % entries : draw(4) ? entries + draw(2) : draw64();
    uint32_t want = out_of_range(n) ? 1 : entry >= entries ? 2 : 0;
    if (want == 0)
        ref_pair(n, 2 * entry, &f, &g);
    uint32_t *to_f = lend_u32(0), *to_g = lend_u32(1);
    count(dw_unordered_pair_at(n, entry, to_f, to_g), want, "dw_unordered_pair_at");
    came_u32(0, want, f, "dw_unordered_pair_at: f");
    came_u32(1, want, g, "dw_unordered_pair_at: g");
}

/* How many triples each degree has. */
static const uint64_t triples[7] = { 0, 0, 0, 12, 150, 1380, 11574 };

/* The triple at a position, whatever the call is given; gives what it answers, and where it is served the codes. */
static uint32_t triple_at(uint32_t n, uint64_t position, uint32_t codes[3])
{
    uint32_t want = ref_triple(n, position, codes);
    uint32_t *to_f = lend_u32(0), *to_g = lend_u32(1), *to_h = lend_u32(2);
    count(dw_triple_at(n, position, to_f, to_g, to_h), want, "dw_triple_at");
    came_u32(0, want, codes[0], "dw_triple_at: f");
    came_u32(1, want, codes[1], "dw_triple_at: g");
    came_u32(2, want, codes[2], "dw_triple_at: h");
    return want;
}

static void try_triple_at(void)
{
    uint32_t n = some_degree(2, 6), codes[3] = { 0 };
    uint64_t entries = n > 6 ? 0 : triples[n];
    triple_at(n, entries && draw(16) ? draw64() % entries : draw(4) ? entries + draw(2) : draw64(), codes);
}

static void try_pairs_from(void)
{
    uint32_t n = some_degree(1, draw(2) ? 5 : 31), codes[96], room = draw(16) ? 2 + draw(94) : draw(3);
    uint64_t length = out_of_range(n) ? 0 : ref_length(n);
    uint64_t position = length && draw(16) ? draw64() % length : draw(4) ? length + draw(2) : draw64();
    if (length && draw(4) == 0)
        position = length - 1 - draw(64) % length;
    uint32_t want = out_of_range(n) ? 1 : position >= length ? 2 : room < 2 ? 4 : 0;
    size_t many = 0;
    for (; want == 0 && many < room / 2 && position + many < length; many++)
        ref_pair(n, position + many, &codes[2 * many], &codes[2 * many + 1]);
    uint32_t *out = (uint32_t *)lend(0, 4 * room);
    count(dw_pairs_from(n, position, out, room, lend_size(1)), want, "dw_pairs_from");
    came_back(0, codes, 8 * many, "dw_pairs_from: codes");
    came_size(1, want, many, "dw_pairs_from: count");
}

/* The position is right if the pair there is the one asked for: no pair stands twice. */
static void try_position_of(void)
{
    uint32_t n = some_degree(1, 31), f = some_code(n), g = some_code(n), back_f, back_g;
    uint32_t want = out_of_range(n) ? 1 : ref_coprime(n, f, g);
    uint64_t position;
    count(dw_position_of(n, f, g, lend_u64(0)), want, "dw_position_of");
    memcpy(&position, memory[0].bytes + GUARD, sizeof position);
    came_u64(0, want, position, "dw_position_of: kept");
    if (want != 0)
        return;
    expect(position < ref_length(n), "dw_position_of: range");
    ref_pair(n, position, &back_f, &back_g);
    expect(back_f == f && back_g == g, "dw_position_of: position");
}

static void try_chain(void)
{
    uint32_t n = some_degree(1, 31), f = some_code(n), g = some_code(n), room = draw(8) ? 32 + draw(4) : draw(33);
    uint32_t want = out_of_range(n) ? 1 : ref_codes(n, f, g), quotients[64], divisor = 0;
    want = want ? want : room < 32 ? 4 : 0;
    size_t many = want ? 0 : ref_chain(f, g, quotients, &divisor);
    uint32_t *out = (uint32_t *)lend(0, 4 * room), *to_divisor = lend_u32(2);
    count(dw_chain(n, f, g, out, room, lend_size(1), to_divisor), want, "dw_chain");
    came_back(0, quotients, 4 * many, "dw_chain: quotients");
    came_size(1, want, many, "dw_chain: count");
    came_u32(2, want, divisor, "dw_chain: divisor");
}

/* Where there is none, the first stays what it was. */
static void try_longest_chains(void)
{
    uint32_t n = some_degree(1, 31), want = out_of_range(n) ? 1 : 0;
    uint64_t first = want ? 0 : ref_longest(n), many = want ? 0 : ref_length(n) - first;
    uint64_t *to_many = lend_u64(0), *to_first = lend_u64(1);
    count(dw_longest_chains(n, to_many, to_first), want, "dw_longest_chains");
    came_u64(0, want, many, "dw_longest_chains: count");
    came_u64(1, want || many == 0, first, "dw_longest_chains: first");
}

static void try_site(void)
{
    uint32_t n = some_degree(1, 31), f = some_code(n), g = some_code(n), order = 1u << (n % 32);
    uint32_t row = draw(32) ? (uint32_t)(draw64() % order) : order + draw(2), col = draw(32) ? (uint32_t)(draw64() % order) : order;
    uint32_t want = out_of_range(n) ? 1 : ref_codes(n, f, g);
    want = want ? want : row >= order || col >= order ? 5 : 0;
    uint32_t *first = lend_u32(0), *second = lend_u32(1);
    count(dw_site(n, f, g, row, col, first, second), want, "dw_site");
    came_u32(0, want, want ? 0 : ref_symbol(n, f, row, col), "dw_site: first");
    came_u32(1, want, want ? 0 : ref_symbol(n, g, row, col), "dw_site: second");
}

/* Three codes, of which mostly each two of the first `many` are coprime. */
static void some_codes(uint32_t n, uint32_t codes[3], int many)
{
    do
        for (int i = 0; i < 3; i++)
            codes[i] = some_code(n);
    while (n >= 2 && n <= 6 && draw(8) && ref_pairwise(n, codes, many) == 8);
}

/* The sheet of two or of three codes, whatever the call is given; gives what it answers. */
static uint32_t lay(uint32_t n, const uint32_t *codes, int many, size_t room)
{
    static uint8_t sheet[DW_SHEET3_ROOM];
    uint32_t want = n < 2 || n > 6 ? 12 : ref_pairwise(n, codes, many);
    want = want ? want : room < (size_t)many << 2 * n ? 4 : 0;
    size_t put = want ? 0 : ref_sheet(n, codes, many, sheet);
    uint8_t *out = (uint8_t *)lend(0, room);
    if (many == 2)
        count(dw_sheet(n, codes[0], codes[1], out, room), want, "dw_sheet");
    else
        count(dw_sheet3(n, codes[0], codes[1], codes[2], out, room), want, "dw_sheet3");
    came_back(0, sheet, put, many == 2 ? "dw_sheet: sheet" : "dw_sheet3: sheet");
    return want;
}

static void try_lay(int many)
{
    uint32_t n = some_degree((uint32_t)many, 4 + 2 * (draw(16) == 0)), codes[3];
    size_t size = n < 2 || n > 6 ? 32 : (size_t)many << 2 * n, room = draw(8) ? size + draw(3) : size - 1 - draw(8);
    some_codes(n, codes, many);
    lay(n, codes, many, room);
}

static void try_sheet(void)
{
    try_lay(2);
}

static void try_sheet3(void)
{
    try_lay(3);
}

/* The record where the call is served: its fields. The padding between them is anyone's. */
static void came_walk(int slot, uint32_t refused, dw_walk want, const char *what)
{
    dw_walk walk;
    memcpy(&walk, memory[slot].bytes + GUARD, sizeof walk);
    int same = walk.degree == want.degree && walk.position == want.position && walk.f == want.f && walk.g == want.g;
    same = same && !memcmp(walk.marks, want.marks, sizeof want.marks) && !memcmp(walk.counts, want.counts, sizeof want.counts);
    expect(refused || same, what);
    came_back(slot, &walk, refused ? 0 : sizeof walk, what);
}

static const uint64_t full = UINT64_C(1000000000000000000);

/* Number 3: a degree without a list, the position or a set mark beyond its end, or a count that is more than full. */
static int bad_walk(dw_walk walk)
{
    if (out_of_range(walk.degree))
        return 1;
    uint64_t length = ref_length(walk.degree);
    int bad = walk.position > length;
    for (int i = 0; i < 8; i++)
        bad = bad || (walk.marks[i] != 0 && walk.marks[i] - 1 > length) || walk.counts[i] > full;
    return bad;
}

/* The record with the pair at its position, or 0 and 0 at the end. */
static dw_walk with_next(dw_walk walk)
{
    walk.f = walk.g = 0;
    if (walk.position < ref_length(walk.degree))
        ref_pair(walk.degree, walk.position, &walk.f, &walk.g);
    return walk;
}

static void holds_next(dw_walk walk, const char *what)
{
    dw_walk right = with_next(walk);
    expect(walk.f == right.f && walk.g == right.g, what);
}

/* What a look answers to a record, and what a draw does. */
static uint32_t to_look(dw_walk walk)
{
    return bad_walk(walk) ? 3 : walk.position == ref_length(walk.degree) ? DW_SPENT : 0;
}

static uint32_t to_draw(dw_walk walk, uint32_t bonder)
{
    uint32_t look = to_look(walk);
    return look == 3 ? 3 : bonder > 7 ? 20 : look == 0 && walk.counts[bonder] == full ? 21 : look;
}

/* A look or a draw on a record, whatever it holds; gives the record after it. */
static dw_walk try_next(dw_walk walk, uint32_t bonder, int moves)
{
    uint32_t f = walk.f, g = walk.g, want = moves ? to_draw(walk, bonder) : to_look(walk);
    dw_walk *place = (dw_walk *)lend_copy(0, &walk, sizeof walk);
    uint32_t *to_f = lend_u32(1), *to_g = lend_u32(2);
    count(moves ? dw_draw(place, bonder, to_f, to_g) : dw_look(place, to_f, to_g), want, moves ? "dw_draw" : "dw_look");
    if (moves && want == 0) {
        walk.position++;
        walk.counts[bonder]++;
        walk = with_next(walk);
    }
    came_walk(0, moves ? want : 1, walk, moves ? "dw_draw: walk" : "dw_look: walk");
    came_u32(1, want, f, "dw_draw, dw_look: f");
    came_u32(2, want, g, "dw_draw, dw_look: g");
    return walk;
}

/* The same for setting a mark and for going back to one. */
static dw_walk try_mark(dw_walk walk, uint32_t mark, int back)
{
    uint32_t want = bad_walk(walk) ? 3 : mark > 7 ? 18 : back && walk.marks[mark] == 0 ? 19 : 0;
    dw_walk *place = (dw_walk *)lend_copy(0, &walk, sizeof walk);
    count(back ? dw_go_back(place, mark) : dw_set_mark(place, mark), want, back ? "dw_go_back" : "dw_set_mark");
    if (want == 0 && back) {
        walk.position = walk.marks[mark] - 1;
        walk = with_next(walk);
    } else if (want == 0)
        walk.marks[mark] = walk.position + 1;
    came_walk(0, want, walk, back ? "dw_go_back: walk" : "dw_set_mark: walk");
    return walk;
}

/* The number of a mark or a bonder: one of the eight, or above. */
static uint32_t some_number(void)
{
    return draw(8) ? draw(8) : draw(2) ? 8 + draw(2) : UINT32_MAX - draw(2);
}

/* Any of the four calls. */
static dw_walk try_call(dw_walk walk)
{
    int second = (int)draw(2);
    return draw(2) ? try_next(walk, some_number(), second) : try_mark(walk, some_number(), second);
}

/* A record that is put near the end of the list, beyond it, or anywhere, with marks that are empty, anywhere, at the end or, now and then,
 * beyond it, with counts that are anything up to full, full or nearly so, or, now and then, more, and with a next pair that is what it was,
 * or anything. */
static dw_walk some_record(dw_walk walk)
{
    uint64_t length = out_of_range(walk.degree) ? 0 : ref_length(walk.degree);
    if (draw(2)) {
        walk.f = (uint32_t)draw64();
        walk.g = draw(2) ? 0 : (uint32_t)draw64();
    }
    walk.position = draw(2) ? length - draw(3) + draw(3) : length ? draw64() % length : draw64();
    for (int i = 0; i < 8; i++) {
        walk.marks[i] = draw(2) ? 0 : draw(2) ? 1 + draw64() % (length + 1) : draw(16) ? length + draw(2) : length + 2 + draw64() % 3;
        walk.counts[i] = draw(2) ? draw64() % full : draw(32) ? full - draw(3) : draw(2) ? full + 1 : UINT64_MAX;
    }
    return walk;
}

/* Calls on such a record. */
static void try_walk(void)
{
    uint32_t n = some_degree(1, 31), want = out_of_range(n) ? 1 : 0;
    dw_walk walk;
    memset(&walk, 0, sizeof walk);
    walk.degree = n;
    if (want == 0)
        walk = with_next(walk);
    count(dw_start(n, (dw_walk *)lend(0, sizeof walk)), want, "dw_start");
    came_walk(0, want, walk, "dw_start: walk");
    walk = some_record(walk);
    for (int i = 0; i < 8; i++)
        walk = try_call(walk);
}

/* Stored marks at the end of a list and beyond it: L and L + 1 are good, L + 2 and 2^64 - 1 are not, in each mark and for each call. */
static void marks_at_the_end(void)
{
    static const uint32_t marks[] = { 0, 7, 8, UINT32_MAX };
    for (uint32_t n = 0; n <= 32; n++)
        for (int at = 0; at < 8; at++)
            for (int i = 0; i < 10; i++) {
                uint64_t length = out_of_range(n) ? 0 : ref_length(n), stored[] = { 0, length, length + 1, length + 2, UINT64_MAX };
                dw_walk walk;
                memset(&walk, 0, sizeof walk);
                walk.degree = n;
                walk.position = i % 2 ? length : 0;
                walk.marks[at] = stored[i / 2];
                for (int second = 0; second < 2; second++) {
                    try_next(walk, 0, second);
                    for (int k = 0; k < 4; k++)
                        try_mark(walk, marks[k], second);
                }
            }
}

/* Counts of 0, one less than full, full, one more and 2^64 - 1, for each bonder and each call, on walks that are spent and that are not,
 * alone and with a mark beyond the list; drawn for that bonder, for the next one, and for none of the eight. */
static void full_counts(void)
{
    const uint64_t counts[] = { 0, full - 1, full, full + 1, UINT64_MAX };
    for (uint32_t n = 0; n <= 32; n++)
        for (uint32_t of = 0; of < 8; of++)
            for (int i = 0; i < 20; i++) {
                uint64_t length = out_of_range(n) ? 0 : ref_length(n);
                const uint32_t bonders[] = { of, (of + 1) % 8, 7, 8, UINT32_MAX };
                dw_walk walk;
                memset(&walk, 0, sizeof walk);
                walk.degree = n;
                walk.position = i % 2 ? length : 0;
                walk.marks[7 - of] = i / 2 % 2 ? length + 2 : 0;
                walk.counts[of] = counts[i / 4];
                for (int k = 0; k < 5; k++)
                    for (int second = 0; second < 2; second++) {
                        try_next(try_next(walk, bonders[k], second), bonders[k], 1);
                        try_mark(walk, bonders[k], second);
                    }
            }
}

/* Records that hold the pair at their position or another one, at both ends of a list and within it. A look and a draw give what the record
 * holds, below the end; at the end both say spent, whatever it holds. A draw that gives a pair and a return, to the same position too, set
 * it right; setting a mark leaves it, and so does every call that is refused. */
static void wrong_pairs(void)
{
    for (uint32_t n = 1; n <= 31; n++)
        for (int i = 0; i < 50; i++) {
            uint64_t length = ref_length(n), second = length ? 1 : 0, middle = length / 2, last = length - second;
            const uint64_t at[] = { 0, second, middle, last, length };
            dw_walk walk;
            memset(&walk, 0, sizeof walk);
            walk.degree = n;
            walk.position = at[i / 10];
            walk.marks[0] = walk.position + 1;
            walk.marks[1] = middle + 1;
            walk.marks[7] = length + 1;
            walk.counts[7] = full;
            dw_walk right = with_next(walk), first = right, next = right;
            first.position = 0;
            next.position += next.position < length;
            first = with_next(first);
            next = with_next(next);
            const uint32_t pairs[][2] = { { right.f, right.g }, { right.g, right.f }, { first.f, first.g }, { next.f, next.g }, { 0, 0 },
                                          { 1, 0 }, { 0, right.g }, { right.f, 0 }, { 2, 4 }, { UINT32_MAX, UINT32_MAX } };
            walk.f = pairs[i % 10][0];
            walk.g = pairs[i % 10][1];
            try_next(walk, 0, 0);
            try_next(try_next(walk, 3, 1), 3, 1);
            try_next(try_next(walk, 3, 1), 3, 0);
            try_next(try_next(walk, 7, 1), 8, 1);
            try_next(try_mark(walk, 2, 0), 0, 0);
            try_mark(try_mark(walk, 8, 0), 2, 1);
            for (uint32_t mark = 0; mark < 8; mark++)
                try_next(try_mark(walk, mark, 1), 0, 1);
        }
}

/* The numbers of the file that a record is saved as, and the record that a file is read as. */
static void numbers_of(const dw_walk *walk, uint64_t numbers[SAVED_NUMBERS])
{
    numbers[OF_KIND] = 2;
    numbers[OF_DEGREE] = walk->degree;
    numbers[OF_POSITION] = walk->position;
    for (int i = 0; i < 8; i++) {
        numbers[OF_MARKS + i] = walk->marks[i];
        numbers[OF_COUNTS + i] = walk->counts[i];
    }
}

static dw_walk walk_of(const uint64_t numbers[SAVED_NUMBERS])
{
    dw_walk walk;
    memset(&walk, 0, sizeof walk);
    walk.degree = (uint32_t)numbers[OF_DEGREE];
    walk.position = numbers[OF_POSITION];
    for (int i = 0; i < 8; i++) {
        walk.marks[i] = numbers[OF_MARKS + i];
        walk.counts[i] = numbers[OF_COUNTS + i];
    }
    return with_next(walk);
}

/* Saves a record, whatever it holds, into so many bytes; gives what the call answers. The record is read alone. */
static uint32_t save_lent(dw_walk walk, size_t room)
{
    uint8_t file[SAVED_MOST];
    uint64_t numbers[SAVED_NUMBERS];
    numbers_of(&walk, numbers);
    size_t size = ref_save(numbers, file);
    uint32_t want = bad_walk(walk) ? 3 : room < size ? 4 : 0;
    const dw_walk *place = (const dw_walk *)lend_copy(0, &walk, sizeof walk);
    uint8_t *out = (uint8_t *)lend(1, room);
    count(dw_save(place, room == 0 && draw(2) ? NULL : out, room, lend_size(2)), want, "dw_save");
    came_back(0, NULL, 0, "dw_save: walk");
    came_back(1, file, want ? 0 : size, "dw_save: file");
    came_size(2, want, size, "dw_save: length");
    return want;
}

/* Reads a file, whatever it is, over a record of any bytes; gives what the call answers. The file is read alone. */
static uint32_t load_lent(const uint8_t *bytes, size_t size)
{
    uint64_t numbers[SAVED_NUMBERS];
    dw_walk walk;
    memset(&walk, 0, sizeof walk);
    uint32_t want = ref_load(bytes, size, numbers);
    if (want == 0)
        walk = walk_of(numbers);
    const uint8_t *file = (const uint8_t *)lend_copy(0, bytes, size);
    dw_walk *place = (dw_walk *)lend(1, sizeof walk);
    count(dw_load(size == 0 && draw(2) ? NULL : file, size, place), want, "dw_load");
    came_back(0, NULL, 0, "dw_load: file");
    came_walk(1, want, walk, "dw_load: walk");
    return want;
}

/* A good record is saved and read back, with any pair in it, and then the pair is right; what was read is saved as the same bytes. */
static void saved_and_back(dw_walk walk)
{
    uint8_t file[DW_SAVED_ROOM] = { 0 }, again[DW_SAVED_ROOM] = { 0 };
    size_t size = 0, size_again = 0;
    dw_walk back, right = with_next(walk);
    memset(&back, (int)draw(256), sizeof back);
    count(dw_save(&walk, file, sizeof file, &size), 0, "saved and back: save");
    expect(load_lent(file, size) == 0, "saved and back: as document 02 has it");
    count(dw_load(file, size, &back), 0, "saved and back: load");
    expect(back.degree == walk.degree && back.position == walk.position, "saved and back: position");
    expect(!memcmp(back.marks, walk.marks, sizeof walk.marks), "saved and back: marks");
    expect(!memcmp(back.counts, walk.counts, sizeof walk.counts), "saved and back: counts");
    expect(back.f == right.f && back.g == right.g, "saved and back: next pair");
    count(dw_save(&back, again, sizeof again, &size_again), 0, "saved and back: save again");
    expect(size == size_again && memcmp(file, again, size) == 0, "saved and back: same bytes");
}

/* A random record, good or not, and a random room, often next to the file's length. */
static void try_save(void)
{
    uint8_t file[SAVED_MOST];
    uint64_t numbers[SAVED_NUMBERS];
    dw_walk walk;
    memset(&walk, 0, sizeof walk);
    walk.degree = some_degree(1, 31);
    walk = some_record(walk);
    numbers_of(&walk, numbers);
    size_t size = ref_save(numbers, file);
    save_lent(walk, draw(4) ? size - 1 + draw(3) : draw(DW_SAVED_ROOM + 2));
    if (!bad_walk(walk))
        saved_and_back(walk);
}

/* The file of a random record, of either kind, that is often damaged at one place. */
static size_t some_saved(uint8_t *file)
{
    uint64_t numbers[SAVED_NUMBERS], values[LONG_MOST];
    uint8_t kind = (uint8_t)draw(8);
    dw_walk walk;
    memset(&walk, 0, sizeof walk);
    walk.degree = some_degree(1, 31);
    walk = some_record(walk);
    numbers_of(&walk, numbers);
    numbers[OF_KIND] = draw(32) ? 1 + draw(2) : draw(4) ? draw(4) : draw64();
    uint32_t field = draw(ref_saved_count(numbers[OF_KIND]));
    if (kind == 0)
        numbers[field] = values[draw((uint32_t)long_values(numbers[field], ref_length(31), values))];
    size_t size = ref_save(numbers, file), at = draw((uint32_t)size);
    if (kind == 1)
        return at;
    if (kind == 2)
        file[at] = (uint8_t)draw(256);
    if (kind == 3)
        file[size++] = (uint8_t)draw(256);
    if (kind == 4) {
        const odd_number *odd = &odd_numbers[draw(odd_count)];
        memcpy(file + at, odd->bytes, odd->size);
        return odd->ends ? at + odd->size : size;
    }
    return size;
}

/* A file of kind 2 that is read is saved again as the same bytes. */
static void try_load(void)
{
    uint8_t file[SAVED_MOST] = { 0 }, again[DW_SAVED_ROOM] = { 0 };
    make_odd_numbers();
    size_t size = some_saved(file), size_again = 0;
    if (load_lent(file, size) != 0 || file[0] != 2)
        return;
    dw_walk walk;
    count(dw_load(file, size, &walk), 0, "dw_load: once more");
    count(dw_save(&walk, again, sizeof again, &size_again), 0, "dw_load: saved again");
    expect(size == size_again && memcmp(file, again, size) == 0, "dw_load: the same bytes");
}

/* Files written by hand: of degree 3 and each kind; a count of 10^18 and of one more; and a degree whose low 32 bits are 2. */
static void saved_by_hand(void)
{
    static const uint8_t first[] = { 1, 3, 4 }, cut[] = { 1, 3 }, wide[] = { 1, 0x82, 0x80, 0x80, 0x80, 0x10, 0 };
    static const uint8_t second[] = { 2, 3, 10, 0, 1, 2, 11, 0, 0, 0, 5, 0, 1, 2, 0, 0, 5, 127, 0x80, 1 };
    uint8_t counted[] = { 2, 2, 1, 0, 0, 0, 0, 0, 0, 0, 0, 0, 0, 0, 0, 0, 0, 0, 0x80, 0x80, 0x90, 0xbb, 0xba, 0xd6, 0xad, 0xf0, 13 };
    uint8_t out[DW_SAVED_ROOM];
    size_t size = 0;
    dw_walk walk;
    count(dw_load(first, sizeof first, &walk), 0, "by hand: kind 1");
    expect(walk.degree == 3 && walk.position == 4 && walk.f == 13 && walk.g == 9 && walk.marks[0] == 0, "by hand: degree 3, position 4");
    count(dw_load(second, sizeof second, &walk), 0, "by hand: kind 2");
    expect(walk.position == 10 && walk.f == 0 && walk.g == 0, "by hand: the end of degree 3");
    expect(walk.marks[1] == 1 && walk.marks[3] == 11 && walk.marks[7] == 5, "by hand: marks");
    expect(walk.counts[1] == 1 && walk.counts[5] == 5 && walk.counts[7] == 128, "by hand: counts");
    count(dw_save(&walk, out, sizeof out, &size), 0, "by hand: saved");
    expect(size == sizeof second && memcmp(out, second, size) == 0, "by hand: the same bytes");
    count(dw_load(counted, sizeof counted, &walk), 0, "by hand: full");
    expect(walk.counts[7] == full && walk.f == 5 && walk.g == 7, "by hand: count of 10^18");
    counted[18]++;
    count(dw_load(counted, sizeof counted, &walk), 23, "by hand: more than full");
    count(dw_load(cut, sizeof cut, &walk), 9, "by hand: no position");
    count(dw_load(wide, sizeof wide, &walk), 3, "by hand: a degree of more than 32 bits");
    count(dw_load(first + 1, 2, &walk), 22, "by hand: no kind in front");
    expect(walk.degree == 2 && walk.counts[7] == full, "by hand: refused");
}

/* The numbers of a good file of a degree, all of different values where the list is long enough. */
static void good_numbers(uint64_t kind, uint32_t n, uint64_t numbers[SAVED_NUMBERS])
{
    uint64_t length = ref_length(n);
    numbers[OF_KIND] = kind;
    numbers[OF_DEGREE] = n;
    numbers[OF_POSITION] = length / 3;
    for (uint32_t i = 0; i < 8; i++) {
        numbers[OF_MARKS + i] = i == 5 ? 0 : i == 6 ? length + 1 : length - length / 9 * i % (length + 1);
        numbers[OF_COUNTS + i] = i == 0 ? full : full / 7 * i >> 8 * (i / 2);
    }
}

/* A file of a degree with one number in another form: as it is, and with the file's end behind that number. */
static void one_defect(const uint64_t *numbers, const defect *d)
{
    uint8_t file[SAVED_MOST];
    raw_saved raw = raw_saved_of(numbers);
    spoil_saved(&raw, d);
    expect(load_lent(file, put_saved(&raw, file)) == d->answer, "saved numbers: its answer");
    if (d->at >= raw.count || raw.numbers[d->at].ends)
        return;
    raw.numbers[d->at].ends = 1;
    uint32_t at_once = d->answer == 0 || d->answer == 3 ? 9 : d->answer;
    expect(load_lent(file, put_saved(&raw, file)) == (d->at + 1 < raw.count ? at_once : d->answer), "saved numbers: end behind it");
}

/* Whether the answer to a value depends on the other numbers: a kind that is the other one, and another degree that has a list. */
static int of_other_numbers(uint32_t at, uint64_t value)
{
    return (at == OF_KIND && (value == 1 || value == 2)) || (at == OF_DEGREE && value >= 1 && value <= 31);
}

/* Every number of a file in every odd form, with every long value and those about its limits; gives the defects that are tried together. */
static uint32_t each_number(const uint64_t *numbers, defect *few)
{
    uint32_t many = 0, n = (uint32_t)numbers[OF_DEGREE];
    for (uint32_t at = 0; at < ref_saved_count(numbers[OF_KIND]); at++) {
        uint64_t values[LONG_MOST];
        int long_count = long_values(numbers[at], at < OF_COUNTS ? ref_length(n) : full, values);
        for (uint32_t i = 0; i < odd_count; i++) {
            defect d = odd_defect(at, odd_numbers[i]);
            one_defect(numbers, &d);
            if (d.form.few)
                few[many++] = d;
        }
        for (int i = 0; i < long_count; i++) {
            uint32_t answer = answer_to(at, values[i], n);
            defect d = value_defect(at, values[i], answer);
            if (of_other_numbers(at, values[i]))
                continue;
            one_defect(numbers, &d);
            if (answer != 0 && (i % 6 == 5 || i > 26))
                few[many++] = d;
        }
    }
    return many;
}

/* Every two defects at different places: the one that is looked for first refuses. */
static void every_two_defects(const uint64_t *numbers, const defect *few, uint32_t many)
{
    uint8_t file[SAVED_MOST];
    for (uint32_t i = 0; i < many; i++)
        for (uint32_t k = i + 1; k < many; k++) {
            const defect *a = &few[i], *b = &few[k];
            raw_saved raw = raw_saved_of(numbers);
            if (a->at == b->at && a->at < SAVED_NUMBERS)
                continue;
            spoil_saved(&raw, a);
            spoil_saved(&raw, b);
            expect(load_lent(file, put_saved(&raw, file)) == (a->when <= b->when ? a : b)->answer, "saved numbers: the first refuses");
        }
}

static void saved_numbers(void)
{
    static const uint32_t degrees[] = { 1, 2, 4, 17, 31 };
    static const uint8_t behind[] = { 0, 1, 0x80, 0xff };
    static defect few[1024];
    make_odd_numbers();
    for (uint64_t kind = 1; kind <= 2; kind++)
        for (int i = 0; i < 5; i++) {
            uint64_t numbers[SAVED_NUMBERS] = { 0 };
            good_numbers(kind, degrees[i], numbers);
            uint32_t many = each_number(numbers, few);
            for (size_t k = 0; k < sizeof behind; k++) {
                few[many] = trailing_defect(behind[k]);
                one_defect(numbers, &few[many++]);
            }
            if (kind == 1 || i == 2 || i == 4)
                every_two_defects(numbers, few, many);
        }
}

/* Files with every value at every byte, with every part of them from the front, and with bytes more. */
static void changed_saved(const uint64_t *numbers)
{
    uint8_t file[SAVED_MOST] = { 0 };
    size_t size = ref_save(numbers, file);
    expect(load_lent(file, size) == 0, "saved files: whole");
    for (size_t at = 0; at < size; at++) {
        uint8_t kept = file[at];
        expect(load_lent(file, at) == 9, "saved files: cut");
        for (uint32_t value = 0; value < 256; value++) {
            file[at] = (uint8_t)value;
            load_lent(file, size);
        }
        file[at] = kept;
    }
    for (uint32_t value = 0; value < 256; value++) {
        file[size] = (uint8_t)value;
        expect(load_lent(file, size + 1 + value % 100) == 17, "saved files: bytes more");
    }
}

/* Each degree, in a file of either kind and with more above its 32 bits; and the position and each mark about the end of its list. */
static void saved_at_the_ends(void)
{
    uint8_t file[SAVED_MOST];
    for (uint32_t n = 0; n <= 40; n++)
        for (uint64_t kind = 1; kind <= 2; kind++)
            for (uint32_t at = OF_POSITION; at < ref_saved_count(kind) && at < OF_COUNTS; at++)
                for (uint64_t more = 0; more < 5; more++) {
                    uint64_t length = out_of_range(n) ? 0 : ref_length(n), numbers[SAVED_NUMBERS] = { kind, n };
                    numbers[at] = length + more - 1 + (length == 0 && more == 0);
                    int beyond = numbers[at] > length + (at > OF_POSITION);
                    expect(load_lent(file, ref_save(numbers, file)) == (out_of_range(n) || beyond ? 3u : 0), "saved at the ends: degree");
                    numbers[OF_DEGREE] += UINT64_C(1) << (32 + more);
                    expect(load_lent(file, ref_save(numbers, file)) == 3, "saved at the ends: degree above 32 bits");
                }
}

static void saved_files(void)
{
    static const uint32_t degrees[] = { 1, 2, 4, 31 };
    for (uint64_t kind = 1; kind <= 2; kind++)
        for (int i = 0; i < 4; i++) {
            uint64_t numbers[SAVED_NUMBERS] = { 0 };
            good_numbers(kind, degrees[i], numbers);
            changed_saved(numbers);
        }
    uint64_t longest[SAVED_NUMBERS] = { 2, 31, ref_length(31) };
    for (int i = 0; i < 8; i++) {
        longest[OF_MARKS + i] = ref_length(31) + 1 - (uint64_t)i;
        longest[OF_COUNTS + i] = full - (uint64_t)i;
    }
    uint8_t file[SAVED_MOST];
    expect(ref_save(longest, file) == DW_SAVED_ROOM, "saved files: the longest");
    changed_saved(longest);
    saved_at_the_ends();
}

/* Walks as a start leaves them, at each end of the list, and with one mark or one count alone: also a walk that kind 1 could hold is saved
 * as kind 2. */
static void saved_bare(uint32_t n)
{
    for (int i = 0; i < 17; i++)
        for (uint64_t end = 0; end < 2; end++) {
            uint64_t numbers[SAVED_NUMBERS] = { 2, n, end * ref_length(n) };
            uint8_t file[SAVED_MOST];
            if (i < 16)
                numbers[OF_MARKS + i] = 1;
            size_t size = ref_save(numbers, file);
            for (size_t room = size - 1; room <= size + 1; room++)
                expect(save_lent(walk_of(numbers), room) == (room < size ? 4u : 0), "saved rooms: bare");
            saved_and_back(walk_of(numbers));
        }
}

/* Good records into every room up to two bytes more than the longest file has; each mark and count that number 3 refuses, whatever the
 * room is; and every file there and back. */
static void saved_rooms(void)
{
    for (uint32_t n = 0; n <= 32; n++) {
        uint64_t numbers[SAVED_NUMBERS] = { 0 };
        dw_walk walk;
        memset(&walk, 0, sizeof walk);
        walk.degree = n;
        if (!out_of_range(n)) {
            good_numbers(2, n, numbers);
            walk = walk_of(numbers);
            saved_and_back(walk);
            saved_bare(n);
        }
        for (size_t room = 0; room <= DW_SAVED_ROOM + 2; room++) {
            save_lent(walk, room);
            dw_walk bad[4] = { walk, walk, walk, walk };
            bad[0].degree = room % 2 ? 0 : 32 + (uint32_t)room;
            bad[1].position = out_of_range(n) ? 0 : ref_length(n) + 1;
            bad[2].marks[room % 8] = out_of_range(n) ? 0 : ref_length(n) + 2;
            bad[3].counts[room % 8] = full + 1;
            for (int i = 0; i < 4; i++)
                expect(save_lent(bad[i], room) == 3, "saved rooms: bad record");
        }
    }
}

/* What the release before marks and counts answered, from a degree and a position alone: the pair call's pair, or spent. */
static uint32_t old_release(uint32_t n, uint64_t position, uint32_t *f, uint32_t *g)
{
    if (position == ref_length(n))
        return DW_SPENT;
    count(dw_pair_at(n, position, f, g), 0, "old files: pair");
    return 0;
}

/* Its file with a byte 1 in front: looks and draws by any bonder go on as it would have, marks set or not, and the counts begin at 0. */
static void read_old(uint32_t n, uint64_t position)
{
    const uint64_t numbers[OF_MARKS] = { 1, n, position };
    uint64_t given[8] = { 0 };
    uint32_t f, g, want_f, want_g;
    uint8_t file[SAVED_MOST];
    dw_walk walk;
    memset(&walk, (int)draw(256), sizeof walk);
    size_t size = ref_save(numbers, file);
    expect(load_lent(file, size) == 0, "old files: read");
    count(dw_load(file, size, &walk), 0, "old files: load");
    for (int i = 0; i < 40; i++) {
        uint32_t bonder = draw(8), moves = draw(3), want = old_release(n, position, &want_f, &want_g);
        if (draw(4) == 0)
            count(dw_set_mark(&walk, draw(8)), 0, "old files: mark");
        count(moves ? dw_draw(&walk, bonder, &f, &g) : dw_look(&walk, &f, &g), want, "old files: next");
        expect(want != 0 || (f == want_f && g == want_g), "old files: same pair");
        given[bonder] += moves && want == 0;
        position += moves && want == 0;
        expect(walk.degree == n && walk.position == position && !memcmp(walk.counts, given, sizeof given), "old files: walk");
    }
}

static void old_files(void)
{
    for (uint32_t n = 1; n <= 31; n++)
        for (uint64_t i = 0; i < 30; i++) {
            uint64_t length = ref_length(n), near_end = length - (i < length ? i : length);
            read_old(n, i % 3 == 0 ? near_end : i % 3 == 1 ? i % (length + 1) : draw64() % (length + 1));
        }
}

/* What the calls alone tell of a walk: where it is, which of its marks are set and to what place, and how many pairs each bonder was
 * given. Each pair has the number of returns and readings that there were before its last draw. */
typedef struct walk_model {
    uint32_t n;
    uint64_t place, marked[8], given[8];
    int set[8];
} walk_model;

static uint32_t drawn_in[64][64], returns;

static void holds_model(const dw_walk *walk, const walk_model *model)
{
    expect(walk->degree == model->n && walk->position == model->place, "whole walk: position");
    holds_next(*walk, "whole walk: next pair");
    for (int m = 0; m < 8; m++) {
        expect(walk->marks[m] == (model->set[m] ? model->marked[m] + 1 : 0), "whole walk: marks");
        expect(walk->counts[m] == model->given[m], "whole walk: counts");
    }
}

static void whole_mark(dw_walk *walk, walk_model *model, uint32_t number, int back)
{
    if (back) {
        count(dw_go_back(walk, number), number > 7 ? 18 : model->set[number] ? 0 : 19, "whole walk: back");
        if (number <= 7 && model->set[number]) {
            model->place = model->marked[number];
            returns++;
        }
        return;
    }
    count(dw_set_mark(walk, number), number > 7 ? 18 : 0, "whole walk: set");
    if (number <= 7) {
        model->set[number] = 1;
        model->marked[number] = model->place;
    }
}

static void whole_next(dw_walk *walk, walk_model *model, uint32_t number, int moves)
{
    uint32_t f, g, pair[2] = { 0, 0 };
    if (moves && number > 7) {
        count(dw_draw(walk, number, &f, &g), 20, "whole walk: no bonder");
        return;
    }
    int spent = model->place == ref_length(model->n);
    count(moves ? dw_draw(walk, number, &f, &g) : dw_look(walk, &f, &g), spent ? DW_SPENT : 0, "whole walk: next");
    if (spent)
        return;
    ref_pair(model->n, model->place, &pair[0], &pair[1]);
    expect(f == pair[0] && g == pair[1], "whole walk: pair");
    if (moves) {
        model->place++;
        model->given[number]++;
        expect(drawn_in[f][g] != returns, "whole walk: repeat");
        drawn_in[f][g] = returns;
    }
}

/* A file of a walk, and what the calls had told of it when it was saved. */
typedef struct kept_walk {
    uint8_t file[DW_SAVED_ROOM];
    size_t size;
    walk_model model;
} kept_walk;

/* The walk is saved, or the last file read again, over any bytes: then the walk is what it was, and a pair may come again. A file without
 * its last byte leaves the walk, and so does saving. */
static void whole_saved(dw_walk *walk, walk_model *model, kept_walk *kept, uint32_t kind)
{
    if (kind == 0) {
        count(dw_save(walk, kept->file, sizeof kept->file, &kept->size), 0, "whole walk: save");
        kept->model = *model;
    } else if (kind == 1) {
        count(dw_load(kept->file, kept->size - 1, walk), 9, "whole walk: file cut");
    } else {
        memset(walk, (int)draw(256), sizeof *walk);
        count(dw_load(kept->file, kept->size, walk), 0, "whole walk: load");
        *model = kept->model;
        returns++;
    }
}

/* The beginning of a walk by a start or by a file of either kind, and what it tells. The file is kept. */
static void begin_walk(dw_walk *walk, walk_model *model, kept_walk *kept)
{
    uint64_t numbers[SAVED_NUMBERS] = { draw(3), 1 + draw(5) };
    memset(model, 0, sizeof *model);
    model->n = (uint32_t)numbers[OF_DEGREE];
    if (numbers[OF_KIND] == 0) {
        count(dw_start(model->n, walk), 0, "whole walk: start");
        count(dw_save(walk, kept->file, sizeof kept->file, &kept->size), 0, "whole walk: first save");
    } else {
        numbers[OF_POSITION] = model->place = draw64() % (ref_length(model->n) + 1);
        for (int i = 0; numbers[OF_KIND] == 2 && i < 8; i++) {
            model->set[i] = (int)draw(2);
            model->marked[i] = draw64() % (ref_length(model->n) + 1);
            numbers[OF_MARKS + i] = model->set[i] ? model->marked[i] + 1 : 0;
            numbers[OF_COUNTS + i] = model->given[i] = draw64() % (full - 1000);
        }
        kept->size = ref_save(numbers, kept->file);
        count(dw_load(kept->file, kept->size, walk), 0, "whole walk: first load");
    }
    kept->model = *model;
}

/* A walk of many calls, from a start or a file on, against a model that sees the calls alone. A pair comes again only after a return or a
 * reading, and the record always holds the one at its position, or 0 and 0 at the end. It has no guard bytes here. */
static void try_whole_walk(void)
{
    dw_walk walk;
    walk_model model;
    kept_walk kept;
    memset(&walk, (int)draw(256), sizeof walk);
    memset(&kept, 0, sizeof kept);
    memset(drawn_in, 0, sizeof drawn_in);
    returns = 1;
    begin_walk(&walk, &model, &kept);
    for (int i = 0; i < 600; i++) {
        holds_model(&walk, &model);
        uint32_t kind = draw(26), number = some_number();
        if (kind < 2)
            whole_mark(&walk, &model, number, kind == 1);
        else if (kind < 4)
            whole_saved(&walk, &model, &kept, draw(3));
        else
            whole_next(&walk, &model, number, kind > 6);
    }
    holds_model(&walk, &model);
}

/* Some levels: rising in steps, 0 and 65535 among them now and then; often shuffled; now and then all with one remainder by 1024; sometimes
 * with one that is equal to an earlier one, at any distance. */
static void some_levels(uint16_t *levels, size_t count)
{
    uint32_t level = draw(2) ? draw(300) : 0, step = draw(16) ? 0 : 1024;
    for (size_t i = 0; i < 64; i++) {
        levels[i] = (uint16_t)level;
        level += step ? step : 1 + draw(1000);
    }
    if (count > 0 && draw(8) == 0)
        levels[count - 1] = 65535;
    for (size_t i = draw(4) ? count : 0; i > 1; i--) {
        size_t j = draw((uint32_t)i);
        uint16_t kept = levels[i - 1];
        levels[i - 1] = levels[j];
        levels[j] = kept;
    }
    if (count > 1 && draw(12) == 0) {
        size_t later = 1 + draw((uint32_t)count - 1);
        levels[later] = levels[draw((uint32_t)later)];
    }
}

/* A version that is neither 1 nor 2. */
static uint32_t some_version(void)
{
    static const uint32_t versions[8] = { 0, 3, 4, 255, 257, 258, UINT32_C(1) << 31, UINT32_MAX };
    return versions[draw(8)];
}

/* A content that is mostly good, and its name. At version 1 the third code is anything and the third list of any length. */
static void some_content(ref_trial *t, uint8_t *name, size_t counts[3])
{
    t->version = draw(32) ? 1 + draw(2) : some_version();
    t->n = some_degree(t->version == 2 && draw(16) ? 3 : 2, 6);
    some_codes(t->n, t->codes, ref_settings(t->version));
    for (int list = 0; list < 3; list++) {
        counts[list] = t->n > 6 ? draw(65) : (size_t)1 << t->n;
        if (draw(32) == 0)
            counts[list] = draw(65);
        some_levels(t->levels[list], counts[list]);
    }
    if (t->version == 1 && draw(4)) {
        t->codes[2] = draw(2) ? t->codes[draw(2)] : (uint32_t)draw64();
        counts[2] = draw(2) ? draw(65) : draw(2) ? 0 : draw(2000);
    }
    t->size = draw(32) ? draw(41) : 41 + draw(3);
    for (size_t i = 0; i < t->size; i++)
        name[i] = (uint8_t)(32 + draw(95));
    if (draw(32) == 0)
        name[draw(44)] = (uint8_t)draw(256);
}

/* Writes a content, whatever it is, into so many bytes more or less than it needs; gives what the call answers. A list of more than 64
 * levels is lent with any, and one of none is now and then no list at all. */
static uint32_t write_lent(const ref_trial *t, const uint8_t *name, const size_t counts[3], int more)
{
    static uint8_t encoded[1024];
    const uint16_t *lists[3];
    uint32_t want = ref_content(t, name, counts);
    size_t size = want ? 64 : ref_encode(t, name, counts, encoded), room = more < 0 ? size - (size_t)-more : size + (size_t)more;
    want = want ? want : more < 0 ? 4 : 0;
    for (int list = 0; list < 3; list++) {
        size_t bytes = 2 * counts[list];
        lists[list] = (const uint16_t *)(counts[list] > 64 ? lend(list, bytes) : lend_copy(list, t->levels[list], bytes));
        lists[list] = counts[list] == 0 && draw(2) ? NULL : lists[list];
    }
    const uint8_t *lent_name = (const uint8_t *)lend_copy(3, name, t->size);
    uint8_t *out = (uint8_t *)lend(4, room);
    uint32_t got = dw_write(t->version, t->n, t->codes[0], t->codes[1], t->codes[2], lists[0], counts[0], lists[1], counts[1], lists[2],
                            counts[2], lent_name, t->size, out, room, lend_size(5));
    count(got, want, "dw_write");
    came_back(0, NULL, 0, "dw_write: powers");
    came_back(1, NULL, 0, "dw_write: forces");
    came_back(2, NULL, 0, "dw_write: times");
    came_back(3, NULL, 0, "dw_write: name");
    came_back(4, encoded, want ? 0 : size, "dw_write: file");
    came_size(5, want, size, "dw_write: length");
    return want;
}

static void try_write(void)
{
    ref_trial t;
    uint8_t name[64] = { 0 };
    size_t counts[3];
    some_content(&t, name, counts);
    write_lent(&t, name, counts, draw(8) ? (int)draw(3) : -1 - (int)draw(4));
}

/* A file that is often damaged at one place. */
static size_t some_file(uint8_t *file)
{
    uint64_t values[LONG_MOST];
    ref_trial t;
    uint8_t name[64] = { 0 };
    size_t counts[3];
    some_content(&t, name, counts);
    counts[2] = counts[2] > 64 ? 64 : counts[2];
    size_t size = ref_encode(&t, name, counts, file);
    uint32_t kind = draw(8), at = draw((uint32_t)size), head = draw(5);
    if (kind == 0)
        return at;
    if (kind == 1)
        file[draw(2) ? at : head] = (uint8_t)draw(256);
    if (kind == 2) {
        const odd_number *odd = &odd_numbers[draw(odd_count)];
        memcpy(file + (draw(2) ? at : head), odd->bytes, odd->size);
    }
    if (kind == 3)
        file[size++] = (uint8_t)draw(256);
    if (kind == 4 && draw(2))
        ref_put(file, draw(2) ? at : head, values[draw((uint32_t)long_values(t.n, 65535, values))]);
    return size;
}

/* Reads a file, whatever it is, into lists of so many numbers; gives what the call answers. Version 1 leaves the third list and h. */
static uint32_t read_lent(const uint8_t *bytes, size_t size, const size_t rooms[3])
{
    ref_trial t;
    memset(&t, 0, sizeof t);
    uint32_t want = rooms[0] < 64 || rooms[1] < 64 || rooms[2] < 64 ? 4 : ref_read(bytes, size, &t);
    size_t levels = want ? 0 : (size_t)2 << t.n;
    const uint8_t *file = (const uint8_t *)lend_copy(3, bytes, size);
    uint16_t *powers = (uint16_t *)lend(0, 2 * rooms[0]), *forces = (uint16_t *)lend(1, 2 * rooms[1]);
    uint16_t *times = (uint16_t *)lend(2, 2 * rooms[2]);
    uint32_t *n = lend_u32(4), *f = lend_u32(5), *g = lend_u32(6), *version = lend_u32(9), *h = lend_u32(10);
    size_t *name = lend_size(7), *name_size = lend_size(8);
    uint32_t got = dw_read(file, size, powers, rooms[0], forces, rooms[1], times, rooms[2], n, f, g, name, name_size, version, h);
    count(got, want, "dw_read");
    came_back(0, t.levels[0], levels, "dw_read: powers");
    came_back(1, t.levels[1], levels, "dw_read: forces");
    came_back(2, t.levels[2], t.version == 2 ? levels : 0, "dw_read: times");
    came_back(3, NULL, 0, "dw_read: file");
    came_u32(4, want, t.n, "dw_read: degree");
    came_u32(5, want, t.codes[0], "dw_read: f");
    came_u32(6, want, t.codes[1], "dw_read: g");
    came_size(7, want, t.name, "dw_read: name's offset");
    came_size(8, want, t.size, "dw_read: name's length");
    came_u32(9, want, t.version, "dw_read: version");
    came_u32(10, want || t.version != 2, t.codes[2], "dw_read: h");
    return want;
}

static const size_t enough[3] = { 64, 64, 64 };

static void try_read(void)
{
    uint8_t bytes[1024] = { 0 };
    make_odd_numbers();
    size_t size = some_file(bytes), rooms[3];
    for (int i = 0; i < 3; i++)
        rooms[i] = draw(48) ? 64 + draw(2) : draw(65);
    read_lent(bytes, size, rooms);
}

/* The list in the paper's own order: compositions, then intermediate bits, then words. */
static uint64_t listed;

static void list_words(uint32_t n, uint32_t k, const uint32_t *degrees, uint32_t bits)
{
    for (uint32_t word = 0; word < 1u << k; word++) {
        uint32_t at = 2, left = n - k, f, g;
        uint64_t r = 1, s = 0, place;
        for (uint32_t i = 0; i < k; i++) {
            uint32_t letter = word >> (k - 1 - i) & 1;
            at = ref_next(at, letter);
            left -= degrees[i] - 1;
            uint64_t quotient = (1u << degrees[i]) + 2 * (bits >> left & ((1u << (degrees[i] - 1)) - 1)) + letter;
            uint64_t next = ref_times(quotient, r) ^ s;
            s = r;
            r = next;
        }
        if (at != 2)
            continue;
        count(dw_pair_at(n, listed, &f, &g), 0, "list: served");
        expect(f == (r ^ s) && g == r && ref_coprime(n, f, g) == 0, "list: pair");
        count(dw_position_of(n, f, g, &place), 0, "list: position served");
        expect(place == listed++, "list: position");
    }
}

static void list_degrees(uint32_t n, uint32_t k, uint32_t *degrees, uint32_t i, uint32_t left)
{
    if (i == k) {
        for (uint32_t bits = 0; left == 0 && bits < 1u << (n - k); bits++)
            list_words(n, k, degrees, bits);
        return;
    }
    for (degrees[i] = 1; degrees[i] <= left; degrees[i]++)
        list_degrees(n, k, degrees, i + 1, left - degrees[i]);
}

static void whole_lists(void)
{
    uint32_t degrees[32];
    for (uint32_t n = 1; n <= 8; n++) {
        uint64_t pairs;
        listed = 0;
        for (uint32_t k = 2; k <= n; k++)
            list_degrees(n, k, degrees, 0, n);
        count(dw_length(n, &pairs), 0, "list: length served");
        expect(pairs == listed, "list: length");
    }
}

/* The second lists of small degrees: of the list, the pairs whose swap has not come before. Both orders of a pair are found side by side.
 * Then, at every degree, entries that are refused, among them some whose double wraps round to a position of the list. */
static void second_lists(void)
{
    static uint8_t came[512][512];
    uint32_t f, g, first, second;
    for (uint32_t n = 1; n <= 8; n++) {
        uint64_t entry = 0, place, pairs = ref_length(n);
        for (uint64_t position = 0; position < pairs; position++) {
            ref_pair(n, position, &f, &g);
            came[f][g] = 1;
            count(dw_position_of(n, g, f, &place), 0, "second list: swapped");
            expect(place == (position ^ 1), "second list: other position");
            if (came[g][f])
                continue;
            count(dw_unordered_pair_at(n, entry++, &first, &second), 0, "second list: served");
            expect(first == f && second == g, "second list: pair");
        }
        expect(2 * entry == pairs, "second list: length");
    }
    for (uint32_t n = 1; n <= 31; n++) {
        const uint64_t half = ref_length(n) / 2, top = UINT64_C(1) << 63, refused[] = { half, top, top + 1, top + half - 1, UINT64_MAX };
        for (int i = 0; i < 5; i++)
            count(dw_unordered_pair_at(n, refused[i], &first, &second), 2, "second list: end");
    }
}

/* Every triple of every degree. Each two of its codes have a position in the list, in either order; sheets are made of some. Then positions
 * that are spent and degrees that are refused, at several positions, among them some whose lower bits alone are those of a good one. */
static void whole_triples(void)
{
    static const int two[3][2] = { { 0, 1 }, { 0, 2 }, { 1, 2 } };
    static const uint32_t outside[] = { 0, 1, 7, 31, 32, 35, 259, UINT32_MAX };
    static uint8_t sheet[DW_SHEET_ROOM];
    const uint64_t half = UINT64_C(1) << 32, top = UINT64_C(1) << 63;
    uint32_t codes[3] = { 0 };
    uint64_t place;
    for (uint32_t n = 2; n <= 6; n++) {
        for (uint64_t position = 0; position < triples[n]; position++) {
            expect(triple_at(n, position, codes) == 0, "triples: served");
            for (int i = 0; i < 3; i++) {
                uint32_t one = codes[two[i][0]], other = codes[two[i][1]];
                count(dw_position_of(n, one, other, &place), 0, "triples: pair");
                count(dw_position_of(n, other, one, &place), 0, "triples: swapped pair");
                if (position % 64 == 11)
                    count(dw_sheet(n, one, other, sheet, sizeof sheet), 0, "triples: sheet");
            }
        }
        const uint64_t end = triples[n], spent[] = { end, end + 1, 1 << 16, half - 1, half, half + end / 2, top, top + 1, UINT64_MAX };
        for (int i = 0; i < 9; i++)
            expect(triple_at(n, spent[i], codes) == DW_SPENT, "triples: spent");
    }
    for (int i = 0; i < 8; i++) {
        const uint64_t any[] = { 0, 1, 11573, 11574, half, top, UINT64_MAX };
        for (int k = 0; k < 7; k++)
            expect(triple_at(outside[i], any[k], codes) == 12, "triples: degree");
    }
}

/* Every position of small degrees: plain Euclid counts n + 1 quotients from the given one on, and fewer before it. */
static void whole_chains(void)
{
    static const uint64_t firsts[9] = { 9, 9, 0, 8, 36, 160, 660, 2688, 10836 };
    for (uint32_t n = 1; n <= 8; n++) {
        uint64_t many = 9, first = 9, reached = 0, pairs = ref_length(n);
        count(dw_longest_chains(n, &many, &first), 0, "longest: served");
        expect(first == firsts[n], "longest: first");
        for (uint64_t position = 0; position < pairs; position++) {
            uint32_t f, g, quotients[64], divisor;
            size_t counted;
            count(dw_pair_at(n, position, &f, &g), 0, "longest: pair");
            count(dw_chain(n, f, g, quotients, DW_CHAIN_ROOM, &counted, &divisor), 0, "longest: chain");
            size_t length = ref_chain(f, g, quotients, &divisor);
            expect(length == counted && length <= n + 1 && (length == n + 1) == (position >= first), "longest: quotients");
            reached += length == n + 1;
        }
        expect(reached == many, "longest: count");
    }
}

/* A good content without a name: the first pair or triple of its degree, and levels of one to three bytes in no order. */
static ref_trial plain_content(uint32_t version, uint32_t n)
{
    ref_trial t;
    memset(&t, 0, sizeof t);
    t.version = version;
    t.n = n;
    if (version == 2)
        expect(ref_triple(n, 0, t.codes) == 0, "content: triple");
    else
        ref_pair(n, 0, &t.codes[0], &t.codes[1]);
    for (uint32_t i = 0; i < 64; i++)
        for (uint32_t list = 0; list < 3; list++)
            t.levels[list][i] = (uint16_t)(i * 40503 + 7 + list);
    return t;
}

/* The writer by a content alone, each list of its right length, into DW_FILE_ROOM bytes. */
static uint32_t write_content(const ref_trial *t, const uint8_t *name, uint8_t *file, size_t *length)
{
    size_t order = (size_t)1 << t->n, third = t->version == 1 ? 0 : order;
    return dw_write(t->version, t->n, t->codes[0], t->codes[1], t->codes[2], t->levels[0], order, t->levels[1], order,
                    third ? t->levels[2] : NULL, third, name, t->size, file, DW_FILE_ROOM, length);
}

/* The longest files there are, of each version; the longer is as long as the header says. A name of 41 bytes is refused. */
static void longest_file(void)
{
    uint8_t name[41], file[DW_FILE_ROOM];
    size_t length = 0;
    memset(name, 'A', sizeof name);
    for (uint32_t version = 1; version <= 2; version++) {
        ref_trial t = plain_content(version, 6);
        for (uint32_t i = 0; i < 64; i++)
            t.levels[0][i] = t.levels[1][i] = t.levels[2][i] = (uint16_t)(65472 + i);
        t.size = 40;
        count(write_content(&t, name, file, &length), 0, "longest file");
        expect(length == (version == 1 ? 429 : 622) && length <= sizeof file, "longest file: length");
        expect(read_lent(file, length, enough) == 0, "longest file: read");
        t.size = 41;
        count(write_content(&t, name, file, &length), 15, "name of 41 bytes");
    }
}

/* The file of a content up to and with a level of one of its lists. */
static size_t front_of(const ref_trial *t, int list, size_t place, uint8_t *file)
{
    size_t at = ref_put(file, ref_put(file, 0, t->version), t->n);
    for (int i = 0; i < ref_settings(t->version); i++)
        at = ref_put(file, at, t->codes[i]);
    for (int l = 0; l <= list; l++)
        for (size_t i = 0; l < list ? i < (size_t)1 << t->n : i <= place; i++)
            at = ref_put(file, at, t->levels[l][i]);
    return at;
}

/* A file is refused with the number, and levels that are lent keep what they are. */
static void refused_file(const uint8_t *file, size_t length, uint32_t number, const char *what)
{
    uint16_t lent[3][DW_LEVELS_ROOM], kept[3][DW_LEVELS_ROOM];
    uint32_t n, f, g, h, version;
    size_t at, size;
    memset(lent, 165, sizeof lent);
    memset(kept, 165, sizeof kept);
    uint32_t got = dw_read(file, length, lent[0], DW_LEVELS_ROOM, lent[1], DW_LEVELS_ROOM, lent[2], DW_LEVELS_ROOM, &n, &f, &g, &at, &size,
                           &version, &h);
    count(got, number, what);
    expect(memcmp(lent, kept, sizeof lent) == 0, what);
}

/* One level, at `place`, is equal to an earlier one: 14 in the writer, and in the reader whatever stands behind it; what stands before it
 * is refused first. */
static void repeated_level(ref_trial *t, int list, size_t place)
{
    static const uint8_t behind[3][3] = { { 0x80, 0x80, 4 }, { 0x82, 0, 0 }, { 0xff, 0xff, 0xff } };
    uint8_t file[1024], out[DW_FILE_ROOM];
    size_t end = front_of(t, list, place, file), length;
    count(write_content(t, NULL, out, &length), 14, "repeated level: written");
    refused_file(file, end, 14, "repeated level: end of the file");
    refused_file(file, end - 1, 9, "repeated level: not whole");
    for (int i = 0; i < 3; i++) {
        memcpy(file + end, behind[i], 3);
        refused_file(file, end + 3, 14, "repeated level: bad number behind");
    }
    file[2] ^= 1;
    refused_file(file, end, 7, "repeated level: even code before");
}

/* Levels that differ, in no order, are written and read back. */
static void shuffled_levels(const ref_trial *t)
{
    uint16_t lent[3][DW_LEVELS_ROOM];
    uint8_t file[DW_FILE_ROOM];
    size_t length = 0, at, size;
    uint32_t n, version, codes[3] = { 0, 0, 0 };
    memset(lent, 165, sizeof lent);
    count(write_content(t, NULL, file, &length), 0, "shuffled: written");
    uint32_t got = dw_read(file, length, lent[0], DW_LEVELS_ROOM, lent[1], DW_LEVELS_ROOM, lent[2], DW_LEVELS_ROOM, &n, &codes[0],
                           &codes[1], &at, &size, &version, &codes[2]);
    count(got, 0, "shuffled: read");
    expect(version == t->version && n == t->n && memcmp(codes, t->codes, sizeof codes) == 0, "shuffled: head");
    for (int list = 0; list < ref_settings(version); list++)
        expect(memcmp(lent[list], t->levels[list], (size_t)2 << n) == 0, "shuffled: levels");
    expect(version == 2 || lent[2][0] == 165 * 257, "shuffled: no times");
}

/* Every two places of a list, in each list, with 0, 65535 or another level at both; and lists with that level at one place alone. */
static void repeated_levels(void)
{
    for (uint32_t version = 1; version <= 2; version++)
        for (uint32_t n = version + 1; n <= 6; n++)
            for (uint32_t pair = 0, order = 1u << n, lists = version + 1; pair < lists * order * order; pair++) {
                uint32_t list = pair % lists, place = pair / lists % order, earlier = pair / lists / order, kind = (place + earlier) % 3;
                ref_trial t = plain_content(version, n);
                if (kind)
                    t.levels[list][earlier] = kind == 1 ? 0 : 65535;
                if (earlier < place) {
                    t.levels[list][place] = t.levels[list][earlier];
                    repeated_level(&t, (int)list, place);
                } else
                    shuffled_levels(&t);
            }
}

/* Three codes of which each two are coprime: the sheet and the file are made. */
static void served_codes(uint32_t n, const uint32_t codes[3])
{
    static uint8_t sheet[DW_SHEET3_ROOM], file[DW_FILE_ROOM];
    size_t length;
    ref_trial t = plain_content(2, n);
    memcpy(t.codes, codes, sizeof t.codes);
    count(dw_sheet3(n, codes[0], codes[1], codes[2], sheet, sizeof sheet), 0, "three codes: sheet served");
    count(write_content(&t, NULL, file, &length), 0, "three codes: file served");
}

/* Three codes: every three numbers at degrees 2 to 4, good and bad, and every three odd codes of degrees 5 and 6. The sheet and the writer
 * refuse the codes before the room and the lists that they lack, and the reader before what is missing behind them; each tells the others'
 * number. At version 1 the third one is not looked at. */
static void every_three_codes(void)
{
    for (uint32_t n = 2; n <= 6; n++) {
        uint32_t low = n < 5 ? 0 : (1u << n) + 1, step = n < 5 ? 1 : 2, end = (2u << n) + (n < 5 ? 2 : 0), codes[3];
        for (codes[0] = low; codes[0] < end; codes[0] += step)
            for (codes[1] = low; codes[1] < end; codes[1] += step)
                for (codes[2] = low; codes[2] < end; codes[2] += step) {
                    uint32_t three = ref_pairwise(n, codes, 3), two = ref_pairwise(n, codes, 2), f = codes[0], g = codes[1], h = codes[2];
                    uint8_t file[16];
                    size_t at = ref_put(file, ref_put(file, ref_put(file, ref_put(file, ref_put(file, 0, 2), n), f), g), h), length;
                    count(dw_sheet3(n, f, g, h, NULL, 0), three ? three : 4, "three codes: sheet");
                    uint32_t wrote = dw_write(2, n, f, g, h, NULL, 0, NULL, 0, NULL, 0, NULL, 0, NULL, 0, &length);
                    count(wrote, three ? three : 4, "three codes: file");
                    wrote = dw_write(1, n, f, g, h, NULL, 0, NULL, 0, NULL, 0, NULL, 0, NULL, 0, &length);
                    count(wrote, two ? two : 4, "three codes: file of version 1");
                    refused_file(file, at, three ? three : 9, "three codes: read");
                    if (three == 0)
                        served_codes(n, codes);
                }
    }
}

/* Whether two squares of a sheet of three cross: each pair of symbols is at one site. */
static int crossed(const uint8_t *sheet, uint32_t n, int one, int other)
{
    static uint8_t met[4096];
    uint32_t sites = 1u << 2 * n, many = 0;
    memset(met, 0, sizeof met);
    for (uint32_t site = 0; site < sites; site++) {
        uint32_t a = sheet[3 * site + (uint32_t)one], b = sheet[3 * site + (uint32_t)other];
        if (a >> n != 0 || b >> n != 0)
            return 0;
        many += !met[a << n | b];
        met[a << n | b] = 1;
    }
    return many == sites;
}

/* The trial of three codes: its sheet, whose bytes are the site call's symbols, and of which each two squares cross; and its file, which is
 * read back. */
static void whole_trial(uint32_t n, const uint32_t codes[3])
{
    static const int two[3][2] = { { 0, 1 }, { 0, 2 }, { 1, 2 } };
    const uint8_t *sheet = memory[0].bytes + GUARD;
    uint8_t file[DW_FILE_ROOM] = { 0 };
    size_t room = (size_t)3 << 2 * n, order = (size_t)1 << n, length;
    const size_t counts[3] = { order, order, order };
    expect(lay(n, codes, 3, room - 1) == 4, "three squares: no room");
    expect(lay(n, codes, 3, room) == 0, "three squares: served");
    for (int i = 0; i < 3; i++) {
        int a = two[i][0], b = two[i][1];
        expect(crossed(sheet, n, a, b), "three squares: each two cross");
        for (uint32_t site = 0; site < 1u << 2 * n; site++) {
            uint32_t first, second;
            count(dw_site(n, codes[a], codes[b], site >> n, site % (1u << n), &first, &second), 0, "three squares: site");
            expect(first == sheet[3 * site + (uint32_t)a] && second == sheet[3 * site + (uint32_t)b], "three squares: symbols");
        }
    }
    ref_trial t = plain_content(2, n);
    memcpy(t.codes, codes, sizeof t.codes);
    expect(write_lent(&t, file, counts, 0) == 0, "three squares: written");
    count(write_content(&t, NULL, file, &length), 0, "three squares: file");
    expect(read_lent(file, length, enough) == 0, "three squares: read");
}

/* All triples of degrees 3 and 4, and some of 5 and 6. */
static void three_squares(void)
{
    uint32_t codes[3] = { 0 };
    for (uint32_t n = 3; n <= 6; n++)
        for (uint64_t i = 0; i < (n < 5 ? triples[n] : 30); i++) {
            expect(triple_at(n, n < 5 ? i : draw64() % triples[n], codes) == 0, "three squares: triple");
            whole_trial(n, codes);
        }
}

/* What can be wrong with a content, in the order in which the writer refuses it; a sheet of three has the causes of codes and room. */
enum { VERSION, DEGREE, DEGREE_F, EVEN_F, DEGREE_G, EVEN_G, DEGREE_H, EVEN_H, SHARED_FG, SHARED_FH, SHARED_GH, MANY_POWERS, MANY_FORCES,
       MANY_TIMES, EQUAL_POWERS, EQUAL_FORCES, EQUAL_TIMES, LONG_NAME, NAME_BYTE, ROOM, CAUSES };
static const uint32_t number_of[CAUSES] = { 11, 12, 6, 7, 6, 7, 6, 7, 8, 8, 8, 4, 4, 4, 14, 14, 14, 15, 16, 4 };

/* Whether a cause is of the third code or list, which version 1 does not have. */
static int of_third(int cause)
{
    return cause == DEGREE_H || cause == EVEN_H || cause == SHARED_FH || cause == SHARED_GH || cause == MANY_TIMES || cause == EQUAL_TIMES;
}

/* The first of the causes that a version has, as its number; 0 if there is none. */
static uint32_t first_of(uint64_t wrong, uint32_t version)
{
    for (int cause = 0; cause < CAUSES; cause++)
        if (wrong & bit((uint32_t)cause) && !(version == 1 && of_third(cause)))
            return number_of[cause];
    return 0;
}

static void spoil_codes(uint64_t wrong, uint32_t n, uint32_t codes[3])
{
    if (wrong & bit(SHARED_FG))
        codes[1] = codes[0];
    if (wrong & (bit(SHARED_FH) | bit(SHARED_GH)))
        codes[2] = codes[wrong & bit(SHARED_FH) ? 0 : 1];
    for (uint32_t i = 0; i < 3; i++) {
        codes[i] ^= wrong & bit(DEGREE_F + 2 * i) ? 3u << n : 0;
        codes[i] &= wrong & bit(EVEN_F + 2 * i) ? ~1u : ~0u;
    }
}

static void write_spoilt(uint64_t wrong, uint32_t version, uint32_t n)
{
    ref_trial t = plain_content(version, n);
    uint8_t name[41];
    size_t counts[3];
    if (version == 1)
        expect(ref_triple(n, 0, t.codes) == 0, "causes: triple");
    t.size = wrong & bit(LONG_NAME) ? 41 : 3;
    memset(name, 'A', sizeof name);
    name[1] = wrong & bit(NAME_BYTE) ? 31 : 32;
    spoil_codes(wrong, n, t.codes);
    for (uint32_t list = 0; list < 3; list++) {
        counts[list] = (size_t)(1u << n) - (wrong & bit(MANY_POWERS + list) ? 1 : 0);
        if (wrong & bit(EQUAL_POWERS + list))
            t.levels[list][counts[list] - 1] = t.levels[list][0];
    }
    t.version = wrong & bit(VERSION) ? some_version() : version;
    t.n = wrong & bit(DEGREE) ? 7 : n;
    expect(write_lent(&t, name, counts, wrong & bit(ROOM) ? -1 : 0) == first_of(wrong, version), "causes: written");
}

/* Contents with every one, every two and every three causes, of both versions, and sheets with those that are theirs. */
static void several_causes(void)
{
    uint32_t codes[3] = { 0 };
    for (uint32_t a = 0; a < CAUSES; a++)
        for (uint32_t b = a; b < CAUSES; b++)
            for (uint32_t c = b; c < CAUSES; c++)
                for (uint32_t n = 3; n <= 4; n++) {
                    uint64_t wrong = bit(a) | bit(b) | bit(c), sheets = wrong & ~bit(VERSION) & (bit(MANY_POWERS) - 1);
                    for (uint32_t version = 1; version <= 2; version++)
                        write_spoilt(wrong, version, n);
                    sheets |= wrong & bit(ROOM);
                    expect(ref_triple(n, 1, codes) == 0, "causes: triple");
                    spoil_codes(wrong, n, codes);
                    uint32_t got = lay(wrong & bit(DEGREE) ? 7 : n, codes, 3, ((size_t)3 << 2 * n) - (wrong & bit(ROOM) ? 1 : 0));
                    expect(got == first_of(sheets, 2), "causes: sheet");
                }
}

/* A file of numbers, a name, and bytes behind it. A number may have an odd form, behind which the file may end. */
typedef struct raw_file {
    uint64_t numbers[2 + 3 + 3 * 64 + 1];
    const odd_number *odd[2 + 3 + 3 * 64 + 1]; /* NULL for a number as a writer puts it */
    uint8_t name[3];
    size_t count, size, behind;
} raw_file;

static size_t put_raw(const raw_file *raw, uint8_t *file)
{
    size_t at = 0;
    for (size_t i = 0; i < raw->count; i++) {
        const odd_number *odd = raw->odd[i];
        if (odd == NULL) {
            at = ref_put(file, at, raw->numbers[i]);
            continue;
        }
        memcpy(file + at, odd->bytes, odd->size);
        at += odd->size;
        if (odd->ends)
            return at;
    }
    memcpy(file + at, raw->name, raw->size);
    memset(file + at + raw->size, 'A', raw->behind);
    return at + raw->size + raw->behind;
}

static raw_file raw_of(const ref_trial *t)
{
    raw_file raw;
    memset(&raw, 0, sizeof raw);
    raw.numbers[raw.count++] = t->version;
    raw.numbers[raw.count++] = t->n;
    for (int i = 0; i < ref_settings(t->version); i++)
        raw.numbers[raw.count++] = t->codes[i];
    for (int list = 0; list < ref_settings(t->version); list++)
        for (uint32_t i = 0; i < 1u << t->n; i++)
            raw.numbers[raw.count++] = t->levels[list][i];
    raw.numbers[raw.count++] = sizeof raw.name;
    raw.size = sizeof raw.name;
    memset(raw.name, 'A', sizeof raw.name);
    return raw;
}

/* One thing wrong with a file: at which of its numbers, or behind them; what it is refused by; and when that is looked for. The value of
 * an odd form is its place among them. */
enum { ODD, VALUE, SHARED, NAME_LACKS, NAME_ODD, BEHIND };
typedef struct damage {
    int kind;
    uint32_t at;
    uint64_t value;
    uint32_t answer, when;
} damage;

static damage damages[512];
static uint32_t damaged;

static void add_damage(int kind, uint32_t at, uint64_t value, uint32_t answer, uint32_t when)
{
    damage one = { kind, at, value, answer, when };
    damages[damaged++] = one;
}

/* What is tried on one number: values that its field refuses, and a few odd forms, the file's end before it and inside it among them. */
static void add_number(uint32_t at, const uint64_t (*values)[2], int many)
{
    for (int i = 0; i < many; i++)
        add_damage(VALUE, at, values[i][0], (uint32_t)values[i][1], 8 * at + 1);
    for (uint32_t i = 0; i < odd_count; i++)
        if (odd_numbers[i].few)
            add_damage(ODD, at, i, odd_numbers[i].answer, 8 * at);
}

/* Everything that is tried on the file of a content. Number 8 is looked for behind the last of its codes. */
static void add_damages(const ref_trial *t)
{
    const uint64_t high = UINT64_C(1) << 32, top = UINT64_C(1) << 63;
    uint32_t n = t->n, order = 1u << n, codes = (uint32_t)ref_settings(t->version), size = 2 + codes + codes * order;
    const uint64_t versions[][2] = { { 0, 11 }, { 3, 11 }, { 257, 11 }, { 258, 11 }, { high - 1, 11 }, { high + t->version, 11 } };
    const uint64_t degrees[][2] = { { 0, 12 }, { 1, 12 }, { 7, 12 }, { 256 + n, 12 }, { high + n, 12 }, { UINT64_MAX, 12 } };
    const uint64_t sizes[][2] = { { 41, 15 }, { high - 1, 15 }, { high + 3, 15 }, { top + 3, 15 } };
    damaged = 0;
    add_number(0, versions, 6);
    add_number(1, degrees, 6);
    for (uint32_t i = 0; i < codes; i++) {
        uint32_t code = t->codes[i];
        const uint64_t wrong[][2] = { { code ^ 3u << n, 6 }, { 1, 6 }, { 0, 6 }, { code & ~1u, 7 }, { high + code, 6 }, { top + code, 6 } };
        add_number(2 + i, wrong, 6);
        for (uint32_t k = 0; k < i; k++)
            add_damage(SHARED, 2 + i, 2 + k, 8, 8 * (1 + codes) + 2);
    }
    for (uint32_t list = 0; list < codes; list++)
        for (uint32_t place = 1; place < order; place += order - 2) {
            uint64_t first = t->levels[list][0];
            const uint64_t wrong[][2] = { { 65536, 13 }, { 65536 + first, 13 }, { high - 1, 13 }, { first, 14 }, { high + first, 13 },
                                          { UINT64_MAX, 13 } };
            add_number(2 + codes + list * order + place, wrong, 6);
        }
    add_number(size, sizes, 4);
    add_damage(NAME_LACKS, size + 1, 0, 9, 8 * size + 2);
    add_damage(NAME_ODD, size + 2, 0, 16, 8 * size + 3);
    add_damage(BEHIND, size + 3, 0, 17, 8 * size + 4);
}

/* Equal codes come first, so that another damage of one of the codes is not undone. */
static void spoil(raw_file *raw, const damage *d, int shared)
{
    if ((d->kind == SHARED) != shared)
        return;
    if (d->kind == ODD)
        raw->odd[d->at] = &odd_numbers[d->value];
    if (d->kind == VALUE)
        raw->numbers[d->at] = d->value;
    if (d->kind == SHARED)
        raw->numbers[d->at] = raw->numbers[d->value];
    raw->size -= d->kind == NAME_LACKS;
    raw->name[0] = d->kind == NAME_ODD ? 127 : raw->name[0];
    raw->behind += d->kind == BEHIND;
}

/* Files with every two damages at different places, and with each alone: the one that is looked for first refuses. */
static void damages_of(uint32_t version, uint32_t n)
{
    static const size_t short_rooms[3][3] = { { 63, 64, 64 }, { 64, 63, 64 }, { 64, 64, 63 } };
    ref_trial t = plain_content(version, n);
    uint8_t file[1024];
    add_damages(&t);
    for (uint32_t i = 0; i < damaged; i++)
        for (uint32_t k = i; k < damaged; k++) {
            const damage *a = &damages[i], *b = &damages[k];
            raw_file raw = raw_of(&t);
            if (k > i && (a->at == b->at || (a->kind == NAME_LACKS && b->kind == BEHIND)))
                continue;
            for (int shared = 1; shared >= 0; shared--) {
                spoil(&raw, a, shared);
                if (k > i)
                    spoil(&raw, b, shared);
            }
            size_t size = put_raw(&raw, file);
            expect(read_lent(file, size, enough) == (a->when <= b->when ? a : b)->answer, "damages: the first refuses");
            if (k == i)
                for (int room = 0; room < 3; room++)
                    expect(read_lent(file, size, short_rooms[room]) == 4, "damages: room before all");
        }
    raw_file whole = raw_of(&t);
    size_t size = put_raw(&whole, file);
    expect(read_lent(file, size, enough) == 0, "damages: the whole file");
    for (int room = 0; room < 3; room++)
        expect(read_lent(file, size, short_rooms[room]) == 4, "damages: room of 63");
}

static void two_damages(void)
{
    make_odd_numbers();
    for (uint32_t n = 2; n <= 4; n++)
        damages_of(1, n);
    for (uint32_t n = 3; n <= 4; n++)
        damages_of(2, n);
}

/* A number of a trial file in every odd form, and with every long value; its field refuses those above 4294967295 by its own rule. */
static void long_number(const ref_trial *t, uint32_t at, uint32_t answer)
{
    uint8_t file[1024];
    uint64_t values[LONG_MOST];
    raw_file raw = raw_of(t);
    int many = long_values(raw.numbers[at], UINT64_C(1) << (7 * (5 + at % 5)), values);
    for (uint32_t i = 0; i < odd_count; i++) {
        raw.odd[at] = &odd_numbers[i];
        expect(read_lent(file, put_raw(&raw, file), enough) == odd_numbers[i].answer, "long numbers: odd form");
    }
    raw.odd[at] = NULL;
    for (int i = 0; i < many; i++) {
        raw.numbers[at] = values[i];
        uint32_t got = read_lent(file, put_raw(&raw, file), enough);
        expect(values[i] <= UINT32_MAX || got == answer, "long numbers: the field's rule");
    }
}

/* Each number of files of both versions, of which those before the levels are few. */
static void long_numbers(void)
{
    make_odd_numbers();
    for (uint32_t version = 1; version <= 2; version++)
        for (uint32_t n = version + 1; n <= 6; n++) {
            ref_trial t = plain_content(version, n);
            uint32_t codes = version + 1, last = 2 + codes + (codes << n);
            for (uint32_t at = 0; at <= last; at++)
                long_number(&t, at, at == 0 ? 11 : at == 1 ? 12 : at < 2 + codes ? 6 : at < last ? 13 : 15);
        }
}

/* A file with every value at every byte, with every part of it from the front, and with a byte more. */
static void damaged_everywhere(uint32_t version, uint32_t n)
{
    ref_trial t = plain_content(version, n);
    uint8_t file[1024];
    raw_file raw = raw_of(&t);
    size_t size = put_raw(&raw, file);
    for (size_t at = 0; at < size; at++) {
        uint8_t kept = file[at];
        read_lent(file, at, enough);
        for (uint32_t value = 0; value < 256; value++) {
            file[at] = (uint8_t)value;
            read_lent(file, size, enough);
        }
        file[at] = kept;
    }
    expect(read_lent(file, size, enough) == 0, "damaged files: whole");
    file[size] = 'A';
    expect(read_lent(file, size + 1, enough) == 17, "damaged files: a byte more");
}

static void damaged_files(void)
{
    for (uint32_t n = 2; n <= 3; n++)
        damaged_everywhere(1, n);
    for (uint32_t n = 3; n <= 4; n++)
        damaged_everywhere(2, n);
}

/* A sheet made elsewhere, of which so many bytes are lent; gives what the call must answer. The call only reads. */
static uint32_t check_lent(uint32_t order, const uint8_t *bytes, size_t length)
{
    uint32_t want = ref_check_sheet(order, bytes, length);
    const uint8_t *sheet = (const uint8_t *)lend_copy(0, bytes, length);
    count(dw_check_sheet(order, length == 0 && draw(2) ? NULL : sheet, length), want, "dw_check_sheet");
    came_back(0, NULL, 0, "dw_check_sheet: sheet");
    return want;
}

static uint32_t check(const any_sheet *s)
{
    return check_lent(s->order, s->bytes, size_of(s));
}

/* Ten changes to a good sheet, at random places. Each gives the number by which the sheet is then refused, 0 if it is as good as before. */
static uint32_t rows_of_both(any_sheet *s)
{
    uint32_t a = draw(s->order), b = draw(s->order);
    exchange_rows(s, a, b, 0);
    exchange_rows(s, a, b, 1);
    return 0;
}

static uint32_t cols_of_both(any_sheet *s)
{
    uint32_t a = draw(s->order), b = draw(s->order);
    exchange_cols(s, a, b, 0);
    exchange_cols(s, a, b, 1);
    return 0;
}

static uint32_t new_parts(any_sheet *s)
{
    uint32_t parts[4];
    order_of_four(draw(24), parts);
    *s = conjugate(*s, parts);
    return 0;
}

/* The symbols of one square renamed. */
static uint32_t new_names(any_sheet *s)
{
    uint8_t names[64];
    for (uint32_t i = 0; i < s->order; i++) {
        uint32_t k = draw(i + 1);
        names[i] = names[k];
        names[k] = (uint8_t)i;
    }
    for (size_t i = draw(2); i < size_of(s); i += 2)
        s->bytes[i] = names[s->bytes[i]];
    return 0;
}

static uint32_t rows_of_one(any_sheet *s)
{
    uint32_t a = draw(s->order), b = draw(s->order);
    exchange_rows(s, a, b, draw(2));
    return a != b ? 28 : 0;
}

static uint32_t cols_of_one(any_sheet *s)
{
    uint32_t a = draw(s->order), b = draw(s->order);
    exchange_cols(s, a, b, draw(2));
    return a != b ? 28 : 0;
}

static uint32_t two_sites(any_sheet *s)
{
    uint32_t sites = s->order * s->order, a = 2 * draw(sites), b = 2 * draw(sites);
    exchange(&s->bytes[a], &s->bytes[b]);
    exchange(&s->bytes[a + 1], &s->bytes[b + 1]);
    return a != b ? 28 : 0;
}

/* Two symbols of one square exchanged. */
static uint32_t two_symbols(any_sheet *s)
{
    uint32_t sites = s->order * s->order, square = draw(2), a = 2 * draw(sites) + square, b = 2 * draw(sites) + square;
    exchange(&s->bytes[a], &s->bytes[b]);
    return s->bytes[a] != s->bytes[b] ? 28 : 0;
}

/* One symbol changed to any, or to one that a set of 64 bits or a comparison may take for it. */
static uint32_t one_symbol(any_sheet *s)
{
    uint8_t *place = &s->bytes[draw((uint32_t)size_of(s))], right = *place;
    const uint32_t wrong[8] = { draw(256), draw(s->order), right + 64u, right + 128u, right + 192u, s->order - 1, s->order, 255 };
    *place = (uint8_t)wrong[draw(8)];
    return *place >= s->order ? 27 : *place != right ? 28 : 0;
}

/* One symbol of a square called, wherever it stands, by a number that is not below the order. */
static uint32_t one_name(any_sheet *s)
{
    uint32_t right = draw(s->order), order = s->order;
    const uint32_t wrong[3] = { order, 255, order + draw(256 - order) };
    uint8_t name = (uint8_t)wrong[draw(3)];
    for (size_t i = draw(2); i < size_of(s); i += 2)
        s->bytes[i] = s->bytes[i] == right ? name : s->bytes[i];
    return 27;
}

/* Those that leave a good sheet good come first: two of them take symbols for indices, and a later change may put one beyond the order. */
static uint32_t (*const changes[])(any_sheet *) = { new_parts, rows_of_both, cols_of_both, new_names, rows_of_one, cols_of_one, two_sites,
                                                  two_symbols, one_name, one_symbol };
enum { HARMLESS = 4, CHANGES = sizeof changes / sizeof changes[0] };

/* A good sheet of an order, made once; at order 6, two Latin squares. */
static any_sheet sheet_of(uint32_t order)
{
    static any_sheet made[65];
    if (made[order].order == 0)
        made[order] = order == 6 ? linear(6, 1, 1, 1, 5) : good(order);
    return made[order];
}

/* An order outside 3 to 64; half of the time one whose low bits alone are those of a good order. */
static uint32_t some_outside(uint32_t order)
{
    static const uint32_t outside[] = { 0, 1, 2, 65, 66, 255, 256, 257, UINT32_MAX };
    return draw(2) ? outside[draw(9)] : order + (1u << (8 + draw(24)));
}

/* A sheet with some changes, of its own order or said to be of another, and lent with bytes behind it or too few. */
static void try_check_sheet(void)
{
    uint32_t order = 3 + draw(draw(16) ? 14 : 62), said = draw(16) ? order : draw(2) ? some_outside(order) : 3 + draw(62);
    any_sheet s = sheet_of(order);
    for (uint32_t i = 0; i < CHANGES; i++)
        if (draw(i < HARMLESS ? 2 : 8) == 0)
            changes[i](&s);
    uint32_t size = (uint32_t)size_of(&s);
    for (uint32_t i = 0; i < 4; i++)
        s.bytes[size + i] = (uint8_t)draw(256);
    check_lent(said, s.bytes, draw(8) ? size + draw(5) : draw(2) ? size - 1 : draw(size));
}

/* A sheet that the library wrote. */
static any_sheet ours(uint32_t n)
{
    any_sheet s = empty(1u << n);
    uint32_t f, g;
    ref_pair(n, draw64() % ref_length(n), &f, &g);
    count(dw_sheet(n, f, g, s.bytes, size_of(&s)), 0, "good sheets: ours");
    return s;
}

/* A job on good sheets: one of every order but 6, others by differences and by products, and ours of every degree. */
static void on_good_sheets(void (*job)(any_sheet s))
{
    for (uint32_t order = 3; order <= 64; order++)
        if (order != 6)
            job(sheet_of(order));
    for (uint32_t m = 3; m <= 21; m++)
        if (m != 6)
            job(of_bose(m));
    for (uint32_t a = 3; a <= 16; a++)
        for (uint32_t b = 3; a * b <= 64; b++)
            if (a != 6 && b != 6)
                job(product(sheet_of(a), sheet_of(b)));
    for (uint32_t i = 0; i < 20; i++)
        job(ours(2 + i % 5));
}

/* A good sheet passes in all orders of its parts, its squares exchanged and its rows for columns among them. */
static void in_all_parts(any_sheet s)
{
    for (uint32_t i = 0; i < 24; i++) {
        uint32_t parts[4];
        order_of_four(i, parts);
        any_sheet t = conjugate(s, parts);
        expect(check(&t) == 0, "good sheets: served");
    }
}

static void good_sheets(void)
{
    on_good_sheets(in_all_parts);
}

/* A good sheet with every value at every byte. */
static void at_every_byte(any_sheet s)
{
    for (size_t at = 0; at < size_of(&s); at++) {
        uint8_t right = s.bytes[at];
        for (uint32_t value = 0; value < 256; value++) {
            s.bytes[at] = (uint8_t)value;
            expect(check(&s) == (value == right ? 0 : value < s.order ? 28 : 27), "changed sheets: byte");
        }
        s.bytes[at] = right;
    }
}

/* Each change alone, several times, and the last one, of one symbol, many times. */
static void after_each_change(any_sheet s)
{
    for (uint32_t i = 0; i < 5 * CHANGES + 40; i++) {
        any_sheet t = s;
        uint32_t want = changes[i < 5 * CHANGES ? i % CHANGES : CHANGES - 1](&t);
        expect(check(&t) == want, "changed sheets: change");
    }
}

static void changed_sheets(void)
{
    for (uint32_t order = 3; order <= 8; order++)
        if (order != 6)
            at_every_byte(sheet_of(order));
    at_every_byte(ours(2));
    at_every_byte(ours(3));
    on_good_sheets(after_each_change);
}

/* A sheet that fails in one of the five ways alone, and each sheet that other parts make of it: all five ways come. */
static void in_one_way(any_sheet s)
{
    static const uint32_t two[5][2] = { { 0, 2 }, { 0, 3 }, { 1, 2 }, { 1, 3 }, { 2, 3 } };
    uint32_t way = (uint32_t)ref_degree(ref_faults(s.order, s.bytes)), met = 0;
    for (uint32_t i = 0; i < 24; i++) {
        uint32_t parts[4];
        order_of_four(i, parts);
        if ((parts[0] == two[way][0] && parts[1] == two[way][1]) || (parts[0] == two[way][1] && parts[1] == two[way][0]))
            continue;
        any_sheet t = conjugate(s, parts);
        uint32_t faults = ref_faults(t.order, t.bytes);
        expect(check(&t) == 28 && (faults & (faults - 1)) == 0, "ways to fail: one alone");
        met |= faults;
    }
    expect(met == 31, "ways to fail: each");
}

/* The least that can fail: two columns of the second square. */
static void in_two_columns(any_sheet s)
{
    for (uint32_t i = 0; i < 2; i++) {
        any_sheet t = s;
        uint32_t a = draw(s.order), b = (a + 1 + draw(s.order - 1)) % s.order;
        exchange_cycle(&t, a, b, draw(s.order));
        uint32_t faults = ref_faults(t.order, t.bytes);
        expect(faults == 0 || faults == 8, "ways to fail: columns");
        if (faults == 0)
            expect(check(&t) == 0, "ways to fail: none");
        else
            in_one_way(t);
    }
}

/* Every two odd codes of degrees 2 to 5: the library's sheet, or, where it has none, their two squares, whose pairs alone fail. */
static void of_two_codes(void)
{
    for (uint32_t n = 2; n <= 5; n++)
        for (uint32_t f = (1u << n) + 1; f < 2u << n; f += 2)
            for (uint32_t g = (1u << n) + 1; g < 2u << n; g += 2) {
                const uint32_t codes[2] = { f, g };
                any_sheet s = empty(1u << n);
                if (ref_coprime(n, f, g) == 0) {
                    count(dw_sheet(n, f, g, s.bytes, size_of(&s)), 0, "ways to fail: ours");
                    expect(check(&s) == 0, "ways to fail: coprime");
                } else {
                    ref_sheet(n, codes, 2, s.bytes);
                    expect(check(&s) == 28 && ref_faults(s.order, s.bytes) == 16, "ways to fail: common factor");
                }
            }
}

/* A random Latin square of order 6, by random rows until one fits below those before it. */
static void some_latin(any_sheet *s, uint32_t square)
{
    for (uint32_t row = 0, fits; row < 6; row += fits) {
        fits = 1;
        for (uint32_t col = 0; col < 6; col++) {
            uint32_t k = draw(col + 1);
            *symbol(s, row, col, square) = *symbol(s, row, k, square);
            *symbol(s, row, k, square) = (uint8_t)col;
        }
        for (uint32_t i = 0; i < 6 * row; i++)
            fits = fits && *symbol(s, i / 6, i % 6, square) != *symbol(s, row, i % 6, square);
    }
}

/* Order 6 has no good sheet. Random symbols, two random Latin squares, and two that have 34 of the 36 pairs. */
static void order_six(void)
{
    static const char near[] = "405124350213" "150450412332" "534205143021" "342543521100" "013312204554" "221031035445";
    any_sheet s = empty(6);
    for (uint32_t i = 0; i < 2000; i++) {
        for (size_t k = 0; k < size_of(&s); k++)
            s.bytes[k] = (uint8_t)draw(6);
        expect(check(&s) == 28, "order 6: random");
    }
    for (uint32_t i = 0; i < 500; i++) {
        some_latin(&s, 0);
        some_latin(&s, 1);
        expect(check(&s) == 28 && ref_faults(6, s.bytes) == 16, "order 6: Latin");
    }
    for (size_t k = 0; k < size_of(&s); k++)
        s.bytes[k] = (uint8_t)(near[k] - '0');
    in_one_way(s);
}

/* Every order with f = i + j and g = j, of which the columns of g alone fail, and with two equal squares, of which the pairs do. */
static void ways_to_fail(void)
{
    for (uint32_t order = 3; order <= 64; order++) {
        in_one_way(linear(order, 1, 1, 0, 1));
        in_one_way(linear(order, 1, 1, 1, 1));
    }
    on_good_sheets(in_two_columns);
    of_two_codes();
    order_six();
}

/* A good sheet in memory that is too short, and with bytes behind it, which are not looked at. */
static void of_many_lengths(any_sheet s)
{
    size_t size = size_of(&s);
    const size_t less[] = { 0, 1, s.order, size / 4, size / 2, size - s.order, size - 2, size - 1 };
    const uint8_t behind[] = { 0, 255, (uint8_t)s.order, (uint8_t)draw(256) };
    expect(check_lent(s.order, s.bytes, size) == 0, "lengths: exact");
    for (int i = 0; i < 8; i++)
        expect(check_lent(s.order, s.bytes, less[i]) == 4, "lengths: too short");
    for (int i = 0; i < 4; i++) {
        memset(s.bytes + size, behind[i], sizeof s.bytes - size);
        expect(check_lent(s.order, s.bytes, size + 1) == 0, "lengths: a byte behind");
        expect(check_lent(s.order, s.bytes, sizeof s.bytes) == 0, "lengths: many behind");
    }
}

/* A sheet for an order that is refused: at 1 and 65 one that is good at that order, at 2 two equal squares, else one of its low bits' order
 * or of 64. */
static any_sheet sheet_outside(uint32_t order)
{
    uint32_t low = order % 256;
    if (order == 2)
        return linear(2, 1, 1, 1, 1);
    return order == 1 || order == 65 ? linear(order, 1, 1, 1, 2) : sheet_of(low >= 3 && low <= 64 ? low : 64);
}

/* Orders that are refused, whatever is lent: a sheet and more, just it, less, nothing; good, with a symbol too high, or all alike. */
static void of_other_orders(void)
{
    static const uint32_t orders[] = { 0, 1, 2, 65, 66, 67, 127, 128, 255, 256, 257, 256 + 3, 256 + 5, 256 + 64, 512 + 5, 65536 + 5,
                                       65536 + 64, (1u << 24) + 5, (1u << 31) + 5, UINT32_MAX - 250, UINT32_MAX };
    for (size_t i = 0; i < sizeof orders / sizeof orders[0]; i++)
        for (int kind = 0; kind < 3; kind++) {
            any_sheet s = sheet_outside(orders[i]);
            const size_t size = size_of(&s), lengths[] = { sizeof s.bytes, size, size - 1, 1, 0 };
            s.bytes[0] = kind == 1 ? 255 : s.bytes[0];
            memset(s.bytes, 0, kind == 2 ? size : 0);
            for (int k = 0; k < 5; k++)
                expect(check_lent(orders[i], s.bytes, lengths[k]) == 26, "orders: outside");
        }
}

/* A good sheet with every choice of the four causes, of which the one that is looked for first refuses. The symbol that is not below the
 * order is at one byte, and the other failure in the last row or the first, whichever is farther from it. */
static void of_many_causes(any_sheet s, uint32_t at, uint32_t value)
{
    static const uint32_t numbers[4] = { 26, 4, 27, 28 };
    uint32_t size = (uint32_t)size_of(&s), line = at < size / 2 ? size - 2 * s.order : 0;
    for (uint32_t causes = 0; causes < 16; causes++) {
        any_sheet t = s;
        uint32_t order = causes & 1 ? some_outside(s.order) : s.order, want = 0;
        if (causes & 8)
            exchange(&t.bytes[line], &t.bytes[line + 2]);
        if (causes & 4)
            t.bytes[at] = (uint8_t)value;
        for (int i = 3; i >= 0; i--)
            want = causes >> i & 1 ? numbers[i] : want;
        expect(check_lent(order, t.bytes, size - (causes & 2 ? 1 + draw(2) * draw(size) : 0)) == want, "causes: the first refuses");
    }
}

static void orders_and_lengths(void)
{
    for (uint32_t order = 3; order <= 64; order++)
        if (order != 6) {
            uint32_t size = 2 * order * order;
            const uint32_t places[] = { 0, 1, size / 2, size - 2, size - 1 };
            of_many_lengths(sheet_of(order));
            for (int i = 0; i < 5; i++) {
                of_many_causes(sheet_of(order), places[i], order);
                of_many_causes(sheet_of(order), places[i], 255);
            }
        }
    of_other_orders();
}

/* No room for a saved walk, and no file. */
static void null_saved(void)
{
    size_t size = 9;
    dw_walk walk;
    count(dw_start(2, &walk), 0, "null: start");
    count(dw_save(&walk, NULL, 0, &size), 4, "null: walk to save");
    count(dw_load(NULL, 0, &walk), 9, "null: walk to load");
    expect(walk.degree == 2 && walk.f == 7 && walk.g == 5, "null: walk kept");
    walk.degree = 0;
    count(dw_save(&walk, NULL, 0, &size), 3, "null: bad walk to save");
    expect(size == 9, "null: length kept");
}

/* A pointer whose length is 0 may be null, in every call that takes one; a name of length 0 is served, and at version 1 no times. */
static void null_pointers(void)
{
    static const uint16_t levels[8] = { 1, 2, 3, 4, 5, 6, 7, 8 };
    uint8_t file[DW_FILE_ROOM] = { 0 };
    uint16_t powers[DW_LEVELS_ROOM] = { 0 }, forces[DW_LEVELS_ROOM] = { 0 }, times[DW_LEVELS_ROOM] = { 0 };
    uint32_t n = 9, f = 9, g = 9, v = 9, h = 9;
    size_t length = 9, at = 9, size = 9, room = sizeof file;
    count(dw_pairs_from(2, 0, NULL, 0, &size), 4, "null: pairs");
    count(dw_pairs_from(2, 2, NULL, 0, &size), 2, "null: pairs at the end");
    count(dw_chain(2, 7, 5, NULL, 0, &size, &n), 4, "null: quotients");
    count(dw_sheet(2, 7, 5, NULL, 0), 4, "null: sheet");
    count(dw_sheet3(3, 9, 11, 13, NULL, 0), 4, "null: sheet of three");
    count(dw_check_sheet(3, NULL, 0), 4, "null: sheet to check");
    count(dw_check_sheet(0, NULL, 0), 26, "null: sheet of order 0");
    null_saved();
    count(dw_read(NULL, 0, powers, 64, forces, 64, times, 64, &n, &f, &g, &at, &size, &v, &h), 9, "null: file to read");
    count(dw_read(file, room, NULL, 0, forces, 64, times, 64, &n, &f, &g, &at, &size, &v, &h), 4, "null: powers to read");
    count(dw_read(file, room, powers, 64, NULL, 0, times, 64, &n, &f, &g, &at, &size, &v, &h), 4, "null: forces to read");
    count(dw_read(file, room, powers, 64, forces, 64, NULL, 0, &n, &f, &g, &at, &size, &v, &h), 4, "null: times to read");
    count(dw_read(NULL, 0, NULL, 0, NULL, 0, NULL, 0, &n, &f, &g, &at, &size, &v, &h), 4, "null: all to read");
    count(dw_write(1, 2, 7, 5, 0, NULL, 0, levels, 4, NULL, 0, NULL, 0, file, room, &length), 4, "null: powers");
    count(dw_write(1, 2, 7, 5, 0, levels, 4, NULL, 0, NULL, 0, NULL, 0, file, room, &length), 4, "null: forces");
    count(dw_write(1, 2, 7, 5, 0, levels, 4, levels, 4, NULL, 0, NULL, 0, NULL, 0, &length), 4, "null: file");
    count(dw_write(1, 2, 7, 5, 0, NULL, 0, NULL, 0, NULL, 0, NULL, 0, NULL, 0, &length), 4, "null: all");
    count(dw_write(2, 3, 9, 11, 13, levels, 8, levels, 8, NULL, 0, NULL, 0, file, room, &length), 4, "null: times");
    count(dw_write(2, 3, 9, 11, 13, levels, 8, levels, 8, levels, 8, NULL, 0, NULL, 0, &length), 4, "null: file of version 2");
    count(dw_write(2, 3, 9, 11, 13, NULL, 0, NULL, 0, NULL, 0, NULL, 0, NULL, 0, &length), 4, "null: all of version 2");
    expect(n == 9 && f == 9 && g == 9 && v == 9 && h == 9 && length == 9 && at == 9 && size == 9, "null: refused");
    count(dw_write(2, 3, 9, 11, 13, levels, 8, levels, 8, levels, 8, NULL, 0, file, room, &length), 0, "null: name of version 2");
    count(dw_read(file, length, powers, 64, forces, 64, times, 64, &n, &f, &g, &at, &size, &v, &h), 0, "null: version 2 to read");
    expect(length == 30 && at == length && size == 0 && v == 2 && h == 13, "null: an empty name is at the end of version 2");
    h = times[0] = 9;
    count(dw_write(1, 2, 7, 5, 0, levels, 4, levels, 4, NULL, 0, NULL, 0, file, room, &length), 0, "null: name and times");
    count(dw_read(file, length, powers, 64, forces, 64, times, 64, &n, &f, &g, &at, &size, &v, &h), 0, "null: name to read");
    expect(length == 13 && at == length && size == 0, "null: an empty name is at the file's end");
    expect(v == 1 && h == 9 && times[0] == 9, "null: version 1 leaves the times and h");
}

/* A record that is copied, kept and taken to a position as the header says, by a mark that is written and put back; at the list's end the
 * walk is spent. Where the position alone is written, the pair stays. */
static void kept_record(void)
{
    uint32_t f = 0, g = 0;
    dw_walk walk, kept;
    count(dw_start(4, &walk), 0, "kept record: start");
    kept = walk;
    walk.position = 7;
    walk.marks[0] = 3;
    uint64_t mark = walk.marks[0];
    walk.marks[0] = 41 + 1;
    count(dw_go_back(&walk, 0), 0, "kept record: taken to 41");
    walk.marks[0] = mark;
    expect(walk.position == 41 && walk.f == 19 && walk.g == 25, "kept record: at 41");
    count(dw_draw(&walk, 5, &f, &g), 0, "kept record: last");
    expect(f == 19 && g == 25 && walk.position == 42 && walk.counts[5] == 1 && kept.counts[5] == 0, "kept record: pair 41");
    count(dw_look(&walk, &f, &g), DW_SPENT, "kept record: spent");
    count(dw_look(&kept, &f, &g), 0, "kept record: first");
    expect(f == 19 && g == 17 && kept.degree == 4 && kept.position == 0, "kept record: pair 0");
    walk.position = 41;
    count(dw_look(&walk, &f, &g), 0, "kept record: position alone");
    expect(f == 0 && g == 0, "kept record: 0 and 0, as it holds");
    walk.position = 43;
    count(dw_look(&walk, &f, &g), 3, "kept record: behind the end");
}

/* The entries that document 01 prints, and document 02's on triples. */
static void printed_entries(void)
{
    uint32_t f, g, h;
    uint64_t end = UINT64_C(768614336404564650), pairs;
    count(dw_length(31, &pairs), 0, "degree 31");
    expect(pairs == end, "degree 31: length");
    count(dw_pair_at(31, end - 1, &f, &g), 0, "degree 31: last");
    count(dw_pair_at(31, end, &f, &g), 2, "degree 31: end");
    count(dw_pair_at(4, 41, &f, &g), 0, "degree 4: last");
    expect(f == 19 && g == 25, "degree 4: pair 41");
    dw_walk walk;
    count(dw_start(1, &walk), 0, "degree 1");
    count(dw_draw(&walk, 0, &f, &g), DW_SPENT, "degree 1: spent");
    count(dw_triple_at(2, 0, &f, &g, &h), DW_SPENT, "degree 2: no triple");
    count(dw_triple_at(3, 12, &f, &g, &h), DW_SPENT, "degree 3: twelve triples");
    count(dw_triple_at(3, 11, &f, &g, &h), 0, "degree 3: last triple");
    count(dw_triple_at(3, 0, &f, &g, &h), 0, "degree 3: first triple");
    expect(f == 9 && g == 11 && h == 13, "degree 3: triple 0");
}

/* Runs one part, in which each of the numbers, and spent where it is said, must be met. */
static void part(const char *name, void (*once)(void), int times, uint32_t least, uint32_t most, uint64_t others)
{
    uint64_t numbers = (bit(most + 1) - bit(least)) | others | bit(0);
    calls = served = seen = 0;
    for (int i = 0; i < times; i++)
        once();
    if (seen != numbers) {
        printf("%s: met %016" PRIx64 ", not %016" PRIx64 "\n", name, seen, numbers);
        exit(1);
    }
    printf("%-20s %9" PRIu64 " calls, %9" PRIu64 " served, each of its numbers met\n", name, calls, served);
}

int main(int argc, char **argv)
{
    int scale = argc > 1 ? atoi(argv[1]) : 1000;
    uint64_t one = bit(1), four = bit(4), twelve = bit(12), codes = bit(6) | bit(7) | bit(8), spent = bit(63);
    uint64_t files = bit(9) | bit(10) | bit(17);
    printf("seed %d\n", SEED);
    part("printed entries", printed_entries, 1, 2, 2, spent);
    part("whole lists", whole_lists, 1, 0, 0, 0);
    part("second lists", second_lists, 1, 2, 2, 0);
    part("whole triples", whole_triples, 1, 12, 12, spent);
    part("whole chains", whole_chains, 1, 0, 0, 0);
    part("longest file", longest_file, 1, 15, 15, 0);
    part("every three codes", every_three_codes, 1, 6, 9, four);
    part("three squares", three_squares, 1, 4, 4, 0);
    part("several causes", several_causes, 1, 14, 16, four | codes | bit(11) | twelve);
    part("two damages", two_damages, 1, 6, 17, four);
    part("damaged files", damaged_files, 1, 6, 17, 0);
    part("repeated levels", repeated_levels, 1, 14, 14, bit(7) | bit(9));
    part("long numbers", long_numbers, 1, 8, 13, bit(6) | bit(15) | bit(17));
    part("null pointers", null_pointers, 1, 2, 4, bit(9) | bit(26));
    part("kept record", kept_record, 1, 3, 3, spent);
    part("marks at the end", marks_at_the_end, 1, 18, 19, bit(3) | spent);
    part("full counts", full_counts, 1, 18, 21, bit(3) | spent);
    part("wrong pairs", wrong_pairs, 1, 18, 21, spent);
    part("saved by hand", saved_by_hand, 1, 22, 23, bit(3) | bit(9));
    part("saved numbers", saved_numbers, 1, 22, 23, files | bit(3));
    part("saved files", saved_files, 1, 22, 23, files | bit(3));
    part("saved rooms", saved_rooms, 1, 3, 4, 0);
    part("old files", old_files, 1, 0, 0, spent);
    part("good sheets", good_sheets, 1, 0, 0, 0);
    part("changed sheets", changed_sheets, 1, 27, 28, 0);
    part("ways to fail", ways_to_fail, 1, 28, 28, 0);
    part("orders and lengths", orders_and_lengths, 1, 26, 28, four);
    part("dw_length", try_length, 100 * scale, 1, 1, 0);
    part("dw_pair_at", try_pair_at, 300 * scale, 1, 2, 0);
    part("dw_unordered_pair_at", try_unordered_pair_at, 300 * scale, 1, 2, 0);
    part("dw_triple_at", try_triple_at, 100 * scale, 12, 12, spent);
    part("dw_pairs_from", try_pairs_from, 50 * scale, 1, 2, four);
    part("dw_position_of", try_position_of, 300 * scale, 6, 8, one);
    part("dw_chain", try_chain, 300 * scale, 6, 7, one | four);
    part("dw_longest_chains", try_longest_chains, 10 * scale, 1, 1, 0);
    part("dw_site", try_site, 300 * scale, 5, 7, one);
    part("dw_sheet", try_sheet, 20 * scale, 6, 8, four | twelve);
    part("dw_sheet3", try_sheet3, 20 * scale, 6, 8, four | twelve);
    part("dw_check_sheet", try_check_sheet, 50 * scale, 26, 28, four);
    part("the walk", try_walk, 50 * scale, 18, 21, one | bit(3) | spent);
    part("whole walks", try_whole_walk, scale, 18, 20, bit(9) | spent);
    part("dw_save", try_save, 50 * scale, 3, 4, 0);
    part("dw_load", try_load, 200 * scale, 22, 23, files | bit(3));
    part("dw_write", try_write, 200 * scale, 14, 16, four | codes | bit(11) | twelve);
    part("dw_read", try_read, 200 * scale, 6, 17, four);
    return 0;
}
