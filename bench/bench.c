/*
 * Times the library's calls beside plain C of the same jobs, and prints the tables. All inputs are prepared before the clock starts, but
 * for the few walks that a job lends to its many calls; inputs and results stay in the same memory, so that caches are warm. In each round
 * the library and the plain C work on the same inputs, one after the other, so that load on the machine hits both; a line shows the medians
 * of the rounds. Before a job is timed, both answer each of its inputs and the answers are compared, every byte of them. The answers are
 * global memory, so that no call can be left out.
 */
#define _POSIX_C_SOURCE 199309L
#include "lists.h"

#include <inttypes.h>
#include <stdio.h>
#include <stdlib.h>
#include <time.h>

enum { ROUNDS = 101, LIST_ROUNDS = 9, INPUTS = 32768, TRIALS = 1024, LIST_DEGREE = 11, SHEET_DEGREE = 6, SIDES = 2, LIST_PAIRS = 699050,
       WALKS = 16, SHEETS = 16 };

enum { LIBRARY, PLAIN };

/* How many times the plain C's time a call may take, where no other goal is set. */
#define GOAL 1.3

/* How many times the time of two codes a sheet or a file of three may take. */
#define GOAL3 1.6

/* An input of any job: a position, a pair or a triple, a site. */
typedef struct Input {
    uint64_t position;
    uint32_t f, g, h, row, col;
} Input;

/* A trial and its files: of version 1 and, with three codes, of version 2. */
typedef struct Trial {
    uint32_t f, g, h;
    uint16_t powers[64], forces[64], times[64];
    uint8_t name[40], files[2][640];
    size_t name_length, lengths[2];
} Trial;

/* A walk and its files: of kind 1 and of kind 2. */
typedef struct Saved {
    dw_walk walk;
    uint8_t files[2][DW_SAVED_ROOM];
    size_t lengths[2];
} Saved;

/* What a call answers, and the memory that it is lent, which both sides have at the same place of a cache line. */
typedef struct Answer {
    uint32_t status, version, degree, codes[3], next[2], divisor, quotients[DW_CHAIN_ROOM];
    uint64_t position, positions, marks[DW_MARKS], counts[DW_BONDERS];
    size_t count, offset;
    _Alignas(64) uint16_t powers[DW_LEVELS_ROOM], forces[DW_LEVELS_ROOM], times[DW_LEVELS_ROOM];
    _Alignas(64) uint8_t bytes[DW_SHEET3_ROOM];
} Answer;

static uint32_t degree, order;
static Input inputs[INPUTS];
static Trial trials[TRIALS];
static Saved saved[TRIALS];
static _Alignas(64) uint8_t sheets[SHEETS][DW_SHEET_ROOM];
Answer answers[SIDES];
static uint32_t list[2 * LIST_PAIRS], shuffled[LIST_PAIRS];

static uint64_t random_below(uint64_t below)
{
    static uint64_t state = 20261115;
    state ^= state << 13;
    state ^= state >> 7;
    state ^= state << 17;
    return (state >> 3) % below;
}

static uint32_t random_code(void)
{
    return (1u << degree) | (uint32_t)random_below(1u << degree) | 1;
}

/* All positions of the whole list's degree, in random order. */
static void shuffle(void)
{
    for (uint32_t i = 0; i < LIST_PAIRS; i++) {
        uint32_t j = (uint32_t)random_below(i + 1);
        shuffled[i] = shuffled[j];
        shuffled[j] = i;
    }
}

/* Random positions, the pairs that stand there, and random sites. */
static void prepare_random(void)
{
    for (size_t i = 0; i < INPUTS; i++) {
        Input *in = &inputs[i];
        in->position = random_below(plain_first[degree][degree + 1]);
        plain_pair(degree, in->position, &in->f, &in->g);
        in->row = (uint32_t)random_below(1u << degree);
        in->col = (uint32_t)random_below(1u << degree);
    }
}

/* Positions that go up one by one, from the middle of the list. */
static void prepare_rising(void)
{
    uint64_t length = plain_first[degree][degree + 1];
    for (size_t i = 0; i < INPUTS; i++)
        inputs[i].position = (length / 2 + i) % length;
}

/* Random positions of the list of triples, and the triples that stand there. */
static void prepare_triples(void)
{
    for (size_t i = 0; i < INPUTS; i++) {
        Input *in = &inputs[i];
        in->position = random_below(plain_all_triples[degree]);
        plain_triple_at(degree, in->position, &in->f, &in->g, &in->h);
    }
}

/* Sheets to check, of an order that is 2^degree times an odd number: direct products of sheets of the odd number, which are sums modulo it,
 * with sheets of random pairs. At degree 0 the sums are all. */
static void make_sheets(void)
{
    uint32_t odd = order >> degree, low = (1u << degree) - 1;
    uint8_t part[DW_SHEET_ROOM] = {0};
    if (degree > 0)
        prepare_random();
    for (uint32_t i = 0; i < SHEETS; i++) {
        if (degree > 0)
            plain_sheet(degree, inputs[i].f, inputs[i].g, part, sizeof part);
        for (uint32_t at = 0; at < order * order; at++) {
            uint32_t row = at / order, col = at % order, sum = (row >> degree) + (col >> degree), more = sum + (col >> degree);
            const uint8_t *site = part + 2 * ((row & low) << degree | (col & low));
            sheets[i][2 * at] = (uint8_t)((sum + i) % odd << degree | site[0]);
            sheets[i][2 * at + 1] = (uint8_t)(more % odd << degree | site[1]);
        }
    }
}

static void prepare_sheets(void)
{
    order = 1u << degree;
    make_sheets();
}

/* Two random odd codes, with or without a common factor. */
static void prepare_codes(void)
{
    for (size_t i = 0; i < INPUTS; i++) {
        inputs[i].f = random_code();
        inputs[i].g = random_code();
    }
}

/* Levels in steps of 1 to 99, rising or in random order. */
static void random_levels(uint16_t *levels, int rising)
{
    uint32_t level = 0;
    for (size_t i = 0; i < 64; i++) {
        size_t j = rising ? i : random_below(i + 1);
        levels[i] = levels[j];
        levels[j] = (uint16_t)(level += 1 + (uint32_t)random_below(99));
    }
}

/* Writes the file of a version. */
static void make_file(Trial *t, uint32_t version)
{
    plain_write(version, degree, t->f, t->g, t->h, t->powers, 64, t->forces, 64, t->times, 64, t->name, t->name_length,
                t->files[version - 1], sizeof t->files[version - 1], &t->lengths[version - 1]);
}

/* Random trials of the codes of the inputs, with names of 8 to 40 letters. */
static void make_trials(int rising, uint32_t version)
{
    for (size_t i = 0; i < TRIALS; i++) {
        Trial *t = &trials[i];
        t->f = inputs[i].f;
        t->g = inputs[i].g;
        t->h = inputs[i].h;
        random_levels(t->powers, rising);
        random_levels(t->forces, rising);
        if (version == 2)
            random_levels(t->times, rising);
        t->name_length = 8 + random_below(33);
        memset(t->name, 'a' + (int)(i % 26), t->name_length);
        for (uint32_t v = 1; v <= version; v++)
            make_file(t, v);
    }
}

static void prepare_trials(void)
{
    prepare_random();
    make_trials(1, 1);
}

static void prepare_shuffled(void)
{
    prepare_random();
    make_trials(0, 1);
}

static void prepare_trials2(void)
{
    prepare_triples();
    make_trials(1, 2);
}

static void prepare_shuffled2(void)
{
    prepare_triples();
    make_trials(0, 2);
}

/* Walks with all marks set and counts up to full, which are long in a file, and their files. */
static void make_saved(void)
{
    for (size_t i = 0; i < TRIALS; i++) {
        Saved *s = &saved[i];
        s->walk = (dw_walk){degree, inputs[i].position, {0}, {0}, 0, 0};
        for (size_t k = 0; k < DW_MARKS; k++) {
            s->walk.marks[k] = random_below(plain_first[degree][degree + 1]) + 1;
            s->walk.counts[k] = random_below(DW_FULL_COUNT + 1);
        }
        uint8_t *end = plain_put(plain_put(plain_put(s->files[0], 1), degree), s->walk.position);
        s->lengths[0] = (size_t)(end - s->files[0]);
        plain_save(&s->walk, s->files[1], sizeof s->files[1], &s->lengths[1]);
    }
}

static void prepare_saved(void)
{
    prepare_random();
    make_saved();
}

/* At positions that go up one by one, as those of a walk that is saved after each draw. */
static void prepare_saved_rising(void)
{
    prepare_rising();
    make_saved();
}

/* The calls of both sides, and for each job a loop over a range of the inputs. */
static uint32_t (*const pair_at[SIDES])(uint32_t, uint64_t, uint32_t *, uint32_t *) = {dw_pair_at, plain_pair_at};
static uint32_t (*const unordered_pair_at[SIDES])(uint32_t, uint64_t, uint32_t *, uint32_t *) = {dw_unordered_pair_at,
                                                                                               plain_unordered_pair_at};
static uint32_t (*const triple_at[SIDES])(uint32_t, uint64_t, uint32_t *, uint32_t *, uint32_t *) = {dw_triple_at, plain_triple_at};
static uint32_t (*const position_of[SIDES])(uint32_t, uint32_t, uint32_t, uint64_t *) = {dw_position_of, plain_position_of};
static uint32_t (*const chain[SIDES])(uint32_t, uint32_t, uint32_t, uint32_t *, size_t, size_t *, uint32_t *) = {dw_chain, plain_chain};
static uint32_t (*const longest_chains[SIDES])(uint32_t, uint64_t *, uint64_t *) = {dw_longest_chains, plain_longest_chains};
static uint32_t (*const start[SIDES])(uint32_t, dw_walk *) = {dw_start, plain_start};
static uint32_t (*const look[SIDES])(const dw_walk *, uint32_t *, uint32_t *) = {dw_look, plain_look};
static uint32_t (*const draw[SIDES])(dw_walk *, uint32_t, uint32_t *, uint32_t *) = {dw_draw, plain_draw};
static uint32_t (*const set_mark[SIDES])(dw_walk *, uint32_t) = {dw_set_mark, plain_set_mark};
static uint32_t (*const go_back[SIDES])(dw_walk *, uint32_t) = {dw_go_back, plain_go_back};
static uint32_t (*const save[SIDES])(const dw_walk *, uint8_t *, size_t, size_t *) = {dw_save, plain_save};
static uint32_t (*const load[SIDES])(const uint8_t *, size_t, dw_walk *) = {dw_load, plain_load};
static uint32_t (*const load_rising[SIDES])(const uint8_t *, size_t, dw_walk *) = {dw_load, plain_load_rising};
static uint32_t (*const site[SIDES])(uint32_t, uint32_t, uint32_t, uint32_t, uint32_t, uint32_t *, uint32_t *) = {dw_site, plain_site};
static uint32_t (*const sheet[SIDES])(uint32_t, uint32_t, uint32_t, uint8_t *, size_t) = {dw_sheet, plain_sheet};
static uint32_t (*const sheet3[SIDES])(uint32_t, uint32_t, uint32_t, uint32_t, uint8_t *, size_t) = {dw_sheet3, plain_sheet3};
static uint32_t (*const check_sheet[SIDES])(uint32_t, const uint8_t *, size_t) = {dw_check_sheet, plain_check_sheet};
static uint32_t (*const read_file[SIDES])(const uint8_t *, size_t, uint16_t *, size_t, uint16_t *, size_t, uint16_t *, size_t, uint32_t *,
                                          uint32_t *, uint32_t *, size_t *, size_t *, uint32_t *, uint32_t *) = {dw_read, plain_read};
static uint32_t (*const write_file[SIDES])(uint32_t, uint32_t, uint32_t, uint32_t, uint32_t, const uint16_t *, size_t, const uint16_t *,
                                           size_t, const uint16_t *, size_t, const uint8_t *, size_t, uint8_t *, size_t,
                                           size_t *) = {dw_write, plain_write};

static void run_pair_at(int side, size_t from, size_t to)
{
    Answer *a = &answers[side];
    for (size_t i = from; i < to; i++)
        a->status = pair_at[side](degree, inputs[i].position, &a->codes[0], &a->codes[1]);
}

static void run_unordered_pair_at(int side, size_t from, size_t to)
{
    Answer *a = &answers[side];
    for (size_t i = from; i < to; i++)
        a->status = unordered_pair_at[side](degree, inputs[i].position / 2, &a->codes[0], &a->codes[1]);
}

/* The library twice: the second list's call, and in the plain C's place the pair call at twice the entry. */
static void run_doubled(int side, size_t from, size_t to)
{
    Answer *a = &answers[side];
    for (size_t i = from; i < to; i++)
        a->status = side == LIBRARY ? dw_unordered_pair_at(degree, inputs[i].position / 2, &a->codes[0], &a->codes[1])
                                    : dw_pair_at(degree, inputs[i].position / 2 * 2, &a->codes[0], &a->codes[1]);
}

static void run_triple_at(int side, size_t from, size_t to)
{
    Answer *a = &answers[side];
    for (size_t i = from; i < to; i++)
        a->status = triple_at[side](degree, inputs[i].position, &a->codes[0], &a->codes[1], &a->codes[2]);
}

static void run_position_of(int side, size_t from, size_t to)
{
    Answer *a = &answers[side];
    for (size_t i = from; i < to; i++)
        a->status = position_of[side](degree, inputs[i].f, inputs[i].g, &a->position);
}

static void run_chain(int side, size_t from, size_t to)
{
    Answer *a = &answers[side];
    for (size_t i = from; i < to; i++)
        a->status = chain[side](degree, inputs[i].f, inputs[i].g, a->quotients, DW_CHAIN_ROOM, &a->count, &a->divisor);
}

static void run_longest_chains(int side, size_t from, size_t to)
{
    Answer *a = &answers[side];
    for (size_t i = from; i < to; i++)
        a->status = longest_chains[side](degree, &a->positions, &a->position);
}

/* A walk at a position, with half of its marks set, nothing counted, and the next pair right. */
static dw_walk some_walk(uint64_t position)
{
    dw_walk walk = {degree, position, {0}, {0}, 0, 0};
    for (size_t mark = 0; mark < DW_MARKS; mark += 2)
        walk.marks[mark] = inputs[mark].position + 1;
    plain_pair(degree, position, &walk.f, &walk.g);
    return walk;
}

/* Sixteen walks, from that of an input on, which calls are lent in turn, so that none is read just after it was written. The mark that a
 * call takes is at the position of the next input. */
static dw_walk walks[WALKS];

static void some_walks(size_t from)
{
    for (size_t i = from; i < from + WALKS; i++) {
        walks[i % WALKS] = some_walk(inputs[i % INPUTS].position);
        walks[i % WALKS].marks[2 * i % DW_MARKS] = inputs[(i + 1) % INPUTS].position + 1;
    }
}

static void keep_walk(Answer *a, const dw_walk *walk)
{
    a->degree = walk->degree;
    a->position = walk->position;
    memcpy(a->marks, walk->marks, sizeof walk->marks);
    memcpy(a->counts, walk->counts, sizeof walk->counts);
    a->next[0] = walk->f;
    a->next[1] = walk->g;
}

static void run_start(int side, size_t from, size_t to)
{
    Answer *a = &answers[side];
    memset(walks, 90, sizeof walks);
    for (size_t i = from; i < to; i++)
        a->status = start[side](degree, &walks[i % WALKS]);
    keep_walk(a, &walks[from % WALKS]);
}

static void run_look(int side, size_t from, size_t to)
{
    Answer *a = &answers[side];
    some_walks(from);
    for (size_t i = from; i < to; i++)
        a->status = look[side](&walks[i % WALKS], &a->codes[0], &a->codes[1]);
}

/* The library twice: a look, and in the plain C's place the pair call at the walk's position. */
static void run_kept(int side, size_t from, size_t to)
{
    Answer *a = &answers[side];
    some_walks(from);
    for (size_t i = from; i < to; i++)
        a->status = side == LIBRARY ? dw_look(&walks[i % WALKS], &a->codes[0], &a->codes[1])
                                    : dw_pair_at(degree, walks[i % WALKS].position, &a->codes[0], &a->codes[1]);
}

/* One record is lent to each draw, the bonders in turn; behind the list's end it starts anew. */
static void run_draw(int side, size_t from, size_t to)
{
    Answer *a = &answers[side];
    dw_walk walk = some_walk(inputs[from].position), first = some_walk(0);
    for (size_t i = from; i < to; i++)
        if ((a->status = draw[side](&walk, (uint32_t)i % DW_BONDERS, &a->codes[0], &a->codes[1])) == DW_SPENT) {
            walk.position = 0;
            walk.f = first.f;
            walk.g = first.g;
        }
    keep_walk(a, &walk);
}

/* Before each call a mark of the record that comes eight calls later is put at a random position, so that returns lead anywhere. */
static void run_marks(uint32_t (*call)(dw_walk *, uint32_t), Answer *a, size_t from, size_t to)
{
    some_walks(from);
    for (size_t i = from; i < to; i++) {
        walks[(i + WALKS / 2) % WALKS].marks[2 * i % DW_MARKS] = inputs[i].position + 1;
        a->status = call(&walks[i % WALKS], (uint32_t)(2 * i) % DW_MARKS);
    }
    keep_walk(a, &walks[from % WALKS]);
}

static void run_set_mark(int side, size_t from, size_t to)
{
    run_marks(set_mark[side], &answers[side], from, to);
}

static void run_go_back(int side, size_t from, size_t to)
{
    run_marks(go_back[side], &answers[side], from, to);
}

static void run_save(int side, size_t from, size_t to)
{
    Answer *a = &answers[side];
    for (size_t i = from; i < to; i++)
        a->status = save[side](&saved[i].walk, a->bytes, DW_SAVED_ROOM, &a->count);
}

typedef uint32_t load_call(const uint8_t *, size_t, dw_walk *);

/* Over sixteen walks in turn, as a start. */
static inline void load_kind(load_call *call, size_t kind, int side, size_t from, size_t to)
{
    Answer *a = &answers[side];
    memset(walks, 90, sizeof walks);
    for (size_t i = from; i < to; i++)
        a->status = call(saved[i].files[kind - 1], saved[i].lengths[kind - 1], &walks[i % WALKS]);
    keep_walk(a, &walks[from % WALKS]);
}

static void run_load(int side, size_t from, size_t to)
{
    load_kind(load[side], 2, side, from, to);
}

static void run_load1(int side, size_t from, size_t to)
{
    load_kind(load[side], 1, side, from, to);
}

static void run_load_rising(int side, size_t from, size_t to)
{
    load_kind(load_rising[side], 2, side, from, to);
}

static void run_load1_rising(int side, size_t from, size_t to)
{
    load_kind(load_rising[side], 1, side, from, to);
}

static void run_site(int side, size_t from, size_t to)
{
    Answer *a = &answers[side];
    for (size_t i = from; i < to; i++)
        a->status = site[side](degree, inputs[i].f, inputs[i].g, inputs[i].row, inputs[i].col, &a->codes[0], &a->codes[1]);
}

static void run_sheet(int side, size_t from, size_t to)
{
    Answer *a = &answers[side];
    for (size_t i = from; i < to; i++)
        a->status = sheet[side](degree, inputs[i].f, inputs[i].g, a->bytes, sizeof a->bytes);
}

static void run_sheet3(int side, size_t from, size_t to)
{
    Answer *a = &answers[side];
    for (size_t i = from; i < to; i++)
        a->status = sheet3[side](degree, inputs[i].f, inputs[i].g, inputs[i].h, a->bytes, sizeof a->bytes);
}

static void run_check_sheet(int side, size_t from, size_t to)
{
    Answer *a = &answers[side];
    for (size_t i = from; i < to; i++)
        a->status = check_sheet[side](order, sheets[i % SHEETS], sizeof sheets[i % SHEETS]);
}

static inline void read_version(uint32_t version, int side, Answer *a, size_t from, size_t to)
{
    for (size_t i = from; i < to; i++)
        a->status = read_file[side](trials[i].files[version - 1], trials[i].lengths[version - 1], a->powers, DW_LEVELS_ROOM, a->forces,
                                    DW_LEVELS_ROOM, a->times, DW_LEVELS_ROOM, &a->degree, &a->codes[0], &a->codes[1], &a->offset,
                                    &a->count, &a->version, &a->codes[2]);
}

static void run_read(int side, size_t from, size_t to)
{
    read_version(1, side, &answers[side], from, to);
}

static void run_read2(int side, size_t from, size_t to)
{
    read_version(2, side, &answers[side], from, to);
}

static inline void write_version(uint32_t version, int side, Answer *a, size_t from, size_t to)
{
    for (size_t i = from; i < to; i++) {
        const Trial *t = &trials[i];
        a->status = write_file[side](version, degree, t->f, t->g, t->h, t->powers, 64, t->forces, 64, t->times, 64, t->name,
                                     t->name_length, a->bytes, sizeof a->bytes, &a->count);
    }
}

static void run_write(int side, size_t from, size_t to)
{
    write_version(1, side, &answers[side], from, to);
}

static void run_write2(int side, size_t from, size_t to)
{
    write_version(2, side, &answers[side], from, to);
}

/* The library twice: with three codes, and in the plain C's place with two of them, on the same inputs. */
static void run_read_both(int side, size_t from, size_t to)
{
    read_version(side == LIBRARY ? 2 : 1, LIBRARY, &answers[side], from, to);
}

static void run_write_both(int side, size_t from, size_t to)
{
    write_version(side == LIBRARY ? 2 : 1, LIBRARY, &answers[side], from, to);
}

static void run_sheet_both(int side, size_t from, size_t to)
{
    Answer *a = &answers[side];
    for (size_t i = from; i < to; i++)
        a->status = side == LIBRARY ? dw_sheet3(degree, inputs[i].f, inputs[i].g, inputs[i].h, a->bytes, sizeof a->bytes)
                                    : dw_sheet(degree, inputs[i].f, inputs[i].g, a->bytes, sizeof a->bytes);
}

/* A job: how its inputs are made and run, how many there are, whether it is timed at degrees 4, 11, 21, 31 or at so many of a sheet's, the
 * highest last, and how many times the plain C's time it may take. */
typedef struct Job {
    const char *name;
    void (*prepare)(void);
    void (*run)(int side, size_t from, size_t to);
    size_t count;
    int sheets;
    double goal;
} Job;

static const Job jobs[] = {
    {"pair at, random", prepare_random, run_pair_at, INPUTS, 0, GOAL},
    {"pair at, rising", prepare_rising, run_pair_at, INPUTS, 0, GOAL},
    {"unordered pair at, random", prepare_random, run_unordered_pair_at, INPUTS, 0, GOAL},
    {"position of", prepare_random, run_position_of, INPUTS, 0, GOAL},
    {"chain", prepare_codes, run_chain, INPUTS, 0, 1.1},
    {"longest chains", prepare_rising, run_longest_chains, INPUTS, 0, GOAL},
    {"start", prepare_rising, run_start, INPUTS, 0, GOAL},
    {"look", prepare_rising, run_look, INPUTS, 0, GOAL},
    {"draw", prepare_rising, run_draw, INPUTS, 0, GOAL},
    {"set mark", prepare_random, run_set_mark, INPUTS, 0, GOAL},
    {"go back", prepare_random, run_go_back, INPUTS, 0, GOAL},
    {"save", prepare_saved, run_save, TRIALS, 0, GOAL},
    {"load", prepare_saved, run_load, TRIALS, 0, GOAL},
    {"load, kind 1", prepare_saved, run_load1, TRIALS, 0, GOAL},
    {"load, rising", prepare_saved_rising, run_load_rising, TRIALS, 0, GOAL},
    {"load, kind 1, rising", prepare_saved_rising, run_load1_rising, TRIALS, 0, GOAL},
    {"site", prepare_random, run_site, INPUTS, 0, GOAL},
    {"triple at, random", prepare_triples, run_triple_at, INPUTS, 1, GOAL},
    {"sheet", prepare_random, run_sheet, TRIALS, 1, GOAL},
    {"sheet3", prepare_triples, run_sheet3, TRIALS, 4, GOAL},
    {"check sheet", prepare_sheets, run_check_sheet, TRIALS, 1, GOAL},
    {"read", prepare_trials, run_read, TRIALS, 1, GOAL},
    {"write", prepare_trials, run_write, TRIALS, 1, GOAL},
    {"read, shuffled", prepare_shuffled, run_read, TRIALS, 1, GOAL},
    {"write, shuffled", prepare_shuffled, run_write, TRIALS, 1, GOAL},
    {"read, version 2", prepare_trials2, run_read2, TRIALS, 1, GOAL},
    {"write, version 2", prepare_trials2, run_write2, TRIALS, 1, GOAL},
    {"read, version 2, shuffled", prepare_shuffled2, run_read2, TRIALS, 1, GOAL},
    {"write, version 2, shuffled", prepare_shuffled2, run_write2, TRIALS, 1, GOAL},
};

/* Three codes and two: answers of different kinds, which the jobs above compare. */
static const Job three_to_two[] = {
    {"sheet3 to sheet", prepare_triples, run_sheet_both, TRIALS, 4, GOAL3},
    {"read, version 2 to 1", prepare_trials2, run_read_both, TRIALS, 1, GOAL3},
    {"write, version 2 to 1", prepare_trials2, run_write_both, TRIALS, 1, GOAL3},
    {"read, version 2 to 1, shuffled", prepare_shuffled2, run_read_both, TRIALS, 1, GOAL3},
    {"write, version 2 to 1, shuffled", prepare_shuffled2, run_write_both, TRIALS, 1, GOAL3},
};

/* What the rounds gave: medians in nanoseconds, of each side and of the rounds' differences; the median of the rounds' ratios, and how far
 * the middle half of the rounds was from it, as a part of it. */
typedef struct Line {
    double library, plain, more, ratio, spread;
} Line;

static double now(void)
{
    struct timespec t;
    clock_gettime(CLOCK_MONOTONIC, &t);
    return 1e9 * (double)t.tv_sec + (double)t.tv_nsec;
}

static int by_size(const void *a, const void *b)
{
    double x = *(const double *)a, y = *(const double *)b;
    return (x > y) - (x < y);
}

/* Sorts the values of the rounds and gives the middle one. */
static double median(double *values, size_t rounds)
{
    qsort(values, rounds, sizeof *values, by_size);
    return values[rounds / 2];
}

static void stop(const char *what)
{
    printf("%s, degree %" PRIu32 ": the two sides differ, or a call is not served\n", what, degree);
    exit(1);
}

/* Both sides on every input, each over the same bytes. */
static void compare(const Job *job)
{
    for (size_t i = 0; i < job->count; i++) {
        memset(answers, 165, sizeof answers);
        job->run(LIBRARY, i, i + 1);
        job->run(PLAIN, i, i + 1);
        if (answers[LIBRARY].status != DW_SERVED || memcmp(&answers[LIBRARY], &answers[PLAIN], sizeof(Answer)) != 0)
            stop(job->name);
    }
}

static double time_side(const Job *job, int side)
{
    double begin = now();
    job->run(side, 0, job->count);
    return (now() - begin) / (double)job->count;
}

static Line time_job(const Job *job)
{
    double times[SIDES][ROUNDS], more[ROUNDS], ratios[ROUNDS];
    for (int round = 0; round < ROUNDS; round++) {
        times[LIBRARY][round] = time_side(job, LIBRARY);
        times[PLAIN][round] = time_side(job, PLAIN);
        more[round] = times[LIBRARY][round] - times[PLAIN][round];
        ratios[round] = times[LIBRARY][round] / times[PLAIN][round];
    }
    Line line = {median(times[LIBRARY], ROUNDS), median(times[PLAIN], ROUNDS), median(more, ROUNDS), median(ratios, ROUNDS), 0};
    double below = line.ratio - ratios[ROUNDS / 4], above = ratios[ROUNDS - 1 - ROUNDS / 4] - line.ratio;
    line.spread = (below > above ? below : above) / line.ratio;
    return line;
}

/* Compares and times a job at a degree. */
static Line measure(const Job *job, uint32_t n)
{
    degree = n;
    job->prepare();
    compare(job);
    return time_job(job);
}

/* The same, and prints it. */
static Line show_line(const Job *job, uint32_t n)
{
    Line line = measure(job, n);
    printf("| %s | %" PRIu32 " | %.1f | %.1f | %.2f |\n", job->name, n, line.library, line.plain, line.ratio);
    return line;
}

typedef size_t List(uint32_t n, uint32_t *out);

/* A way to list the pairs of a degree: whether it keeps the list's order, and what a pair costs by it. */
typedef struct Way {
    const char *name;
    List *list;
    int ordered;
    double cost;
} Way;

/* The ways through the library and through the plain C beside it. */
static size_t by_library(uint32_t n, uint32_t *out)
{
    return list_rising(dw_pair_at, n, out);
}

static size_t by_library_shuffled(uint32_t n, uint32_t *out)
{
    return list_shuffled(dw_pair_at, n, shuffled, LIST_PAIRS, out);
}

static size_t by_plain(uint32_t n, uint32_t *out)
{
    return list_rising(plain_pair_at, n, out);
}

static size_t by_plain_shuffled(uint32_t n, uint32_t *out)
{
    return list_shuffled(plain_pair_at, n, shuffled, LIST_PAIRS, out);
}

#ifdef PAIRS_FROM
static size_t by_pairs_from(uint32_t n, uint32_t *out)
{
    size_t pairs = 0;
    return dw_pairs_from(n, 0, out, 2 * LIST_PAIRS, &pairs) == DW_SERVED ? pairs : 0;
}
#endif
#ifdef NTL
size_t filter_ntl(uint32_t n, uint32_t *out);
#endif
#ifdef FLINT
size_t filter_flint(uint32_t n, uint32_t *out);
#endif

static Way ways[] = {
    {"filter by Euclid, plain C", filter_c, 0, 0},
#ifdef NTL
    {"filter by NTL", filter_ntl, 0, 0},
#endif
#ifdef FLINT
    {"filter by FLINT", filter_flint, 0, 0},
#endif
    {"dw_pair_at, positions in random order", by_library_shuffled, 0, 0},
    {"dw_pair_at, rising", by_library, 1, 0},
    {"plain pair at, positions in random order", by_plain_shuffled, 0, 0},
    {"plain pair at, rising", by_plain, 1, 0},
#ifdef PAIRS_FROM
    {"dw_pairs_from, one call", by_pairs_from, 1, 0},
#endif
    {"nested loops in the list's order, plain C", list_in_order, 1, 0},
};
enum { WAYS = sizeof ways / sizeof *ways };

/* A checksum of the list; where the order is to count, of each pair with its position. */
static uint64_t checksum(size_t pairs, int ordered)
{
    uint64_t sum = 0;
    for (size_t i = 0; i < pairs; i++)
        sum += (((uint64_t)list[2 * i] << 32) + list[2 * i + 1] + (ordered ? i << 13 : 0)) * UINT64_C(0x9e3779b97f4a7c15) >> 20;
    return sum;
}

/* Each way's list against the one by positions. */
static void compare_lists(void)
{
    degree = LIST_DEGREE;
    for (int way = 0; way < WAYS; way++) {
        int ordered = ways[way].ordered;
        uint64_t want = checksum(by_plain(degree, list), ordered);
        memset(list, 0, sizeof list);
        if (checksum(ways[way].list(degree, list), ordered) != want)
            stop(ways[way].name);
    }
}

/* The whole list by each way in turn, round by round. */
static void time_lists(void)
{
    static double times[WAYS][LIST_ROUNDS];
    for (int turn = 0; turn < LIST_ROUNDS * WAYS; turn++) {
        double begin = now();
        ways[turn % WAYS].list(LIST_DEGREE, list);
        times[turn % WAYS][turn / WAYS] = (now() - begin) / LIST_PAIRS;
    }
    for (int way = 0; way < WAYS; way++)
        ways[way].cost = median(times[way], LIST_ROUNDS);
}

static double cost_of(List *by)
{
    int way = 0;
    while (ways[way].list != by)
        way++;
    return ways[way].cost;
}

static void show_goal(const char *what, double value, double limit)
{
    printf("- %s: %.2f, at most %.1f: ", what, value, limit);
    if (value <= limit)
        printf("met\n");
    else
        printf("missed by %.0f %%\n", 100 * (value / limit - 1));
}

static const uint32_t degrees[] = {4, LIST_DEGREE, 21, 31};

/* What is kept of a job's lines: the worst ratio, the widest spread and the library's longest time. */
typedef struct Summary {
    double worst, spread, longest;
} Summary;

/* A job at all of its degrees. */
static Summary show_job(const Job *job)
{
    Summary s = {0, 0, 0};
    for (int i = 0; i < (job->sheets ? job->sheets : 4); i++) {
        Line line = show_line(job, job->sheets ? (uint32_t)(SHEET_DEGREE + 1 + i - job->sheets) : degrees[i]);
        s.worst = line.ratio > s.worst ? line.ratio : s.worst;
        s.spread = line.spread > s.spread ? line.spread : s.spread;
        s.longest = line.library > s.longest ? line.library : s.longest;
    }
    return s;
}

enum { JOBS = sizeof jobs / sizeof *jobs, THREES = sizeof three_to_two / sizeof *three_to_two };

static void show_jobs(Summary *summaries)
{
    double spread = 0;
    printf("| job | degree | library ns | plain C ns | ratio |\n|---|---|---|---|---|\n");
    for (int job = 0; job < JOBS; job++) {
        summaries[job] = show_job(&jobs[job]);
        spread = summaries[job].spread > spread ? summaries[job].spread : spread;
    }
    printf("\nMedians of %d rounds, inputs prepared beforehand, caches warm. In each line the middle half of the rounds had ratios\n"
           "within %.0f %% of the one shown.\n", ROUNDS, 100 * spread);
}

/* What an entry of the second list costs beyond the pair call, at the worst of the four degrees. */
static double show_second_list(void)
{
    static const Job job = {"second list", prepare_random, run_doubled, INPUTS, 0, 0};
    double most = 0;
    printf("\n| degree | entry of the second list ns | pair at twice the entry ns | difference ns |\n|---|---|---|---|\n");
    for (int i = 0; i < 4; i++) {
        Line line = measure(&job, degrees[i]);
        printf("| %" PRIu32 " | %.1f | %.1f | %.1f |\n", degrees[i], line.library, line.plain, line.more);
        most = line.more > most ? line.more : most;
    }
    return most;
}

/* What a look costs at the worst of the four degrees, and the part that it takes of working the pair out at the highest. */
typedef struct Kept {
    double most, part;
} Kept;

static Kept show_kept(void)
{
    static const Job job = {"next pair kept", prepare_rising, run_kept, INPUTS, 0, 0};
    Kept kept = {0, 0};
    printf("\n| degree | look ns | pair at its position ns | times as fast |\n|---|---|---|---|\n");
    for (int i = 0; i < 4; i++) {
        Line line = measure(&job, degrees[i]);
        printf("| %" PRIu32 " | %.1f | %.1f | %.1f |\n", degrees[i], line.library, line.plain, 1 / line.ratio);
        kept.most = line.library > kept.most ? line.library : kept.most;
        kept.part = line.ratio;
    }
    return kept;
}

/* Sheets to check of orders that are no powers of two, with the exponent of two in each; gives the worst ratio. */
static double show_orders(void)
{
    static const Job job = {"check sheet of another order", make_sheets, run_check_sheet, TRIALS, 0, 0};
    static const uint32_t others[][2] = {{5, 0}, {12, 2}, {63, 0}};
    double worst = 0;
    printf("\n| order | check sheet ns | plain C ns | ratio |\n|---|---|---|---|\n");
    for (int i = 0; i < 3; i++) {
        order = others[i][0];
        Line line = measure(&job, others[i][1]);
        printf("| %" PRIu32 " | %.1f | %.1f | %.2f |\n", order, line.library, line.plain, line.ratio);
        worst = line.ratio > worst ? line.ratio : worst;
    }
    return worst;
}

/* What a third code costs; gives the ratio of each job at the highest degree. Every call is served. */
static void show_threes(double *ratios)
{
    printf("\n| job | degree | three codes ns | two codes ns | ratio |\n|---|---|---|---|---|\n");
    for (int i = 0; i < THREES; i++)
        for (degree = SHEET_DEGREE + 1 - (uint32_t)three_to_two[i].sheets; degree <= SHEET_DEGREE; degree++) {
            three_to_two[i].prepare();
            Line line = time_job(&three_to_two[i]);
            if (answers[LIBRARY].status != DW_SERVED || answers[PLAIN].status != DW_SERVED)
                stop(three_to_two[i].name);
            printf("| %s | %" PRIu32 " | %.1f | %.1f | %.2f |\n", three_to_two[i].name, degree, line.library, line.plain, line.ratio);
            ratios[i] = line.ratio;
        }
}

static void show_lists(void)
{
    printf("\n| whole list of degree %d, into warm memory | ns a listed pair | to the C filter |\n|---|---|---|\n", LIST_DEGREE);
    for (int way = 0; way < WAYS; way++)
        printf("| %s | %.1f | %.2f |\n", ways[way].name, ways[way].cost, ways[way].cost / cost_of(filter_c));
    printf("\nMedians of %d rounds.\n", LIST_ROUNDS);
}

/* The library's longest time for a job. */
static double longest_of(const Summary *summaries, void (*run)(int, size_t, size_t))
{
    int job = 0;
    while (jobs[job].run != run)
        job++;
    return summaries[job].longest;
}

static void show_goals(const Summary *summaries, double beyond, Kept kept, double orders, const double *threes)
{
    printf("\nThe worst ratio of each job, and its goal:\n\n");
    for (int job = 0; job < JOBS; job++)
        show_goal(jobs[job].name, summaries[job].worst, jobs[job].goal);
    printf("\nAn entry of the second list, in nanoseconds beyond the pair call:\n\n");
    show_goal("worst degree", beyond, 3);
    printf("\nA triple at a random position, in nanoseconds:\n\n");
    show_goal("degree 6", longest_of(summaries, run_triple_at), 110);
    printf("\nA sheet to check of order 5, 12 or 63:\n\n");
    show_goal("worst order", orders, GOAL);
    printf("\nThree codes to two, at degree %d:\n\n", SHEET_DEGREE);
    for (int i = 0; i < THREES; i++)
        show_goal(three_to_two[i].name, threes[i], three_to_two[i].goal);
    printf("\nA look, in nanoseconds; and eight looks to the pair call, at degree 31:\n\n");
    show_goal("worst degree", kept.most, 12);
    show_goal("ratio", 8 * kept.part, 1);
    printf("\nGoal: a pair at a position of degree %d costs no more than one pair that the C filter lists. The ratio:\n\n", LIST_DEGREE);
    show_goal("random order", cost_of(by_library_shuffled) / cost_of(filter_c), 1);
    show_goal("rising", cost_of(by_library) / cost_of(filter_c), 1);
#ifdef PAIRS_FROM
    printf("\nThe pairs from a position on, to the nested loops in plain C:\n\n");
    show_goal("whole list", cost_of(by_pairs_from) / cost_of(list_in_order), GOAL);
#endif
}

int main(void)
{
    static Summary summaries[JOBS];
    double threes[THREES] = {0};
    plain_tables();
    show_jobs(summaries);
    double beyond = show_second_list();
    Kept kept = show_kept();
    double orders = show_orders();
    show_threes(threes);
    shuffle();
    compare_lists();
    time_lists();
    show_lists();
    show_goals(summaries, beyond, kept, orders, threes);
    return 0;
}
