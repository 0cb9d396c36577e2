/*
 * Dinnowell: coprime pairs and triples of binary polynomials, walks through the pairs, which can be saved, crossed squares, sheets and
 * trial files for bonding trials; and a check of sheets made elsewhere.
 *
 * WHAT IT SPEAKS OF; docs/SCOPE.md has all of it in full.
 * A polynomial with coefficients 0 and 1 is a code: bit j is the coefficient of x^j, so 11 is x^3 + x + 1. Its degree is the highest power
 * of x in it, its constant term is bit 0. Two codes have a common factor if a polynomial of degree 1 or more divides both; if none does,
 * they are coprime.
 * The list of degree n holds every ordered pair (f, g) of coprime codes of degree n whose constant terms are both one, each pair once. It
 * has 2(4^(n-1) - 1)/3 pairs, in an order that docs/SCOPE.md sets out under "The list".
 * The list of triples of degree n, for n from 2 to 6, holds every ordered triple (f, g, h) of codes of degree n whose constant terms are
 * all one and of which each two are coprime, each triple once, in rising order of f, then g, then h.
 * The square of a code of degree n has 2^n rows and 2^n columns, and at each site, which is a row and a column, a symbol below 2^n. Write
 * the n bits of the row and then the n bits of the column, each highest first, as cells 0 to 2n - 1. Then, for i from 0 to n - 1, bit
 * n - 1 - i of the symbol is 1 if an odd number of the cells i + j are 1, over all j from 0 to n for which bit j of the code is 1. Laid
 * over each other, the squares of two codes of degree n show each pair of symbols at exactly one site if the codes are coprime, and only
 * then.
 * A sheet has the symbols of two or three such squares, a byte each, site by site along one row after the other. A sheet made elsewhere,
 * which need not come of codes, has two symbols a site and an order from 3 to 64: the number of its rows, of its columns, and of the
 * symbols that each of its two squares has.
 * Positions, entries, rows, columns and symbols count from 0.
 * A trial of version 1 has two codes, f and g, and two lists of levels, powers and forces. One of version 2 has a third code, h, and a
 * third list, bond times; its codes are a triple, so its degree is 3 to 6. The format of a trial file, of either version, is in
 * docs/SCOPE.md under "Trial file".
 * A saved walk is a file of numbers. The first is its kind. Behind it kind 1 has the degree and the position, which is all that consoles
 * stored before there was dw_save; kind 2 has the degree, the position, the eight marks and the eight counts, in the order of dw_walk.
 * In a trial file and in a saved walk, a number is cut into groups of seven bits, lowest first, a byte each, at most ten; the high bit is
 * set on every byte but the last, and a last byte 0 is there for the number 0 alone. This is unsigned LEB128 in its shortest form.
 *
 * WHAT A FUNCTION ANSWERS. Every function returns DW_SERVED, the number of a refusal, or, where it says so, DW_SPENT. The refusals that a
 * function can return are listed with it, without their prefix DW_REFUSED_, in the order in which it looks for them; the first that applies
 * is returned. Results go through pointers. What stands behind a pointer changes only where the function returns DW_SERVED, and then only
 * as far as the function says; otherwise all memory is as it was before the call.
 *
 * POINTERS. A pointer with a length beside it points to that many elements; where the length is 0, the pointer may be null, as that of an
 * empty C++ vector may be. Every other pointer points to one element and is never null, also where nobody wants the result. Each pointer is
 * aligned for its type. Memory that a call may write, which is what its parameters without const point to, overlaps with nothing else that
 * the same call gets: two results that nobody wants still need a variable each. Memory that a call only writes need not be initialised.
 *
 * THREADS. Nothing is allocated and there is no global state. Calls may run at the same time as long as none writes what another reads or
 * writes; what calls only read, they may share.
 *
 * BUILDING. C11 or later, C++17 or later; x86-64 Linux, System V calling convention. One archive, libconsole.a, position-independent, which
 * needs memcpy and memset of other code at most:
 *     cc -std=c11 -Iinclude console.c libconsole.a
 */
#ifndef DINNOWELL_H
#define DINNOWELL_H

#include <stddef.h>
#include <stdint.h>

/* The version of this interface. MAJOR grows where a caller may have to change, MINOR where something is added. */
#define DW_VERSION_MAJOR 6
#define DW_VERSION_MINOR 2
#define DW_VERSION (1000 * DW_VERSION_MAJOR + DW_VERSION_MINOR)

/*
 * The compiler warns where the status that a function returns is not looked at. A refused call leaves what was in the buffer before, which
 * may be yesterday's sheet, and the status alone tells the two apart.
 */
#if defined(__cplusplus) && __cplusplus >= 201703L
#define DW_MUST_CHECK [[nodiscard]]
#elif defined(__GNUC__)
#define DW_MUST_CHECK __attribute__((warn_unused_result))
#else
#define DW_MUST_CHECK
#endif

#ifdef __cplusplus
extern "C" {
#endif

enum {
    DW_SERVED = 0,
    /* Caused by the console. */
    DW_REFUSED_DEGREE_RANGE = 1,    /* degree outside 1 to 31 */
    DW_REFUSED_POSITION_RANGE = 2,  /* position not below the length of the list of pairs; for dw_unordered_pair_at, not below half of it */
    DW_REFUSED_WALK_RECORD = 3,     /* walk record: degree outside 1 to 31, position or set mark beyond the length, count above 10^18 */
    DW_REFUSED_SLICE_LENGTH = 4,    /* memory too short for the results or a sheet to check; for dw_write also a list not of 2^n levels */
    DW_REFUSED_SITE_RANGE = 5,      /* row or column not below 2^n */
    /* Caused by who chooses polynomials. */
    DW_REFUSED_CODE_DEGREE = 6,     /* code not of degree n */
    DW_REFUSED_CONSTANT_TERM = 7,   /* constant term 0, an even code */
    DW_REFUSED_COMMON_FACTOR = 8,   /* f and g have a common factor; of three codes, any two of them */
    /* Caused by who writes the file. */
    DW_REFUSED_FILE_ENDS = 9,       /* file ends before a field, inside the name, or inside a number before its tenth byte */
    DW_REFUSED_NUMBER_FORM = 10,    /* number longer than ten bytes, above 18446744073709551615, or with a needless last byte 0 */
    DW_REFUSED_VERSION = 11,        /* version of a trial file neither 1 nor 2 */
    DW_REFUSED_SHEET_DEGREE = 12,   /* degree outside 2 to 6, of a trial file, a sheet or the list of triples */
    DW_REFUSED_LEVEL_RANGE = 13,    /* level above 65535; dw_read alone can meet one */
    DW_REFUSED_LEVEL_REPEATED = 14, /* level equal to an earlier one of its list */
    DW_REFUSED_NAME_LENGTH = 15,    /* name longer than 40 bytes */
    DW_REFUSED_NAME_BYTE = 16,      /* name byte outside 32 to 126 */
    DW_REFUSED_TRAILING_BYTES = 17, /* bytes after the name of a trial file, or after the last number of a saved walk */
    /* Caused by the console. */
    DW_REFUSED_MARK_RANGE = 18,     /* mark above 7 */
    DW_REFUSED_MARK_EMPTY = 19,     /* going back to an empty mark */
    DW_REFUSED_BONDER_RANGE = 20,   /* bonder above 7 */
    DW_REFUSED_BONDER_FULL = 21,    /* the bonder's count is DW_FULL_COUNT, and a pair is there to give */
    /* Caused by who stores a saved walk. */
    DW_REFUSED_SAVED_KIND = 22,     /* kind of a saved walk neither 1 nor 2 */
    DW_REFUSED_COUNT_RANGE = 23,    /* count of a saved walk above DW_FULL_COUNT, 10^18 */
    /* Caused by who makes a sheet to check. */
    DW_REFUSED_ORDER_RANGE = 26,    /* order outside 3 to 64 */
    DW_REFUSED_SYMBOL_RANGE = 27,   /* symbol, anywhere in the sheet, not below the order */
    DW_REFUSED_NOT_GRAECO_LATIN = 28, /* symbol twice in a row or a column of one of the two squares, or pair of symbols at two sites */
    /* No refusal: a walk is at the end of its list, or a position is not below the number of triples. */
    DW_SPENT = 255
};

enum {
    DW_MARKS = 8,           /* how many marks a walk has, numbered from 0 */
    DW_BONDERS = 8,         /* how many bonders draw from a walk, numbered from 0 */
    DW_CHAIN_ROOM = 32,     /* how many numbers dw_chain must be given room for */
    DW_LEVELS_ROOM = 64,    /* how many levels dw_read must be given room for, in each of three lists */
    DW_SHEET_ROOM = 8192,   /* bytes that hold a sheet of two codes of any degree n, which needs 2 * 4^n, or one to check, 2 * order^2 */
    DW_SHEET3_ROOM = 12288, /* bytes that hold a sheet of three codes of any degree; degree n needs 3 * 4^n */
    DW_FILE_ROOM = 622,     /* bytes that hold any trial file; one of version 1 has at most 429 */
    DW_NAME_ROOM = 40,      /* bytes that hold any name, with no 0 behind it */
    DW_SAVED_ROOM = 155,    /* bytes that hold any saved walk */
    DW_STACK_ROOM = 8192    /* bytes of stack that hold any call: measured, not proved; dw_pairs_from takes most, some 4600 */
};

/* The highest count of pairs given to a bonder: with it, the bonder is given no pair. No list is so long. */
#define DW_FULL_COUNT UINT64_C(1000000000000000000)

/*
 * A walk through the list of a degree: dw_start fills it in, dw_draw moves it on and counts the pair for a bonder, dw_set_mark marks where
 * it is and dw_go_back takes it to a mark; dw_save writes it to a file, and dw_load fills it in from one. A mark is 0 if it is empty, else
 * the marked position plus 1; a count is how many pairs dw_draw gave to that bonder, after dw_load on top of the file's count. f and g are
 * the next pair: where they are served, dw_start, dw_draw, dw_go_back and dw_load set it to the pair at the new position, or to 0 and 0 at
 * the list's end, where the walk is spent. They do so whatever stood there, dw_go_back also where it leads to the same position. No other
 * call changes f and g.
 * A walk may be copied and kept, and may be written by hand: its degree 1 to 31, its position up to the length of its list, where the walk
 * is spent, each mark up to the length plus 1, and each count up to DW_FULL_COUNT. All eight marks and all eight counts are looked at, so
 * one that is not wanted must be 0.
 * f and g are not checked. Below the list's end dw_look and dw_draw give them as they stand, 0 and 0 too, and return DW_SERVED; whether a
 * walk is spent, DW_SPENT tells and not f. So who writes a degree or a position by hand must set the pair right too, or the pair at that
 * position is passed over and another given in its place. Where it is served, this takes a walk to position p, whatever pair it holds, and
 * it leaves the marks and counts as they were:
 *     uint64_t mark = walk.marks[0];
 *     walk.marks[0] = p + 1;
 *     uint32_t status = dw_go_back(&walk, 0);
 *     walk.marks[0] = mark;
 * The padding between the fields means nothing, and calls may change it, so compare the fields and not the bytes.
 * Before version 5.0 a walk had 144 bytes and no next pair, before 4.0 it had 80 bytes and no counts either, before 3.0 it had 16 bytes and
 * no marks either. Code that was compiled for those must be compiled anew: dw_start writes 152 bytes, and dw_draw takes the bonder. Code
 * that writes degree or position must be changed as well, though it compiles: before 5.0 the pair followed the position. A walk that was
 * kept from before is taken over by copying its fields, with f and g 0, and then, as above, going to its own position. Over an update store
 * what dw_save wrote, and not the record.
 */
typedef struct dw_walk {
    uint32_t degree;
    uint64_t position;
    uint64_t marks[DW_MARKS];
    uint64_t counts[DW_BONDERS];
    uint32_t f, g;
} dw_walk;

/* The library was compiled for this layout. */
#ifdef __cplusplus
static_assert(sizeof(dw_walk) == 152 && offsetof(dw_walk, position) == 8 && offsetof(dw_walk, marks) == 16, "layout");
static_assert(offsetof(dw_walk, counts) == 80 && offsetof(dw_walk, f) == 144 && offsetof(dw_walk, g) == 148, "layout");
static_assert(sizeof(size_t) == 8, "layout");
#else
_Static_assert(sizeof(dw_walk) == 152 && offsetof(dw_walk, position) == 8 && offsetof(dw_walk, marks) == 16, "layout");
_Static_assert(offsetof(dw_walk, counts) == 80 && offsetof(dw_walk, f) == 144 && offsetof(dw_walk, g) == 148, "layout");
_Static_assert(sizeof(size_t) == 8, "layout");
#endif

/*
 * How many pairs the list of degree n has; (f, g) and (g, f) are two.
 * Served: *pairs is that number.
 * Refused: DEGREE_RANGE.
 */
DW_MUST_CHECK
uint32_t dw_length(uint32_t n, uint64_t *pairs);

/*
 * The pair at a position of the list of degree n.
 * Served: *f and *g are its codes.
 * Refused: DEGREE_RANGE; POSITION_RANGE.
 */
DW_MUST_CHECK
uint32_t dw_pair_at(uint32_t n, uint64_t position, uint32_t *f, uint32_t *g);

/*
 * The pairs of the list of degree n from a position on, as many as there are and as fit. room is how many numbers codes can hold; a pair
 * takes two.
 * Served: *count is how many pairs, at least 1; the first 2 * *count numbers of codes are their codes, f and g in turn. The numbers behind
 * them are unchanged. The next call goes on at position + *count. At the list's end that is refused by POSITION_RANGE: there is no count
 * of 0.
 * Refused: DEGREE_RANGE; POSITION_RANGE; SLICE_LENGTH if room is below 2.
 */
DW_MUST_CHECK
uint32_t dw_pairs_from(uint32_t n, uint64_t position, uint32_t *codes, size_t room, size_t *count);

/*
 * Where the pair of the codes f and g stands in the list of degree n.
 * Served: *position is its position.
 * Refused: DEGREE_RANGE; CODE_DEGREE, CONSTANT_TERM for f, then for g; COMMON_FACTOR.
 */
DW_MUST_CHECK
uint32_t dw_position_of(uint32_t n, uint32_t f, uint32_t g, uint64_t *position);

/*
 * The pair at an entry of the second list of degree n, in which (f, g) and (g, f) count once. Its entry j is the pair at position 2j of the
 * list; the swapped pair is at position 2j + 1. So the entry of a pair, in either order, is half the position that dw_position_of gives,
 * rounded down.
 * Served: *f and *g are its codes.
 * Refused: DEGREE_RANGE; POSITION_RANGE if entry is not below half the number that dw_length gives.
 */
DW_MUST_CHECK
uint32_t dw_unordered_pair_at(uint32_t n, uint64_t entry, uint32_t *f, uint32_t *g);

/*
 * The triple at a position of the list of triples of degree n. The lists of degrees 2 to 6 have 0, 12, 150, 1380 and 11574 triples; the
 * first of degree 3 is (9, 11, 13). The six orders of three codes are six triples. Each two codes of a triple are a pair of the list of
 * degree n, in either order. To go through a whole list, raise position by one from 0 on until DW_SPENT is returned.
 * Served: *f, *g and *h are its codes.
 * Refused: SHEET_DEGREE.
 * DW_SPENT: position is not below the number of triples; at degree 2, whose list is empty, whatever position is.
 */
DW_MUST_CHECK
uint32_t dw_triple_at(uint32_t n, uint64_t position, uint32_t *f, uint32_t *g, uint32_t *h);

/*
 * The quotients of Euclid's algorithm on the codes f and g of degree n: f is divided by g, then each divisor by its remainder, until that
 * is 0. The two may have a common factor. room is how many numbers quotients can hold.
 * Served: *count is how many quotients there are, *divisor the greatest common divisor; the first *count numbers of quotients are the
 * quotients, in the order of the divisions. The numbers behind them are unchanged.
 * Refused: DEGREE_RANGE; CODE_DEGREE, CONSTANT_TERM for f, then for g; SLICE_LENGTH if room is below DW_CHAIN_ROOM, however few there are.
 */
DW_MUST_CHECK
uint32_t dw_chain(uint32_t n, uint32_t f, uint32_t g, uint32_t *quotients, size_t room, size_t *count, uint32_t *divisor);

/*
 * Which pairs of the list of degree n have the most quotients in dw_chain. None has more than n + 1; the last pairs of the list have n + 1,
 * and all pairs before them have fewer.
 * Served: *count is how many pairs have n + 1 quotients, and *first is the position of the first of them; *first + *count is the list's
 * length. At degree 1 there is none: *count is 0 and *first is unchanged, so test *count before using *first.
 * Refused: DEGREE_RANGE.
 */
DW_MUST_CHECK
uint32_t dw_longest_chains(uint32_t n, uint64_t *count, uint64_t *first);

/*
 * The symbols at one row and column of the squares of f and g, codes of degree n. The two may have a common factor.
 * Served: *first is f's symbol and *second g's.
 * Refused: DEGREE_RANGE; CODE_DEGREE, CONSTANT_TERM for f, then for g; SITE_RANGE.
 */
DW_MUST_CHECK
uint32_t dw_site(uint32_t n, uint32_t f, uint32_t g, uint32_t row, uint32_t col, uint32_t *first, uint32_t *second);

/*
 * The sheet of f and g, codes of degree n: two bytes a site, f's symbol and then g's, row by row. In a trial of version 1 the site gets
 * powers[f's symbol] and forces[g's symbol]. room is how many bytes sheet can hold.
 * Served: the first 2 * 4^n bytes of sheet are the sheet; row r and column c have bytes 2 * (r * 2^n + c) and the next. The bytes behind
 * the sheet are unchanged.
 * Refused: SHEET_DEGREE; CODE_DEGREE, CONSTANT_TERM for f, then for g; COMMON_FACTOR; SLICE_LENGTH if room is below 2 * 4^n.
 */
DW_MUST_CHECK
uint32_t dw_sheet(uint32_t n, uint32_t f, uint32_t g, uint8_t *sheet, size_t room);

/*
 * The sheet of f, g and h, codes of degree n: three bytes a site, f's symbol, g's and then h's, row by row. In a trial of version 2 the
 * site gets powers[f's symbol], forces[g's symbol] and times[h's symbol]. The codes that are served are those of the list of triples; at
 * degree 2 there are none. room is how many bytes sheet can hold.
 * Served: the first 3 * 4^n bytes of sheet are the sheet; row r and column c have bytes 3 * (r * 2^n + c) and the next two. The bytes
 * behind the sheet are unchanged.
 * Refused: SHEET_DEGREE; CODE_DEGREE, CONSTANT_TERM for f, then for g, then for h; COMMON_FACTOR for any two of them; SLICE_LENGTH if room
 * is below 3 * 4^n.
 */
DW_MUST_CHECK
uint32_t dw_sheet3(uint32_t n, uint32_t f, uint32_t g, uint32_t h, uint8_t *sheet, size_t room);

/*
 * Checks a sheet made elsewhere, of an order from 3 to 64, which need not be a power of two. It has the layout of dw_sheet: two bytes a
 * site, the first square's symbol and then the second's, row by row; row r and column c have bytes 2 * (r * order + c) and the next.
 * length is how many bytes sheet points to; those behind the first 2 * order * order are not looked at. Nothing is written, on any answer.
 * Served: the sheet passes; it is what is called a Graeco-Latin square. In each row and each column, each number below order comes once as
 * the first square's symbol and once as the second's, and each pair of a first and a second symbol has exactly one site. A sheet that
 * dw_sheet wrote passes at order 2^n; those of dw_sheet3 have another layout.
 * Refused: ORDER_RANGE; SLICE_LENGTH if length is below 2 * order * order; SYMBOL_RANGE if any byte of the sheet is not below order,
 * whatever else is wrong with it; NOT_GRAECO_LATIN if it does not pass.
 */
DW_MUST_CHECK
uint32_t dw_check_sheet(uint32_t order, const uint8_t *sheet, size_t length);

/*
 * Reads a trial file of either version, the length bytes of file. powers_room, forces_room and times_room are how many numbers powers,
 * forces and times can hold; a file of version 1 needs all three rooms too.
 * Served: *version is 1 or 2. *degree, *f and *g are the file's. The first 2^*degree numbers of powers are its powers, in milliwatts, and
 * those of forces its forces, in millinewtons. At version 2, *h is the file's, and the first 2^*degree numbers of times are its bond times,
 * in tenths of a millisecond; at version 1, *h and times are unchanged, so test *version before using them. Levels are in the file's order,
 * rising or not; no two of a list are equal. The numbers behind them are unchanged. The file's name is the *name_length bytes from
 * file[*name_offset] on, its last, at most DW_NAME_ROOM, with no 0 behind them; for an empty name *name_offset is length.
 * Refused: SLICE_LENGTH if powers_room, forces_room or times_room is below DW_LEVELS_ROOM, also if the file has fewer levels or no times.
 * Then field by field: VERSION; SHEET_DEGREE; CODE_DEGREE, CONSTANT_TERM for f, then for g, and at version 2 then for h; COMMON_FACTOR for
 * any two of the codes; LEVEL_RANGE, LEVEL_REPEATED for each power, then for each force, and at version 2 then for each time; NAME_LENGTH;
 * FILE_ENDS, NAME_BYTE for the name; TRAILING_BYTES. Ahead of its field's own refusals, each number is refused by FILE_ENDS if the file
 * ends where the number is unfinished and has fewer than ten bytes, and then by NUMBER_FORM.
 * Before version 6.2 a number had at most five bytes and was at most 4294967295. The files that are served are the same; one with a number
 * beyond that, which NUMBER_FORM refused, may now be refused by another of these.
 * Before version 6.0 this function had neither times and times_room nor version and h. Code that was compiled for that links without
 * complaint, and must be compiled anew.
 */
DW_MUST_CHECK
uint32_t dw_read(const uint8_t *file, size_t length, uint16_t *powers, size_t powers_room, uint16_t *forces, size_t forces_room,
                 uint16_t *times, size_t times_room, uint32_t *degree, uint32_t *f, uint32_t *g, size_t *name_offset,
                 size_t *name_length, uint32_t *version, uint32_t *h);

/*
 * Writes the trial file of a version, 1 or 2, and of degree n with the codes f and g, powers_count powers (milliwatts), forces_count forces
 * (millinewtons) and a name of name_length bytes, with no 0 behind it; at version 2 also with the code h and times_count bond times (tenths
 * of a millisecond). At version 1 neither h nor times nor times_count is looked at: 0, NULL and 0 will do, and what POINTERS says holds of
 * them too. room is how many bytes file can hold; DW_FILE_ROOM are always enough.
 * Served: *length is how many bytes the file has; they are the first of file. The bytes behind them are unchanged.
 * Refused: VERSION; SHEET_DEGREE; CODE_DEGREE, CONSTANT_TERM for f, then for g, and at version 2 then for h; COMMON_FACTOR for any two of
 * the codes; SLICE_LENGTH if powers_count, forces_count or, at version 2, times_count is not 2^n; LEVEL_REPEATED for powers, then for
 * forces, and at version 2 then for times; NAME_LENGTH; NAME_BYTE; SLICE_LENGTH if room is below the file's length.
 * Before version 6.0 this function had neither version, its first argument now, nor h, times and times_count. Code that was compiled for
 * that links without complaint, and must be compiled anew.
 */
DW_MUST_CHECK
uint32_t dw_write(uint32_t version, uint32_t n, uint32_t f, uint32_t g, uint32_t h, const uint16_t *powers, size_t powers_count,
                  const uint16_t *forces, size_t forces_count, const uint16_t *times, size_t times_count, const uint8_t *name,
                  size_t name_length, uint8_t *file, size_t room, size_t *length);

/*
 * Starts a walk through the list of degree n. What stands in *walk before is not looked at.
 * Served: *walk has degree n, position 0, all marks empty, all counts 0, and as its next pair the first of the list; at degree 1, whose
 * list is empty, 0 and 0.
 * Refused: DEGREE_RANGE.
 */
DW_MUST_CHECK
uint32_t dw_start(uint32_t n, dw_walk *walk);

/*
 * The next pair of the walk: the one at its position, if dw_start or dw_load began the walk and nothing but the calls below has written its
 * degree, position or pair. f and g must not point into *walk.
 * Served: *f and *g are walk->f and walk->g.
 * Refused: WALK_RECORD.
 * DW_SPENT: the walk is at the end of its list, whatever its next pair is.
 */
DW_MUST_CHECK
uint32_t dw_look(const dw_walk *walk, uint32_t *f, uint32_t *g);

/*
 * The next pair of the walk, as dw_look gives it, given to a bonder, and the walk moves on. f and g must not point into *walk.
 * Served: *f and *g are what walk->f and walk->g were; walk->position and walk->counts[bonder] are one more than they were, walk->f and
 * walk->g are the pair at the new position, or 0 and 0 at the list's end, and the rest of *walk is the same.
 * Refused: WALK_RECORD; BONDER_RANGE if bonder is not below DW_BONDERS; BONDER_FULL, on a walk that is not spent.
 * DW_SPENT: the walk is at the end of its list, and stays there; nothing is counted.
 */
DW_MUST_CHECK
uint32_t dw_draw(dw_walk *walk, uint32_t bonder, uint32_t *f, uint32_t *g);

/*
 * Marks the walk's position. A mark that is set already is set anew. A spent walk can be marked too: the mark is then at the end.
 * Served: walk->marks[mark] is walk->position + 1, the rest of *walk the same.
 * Refused: WALK_RECORD; MARK_RANGE if mark is not below DW_MARKS.
 */
DW_MUST_CHECK
uint32_t dw_set_mark(dw_walk *walk, uint32_t mark);

/*
 * Takes the walk to a marked position. The mark stays set, and no count changes. From there dw_draw goes on through the list, so pairs that
 * were drawn before may come again; where the mark lies ahead of the walk, the pairs between are passed over.
 * Served: walk->position is walk->marks[mark] - 1, walk->f and walk->g are the pair there, or 0 and 0 at the list's end, and the rest of
 * *walk is the same.
 * Refused: WALK_RECORD; MARK_RANGE if mark is not below DW_MARKS; MARK_EMPTY.
 */
DW_MUST_CHECK
uint32_t dw_go_back(dw_walk *walk, uint32_t mark);

/*
 * Saves a walk, for dw_load. A console that is updated in mid-trial stores these bytes before the update and reads them after it; it does
 * not store the record. The file is of kind 2: the number 2, then degree, position, marks and counts as they stand in *walk. The next pair
 * is not saved. room is how many bytes out can hold; DW_SAVED_ROOM are always enough.
 * Served: *size is how many bytes the file has; they are the first of out. The bytes behind them are unchanged.
 * Refused: WALK_RECORD; SLICE_LENGTH if room is below the file's length.
 */
DW_MUST_CHECK
uint32_t dw_save(const dw_walk *walk, uint8_t *out, size_t room, size_t *size);

/*
 * Reads a saved walk, the length bytes of file: one that dw_save wrote, which is of kind 2, or one of kind 1. A file of the old release,
 * which has the degree and then the position, gets a byte 1 in front from the console, and then is of kind 1: dw_draw gives the bonders 0
 * to 7 the pairs that the old release would have given, until dw_go_back is served. What stands in *walk before is not looked at.
 * Reading begins a walk of its own, as dw_start does. dw_draw goes on from the file's position and adds to the file's counts; a pair that
 * was drawn before the reading may come again after it, as when more was drawn after the walk was saved, or when a file is read twice.
 * Served: *walk has the file's degree and position, at kind 2 the file's marks and counts, at kind 1 all marks empty and all counts 0, and
 * as its next pair the one at its position, or 0 and 0 at the list's end.
 * Refused: number by number: SAVED_KIND for the kind; COUNT_RANGE for each count, before the numbers behind it are looked at;
 * TRAILING_BYTES; then WALK_RECORD if the degree is outside 1 to 31, the position above the length of its list, or a mark above the length
 * plus 1. Ahead of its own refusal, each number is refused by FILE_ENDS if the file ends where the number is unfinished and has fewer than
 * ten bytes, and then by NUMBER_FORM.
 */
DW_MUST_CHECK
uint32_t dw_load(const uint8_t *file, size_t length, dw_walk *walk);

#ifdef __cplusplus
}
#endif

#endif
