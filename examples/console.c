/* A console's job: start a walk, draw pairs for two bonders, come back, save the walk and go on after an update, make the sheet, write the
 * trial file and read it back. Then a trial of version 2, which has a bond time at each site as well; and a sheet that was made elsewhere,
 * checked. */
#include "dinnowell.h"

#include <inttypes.h>
#include <stdio.h>
#include <string.h>

static const uint8_t name[] = { 'A' };
static const uint16_t powers[] = { 100, 110, 120, 130, 140, 150, 160, 170 }, forces[] = { 200, 220, 240, 260, 280, 300, 320, 340 };
static const uint16_t times[] = { 90, 95, 100, 105, 110, 115, 120, 125 };

/* Reads a file of either version back and says what it holds. */
static int read_back(const uint8_t *file, size_t length)
{
    uint16_t levels[3][DW_LEVELS_ROOM];
    uint32_t n = 0, f = 0, g = 0, h = 0, version = 0;
    size_t name_offset = 0, name_length = 0;
    uint32_t status = dw_read(file, length, levels[0], DW_LEVELS_ROOM, levels[1], DW_LEVELS_ROOM, levels[2], DW_LEVELS_ROOM, &n, &f, &g,
                              &name_offset, &name_length, &version, &h);
    if (status != DW_SERVED)
        return 0;
    printf("file of %zu bytes, version %" PRIu32 ", degree %" PRIu32 ", name %.*s", length, version, n, (int)name_length,
           (const char *)file + name_offset);
    if (version == 2)
        printf(", first time %u, third code %" PRIu32, (unsigned)levels[2][0], h);
    printf("\n");
    return 1;
}

/* Goes on with a saved walk, and says where it is. A walk that is refused stays as it was. */
static int go_on(const uint8_t *file, size_t length, dw_walk *walk)
{
    if (dw_load(file, length, walk) != DW_SERVED)
        return 0;
    printf("saved walk of %zu bytes, degree %" PRIu32 ", position %" PRIu64 ", next pair %" PRIu32 " %" PRIu32, length, walk->degree,
           walk->position, walk->f, walk->g);
    printf(", bonder 3 was given %" PRIu64 "\n", walk->counts[3]);
    return 1;
}

/* Checks a sheet of order 5 that was made elsewhere, and says whether it passes. */
static void check_made(const char *what, const uint8_t *sheet, size_t length)
{
    uint32_t status = dw_check_sheet(5, sheet, length);
    if (status == DW_SERVED)
        printf("%s: passed\n", what);
    else
        printf("%s: refused, number %" PRIu32 "\n", what, status);
}

int main(void)
{
    uint32_t n = 2, f = 0, g = 0, h = 0;

    dw_walk walk;
    if (dw_start(n, &walk) != DW_SERVED || dw_draw(&walk, 0, &f, &g) != DW_SERVED)
        return 1;
    printf("pair %" PRIu32 " %" PRIu32 ", next position %" PRIu64 "\n", f, g, walk.position);

    uint32_t next_f = 0, next_g = 0;
    if (dw_set_mark(&walk, 0) != DW_SERVED || dw_draw(&walk, 3, &next_f, &next_g) != DW_SERVED || dw_go_back(&walk, 0) != DW_SERVED)
        return 1;
    printf("pair %" PRIu32 " %" PRIu32 ", and back to position %" PRIu64 "\n", next_f, next_g, walk.position);
    printf("bonder 0 was given %" PRIu64 ", bonder 3 %" PRIu64 "\n", walk.counts[0], walk.counts[3]);

    /* Before an update the console stores the walk, and after it goes on from there. */
    uint8_t saved[DW_SAVED_ROOM];
    size_t saved_length = 0;
    if (dw_save(&walk, saved, sizeof saved, &saved_length) != DW_SERVED || !go_on(saved, saved_length, &walk))
        return 1;

    /* An earlier release stored degree and position, here 31 and 300, and nothing else: a byte 1 goes in front. */
    static const uint8_t stored[] = { 31, 0xac, 2 };
    dw_walk earlier;
    saved[0] = 1;
    memcpy(saved + 1, stored, sizeof stored);
    if (!go_on(saved, 1 + sizeof stored, &earlier))
        return 1;

    uint8_t sheet[192]; /* 2 * 4^n bytes and, below, 3 * 4^n */
    if (dw_sheet(n, f, g, sheet, sizeof sheet) != DW_SERVED)
        return 1;
    for (int row = 0; row < 4; row++) {
        for (int col = 0; col < 4; col++) {
            const uint8_t *site = sheet + 2 * (4 * row + col);
            printf("%u mW %u mN%s", (unsigned)powers[site[0]], (unsigned)forces[site[1]], col < 3 ? ", " : "\n");
        }
    }

    uint8_t file[DW_FILE_ROOM];
    size_t length = 0;
    uint32_t status = dw_write(1, n, f, g, 0, powers, 4, forces, 4, NULL, 0, name, sizeof name, file, sizeof file, &length);
    if (status != DW_SERVED || !read_back(file, length))
        return 1;

    /* Three codes of degree 3, and the first row of their sheet. */
    n = 3;
    if (dw_triple_at(n, 0, &f, &g, &h) != DW_SERVED || dw_sheet3(n, f, g, h, sheet, sizeof sheet) != DW_SERVED)
        return 1;
    printf("triple %" PRIu32 " %" PRIu32 " %" PRIu32 "\n", f, g, h);
    for (int col = 0; col < 8; col++) {
        const uint8_t *site = sheet + 3 * col;
        unsigned time = times[site[2]];
        printf("%u mW %u mN %u.%u ms%s", (unsigned)powers[site[0]], (unsigned)forces[site[1]], time / 10, time % 10, col < 7 ? ", " : "\n");
    }
    status = dw_write(2, n, f, g, h, powers, 8, forces, 8, times, 8, name, sizeof name, file, sizeof file, &length);
    if (status != DW_SERVED || !read_back(file, length))
        return 1;

    /* Row + column, and row + twice the column, modulo 5; then with one symbol wrong. */
    uint8_t made[2 * 5 * 5];
    for (int site = 0; site < 25; site++) {
        made[2 * site] = (uint8_t)((site / 5 + site % 5) % 5);
        made[2 * site + 1] = (uint8_t)((site / 5 + 2 * (site % 5)) % 5);
    }
    check_made("a customer's sheet of order 5", made, sizeof made);
    made[0] = 3;
    check_made("the same with one power wrong", made, sizeof made);
    return 0;
}
