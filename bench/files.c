/* Lesson files beside plain C, in one process: drawn tables are written and drawn files read by both sides, which must
   answer the same and leave the same bytes and rows; then the times of a call on 256 rows are printed. With a number
   it draws that many thousand tables and files, and measures nothing. */
#define _POSIX_C_SOURCE 200809L
#include "../include/foliokettle.h"

#include <stdbool.h>
#include <stdio.h>
#include <stdlib.h>
#include <string.h>
#include <time.h>

enum { ROOM = FOLIOKETTLE_FILE + 64, PLACES = FOLIOKETTLE_ROWS + 4, THOUSANDS = 200 };

/* ---- plain C */

static foliokettle_told refused(uint64_t refusal, size_t row)
{
    return (foliokettle_told){.refusal = refusal, .first = row};
}

static bool has_over(uint64_t row, size_t d)
{
    return d < 64 && row >> d != 0;
}

static uint64_t all_values(size_t d)
{
    return d < 64 ? (UINT64_C(1) << d) - 1 : UINT64_MAX;
}

static void put_row(uint8_t *file, size_t i, uint64_t row)
{
    for (size_t k = 0; k < 8; k++) file[8 + 8 * i + k] = (uint8_t)(row >> (56 - 8 * k));
}

static foliokettle_told peer_write(size_t d, const uint64_t *table, size_t rows, uint8_t *buffer, size_t room)
{
    if (d == 0 || d > FOLIOKETTLE_VALUES || rows > FOLIOKETTLE_ROWS) return refused(FOLIOKETTLE_TOO_LARGE, 0);
    for (size_t i = 0; i < rows; i++)
        if (table[i] == 0 || has_over(table[i], d)) return refused(FOLIOKETTLE_BAD_ROW, i);
    if (room < 8 + 8 * rows) return refused(FOLIOKETTLE_SHORT_BUFFER, 0);
    const uint8_t header[8] = {'P', 'V', 'T', 0, 1, (uint8_t)d, (uint8_t)(rows >> 8), (uint8_t)rows};
    memcpy(buffer, header, sizeof header);
    for (size_t i = 0; i < rows; i++) put_row(buffer, i, table[i]);
    return (foliokettle_told){.first = 8 + 8 * rows};
}

static uint64_t row_in(const uint8_t *file, size_t i)
{
    uint64_t row = 0;
    for (size_t k = 0; k < 8; k++) row = row << 8 | file[8 + 8 * i + k];
    return row;
}

static foliokettle_told peer_read(const uint8_t *file, size_t length, uint64_t *rows, size_t places)
{
    if (length < 8) return refused(FOLIOKETTLE_SHORT_FILE, 0);
    if (memcmp(file, "PVT", 3) != 0) return refused(FOLIOKETTLE_WRONG_MARK, 0);
    if (file[3] != 0 || file[4] != 1) return refused(FOLIOKETTLE_WRONG_VERSION, 0);
    size_t d = file[5], count = (size_t)file[6] << 8 | file[7];
    if (d == 0 || d > FOLIOKETTLE_VALUES) return refused(FOLIOKETTLE_BAD_VALUES, 0);
    if (count > FOLIOKETTLE_ROWS) return refused(FOLIOKETTLE_MANY_ROWS, 0);
    if (length < 8 + 8 * count) return refused(FOLIOKETTLE_CUT_SHORT, 0);
    if (length > 8 + 8 * count) return refused(FOLIOKETTLE_LONG_FILE, 0);
    for (size_t i = 0; i < count; i++)
        if (has_over(row_in(file, i), d)) return refused(FOLIOKETTLE_ROW_OVER, i);
    if (places < count) return refused(FOLIOKETTLE_FEW_PLACES, 0);
    for (size_t i = 0; i < count; i++) rows[i] = row_in(file, i) != 0 ? row_in(file, i) : all_values(d);
    return (foliokettle_told){.first = d, .second = count};
}

/* ---- drawing */

static uint64_t drawing = UINT64_C(0x9e3779b97f4a7c15);

static uint64_t draw(void)
{
    drawing ^= drawing << 13;
    drawing ^= drawing >> 7;
    drawing ^= drawing << 17;
    return drawing;
}

static size_t draw_below(size_t end)
{
    return (size_t)(draw() % end);
}

static bool one_in(size_t n)
{
    return draw_below(n) == 0;
}

typedef struct {
    size_t d, rows;
    uint64_t cells[PLACES];
} table;

/* Mostly a few rows, at times about as many as there may be; now and then a bad row or d. */
static void draw_table(table *t)
{
    t->d = one_in(10) ? draw_below(70) : 1 + draw_below(FOLIOKETTLE_VALUES);
    t->rows = one_in(16) ? FOLIOKETTLE_ROWS - 2 + draw_below(5) : draw_below(8);
    for (size_t i = 0; i < t->rows; i++) {
        t->cells[i] = draw() & (one_in(2) ? draw() : UINT64_MAX) & all_values(t->d);
        if (t->cells[i] == 0) t->cells[i] = 1;
    }
    if (t->rows > 0 && one_in(8)) t->cells[draw_below(t->rows)] = one_in(2) ? 0 : draw();
}

/* The file as it is, or with unknown cells, a byte of the header changed, cut short or longer. */
static size_t spoil(uint8_t *file, size_t length)
{
    for (size_t i = 8; i < length; i += 8)
        if (one_in(20)) memset(file + i, 0, 8);
    if (one_in(40)) memset(file + 8, 0, length - 8);
    if (one_in(8)) file[draw_below(8)] = (uint8_t)(one_in(2) ? draw_below(4) : draw());
    if (one_in(8)) length -= 1 + draw_below(8);
    else if (one_in(8)) length += draw_below(9);
    return length;
}

/* ---- both sides must agree */

static size_t same, filled;

static void fail(const char *what)
{
    fprintf(stderr, "files: %s\n", what);
    exit(1);
}

static foliokettle_told write_both(const table *t, uint8_t *ours, size_t room)
{
    static uint8_t theirs[ROOM];
    memcpy(theirs, ours, sizeof theirs);
    foliokettle_told told = foliokettle_write(t->d, t->cells, t->rows, ours, room);
    foliokettle_told theirs_told = peer_write(t->d, t->cells, t->rows, theirs, room);
    if (memcmp(&told, &theirs_told, sizeof told) != 0) fail("answers to a table differ");
    if (memcmp(ours, theirs, sizeof theirs) != 0) fail("buffers differ");
    return told;
}

static foliokettle_told read_both(const uint8_t *file, size_t length, table *t, size_t places)
{
    static uint64_t theirs[PLACES];
    memcpy(theirs, t->cells, sizeof theirs);
    foliokettle_told told = foliokettle_read(file, length, t->cells, places);
    foliokettle_told theirs_told = peer_read(file, length, theirs, places);
    if (memcmp(&told, &theirs_told, sizeof told) != 0) fail("answers to a file differ");
    if (memcmp(t->cells, theirs, sizeof theirs) != 0) fail("rows differ");
    t->d = told.first;
    t->rows = told.second;
    return told;
}

/* All values go where a row of zeros stands; whether one does. */
static bool fill_unknown(uint8_t *file, const table *t)
{
    bool unknown = false;
    for (size_t i = 0; i < t->rows; i++)
        if (row_in(file, i) == 0) {
            put_row(file, i, all_values(t->d));
            unknown = true;
        }
    return unknown;
}

/* A file that is read is written again: as the same bytes, but that all values stand where a cell was unknown. What was
   written is read as the same rows. */
static void again(const uint8_t *file, size_t length, const table *t)
{
    static uint8_t buffer[ROOM], wanted[ROOM];
    static table back;
    foliokettle_told told = write_both(t, buffer, sizeof buffer);
    if (told.refusal != 0) fail("a table that was read is not saved");
    memcpy(wanted, file, length);
    if (fill_unknown(wanted, t)) filled++;
    else same++;
    if (length != told.first || memcmp(buffer, wanted, length) != 0) fail("a file is read and written as another");
    back = *t;
    memset(back.cells, 0, t->rows * sizeof *back.cells);
    if (read_both(buffer, length, &back, FOLIOKETTLE_ROWS).refusal != 0 || memcmp(&back, t, sizeof back) != 0)
        fail("what was written is read as another table");
}

static void round_trip(void)
{
    static uint8_t buffer[ROOM];
    static table t, back;
    for (size_t i = 0; i < sizeof buffer; i++) buffer[i] = (uint8_t)draw();
    draw_table(&t);
    size_t room = 8 + 8 * t.rows;
    foliokettle_told told = write_both(&t, buffer, one_in(4) ? room - 1 - draw_below(8) : room + draw_below(9));
    size_t length = told.refusal == 0 ? spoil(buffer, told.first) : draw_below(40);
    for (size_t i = 0; i < PLACES; i++) back.cells[i] = draw();
    if (read_both(buffer, length, &back, one_in(8) ? draw_below(8) : FOLIOKETTLE_ROWS).refusal == 0)
        again(buffer, length, &back);
}

/* ---- the times */

static double now_ns(void)
{
    struct timespec t;
    clock_gettime(CLOCK_MONOTONIC, &t);
    return (double)t.tv_sec * 1e9 + (double)t.tv_nsec;
}

typedef foliokettle_told write_function(size_t, const uint64_t *, size_t, uint8_t *, size_t);
typedef foliokettle_told read_function(const uint8_t *, size_t, uint64_t *, size_t);

/* The shortest of some rounds, in ns for a call. */
static void measure(const char *side, write_function *write, read_function *read)
{
    static table t = {.d = 64, .rows = FOLIOKETTLE_ROWS};
    static uint8_t buffer[FOLIOKETTLE_FILE];
    enum { ROUNDS = 50, CALLS = 500 };
    double best[2] = {1e18, 1e18};
    for (size_t i = 0; i < t.rows; i++) t.cells[i] = UINT64_C(0x0102030405060708) + i;
    for (int round = 0; round < ROUNDS; round++) {
        double start = now_ns();
        for (int i = 0; i < CALLS; i++) write(t.d, t.cells, t.rows, buffer, sizeof buffer);
        double middle = now_ns();
        for (int i = 0; i < CALLS; i++) read(buffer, sizeof buffer, t.cells, t.rows);
        double end = now_ns();
        if ((middle - start) / CALLS < best[0]) best[0] = (middle - start) / CALLS;
        if ((end - middle) / CALLS < best[1]) best[1] = (end - middle) / CALLS;
    }
    printf("files: 256 rows, %s: written in %.0f ns, read in %.0f ns\n", side, best[0], best[1]);
}

int main(int argc, char **argv)
{
    int thousands = argc > 1 ? atoi(argv[1]) : THOUSANDS;
    for (int i = 0; i < 1000 * thousands; i++) round_trip();
    printf("files: %d thousand tables and files: answers, bytes and rows are the same; ", thousands);
    printf("%zu files that were read were written again as the same bytes, ", same);
    printf("and %zu with all values where a cell was unknown\n", filled);
    if (argc > 1) return 0;
    measure("ours", foliokettle_write, foliokettle_read);
    measure("plain C", peer_write, peer_read);
    return 0;
}
