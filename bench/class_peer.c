/* A desk call as a C programmer would write it: all checks first, then the call, in place. It refuses what the
   library refuses, by the same numbers; limits and refusals go by the header's names, which are so put to the test. */
#include "class_peer.h"
#include "peer.h"

#include <stdbool.h>
#include <string.h>

enum {
    VALUES = FOLIOKETTLE_VALUES,
    ROWS = FOLIOKETTLE_ROWS,
    DESKS = FOLIOKETTLE_DESKS,
    PLACES = FOLIOKETTLE_PLACES,
    HELD = FOLIOKETTLE_HELD,
    PROMISED = FOLIOKETTLE_PROMISED,
    WORDS = FOLIOKETTLE_WORDS,
    VIEW = FOLIOKETTLE_VIEW
};

static bool in_column(uint64_t set, size_t d)
{
    return set != 0 && (d == 64 || set >> d == 0);
}

static foliokettle_told refuse(uint64_t number, uint64_t row)
{
    return (foliokettle_told){number, row, 0};
}

static foliokettle_told answer(uint64_t first, uint64_t second)
{
    return (foliokettle_told){0, first, second};
}

static bool hidden(const foliokettle_sheet *sheet, size_t desk, size_t row)
{
    return sheet->marks[desk * WORDS + row / 64] >> row % 64 & 1;
}

/* The rows that a word of marks may have. */
static uint64_t may_hide(const foliokettle_sheet *sheet, size_t word)
{
    size_t first = word % WORDS * 64;
    if (word / WORDS >= sheet->desks || sheet->rows <= first) return 0;
    return sheet->rows - first >= 64 ? UINT64_MAX : (UINT64_C(1) << (sheet->rows - first)) - 1;
}

/* Whether the sheet is sound; then `held` has each desk's rows, and `owed` what is still promised. */
static bool sound(const foliokettle_sheet *sheet, size_t held[DESKS], size_t *owed)
{
    if (sheet->d < 1 || sheet->d > VALUES || sheet->rows > ROWS) return false;
    if (sheet->desks < 1 || sheet->desks > DESKS || sheet->used > PLACES) return false;
    memset(held, 0, DESKS * sizeof *held);
    for (size_t i = 0; i < sheet->used; i++) {
        if (sheet->owners[i] >= sheet->desks || !in_column(sheet->sets[i], sheet->d)) return false;
        held[sheet->owners[i]]++;
    }
    for (size_t i = sheet->used; i < PLACES; i++)
        if (sheet->owners[i] != 0 || sheet->sets[i] != 0) return false;
    *owed = 0;
    for (size_t k = 0; k < sheet->desks; k++) {
        if (held[k] > HELD) return false;
        if (held[k] < PROMISED) *owed += PROMISED - held[k];
    }
    if (sheet->used + *owed > PLACES) return false;
    for (size_t word = 0; word < DESKS * WORDS; word++)
        if (sheet->marks[word] & ~may_hide(sheet, word)) return false;
    return true;
}

/* The desk's rows from number `from` to `upto` - 1 go; the rest close up in order. */
static void take_out(foliokettle_sheet *sheet, size_t desk, size_t from, size_t upto)
{
    size_t left = 0, seen = 0, used = sheet->used;
    for (size_t i = 0; i < used; i++) {
        if (sheet->owners[i] == desk) {
            bool goes = seen >= from && seen < upto;
            seen++;
            if (goes) continue;
        }
        sheet->sets[left] = sheet->sets[i];
        sheet->owners[left] = sheet->owners[i];
        left++;
    }
    sheet->used = left;
    for (; left < used; left++) sheet->sets[left] = sheet->owners[left] = 0;
}

static size_t gather(const uint64_t *table, size_t rows, const foliokettle_sheet *sheet, size_t desk,
                     uint64_t view[VIEW])
{
    size_t n = 0;
    for (size_t i = 0; i < rows; i++)
        if (!hidden(sheet, desk, i)) view[n++] = table[i];
    for (size_t i = 0; i < sheet->used; i++)
        if (sheet->owners[i] == desk) view[n++] = sheet->sets[i];
    return n;
}

static foliokettle_told look(const uint64_t *table, size_t rows, const foliokettle_sheet *sheet, size_t desk, size_t n)
{
    for (size_t i = 0; i < rows; i++)
        if (!hidden(sheet, desk, i) && n-- == 0) return answer(table[i], 0);
    for (size_t i = 0; i < sheet->used; i++)
        if (sheet->owners[i] == desk && n-- == 0) return answer(sheet->sets[i], 0);
    return refuse(FOLIOKETTLE_NO_ROW, 0);
}

foliokettle_told peer_call(const uint64_t *table, size_t rows, size_t d, foliokettle_sheet *sheet, size_t desk,
                           uint64_t kind, uint64_t n, size_t *list, size_t places)
{
    size_t held[DESKS], owed;
    if (kind > FOLIOKETTLE_DISTINCT) return refuse(FOLIOKETTLE_NO_CALL, 0);
    if (d < 1 || d > VALUES || rows > ROWS) return refuse(FOLIOKETTLE_TOO_LARGE, 0);
    for (size_t i = 0; i < rows; i++)
        if (!in_column(table[i], d)) return refuse(FOLIOKETTLE_BAD_ROW, i);
    if (!sound(sheet, held, &owed)) return refuse(FOLIOKETTLE_UNSOUND, 0);
    if (sheet->d != d || sheet->rows != rows) return refuse(FOLIOKETTLE_OTHER_TABLE, 0);
    if (desk >= sheet->desks) return refuse(FOLIOKETTLE_NO_DESK, 0);
    switch (kind) {
    case FOLIOKETTLE_DELETE_TABLE:
        if (n >= rows) return refuse(FOLIOKETTLE_NO_ROW, 0);
        if (hidden(sheet, desk, n)) return refuse(FOLIOKETTLE_HIDDEN_ALREADY, 0);
        sheet->marks[desk * WORDS + n / 64] |= UINT64_C(1) << n % 64;
        return answer(0, 0);
    case FOLIOKETTLE_DELETE_OWN:
        if (n >= held[desk]) return refuse(FOLIOKETTLE_NO_ROW, 0);
        take_out(sheet, desk, n, n + 1);
        return answer(0, 0);
    case FOLIOKETTLE_INSERT:
        if (!in_column(n, d)) return refuse(FOLIOKETTLE_BAD_SET, 0);
        if (held[desk] >= HELD) return refuse(FOLIOKETTLE_FULL, 0);
        if (held[desk] >= PROMISED && sheet->used + owed == PLACES) return refuse(FOLIOKETTLE_NO_ROOM, 0);
        sheet->sets[sheet->used] = n;
        sheet->owners[sheet->used++] = desk;
        return answer(0, 0);
    case FOLIOKETTLE_RESET:
        take_out(sheet, desk, 0, PLACES);
        memset(sheet->marks + desk * WORDS, 0, WORDS * sizeof sheet->marks[0]);
        return answer(0, 0);
    case FOLIOKETTLE_LOOK:
        return look(table, rows, sheet, desk, n);
    case FOLIOKETTLE_COUNT: {
        size_t seen = held[desk];
        for (size_t i = 0; i < rows; i++) seen += !hidden(sheet, desk, i);
        return answer(seen, held[desk]);
    }
    default: {
        uint64_t view[VIEW];
        size_t many = gather(table, rows, sheet, desk, view);
        if (places < many) return refuse(FOLIOKETTLE_SHORT_LIST, 0);
        return answer(peer_distinct(d, view, many, list, places), 0);
    }
    }
}
