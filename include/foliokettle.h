/* The store for hosts in C and C++: what `rt lib` makes of crates/host_c, an archive for x86-64 Linux
   that wants nothing but memcpy and memset. docs/HANDBOOK.md tells what the calls do.

   What a host has to see to:
   - Pointers are valid for their lengths, which count elements; NULL will do where the length is 0. What is lent to one
     call (table, list, sheet, file, rows, buffer) lies apart from each other.
   - FOLIOKETTLE_STACK bytes of stack are left on the thread that calls.
   - A pupil calls from his own desk, on the sheet of his own class: the store can't know who asks.
   Nothing has to be promised about tables, sheets, files, desks, numbers or lengths: bad ones are refused by number.
   The library keeps nothing between calls, so threads may call at once, as long as none writes what another uses. */
#ifndef FOLIOKETTLE_H
#define FOLIOKETTLE_H

#include <assert.h>
#include <stddef.h>
#include <stdint.h>

#ifdef __cplusplus
extern "C" {
#endif

/* The limits. */
enum {
    FOLIOKETTLE_VALUES = 64,  /* of a column */
    FOLIOKETTLE_ROWS = 256,   /* of a table */
    FOLIOKETTLE_DESKS = 32,   /* of a class */
    FOLIOKETTLE_PLACES = 512, /* for the rows that a class puts in */
    FOLIOKETTLE_HELD = 64,    /* own rows that a desk may hold */
    FOLIOKETTLE_PROMISED = 8, /* own rows that a desk always has room for */
    FOLIOKETTLE_VIEW = FOLIOKETTLE_ROWS + FOLIOKETTLE_HELD,   /* rows of a view: so many places do for any list */
    FOLIOKETTLE_WORDS = FOLIOKETTLE_ROWS / FOLIOKETTLE_VALUES, /* of a desk's marks */
    FOLIOKETTLE_FILE = 8 + 8 * FOLIOKETTLE_ROWS                /* bytes of a lesson file: so many do for any table */
};

/* Bytes of stack that are enough for any call. 55 KB were measured; `bench/run stack` measures again. */
#define FOLIOKETTLE_STACK (128 * 1024)

/* The class sheet. `foliokettle_begin` makes it; then it is handed in and handed back, or altered in place. A set is a
   number whose bit v stands for the value v. Table row n is hidden at desk k where bit n % 64 of the word
   marks[FOLIOKETTLE_WORDS * k + n / 64] is 1. The first `used` places hold the rows put in, each with its desk. */
typedef struct {
    size_t d, rows, desks, used;
    uint64_t marks[FOLIOKETTLE_DESKS * FOLIOKETTLE_WORDS];
    uint64_t sets[FOLIOKETTLE_PLACES];
    size_t owners[FOLIOKETTLE_PLACES];
} foliokettle_sheet;

/* `refusal` is 0 where the call is accepted; then `first` and `second` are what it answers, 0 where it answers less.
   Where it is refused, both are 0, but for FOLIOKETTLE_BAD_ROW and FOLIOKETTLE_ROW_OVER: then `first` is the row. */
typedef struct {
    uint64_t refusal, first, second;
} foliokettle_told;

typedef struct {
    foliokettle_told told;
    foliokettle_sheet sheet;
} foliokettle_handed;

/* The kinds of calls, each with its argument n. */
enum {
    FOLIOKETTLE_DELETE_TABLE, /* hides table row n */
    FOLIOKETTLE_DELETE_OWN,   /* takes out own row n */
    FOLIOKETTLE_INSERT,       /* puts in the set n */
    FOLIOKETTLE_RESET,        /* shows all table rows again and takes out all own rows */
    FOLIOKETTLE_LOOK,         /* answers the set at position n of the view */
    FOLIOKETTLE_COUNT,        /* answers the rows of the view and the own rows */
    FOLIOKETTLE_DISTINCT      /* fills the front of the list with the kept positions and answers their number */
};

/* Why a call is refused: the lowest number that applies, but for files, where FOLIOKETTLE_LONG_FILE comes before
   FOLIOKETTLE_ROW_OVER. A refused call changes nothing that is lent. */
enum {
    FOLIOKETTLE_TOO_LARGE = 1,  /* d is 0 or above 64, or the table has over 256 rows */
    FOLIOKETTLE_BAD_ROW,        /* a table row is empty or has a value d or above; the lowest such row is told */
    FOLIOKETTLE_UNSOUND,        /* the sheet is damaged, or of a begin that was refused */
    FOLIOKETTLE_OTHER_TABLE,    /* the sheet was begun with another d, or for another number of table rows */
    FOLIOKETTLE_NO_DESK,        /* desks count from 0 */
    FOLIOKETTLE_NO_ROW,         /* there is no such table row, own row or position */
    FOLIOKETTLE_HIDDEN_ALREADY, /* the table row, at this desk */
    FOLIOKETTLE_BAD_SET,        /* the new set is empty or has a value d or above */
    FOLIOKETTLE_FULL,           /* the desk holds 64 rows */
    FOLIOKETTLE_NO_ROOM,        /* the desk has its promised 8, and the free places are promised to others */
    FOLIOKETTLE_SHORT_LIST,     /* the list has fewer places than the view has rows */
    FOLIOKETTLE_LONG_VIEW,      /* the view has over 320 rows; never given, since 256 and 64 are 320 */
    FOLIOKETTLE_BAD_DESKS,      /* desks is 0 or above 32 */

    FOLIOKETTLE_SHORT_FILE = 20, /* the file has fewer than 8 bytes */
    FOLIOKETTLE_WRONG_MARK,      /* it does not begin with "PVT" */
    FOLIOKETTLE_WRONG_VERSION,   /* its version is not 1 */
    FOLIOKETTLE_BAD_VALUES,      /* its d is 0 or above 64 */
    FOLIOKETTLE_MANY_ROWS,       /* it says that it has over 256 rows */
    FOLIOKETTLE_CUT_SHORT,       /* it has fewer rows than it says */
    FOLIOKETTLE_ROW_OVER,        /* a row has a value d or above; the lowest such row is told */
    FOLIOKETTLE_FEW_PLACES = 28, /* there are fewer places than it has rows */
    FOLIOKETTLE_LONG_FILE,       /* it has bytes behind its last row; tried after FOLIOKETTLE_CUT_SHORT */

    FOLIOKETTLE_SHORT_BUFFER = 30 /* the buffer has fewer bytes than the table's file takes */
};

/* The refusal of a kind that is none of the above, before anything else is looked at. */
#define FOLIOKETTLE_NO_CALL UINT64_MAX

/* A class begins, on a table over the values 0 to d - 1. Where that is refused, with 1, 2 or 13, the sheet is all
   zeros, which no call accepts: look at what is told before going on. */
foliokettle_handed foliokettle_begin(const uint64_t *table, size_t rows, size_t d, size_t desks);

/* A desk calls. The host's sheet is only read, and the next one is handed back. Only a DISTINCT that is accepted writes
   to the list, and only to as many places as it answers; the other calls do without one. */
foliokettle_handed foliokettle_call(const uint64_t *table, size_t rows, size_t d, foliokettle_sheet sheet, size_t desk,
                                    uint64_t kind, uint64_t n, size_t *list, size_t places);

/* The same for a host that keeps a single sheet: the sheet becomes the one that `foliokettle_call` hands back. Every
   call stores the whole sheet; a question, or a call that is refused, stores the bytes that were there. So the sheet
   can't lie in read-only memory, and two calls at once on one sheet are a race, even where both only look. */
foliokettle_told foliokettle_alter(foliokettle_sheet *sheet, const uint64_t *table, size_t rows, size_t d, size_t desk,
                                   uint64_t kind, uint64_t n, size_t *list, size_t places);

/* DISTINCT over a view that belongs to no desk: the kept positions go to the front of the list, and `first` is their
   number. The view is judged as a table is, but for 320 rows in the place of 256: it is refused with 1, with 2, where
   `first` is the row, or with 11. */
foliokettle_told foliokettle_distinct(size_t d, const uint64_t *view, size_t rows, size_t *list, size_t places);

/* A lesson file becomes a table: its rows go to the front of `rows`, an unknown cell as all d values; `first` is d and
   `second` the number of rows. It is refused with 20 to 26, 28 or 29. FOLIOKETTLE_ROWS places do for any file. `length`
   is that of the whole file: a host that looks at its first FOLIOKETTLE_FILE bytes alone can't see that more stands
   behind them; with one byte more it can. */
foliokettle_told foliokettle_read(const uint8_t *file, size_t length, uint64_t *rows, size_t places);

/* A table becomes a lesson file: it goes to the front of the buffer, and `first` is its length, 8 + 8 * rows bytes; the
   bytes behind it stay. It is refused with 1, 2 or 30. FOLIOKETTLE_FILE bytes do for any table. Read again, the file,
   which is those `first` bytes and no more, gives back d and the same rows. */
foliokettle_told foliokettle_write(size_t d, const uint64_t *table, size_t rows, uint8_t *buffer, size_t room);

/* The library lays the structs out so, and no compiler may do otherwise. */
#define FOLIOKETTLE_AT(type, field, place) static_assert(offsetof(type, field) == (place), #type ": " #field)
FOLIOKETTLE_AT(foliokettle_sheet, d, 0);
FOLIOKETTLE_AT(foliokettle_sheet, rows, 8);
FOLIOKETTLE_AT(foliokettle_sheet, desks, 16);
FOLIOKETTLE_AT(foliokettle_sheet, used, 24);
FOLIOKETTLE_AT(foliokettle_sheet, marks, 32);
FOLIOKETTLE_AT(foliokettle_sheet, sets, 1056);
FOLIOKETTLE_AT(foliokettle_sheet, owners, 5152);
static_assert(sizeof(foliokettle_sheet) == 9248, "foliokettle_sheet");
FOLIOKETTLE_AT(foliokettle_told, refusal, 0);
FOLIOKETTLE_AT(foliokettle_told, first, 8);
FOLIOKETTLE_AT(foliokettle_told, second, 16);
static_assert(sizeof(foliokettle_told) == 24, "foliokettle_told");
FOLIOKETTLE_AT(foliokettle_handed, told, 0);
FOLIOKETTLE_AT(foliokettle_handed, sheet, 24);
static_assert(sizeof(foliokettle_handed) == 9272, "foliokettle_handed");
#undef FOLIOKETTLE_AT

#ifdef __cplusplus
}
#endif

#endif
