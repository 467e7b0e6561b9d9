/* Measures the proved desk calls against the unproved ones of class_peer.c, in one process, on a full class: 32 desks,
   512 places, 256 table rows. First both must answer the same and leave the same sheets and lists, over long drawn
   lessons with damaged sheets and other tables among them; then the times of a call are printed: of the calls that hand
   back a sheet, as the request asks, beside C that does so (a copy and a call in place), and of the calls in place
   beside C in place. Before each call in place the sheet is copied anew, on both sides, and the time of the copy is
   taken off. Built with COUNT_BYTES it counts instead: the bytes that one call copies and clears, which no noise
   touches. With a number it plays that many lessons and measures nothing. */
#define _POSIX_C_SOURCE 200809L
#include "class_peer.h"

#include <stdio.h>
#include <stdlib.h>
#include <string.h>
#include <time.h>

enum { ROWS = FOLIOKETTLE_ROWS, DESKS = FOLIOKETTLE_DESKS, PLACES = FOLIOKETTLE_VIEW, LESSONS = 60, TURNS = 4000 };

/* ---- drawing */

static uint64_t drawing = UINT64_C(0x9e3779b97f4a7c15);

static uint64_t draw(void)
{
    drawing ^= drawing << 13;
    drawing ^= drawing >> 7;
    drawing ^= drawing << 17;
    return drawing;
}

static size_t draw_below(size_t end)
{
    return (size_t)(draw() % end);
}

static uint64_t draw_row(size_t d)
{
    uint64_t all = d == 64 ? UINT64_MAX : (UINT64_C(1) << d) - 1;
    for (;;) {
        uint64_t row = draw() & draw() & all;
        if (row != 0) return row;
    }
}

/* ---- both sides must agree */

static void fail(const char *what)
{
    fprintf(stderr, "class: %s differ\n", what);
    exit(1);
}

/* A class of ours that begins. The peer has no begin of its own: it is a sheet with three numbers. */
static foliokettle_sheet begin(const uint64_t *table, size_t rows, size_t d, size_t desks)
{
    foliokettle_handed handed = foliokettle_begin(table, rows, d, desks);
    foliokettle_sheet fresh = {.d = d, .rows = rows, .desks = desks};
    if (handed.told.refusal != 0 || handed.told.first != 0 || handed.told.second != 0) fail("answers of begin");
    if (memcmp(&handed.sheet, &fresh, sizeof fresh) != 0) fail("fresh sheets");
    return fresh;
}

/* One call on both sides, and on ours in both ways. The sheet becomes what ours hands back. */
static void turn(const uint64_t *table, size_t rows, size_t d, foliokettle_sheet *sheet, size_t desk, uint64_t kind,
                 uint64_t n, size_t places)
{
    static size_t ours[PLACES + 8], altered[PLACES + 8], theirs[PLACES + 8];
    foliokettle_sheet ours_in_place = *sheet, in_place = *sheet;
    for (size_t i = 0; i < PLACES + 8; i++) ours[i] = altered[i] = theirs[i] = 1000 + i;
    foliokettle_handed handed = foliokettle_call(table, rows, d, *sheet, desk, kind, n, ours, places);
    foliokettle_told ours_told = foliokettle_alter(&ours_in_place, table, rows, d, desk, kind, n, altered, places);
    foliokettle_told told = peer_call(table, rows, d, &in_place, desk, kind, n, theirs, places);
    if (memcmp(&handed.told, &told, sizeof told) != 0) fail("answers");
    if (memcmp(&handed.sheet, &in_place, sizeof in_place) != 0) fail("sheets");
    if (memcmp(ours, theirs, sizeof ours) != 0) fail("lists");
    if (memcmp(&handed.told, &ours_told, sizeof ours_told) != 0) fail("our answers in place");
    if (memcmp(&handed.sheet, &ours_in_place, sizeof ours_in_place) != 0) fail("our sheets in place");
    if (memcmp(ours, altered, sizeof ours) != 0) fail("our lists in place");
    *sheet = handed.sheet;
}

/* A lesson of drawn calls, most of them sensible. Every so often a damaged sheet is tried, or another number of values
   or of rows for the table, on a sheet that is then put aside. */
static void lesson(void)
{
    size_t d = 1 + draw_below(64), rows = draw_below(ROWS + 1), desks = 1 + draw_below(DESKS);
    uint64_t table[ROWS + 8];
    for (size_t i = 0; i < ROWS + 8; i++) table[i] = draw_row(d);
    foliokettle_sheet sheet = begin(table, rows, d, desks);
    for (size_t t = 0; t < TURNS; t++) {
        static const uint64_t often[] = {2, 2, 2, 2, 0, 0, 1, 4, 5, 6};
        uint64_t kind = draw_below(50) == 0 ? draw_below(9) : often[draw_below(10)];
        if (draw_below(200) == 0) kind = FOLIOKETTLE_RESET;
        uint64_t n = kind == FOLIOKETTLE_INSERT ? draw_row(d) : draw_below(kind == 1 ? 70 : rows + 20);
        if (draw_below(40) == 0) n = draw();
        size_t desk = draw_below(30) == 0 ? draw_below(40) : draw_below(desks);
        size_t places = draw_below(10) == 0 ? draw_below(PLACES) : PLACES + draw_below(9);
        turn(table, rows, d, &sheet, desk, kind, n, places);
        if (draw_below(20) == 0) {
            foliokettle_sheet damaged = sheet;
            ((uint64_t *)&damaged)[draw_below(sizeof damaged / 8)] = draw_below(2) ? draw() : draw_below(70);
            turn(table, rows, d, &damaged, desk, kind, n, places);
        }
        if (draw_below(20) == 0) {
            foliokettle_sheet aside = sheet;
            size_t other_d = draw_below(2) ? d : draw_below(FOLIOKETTLE_VALUES + 4);
            turn(table, draw_below(ROWS + 9), other_d, &aside, desk, kind, n, places);
        }
    }
}

/* ---- the full class */

static uint64_t table[ROWS];
static foliokettle_sheet full;

static void fill_class(void)
{
    for (size_t i = 0; i < ROWS; i++) table[i] = draw_row(64);
    full = begin(table, ROWS, 64, DESKS);
    for (size_t i = 0; i < FOLIOKETTLE_PLACES; i++)
        turn(table, ROWS, 64, &full, i % DESKS, FOLIOKETTLE_INSERT, draw_row(64), 0);
    for (size_t i = 0; i < 1024; i++)
        turn(table, ROWS, 64, &full, draw_below(DESKS), FOLIOKETTLE_DELETE_TABLE, draw_below(ROWS), 0);
    if (full.used != FOLIOKETTLE_PLACES) fail("the full class and the plan");
}

/* ---- what is measured */

typedef struct {
    const char *name;
    size_t desk;
    uint64_t kind, n;
    int drop; /* first a row goes, so that there is room */
} measured;

static foliokettle_sheet start, after;
static size_t list[PLACES];
static volatile uint64_t sink;

#ifdef COUNT_BYTES

/* ---- bytes: memcpy, memmove and memset are wrapped by the linker. A sheet that is handed on once more shows as one
   sheet more, and then the count fails. The host's own copy of the sheet into the call is counted with the call. */

/* By value: into the call, into its own sheet, into what is handed back, and back. In place: into the core and back, and
   into the host's sheet. Beside the sheet a call copies some counts, less than a tenth of a sheet. */
enum { MOST_CALL = 4, MOST_ALTER = 3 };

static size_t copied, cleared;
static int counting, relapsed;

void *__real_memcpy(void *to, const void *from, size_t n);
void *__real_memmove(void *to, const void *from, size_t n);
void *__real_memset(void *to, int byte, size_t n);

void *__wrap_memcpy(void *to, const void *from, size_t n)
{
    if (counting) copied += n;
    return __real_memcpy(to, from, n);
}

void *__wrap_memmove(void *to, const void *from, size_t n)
{
    if (counting) copied += n;
    return __real_memmove(to, from, n);
}

void *__wrap_memset(void *to, int byte, size_t n)
{
    if (counting) cleared += n;
    return __real_memset(to, byte, n);
}

static void count_bytes(void (*call)(const measured *), const measured *m, size_t most)
{
    copied = cleared = 0;
    counting = 1;
    call(m);
    counting = 0;
    if (copied > most * sizeof start + sizeof start / 10) relapsed = 1;
    printf(" %6zu | %4.1f | %6zu |", copied, (double)copied / sizeof start, cleared);
}

static void handing_back(const measured *m)
{
    foliokettle_handed handed = foliokettle_call(table, ROWS, 64, start, m->desk, m->kind, m->n, list, PLACES);
    sink += handed.told.first + handed.sheet.used;
}

static void in_place(const measured *m)
{
    foliokettle_told told = foliokettle_alter(&after, table, ROWS, 64, m->desk, m->kind, m->n, list, PLACES);
    sink += told.first + after.used;
}

static const char *const heading =
    "class: bytes of a call on a full class; a sheet has 9248\n"
    "| call                         | copied, hands back | sheets | cleared | copied in place | sheets | cleared |\n";

static void measure(const measured *m)
{
    printf("| %-28s |", m->name);
    count_bytes(handing_back, m, MOST_CALL);
    after = start;
    count_bytes(in_place, m, MOST_ALTER);
    printf("\n");
}

static int measured_well(void)
{
    if (relapsed) fprintf(stderr, "class: a call copies the sheet more often than it did\n");
    return !relapsed;
}

#else

/* ---- time */

enum { ROUNDS = 60 };

static const double ROUND_NS = 2000000;

static double now_ns(void)
{
    struct timespec t;
    clock_gettime(CLOCK_MONOTONIC, &t);
    return 1e9 * (double)t.tv_sec + (double)t.tv_nsec;
}

static void ours_call(const measured *m)
{
    foliokettle_handed handed = foliokettle_call(table, ROWS, 64, start, m->desk, m->kind, m->n, list, PLACES);
    sink += handed.told.first + handed.sheet.used;
}

static void copy_only(const measured *m)
{
    memcpy(&after, &start, sizeof after);
    sink += after.used + m->n;
}

static void altered_call(const measured *m)
{
    memcpy(&after, &start, sizeof after);
    foliokettle_told told = foliokettle_alter(&after, table, ROWS, 64, m->desk, m->kind, m->n, list, PLACES);
    sink += told.first + after.used;
}

static void copied_call(const measured *m)
{
    memcpy(&after, &start, sizeof after);
    foliokettle_told told = peer_call(table, ROWS, 64, &after, m->desk, m->kind, m->n, list, PLACES);
    sink += told.first + after.used;
}

static double once(void (*side)(const measured *), const measured *m, size_t times)
{
    double t = now_ns();
    for (size_t i = 0; i < times; i++) side(m);
    return (now_ns() - t) / (double)times;
}

static const char *const heading =
    "class: nanoseconds of a call on a full class\n"
    "| call                         | ours, hands back | C, hands back | ratio | ours in place | C in place | ratio |\n";

static void measure(const measured *m)
{
    double ours = 1e18, altered = 1e18, copied = 1e18, copy = 1e18;
    size_t times = (size_t)(ROUND_NS / (1 + once(ours_call, m, 20))) + 1;
    for (int round = 0; round < ROUNDS; round++) {
        double a = once(ours_call, m, times), b = once(altered_call, m, times);
        double c = once(copied_call, m, times), e = once(copy_only, m, times);
        if (a < ours) ours = a;
        if (b < altered) altered = b;
        if (c < copied) copied = c;
        if (e < copy) copy = e;
    }
    printf("| %-28s | %6.0f | %6.0f | %5.2f | %6.0f | %6.0f | %5.2f |\n", m->name, ours, copied, ours / copied,
           altered - copy, copied - copy, (altered - copy) / (copied - copy));
}

static int measured_well(void)
{
    return 1;
}

#endif

int main(int argc, char **argv)
{
    int lessons = argc > 1 ? atoi(argv[1]) : LESSONS;
    for (int i = 0; i < lessons; i++) lesson();
    fill_class();
    printf("class: %d lessons of %d turns, damaged sheets and other tables: answers, sheets and lists are the same\n",
           lessons, TURNS);
    if (argc > 1) return 0;
    size_t hid = 0;
    while (full.marks[0] >> hid & 1) hid++;
    const measured calls[] = {
        {"delete a table row", 0, FOLIOKETTLE_DELETE_TABLE, hid, 0},
        {"delete an own row", 7, FOLIOKETTLE_DELETE_OWN, 5, 0},
        {"insert", 7, FOLIOKETTLE_INSERT, 5, 1},
        {"insert, refused with 10", 7, FOLIOKETTLE_INSERT, 5, 0},
        {"reset", 7, FOLIOKETTLE_RESET, 0, 0},
        {"look at the last row", 7, FOLIOKETTLE_LOOK, 0, 0},
        {"count", 7, FOLIOKETTLE_COUNT, 0, 0},
        {"distinct", 7, FOLIOKETTLE_DISTINCT, 0, 0},
        {"no such desk", 40, FOLIOKETTLE_COUNT, 0, 0},
    };
    printf("%s|---|---|---|---|---|---|---|\n", heading);
    for (size_t i = 0; i < sizeof calls / sizeof calls[0]; i++) {
        measured m = calls[i];
        if (m.kind == FOLIOKETTLE_LOOK) {
            m.n = foliokettle_call(table, ROWS, 64, full, m.desk, FOLIOKETTLE_COUNT, 0, NULL, 0).told.first - 1;
        }
        start = full;
        if (m.drop) turn(table, ROWS, 64, &start, m.desk, FOLIOKETTLE_DELETE_OWN, 0, 0);
        measure(&m);
    }
    return measured_well() ? 0 : 1;
}
