/* Measures the proved DISTINCT against the unproved one of peer.c, in one process and on the same views. First both
   must answer the same, on the measured views and on many drawn ones; then the times of a call are printed. */
#define _POSIX_C_SOURCE 200809L
#include "../include/foliokettle.h"
#include "peer.h"

#include <stdio.h>
#include <stdlib.h>
#include <string.h>
#include <time.h>

typedef size_t distinct_function(size_t d, const uint64_t *view, size_t rows, size_t *list, size_t places);

/* Ours, with a refusal told as the peer tells it. */
static size_t our_distinct(size_t d, const uint64_t *view, size_t rows, size_t *list, size_t places)
{
    foliokettle_told told = foliokettle_distinct(d, view, rows, list, places);
    return told.refusal == 0 ? told.first : SIZE_MAX;
}

enum {
    MOST_VALUES = 64,
    MOST_ROWS = 320,
    ROOM = MOST_ROWS + 8, /* so that views that are too long, and lists with places to spare, can be tried */
    DRAWN = 8,            /* views of a kind that is drawn, so that no lucky one decides */
    ROUNDS = 100,
    SMALL_VIEWS = 40000,
    LARGE_VIEWS = 8000,
};

static const double ROUND_NS = 300000; /* about how long one side runs in a round */

/* ---- drawing */

static uint64_t drawing;

/* Begins with the same numbers each time, so that the views that are measured are those that were compared. */
static void start_drawing(void)
{
    drawing = UINT64_C(0x9e3779b97f4a7c15);
}

/* Marsaglia's xorshift. */
static uint64_t draw(void)
{
    drawing ^= drawing << 13;
    drawing ^= drawing >> 7;
    drawing ^= drawing << 17;
    return drawing;
}

static size_t draw_below(size_t end)
{
    return (size_t)(draw() % end);
}

/* A row of `size` values, all below d. */
static uint64_t draw_row(size_t d, size_t size)
{
    uint64_t row = 0;
    while (size > 0) {
        uint64_t value = UINT64_C(1) << draw_below(d);
        if ((row & value) == 0) {
            row |= value;
            size--;
        }
    }
    return row;
}

/* ---- the measured views: row i of each kind, where d is 64 */

struct kind {
    const char *name;
    uint64_t (*row)(size_t i);
    size_t drawn; /* the size of the rows where they are drawn, else 0 */
};

static uint64_t one_value(size_t i)
{
    (void)i;
    return 1;
}

static uint64_t all_values(size_t i)
{
    (void)i;
    return ~UINT64_C(0);
}

static uint64_t next_pair(size_t i)
{
    return UINT64_C(3) << i % (MOST_VALUES - 1);
}

static uint64_t pair_before(size_t i)
{
    return UINT64_C(3) << (MOST_VALUES - 2 - i % (MOST_VALUES - 1));
}

static uint64_t prefix(size_t i)
{
    return ~UINT64_C(0) >> (MOST_VALUES - 1 - i % MOST_VALUES);
}

static const struct kind KINDS[] = {
    {"the same one value", one_value, 0},
    {"all 64 values", all_values, 0},
    {"1 drawn value", NULL, 1},
    {"3 drawn values", NULL, 3},
    {"8 drawn values", NULL, 8},
    {"32 drawn values", NULL, 32},
    {"60 drawn values", NULL, 60},
    {"chained pairs, forwards", next_pair, 0},
    {"chained pairs, backwards", pair_before, 0},
    {"nested prefixes", prefix, 0},
};

static const size_t LENGTHS[] = {1, 16, 64, MOST_ROWS};

enum { KIND_COUNT = sizeof KINDS / sizeof *KINDS, LENGTH_COUNT = sizeof LENGTHS / sizeof *LENGTHS };

/* Fills in the views of a kind and answers how many there are. */
static size_t make_views(const struct kind *kind, size_t rows, uint64_t views[DRAWN][MOST_ROWS])
{
    size_t number = kind->drawn != 0 ? DRAWN : 1;
    for (size_t n = 0; n < number; n++)
        for (size_t i = 0; i < rows; i++)
            views[n][i] = kind->drawn != 0 ? draw_row(MOST_VALUES, kind->drawn) : kind->row(i);
    return number;
}

/* ---- the same answers */

static size_t refused; /* how many of the compared calls were refused, to be told */

static void print_answer(const char *side, size_t answer, const size_t *list)
{
    printf("%s answers ", side);
    if (answer == SIZE_MAX)
        printf("a refusal");
    else
        printf("%zu", answer);
    printf("; its list:");
    for (size_t i = 0; i < ROOM; i++)
        printf(" %zu", list[i]);
    printf("\n");
}

/* Both sides get a list of which every place is filled in with a number that is no position, so that a place written
   without need shows. All of it is compared, also behind the places that they were told of. */
static void compare(size_t d, const uint64_t *view, size_t rows, size_t places)
{
    size_t ours[ROOM], peers[ROOM];
    for (size_t i = 0; i < ROOM; i++)
        ours[i] = peers[i] = 1000 + i;
    size_t our_answer = our_distinct(d, view, rows, ours, places);
    size_t peer_answer = peer_distinct(d, view, rows, peers, places);
    refused += our_answer == SIZE_MAX;
    if (our_answer == peer_answer && memcmp(ours, peers, sizeof ours) == 0)
        return;
    printf("different answers where d is %zu, with %zu places, on a view of %zu rows:\n", d, places, rows);
    for (size_t i = 0; i < rows; i++)
        printf("  row %zu: 0x%016llx\n", i, (unsigned long long)view[i]);
    print_answer("ours", our_answer, ours);
    print_answer("peer", peer_answer, peers);
    exit(1);
}

/* A drawn view that may be asked about, of at most `most` rows with at most `largest` values. */
static size_t draw_view(size_t d, size_t most, size_t largest, uint64_t *view)
{
    size_t rows = draw_below(most + 1);
    for (size_t i = 0; i < rows; i++)
        view[i] = draw_row(d, 1 + draw_below(largest));
    return rows;
}

/* The view as it is, and then with each thing wrong for which it must be refused. */
static void compare_with_refusals(size_t d, uint64_t *view, size_t rows)
{
    compare(d, view, rows, rows + draw_below(ROOM - rows + 1));
    compare(0, view, rows, rows);
    compare(MOST_VALUES + 1 + draw_below(MOST_VALUES), view, rows, rows);
    if (rows == 0)
        return;
    compare(d, view, rows, draw_below(rows));
    size_t i = draw_below(rows);
    uint64_t row = view[i];
    view[i] = 0;
    compare(d, view, rows, rows);
    if (d < MOST_VALUES) {
        view[i] = row | UINT64_C(1) << (d + draw_below(MOST_VALUES - d));
        compare(d, view, rows, rows);
    }
    view[i] = row;
}

static void compare_all(void)
{
    static uint64_t views[DRAWN][MOST_ROWS];
    uint64_t view[ROOM];
    size_t measured = 0;
    start_drawing();
    for (size_t k = 0; k < KIND_COUNT; k++)
        for (size_t l = 0; l < LENGTH_COUNT; l++) {
            size_t number = make_views(&KINDS[k], LENGTHS[l], views);
            for (size_t n = 0; n < number; n++)
                compare(MOST_VALUES, views[n], LENGTHS[l], LENGTHS[l]);
            measured += number;
        }
    for (size_t n = 0; n < SMALL_VIEWS; n++) {
        size_t d = 1 + draw_below(8);
        size_t rows = draw_view(d, 12, d, view);
        compare_with_refusals(d, view, rows);
    }
    for (size_t n = 0; n < LARGE_VIEWS; n++) {
        size_t d = 1 + draw_below(MOST_VALUES);
        size_t rows = draw_view(d, MOST_ROWS, 1 + draw_below(d), view);
        compare_with_refusals(d, view, rows);
    }
    for (size_t rows = MOST_ROWS + 1; rows <= ROOM; rows++) {
        for (size_t i = 0; i < rows; i++)
            view[i] = draw_row(MOST_VALUES, 3);
        compare(MOST_VALUES, view, rows, rows);
    }
    printf("the same answers on %zu measured views, %d small and %d large ones; %zu calls refused by both\n\n",
           measured, SMALL_VIEWS, LARGE_VIEWS, refused);
}

/* ---- the times */

static double now_ns(void)
{
    struct timespec t;
    clock_gettime(CLOCK_MONOTONIC, &t);
    return (double)t.tv_sec * 1e9 + (double)t.tv_nsec;
}

/* How long `passes` passes over all the views take. */
static double time_passes(distinct_function *distinct, uint64_t views[DRAWN][MOST_ROWS], size_t number, size_t rows,
                          size_t passes)
{
    static size_t list[MOST_ROWS];
    double start = now_ns();
    for (size_t pass = 0; pass < passes; pass++)
        for (size_t n = 0; n < number; n++)
            distinct(MOST_VALUES, views[n], rows, list, rows);
    return now_ns() - start;
}

static double smaller(double a, double b)
{
    return a < b ? a : b;
}

struct times {
    double ours, peer; /* ns for a call, the mean over the views */
};

/* The sides take turns, so that a busy moment of the machine meets both; the shortest round of each is the least
   disturbed one. */
static struct times measure(uint64_t views[DRAWN][MOST_ROWS], size_t number, size_t rows)
{
    size_t passes = 1;
    while (time_passes(peer_distinct, views, number, rows, passes) < ROUND_NS)
        passes *= 2;
    struct times best = {1e18, 1e18};
    for (int round = 0; round < ROUNDS; round++) {
        best.ours = smaller(best.ours, time_passes(our_distinct, views, number, rows, passes));
        best.peer = smaller(best.peer, time_passes(peer_distinct, views, number, rows, passes));
    }
    double calls = (double)(passes * number);
    return (struct times){best.ours / calls, best.peer / calls};
}

/* What the ratio may be, by how many rows a view has: the first limit whose rows it reaches. */
struct limit {
    const char *views;
    size_t rows;
    double most;
    double worst; /* the worst ratio seen */
    const char *worst_kind;
    size_t worst_rows;
};

static struct limit LIMITS[] = {
    {"of 320 rows", MOST_ROWS, 0.6, 0, "", 0},
    {"of 64 rows or more", 64, 1.0, 0, "", 0},
    {"of fewer rows", 0, 2.0, 0, "", 0},
};

enum { LIMIT_COUNT = sizeof LIMITS / sizeof *LIMITS };

static void note(const struct kind *kind, size_t rows, double ratio)
{
    struct limit *limit = LIMITS;
    while (rows < limit->rows)
        limit++;
    if (ratio > limit->worst) {
        limit->worst = ratio;
        limit->worst_kind = kind->name;
        limit->worst_rows = rows;
    }
}

static void measure_all(void)
{
    static uint64_t views[DRAWN][MOST_ROWS];
    start_drawing();
    printf("ns for a call, and ours as a part of the peer's; rows of drawn values: the mean over %d views\n", DRAWN);
    printf("%-26s %5s %10s %10s %7s\n", "each row has", "rows", "ours", "peer", "ratio");
    for (size_t k = 0; k < KIND_COUNT; k++)
        for (size_t l = 0; l < LENGTH_COUNT; l++) {
            size_t rows = LENGTHS[l];
            size_t number = make_views(&KINDS[k], rows, views);
            struct times times = measure(views, number, rows);
            double ratio = times.ours / times.peer;
            printf("%-26s %5zu %10.0f %10.0f %7.2f\n", KINDS[k].name, rows, times.ours, times.peer, ratio);
            note(&KINDS[k], rows, ratio);
        }
    printf("\n");
    for (size_t n = 0; n < LIMIT_COUNT; n++)
        printf("views %-18s the worst ratio is %.2f (%s, %zu rows); the limit is %.1f: %s\n", LIMITS[n].views,
               LIMITS[n].worst, LIMITS[n].worst_kind, LIMITS[n].worst_rows, LIMITS[n].most,
               LIMITS[n].worst <= LIMITS[n].most ? "met" : "missed");
}

/* A limit that is missed is told, and is no failure: another program on the machine can be the reason. */
int main(void)
{
    compare_all();
    measure_all();
    return 0;
}
