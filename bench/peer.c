/* DISTINCT as one would write it in C with nothing to prove: the other side of the measurement. Kept are the minimal
   rows, of equal ones the first; then, in view order, each other row that makes the largest pairing of values with
   rows larger. */
#include "peer.h"

#include <stdbool.h>

enum { MOST_VALUES = 64, MOST_ROWS = 320 };

/* Sorts the positions of the rows by how many values the rows have, few first; rows of as many values stay in view
   order. False where a row is empty or has a value d or above: that shows on the way, and needs no pass of its own. */
static bool sort_rows(size_t d, const uint64_t *view, size_t rows, uint16_t *order)
{
    uint32_t count[MOST_VALUES + 1] = {0}; /* how many rows have k values */
    uint32_t place[MOST_VALUES + 1];       /* where the next row of k values goes */
    uint64_t values = 0;
    for (size_t i = 0; i < rows; i++) {
        values |= view[i];
        count[__builtin_popcountll(view[i])]++;
    }
    if (count[0] != 0 || (d < 64 && values >> d != 0))
        return false;
    for (uint32_t k = 1, before = 0; k <= MOST_VALUES; k++) {
        place[k] = before;
        before += count[k];
    }
    for (size_t i = 0; i < rows; i++)
        order[place[__builtin_popcountll(view[i])]++] = (uint16_t)i;
    return true;
}

/* One of the sets is a subset of the row. */
static bool has_subset(const uint64_t *sets, size_t number, uint64_t row)
{
    for (size_t k = 0; k < number; k++)
        if ((sets[k] & row) == sets[k])
            return true;
    return false;
}

/* A row is minimal if none of the minimal rows found before it is a subset of it: a proper subset has fewer values,
   so it was judged before, and of equal rows the first was. */
static void mark_minimal(const uint64_t *view, size_t rows, const uint16_t *order, bool *keep)
{
    uint64_t minimal[MOST_ROWS];
    size_t found = 0;
    for (size_t next = 0; next < rows; next++) {
        size_t i = order[next];
        keep[i] = !has_subset(minimal, found, view[i]);
        if (keep[i])
            minimal[found++] = view[i];
    }
}

struct pairing {
    uint64_t free;              /* the values that have no row */
    uint64_t asked;             /* the values that this search has asked for, so that it asks for none twice */
    uint64_t mate[MOST_VALUES]; /* the row of each value that is not free; its set will do, its position is not needed */
};

/* The row takes a free value, or one whose present row finds another. It begins with a cache line, and so the short
   loops of what follows it fall the same way in every program: one that crosses a line is a third slower. */
__attribute__((aligned(64))) static bool find_value(struct pairing *p, uint64_t row)
{
    uint64_t near = row & p->free;
    if (near != 0) {
        int v = __builtin_ctzll(near);
        p->mate[v] = row;
        p->free &= ~(UINT64_C(1) << v);
        return true;
    }
    uint64_t left;
    while ((left = row & ~p->asked) != 0) {
        int v = __builtin_ctzll(left);
        p->asked |= UINT64_C(1) << v;
        if (find_value(p, p->mate[v])) {
            p->mate[v] = row;
            return true;
        }
    }
    return false;
}

/* The row goes into the pairing where that makes it larger. */
static bool grows(struct pairing *p, uint64_t row)
{
    p->asked = 0;
    return find_value(p, row);
}

size_t peer_distinct(size_t d, const uint64_t *view, size_t rows, size_t *list, size_t places)
{
    uint16_t order[MOST_ROWS];
    bool keep[MOST_ROWS];
    if (d == 0 || d > MOST_VALUES || rows > MOST_ROWS || places < rows || !sort_rows(d, view, rows, order))
        return SIZE_MAX;
    mark_minimal(view, rows, order, keep);
    struct pairing p;
    p.free = ~UINT64_C(0); /* no row has a value d or above, so none of those is ever taken */
    for (size_t i = 0; i < rows; i++)
        if (keep[i])
            grows(&p, view[i]);
    size_t kept = 0;
    for (size_t i = 0; i < rows; i++)
        if (keep[i] || grows(&p, view[i]))
            list[kept++] = i;
    return kept;
}
