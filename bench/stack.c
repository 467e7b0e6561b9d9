/* Measures the stack that a call takes: each runs on a painted stack of its own, and what is no longer painted is
   counted. It fails where a call takes more than the header says is enough. The rows make DISTINCT's search as deep as
   it gets: {0 1} {1 2} .. {62 63} have each a value, and when {62 63} comes again, the question for a row for the
   value that is left passes through all of them. */
#define _XOPEN_SOURCE 700
#include "../include/foliokettle.h"

#include <stdio.h>
#include <stdlib.h>
#include <string.h>
#include <ucontext.h>

enum { VALUES = FOLIOKETTLE_VALUES, ROWS = FOLIOKETTLE_ROWS, VIEW = FOLIOKETTLE_VIEW, PAINT = 0xa5 };

/* What a call is lent and what it hands back, all of it off the painted stack. */
static uint64_t view[VIEW], kind, n;
static uint8_t file[FOLIOKETTLE_FILE];
static size_t list[VIEW];
static foliokettle_sheet sheet;
static foliokettle_handed handed;
static foliokettle_told told;

static void begin(void)
{
    handed = foliokettle_begin(view, ROWS, VALUES, FOLIOKETTLE_DESKS);
}

static void call(void)
{
    handed = foliokettle_call(view, ROWS, VALUES, sheet, 0, kind, n, list, VIEW);
}

static void alter(void)
{
    told = foliokettle_alter(&sheet, view, ROWS, VALUES, 0, kind, n, list, VIEW);
}

static void read_file(void)
{
    told = foliokettle_read(file, sizeof file, view, VIEW);
}

static void write_file(void)
{
    told = foliokettle_write(VALUES, view, ROWS, file, sizeof file);
}

static void distinct(void)
{
    told = foliokettle_distinct(VALUES, view, VIEW, list, VIEW);
}

static void fail(const char *why)
{
    fprintf(stderr, "stack: %s\n", why);
    exit(1);
}

static size_t most;

static size_t stack_of(void (*measured)(void))
{
    static unsigned char stack[2 * FOLIOKETTLE_STACK];
    static ucontext_t here, there;
    memset(stack, PAINT, sizeof stack);
    getcontext(&there);
    there.uc_stack.ss_sp = stack;
    there.uc_stack.ss_size = sizeof stack;
    there.uc_link = &here;
    makecontext(&there, measured, 0);
    swapcontext(&here, &there);
    size_t painted = 0;
    while (painted < sizeof stack && stack[painted] == PAINT) painted++;
    if (sizeof stack - painted > most) most = sizeof stack - painted;
    return sizeof stack - painted;
}

int main(void)
{
    static const char *const names[] = {"delete a table row", "delete an own row", "insert", "reset",
                                        "look",               "count",             "distinct"};
    for (size_t i = 0; i < VIEW; i++) view[i] = UINT64_C(3) << (i < VALUES - 2 ? i : VALUES - 2);

    printf("stack: bytes of a call\n| call | hands back | in place |\n|---|---|---|\n");
    printf("| begin | %zu | |\n", stack_of(begin));
    foliokettle_sheet begun = handed.sheet;
    for (size_t k = 0; k <= FOLIOKETTLE_DISTINCT; k++) {
        /* The desk holds all that it may, but for the row of a measured insert. */
        sheet = begun;
        kind = FOLIOKETTLE_INSERT;
        n = view[VIEW - 1];
        for (int i = k == FOLIOKETTLE_INSERT; i < FOLIOKETTLE_HELD; i++) alter();
        kind = k;
        if (k != FOLIOKETTLE_INSERT) n = 1;
        size_t hands_back = stack_of(call), in_place = stack_of(alter);
        printf("| %s | %zu | %zu |\n", names[k], hands_back, in_place);
        if (handed.told.refusal != 0 || told.refusal != 0) fail("a call is refused");
    }
    printf("| distinct of no desk | %zu | |\n", stack_of(distinct));
    printf("| write a file | %zu | |\n", stack_of(write_file));
    printf("| read a file | %zu | |\n", stack_of(read_file));
    if (told.refusal != 0) fail("a file is refused");
    printf("stack: at most %zu bytes; %d are said to be enough\n", most, FOLIOKETTLE_STACK);
    if (most > FOLIOKETTLE_STACK) fail("that is not enough");
    return 0;
}
