/* A small class server in C: it loads a table of five cells from a lesson file, three desks play on it, and it saves
   the table. What each desk is told is printed, and what stands on the sheet. `examples/run` compares that with
   class.out: every field and every parameter that crosses to the library is used, and every refusal is met that can be,
   so that none can change its place unseen. */
#include "../include/foliokettle.h"

#include <inttypes.h>
#include <stdbool.h>
#include <stdio.h>
#include <string.h>

enum { DESKS = 3 };

/* Sets over the values a, b, c and d: a number read as bits, a its lowest. */
enum { A = 1, B = 2, C = 4, D = 8 };

/* The teacher's table, as it was loaded. */
static uint64_t cells[FOLIOKETTLE_ROWS];

/* What the server keeps: the teacher's table, room for a list of positions, and the one sheet. */
typedef struct {
    const uint64_t *table;
    size_t rows, d, places;
    size_t list[FOLIOKETTLE_VIEW];
    foliokettle_sheet sheet;
} server;

/* ---- words for what is told */

static void print_set(uint64_t set)
{
    printf("{");
    for (int value = 0; value < 26; value++)
        if (set >> value & 1) printf("%c", 'a' + value);
    printf("}");
}

static void print_refusal(foliokettle_told told)
{
    static const char *const reasons[] = {
        [FOLIOKETTLE_TOO_LARGE] = "the column has no values or over 64, or the table too many rows",
        [FOLIOKETTLE_BAD_ROW] = "a row is empty or has a value that the column has not",
        [FOLIOKETTLE_UNSOUND] = "the sheet is damaged, or of no class",
        [FOLIOKETTLE_OTHER_TABLE] = "the class has begun on another table",
        [FOLIOKETTLE_NO_DESK] = "there is no such desk",
        [FOLIOKETTLE_NO_ROW] = "there is no such row",
        [FOLIOKETTLE_HIDDEN_ALREADY] = "the desk has hidden that row already",
        [FOLIOKETTLE_BAD_SET] = "the set is empty or has a value that the column has not",
        [FOLIOKETTLE_FULL] = "the desk holds 64 rows already",
        [FOLIOKETTLE_NO_ROOM] = "the free places are promised to other desks",
        [FOLIOKETTLE_SHORT_LIST] = "the list has fewer places than the view has rows",
        [FOLIOKETTLE_LONG_VIEW] = "the view has over 320 rows",
        [FOLIOKETTLE_BAD_DESKS] = "a class has 1 to 32 desks",
        [FOLIOKETTLE_SHORT_FILE] = "the file has no header",
        [FOLIOKETTLE_WRONG_MARK] = "that is no lesson file",
        [FOLIOKETTLE_WRONG_VERSION] = "the file is of another version",
        [FOLIOKETTLE_BAD_VALUES] = "the file's column has no values or over 64",
        [FOLIOKETTLE_MANY_ROWS] = "the file has too many rows",
        [FOLIOKETTLE_CUT_SHORT] = "the file is cut short",
        [FOLIOKETTLE_ROW_OVER] = "a row of the file has a value that the column has not",
        [FOLIOKETTLE_FEW_PLACES] = "the file has more rows than there are places",
        [FOLIOKETTLE_LONG_FILE] = "the file has something behind its rows",
        [FOLIOKETTLE_SHORT_BUFFER] = "the buffer is too short for the file",
    };
    if (told.refusal == FOLIOKETTLE_NO_CALL) printf("refused: that is no call");
    else if (told.refusal >= sizeof reasons / sizeof *reasons || reasons[told.refusal] == NULL)
        printf("refused with a number that is none");
    else printf("refused with %" PRIu64 ": %s", told.refusal, reasons[told.refusal]);
    if (told.refusal == FOLIOKETTLE_BAD_ROW || told.refusal == FOLIOKETTLE_ROW_OVER)
        printf(", row %" PRIu64, told.first);
}

static void print_told(uint64_t kind, foliokettle_told told, const size_t *list)
{
    if (told.refusal != 0) {
        print_refusal(told);
    } else if (kind == FOLIOKETTLE_LOOK) {
        print_set(told.first);
    } else if (kind == FOLIOKETTLE_COUNT) {
        printf("%" PRIu64 " rows, %" PRIu64 " of them own", told.first, told.second);
    } else if (kind == FOLIOKETTLE_DISTINCT) {
        printf("keeps %" PRIu64 ":", told.first);
        for (uint64_t i = 0; i < told.first; i++) printf(" %zu", list[i]);
    } else {
        printf("done");
    }
    printf("\n");
}

static void print_call(size_t desk, uint64_t kind, uint64_t n)
{
    static const char *const names[] = {"delete table row", "delete own row", "insert", "reset", "look at", "count",
                                        "distinct"};
    printf("desk %zu: %s", desk, kind > FOLIOKETTLE_DISTINCT ? "something else" : names[kind]);
    if (kind == FOLIOKETTLE_INSERT) {
        printf(" ");
        print_set(n);
    } else if (kind == FOLIOKETTLE_DELETE_TABLE || kind == FOLIOKETTLE_DELETE_OWN || kind == FOLIOKETTLE_LOOK) {
        printf(" %" PRIu64, n);
    }
    printf(" - ");
}

static void print_sheet(const foliokettle_sheet *sheet)
{
    printf("  d %zu, rows %zu, desks %zu, used %zu\n", sheet->d, sheet->rows, sheet->desks, sheet->used);
    for (size_t desk = 0; desk < sheet->desks; desk++)
        for (size_t row = 0; row < sheet->rows; row++)
            if (sheet->marks[FOLIOKETTLE_WORDS * desk + row / 64] >> row % 64 & 1)
                printf("  desk %zu hides row %zu\n", desk, row);
    for (size_t place = 0; place < sheet->used; place++) {
        printf("  place %zu: ", place);
        print_set(sheet->sets[place]);
        printf(" of desk %zu\n", sheet->owners[place]);
    }
}

/* ---- the functions of the library */

/* Whether a class begins. Where it does not, there is no sheet to play on. */
static bool begin(server *s, size_t desks)
{
    foliokettle_handed begun = foliokettle_begin(s->table, s->rows, s->d, desks);
    printf("begin: %zu desks, %zu rows, %zu values - ", desks, s->rows, s->d);
    s->sheet = begun.sheet;
    if (begun.told.refusal != 0) print_refusal(begun.told);
    else printf("done");
    printf("\n");
    return begun.told.refusal == 0;
}

/* One call of a desk, in place. Only DISTINCT wants a list. */
static foliokettle_told ask(server *s, size_t desk, uint64_t kind, uint64_t n)
{
    size_t places = kind == FOLIOKETTLE_DISTINCT ? s->places : 0;
    size_t *list = places == 0 ? NULL : s->list;
    return foliokettle_alter(&s->sheet, s->table, s->rows, s->d, desk, kind, n, list, places);
}

static void play(server *s, size_t desk, uint64_t kind, uint64_t n)
{
    print_call(desk, kind, n);
    print_told(kind, ask(s, desk, kind, n), s->list);
}

/* What a call would do: by value, so that the class's own sheet stays. */
static void try_out(server *s, size_t desk, uint64_t kind, uint64_t n)
{
    foliokettle_handed handed = foliokettle_call(s->table, s->rows, s->d, s->sheet, desk, kind, n, s->list, s->places);
    printf("tried out, ");
    print_call(desk, kind, n);
    print_told(kind, handed.told, s->list);
    print_sheet(&handed.sheet);
}

/* DISTINCT over the table as it stands, without a class. */
static void look_over(server *s)
{
    printf("distinct of %zu rows, %zu values, %zu places - ", s->rows, s->d, s->places);
    print_told(FOLIOKETTLE_DISTINCT, foliokettle_distinct(s->d, s->table, s->rows, s->list, s->places), s->list);
}

/* The rows of a lesson file, of which no more than fit are read. */
static foliokettle_told read_rows(const uint8_t *file, size_t length, size_t places)
{
    foliokettle_told told = foliokettle_read(file, length, cells, places);
    printf("read: %zu bytes, %zu places - ", length, places);
    if (told.refusal != 0) print_refusal(told);
    else printf("%" PRIu64 " values, %" PRIu64 " rows", told.first, told.second);
    printf("\n");
    return told;
}

static foliokettle_told write_file(const server *s, uint8_t *buffer, size_t room)
{
    foliokettle_told told = foliokettle_write(s->d, s->table, s->rows, buffer, room);
    printf("write: %zu rows, %zu values, %zu bytes of room - ", s->rows, s->d, room);
    if (told.refusal != 0) print_refusal(told);
    else printf("%" PRIu64 " bytes", told.first);
    printf("\n");
    return told;
}

/* ---- the teacher's file */

/* As much of a file as is looked at: with one byte more than any lesson, a longer file is seen to be longer. */
static uint8_t bytes[FOLIOKETTLE_FILE + 1];

static bool load(server *s, const char *name)
{
    FILE *stream = fopen(name, "rb");
    if (stream == NULL) return false;
    size_t length = fread(bytes, 1, sizeof bytes, stream);
    fclose(stream);
    foliokettle_told told = read_rows(bytes, length, FOLIOKETTLE_ROWS);
    s->table = cells;
    s->d = told.first;
    s->rows = told.second;
    return told.refusal == 0;
}

static bool save(const server *s, const char *name)
{
    foliokettle_told told = write_file(s, bytes, FOLIOKETTLE_FILE);
    FILE *stream = told.refusal == 0 ? fopen(name, "wb") : NULL;
    if (stream == NULL) return false;
    bool whole = fwrite(bytes, 1, told.first, stream) == told.first;
    return fclose(stream) == 0 && whole;
}

/* ---- what is played */

/* What a desk does alters what DISTINCT keeps in its view, and in no other. */
static void own_changes(server *s)
{
    play(s, 0, FOLIOKETTLE_COUNT, 0);
    play(s, 0, FOLIOKETTLE_DISTINCT, 0);
    play(s, 0, FOLIOKETTLE_INSERT, B);
    play(s, 0, FOLIOKETTLE_DISTINCT, 0);
    play(s, 0, FOLIOKETTLE_DELETE_TABLE, 4);
    play(s, 0, FOLIOKETTLE_DISTINCT, 0);
    play(s, 1, FOLIOKETTLE_DISTINCT, 0);
    play(s, 2, FOLIOKETTLE_INSERT, C | D);
    play(s, 2, FOLIOKETTLE_INSERT, A | D);
    play(s, 0, FOLIOKETTLE_COUNT, 0);
    play(s, 2, FOLIOKETTLE_LOOK, 6);
    print_sheet(&s->sheet);
    try_out(s, 2, FOLIOKETTLE_RESET, 0);
    try_out(s, 1, FOLIOKETTLE_DISTINCT, 0);
    play(s, 0, FOLIOKETTLE_DELETE_OWN, 0);
    play(s, 0, FOLIOKETTLE_DISTINCT, 0);
    play(s, 0, FOLIOKETTLE_RESET, 0);
    play(s, 0, FOLIOKETTLE_DISTINCT, 0);
    print_sheet(&s->sheet);
}

static void refusals(server *s)
{
    play(s, 1, FOLIOKETTLE_DELETE_TABLE, 3);
    play(s, 1, FOLIOKETTLE_DELETE_TABLE, 3);
    play(s, 1, FOLIOKETTLE_LOOK, 4);
    play(s, 1, FOLIOKETTLE_INSERT, UINT64_C(1) << s->d);
    play(s, DESKS, FOLIOKETTLE_COUNT, 0);
    play(s, 1, FOLIOKETTLE_DISTINCT + 1, 0);
    server other = *s;
    other.places = 3;
    play(&other, 1, FOLIOKETTLE_DISTINCT, 0);
    other.rows = s->rows - 1;
    play(&other, 1, FOLIOKETTLE_COUNT, 0);
    other.sheet.owners[0] = 77;
    play(&other, 1, FOLIOKETTLE_COUNT, 0);
    other.d = 2;
    play(&other, 1, FOLIOKETTLE_COUNT, 0);
    other.d = FOLIOKETTLE_VALUES + 1;
    play(&other, 1, FOLIOKETTLE_COUNT, 0);
}

/* Tables and desks that no class begins with, and DISTINCT over a table without a class. */
static void tables(server s)
{
    begin(&s, FOLIOKETTLE_DESKS + 1);
    play(&s, 0, FOLIOKETTLE_COUNT, 0);
    look_over(&s);
    s.places = 4;
    look_over(&s);
    s.d = 2;
    begin(&s, DESKS);
    look_over(&s);
    s.d = 0;
    begin(&s, DESKS);
    look_over(&s);
}

/* No table and no list: NULL is lent, with the length 0. */
static void nothing(void)
{
    server s = {.table = NULL, .rows = 0, .d = 4, .places = 0};
    if (!begin(&s, 1)) return;
    play(&s, 0, FOLIOKETTLE_COUNT, 0);
    play(&s, 0, FOLIOKETTLE_DISTINCT, 0);
    printf("distinct of NULL - ");
    print_told(FOLIOKETTLE_DISTINCT, foliokettle_distinct(s.d, NULL, 0, NULL, 0), NULL);
    play(&s, 0, FOLIOKETTLE_INSERT, A);
    play(&s, 0, FOLIOKETTLE_LOOK, 0);
}

/* Desks that put in rows until they are refused; the count of places only ends what would go on for ever. */
static void crowd(server s)
{
    if (!begin(&s, FOLIOKETTLE_DESKS)) return;
    for (size_t desk = 0; desk < 6; desk++) {
        int got = 0;
        foliokettle_told told = ask(&s, desk, FOLIOKETTLE_INSERT, A);
        for (; told.refusal == 0 && got < FOLIOKETTLE_PLACES; told = ask(&s, desk, FOLIOKETTLE_INSERT, A)) got++;
        printf("desk %zu: puts in %d rows, and is ", desk, got);
        print_refusal(told);
        printf("\n");
    }
}

/* The file as it is but for one byte. */
static void spoil(const uint8_t *file, size_t length, size_t place, uint8_t byte)
{
    uint8_t other[FOLIOKETTLE_FILE];
    memcpy(other, file, length);
    other[place] = byte;
    printf("byte %zu is %d, ", place, byte);
    read_rows(other, length, FOLIOKETTLE_ROWS);
}

static void print_cells(size_t rows)
{
    for (size_t row = 0; row < rows; row++) print_set(cells[row]);
    printf("\n");
}

/* The file with unknown cells from a row on: each is read as the whole column, and saved so. Then the table is read
   again. */
static void forget(const server *s, const uint8_t *file, size_t length, size_t row)
{
    uint8_t other[FOLIOKETTLE_FILE];
    memcpy(other, file, length);
    memset(other + 8 + 8 * row, 0, length - 8 - 8 * row);
    printf("unknown from row %zu on, ", row);
    read_rows(other, length, s->rows);
    print_cells(s->rows);
    write_file(s, other, length);
    read_rows(other, length, s->rows);
    print_cells(s->rows);
    read_rows(file, length, s->rows);
}

/* A saved file, read again, gives back the table; and files and tables that are not taken. */
static void files(server s)
{
    uint8_t file[FOLIOKETTLE_FILE];
    size_t length = write_file(&s, file, sizeof file).first;
    memset(cells, 0, sizeof cells);
    read_rows(file, length, s.rows);
    print_cells(s.rows);
    forget(&s, file, length, 3);
    forget(&s, file, length, 0);
    spoil(file, length, 2, 'U');
    spoil(file, length, 4, 2);
    spoil(file, length, 5, 0);
    spoil(file, length, 6, 2);
    spoil(file, length, 39, 1 << 4);
    read_rows(file, length - 1, s.rows);
    memcpy(file + length, file, length);
    read_rows(file, length + 1, s.rows);
    read_rows(file, 2 * length, s.rows);
    read_rows(file, 2 * length, s.rows - 1);
    spoil(file, 2 * length, 39, 1 << 4);
    read_rows(file, 7, s.rows);
    read_rows(file, length, s.rows - 1);
    write_file(&s, file, length - 1);
    s.d = 2;
    write_file(&s, file, length);
    s.d = FOLIOKETTLE_VALUES + 1;
    write_file(&s, file, length);
}

/* class LESSON SAVED */
int main(int count, char **names)
{
    static server s = {.places = FOLIOKETTLE_VIEW};
    if (count != 3 || !load(&s, names[1])) return 1;
    if (!begin(&s, DESKS)) return 1;
    own_changes(&s);
    refusals(&s);
    tables(s);
    nothing();
    crowd(s);
    files(s);
    return save(&s, names[2]) ? 0 : 1;
}
