/* The same lesson three times: through the proved store, through straightforward C in place, and through SQLite in
   memory with prepared statements. Each plays the same drawn turns of a full class, and their answers must agree; then
   calls per second are printed. DISTINCT is left out: SQL's own keeps other rows. */
#define _POSIX_C_SOURCE 200809L
#include "class_peer.h"

#include <sqlite3.h>
#include <stdio.h>
#include <stdlib.h>
#include <string.h>
#include <time.h>

enum { ROWS = 256, DESKS = 32, TURNS = 20000, VALUES = 64 };

typedef struct {
    size_t desk;
    uint64_t kind, n;
} turn;

static uint64_t table[ROWS];
static turn turns[TURNS];
static foliokettle_told told[3][TURNS];

/* ---- the lesson */

static uint64_t drawing = UINT64_C(0x2545f4914f6cdd1d);

static size_t draw_below(size_t end)
{
    drawing ^= drawing << 13;
    drawing ^= drawing >> 7;
    drawing ^= drawing << 17;
    return (size_t)(drawing % end);
}

static uint64_t draw_row(void)
{
    return UINT64_C(1) << draw_below(VALUES) | UINT64_C(1) << draw_below(VALUES) | UINT64_C(1) << draw_below(VALUES);
}

static void draw_lesson(void)
{
    for (size_t i = 0; i < ROWS; i++) table[i] = draw_row();
    for (size_t i = 0; i < TURNS; i++) {
        static const uint64_t kinds[] = {0, 1, 2, 2, 2, 4, 4, 4, 5, 5};
        uint64_t kind = draw_below(500) == 0 ? FOLIOKETTLE_RESET : kinds[draw_below(10)];
        uint64_t n = kind == FOLIOKETTLE_INSERT ? draw_row() : draw_below(kind == FOLIOKETTLE_DELETE_OWN ? 20 : ROWS + 20);
        turns[i] = (turn){draw_below(DESKS), kind, n};
    }
}

/* ---- the proved store, and C in place */

static void play_ours(void)
{
    foliokettle_sheet sheet = foliokettle_begin(table, ROWS, VALUES, DESKS).sheet;
    for (size_t i = 0; i < TURNS; i++) {
        foliokettle_handed handed =
            foliokettle_call(table, ROWS, VALUES, sheet, turns[i].desk, turns[i].kind, turns[i].n, NULL, 0);
        told[0][i] = handed.told;
        sheet = handed.sheet;
    }
}

static void play_peer(void)
{
    foliokettle_sheet sheet = foliokettle_begin(table, ROWS, VALUES, DESKS).sheet;
    for (size_t i = 0; i < TURNS; i++)
        told[1][i] = peer_call(table, ROWS, VALUES, &sheet, turns[i].desk, turns[i].kind, turns[i].n, NULL, 0);
}

/* ---- SQLite */

static sqlite3 *db;

static void check(int result, int wanted)
{
    if (result != wanted) {
        fprintf(stderr, "lesson: SQLite says %s\n", sqlite3_errmsg(db));
        exit(1);
    }
}

static sqlite3_stmt *prepared(const char *sql)
{
    sqlite3_stmt *statement;
    check(sqlite3_prepare_v3(db, sql, -1, SQLITE_PREPARE_PERSISTENT, &statement, NULL), SQLITE_OK);
    return statement;
}

/* Runs a statement with at most three numbers. Answers whether it gave a row, and its first column. */
static int run(sqlite3_stmt *statement, int count, const uint64_t numbers[], uint64_t *first)
{
    for (int i = 0; i < count; i++) sqlite3_bind_int64(statement, i + 1, (sqlite3_int64)numbers[i]);
    int row = sqlite3_step(statement) == SQLITE_ROW;
    if (row) *first = (uint64_t)sqlite3_column_int64(statement, 0);
    check(sqlite3_reset(statement), SQLITE_OK);
    return row;
}

static void play_sqlite(void)
{
    check(sqlite3_open(":memory:", &db), SQLITE_OK);
    check(sqlite3_exec(db,
                       "CREATE TABLE cells (row INTEGER PRIMARY KEY, cell INTEGER);"
                       "CREATE TABLE hidden (desk INTEGER, row INTEGER, PRIMARY KEY (desk, row)) WITHOUT ROWID;"
                       "CREATE TABLE own (place INTEGER PRIMARY KEY, desk INTEGER, cell INTEGER);"
                       "CREATE INDEX by_desk ON own (desk, place);",
                       NULL, NULL, NULL),
          SQLITE_OK);
    sqlite3_stmt *cell = prepared("INSERT INTO cells VALUES (?1, ?2)");
    sqlite3_stmt *hide = prepared("INSERT OR IGNORE INTO hidden VALUES (?1, ?2) RETURNING 1");
    sqlite3_stmt *held = prepared("SELECT count(*) FROM own WHERE desk = ?1");
    sqlite3_stmt *used = prepared("SELECT count(*) FROM own");
    sqlite3_stmt *owed = prepared("SELECT 8 * ?1 - coalesce(sum(min(n, 8)), 0) FROM (SELECT count(*) AS n FROM own GROUP BY desk)");
    sqlite3_stmt *insert = prepared("INSERT INTO own (desk, cell) VALUES (?1, ?2)");
    sqlite3_stmt *drop = prepared("DELETE FROM own WHERE place = (SELECT place FROM own WHERE desk = ?1 ORDER BY place LIMIT 1 OFFSET ?2) RETURNING 1");
    sqlite3_stmt *show_all = prepared("DELETE FROM hidden WHERE desk = ?1");
    sqlite3_stmt *drop_all = prepared("DELETE FROM own WHERE desk = ?1");
    sqlite3_stmt *visible = prepared("SELECT count(*) FROM cells WHERE NOT EXISTS (SELECT 1 FROM hidden WHERE desk = ?1 AND hidden.row = cells.row)");
    sqlite3_stmt *seen = prepared("SELECT cell FROM cells WHERE NOT EXISTS (SELECT 1 FROM hidden WHERE desk = ?1 AND hidden.row = cells.row) ORDER BY row LIMIT 1 OFFSET ?2");
    sqlite3_stmt *mine = prepared("SELECT cell FROM own WHERE desk = ?1 ORDER BY place LIMIT 1 OFFSET ?2");
    uint64_t none = 0;
    for (uint64_t i = 0; i < ROWS; i++) run(cell, 2, (uint64_t[]){i, table[i]}, &none);
    for (size_t i = 0; i < TURNS; i++) {
        uint64_t desk = turns[i].desk, n = turns[i].n, a = 0, b = 0;
        foliokettle_told t = {0, 0, 0};
        switch (turns[i].kind) {
        case FOLIOKETTLE_DELETE_TABLE:
            if (n >= ROWS) t.refusal = 6;
            else if (!run(hide, 2, (uint64_t[]){desk, n}, &none)) t.refusal = 7;
            break;
        case FOLIOKETTLE_DELETE_OWN:
            if (!run(drop, 2, (uint64_t[]){desk, n}, &none)) t.refusal = 6;
            break;
        case FOLIOKETTLE_INSERT:
            run(held, 1, &desk, &a);
            if (a >= 64) t.refusal = 9;
            else {
                uint64_t desks = DESKS, c = 0;
                if (a >= 8) {
                    run(used, 0, NULL, &b);
                    run(owed, 1, &desks, &c);
                }
                if (a >= 8 && b + c == 512) t.refusal = 10;
                else run(insert, 2, (uint64_t[]){desk, n}, &none);
            }
            break;
        case FOLIOKETTLE_RESET:
            run(show_all, 1, &desk, &none);
            run(drop_all, 1, &desk, &none);
            break;
        case FOLIOKETTLE_LOOK:
            run(visible, 1, &desk, &a);
            if (!run(n < a ? seen : mine, 2, (uint64_t[]){desk, n < a ? n : n - a}, &t.first)) t.refusal = 6;
            break;
        default:
            run(visible, 1, &desk, &a);
            run(held, 1, &desk, &b);
            t = (foliokettle_told){0, a + b, b};
        }
        told[2][i] = t;
    }
    sqlite3_stmt *statements[] = {cell, hide, held, used, owed, insert, drop, show_all, drop_all, visible, seen, mine};
    for (size_t i = 0; i < sizeof statements / sizeof statements[0]; i++) sqlite3_finalize(statements[i]);
    sqlite3_close(db);
}

/* ---- time */

static double per_second(void (*play)(void))
{
    double best = 0;
    for (int round = 0; round < 5; round++) {
        struct timespec a, b;
        clock_gettime(CLOCK_MONOTONIC, &a);
        play();
        clock_gettime(CLOCK_MONOTONIC, &b);
        double seconds = (double)(b.tv_sec - a.tv_sec) + 1e-9 * (double)(b.tv_nsec - a.tv_nsec);
        if (TURNS / seconds > best) best = TURNS / seconds;
    }
    return best;
}

int main(void)
{
    draw_lesson();
    double ours = per_second(play_ours), peer = per_second(play_peer), sqlite = per_second(play_sqlite);
    for (size_t i = 0; i < TURNS; i++) {
        for (int side = 1; side < 3; side++)
            if (memcmp(&told[0][i], &told[side][i], sizeof told[0][i]) != 0) {
                fprintf(stderr, "lesson: turn %zu of kind %llu is answered differently\n", i, (unsigned long long)turns[i].kind);
                return 1;
            }
    }
    printf("lesson: %d turns, all answered the same; calls per second\n", TURNS);
    printf("| the store, sheet handed back | C, in place | SQLite %s, in memory |\n|---|---|---|\n", sqlite3_libversion());
    printf("| %.0f | %.0f | %.0f |\n", ours, peer, sqlite);
    return 0;
}
