/* Saves of stable rows by SQLite's C library, as `smi_bench saves` makes them: pages of 512 bytes, a log that is written ahead,
   each save the same statement, handed to the device before it returns. Prints the microseconds of so many saves to a
   new store that has so many rows, each there before.

   usage: saves STORE SAVES ROWS */
#include <sqlite3.h>
#include <stdio.h>
#include <stdlib.h>
#include <string.h>
#include <time.h>

#define DOMAINS 128

static sqlite3 *store;
static sqlite3_stmt *statement;

static void check(int code, int wanted) {
    if (code != wanted) {
        fprintf(stderr, "%s\n", sqlite3_errmsg(store));
        exit(1);
    }
}

/* The nth save: the domains of one station in turn, then the next one's; no two have the same bytes. */
static void save(unsigned nth, unsigned rows) {
    unsigned char row[24] = {2, 1, 0, 2, 0, 0, 0, 0, 0, 0, 0, 1};
    unsigned place = nth % rows;
    for (int i = 0; i < 4; i++) row[12 + i] = (unsigned char)(nth >> (24 - 8 * i));
    check(sqlite3_bind_int(statement, 1, (int)(place / DOMAINS % 128 + 1)), SQLITE_OK);
    check(sqlite3_bind_int(statement, 2, (int)(place % DOMAINS + 1)), SQLITE_OK);
    check(sqlite3_bind_int(statement, 3, 0), SQLITE_OK);
    check(sqlite3_bind_blob(statement, 4, row, sizeof row, SQLITE_STATIC), SQLITE_OK);
    check(sqlite3_step(statement), SQLITE_DONE);
    check(sqlite3_reset(statement), SQLITE_OK);
}

static double now(void) {
    struct timespec time;
    clock_gettime(CLOCK_MONOTONIC, &time);
    return 1e6 * (double)time.tv_sec + 1e-3 * (double)time.tv_nsec;
}

int main(int count, char **words) {
    if (count != 4) return 2;
    unsigned saves = (unsigned)strtoul(words[2], NULL, 10), rows = (unsigned)strtoul(words[3], NULL, 10);
    check(sqlite3_open(words[1], &store), SQLITE_OK);
    check(sqlite3_exec(store, "PRAGMA page_size = 512; PRAGMA journal_mode = WAL; PRAGMA synchronous = FULL;"
        "CREATE TABLE stable_rows (station INTEGER NOT NULL, domain INTEGER NOT NULL, operator INTEGER NOT NULL,"
        " bytes BLOB NOT NULL, PRIMARY KEY (station, domain, operator)) STRICT", NULL, NULL, NULL), SQLITE_OK);
    check(sqlite3_prepare_v2(store, "INSERT INTO stable_rows VALUES (?1, ?2, ?3, ?4)"
        " ON CONFLICT (station, domain, operator) DO UPDATE SET bytes = excluded.bytes", -1, &statement, NULL), SQLITE_OK);
    for (unsigned nth = 0; nth < rows; nth++) save(nth, rows);
    double start = now();
    for (unsigned nth = 0; nth < saves; nth++) save(rows + nth, rows);
    printf("%u saves: %.0f us\n", saves, now() - start);
    sqlite3_finalize(statement);
    return sqlite3_close(store) == SQLITE_OK ? 0 : 1;
}
