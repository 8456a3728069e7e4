/* The same parts as tables of SQLite in memory: keys for the own rules, and a count. Each deed is one transaction. */
#include <sqlite3.h>
#include <stdio.h>
#include <stdlib.h>

static sqlite3 *db;

static void need(int ok) {
    if (!ok) {
        fprintf(stderr, "sqlite: %s\n", sqlite3_errmsg(db));
        exit(1);
    }
}

static sqlite3_stmt *prepared(const char *text) {
    sqlite3_stmt *s;
    need(sqlite3_prepare_v3(db, text, -1, SQLITE_PREPARE_PERSISTENT, &s, 0) == SQLITE_OK);
    return s;
}

/* Runs a statement with cells of the row; says how many rows changed, or 0 where a key forbids it. */
static int run(sqlite3_stmt *s, const unsigned *row, const int *cells, int count) {
    for (int i = 0; i < count; i++)
        sqlite3_bind_int64(s, i + 1, row[cells[i]]);
    int code = sqlite3_step(s);
    int changed = code == SQLITE_DONE ? sqlite3_changes(db) : 0;
    need(code == SQLITE_DONE || code == SQLITE_CONSTRAINT);
    sqlite3_reset(s);
    return changed;
}

static const int ORGAN[] = {0, 1, 3}, PARISH[] = {1, 2}, VISIT[] = {0, 4, 5};

int main(void) {
    size_t size = 0, room = 1 << 20;
    unsigned char *bytes = malloc(room);
    for (size_t n; (n = fread(bytes + size, 1, room - size, stdin)) > 0;) {
        size += n;
        if (size == room)
            bytes = realloc(bytes, room *= 2);
    }
    need(sqlite3_open(":memory:", &db) == SQLITE_OK);
    need(sqlite3_exec(db,
        "PRAGMA journal_mode = MEMORY; PRAGMA synchronous = OFF;"
        "CREATE TABLE organ(organ INTEGER PRIMARY KEY, parish INTEGER, builder INTEGER, times INTEGER);"
        "CREATE TABLE parish(parish INTEGER PRIMARY KEY, diocese INTEGER, times INTEGER);"
        "CREATE TABLE visit(organ INTEGER, tuner INTEGER, day INTEGER, times INTEGER, PRIMARY KEY(tuner, day), UNIQUE(organ, day)) WITHOUT ROWID;",
        0, 0, 0) == SQLITE_OK);
    sqlite3_stmt *begin = prepared("BEGIN"), *commit = prepared("COMMIT"), *rollback = prepared("ROLLBACK");
    /* The third part holds a key of the table, so a row whose look is new there is not present: no question is asked first. */
    sqlite3_stmt *visit_in = prepared("INSERT INTO visit VALUES(?, ?, ?, 1)");
    sqlite3_stmt *organ_in = prepared("INSERT INTO organ VALUES(?, ?, ?, 1) ON CONFLICT(organ) DO UPDATE SET times = times + 1"
        " WHERE parish = excluded.parish AND builder = excluded.builder");
    sqlite3_stmt *parish_in = prepared("INSERT INTO parish VALUES(?, ?, 1) ON CONFLICT(parish) DO UPDATE SET times = times + 1"
        " WHERE diocese = excluded.diocese");
    sqlite3_stmt *visit_out = prepared("DELETE FROM visit WHERE organ = ? AND tuner = ? AND day = ?");
    sqlite3_stmt *organ_out = prepared("UPDATE organ SET times = times - 1 WHERE organ = ? AND parish = ? AND builder = ?");
    sqlite3_stmt *parish_out = prepared("UPDATE parish SET times = times - 1 WHERE parish = ? AND diocese = ?");
    sqlite3_stmt *organ_drop = prepared("DELETE FROM organ WHERE organ = ? AND times = 0");
    sqlite3_stmt *parish_drop = prepared("DELETE FROM parish WHERE parish = ? AND times = 0");
    long done = 0, refused = 0;
    for (size_t at = 22; at + 25 <= size; at += 25) {
        unsigned row[6];
        for (int c = 0; c < 6; c++) {
            unsigned char *b = bytes + at + 1 + 4 * c;
            row[c] = b[0] | b[1] << 8 | b[2] << 16 | (unsigned)b[3] << 24;
        }
        run(begin, row, 0, 0);
        int taken = bytes[at] == 0
            ? run(visit_in, row, VISIT, 3) && run(organ_in, row, ORGAN, 3) && run(parish_in, row, PARISH, 2)
            : run(visit_out, row, VISIT, 3) && run(organ_out, row, ORGAN, 3) && run(parish_out, row, PARISH, 2);
        if (taken && bytes[at] == 1) {
            run(organ_drop, row, ORGAN, 1);
            run(parish_drop, row, PARISH, 1);
        }
        run(taken ? commit : rollback, row, 0, 0);
        if (taken)
            done++;
        else
            refused++;
    }
    printf("%ld done, %ld refused\n", done, refused);
    return 0;
}
