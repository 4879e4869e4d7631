// The same work as plain.rs on SQLite in memory, by prepared statements, each kind of work in one transaction.
#include <sqlite3.h>
#include <stdint.h>
#include <stdio.h>
#include <stdlib.h>
#include <string.h>
#include <time.h>

enum { OPS = 100000 };

static sqlite3 *db;
static uint32_t rows;
static int is_wide;

static int64_t id(uint32_t i) { return (uint32_t)(i * 2654435761u); }

static uint32_t picked(uint32_t i) { return i * 7919u % (rows ? rows : 1); }

static void run(const char *sql) {
    if (sqlite3_exec(db, sql, 0, 0, 0) != SQLITE_OK) {
        fprintf(stderr, "%s: %s\n", sql, sqlite3_errmsg(db));
        exit(1);
    }
}

static sqlite3_stmt *prepared(const char *sql) {
    sqlite3_stmt *statement;
    if (sqlite3_prepare_v2(db, sql, -1, &statement, 0) != SQLITE_OK) {
        fprintf(stderr, "%s: %s\n", sql, sqlite3_errmsg(db));
        exit(1);
    }
    return statement;
}

// How many rows the statement gives or, where it gives none, changes.
static int64_t done(sqlite3_stmt *statement, int64_t key) {
    int64_t count = 0;
    sqlite3_bind_int64(statement, 1, key);
    while (sqlite3_step(statement) == SQLITE_ROW) {
        volatile int64_t value = sqlite3_column_int64(statement, 0);
        (void)value;
        count++;
    }
    sqlite3_reset(statement);
    return count ? count : sqlite3_stmt_readonly(statement) ? 0 : sqlite3_changes(db);
}

static void bind_text(sqlite3_stmt *statement, int at, const char *form, int64_t n) {
    char text[64];
    int length = snprintf(text, sizeof text, form, (long long)n);
    sqlite3_bind_text(statement, at, text, length, SQLITE_TRANSIENT);
}

static int64_t insert(sqlite3_stmt *statement, uint32_t i) {
    int64_t x = id(i);
    if (!is_wide) {
        sqlite3_bind_int64(statement, 2, 1000);
    } else {
        sqlite3_bind_int64(statement, 2, x % 5000);
        sqlite3_bind_int64(statement, 3, x % 7);
        bind_text(statement, 4, "name%08lld", x % 100000000);
        bind_text(statement, 5, "city%lld", x % 997);
        sqlite3_bind_int64(statement, 6, 1000);
        sqlite3_bind_int64(statement, 7, x % 3650);
        bind_text(statement, 8, "a note on row %lld", x);
    }
    return done(statement, x);
}

static double now(void) {
    struct timespec t;
    clock_gettime(CLOCK_MONOTONIC, &t);
    return t.tv_sec * 1e6 + t.tv_nsec / 1e3;
}

static void told(const char *name, int64_t count, double began) { printf("%s %lld %.0f\n", name, (long long)count, now() - began); }

int main(void) {
    char table[16];
    if (scanf("%15s %u", table, &rows) != 2 || sqlite3_open(":memory:", &db) != SQLITE_OK) return 1;
    is_wide = !strcmp(table, "wide");
    if (is_wide) {
        run("CREATE TABLE wide (id BIGINT NOT NULL, owner BIGINT NOT NULL, kind TINYINT NOT NULL, name VARCHAR(24) NOT NULL,"
            " city VARCHAR(16) NOT NULL, sum BIGINT NOT NULL, day INTEGER NOT NULL, note VARCHAR(32) NOT NULL, PRIMARY KEY (id))");
        run("CREATE INDEX by_owner ON wide (owner)");
        run("CREATE INDEX by_city ON wide (city, day)");
    } else {
        run("CREATE TABLE acct (id BIGINT NOT NULL, bal BIGINT NOT NULL, PRIMARY KEY (id))");
    }
    sqlite3_stmt *put = prepared(is_wide ? "INSERT INTO wide VALUES (?, ?, ?, ?, ?, ?, ?, ?)" : "INSERT INTO acct VALUES (?, ?)");
    sqlite3_stmt *get = prepared(is_wide ? "SELECT sum FROM wide WHERE id = ?" : "SELECT bal FROM acct WHERE id = ?");
    sqlite3_stmt *set = prepared(is_wide ? "UPDATE wide SET sum = sum + 1 WHERE id = ?" : "UPDATE acct SET bal = bal + 1 WHERE id = ?");
    sqlite3_stmt *near = prepared(is_wide ? "SELECT sum FROM wide WHERE id >= ? ORDER BY id LIMIT 100" : "SELECT bal FROM acct WHERE id >= ? ORDER BY id LIMIT 100");
    sqlite3_stmt *drop = prepared(is_wide ? "DELETE FROM wide WHERE id = ?" : "DELETE FROM acct WHERE id = ?");

    int64_t count = 0;
    double began = now();
    run("BEGIN");
    for (uint32_t i = 0; i < rows; i++) count += insert(put, i);
    run("COMMIT");
    told("insert", count, began);

    count = 0, began = now();
    run("BEGIN");
    for (uint32_t i = 0; i < OPS; i++) count += done(get, id(picked(i)));
    run("COMMIT");
    told("read", count, began);

    count = 0, began = now();
    run("BEGIN");
    for (uint32_t i = 0; i < OPS; i++) count += done(set, id(picked(i)));
    run("COMMIT");
    told("update", count, began);

    count = 0, began = now();
    run("BEGIN");
    for (uint32_t i = 0; i < OPS / 100; i++) count += done(near, id(picked(i)));
    run("COMMIT");
    told("range", count, began);

    count = 0, began = now();
    for (uint32_t turn = 0; turn < OPS / 100; turn++) {
        run("BEGIN");
        for (uint32_t i = 0; i < 100; i++) count += done(set, id(picked(turn * 100 + i)));
        run("ROLLBACK");
    }
    told("undo", count, began);

    count = 0, began = now();
    run("BEGIN");
    for (uint32_t i = 0; i < rows / 2 && i < OPS; i++) count += done(drop, id(i));
    run("COMMIT");
    told("delete", count, began);
    return 0;
}
