/* SQLite in memory doing the work of crates/directory_speed: 64 keys, insert or replace and select by key, by prepared
 * statements. Prints nanoseconds for one look and one commit, the best of many rounds. */
#include <sqlite3.h>
#include <stdio.h>
#include <stdlib.h>
#include <string.h>
#include <time.h>

enum { KEYS = 64, TURNS = 200, ROUNDS = 31 };

static double now(void) {
    struct timespec t;
    clock_gettime(CLOCK_MONOTONIC, &t);
    return t.tv_sec + t.tv_nsec * 1e-9;
}

static void check(int ok, const char *what) {
    if (!ok) {
        fprintf(stderr, "%s failed\n", what);
        exit(1);
    }
}

static void key_of(int number, char *key) {
    memcpy(key, "drill/0000", 10);
    key[8] = '0' + number / 10;
    key[9] = '0' + number % 10;
}

int main(void) {
    sqlite3 *db;
    sqlite3_stmt *put, *get;
    unsigned char digest[32];
    memset(digest, 7, sizeof digest);
    check(sqlite3_open(":memory:", &db) == SQLITE_OK, "open");
    check(sqlite3_exec(db, "create table entries (container integer, key blob, sequence integer, writer integer, clouds integer, size integer, digest blob, primary key (container, key)) without rowid", 0, 0, 0) == SQLITE_OK, "create");
    check(sqlite3_prepare_v2(db, "insert or replace into entries values (?,?,?,?,?,?,?)", -1, &put, 0) == SQLITE_OK, "prepare");
    check(sqlite3_prepare_v2(db, "select sequence, writer, clouds, size, digest from entries where container = ? and key = ?", -1, &get, 0) == SQLITE_OK, "prepare");
    double best_put = 1e9, best_get = 1e9;
    unsigned sum = 0;
    for (int round = 0; round < ROUNDS; round++) {
        double start = now();
        for (int turn = 0; turn < TURNS; turn++)
            for (int number = 0; number < KEYS; number++) {
                char key[10];
                key_of(number, key);
                sqlite3_bind_int(put, 1, 7);
                sqlite3_bind_blob(put, 2, key, 10, SQLITE_STATIC);
                sqlite3_bind_int64(put, 3, (sqlite3_int64)round * TURNS + turn + 1);
                sqlite3_bind_int(put, 4, 1);
                sqlite3_bind_int(put, 5, 5);
                sqlite3_bind_int(put, 6, 1000);
                sqlite3_bind_blob(put, 7, digest, 32, SQLITE_STATIC);
                check(sqlite3_step(put) == SQLITE_DONE, "insert");
                sqlite3_reset(put);
            }
        double time = (now() - start) / TURNS / KEYS * 1e9;
        if (time < best_put) best_put = time;
        start = now();
        for (int turn = 0; turn < TURNS; turn++)
            for (int number = 0; number < KEYS; number++) {
                char key[10];
                key_of(number, key);
                sqlite3_bind_int(get, 1, 7);
                sqlite3_bind_blob(get, 2, key, 10, SQLITE_STATIC);
                check(sqlite3_step(get) == SQLITE_ROW, "select");
                sum += sqlite3_column_int(get, 0) + ((const unsigned char *)sqlite3_column_blob(get, 4))[0];
                sqlite3_reset(get);
            }
        time = (now() - start) / TURNS / KEYS * 1e9;
        if (time < best_get) best_get = time;
    }
    printf("sqlite look %.1f\nsqlite commit %.1f\nsum %u\n", best_get, best_put, sum);
    return 0;
}
