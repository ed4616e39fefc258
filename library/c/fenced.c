/* Adds 1 to accounts in a database. No write of an earlier admission or process can land after a later one:
 *
 *     fenced FILE WRITES [AFTER]
 *
 * Prints the totals of all accounts at the end. AFTER shows what happens if tokens begin too low: the database refuses
 * the first write, and the program ends with status 1. */
#include <inttypes.h>
#include <sqlite3.h>
#include <stdio.h>
#include <stdlib.h>
#include "durkenzo.h"

enum { ACCOUNTS = 4 };
static const char TABLES[] =
    "CREATE TABLE IF NOT EXISTS fence (id INTEGER PRIMARY KEY, after INTEGER NOT NULL);"
    "CREATE TABLE IF NOT EXISTS accounts (shard INTEGER PRIMARY KEY, balance INTEGER NOT NULL, token INTEGER NOT NULL);"
    "INSERT OR IGNORE INTO fence VALUES (0, 0);"
    "INSERT OR IGNORE INTO accounts VALUES (0, 0, 0), (1, 0, 0), (2, 0, 0), (3, 0, 0);";
static const char ADD[] = "UPDATE accounts SET balance = balance + 1, token = ?1 WHERE shard = ?2 AND token <= ?1";
static sqlite3 *store;

static void need(int is_so, const char *what) {
    if (is_so)
        return;
    fprintf(stderr, "%s\n", what);
    exit(1);
}

static void need_ok(int code) {
    need(code == SQLITE_OK, sqlite3_errmsg(store));
}

/* Runs the statement with these numbers, and returns the first number of its row, if it has one. */
static int64_t run(const char *statement, int64_t first, int64_t second) {
    sqlite3_stmt *made;
    need_ok(sqlite3_prepare_v2(store, statement, -1, &made, NULL));
    for (int at = 1; at <= sqlite3_bind_parameter_count(made); at++)
        sqlite3_bind_int64(made, at, at == 1 ? first : second);
    int code = sqlite3_step(made);
    need(code == SQLITE_ROW || code == SQLITE_DONE, sqlite3_errmsg(store));
    int64_t number = code == SQLITE_ROW ? sqlite3_column_int64(made, 0) : 0;
    need_ok(sqlite3_finalize(made));
    return number;
}

/* Returns the number after which this process's tokens begin. The next process's tokens begin above all of them, by one
 * transaction. So if this process is cut off and goes on writing, its tokens are lower. */
static uint64_t claimed(void) {
    run("BEGIN IMMEDIATE", 0, 0);
    int64_t after = run("SELECT after FROM fence", 0, 0);
    run("UPDATE fence SET after = after + ?1", DURKENZO_MAX_GENERATION, 0);
    run("COMMIT", 0, 0);
    return (uint64_t)after;
}

static void add(uint16_t shard, uint64_t token) {
    run(ADD, (int64_t)token, shard);
    need(sqlite3_changes(store) == 1, "a later admission has written the account: this write changed nothing");
}

int main(int count, char **words) {
    durkenzo_handle control = DURKENZO_HANDLE_INIT, pass = DURKENZO_HANDLE_INIT;
    const uint64_t numbers[ACCOUNTS] = {0, 1, 2, 3};
    uint64_t number, token, generation;
    durkenzo_record read;
    need(count == 3 || count == 4, "fenced FILE WRITES [AFTER]");
    need(sqlite3_open(words[1], &store) == SQLITE_OK, "the file isn't opened");
    sqlite3_busy_timeout(store, 5000);
    need_ok(sqlite3_exec(store, TABLES, NULL, NULL, NULL));
    uint64_t after = count == 4 ? strtoull(words[3], NULL, 10) : claimed();
    uint32_t code = durkenzo_open_after(&control, numbers, ACCOUNTS, 1, 1, DURKENZO_MAX_GENERATION, after);
    need(code == DURKENZO_OK && durkenzo_pass(&control, &pass, 1) == DURKENZO_OK, "no board");
    for (uint16_t shard = 0; shard < ACCOUNTS; shard++)
        need(durkenzo_change(&control, shard, DURKENZO_ASSIGN, 1, &read) == DURKENZO_OK, "no owner");
    for (long turn = 0; turn < atol(words[2]); turn++) {
        uint16_t shard = (uint16_t)(turn % ACCOUNTS);
        need(durkenzo_admit(&pass, shard, 0, &number, &read) == DURKENZO_OK, "not admitted");
        need(durkenzo_token(&pass, &token) == DURKENZO_OK, "no token");
        add(shard, token);
        durkenzo_finish(&pass, &generation);
    }
    printf("the accounts have %" PRId64 "\n", run("SELECT sum(balance) FROM accounts", 0, 0));
    durkenzo_close(&pass);
    durkenzo_close(&control);
    return sqlite3_close(store) != SQLITE_OK;
}
