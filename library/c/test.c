/* Checks parts of the header that a compiler can't: the sizes and places of fields, which
 * library/rust/durkenzo/src/raw.rs has too, and the code of each refusal. */
#include <assert.h>
#include <pthread.h>
#include <stddef.h>
#include <stdio.h>
#include <string.h>
#include "durkenzo.h"

#define IS_AT(type, field, place) _Static_assert(offsetof(type, field) == (place), #type ": " #field)
#define HAS_SIZE(type, size) _Static_assert(sizeof(type) == (size), #type)

HAS_SIZE(durkenzo_handle, 16);
IS_AT(durkenzo_handle, full, 0);
IS_AT(durkenzo_handle, owned, 8);
HAS_SIZE(durkenzo_record, 16);
IS_AT(durkenzo_record, generation, 0);
IS_AT(durkenzo_record, owner, 8);
IS_AT(durkenzo_record, other, 10);
IS_AT(durkenzo_record, phase, 12);
IS_AT(durkenzo_record, admitted, 13);
HAS_SIZE(durkenzo_part, 16);
IS_AT(durkenzo_part, start, 0);
IS_AT(durkenzo_part, end, 8);
HAS_SIZE(durkenzo_parts, 24);
IS_AT(durkenzo_parts, count, 0);
IS_AT(durkenzo_parts, length, 8);
IS_AT(durkenzo_parts, kind, 16);
HAS_SIZE(durkenzo_envelope_parts, 16);
IS_AT(durkenzo_envelope_parts, number, 0);
IS_AT(durkenzo_envelope_parts, shard, 8);
IS_AT(durkenzo_envelope_parts, from, 10);
IS_AT(durkenzo_envelope_parts, hops, 12);
HAS_SIZE(durkenzo_answer_parts, 24);
IS_AT(durkenzo_answer_parts, number, 0);
IS_AT(durkenzo_answer_parts, place, 8);
IS_AT(durkenzo_answer_parts, server, 16);
HAS_SIZE(durkenzo_route_parts, 16);
IS_AT(durkenzo_route_parts, generation, 0);
IS_AT(durkenzo_route_parts, server, 8);

static const uint8_t KEY[] = "key";
static const char SETTINGS[] =
    "{\"version\":1,\"bounds\":[\"\"],\"servers\":[{\"id\":1,\"domain\":0,\"capacity\":1}],\"groups\":[{\"limit\":1,"
    "\"down\":1}],\"shards\":[{\"group\":0,\"load\":1,\"cap\":1}],\"ops\":1,\"kept\":1,\"ceiling\":100,\"workers\":1}";
static durkenzo_handle control = DURKENZO_HANDLE_INIT, layout = DURKENZO_HANDLE_INIT, pass = DURKENZO_HANDLE_INIT;
static durkenzo_handle envelope = DURKENZO_HANDLE_INIT;

static uint32_t opened(const char *line) {
    size_t shards;
    return durkenzo_open_settings(&control, &layout, (const uint8_t *)line, strlen(line), &shards);
}

static void sizes_and_settings(void) {
    const uint64_t numbers[] = {0};
    char late[sizeof SETTINGS];
    assert(durkenzo_open(&control, numbers, 1, 0, 1, DURKENZO_MAX_GENERATION) == DURKENZO_BAD_BOOKS);
    assert(durkenzo_open(&control, numbers, 1, 1, 1, DURKENZO_MAX_GENERATION + 1) == DURKENZO_BAD_CEILING);
    assert(opened("") == DURKENZO_SETTINGS_BAD_JSON);
    assert(opened("{}") == DURKENZO_SETTINGS_BAD_VERSION);
    strcpy(late, SETTINGS);
    *strstr(late, "\"ops\"") = ' ';
    assert(opened(late) == DURKENZO_SETTINGS_BAD_JSON);
    strcpy(late, SETTINGS);
    strstr(late, "\"workers\":")[strlen("\"workers\":")] = '9';
    assert(opened(late) == DURKENZO_SETTINGS_BAD_WORKERS);
    assert(opened(SETTINGS) == DURKENZO_OK);
}

static uint32_t served(durkenzo_record *read) {
    const durkenzo_envelope_parts parts = {.number = 1};
    uint16_t to;
    assert(durkenzo_envelope(&pass, &envelope, &parts, DURKENZO_GET, KEY, 3, KEY, 0, 0) == DURKENZO_OK);
    return durkenzo_serve(&pass, &layout, &envelope, &to, read);
}

/* A shard that keeps as many requests as it may is admitted all the same, which takes two generations. */
static void full_shards(void) {
    durkenzo_record read, after;
    durkenzo_envelope_parts back;
    uint64_t generation;
    assert(durkenzo_pass(&control, &pass, 1) == DURKENZO_OK);
    assert(served(&read) == DURKENZO_NOBODY_OWNS && read.phase == DURKENZO_VACANT);
    assert(durkenzo_change(&control, 0, DURKENZO_ASSIGN, 1, &read) == DURKENZO_OK);
    assert(served(&read) == DURKENZO_OK);
    assert(durkenzo_look(&pass, 0, &read) == DURKENZO_OK);
    assert(served(&after) == DURKENZO_KEPT_FULL);
    assert(durkenzo_sent(&envelope, &back) == DURKENZO_OK && back.number == 1 && back.hops == 0);
    assert(durkenzo_look(&pass, 0, &after) == DURKENZO_OK && after.generation == read.generation + 2);
    assert(durkenzo_checkpoint(&pass, 0, &generation, &read) == DURKENZO_OK && generation == after.generation + 2);
}

/* Tokens begin after the number that was given when the board was opened. A pass is of a server that the board has. */
static void fencing_tokens(void) {
    const uint64_t numbers[] = {7}, greatest = (UINT64_C(1) << 63) - (UINT64_C(1) << 36);
    durkenzo_handle board = DURKENZO_HANDLE_INIT, two = DURKENZO_HANDLE_INIT;
    durkenzo_record read;
    uint64_t number, token = 9;
    assert(durkenzo_open_after(&board, numbers, 1, 2, 1, 100, greatest + 1) == DURKENZO_BAD_AFTER);
    assert(durkenzo_open_after(&board, numbers, 1, 2, 1, 2, 500) == DURKENZO_BAD_CEILING);
    assert(durkenzo_pass(&board, &two, 2) == DURKENZO_WRONG_HANDLE);
    assert(durkenzo_open_after(&board, numbers, 1, 2, 1, 100, 500) == DURKENZO_OK);
    assert(durkenzo_pass(&board, &two, 3) == DURKENZO_UNKNOWN_SERVER);
    assert(durkenzo_pass(&board, &two, 0) == DURKENZO_BAD_ARGUMENT);
    assert(durkenzo_pass(&board, &two, 2) == DURKENZO_OK);
    assert(durkenzo_change(&board, 0, DURKENZO_ASSIGN, 2, &read) == DURKENZO_OK);
    assert(durkenzo_token(&two, &token) == DURKENZO_WRONG_HANDLE && token == 9);
    assert(durkenzo_admit(&two, 0, 0, &number, &read) == DURKENZO_OK && number == 7);
    assert(durkenzo_token(&two, &token) == DURKENZO_OK && token == 502);
    durkenzo_close(&two);
    durkenzo_close(&board);
}

static void words(void) {
    uint64_t next = 7, admitted;
    assert(durkenzo_changed(0, DURKENZO_ASSIGN, 1, DURKENZO_MAX_GENERATION + 1, &next) == DURKENZO_BAD_CEILING);
    assert(durkenzo_changed(DURKENZO_NO_WORD, DURKENZO_ASSIGN, 1, 9, &next) == DURKENZO_BAD_WORD);
    assert(durkenzo_ended(DURKENZO_NO_WORD, &next) == DURKENZO_NOT_ADMITTED);
    assert(durkenzo_ended(0, &next) == DURKENZO_NOT_ADMITTED && next == 7);
    assert(durkenzo_changed(0, DURKENZO_ASSIGN, 1, 9, &next) == DURKENZO_OK);
    assert(durkenzo_admitted(next, 1, 0, 9, &admitted) == DURKENZO_OK);
    assert(durkenzo_admitted(admitted, 1, 0, 9, &next) == DURKENZO_ADMITTED);
    assert(durkenzo_ended(admitted, &next) == DURKENZO_OK);
}

enum { READERS = 4, ROUTES = 20000 };
static durkenzo_handle publisher = DURKENZO_HANDLE_INIT, routers[READERS];

/* Reads the route of shard 1 until it is the last one: generations never fall. */
static void *read_until_last(void *at) {
    durkenzo_route_parts route = {0};
    for (uint64_t newest = 0; newest < ROUTES; newest = route.generation) {
        assert(durkenzo_route(at, 1, &route) == DURKENZO_OK);
        assert(route.generation >= newest && route.server == (route.generation ? 1 + route.generation % 2 : 0));
    }
    return NULL;
}

static void routes_that_are_refused(void) {
    durkenzo_handle none = DURKENZO_HANDLE_INIT;
    durkenzo_route_parts route = {7, 7};
    assert(durkenzo_publisher(&publisher, 0) == DURKENZO_NO_SHARD);
    assert(durkenzo_publisher(&publisher, 4097) == DURKENZO_TOO_MANY);
    assert(durkenzo_publish(&publisher, 0, 1, 1) == DURKENZO_WRONG_HANDLE);
    assert(durkenzo_router(&publisher, &none) == DURKENZO_WRONG_HANDLE);
    assert(durkenzo_publisher(&publisher, 2) == DURKENZO_OK);
    assert(durkenzo_publish(&publisher, 0, 0, 1) == DURKENZO_BAD_ARGUMENT);
    assert(durkenzo_publish(&publisher, 0, 4096, 1) == DURKENZO_BAD_ARGUMENT);
    assert(durkenzo_publish(&publisher, 0, 1, DURKENZO_MAX_GENERATION + 1) == DURKENZO_BAD_ARGUMENT);
    assert(durkenzo_publish(&publisher, 2, 1, 1) == DURKENZO_UNKNOWN_SHARD);
    assert(durkenzo_publish(&publisher, 4096, 1, 1) == DURKENZO_UNKNOWN_SHARD);
    assert(durkenzo_publish(&publisher, 0, 4095, DURKENZO_MAX_GENERATION) == DURKENZO_OK);
    assert(durkenzo_publish(&publisher, 0, 1, DURKENZO_MAX_GENERATION) == DURKENZO_OLD_ROUTE);
    assert(durkenzo_route(&publisher, 0, &route) == DURKENZO_WRONG_HANDLE && route.server == 7);
    assert(durkenzo_router(&publisher, &none) == DURKENZO_OK);
    assert(durkenzo_route(&none, 4096, &route) == DURKENZO_UNKNOWN_SHARD && route.server == 7);
    assert(durkenzo_route(&none, 0, &route) == DURKENZO_OK && route.server == 4095);
    assert(route.generation == DURKENZO_MAX_GENERATION);
    assert(durkenzo_route(&none, 2, &route) == DURKENZO_OK && route.server == 0 && route.generation == 0);
    durkenzo_close(&none);
}

/* Routers in threads of their own read beside the publisher, and after its end. */
static void routes_rise(void) {
    pthread_t threads[READERS];
    durkenzo_route_parts route;
    for (size_t it = 0; it < READERS; it++) {
        assert(durkenzo_router(&publisher, &routers[it]) == DURKENZO_OK);
        assert(pthread_create(&threads[it], NULL, read_until_last, &routers[it]) == 0);
    }
    for (uint64_t generation = 1; generation <= ROUTES; generation++)
        assert(durkenzo_publish(&publisher, 1, 1 + generation % 2, generation) == DURKENZO_OK);
    durkenzo_close(&publisher);
    for (size_t it = 0; it < READERS; it++) {
        assert(pthread_join(threads[it], NULL) == 0);
        assert(durkenzo_route(&routers[it], 1, &route) == DURKENZO_OK && route.generation == ROUTES);
        durkenzo_close(&routers[it]);
    }
}

int main(void) {
    sizes_and_settings();
    full_shards();
    fencing_tokens();
    words();
    routes_that_are_refused();
    routes_rise();
    durkenzo_close(&envelope);
    durkenzo_close(&pass);
    durkenzo_close(&layout);
    durkenzo_close(&control);
    puts("the header is right");
}
