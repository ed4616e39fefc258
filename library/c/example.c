/* Two threads count without a lock of their own, while the main thread moves shard 0. */
#include <assert.h>
#include <pthread.h>
#include <stdio.h>
#include "durkenzo.h"

enum { SHARDS = 4, ROUNDS = 200000 };
static long counters[SHARDS], done[2]; /* a plain body for each shard */
static durkenzo_handle control = DURKENZO_HANDLE_INIT;
static durkenzo_handle passes[2] = {DURKENZO_HANDLE_INIT, DURKENZO_HANDLE_INIT};

static void *serve(void *at) {
    size_t thread = (size_t)at;
    uint64_t number, generation;
    durkenzo_record read;
    for (int round = 0; round < ROUNDS; round++)
        if (durkenzo_admit(&passes[thread], round % SHARDS, 0, &number, &read) == DURKENZO_OK) {
            counters[number]++; /* nobody else has this body now */
            done[thread]++;
            durkenzo_finish(&passes[thread], &generation);
        }
    return NULL;
}

static void migrate(uint16_t shard, uint16_t server) {
    durkenzo_record read;
    for (uint8_t kind = DURKENZO_PREPARE_ADD_SHARD; kind <= DURKENZO_DROP_SHARD;) {
        uint32_t code = durkenzo_change(&control, shard, kind, server, &read);
        assert(code == DURKENZO_OK || code == DURKENZO_BUSY || code == DURKENZO_RACED);
        kind += code == DURKENZO_OK;
    }
}

int main(void) {
    uint64_t numbers[SHARDS] = {0, 1, 2, 3};
    durkenzo_record read;
    pthread_t threads[2];
    uint32_t code = durkenzo_open(&control, numbers, SHARDS, 2, 1, DURKENZO_MAX_GENERATION);
    for (uint16_t shard = 0; shard < SHARDS; shard++)
        code += durkenzo_change(&control, shard, DURKENZO_ASSIGN, 1 + shard % 2, &read);
    for (uint16_t it = 0; it < 2; it++)
        code += durkenzo_pass(&control, &passes[it], it + 1);
    assert(code == DURKENZO_OK);
    for (size_t it = 0; it < 2; it++)
        pthread_create(&threads[it], NULL, serve, (void *)it);
    for (int round = 0; round < 1000; round++)
        migrate(0, 2 - round % 2);
    for (size_t it = 0; it < 2; it++) {
        pthread_join(threads[it], NULL);
        durkenzo_close(&passes[it]);
    }
    durkenzo_close(&control);
    assert(counters[0] + counters[1] + counters[2] + counters[3] == done[0] + done[1]);
    puts("every admission was counted");
}
