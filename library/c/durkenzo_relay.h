/* A proved server of one shard of a service of the caller's own, over a store that machines share. A request is bytes
 * of that service: if its first byte is 1 it only reads, otherwise it changes something. The server orders the requests
 * that change something and makes each exactly once. The reply to such a request is its place among those of its
 * shard: 0 for the first, and one more for each that follows. The caller keeps the service's state, and applies each
 * request to it at its place. The server has no input or output of its own.
 *
 * The codes, the types, the rules of handles and the loop of a driver are those of durkenzo_store.h, with calls that
 * begin with durkenzo_relay. To the loop, add this:
 *  - Apply the requests of each batch that you read, and of each that you sent once it is made, in their order. A batch
 *    that was read has its requests in its bytes, and durkenzo_relay_answer writes the places of those that were made.
 *    durkenzo_relay_count writes how many requests your state must have then.
 *  - Keep the reply of your service to the last request of each client, because durkenzo_relay_take writes only the
 *    place of a request that was made before.
 *  - Answer a read by the state after exactly as many requests as durkenzo_relay_read_answer writes.
 *  - When durkenzo_relay_base begins a base, also save your state and those replies. The transaction that names the
 *    base must name this snapshot. With the base, read it. */
#ifndef DURKENZO_RELAY_H
#define DURKENZO_RELAY_H

#include "durkenzo_store.h"

#ifdef __cplusplus
extern "C" {
#endif

/* The version of this header and of the library beside it. */
#define DURKENZO_RELAY_VERSION "0.1.0"

typedef struct {
    bool full;
    void *owned;
} durkenzo_relay_handle;

/* An answer: the client of the request, its number, and its place. For a read the place is how many requests were made
 * before it. */
typedef struct {
    uint64_t client;
    uint64_t number;
    uint64_t place;
} durkenzo_relay_place;

/* Makes server `me` of the shard, which is one of `count` shards, as durkenzo_server does. */
uint32_t durkenzo_relay(durkenzo_relay_handle *relay, uint16_t me, uint16_t shard, uint64_t count,
                        uint64_t batch_bytes, size_t batch_requests, size_t waiting, size_t clients);

/* Writes the contents of a log's head, as durkenzo_log_head_of does. */
uint32_t durkenzo_relay_log_head(const uint8_t *bytes, size_t length, durkenzo_log_head *head);

/* Adds the next part that was read of the base, in the order of their places. Must come before durkenzo_relay_read. */
uint32_t durkenzo_relay_part_read(durkenzo_relay_handle *relay, const uint8_t *bytes, size_t length);

/* Adds the next batch that was read, in the order of their numbers. Must come before durkenzo_relay_read or
 * durkenzo_relay_append. */
uint32_t durkenzo_relay_batch(durkenzo_relay_handle *relay, const uint8_t *bytes, size_t length);

/* Tells the server that the shard was read: its record at revision `stood`, the head of its log at revision `logged`,
 * and the parts of its base and the batches, which were added and are dropped now. */
uint32_t durkenzo_relay_read(durkenzo_relay_handle *relay, const uint8_t *record, size_t record_length,
                             uint64_t stood, const uint8_t *head, size_t head_length, uint64_t logged);

/* Writes how many batches the server has made: 0 before it has read. */
uint32_t durkenzo_relay_batch_count(durkenzo_relay_handle *relay, uint64_t *batches);

/* Tells the server that the shard was read on from the server's place, as durkenzo_server_append does. */
uint32_t durkenzo_relay_append(durkenzo_relay_handle *relay, const uint8_t *record, size_t record_length,
                               uint64_t stood, const uint8_t *head, size_t head_length, uint64_t logged);

/* Tells the server that only the record was read, or seen by a watch. Requests that wait here must be given again. */
uint32_t durkenzo_relay_record(durkenzo_relay_handle *relay, const uint8_t *record, size_t length, uint64_t stood);

/* Takes a request, which came directly (`from` 0) or from the server `from`, and was forwarded `hops` times. When it
 * is made, clients below `forgets` are forgotten; 0 forgets none. The same client and number must always come with the
 * same request. Returns 0 if the request is made, and writes its place. Else 70 to 79 tell the decision, and the server
 * goes on. */
uint32_t durkenzo_relay_take(durkenzo_relay_handle *relay, uint64_t client, uint64_t number, uint16_t from,
                             uint8_t hops, uint64_t forgets, const uint8_t *request, size_t length,
                             uint64_t *place, durkenzo_text_forward *forward);

/* Allows waiting requests to be sent if nothing is under way. Writes whether there is something to send now. */
uint32_t durkenzo_relay_flush(durkenzo_relay_handle *relay, bool *sends);

/* Writes the transaction to send: the bytes for the head, followed by those for the batch. */
uint32_t durkenzo_relay_sending(durkenzo_relay_handle *relay, durkenzo_sent_numbers *sent, uint8_t *into, size_t room);

/* Tells the server that its transaction was made at this revision, or, if it only compares, that its compares have
 * held. Writes how many answers to requests that were made there are, and how many answers to reads. */
uint32_t durkenzo_relay_made(durkenzo_relay_handle *relay, uint64_t revision, size_t *made, size_t *read);

/* Writes the answer at this place to a request that was made. */
uint32_t durkenzo_relay_answer(durkenzo_relay_handle *relay, size_t at, durkenzo_relay_place *answer);

/* Writes the answer at this place to a read. */
uint32_t durkenzo_relay_read_answer(durkenzo_relay_handle *relay, size_t at, durkenzo_relay_place *answer);

/* Tells the server that a compare of its transaction failed, or that the outcome isn't known. The server returns
 * NOT_READ until it has read or appended. */
uint32_t durkenzo_relay_lost(durkenzo_relay_handle *relay);

/* Begins a base of all requests that were made, as durkenzo_server_base does. */
uint32_t durkenzo_relay_base(durkenzo_relay_handle *relay, bool *begins);

/* Writes the bytes for the key of this part of the base. NO_MORE if the base has no such part. */
uint32_t durkenzo_relay_part(durkenzo_relay_handle *relay, size_t place, durkenzo_part_numbers *part, uint8_t *into,
                             size_t room);

/* Tells the server that each part of the base was put, so that the next transaction names the base. */
uint32_t durkenzo_relay_parts_made(durkenzo_relay_handle *relay);

/* Writes whether a batch, or a part of a base if `is_part`, of this number is behind the base that the head names, so
 * that you should delete it. The place of a batch is 0. */
uint32_t durkenzo_relay_is_behind(durkenzo_relay_handle *relay, bool is_part, uint64_t number, uint64_t place,
                                  bool *behind);

/* Writes of how many clients the server keeps the last request: 0 before it has read. */
uint32_t durkenzo_relay_clients(durkenzo_relay_handle *relay, size_t *clients);

/* Writes how many requests were made, which is the place of the next one: 0 before the server has read. */
uint32_t durkenzo_relay_count(durkenzo_relay_handle *relay, uint64_t *count);

/* Closes the server that the handle keeps. */
void durkenzo_relay_close(durkenzo_relay_handle *relay);

#ifdef __cplusplus
}
#endif

#endif
