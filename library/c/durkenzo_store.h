/* A proved server of one shard, over a store that machines share. It decides on requests, and makes the transactions
 * and the answers. It has no input or output of its own: the caller reads the store, sends the transactions, and
 * tells the server their outcomes. A program may link it together with the calls of durkenzo.h.
 *
 * Every call returns 0 or a code. If a call is refused, the handle doesn't change, unless the call says otherwise. A
 * server that has read nothing must read the whole shard, from 1. You may always close the handle and make another
 * server. A handle must begin as bytes of 0, must not be copied, and must be used by one call at a time. The memory
 * behind a call's pointers must not overlap, unless both are const.
 *
 * The loop of a driver, for each shard:
 *  1. Read the shard's record and the head of its log, with their revisions, the parts of the base that the head names,
 *     and the batches above those in the base. durkenzo_log_head_of says which these are. Give each part to
 *     durkenzo_server_part_read and each batch to durkenzo_server_batch, and then call durkenzo_server_read. A record
 *     that was never written is 0x01 and 16 bytes of 0, and a head 0x01 and 24, both at revision 0.
 *  2. Give each request to durkenzo_server_take. It is answered now, goes to another server, is refused for now, or
 *     waits. Keep the requests that wait.
 *  3. Call durkenzo_server_flush. If it sends, durkenzo_server_sending writes the transaction: put the head, and the
 *     batch at its number, if there are bytes for them. The transaction compares the revisions of the record and the
 *     head. If it puts a head without a batch, which names a base, it compares only the revision of the head.
 *  4. If the transaction was made, call durkenzo_server_made with the store's revision, and send the answers. If a
 *     compare failed, or the outcome isn't known, call durkenzo_server_lost. Then read the record and the head, and the
 *     batches above the number that durkenzo_server_batch_count writes. Call durkenzo_server_append, and give the
 *     waiting requests again. It returns MISSING if a batch is gone because a base stands for it: go on from 1.
 *  5. If the watch shows a record, call durkenzo_server_record, and give the waiting requests again. If a transaction
 *     was under way, append as in 4.
 *  6. From time to time call durkenzo_server_base. If it begins a base, put each of its parts, which
 *     durkenzo_server_part writes, at its place below the base's number, by transactions that compare nothing. When all
 *     parts are made, call durkenzo_server_parts_made; the next transaction names the base. Then you may delete each
 *     batch and each part for which durkenzo_server_is_behind says true, by transactions that compare nothing. If the
 *     server loses a transaction, it has forgotten the base: begin another. */
#ifndef DURKENZO_STORE_H
#define DURKENZO_STORE_H

#include <stdbool.h>
#include <stddef.h>
#include <stdint.h>

#ifdef __cplusplus
extern "C" {
#endif

/* The version of this header and of the library beside it. */
#define DURKENZO_STORE_VERSION "0.1.0"

enum durkenzo_store_code {
    /* By tools/library-codes, the codes of library/codes.txt: */
    DURKENZO_STORE_OK = 0,                 /* the call was made */
    DURKENZO_STORE_WRONG_HANDLE = 1,       /* the handle keeps no server */
    DURKENZO_STORE_BAD_ARGUMENT = 2,       /* a server is out of range */
    DURKENZO_STORE_NO_MEMORY = 3,          /* out of memory */
    DURKENZO_STORE_UNKNOWN_SHARD = 10,     /* there is no such shard */
    DURKENZO_STORE_TOO_SHORT = 55,         /* what would be written is longer than the room for it */
    DURKENZO_STORE_NO_MORE = 56,           /* there is no such answer or part */
    DURKENZO_STORE_WAITS = 70,             /* the request waits for the next transaction, or is in one */
    DURKENZO_STORE_PASSED = 71,            /* a later request of its client was made, so this one won't be made */
    DURKENZO_STORE_FORWARDS = 72,          /* another server executes the request */
    /* it isn't executed here now, or its client waits with another number, or will be forgotten */
    DURKENZO_STORE_REFUSED = 73,
    DURKENZO_STORE_REQUEST_TOO_LARGE = 74, /* the request takes more bytes than a batch may have */
    DURKENZO_STORE_CROWDED = 75,           /* as many requests wait as allowed */
    DURKENZO_STORE_TOO_FAR = 76,           /* another server executes the request, but it may not be forwarded again */
    /* the server has forgotten its client, so the request won't be made any more */
    DURKENZO_STORE_FORGOTTEN = 77,
    DURKENZO_STORE_TOO_MANY_CLIENTS = 78,  /* as many clients are kept as allowed, and its client isn't among them */
    DURKENZO_STORE_NOT_READ = 79,          /* the server hasn't read the shard */
    DURKENZO_STORE_UNREAD = 80,            /* the server has read nothing yet */
    DURKENZO_STORE_BAD_BYTES = 81,         /* what lies at a key is wrong */
    DURKENZO_STORE_BAD_LOG = 82,           /* the log can't be followed */
    DURKENZO_STORE_MISSING = 83,           /* a batch, or a part of the base, is missing: the log must be read again */
    DURKENZO_STORE_TOO_LARGE = 84          /* a batch or a part has too many bytes */
    /* End of them. */
};

typedef struct {
    bool full;
    void *owned;
} durkenzo_server_handle;

/* Where a request must go on: the server that executes it, and how often it was forwarded by then. */
typedef struct {
    uint16_t server;
    uint8_t hops;
} durkenzo_text_forward;

/* A reply. The kind is 0 if the key has no value, 1 done, 2 a text of `value` bytes, 3 the count with these bits, 5
 * a value of the wrong kind, 6 a count that would be too large, 7 a text that would be too long, and 8 if the bytes
 * are no request. */
typedef struct {
    uint64_t value;
    uint8_t kind;
} durkenzo_text_reply;

/* The numbers of a transaction: the revisions of the record and of the head, which it compares, the number of the
 * batch (0 if there is none), and how many bytes it has for the head (0 if the head isn't written) and for the
 * batch. */
typedef struct {
    uint64_t stood;
    uint64_t logged;
    uint64_t number;
    size_t head_length;
    size_t batch_length;
} durkenzo_sent_numbers;

/* The head of a shard's log: the number of batches, how many of them the base stands for (from the first on), and in
 * how many parts the base is stored. Both are 0 if there is no base. */
typedef struct {
    uint64_t batches;
    uint64_t base;
    uint64_t parts;
} durkenzo_log_head;

/* A part of the base that a server writes: how many batches the base stands for, which is its number, in how many
 * parts the base is stored, and how many bytes this part has. */
typedef struct {
    uint64_t number;
    uint64_t count;
    size_t length;
} durkenzo_part_numbers;

/* How many keys a scan found, and how many bytes these keys take with their lengths. */
typedef struct {
    size_t count;
    size_t length;
} durkenzo_key_numbers;

/* The greatest length of a part of a base. */
#define DURKENZO_STORE_PART_BYTES 696337

/* An answer: the client of the request, its number, its reply, and the length of its text if it is a read of a text. */
typedef struct {
    uint64_t client;
    uint64_t number;
    uint64_t value;
    size_t length;
    uint8_t kind;
} durkenzo_text_answer;

/* Makes server `me` of the shard, which is one of `count` shards. The server has read nothing yet. A batch takes at
 * most `batch_bytes` bytes of requests, and at most `batch_requests` requests. At most `waiting` requests wait, and
 * as many reads. The server keeps the last request of `clients` clients. Errors: BAD_ARGUMENT, UNKNOWN_SHARD and
 * NO_MEMORY. */
uint32_t durkenzo_server(durkenzo_server_handle *server, uint16_t me, uint16_t shard, uint64_t count,
                         uint64_t batch_bytes, size_t batch_requests, size_t waiting, size_t clients);

/* Writes the contents of a log's head: you must read parts 0 to `parts` - 1 of base number `base`, and batches
 * `base` + 1 to `batches`. BAD_BYTES if the bytes aren't those of a head. */
uint32_t durkenzo_log_head_of(const uint8_t *bytes, size_t length, durkenzo_log_head *head);

/* Adds the next part that was read of the base, in the order of their places. Must come before durkenzo_server_read.
 * Errors: WRONG_HANDLE, NO_MEMORY and BAD_BYTES. */
uint32_t durkenzo_server_part_read(durkenzo_server_handle *server, const uint8_t *bytes, size_t length);

/* Adds the next batch that was read, in the order of their numbers. Must come before durkenzo_server_read or
 * durkenzo_server_append. Errors: WRONG_HANDLE, NO_MEMORY and BAD_BYTES. */
uint32_t durkenzo_server_batch(durkenzo_server_handle *server, const uint8_t *bytes, size_t length);

/* Tells the server that the shard was read: its record at revision `stood`, the head of its log at revision
 * `logged`, and the parts of its base and the batches, which were added and are dropped now, also if the call is
 * refused. After BAD_BYTES the server knows what it knew, and after MISSING or BAD_LOG it has read nothing. NO_MEMORY
 * leaves one of the two. */
uint32_t durkenzo_server_read(durkenzo_server_handle *server, const uint8_t *record, size_t record_length,
                              uint64_t stood, const uint8_t *head, size_t head_length, uint64_t logged);

/* Writes how many batches the server has made: 0 before it has read. Read the batches above this number for
 * durkenzo_server_append. */
uint32_t durkenzo_server_batch_count(durkenzo_server_handle *server, uint64_t *batches);

/* Tells the server that the shard was read on from the server's place: its record at revision `stood`, the head of
 * its log at revision `logged`, and the batches above those that the server has made, which were added and are
 * dropped now. Requests that were sent or wait here must be given again. MISSING: not all of the batches were given,
 * or the server has read nothing. If it is refused, the batches are dropped, and the server is as it is when
 * durkenzo_server_read is refused for the same code. */
uint32_t durkenzo_server_append(durkenzo_server_handle *server, const uint8_t *record, size_t record_length,
                                uint64_t stood, const uint8_t *head, size_t head_length, uint64_t logged);

/* Tells the server that only the record was read, or seen by a watch. Requests that wait here must be given again.
 * Errors: WRONG_HANDLE, NO_MEMORY and BAD_BYTES. */
uint32_t durkenzo_server_record(durkenzo_server_handle *server, const uint8_t *record, size_t length, uint64_t stood);

/* Takes a request, which came directly (`from` 0) or from the server `from`, and was forwarded `hops` times. When it
 * is executed, clients below `forgets` are forgotten; 0 forgets none. The request is its kind (1 get, 2 put, 3
 * append, 4 inc, 5 del), the length of its key, 1 to 255, the key, and then the text, or the amount in 8 bytes, the
 * highest first. The same client and number must always come with the same request. Returns 0 if the request is
 * executed, and writes its reply. Else 70 to 79 tell the decision, and the server goes on. Errors: WRONG_HANDLE,
 * BAD_ARGUMENT and NO_MEMORY, which mean that nothing was decided. */
uint32_t durkenzo_server_take(durkenzo_server_handle *server, uint64_t client, uint64_t number, uint16_t from,
                              uint8_t hops, uint64_t forgets, const uint8_t *request, size_t length,
                              durkenzo_text_reply *reply, durkenzo_text_forward *forward);

/* Allows waiting requests to be sent if nothing is under way. Writes whether there is something to send now. Errors:
 * WRONG_HANDLE and NO_MEMORY. */
uint32_t durkenzo_server_flush(durkenzo_server_handle *server, bool *sends);

/* Writes the transaction to send: the bytes for the head, followed by those for the batch. Errors: WRONG_HANDLE,
 * NO_MEMORY, TOO_SHORT, TOO_LARGE, and UNREAD if the server has read nothing. */
uint32_t durkenzo_server_sending(durkenzo_server_handle *server, durkenzo_sent_numbers *sent, uint8_t *into,
                                 size_t room);

/* Tells the server that its transaction was made at this revision, or, if it only compares, that its compares have
 * held. Writes how many answers to executed requests, and how many answers to reads, you must send. If it is refused,
 * the server has read nothing; the log has what was made. */
uint32_t durkenzo_server_made(durkenzo_server_handle *server, uint64_t revision, size_t *made, size_t *read);

/* Writes the answer at this place to an executed request. NO_MORE if there are no more. */
uint32_t durkenzo_server_answer(durkenzo_server_handle *server, size_t at, durkenzo_text_answer *answer);

/* Writes the answer at this place to a read, with its text. NO_MORE if there are no more, or the request was no read.
 * TOO_SHORT if the text has more bytes than the room. */
uint32_t durkenzo_server_text(durkenzo_server_handle *server, size_t at, durkenzo_text_answer *answer, uint8_t *into,
                              size_t room);

/* Tells the server that a compare of its transaction failed, or that the outcome isn't known. The server returns
 * NOT_READ until it has read or appended. Only WRONG_HANDLE refuses it. */
uint32_t durkenzo_server_lost(durkenzo_server_handle *server);

/* Begins a base of everything that is made, if no other base is under way and there are batches that the last base
 * doesn't stand for. Writes whether its parts must be written now. Errors: WRONG_HANDLE and NO_MEMORY. */
uint32_t durkenzo_server_base(durkenzo_server_handle *server, bool *begins);

/* Writes the bytes for the key of this part of the base. NO_MORE if the base has no such part. Other errors:
 * WRONG_HANDLE, NO_MEMORY, TOO_SHORT and TOO_LARGE. */
uint32_t durkenzo_server_part(durkenzo_server_handle *server, size_t place, durkenzo_part_numbers *part, uint8_t *into,
                              size_t room);

/* Tells the server that each part of the base was put, so that the next transaction names the base. Only WRONG_HANDLE
 * refuses it. */
uint32_t durkenzo_server_parts_made(durkenzo_server_handle *server);

/* Writes whether a batch, or a part of a base if `is_part`, of this number is behind the base that the head names,
 * so that you should delete it. The place of a batch is 0. Only WRONG_HANDLE refuses it. */
uint32_t durkenzo_server_is_behind(durkenzo_server_handle *server, bool is_part, uint64_t number, uint64_t place,
                                   bool *behind);

/* Writes of how many clients the server keeps the last request: 0 before it has read. */
uint32_t durkenzo_server_clients(durkenzo_server_handle *server, size_t *clients);

/* Writes how many keys have a value after all executed requests: 0 before the server has read, and 2^64 - 1 if there
 * are more. */
uint32_t durkenzo_server_keys(durkenzo_server_handle *server, uint64_t *keys);

/* Writes the first keys that have a value then, at least `low` and below `high`, at most `most` of them, in their
 * order. Each key follows its length in 8 bytes, the highest first. Every key is below 256 bytes of 255. TOO_SHORT
 * if the keys have more bytes than the room. */
uint32_t durkenzo_server_scan(durkenzo_server_handle *server, const uint8_t *low, size_t low_length,
                              const uint8_t *high, size_t high_length, size_t most, durkenzo_key_numbers *numbers,
                              uint8_t *into, size_t room);

/* Closes the server that the handle keeps. */
void durkenzo_server_close(durkenzo_server_handle *server);

#ifdef __cplusplus
}
#endif

#endif
