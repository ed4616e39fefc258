/* Permits: whether a process may execute a shard's requests, by its knowledge of the shard and of its lease. The
 * caller keeps this knowledge as a value, reads the store and the clock, and tells the calls what it learned.
 * Nothing here keeps memory, or has input or output. A program may link it together with the calls of durkenzo.h,
 * durkenzo_store.h and durkenzo_control.h.
 *
 * Every call returns 0 or a code, and changes nothing if it returns a code. Pointers are borrowed while the call
 * runs, must not be null, and must not overlap.
 *
 * At most one process may execute for a shard at a moment, if no lease ends early, no clock is slower than the terms
 * say, each change that gives a shard to another server waits for the process that may still execute, and everything
 * that the calls are told is true. `until` must be the time, by the process's clock, before it asked for the grant or
 * the keep-alive that was answered, plus the ticks that the terms allow. The clock must go on while the machine sleeps.
 */
#ifndef DURKENZO_PERMIT_H
#define DURKENZO_PERMIT_H

#include <stdbool.h>
#include <stdint.h>

#ifdef __cplusplus
extern "C" {
#endif

/* The version of this header and of the library beside it. */
#define DURKENZO_PERMIT_VERSION "0.1.0"

enum durkenzo_permit_code {
    /* By tools/library-codes, the codes of library/codes.txt: */
    DURKENZO_PERMIT_OK = 0,           /* the call was made */
    DURKENZO_PERMIT_BAD_ARGUMENT = 2, /* a server is out of range */
    DURKENZO_PERMIT_BAD_WORD = 4      /* no record has the word */
    /* End of them. */
};

/* The state of a shard as a process read it, all at one revision of the store: a revision that the store had reached
 * by then, the word of the shard's record, the revision at which the process of the record's owner put that server's
 * key there (0 if there is none), whether the process's own server has failed, and whether the record's owner has. */
typedef struct {
    uint64_t revision;
    uint64_t word;
    uint64_t owner_joined;
    bool failed;
    bool owner_failed;
} durkenzo_permit_reading;

/* The knowledge of a server's process about a shard. Only the calls below may write it. */
typedef struct {
    uint64_t joined;
    uint64_t until;
    uint64_t let_go;
    durkenzo_permit_reading reading;
    uint16_t server;
    bool freed;
} durkenzo_permit_view;

/* The contents of handed-over bytes: the process that let go, by the revision of its server's key, its server, and
 * the generation up to which it has let go. */
typedef struct {
    uint64_t joined;
    uint64_t generation;
    uint16_t server;
} durkenzo_permit_hand_over;

/* Writes the view of a process that put its server's key at this revision. It executes nothing until it has read the
 * shard. Errors: BAD_ARGUMENT. */
uint32_t durkenzo_permit_new(uint16_t server, uint64_t joined, uint64_t until, durkenzo_permit_view *view);

/* Writes whether the process may execute a request at this time of its clock. The request came directly (`from` 0)
 * or from the server `from`. Errors: BAD_ARGUMENT, BAD_WORD. */
uint32_t durkenzo_permit_may_execute(const durkenzo_permit_view *view, uint16_t from, uint64_t time, bool *may);

/* Writes whether the process may ack its record. It may if its server does not execute by this record. Errors: as
 * above. */
uint32_t durkenzo_permit_may_ack(const durkenzo_permit_view *view, bool *may);

/* Tells the view that a keep-alive of the lease was answered. Errors: as above. */
uint32_t durkenzo_permit_kept(durkenzo_permit_view *view, uint64_t until);

/* Tells the view that the process has read the shard. Errors: as above. */
uint32_t durkenzo_permit_read(durkenzo_permit_view *view, const durkenzo_permit_reading *reading);

/* Tells the view that the process has read that the server acked up to this generation. Errors: as above. */
uint32_t durkenzo_permit_acked(durkenzo_permit_view *view, uint16_t server, uint64_t generation);

/* Tells the view that the process has received these handed-over bytes. Errors: as above. */
uint32_t durkenzo_permit_handed(durkenzo_permit_view *view, const durkenzo_permit_hand_over *hand);

/* Tells the view that the process lets go of its record, by an ack or by handing over. It executes no more by this
 * record. Errors: as above. */
uint32_t durkenzo_permit_let_go(durkenzo_permit_view *view);

#ifdef __cplusplus
}
#endif

#endif
