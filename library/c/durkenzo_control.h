/* The proved control over a store that machines share. It decides which changes of shards and steps of restarts it
 * sends, and the next step. It has no input or output of its own: the caller is elected, reads the store, sends
 * the transactions, and tells the control their outcomes. A program may link it together with the calls of
 * durkenzo.h and durkenzo_store.h.
 *
 * Every call returns 0 or a code. If a call is refused, the handle doesn't change, unless the call says otherwise. A
 * handle must begin as bytes of 0, must not be copied, may pass from thread to thread, and must be used by one call
 * at a time. Pointers are borrowed while the call runs, and must not be null. The memory behind a call's pointers
 * must not overlap, unless both are const.
 *
 * The keys of the store; numbers have 8 bytes, the highest first:
 *  - the leader's key, under a lease: 0x01 and the number of the process that is elected;
 *  - the key of commands: 0x01 and the number of the process that sent the latest command;
 *  - the settings' key: the line of the settings in force;
 *  - a record for each shard, of 17 bytes, and a state for each server, of 25 bytes, which these calls read and write;
 *    a state of 17 bytes, of version 1, is read too.
 *
 * The loop of a driver:
 *  1. Be elected: put the leader's key. Its revision is `elected`. If the settings' key is empty, put the first line
 *     there, and compare that the key is still empty. Read that line, and make the director from it: durkenzo_director.
 *     Whoever is elected again, or isn't sure, begins here.
 *  2. At one revision of the store, read the key of commands, whose revision is `placed`, the settings' key, the record
 *     of each shard and the state of each server. If the settings' line isn't the director's, make the director again
 *     from this line, and read all again, because its servers may differ. Give the records to durkenzo_director_record,
 *     in the order of the shards, and the states to durkenzo_director_state, in the order of durkenzo_director_server.
 *     Then call durkenzo_director_read.
 *  3. Read, no earlier than that, which servers' keys are there, and up to which revisions they say that they have read
 *     the store: durkenzo_director_follower. Do this again, after durkenzo_director_forget_followers, whenever one of
 *     those keys changes, and after each command that was made.
 *  4. Ask durkenzo_director_fallen and the calls durkenzo_director_next_of_.. for the next step, or take a command that
 *     somebody asks for. Give it to durkenzo_director_command.
 *  5. If it must be sent, durkenzo_director_sending writes the transaction: compare the revisions of the leader's key
 *     and of the key of commands; if a server `absent` is named, compare also that its key isn't there; put both keys.
 *  6. If the transaction was made, call durkenzo_director_made with the store's revision, and go on from 3. If a
 *     compare failed, or the outcome isn't known, call durkenzo_director_lost, and go on from 2, or from 1 if another
 *     process leads.
 * Other settings replace those in force by durkenzo_director_resettle. */
#ifndef DURKENZO_CONTROL_H
#define DURKENZO_CONTROL_H

#include <stdbool.h>
#include <stddef.h>
#include <stdint.h>

#ifdef __cplusplus
extern "C" {
#endif

/* The version of this header and of the library beside it. */
#define DURKENZO_CONTROL_VERSION "0.1.0"

/* The codes that calls return. durkenzo_director also returns 70 to 82, the first fault of the line of settings, as
 * durkenzo_open_settings does: durkenzo_settings_code of durkenzo.h names them. */
enum durkenzo_director_code {
    /* By tools/library-codes, the codes of library/codes.txt: */
    DURKENZO_DIRECTOR_OK = 0,               /* the call was made */
    DURKENZO_DIRECTOR_WRONG_HANDLE = 1,     /* the handle keeps no control of a store */
    /* a kind, a shard or a server is out of range, or the revision of the election is 0 */
    DURKENZO_DIRECTOR_BAD_ARGUMENT = 2,
    DURKENZO_DIRECTOR_NO_MEMORY = 3,        /* out of memory */
    DURKENZO_DIRECTOR_UNKNOWN_SHARD = 10,   /* there is no such shard */
    DURKENZO_DIRECTOR_WRONG_PHASE = 11,     /* the change doesn't begin from the shard's stand */
    DURKENZO_DIRECTOR_SAME_SERVER = 12,     /* the server owns the shard */
    DURKENZO_DIRECTOR_CHANGE_SPENT = 13,    /* the shard's generations are spent */
    DURKENZO_DIRECTOR_BUSY = 14,            /* the record has an admission, or has changed: it must be read again */
    DURKENZO_DIRECTOR_UNKNOWN_SERVER = 30,  /* there is no such server */
    DURKENZO_DIRECTOR_LEAVING = 31,         /* the server is leaving */
    DURKENZO_DIRECTOR_NO_CAPACITY = 32,     /* the server has no room */
    /* the server's domain has as many shards of the group as its limit allows */
    DURKENZO_DIRECTOR_DOMAIN_LIMIT = 33,
    DURKENZO_DIRECTOR_NOT_UP = 40,          /* the server isn't up */
    DURKENZO_DIRECTOR_NOT_ASKED = 41,       /* no restart of the server is asked for */
    DURKENZO_DIRECTOR_GLOBAL_CAP = 42,      /* too many servers would be leaving */
    DURKENZO_DIRECTOR_SHARD_CAP = 43,       /* a shard may not be down */
    DURKENZO_DIRECTOR_GROUP_CAP = 44,       /* too many shards of a group would be down */
    DURKENZO_DIRECTOR_DOMAIN_CAP = 45,      /* too many servers of a domain would be down */
    DURKENZO_DIRECTOR_NOT_APPROVED = 46,    /* the server's restart isn't approved */
    DURKENZO_DIRECTOR_STILL_SERVING = 47,   /* a shard that names the server isn't paused */
    DURKENZO_DIRECTOR_ALREADY_UP = 48,      /* the server is up already */
    DURKENZO_DIRECTOR_ALREADY_FAILED = 49,  /* the server has failed already */
    DURKENZO_DIRECTOR_TOO_SHORT = 55,       /* what would be written is longer than the room for it */
    DURKENZO_DIRECTOR_NO_MORE = 56,         /* there is no such server */
    DURKENZO_DIRECTOR_UNREAD = 90,          /* nothing was read yet, or all is to be read again */
    DURKENZO_DIRECTOR_UNDER_WAY = 91,       /* a command was sent, and its outcome isn't known yet */
    DURKENZO_DIRECTOR_NOT_SENT = 92,        /* no command was sent */
    DURKENZO_DIRECTOR_BAD_BYTES = 93,       /* what lies at a key is wrong */
    DURKENZO_DIRECTOR_UNREACHED = 94,       /* no commands lead to the records and states that were read */
    /* the records or states, or their number, differ from those that commands lead to */
    DURKENZO_DIRECTOR_DIFFERENT = 95,
    DURKENZO_DIRECTOR_NOT_FOLLOWED = 96,    /* a follower hasn't read that the shard is taken */
    DURKENZO_DIRECTOR_NOT_ACKED = 97,       /* a server that the command waits for hasn't acked the shard's record */
    DURKENZO_DIRECTOR_EARLIER_PROCESS = 98, /* the server's process is the one that was stopped, or isn't known */
    DURKENZO_DIRECTOR_READ_APART = 99,      /* the two directors didn't read the same records and states */
    DURKENZO_DIRECTOR_OTHER_SHARDS = 100,   /* the new settings have other shards */
    DURKENZO_DIRECTOR_OTHER_CEILING = 101,  /* the new settings have another ceiling */
    /* a server without a row in the new settings has neither stopped nor failed */
    DURKENZO_DIRECTOR_IN_USE = 102
    /* End of them. */
};

typedef struct {
    bool full;
    void *owned;
} durkenzo_director_handle;

/* The kinds of commands, and of steps. The first nine are changes of a shard, with the numbers that DURKENZO_ASSIGN
 * and the others have in durkenzo.h. ASSIGN, PREPARE_ADD_SHARD and REASSIGN name a server too. The five after them
 * are steps of a server's restart, and name the server. A shard or a server that isn't named must be 0. */
enum durkenzo_command_kind {
    /* By tools/library-codes, the commands of library/codes.txt: */
    DURKENZO_COMMAND_NOTHING = 0, /* of a step: nothing is under way */
    DURKENZO_COMMAND_ASSIGN = 1,
    DURKENZO_COMMAND_PREPARE_ADD_SHARD = 2,
    DURKENZO_COMMAND_PREPARE_DROP_SHARD = 3,
    DURKENZO_COMMAND_ADD_SHARD = 4,
    DURKENZO_COMMAND_DROP_SHARD = 5,
    DURKENZO_COMMAND_CANCEL = 6,
    DURKENZO_COMMAND_PAUSE = 7,
    DURKENZO_COMMAND_RESUME = 8,
    DURKENZO_COMMAND_REASSIGN = 9,
    DURKENZO_COMMAND_ASK = 10,
    DURKENZO_COMMAND_APPROVE = 11,
    DURKENZO_COMMAND_STOPPED = 12,
    DURKENZO_COMMAND_BACK = 13,
    DURKENZO_COMMAND_FAIL = 14,
    DURKENZO_COMMAND_WAITS = 15 /* of a step: it goes on once others have read further, or the command is allowed */
    /* End of them. */
};

/* The next step: a command, which may be given as it is, or one of NOTHING and WAITS. */
typedef struct {
    uint16_t shard;
    uint16_t server;
    uint8_t kind;
} durkenzo_step;

/* The numbers of a transaction: the revisions of the leader's key and of the key of commands, which it compares, and
 * the server whose key must not be there (0 if there is none), because the transaction says that this server failed.
 * `is_state` says whether it puts a server's state or a shard's record, `number` is that server or shard, and the
 * lengths are those of the bytes for this key and for the key of commands. */
typedef struct {
    uint64_t elected;
    uint64_t placed;
    size_t length;
    size_t commands_length;
    uint16_t number;
    uint16_t absent;
    bool is_state;
} durkenzo_command_numbers;

/* Makes the control of the store that this line of settings describes (docs/SETTINGS.md, without its line feed), for
 * this process. No other process may have its number, and it was elected at this revision. The control has read
 * nothing yet. Writes how many shards and servers there are. `waits` says whether commands wait for acks: they must,
 * unless all servers of the store belong to this process. The handle keeps the control, and drops its earlier
 * contents. Errors: BAD_ARGUMENT if the revision is 0, NO_MEMORY, and 70 to 82. */
uint32_t durkenzo_director(durkenzo_director_handle *director, const uint8_t *line, size_t length, uint64_t process,
                           uint64_t elected, bool waits, size_t *shards, size_t *servers);

/* Writes the server at this place in the rows of the settings, from 0. Errors: WRONG_HANDLE, NO_MORE past the last. */
uint32_t durkenzo_director_server(durkenzo_director_handle *director, size_t at, uint16_t *server);

/* Writes the shard of a key, by the layout of the settings. Any bytes are a key. Error: WRONG_HANDLE. */
uint32_t durkenzo_director_shard_of(durkenzo_director_handle *director, const uint8_t *key, size_t length,
                                    uint16_t *shard);

/* Adds the next shard's record, with the bytes at its key, which was last written at this revision. If it was never
 * written, give 0x01 and 16 bytes of 0, at revision 0. Errors: WRONG_HANDLE, NO_MEMORY, BAD_BYTES. */
uint32_t durkenzo_director_record(durkenzo_director_handle *director, const uint8_t *bytes, size_t length,
                                  uint64_t stood);

/* Adds the next server's state, with the bytes at its key. If it was never written, give 0x01 and 16 bytes of 0,
 * which is Up. Errors: WRONG_HANDLE, NO_MEMORY, BAD_BYTES. */
uint32_t durkenzo_director_state(durkenzo_director_handle *director, const uint8_t *bytes, size_t length);

/* Ends reading. Everything was read at one revision, at which the key of commands was last written at `placed` (0 if
 * it never was). The control drops the bytes that were added, and all that it had read before: it stands, or, if this
 * call is refused, it has read nothing. Errors: WRONG_HANDLE, NO_MEMORY, UNREACHED and DIFFERENT, which mean that
 * others write to the store. */
uint32_t durkenzo_director_read(durkenzo_director_handle *director, uint64_t placed);

/* Judges the command of this kind, for the shard and the server that it names. `process` is the process that runs
 * this server, or 0 if none was seen. Returns 0 if the command must be sent; then no other command is sent until its
 * outcome is told. Otherwise returns the first fault that applies. Errors: WRONG_HANDLE, BAD_ARGUMENT (also if a
 * shard or a server that isn't named isn't 0), UNREAD, UNDER_WAY, NOT_FOLLOWED for DROP_SHARD, NOT_ACKED for a
 * command that waits for a server, the faults 10 to 14 and 30 to 49, and EARLIER_PROCESS: if STOPPED has no process
 * to name, or BACK is of the process that was stopped. */
uint32_t durkenzo_director_command(durkenzo_director_handle *director, uint8_t kind, uint16_t shard, uint16_t server,
                                   uint64_t process);

/* Writes the transaction to send: the bytes for the record or the state, followed by those for the key of commands.
 * 34 bytes are always enough. You may call this more than once. Errors: WRONG_HANDLE, NOT_SENT, NO_MEMORY,
 * TOO_SHORT, and BAD_BYTES, because no contract excludes it. */
uint32_t durkenzo_director_sending(durkenzo_director_handle *director, durkenzo_command_numbers *sent, uint8_t *into,
                                   size_t room);

/* Tells the control that its transaction was made, at this revision. Errors: WRONG_HANDLE, NOT_SENT. */
uint32_t durkenzo_director_made(durkenzo_director_handle *director, uint64_t revision);

/* Tells the control that a compare of its transaction failed, or that the outcome isn't known, or that something
 * must be read again. The control has then read nothing. Its followers stay. Error: WRONG_HANDLE. */
uint32_t durkenzo_director_lost(durkenzo_director_handle *director);

/* Judges the settings of the other director. It must be of the same process, made from the new line of settings, and
 * must have read the same records and states. Because the other director stands, the records and states keep to its
 * settings. If these settings may replace this director's, returns 0 and writes the numbers of the transaction:
 * compare as for a command, put at the settings' key exactly the line from which `other` was made, and put the
 * bytes, which are 9, at the key of commands; `length`, `number` and `absent` are 0. Whatever the outcome, read the
 * settings again and make a director from them: go on from 2, or from 1 if another process leads. Neither director
 * changes. Errors: WRONG_HANDLE, UNREAD, UNDER_WAY, NO_MEMORY, TOO_SHORT, READ_APART, OTHER_SHARDS, OTHER_CEILING,
 * and IN_USE with the server, which is 0 for the other errors of settings. */
uint32_t durkenzo_director_resettle(durkenzo_director_handle *director, durkenzo_director_handle *other,
                                    uint16_t *in_use, durkenzo_command_numbers *sent, uint8_t *into, size_t room);

/* Adds a server whose key is there, and the revision up to which it says that it has read the store. Errors:
 * WRONG_HANDLE, BAD_ARGUMENT, NO_MEMORY. */
uint32_t durkenzo_director_follower(durkenzo_director_handle *director, uint16_t server, uint64_t revision);

/* Forgets all followers. Error: WRONG_HANDLE. */
uint32_t durkenzo_director_forget_followers(durkenzo_director_handle *director);

/* Adds the generation up to which a server was read to have acked a shard's records: it executes no more by any of
 * them, or is prepared for the latest. Of each shard and server only the first ack counts, until all are forgotten.
 * Errors: WRONG_HANDLE, BAD_ARGUMENT, NO_MEMORY. */
uint32_t durkenzo_director_ack(durkenzo_director_handle *director, uint16_t shard, uint16_t server,
                               uint64_t generation);

/* Forgets all acks. Error: WRONG_HANDLE. */
uint32_t durkenzo_director_forget_acks(durkenzo_director_handle *director);

/* Writes the next step of a shard. Its migration takes the next step when its next owner has acked that it is
 * prepared, and the one after when its owner has acked that it let go. It ends when each follower has read that the
 * shard is taken. If the next owner is leaving, the migration is given up before it forwards; if the next owner has
 * failed, before the shard is taken. If a failed server owns a shard, the shard is paused, and goes to another
 * server. A command that this call names isn't refused. Errors: WRONG_HANDLE, UNKNOWN_SHARD, UNREAD, UNDER_WAY, and
 * BAD_BYTES, because no contract excludes it. */
uint32_t durkenzo_director_next_of_shard(durkenzo_director_handle *director, uint16_t shard, durkenzo_step *step);

/* Writes the next step of a server's restart. If the restart was asked for, it is approved as soon as the caps allow
 * it. If it was approved, the server stops as soon as it serves no shard and has acked the shards that are paused
 * for it. Errors: WRONG_HANDLE, BAD_ARGUMENT, UNREAD, UNDER_WAY. */
uint32_t durkenzo_director_next_of_server(durkenzo_director_handle *director, uint16_t server, durkenzo_step *step);

/* Writes the next step of a server's drain, or of placing the vacant shards if the server is 0: the first move of
 * the plan begins. If a server's plan has no move and its restart was approved, the first shard that fits nowhere is
 * paused. Errors: WRONG_HANDLE, BAD_ARGUMENT, NO_MEMORY, UNREAD, UNDER_WAY. */
uint32_t durkenzo_director_next_of_drain(durkenzo_director_handle *director, uint16_t server, durkenzo_step *step);

/* Writes the first server that gets requests but isn't among the followers, or 0. FAIL says that it failed. Errors:
 * WRONG_HANDLE, UNREAD, UNDER_WAY. */
uint32_t durkenzo_director_fallen(durkenzo_director_handle *director, uint16_t *server);

/* Writes the word of the shard's record (durkenzo_unpack of durkenzo.h writes its parts), and the revision at which
 * it was last written, or 0 if it never was. Errors: WRONG_HANDLE, UNKNOWN_SHARD, UNREAD, UNDER_WAY. */
uint32_t durkenzo_director_record_of(durkenzo_director_handle *director, uint16_t shard, uint64_t *word,
                                     uint64_t *stood);

/* Writes the server's state: 0 Up, 1 Asked, 2 Approved, 3 Stopped, 4 Failed; and the process that it is about, or 0
 * if there is none. Errors: WRONG_HANDLE, BAD_ARGUMENT, UNKNOWN_SERVER, UNREAD, UNDER_WAY. */
uint32_t durkenzo_director_state_of(durkenzo_director_handle *director, uint16_t server, uint8_t *state,
                                    uint64_t *process);

/* Closes the control that the handle keeps. */
void durkenzo_director_close(durkenzo_director_handle *director);

#ifdef __cplusplus
}
#endif

#endif
