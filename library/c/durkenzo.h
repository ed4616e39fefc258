/* Shards that move between servers, each with at most one writer at a time. Proved code decides who the writer is.
 *
 * A board has 1 to 4,096 shards, numbered from 0. For each shard you give it a number that stands for a body of
 * yours. A pass acts as one server, from 1 to 4,095. The pass is admitted to a shard if its server executes the
 * shard's requests and nobody else is admitted. It then gets the shard's number. The numbers must differ, which is
 * up to you: then nobody else gets this number until the admission ends. Only the control changes who owns a shard.
 *
 * Each call returns DURKENZO_OK, or why it was refused. Unless a call says otherwise, a refused call writes nothing
 * and leaves each handle as it was; only a pass may have looked at its shard.
 *
 * A handle is yours. It must begin as DURKENZO_HANDLE_INIT, must not be copied, may pass from thread to thread, and
 * must be used by one call at a time. So if threads share a control, put a lock of yours around it. The contents of
 * a handle belong to the library until durkenzo_close. Pointers are borrowed while the call runs, and must not be
 * null. The memory behind a call's pointers must not overlap, unless both are const: never pass the same handle
 * twice. */
#ifndef DURKENZO_H
#define DURKENZO_H

#include <stdbool.h>
#include <stddef.h>
#include <stdint.h>

#ifdef __cplusplus
extern "C" {
#endif

/* The version of this header and of the library beside it. */
#define DURKENZO_VERSION "0.1.0"

/* The state between two calls: nothing, a control, a pass, a pass with an admission, a layout, a plan, a publisher
 * or a router of routes, or a value of the sample service: a map, a reply, an envelope or an answer. */
typedef struct durkenzo_handle {
    bool full;
    void *owned;
} durkenzo_handle;

#define DURKENZO_HANDLE_INIT {0}

/* By tools/library-codes, the limits of library/codes.txt: */

/* The greatest ceiling of a board's generations. */
#define DURKENZO_MAX_GENERATION UINT64_C(68719476735)

/* How many times a request is forwarded at most. */
#define DURKENZO_MOST_HOPS 4
/* End of them. */

/* No record has this word. */
#define DURKENZO_NO_WORD UINT64_MAX

/* How far the migration of a shard has come. */
enum durkenzo_phase {
    /* By tools/library-codes, the phases of library/codes.txt: */
    DURKENZO_VACANT = 0,     /* nobody owns the shard yet */
    DURKENZO_SERVING = 1,    /* the owner executes requests */
    DURKENZO_PREPARED = 2,   /* the owner executes; `other` is the next owner */
    DURKENZO_FORWARDING = 3, /* `other` is the next owner, and executes the requests that the owner forwards */
    DURKENZO_TAKEN = 4,      /* the owner executes; `other` is the previous owner, and forwards */
    DURKENZO_PAUSED = 5      /* nobody executes */
    /* End of them. */
};

/* A shard's record. A server that the stand doesn't have is 0. */
typedef struct durkenzo_record {
    uint64_t generation; /* how many steps the shard's history has */
    uint16_t owner;
    uint16_t other;
    uint8_t phase;
    bool admitted; /* whether a pass is admitted now */
} durkenzo_record;

/* The codes that calls return. */
enum durkenzo_code {
    /* By tools/library-codes, the codes of library/codes.txt: */
    DURKENZO_OK = 0,               /* the call was made */
    DURKENZO_WRONG_HANDLE = 1,     /* the handle keeps nothing that the call is for */
    DURKENZO_BAD_ARGUMENT = 2,     /* a server or a kind is out of range */
    DURKENZO_NO_MEMORY = 3,        /* out of memory */
    DURKENZO_BAD_WORD = 4,         /* no record has the word */
    DURKENZO_BAD_CEILING = 5,      /* the ceiling of generations is 3 to 68,719,476,735 */
    DURKENZO_NO_SHARD = 6,         /* a board, or a map of routes, has at least one shard */
    DURKENZO_TOO_MANY = 7,         /* a board, a layout or a map of routes has at most 4,096 shards */
    DURKENZO_BAD_BOOKS = 8,        /* there are no servers */
    DURKENZO_BAD_COUNT = 9,        /* the number of bodies isn't the number of shards of the settings */
    DURKENZO_UNKNOWN_SHARD = 10,   /* there is no such shard */
    DURKENZO_WRONG_PHASE = 11,     /* the change doesn't begin from the shard's stand */
    DURKENZO_SAME_SERVER = 12,     /* the server owns the shard */
    DURKENZO_CHANGE_SPENT = 13,    /* the shard's generations are spent; `read` is written */
    DURKENZO_BUSY = 14,            /* the shard is admitted; `read` is written */
    DURKENZO_RACED = 15,           /* another thread was first; `read` is written */
    DURKENZO_BAD_AFTER = 16,       /* fencing tokens begin after a number of at most 9,223,371,968,135,299,072 */
    DURKENZO_NOBODY_OWNS = 21,     /* nobody owns the shard; `read` is written */
    DURKENZO_IS_PAUSED = 22,       /* the shard is paused; `read` is written */
    DURKENZO_NOT_EXECUTOR = 23,    /* another server executes the shard's requests; `read` is written */
    DURKENZO_NOT_YET = 24,         /* the server executes only what the owner forwards; `read` is written */
    DURKENZO_ADMITTED = 25,        /* the shard is admitted; `read` is written */
    DURKENZO_SPENT = 26,           /* the shard's generations are spent; `read` is written */
    DURKENZO_NOT_ADMITTED = 27,    /* the word has no admission that can end */
    DURKENZO_UNKNOWN_SERVER = 30,  /* there is no such server */
    DURKENZO_LEAVING = 31,         /* the server is leaving */
    DURKENZO_NO_CAPACITY = 32,     /* the server has no room */
    DURKENZO_DOMAIN_LIMIT = 33,    /* the server's domain has as many shards of the group as its limit allows */
    DURKENZO_NOT_UP = 40,          /* the server isn't up */
    DURKENZO_NOT_ASKED = 41,       /* no restart of the server is asked for */
    DURKENZO_GLOBAL_CAP = 42,      /* too many servers would be leaving */
    DURKENZO_SHARD_CAP = 43,       /* a shard may not be down */
    DURKENZO_GROUP_CAP = 44,       /* too many shards of a group would be down */
    DURKENZO_DOMAIN_CAP = 45,      /* too many servers of a domain would be down */
    DURKENZO_NOT_APPROVED = 46,    /* the server's restart isn't approved */
    DURKENZO_STILL_SERVING = 47,   /* a shard that names the server isn't paused */
    DURKENZO_ALREADY_UP = 48,      /* the server is up already */
    DURKENZO_ALREADY_FAILED = 49,  /* the server has failed already */
    DURKENZO_NO_BOUND = 50,        /* a layout has at least one bound */
    DURKENZO_FIRST_NOT_EMPTY = 51, /* the first bound is not empty */
    DURKENZO_NOT_RISING = 52,      /* a bound is not above the one before it */
    DURKENZO_BOUND_TOO_LONG = 53,  /* a bound has more than 255 bytes */
    DURKENZO_TOO_SHORT = 55,       /* what would be written is longer than the room for it */
    DURKENZO_NO_MORE = 56,         /* the plan has no such line, or the reply no such pair */
    DURKENZO_KEY_EMPTY = 57,       /* a key has at least one byte */
    DURKENZO_KEY_TOO_LONG = 58,    /* a key has at most 255 bytes */
    DURKENZO_FORWARD = 60,         /* the envelope must go on to the server `to` */
    DURKENZO_WRONG_SHARD = 61,     /* the request's key is of another shard */
    DURKENZO_TOO_MANY_HOPS = 62,   /* the request was forwarded too often */
    DURKENZO_KEPT_FULL = 63,       /* the shard keeps as many requests as it may: make a checkpoint */
    DURKENZO_OLD_ROUTE = 64        /* the shard's published route is as new */
    /* End of them. */
};

/* The codes that durkenzo_open_settings and durkenzo_open_bodies return besides: the first rule of docs/SETTINGS.md
 * that the line breaks. */
enum durkenzo_settings_code {
    /* By tools/library-codes, the settings of library/codes.txt: */
    DURKENZO_SETTINGS_TOO_LONG = 70,    /* the line has more than 1,048,576 bytes */
    DURKENZO_SETTINGS_BAD_JSON = 71,    /* the line isn't JSON in UTF-8, nests too deep, or has too large a number */
    DURKENZO_SETTINGS_BAD_VERSION = 72, /* the value isn't an object whose `version` is the number 1 or 2 */
    DURKENZO_SETTINGS_BAD_SHAPE = 73,   /* a member is missing, unknown or of another type */
    DURKENZO_SETTINGS_BAD_LAYOUT = 74,  /* the bounds don't make a layout */
    DURKENZO_SETTINGS_BAD_SERVERS = 75, /* the servers break a rule */
    DURKENZO_SETTINGS_BAD_GROUPS = 76,  /* the groups break a rule */
    DURKENZO_SETTINGS_BAD_SHARDS = 77,  /* the shards break a rule */
    DURKENZO_SETTINGS_BAD_OPS = 78,     /* `ops` isn't 0 to 4,095 */
    DURKENZO_SETTINGS_BAD_KEPT = 79,    /* `kept` isn't 1 to 1,048,576 */
    DURKENZO_SETTINGS_BAD_CEILING = 80, /* `ceiling` isn't 3 to 68,719,476,735 */
    DURKENZO_SETTINGS_BAD_WORKERS = 81, /* `workers` isn't 1 to 8 */
    DURKENZO_SETTINGS_BAD_DOMAINS = 82  /* the domains break a rule */
    /* End of them. */
};

/* Requests to the sample service. Keys have 1 to 255 bytes, texts at most 65,535. */
enum durkenzo_request_kind {
    DURKENZO_GET = 1,
    DURKENZO_PUT = 2,    /* makes the key hold the text `other`, and replaces the text that it held */
    DURKENZO_APPEND = 3, /* appends `other` to the key's text */
    DURKENZO_ADD = 4,    /* adds `amount` to the key's count */
    DURKENZO_REMOVE = 5, /* removes the key's value */
    DURKENZO_SCAN = 6    /* finds `amount` pairs whose keys are at least `key` and below `other`, and at most 100 */
};

/* Replies of the sample service. From WRONG_KIND on, nothing has changed. */
enum durkenzo_reply_kind {
    DURKENZO_NOTHING = 0,    /* the key has no value, or had none to remove */
    DURKENZO_DONE = 1,
    DURKENZO_TEXT = 2,       /* a text of `length` bytes */
    DURKENZO_COUNT = 3,      /* this `count`; after an addition, the sum */
    DURKENZO_PAIRS = 4,      /* `length` pairs, in the order of their keys */
    DURKENZO_WRONG_KIND = 5, /* the key has a count and the request is for a text, or the other way round */
    DURKENZO_OVERFLOW = 6,   /* the sum would have more than 64 bits */
    DURKENZO_TOO_LONG = 7    /* the text would have more than 65,535 bytes */
};

/* A reply, or the value of one of its pairs. */
typedef struct durkenzo_parts {
    int64_t count;
    size_t length;
    uint8_t kind;
} durkenzo_parts;

/* An answer, without its reply. */
typedef struct durkenzo_answer_parts {
    uint64_t number; /* the number of its envelope */
    uint64_t place;  /* how many requests of the shard were executed before it */
    uint16_t server; /* the server that executed it */
} durkenzo_answer_parts;

/* A part of a text, from `start` up to `end`. */
typedef struct durkenzo_part {
    size_t start;
    size_t end;
} durkenzo_part;

/* Changes of a shard's stand. The first two and the last one name a server. */
enum durkenzo_change_kind {
    /* By tools/library-codes, the changes of library/codes.txt: */
    DURKENZO_ASSIGN = 1,             /* gives a vacant shard this owner */
    DURKENZO_PREPARE_ADD_SHARD = 2,  /* begins a migration of the shard to this server */
    DURKENZO_PREPARE_DROP_SHARD = 3, /* makes the owner stop executing, and forward to the next owner */
    DURKENZO_ADD_SHARD = 4,          /* makes the next owner the owner; the previous owner forwards to it */
    DURKENZO_DROP_SHARD = 5,         /* ends the migration: the previous owner drops the shard */
    DURKENZO_CANCEL = 6,             /* gives up a migration, if the next owner isn't the owner yet */
    DURKENZO_PAUSE = 7,              /* pauses the shard: no server executes its requests */
    DURKENZO_RESUME = 8,             /* makes the owner of a paused shard execute again */
    DURKENZO_REASSIGN = 9            /* gives a paused shard this owner */
    /* End of them. */
};

/* Steps of a server's restart. Between APPROVE and STOPPED the server's shards migrate as durkenzo_plan says, and
 * after BACK they migrate home. FAIL changes no shard: until DURKENZO_PAUSE, the server's own passes are still
 * admitted to its shards. After the pause, DURKENZO_REASSIGN gives the shard another owner. */
enum durkenzo_restart_kind {
    /* By tools/library-codes, the restarts of library/codes.txt: */
    DURKENZO_ASK = 1,     /* asks for a restart of the server */
    DURKENZO_APPROVE = 2, /* approves the restart, within the caps */
    DURKENZO_STOPPED = 3, /* notes that the server was stopped, if it serves no shard any more */
    DURKENZO_BACK = 4,    /* notes that the server is up again, or that its restart is given up */
    DURKENZO_FAIL = 5     /* notes that the server failed */
    /* End of them. */
};

/* Opens a board with servers 1 to `servers` (at most 4,095) and a body for each of `count` numbers (1 to 4,096). The
 * numbers must differ. At most `ops` servers restart at once. Generations stay at or below `ceiling`. The handle
 * keeps the board's control, and drops its earlier contents. Errors: BAD_ARGUMENT, NO_MEMORY, BAD_CEILING, NO_SHARD,
 * TOO_MANY, BAD_BOOKS. */
uint32_t durkenzo_open(durkenzo_handle *control, const uint64_t *numbers, size_t count, uint16_t servers, uint16_t ops,
                       uint64_t ceiling);

/* Opens a board like durkenzo_open, but its fencing tokens begin after this number instead of 0: see durkenzo_token.
 * Another error: BAD_AFTER. */
uint32_t durkenzo_open_after(durkenzo_handle *control, const uint64_t *numbers, size_t count, uint16_t servers,
                             uint16_t ops, uint64_t ceiling, uint64_t after);

/* Makes a pass on the board of this control. It acts as this server of the board for as long as it lives. It has no
 * admission and has not acted on the board yet. The pass's handle keeps it, and drops its earlier contents. The board
 * lives until its control and all its passes are closed. Errors: WRONG_HANDLE, BAD_ARGUMENT, UNKNOWN_SERVER,
 * NO_MEMORY. */
uint32_t durkenzo_pass(durkenzo_handle *control, durkenzo_handle *pass, uint16_t server);

/* Writes the shard's record to `record`. This is possible even while the pass has an admission. Errors:
 * WRONG_HANDLE, UNKNOWN_SHARD. */
uint32_t durkenzo_look(durkenzo_handle *pass, uint16_t shard, durkenzo_record *record);

/* Returns the word of the shard's record, for the calls on words. It is the quickest look. Returns DURKENZO_NO_WORD
 * if the handle keeps no pass, or if the board has no such shard. */
uint64_t durkenzo_look_word(durkenzo_handle *pass, uint16_t shard);

/* Admits the pass to the shard, for a request that came directly (`from` 0) or that the server `from` forwarded.
 * Writes the number of the shard's body. If no other shard has that number, nobody else gets it until
 * durkenzo_finish. Errors: WRONG_HANDLE (also if the pass has an admission), BAD_ARGUMENT, UNKNOWN_SHARD, and 21 to
 * 26 or RACED, which write `read`. */
uint32_t durkenzo_admit(durkenzo_handle *pass, uint16_t shard, uint16_t from, uint64_t *number, durkenzo_record *read);

/* Admits the pass like durkenzo_admit. 21 to 26 and RACED write the word of the record that was read to `word`. It
 * is the quickest admission. */
uint32_t durkenzo_admit_word(durkenzo_handle *pass, uint16_t shard, uint16_t from, uint64_t *number, uint64_t *word);

/* Writes the fencing token of the pass's admission. Each later admission to the shard has a greater token. So a
 * store that keeps the greatest token that it saw, and refuses smaller ones, refuses late writes. Each token of a
 * board is greater than the number after which the board's tokens begin, and at most DURKENZO_MAX_GENERATION
 * greater. At each start, raise a number in your store by DURKENZO_MAX_GENERATION in one transaction, and open the
 * board after the old number. Then its tokens are greater than all tokens of earlier boards, even if one of those is
 * still writing. Error: WRONG_HANDLE if the pass has no admission. */
uint32_t durkenzo_token(durkenzo_handle *pass, uint64_t *token);

/* Ends the admission of the pass, and writes the shard's generation after that. Error: WRONG_HANDLE if the pass has
 * no admission. */
uint32_t durkenzo_finish(durkenzo_handle *pass, uint64_t *generation);

/* Makes a pass with the server of the other pass. It has seen all that the other pass has seen. It may go to another
 * thread along with a message, as a note, and there tell another pass. The pass's handle keeps it, and drops its
 * earlier contents. Errors: WRONG_HANDLE (also if the other pass has an admission), NO_MEMORY. */
uint32_t durkenzo_split(durkenzo_handle *from, durkenzo_handle *pass);

/* Tells the pass all that another pass, or an answer, had seen. The other one must be of the same board. Its handle
 * then keeps nothing. Error: WRONG_HANDLE (also if one of them has an admission). */
uint32_t durkenzo_meet(durkenzo_handle *pass, durkenzo_handle *other);

/* Makes this change of the shard. `server` is the server that the kind names, if it names one. Errors: WRONG_HANDLE,
 * BAD_ARGUMENT, UNKNOWN_SHARD to SAME_SERVER, UNKNOWN_SERVER to DOMAIN_LIMIT; CHANGE_SPENT, BUSY and RACED write
 * `read`, which the control has then seen. */
uint32_t durkenzo_change(durkenzo_handle *control, uint16_t shard, uint8_t kind, uint16_t server,
                         durkenzo_record *read);

/* Makes this step of the server's restart. Errors: WRONG_HANDLE, BAD_ARGUMENT, UNKNOWN_SERVER, and 40 to 49. */
uint32_t durkenzo_restart(durkenzo_handle *control, uint8_t kind, uint16_t server);

/* Plans where the shards go that `from` serves, or the vacant shards if `from` is 0, and moves nothing. In the order
 * of their numbers, each shard goes to the lowest server that it fits, as if the earlier moves were made. The plan's
 * handle keeps the plan, and drops its earlier contents. Errors: WRONG_HANDLE, BAD_ARGUMENT, UNKNOWN_SERVER,
 * NO_MEMORY. */
uint32_t durkenzo_plan(durkenzo_handle *control, durkenzo_handle *plan, uint16_t from);

/* Writes the move at this place of the plan, from 0. Errors: WRONG_HANDLE, NO_MORE past the last. */
uint32_t durkenzo_move(durkenzo_handle *plan, size_t at, uint16_t *shard, uint16_t *server);

/* Writes the shard at this place, from 0, of those that fit on no server. Errors: WRONG_HANDLE, NO_MORE. */
uint32_t durkenzo_left(durkenzo_handle *plan, size_t at, uint16_t *shard);

/* Makes a layout: shard k has the keys from bound k up to, but without, the next bound. The bounds are these parts
 * of the text: 1 to 4,096, each of at most 255 bytes. The first must be empty, and each must be greater than the one
 * before. The handle keeps the layout, and drops its earlier contents. Errors: BAD_ARGUMENT if a part isn't within
 * the text, TOO_MANY, NO_MEMORY, and 50 to 53. */
uint32_t durkenzo_layout(durkenzo_handle *layout, const uint8_t *text, size_t length, const durkenzo_part *parts,
                         size_t count);

/* Writes the shard of a key. Any bytes are a key. Error: WRONG_HANDLE. */
uint32_t durkenzo_shard_of(durkenzo_handle *layout, const uint8_t *key, size_t length, uint16_t *shard);

/* Writes the bound at which the shard begins into `room` bytes, and its length. 255 bytes are always enough. Errors:
 * WRONG_HANDLE, UNKNOWN_SHARD past the last shard, TOO_SHORT. */
uint32_t durkenzo_bound(durkenzo_handle *layout, uint16_t shard, uint8_t *into, size_t room, size_t *length);

/* A shard's route: the server to which its requests go. */
typedef struct durkenzo_route_parts {
    uint64_t generation; /* the shard's generation when the route was published; it rises from route to route */
    uint16_t server;     /* the owner, or 0 if there is no route */
} durkenzo_route_parts;

/* Makes a publisher of routes for `count` shards (1 to 4,096). At first no shard has a route. The handle keeps the
 * publisher, and drops its earlier contents. The map lives until its publisher and all its routers are closed.
 * Errors: NO_MEMORY, NO_SHARD, TOO_MANY. */
uint32_t durkenzo_publisher(durkenzo_handle *publisher, size_t count);

/* Makes a router of the publisher's map. It has seen everything that was published so far. The router's handle keeps
 * it, and drops its earlier contents. The router may go to another thread, and reads there without a lock. Errors:
 * WRONG_HANDLE, NO_MEMORY. */
uint32_t durkenzo_router(durkenzo_handle *publisher, durkenzo_handle *router);

/* Publishes, by one store, that this server owns the shard at this generation. Errors: WRONG_HANDLE, BAD_ARGUMENT
 * (the server, or a generation above DURKENZO_MAX_GENERATION), UNKNOWN_SHARD, and OLD_ROUTE unless the generation is
 * above that of the shard's last route. */
uint32_t durkenzo_publish(durkenzo_handle *publisher, uint16_t shard, uint16_t server, uint64_t generation);

/* Writes the shard's route: the last one of the publications that the router has now seen, which begin with all that it
 * had seen before. So a router never reads an older route than it read before. A shard outside of the map has no
 * route. Errors: WRONG_HANDLE, UNKNOWN_SHARD for a shard above 4,095. */
uint32_t durkenzo_route(durkenzo_handle *router, uint16_t shard, durkenzo_route_parts *route);

/* Makes an empty map of the sample service, which you can use as a body like any other. The handle keeps the map,
 * and drops its earlier contents. Error: NO_MEMORY. */
uint32_t durkenzo_map(durkenzo_handle *map);

/* Writes how many keys of the map have a value. Error: WRONG_HANDLE. */
uint32_t durkenzo_map_length(durkenzo_handle *map, uint64_t *length);

/* Writes the value of the key in the map: its parts, as for a request of kind 1, and a text into `room` bytes if it
 * fits. The map keeps no reply. Errors: WRONG_HANDLE, KEY_EMPTY, KEY_TOO_LONG. */
uint32_t durkenzo_get(durkenzo_handle *map, const uint8_t *key, size_t key_length, uint8_t *into, size_t room,
                      durkenzo_parts *parts);

/* Executes this request on the map. The reply's handle keeps the reply, and drops its earlier contents; the reply's
 * parts are written. Errors: WRONG_HANDLE, BAD_ARGUMENT (the kind, or `amount` of a scan), KEY_EMPTY, KEY_TOO_LONG,
 * NO_MEMORY. */
uint32_t durkenzo_ask(durkenzo_handle *map, durkenzo_handle *reply, uint8_t kind, const uint8_t *key, size_t key_length,
                      const uint8_t *other, size_t other_length, int64_t amount, durkenzo_parts *parts);

/* Writes the text of the reply into `room` bytes, and its length. The handle may keep an answer instead of a reply.
 * Errors: WRONG_HANDLE (also if the reply is no text), TOO_SHORT. */
uint32_t durkenzo_reply_text(durkenzo_handle *reply, uint8_t *into, size_t room, size_t *length);

/* Writes the value of the pair at this place of the reply, from 0. Errors: WRONG_HANDLE, NO_MORE. */
uint32_t durkenzo_pair(durkenzo_handle *reply, size_t at, durkenzo_parts *parts);

/* Writes the key of that pair into `room` bytes, and its length. Errors: WRONG_HANDLE, NO_MORE, TOO_SHORT. */
uint32_t durkenzo_pair_key(durkenzo_handle *reply, size_t at, uint8_t *into, size_t room, size_t *length);

/* Writes the text of that pair into `room` bytes, and its length. Errors: as above. */
uint32_t durkenzo_pair_text(durkenzo_handle *reply, size_t at, uint8_t *into, size_t room, size_t *length);

/* Opens a board of the sample service, so that the library itself executes its requests. It has `shards` shards (1
 * to 4,096), each of which keeps at most `kept` requests between checkpoints. All else is as in durkenzo_open.
 * Passes, looks, changes, restarts, plans, split and meet are the same. Errors: as durkenzo_open. */
uint32_t durkenzo_open_service(durkenzo_handle *control, size_t shards, size_t kept, uint16_t servers, uint16_t ops,
                               uint64_t ceiling);

/* Opens a board of the sample service from the line of settings (docs/SETTINGS.md, without its line feed), but
 * without its workers. `control` keeps the board's control and `layout` the layout; both drop their earlier
 * contents. `shards` gets the number of shards. Errors: NO_MEMORY, and those of durkenzo_settings_code. The line's
 * servers never cause BAD_BOOKS. */
uint32_t durkenzo_open_settings(durkenzo_handle *control, durkenzo_handle *layout, const uint8_t *line, size_t length,
                                size_t *shards);

/* Opens such a board with a body of yours for each number. The line's limit of kept requests doesn't apply, because
 * only the sample service keeps requests. Errors: BAD_COUNT if there are not as many numbers as the line has shards,
 * and as above. */
uint32_t durkenzo_open_bodies(durkenzo_handle *control, durkenzo_handle *layout, const uint8_t *line, size_t length,
                              const uint64_t *numbers, size_t count);

/* Opens such a board, but its fencing tokens begin after this number instead of 0. Another error: BAD_AFTER. */
uint32_t durkenzo_open_bodies_after(durkenzo_handle *control, durkenzo_handle *layout, const uint8_t *line,
                                    size_t length, const uint64_t *numbers, size_t count, uint64_t after);

/* An envelope without its request and its note. */
typedef struct durkenzo_envelope_parts {
    uint64_t number;
    uint16_t shard;
    uint16_t from; /* the server that forwarded it, or 0 if it came directly */
    uint8_t hops;  /* how often it was forwarded, 0 to 4 */
} durkenzo_envelope_parts;

/* Writes the parts of an envelope. Errors: WRONG_HANDLE. */
uint32_t durkenzo_sent(durkenzo_handle *envelope, durkenzo_envelope_parts *parts);

/* Makes an envelope with these parts, this request, and a note of all that the pass has seen. The parts are those
 * that a client sends (`from` and `hops` are 0), or those that another server of yours sent on. The envelope's
 * handle keeps it, and drops its earlier contents. Errors: those of durkenzo_ask, and BAD_ARGUMENT for parts that no
 * envelope has. */
uint32_t durkenzo_envelope(durkenzo_handle *pass, durkenzo_handle *envelope, const durkenzo_envelope_parts *parts,
                           uint8_t kind, const uint8_t *key, size_t key_length, const uint8_t *other,
                           size_t other_length, int64_t amount);

/* Serves the envelope as the pass's server. The envelope must be of the same board. The layout says which keys the
 * shard has. If the call returns OK, the envelope's handle keeps the answer. FORWARD writes to `to` the server to
 * which the envelope must go, with one hop more. Otherwise the envelope comes back, with a note that may have seen
 * more: WRONG_HANDLE, WRONG_SHARD, TOO_MANY_HOPS, KEPT_FULL, NO_MEMORY, and 21 to 26 or RACED, which write `read`.
 * KEPT_FULL and NO_MEMORY come after the pass was admitted. The admission then ended without executing anything, and
 * took 2 of the shard's generations. */
uint32_t durkenzo_serve(durkenzo_handle *pass, durkenzo_handle *layout, durkenzo_handle *envelope, uint16_t *to,
                        durkenzo_record *read);

/* Writes the parts of the answer and of its reply. durkenzo_meet tells a pass all that the answer has seen, so that
 * the pass's next calls come after it. Error: WRONG_HANDLE. */
uint32_t durkenzo_answer(durkenzo_handle *answer, durkenzo_answer_parts *parts, durkenzo_parts *reply);

/* Makes the shard's state its base, so that the shard keeps no requests. Writes the shard's generation after that.
 * Errors: WRONG_HANDLE, UNKNOWN_SHARD, and 21 to 26 or RACED, which write `read`. NO_MEMORY comes after the pass was
 * admitted: the admission ended without a checkpoint, and took 2 of the shard's generations. */
uint32_t durkenzo_checkpoint(durkenzo_handle *pass, uint16_t shard, uint64_t *generation, durkenzo_record *read);

/* Closes the contents of the handle: an admission ends, and the handle keeps nothing. */
void durkenzo_close(durkenzo_handle *handle);

/* One decision on one record, packed into a word that you keep. The word of a vacant shard is 0. Each of these calls
 * writes the next word. */

/* Writes the word after this change. Errors: BAD_ARGUMENT, BAD_WORD, BAD_CEILING, and 11 to 14. */
uint32_t durkenzo_changed(uint64_t word, uint8_t kind, uint16_t server, uint64_t ceiling, uint64_t *next);

/* Writes the word after the server is admitted. Errors: BAD_ARGUMENT, BAD_WORD, BAD_CEILING, and 21 to 26. */
uint32_t durkenzo_admitted(uint64_t word, uint16_t server, uint16_t from, uint64_t ceiling, uint64_t *next);

/* Writes the word after its admission ends. Error: NOT_ADMITTED, also at the greatest generation. */
uint32_t durkenzo_ended(uint64_t word, uint64_t *next);

/* Writes the record of the word. Error: BAD_WORD. */
uint32_t durkenzo_unpack(uint64_t word, durkenzo_record *record);

/* Writes the word of the record. Error: BAD_ARGUMENT if no shard can have such a record. */
uint32_t durkenzo_pack(const durkenzo_record *record, uint64_t *word);

/* Writes whether the server executes a request on the shard of this word. The request came directly (`from` 0) or
 * from the server `from`. Errors: BAD_ARGUMENT, BAD_WORD. */
uint32_t durkenzo_accepts(uint64_t word, uint16_t server, uint16_t from, bool *accepted);

/* Returns the server to which this one forwards requests on the shard of this word. Returns 0 if it forwards none,
 * if no record has this word, or if there is no such server. */
uint16_t durkenzo_forward(uint64_t word, uint16_t server);

/* Returns the server that executes requests on the shard of this word. Returns 0 if nobody executes, or if no record
 * has this word. */
uint16_t durkenzo_executor(uint64_t word);

#ifdef __cplusplus
}
#endif

#endif
