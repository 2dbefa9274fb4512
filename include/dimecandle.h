/* Raft membership by the proved libraries: libcalls.a (dimecandle_call, dimecandle_unplug, dimecandle_read_conf_state,
 * dimecandle_write_conf_state, dimecandle_compare) and liblisting.a (dimecandle_replay).
 * Words, blocks and places are those of docs/EMBEDDING.md. For C11 and later on x86-64; usable from C++. */
#ifndef DIMECANDLE_H
#define DIMECANDLE_H

#include <assert.h>
#include <stddef.h>
#include <stdint.h>

#ifdef __cplusplus
extern "C" {
#endif

enum {
    DIMECANDLE_CAPACITY = 64,     /* ids of a set, tracked ids */
    DIMECANDLE_LIST_PLACES = 260, /* places of a change list; one over 256 is answered with 2 */
    DIMECANDLE_LOG_PLACES = 256,
    DIMECANDLE_STATE_WORDS = 967, /* of dimecandle_unplug */
    DIMECANDLE_VERDICT_WORDS = 2,
    DIMECANDLE_CONF_STATE_WORDS = 261, /* of dimecandle_read_conf_state, dimecandle_write_conf_state */
    DIMECANDLE_LONGEST_MESSAGE = 2574, /* bytes: 64 ids of ten bytes in each list, and the flag */
    DIMECANDLE_LONGEST_LINES = 20761   /* bytes of dimecandle_compare: 512 ids of 20 digits, and the flag */
};

/* request.call */
enum {
    DIMECANDLE_CHECK = 0,
    DIMECANDLE_IN_ORDER = 1,
    DIMECANDLE_SIMPLE = 2,
    DIMECANDLE_ENTER_JOINT = 3,
    DIMECANDLE_LEAVE_JOINT = 4,
    DIMECANDLE_APPLY_CONF = 5,
    DIMECANDLE_TO_CONF_STATE = 6,
    DIMECANDLE_RESTORE = 7,             /* whole: a refused one gives back the state given. Use this one by default */
    DIMECANDLE_RESTORE_STEP_BY_STEP = 8 /* a refused one keeps the steps that were accepted, as the Rust's restore does */
};

/* list.kinds */
enum { DIMECANDLE_ADD_NODE = 0, DIMECANDLE_REMOVE_NODE = 1, DIMECANDLE_ADD_LEARNER_NODE = 2 };

/* log.entries[].kind */
enum { DIMECANDLE_ADD = 0, DIMECANDLE_REMOVE = 1 };

/* record.state */
enum { DIMECANDLE_PROBE = 0, DIMECANDLE_REPLICATE = 1, DIMECANDLE_SNAPSHOT = 2 };

/* A set: ids strictly ascending, zeros in the places after `count`. In a dimecandle_conf_state a list: any order, repeats and zeros allowed. */
typedef struct dimecandle_ids {
    uint64_t ids[DIMECANDLE_CAPACITY];
    uint64_t count;
} dimecandle_ids;

typedef struct dimecandle_conf {
    dimecandle_ids incoming;
    dimecandle_ids outgoing;
    dimecandle_ids learners;
    dimecandle_ids learners_next;
    uint64_t auto_leave; /* 0 or 1 */
} dimecandle_conf;

typedef struct dimecandle_record {
    uint64_t matched;
    uint64_t next_idx;
    uint64_t state;
    uint64_t paused; /* 0 or 1 */
    uint64_t pending_snapshot;
    uint64_t pending_request_snapshot;
    uint64_t recent_active; /* 0 or 1 */
    uint64_t max_inflight;
    uint64_t commit_group_id;
    uint64_t committed_index;
} dimecandle_record;

/* records[i] is that of tracked.ids[i]; a place that is not used holds zeros. A fresh state is all zeros but for max_inflight. */
typedef struct dimecandle_state {
    dimecandle_conf conf;
    dimecandle_ids tracked;
    dimecandle_record records[DIMECANDLE_CAPACITY];
    uint64_t max_inflight;
} dimecandle_state;

typedef struct dimecandle_list {
    uint64_t ids[DIMECANDLE_LIST_PLACES];
    uint64_t ids_count;
    uint64_t kinds[DIMECANDLE_LIST_PLACES];
    uint64_t kinds_count;
} dimecandle_list;

typedef struct dimecandle_entry {
    uint64_t id;
    uint64_t kind;
} dimecandle_entry;

typedef struct dimecandle_log {
    dimecandle_entry entries[DIMECANDLE_LOG_PLACES];
    uint64_t count;
} dimecandle_log;

typedef struct dimecandle_conf_state {
    dimecandle_ids voters;
    dimecandle_ids learners;
    dimecandle_ids voters_outgoing;
    dimecandle_ids learners_next;
    uint64_t auto_leave; /* 0 or 1 */
} dimecandle_conf_state;

/* Fill what a call does not use with zeros: every block is read. */
typedef struct dimecandle_request {
    uint64_t call;
    dimecandle_state state;
    uint64_t auto_leave; /* for enter_joint: 0 or 1 */
    uint64_t next_idx;   /* for apply_conf and both restores */
    dimecandle_list list;
    dimecandle_conf conf;
    dimecandle_log log;
    dimecandle_conf_state conf_state;
} dimecandle_request;

typedef struct dimecandle_reply {
    uint64_t number; /* 0 accepted, else the refusal */
    uint64_t id;
    uint64_t yes; /* of in order: 0 or 1 */
    dimecandle_state state;
    dimecandle_log log;
    dimecandle_conf_state conf_state;
    uint64_t idle; /* of an accepted simple or enter_joint: entries of the list that did nothing; else 0 */
} dimecandle_reply;

static_assert(sizeof(dimecandle_state) == 8 * DIMECANDLE_STATE_WORDS, "a state is 967 words");
static_assert(sizeof(dimecandle_conf_state) == 8 * DIMECANDLE_CONF_STATE_WORDS, "a ConfState is 261 words");
static_assert(sizeof(dimecandle_request) == 20216, "a request is 2,527 words");
static_assert(sizeof(dimecandle_reply) == 13960, "a reply is 1,745 words");
static_assert(offsetof(dimecandle_request, conf_state) == 8 * 2266, "CONFSTATE is the request's last block");
static_assert(offsetof(dimecandle_reply, conf_state) == 8 * 1483, "CONFSTATE is the reply's last block");
static_assert(offsetof(dimecandle_reply, idle) == 8 * 1744, "idle is the reply's last word");

/* One call. 0: the reply is written. Else the reply is as it was: 1 the request's length, 2 the reply too short, 3 unknown call,
 * 4 a word that its field cannot hold. */
uint64_t dimecandle_call(const uint8_t *request, size_t request_len, uint8_t *reply, size_t reply_len);

/* Whether one box can be unplugged: number and id of `simple` with the single removal of `id`, for every state, and no new state is made
 * to find out. `state` is a dimecandle_state; both lengths are in words of 8 bytes. 0: verdict[0] is the number, 0 where the box can be
 * unplugged, verdict[1] the id, and the words after these two are kept. Else the verdict is as it was: 1 the state's length, 2 the verdict
 * too short, 4 a word that its field cannot hold. */
uint64_t dimecandle_unplug(const uint64_t *state, size_t state_len, uint64_t id, uint64_t *verdict, size_t verdict_len);

/* A ConfState read from its protobuf bytes. `conf_state` is a dimecandle_conf_state; its length is in words of 8 bytes. 0: it holds the four
 * lists, ids in their order and zeros after them, and the flag; words after it are kept. 28 cut short, 29 no field of a ConfState, 30 a list
 * over 64: it holds four empty lists and a false flag. 100: less than 261 words are lent, and they are as they were. */
uint64_t dimecandle_read_conf_state(const uint8_t *bytes, size_t bytes_len, uint64_t *conf_state, size_t conf_state_len);

/* A ConfState written as protobuf bytes: the length, with the message at the front of `bytes`, and the bytes after it kept. Else `bytes` is as
 * it was: 2^32 + 1 where there are not 261 words or the flag is over 1, 2^32 + 2 for a list over 64, 2^32 + 31 for a message longer than
 * `bytes`. DIMECANDLE_LONGEST_MESSAGE bytes are always enough. */
uint64_t dimecandle_write_conf_state(const uint64_t *conf_state, size_t conf_state_len, uint8_t *bytes, size_t bytes_len);

/* Where two ConfStates in protobuf bytes disagree, each list taken as a set: a line `ID SETS -> SETS` for every id whose standing differs, ids
 * ascending, as in `2 voters -> learners`, then one for the flag, each with a newline. Their length, with the lines at the front of `out`, and
 * the bytes after them kept: 0 where both mean the same. Else `out` is as it was: 2^32 + 32 where one has over 32,768 bytes; 2^32 and 28, 29
 * or 30, as dimecandle_read_conf_state has it, of the first, then of the second; 2^32 + 100 for lines longer than `out`.
 * DIMECANDLE_LONGEST_LINES bytes are always enough. No 0 is put after the lines. */
uint64_t dimecandle_compare(const uint8_t *first, size_t first_len, const uint8_t *second, size_t second_len, uint8_t *out, size_t out_len);

/* A script's listing: its length, with the listing at the front of `out`. Else `out` is as it was: 2^32 + 19 for a script over 65,536 bytes,
 * 2^32 + 20 for a listing longer than `out`. */
uint64_t dimecandle_replay(const uint8_t *script, size_t script_len, uint8_t *out, size_t out_len);

#ifdef __cplusplus
}
#endif

#endif
