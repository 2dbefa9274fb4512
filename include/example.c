/* Document 01's example 8 from C: a demoted voter is staged, and is a learner once the joint configuration is left. Its list has one
 * entry more, for a box that already stands as asked: that one counts as idle. On the way it is asked whether box 1 can be unplugged. What
 * is left is written out as it travels, and read again. Then a damaged configuration is restored, whole and step by step.
 * Build and run it: scripts/embed */
#include "dimecandle.h"

#include <stdio.h>
#include <stdlib.h>
#include <string.h>

static dimecandle_request request;
static dimecandle_reply reply;

/* Makes the call that is filled in; the program ends where the request itself is refused, which is a mistake in this file. */
static void call(uint64_t which) {
    request.call = which;
    uint64_t done = dimecandle_call((const uint8_t *)&request, sizeof request, (uint8_t *)&reply, sizeof reply);
    if (done != 0) {
        printf("dimecandle_call: %llu\n", (unsigned long long)done);
        exit(1);
    }
}

static void refused(uint64_t number, uint64_t id) {
    printf(" refused %llu id %llu\n", (unsigned long long)number, (unsigned long long)id);
}

/* Asks whether a box can be unplugged. The state is lent as it stands; no request is filled in. */
static void unplug(uint64_t id) {
    uint64_t verdict[DIMECANDLE_VERDICT_WORDS];
    const uint64_t *state = (const uint64_t *)&request.state;
    uint64_t done = dimecandle_unplug(state, DIMECANDLE_STATE_WORDS, id, verdict, DIMECANDLE_VERDICT_WORDS);
    if (done != 0) {
        printf("dimecandle_unplug: %llu\n", (unsigned long long)done);
        exit(1);
    }
    printf("unplug %llu:", (unsigned long long)id);
    if (verdict[0] != 0) {
        refused(verdict[0], verdict[1]);
    } else {
        printf(" yes\n");
    }
}

static void show_ids(const char *label, const dimecandle_ids *set) {
    printf(" %s=(", label);
    for (uint64_t i = 0; i < set->count; i++) {
        printf(i == 0 ? "%llu" : " %llu", (unsigned long long)set->ids[i]);
    }
    printf(")");
}

static void show_state(const dimecandle_state *state) {
    show_ids("incoming", &state->conf.incoming);
    show_ids("outgoing", &state->conf.outgoing);
    show_ids("learners", &state->conf.learners);
    show_ids("learners_next", &state->conf.learners_next);
    show_ids("tracked", &state->tracked);
}

/* An accepted answer is applied at once; a refused one says its number and id. */
static void answered(const char *what) {
    printf("%s:", what);
    if (reply.number != 0) {
        refused(reply.number, reply.id);
        return;
    }
    uint64_t idle = reply.idle;
    request.conf = reply.state.conf;
    request.log = reply.log;
    call(DIMECANDLE_APPLY_CONF);
    request.state = reply.state;
    show_state(&request.state);
    printf(" idle=%llu\n", (unsigned long long)idle);
}

/* The number, and the state that a restore leaves. */
static void restored(const char *what) {
    printf("%s: number %llu, left", what, (unsigned long long)reply.number);
    show_state(&reply.state);
    printf("\n");
}

/* Writes the state's ConfState to bytes, shows them, and reads them again. */
static void sent(void) {
    uint8_t bytes[DIMECANDLE_LONGEST_MESSAGE];
    dimecandle_conf_state read;
    call(DIMECANDLE_TO_CONF_STATE);
    const uint64_t *lists = (const uint64_t *)&reply.conf_state;
    uint64_t length = dimecandle_write_conf_state(lists, DIMECANDLE_CONF_STATE_WORDS, bytes, sizeof bytes);
    if (length > sizeof bytes) {
        printf("dimecandle_write_conf_state: %llu\n", (unsigned long long)length);
        exit(1);
    }
    printf("sent:");
    for (uint64_t i = 0; i < length; i++) {
        printf(" %02x", bytes[i]);
    }
    uint64_t number = dimecandle_read_conf_state(bytes, length, (uint64_t *)&read, DIMECANDLE_CONF_STATE_WORDS);
    printf("\nread: number %llu,", (unsigned long long)number);
    show_ids("voters", &read.voters);
    show_ids("learners", &read.learners);
    printf("\n");
    /* without its last byte the last list is cut short */
    number = dimecandle_read_conf_state(bytes, length - 1, (uint64_t *)&read, DIMECANDLE_CONF_STATE_WORDS);
    printf("read a byte less: number %llu,", (unsigned long long)number);
    show_ids("voters", &read.voters);
    printf("\n");
}

static void change(uint64_t id, uint64_t kind) {
    request.list.ids[request.list.ids_count++] = id;
    request.list.kinds[request.list.kinds_count++] = kind;
}

static void append(dimecandle_ids *list, uint64_t id) {
    list->ids[list->count++] = id;
}

int main(void) {
    request.state.max_inflight = 256;
    request.next_idx = 10;
    for (uint64_t id = 1; id <= 3; id++) {
        memset(&request.list, 0, sizeof request.list);
        change(id, DIMECANDLE_ADD_NODE);
        call(DIMECANDLE_SIMPLE);
        answered("simple");
        unplug(1);
    }
    memset(&request.list, 0, sizeof request.list);
    change(3, DIMECANDLE_ADD_LEARNER_NODE);
    change(4, DIMECANDLE_ADD_NODE);
    change(2, DIMECANDLE_ADD_NODE);
    call(DIMECANDLE_ENTER_JOINT);
    answered("enter_joint");
    unplug(1);
    call(DIMECANDLE_SIMPLE);
    answered("simple");
    call(DIMECANDLE_LEAVE_JOINT);
    answered("leave_joint");
    unplug(1);
    sent();

    /* voters (5), learners (1 2 4 5): every voter is to be a learner, and the last step is refused with 17 */
    append(&request.conf_state.voters, 5);
    append(&request.conf_state.learners, 1);
    append(&request.conf_state.learners, 2);
    append(&request.conf_state.learners, 4);
    append(&request.conf_state.learners, 5);
    call(DIMECANDLE_RESTORE);
    restored("restore");
    call(DIMECANDLE_RESTORE_STEP_BY_STEP);
    restored("restore_step_by_step");
    return 0;
}
