/* The stack of `dimecandle_unplug` of libcalls.a, and its answers on some states.
 * Build and run it: scripts/alone unplug calls */
#include "alone.h"

word dimecandle_unplug(const word *state, word state_words, word id, word *verdict, word verdict_words);

/* What the question may hold beyond the state that it is lent: less than a copy of two sets. */
enum { BOUND = 1024 };

/* Where the blocks of a state begin, in words: docs/EMBEDDING.md. */
enum { SET = PLACES + 1, RECORD = 10 };
enum {
    INCOMING = 0,
    OUTGOING = INCOMING + SET,
    LEARNERS = OUTGOING + SET,
    STAGED = LEARNERS + SET,
    AUTO_LEAVE = STAGED + SET,
    TRACKED = AUTO_LEAVE + 1,
    RECORDS = TRACKED + SET,
    MAX_INFLIGHT = RECORDS + PLACES * RECORD,
    STATE = MAX_INFLIGHT + 1
};
_Static_assert(STATE == 967, "a state is 967 words");

/* A record's word. */
enum { RECENT_ACTIVE = 6 };

/* What stands in the verdict before, and after it. */
enum { STALE = 77 };

struct question {
    const char *what;
    struct set incoming, outgoing, learners, staged, tracked;
    /* a word that is set besides, and to what; 0: none */
    word place, value;
    word id;
    word returned, number, named;
};

static const struct question QUESTIONS[] = {
    {.what = "the only voter", .incoming = {1, 1, 1}, .tracked = {1, 1, 1}, .id = 1, .number = 17},
    {.what = "one of two voters", .incoming = {1, 1, 2}, .tracked = {1, 1, 2}, .id = 1},
    {.what = "a learner, one voter", .incoming = {1, 1, 1}, .learners = {2, 1, 1}, .tracked = {1, 1, 2}, .id = 2},
    {.what = "a learner, no voter", .learners = {2, 1, 1}, .tracked = {2, 1, 1}, .id = 2, .number = 17},
    {.what = "the last of 64 voters", .incoming = {7, 3, 64}, .tracked = {7, 3, 64}, .id = 196},
    {.what = "an unknown id, 64 voters", .incoming = {7, 3, 64}, .tracked = {7, 3, 64}, .id = -1},
    {.what = "joint", .incoming = {1, 1, 2}, .outgoing = {1, 1, 3}, .staged = {3, 1, 1}, .tracked = {1, 1, 3}, .id = 3, .number = 6},
    {.what = "64 voters, joint", .incoming = {1, 1, 64}, .outgoing = {1, 1, 64}, .tracked = {1, 1, 64}, .id = 1, .number = 6},
    {.what = "an id in an unused place", .incoming = {1, 1, 3}, .tracked = {1, 1, 3}, .place = INCOMING + 63, .value = 4, .id = 1, .number = 1},
    {.what = "64 voters, the last not tracked", .incoming = {1, 1, 64}, .tracked = {1, 1, 63}, .id = 1, .number = 7, .named = 64},
    {.what = "the last of 64 voters a learner",
     .incoming = {1, 1, 64}, .learners = {64, 1, 1}, .tracked = {1, 1, 64}, .id = 1, .number = 10, .named = 64},
    {.what = "the flag while not joint", .incoming = {1, 1, 3}, .tracked = {1, 1, 3}, .place = AUTO_LEAVE, .value = 1, .id = 1, .number = 14},
    {.what = "id 0, which is skipped: the only voter", .incoming = {0, 1, 1}, .tracked = {0, 1, 1}, .id = 0},
    {.what = "id 0, no voter", .id = 0, .number = 17},
    {.what = "a flag of 2", .place = AUTO_LEAVE, .value = 2, .id = 1, .returned = 4, .number = STALE, .named = STALE},
    {.what = "a flag of 2 in the last record",
     .place = RECORDS + 63 * RECORD + RECENT_ACTIVE, .value = 2, .id = 1, .returned = 4, .number = STALE, .named = STALE},
};

static void put(word *state, word at, struct set set) {
    place(state + at, set);
    state[at + PLACES] = set.count;
}

/* Tracked ids have records of zeros. */
static void fill(word *state, const struct question *asked) {
    for (word i = 0; i < STATE; i++) state[i] = 0;
    put(state, INCOMING, asked->incoming);
    put(state, OUTGOING, asked->outgoing);
    put(state, LEARNERS, asked->learners);
    put(state, STAGED, asked->staged);
    put(state, TRACKED, asked->tracked);
    if (asked->place != 0) state[asked->place] = asked->value;
}

/* How much stack the question takes. */
__attribute__((noinline)) static word measured(const word *state, word id, word *verdict, word *returned) {
    volatile word *top = filled();
    *returned = dimecandle_unplug(state, STATE, id, verdict, 2);
    return written(top);
}

int main(void) {
    static word state[STATE];
    for (word i = 0; i < sizeof QUESTIONS / sizeof *QUESTIONS; i++) {
        const struct question *asked = &QUESTIONS[i];
        word verdict[3] = {STALE, STALE, STALE}, returned;
        fill(state, asked);
        word stack = measured(state, asked->id, verdict, &returned);
        int right = returned == asked->returned && verdict[0] == asked->number && verdict[1] == asked->named && verdict[2] == STALE;
        if (!answered(right, stack)) {
            printf("unplug: %s: returned %lu, number %lu id %lu, then %lu;", asked->what, returned, verdict[0], verdict[1], verdict[2]);
            printf(" not %lu, %lu id %lu, %d\n", asked->returned, asked->number, asked->named, STALE);
        }
    }
    within("dimecandle_unplug", BOUND);
    return ended();
}
