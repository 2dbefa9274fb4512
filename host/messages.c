/* The stack of `dimecandle_read_conf_state` and `dimecandle_write_conf_state` of libcalls.a, and their answers on some messages.
 * Build and run it: scripts/alone messages calls */
#include "alone.h"

typedef unsigned char byte;

word dimecandle_read_conf_state(const byte *bytes, word length, word *conf_state, word words);
word dimecandle_write_conf_state(const word *conf_state, word words, byte *bytes, word length);

/* What either may hold beyond what it is lent: less than a list. */
enum { BOUND = 512 };

/* The words of a CONFSTATE: docs/EMBEDDING.md. */
enum { LISTS = 4, LIST = PLACES + 1, FLAG = LISTS * LIST, WORDS = FLAG + 1 };

/* The longest message, and what the writer adds to the number of a refusal. */
enum { LONGEST = LISTS * (1 + 2 + PLACES * 10) + 2 };
static const word REFUSED = 1ul << 32;

/* What stands in the buffer before, and after the message. */
enum { STALE = 0xa5 };

/* Bytes; the number that the reader gives, how many voters and learners, and the flag. */
struct reading {
    const char *what;
    const char *bytes;
    word length;
    word number, voters, learners, flag;
};

#define BYTES(text) text, sizeof text - 1

static const struct reading READINGS[] = {
    {"no bytes", BYTES(""), 0, 0, 0, 0},
    {"5 voters, packed", BYTES("\x0a\x05\x01\x02\x03\x04\x05"), 0, 5, 0, 0},
    {"3 voters and a learner, single, and the flag", BYTES("\x08\x01\x08\x02\x08\xac\x02\x10\x05\x28\x01"), 0, 3, 1, 1},
    {"unknown fields of every kind, and a voter", BYTES("\x30\x05\x31\1\2\3\4\5\6\7\10\x32\x02\xff\xff\x35\1\2\3\4\x08\x01"), 0, 1, 0, 0},
    {"all 64 bits", BYTES("\x08\xff\xff\xff\xff\xff\xff\xff\xff\xff\x01"), 0, 1, 0, 0},
    {"a number that is cut", BYTES("\x10\x01\x08\x80"), 28, 0, 0, 0},
    {"a length of 2^64 - 1", BYTES("\x0a\xff\xff\xff\xff\xff\xff\xff\xff\xff\x01"), 28, 0, 0, 0},
    {"over 64 bits", BYTES("\x10\x01\x08\xff\xff\xff\xff\xff\xff\xff\xff\xff\x02"), 29, 0, 0, 0},
    {"a number over ten bytes, and behind it one that is cut",
     BYTES("\x0a\x0c\x80\x80\x80\x80\x80\x80\x80\x80\x80\x80\x00\x80"), 28, 0, 0, 0},
    {"a group", BYTES("\x0b"), 29, 0, 0, 0},
    {"a list under wire type 1", BYTES("\x09\1\2\3\4\5\6\7\10"), 29, 0, 0, 0},
};

/* How much stack reading takes, and writing. */
__attribute__((noinline)) static word read_measured(const byte *bytes, word length, word *lists, word *returned) {
    volatile word *top = filled();
    *returned = dimecandle_read_conf_state(bytes, length, lists, WORDS);
    return written(top);
}

__attribute__((noinline)) static word write_measured(const word *lists, byte *bytes, word length, word *returned) {
    volatile word *top = filled();
    *returned = dimecandle_write_conf_state(lists, WORDS, bytes, length);
    return written(top);
}

static void reads(const struct reading *asked) {
    static word lists[WORDS + 1];
    for (word i = 0; i <= WORDS; i++) lists[i] = STALE;
    word returned, stack = read_measured((const byte *)asked->bytes, asked->length, lists, &returned);
    word voters = lists[PLACES], learners = lists[LIST + PLACES], flag = lists[FLAG], after = lists[WORDS];
    int right = returned == asked->number && voters == asked->voters && learners == asked->learners && flag == asked->flag;
    if (!answered(right && after == STALE, stack)) {
        printf("reading %s: %lu, %lu voters, %lu learners, flag %lu, then %lu;", asked->what, returned, voters, learners, flag, after);
        printf(" not %lu, %lu, %lu, %lu, %d\n", asked->number, asked->voters, asked->learners, asked->flag, STALE);
    }
}

/* Writes lists to a buffer of a length: the value that is right. Of a refusal no byte is written. */
static void writes(const char *what, const word *lists, byte *bytes, word length, word right) {
    for (word i = 0; i <= LONGEST; i++) bytes[i] = STALE;
    word returned, stack = write_measured(lists, bytes, length, &returned);
    word from = right < REFUSED ? right : 0, kept = 1;
    for (word i = from; i <= LONGEST; i++) kept &= bytes[i] == STALE;
    if (!answered(returned == right && kept, stack)) printf("writing %s: %lu, not %lu, or other bytes written\n", what, returned, right);
}

int main(void) {
    static word lists[WORDS], back[WORDS];
    static byte bytes[LONGEST + 1];
    writes("nothing", lists, bytes, 0, 0);
    lists[FLAG] = 2;
    writes("a flag of 2", lists, bytes, LONGEST, REFUSED + 1);
    lists[FLAG] = 1;
    for (word list = 0; list < LISTS; list++) {
        place(lists + list * LIST, (struct set){-64, 1, 64});
        lists[list * LIST + PLACES] = PLACES + 1;
        writes("a list of 65", lists, bytes, LONGEST, REFUSED + 2);
        lists[list * LIST + PLACES] = PLACES;
    }
    writes("the longest message, a byte short", lists, bytes, LONGEST - 1, REFUSED + 31);
    writes("the longest message", lists, bytes, LONGEST, LONGEST);
    within("dimecandle_write_conf_state", BOUND);

    word returned, stack = read_measured(bytes, LONGEST, back, &returned), same = returned == 0;
    for (word i = 0; i < WORDS; i++) same &= back[i] == lists[i];
    if (!answered(same, stack)) printf("reading the longest message: %lu, or other lists\n", returned);
    for (word i = 0; i < sizeof READINGS / sizeof *READINGS; i++) reads(&READINGS[i]);
    within("dimecandle_read_conf_state", BOUND);
    return ended();
}
