/* One entry of a static library, asked from outside: where the comparison runs on a processor that is not an x86-64, this is what it has the
 * emulator run (src/emulated.rs). ENTRY is the entry's name, given to the compiler; each entry gets a program of its own.
 *
 * A frame on standard input: three words of 8 bytes, the least significant first (1 if the stack is to be measured, else 0; how many bytes
 * are given; how many are lent), the given bytes, and the lent bytes as they are before the call. The answer on standard output: two words
 * (what the entry returned; how much stack it took, 0 if not measured) and the lent bytes as they are after it. The end of the input ends
 * the program. No header is taken in, since there may be none for x86-64. */
typedef unsigned char byte;
typedef unsigned long word;

void *malloc(word length);
void free(void *memory);
long read(int file, void *to, word length);
long write(int file, const void *from, word length);

#ifdef DIMECANDLE_UNPLUG
/* The entry on words: its id is the first of the given ones, and the others are its state. */
word ENTRY(const word *state, word state_length, word id, word *verdict, word verdict_length);

static word asked(const byte *given, word given_length, byte *lent, word lent_length) {
    const word *words = (const word *)given;
    return ENTRY(words + 1, given_length / sizeof(word) - 1, words[0], (word *)lent, lent_length / sizeof(word));
}
#elif defined DIMECANDLE_READ_CONF_STATE
/* The entry that is given bytes and lent words. */
word ENTRY(const byte *bytes, word bytes_length, word *conf_state, word conf_state_length);

static word asked(const byte *given, word given_length, byte *lent, word lent_length) {
    return ENTRY(given, given_length, (word *)lent, lent_length / sizeof(word));
}
#elif defined DIMECANDLE_WRITE_CONF_STATE
/* The entry that is given words and lent bytes. */
word ENTRY(const word *conf_state, word conf_state_length, byte *bytes, word bytes_length);

static word asked(const byte *given, word given_length, byte *lent, word lent_length) {
    return ENTRY((const word *)given, given_length / sizeof(word), lent, lent_length);
}
#elif defined DIMECANDLE_COMPARE
/* The entry that is given bytes twice: a word with the first ones' length comes before both. */
word ENTRY(const byte *first, word first_length, const byte *second, word second_length, byte *out, word out_length);

static word asked(const byte *given, word given_length, byte *lent, word lent_length) {
    const byte *first = given + sizeof(word);
    word first_length = *(const word *)given, second_length = given_length - sizeof(word) - first_length;
    return ENTRY(first, first_length, first + first_length, second_length, lent, lent_length);
}
#else
/* An entry that is given bytes and lent bytes. */
word ENTRY(const byte *given, word given_length, byte *lent, word lent_length);
#define asked ENTRY
#endif

struct room {
    byte *bytes;
    word length;
};

/* Makes the room at least so long, whatever was in it; 0 where there is no memory. */
static int grow(struct room *room, word length) {
    if (room->bytes == 0 || room->length < length) {
        free(room->bytes);
        room->bytes = malloc(length);
        room->length = length;
    }
    return room->bytes != 0;
}

/* Reads so many bytes, however few come at a time; 0 where the input ends before. */
static int take(void *to, word length) {
    for (word done = 0; done < length;) {
        long more = read(0, (byte *)to + done, length - done);
        if (more <= 0) return 0;
        done += (word)more;
    }
    return 1;
}

/* Writes so many bytes, however few go at a time; 0 where that fails. */
static int give(const void *from, word length) {
    for (word done = 0; done < length;) {
        long more = write(1, (const byte *)from + done, length - done);
        if (more <= 0) return 0;
        done += (word)more;
    }
    return 1;
}

/* The stack is measured as in src/stack.rs: it is filled with a pattern below a margin, which has the frames of the functions here, and what
 * the entry wrote over is looked for. */
enum { FILLED = 4 << 20, MARGIN = 256 };
static const word PATTERN = 0x5eed5eed5eed5eed;

__attribute__((noinline)) static void fill(word top) {
    for (word address = top - FILLED; address < top - MARGIN; address += 8) *(volatile word *)address = PATTERN;
}

__attribute__((noinline)) static word lowest_written(word top) {
    word address = top - FILLED;
    while (address < top - MARGIN && *(volatile word *)address == PATTERN) address += 8;
    return address;
}

__attribute__((noinline)) static word measured(const byte *given, word given_length, byte *lent, word lent_length, word *stack) {
    volatile word here = 0;
    word top = (word)&here;
    fill(top);
    word returned = asked(given, given_length, lent, lent_length);
    *stack = top - lowest_written(top);
    return returned;
}

int main(void) {
    struct room given = {0, 0}, answer = {0, 0};
    word head[3];
    while (take(head, sizeof head)) {
        word given_length = head[1], lent_length = head[2], answer_length = 2 * sizeof(word) + lent_length;
        if (!grow(&given, given_length) || !grow(&answer, answer_length)) return 1;
        word *words = (word *)answer.bytes;
        byte *lent = answer.bytes + 2 * sizeof(word);
        if (!take(given.bytes, given_length) || !take(lent, lent_length)) return 1;
        words[1] = 0;
        words[0] = head[0] ? measured(given.bytes, given_length, lent, lent_length, &words[1]) : asked(given.bytes, given_length, lent, lent_length);
        if (!give(words, answer_length)) return 1;
    }
    return 0;
}
