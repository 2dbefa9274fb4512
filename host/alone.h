/* What messages.c, two_apart.c and unplug.c share: each runs functions of a static library alone, for their answers and their stack. The stack below
 * the call is filled with a pattern, and it is looked for how far that was written over, the return address included. scripts/alone builds
 * and runs them; they end with `N passed, M failed`.
 * No header is taken in, since there may be none for x86-64. */
typedef unsigned long word;

int printf(const char *format, ...);

enum { FILLED = 8 << 10 };
static const word PATTERN = 0x5eed5eed5eed5eed;

/* Fills the stack below the function that this stands in, and says where that is. */
__attribute__((always_inline)) static inline volatile word *filled(void) {
    volatile word *top;
    __asm__ volatile("mov %%rsp, %0" : "=r"(top));
    for (long i = 1; i <= FILLED / 8; i++) top[-i] = PATTERN;
    return top;
}

/* How far below there it was written over since. */
__attribute__((always_inline)) static inline word written(volatile word *top) {
    long lowest = FILLED / 8;
    while (lowest > 0 && top[-lowest] == PATTERN) lowest--;
    return (word)lowest * 8;
}

/* The ids from, from + step, from + 2 step and so on, so many of them. */
struct set {
    word from, step, count;
};

enum { PLACES = 64 };

static void place(word *ids, struct set set) {
    for (word i = 0; i < PLACES; i++) ids[i] = i < set.count ? set.from + i * set.step : 0;
}

static int passed, failed;
static word most;

/* One answer, and the stack that it took: whether it is the right one. */
static int answered(int right, word stack) {
    if (stack > most) most = stack;
    if (right) {
        passed++;
    } else {
        failed++;
    }
    return right;
}

/* Says the most stack that a function took, and counts whether it is below the bound. What is answered after this is another's. */
static void within(const char *name, word bound) {
    printf("%s takes %lu bytes of stack; less than %lu are allowed\n", name, most, bound);
    /* a call takes the place of a return address at least: less says that nothing was measured */
    answered(8 <= most && most < bound, most);
    most = 0;
}

/* The counts; the program's exit status. */
static int ended(void) {
    printf("%d passed, %d failed\n", passed, failed);
    return failed != 0;
}
