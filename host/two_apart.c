/* The stack of the walk that decides 18, `dimecandle_two_apart` of libidset.a, and its answers on some pairs of sets.
 * Build and run it: scripts/alone two_apart idset */
#include "alone.h"

_Bool dimecandle_two_apart(const word *a, word a_places, word m, const word *b, word b_places, word n);

/* What the walk may hold beyond the references that it is given. */
enum { BOUND = 256 };

struct pair {
    const char *what;
    struct set a, b;
    int apart;
};

static const struct pair PAIRS[] = {
    {"two empty sets", {1, 1, 0}, {1, 1, 0}, 0},
    {"one id more", {1, 1, 3}, {1, 1, 4}, 0},
    {"one id less", {1, 1, 4}, {1, 1, 3}, 0},
    {"the last id another", {5, 1, 1}, {6, 1, 1}, 1},
    {"two ids more", {1, 1, 3}, {1, 1, 5}, 1},
    {"64 ids, the same", {7, 3, 64}, {7, 3, 64}, 0},
    {"63 of 64 ids", {7, 3, 64}, {7, 3, 63}, 0},
    {"64 ids, the first and the last another", {1, 1, 64}, {2, 1, 64}, 1},
    {"64 ids, none of both", {1, 2, 64}, {2, 2, 64}, 1},
    {"64 ids up to the largest, and none", {-64, 1, 64}, {1, 1, 0}, 1},
};

/* How much stack the walk takes. */
__attribute__((noinline)) static word measured(const word *a, word m, const word *b, word n, _Bool *apart) {
    volatile word *top = filled();
    *apart = dimecandle_two_apart(a, PLACES, m, b, PLACES, n);
    return written(top);
}

int main(void) {
    static word a[PLACES], b[PLACES];
    for (word i = 0; i < sizeof PAIRS / sizeof *PAIRS; i++) {
        const struct pair *pair = &PAIRS[i];
        _Bool apart;
        place(a, pair->a);
        place(b, pair->b);
        word stack = measured(a, pair->a.count, b, pair->b.count, &apart);
        if (!answered(apart == pair->apart, stack)) printf("two_apart: %s: %d, not %d\n", pair->what, apart, pair->apart);
    }
    within("two_apart", BOUND);
    return ended();
}
