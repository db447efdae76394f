/* The operations of target/staticlib/libcalls.a: one wrapper for each call of include/feshamiru.h. */
#include "feshamiru.h"
#include "operations.h"

/* A buffer as the calls take it: a pointer and then its length. */
#define LENT(place) buffers[place].bytes, buffers[place].length

static uint32_t solve(const uint32_t *numbers, const struct buffer *buffers) {
    return desk_solve(LENT(0), numbers[0], numbers[1], LENT(1), LENT(2), LENT(3));
}

static uint32_t join(const uint32_t *numbers, const struct buffer *buffers) {
    (void)numbers;
    return desk_join(LENT(0), LENT(1), LENT(2), LENT(3));
}

static uint32_t parts(const uint32_t *numbers, const struct buffer *buffers) {
    return desk_parts(LENT(0), LENT(1), numbers[0], numbers[1], LENT(2), LENT(3), LENT(4));
}

static uint32_t check(const uint32_t *numbers, const struct buffer *buffers) {
    return desk_check(LENT(0), numbers[0], LENT(1), LENT(2));
}

const struct operation operations[] = {
    {"solve", 2, 4, solve},
    {"join", 0, 4, join},
    {"parts", 2, 5, parts},
    {"check", 1, 3, check},
    {"", 0, 0, NULL},
};
