/* A call as the tests see it: an operation with numbers and buffers, whatever it is that it takes. */
#ifndef OPERATIONS_H
#define OPERATIONS_H

#include <stddef.h>
#include <stdint.h>

enum { MOST_NUMBERS = 8, MOST_BUFFERS = 8, NAME_BYTES = 16 };

struct buffer {
    uint8_t *bytes;
    size_t length;
};

/* The numbers and the buffers stand in the order of the call's own declaration. */
struct operation {
    char name[NAME_BYTES];
    size_t numbers, buffers;
    uint32_t (*call)(const uint32_t *numbers, const struct buffer *buffers);
};

/* The operations of one archive; the last one has no call. */
extern const struct operation operations[];

#endif
