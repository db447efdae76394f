/* Puts the calls of an archive to whoever asks over a pipe, until the input ends.

   A request is the operation's name, 16 bytes with zeros after it; then how many numbers and how many
   buffers come, and a word of mischief; then the numbers; then the length and the layout of each
   buffer; then the bytes of all buffers before the call. The reply is the call's result and the bytes
   of all buffers after it. A number is four bytes, low byte first.

   Each buffer lies between two pages that can't be read or written. A layout of 0 puts it so that it
   ends where the second begins, one of 1 + n so that it begins n bytes after the first, and one of
   256 + n makes it the very bytes of buffer n. What lies between a buffer and those pages is a margin
   that has to stay as it is.

   Mischief is how it is tried that a fault would be seen. 0 is none; 1 + 3 * n + m is done after the
   call to buffer n: m 0 writes the byte before it, 1 writes the byte after it, 2 reads that.

   Anything else, a byte written outside a lent buffer too, ends the program with a word on standard
   error and status 2; what meets one of the pages ends it by a signal. */
#define _DEFAULT_SOURCE /* for MAP_ANONYMOUS */
#include "operations.h"

#include <stdio.h>
#include <string.h>
#include <sys/mman.h>

/* Longer than any buffer of a call. A wall is as long as the longest page of Linux. */
enum { MOST = 1 << 16, WALL = 1 << 16, MARGIN = 64, UNTOUCHED = 0xC3, SAME_AS = 256 };

struct request {
    const struct operation *operation;
    uint32_t mischief, numbers[MOST_NUMBERS], layout[MOST_BUFFERS];
    struct buffer buffers[MOST_BUFFERS];
};

/* Where the MOST bytes between the walls of a buffer begin. */
static uint8_t *ground[MOST_BUFFERS];

static int fail(const char *reason) {
    fprintf(stderr, "serve: %s\n", reason);
    return 2;
}

static int build_walls(void) {
    for (int place = 0; place < MOST_BUFFERS; place++) {
        uint8_t *all = mmap(NULL, WALL + MOST + WALL, PROT_NONE, MAP_PRIVATE | MAP_ANONYMOUS, -1, 0);
        if (all == MAP_FAILED) return 0;
        ground[place] = all + WALL;
        if (mprotect(ground[place], MOST, PROT_READ | PROT_WRITE) != 0) return 0;
    }
    return 1;
}

static int read_numbers(uint32_t *numbers, size_t number) {
    for (size_t place = 0; place < number; place++) {
        uint8_t bytes[4];
        if (fread(bytes, 1, sizeof bytes, stdin) != sizeof bytes) return 0;
        numbers[place] = bytes[0] | (uint32_t)bytes[1] << 8 | (uint32_t)bytes[2] << 16 | (uint32_t)bytes[3] << 24;
    }
    return 1;
}

static const struct operation *find(const char *name) {
    const struct operation *operation = operations;
    while (operation->call != NULL && strncmp(operation->name, name, NAME_BYTES) != 0) operation++;
    return operation->call != NULL ? operation : NULL;
}

/* What is wrong with the buffer's length and layout, or null. */
static const char *place_buffer(struct request *request, size_t place, size_t length, uint32_t layout) {
    struct buffer *buffers = request->buffers;
    if (length > MOST) return "a buffer is too long";
    request->layout[place] = layout;
    buffers[place].length = length;
    if (layout == 0) {
        buffers[place].bytes = ground[place] + MOST - length;
    } else if (layout < SAME_AS) {
        if (length + layout - 1 > MOST) return "a buffer doesn't fit";
        buffers[place].bytes = ground[place] + layout - 1;
    } else {
        size_t same = layout - SAME_AS;
        if (same >= place || buffers[same].length != length) return "a buffer isn't the same as another";
        buffers[place].bytes = buffers[same].bytes;
    }
    return NULL;
}

/* What is wrong with what came after the name, or null. */
static const char *understand(struct request *request) {
    uint32_t head[3], buffer[2];
    if (!read_numbers(head, 3)) return "the input ends inside a request's head";
    const struct operation *operation = request->operation;
    if (head[0] != operation->numbers || head[1] != operation->buffers) return "other numbers of numbers or buffers";
    request->mischief = head[2];
    if (!read_numbers(request->numbers, operation->numbers)) return "the input ends inside the numbers";
    for (size_t place = 0; place < operation->buffers; place++) {
        if (!read_numbers(buffer, 2)) return "the input ends inside the lengths";
        const char *fault = place_buffer(request, place, buffer[0], buffer[1]);
        if (fault != NULL) return fault;
    }
    return NULL;
}

static size_t least(size_t one, size_t other) { return one < other ? one : other; }

static size_t margin_before(const struct request *request, size_t place) {
    return least(MARGIN, (size_t)(request->buffers[place].bytes - ground[place]));
}

static size_t margin_after(const struct request *request, size_t place) {
    const struct buffer *buffer = &request->buffers[place];
    return least(MARGIN, (size_t)(ground[place] + MOST - (buffer->bytes + buffer->length)));
}

static int receive(const struct request *request) {
    for (size_t place = 0; place < request->operation->buffers; place++) {
        const struct buffer *buffer = &request->buffers[place];
        if (request->layout[place] < SAME_AS) {
            memset(buffer->bytes - margin_before(request, place), UNTOUCHED, margin_before(request, place));
            memset(buffer->bytes + buffer->length, UNTOUCHED, margin_after(request, place));
        }
        if (fread(buffer->bytes, 1, buffer->length, stdin) != buffer->length) return 0;
    }
    return 1;
}

static void do_mischief(const struct request *request) {
    if (request->mischief == 0) return;
    const struct buffer *buffer = &request->buffers[(request->mischief - 1) / 3 % MOST_BUFFERS];
    volatile uint8_t *bytes = buffer->bytes;
    switch ((request->mischief - 1) % 3) {
    case 0: *(bytes - 1) ^= 1; break;
    case 1: bytes[buffer->length] ^= 1; break;
    default: (void)bytes[buffer->length];
    }
}

static int untouched(const uint8_t *from, size_t number) {
    while (number > 0 && *from == UNTOUCHED) from++, number--;
    return number == 0;
}

static int keeps_margins(const struct request *request) {
    for (size_t place = 0; place < request->operation->buffers; place++) {
        const struct buffer *buffer = &request->buffers[place];
        if (request->layout[place] >= SAME_AS) continue;
        size_t before = margin_before(request, place);
        if (!untouched(buffer->bytes - before, before)) return 0;
        if (!untouched(buffer->bytes + buffer->length, margin_after(request, place))) return 0;
    }
    return 1;
}

static int reply(uint32_t result, const struct request *request) {
    uint8_t bytes[4] = {result, result >> 8, result >> 16, result >> 24};
    int sent = fwrite(bytes, 1, 4, stdout) == 4;
    for (size_t place = 0; place < request->operation->buffers; place++) {
        const struct buffer *buffer = &request->buffers[place];
        sent = sent && fwrite(buffer->bytes, 1, buffer->length, stdout) == buffer->length;
    }
    return sent && fflush(stdout) == 0;
}

/* Why it can't go on after this request, or null. */
static const char *answer(const char *name) {
    struct request request = {.operation = find(name)};
    if (request.operation == NULL) return "no such operation";
    const char *fault = understand(&request);
    if (fault != NULL) return fault;
    if (!receive(&request)) return "the input ends inside a request's buffers";
    uint32_t result = request.operation->call(request.numbers, request.buffers);
    do_mischief(&request);
    if (!keeps_margins(&request)) return "a byte outside a lent buffer was written";
    return reply(result, &request) ? NULL : "the reply could not be written";
}

int main(void) {
    static char incoming[MOST], outgoing[MOST];
    setvbuf(stdin, incoming, _IOFBF, sizeof incoming);
    setvbuf(stdout, outgoing, _IOFBF, sizeof outgoing);
    if (!build_walls()) return fail("there is no memory for the buffers");
    for (;;) {
        char name[NAME_BYTES];
        size_t got = fread(name, 1, sizeof name, stdin);
        if (got == 0 && feof(stdin)) return 0;
        if (got != sizeof name) return fail("the input ends inside a request's name");
        const char *fault = answer(name);
        if (fault != NULL) return fail(fault);
    }
}
