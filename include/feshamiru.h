/* The four calls of the desk for C: solve a rule table, join two, solve two by parts, and check
   controller rows from elsewhere.

   tools/archive writes target/staticlib/libcalls.a, which holds them, for x86-64:

       cc -I include program.c target/staticlib/libcalls.a

   Every buffer is a pointer, never null, and then its length in bytes. Two buffers that are only
   read may be the same bytes; no buffer that is written to may overlap another. A call keeps nothing
   between one time and the next, and asks nothing else of its caller: whatever the bytes and
   numbers are, it answers.

   Length 0   the pointer is not to be null either; any other address will do, since nothing is
              read or written there. A null pointer with length 0 is outside what is proved;
              tests/c/calls.c makes such calls, and they were answered like any other.
   Unwritten  a buffer that is written to need not have been written to before: no answer and no
              byte that a call writes comes from what was there. A table is read, all of it,
              and so are rows to check.
   Threads    calls may be made in several threads at once, as long as what one of them writes to
              is lent to no other meanwhile; tables may be shared. tests/rust/calls.rs does so.
   Memory     a call takes none but its stack, and doesn't call itself, so the stack doesn't grow
              with the table. Measured by bench/run on x86-64: 27,448 bytes for desk_solve,
              37,960 for desk_parts and 7,912 for desk_check. Plan with 64 KiB for a thread that
              makes calls. */
#ifndef FESHAMIRU_H
#define FESHAMIRU_H

#include <stddef.h>
#include <stdint.h>

#ifdef __cplusplus
extern "C" {
#endif

/* The code of an answer. Those from 2 on are refusals: they write no byte of winners, controller
   or out, and they are looked for in the order 2, 3, 4 to 10 of the first table, 4 to 10 of the
   second, 15, 13, 14, and then 11 and 12 stage by stage. */
enum {
    DESK_REALIZABLE = 0,   /* the start position wins: winners and controller are written;
                              from desk_join: the joined table is written;
                              from desk_check: the rows keep every run to k visits */
    DESK_UNREALIZABLE = 1, /* it doesn't: winners are written, the controller is untouched;
                              from desk_check: some run of the rows passes k */
    DESK_BOUND = 2,        /* k is over 7 */
    DESK_ROOM = 3,         /* room isn't 1 to 256, or a buffer that is written to is too short */
    DESK_LENGTH = 4,       /* a table of 0 bytes, not a multiple of 4, or over 4,160 */
    DESK_RECORD = 5,       /* a byte of a record is outside its limits */
    DESK_ORDER = 6,        /* the records aren't strictly ascending */
    DESK_STATES = 7,       /* a side's states aren't numbered 0, 1, 2 and so on, or it has none */
    DESK_START = 8,        /* there is no start state */
    DESK_EDGE = 9,         /* an edge names a state without a record */
    DESK_GAP = 10,         /* no output, no input, or a state with no edge for some letter */
    DESK_FULL = 11,        /* a set of some round has more maximal members than the room */
    DESK_NOTHING = 12,     /* no position wins at all */
    DESK_LETTERS = 13,     /* the two tables differ in their outputs or inputs; from desk_check: a
                              row's output isn't one of the table's, or the inputs differ in number */
    DESK_SIZE = 14,        /* the two tables together have over 8 states on a side */
    DESK_ROWS = 15         /* the rows to check aren't well formed */
};

enum {
    DESK_TABLE_BYTES = 4160,    /* the longest table, and the least length of desk_join's out */
    DESK_WINNER_BYTES = 8,      /* one winner: winners needs room times so many */
    DESK_CONTROLLER_BYTES = 32, /* one winner's rows: controller needs room times so many */
    DESK_ROWS_BYTES = 8192,     /* the longest rows that desk_check takes */
    DESK_ANSWER_BYTES = 24,     /* the least length of answer */
    DESK_MOST_ROOM = 256        /* the largest room */
};

/* The answer is six numbers of four bytes each, low byte first:

   code     as above; the call's result is the same number
   place    the record's number, from 0, for code 5 and 9 (the first bad one) and 6 (the later of
            the first bad pair); for code 0 of desk_join the number of bytes written; otherwise 0
   which    in a call on two tables, 1 or 2 for code 4 to 10 of that table, and for code 11 while
            that table is solved alone; otherwise 0
   rounds   the rounds until the winning set was settled; 0 in a refusal
   winners  the number of winners written; 0 in a refusal
   start    for code 0 the place in the winners at which the controller starts; otherwise 0

   In desk_join rounds, winners and start are 0, and in desk_check all but the code and the place.

   It is written for refusals too. An answer buffer under 24 bytes is itself refused with code 3,
   as winners, controller and out are where they are too short; then, and for code 2 with such a
   buffer, nothing at all is written and the result alone tells the code. Bytes beyond those
   written stay as they were, in every buffer. */

/* Solves a table and gives the code. */
uint32_t desk_solve(
    const uint8_t *table, size_t table_length, /* the table: records of four bytes */
    uint32_t k,                                /* the patience: 0 to 7 visits to marked states */
    uint32_t room,                             /* N, the most positions a set may need: 1 to 256 */
    uint8_t *winners, size_t winners_length,   /* gets the winners, 8 bytes each, ascending */
    uint8_t *controller, size_t controller_length, /* gets the rows: state, output, input, next */
    uint8_t *answer, size_t answer_length);        /* gets the six numbers */

/* Joins two tables into one that asks for what both ask for, and gives the code. The second's
   states are numbered on from the first's. */
uint32_t desk_join(
    const uint8_t *first, size_t first_length,   /* the first table */
    const uint8_t *second, size_t second_length, /* the second table, with the same letters */
    uint8_t *out, size_t out_length,             /* gets the joined table: at least 4,160 bytes */
    uint8_t *answer, size_t answer_length);      /* gets the six numbers */

/* Solves two tables by parts: each alone, then their join, held to the positions whose halves win
   alone. Gives the code; winners and controller are those of the join. */
uint32_t desk_parts(
    const uint8_t *first, size_t first_length,   /* the first table */
    const uint8_t *second, size_t second_length, /* the second table, with the same letters */
    uint32_t k,                                  /* the patience, as above */
    uint32_t room,                               /* N, as above, for each stage */
    uint8_t *winners, size_t winners_length,     /* gets the winners, 8 bytes each, ascending */
    uint8_t *controller, size_t controller_length, /* gets the rows: state, output, input, next */
    uint8_t *answer, size_t answer_length);        /* gets the six numbers */

/* Checks controller rows, whoever made them, against a table. Gives the code: 0 if following the
   rows from the state of the first one keeps every run of the table to k visits to marked states,
   its first state included, whatever the inputs, and 1 if it doesn't. Rows are well formed (15) if

   - the length is a positive multiple of 4 up to 8,192;
   - the first state's rows come first and the others ascend: states are numbered by any bytes;
   - each state has the inputs 0 up to the same last one, at most 7, once each in order;
   - every next state has rows;
   - a state has one output, at most 7.

   A row that is never reached may be refused (15, 13), but has no part in 0 and 1. The rows that
   desk_solve and desk_parts write with code 0 are well formed: as many as the number of winners
   times that of the table's inputs. */
uint32_t desk_check(
    const uint8_t *table, size_t table_length, /* the table: records of four bytes */
    uint32_t k,                                /* the patience, as above */
    const uint8_t *rows, size_t rows_length,   /* the rows: state, output, input, next */
    uint8_t *answer, size_t answer_length);    /* gets the six numbers */

#ifdef __cplusplus
}
#endif

#endif
