/* A small program in C that calls the solver: it solves the table of tables/owed.table with
   patience 0 and prints the code and the controller's rows. README.md says how it is built. */
#include "feshamiru.h"

#include <stdio.h>

static const uint8_t owed[] = {
    1, 0, 2, 0, 1, 1, 0, 0, 2, 0, 0, 0, 2, 1, 1, 0,
    3, 0, 0, 0, 3, 0, 1, 0, 3, 1, 0, 1, 3, 1, 1, 0,
    4, 0, 0, 0, 4, 0, 1, 0, 4, 0, 1, 1, 4, 1, 0, 1, 4, 1, 1, 1};

enum { K = 0, ROOM = 256, INPUTS = 2 };
static uint8_t winners[DESK_WINNER_BYTES * ROOM], rows[DESK_CONTROLLER_BYTES * ROOM];
static uint8_t answer[DESK_ANSWER_BYTES];

int main(void) {
    uint32_t code = desk_solve(owed, sizeof owed, K, ROOM, winners, sizeof winners,
                               rows, sizeof rows, answer, sizeof answer);
    printf("code %u\n", (unsigned)code);
    if (code != DESK_REALIZABLE) return 1;
    unsigned count = answer[16] + 256u * answer[17]; /* the number of winners: at most 256 */
    for (const uint8_t *row = rows; row < rows + 4 * INPUTS * count; row += 4)
        printf("%d %d %d %d\n", row[0], row[1], row[2], row[3]); /* state, output, input, next */
    return 0;
}
