/* The calls from C: every case of the file that is named, tests/vectors, with its result and every byte of
   the lent buffers and beyond them; the codes by the names of include/feshamiru.h. Then what that header
   says of null pointers. A line for each check, and last 'N passed, M failed'; the exit status is 1 if any
   failed, and 2 if the file could not be read. */
#include "feshamiru.h"
#include "operations.h"

#include <stdio.h>
#include <stdlib.h>
#include <string.h>

enum { LINE = 4096, TABLES = 16, MARGIN = 64, MOST = DESK_CONTROLLER_BYTES * (DESK_MOST_ROOM + 2) };

static const struct { const char *name; uint32_t code; } codes[] = {
    {"REALIZABLE", DESK_REALIZABLE}, {"UNREALIZABLE", DESK_UNREALIZABLE}, {"BOUND", DESK_BOUND},
    {"ROOM", DESK_ROOM}, {"LENGTH", DESK_LENGTH}, {"RECORD", DESK_RECORD}, {"ORDER", DESK_ORDER},
    {"STATES", DESK_STATES}, {"START", DESK_START}, {"EDGE", DESK_EDGE}, {"GAP", DESK_GAP},
    {"FULL", DESK_FULL}, {"NOTHING", DESK_NOTHING}, {"LETTERS", DESK_LETTERS}, {"SIZE", DESK_SIZE},
    {"ROWS", DESK_ROWS},
};

/* A buffer before the call, or as it has to be afterwards; the bytes after it are looked at too. */
struct lent {
    uint8_t bytes[MOST + MARGIN];
    size_t length;
};

/* A case as it is read line by line. */
struct check {
    char name[LINE];
    const struct operation *operation;
    uint32_t numbers[MOST_NUMBERS], result;
    size_t taken, buffers;
    struct lent before[MOST_BUFFERS], after[MOST_BUFFERS];
};

static struct { char name[LINE], digits[LINE]; } tables[TABLES];
static size_t tables_number, passed, failed;
static struct check check;

/* Ends the program: the file is not as its head says. */
static void refuse(const char *why, const char *line) {
    fprintf(stderr, "calls: %s: %s\n", why, line);
    exit(2);
}

static void tell(const char *name, const char *fault) {
    if (fault == NULL) {
        passed++;
        printf("passed: %s\n", name);
    } else {
        failed++;
        printf("FAILED: %s: %s\n", name, fault);
    }
}

static uint32_t code_named(const char *name) {
    for (size_t place = 0; place < sizeof codes / sizeof codes[0]; place++)
        if (strcmp(codes[place].name, name) == 0) return codes[place].code;
    refuse("no such code", name);
    return 0;
}

static void fill(struct lent *lent, size_t length) {
    if (length > MOST) refuse("a buffer is too long", check.name);
    lent->length = length;
    for (size_t place = 0; place < sizeof lent->bytes; place++) lent->bytes[place] = (uint8_t)(place * 29) ^ 0xA7;
}

/* Lays digits down from the beginning, one a byte, and gives how many. */
static size_t lay(struct lent *lent, const char *digits) {
    size_t number = 0;
    for (; *digits != '\0'; digits++)
        if (*digits >= '0' && *digits <= '9' && number < MOST) lent->bytes[number++] = (uint8_t)(*digits - '0');
    return number;
}

static const char *digits_of(const char *text) {
    for (size_t place = 0; place < tables_number; place++)
        if (strcmp(tables[place].name, text) == 0) return tables[place].digits;
    return text;
}

static void begin_call(const char *text) {
    char name[LINE] = "";
    int at = 0;
    sscanf(text, "%15s%n", name, &at);
    const struct operation *operation = operations;
    while (operation->call != NULL && strcmp(operation->name, name) != 0) operation++;
    if (operation->call == NULL) refuse("no such call", text);
    check.operation = operation;
    check.taken = check.buffers = 0;
    unsigned long number;
    for (int more = 0; sscanf(text + at, "%lu%n", &number, &more) == 1 && check.taken < MOST_NUMBERS; at += more)
        check.numbers[check.taken++] = (uint32_t)number;
}

/* The place of the next buffer, filled before and after with so many lent bytes. */
static size_t next_buffer(size_t length) {
    if (check.buffers == MOST_BUFFERS) refuse("too many buffers", check.name);
    fill(&check.before[check.buffers], length);
    fill(&check.after[check.buffers], length);
    return check.buffers++;
}

static void add_read(const char *text) {
    size_t place = next_buffer(0);
    check.before[place].length = lay(&check.before[place], digits_of(text));
    check.after[place] = check.before[place];
}

static void add_lent(const char *text) {
    char *rest;
    size_t place = next_buffer(strtoul(text, &rest, 10));
    lay(&check.after[place], digits_of(rest + strspn(rest, " ")));
}

static void add_answer(const char *text) {
    char code[LINE];
    unsigned long length;
    uint32_t field[6];
    if (sscanf(text, "%lu %31s %u %u %u %u %u", &length, code, &field[1], &field[2], &field[3], &field[4], &field[5]) != 7)
        refuse("not an answer", text);
    field[0] = code_named(code);
    size_t place = next_buffer(length);
    for (size_t byte = 0; byte < DESK_ANSWER_BYTES && length >= DESK_ANSWER_BYTES; byte++)
        check.after[place].bytes[byte] = (uint8_t)(field[byte / 4] >> 8 * (byte % 4));
}

/* What comes out otherwise than the case says, or null. */
static const char *fault(void) {
    struct buffer buffers[MOST_BUFFERS];
    if (check.taken != check.operation->numbers) return "other numbers than the call takes";
    if (check.buffers != check.operation->buffers) return "other buffers than the call takes";
    for (size_t place = 0; place < check.buffers; place++)
        buffers[place] = (struct buffer){check.before[place].bytes, check.before[place].length};
    if (check.operation->call(check.numbers, buffers) != check.result) return "the result";
    static char differing[] = "buffer 0";
    for (size_t place = 0; place < check.buffers; place++) {
        differing[7] = (char)('0' + place);
        if (memcmp(check.before[place].bytes, check.after[place].bytes, sizeof check.before[place].bytes) != 0) return differing;
    }
    return NULL;
}

static void add_table(const char *text) {
    int at = 0;
    if (tables_number == TABLES) refuse("too many tables", text);
    sscanf(text, "%63s%n", tables[tables_number].name, &at);
    strcpy(tables[tables_number++].digits, text + at);
}

static void read_line(const char *word, const char *rest) {
    if (strcmp(word, "table") == 0) {
        add_table(rest);
    } else if (strcmp(word, "case") == 0) {
        strcpy(check.name, rest);
    } else if (strcmp(word, "call") == 0) {
        begin_call(rest);
    } else if (strcmp(word, "read") == 0) {
        add_read(rest);
    } else if (strcmp(word, "lend") == 0) {
        add_lent(rest);
    } else if (strcmp(word, "answer") == 0) {
        add_answer(rest);
    } else if (strcmp(word, "gives") == 0) {
        check.result = code_named(rest);
        tell(check.name, fault());
    } else {
        refuse("no such line", word);
    }
}

static void read_file(FILE *file) {
    char line[LINE], word[16];
    while (fgets(line, sizeof line, file) != NULL) {
        int at = 0;
        line[strcspn(line, "\n")] = '\0';
        if (sscanf(line, " %15s %n", word, &at) == 1 && word[0] != '#') read_line(word, line + at);
    }
}

/* The header asks for none; what it says of one with length 0 is seen here. */
static void try_null(void) {
    uint8_t answer[DESK_ANSWER_BYTES], out[DESK_TABLE_BYTES];
    uint32_t code = desk_join(NULL, 0, NULL, 0, out, sizeof out, answer, sizeof answer);
    tell("join, both tables null with length 0", code == DESK_LENGTH ? NULL : "the result");
    code = desk_join(out, 0, out, 0, NULL, 0, NULL, 0);
    tell("join, out and answer null with length 0", code == DESK_ROOM ? NULL : "the result");
    code = desk_solve(NULL, 0, 0, 1, NULL, 0, NULL, 0, NULL, 0);
    tell("solve, every buffer null with length 0", code == DESK_ROOM ? NULL : "the result");
    code = desk_parts(NULL, 0, NULL, 0, 8, 1, NULL, 0, NULL, 0, NULL, 0);
    tell("parts, every buffer null with length 0", code == DESK_BOUND ? NULL : "the result");
    code = desk_check(NULL, 0, 0, NULL, 0, answer, sizeof answer);
    tell("check, table and rows null with length 0", code == DESK_LENGTH ? NULL : "the result");
    code = desk_check(NULL, 0, 0, NULL, 0, NULL, 0);
    tell("check, every buffer null with length 0", code == DESK_ROOM ? NULL : "the result");
}

int main(int words, char **word) {
    FILE *file = words == 2 ? fopen(word[1], "r") : NULL;
    if (file == NULL) refuse("usage", "from_c tests/vectors");
    read_file(file);
    fclose(file);
    try_null();
    printf("%zu passed, %zu failed\n", passed, failed);
    return failed > 0;
}
