/*
 * calls OLD NUMBER NEW..: reads, checks and rechecks each text NEW by all six functions. It prints a line for each
 * answer and, behind all, how much stack the calls of each function took at most.
 *
 * What the functions on cells and those on bytes write must be alike, in every cell and in the whole message, and zero
 * behind; of the first text a slice that is one short must be answered with 30, and nothing written. The slices of
 * bytes stand at odd addresses. The exit status is 1 where something of this isn't so, and a line says what.
 */
#define _POSIX_C_SOURCE 200809L
#include <inttypes.h>
#include <pthread.h>
#include <stdio.h>
#include <stdlib.h>
#include <string.h>

#include "pitchsleet.h"

enum { SLICES = 7, OF_READ = 2, MORE = 3, STACK = 1 << 20, PAINT = 0x5a };

static const size_t sizes[SLICES] = {
    PITCHSLEET_TOKENS_CELLS, PITCHSLEET_NAMES_CELLS, PITCHSLEET_FUNCTIONS_CELLS, PITCHSLEET_ITEMS_CELLS,
    PITCHSLEET_ARGUMENTS_CELLS, PITCHSLEET_BLOCKS_CELLS, PITCHSLEET_PREDECESSORS_CELLS,
};
static const size_t offsets[SLICES] = {
    PITCHSLEET_TOKENS_OFFSET, PITCHSLEET_NAMES_OFFSET, PITCHSLEET_FUNCTIONS_OFFSET, PITCHSLEET_ITEMS_OFFSET,
    PITCHSLEET_ARGUMENTS_OFFSET, PITCHSLEET_BLOCKS_OFFSET, PITCHSLEET_PREDECESSORS_OFFSET,
};

struct text {
    uint8_t bytes[PITCHSLEET_LIMIT_BYTES + 2];
    size_t length;
};

/* One call: of which function, what it is lent, what it answers. */
enum function { READ_CELLS, CHECK_CELLS, RECHECK_CELLS, READ, CHECK, RECHECK, FUNCTIONS };
static const char *const function_names[FUNCTIONS] = {
    "read_cells", "check_cells", "recheck_cells", "read", "check", "recheck",
};

static enum function called;
static struct text old, new;
static uint32_t number;
static uint32_t table[PITCHSLEET_FUNCTIONS_CELLS];
static uint8_t table_bytes[1 + PITCHSLEET_TABLE_BYTES];
static uint32_t *cells[SLICES];
static size_t lengths[SLICES];
static uint8_t out[1 + PITCHSLEET_CHECK_OUT_BYTES + MORE];
static size_t out_length;
static uint8_t message[1 + PITCHSLEET_MESSAGE_BYTES + MORE];
static size_t message_length;
static struct pitchsleet_check_answer answer;

static char *stack;
static size_t most[FUNCTIONS];
static int wrong;

static void say(const char *what)
{
    printf("%s, %zu bytes: %s\n", function_names[called], new.length, what);
    wrong = 1;
}

static struct pitchsleet_check_answer as_check(struct pitchsleet_read_answer read)
{
    struct pitchsleet_check_answer check = {
        read.number, read.line, read.place, read.tokens, read.names, 0, 0, 0, 0, 0,
    };
    return check;
}

static void call(void)
{
    uint32_t **c = cells;
    size_t *l = lengths;
    switch (called) {
    case READ_CELLS:
        answer = as_check(pitchsleet_read_cells(
            new.bytes, new.length, c[0], l[0], c[1], l[1], message + 1, message_length));
        break;
    case CHECK_CELLS:
        answer = pitchsleet_check_cells(
            new.bytes, new.length, c[0], l[0], c[1], l[1], c[2], l[2], c[3], l[3], c[4], l[4], c[5], l[5], c[6], l[6],
            message + 1, message_length);
        break;
    case RECHECK_CELLS:
        answer = pitchsleet_recheck_cells(
            old.bytes, old.length, table, PITCHSLEET_FUNCTIONS_CELLS, number, new.bytes, new.length, c[0], l[0], c[1],
            l[1], c[2], l[2], c[3], l[3], c[4], l[4], c[5], l[5], c[6], l[6], message + 1, message_length);
        break;
    case READ:
        answer = as_check(pitchsleet_read(
            new.bytes, new.length, out + 1, out_length, message + 1, message_length));
        break;
    case CHECK:
        answer = pitchsleet_check(new.bytes, new.length, out + 1, out_length, message + 1, message_length);
        break;
    case RECHECK:
        answer = pitchsleet_recheck(
            old.bytes, old.length, table_bytes + 1, PITCHSLEET_TABLE_BYTES, number, new.bytes, new.length, out + 1,
            out_length, message + 1, message_length);
        break;
    default:
        break;
    }
}

/* The call on a stack that is painted, from well below this frame: what is no longer so was used. */
static void *call_on_paint(void *nothing)
{
    char here = PAINT;
    char *frame = &here;
    memset(stack, PAINT, (size_t)(frame - stack) - 512);
    call();
    size_t at = 0;
    while (stack[at] == PAINT) {
        at++;
    }
    size_t used = (size_t)(frame - stack) - at;
    if (used > most[called]) {
        most[called] = used;
    }
    return nothing;
}

static void call_on_thread(void)
{
    pthread_attr_t attributes;
    pthread_t thread;
    if (pthread_attr_init(&attributes) != 0 || pthread_attr_setstack(&attributes, stack, STACK) != 0
        || pthread_create(&thread, &attributes, call_on_paint, NULL) != 0 || pthread_join(thread, NULL) != 0) {
        fputs("no thread\n", stderr);
        exit(2);
    }
    pthread_attr_destroy(&attributes);
}

/* Slices that are longer than their sizes by some, and filled with something. */
static void lend(void)
{
    for (int i = 0; i < SLICES; i++) {
        lengths[i] = sizes[i] + MORE;
        memset(cells[i], PAINT, lengths[i] * sizeof *cells[i]);
    }
    int reads = called == READ || called == READ_CELLS;
    out_length = (reads ? PITCHSLEET_READ_OUT_BYTES : PITCHSLEET_CHECK_OUT_BYTES) + MORE;
    message_length = PITCHSLEET_MESSAGE_BYTES + MORE;
    memset(out, PAINT, sizeof out);
    memset(message, PAINT, sizeof message);
}

static uint32_t cell_of(const uint8_t *b)
{
    return (uint32_t)b[0] | (uint32_t)b[1] << 8 | (uint32_t)b[2] << 16 | (uint32_t)b[3] << 24;
}

/* What the call on cells and the call on bytes behind it have written. */
static void compare(int slices, const uint8_t *message_of_cells)
{
    for (int i = 0; i < slices; i++) {
        for (size_t k = 0; k < lengths[i]; k++) {
            uint32_t expected = k < sizes[i] ? cell_of(out + 1 + offsets[i] + k * PITCHSLEET_CELL_BYTES) : 0;
            if (cells[i][k] != expected) {
                say("the cells and the bytes differ");
                return;
            }
        }
    }
    for (size_t k = out_length - MORE; k < out_length; k++) {
        if (out[1 + k] != 0) {
            say("what is behind the bytes isn't zero");
        }
    }
    if (memcmp(message, message_of_cells, sizeof message) != 0) {
        say("the messages differ");
    }
}

static void call_both(enum function on_cells, enum function on_bytes)
{
    static uint8_t message_of_cells[sizeof message];
    called = on_cells;
    lend();
    call_on_thread();
    struct pitchsleet_check_answer of_cells = answer;
    memcpy(message_of_cells, message, sizeof message);
    /* The slices of cells keep what they hold, to be compared. */
    called = on_bytes;
    memset(message, PAINT, sizeof message);
    call_on_thread();
    if (memcmp(&of_cells, &answer, sizeof answer) != 0) {
        say("the answers differ");
    }
    compare(on_bytes == READ ? OF_READ : SLICES, message_of_cells);
    printf("%s %" PRIu32 " %" PRIu32 " %" PRIu32 " %" PRIu32 " %" PRIu32 " %" PRIu32 " %" PRIu32 " %" PRIu32 " %" PRIu32
           " %" PRIu32 "\n", function_names[called], answer.number, answer.line, answer.place, answer.tokens,
           answer.names, answer.functions, answer.items, answer.arguments, answer.blocks, answer.predecessors);
}

/* Each slice one short in turn, and the message behind them. */
static void call_short(enum function function, int slices)
{
    called = function;
    for (int i = 0; i <= slices; i++) {
        lend();
        if (i < slices) {
            lengths[i] = sizes[i] - 1;
        } else {
            message_length = PITCHSLEET_MESSAGE_BYTES - 1;
        }
        call();
        struct pitchsleet_check_answer short_answer = {30, 0, 0, 0, 0, 0, 0, 0, 0, 0};
        if (memcmp(&answer, &short_answer, sizeof answer) != 0) {
            say("a short slice isn't answered with 30");
        }
        int touched = 0;
        for (int k = 0; k < SLICES; k++) {
            for (size_t at = 0; at < sizes[k] + MORE; at++) {
                touched |= cells[k][at] != UINT32_C(0x01010101) * PAINT;
            }
        }
        for (size_t at = 0; at < sizeof message; at++) {
            touched |= message[at] != PAINT;
        }
        if (touched) {
            say("something is written beside the answer 30");
        }
    }
}

static void read_text(const char *file, struct text *text)
{
    FILE *input = fopen(file, "rb");
    if (input == NULL) {
        perror(file);
        exit(2);
    }
    text->length = fread(text->bytes, 1, sizeof text->bytes, input);
    fclose(input);
}

/* The old text's header table, as cells and as bytes. */
static void keep_table(void)
{
    new = old;
    called = CHECK_CELLS;
    lend();
    call();
    memcpy(table, cells[2], sizeof table);
    called = CHECK;
    lend();
    call();
    memcpy(table_bytes + 1, out + 1 + PITCHSLEET_FUNCTIONS_OFFSET, PITCHSLEET_TABLE_BYTES);
}

int main(int count, char **words)
{
    if (count < 3) {
        fputs("usage: calls OLD NUMBER NEW..\n", stderr);
        return 2;
    }
    for (int i = 0; i < SLICES; i++) {
        cells[i] = malloc((sizes[i] + MORE) * sizeof *cells[i]);
    }
    if (posix_memalign((void **)&stack, 4096, STACK) != 0) {
        return 2;
    }
    read_text(words[1], &old);
    number = (uint32_t)strtoul(words[2], NULL, 10);
    keep_table();
    for (int i = 3; i < count; i++) {
        read_text(words[i], &new);
        call_both(READ_CELLS, READ);
        call_both(CHECK_CELLS, CHECK);
        call_both(RECHECK_CELLS, RECHECK);
        if (i == 3) {
            call_short(READ_CELLS, OF_READ);
            call_short(CHECK_CELLS, SLICES);
            call_short(RECHECK_CELLS, SLICES);
        }
    }
    for (int i = 0; i < FUNCTIONS; i++) {
        printf("stack of %s: %zu\n", function_names[i], most[i]);
    }
    return wrong;
}
