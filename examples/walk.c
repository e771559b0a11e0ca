/*
 * walk: checks a Bril text by the C functions and lists its functions, blocks and operations. A program to start from.
 *
 *     cc -std=c99 -I include -o walk examples/walk.c target/staticlib/libpitchsleet.a
 *     ./walk examples/frost.bril
 *
 * (In a package the archive is lib/libpitchsleet.a.)
 * With --bytes it calls pitchsleet_check in the place of pitchsleet_check_cells. FILE may be - for standard input.
 * The exit status is 0 accepted, 1 refused, 2 it could not be run.
 */
#include <inttypes.h>
#include <stdio.h>
#include <string.h>

#include "pitchsleet.h"

enum status { ACCEPTED, REFUSED, COULD_NOT_RUN };

/* The text, and a byte more: a text that is too long is refused by its length alone. */
static uint8_t text[PITCHSLEET_LIMIT_BYTES + 1];

/* What a check writes. A program that checks on several threads has these once for each. */
static uint32_t tokens[PITCHSLEET_TOKENS_CELLS];
static uint32_t names[PITCHSLEET_NAMES_CELLS];
static uint32_t functions[PITCHSLEET_FUNCTIONS_CELLS];
static uint32_t items[PITCHSLEET_ITEMS_CELLS];
static uint32_t arguments[PITCHSLEET_ARGUMENTS_CELLS];
static uint32_t blocks[PITCHSLEET_BLOCKS_CELLS];
static uint32_t predecessors[PITCHSLEET_PREDECESSORS_CELLS];
static uint8_t message[PITCHSLEET_MESSAGE_BYTES];

static struct pitchsleet_check_answer check_to_cells(size_t length)
{
    return pitchsleet_check_cells(
        text, length, tokens, PITCHSLEET_TOKENS_CELLS, names, PITCHSLEET_NAMES_CELLS,
        functions, PITCHSLEET_FUNCTIONS_CELLS, items, PITCHSLEET_ITEMS_CELLS,
        arguments, PITCHSLEET_ARGUMENTS_CELLS, blocks, PITCHSLEET_BLOCKS_CELLS,
        predecessors, PITCHSLEET_PREDECESSORS_CELLS, message, PITCHSLEET_MESSAGE_BYTES);
}

/* Cells out of bytes, the lowest first, whatever order this machine has. */
static void unpack(uint32_t *cells, size_t count, const uint8_t *bytes)
{
    for (size_t i = 0; i < count; i++) {
        const uint8_t *b = bytes + i * PITCHSLEET_CELL_BYTES;
        cells[i] = (uint32_t)b[0] | (uint32_t)b[1] << 8 | (uint32_t)b[2] << 16 | (uint32_t)b[3] << 24;
    }
}

static struct pitchsleet_check_answer check_to_bytes(size_t length)
{
    static uint8_t out[PITCHSLEET_CHECK_OUT_BYTES];
    struct pitchsleet_check_answer answer =
        pitchsleet_check(text, length, out, sizeof out, message, PITCHSLEET_MESSAGE_BYTES);
    unpack(tokens, PITCHSLEET_TOKENS_CELLS, out + PITCHSLEET_TOKENS_OFFSET);
    unpack(names, PITCHSLEET_NAMES_CELLS, out + PITCHSLEET_NAMES_OFFSET);
    unpack(functions, PITCHSLEET_FUNCTIONS_CELLS, out + PITCHSLEET_FUNCTIONS_OFFSET);
    unpack(items, PITCHSLEET_ITEMS_CELLS, out + PITCHSLEET_ITEMS_OFFSET);
    unpack(arguments, PITCHSLEET_ARGUMENTS_CELLS, out + PITCHSLEET_ARGUMENTS_OFFSET);
    unpack(blocks, PITCHSLEET_BLOCKS_CELLS, out + PITCHSLEET_BLOCKS_OFFSET);
    unpack(predecessors, PITCHSLEET_PREDECESSORS_CELLS, out + PITCHSLEET_PREDECESSORS_OFFSET);
    return answer;
}

/* The record with an index. */
static const uint32_t *token_at(uint32_t i) { return tokens + i * PITCHSLEET_TOKEN_WIDTH; }
static const uint32_t *name_at(uint32_t i) { return names + i * PITCHSLEET_NAME_WIDTH; }
static const uint32_t *item_at(uint32_t i) { return items + i * PITCHSLEET_ITEM_WIDTH; }
static const uint32_t *argument_at(uint32_t i) { return arguments + i * PITCHSLEET_ARGUMENT_WIDTH; }
static const uint32_t *block_at(uint32_t i) { return blocks + i * PITCHSLEET_BLOCK_WIDTH; }
static const uint32_t *function_at(uint32_t i)
{
    return functions + PITCHSLEET_FUNCTIONS_FIRST + i * PITCHSLEET_FUNCTION_WIDTH;
}

static void print_name(uint32_t name)
{
    const uint32_t *record = name_at(name);
    fwrite(text + record[PITCHSLEET_NAME_PLACE], 1, record[PITCHSLEET_NAME_LENGTH], stdout);
}

static const char *type_word(uint32_t type)
{
    return type == PITCHSLEET_TYPE_INT ? "int" : type == PITCHSLEET_TYPE_BOOL ? "bool" : "void";
}

/* A name, and its type where it is kept: " a:int". */
static void print_typed(const char *before, uint32_t name, uint32_t type)
{
    fputs(before, stdout);
    print_name(name);
    if (type != PITCHSLEET_TYPE_PLACEHOLDER) {
        printf(":%s", type_word(type));
    }
}

static void print_label(uint32_t name)
{
    putchar(' ');
    print_name(name);
}

/* The word of an operation, and of a constant its value: what its token says. */
static void print_token(const uint32_t *token)
{
    static const char *const words[] = {
        [PITCHSLEET_TOKEN_KIND_ADD] = "add", [PITCHSLEET_TOKEN_KIND_MUL] = "mul", [PITCHSLEET_TOKEN_KIND_SUB] = "sub",
        [PITCHSLEET_TOKEN_KIND_DIV] = "div", [PITCHSLEET_TOKEN_KIND_MOD] = "mod", [PITCHSLEET_TOKEN_KIND_EQ] = "eq",
        [PITCHSLEET_TOKEN_KIND_LT] = "lt", [PITCHSLEET_TOKEN_KIND_GT] = "gt", [PITCHSLEET_TOKEN_KIND_LE] = "le",
        [PITCHSLEET_TOKEN_KIND_GE] = "ge", [PITCHSLEET_TOKEN_KIND_AND] = "and", [PITCHSLEET_TOKEN_KIND_OR] = "or",
        [PITCHSLEET_TOKEN_KIND_NOT] = "not", [PITCHSLEET_TOKEN_KIND_ID] = "id", [PITCHSLEET_TOKEN_KIND_TRUE] = "true",
        [PITCHSLEET_TOKEN_KIND_FALSE] = "false",
    };
    if (token[PITCHSLEET_TOKEN_KIND] == PITCHSLEET_TOKEN_KIND_INTEGER) {
        printf("%" PRId32, (int32_t)token[PITCHSLEET_TOKEN_VALUE]);
    } else {
        fputs(words[token[PITCHSLEET_TOKEN_KIND]], stdout);
    }
}

static void print_call(const uint32_t *item)
{
    fputs("call ", stdout);
    print_name(item[PITCHSLEET_ITEM_LEFT]);
    for (uint32_t i = 0; i < item[PITCHSLEET_ITEM_ARGUMENT_COUNT]; i++) {
        const uint32_t *argument = argument_at(item[PITCHSLEET_ITEM_ARGUMENTS] + i);
        print_typed(" ", argument[PITCHSLEET_ARGUMENT_NAME], argument[PITCHSLEET_ARGUMENT_TYPE]);
    }
}

static void print_operation(const uint32_t *item)
{
    const uint32_t *token = token_at(item[PITCHSLEET_ITEM_TOKEN]);
    if (item[PITCHSLEET_ITEM_RESULT_TYPE] != PITCHSLEET_TYPE_PLACEHOLDER) {
        print_typed("", item[PITCHSLEET_ITEM_RESULT], item[PITCHSLEET_ITEM_RESULT_TYPE]);
        fputs(" = ", stdout);
    }
    switch (item[PITCHSLEET_ITEM_KIND]) {
    case PITCHSLEET_ITEM_KIND_BINARY:
        print_token(token);
        print_typed(" ", item[PITCHSLEET_ITEM_LEFT], item[PITCHSLEET_ITEM_LEFT_TYPE]);
        print_typed(" ", item[PITCHSLEET_ITEM_RIGHT], item[PITCHSLEET_ITEM_RIGHT_TYPE]);
        break;
    case PITCHSLEET_ITEM_KIND_UNARY:
        print_token(token);
        print_typed(" ", item[PITCHSLEET_ITEM_LEFT], item[PITCHSLEET_ITEM_LEFT_TYPE]);
        break;
    case PITCHSLEET_ITEM_KIND_CONST:
        fputs("const ", stdout);
        print_token(token);
        break;
    case PITCHSLEET_ITEM_KIND_CALL:
    case PITCHSLEET_ITEM_KIND_CALL_INTO:
        print_call(item);
        break;
    case PITCHSLEET_ITEM_KIND_PRINT:
        print_typed("print ", item[PITCHSLEET_ITEM_LEFT], item[PITCHSLEET_ITEM_LEFT_TYPE]);
        break;
    case PITCHSLEET_ITEM_KIND_NOP:
        fputs("nop", stdout);
        break;
    case PITCHSLEET_ITEM_KIND_JUMP:
        fputs("jmp", stdout);
        print_label(item[PITCHSLEET_ITEM_LABEL]);
        break;
    case PITCHSLEET_ITEM_KIND_BRANCH:
        print_typed("br ", item[PITCHSLEET_ITEM_LEFT], item[PITCHSLEET_ITEM_LEFT_TYPE]);
        print_label(item[PITCHSLEET_ITEM_LABEL]);
        print_label(item[PITCHSLEET_ITEM_SECOND_LABEL]);
        break;
    case PITCHSLEET_ITEM_KIND_RET:
        fputs(token[PITCHSLEET_TOKEN_KIND] == PITCHSLEET_TOKEN_KIND_RET ? "ret" : "ret (added)", stdout);
        break;
    case PITCHSLEET_ITEM_KIND_RET_VALUE:
        print_typed("ret ", item[PITCHSLEET_ITEM_LEFT], item[PITCHSLEET_ITEM_LEFT_TYPE]);
        break;
    }
}

/* The labels that name a block stand right before its first operation, from an item of the function on. */
static void print_labels(const uint32_t *function, const uint32_t *block)
{
    uint32_t end = block[PITCHSLEET_BLOCK_OPERATIONS];
    uint32_t at = end;
    while (at > function[PITCHSLEET_FUNCTION_ITEMS]
           && item_at(at - 1)[PITCHSLEET_ITEM_KIND] == PITCHSLEET_ITEM_KIND_LABEL) {
        at--;
    }
    for (; at < end; at++) {
        print_label(item_at(at)[PITCHSLEET_ITEM_LABEL]);
    }
}

/* A word and some block numbers: "; to 1, 2". */
static const char *print_edges(const char *before, const char *word, const uint32_t *cells, uint32_t count)
{
    if (count == 0) {
        return before;
    }
    printf("%s%s", before, word);
    for (uint32_t i = 0; i < count; i++) {
        printf("%s%" PRIu32, i == 0 ? " " : ", ", cells[i]);
    }
    return "; ";
}

static void print_block(const uint32_t *function, uint32_t number)
{
    const uint32_t *block = block_at(function[PITCHSLEET_FUNCTION_BLOCKS] + number);
    const char *before = ": ";
    printf("  block %" PRIu32, number);
    print_labels(function, block);
    if (block[PITCHSLEET_BLOCK_DEAD]) {
        printf("%sdead", before);
        before = "; ";
    }
    before = print_edges(before, "from", predecessors + block[PITCHSLEET_BLOCK_PREDECESSORS],
                         block[PITCHSLEET_BLOCK_PREDECESSOR_COUNT]);
    print_edges(before, "to", block + PITCHSLEET_BLOCK_SUCCESSOR, block[PITCHSLEET_BLOCK_SUCCESSOR_COUNT]);
    putchar('\n');
    for (uint32_t i = 0; i < block[PITCHSLEET_BLOCK_OPERATION_COUNT]; i++) {
        fputs("    ", stdout);
        print_operation(item_at(block[PITCHSLEET_BLOCK_OPERATIONS] + i));
        putchar('\n');
    }
}

/* "@least(a: int, b: int): int" */
static void print_header(const uint32_t *function)
{
    uint32_t count = function[PITCHSLEET_FUNCTION_FORMAL_COUNT];
    print_name(function[PITCHSLEET_FUNCTION_NAME]);
    for (uint32_t i = 0; i < count; i++) {
        const uint32_t *formal = function + PITCHSLEET_FUNCTION_FORMALS + i * PITCHSLEET_FORMAL_WIDTH;
        fputs(i == 0 ? "(" : ", ", stdout);
        print_name(formal[PITCHSLEET_FORMAL_NAME]);
        printf(": %s", type_word(formal[PITCHSLEET_FORMAL_TYPE]));
    }
    if (count != 0) {
        putchar(')');
    }
    if (function[PITCHSLEET_FUNCTION_RESULT] != PITCHSLEET_TYPE_VOID) {
        printf(": %s", type_word(function[PITCHSLEET_FUNCTION_RESULT]));
    }
    putchar('\n');
}

static void print_count(const char *before, uint32_t count, const char *thing)
{
    printf("%s%" PRIu32 " %s%s", before, count, thing, count == 1 ? "" : "s");
}

static void print_unit(const char *file, const struct pitchsleet_check_answer *answer)
{
    uint32_t operations = 0;
    for (uint32_t i = 0; i < answer->functions; i++) {
        const uint32_t *function = function_at(i);
        print_header(function);
        for (uint32_t number = 0; number < function[PITCHSLEET_FUNCTION_BLOCK_COUNT]; number++) {
            print_block(function, number);
        }
        putchar('\n');
    }
    for (uint32_t i = 0; i < answer->blocks; i++) {
        operations += block_at(i)[PITCHSLEET_BLOCK_OPERATION_COUNT];
    }
    printf("%s: accepted: ", file);
    print_count("", answer->functions, "function");
    print_count(", ", answer->blocks, "block");
    print_count(", ", operations, "operation");
    putchar('\n');
}

/* A message ends with its newline, and not before: it may hold zeros, and other bytes that aren't fit for a terminal. */
static void print_message(void)
{
    for (size_t i = 0; i < sizeof message && message[i] != '\n'; i++) {
        if (message[i] >= ' ' && message[i] <= '~') {
            putchar(message[i]);
        } else {
            printf("\\x%02x", (unsigned)message[i]);
        }
    }
    putchar('\n');
}

/* How many bytes the text has, as far as it is kept; or -1 where it can't be read. */
static long read_text(const char *file)
{
    FILE *input = strcmp(file, "-") == 0 ? stdin : fopen(file, "rb");
    if (input == NULL) {
        return -1;
    }
    size_t length = fread(text, 1, sizeof text, input);
    int failed = ferror(input);
    if (input != stdin) {
        fclose(input);
    }
    return failed ? -1 : (long)length;
}

int main(int count, char **words)
{
    int by_bytes = count == 3 && strcmp(words[1], "--bytes") == 0;
    if (count != 2 + by_bytes) {
        fputs("usage: walk [--bytes] FILE\n", stderr);
        return COULD_NOT_RUN;
    }
    const char *file = words[count - 1];
    long length = read_text(file);
    if (length < 0) {
        perror(file);
        return COULD_NOT_RUN;
    }
    struct pitchsleet_check_answer answer = by_bytes ? check_to_bytes((size_t)length) : check_to_cells((size_t)length);
    if (answer.number == PITCHSLEET_ACCEPTED) {
        print_unit(file, &answer);
    } else {
        printf("%s: refused %" PRIu32 " at byte %" PRIu32 ": ", file, answer.number, answer.place);
        print_message();
    }
    if (fflush(stdout) != 0 || ferror(stdout)) {
        perror("standard output");
        return COULD_NOT_RUN;
    }
    return answer.number == PITCHSLEET_ACCEPTED ? ACCEPTED : REFUSED;
}
