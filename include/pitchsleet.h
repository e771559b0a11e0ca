/*
 * pitchsleet.h: a verified reader and type checker of Bril text, for C and C++.
 *
 *     cc -I include main.c libpitchsleet.a
 *
 * The archive is for x86-64 Linux and needs the C library alone. docs/INTERFACE.md says what each cell holds and gives
 * every message; a test holds this file to it, name by name. examples/walk.c is a program to start from.
 *
 * There are three things to ask, each in two forms that answer alike:
 *
 *     read      a text's tokens and names                                 pitchsleet_read_cells, pitchsleet_read
 *     check     and its functions with blocks, edges, typed operations    pitchsleet_check_cells, pitchsleet_check
 *     recheck   one new function against an accepted text's headers       pitchsleet_recheck_cells, pitchsleet_recheck
 *
 * On cells, each kind of record has a slice of uint32_t of its own. On bytes, all of them stand in one slice `out`. For
 * a new host take the functions on cells: they copy nothing and need little stack.
 *
 * What they ask of the caller:
 *
 * - A slice goes as a pointer and a length: in cells where it is a slice of uint32_t, else in bytes. No pointer is
 *   null, not even of an empty slice, each is good for its length, and no two slices overlap.
 * - A slice of cells is aligned as uint32_t is. Slices of bytes may stand anywhere.
 * - The calling thread has the stack that the call takes: see each function.
 *
 * Nothing else is asked. Any text, of any length and with any bytes in it, has its answer, and every call returns.
 * Nothing is kept between calls and nothing is allocated; calls may run on several threads at once, each on slices of
 * its own.
 *
 * What they answer:
 *
 * - number 0: accepted. The counts say how many records each slice has. Everything else in the lent slices is zero, up
 *   to their ends, the whole message too.
 * - number 30: a lent slice is shorter than its size, which stands below. Nothing was written. With slices of these
 *   sizes or longer it is never given.
 * - any other number: refused, at a line and a place, which is the index of a byte in the text, or the text's length
 *   where it is the end that is refused. Only `message` holds something, and all other slices are zero. THE MESSAGE'S LENGTH IS ONE PAST ITS NEWLINE, which it always has, and
 *   not the place of its first zero: it may hold a zero byte, or another control character, of the text.
 */
#ifndef PITCHSLEET_H
#define PITCHSLEET_H

#include <stddef.h>
#include <stdint.h>

/* The version, of this file and of the archive beside it. */
#define PITCHSLEET_VERSION "0.2.0"
#define PITCHSLEET_VERSION_MAJOR 0
#define PITCHSLEET_VERSION_MINOR 2
#define PITCHSLEET_VERSION_PATCH 0

/* What a text may have at most. One more of a thing is refused. */
#define PITCHSLEET_LIMIT_BYTES 16384               /* of a text */
#define PITCHSLEET_LIMIT_TOKENS 4096               /* of a text, the end token with them */
#define PITCHSLEET_LIMIT_NAMES 1024                /* of a text */
#define PITCHSLEET_LIMIT_NAME_BYTES 64             /* of a name, its sigil with it */
#define PITCHSLEET_LIMIT_FUNCTIONS 64              /* of a text */
#define PITCHSLEET_LIMIT_FORMALS 16                /* of a function */
#define PITCHSLEET_LIMIT_ARGUMENTS 16              /* of a call */
#define PITCHSLEET_LIMIT_LABELS 255                /* of a function */
#define PITCHSLEET_LIMIT_BLOCKS 256                /* of a function: its labels, and block 0 */

/* The sizes of the lent slices of cells, in cells. A shorter one is answered with 30. */
#define PITCHSLEET_TOKENS_CELLS 16384
#define PITCHSLEET_NAMES_CELLS 2048
#define PITCHSLEET_FUNCTIONS_CELLS 2881
#define PITCHSLEET_ITEMS_CELLS 24576
#define PITCHSLEET_ARGUMENTS_CELLS 6928
#define PITCHSLEET_BLOCKS_CELLS 8192
#define PITCHSLEET_PREDECESSORS_CELLS 2048

/* The sizes of the lent slices of bytes, in bytes. A shorter one is answered with 30, a shorter table with 42. */
#define PITCHSLEET_MESSAGE_BYTES 512               /* of every function */
#define PITCHSLEET_READ_OUT_BYTES 73728            /* out of pitchsleet_read */
#define PITCHSLEET_CHECK_OUT_BYTES 252228          /* out of pitchsleet_check and pitchsleet_recheck */
#define PITCHSLEET_TABLE_BYTES 11524               /* table of pitchsleet_recheck */

/*
 * On bytes: where each slice of cells begins in `out`. A cell is four bytes there, the lowest first, so cell i of the
 * slice stands at this offset + i * PITCHSLEET_CELL_BYTES.
 */
#define PITCHSLEET_CELL_BYTES 4
#define PITCHSLEET_TOKENS_OFFSET 0
#define PITCHSLEET_NAMES_OFFSET 65536
#define PITCHSLEET_FUNCTIONS_OFFSET 73728
#define PITCHSLEET_ITEMS_OFFSET 85252
#define PITCHSLEET_ARGUMENTS_OFFSET 183556
#define PITCHSLEET_BLOCKS_OFFSET 211268
#define PITCHSLEET_PREDECESSORS_OFFSET 244036

/* How many records have room in a slice, and how many cells each of them has. Record i begins at cell i * width. */
#define PITCHSLEET_TOKENS_ROOM 4096
#define PITCHSLEET_TOKEN_WIDTH 4
#define PITCHSLEET_NAMES_ROOM 1024
#define PITCHSLEET_NAME_WIDTH 2
#define PITCHSLEET_FUNCTIONS_ROOM 64
#define PITCHSLEET_FUNCTION_WIDTH 45
#define PITCHSLEET_ITEMS_ROOM 3072
#define PITCHSLEET_ITEM_WIDTH 8
#define PITCHSLEET_ARGUMENTS_ROOM 3464
#define PITCHSLEET_ARGUMENT_WIDTH 2
#define PITCHSLEET_BLOCKS_ROOM 1024
#define PITCHSLEET_BLOCK_WIDTH 8
#define PITCHSLEET_PREDECESSORS_ROOM 2048
#define PITCHSLEET_PREDECESSOR_WIDTH 1

/* But function i begins at cell FUNCTIONS_FIRST + i * FUNCTION_WIDTH: the first cell of that slice is their count. */
#define PITCHSLEET_FUNCTIONS_COUNT 0
#define PITCHSLEET_FUNCTIONS_FIRST 1

/* The cells of a token. */
#define PITCHSLEET_TOKEN_KIND 0                    /* one of TOKEN_KIND_.. */
#define PITCHSLEET_TOKEN_VALUE 1                   /* a name's number, an integer's 32 bits, or 0 */
#define PITCHSLEET_TOKEN_LINE 2                    /* from 1; newlines in comments are not counted */
#define PITCHSLEET_TOKEN_PLACE 3                   /* the index of its first byte; of the end token the text's length */

/* The cells of a name. Its number is its index. Its spelling is the bytes of the text from its place. */
#define PITCHSLEET_NAME_PLACE 0                    /* where it first appears */
#define PITCHSLEET_NAME_LENGTH 1                   /* in bytes, its sigil with it */

/*
 * The cells of a function. Here and below a name is its number, and a token, an item, a block, an argument or a
 * predecessor is the index of its record in its slice.
 */
#define PITCHSLEET_FUNCTION_TOKEN 0                /* its name's token */
#define PITCHSLEET_FUNCTION_NAME 1
#define PITCHSLEET_FUNCTION_END 2                  /* its closing brace's token */
#define PITCHSLEET_FUNCTION_PLACE 3                /* its name's place in the text */
#define PITCHSLEET_FUNCTION_LENGTH 4               /* its name's length */
#define PITCHSLEET_FUNCTION_LINE 5                 /* its name's line */
#define PITCHSLEET_FUNCTION_RESULT 6               /* TYPE_INT, TYPE_BOOL or TYPE_VOID */
#define PITCHSLEET_FUNCTION_TYPE 7                 /* its function type's number, from 0; equal types share one */
#define PITCHSLEET_FUNCTION_ITEMS 8                /* its first item */
#define PITCHSLEET_FUNCTION_ITEM_COUNT 9
#define PITCHSLEET_FUNCTION_BLOCKS 10              /* its first block, block 0 */
#define PITCHSLEET_FUNCTION_BLOCK_COUNT 11         /* at least 1 */
#define PITCHSLEET_FUNCTION_FORMAL_COUNT 12
#define PITCHSLEET_FUNCTION_FORMALS 13             /* its first formal; the others follow */

/* The cells of a formal, in a function. */
#define PITCHSLEET_FORMAL_WIDTH 2
#define PITCHSLEET_FORMAL_NAME 0
#define PITCHSLEET_FORMAL_TYPE 1                   /* TYPE_INT or TYPE_BOOL */

/* The cells of an item: an operation or a label. Those that its kind doesn't have are 0. */
#define PITCHSLEET_ITEM_KIND 0                     /* one of ITEM_KIND_.. */
#define PITCHSLEET_ITEM_TOKEN 1                    /* its word's token; of CONST its value's */
#define PITCHSLEET_ITEM_RESULT 2                   /* BINARY, UNARY, CONST, CALL_INTO: a name */
#define PITCHSLEET_ITEM_RESULT_TYPE 3
#define PITCHSLEET_ITEM_LEFT 4                     /* the first operand; BRANCH: the condition; calls: the callee */
#define PITCHSLEET_ITEM_LEFT_TYPE 5                /* of a callee TYPE_FUNCTION + its function type's number */
#define PITCHSLEET_ITEM_RIGHT 6                    /* BINARY: the right operand */
#define PITCHSLEET_ITEM_RIGHT_TYPE 7
#define PITCHSLEET_ITEM_LABEL 6                    /* LABEL, JUMP; BRANCH: the first label */
#define PITCHSLEET_ITEM_SECOND_LABEL 7             /* BRANCH: the second label */
#define PITCHSLEET_ITEM_ARGUMENTS 6                /* calls: the first argument */
#define PITCHSLEET_ITEM_ARGUMENT_COUNT 7

/* The cells of an argument. */
#define PITCHSLEET_ARGUMENT_NAME 0
#define PITCHSLEET_ARGUMENT_TYPE 1                 /* TYPE_INT or TYPE_BOOL */

/*
 * The cells of a block. Successors, and the one cell of a predecessor, are block numbers, counted from the function's
 * first block. The labels that name a block are the items right before its first operation.
 */
#define PITCHSLEET_BLOCK_OPERATIONS 0              /* its first operation, an item */
#define PITCHSLEET_BLOCK_OPERATION_COUNT 1         /* at least 1; the last is JUMP, BRANCH, RET or RET_VALUE */
#define PITCHSLEET_BLOCK_SUCCESSOR_COUNT 2         /* 0 to 2 */
#define PITCHSLEET_BLOCK_SUCCESSOR 3
#define PITCHSLEET_BLOCK_SECOND_SUCCESSOR 4
#define PITCHSLEET_BLOCK_PREDECESSORS 5            /* its first predecessor */
#define PITCHSLEET_BLOCK_PREDECESSOR_COUNT 6
#define PITCHSLEET_BLOCK_DEAD 7                    /* 1 where it is not block 0 and no edge enters it, else 0 */

/* Types. */
#define PITCHSLEET_TYPE_PLACEHOLDER 0              /* not kept: of operands of ret, print and br */
#define PITCHSLEET_TYPE_INT 1
#define PITCHSLEET_TYPE_BOOL 2
#define PITCHSLEET_TYPE_VOID 3                     /* no value */
#define PITCHSLEET_TYPE_FUNCTION 4                 /* function type 0; the others follow by their numbers */

/* Kinds of tokens. 0 is none, and fills unused room. */
#define PITCHSLEET_TOKEN_KIND_LOCAL 1
#define PITCHSLEET_TOKEN_KIND_GLOBAL 2
#define PITCHSLEET_TOKEN_KIND_LABEL 3
#define PITCHSLEET_TOKEN_KIND_INTEGER 4
#define PITCHSLEET_TOKEN_KIND_ADD 5
#define PITCHSLEET_TOKEN_KIND_MUL 6
#define PITCHSLEET_TOKEN_KIND_SUB 7
#define PITCHSLEET_TOKEN_KIND_DIV 8
#define PITCHSLEET_TOKEN_KIND_MOD 9
#define PITCHSLEET_TOKEN_KIND_TRUE 10
#define PITCHSLEET_TOKEN_KIND_FALSE 11
#define PITCHSLEET_TOKEN_KIND_EQ 12
#define PITCHSLEET_TOKEN_KIND_LT 13
#define PITCHSLEET_TOKEN_KIND_GT 14
#define PITCHSLEET_TOKEN_KIND_LE 15
#define PITCHSLEET_TOKEN_KIND_GE 16
#define PITCHSLEET_TOKEN_KIND_NOT 17
#define PITCHSLEET_TOKEN_KIND_AND 18
#define PITCHSLEET_TOKEN_KIND_OR 19
#define PITCHSLEET_TOKEN_KIND_JMP 20
#define PITCHSLEET_TOKEN_KIND_BR 21
#define PITCHSLEET_TOKEN_KIND_CALL 22
#define PITCHSLEET_TOKEN_KIND_RET 23
#define PITCHSLEET_TOKEN_KIND_DEFINE 24            /* = */
#define PITCHSLEET_TOKEN_KIND_LEFT_PAREN 25        /* ( */
#define PITCHSLEET_TOKEN_KIND_RIGHT_PAREN 26       /* ) */
#define PITCHSLEET_TOKEN_KIND_LEFT_BRACE 27        /* { */
#define PITCHSLEET_TOKEN_KIND_RIGHT_BRACE 28       /* } */
#define PITCHSLEET_TOKEN_KIND_COLON 29             /* : */
#define PITCHSLEET_TOKEN_KIND_SEMICOLON 30         /* ; */
#define PITCHSLEET_TOKEN_KIND_COMMA 31             /* , */
#define PITCHSLEET_TOKEN_KIND_INT 32
#define PITCHSLEET_TOKEN_KIND_BOOL 33
#define PITCHSLEET_TOKEN_KIND_CONST 34
#define PITCHSLEET_TOKEN_KIND_PRINT 35
#define PITCHSLEET_TOKEN_KIND_NOP 36
#define PITCHSLEET_TOKEN_KIND_ID 37
#define PITCHSLEET_TOKEN_KIND_END_OF_FILE 38       /* the end of the text, always the last token */

/* Kinds of items. From JUMP on they end a block. */
#define PITCHSLEET_ITEM_KIND_LABEL 1
#define PITCHSLEET_ITEM_KIND_BINARY 2              /* its token says which: add .. ge, and, or */
#define PITCHSLEET_ITEM_KIND_UNARY 3               /* its token says which: id, not */
#define PITCHSLEET_ITEM_KIND_CONST 4               /* its token is the value: an integer, true, false */
#define PITCHSLEET_ITEM_KIND_CALL 5
#define PITCHSLEET_ITEM_KIND_CALL_INTO 6           /* a call with a result */
#define PITCHSLEET_ITEM_KIND_PRINT 7
#define PITCHSLEET_ITEM_KIND_NOP 8
#define PITCHSLEET_ITEM_KIND_JUMP 9
#define PITCHSLEET_ITEM_KIND_BRANCH 10
#define PITCHSLEET_ITEM_KIND_RET 11                /* added in a void function where its token is no ret */
#define PITCHSLEET_ITEM_KIND_RET_VALUE 12          /* ret with a value */

/* The numbers of answers: accepted, or why not. */
#define PITCHSLEET_ACCEPTED 0
#define PITCHSLEET_REFUSED_NOT_ASCII 1             /* a byte above 127 */
#define PITCHSLEET_REFUSED_COMMENT_NOT_CLOSED 2    /* a comment that is not closed */
#define PITCHSLEET_REFUSED_UNEXPECTED_BYTE 3       /* a byte that begins no token */
#define PITCHSLEET_REFUSED_NUMBER_EXPECTED 4       /* '-' without digits, or a number below -2147483648 */
#define PITCHSLEET_REFUSED_TOKEN_EXPECTED 5        /* a certain token is missing */
#define PITCHSLEET_REFUSED_NO_LOCAL 6              /* a local is missing */
#define PITCHSLEET_REFUSED_NO_GLOBAL 7             /* a global is missing */
#define PITCHSLEET_REFUSED_NO_LABEL 8              /* a label is missing */
#define PITCHSLEET_REFUSED_NO_TYPE 9               /* a type is missing */
#define PITCHSLEET_REFUSED_NO_CONSTANT 10          /* a constant is missing */
#define PITCHSLEET_REFUSED_UNEXPECTED_TOKEN 11     /* no operation's word */
#define PITCHSLEET_REFUSED_NO_LABEL_FIRST 12       /* an operation behind its block's end */
#define PITCHSLEET_REFUSED_DUPLICATE_LABEL 13      /* a label that names a block already */
#define PITCHSLEET_REFUSED_MISSING_TARGET 14       /* a jump to a label that isn't there */
#define PITCHSLEET_REFUSED_UNEXPECTED_TYPE 15      /* a name that has another type already */
#define PITCHSLEET_REFUSED_UNDEFINED 16            /* a name that isn't there */
#define PITCHSLEET_REFUSED_OTHER_TYPE 17           /* one type where another must be */
#define PITCHSLEET_REFUSED_VOID_VALUE 18           /* a value of a void function */
#define PITCHSLEET_REFUSED_NO_VALUE 19             /* no value of a function that has one */
#define PITCHSLEET_REFUSED_OTHER_COUNT 20          /* more or fewer arguments than formals */
#define PITCHSLEET_REFUSED_NO_TERMINATOR 21        /* a block without jmp, br or ret in a function with a result */
#define PITCHSLEET_REFUSED_EMPTY_BLOCK 22          /* a block without an operation */
#define PITCHSLEET_REFUSED_SHORT_BUFFER 30         /* a lent slice is shorter than its size: nothing was written */
#define PITCHSLEET_REFUSED_TOO_MANY_BYTES 31       /* more than LIMIT_BYTES bytes */
#define PITCHSLEET_REFUSED_TOO_MANY_TOKENS 32      /* more than LIMIT_TOKENS tokens */
#define PITCHSLEET_REFUSED_TOO_MANY_NAMES 33       /* more than LIMIT_NAMES names */
#define PITCHSLEET_REFUSED_NAME_TOO_LONG 34        /* a name of more than LIMIT_NAME_BYTES bytes */
#define PITCHSLEET_REFUSED_TOO_MANY_FUNCTIONS 35   /* more than LIMIT_FUNCTIONS functions */
#define PITCHSLEET_REFUSED_TOO_MANY_FORMALS 36     /* more than LIMIT_FORMALS formals */
#define PITCHSLEET_REFUSED_TOO_MANY_ARGUMENTS 37   /* more than LIMIT_ARGUMENTS arguments */
#define PITCHSLEET_REFUSED_TOO_MANY_LABELS 38      /* more than LIMIT_LABELS labels */
#define PITCHSLEET_REFUSED_NOT_ONE_FUNCTION 40     /* the new text is not one function, from its @ to its } */
#define PITCHSLEET_REFUSED_HEADER_CHANGED 41       /* the new function has another name or other types */
#define PITCHSLEET_REFUSED_BAD_TABLE 42            /* too long an old text, no such function, or cells that no table has */
#define PITCHSLEET_REFUSED_NUMBER_OUT_OF_RANGE 43  /* a number above 2147483647 */

#ifdef __cplusplus
extern "C" {
#endif

/* What read answers: number, line and place as above, and how many records stand in each slice. 20 bytes. */
struct pitchsleet_read_answer { uint32_t number, line, place, tokens, names; };

/* What check and recheck answer. 40 bytes. */
struct pitchsleet_check_answer {
    uint32_t number, line, place, tokens, names, functions, items, arguments, blocks, predecessors;
};

/* Reads a text into cells. Stack: less than 8 KiB. */
struct pitchsleet_read_answer pitchsleet_read_cells(
    const uint8_t *text, size_t text_len,
    uint32_t *tokens, size_t tokens_len,
    uint32_t *names, size_t names_len,
    uint8_t *message, size_t message_len);

/* Checks a text into cells. Stack: less than 16 KiB. */
struct pitchsleet_check_answer pitchsleet_check_cells(
    const uint8_t *text, size_t text_len,
    uint32_t *tokens, size_t tokens_len,
    uint32_t *names, size_t names_len,
    uint32_t *functions, size_t functions_len,
    uint32_t *items, size_t items_len,
    uint32_t *arguments, size_t arguments_len,
    uint32_t *blocks, size_t blocks_len,
    uint32_t *predecessors, size_t predecessors_len,
    uint8_t *message, size_t message_len);

/*
 * Checks a new function in the place of one of an accepted text, into cells. `table` is a copy of the `functions` that
 * check wrote for the old text (shorter than its size it is answered with 42, and of a longer one no more is read);
 * `number` is the function's, from 0 in the order of the old text; and the new text is the function from its @ to its
 * }, with nothing before or behind. What is written is of the new text alone; but lines start at the replaced
 * function's, and function types have their numbers in the old text. Stack: less than 28 KiB.
 */
struct pitchsleet_check_answer pitchsleet_recheck_cells(
    const uint8_t *old_text, size_t old_text_len,
    const uint32_t *table, size_t table_len,
    uint32_t number,
    const uint8_t *new_text, size_t new_text_len,
    uint32_t *tokens, size_t tokens_len,
    uint32_t *names, size_t names_len,
    uint32_t *functions, size_t functions_len,
    uint32_t *items, size_t items_len,
    uint32_t *arguments, size_t arguments_len,
    uint32_t *blocks, size_t blocks_len,
    uint32_t *predecessors, size_t predecessors_len,
    uint8_t *message, size_t message_len);

/* Reads a text into bytes. Stack: less than 80 KiB. */
struct pitchsleet_read_answer pitchsleet_read(
    const uint8_t *text, size_t text_len,
    uint8_t *out, size_t out_len,
    uint8_t *message, size_t message_len);

/* Checks a text into bytes. Stack: less than 264 KiB. */
struct pitchsleet_check_answer pitchsleet_check(
    const uint8_t *text, size_t text_len,
    uint8_t *out, size_t out_len,
    uint8_t *message, size_t message_len);

/*
 * Checks a new function in the place of one of an accepted text, into bytes: as pitchsleet_recheck_cells, but for the
 * table, which is a copy of the PITCHSLEET_TABLE_BYTES from PITCHSLEET_FUNCTIONS_OFFSET on that check wrote for the old
 * text. Stack: less than 284 KiB.
 */
struct pitchsleet_check_answer pitchsleet_recheck(
    const uint8_t *old_text, size_t old_text_len,
    const uint8_t *table, size_t table_len,
    uint32_t number,
    const uint8_t *new_text, size_t new_text_len,
    uint8_t *out, size_t out_len,
    uint8_t *message, size_t message_len);

#ifdef __cplusplus
}
#endif

#endif
