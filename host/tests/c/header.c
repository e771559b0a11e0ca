/*
 * The header as C and as C++: it may be included twice, its structs have the sizes of docs/INTERFACE.md, and all six
 * functions are in the archive. The exit status is 0 where each of them answers 30 to slices that are too short.
 */
#include "pitchsleet.h"
#include "pitchsleet.h"

#if PITCHSLEET_VERSION_MAJOR * 10000 + PITCHSLEET_VERSION_MINOR * 100 + PITCHSLEET_VERSION_PATCH < 100
#error "a version is a number that a directive can compare"
#endif

/* An array of a negative length is refused: so is a size that isn't so. */
typedef char has_20_bytes[sizeof(struct pitchsleet_read_answer) == 20 ? 1 : -1];
typedef char has_40_bytes[sizeof(struct pitchsleet_check_answer) == 40 ? 1 : -1];
typedef char is_the_last[offsetof(struct pitchsleet_check_answer, predecessors) == 36 ? 1 : -1];

int main(void)
{
    uint8_t bytes[1] = {0};
    uint8_t out[1] = {0};
    uint8_t message[1] = {0};
    uint32_t table[1] = {0};
    uint32_t cells[7] = {0};
    uint32_t *c = cells;
    uint32_t numbers[6];
    int wrong = sizeof(has_20_bytes) + sizeof(has_40_bytes) + sizeof(is_the_last) != 3;
    int i;
    numbers[0] = pitchsleet_read(bytes, 0, out, 1, message, 1).number;
    numbers[1] = pitchsleet_check(bytes, 0, out, 1, message, 1).number;
    numbers[2] = pitchsleet_recheck(bytes, 0, bytes, 0, 0, bytes, 0, out, 1, message, 1).number;
    numbers[3] = pitchsleet_read_cells(bytes, 0, c, 1, c + 1, 1, message, 1).number;
    numbers[4] = pitchsleet_check_cells(
        bytes, 0, c, 1, c + 1, 1, c + 2, 1, c + 3, 1, c + 4, 1, c + 5, 1, c + 6, 1, message, 1).number;
    numbers[5] = pitchsleet_recheck_cells(
        bytes, 0, table, 1, 0, bytes, 0, c, 1, c + 1, 1, c + 2, 1, c + 3, 1, c + 4, 1, c + 5, 1, c + 6, 1, message,
        1).number;
    for (i = 0; i < 6; i++) {
        wrong |= numbers[i] != PITCHSLEET_REFUSED_SHORT_BUFFER;
    }
    return wrong;
}
