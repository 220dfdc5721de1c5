/* The planner's segment board: slips of a few segments are put on it in order of arrival, and it shows one a segment; then a broken slip, a
 * broken board and a full one. From the repository's root:
 *   tools/build.sh ion
 *   cc -Iinclude bindings/c/board.c target/staticlib/libion.a -o target/board && target/board
 */
#include "ion.h"
#include <stdio.h>
#include <string.h>

static uint8_t board[ION_BOARD_BYTES], as_it_was[ION_BOARD_BYTES];
static uint32_t count;

/* Puts a slip of a segment with this start and reading. */
static uint32_t put(uint16_t segment, uint64_t start, uint8_t outcome) {
    ion_slip s = {.mode = ION_R0, .kind = ION_CUE, .outcome = outcome, .segment = segment, .score = 1.0f, .start = start};
    uint8_t bytes[ION_SLIP] = {0};
    s.pass = outcome == ION_SURE ? 1 : outcome == ION_LIKELY ? 2 : 0;
    uint32_t k = ion_slip_to_bytes(&s, bytes, ION_SLIP);
    return k != 0 ? k : ion_put_slip(board, ION_BOARD_BYTES, &count, bytes, ION_SLIP);
}

/* Whether place i shows these. */
static int shows(uint32_t i, uint16_t segment, uint64_t start, uint8_t outcome) {
    ion_slip s;
    return i < count && ion_slip_from_bytes(&s, board + i * ION_SLIP, ION_SLIP) == 0 && s.segment == segment && s.start == start &&
           s.outcome == outcome;
}

int main(void) {
    static const char *const reading[] = {[ION_SURE] = "Sure", [ION_KEPT] = "Kept", [ION_OPEN] = "Open", [ION_LIKELY] = "Likely"};
    ion_slip s;
    /* segment 9 comes later but reads worse; segment 4 reads better at one start, then worse, then better at an earlier start; segment 12
     * reads alike each time, later once and then earlier */
    static const struct { uint16_t segment; uint32_t start; uint8_t outcome; } arrived[] = {
        {9, 48000, ION_LIKELY}, {4, 52000, ION_OPEN}, {9, 56000, ION_KEPT}, {12, 50000, ION_OPEN},
        {4, 52000, ION_KEPT}, {4, 52000, ION_OPEN}, {4, 51000, ION_SURE}, {12, 54000, ION_OPEN}, {12, 53000, ION_OPEN},
    };
    int right = 1;
    for (size_t i = 0; i < sizeof arrived / sizeof *arrived; i++)
        right = put(arrived[i].segment, arrived[i].start, arrived[i].outcome) == 0 && right;
    for (uint32_t i = 0; i < count; i++)
        if (ion_slip_from_bytes(&s, board + i * ION_SLIP, ION_SLIP) == 0)
            printf("segment %u start %llu %s\n", s.segment, (unsigned long long)s.start, reading[s.outcome]);
    right = right && count == 3 && shows(0, 4, 51000, ION_SURE) && shows(1, 9, 48000, ION_LIKELY) && shows(2, 12, 54000, ION_OPEN);

    /* no slip at all; then a count that takes in a place which holds none: the board and its count stay as they were */
    memcpy(as_it_was, board, ION_BOARD_BYTES);
    uint32_t none = ion_put_slip(board, ION_BOARD_BYTES, &count, NULL, 0);
    count++;
    uint32_t broken = put(5, 0, ION_SURE);
    int kept = count == 4 && memcmp(board, as_it_was, ION_BOARD_BYTES) == 0;
    count--;

    /* 512 segments, the three among them: one more is refused, a listed one is judged */
    for (uint16_t segment = 0; segment < ION_BOARD_PLACES; segment++)
        right = put(segment, 0, ION_OPEN) == 0 && right;
    uint32_t full = put(ION_BOARD_PLACES, 60000, ION_SURE);
    right = right && count == ION_BOARD_PLACES && shows(9, 9, 48000, ION_LIKELY);
    right = right && put(511, 60000, ION_SURE) == 0 && shows(511, 511, 60000, ION_SURE);
    printf("no bytes, a place that is no slip, a 513th segment: refused by numbers %u, %u and %u, %s\n", none, broken, full,
           ion_refusal(full));
    return !(right && kept && none == 13 && broken == 13 && full == 14);
}
