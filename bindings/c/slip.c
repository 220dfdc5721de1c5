/* A slip for the shed computer: a header is read, told with its start sample and segment in 44 bytes, and read back from them; then one
 * byte is damaged. From the repository's root:
 *   tools/build.sh ion
 *   cc -Iinclude bindings/c/slip.c target/staticlib/libion.a -o target/slip && target/slip
 */
#include "ion.h"
#include <stdio.h>
#include <string.h>

#define N ION_HEADER_SYMBOLS(ION_CUE)

static void show(const char *label, const uint8_t *bytes) {
    printf("%s", label);
    for (int i = 0; i < ION_SLIP; i++)
        printf("%02x", bytes[i]);
    printf("\n");
}

int main(void) {
    static float terms[N * ION_TERMS], scores[ION_STATES], next[ION_STATES], start[ION_STATES];
    static uint64_t decisions[N * ION_DECISIONS];
    ion_slip told = {.mode = ION_R0, .kind = ION_CUE, .start = 48000, .segment = 7}, back = {0};
    uint8_t bytes[ION_SLIP] = {0}, as_it_was[ION_SLIP];
    float ceiling; /* which a slip does not tell */

    /* all terms equal: word 0 closes in the first pass */
    if (ion_read_header(told.mode, told.kind, terms, N * ION_TERMS, scores, ION_STATES, next, ION_STATES, start, ION_STATES, decisions,
                        N * ION_DECISIONS, &told.word, &told.outcome, &told.pass, &told.score, &ceiling) != 0)
        return 1;
    if (ion_slip_to_bytes(&told, bytes, ION_SLIP) != 0 || ion_slip_from_bytes(&back, bytes, ION_SLIP) != 0)
        return 1;
    show("slip ", bytes);
    printf("read back: mode %u kind %u word %llx outcome %u pass %u score %g start %llu segment %u\n", back.mode, back.kind,
           (unsigned long long)back.word, back.outcome, back.pass, back.score, (unsigned long long)back.start, back.segment);
    int same = back.mode == told.mode && back.kind == told.kind && back.word == told.word && back.outcome == told.outcome &&
               back.pass == told.pass && back.score == told.score && back.start == told.start && back.segment == told.segment;

    /* Sure in pass 4 and Likely in pass 1, which no slip holds: the buffer stays as it was */
    memcpy(as_it_was, bytes, ION_SLIP);
    told.pass = 4;
    uint32_t unlawful = ion_slip_to_bytes(&told, bytes, ION_SLIP);
    told.outcome = ION_LIKELY;
    told.pass = 1;
    uint32_t first = ion_slip_to_bytes(&told, bytes, ION_SLIP);
    int kept = memcmp(bytes, as_it_was, ION_SLIP) == 0;
    /* a byte too few, and a length that lies */
    uint32_t cut = ion_slip_from_bytes(&back, bytes, ION_SLIP - 1);
    bytes[41] = 3;
    uint32_t damaged = ion_slip_from_bytes(&back, bytes, ION_SLIP);
    printf("Sure in pass 4, Likely in pass 1, 43 bytes, a wrong length inside: refused by numbers %u, %u, %u and %u, %s\n", unlawful, first, cut,
           damaged, ion_refusal(damaged));
    /* Likely in pass 2 is byte 3 with its pass */
    told.pass = 2;
    int likely = ion_slip_to_bytes(&told, bytes, ION_SLIP) == 0 && bytes[22] == 3 && bytes[23] == 2 &&
                 ion_slip_from_bytes(&back, bytes, ION_SLIP) == 0 && back.outcome == ION_LIKELY && back.pass == 2;
    return !(same && kept && likely && back.segment == 7 && unlawful == 13 && first == 13 && cut == 13 && damaged == 13);
}
