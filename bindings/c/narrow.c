/* A narrow channel: a header sent with its CRC in layout 7, read back, and its CRC tried in every layout; then how many blanked samples
 * erase a data symbol there. From the repository's root:
 *   tools/build.sh ion
 *   cc -Iinclude bindings/c/narrow.c target/staticlib/libion.a -o target/narrow && target/narrow
 */
#include "ion.h"
#include <stdio.h>

#define N ION_HEADER_SYMBOLS(ION_HEADER_ONLY)
#define LAYOUT 7
#define WINDOW 80

/* SplitMix64, for the hop of a symbol (document 01, 'Modes and air order'). */
static uint64_t mix64(uint64_t z) {
    z += 0x9E3779B97F4A7C15u;
    z = (z ^ (z >> 30)) * 0xBF58476D1CE4E5B9u;
    z = (z ^ (z >> 27)) * 0x94D049BB133111EBu;
    return z ^ (z >> 31);
}

/* Symbol s heard with this value and nothing else: row 2, at the place of the value's bin in R1. */
static void heard(float *terms, uint64_t s, unsigned value) {
    terms[2 * 52 + (mix64(s ^ 0x4D46534B484F5000u) % 32 + value) % 32 + 2] = 8.0f;
}

/* Whether the header's last 16 bits, the first one highest, are the CRC of those before in this layout. */
static int is_good(const uint8_t *bits, uint8_t layout) {
    uint16_t crc, last = 0;
    for (int j = N - 16; j < N; j++)
        last = (uint16_t)(last << 1 | bits[j]);
    return ion_crc(ION_R1, ION_HEADER_ONLY, layout, bits, N - 16, &crc) == 0 && crc == last;
}

/* The least metric of one data symbol with so many blanked samples behind it: 0 where it is erased. */
static float least(uint8_t layout, uint32_t blanked) {
    float terms[ION_TERMS] = {0}, work[ION_VALUES], metrics[ION_VALUES], soft[5], low = 0.0f;
    heard(terms, N, 21);
    if (ion_soft_values(ION_R1, ION_HEADER_ONLY, layout, ION_BIT_FORM, WINDOW, 5, terms, ION_TERMS, &blanked, 1, work, ION_VALUES, metrics,
                        ION_VALUES, soft, 5) != 0)
        return 1.0f;
    for (int v = 0; v < ION_VALUES; v++)
        low = metrics[v] < low ? metrics[v] : low;
    return low;
}

int main(void) {
    static float terms[N * ION_TERMS], scores[ION_STATES], next[ION_STATES], start[ION_STATES];
    static uint64_t decisions[N * ION_DECISIONS];
    uint8_t bits[N], values[N], outcome, pass;
    uint64_t word = 0;
    uint16_t crc;
    float score, ceiling;
    /* two fields of 16 bits and their CRC, the first bit of each highest */
    for (int j = 0; j < N - 16; j++)
        bits[j] = 0x01234567u >> (N - 17 - j) & 1;
    if (ion_crc(ION_R1, ION_HEADER_ONLY, LAYOUT, bits, N - 16, &crc) != 0)
        return 1;
    for (int j = 0; j < 16; j++)
        bits[N - 16 + j] = crc >> (15 - j) & 1;
    /* sent and read: neither asks for a layout */
    if (ion_header_values(ION_R1, ION_HEADER_ONLY, bits, N, values, N) != 0)
        return 1;
    for (int s = 0; s < N; s++)
        heard(terms + ION_TERMS * s, (uint64_t)s, values[s]);
    if (ion_read_header(ION_R1, ION_HEADER_ONLY, terms, N * ION_TERMS, scores, ION_STATES, next, ION_STATES, start, ION_STATES, decisions,
                        N * ION_DECISIONS, &word, &outcome, &pass, &score, &ceiling) != 0)
        return 1;
    int same = 1, good = 0, own = 0;
    for (int j = 0; j < N; j++) {
        same = same && bits[j] == (word >> j & 1);
        bits[j] = word >> j & 1;
    }
    printf("read %012llx, outcome %u, pass %u; CRC good in layout", (unsigned long long)word, outcome, pass);
    for (uint8_t k = ION_FULL_BAND; k <= ION_NARROWEST; k++)
        if (is_good(bits, k)) {
            printf(" %u", k);
            good++;
            own = own || k == LAYOUT;
        }
    printf(", of %u to %u\n", ION_FULL_BAND, ION_NARROWEST);

    /* half of the samples behind a symbol are kept, one more erases it */
    uint32_t narrow = (6 * LAYOUT + 1) * WINDOW / 2, full = (6 * ION_FULL_BAND + 1) * WINDOW / 2;
    printf("least metric with %u blanked: %g in layout %u, %g in the full band; with %u: %g\n", narrow, least(LAYOUT, narrow), LAYOUT,
           least(ION_FULL_BAND, narrow), narrow + 1, least(LAYOUT, narrow + 1));
    int erased = least(LAYOUT, narrow) == -8.0f && least(LAYOUT, narrow + 1) == 0.0f && least(ION_FULL_BAND, full) == -8.0f &&
                 least(ION_FULL_BAND, full + 1) == 0.0f;

    uint16_t kept = crc;
    uint32_t refused = ion_crc(ION_R1, ION_HEADER_ONLY, 9, bits, N - 16, &kept);
    printf("layout 9: refused by number %u, %s\n", refused, ion_refusal(refused));
    return !(same && outcome == ION_SURE && good == 1 && own && erased && refused == 12 && kept == crc);
}
