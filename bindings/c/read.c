/* Sends a header, reads it back from clean terms, reads two that hardly anything was heard of, follows a late burst, and shows refusals. From
 * the repository's root:
 *   tools/build.sh ion
 *   cc -Iinclude bindings/c/read.c target/staticlib/libion.a -o target/read && target/read
 */
#include "ion.h"
#include <stdio.h>
#include <string.h>

#define N ION_HEADER_SYMBOLS(ION_HEADER_ONLY)

/* SplitMix64, for the hop of a symbol (document 01, 'Modes and air order'). */
static uint64_t mix64(uint64_t z) {
    z += 0x9E3779B97F4A7C15u;
    z = (z ^ (z >> 30)) * 0xBF58476D1CE4E5B9u;
    z = (z ^ (z >> 27)) * 0x94D049BB133111EBu;
    return z ^ (z >> 31);
}

static float terms[N * ION_TERMS], scores[ION_STATES], next[ION_STATES], start[ION_STATES];
static uint64_t decisions[N * ION_DECISIONS], word;
static uint8_t outcome, pass;
static float score, ceiling;

/* Symbol s heard with this value: row 2, at the place of the value's bin. */
static void heard(uint64_t s, unsigned value, float term) {
    terms[260 * s + 104 + (mix64(s ^ 0x4D46534B484F5000u) % 48 + value) % 48 + 2] = term;
}

static uint32_t read_terms(void) {
    return ion_read_header(ION_R0, ION_HEADER_ONLY, terms, N * ION_TERMS, scores, ION_STATES, next, ION_STATES, start, ION_STATES, decisions,
                           N * ION_DECISIONS, &word, &outcome, &pass, &score, &ceiling);
}

/* What main expects of its second header. */
static int is_of_ten(void) {
    return word == 0x9D498A106EBEu && outcome == ION_LIKELY && pass == 2 && score == 9.0f && ceiling == 10.0f;
}

/* And of its third. */
static int is_of_one(void) {
    return word == 0xC000000000u && outcome == ION_SURE && pass == 3 && score == 1.0f && ceiling == 1.0f;
}

int main(void) {
    uint8_t bits[N], values[N];
    uint64_t sent = 0x1234567890ABu;
    for (int j = 0; j < N; j++)
        bits[j] = sent >> j & 1;
    if (ion_header_values(ION_R0, ION_HEADER_ONLY, bits, N, values, N) != 0)
        return 1;
    for (int s = 0; s < N; s++)
        heard((uint64_t)s, values[s], 8.0f);
    if (read_terms() != 0)
        return 1;
    printf("sent %012llx, read %012llx, outcome %u, pass %u, score %g, ceiling %g\n", (unsigned long long)sent, (unsigned long long)word, outcome,
           pass, score, ceiling);
    int clean = word == sent && outcome == ION_SURE && pass == 1 && score == 8.0f * N && ceiling == score;

    /* ten values in as many slots and nothing else: out in the second pass, below the ceiling, so that it may be beaten: Likely */
    static const struct { uint8_t slot, value; } few[] = {{5, 1}, {19, 10}, {16, 10}, {10, 22}, {41, 10}, {21, 20}, {26, 4}, {3, 10}, {34, 30}, {17, 5}};
    memset(terms, 0, sizeof terms);
    for (size_t i = 0; i < sizeof few / sizeof *few; i++)
        heard(few[i].slot, few[i].value, 1.0f);
    if (read_terms() != 0)
        return 1;
    printf("of ten values read %012llx, outcome %u, pass %u, score %g, ceiling %g: no closed word scores above that\n", (unsigned long long)word,
           outcome, pass, score, ceiling);
    int beneath = is_of_ten();

    /* one value of one slot: no pass closes, but a candidate reaches the ceiling, so that no closed word beats it: Sure, in the last pass run */
    memset(terms, 0, sizeof terms);
    heard(14, 16, 1.0f);
    if (read_terms() != 0)
        return 1;
    printf("of one value read %012llx, outcome %u, pass %u, score %g, ceiling %g\n", (unsigned long long)word, outcome, pass, score, ceiling);
    int reaches = is_of_one();

    /* refused: the answer's five places are as they were */
    terms[7] = 1e7f;
    uint32_t refused = read_terms();
    int kept = is_of_one();
    printf("with a term of 1e7: refused by number %u, %s\n", refused, ion_refusal(refused));

    /* a burst that comes later by 0.02 samples a symbol: what is left of that beside the shift moves energy to the late gate */
    static int32_t shifts[ION_MOST_CALLS];
    static uint32_t places[ION_MOST_BLOCKS];
    static double timings[ION_MOST_BLOCKS];
    ion_tracker t = {0};
    for (int i = 0; i < ION_MOST_CALLS; i++) {
        double left = 9.0 / 104.0 * (0.02 * i - t.shift);
        if (ion_track(ION_R0, &t, shifts, ION_MOST_CALLS, places, ION_MOST_BLOCKS, timings, ION_MOST_BLOCKS, ION_HEARD, 10.0 - left, 10.0 + left, 1.0) != 0)
            return 1;
    }
    printf("after %zu symbols: %zu blocks, drift %.6f samples a symbol, shift %d\n", t.n, t.blocks, t.drift, t.shift);
    uint32_t full = ion_track(ION_R0, &t, shifts, ION_MOST_CALLS, places, ION_MOST_BLOCKS, timings, ION_MOST_BLOCKS, ION_MISSED, 0, 0, 0);
    printf("one symbol more: refused by number %u, %s\n", full, ion_refusal(full));
    return !(clean && beneath && reaches && kept && refused == 6 && t.n == 2048 && t.blocks == 63 && full == 9);
}
