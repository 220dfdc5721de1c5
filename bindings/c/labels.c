/* Three headers of 64 that arrive together: labels filled in advance, once, and lent to every read; each is read by parity too, and both ways
 * agree. Then tables that are refused: one entry off, and too short. From the repository's root:
 *   tools/build.sh ion
 *   cc -Iinclude bindings/c/labels.c target/staticlib/libion.a -o target/labels && target/labels
 */
#include "ion.h"
#include <stdio.h>

#define N ION_HEADER_SYMBOLS(ION_DATA)

/* SplitMix64, for the hop of a symbol (document 01, 'Modes and air order') and for the noise. */
static uint64_t mix64(uint64_t z) {
    z += 0x9E3779B97F4A7C15u;
    z = (z ^ (z >> 30)) * 0xBF58476D1CE4E5B9u;
    z = (z ^ (z >> 27)) * 0x94D049BB133111EBu;
    return z ^ (z >> 31);
}

static uint16_t labels[ION_LABELS];
static float terms[N * ION_TERMS], scores[ION_STATES], next[ION_STATES], start[ION_STATES];
static uint64_t decisions[N * ION_DECISIONS];

/* The five places of an answer. */
typedef struct {
    uint64_t word;
    float score, ceiling;
    uint8_t outcome, pass;
} answer;

static uint32_t read_with(const uint16_t *table, size_t entries, answer *a) {
    return ion_read_header_with(ION_R0, ION_DATA, terms, N * ION_TERMS, table, entries, scores, ION_STATES, next, ION_STATES, start, ION_STATES,
                                decisions, N * ION_DECISIONS, &a->word, &a->outcome, &a->pass, &a->score, &a->ceiling);
}

static uint32_t read_by_parity(answer *a) {
    return ion_read_header(ION_R0, ION_DATA, terms, N * ION_TERMS, scores, ION_STATES, next, ION_STATES, start, ION_STATES, decisions,
                           N * ION_DECISIONS, &a->word, &a->outcome, &a->pass, &a->score, &a->ceiling);
}

static int same(answer a, answer b) {
    return a.word == b.word && a.outcome == b.outcome && a.pass == b.pass && a.score == b.score && a.ceiling == b.ceiling;
}

/* The terms of a header: whole numbers from -2 to 2, and 4 more at each sent value. */
static int heard(uint64_t word, uint64_t burst) {
    uint8_t bits[N], values[N];
    for (int j = 0; j < N; j++)
        bits[j] = word >> j & 1;
    if (ion_header_values(ION_R0, ION_DATA, bits, N, values, N) != 0)
        return 0;
    for (uint64_t i = 0; i < N * ION_TERMS; i++)
        terms[i] = (float)(mix64(burst << 32 | i) % 5) - 2.0f;
    for (uint64_t s = 0; s < N; s++)
        terms[ION_TERMS * s + 104 + (mix64(s ^ 0x4D46534B484F5000u) % 48 + values[s]) % 48 + 2] += 4.0f;
    return 1;
}

int main(void) {
    static const uint64_t sent[] = {0x0123456789ABCDEFu, 0xFEDCBA9876543210u, 0x00FF00FF12345678u};
    if (ion_fill_labels(labels, ION_LABELS) != 0)
        return 1;
    int good = 1;
    for (uint64_t i = 0; i < 3; i++) {
        answer with = {0}, plain = {0};
        if (!heard(sent[i], i) || read_with(labels, ION_LABELS, &with) != 0 || read_by_parity(&plain) != 0)
            return 1;
        printf("sent %016llx, read %016llx, outcome %u, pass %u, score %g, ceiling %g\n", (unsigned long long)sent[i], (unsigned long long)with.word,
               with.outcome, with.pass, with.score, with.ceiling);
        good &= with.word == sent[i] && with.outcome == ION_SURE && same(with, plain);
    }

    /* refused: the answer's five places are as they were */
    answer before = {.word = 7, .outcome = 9, .pass = 9, .score = 0.5f, .ceiling = 1.5f}, after = before;
    labels[20000] ^= 1;
    uint32_t off = read_with(labels, ION_LABELS, &after);
    uint32_t short_table = read_with(labels, ION_LABELS - 1, &after);
    printf("with one entry off: refused by number %u, %s\n", off, ion_refusal(off));
    printf("with a table of 32,767: refused by number %u, %s\n", short_table, ion_refusal(short_table));
    return !(good && off == 16 && short_table == 4 && same(before, after));
}
