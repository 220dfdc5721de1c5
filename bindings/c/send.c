/* Sends data bits and code symbols, hears them without a fault, and reads both back: what the gate answers, the shed reads. From the
 * repository's root:
 *   tools/build.sh ion
 *   cc -Iinclude bindings/c/send.c target/staticlib/libion.a -o target/send && target/send
 */
#include "ion.h"
#include <stdio.h>
#include <string.h>

#define BITS 12
#define SYMBOLS ION_DATA_SYMBOLS(BITS)

/* SplitMix64, for the hop of a symbol (document 01, 'Modes and air order'). */
static uint64_t mix64(uint64_t z) {
    z += 0x9E3779B97F4A7C15u;
    z = (z ^ (z >> 30)) * 0xBF58476D1CE4E5B9u;
    z = (z ^ (z >> 27)) * 0x94D049BB133111EBu;
    return z ^ (z >> 31);
}

/* Data symbol i heard with this value and nothing else: row 2, at the place of the value's bin (R0, after a header of 48 symbols). */
static void heard(float *terms, size_t i, unsigned value) {
    size_t bin = (size_t)((mix64((48 + i) ^ 0x4D46534B484F5000u) % 48 + value) % 48);
    terms[ION_TERMS * i + 104 + bin + 2] = 8.0f;
}

/* Reads the data back: a soft bit above 0 is a 0. Returns the refusal's number. */
static uint32_t read_back(uint8_t form, const float *terms, uint8_t *bits) {
    static const uint32_t blanked[SYMBOLS];
    static float work[SYMBOLS * ION_VALUES], metrics[SYMBOLS * ION_VALUES], soft[BITS];
    uint32_t refused = ion_soft_values(ION_R0, ION_HEADER_ONLY, ION_FULL_BAND, form, 160, BITS, terms, SYMBOLS * ION_TERMS, blanked, SYMBOLS,
                                       work, SYMBOLS * ION_VALUES, metrics, SYMBOLS * ION_VALUES, soft, BITS);
    for (int p = 0; refused == 0 && p < BITS; p++)
        bits[p] = !(soft[p] > 0.0f);
    return refused;
}

static void print(const char *what, const uint8_t *bytes, size_t n) {
    printf("%s", what);
    for (size_t i = 0; i < n; i++)
        printf(" %u", bytes[i]);
    printf("\n");
}

int main(void) {
    static const uint8_t sent[BITS] = {1, 0, 1, 1, 0, 0, 1, 0, 0, 0, 1, 1};
    uint8_t slots[ION_SLOTS(BITS)], read[BITS] = {0};
    static float terms[SYMBOLS * ION_TERMS];
    if (ion_interleave(sent, BITS, slots, sizeof slots) != 0)
        return 1;
    for (size_t i = 0; i < SYMBOLS; i++) {
        unsigned value = 0; /* the inverse Gray code of the five slots, the last one highest */
        for (int k = 4; k >= 0; k--)
            value = value << 1 | ((value & 1) ^ slots[5 * i + (size_t)k]);
        heard(terms, i, value);
    }
    if (read_back(ION_BIT_FORM, terms, read) != 0)
        return 1;
    print("bits sent   ", sent, BITS);
    print("bits read   ", read, BITS);
    int same = memcmp(sent, read, BITS) == 0;

    /* the same bits as code symbols, five to each, the first one highest; the last symbol has two bits and three zeros */
    uint8_t symbols[SYMBOLS] = {0}, values[SYMBOLS];
    for (size_t p = 0; p < 5 * SYMBOLS; p++)
        symbols[p / 5] = (uint8_t)(symbols[p / 5] << 1 | (p < BITS ? sent[p] : 0));
    memset(terms, 0, sizeof terms);
    if (ion_interleave_sym(symbols, SYMBOLS, values, SYMBOLS) != 0)
        return 1;
    for (size_t i = 0; i < SYMBOLS; i++)
        heard(terms, i, values[i]);
    if (read_back(ION_SYMBOL_FORM, terms, read) != 0)
        return 1;
    print("symbols sent", symbols, SYMBOLS);
    print("bits read   ", read, BITS);
    same = same && memcmp(sent, read, BITS) == 0;

    /* refused, and as it was */
    symbols[1] = 32;
    uint8_t before[SYMBOLS];
    memcpy(before, values, SYMBOLS);
    uint32_t refused = ion_interleave_sym(symbols, SYMBOLS, values, SYMBOLS);
    printf("with a symbol of 32: refused by number %u, %s\n", refused, ion_refusal(refused));
    return !(same && refused == 11 && memcmp(before, values, SYMBOLS) == 0);
}
