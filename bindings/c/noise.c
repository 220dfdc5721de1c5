/* Local noise factors: a burst in R1 of 70 data symbols, and a generator that raises three places from symbol 20 to 49. Their factors are
 * shown before, about and after it; every other factor is 1. Then three inputs that are refused. From the repository's root:
 *   tools/build.sh ion
 *   cc -Iinclude bindings/c/noise.c target/staticlib/libion.a -o target/noise && target/noise
 */
#include "ion.h"
#include <math.h>
#include <stdio.h>
#include <string.h>

#define ROWS 70
#define N (ROWS * ION_PLACES)

int main(void) {
    static float energies[N], noise[ION_PLACES], factors[N], as_it_was[N];
    /* Where the output comes from: the noise is 1 everywhere, heard as 0.5, and the generator's three places have 8. R1 has as many bins as a
     * symbol has values, so the strongest tone is the greatest of places 2 to 33: here 100, at one of places 4 to 13, and places 2 to 15 are
     * missing by turns. The value in the middle of a row is 0.5, too little for a level above 1. A raised place, with 25 rows about it of
     * which k are raised, has (0.5*(25-k) + 8*k)/25 - 2/5: with 5 of them 2 - 0.4, with 13 4.4 - 0.4, with all of them 8 - 0.4. */
    for (int i = 0; i < N; i++)
        energies[i] = 0.5f;
    for (int place = 0; place < ION_PLACES; place++)
        noise[place] = 1.0f;
    for (int row = 0; row < ROWS; row++) {
        energies[row * ION_PLACES + 4 + row % 10] = 100.0f;
        for (int place = 20; place < 23 && 20 <= row && row < 50; place++)
            energies[row * ION_PLACES + place] = 8.0f;
    }
    if (ion_local_noise(ION_R1, ION_DATA, ROWS, energies, N, noise, ION_PLACES, 0.0f, 1.0f, factors, N) != 0)
        return 1;

    static const struct { int row; float factor; } want[] = {
        {0, 1.0f}, {7, 1.0f}, {12, 1.6f}, {20, 4.0f}, {32, 7.6f}, {37, 7.6f}, {49, 4.0f}, {57, 1.6f}, {62, 1.0f}, {69, 1.0f},
    };
    int right = 1;
    printf("row: places 19 to 23\n");
    for (size_t i = 0; i < sizeof want / sizeof *want; i++) {
        const float *f = factors + want[i].row * ION_PLACES;
        printf("%2d: %.1f %.1f %.1f %.1f %.1f\n", want[i].row, f[19], f[20], f[21], f[22], f[23]);
        right = right && f[20] == want[i].factor && f[21] == f[20] && f[22] == f[20];
    }
    int others = 0;
    for (int i = 0; i < N; i++)
        others += (i % ION_PLACES < 20 || i % ION_PLACES > 22) && factors[i] != 1.0f;
    printf("other factors that are not 1: %d\n", others);

    /* a row more than there are energies; no noise at place 7; no number at place 40, which R1 does not have: the factors stay as they were */
    memcpy(as_it_was, factors, sizeof factors);
    uint32_t more = ion_local_noise(ION_R1, ION_DATA, ROWS + 1, energies, N, noise, ION_PLACES, 0.0f, 1.0f, factors, N);
    noise[7] = 0.0f;
    uint32_t silent = ion_local_noise(ION_R1, ION_DATA, ROWS, energies, N, noise, ION_PLACES, 0.0f, 1.0f, factors, N);
    noise[7] = 1.0f;
    energies[40] = NAN;
    uint32_t none = ion_local_noise(ION_R1, ION_DATA, ROWS, energies, N, noise, ION_PLACES, 0.0f, 1.0f, factors, N);
    int kept = memcmp(factors, as_it_was, sizeof factors) == 0;
    printf("a row too many, no noise, no number: refused by numbers %u, %u and %u, %s\n", more, silent, none, ion_refusal(none));
    return !(right && others == 0 && kept && more == 4 && silent == 15 && none == 15);
}
