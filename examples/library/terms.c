/* The library called from C for the length of the series: reads a model file from standard input and prints m, the expected
 * jump count rounded down, what the level can be at most, 2 * m + 51, then the level itself and the number of row means that
 * the calculation took. The first two lines need no calculation: a student can have them before starting by hand.
 * Exit status 0 for an accepted file, 1 for a refused one, 2 where it cannot be read or written.
 *
 *     cc -I include examples/library/terms.c "$(./build kuldrepso)" -o target/terms
 *     target/terms < examples/pair.model
 */
#include <inttypes.h>
#include <stdio.h>

#include "kuldrepso.h"

/* The number of 4 bytes at a place of the file. */
static uint64_t number(const uint8_t *at)
{
    return (uint64_t)at[0] << 24 | (uint64_t)at[1] << 16 | (uint64_t)at[2] << 8 | at[3];
}

/* E: the largest sum of a row's rates, or 1 where all are 0. */
static uint64_t uniform_rate(const uint8_t *file)
{
    int states = file[3];
    int weights = file[2] == 2 ? states : 0; /* in version 2 the starting weights come first */
    const uint8_t *rate = file + 13 + 4 * (weights + states);
    uint64_t most = 1;
    for (int i = 0; i < states; i++) {
        uint64_t sum = 0;
        for (int j = 1; j < states; j++, rate += 4) sum += number(rate);
        if (sum > most) most = sum;
    }
    return most;
}

int main(void)
{
    static uint8_t file[KULDREPSO_MOST_BYTES + 1];
    static uint64_t cells[KULDREPSO_MOST_CELLS];
    size_t count = fread(file, 1, sizeof file, stdin);
    if (ferror(stdin)) {
        perror("terms");
        return 2;
    }
    uint64_t row_means;
    uint64_t answer = kuldrepso_calculate(file, count, cells, KULDREPSO_MOST_CELLS, &row_means);

    if (answer >= KULDREPSO_REFUSED) {
        printf("refused %" PRIu64 "\n", answer - KULDREPSO_REFUSED);
        return fflush(stdout) ? 2 : 1;
    }
    uint64_t m = uniform_rate(file) * number(file + 9) / 1000000;
    printf("m %" PRIu64 "\nlevel at most %" PRIu64 "\n", m, 2 * m + 51);
    printf("level %" PRIu64 "\nrow means %" PRIu64 "\n", answer, row_means);
    return fflush(stdout) ? 2 : 0;
}
