/* The library called from C for several times: reads a model file from standard input and takes up to eight times, in
 * whole hours and rising, from the command line. For each it prints a line: the time, its level, the first moment of
 * each state and, for a file of version 2, the first start figure, so that a column is a curve over time.
 * Exit status 0 where all is accepted, 1 where it is refused, 2 where something cannot be read or written.
 *
 *     cc -I include examples/library/series.c "$(./build kuldrepso)" -o target/series
 *     target/series 1 24 168 720 1000 2160 < examples/pair.model
 */
#include <inttypes.h>
#include <stdio.h>
#include <stdlib.h>

#include "kuldrepso.h"

int main(int argc, char **argv)
{
    static uint8_t file[KULDREPSO_MOST_BYTES + 1];
    static uint64_t levels[KULDREPSO_MOST_TIMES], cells[KULDREPSO_MOST_TIMES * KULDREPSO_MOST_CELLS];
    uint32_t times[KULDREPSO_MOST_TIMES + 1]; /* one more than can be accepted: a longer list is refused */
    size_t time_count = 0;
    for (int k = 1; k < argc && time_count <= KULDREPSO_MOST_TIMES; k++) {
        char *end;
        unsigned long long hours = strtoull(argv[k], &end, 10);
        if (argv[k][0] < '0' || argv[k][0] > '9' || *end != '\0' || hours > UINT32_MAX) {
            fprintf(stderr, "series: '%s' is no whole number of hours from 0 to %" PRIu32 "\n", argv[k], UINT32_MAX);
            return 2;
        }
        times[time_count++] = (uint32_t)hours;
    }
    size_t count = fread(file, 1, sizeof file, stdin);
    if (ferror(stdin)) {
        perror("series");
        return 2;
    }
    uint64_t row_means; /* how many were taken for all times: not printed here */
    uint64_t answer = kuldrepso_series(file, count, times, time_count, levels, KULDREPSO_MOST_TIMES, cells,
                                       KULDREPSO_MOST_TIMES * KULDREPSO_MOST_CELLS, &row_means);

    if (answer >= KULDREPSO_REFUSED) {
        fprintf(stderr, "series: refused by row %" PRIu64 " (kuldrepso.h)\n", answer - KULDREPSO_REFUSED);
        return 1;
    }
    int states = file[3], highest = file[4], start = file[2] == 2; /* in version 2 the start follows the states */
    for (size_t k = 0; k < time_count; k++) {
        const uint64_t *block = cells + k * (states + start) * highest;
        printf("%" PRIu32 " %" PRIu64, times[k], levels[k]);
        for (int i = 1; i <= states + start; i++) {
            uint64_t figure = block[(i - 1) * highest];
            printf(" %" PRIu64 ".%012" PRIu64, figure / KULDREPSO_ONE, figure % KULDREPSO_ONE);
        }
        putchar('\n');
    }
    return fflush(stdout) ? 2 : 0;
}
