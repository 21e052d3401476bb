/* The library called from C: reads a model file from standard input and prints its sheet.
 * Exit status 0 for an accepted file, 1 for a refused one, 2 where it cannot be read or written.
 *
 *     cc -I include examples/library/call.c "$(./build kuldrepso)" -o target/call
 *     target/call < examples/B.model
 */
#include <inttypes.h>
#include <stdio.h>

#include "kuldrepso.h"

int main(void)
{
    static uint8_t file[KULDREPSO_MOST_BYTES + 1];
    static uint64_t cells[KULDREPSO_MOST_CELLS];
    size_t count = fread(file, 1, sizeof file, stdin);
    if (ferror(stdin)) {
        perror("call");
        return 2;
    }
    uint64_t row_means; /* how many were taken: not on the sheet */
    uint64_t answer = kuldrepso_calculate(file, count, cells, KULDREPSO_MOST_CELLS, &row_means);

    if (answer >= KULDREPSO_REFUSED) {
        printf("refused %" PRIu64 "\n", answer - KULDREPSO_REFUSED);
        return fflush(stdout) ? 2 : 1;
    }
    printf("level %" PRIu64 "\n", answer);
    int states = file[3], highest = file[4], start = file[2] == 2; /* in version 2 the start follows the states */
    for (int i = 1; i <= states + start; i++) {
        for (int r = 1; r <= highest; r++) {
            uint64_t figure = cells[(i - 1) * highest + (r - 1)];
            if (i <= states)
                printf("%d", i);
            else
                printf("start");
            printf(" %d %" PRIu64 ".%012" PRIu64 "\n", r, figure / KULDREPSO_ONE, figure % KULDREPSO_ONE);
        }
    }
    return fflush(stdout) ? 2 : 0;
}
