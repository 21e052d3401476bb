/* The library called from C for a worked solution: reads a model file from standard input and takes a state, n and r
 * from the command line. It prints what the three divisions of U(n,r) at that state leave over, a line each: of V, of W
 * and of U. It prints 'none' where the model has no such state or r, or n is not from 1 to its level; of a refused file
 * it prints the same line as its sheet has.
 * Exit status 0 where they are given, 1 where there are none or the file is refused, 2 where something cannot be read or
 * written.
 *
 *     cc -I include examples/library/remainders.c "$(./build kuldrepso)" -o target/remainders
 *     target/remainders 1 2 2 < examples/B.model
 */
#include <errno.h>
#include <inttypes.h>
#include <stdio.h>
#include <stdlib.h>

#include "kuldrepso.h"

int main(int argc, char **argv)
{
    static uint8_t file[KULDREPSO_MOST_BYTES + 1];
    uint64_t asked[3], mean, share, mix;
    if (argc != 4) {
        fprintf(stderr, "remainders: give a state, n and r\n");
        return 2;
    }
    for (int k = 0; k < 3; k++) {
        const char *word = argv[k + 1];
        char *end;
        errno = 0;
        asked[k] = strtoull(word, &end, 10);
        if (word[0] < '0' || word[0] > '9' || *end != '\0' || errno != 0) {
            fprintf(stderr, "remainders: '%s' is no whole number from 0 to %" PRIu64 "\n", word, UINT64_MAX);
            return 2;
        }
    }
    size_t count = fread(file, 1, sizeof file, stdin);
    if (ferror(stdin)) {
        perror("remainders");
        return 2;
    }
    uint64_t answer = kuldrepso_remainders(file, count, asked[0], asked[1], asked[2], &mean, &share, &mix);

    if (answer >= KULDREPSO_REFUSED)
        printf("refused %" PRIu64 "\n", answer - KULDREPSO_REFUSED);
    else if (answer == KULDREPSO_NONE)
        printf("none\n");
    else
        printf("V %" PRIu64 "\nW %" PRIu64 "\nU %" PRIu64 "\n", mean, share, mix);
    if (fflush(stdout)) return 2;
    return answer == KULDREPSO_GIVEN ? 0 : 1;
}
