/* The library called from C to deal practice files: takes M, R and student numbers from the command line. Each student
 * number is a seed number. For each it prints the file in hexadecimal and, for the teacher, its level and the first
 * moment of each state. The same numbers give the same file on every machine.
 * Exit status 0 where all files are dealt, 1 where M or R is refused, 2 where something cannot be read or written.
 *
 *     cc -I include examples/library/practice.c "$(./build kuldrepso)" -o target/practice
 *     target/practice 2 1 1001 1002 1003
 */
#include <errno.h>
#include <inttypes.h>
#include <stdio.h>
#include <stdlib.h>

#include "kuldrepso.h"

/* A whole number from 0 to `most`; with any other word the program ends. */
static uint64_t number(const char *word, uint64_t most)
{
    char *end;
    errno = 0;
    unsigned long long read = strtoull(word, &end, 10);
    if (word[0] < '0' || word[0] > '9' || *end != '\0' || errno != 0 || read > most) {
        fprintf(stderr, "practice: '%s' is no whole number from 0 to %" PRIu64 "\n", word, most);
        exit(2);
    }
    return read;
}

int main(int argc, char **argv)
{
    static uint8_t file[KULDREPSO_MOST_BYTES];
    static uint64_t cells[KULDREPSO_MOST_CELLS];
    if (argc < 4) {
        fprintf(stderr, "practice: give M, R and one student number or more\n");
        return 2;
    }
    uint64_t states = number(argv[1], UINT64_MAX), highest = number(argv[2], UINT64_MAX);
    for (int k = 3; k < argc; k++) number(argv[k], UINT32_MAX); /* a wrong word is told before any file is dealt */
    for (int k = 3; k < argc; k++) {
        uint32_t student = (uint32_t)number(argv[k], UINT32_MAX);
        uint64_t count = kuldrepso_practice(states, highest, student, file, sizeof file);
        if (count >= KULDREPSO_REFUSED) {
            uint64_t row = count - KULDREPSO_REFUSED;
            fprintf(stderr, "practice: refused %" PRIu64 ": %s\n", row,
                    row == 4 ? "M, the number of states, is 0 or above 64" : "R, the highest moment, is 0 or above 8");
            return 1;
        }
        uint64_t row_means; /* how many were taken: not printed here */
        uint64_t level = kuldrepso_calculate(file, count, cells, KULDREPSO_MOST_CELLS, &row_means); /* never refused */

        printf("student %" PRIu32 "\nfile", student);
        for (uint64_t at = 0; at < count; at++) printf(" %02X", file[at]);
        printf("\nlevel %" PRIu64 "\nfirst moments", level);
        for (uint64_t i = 0; i < states; i++) {
            uint64_t moment = cells[i * highest];
            printf(" %" PRIu64 ".%012" PRIu64, moment / KULDREPSO_ONE, moment % KULDREPSO_ONE);
        }
        putchar('\n');
    }
    return fflush(stdout) ? 2 : 0;
}
