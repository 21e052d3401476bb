/* The library called from C to move a file to the other version: reads a model file from standard input, takes the
 * version that it is to have, 1 or 2, from the command line, and writes the moved file to standard output. A move to
 * version 2 puts all weight on state 1; a move back needs it there. Of a refused file it writes nothing, and a line on
 * standard error says why.
 * Exit status 0 where the file is moved, 1 where it is refused, 2 where something cannot be read or written.
 *
 *     cc -I include examples/library/convert.c "$(./build kuldrepso)" -o target/convert
 *     target/convert 2 < examples/pair.model > target/pair-2.model
 */
#include <inttypes.h>
#include <stdio.h>
#include <string.h>

#include "kuldrepso.h"

/* A row of kuldrepso.h's tables in words. 13 never holds here: there is room for every file. */
static const char *meaning(uint64_t row, int to)
{
    switch (row) {
    case 1: return "the file has fewer than 13 bytes";
    case 2: return "the length field is not the number of bytes after it";
    case 3: return to == 2 ? "the version is not 1" : "the version is not 2";
    case 4: return "the number of states is 0 or above 64";
    case 5: return "the highest moment is 0 or above 8";
    case 6: return "the length field does not fit the version and the number of states";
    case 7: return "the tolerance is 0 or above 100,000,000 billionths";
    case 8: return "the time is 0";
    case 16: return "the starting weights do not sum to 1,000,000";
    case 9: return "a reward rate is above 1,000,000";
    case 10: return "all reward rates are 0";
    case 11: return "the rates out of a state sum to more than 10,000,000 millionths per hour";
    case 12: return "the largest sum of the rates out of a state, times the time, is above 256,000,000";
    case 17: return "a state other than 1 has starting weight, which version 1 cannot hold";
    default: return "a row of kuldrepso.h";
    }
}

int main(int argc, char **argv)
{
    static uint8_t file[KULDREPSO_MOST_BYTES + 1], out[KULDREPSO_MOST_BYTES];
    int to = argc != 2 ? 0 : strcmp(argv[1], "1") == 0 ? 1 : strcmp(argv[1], "2") == 0 ? 2 : 0;
    if (to == 0) {
        fprintf(stderr, "convert: give the version to move the file to, 1 or 2\n");
        return 2;
    }
    size_t count = fread(file, 1, sizeof file, stdin);
    if (ferror(stdin)) {
        perror("convert");
        return 2;
    }
    uint64_t answer = to == 2 ? kuldrepso_to_version_2(file, count, out, sizeof out)
                              : kuldrepso_to_version_1(file, count, out, sizeof out);

    if (answer >= KULDREPSO_REFUSED) {
        uint64_t row = answer - KULDREPSO_REFUSED;
        fprintf(stderr, "convert: refused %" PRIu64 ": %s\n", row, meaning(row, to));
        return 1;
    }
    return fwrite(out, 1, answer, stdout) != answer || fflush(stdout) ? 2 : 0;
}
