/* Calls the proved library as include/kuldrepso.h declares it, on document 01's files, on the same in version 2, on the
 * longest files there are, and for practice files.
 * Every slice and every number to write to is lent from the midst of a larger array, and each call runs on a stack of
 * its own. No call may change a byte of the file, a time, an element that it has nothing to write to, anything before or
 * after what is lent, or the stack past what the header says. `tests/c/run` builds and runs this, as C and as C++. */
#define _XOPEN_SOURCE 700
#include "kuldrepso.h"

#include <stdio.h>
#include <string.h>
#include <ucontext.h>

#if KULDREPSO_VERSION_MAJOR != 4 || KULDREPSO_VERSION_MINOR != 0
#error "this test is for version 4.0 of the header"
#endif
#if KULDREPSO_REFUSED != 1000000 || KULDREPSO_ONE != 1000000000000
#error "KULDREPSO_REFUSED or KULDREPSO_ONE has another value than callers rely on"
#endif
#if KULDREPSO_MOST_CELLS != 520 || KULDREPSO_MOST_CELLS != (64 + 1) * 8
#error "KULDREPSO_MOST_CELLS is not that of 64 states and the start, with 8 figures each"
#endif
#if KULDREPSO_MOST_BYTES != 16653 || KULDREPSO_MOST_BYTES != 2 + 4 * 64 * 64 + 4 * 64 + 11
#error "KULDREPSO_MOST_BYTES is not that of a version 2 file with 64 states"
#endif
#if KULDREPSO_MOST_TIMES != 8
#error "KULDREPSO_MOST_TIMES is not that of document 02's row 14"
#endif
#if KULDREPSO_GIVEN != 0 || KULDREPSO_NONE != 1
#error "KULDREPSO_GIVEN or KULDREPSO_NONE has another value than callers rely on"
#endif

#ifdef __cplusplus
#define LANGUAGE "C++"
#else
#define LANGUAGE "C"
#endif

enum {
    GUARD = 8, /* elements before and after a lent slice */
    BYTES = KULDREPSO_MOST_BYTES + 1,
    OUT = KULDREPSO_MOST_BYTES + 1,
    TIMES = KULDREPSO_MOST_TIMES + 1,
    LEVELS = KULDREPSO_MOST_TIMES + 1,
    CELLS = KULDREPSO_MOST_TIMES * KULDREPSO_MOST_CELLS + 1,
    NUMBER = GUARD + 1 + GUARD, /* a number to write to, with its guards */
    STACK = 128000,     /* what the header says that a call takes, with 1,000 bytes to a KB */
    STACK_GUARD = 65536 /* and what lies past it */
};
static const uint8_t PAINT = 0xC3; /* every byte outside what a call reads, and of the stack, before a call */

static const uint8_t A[17] = {0x00, 0x0F, 0x01, 0x01, 0x01, 0x00, 0x00, 0x27, 0x10, 0x00, 0x00, 0x00, 0x01, 0x00, 0x00, 0x00, 0x05};
static const uint8_t B[29] = {0x00, 0x1B, 0x01, 0x02, 0x02, 0x05, 0xF5, 0xE1, 0x00, 0x00, 0x00, 0x00, 0x01, 0x00, 0x00,
                              0x00, 0x01, 0x00, 0x00, 0x00, 0x00, 0x00, 0x0F, 0x42, 0x40, 0x00, 0x0F, 0x42, 0x40};

/* A in version 2, and B in version 2 with the weights 250,000 and 750,000. */
static const uint8_t A2[21] = {0x00, 0x13, 0x02, 0x01, 0x01, 0x00, 0x00, 0x27, 0x10, 0x00, 0x00,
                               0x00, 0x01, 0x00, 0x0F, 0x42, 0x40, 0x00, 0x00, 0x00, 0x05};
static const uint8_t B2[37] = {0x00, 0x23, 0x02, 0x02, 0x02, 0x05, 0xF5, 0xE1, 0x00, 0x00, 0x00, 0x00, 0x01,
                               0x00, 0x03, 0xD0, 0x90, 0x00, 0x0B, 0x71, 0xB0, 0x00, 0x00, 0x00, 0x01, 0x00,
                               0x00, 0x00, 0x00, 0x00, 0x0F, 0x42, 0x40, 0x00, 0x0F, 0x42, 0x40};

/* The levels and the moments for 1 hour, 2 hours and so on to 8. A's moments are all one. B's for 1 hour are
 * document 02's; the others are from the independent calculation in tests/rust. */
static const uint32_t HOURS[TIMES] = {1, 2, 3, 4, 5, 6, 7, 8, 9};
static const uint64_t A_LEVELS[8] = {1, 1, 1, 1, 1, 1, 1, 1};
static const uint64_t A_MOMENTS[8] = {KULDREPSO_ONE, KULDREPSO_ONE, KULDREPSO_ONE, KULDREPSO_ONE,
                                      KULDREPSO_ONE, KULDREPSO_ONE, KULDREPSO_ONE, KULDREPSO_ONE};
static const uint64_t B_LEVELS[8] = {3, 4, 6, 7, 8, 10, 11, 12};
static const uint64_t B_MOMENTS[32] = {
    718750000000, 612500000000, 281250000000, 175000000000,
    628571428571, 476190476190, 371428571428, 219047619047,
    585502713641, 406448348817, 414497286358, 235442921534,
    563821312579, 370086674700, 436178687419, 242444049539,
    552606298144, 349291442002, 447393701854, 244078845712,
    542979767342, 332045283058, 457020232654, 246085748370,
    536354326363, 320389506148, 463645673633, 247680853418,
    532604023918, 312804856802, 467395976077, 247596808962,
};

/* The same in version 2. B's start figures are by hand from its moments: one of state 1 and three of state 2, over 4, down. */
static const uint64_t A2_FIGURES[16] = {
    KULDREPSO_ONE, KULDREPSO_ONE, KULDREPSO_ONE, KULDREPSO_ONE, KULDREPSO_ONE, KULDREPSO_ONE, KULDREPSO_ONE, KULDREPSO_ONE,
    KULDREPSO_ONE, KULDREPSO_ONE, KULDREPSO_ONE, KULDREPSO_ONE, KULDREPSO_ONE, KULDREPSO_ONE, KULDREPSO_ONE, KULDREPSO_ONE};
static const uint64_t B2_FIGURES[48] = {
    718750000000, 612500000000, 281250000000, 175000000000, 390625000000, 284375000000,
    628571428571, 476190476190, 371428571428, 219047619047, 435714285713, 283333333332,
    585502713641, 406448348817, 414497286358, 235442921534, 457248643178, 278194278354,
    563821312579, 370086674700, 436178687419, 242444049539, 468089343709, 274354705829,
    552606298144, 349291442002, 447393701854, 244078845712, 473696850926, 270381994784,
    542979767342, 332045283058, 457020232654, 246085748370, 478510116326, 267575632042,
    536354326363, 320389506148, 463645673633, 247680853418, 481822836815, 265858016600,
    532604023918, 312804856802, 467395976077, 247596808962, 483697988037, 263898820922,
};

/* What kuldrepso_remainders is asked for, its answer, and where that is KULDREPSO_GIVEN the remainders of V, W and U. */
struct question {
    const char *name;
    uint64_t state, n, r, answer, remainders[3];
};

/* What kuldrepso_practice is asked for, and the row that refuses it, or 0. */
struct deal {
    const char *name;
    uint64_t states, highest;
    uint32_t seed;
    int row;
};

static int calls, faults;

/* The slices, the numbers, the call's name for faults, and its answer. */
static uint8_t bytes[GUARD + BYTES + GUARD];
static uint32_t times[GUARD + TIMES + GUARD];
static uint64_t levels[GUARD + LEVELS + GUARD];
static uint64_t cells[GUARD + CELLS + GUARD];
static uint8_t out[GUARD + OUT + GUARD];
static size_t file_length, time_count, level_count, cell_count, out_length;
static uint64_t row_means[NUMBER], numbers[3][NUMBER];
static const struct question *asked;
static const struct deal *deal;
static const char *name;
static uint64_t answered;
static uint8_t stack[STACK_GUARD + STACK];

static void calculate(void) {
    answered = kuldrepso_calculate(bytes + GUARD, file_length, cells + GUARD, cell_count, row_means + GUARD);
}

static void series(void) {
    answered = kuldrepso_series(bytes + GUARD, file_length, times + GUARD, time_count, levels + GUARD, level_count,
                                cells + GUARD, cell_count, row_means + GUARD);
}

static void remainders(void) {
    answered = kuldrepso_remainders(bytes + GUARD, file_length, asked->state, asked->n, asked->r, numbers[0] + GUARD,
                                    numbers[1] + GUARD, numbers[2] + GUARD);
}

static void to_version_2(void) {
    answered = kuldrepso_to_version_2(bytes + GUARD, file_length, out + GUARD, out_length);
}

static void to_version_1(void) {
    answered = kuldrepso_to_version_1(bytes + GUARD, file_length, out + GUARD, out_length);
}

static void practice(void) {
    answered = kuldrepso_practice(deal->states, deal->highest, deal->seed, out + GUARD, out_length);
}

static void fault(const char *what, uint64_t number) {
    printf(LANGUAGE " test: call %d (%s): %s %ld\n", calls, name, what, (long)number);
    faults++;
}

/* A slice to read: `used` bytes of `content` in the midst of `array`, GUARD elements of `size` bytes in. */
static void lend(void *array, size_t array_size, size_t size, const void *content, size_t used) {
    memset(array, PAINT, array_size);
    if (used > 0) memcpy((uint8_t *)array + GUARD * size, content, used);
}

static void expect_unchanged(const char *what, const void *array, size_t array_size, size_t size, const void *content,
                             size_t used) {
    size_t at, from = GUARD * size;
    for (at = 0; at < array_size; at++) {
        int lent = at >= from && at - from < used;
        if (((const uint8_t *)array)[at] != (lent ? ((const uint8_t *)content)[at - from] : PAINT))
            fault(what, at - from);
    }
}

/* What stands at a place of a slice to write to, and of its guards, before a call: a number of its own, which is no
 * moment, no level, no count of row means and no remainder. */
static uint64_t word_before(size_t at) {
    return UINT64_C(0xA5A5000000000000) + at;
}

static void mark(uint64_t *words, size_t count) {
    size_t at;
    for (at = 0; at < count; at++) words[at] = word_before(at);
}

/* The slice in the midst of `words` begins with the `written` numbers of `expected`; all else is as before. */
static void expect_words(const char *what, const uint64_t *words, size_t count, const uint64_t *expected,
                         size_t written) {
    size_t at;
    for (at = 0; at < count; at++) {
        int new_word = at >= GUARD && at - GUARD < written;
        if (words[at] != (new_word ? expected[at - GUARD] : word_before(at))) fault(what, at - GUARD);
    }
}

/* What a call is lent: the elements that it reads, and how many it may write to. */
struct lent {
    const uint8_t *file;
    size_t file_length;
    const uint32_t *times;
    size_t time_count, level_count, cell_count;
};

/* Calls with `length` bytes of `file`, on a stack of its own: the answer is to be `answer`, and the bytes and the stack
 * past what the header says as before. */
static void run(const char *call_name, void (*call)(void), const uint8_t *file, size_t length, uint64_t answer) {
    static ucontext_t caller, own;
    size_t at;
    name = call_name;
    lend(bytes, sizeof bytes, 1, file, length);
    file_length = length;

    memset(stack, PAINT, sizeof stack);
    getcontext(&own);
    own.uc_stack.ss_sp = stack;
    own.uc_stack.ss_size = sizeof stack;
    own.uc_link = &caller;
    makecontext(&own, call, 0);
    swapcontext(&caller, &own);
    calls++;

    if (answered != answer) fault("the answer is", answered);
    expect_unchanged("changed is the byte", bytes, sizeof bytes, 1, file, length);
    for (at = 0; at < STACK_GUARD; at++) {
        if (stack[at] != PAINT) {
            fault("bytes of stack taken:", sizeof stack - at);
            break;
        }
    }
}

/* The number of row means is N * M * R, where `level` is N; where that is 0, for a refusal, the number is as before. */
static void expect_row_means(const uint8_t *file, uint64_t level) {
    uint64_t count = level > 0 ? level * file[3] * file[4] : 0;
    expect_words("not as expected is the number of row means, or what lies beside it, at", row_means, NUMBER, &count,
                 level > 0 ? 1 : 0);
}

/* The answer is to be `answer`, the first `levels_written` levels `level_words`, the first `cells_written` cells
 * `moments`, the row means those of `level`, or none where it is 0, and all else as before. */
static void expect(const char *call_name, void (*call)(void), struct lent lent, uint64_t answer,
                   const uint64_t *level_words, size_t levels_written, const uint64_t *moments, size_t cells_written,
                   uint64_t level) {
    lend(times, sizeof times, sizeof times[0], lent.times, lent.time_count * sizeof times[0]);
    mark(levels, GUARD + LEVELS + GUARD);
    mark(cells, GUARD + CELLS + GUARD);
    mark(row_means, NUMBER);
    time_count = lent.time_count;
    level_count = lent.level_count;
    cell_count = lent.cell_count;
    run(call_name, call, lent.file, lent.file_length, answer);
    expect_unchanged("changed is the list of times, at its byte", times, sizeof times, sizeof times[0], lent.times,
                     lent.time_count * sizeof times[0]);
    expect_words("not as expected is level", levels, GUARD + LEVELS + GUARD, level_words, levels_written);
    expect_words("not as expected is cell", cells, GUARD + CELLS + GUARD, moments, cells_written);
    expect_row_means(lent.file, level);
}

/* kuldrepso_calculate with `length` bytes of `file` and `count` cells; the first `written` of them are to be `moments`. */
static void expect_level(const char *call_name, const uint8_t *file, size_t length, size_t count, uint64_t level,
                         const uint64_t *moments, size_t written) {
    struct lent lent = {file, length, NULL, 0, 0, count};
    expect(call_name, calculate, lent, level, NULL, 0, moments, written, level);
}

static void expect_refusal(const char *call_name, const uint8_t *file, size_t length, size_t count, int row) {
    struct lent lent = {file, length, NULL, 0, 0, count};
    expect(call_name, calculate, lent, KULDREPSO_REFUSED + (uint64_t)row, NULL, 0, NULL, 0, 0);
}

static uint64_t largest(const uint64_t *words, size_t count) {
    uint64_t most = 0;
    size_t k;
    for (k = 0; k < count; k++) {
        if (words[k] > most) most = words[k];
    }
    return most;
}

/* kuldrepso_series: `level_words` and `moments` are to be written, for each time in turn, and the row means of the
 * largest level. */
static void expect_series(const char *call_name, struct lent lent, const uint64_t *level_words, const uint64_t *moments) {
    size_t block = ((size_t)lent.file[3] + (lent.file[2] == 2)) * lent.file[4];
    expect(call_name, series, lent, lent.time_count, level_words, lent.time_count, moments, lent.time_count * block,
           largest(level_words, lent.time_count));
}

static void expect_series_refusal(const char *call_name, struct lent lent, int row) {
    expect(call_name, series, lent, KULDREPSO_REFUSED + (uint64_t)row, NULL, 0, NULL, 0, 0);
}

/* kuldrepso_remainders with `length` bytes of `file`: the three numbers are to be written where the answer is given. */
static void expect_remainders(const uint8_t *file, size_t length, const struct question *question) {
    static const char *const what[3] = {"not as expected is the remainder of V, or what lies beside it, at",
                                        "not as expected is the remainder of W, or what lies beside it, at",
                                        "not as expected is the remainder of U, or what lies beside it, at"};
    size_t k, written = question->answer == KULDREPSO_GIVEN ? 1 : 0;
    for (k = 0; k < 3; k++) mark(numbers[k], NUMBER);
    asked = question;
    run(question->name, remainders, file, length, question->answer);
    for (k = 0; k < 3; k++) expect_words(what[k], numbers[k], NUMBER, question->remainders + k, written);
}

/* What stands at a place of the slice for a written file, and of its guards, before a call. */
static uint8_t byte_before(size_t at) {
    return (uint8_t)(0xA5 + at);
}

/* A call that writes a file, with `length` bytes of `file` to read and `count` bytes lent to write to: the answer is to be
 * `answer`, the first `written` of these bytes `text`, and all else as before. */
static void expect_out(const char *call_name, void (*call)(void), const uint8_t *file, size_t length, size_t count,
                       uint64_t answer, const uint8_t *text, size_t written) {
    size_t at;
    for (at = 0; at < sizeof out; at++) out[at] = byte_before(at);
    out_length = count;
    run(call_name, call, file, length, answer);
    for (at = 0; at < sizeof out; at++) {
        int new_byte = at >= GUARD && at - GUARD < written;
        if (out[at] != (new_byte ? text[at - GUARD] : byte_before(at))) {
            fault("not as expected is written byte, the first such,", at - GUARD);
            break;
        }
    }
}

static void expect_unwritten(const char *call_name, void (*call)(void), const uint8_t *file, size_t length,
                             size_t count, int row) {
    expect_out(call_name, call, file, length, count, KULDREPSO_REFUSED + (uint64_t)row, NULL, 0);
}

/* The moved or dealt file, `written` bytes of `text`, with just as many, more and all lent; then with too few. */
static void expect_written(const char *call_name, void (*call)(void), const uint8_t *file, size_t length,
                           const uint8_t *text, size_t written) {
    expect_out(call_name, call, file, length, written, written, text, written);
    expect_out(call_name, call, file, length, written + 1, written, text, written);
    expect_out(call_name, call, file, length, OUT, written, text, written);
    expect_unwritten(call_name, call, file, length, written - 1, 13);
    expect_unwritten(call_name, call, file, length, 0, 13);
}

/* There and back: a version 1 file, and the same in version 2 with all weight on state 1. */
static void expect_pair(const char *call_name, const uint8_t *first, size_t first_length, const uint8_t *second,
                        size_t second_length) {
    expect_written(call_name, to_version_2, first, first_length, second, second_length);
    expect_written(call_name, to_version_1, second, second_length, first, first_length);
}

/* `number` in `width` bytes from `at` on, big-endian. */
static void put(uint8_t *file, size_t at, size_t width, uint32_t number) {
    for (; width > 0; width--, number >>= 8) file[at + width - 1] = (uint8_t)number;
}

/* Document 01's small example of each row, in the order of the table, with a version that is neither 1 nor 2 for row 3;
 * then such examples for version 2. A file, how many of its bytes, one number put into it, and the row. */
static const struct example {
    const char *name;
    const uint8_t *file;
    size_t length, at, width;
    uint32_t number;
    size_t cells;
    int row;
} EXAMPLES[] = {
    {"the empty file", A, 0, 0, 0, 0, KULDREPSO_MOST_CELLS, 1},
    {"A without its last byte", A, 16, 0, 0, 0, KULDREPSO_MOST_CELLS, 2},
    {"A, byte 2 = 03", A, 17, 2, 1, 3, KULDREPSO_MOST_CELLS, 3},
    {"A, byte 3 = 00", A, 17, 3, 1, 0, KULDREPSO_MOST_CELLS, 4},
    {"A, byte 4 = 09", A, 17, 4, 1, 9, KULDREPSO_MOST_CELLS, 5},
    {"A, byte 3 = 02", A, 17, 3, 1, 2, KULDREPSO_MOST_CELLS, 6},
    {"A, bytes 5 to 8 = 0", A, 17, 5, 4, 0, KULDREPSO_MOST_CELLS, 7},
    {"A, bytes 9 to 12 = 0", A, 17, 9, 4, 0, KULDREPSO_MOST_CELLS, 8},
    {"A, reward 1,000,001", A, 17, 13, 4, 1000001, KULDREPSO_MOST_CELLS, 9},
    {"A, reward 0", A, 17, 13, 4, 0, KULDREPSO_MOST_CELLS, 10},
    {"B, first rate 10,000,001", B, 29, 21, 4, 10000001, KULDREPSO_MOST_CELLS, 11},
    {"B, time 257", B, 29, 9, 4, 257, KULDREPSO_MOST_CELLS, 12},
    {"B with 3 cells", B, 29, 0, 0, 0, 3, 13},
    {"A2 without its last byte", A2, 20, 0, 0, 0, KULDREPSO_MOST_CELLS, 2},
    {"A2, byte 2 = 00", A2, 21, 2, 1, 0, KULDREPSO_MOST_CELLS, 3},
    {"A2, byte 2 = 03", A2, 21, 2, 1, 3, KULDREPSO_MOST_CELLS, 3},
    {"A2, byte 2 = FF", A2, 21, 2, 1, 255, KULDREPSO_MOST_CELLS, 3},
    {"A, byte 2 = 02", A, 17, 2, 1, 2, KULDREPSO_MOST_CELLS, 6},
    {"A2, byte 2 = 01", A2, 21, 2, 1, 1, KULDREPSO_MOST_CELLS, 6},
    {"A2, bytes 9 to 12 = 0", A2, 21, 9, 4, 0, KULDREPSO_MOST_CELLS, 8},
    {"A2, weight 999,999", A2, 21, 13, 4, 999999, KULDREPSO_MOST_CELLS, 16},
    {"A2, weight 1,000,001", A2, 21, 13, 4, 1000001, KULDREPSO_MOST_CELLS, 16},
    {"B2, first weight 250,001", B2, 37, 13, 4, 250001, KULDREPSO_MOST_CELLS, 16},
    {"B2, second weight 4,294,967,295", B2, 37, 17, 4, 4294967295, KULDREPSO_MOST_CELLS, 16},
    {"A2, reward 1,000,001", A2, 21, 17, 4, 1000001, KULDREPSO_MOST_CELLS, 9},
    {"A2, reward 0", A2, 21, 17, 4, 0, KULDREPSO_MOST_CELLS, 10},
    {"B2, first rate 10,000,001", B2, 37, 29, 4, 10000001, KULDREPSO_MOST_CELLS, 11},
    {"B2, time 257", B2, 37, 9, 4, 257, KULDREPSO_MOST_CELLS, 12},
    {"B2 with 5 cells", B2, 37, 0, 0, 0, 5, 13},
    {"B2 with 4 cells", B2, 37, 0, 0, 0, 4, 13},
};
enum { EXAMPLE_COUNT = sizeof EXAMPLES / sizeof EXAMPLES[0], EXAMPLE_BYTES = sizeof B2 };

/* The example's file, made in `file`. */
static void make(const struct example *row, uint8_t *file) {
    memcpy(file, row->file, row->length);
    put(file, row->at, row->width, row->number);
}

static void papers(void) {
    size_t k;
    expect_level("A with its one cell", A, sizeof A, 1, 1, A_MOMENTS, 1);
    expect_level("A with all cells", A, sizeof A, KULDREPSO_MOST_CELLS, 1, A_MOMENTS, 1);
    expect_level("B with its four cells", B, sizeof B, 4, 3, B_MOMENTS, 4);
    expect_level("B with all cells", B, sizeof B, KULDREPSO_MOST_CELLS, 3, B_MOMENTS, 4);
    expect_level("A2 with its two cells", A2, sizeof A2, 2, 1, A2_FIGURES, 2);
    expect_level("B2 with its six cells", B2, sizeof B2, 6, 3, B2_FIGURES, 6);
    expect_level("B2 with all cells", B2, sizeof B2, KULDREPSO_MOST_CELLS, 3, B2_FIGURES, 6);
    for (k = 0; k < EXAMPLE_COUNT; k++) {
        const struct example *row = &EXAMPLES[k];
        uint8_t file[EXAMPLE_BYTES];
        make(row, file);
        expect_refusal(row->name, file, row->length, row->cells, row->row);
    }
}

/* Rows that judge B together with a list of times, and of two that hold the first in the table's order. */
static const struct list {
    const char *name;
    size_t time_count;
    uint32_t times[TIMES];
    size_t level_count, cell_count;
    int row;
} LISTS[17] = {
    {"B, first time 0", 1, {0}, 8, 32, 8},
    {"B, first time 0, nine times", 9, {0, 1, 2, 3, 4, 5, 6, 7, 8}, 9, 36, 8},
    {"B, no time", 0, {0}, 8, 32, 14},
    {"B, no time, level or cell", 0, {0}, 0, 0, 14},
    {"B, nine times", 9, {1, 2, 3, 4, 5, 6, 7, 8, 9}, 9, 36, 14},
    {"B, nine times, two equal", 9, {1, 1, 2, 3, 4, 5, 6, 7, 8}, 9, 36, 14},
    {"B, equal times", 2, {1, 1}, 8, 32, 15},
    {"B, falling times", 3, {1, 3, 2}, 8, 32, 15},
    {"B, a later time 0", 2, {1, 0}, 8, 32, 15},
    {"B, the last two of eight equal", 8, {1, 2, 3, 4, 5, 6, 7, 7}, 8, 32, 15},
    {"B, falling times, too late", 2, {4294967295, 257}, 8, 32, 15},
    {"B, time 257 in the list", 1, {257}, 8, 32, 12},
    {"B, the last of eight 257", 8, {1, 2, 3, 4, 5, 6, 7, 257}, 8, 32, 12},
    {"B, 4,294,967,295 hours, no level or cell", 2, {1, 4294967295}, 0, 0, 12},
    {"B, a level too few", 8, {1, 2, 3, 4, 5, 6, 7, 8}, 7, 33, 13},
    {"B, a cell too few", 8, {1, 2, 3, 4, 5, 6, 7, 8}, 9, 31, 13},
    {"B, one block for two times", 2, {1, 2}, 2, 4, 13},
};

static void series_papers(void) {
    uint8_t file[EXAMPLE_BYTES];
    size_t k, late;
    const struct lent a = {A, sizeof A, HOURS, 1, 1, 1}, b = {B, sizeof B, HOURS, 1, 1, 4};
    const struct lent a8 = {A, sizeof A, HOURS, 8, 8, 8}, b8 = {B, sizeof B, HOURS, 8, 8, 32};
    const struct lent more = {B, sizeof B, HOURS, 7, LEVELS, CELLS};
    const struct lent a28 = {A2, sizeof A2, HOURS, 8, 8, 16}, b28 = {B2, sizeof B2, HOURS, 8, 8, 48};
    const struct lent b2_more = {B2, sizeof B2, HOURS, 7, LEVELS, CELLS}, b2_fewer = {B2, sizeof B2, HOURS, 8, 8, 47};
    expect_series("A, one time", a, A_LEVELS, A_MOMENTS);
    expect_series("A, eight times", a8, A_LEVELS, A_MOMENTS);
    expect_series("B, one time", b, B_LEVELS, B_MOMENTS);
    expect_series("B, eight times", b8, B_LEVELS, B_MOMENTS);
    expect_series("B, seven times, all levels and cells", more, B_LEVELS, B_MOMENTS);
    expect_series("A2, eight times", a28, A_LEVELS, A2_FIGURES);
    expect_series("B2, eight times", b28, B_LEVELS, B2_FIGURES);
    expect_series("B2, seven times, all levels and cells", b2_more, B_LEVELS, B2_FIGURES);
    expect_series_refusal("B2, a cell too few", b2_fewer, 13);
    for (k = 0; k < EXAMPLE_COUNT; k++) {
        const struct example *row = &EXAMPLES[k];
        struct lent one = {file, row->length, HOURS, 1, LEVELS, CELLS}, nine = {file, row->length, HOURS, 9, 0, 0};
        make(row, file);
        if (row->row == 12) {
            /* the file's own time is not used */
            expect_series(row->name, one, B_LEVELS, file[2] == 2 ? B2_FIGURES : B_MOMENTS);
        } else if (row->row != 13) {
            expect_series_refusal(row->name, one, row->row);
            expect_series_refusal(row->name, nine, row->row);
        }
    }
    for (late = 0; late < 2; late++) {
        memcpy(file, B, sizeof B);
        if (late) put(file, 9, 4, 257);
        for (k = 0; k < sizeof LISTS / sizeof LISTS[0]; k++) {
            const struct list *row = &LISTS[k];
            struct lent lent = {file, sizeof B, row->times, row->time_count, row->level_count, row->cell_count};
            expect_series_refusal(row->name, lent, row->row);
        }
    }
}

/* Documents 01 and 02 by hand. A state, n or r of 4294967297, which is 2^32 + 1, is inside by its low 32 bits alone. */
static const struct question OF_A[5] = {
    {"A, U(1,1)", 1, 1, 1, KULDREPSO_GIVEN, {0, 0, 0}},
    {"A, state 0", 0, 1, 1, KULDREPSO_NONE, {0, 0, 0}},
    {"A, state 2", 2, 1, 1, KULDREPSO_NONE, {0, 0, 0}},
    {"A, n = N + 1", 1, 2, 1, KULDREPSO_NONE, {0, 0, 0}},
    {"A, r 2", 1, 1, 2, KULDREPSO_NONE, {0, 0, 0}},
};
static const struct question OF_B[26] = {
    {"B, U(1,1) at state 1", 1, 1, 1, KULDREPSO_GIVEN, {0, 0, 0}},
    {"B, U(1,1) at state 2", 2, 1, 1, KULDREPSO_GIVEN, {0, 0, 0}},
    {"B, U(1,2) at state 1", 1, 1, 2, KULDREPSO_GIVEN, {0, 0, 1}},
    {"B, U(1,2) at state 2", 2, 1, 2, KULDREPSO_GIVEN, {0, 0, 1}},
    {"B, U(2,1) at state 1", 1, 2, 1, KULDREPSO_GIVEN, {0, 0, 2}},
    {"B, U(2,1) at state 2", 2, 2, 1, KULDREPSO_GIVEN, {0, 0, 1}},
    {"B, U(2,2) at state 1", 1, 2, 2, KULDREPSO_GIVEN, {0, 0, 2}},
    {"B, U(2,2) at state 2", 2, 2, 2, KULDREPSO_GIVEN, {0, 0, 2}},
    {"B, U(3,1), n = N, at state 1", 1, 3, 1, KULDREPSO_GIVEN, {0, 0, 3}},
    {"B, U(3,1), n = N, at state 2", 2, 3, 1, KULDREPSO_GIVEN, {0, 0, 2}},
    {"B, U(3,2), n = N, at state 1", 1, 3, 2, KULDREPSO_GIVEN, {0, 0, 1}},
    {"B, U(3,2), n = N, at state 2", 2, 3, 2, KULDREPSO_GIVEN, {0, 0, 2}},
    {"B, state 0", 0, 3, 2, KULDREPSO_NONE, {0, 0, 0}},
    {"B, state 3", 3, 3, 2, KULDREPSO_NONE, {0, 0, 0}},
    {"B, state 4294967297", 4294967297, 3, 2, KULDREPSO_NONE, {0, 0, 0}},
    {"B, state UINT64_MAX", UINT64_MAX, 3, 2, KULDREPSO_NONE, {0, 0, 0}},
    {"B, n 0", 2, 0, 2, KULDREPSO_NONE, {0, 0, 0}},
    {"B, n = N + 1", 2, 4, 2, KULDREPSO_NONE, {0, 0, 0}},
    {"B, n 4294967297", 2, 4294967297, 2, KULDREPSO_NONE, {0, 0, 0}},
    {"B, n UINT64_MAX", 2, UINT64_MAX, 2, KULDREPSO_NONE, {0, 0, 0}},
    {"B, r 0", 2, 3, 0, KULDREPSO_NONE, {0, 0, 0}},
    {"B, r 3", 2, 3, 3, KULDREPSO_NONE, {0, 0, 0}},
    {"B, r 4294967297", 2, 3, 4294967297, KULDREPSO_NONE, {0, 0, 0}},
    {"B, r UINT64_MAX", 2, 3, UINT64_MAX, KULDREPSO_NONE, {0, 0, 0}},
    {"B, all 0", 0, 0, 0, KULDREPSO_NONE, {0, 0, 0}},
    {"B, all UINT64_MAX", UINT64_MAX, UINT64_MAX, UINT64_MAX, KULDREPSO_NONE, {0, 0, 0}},
};

/* B with rewards 3 and 1, and rates of 5 and 4 millionths an hour: N is 1, E is 5 and F is 3. */
static const uint32_t UNEVEN[4] = {3, 1, 5, 4};
static const struct question OF_UNEVEN[5] = {
    {"B, uneven, U(1,1) at state 1", 1, 1, 1, KULDREPSO_GIVEN, {0, 0, 1}},
    {"B, uneven, U(1,1) at state 2", 2, 1, 1, KULDREPSO_GIVEN, {3, 1, 1}},
    {"B, uneven, U(1,2) at state 1", 1, 1, 2, KULDREPSO_GIVEN, {0, 0, 0}},
    {"B, uneven, U(1,2) at state 2", 2, 1, 2, KULDREPSO_GIVEN, {1, 2, 2}},
    {"B, uneven, n = N + 1", 2, 2, 2, KULDREPSO_NONE, {0, 0, 0}},
};

static void remainders_papers(void) {
    static const uint64_t any[6][3] = {{1, 1, 1}, {0, 1, 1}, {1, 0, 1},
                                       {1, 1, 0}, {0, 0, 0}, {UINT64_MAX, UINT64_MAX, UINT64_MAX}};
    uint8_t file[EXAMPLE_BYTES];
    size_t k, at;
    for (k = 0; k < sizeof OF_A / sizeof OF_A[0]; k++) {
        expect_remainders(A, sizeof A, &OF_A[k]);
        expect_remainders(A2, sizeof A2, &OF_A[k]);
    }
    for (k = 0; k < sizeof OF_B / sizeof OF_B[0]; k++) {
        expect_remainders(B, sizeof B, &OF_B[k]);
        expect_remainders(B2, sizeof B2, &OF_B[k]);
    }
    memcpy(file, B, sizeof B);
    for (k = 0; k < 4; k++) put(file, 13 + 4 * k, 4, UNEVEN[k]);
    for (k = 0; k < sizeof OF_UNEVEN / sizeof OF_UNEVEN[0]; k++) expect_remainders(file, sizeof B, &OF_UNEVEN[k]);
    /* a file's refusal comes before a state, n or r outside */
    for (k = 0; k < EXAMPLE_COUNT; k++) {
        const struct example *row = &EXAMPLES[k];
        if (row->row == 13) continue;
        make(row, file);
        for (at = 0; at < 6; at++) {
            const struct question question = {row->name, any[at][0], any[at][1], any[at][2],
                                              KULDREPSO_REFUSED + (uint64_t)row->row, {0, 0, 0}};
            expect_remainders(file, row->length, &question);
        }
    }
}

/* The row that stops an example's file in a move from version `from`: 3 before all later rows where it is of another. */
static int move_row(const struct example *row, const uint8_t *file, int from) {
    return row->row > 3 && file[2] != from ? 3 : row->row;
}

/* B in version 2 with these weights and this time, made in `file`. */
static void make_b2(uint8_t *file, uint32_t first, uint32_t second, uint32_t time) {
    memcpy(file, B2, sizeof B2);
    put(file, 13, 4, first);
    put(file, 17, 4, second);
    put(file, 9, 4, time);
}

static void move_papers(void) {
    static const uint32_t elsewhere[3][2] = {{250000, 750000}, {999999, 1}, {0, 1000000}};
    uint8_t file[EXAMPLE_BYTES];
    size_t k;
    expect_pair("A there and back", A, sizeof A, A2, sizeof A2);
    make_b2(file, 1000000, 0, 1);
    expect_pair("B there and back", B, sizeof B, file, sizeof B2);
    expect_unwritten("A2 to version 2", to_version_2, A2, sizeof A2, OUT, 3);
    expect_unwritten("A to version 1", to_version_1, A, sizeof A, OUT, 3);
    for (k = 0; k < EXAMPLE_COUNT; k++) {
        const struct example *row = &EXAMPLES[k];
        if (row->row == 13) continue;
        make(row, file);
        expect_unwritten(row->name, to_version_2, file, row->length, OUT, move_row(row, file, 1));
        expect_unwritten(row->name, to_version_2, file, row->length, 0, move_row(row, file, 1));
        expect_unwritten(row->name, to_version_1, file, row->length, OUT, move_row(row, file, 2));
        expect_unwritten(row->name, to_version_1, file, row->length, 0, move_row(row, file, 2));
    }
    for (k = 0; k < 3; k++) {
        make_b2(file, elsewhere[k][0], elsewhere[k][1], 1);
        expect_unwritten("B2, weight on state 2", to_version_1, file, sizeof B2, OUT, 17);
        expect_unwritten("B2, weight on state 2, no byte for it", to_version_1, file, sizeof B2, 0, 17);
        make_b2(file, elsewhere[k][0], elsewhere[k][1], 257);
        expect_unwritten("B2, weight on state 2, time 257", to_version_1, file, sizeof B2, OUT, 12);
    }
}

/* Every call that reads a version 2 file refuses this one by `row`, from 6 to 11 or 16, with and without room for what it
 * writes. */
static void expect_row(const char *call_name, const uint8_t *file, size_t length, int row) {
    const uint64_t answer = KULDREPSO_REFUSED + (uint64_t)row;
    const struct lent all = {file, length, HOURS, 1, LEVELS, CELLS}, none = {file, length, HOURS, 9, 0, 0};
    const struct question inside = {call_name, 1, 1, 1, answer, {0, 0, 0}};
    const struct question outside = {call_name, 0, 0, 0, answer, {0, 0, 0}};
    expect_refusal(call_name, file, length, CELLS, row);
    expect_refusal(call_name, file, length, 0, row);
    expect_series_refusal(call_name, all, row);
    expect_series_refusal(call_name, none, row);
    expect_remainders(file, length, &inside);
    expect_remainders(file, length, &outside);
    expect_unwritten(call_name, to_version_1, file, length, OUT, row);
    expect_unwritten(call_name, to_version_1, file, length, 0, row);
}

/* Sums past 32 bits, the second of them 1,000,000 in its low 32 bits; and a sum one above together with each row about it. */
static void wrong_sums(void) {
    static const struct {
        const char *name;
        size_t at;
        uint32_t number;
        int row;
    } both[6] = {
        {"B2, a wrong sum and tolerance 0", 5, 0, 7},
        {"B2, a wrong sum and time 0", 9, 0, 8},
        {"B2, a wrong sum and reward 1,000,001", 21, 1000001, 16},
        {"B2, a wrong sum and no reward", 21, 0, 16},
        {"B2, a wrong sum and first rate 10,000,001", 29, 10000001, 16},
        {"B2, a wrong sum and time 257", 9, 257, 16},
    };
    static const uint32_t never[1] = {0};
    uint8_t file[EXAMPLE_BYTES];
    const struct lent first_0 = {file, sizeof B2, never, 1, LEVELS, CELLS};
    size_t k;
    make_b2(file, 4294967295, 4294967295, 1);
    expect_row("B2, weights of 4,294,967,295", file, sizeof B2, 16);
    make_b2(file, 4294967295, 1000001, 1);
    expect_row("B2, weights that sum to 4,295,967,296", file, sizeof B2, 16);
    expect_series_refusal("B2, a wrong sum and first time 0", first_0, 8);
    for (k = 0; k < 6; k++) {
        make_b2(file, 250001, 750000, 1);
        put(file, both[k].at, 4, both[k].number);
        expect_row(both[k].name, file, sizeof B2, both[k].row);
    }
}

/* Practice files by hand from document 02, S-6: the words of the stream, each the one before * 1664525 + 1013904223, cut
 * to 32 bits. Their upper halves are the draws.
 *   seed 0         3C6EF35F = 1013904223; 47502932, as 1013904223 * 1664525 + 1013904223 = 392941 * 2^32 + 1196435762.
 *                  Time 1 + 3C6E / 4096 = 1 + 15470 / 4096 = 4, first reward 4750 + 1.
 *   seed 2^31      BC6EF35F; C7502932: each 2^31 more, as 2^31 times an odd number is 2^31 when cut.
 *                  Time 1 + BC6E / 4096 = 1 + 48238 / 4096 = 12, first reward C750 + 1.
 *   seed 1         3C88596C = 1664525 + 1013904223; 5E8885DB; 8116017E; B4733AC5; 0CF06D60.
 *                  Time 1 + 3C88 / 4096 = 1 + 15496 / 4096 = 4, first reward 5E88 + 1, then 8116, B473, 0CF0.
 *   seed 2^32 - 1  3C558D52 = 1013904223 - 1664525; 3017CC89; 2283EC54; A17F6BA3; B7B55CA6.
 *                  Time 1 + 3C55 / 4096 = 1 + 15445 / 4096 = 4, first reward 3017 + 1, then 2283, A17F, B7B5.
 *   653637408      FFFFFFFF, as 653637408 * 1664525 + 1013904223 = 253318 * 2^32 + 4294967295; 3C558D52 as above.
 *                  Time 1 + FFFF / 4096 = 1 + 65535 / 4096 = 16, first reward 3C55 + 1.
 *   2480864133     26F5B720 = 653637408, as 2480864133 * 1664525 + 1013904223 = 961465 * 2^32 + 653637408; FFFFFFFF.
 *                  Time 1 + 26F5 / 4096 = 1 + 9973 / 4096 = 3, first reward FFFF + 1. */
static const struct deal DEALS[6] = {
    {"practice, M 1, R 1, seed 0", 1, 1, 0, 0},
    {"practice, M 1, R 8, seed 2^31", 1, 8, UINT32_C(1) << 31, 0},
    {"practice, M 2, R 2, seed 1", 2, 2, 1, 0},
    {"practice, M 2, R 1, seed 2^32 - 1", 2, 1, UINT32_MAX, 0},
    {"practice, M 1, R 2, the latest time", 1, 2, 653637408, 0},
    {"practice, M 1, R 3, the largest first reward", 1, 3, 2480864133, 0},
};
static const size_t DEALT_LENGTHS[6] = {17, 17, 29, 29, 17, 17}; /* 4 * M * M + 13 */
static const uint8_t DEALT[6][29] = {
    {0x00, 0x0F, 0x01, 0x01, 0x01, 0x00, 0x00, 0x27, 0x10, 0x00, 0x00, 0x00, 0x04, 0x00, 0x00, 0x47, 0x51},
    {0x00, 0x0F, 0x01, 0x01, 0x08, 0x00, 0x00, 0x27, 0x10, 0x00, 0x00, 0x00, 0x0C, 0x00, 0x00, 0xC7, 0x51},
    {0x00, 0x1B, 0x01, 0x02, 0x02, 0x00, 0x00, 0x27, 0x10, 0x00, 0x00, 0x00, 0x04, 0x00, 0x00,
     0x5E, 0x89, 0x00, 0x00, 0x81, 0x16, 0x00, 0x00, 0xB4, 0x73, 0x00, 0x00, 0x0C, 0xF0},
    {0x00, 0x1B, 0x01, 0x02, 0x01, 0x00, 0x00, 0x27, 0x10, 0x00, 0x00, 0x00, 0x04, 0x00, 0x00,
     0x30, 0x18, 0x00, 0x00, 0x22, 0x83, 0x00, 0x00, 0xA1, 0x7F, 0x00, 0x00, 0xB7, 0xB5},
    {0x00, 0x0F, 0x01, 0x01, 0x02, 0x00, 0x00, 0x27, 0x10, 0x00, 0x00, 0x00, 0x10, 0x00, 0x00, 0x3C, 0x56},
    {0x00, 0x0F, 0x01, 0x01, 0x03, 0x00, 0x00, 0x27, 0x10, 0x00, 0x00, 0x00, 0x03, 0x00, 0x01, 0x00, 0x00},
};

/* M and R outside; 4294967299 is 2^32 + 3, inside by its low 32 bits alone. Of two rows that hold the first is told. */
static const struct deal REFUSED_DEALS[13] = {
    {"practice, M 0", 0, 1, 0, 4},
    {"practice, M 65", 65, 8, 1, 4},
    {"practice, M 4294967299", 4294967299, 3, 2, 4},
    {"practice, M UINT64_MAX", UINT64_MAX, 1, UINT32_MAX, 4},
    {"practice, R 0", 1, 0, 0, 5},
    {"practice, R 9", 64, 9, 1, 5},
    {"practice, R 4294967299", 3, 4294967299, 2, 5},
    {"practice, R UINT64_MAX", 1, UINT64_MAX, UINT32_MAX, 5},
    {"practice, M and R 0", 0, 0, 0, 4},
    {"practice, M 0 and R 9", 0, 9, 0, 4},
    {"practice, M 65 and R 0", 65, 0, 0, 4},
    {"practice, M and R 4294967299", 4294967299, 4294967299, 0, 4},
    {"practice, M and R UINT64_MAX", UINT64_MAX, UINT64_MAX, 0, 4},
};

static void expect_dealt(const struct deal *asked_deal, const uint8_t *file, size_t length) {
    deal = asked_deal;
    expect_written(deal->name, practice, NULL, 0, file, length);
}

/* With one state every moment is one, as A's are. The moments of the others are from the independent calculation in
 * tests/rust. */
static void practice_papers(void) {
    static const uint64_t of_1[4] = {755516734055, 574457417577, 998338519612, 996964827814};
    static const uint64_t of_last[2] = {979173561442, 741283340214};
    size_t k;
    for (k = 0; k < 6; k++) expect_dealt(&DEALS[k], DEALT[k], DEALT_LENGTHS[k]);
    expect_level(DEALS[0].name, DEALT[0], 17, 1, 1, A_MOMENTS, 1);
    expect_level(DEALS[1].name, DEALT[1], 17, 8, 1, A_MOMENTS, 8);
    expect_level(DEALS[2].name, DEALT[2], 29, 4, 4, of_1, 4);
    expect_level(DEALS[3].name, DEALT[3], 29, 2, 4, of_last, 2);
    expect_level(DEALS[4].name, DEALT[4], 17, 2, 1, A_MOMENTS, 2);
    expect_level(DEALS[5].name, DEALT[5], 17, 3, 1, A_MOMENTS, 3);
    for (k = 0; k < sizeof REFUSED_DEALS / sizeof REFUSED_DEALS[0]; k++) {
        deal = &REFUSED_DEALS[k];
        expect_unwritten(deal->name, practice, NULL, 0, OUT, deal->row);
        expect_unwritten(deal->name, practice, NULL, 0, 0, deal->row);
    }
}

static void no_elements(void) {
    const struct lent none = {A, 0, HOURS, 0, 0, 0}, time = {A, 0, HOURS, 1, 0, 0}, list = {A, sizeof A, HOURS, 1, 0, 0};
    expect_refusal("no byte and no cell", A, 0, 0, 1);
    expect_refusal("A and no cell", A, sizeof A, 0, 13);
    expect_series_refusal("no element at all", none, 1);
    expect_series_refusal("one time and nothing else", time, 1);
    expect_series_refusal("A, one time, no level and no cell", list, 13);
    expect_unwritten("no byte to version 2, and none for it", to_version_2, A, 0, 0, 1);
    expect_unwritten("no byte to version 1, and none for it", to_version_1, A2, 0, 0, 1);
}

/* The longest file of a version, and its length: 64 states with the same reward and no rates, R = 8, so that every moment
 * is one. 256 jumps are expected, the most, and the tolerance is the least. In version 2 all states have the same weight. */
static size_t make_longest(uint8_t *file, int version) {
    size_t k, rewards = version == 2 ? 13 + 4 * 64 : 13, length = rewards + 4 * 64 * 64;
    memset(file, 0, BYTES);
    put(file, 0, 2, (uint32_t)length - 2);
    put(file, 2, 1, (uint32_t)version);
    put(file, 3, 1, 64);
    put(file, 4, 1, 8);
    put(file, 5, 4, 1);
    put(file, 9, 4, 256000000);
    for (k = 0; version == 2 && k < 64; k++) put(file, 13 + 4 * k, 4, 15625);
    for (k = 0; k < 64; k++) put(file, rewards + 4 * k, 4, 1000000);
    return length;
}

static void longest(void) {
    static uint8_t file[BYTES];
    static uint64_t ones[KULDREPSO_MOST_CELLS];
    size_t k;
    int version;
    for (k = 0; k < KULDREPSO_MOST_CELLS; k++) ones[k] = KULDREPSO_ONE;
    for (version = 1; version <= 2; version++) {
        size_t length = make_longest(file, version), block = version == 2 ? 65 * 8 : 64 * 8;
        expect_level("the longest file", file, length, block, 358, ones, block);
        expect_level("the longest file, a cell more", file, length, block + 1, 358, ones, block);
        expect_refusal("the longest file, a cell less", file, length, block - 1, 13);
        put(file, 0, 2, (uint32_t)length + 1 - 2);
        expect_refusal("a byte more than the longest", file, length + 1, KULDREPSO_MOST_CELLS, 6);
    }
    expect_row("a byte more than the longest", file, KULDREPSO_MOST_BYTES + 1, 6);
}

/* There and back with the longest file; back with weight on each other state; and the largest sum of weights. */
static void longest_moves(void) {
    static uint8_t first[BYTES], second[BYTES];
    size_t k, first_length = make_longest(first, 1), second_length = make_longest(second, 2);
    expect_unwritten("the longest file, weight on all states", to_version_1, second, second_length, OUT, 17);
    for (k = 0; k < 64; k++) put(second, 13 + 4 * k, 4, k == 0 ? 1000000 : 0);
    expect_pair("the longest file there and back", first, first_length, second, second_length);
    put(second, 13, 4, 999999);
    for (k = 1; k < 64; k++) {
        put(second, 13 + 4 * k, 4, 1);
        expect_unwritten("the longest file, weight on another state", to_version_1, second, second_length, OUT, 17);
        put(second, 13 + 4 * k, 4, 0);
    }
    for (k = 0; k < 64; k++) put(second, 13 + 4 * k, 4, 4294967295);
    expect_row("the longest file, weights of 4,294,967,295", second, second_length, 16);
}

/* The longest file with other rewards, and from each state to the next about one jump an hour. */
static size_t make_longest_ring(uint8_t *file, int version) {
    size_t k, length = make_longest(file, version), rewards = length - 4 * 64 * 64;
    for (k = 0; k < 64; k++) {
        put(file, rewards + 4 * k, 4, (uint32_t)(15625 * (k + 1)));
        /* the diagonal is left out: the next state's rate is the k-th of row k, and the first of the last row */
        put(file, rewards + 4 * 64 + 4 * (63 * k + k % 63), 4, (uint32_t)(1000000 - k));
    }
    return length;
}

/* kuldrepso_calculate where no level is known before: the level of the file, which is to be accepted. */
static uint64_t level_of(const char *call_name, const uint8_t *file, size_t length, uint64_t *block, size_t count) {
    uint64_t level;
    name = call_name;
    mark(row_means, NUMBER);
    level = kuldrepso_calculate(file, length, block, count, row_means + GUARD);
    if (level >= KULDREPSO_REFUSED) {
        fault("the answer is", level);
        level = 0;
    }
    expect_row_means(file, level);
    return level;
}

/* For each of the eight times the level and the block are those of the file with that time. */
static void longest_series(void) {
    static const uint32_t eight[KULDREPSO_MOST_TIMES] = {1, 2, 12, 24, 72, 168, 255, 256};
    static uint8_t file[BYTES];
    static uint64_t expected_levels[KULDREPSO_MOST_TIMES];
    static uint64_t expected[KULDREPSO_MOST_TIMES * KULDREPSO_MOST_CELLS];
    struct lent all = {file, KULDREPSO_MOST_BYTES, eight, KULDREPSO_MOST_TIMES, KULDREPSO_MOST_TIMES,
                       KULDREPSO_MOST_TIMES * KULDREPSO_MOST_CELLS};
    struct lent more = all, fewer_levels = all, fewer_cells = all;
    size_t k;
    make_longest_ring(file, 2);
    for (k = 0; k < KULDREPSO_MOST_TIMES; k++) {
        put(file, 9, 4, eight[k]);
        expected_levels[k] = level_of("the longest file, each time alone", file, KULDREPSO_MOST_BYTES,
                                      expected + k * KULDREPSO_MOST_CELLS, KULDREPSO_MOST_CELLS);
    }
    put(file, 9, 4, 4294967295);
    expect_series("the longest file, eight times", all, expected_levels, expected);
    more.level_count = LEVELS;
    more.cell_count = CELLS;
    expect_series("the longest file, a level and a cell more", more, expected_levels, expected);
    fewer_levels.level_count--;
    expect_series_refusal("the longest file, a level less", fewer_levels, 13);
    fewer_cells.cell_count--;
    expect_series_refusal("the longest file, a cell less", fewer_cells, 13);
}

/* In the file without rates every division is even. The remainders of the other are from the independent calculation in
 * tests/rust. The weights change none. */
static void longest_remainders(void) {
    static const struct question even[4] = {
        {"the longest file, its last remainders", 64, 358, 8, KULDREPSO_GIVEN, {0, 0, 0}},
        {"the longest file, a state more", 65, 358, 8, KULDREPSO_NONE, {0, 0, 0}},
        {"the longest file, n = N + 1", 64, 359, 8, KULDREPSO_NONE, {0, 0, 0}},
        {"the longest file, an r more", 64, 358, 9, KULDREPSO_NONE, {0, 0, 0}},
    };
    static const struct question ring[2] = {
        {"the longest file with rates, the last state but one", 63, 358, 8, KULDREPSO_GIVEN, {945904, 906250, 28}},
        {"the longest file with rates, the last state", 64, 358, 8, KULDREPSO_GIVEN, {178807, 0, 226}},
    };
    static uint8_t file[BYTES];
    size_t k, length;
    int version;
    for (version = 1; version <= 2; version++) {
        length = make_longest(file, version);
        for (k = 0; k < 4; k++) expect_remainders(file, length, &even[k]);
        length = make_longest_ring(file, version);
        put(file, 9, 4, 256);
        for (k = 0; k < 2; k++) expect_remainders(file, length, &ring[k]);
    }
}

/* The longest practice file, its words from the stream. kuldrepso_calculate accepts it with its 64 * 8 cells. */
static void longest_practice(void) {
    static const struct deal longest_deal = {"the longest practice file", 64, 8, 0, 0};
    static uint8_t file[BYTES];
    uint32_t word = longest_deal.seed;
    size_t k, length = make_longest(file, 1);
    put(file, 5, 4, 10000);
    for (k = 0; k <= 64 * 64; k++) {
        word = (uint32_t)(word * UINT64_C(1664525) + 1013904223);
        put(file, 9 + 4 * k, 4, k == 0 ? 1 + (word >> 16) / 4096 : (word >> 16) + (k == 1));
    }
    expect_dealt(&longest_deal, file, length);
    level_of("the longest practice file, its level", file, length, cells, 64 * 8);
}

int main(void) {
    papers();
    series_papers();
    remainders_papers();
    move_papers();
    practice_papers();
    wrong_sums();
    no_elements();
    longest();
    longest_moves();
    longest_series();
    longest_remainders();
    longest_practice();
    if (faults > 0) {
        printf(LANGUAGE " test: %d calls, %d faults\n", calls, faults);
        return 1;
    }
    printf(LANGUAGE " test: %d calls, all as expected\n", calls);
    return 0;
}
