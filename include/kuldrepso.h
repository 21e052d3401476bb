/* Moments of the accumulated reward of a repairable system, and their truncation level: document 01's
 * calculation, its last division rounded to the nearest tick (document 02, S-1), at one time or at several (S-3), how
 * many row means that takes (S-8), how its figures are ordered (S-9), what its divisions leave over (S-4), files with a
 * starting distribution (S-5), and practice files (S-6), for C.
 * `./build kuldrepso` makes the library, libkuldrepso.a (x86-64-v2), and prints its path; it needs nothing but memcpy
 * and memset. The contracts of its calls are proved: crates/kuldrepso/src/lib.rt. */
#ifndef KULDREPSO_H
#define KULDREPSO_H

#include <stddef.h>
#include <stdint.h>

#ifdef __cplusplus
extern "C" {
#endif

/* The version of this header, and of the library beside it. MINOR rises where calls or macros are added and a program
 * that was written before stays right. MAJOR rises, and MINOR starts again at 0, where such a program has to be looked
 * through: a call takes other parameters or answers something else, or a macro has another value. */
#define KULDREPSO_VERSION_MAJOR 4
#define KULDREPSO_VERSION_MINOR 0

/* An answer below this is an acceptance; any other is this and the number of a refusal. */
#define KULDREPSO_REFUSED UINT64_C(1000000)

/* Cells that are enough for every file at one time: 64 states and the start, 8 figures each. A list of times takes as
 * many for each. */
#define KULDREPSO_MOST_CELLS 520

/* Times that a list may have: 1 to this many. */
#define KULDREPSO_MOST_TIMES 8

/* Bytes of the longest file that can be accepted: version 2 with 64 states. A longer one is refused. */
#define KULDREPSO_MOST_BYTES 16653

/* Ticks in one: a moment is its cell divided by this. */
#define KULDREPSO_ONE UINT64_C(1000000000000)

/* Judges the model file in file[0] .. file[file_length - 1] and calculates its moments.
 *
 * The file is of version 1 or 2, its byte 2. One of version 2 has M starting weights, 4 bytes each, in millionths, before its
 * reward rates (document 02, S-5). M and R are bytes 3 and 4 of the file. A block is B cells:
 *   M * R                   in version 1: block cell (i - 1) * R + (r - 1) is moment r of state i, i from 1 to M and r from
 *                           1 to R;
 *   (M + 1) * R             in version 2: the same, and after them block cell M * R + (r - 1) is the start figure for r, the
 *                           sum over the states of weight times moment r, over 1,000,000, down.
 * All are in ticks.
 *
 * Answers
 *   N                       the level, from 1 to 563, where no row of the table below holds. Then cells[0] .. cells[B - 1]
 *                           hold the file's block, and *row_means the number of row means that were taken, one for each
 *                           state, each r and each n from 1 to N: N * M * R. Every cell from B on is as it was.
 *   KULDREPSO_REFUSED + k   where row k is the first that holds. Every cell is as it was, and so is *row_means.
 *
 * How long the series can be is known before it begins: N is at most 2 * m + 51 (S-8), where m is the expected jump count,
 * rounded down: E times the file's time, over 1,000,000. E is the largest sum of the rates out of a state, or 1 where all
 * are 0.
 *
 * The figures are in order (S-9), to the last tick: of one state, and of the start, the figure for r + 1 is at most that for
 * r. And the file with the reward rate of one state raised, up to the largest of the file and not past it, lent the same
 * cells, is answered the same, *row_means too, and leaves no cell lower.
 *
 * The table, in its order: rows 1 to 8 of document 01's "What stops a file", where 3 holds for any version but 1 and 2, and 6
 * reads the length of the file's version; 16, the weights of a version 2 file do not sum to 1,000,000; rows 9 to 12; 13,
 * cell_count is below B.
 *
 * Each slice is a pointer and a count of its elements, not of bytes; row_means points to one number. No pointer may be
 * null, also where its count is 0 (any suitably aligned address does then); the slices and the number must not overlap;
 * file_length and 8 * cell_count are at most PTRDIFF_MAX. That is all a caller owes: any bytes and any count of cells get
 * an answer. Nothing is kept, nothing is allocated, and calls on different cells and numbers may run at once. Until an
 * accepting call returns, its B cells may hold sums that are no moments yet. It takes less than 128 KB of stack. */
uint64_t kuldrepso_calculate(const uint8_t *file, size_t file_length, uint64_t *cells, size_t cell_count,
                             uint64_t *row_means);

/* Judges the model file together with a list of times, in whole hours, and calculates its moments for each of them
 * (document 02, S-3). The file's own time is judged, at row 8, and not used.
 *
 * Answers
 *   time_count              where no row of the table below holds. For time k, counted from 0: levels[k] holds its level,
 *                           and cells[k * B] .. cells[(k + 1) * B - 1] its block, that of kuldrepso_calculate. Both are
 *                           what kuldrepso_calculate gives for the file with times[k] in the place of its time, bytes 9
 *                           to 12. *row_means holds the number of row means that were taken, once for all times: N * M * R,
 *                           where N is the largest of the levels. Every level from time_count on and every cell from
 *                           time_count * B on is as it was.
 *   KULDREPSO_REFUSED + k   where row k is the first that holds. Every level and every cell is as it was, and so is
 *                           *row_means.
 *
 * Each level is at most 2 * m + 51, where m is the expected jump count at its time, rounded down. Each block is in the order
 * of kuldrepso_calculate's, and with one reward rate raised as there the answer, the levels and *row_means are the same, and
 * no cell is left lower.
 *
 * The table, in its order: the rows of kuldrepso_calculate's table up to 11, where 8 holds also for a list whose first time
 * is 0; 14, the list has no time or more than KULDREPSO_MOST_TIMES; 15, a time is not above the one before it; 12, judged
 * on the last time; 13, level_count is below time_count, or cell_count below time_count * B.
 *
 * A caller owes what is owed to kuldrepso_calculate, here for four slices and one number: no pointer may be null, also where
 * its count is 0; neither levels nor cells nor the number may overlap another of them or a slice; no slice is longer than
 * PTRDIFF_MAX bytes. Until an accepting call returns, its levels and cells may hold other numbers. It takes less than 128 KB
 * of stack. */
uint64_t kuldrepso_series(const uint8_t *file, size_t file_length, const uint32_t *times, size_t time_count,
                          uint64_t *levels, size_t level_count, uint64_t *cells, size_t cell_count,
                          uint64_t *row_means);

/* What kuldrepso_remainders answers of a file without a refusal. */
#define KULDREPSO_GIVEN 0
#define KULDREPSO_NONE 1

/* What the three divisions of U(n,r) at one state leave over (document 02, S-4), for a worked solution. States are counted
 * from 1; i is the state.
 *
 * Answers
 *   KULDREPSO_GIVEN         where no row of kuldrepso_calculate's table up to 12 holds, and state is from 1 to M, n from 1
 *                           to N, the file's level, and r from 1 to R. Then
 *                             *mean   holds the remainder of V, that of the sum over j of c(i,j) * U(n-1,r) at j by E;
 *                             *share  holds the remainder of W, that of f(i) * U(n,r-1) at i by F;
 *                             *mix    holds the remainder of U, that of n * V + r * W by n + r.
 *                           Each is below its divisor.
 *   KULDREPSO_NONE          where no such row holds, and state, n or r is outside. The three numbers are as they were.
 *   KULDREPSO_REFUSED + k   where row k is the first such row that holds, whatever state, n and r are. The three numbers
 *                           are as they were.
 *
 * Any state, n and r get an answer, UINT64_MAX too. A call works out all vectors from n = 0 up to n. A caller owes what is
 * owed to kuldrepso_calculate, here for one slice and three numbers: no pointer may be null, and none of the numbers may
 * overlap another or the file. It takes less than 128 KB of stack. */
uint64_t kuldrepso_remainders(const uint8_t *file, size_t file_length, uint64_t state, uint64_t n, uint64_t r,
                              uint64_t *mean, uint64_t *share, uint64_t *mix);

/* Moves a version 1 file to version 2 with all weight, 1,000,000, on state 1 (document 02, S-5): the same M, R, tolerance,
 * time, rewards and rates, and so the same level and moments.
 *
 * Answers
 *   C                       the count of bytes of the moved file, file_length + 4 * M, where no row of the table below holds.
 *                           Then out[0] .. out[C - 1] hold the moved file, which is accepted. Every byte from C on is as it
 *                           was.
 *   KULDREPSO_REFUSED + k   where row k is the first that holds. Every byte of out is as it was.
 *
 * The table, in its order: the rows of kuldrepso_calculate's table up to 12, where 3 holds for any version but 1; 13,
 * out_length is below C.
 *
 * KULDREPSO_MOST_BYTES bytes are enough for every file. A caller owes what is owed to kuldrepso_calculate, here for two slices
 * of bytes: no pointer may be null, also where its count is 0; the two must not overlap; neither is longer than PTRDIFF_MAX.
 * It takes less than 128 KB of stack. */
uint64_t kuldrepso_to_version_2(const uint8_t *file, size_t file_length, uint8_t *out, size_t out_length);

/* Moves a version 2 file whose weight is all on state 1 back to version 1: the file without its weights.
 *
 * Answers
 *   C                       the count of bytes of the moved file, file_length - 4 * M, where no row of the table below holds.
 *                           Then out[0] .. out[C - 1] hold the moved file, which is accepted. Every byte from C on is as it
 *                           was.
 *   KULDREPSO_REFUSED + k   where row k is the first that holds. Every byte of out is as it was.
 *
 * The table, in its order: the rows of kuldrepso_calculate's table up to 12, where 3 holds for any version but 2; 17, a state
 * other than 1 has weight; 13, out_length is below C.
 *
 * There and back, by either call first, returns the same bytes. A caller owes what is owed to kuldrepso_to_version_2. */
uint64_t kuldrepso_to_version_1(const uint8_t *file, size_t file_length, uint8_t *out, size_t out_length);

/* Deals the practice file of a seed number with M = states and R = highest (document 02, S-6): a version 1 file with
 * tolerance 10,000, whose time, rewards and rates are drawn from the stream of the seed number. The same three numbers
 * give the same bytes.
 *
 * Answers
 *   C                       the count of bytes of the file, 4 * M * M + 13, where no row of the table below holds. Then
 *                           out[0] .. out[C - 1] hold the file, which kuldrepso_calculate accepts with M * R cells or more.
 *                           Every byte from C on is as it was.
 *   KULDREPSO_REFUSED + k   where row k is the first that holds. Every byte of out is as it was.
 *
 * The table, in its order: 4, states is 0 or above 64; 5, highest is 0 or above 8; 13, out_length is below C.
 *
 * The stream has 32 bits: next = previous * 1664525 + 1013904223, cut to 32 bits, and the seed number is the first
 * "previous". A draw is the upper 16 bits after a step. The time is 1 plus the first draw over 4,096, down. Then each reward
 * and each rate, in the order of the file, is one draw; the first reward is 1 more than its draw.
 *
 * Any states, highest and seed get an answer, UINT64_MAX too. KULDREPSO_MOST_BYTES bytes are enough for every file. A caller
 * owes what is owed to kuldrepso_calculate, here for one slice of bytes: out may not be null, also where out_length is 0, and
 * is not longer than PTRDIFF_MAX. It takes less than 128 KB of stack. */
uint64_t kuldrepso_practice(uint64_t states, uint64_t highest, uint32_t seed, uint8_t *out, size_t out_length);

#ifdef __cplusplus
}
#endif

#endif
