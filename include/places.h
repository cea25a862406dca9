/* places: word times against audio. The calls of the proved library, libcapi.a.
 *
 * A slice is a pointer and the number of its elements. A slice of none may have any pointer that is aligned and not null. All memory is the
 * caller's: the library keeps no pointer, allocates nothing and has no state, so that any number of threads may call it. What a call reads must
 * not change while it runs, and what it writes must overlap nothing that it reads.
 *
 * A result of 0 is success. 100 is an answer without values (places_solve_kkt). Any other is a refusal. Whatever is not 0 writes nothing:
 *    1 torn           a header or body cut short, or a length its tag doesn't have
 *    2 strange tag    not 1 to 5
 *    3 out of turn    a falling tag, a second cap, no word, no cap
 *    4 crowded        one field more than allowed
 *    5 off the tape   a number outside its range
 *    6 crossed        lower above upper
 *    7 bad list       count, order or word number
 *    8 short page     the answer's slice is too small
 *    9 wrong shape    counts or lengths that don't go together
 *   10 blank bound    a bound of a variable or a row is NaN
 *   11 not finite     a term of the objective
 *   12 no answer      the numbers don't reach: singular, or too ill-conditioned to solve
 *   13 unbounded      the objective falls without end
 *   14 not converged  the passes run out, or a pass can't go on; for places_place also a plan that breaks a bound
 *   15 overrun        gap outside signed 64 bits (kept for this; no input gives it)
 *  100 no optimum     the objective falls without end, or no x satisfies the equations
 *
 * Each call says how much stack it needs, measured with the older kit (docs/PORT.md); all its work memory is there.
 *
 * To link it: (cd crates/capi && rt lib), then cc program.c -Iinclude crates/capi/out/libcapi.a
 */
#ifndef PLACES_H
#define PLACES_H

#include <stddef.h>
#include <stdint.h>

#ifdef __cplusplus
extern "C" {
#endif

/* Places a block: for the block file `block` it writes the answer file to the front of `answer`, whose other bytes keep their values, and its length
 * to *written. The file's fields are 17, a time for each word (4 bytes each); 18, a price for each anchor, each span and the cap (8 bytes each); 19, the
 * gap (8 bytes); 20, the passes of the accepted solve (2 bytes): 30 + 4 * words + 8 * (anchors + spans) bytes, at most 350.
 *
 * With 0 the times in the file are each in their word's window; twice what the moves are above the cap is at most the number of words; twice what an
 * anchor or a span is missed by is at most the sum of its coefficients' sizes; and no plan that keeps the block costs less than this plan's cost less
 * the gap in the file.
 *
 * Refusals, in this order: the block's, 1 to 7; 8; the engine's, 11, 12 or 14 (13 belongs to its other calls); 14 where a weight of the engine is not
 * finite or the written times break one of those bounds; 15. On a refusal the slice and *written keep their values. Stack: 281 KB. */
uint32_t places_place(const uint8_t *block, size_t block_len,
                      uint8_t *answer, size_t answer_len,
                      uint64_t *written);

/* The check of anyone's plan: the gap of `times` (a time for each word, in samples, 0 to 262,144) and `prices` (one for each anchor, then one for
 * each span, each within +-4,294,967,296, then the cap's, 0 to 4,294,967,296) for the block file `block`. The plan need keep no window, anchor,
 * span or cap. No plan that keeps them all costs less than this plan's cost less the gap.
 *
 * Refusals, in this order: the block's, 1 to 7; 9; 5 for times and prices; 15. On a refusal *gap keeps its value.
 * Stack: 29 KB. */
uint32_t places_check(const uint8_t *block, size_t block_len,
                      const int32_t *times, size_t times_len,
                      const int64_t *prices, size_t prices_len,
                      int64_t *gap);

/* IEEE 754's square root of a binary64: the nearest one to the real root, ties to even. The root of -0 is -0, of +infinity +infinity, and of a
 * NaN or anything below zero a NaN. It refuses nothing. Stack: less than 1 KB. */
double places_sqrt(double x);

/* The x that minimizes x'Kx/2 - c'x subject to E'x = b, and the multipliers of the equations, where Kx + E(multipliers) = c. K is n by n, E is n by m,
 * column after column; n is at most 32 and m at most 8. x is written to n places and the multipliers to m.
 *
 * Refusals: 9 where a count is too large or a slice has not the length that the counts give it (k n * n, c and x n, e n * m, b and multipliers m);
 * 11 where an entry of K or c, each over its variable's scale, is not finite; 12 where there is no variable, the average diagonal entry is negative
 * or not finite, the eigenvalues were not found, the residual of what was found overflows, or the x that was found is not finite or misses an
 * equation. 100 is no refusal of the input but an answer: there is no optimum, as the objective falls without end or no x satisfies the equations.
 * Whatever is not 0 leaves x and multipliers as they were. Stack: 91 KB. */
uint32_t places_solve_kkt(const double *k, size_t k_len,
                          const double *c, size_t c_len,
                          const double *e, size_t e_len,
                          const double *b, size_t b_len,
                          size_t n, size_t m,
                          double *x, size_t x_len,
                          double *multipliers, size_t multipliers_len);

/* The x that minimizes x'Qx/2 - c'x subject to E'x = b, to lower <= x <= upper and to row_lower <= A'x <= row_upper, from `start`, by an
 * active-set method. Q is n by n, E is n by m, A is n by r, column after column; n is at most 32, m at most 8 and r at most 16. A bound or a limit
 * may be infinite; a lower one at or above its upper one fixes its variable, or its row, at the lower. x is written to n places, and to m + r places
 * the multipliers of the equations and then of the rows: Qx + E(the first m) + A(the last r) is c but for variables at a bound. *passes becomes the
 * number of passes made, the last one included, at most 100 + 20 (n + r).
 *
 * The start is held to its bounds; one that misses an equation or a row is not refused, and often ends in 12.
 *
 * Refusals, in this order: 9 where a count is too large or a slice has not the length that the counts give it (q n * n; c, lower, upper, start and
 * x n; e n * m; b m; a n * r; row_lower and row_upper r; multipliers m + r); 10 where one of the four lists of bounds and limits has a NaN; then, by
 * the first pass that comes to it, 11 where an entry of Q or c that the pass solves with, over its variable's scale, is not finite; 12 where the pass
 * is refused a step as places_solve_kkt refuses an answer, or finds no direction to descend in, or where the x at the end misses an equation or a
 * row's limit; 13 where the objective falls without end; 14 where the passes run out, where all variables are held at a point where all were freed
 * before, or where what would lower the objective can't leave its bound. Whatever is not 0 leaves x, multipliers and *passes as they were.
 * Stack: 212 KB. */
uint32_t places_solve_bounded(const double *q, size_t q_len,
                              const double *c, size_t c_len,
                              const double *e, size_t e_len,
                              const double *b, size_t b_len,
                              const double *lower, size_t lower_len,
                              const double *upper, size_t upper_len,
                              const double *a, size_t a_len,
                              const double *row_lower, size_t row_lower_len,
                              const double *row_upper, size_t row_upper_len,
                              const double *start, size_t start_len,
                              size_t n, size_t m, size_t r,
                              double *x, size_t x_len,
                              double *multipliers, size_t multipliers_len,
                              uint64_t *passes);

/* The same with a kink in the cost of each variable: slopes[i] * |x[i] - at[i]| is added to what is minimized, and a variable may be held at its
 * kink as at a bound. at and slopes have n elements; a slope that is not above 0 adds nothing. Stack: 212 KB. */
uint32_t places_solve_piecewise(const double *q, size_t q_len,
                                const double *c, size_t c_len,
                                const double *e, size_t e_len,
                                const double *b, size_t b_len,
                                const double *lower, size_t lower_len,
                                const double *upper, size_t upper_len,
                                const double *a, size_t a_len,
                                const double *row_lower, size_t row_lower_len,
                                const double *row_upper, size_t row_upper_len,
                                const double *at, size_t at_len,
                                const double *slopes, size_t slopes_len,
                                const double *start, size_t start_len,
                                size_t n, size_t m, size_t r,
                                double *x, size_t x_len,
                                double *multipliers, size_t multipliers_len,
                                uint64_t *passes);

/* The same with the turnover, the sum of |x[i] - at[i]|, at most `cap`: every slope is raised by one number, from 0 up, until the optimum's turnover
 * reaches the cap, to within the rounding of its sum, or no float lies between two raises. *passes are those of the accepted solve, *raise the raise
 * that it was accepted at: 0 where the optimum itself keeps the cap.
 *
 * Refusals: 9 and 10 as before; 11, 12 and 14 as the solve at raise 0, or one between a raise that keeps the cap and one that doesn't, is refused;
 * 14 also where a larger raise is refused before one keeps the cap, or none does. It never answers 13: where the objective falls without end, the
 * turnover is infinite. Whatever is not 0 leaves x, multipliers, *passes and *raise as they were. Stack: 226 KB. */
uint32_t places_solve_turnover_capped(const double *q, size_t q_len,
                                      const double *c, size_t c_len,
                                      const double *e, size_t e_len,
                                      const double *b, size_t b_len,
                                      const double *lower, size_t lower_len,
                                      const double *upper, size_t upper_len,
                                      const double *a, size_t a_len,
                                      const double *row_lower, size_t row_lower_len,
                                      const double *row_upper, size_t row_upper_len,
                                      const double *at, size_t at_len,
                                      const double *slopes, size_t slopes_len,
                                      const double *start, size_t start_len,
                                      double cap,
                                      size_t n, size_t m, size_t r,
                                      double *x, size_t x_len,
                                      double *multipliers, size_t multipliers_len,
                                      uint64_t *passes,
                                      double *raise);

#ifdef __cplusplus
}
#endif

#endif
