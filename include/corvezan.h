/*
 * corvezan.h: cubic B-spline maps of one to four axes, double precision.
 *
 * Fits a map (samples on a grid to coefficients), and evaluates it (values and gradients at queries), on regular
 * grids (a start and a step for each axis) and rectilinear ones (any increasing knots). Maps can also be fitted line
 * by line, in any order.
 *
 *
 * How a call answers
 *
 * Every call that can refuse answers with a number: 0 where it was accepted, else the number of the first check that
 * failed. The numbers never change their meaning:
 *
 *     0  CORVEZAN_ACCEPTED
 *     1  CORVEZAN_AXIS_COUNT          no axes, or more than four
 *     2  CORVEZAN_DIMENSION_MISMATCH  an axis of fewer than four points, or a buffer whose length disagrees
 *     3  CORVEZAN_TOO_MANY_POINTS     more than 16,777,216 points
 *     4  CORVEZAN_SCRATCH_TOO_SMALL   scratch is shorter than twice the longest axis
 *     5  CORVEZAN_NOT_INCREASING      a knot not above the one before it, or a step not above zero (NaN is neither)
 *     6  CORVEZAN_UNREPRESENTABLE     a query on a regular map whose cell cannot be represented: NaN, an infinity,
 *                                     or 2^63 steps or more from the start
 *     7  CORVEZAN_NO_SUCH_LINE        no such axis, or no such line on it
 *     8  CORVEZAN_ALREADY_SOLVED      the line is solved already
 *     9  CORVEZAN_NOT_DUE             the line is not due yet: a line of a lower axis that crosses it is not solved
 *
 * The checks are made in this order; each call makes those that apply to it, and its comment says which:
 *
 *     1; 2 for an axis below four points; 3; 2 for the length of the grid; 2 for that of the coefficients; 2 for that
 *     of the ledger; 5; 2 for the number of samples; 4; 7; 8; 9. In evaluation, after 5: 2 for the lengths of queries
 *     and outputs; 6.
 *
 * A refused call leaves every buffer as it was, with two exceptions: corvezan_regular_from_values, where it refuses a
 * step, has written the coefficients and scratch; and a batch on a regular map that is refused with 6 at an entry has
 * written the entries before that one, and none from it on.
 *
 *
 * Buffers
 *
 * Every buffer is a pointer and the number of its elements. The library allocates nothing, keeps nothing between
 * calls, and has no global state: calls on different buffers may run at the same time in different threads.
 *
 *     dims, axes     the number of points on each axis, axis 0 first; `axes`, the length of `dims`, is the axis
 *                    count. With an axis count that is refused `dims` is not read.
 *     grid           of a regular map: the start of each axis, then the step of each axis, 2 * axes numbers in all.
 *                    Of a rectilinear map: all knots of axis 0, then all of axis 1, and so on; as many as the sum of
 *                    `dims`.
 *     vals, coeffs   samples and coefficients, corvezan_points(dims, axes) of each, the last axis fastest: neighbours
 *                    on the last axis stand side by side.
 *     scratch        at least corvezan_scratch_len(dims, axes) numbers. What it held before never matters.
 *     ledger         of a stepwise fit: one byte a coefficient.
 *     linear         0: outside its grid a map goes on as the cubic of its last cell; anything else: in a straight
 *                    line from the end of the axis.
 *     x              one query: a coordinate for each axis. Several queries: n coordinates of axis 0, then n of
 *                    axis 1, and so on.
 *
 * The caller must see to it that
 *
 *   - a pointer is not null, is aligned for its type, and reaches as many elements as its length says; with length 0
 *     it may point anywhere but must not be null either;
 *   - a buffer that a call writes (its pointer is not const) overlaps no other buffer of that call, and no other
 *     thread touches a buffer that a call has;
 *   - the processor rounds to nearest and keeps subnormal numbers, as it does unless it was told otherwise. (A program
 *     linked with -ffast-math, or one that sets "flush to zero", has told it otherwise: results then differ.)
 *
 *
 * What is proved, and what is not
 *
 * Behind each of these functions stands a theorem, checked by machine, that its answer and every cell of every buffer
 * that it writes are those of a definition: the text-book steps (Thomas' elimination, the B-spline recurrence), each
 * operation rounded as IEEE 754 says, for all inputs that keep to the three points above. docs/PROMISES.md names the
 * theorems, docs/DIFFERENCES.md the steps that depart from the text books. Every NaN counts as any other NaN: which of
 * its bit patterns a result has is not promised.
 * Not proved: that the declarations in this header agree with the functions in the library (they are held to it by
 * the tests), and the compiler that made the archive.
 */
#ifndef CORVEZAN_H
#define CORVEZAN_H

#include <stddef.h>
#include <stdint.h>

#ifdef __cplusplus
extern "C" {
#endif

#define CORVEZAN_ACCEPTED 0
#define CORVEZAN_AXIS_COUNT 1
#define CORVEZAN_DIMENSION_MISMATCH 2
#define CORVEZAN_TOO_MANY_POINTS 3
#define CORVEZAN_SCRATCH_TOO_SMALL 4
#define CORVEZAN_NOT_INCREASING 5
#define CORVEZAN_UNREPRESENTABLE 6
#define CORVEZAN_NO_SUCH_LINE 7
#define CORVEZAN_ALREADY_SOLVED 8
#define CORVEZAN_NOT_DUE 9

/* ---- The shape of a map, and the sizes of its buffers. These look at `dims` only. ---- */

/* Whether a map may have this shape: 1, 2, 3. */
uint32_t corvezan_check_shape(const size_t *dims, size_t axes);

/* How many points the map has, and so how many samples, coefficients and ledger bytes. 0 where the shape is refused. */
size_t corvezan_points(const size_t *dims, size_t axes);

/* How much scratch a fit needs: twice the longest axis. 0 where the shape is refused. */
size_t corvezan_scratch_len(const size_t *dims, size_t axes);

/* How far apart two neighbours on an axis are: 1 on the last axis. 0 where the shape is refused or has no such axis. */
size_t corvezan_stride(const size_t *dims, size_t axes, size_t axis);

/* How many lines an axis has. A line of an axis is the cells that differ in their place on that axis only; lines are
   numbered from 0 by the places on the other axes, the last of them fastest. 0 where the shape is refused or has no
   such axis. */
size_t corvezan_lines(const size_t *dims, size_t axes, size_t axis);

/* The first cell of a line: its cells are *cell, *cell + stride, *cell + 2 * stride, and so on. 1, 2, 3, 7; a refused
   call leaves *cell as it was. */
uint32_t corvezan_first_cell(const size_t *dims, size_t axes, size_t axis, size_t line, size_t *cell);

/* ---- Regular grids ---- */

/* Fits a map: the coefficients of the samples. Steps do not matter to it. 1, 2, 3; 2 for coeffs, then vals; 4. */
uint32_t corvezan_regular_fit(const size_t *dims, size_t axes, const double *vals, size_t vals_len, double *coeffs,
                              size_t coeffs_len, double *scratch, size_t scratch_len);

/* Whether a map with this grid and so many coefficients can be evaluated: 1, 2, 3; 2 for the grid, then coeffs_len; 5.
   Looks at the shape and the steps, not at coefficients. */
uint32_t corvezan_regular_check(const size_t *dims, size_t axes, const double *grid, size_t grid_len,
                                size_t coeffs_len);

/* Fits, and then checks the steps: 1, 2, 3; 2 for the grid, coeffs, then vals; 4; and last 5, with coefficients and
   scratch written. */
uint32_t corvezan_regular_from_values(const size_t *dims, size_t axes, const double *grid, size_t grid_len,
                                      const double *vals, size_t vals_len, double *coeffs, size_t coeffs_len,
                                      double *scratch, size_t scratch_len);

/* The value at one query. 1, 2, 3; 2 for the grid, then coeffs; 5; 2 where x_len is not the axis count; 6. A refused
   call leaves *value as it was. */
uint32_t corvezan_regular_value(const size_t *dims, size_t axes, const double *grid, size_t grid_len, uint32_t linear,
                                const double *coeffs, size_t coeffs_len, const double *x, size_t x_len,
                                double *value);

/* The gradient at one query, a slope for each axis. As corvezan_regular_value; 2 also where slopes_len is not the axis
   count. */
uint32_t corvezan_regular_gradient(const size_t *dims, size_t axes, const double *grid, size_t grid_len,
                                   uint32_t linear, const double *coeffs, size_t coeffs_len, const double *x,
                                   size_t x_len, double *slopes, size_t slopes_len);

/* The values at values_len queries. 1, 2, 3; 2 for the grid, then coeffs; 5; 2 where x_len is not axes * values_len;
   6 at the first query that has it, with the values before it written. */
uint32_t corvezan_regular_values(const size_t *dims, size_t axes, const double *grid, size_t grid_len, uint32_t linear,
                                 const double *coeffs, size_t coeffs_len, const double *x, size_t x_len,
                                 double *values, size_t values_len);

/* The gradients at n queries; slopes_len is axes * n, and the slope of query i along axis k stands at k * n + i. As
   corvezan_regular_values; 2 where slopes_len is no multiple of the axis count, then where x_len is not slopes_len. */
uint32_t corvezan_regular_gradients(const size_t *dims, size_t axes, const double *grid, size_t grid_len,
                                    uint32_t linear, const double *coeffs, size_t coeffs_len, const double *x,
                                    size_t x_len, double *slopes, size_t slopes_len);

/* Begins a stepwise fit: copies the samples to the coefficients and zeroes the ledger. 1, 2, 3; 2 for coeffs, ledger,
   then vals; 4 where scratch_len, the length of the scratch that later calls will be lent, is too small. */
uint32_t corvezan_regular_begin(const size_t *dims, size_t axes, const double *vals, size_t vals_len, double *coeffs,
                                size_t coeffs_len, uint8_t *ledger, size_t ledger_len, size_t scratch_len);

/* Solves one line of a stepwise fit. A line of axis a is due when each of its ledger bytes is a; solving it adds 1 to
   them. Lines may be solved in any order in which each is due; the fit is finished when every ledger byte is the axis
   count, and then the coefficients are those of corvezan_regular_fit, to the bit. 1, 2, 3; 2 for coeffs, then ledger;
   4; 7; 8; 9. */
uint32_t corvezan_regular_line(const size_t *dims, size_t axes, size_t axis, size_t line, double *coeffs,
                               size_t coeffs_len, uint8_t *ledger, size_t ledger_len, double *scratch,
                               size_t scratch_len);

/* Begins a stepwise fit and makes a list of line calls, one after the other: call i is of line task_lines[i] of axis
   task_axes[i], and its answer (0, 7, 8 or 9) goes into answers[i]. A refused line call does not end the list. Refused
   as a whole for begin's reasons, then with 2 where task_lines_len, then answers_len, is not task_axes_len. */
uint32_t corvezan_regular_list(const size_t *dims, size_t axes, const double *vals, size_t vals_len,
                               const size_t *task_axes, size_t task_axes_len, const size_t *task_lines,
                               size_t task_lines_len, double *coeffs, size_t coeffs_len, uint8_t *ledger,
                               size_t ledger_len, double *scratch, size_t scratch_len, uint8_t *answers,
                               size_t answers_len);

/* ---- Rectilinear grids. The calls are those above, with the grid in each of them; no query is refused with 6, and a
   coordinate that is NaN gives what its arithmetic gives. Each call looks at every knot once. ---- */

/* Fits a map. 1, 2, 3; 2 for the grid, then coeffs; 5; 2 for vals; 4. */
uint32_t corvezan_rectilinear_fit(const size_t *dims, size_t axes, const double *grid, size_t grid_len,
                                  const double *vals, size_t vals_len, double *coeffs, size_t coeffs_len,
                                  double *scratch, size_t scratch_len);

/* Whether a map with this grid and so many coefficients can be evaluated: 1, 2, 3; 2 for the grid, then coeffs_len;
   5. */
uint32_t corvezan_rectilinear_check(const size_t *dims, size_t axes, const double *grid, size_t grid_len,
                                    size_t coeffs_len);

/* The value at one query. 1, 2, 3; 2 for the grid, then coeffs; 5; 2 where x_len is not the axis count. A refused call
   leaves *value as it was. */
uint32_t corvezan_rectilinear_value(const size_t *dims, size_t axes, const double *grid, size_t grid_len,
                                    uint32_t linear, const double *coeffs, size_t coeffs_len, const double *x,
                                    size_t x_len, double *value);

/* The gradient at one query, a slope for each axis. As corvezan_rectilinear_value; 2 also where slopes_len is not the
   axis count. */
uint32_t corvezan_rectilinear_gradient(const size_t *dims, size_t axes, const double *grid, size_t grid_len,
                                       uint32_t linear, const double *coeffs, size_t coeffs_len, const double *x,
                                       size_t x_len, double *slopes, size_t slopes_len);

/* The values at values_len queries. 1, 2, 3; 2 for the grid, then coeffs; 5; 2 where x_len is not axes * values_len. */
uint32_t corvezan_rectilinear_values(const size_t *dims, size_t axes, const double *grid, size_t grid_len,
                                     uint32_t linear, const double *coeffs, size_t coeffs_len, const double *x,
                                     size_t x_len, double *values, size_t values_len);

/* The gradients at n queries; slopes_len is axes * n, and the slope of query i along axis k stands at k * n + i. As
   corvezan_rectilinear_values; 2 where slopes_len is no multiple of the axis count, then where x_len is not
   slopes_len. */
uint32_t corvezan_rectilinear_gradients(const size_t *dims, size_t axes, const double *grid, size_t grid_len,
                                        uint32_t linear, const double *coeffs, size_t coeffs_len, const double *x,
                                        size_t x_len, double *slopes, size_t slopes_len);

/* Begins a stepwise fit. 1, 2, 3; 2 for the grid, coeffs, then ledger; 5; 2 for vals; 4. */
uint32_t corvezan_rectilinear_begin(const size_t *dims, size_t axes, const double *grid, size_t grid_len,
                                    const double *vals, size_t vals_len, double *coeffs, size_t coeffs_len,
                                    uint8_t *ledger, size_t ledger_len, size_t scratch_len);

/* Solves one line of a stepwise fit. 1, 2, 3; 2 for the grid, coeffs, then ledger; 5; 4; 7; 8; 9. */
uint32_t corvezan_rectilinear_line(const size_t *dims, size_t axes, const double *grid, size_t grid_len, size_t axis,
                                   size_t line, double *coeffs, size_t coeffs_len, uint8_t *ledger,
                                   size_t ledger_len, double *scratch, size_t scratch_len);

/* Begins a stepwise fit and makes a list of line calls. Refused as a whole for begin's reasons, then with 2 where
   task_lines_len, then answers_len, is not task_axes_len. */
uint32_t corvezan_rectilinear_list(const size_t *dims, size_t axes, const double *grid, size_t grid_len,
                                   const double *vals, size_t vals_len, const size_t *task_axes,
                                   size_t task_axes_len, const size_t *task_lines, size_t task_lines_len,
                                   double *coeffs, size_t coeffs_len, uint8_t *ledger, size_t ledger_len,
                                   double *scratch, size_t scratch_len, uint8_t *answers, size_t answers_len);

#ifdef __cplusplus
}
#endif

#endif
