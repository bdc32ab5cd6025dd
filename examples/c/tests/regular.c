/* regular.c: the calls on regular grids. A map whose samples are linear in the axes gives them back everywhere. */
#include <string.h>

#include "corvezan.h"
#include "expect.h"

#define N 20
#define LINES 9

static const size_t DIMS[2] = {4, 5};
static const double GRID[4] = {100.0, 200.0, 2.0, 0.5};
static double vals[N], coeffs[N], scratch[10];
static uint8_t ledger[N];

/* Samples 10 * row + column: 5 * (x0 - 100) + 2 * (x1 - 200). */
static void samples(void) {
    size_t i;
    for (i = 0; i < N; i++) {
        vals[i] = (double)(10 * (i / 5) + i % 5);
    }
    fill(coeffs, N);
    fill(scratch, 10);
    memset(ledger, 170, N);
}

static int all_untouched(void) {
    size_t i;
    for (i = 0; i < N; i++) {
        if (ledger[i] != 170) {
            return 0;
        }
    }
    return untouched(coeffs, N) && untouched(scratch, 10);
}

static void fit_and_value(void) {
    const double x[2] = {103.0, 201.125}, outside[2] = {90.0, 210.0};
    double value = 0.0, slopes[2] = {0.0, 0.0};
    samples();
    EXPECT(corvezan_regular_fit(DIMS, 2, vals, N, coeffs, N, scratch, 10) == CORVEZAN_ACCEPTED);
    EXPECT(corvezan_regular_check(DIMS, 2, GRID, 4, N) == CORVEZAN_ACCEPTED);
    EXPECT(corvezan_regular_value(DIMS, 2, GRID, 4, 0, coeffs, N, x, 2, &value) == CORVEZAN_ACCEPTED);
    NEAR(value, 17.25);
    EXPECT(corvezan_regular_gradient(DIMS, 2, GRID, 4, 0, coeffs, N, x, 2, slopes, 2) == CORVEZAN_ACCEPTED);
    NEAR(slopes[0], 5.0);
    NEAR(slopes[1], 2.0);
    EXPECT(corvezan_regular_value(DIMS, 2, GRID, 4, 1, coeffs, N, outside, 2, &value) == CORVEZAN_ACCEPTED);
    NEAR(value, -30.0);
}

static void batches(void) {
    const double x[6] = {100.0, 103.0, 106.0, 200.0, 201.125, 202.0}, bad[6] = {100.0, NAN, 106.0, 200.0, 201.0, 202.0};
    double values[3], slopes[6];
    size_t i;
    samples();
    EXPECT(corvezan_regular_from_values(DIMS, 2, GRID, 4, vals, N, coeffs, N, scratch, 10) == CORVEZAN_ACCEPTED);
    EXPECT(corvezan_regular_values(DIMS, 2, GRID, 4, 0, coeffs, N, x, 6, values, 3) == CORVEZAN_ACCEPTED);
    EXPECT(corvezan_regular_gradients(DIMS, 2, GRID, 4, 0, coeffs, N, x, 6, slopes, 6) == CORVEZAN_ACCEPTED);
    for (i = 0; i < 3; i++) {
        NEAR(values[i], 5.0 * (x[i] - 100.0) + 2.0 * (x[3 + i] - 200.0));
        NEAR(slopes[i], 5.0);
        NEAR(slopes[3 + i], 2.0);
    }
    fill(values, 3);
    fill(slopes, 6);
    EXPECT(corvezan_regular_values(DIMS, 2, GRID, 4, 0, coeffs, N, bad, 6, values, 3) == CORVEZAN_UNREPRESENTABLE);
    NEAR(values[0], 0.0);
    EXPECT(values[1] == 1.5 && values[2] == 2.5);
    EXPECT(corvezan_regular_gradients(DIMS, 2, GRID, 4, 0, coeffs, N, bad, 6, slopes, 6) == CORVEZAN_UNREPRESENTABLE);
    NEAR(slopes[0], 5.0);
    NEAR(slopes[3], 2.0);
    EXPECT(slopes[1] == 1.5 && slopes[2] == 2.5 && slopes[4] == 4.5 && slopes[5] == 5.5);
}

/* Points j and l of the scope, and the example of its map program. */
static void checked_points(void) {
    const size_t dims[1] = {4};
    const double grid[2] = {0.0, 1.0}, ramp[4] = {0.0, 1.0, 2.0, 3.0}, one[1] = {1.0}, low[1] = {-2.0};
    double zeros[4] = {0.0, 0.0, 0.0, 0.0}, c[4] = {9.0, 9.0, 9.0, 9.0}, value = 9.0, slope = 9.0;
    size_t i;
    EXPECT(corvezan_regular_gradient(dims, 1, grid, 2, 0, ramp, 4, one, 1, &slope, 1) == CORVEZAN_ACCEPTED);
    EXPECT(slope == 1.0);
    slope = 9.0;
    EXPECT(corvezan_regular_gradient(dims, 1, grid, 2, 1, ramp, 4, low, 1, &slope, 1) == CORVEZAN_ACCEPTED);
    EXPECT(slope == 1.0);
    EXPECT(corvezan_regular_fit(dims, 1, zeros, 4, c, 4, scratch, 8) == CORVEZAN_ACCEPTED);
    for (i = 0; i < 4; i++) {
        EXPECT(c[i] == 0.0 && !signbit(c[i]));
    }
    EXPECT(corvezan_regular_value(dims, 1, grid, 2, 0, c, 4, one, 1, &value) == CORVEZAN_ACCEPTED);
    EXPECT(corvezan_regular_gradient(dims, 1, grid, 2, 0, c, 4, one, 1, &slope, 1) == CORVEZAN_ACCEPTED);
    EXPECT(value == 0.0 && slope == 0.0);
}

static void fit_refused(void) {
    const size_t shorter[2] = {4, 3}, more[2] = {4096, 4097};
    const double bad[4] = {0.0, 0.0, 1.0, 0.0};
    samples();
    EXPECT(corvezan_regular_fit(DIMS, 0, vals, N, coeffs, N, scratch, 10) == CORVEZAN_AXIS_COUNT);
    EXPECT(corvezan_regular_fit(shorter, 2, vals, N, coeffs, N, scratch, 10) == CORVEZAN_DIMENSION_MISMATCH);
    EXPECT(corvezan_regular_fit(more, 2, vals, N, coeffs, N, scratch, 10) == CORVEZAN_TOO_MANY_POINTS);
    EXPECT(corvezan_regular_fit(DIMS, 2, vals, N - 1, coeffs, N, scratch, 10) == CORVEZAN_DIMENSION_MISMATCH);
    EXPECT(corvezan_regular_fit(DIMS, 2, vals, N, coeffs, N - 1, scratch, 10) == CORVEZAN_DIMENSION_MISMATCH);
    EXPECT(corvezan_regular_fit(DIMS, 2, vals, N, coeffs, N, scratch, 9) == CORVEZAN_SCRATCH_TOO_SMALL);
    EXPECT(corvezan_regular_from_values(DIMS, 2, GRID, 3, vals, N, coeffs, N, scratch, 9) ==
           CORVEZAN_DIMENSION_MISMATCH);
    EXPECT(corvezan_regular_from_values(DIMS, 2, bad, 4, vals, N, coeffs, N, scratch, 9) == CORVEZAN_SCRATCH_TOO_SMALL);
    EXPECT(corvezan_regular_check(DIMS, 2, GRID, 3, N) == CORVEZAN_DIMENSION_MISMATCH);
    EXPECT(corvezan_regular_check(DIMS, 2, GRID, 4, N + 1) == CORVEZAN_DIMENSION_MISMATCH);
    EXPECT(corvezan_regular_check(DIMS, 2, bad, 4, N) == CORVEZAN_NOT_INCREASING);
    EXPECT(all_untouched());
    EXPECT(corvezan_regular_from_values(DIMS, 2, bad, 4, vals, N, coeffs, N, scratch, 10) == CORVEZAN_NOT_INCREASING);
    EXPECT(!untouched(coeffs, N) && !untouched(scratch, 10));
}

static void queries_refused(void) {
    const double x[2] = {101.0, 201.0}, far[2] = {101.0, INFINITY}, bad[4] = {0.0, 0.0, NAN, 1.0};
    double value = 9.0, out[4];
    samples();
    fill(out, 4);
    EXPECT(corvezan_regular_value(DIMS, 2, bad, 4, 0, vals, N, x, 1, &value) == CORVEZAN_NOT_INCREASING);
    EXPECT(corvezan_regular_value(DIMS, 2, GRID, 4, 0, vals, N - 1, x, 2, &value) == CORVEZAN_DIMENSION_MISMATCH);
    EXPECT(corvezan_regular_value(DIMS, 2, GRID, 4, 0, vals, N, x, 1, &value) == CORVEZAN_DIMENSION_MISMATCH);
    EXPECT(corvezan_regular_value(DIMS, 2, GRID, 4, 0, vals, N, far, 2, &value) == CORVEZAN_UNREPRESENTABLE);
    EXPECT(corvezan_regular_gradient(DIMS, 2, GRID, 4, 0, vals, N, x, 2, out, 1) == CORVEZAN_DIMENSION_MISMATCH);
    EXPECT(corvezan_regular_gradient(DIMS, 2, GRID, 4, 0, vals, N, far, 2, out, 2) == CORVEZAN_UNREPRESENTABLE);
    EXPECT(corvezan_regular_values(DIMS, 2, GRID, 4, 0, vals, N, x, 2, out, 2) == CORVEZAN_DIMENSION_MISMATCH);
    EXPECT(corvezan_regular_gradients(DIMS, 2, GRID, 4, 0, vals, N, x, 2, out, 3) == CORVEZAN_DIMENSION_MISMATCH);
    EXPECT(corvezan_regular_gradients(DIMS, 2, GRID, 4, 0, vals, N, x, 2, out, 4) == CORVEZAN_DIMENSION_MISMATCH);
    EXPECT(value == 9.0 && untouched(out, 4));
}

static void stepwise(void) {
    double fitted[N];
    size_t i;
    samples();
    EXPECT(corvezan_regular_fit(DIMS, 2, vals, N, fitted, N, scratch, 10) == CORVEZAN_ACCEPTED);
    EXPECT(corvezan_regular_begin(DIMS, 2, vals, N, coeffs, N, ledger, N, 10) == CORVEZAN_ACCEPTED);
    EXPECT(memcmp(coeffs, vals, sizeof coeffs) == 0 && ledger[0] == 0 && ledger[N - 1] == 0);
    EXPECT(corvezan_regular_line(DIMS, 2, 1, 2, coeffs, N, ledger, N, scratch, 10) == CORVEZAN_NOT_DUE);
    EXPECT(corvezan_regular_line(DIMS, 2, 0, 5, coeffs, N, ledger, N, scratch, 10) == CORVEZAN_NO_SUCH_LINE);
    for (i = 5; i > 0; i--) {
        EXPECT(corvezan_regular_line(DIMS, 2, 0, i - 1, coeffs, N, ledger, N, scratch, 10) == CORVEZAN_ACCEPTED);
    }
    EXPECT(corvezan_regular_line(DIMS, 2, 0, 4, coeffs, N, ledger, N, scratch, 10) == CORVEZAN_ALREADY_SOLVED);
    for (i = 0; i < 4; i++) {
        EXPECT(corvezan_regular_line(DIMS, 2, 1, 3 - i, coeffs, N, ledger, N, scratch, 10) == CORVEZAN_ACCEPTED);
    }
    EXPECT(memcmp(coeffs, fitted, sizeof coeffs) == 0);
    EXPECT(ledger[0] == 2 && ledger[N - 1] == 2);
    EXPECT(corvezan_regular_line(DIMS, 2, 1, 0, coeffs, N, ledger, N, scratch, 9) == CORVEZAN_SCRATCH_TOO_SMALL);
    EXPECT(corvezan_regular_line(DIMS, 2, 1, 0, coeffs, N, ledger, 1, scratch, 9) == CORVEZAN_DIMENSION_MISMATCH);
}

static void list(void) {
    const size_t axes[LINES + 2] = {1, 0, 0, 0, 0, 0, 0, 1, 1, 1, 2},
                              lines[LINES + 2] = {3, 4, 0, 3, 1, 2, 2, 3, 0, 2, 0};
    const uint8_t should[LINES + 2] = {9, 0, 0, 0, 0, 0, 8, 0, 0, 0, 7};
    uint8_t answers[LINES + 2];
    double fitted[N];
    samples();
    EXPECT(corvezan_regular_begin(DIMS, 2, vals, N, coeffs, N, ledger, N, 9) == CORVEZAN_SCRATCH_TOO_SMALL);
    EXPECT(corvezan_regular_begin(DIMS, 2, vals, N, coeffs, N, ledger, 1, 9) == CORVEZAN_DIMENSION_MISMATCH);
    EXPECT(corvezan_regular_list(DIMS, 2, vals, N, axes, 11, lines, 10, coeffs, N, ledger, N, scratch, 10, answers,
                                 11) == CORVEZAN_DIMENSION_MISMATCH);
    EXPECT(corvezan_regular_list(DIMS, 2, vals, N, axes, 11, lines, 11, coeffs, N, ledger, N, scratch, 10, answers,
                                 10) == CORVEZAN_DIMENSION_MISMATCH);
    EXPECT(all_untouched());
    EXPECT(corvezan_regular_list(DIMS, 2, vals, N, axes, 11, lines, 11, coeffs, N, ledger, N, scratch, 10, answers,
                                 11) == CORVEZAN_ACCEPTED);
    EXPECT(memcmp(answers, should, sizeof should) == 0);
    EXPECT(ledger[0] == 2 && ledger[5] == 1 && ledger[19] == 2);
    EXPECT(corvezan_regular_line(DIMS, 2, 1, 1, coeffs, N, ledger, N, scratch, 10) == CORVEZAN_ACCEPTED);
    EXPECT(corvezan_regular_fit(DIMS, 2, vals, N, fitted, N, scratch, 10) == CORVEZAN_ACCEPTED);
    EXPECT(memcmp(coeffs, fitted, sizeof coeffs) == 0);
}

void test_regular(void) {
    fit_and_value();
    batches();
    checked_points();
    fit_refused();
    queries_refused();
    stepwise();
    list();
}
