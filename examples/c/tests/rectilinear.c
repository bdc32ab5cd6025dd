/* rectilinear.c: the calls on rectilinear grids. A map whose samples are linear in the axes gives them back. */
#include <string.h>

#include "corvezan.h"
#include "expect.h"

#define N 20
#define KNOTS 9

static const size_t DIMS[2] = {4, 5};
static const double GRID[KNOTS] = {-20.0, -15.0, -9.0, 7.0, 30.0, 35.0, 45.0, 55.0, 65.0};
static const double FALLS[KNOTS] = {-20.0, -15.0, -9.0, 7.0, 30.0, 35.0, 35.0, 55.0, 65.0};
static double vals[N], coeffs[N], scratch[10];
static uint8_t ledger[N];

/* Samples 3 * x0 - 2 * x1. */
static void samples(void) {
    size_t i;
    for (i = 0; i < N; i++) {
        vals[i] = 3.0 * GRID[i / 5] - 2.0 * GRID[4 + i % 5];
    }
    fill(coeffs, N);
    fill(scratch, 10);
    memset(ledger, 170, N);
}

static int all_untouched(void) {
    size_t i;
    for (i = 0; i < N; i++) {
        if (ledger[i] != 170) {
            return 0;
        }
    }
    return untouched(coeffs, N) && untouched(scratch, 10);
}

static void fit_and_value(void) {
    const double x[2] = {-3.0, 41.5}, outside[2] = {-30.0, 80.0}, nan[2] = {NAN, 40.0};
    double value = 0.0, slopes[2] = {0.0, 0.0};
    samples();
    EXPECT(corvezan_rectilinear_fit(DIMS, 2, GRID, KNOTS, vals, N, coeffs, N, scratch, 10) == CORVEZAN_ACCEPTED);
    EXPECT(corvezan_rectilinear_check(DIMS, 2, GRID, KNOTS, N) == CORVEZAN_ACCEPTED);
    EXPECT(corvezan_rectilinear_value(DIMS, 2, GRID, KNOTS, 0, coeffs, N, x, 2, &value) == CORVEZAN_ACCEPTED);
    NEAR(value, -92.0);
    EXPECT(corvezan_rectilinear_gradient(DIMS, 2, GRID, KNOTS, 0, coeffs, N, x, 2, slopes, 2) == CORVEZAN_ACCEPTED);
    NEAR(slopes[0], 3.0);
    NEAR(slopes[1], -2.0);
    EXPECT(corvezan_rectilinear_value(DIMS, 2, GRID, KNOTS, 1, coeffs, N, outside, 2, &value) == CORVEZAN_ACCEPTED);
    NEAR(value, -250.0);
    EXPECT(corvezan_rectilinear_value(DIMS, 2, GRID, KNOTS, 1, coeffs, N, nan, 2, &value) == CORVEZAN_ACCEPTED);
    EXPECT(isnan(value));
}

static void batches(void) {
    const double x[6] = {-20.0, -3.0, 7.0, 30.0, 41.5, 65.0};
    double values[3], slopes[6];
    size_t i;
    samples();
    EXPECT(corvezan_rectilinear_fit(DIMS, 2, GRID, KNOTS, vals, N, coeffs, N, scratch, 10) == CORVEZAN_ACCEPTED);
    EXPECT(corvezan_rectilinear_values(DIMS, 2, GRID, KNOTS, 0, coeffs, N, x, 6, values, 3) == CORVEZAN_ACCEPTED);
    EXPECT(corvezan_rectilinear_gradients(DIMS, 2, GRID, KNOTS, 0, coeffs, N, x, 6, slopes, 6) == CORVEZAN_ACCEPTED);
    for (i = 0; i < 3; i++) {
        NEAR(values[i], 3.0 * x[i] - 2.0 * x[3 + i]);
        NEAR(slopes[i], 3.0);
        NEAR(slopes[3 + i], -2.0);
    }
}

static void fit_refused(void) {
    const size_t shorter[2] = {4, 3}, more[2] = {4096, 4097};
    samples();
    EXPECT(corvezan_rectilinear_fit(DIMS, 5, GRID, KNOTS, vals, N, coeffs, N, scratch, 10) == CORVEZAN_AXIS_COUNT);
    EXPECT(corvezan_rectilinear_fit(shorter, 2, GRID, 7, vals, 12, coeffs, 12, scratch, 10) ==
           CORVEZAN_DIMENSION_MISMATCH);
    EXPECT(corvezan_rectilinear_fit(more, 2, GRID, KNOTS, vals, N, coeffs, N, scratch, 10) == CORVEZAN_TOO_MANY_POINTS);
    EXPECT(corvezan_rectilinear_fit(DIMS, 2, GRID, 8, vals, N, coeffs, N, scratch, 9) == CORVEZAN_DIMENSION_MISMATCH);
    EXPECT(corvezan_rectilinear_fit(DIMS, 2, FALLS, KNOTS, vals, N, coeffs, 19, scratch, 9) ==
           CORVEZAN_DIMENSION_MISMATCH);
    EXPECT(corvezan_rectilinear_fit(DIMS, 2, FALLS, KNOTS, vals, 19, coeffs, N, scratch, 9) == CORVEZAN_NOT_INCREASING);
    EXPECT(corvezan_rectilinear_fit(DIMS, 2, GRID, KNOTS, vals, 19, coeffs, N, scratch, 9) ==
           CORVEZAN_DIMENSION_MISMATCH);
    EXPECT(corvezan_rectilinear_fit(DIMS, 2, GRID, KNOTS, vals, N, coeffs, N, scratch, 9) ==
           CORVEZAN_SCRATCH_TOO_SMALL);
    EXPECT(corvezan_rectilinear_check(DIMS, 2, GRID, 8, N) == CORVEZAN_DIMENSION_MISMATCH);
    EXPECT(corvezan_rectilinear_check(DIMS, 2, GRID, KNOTS, 19) == CORVEZAN_DIMENSION_MISMATCH);
    EXPECT(corvezan_rectilinear_check(DIMS, 2, FALLS, KNOTS, N) == CORVEZAN_NOT_INCREASING);
    EXPECT(all_untouched());
}

static void queries_refused(void) {
    const double x[2] = {-3.0, 41.5};
    double value = 9.0, out[4];
    samples();
    fill(out, 4);
    EXPECT(corvezan_rectilinear_value(DIMS, 2, FALLS, KNOTS, 0, vals, N, x, 1, &value) == CORVEZAN_NOT_INCREASING);
    EXPECT(corvezan_rectilinear_value(DIMS, 2, GRID, KNOTS, 0, vals, 19, x, 2, &value) == CORVEZAN_DIMENSION_MISMATCH);
    EXPECT(corvezan_rectilinear_value(DIMS, 2, GRID, KNOTS, 0, vals, N, x, 1, &value) == CORVEZAN_DIMENSION_MISMATCH);
    EXPECT(corvezan_rectilinear_gradient(DIMS, 2, GRID, KNOTS, 0, vals, N, x, 2, out, 3) ==
           CORVEZAN_DIMENSION_MISMATCH);
    EXPECT(corvezan_rectilinear_values(DIMS, 2, GRID, KNOTS, 0, vals, N, x, 2, out, 2) == CORVEZAN_DIMENSION_MISMATCH);
    EXPECT(corvezan_rectilinear_gradients(DIMS, 2, GRID, KNOTS, 0, vals, N, x, 2, out, 3) ==
           CORVEZAN_DIMENSION_MISMATCH);
    EXPECT(corvezan_rectilinear_gradients(DIMS, 2, GRID, KNOTS, 0, vals, N, x, 2, out, 4) ==
           CORVEZAN_DIMENSION_MISMATCH);
    EXPECT(value == 9.0 && untouched(out, 4));
}

/* A line call of this map, with as much scratch. */
static uint32_t line(size_t axis, size_t number, size_t scratch_len) {
    return corvezan_rectilinear_line(DIMS, 2, GRID, KNOTS, axis, number, coeffs, N, ledger, N, scratch, scratch_len);
}

static void stepwise(void) {
    double fitted[N];
    size_t i;
    samples();
    EXPECT(corvezan_rectilinear_fit(DIMS, 2, GRID, KNOTS, vals, N, fitted, N, scratch, 10) == CORVEZAN_ACCEPTED);
    EXPECT(corvezan_rectilinear_begin(DIMS, 2, GRID, KNOTS, vals, N, coeffs, N, ledger, N, 10) == CORVEZAN_ACCEPTED);
    EXPECT(memcmp(coeffs, vals, sizeof coeffs) == 0 && ledger[0] == 0 && ledger[N - 1] == 0);
    EXPECT(line(1, 2, 10) == CORVEZAN_NOT_DUE);
    EXPECT(line(0, 5, 10) == CORVEZAN_NO_SUCH_LINE);
    for (i = 5; i > 0; i--) {
        EXPECT(line(0, i - 1, 10) == CORVEZAN_ACCEPTED);
    }
    EXPECT(line(0, 4, 10) == CORVEZAN_ALREADY_SOLVED);
    for (i = 0; i < 4; i++) {
        EXPECT(line(1, 3 - i, 10) == CORVEZAN_ACCEPTED);
    }
    EXPECT(memcmp(coeffs, fitted, sizeof coeffs) == 0);
    EXPECT(ledger[0] == 2 && ledger[N - 1] == 2);
    EXPECT(line(1, 0, 9) == CORVEZAN_SCRATCH_TOO_SMALL);
    EXPECT(corvezan_rectilinear_line(DIMS, 2, FALLS, KNOTS, 9, 9, coeffs, N, ledger, N, scratch, 9) ==
           CORVEZAN_NOT_INCREASING);
    EXPECT(corvezan_rectilinear_line(DIMS, 2, FALLS, KNOTS, 9, 9, coeffs, N, ledger, 19, scratch, 9) ==
           CORVEZAN_DIMENSION_MISMATCH);
}

/* A list of this map, with as many lines and answers. */
static uint32_t list(size_t lines_len, uint8_t *answers, size_t answers_len) {
    static const size_t axes[11] = {1, 0, 0, 0, 0, 0, 0, 1, 1, 1, 2}, lines[11] = {3, 4, 0, 3, 1, 2, 2, 3, 0, 2, 0};
    return corvezan_rectilinear_list(DIMS, 2, GRID, KNOTS, vals, N, axes, 11, lines, lines_len, coeffs, N, ledger, N,
                                     scratch, 10, answers, answers_len);
}

static void lists(void) {
    const uint8_t should[11] = {9, 0, 0, 0, 0, 0, 8, 0, 0, 0, 7};
    uint8_t answers[11];
    double fitted[N];
    samples();
    EXPECT(corvezan_rectilinear_begin(DIMS, 2, GRID, KNOTS, vals, N, coeffs, N, ledger, N, 9) ==
           CORVEZAN_SCRATCH_TOO_SMALL);
    EXPECT(corvezan_rectilinear_begin(DIMS, 2, FALLS, KNOTS, vals, N, coeffs, N, ledger, N, 10) ==
           CORVEZAN_NOT_INCREASING);
    EXPECT(corvezan_rectilinear_begin(DIMS, 2, FALLS, KNOTS, vals, N, coeffs, N, ledger, 1, 9) ==
           CORVEZAN_DIMENSION_MISMATCH);
    EXPECT(list(10, answers, 11) == CORVEZAN_DIMENSION_MISMATCH);
    EXPECT(list(11, answers, 10) == CORVEZAN_DIMENSION_MISMATCH);
    EXPECT(all_untouched());
    EXPECT(list(11, answers, 11) == CORVEZAN_ACCEPTED);
    EXPECT(memcmp(answers, should, sizeof should) == 0);
    EXPECT(ledger[0] == 2 && ledger[5] == 1 && ledger[19] == 2);
    EXPECT(line(1, 1, 10) == CORVEZAN_ACCEPTED);
    EXPECT(corvezan_rectilinear_fit(DIMS, 2, GRID, KNOTS, vals, N, fitted, N, scratch, 10) == CORVEZAN_ACCEPTED);
    EXPECT(memcmp(coeffs, fitted, sizeof coeffs) == 0);
}

void test_rectilinear(void) {
    fit_and_value();
    batches();
    fit_refused();
    queries_refused();
    stepwise();
    lists();
}
