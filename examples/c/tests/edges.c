/* edges.c: every call on buffers that are just as long as they must be, each a block of its own, and not set before.
   Under valgrind a call shows here that reads or writes past a buffer, or whose result hangs on what scratch held. */
#include <stdlib.h>
#include <string.h>

#include "corvezan.h"
#include "expect.h"

#define QUERIES 5

struct blocks {
    size_t axes, n, lines, scratch_len;
    size_t *dims, *task_axes, *task_lines;
    double *steps, *knots, *vals, *coeffs, *whole, *scratch, *x, *out;
    uint8_t *ledger, *answers;
};

static double *doubles(size_t n) {
    double *block = (double *)malloc(n * sizeof(double));
    if (block == NULL) {
        abort();
    }
    return block;
}

static size_t *sizes(size_t n) {
    size_t *block = (size_t *)malloc(n * sizeof(size_t));
    if (block == NULL) {
        abort();
    }
    return block;
}

/* All lines of the map, the last first: lines of higher axes are refused with 9 and stand in the list again. */
static void list_lines(struct blocks *b) {
    size_t round, axis, line, at = 0;
    for (round = 0; round < b->axes; round++) {
        for (axis = b->axes; axis-- > 0;) {
            for (line = corvezan_lines(b->dims, b->axes, axis); line-- > 0;) {
                b->task_axes[at] = axis;
                b->task_lines[at++] = line;
            }
        }
    }
}

static size_t sum(const size_t *dims, size_t axes) {
    size_t total = 0, i;
    for (i = 0; i < axes; i++) {
        total += dims[i];
    }
    return total;
}

/* What goes in: uneven knots, steps of 1, samples that are no polynomial, queries in and outside the grid. */
static void set_inputs(struct blocks *b) {
    size_t axis, i, at = 0;
    for (axis = 0; axis < b->axes; axis++) {
        b->steps[axis] = 0.0;
        b->steps[b->axes + axis] = 1.0;
        for (i = 0; i < b->dims[axis]; i++) {
            b->knots[at++] = (double)(i * i + i) / 4.0;
        }
        for (i = 0; i < QUERIES; i++) {
            b->x[axis * QUERIES + i] = (double)(2 * i) - 1.5 + (double)axis;
        }
    }
    for (i = 0; i < b->n; i++) {
        b->vals[i] = (double)((i * i * 7 + i * 3) % 31);
    }
}

static struct blocks make(const size_t *dims, size_t axes) {
    struct blocks b;
    size_t axis;
    b.axes = axes;
    b.n = corvezan_points(dims, axes);
    b.scratch_len = corvezan_scratch_len(dims, axes);
    b.dims = sizes(axes);
    memcpy(b.dims, dims, axes * sizeof dims[0]);
    for (b.lines = 0, axis = 0; axis < axes; axis++) {
        b.lines += axes * corvezan_lines(dims, axes, axis);
    }
    b.task_axes = sizes(b.lines);
    b.task_lines = sizes(b.lines);
    b.steps = doubles(2 * axes);
    b.knots = doubles(sum(dims, axes));
    b.vals = doubles(b.n);
    b.coeffs = doubles(b.n);
    b.whole = doubles(b.n);
    b.scratch = doubles(b.scratch_len);
    b.x = doubles(axes * QUERIES);
    b.out = doubles(axes * QUERIES);
    b.ledger = (uint8_t *)malloc(b.n);
    b.answers = (uint8_t *)malloc(b.lines);
    set_inputs(&b);
    list_lines(&b);
    return b;
}

static void release(struct blocks *b) {
    free(b->dims);
    free(b->task_axes);
    free(b->task_lines);
    free(b->steps);
    free(b->knots);
    free(b->vals);
    free(b->coeffs);
    free(b->whole);
    free(b->scratch);
    free(b->x);
    free(b->out);
    free(b->ledger);
    free(b->answers);
}

static int all_finite(const double *cells, size_t n) {
    size_t i;
    for (i = 0; i < n; i++) {
        if (!isfinite(cells[i])) {
            return 0;
        }
    }
    return 1;
}

static void on_regular(struct blocks *b) {
    uint32_t flag;
    EXPECT(corvezan_regular_fit(b->dims, b->axes, b->vals, b->n, b->whole, b->n, b->scratch, b->scratch_len) == 0);
    EXPECT(corvezan_regular_list(b->dims, b->axes, b->vals, b->n, b->task_axes, b->lines, b->task_lines, b->lines,
                                 b->coeffs, b->n, b->ledger, b->n, b->scratch, b->scratch_len, b->answers,
                                 b->lines) == 0);
    EXPECT(memcmp(b->coeffs, b->whole, b->n * sizeof b->coeffs[0]) == 0);
    for (flag = 0; flag < 2; flag++) {
        EXPECT(corvezan_regular_values(b->dims, b->axes, b->steps, 2 * b->axes, flag, b->coeffs, b->n, b->x,
                                       b->axes * QUERIES, b->out, QUERIES) == 0);
        EXPECT(all_finite(b->out, QUERIES));
        EXPECT(corvezan_regular_gradients(b->dims, b->axes, b->steps, 2 * b->axes, flag, b->coeffs, b->n, b->x,
                                          b->axes * QUERIES, b->out, b->axes * QUERIES) == 0);
        EXPECT(all_finite(b->out, b->axes * QUERIES));
    }
}

static void on_rectilinear(struct blocks *b) {
    size_t knots = sum(b->dims, b->axes);
    uint32_t flag;
    EXPECT(corvezan_rectilinear_fit(b->dims, b->axes, b->knots, knots, b->vals, b->n, b->whole, b->n, b->scratch,
                                    b->scratch_len) == 0);
    EXPECT(corvezan_rectilinear_list(b->dims, b->axes, b->knots, knots, b->vals, b->n, b->task_axes, b->lines,
                                     b->task_lines, b->lines, b->coeffs, b->n, b->ledger, b->n, b->scratch,
                                     b->scratch_len, b->answers, b->lines) == 0);
    EXPECT(memcmp(b->coeffs, b->whole, b->n * sizeof b->coeffs[0]) == 0);
    for (flag = 0; flag < 2; flag++) {
        EXPECT(corvezan_rectilinear_values(b->dims, b->axes, b->knots, knots, flag, b->coeffs, b->n, b->x,
                                           b->axes * QUERIES, b->out, QUERIES) == 0);
        EXPECT(all_finite(b->out, QUERIES));
        EXPECT(corvezan_rectilinear_gradients(b->dims, b->axes, b->knots, knots, flag, b->coeffs, b->n, b->x,
                                              b->axes * QUERIES, b->out, b->axes * QUERIES) == 0);
        EXPECT(all_finite(b->out, b->axes * QUERIES));
    }
}

void test_edges(void) {
    static const size_t SHAPES[][4] = {{4, 0, 0, 0}, {9, 0, 0, 0}, {4, 4, 0, 0},
                                       {5, 7, 0, 0}, {4, 6, 5, 0}, {4, 5, 4, 6}};
    static const size_t AXES[] = {1, 1, 2, 2, 3, 4};
    size_t i;
    for (i = 0; i < sizeof AXES / sizeof AXES[0]; i++) {
        struct blocks b = make(SHAPES[i], AXES[i]);
        on_regular(&b);
        release(&b);
        b = make(SHAPES[i], AXES[i]);
        on_rectilinear(&b);
        release(&b);
    }
}
