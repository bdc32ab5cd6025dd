/* shape.c: the calls that look at the shape of a map only. */
#include "corvezan.h"
#include "expect.h"

static const size_t DIMS[5] = {4, 5, 6, 4, 4};

/* Point i of the scope: lengths 4, 5, 6 have the strides 30, 6, 1, and axis 1 line 7 begins at 31. */
static void accepted(void) {
    size_t cell = 99;
    EXPECT(corvezan_check_shape(DIMS, 3) == CORVEZAN_ACCEPTED);
    EXPECT(corvezan_points(DIMS, 3) == 120);
    EXPECT(corvezan_scratch_len(DIMS, 3) == 12);
    EXPECT(corvezan_stride(DIMS, 3, 0) == 30);
    EXPECT(corvezan_stride(DIMS, 3, 1) == 6);
    EXPECT(corvezan_stride(DIMS, 3, 2) == 1);
    EXPECT(corvezan_lines(DIMS, 3, 0) == 30);
    EXPECT(corvezan_lines(DIMS, 3, 1) == 24);
    EXPECT(corvezan_lines(DIMS, 3, 2) == 20);
    EXPECT(corvezan_first_cell(DIMS, 3, 1, 7, &cell) == CORVEZAN_ACCEPTED);
    EXPECT(cell == 31);
    EXPECT(corvezan_first_cell(DIMS, 3, 2, 19, &cell) == CORVEZAN_ACCEPTED);
    EXPECT(cell == 114);
}

static void limits(void) {
    const size_t most[2] = {4096, 4096}, more[2] = {4096, 4097}, past[2] = {SIZE_MAX, SIZE_MAX};
    const size_t shorter[2] = {4, 3};
    EXPECT(corvezan_check_shape(DIMS, 0) == CORVEZAN_AXIS_COUNT);
    EXPECT(corvezan_check_shape(DIMS, 5) == CORVEZAN_AXIS_COUNT);
    EXPECT(corvezan_check_shape(shorter, 2) == CORVEZAN_DIMENSION_MISMATCH);
    EXPECT(corvezan_check_shape(most, 2) == CORVEZAN_ACCEPTED);
    EXPECT(corvezan_points(most, 2) == 16777216);
    EXPECT(corvezan_check_shape(more, 2) == CORVEZAN_TOO_MANY_POINTS);
    EXPECT(corvezan_check_shape(past, 2) == CORVEZAN_TOO_MANY_POINTS);
    EXPECT(corvezan_points(more, 2) == 0);
    EXPECT(corvezan_scratch_len(more, 2) == 0);
    EXPECT(corvezan_stride(more, 2, 0) == 0);
    EXPECT(corvezan_lines(more, 2, 0) == 0);
}

static void no_such(void) {
    const size_t shorter[1] = {3}, more[2] = {4096, 4097};
    size_t cell = 99;
    EXPECT(corvezan_stride(DIMS, 3, 3) == 0);
    EXPECT(corvezan_lines(DIMS, 3, 3) == 0);
    EXPECT(corvezan_lines(DIMS, 3, SIZE_MAX) == 0);
    EXPECT(corvezan_first_cell(DIMS, 3, 3, 0, &cell) == CORVEZAN_NO_SUCH_LINE);
    EXPECT(corvezan_first_cell(DIMS, 3, 1, 24, &cell) == CORVEZAN_NO_SUCH_LINE);
    EXPECT(corvezan_first_cell(DIMS, 0, 0, 0, &cell) == CORVEZAN_AXIS_COUNT);
    EXPECT(corvezan_first_cell(shorter, 1, 9, 0, &cell) == CORVEZAN_DIMENSION_MISMATCH);
    EXPECT(corvezan_first_cell(more, 2, 9, 0, &cell) == CORVEZAN_TOO_MANY_POINTS);
    EXPECT(cell == 99);
}

void test_shape(void) {
    accepted();
    limits();
    no_such();
}
