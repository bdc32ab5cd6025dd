/* place.c: where a figure stands: at a tested point, between tested points, or outside the tested range. */
#include "place.h"

/* Where a coordinate stands on one axis; *at is then the number of the value that it is. */
static enum place on_axis(const double *values, size_t n, double x, size_t *at) {
    size_t i;
    if (!(x >= values[0] && x <= values[n - 1])) {
        return OUTSIDE;
    }
    for (i = 0; i < n; i++) {
        if (x == values[i]) {
            *at = i;
            return TESTED;
        }
    }
    return BETWEEN;
}

enum place place_of(const struct table *table, const double x[2], size_t *at) {
    size_t row = 0, column = 0;
    enum place down = on_axis(table->knots, table->dims[0], x[0], &row);
    enum place across = on_axis(table->knots + table->dims[0], table->dims[1], x[1], &column);
    if (down == OUTSIDE || across == OUTSIDE) {
        return OUTSIDE;
    }
    if (down == BETWEEN || across == BETWEEN) {
        return BETWEEN;
    }
    *at = row * table->dims[1] + column;
    return TESTED;
}

const char *place_word(enum place place) {
    static const char *const WORD[] = {"tested point", "between", "outside"};
    return WORD[place];
}
