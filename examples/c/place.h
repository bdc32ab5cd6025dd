/* place.h: where a figure stands: at a tested point, between tested points, or outside the tested range. */
#ifndef PLACE_H
#define PLACE_H

#include <stddef.h>

#include "table.h"

enum place { TESTED, BETWEEN, OUTSIDE };

/* Where a point stands in the table, by its coordinates alone. At a tested point *at is the number of its figure. */
enum place place_of(const struct table *table, const double x[2], size_t *at);

const char *place_word(enum place place);

#endif
