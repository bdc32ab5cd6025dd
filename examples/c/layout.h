/* layout.h: a sheet of cells in columns, set to the right, with titles of several lines above. */
#ifndef LAYOUT_H
#define LAYOUT_H

#include <stddef.h>
#include <stdio.h>

#include "table.h"

#define COLUMNS 9
#define TITLE_LINES 6
#define MOST_CELL 64

struct layout {
    char title[TITLE_LINES][COLUMNS][MOST_CELL];
    char unit[COLUMNS][MOST_CELL];
    size_t rows;
    char cell[MOST_LISTED][COLUMNS][MOST_CELL];
};

/* Gives a column its title: a line for each word of the name, with a line before and a line after where those texts are
   not empty. */
void layout_title(struct layout *layout, size_t column, const char *before, const char *name, const char *after,
                  const char *unit);

void layout_print(struct layout *layout, FILE *out);

#endif
