/* cells.h: the cells of a CSV file, line by line, and decimals. */
#ifndef CELLS_H
#define CELLS_H

#include <stddef.h>
#include <stdio.h>

#define MOST_CELLS 80
#define MOST_LINE 2048

/* A file that is being read: its name for messages, the line that was read last, and the cells of that line. */
struct cells {
    const char *path;
    FILE *file;
    size_t line;
    size_t count;
    char *cell[MOST_CELLS];
    char text[MOST_LINE];
};

int cells_open(struct cells *cells, const char *path);

/* The next line that is not blank, cut at its commas. 0 at the end of the file, -1 where a line cannot be taken. */
int cells_next(struct cells *cells);

/* The float nearest to a cell. 0 where the cell is no decimal number. */
int cells_number(const struct cells *cells, size_t i, double *x);

/* Tells what is wrong with the line that was read last; always 0. */
int cells_fault(const struct cells *cells, const char *what);

#endif
