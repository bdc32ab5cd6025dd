/* table.h: a table of tested figures over two axes, and a list of points, read from decimal CSV files. */
#ifndef TABLE_H
#define TABLE_H

#include <stddef.h>

#define MOST_VALUES 64 /* on an axis */
#define MOST_FIGURES (MOST_VALUES * MOST_VALUES)
#define MOST_LISTED 256
#define MOST_TEXT 48 /* bytes of a name, a unit or a number as it is written, the end mark included */

/* A name and its unit. */
struct label {
    char name[MOST_TEXT];
    char unit[MOST_TEXT];
};

/* The tested figures, row after row: as floats, and as they are written. `knots` has the values of the rows and then
   those of the columns, as the library wants them. */
struct table {
    struct label figure;
    struct label axis[2];
    size_t dims[2];
    double knots[2 * MOST_VALUES];
    double values[MOST_FIGURES];
    char written[MOST_FIGURES][MOST_TEXT];
};

/* The points that are asked for: as floats, and as they are written. */
struct points {
    size_t count;
    double x[MOST_LISTED][2];
    char written[MOST_LISTED][2][MOST_TEXT];
};

/* Each reads a file. 0 where it could not; the reason, with the line, has then gone to standard error. */
int read_table(const char *path, struct table *table);
int read_points(const char *path, const struct table *table, struct points *points);

#endif
