/* table.c: a table of tested figures over two axes, and a list of points, read from decimal CSV files. */
#include "table.h"

#include <stdio.h>
#include <string.h>

#include "cells.h"

/* Copies a cell's text; 0 where it is longer than a label may be. */
static int keep(char *to, const struct cells *cells, size_t i) {
    if (strlen(cells->cell[i]) >= MOST_TEXT) {
        return cells_fault(cells, "too long a text for this program");
    }
    strcpy(to, cells->cell[i]);
    return 1;
}

/* One of the first three lines: WORD,NAME,UNIT. */
static int read_label(struct cells *cells, const char *word, struct label *label) {
    char should[96];
    if (cells_next(cells) == 1 && cells->count >= 3 && strcmp(cells->cell[0], word) == 0) {
        return keep(label->name, cells, 1) && keep(label->unit, cells, 2);
    }
    sprintf(should, "this line should read '%s,NAME,UNIT'", word);
    return cells_fault(cells, should);
}

/* A cell that must be a number. */
static int number(const struct cells *cells, size_t i, double *x) {
    char what[96];
    if (cells_number(cells, i, x)) {
        return 1;
    }
    sprintf(what, "cell %lu is not a decimal number", (unsigned long)(i + 1));
    return cells_fault(cells, what);
}

/* The fourth line: an empty cell and the values of the columns, which are kept in `columns`. */
static int read_columns(struct cells *cells, struct table *table, double *columns) {
    size_t i;
    if (cells_next(cells) != 1 || cells->count < 2 || cells->cell[0][0] != '\0') {
        return cells_fault(cells, "this line should have an empty cell and then the values of the columns");
    }
    if (cells->count - 1 > MOST_VALUES) {
        return cells_fault(cells, "too many columns for this program");
    }
    table->dims[1] = cells->count - 1;
    for (i = 0; i < table->dims[1]; i++) {
        if (!number(cells, i + 1, &columns[i])) {
            return 0;
        }
    }
    return 1;
}

/* A further line: the value of its row, and a figure for each column. */
static int read_row(struct cells *cells, struct table *table) {
    size_t row = table->dims[0], at = row * table->dims[1], i;
    if (row == MOST_VALUES) {
        return cells_fault(cells, "too many rows for this program");
    }
    if (cells->count != table->dims[1] + 1) {
        return cells_fault(cells, "every row needs a figure in each column");
    }
    if (!number(cells, 0, &table->knots[row])) {
        return 0;
    }
    for (i = 0; i < table->dims[1]; i++) {
        if (!number(cells, i + 1, &table->values[at + i]) || !keep(table->written[at + i], cells, i + 1)) {
            return 0;
        }
    }
    table->dims[0]++;
    return 1;
}

static int read_rows(struct cells *cells, struct table *table) {
    double columns[MOST_VALUES];
    int more;
    if (!read_columns(cells, table, columns)) {
        return 0;
    }
    table->dims[0] = 0;
    while ((more = cells_next(cells)) == 1) {
        if (!read_row(cells, table)) {
            return 0;
        }
    }
    memcpy(&table->knots[table->dims[0]], columns, table->dims[1] * sizeof columns[0]);
    return more == 0;
}

int read_table(const char *path, struct table *table) {
    struct cells cells;
    int good;
    if (!cells_open(&cells, path)) {
        return 0;
    }
    good = read_label(&cells, "figure", &table->figure) && read_label(&cells, "rows", &table->axis[0]) &&
           read_label(&cells, "columns", &table->axis[1]) && read_rows(&cells, table);
    fclose(cells.file);
    return good;
}

static int read_point(struct cells *cells, struct points *points) {
    size_t at = points->count, i;
    if (at == MOST_LISTED) {
        return cells_fault(cells, "too many points for this program");
    }
    if (cells->count != 2) {
        return cells_fault(cells, "a point has two numbers");
    }
    for (i = 0; i < 2; i++) {
        if (!number(cells, i, &points->x[at][i]) || !keep(points->written[at][i], cells, i)) {
            return 0;
        }
    }
    points->count++;
    return 1;
}

static int read_list(struct cells *cells, const struct table *table, struct points *points) {
    int more;
    if (cells_next(cells) != 1 || cells->count != 2 || strcmp(cells->cell[0], table->axis[0].name) != 0 ||
        strcmp(cells->cell[1], table->axis[1].name) != 0) {
        return cells_fault(cells, "this line should have the names of the table's rows and columns");
    }
    while ((more = cells_next(cells)) == 1) {
        if (!read_point(cells, points)) {
            return 0;
        }
    }
    return more == 0;
}

int read_points(const char *path, const struct table *table, struct points *points) {
    struct cells cells;
    int good;
    points->count = 0;
    if (!cells_open(&cells, path)) {
        return 0;
    }
    good = read_list(&cells, table, points);
    fclose(cells.file);
    return good;
}
