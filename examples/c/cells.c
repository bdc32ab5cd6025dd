/* cells.c: the cells of a CSV file, line by line, and decimals. */
#include "cells.h"

#include <errno.h>
#include <math.h>
#include <stdlib.h>
#include <string.h>

int cells_open(struct cells *cells, const char *path) {
    cells->path = path;
    cells->line = 0;
    cells->count = 0;
    cells->file = fopen(path, "r");
    if (cells->file == NULL) {
        fprintf(stderr, "%s cannot be read: %s.\n", path, strerror(errno));
        return 0;
    }
    return 1;
}

int cells_fault(const struct cells *cells, const char *what) {
    fprintf(stderr, "%s, line %lu: %s.\n", cells->path, (unsigned long)cells->line, what);
    return 0;
}

/* Takes blanks and the line's end away from both sides of a cell. */
static char *trimmed(char *text) {
    size_t n = strlen(text);
    while (n > 0 && strchr(" \t\r\n", text[n - 1]) != NULL) {
        text[--n] = '\0';
    }
    return text + strspn(text, " \t");
}

static int cut(struct cells *cells) {
    char *from = cells->text;
    cells->count = 0;
    while (from != NULL) {
        char *comma = strchr(from, ',');
        if (comma != NULL) {
            *comma = '\0';
        }
        if (cells->count == MOST_CELLS) {
            cells_fault(cells, "too many cells for this program");
            return -1;
        }
        cells->cell[cells->count++] = trimmed(from);
        from = comma == NULL ? NULL : comma + 1;
    }
    return 1;
}

int cells_next(struct cells *cells) {
    while (fgets(cells->text, MOST_LINE, cells->file) != NULL) {
        cells->line++;
        if (strchr(cells->text, '\n') == NULL && !feof(cells->file)) {
            cells_fault(cells, "too long a line for this program");
            return -1;
        }
        if (cells->text[strspn(cells->text, " \t\r\n")] != '\0') {
            return cut(cells);
        }
    }
    return 0;
}

/* strtod takes hexadecimals, "nan" and "inf" too, which no table has. */
int cells_number(const struct cells *cells, size_t i, double *x) {
    const char *text = cells->cell[i];
    char *end;
    if (*text == '\0' || text[strspn(text, "0123456789+-.eE")] != '\0') {
        return 0;
    }
    *x = strtod(text, &end);
    return *end == '\0' && isfinite(*x);
}
