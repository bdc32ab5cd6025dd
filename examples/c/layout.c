/* layout.c: a sheet of cells in columns, set to the right, with titles of several lines above. */
#include "layout.h"

#include <string.h>

/* Puts a text into the first title line of a column that is empty. */
static void add(struct layout *layout, size_t column, const char *text, size_t length) {
    size_t i = 0;
    while (i < TITLE_LINES && layout->title[i][column][0] != '\0') {
        i++;
    }
    if (length > 0 && i < TITLE_LINES) {
        snprintf(layout->title[i][column], MOST_CELL, "%.*s", (int)length, text);
    }
}

void layout_title(struct layout *layout, size_t column, const char *before, const char *name, const char *after,
                  const char *unit) {
    add(layout, column, before, strlen(before));
    while (*name != '\0') {
        size_t word = strcspn(name, " ");
        add(layout, column, name, word);
        name += word;
        name += strspn(name, " ");
    }
    add(layout, column, after, strlen(after));
    snprintf(layout->unit[column], MOST_CELL, "%s", unit);
}

static size_t larger(size_t a, const char *text) {
    size_t b = strlen(text);
    return a > b ? a : b;
}

static size_t width(const struct layout *layout, size_t column) {
    size_t most = strlen(layout->unit[column]), i;
    for (i = 0; i < TITLE_LINES; i++) {
        most = larger(most, layout->title[i][column]);
    }
    for (i = 0; i < layout->rows; i++) {
        most = larger(most, layout->cell[i][column]);
    }
    return most;
}

/* A line of the sheet; nothing is printed behind its last cell that is not empty. */
static void line(const size_t *widths, char cells[COLUMNS][MOST_CELL], FILE *out) {
    size_t last = COLUMNS, i;
    while (last > 0 && cells[last - 1][0] == '\0') {
        last--;
    }
    for (i = 0; i < last; i++) {
        fprintf(out, "%s%*s", i == 0 ? "" : "  ", (int)widths[i], cells[i]);
    }
    fputc('\n', out);
}

static int empty(char cells[COLUMNS][MOST_CELL]) {
    size_t i;
    for (i = 0; i < COLUMNS; i++) {
        if (cells[i][0] != '\0') {
            return 0;
        }
    }
    return 1;
}

void layout_print(struct layout *layout, FILE *out) {
    char rule[COLUMNS][MOST_CELL];
    size_t widths[COLUMNS], i;
    for (i = 0; i < COLUMNS; i++) {
        widths[i] = width(layout, i);
        memset(rule[i], '-', widths[i]);
        rule[i][widths[i]] = '\0';
    }
    for (i = 0; i < TITLE_LINES && !empty(layout->title[i]); i++) {
        line(widths, layout->title[i], out);
    }
    line(widths, layout->unit, out);
    line(widths, rule, out);
    for (i = 0; i < layout->rows; i++) {
        line(widths, layout->cell[i], out);
    }
}
