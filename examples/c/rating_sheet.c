/* rating_sheet.c: a rating sheet from a table of tested figures and a list of points.
 *
 *     rating_sheet TABLE POINTS [straight|curve]
 *
 * The last word says how the sheet goes on outside the tested range: in a straight line (unless given) or as the curve
 * of the end. Every figure is read off the fitted curve, and beside each of them stands where that is: at a tested
 * point, between tested points, or outside the tested range. Only the last column was tested.
 */
#include <stdio.h>
#include <string.h>

#include "corvezan.h"
#include "explain.h"
#include "layout.h"
#include "place.h"
#include "table.h"

/* A fitted map, and the memory that it needs: the library itself allocates nothing. */
struct map {
    const struct table *table;
    const char *file;
    uint32_t linear;
    size_t knots;
    size_t points;
    double coeffs[MOST_FIGURES];
    double scratch[2 * MOST_VALUES];
};

static struct table the_table;
static struct points the_points;
static struct map the_map;
static struct layout the_sheet;

/* Which values of an axis do not rise: for refusal 5, so that the reader finds the line of the table. */
static void say_what_falls(const struct table *table) {
    size_t axis, i, from = 0;
    for (axis = 0; axis < 2; axis++) {
        for (i = from + 1; i < from + table->dims[axis]; i++) {
            if (!(table->knots[i] > table->knots[i - 1])) {
                fprintf(stderr, "Here: %s %g %s comes after %g %s.\n", table->axis[axis].name, table->knots[i],
                        table->axis[axis].unit, table->knots[i - 1], table->axis[axis].unit);
            }
        }
        from += table->dims[axis];
    }
}

static void say_what_is_short(const struct table *table) {
    size_t axis;
    for (axis = 0; axis < 2; axis++) {
        if (table->dims[axis] < 4) {
            fprintf(stderr, "Here: %s has %lu values only.\n", table->axis[axis].name,
                    (unsigned long)table->dims[axis]);
        }
    }
}

static int fit(struct map *map) {
    const struct table *t = map->table;
    char what[256];
    uint32_t answer;
    map->knots = t->dims[0] + t->dims[1];
    map->points = t->dims[0] * t->dims[1];
    answer = corvezan_rectilinear_fit(t->dims, 2, t->knots, map->knots, t->values, map->points, map->coeffs,
                                      map->points, map->scratch, 2 * MOST_VALUES);
    if (answer == CORVEZAN_ACCEPTED) {
        return 1;
    }
    snprintf(what, sizeof what, "The table in %s", map->file);
    explain_to(stderr, what, answer);
    if (answer == CORVEZAN_NOT_INCREASING) {
        say_what_falls(t);
    }
    if (answer == CORVEZAN_DIMENSION_MISMATCH) {
        say_what_is_short(t);
    }
    return 0;
}

/* Value and slopes at a point. A rectilinear map refuses no point, but an answer is never left unread. */
static int rate(const struct map *map, const double x[2], double figures[3]) {
    const struct table *t = map->table;
    uint32_t answer = corvezan_rectilinear_value(t->dims, 2, t->knots, map->knots, map->linear, map->coeffs,
                                                 map->points, x, 2, &figures[0]);
    if (answer == CORVEZAN_ACCEPTED) {
        answer = corvezan_rectilinear_gradient(t->dims, 2, t->knots, map->knots, map->linear, map->coeffs, map->points,
                                               x, 2, &figures[1], 2);
    }
    if (answer != CORVEZAN_ACCEPTED) {
        char what[96];
        snprintf(what, sizeof what, "The point %g, %g", x[0], x[1]);
        explain_to(stderr, what, answer);
        return 0;
    }
    return 1;
}

static void titles(struct layout *sheet, const struct table *table) {
    size_t axis;
    for (axis = 0; axis < 2; axis++) {
        char per[2 * MOST_TEXT + 8];
        const struct label *label = &table->axis[axis];
        snprintf(per, sizeof per, "%s per %s", table->figure.unit, label->unit);
        layout_title(sheet, axis, "", label->name, "", label->unit);
        layout_title(sheet, 4 + 2 * axis, "slope over", label->name, "from curve", per);
        layout_title(sheet, 5 + 2 * axis, "stands", "", "", "");
    }
    layout_title(sheet, 2, "", table->figure.name, "from curve", table->figure.unit);
    layout_title(sheet, 3, "stands", "", "", "");
    layout_title(sheet, 8, "tested", table->figure.name, "", table->figure.unit);
}

/* A line of the sheet: no figure without the word beside it that says where it stands. */
static int row(struct layout *sheet, const struct map *map, size_t i, size_t counts[3]) {
    const struct points *points = &the_points;
    char(*cells)[MOST_CELL] = sheet->cell[sheet->rows];
    double figures[3];
    size_t tested = 0, k;
    enum place place = place_of(map->table, points->x[i], &tested);
    if (!rate(map, points->x[i], figures)) {
        return 0;
    }
    for (k = 0; k < 2; k++) {
        snprintf(cells[k], MOST_CELL, "%s", points->written[i][k]);
    }
    for (k = 0; k < 3; k++) {
        snprintf(cells[2 + 2 * k], MOST_CELL, "%#.6g", figures[k]);
        snprintf(cells[3 + 2 * k], MOST_CELL, "%s", place_word(place));
    }
    snprintf(cells[8], MOST_CELL, "%s", place == TESTED ? map->table->written[tested] : "");
    sheet->rows++;
    counts[place]++;
    return 1;
}

static void print_sheet(struct layout *sheet, const struct map *map, const size_t counts[3]) {
    const struct table *t = map->table;
    printf("%s: %s, %lu by %lu tested points. Outside the tested range the sheet follows %s.\n", map->file,
           t->figure.name, (unsigned long)t->dims[0], (unsigned long)t->dims[1],
           map->linear ? "a straight line" : "the curve of the end");
    printf("%lu points: %lu at tested points, %lu between, %lu outside.\n\n", (unsigned long)sheet->rows,
           (unsigned long)counts[TESTED], (unsigned long)counts[BETWEEN], (unsigned long)counts[OUTSIDE]);
    layout_print(sheet, stdout);
    printf("\ntested point  the figure stands at a tested point; what was tested there is in the last column\n"
           "between       the figure stands between tested points\n"
           "outside       the figure stands outside the tested range\n"
           "Every %s and every slope on this sheet is read off the fitted curve. Only the last column was tested.\n",
           t->figure.name);
}

static const char *file_name(const char *path) {
    const char *slash = strrchr(path, '/');
    return slash == NULL ? path : slash + 1;
}

int main(int argc, char **argv) {
    size_t counts[3] = {0, 0, 0}, i;
    int curve = argc == 4 && strcmp(argv[3], "curve") == 0;
    if (argc < 3 || argc > 4 || (argc == 4 && !curve && strcmp(argv[3], "straight") != 0)) {
        fprintf(stderr, "usage: rating_sheet TABLE POINTS [straight|curve]\n");
        return 2;
    }
    the_map.table = &the_table;
    the_map.file = file_name(argv[1]);
    the_map.linear = !curve;
    if (!read_table(argv[1], &the_table) || !read_points(argv[2], &the_table, &the_points) || !fit(&the_map)) {
        return 1;
    }
    titles(&the_sheet, &the_table);
    for (i = 0; i < the_points.count; i++) {
        if (!row(&the_sheet, &the_map, i, counts)) {
            return 1;
        }
    }
    print_sheet(&the_sheet, &the_map, counts);
    return 0;
}
