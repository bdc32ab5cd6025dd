/* explain.c: what each answer of the library means, in words for whoever reads the log. */
#include "explain.h"

#include "corvezan.h"

struct words {
    uint32_t answer;
    const char *meaning;
    const char *remedy;
};

static const struct words WORDS[] = {
    {CORVEZAN_ACCEPTED, "accepted", ""},
    {CORVEZAN_AXIS_COUNT, "a map has one to four axes", "Look at the number of axes."},
    {CORVEZAN_DIMENSION_MISMATCH, "an axis has fewer than four points, or a buffer's length disagrees with the map",
     "Look at the number of points on each axis, then at the length of each buffer."},
    {CORVEZAN_TOO_MANY_POINTS, "the map has more than 16,777,216 points", "Make the map coarser, or split it."},
    {CORVEZAN_SCRATCH_TOO_SMALL, "the scratch buffer is shorter than twice the longest axis",
     "Lend as much as corvezan_scratch_len says."},
    {CORVEZAN_NOT_INCREASING,
     "the values of an axis do not rise, a step is not above zero, or one of them is no number",
     "Look for a value that is written twice, out of order, or missing."},
    {CORVEZAN_UNREPRESENTABLE, "a query is no number, is infinite, or is too far away to be placed on the axis",
     "Look at the sensor or the formula that the query comes from."},
    {CORVEZAN_NO_SUCH_LINE, "there is no such axis, or no such line on it", "Look at the task list."},
    {CORVEZAN_ALREADY_SOLVED, "the line is solved already", "Nothing is lost: take the task off the list."},
    {CORVEZAN_NOT_DUE, "the line is not due yet: a line of a lower axis that crosses it is not solved",
     "Nothing is lost: try the task again later."},
};

static const struct words UNKNOWN = {0, "the library gave a number that corvezan.h does not have",
                                     "Look whether header and library are of one version."};

static const struct words *find(uint32_t answer) {
    size_t i;
    for (i = 0; i < sizeof WORDS / sizeof WORDS[0]; i++) {
        if (WORDS[i].answer == answer) {
            return &WORDS[i];
        }
    }
    return &UNKNOWN;
}

const char *explain(uint32_t answer) {
    return find(answer)->meaning;
}

const char *explain_remedy(uint32_t answer) {
    return find(answer)->remedy;
}

void explain_to(FILE *out, const char *what, uint32_t answer) {
    fprintf(out, "%s was refused (%lu): %s. %s\n", what, (unsigned long)answer, explain(answer),
            explain_remedy(answer));
}
