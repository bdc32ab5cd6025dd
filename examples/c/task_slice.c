/* task_slice.c: fits a map line by line, as a controller does that has a slice of each cycle to spare.
 *
 *     task_slice TABLE [lines N | microseconds N] [seed N] [lost N]
 *
 * The lines of the map stand in a shuffled list, with three tasks among them that are wrong: a line that is listed
 * twice, a line that does not exist, and an axis that does not. A cycle works on the list until its budget is used up.
 * A line that is not due yet goes to the end of the list. At the end the coefficients are compared with those of the
 * whole fit, bit for bit. `lost` takes so many tasks off the shuffled list, to see what happens then.
 */
#include <stdio.h>
#include <stdlib.h>
#include <string.h>
#include <time.h>

#include "corvezan.h"
#include "explain.h"
#include "table.h"
#include "tasks.h"

#define AXES 2
#define NUMBERS 10 /* the answers of corvezan.h */

/* What a cycle may use up: line calls, or microseconds where that is not 0. */
struct budget {
    size_t lines;
    double microseconds;
};

/* A fit that is under way, with the memory that it needs. */
struct job {
    const struct table *table;
    size_t knots;
    size_t points;
    double coeffs[MOST_FIGURES];
    uint8_t ledger[MOST_FIGURES];
    double scratch[2 * MOST_VALUES];
    struct tasks tasks;
    size_t waiting; /* how many calls in a row were of lines that are not due */
    size_t seen[NUMBERS];
};

struct options {
    const char *path;
    struct budget budget;
    uint64_t seed;
    size_t lost;
};

static struct table the_table;
static struct job the_job;
static double whole[MOST_FIGURES];

static int begin(struct job *job) {
    const struct table *t = job->table;
    uint32_t answer;
    job->knots = t->dims[0] + t->dims[1];
    job->points = t->dims[0] * t->dims[1];
    answer = corvezan_rectilinear_begin(t->dims, AXES, t->knots, job->knots, t->values, job->points, job->coeffs,
                                        job->points, job->ledger, job->points, 2 * MOST_VALUES);
    if (answer != CORVEZAN_ACCEPTED) {
        explain_to(stderr, "The map", answer);
        return 0;
    }
    return 1;
}

static void list_tasks(struct job *job, const struct options *options) {
    size_t axis, line, i;
    for (axis = 0; axis < AXES; axis++) {
        for (line = 0; line < corvezan_lines(job->table->dims, AXES, axis); line++) {
            tasks_add(&job->tasks, axis, line);
        }
    }
    tasks_add(&job->tasks, 0, 0);
    tasks_add(&job->tasks, 1, corvezan_lines(job->table->dims, AXES, 1));
    tasks_add(&job->tasks, AXES, 0);
    tasks_shuffle(&job->tasks, options->seed);
    for (i = 0; i < options->lost && job->tasks.count > 0; i++) {
        tasks_take(&job->tasks);
    }
}

/* What is done about an answer; 0 where the fit cannot go on. */
static int settle(struct job *job, struct task task, uint32_t answer) {
    const char *next = "stopped";
    job->waiting = answer == CORVEZAN_NOT_DUE ? job->waiting + 1 : 0;
    if (answer < NUMBERS) {
        job->seen[answer]++;
    }
    if (answer == CORVEZAN_ACCEPTED) {
        next = "solved";
    } else if (answer == CORVEZAN_NOT_DUE) {
        next = tasks_add(&job->tasks, task.axis, task.line) ? "put back" : "lost, the list is full";
    } else if (answer == CORVEZAN_ALREADY_SOLVED || answer == CORVEZAN_NO_SUCH_LINE) {
        next = "taken off the list";
    }
    printf("  axis %lu line %lu: %lu, %s\n", (unsigned long)task.axis, (unsigned long)task.line, (unsigned long)answer,
           next);
    return strcmp(next, "stopped") != 0;
}

static int call(struct job *job) {
    const struct table *t = job->table;
    struct task task = tasks_take(&job->tasks);
    uint32_t answer = corvezan_rectilinear_line(t->dims, AXES, t->knots, job->knots, task.axis, task.line, job->coeffs,
                                                job->points, job->ledger, job->points, job->scratch, 2 * MOST_VALUES);
    if (!settle(job, task, answer)) {
        explain_to(stderr, "A line call", answer);
        return 0;
    }
    return 1;
}

/* Whether the list still has a task that can get due: not when all that are left were refused one after the other. */
static int can_go_on(const struct job *job) {
    return job->tasks.count > 0 && job->waiting < job->tasks.count;
}

static int within(const struct budget *budget, size_t calls, clock_t start) {
    if (budget->microseconds > 0) {
        return 1e6 * (double)(clock() - start) / CLOCKS_PER_SEC < budget->microseconds;
    }
    return calls < budget->lines;
}

/* One cycle. At least one call is made, however small the budget is, so that the fit comes to its end. */
static int cycle(struct job *job, const struct budget *budget) {
    clock_t start = clock();
    size_t calls = 0;
    do {
        if (!call(job)) {
            return 0;
        }
        calls++;
    } while (can_go_on(job) && within(budget, calls, start));
    return 1;
}

/* How many of the ledger's counts are made: 2 for each point at the end, one for each axis. */
static size_t done(const struct job *job) {
    size_t sum = 0, i;
    for (i = 0; i < job->points; i++) {
        sum += job->ledger[i];
    }
    return sum;
}

static int run_cycles(struct job *job, const struct budget *budget) {
    size_t number = 0;
    while (can_go_on(job)) {
        printf("cycle %lu\n", (unsigned long)++number);
        if (!cycle(job, budget)) {
            return 0;
        }
        printf("  ledger %lu of %lu\n", (unsigned long)done(job), (unsigned long)(AXES * job->points));
    }
    return 1;
}

static void print_answers(const struct job *job) {
    uint32_t answer;
    printf("\n");
    for (answer = 0; answer < NUMBERS; answer++) {
        if (job->seen[answer] > 0) {
            printf("%lu %s answered %lu: %s.\n", (unsigned long)job->seen[answer],
                   job->seen[answer] == 1 ? "call" : "calls", (unsigned long)answer, explain(answer));
        }
    }
}

/* Compares with the whole fit. The bits and not the numbers: -0 is not 0 here. */
static int compare(struct job *job) {
    const struct table *t = job->table;
    size_t equal = 0, i;
    uint32_t answer = corvezan_rectilinear_fit(t->dims, AXES, t->knots, job->knots, t->values, job->points, whole,
                                               job->points, job->scratch, 2 * MOST_VALUES);
    if (answer != CORVEZAN_ACCEPTED) {
        explain_to(stderr, "The whole fit", answer);
        return 0;
    }
    for (i = 0; i < job->points; i++) {
        equal += memcmp(&whole[i], &job->coeffs[i], sizeof whole[i]) == 0;
    }
    printf("%lu of %lu coefficients are those of the whole fit, bit for bit.\n", (unsigned long)equal,
           (unsigned long)job->points);
    return equal == job->points;
}

/* A word and its number; 0 where it is none. */
static int option(struct options *options, const char *word, const char *text) {
    char *end;
    unsigned long n = strtoul(text, &end, 10);
    if (*text < '0' || *text > '9' || *end != '\0') {
        return 0;
    }
    if (strcmp(word, "lines") == 0) {
        options->budget.lines = n;
        return n > 0;
    }
    if (strcmp(word, "microseconds") == 0) {
        options->budget.microseconds = (double)n;
        return n > 0;
    }
    if (strcmp(word, "seed") == 0) {
        options->seed = n;
        return 1;
    }
    options->lost = n;
    return strcmp(word, "lost") == 0;
}

static int read_options(struct options *options, int argc, char **argv) {
    int i;
    if (argc < 2 || argc % 2 != 0) {
        return 0;
    }
    options->path = argv[1];
    for (i = 2; i < argc; i += 2) {
        if (!option(options, argv[i], argv[i + 1])) {
            return 0;
        }
    }
    return 1;
}

int main(int argc, char **argv) {
    struct options options = {NULL, {3, 0}, 1, 0};
    struct job *job = &the_job;
    if (!read_options(&options, argc, argv)) {
        fprintf(stderr, "usage: task_slice TABLE [lines N | microseconds N] [seed N] [lost N]\n");
        return 2;
    }
    job->table = &the_table;
    if (!read_table(options.path, &the_table) || !begin(job)) {
        return 1;
    }
    list_tasks(job, &options);
    if (!run_cycles(job, &options.budget)) {
        return 1;
    }
    print_answers(job);
    if (done(job) != AXES * job->points) {
        fprintf(stderr, "The fit is not finished: lines are missing from the list; %lu tasks wait for them.\n",
                (unsigned long)job->tasks.count);
        return 1;
    }
    return compare(job) ? 0 : 1;
}
