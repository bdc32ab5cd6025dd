/* tasks.h: a list of lines to be solved, taken from its front and put back at its end. */
#ifndef TASKS_H
#define TASKS_H

#include <stddef.h>
#include <stdint.h>

#define MOST_TASKS 256

/* A line of a map that is to be solved. */
struct task {
    size_t axis;
    size_t line;
};

/* The tasks that are left, the first at `first`; past the last cell the list goes on at cell 0. */
struct tasks {
    size_t first;
    size_t count;
    struct task cell[MOST_TASKS];
};

/* Puts a task at the end. 0 where the list is full. */
int tasks_add(struct tasks *tasks, size_t axis, size_t line);

/* Takes the first task off. There must be one. */
struct task tasks_take(struct tasks *tasks);

/* Shuffles a list to which tasks were only added so far; the same seed gives the same order. */
void tasks_shuffle(struct tasks *tasks, uint64_t seed);

#endif
