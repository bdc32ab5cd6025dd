/* tasks.c: a list of lines to be solved, taken from its front and put back at its end. */
#include "tasks.h"

int tasks_add(struct tasks *tasks, size_t axis, size_t line) {
    size_t at = (tasks->first + tasks->count) % MOST_TASKS;
    if (tasks->count == MOST_TASKS) {
        return 0;
    }
    tasks->cell[at].axis = axis;
    tasks->cell[at].line = line;
    tasks->count++;
    return 1;
}

struct task tasks_take(struct tasks *tasks) {
    struct task task = tasks->cell[tasks->first];
    tasks->first = (tasks->first + 1) % MOST_TASKS;
    tasks->count--;
    return task;
}

/* The next number of splitmix64. */
static uint64_t draw(uint64_t *state) {
    uint64_t z = (*state += UINT64_C(0x9e3779b97f4a7c15));
    z = (z ^ (z >> 30)) * UINT64_C(0xbf58476d1ce4e5b9);
    z = (z ^ (z >> 27)) * UINT64_C(0x94d049bb133111eb);
    return z ^ (z >> 31);
}

void tasks_shuffle(struct tasks *tasks, uint64_t seed) {
    size_t i;
    for (i = tasks->count; i > 1; i--) {
        size_t other = (size_t)(draw(&seed) % i);
        struct task kept = tasks->cell[i - 1];
        tasks->cell[i - 1] = tasks->cell[other];
        tasks->cell[other] = kept;
    }
}
