/* explain.h: what each answer of the library means, in words for whoever reads the log. */
#ifndef EXPLAIN_H
#define EXPLAIN_H

#include <stdint.h>
#include <stdio.h>

/* What an answer means. A number that is not in corvezan.h is said to be none of them. */
const char *explain(uint32_t answer);

/* What to look at first when an answer is a refusal; empty for 0. */
const char *explain_remedy(uint32_t answer);

/* Writes that something was refused: what it was, the number, what it means, and what to look at. */
void explain_to(FILE *out, const char *what, uint32_t answer);

#endif
