/* expect.h: a test that counts and names what does not hold; for C99 and for C++. */
#ifndef EXPECT_H
#define EXPECT_H

#include <math.h>
#include <stddef.h>
#include <stdint.h>
#include <stdio.h>

extern int failures;

#define EXPECT(holds) expect((holds) != 0, #holds, __FILE__, __LINE__)
#define NEAR(a, b) expect(fabs((a) - (b)) < 1e-9, #a " near " #b, __FILE__, __LINE__)

void expect(int holds, const char *what, const char *file, int line);

/* Fills a buffer with numbers that no call writes, and tells whether they still stand there. */
void fill(double *cells, size_t n);
int untouched(const double *cells, size_t n);

void test_shape(void);
void test_regular(void);
void test_rectilinear(void);
void test_words(void);
void test_edges(void);

#endif
