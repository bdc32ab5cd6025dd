/* main.c: calls every function of corvezan.h, from C or from C++, and says whether each answers as it says.
 */
#include "expect.h"

int failures = 0;

void expect(int holds, const char *what, const char *file, int line) {
    if (!holds) {
        fprintf(stderr, "%s:%d: does not hold: %s\n", file, line, what);
        failures++;
    }
}

void fill(double *cells, size_t n) {
    size_t i;
    for (i = 0; i < n; i++) {
        cells[i] = (double)i + 0.5;
    }
}

int untouched(const double *cells, size_t n) {
    size_t i;
    for (i = 0; i < n; i++) {
        if (cells[i] != (double)i + 0.5) {
            return 0;
        }
    }
    return 1;
}

int main(void) {
    test_shape();
    test_regular();
    test_rectilinear();
    test_words();
    test_edges();
    printf("%d failed\n", failures);
    return failures == 0 ? 0 : 1;
}
