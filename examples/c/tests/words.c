/* words.c: every number of the header has a text of its own, and any other number is said to be none of them. */
#include <string.h>

#include "../explain.h"
#include "corvezan.h"
#include "expect.h"

void test_words(void) {
    uint32_t answer, other;
    const char *unknown = explain(CORVEZAN_NOT_DUE + 1);
    EXPECT(strcmp(explain(CORVEZAN_ACCEPTED), "accepted") == 0);
    EXPECT(explain_remedy(CORVEZAN_ACCEPTED)[0] == '\0');
    for (answer = CORVEZAN_ACCEPTED; answer <= CORVEZAN_NOT_DUE; answer++) {
        EXPECT(strcmp(explain(answer), unknown) != 0);
        EXPECT(answer == CORVEZAN_ACCEPTED || strlen(explain_remedy(answer)) > 10);
        for (other = answer + 1; other <= CORVEZAN_NOT_DUE; other++) {
            EXPECT(strcmp(explain(answer), explain(other)) != 0);
        }
    }
    EXPECT(explain(UINT32_MAX) == unknown);
}
