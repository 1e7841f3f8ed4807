/* Makes the calls of document 01's starred cases and prints the answers, a line each: refused N, none, or the numbers. Exits with 1 where one is not as the document has it. */
#include <inttypes.h>
#include <stdio.h>

#include "starred_cases.h"

static unsigned answers, right;

static void starred(const char *name, uint32_t status, uint32_t want, unsigned n, const uint64_t *numbers, const uint64_t *expected) {
    unsigned good = status == want;
    printf("%s:", name);
    if (status == FILM_NONE) {
        printf(" none");
    } else if (status != FILM_OK) {
        printf(" refused %" PRIu32, status);
    }
    for (unsigned k = 0; status == FILM_OK && k < n; k++) {
        printf(" %" PRIu64, numbers[k]);
        good = good && numbers[k] == expected[k];
    }
    puts(good ? "" : "  WRONG");
    answers++;
    right += good;
}

int main(void) {
    all_starred();
    printf("starred cases: %u answers, %u right\n", answers, right);
    return answers != right;
}
