/* Tests what the C header says against the library: names, limits, words, layout, preferences under a condition,
 * alternatives, NULL, its listings, stores, stack, threads.
 *
 *     header VERSION    all of it; VERSION is that of people.mk, as 2.5
 *     header null       only NULL with length 0, to be run under valgrind */
#include <stdio.h>
#include <string.h>

#include "book.h"

static void test_version(const char *stated) {
    char form[32];
    expect("the library's version", bantameasel_version(), BANTAMEASEL_VERSION);
    snprintf(form, sizeof form, "%d.%d", BANTAMEASEL_VERSION / 100, BANTAMEASEL_VERSION % 100);
    expect("the version of people.mk", strcmp(form, stated) != 0, 0);
}

int main(int count, char **arguments) {
    if (count != 2) return 2;
    test_null();
    if (strcmp(arguments[1], "null") == 0) return 0;
    test_version(arguments[1]);
    test_refusals();
    test_verdicts();
    test_words();
    test_limits();
    test_layout();
    test_conditions();
    test_alternatives();
    test_listings();
    test_stores();
    for (uint32_t number = 0; number <= BANTAMEASEL_LAST_REFUSAL; number++)
        expect("provoked", provoked(number), given(number));
    test_stack();
    test_threads();
    printf("header: %u checks passed\n", checks());
    return 0;
}
