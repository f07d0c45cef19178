/* Books with preferences under a condition: the text and the table of one, what is listed and how it is judged. */
#include <string.h>

#include "book.h"

/* Exceptions 1 to 3 give statements 1 to 3, of which 1 or 3 is held; 3 outranks 1 unless statement 2 is held. */
static const char WORKED[] = "B   1   3\n"
                             "R   0   0   0   0   0   1   3   0   0\n"
                             "X   1   0   0   0   0   0   0   0   0\n"
                             "X   2   0   0   0   0   0   0   0   0\n"
                             "X   3   0   0   0   0   0   0   0   0\n"
                             "Q   3   1   0   0   0   0   2   0   0   0\n"
                             "Z   5\n";

static const int32_t WORKED_TABLE[52] = {
    3, 1, 3, 0, 1, 0,             /* n, and how many R, X, P, Q and O */
    0, 0, 0, 0, 0, 1, 3, 0, 0,    /* R */
    1, 0, 0, 0, 0, 0, 0, 0, 0,    /* X */
    2, 0, 0, 0, 0, 0, 0, 0, 0,    /* X */
    3, 0, 0, 0, 0, 0, 0, 0, 0,    /* X */
    3, 1, 0, 0, 0, 0, 2, 0, 0, 0, /* Q */
};

/* Read writes the table and nothing past it, and Write the text. */
static void test_read_write(void) {
    const bantameasel_book wanted = {.edition = 1, .statements = 3, .plain = 1, .exceptions = 3, .conditionals = 1};
    reads_and_writes(WORKED, wanted, WORKED_TABLE, sizeof WORKED_TABLE / sizeof WORKED_TABLE[0]);
}

/* The view of 3 outranks that of 1, as neither holds statement 2. That of 1 and 2 is not outranked, and is not one too
 * many beside that of 1, which is. */
static void test_worked(void) {
    static const bantameasel_pair listed[] = {{4, 4, 0}, {3, 3, 0}};
    static const judged pairs[] = {
        {{4, 4, 0}, BANTAMEASEL_VERDICT_RESOLUTION}, {{3, 3, 0}, BANTAMEASEL_VERDICT_RESOLUTION},
        {{2, 2, 0}, BANTAMEASEL_VERDICT_NO_ANSWER_SET}, {{5, 5, 0}, BANTAMEASEL_VERDICT_OUTRANKED},
        {{1, 1, 0}, BANTAMEASEL_VERDICT_DOMINATED}, {{6, 6, 0}, BANTAMEASEL_VERDICT_NOT_LEAST},
        {{7, 7, 0}, BANTAMEASEL_VERDICT_NOT_LEAST},
    };
    uint8_t line[BANTAMEASEL_MOST_LINE];
    book b;
    b.length = sizeof WORKED - 1;
    memcpy(b.bytes, WORKED, b.length);
    lists("the worked book", &b, listed, 2);
    judges("the worked book", &b, pairs, sizeof pairs / sizeof pairs[0]);
    expect("a line", bantameasel_line(b.bytes, b.length, listed[1], line, sizeof line).length, 57);
    expect("a line", memcmp(line, "A   2   1   2   0   0   0   0   0   0   0   0   0   0++.\n", 57) != 0, 0);
}

/* Statement 1 is held or denied, as one likes; of the others, which exceptions 1, 2 and so on hold, at least one. */
static void begin_open(book *b, int exceptions) {
    row none = {.head = 0};
    choices(b, 1 + exceptions, 1);
    for (int i = 1; i <= exceptions; i++) none.barred[i - 1] = 1 + i;
    add(b, 'R', none);
}

static void add_exceptions(book *b, int exceptions) {
    for (int i = 1; i <= exceptions; i++) add(b, 'X', (row){.head = 1 + i});
}

/* Where 1 outranks 2 only if statement 1 is held, it does so between two views that both hold it, and within such a
 * view. */
static void test_both(void) {
    static const bantameasel_pair listed[] = {{1, 3, 0}, {1, 2, 1}, {2, 4, 1}};
    static const judged pairs[] = {
        {{2, 5, 0}, BANTAMEASEL_VERDICT_DOMINATED},
        {{3, 7, 0}, BANTAMEASEL_VERDICT_OUTRANKED},
        {{3, 6, 1}, BANTAMEASEL_VERDICT_NOT_LEAST},
    };
    book b;
    begin_open(&b, 2);
    add_exceptions(&b, 2);
    prefer_if(&b, 1, 2, (row){.needed = {1}});
    finish(&b);
    lists("what holds in one of two views", &b, listed, 3);
    judges("what holds in one of two views", &b, pairs, 3);
}

/* Where one line says so if statement 1 is held, and another one if it is denied, both views have the same step. */
static void test_others(void) {
    static const bantameasel_pair listed[] = {{1, 3, 0}, {1, 2, 1}};
    book b;
    begin_open(&b, 2);
    add_exceptions(&b, 2);
    prefer_if(&b, 1, 2, (row){.needed = {1}});
    prefer_if(&b, 1, 2, (row){.barred = {1}});
    finish(&b);
    lists("a step by two lines", &b, listed, 2);
}

/* Steps lead from 1 to 3 by 2 where statement 1 is held, and directly where it is denied: there is no step in common.
 * So the one view with exception 1, which holds statement 1, outranks no view that denies it; with a P line it does. */
static void test_chains(void) {
    static const bantameasel_pair listed[] = {{1, 3, 0}, {2, 4, 1}, {4, 8, 1}};
    static const judged outranked = {{4, 8, 1}, BANTAMEASEL_VERDICT_DOMINATED};
    for (int common = 0; common <= 1; common++) {
        book b;
        begin_open(&b, 3);
        add(&b, 'R', (row){.needed = {-1, 2}});
        add_exceptions(&b, 3);
        if (common) prefer(&b, 1, 3);
        prefer_if(&b, 1, 2, (row){.needed = {1}});
        prefer_if(&b, 2, 3, (row){.needed = {1}});
        prefer_if(&b, 1, 3, (row){.needed = {-1}});
        finish(&b);
        lists("chains", &b, listed, common ? 2 : 3);
        if (common) judges("a chain with a P line", &b, &outranked, 1);
    }
}

void test_conditions(void) {
    test_read_write();
    test_worked();
    test_both();
    test_others();
    test_chains();
}
