/* Books with alternatives: the text and the table of one, what is listed and how it is judged. */
#include <string.h>

#include "book.h"

/* Silk (1) or a silk mixture (2 or 3), unless the label says otherwise (4); a mixture with wool (2) is warm (5), and
 * exception 1 says that the label does. */
static const char WORKED[] = "B   1   5\n"
                             "R   5   2   0   0   0   0   0   0   0\n"
                             "O   1   0   2   0   0   0   0   4   0   0   0\n"
                             "O   3   1   2   1   0   0   0   0  -3   0   0\n"
                             "X   4   0   0   0   0   0   0   0   0\n"
                             "P   1   1\n"
                             "Z   5\n";

static const int32_t WORKED_TABLE[48] = {
    5, 1, 1, 1, 0, 2,                   /* n, and how many R, X, P, Q and O */
    5, 2, 0, 0, 0, 0, 0, 0, 0,          /* R */
    1, 0, 2, 0, 0, 0, 0, 4, 0, 0, 0,    /* O */
    3, 1, 2, 1, 0, 0, 0, 0, -3, 0, 0,   /* O */
    4, 0, 0, 0, 0, 0, 0, 0, 0,          /* X */
    1, 1,                               /* P */
};

/* Read writes the table, the O rows behind the R row though their number stands last, and nothing past it. */
static void test_read_write(void) {
    const bantameasel_book wanted = {
        .edition = 1, .statements = 5, .plain = 1, .exceptions = 1, .preferences = 1, .alternatives = 2};
    reads_and_writes(WORKED, wanted, WORKED_TABLE, sizeof WORKED_TABLE / sizeof WORKED_TABLE[0]);
}

/* Either is enough, and nothing is taken without need; the exception outranks itself besides. */
static void test_worked(void) {
    static const bantameasel_pair listed[] = {{0, 18, 0}, {0, 1, 0}};
    static const judged pairs[] = {
        {{0, 18, 0}, BANTAMEASEL_VERDICT_RESOLUTION},    {{0, 1, 0}, BANTAMEASEL_VERDICT_RESOLUTION},
        {{0, 19, 0}, BANTAMEASEL_VERDICT_NO_ANSWER_SET}, {{0, 2, 0}, BANTAMEASEL_VERDICT_NO_ANSWER_SET},
        {{0, 0, 0}, BANTAMEASEL_VERDICT_NO_ANSWER_SET},  {{0, 5, 0}, BANTAMEASEL_VERDICT_NO_ANSWER_SET},
        {{1, 8, 0}, BANTAMEASEL_VERDICT_OUTRANKED},
    };
    book b;
    b.length = sizeof WORKED - 1;
    memcpy(b.bytes, WORKED, b.length);
    lists("the worked book", &b, listed, 2);
    judges("the worked book", &b, pairs, sizeof pairs / sizeof pairs[0]);
}

/* A book of two statements with alternatives of these heads, and rules by which one brings the other about. */
static void begin_two(book *b, const int *heads, int first, int second) {
    begin(b, 2);
    if (first) add(b, 'R', (row){.head = 2, .needed = {1}});
    if (second) add(b, 'R', (row){.head = 1, .needed = {2}});
    either(b, (row){.heads = {heads[0], heads[1], heads[2]}});
    finish(b);
}

/* One of two, in any two of the three places; the same one twice; held or denied. */
static void test_heads(void) {
    static const int places[3][HEADS] = {{1, 2, 0}, {0, 2, 1}, {1, 0, 2}};
    static const int twice[HEADS] = {2, 0, 2}, signs[HEADS] = {0, 1, -1};
    static const bantameasel_pair either_one[] = {{0, 2, 0}, {0, 1, 0}}, held_or_denied[] = {{0, 1, 0}, {0, 0, 1}};
    book b;
    for (int k = 0; k < 3; k++) {
        begin_two(&b, places[k], 0, 0);
        lists("one of two", &b, either_one, 2);
    }
    begin_two(&b, twice, 0, 0);
    lists("the same head twice", &b, either_one, 1);
    begin_two(&b, signs, 0, 0);
    lists("held or denied", &b, held_or_denied, 2);
}

/* Where each head brings the other about, both are there; where one does, it is left out. */
static void test_both(void) {
    static const int heads[HEADS] = {1, 2, 0};
    static const bantameasel_pair both[] = {{0, 3, 0}}, second[] = {{0, 2, 0}}, first[] = {{0, 1, 0}};
    static const judged less[] = {{{0, 1, 0}, 1}, {{0, 2, 0}, 1}, {{0, 0, 0}, 1}}, more = {{0, 3, 0}, 1};
    book b;
    begin_two(&b, heads, 1, 1);
    lists("heads that bring each other about", &b, both, 1);
    judges("heads that bring each other about", &b, less, 3);
    begin_two(&b, heads, 1, 0);
    lists("a head that brings the other about", &b, second, 1);
    judges("a head that brings the other about", &b, &more, 1);
    begin_two(&b, heads, 0, 1);
    lists("the other head that does", &b, first, 1);
}

/* All alternatives are excluded, but for the exceptions: 1 allows the second, 2 lifts the line, and 1 comes before 2. */
static void test_exceptions(void) {
    static const bantameasel_pair listed[] = {{1, 6, 0}, {2, 8, 0}};
    static const judged lifted = {{2, 8, 0}, BANTAMEASEL_VERDICT_DOMINATED};
    for (int ranked = 0; ranked <= 1; ranked++) {
        book b;
        begin(&b, 4);
        add(&b, 'R', (row){.needed = {1}});
        add(&b, 'R', (row){.needed = {2}, .barred = {3}});
        either(&b, (row){.heads = {1, 2}, .barred = {4}});
        add(&b, 'X', (row){.head = 3});
        add(&b, 'X', (row){.head = 4});
        if (ranked) prefer(&b, 1, 2);
        finish(&b);
        lists("alternatives beside exceptions", &b, listed, ranked ? 1 : 2);
        if (ranked) judges("alternatives beside ranked exceptions", &b, &lifted, 1);
    }
}

void test_alternatives(void) {
    test_read_write();
    test_worked();
    test_heads();
    test_both();
    test_exceptions();
}
