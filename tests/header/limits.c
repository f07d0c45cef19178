/* Every limit at its edge, and the layout of the structs. */
#include <stddef.h>
#include <string.h>

#include "book.h"

static int32_t table[BANTAMEASEL_MOST_TABLE + 1];
static uint8_t text[BANTAMEASEL_MOST_TEXT + 1];

static bantameasel_book read_book(const book *b) {
    return bantameasel_read(b->bytes, b->length, table, BANTAMEASEL_MOST_TABLE);
}

/* How many lines of each kind a book has. */
typedef struct {
    int plain, alternatives, exceptions, preferences, conditionals;
} counts;

/* A book of two statements with so many lines of each kind. */
static void make(book *b, counts c) {
    begin(b, 2);
    for (int k = 0; k < c.plain; k++) add(b, 'R', (row){.head = 1});
    for (int k = 0; k < c.alternatives; k++) either(b, (row){.heads = {2, -2}, .needed = {1}});
    for (int k = 0; k < c.exceptions; k++) add(b, 'X', (row){.head = 1});
    for (int k = 0; k < c.preferences; k++) prefer(b, 1, 1);
    for (int k = 0; k < c.conditionals; k++) prefer_if(b, 1, 1, (row){.needed = {1}, .barred = {-1}});
    finish(b);
}

/* A book with so many lines of each kind is accepted, and one line more of a kind, the last of the book, is refused at
 * that line. */
static void test_counts(counts c, uint32_t refusal) {
    book b;
    make(&b, c);
    bantameasel_book answer = read_book(&b);
    expect_refusal("the refusal of a count", answer.refusal, refusal);
    expect("the line of a count", answer.line, refusal == 0 ? 0 : (uint64_t)b.lines + 1);
    expect("R lines", answer.plain, refusal == 0 ? (uint64_t)c.plain : 0);
    expect("O lines", answer.alternatives, refusal == 0 ? (uint64_t)c.alternatives : 0);
    expect("X lines", answer.exceptions, refusal == 0 ? (uint64_t)c.exceptions : 0);
    expect("P lines", answer.preferences, refusal == 0 ? (uint64_t)c.preferences : 0);
    expect("Q lines", answer.conditionals, refusal == 0 ? (uint64_t)c.conditionals : 0);
}

/* One O line too many that has one head is 22, and 6 if the head is that of no statement. */
static void test_one_line_too_many(int head, uint32_t refusal) {
    book b;
    begin(&b, 2);
    for (int k = 0; k < BANTAMEASEL_MOST_ALTERNATIVES; k++) either(&b, (row){.heads = {1, 2}});
    either(&b, (row){.heads = {0, 0, head}});
    finish(&b);
    expect_refusal("one O line too many", read_book(&b).refusal, refusal);
    expect("its line", read_book(&b).line, (uint64_t)b.lines + 1);
}

/* One Q line too many that names an exception which the book does not have is 19, and 6 if no book can have it. */
static void test_one_too_many(int other, uint32_t refusal) {
    book b;
    begin(&b, 1);
    add(&b, 'X', (row){.head = 1});
    for (int k = 0; k < BANTAMEASEL_MOST_CONDITIONALS; k++) prefer_if(&b, 1, 1, (row){.needed = {1}});
    prefer_if(&b, 1, other, (row){.needed = {1}});
    finish(&b);
    expect_refusal("one Q line too many", read_book(&b).refusal, refusal);
    expect("its line", read_book(&b).line, (uint64_t)b.lines + 1);
}

static void test_statements(void) {
    book b;
    begin(&b, BANTAMEASEL_MOST_STATEMENTS);
    finish(&b);
    expect_refusal("the most statements", read_book(&b).refusal, BANTAMEASEL_NOT_REFUSED);
    expect("the most statements", read_book(&b).statements, BANTAMEASEL_MOST_STATEMENTS);
    begin(&b, BANTAMEASEL_MOST_STATEMENTS + 1);
    finish(&b);
    expect_refusal("one statement more", read_book(&b).refusal, BANTAMEASEL_REFUSED_OUT_OF_RANGE);
}

/* Of a book at every limit: text, table and line are as long as the header says, and no shorter room does. */
static void test_lengths(const book *b) {
    bantameasel_pair pair = {(UINT64_C(1) << BANTAMEASEL_MOST_EXCEPTIONS) - 1, 0, UINT64_C(1) << 47};
    expect("the longest text", b->length, BANTAMEASEL_MOST_TEXT);
    expect_refusal("the longest text", read_book(b).refusal, BANTAMEASEL_NOT_REFUSED);
    bantameasel_book answer = bantameasel_read(b->bytes, b->length, table, BANTAMEASEL_MOST_TABLE - 1);
    expect_refusal("a table too short", answer.refusal, BANTAMEASEL_REFUSED_BUFFER_SHORT);
    bantameasel_length written = bantameasel_write(table, BANTAMEASEL_MOST_TABLE, text, BANTAMEASEL_MOST_TEXT);
    expect_refusal("the longest table", written.refusal, BANTAMEASEL_NOT_REFUSED);
    expect("the text written", written.length, BANTAMEASEL_MOST_TEXT);
    expect("the text written", memcmp(text, b->bytes, BANTAMEASEL_MOST_TEXT) != 0, 0);
    written = bantameasel_write(table, BANTAMEASEL_MOST_TABLE, text, BANTAMEASEL_MOST_TEXT - 1);
    expect_refusal("a text too short", written.refusal, BANTAMEASEL_REFUSED_BUFFER_SHORT);
    written = bantameasel_line(b->bytes, b->length, pair, text, BANTAMEASEL_MOST_LINE);
    expect("the longest line", written.length, BANTAMEASEL_MOST_LINE);
    written = bantameasel_line(b->bytes, b->length, pair, text, BANTAMEASEL_MOST_LINE - 1);
    expect_refusal("a line too short", written.refusal, BANTAMEASEL_REFUSED_BUFFER_SHORT);
    pair.taken++;
    written = bantameasel_line(b->bytes, b->length, pair, text, BANTAMEASEL_MOST_LINE);
    expect_refusal("one exception more", written.refusal, BANTAMEASEL_REFUSED_PAIR_TAKEN);
}

/* The room for a table that the header calls always enough is enough, and the table is as long as it says; one number
 * less does only where the book has two lines, and a fourth of the text's length where it has four. */
static void test_room(counts c) {
    book b;
    make(&b, c);
    const int rules = c.plain + c.exceptions, orders = 2 * c.preferences + 10 * c.conditionals;
    const size_t needed = (size_t)(6 + 9 * rules + 11 * c.alternatives + orders), fourth = b.length / 4;
    expect("the room that is always enough", needed <= fourth + 2, 1);
    expect("a table", bantameasel_read(b.bytes, b.length, table, needed).refusal, 0);
    expect("no shorter table", bantameasel_read(b.bytes, b.length, table, needed - 1).refusal,
           BANTAMEASEL_REFUSED_BUFFER_SHORT);
    expect("one number less is enough", needed <= fourth + 1, b.lines > 1);
    expect("a fourth of the text is enough", needed <= fourth, b.lines > 3);
}

/* A line has 54 + n bytes in a book of at most 12 exceptions and 70 + n in a longer one, whether the pair takes none of
 * them or all. */
static void test_line_lengths(void) {
    for (int exceptions = 0; exceptions <= BANTAMEASEL_MOST_EXCEPTIONS; exceptions++) {
        bantameasel_pair none = {0, 1, 0}, all = {(UINT64_C(1) << exceptions) - 1, 1, 0};
        const uint64_t wanted = (exceptions <= 12 ? 54 : 70) + 3;
        book b;
        begin(&b, 3);
        for (int k = 0; k < exceptions; k++) add(&b, 'X', (row){.head = 1});
        finish(&b);
        expect("a line", bantameasel_line(b.bytes, b.length, none, text, BANTAMEASEL_MOST_LINE).length, wanted);
        expect("a line of all", bantameasel_line(b.bytes, b.length, all, text, BANTAMEASEL_MOST_LINE).length, wanted);
        expect("no room", bantameasel_line(b.bytes, b.length, none, text, wanted - 1).refusal,
               BANTAMEASEL_REFUSED_BUFFER_SHORT);
    }
}

void test_limits(void) {
    const int r = BANTAMEASEL_MOST_PLAIN, x = BANTAMEASEL_MOST_EXCEPTIONS, p = BANTAMEASEL_MOST_PREFERENCES;
    const int q = BANTAMEASEL_MOST_CONDITIONALS, o = BANTAMEASEL_MOST_ALTERNATIVES;
    book b;
    test_statements();
    test_counts((counts){r, o, x, p, q}, BANTAMEASEL_NOT_REFUSED);
    test_counts((counts){r, 0, x, p, 0}, BANTAMEASEL_NOT_REFUSED);
    test_counts((counts){0, 0, 1, 0, q}, BANTAMEASEL_NOT_REFUSED);
    test_counts((counts){0, o, 0, 0, 0}, BANTAMEASEL_NOT_REFUSED);
    test_counts((counts){.plain = r + 1}, BANTAMEASEL_REFUSED_TOO_MANY);
    test_counts((counts){.exceptions = x + 1}, BANTAMEASEL_REFUSED_TOO_MANY);
    test_counts((counts){.exceptions = 1, .preferences = p + 1}, BANTAMEASEL_REFUSED_TOO_MANY);
    test_counts((counts){.exceptions = 1, .conditionals = q + 1}, BANTAMEASEL_REFUSED_TOO_MANY_CONDITIONALS);
    test_counts((counts){0, o, 1, p, q + 1}, BANTAMEASEL_REFUSED_TOO_MANY_CONDITIONALS);
    test_counts((counts){.alternatives = o + 1}, BANTAMEASEL_REFUSED_TOO_MANY_ALTERNATIVES);
    test_counts((counts){.plain = r, .alternatives = o + 1}, BANTAMEASEL_REFUSED_TOO_MANY_ALTERNATIVES);
    test_one_too_many(2, BANTAMEASEL_REFUSED_TOO_MANY_CONDITIONALS);
    test_one_too_many(17, BANTAMEASEL_REFUSED_OUT_OF_RANGE);
    test_one_line_too_many(2, BANTAMEASEL_REFUSED_TOO_MANY_ALTERNATIVES);
    test_one_line_too_many(3, BANTAMEASEL_REFUSED_OUT_OF_RANGE);
    test_room((counts){0});
    test_room((counts){.plain = 1});
    test_room((counts){.alternatives = 1});
    test_room((counts){.exceptions = 1});
    test_room((counts){.plain = 2});
    test_room((counts){.exceptions = 1, .preferences = 1, .conditionals = 1});
    test_room((counts){.plain = 1, .alternatives = 1, .exceptions = 1, .conditionals = 1});
    test_line_lengths();
    full(&b);
    test_lengths(&b);
    b.bytes[b.length++] = '\n';
    expect_refusal("one byte more", read_book(&b).refusal, BANTAMEASEL_REFUSED_TEXT_TOO_LONG);
    b.bytes[--b.length - 1] = ' ';
    expect_refusal("the last byte changed", read_book(&b).refusal, BANTAMEASEL_REFUSED_TEXT_END);
}

/* What a program that was built with this header goes by. */
void test_layout(void) {
    expect("the size of Read's answer", sizeof(bantameasel_book), 80);
    expect("its edition", offsetof(bantameasel_book, edition), 4);
    expect("its line", offsetof(bantameasel_book, line), 8);
    expect("its statements", offsetof(bantameasel_book, statements), 16);
    expect("its preferences", offsetof(bantameasel_book, preferences), 40);
    expect("its conditionals", offsetof(bantameasel_book, conditionals), 48);
    expect("its alternatives", offsetof(bantameasel_book, alternatives), 56);
    expect("what is reserved", offsetof(bantameasel_book, reserved), 64);
    expect("the size of Write's answer", sizeof(bantameasel_length), 24);
    expect("its length", offsetof(bantameasel_length, length), 16);
    expect("the size of Judge's answer", sizeof(bantameasel_verdict), 16);
    expect("its verdict", offsetof(bantameasel_verdict, verdict), 4);
    expect("the size of First's answer", sizeof(bantameasel_answer), 40);
    expect("its pair", offsetof(bantameasel_answer, pair), 16);
    expect("the size of a page's answer", sizeof(bantameasel_page), 24);
    expect("its count", offsetof(bantameasel_page, count), 16);
    expect("the size of a name", sizeof(bantameasel_name), 8);
    expect("the size of Set's answer", sizeof(bantameasel_done), 16);
    expect("its line", offsetof(bantameasel_done, line), 8);
    book b;
    make(&b, (counts){.alternatives = 3, .exceptions = 1, .preferences = 1, .conditionals = 2});
    bantameasel_book wanted = {
        .edition = 1, .statements = 2, .exceptions = 1, .preferences = 1, .conditionals = 2, .alternatives = 3};
    bantameasel_book answer = read_book(&b);
    expect("Read's answer, what is reserved too", memcmp(&answer, &wanted, sizeof wanted) != 0, 0);
}
