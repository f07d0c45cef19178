/* Every refusal and every verdict by its name: each is provoked through the library. */
#include <stdio.h>
#include <string.h>

#include "book.h"

/* A text, and what it is refused with. */
typedef struct {
    const char *text;
    uint32_t refusal;
    uint64_t line;
} faulty;

static const faulty TEXTS[] = {
    {"", BANTAMEASEL_REFUSED_TEXT_END, 0},
    {"B   1   1\nZ   0", BANTAMEASEL_REFUSED_TEXT_END, 0},
    {"R\n", BANTAMEASEL_REFUSED_LINE_PLACE, 1},
    {"B   1   1\n", BANTAMEASEL_REFUSED_LINE_PLACE, 2},
    {"B   1\n", BANTAMEASEL_REFUSED_LINE_LENGTH, 1},
    {"B   1   x\n", BANTAMEASEL_REFUSED_FIELD_CHARACTER, 1},
    {"B   11 1x\n", BANTAMEASEL_REFUSED_FIELD_CHARACTER, 1},
    {"B   1-  1\n", BANTAMEASEL_REFUSED_FIELD_CHARACTER, 1},
    {"B   -1000\n", BANTAMEASEL_REFUSED_FIELD_CHARACTER, 1},
    {"B   1    \n", BANTAMEASEL_REFUSED_FIELD_GAP, 1},
    {"B   101 1\n", BANTAMEASEL_REFUSED_FIELD_GAP, 1},
    {"B       1\n", BANTAMEASEL_REFUSED_FIELD_GAP, 1},
    {"B   1   1\nZ0   \n", BANTAMEASEL_REFUSED_FIELD_GAP, 2},
    {"B   1  01\n", BANTAMEASEL_REFUSED_FIELD_ZERO, 1},
    {"B   1 -01\n", BANTAMEASEL_REFUSED_FIELD_ZERO, 1},
    {"B  02   1\n", BANTAMEASEL_REFUSED_FIELD_ZERO, 1},
    {"B   1   1\nZ  -0\n", BANTAMEASEL_REFUSED_FIELD_ZERO, 2},
    {"B   1  49\n", BANTAMEASEL_REFUSED_OUT_OF_RANGE, 1},
    {"B   1-100\n", BANTAMEASEL_REFUSED_OUT_OF_RANGE, 1},
    {"B   1   1\nR   2       0   0   0   0   0   0   0\n", BANTAMEASEL_REFUSED_OUT_OF_RANGE, 2},
    {"B   2   1\n", BANTAMEASEL_REFUSED_EDITION, 1},
    {"B   2    \n", BANTAMEASEL_REFUSED_EDITION, 1},
    {"B   1   1\nX   0   0   0   0   0   0   0   0   0\n", BANTAMEASEL_REFUSED_NO_HEAD, 2},
    {"B   1   1\nP   1   1\n", BANTAMEASEL_REFUSED_PREFERENCE, 2},
    {"B   1   1\nP  16   1\n", BANTAMEASEL_REFUSED_PREFERENCE, 2},
    {"B   1   1\nP  17   1\n", BANTAMEASEL_REFUSED_OUT_OF_RANGE, 2},
    {"B   1   1\nZ   1\n", BANTAMEASEL_REFUSED_TOTAL, 2},
    {"B   1   1\nZ 320\n", BANTAMEASEL_REFUSED_TOTAL, 2},
    {"B   1   1\nZ 321\n", BANTAMEASEL_REFUSED_OUT_OF_RANGE, 2},
    {"O   1  -1   0   0   0   0   0   0   0   0   0\n", BANTAMEASEL_REFUSED_LINE_PLACE, 1},
    {"B   1   1\no\n", BANTAMEASEL_REFUSED_LINE_PLACE, 2},
    {"B   1   1\nO   1  -1   0   0   0   0   0   0   0   0\n", BANTAMEASEL_REFUSED_LINE_LENGTH, 2},
    {"B   1   1\nO   1  -1   0   0   0   0   0   0   0   0   x\n", BANTAMEASEL_REFUSED_FIELD_CHARACTER, 2},
    {"B   1   1\nO   1  -1       0   0   0   0   0   0   0   0\n", BANTAMEASEL_REFUSED_FIELD_GAP, 2},
    {"B   1   1\nO   1  -1  -0   0   0   0   0   0   0   0   0\n", BANTAMEASEL_REFUSED_FIELD_ZERO, 2},
    {"B   1   1\nO   1  -1   2   0   0   0   0   0   0   0   0\n", BANTAMEASEL_REFUSED_OUT_OF_RANGE, 2},
    {"B   1   1\nO   1   0   0   0   0   0   0   0   0   0  -2\n", BANTAMEASEL_REFUSED_OUT_OF_RANGE, 2},
    {"B   1   1\nO   1   0   0   0   0   0   0   0   0   0  -1\n", BANTAMEASEL_REFUSED_TOO_FEW_HEADS, 2},
    {"B   1   1\nO   0   0   0   1  -1   0   0   0   0   0   0\n", BANTAMEASEL_REFUSED_TOO_FEW_HEADS, 2},
    {"B   1   1\nO   0   1   1   0   0   0   0   0   0   0   0\nO   0   0  -1   0   0   0   0   0   0   0   0\n",
     BANTAMEASEL_REFUSED_TOO_FEW_HEADS, 3},
    {"B   1   1\nO   0   1   1   0   0   0   0   0   0   0   0\nR   0   0   0   0   0   0   0   0   0\n",
     BANTAMEASEL_REFUSED_LINE_PLACE, 3},
    {"B   1   1\nX   1   0   0   0   0   0   0   0   0\nO   0   1   1   0   0   0   0   0   0   0   0\n",
     BANTAMEASEL_REFUSED_LINE_PLACE, 3},
    {"B   1   1\nO   1   0  -1   0   0   0   0   0   0   0   0\nZ   0\n", BANTAMEASEL_REFUSED_TOTAL, 3},
    {"Q   1   1   0   0   0   0   0   0   0   0\n", BANTAMEASEL_REFUSED_LINE_PLACE, 1},
    {"B   1   1\nq\n", BANTAMEASEL_REFUSED_LINE_PLACE, 2},
    {"B   1   1\nQ   1   1   0   0   0   0   0   0   0\n", BANTAMEASEL_REFUSED_LINE_LENGTH, 2},
    {"B   1   1\nQ   1   1   0   0   0   0   0   0   0   x\n", BANTAMEASEL_REFUSED_FIELD_CHARACTER, 2},
    {"B   1   1\nQ   1   1   0   0   0   0   0   0   0    \n", BANTAMEASEL_REFUSED_FIELD_GAP, 2},
    {"B   1   1\nQ   1   1   0   0   0   0   0   0   0  -0\n", BANTAMEASEL_REFUSED_FIELD_ZERO, 2},
    {"B   1   1\nQ   0   1   0   0   0   0   0   0   0   0\n", BANTAMEASEL_REFUSED_OUT_OF_RANGE, 2},
    {"B   1   1\nQ   1  17   0   0   0   0   0   0   0   0\n", BANTAMEASEL_REFUSED_OUT_OF_RANGE, 2},
    {"B   1   1\nQ   1   1   0   0   0   0   0   0   0   2\n", BANTAMEASEL_REFUSED_OUT_OF_RANGE, 2},
    {"B   1   1\nQ   1   1   0   0   0   0   0   0   0  -1\n", BANTAMEASEL_REFUSED_PREFERENCE, 2},
    {"B   1   1\nX   1   0   0   0   0   0   0   0   0\nQ   1   2   0   0   0   0   0   0   0   0\n",
     BANTAMEASEL_REFUSED_PREFERENCE, 3},
    {"B   1   1\nX   1   0   0   0   0   0   0   0   0\nQ   1   1   0   0   0   0   0   0   0   0\nP   1   1\n",
     BANTAMEASEL_REFUSED_LINE_PLACE, 4},
    {"B   1   1\nX   1   0   0   0   0   0   0   0   0\nQ   1   1   0   0   0   0   0   0   0   0\nZ   1\n",
     BANTAMEASEL_REFUSED_TOTAL, 4},
};

/* Read refuses the text so, and all other numbers of its answer are 0. */
static void read_refuses(const uint8_t *text, size_t length, uint32_t refusal, uint64_t line) {
    bantameasel_book none = {0}, answer = bantameasel_read(text, length, NULL, 0);
    none.refusal = refusal;
    none.line = line;
    expect_refusal("Read's refusal", answer.refusal, refusal);
    expect("Read's line", answer.line, line);
    expect("what stands beside Read's refusal", memcmp(&answer, &none, sizeof none) != 0, 0);
}

/* Every other function that takes a text and this pair refuses them so. */
static void others_refuse(const uint8_t *text, size_t length, bantameasel_pair pair, uint32_t refusal, uint64_t line) {
    bantameasel_verdict judged = bantameasel_judge(text, length, pair);
    bantameasel_answer found = bantameasel_after(text, length, pair);
    bantameasel_length written = bantameasel_line(text, length, pair, NULL, 0);
    bantameasel_page page = bantameasel_page_after(text, length, pair, NULL, 0);
    expect_refusal("Judge's refusal", judged.refusal, refusal);
    expect("Judge's line", judged.line, line);
    expect("the verdict beside a refusal", judged.verdict, 0);
    expect_refusal("After's refusal", found.refusal, refusal);
    expect("After's line", found.line, line);
    expect("the pair beside a refusal", found.found | found.pair.taken | found.pair.held | found.pair.denied, 0);
    expect_refusal("Line's refusal", written.refusal, refusal);
    expect("Line's line", written.line, line);
    expect("the length beside a refusal", written.length, 0);
    expect_refusal("the page's refusal", page.refusal, refusal);
    expect("the page's line", page.line, line);
    expect("the count beside a refusal", page.count, 0);
}

/* First and the first page refuse the text so. */
static void firsts_refuse(const uint8_t *text, size_t length, uint32_t refusal, uint64_t line) {
    bantameasel_answer found = bantameasel_first(text, length);
    bantameasel_page page = bantameasel_first_page(text, length, NULL, 0);
    expect_refusal("First's refusal", found.refusal, refusal);
    expect("First's line", found.line, line);
    expect_refusal("the first page's refusal", page.refusal, refusal);
    expect("the first page's line", page.line, line);
}

static void test_pairs(void) {
    static const struct {
        bantameasel_pair pair;
        uint32_t refusal;
    } pairs[] = {
        {{2, 4, 1}, BANTAMEASEL_REFUSED_PAIR_TAKEN},
        {{1, 5, 1}, BANTAMEASEL_REFUSED_PAIR_STATEMENT},
        {{1, 1, 4}, BANTAMEASEL_REFUSED_PAIR_STATEMENT},
        {{1, 3, 2}, BANTAMEASEL_REFUSED_PAIR_BOTH},
        {{1, 2, 1}, BANTAMEASEL_NOT_REFUSED},
    };
    book b;
    begin(&b, 2);
    add(&b, 'X', (row){.head = 1});
    finish(&b);
    for (int k = 0; k < 4; k++) others_refuse(b.bytes, b.length, pairs[k].pair, pairs[k].refusal, 0);
    expect("a lawful pair", bantameasel_judge(b.bytes, b.length, pairs[4].pair).refusal, pairs[4].refusal);
}

/* A number table of so many numbers, and what Write refuses it with. */
typedef struct {
    int32_t numbers[20];
    size_t length;
    uint32_t refusal;
    uint64_t line;
} faulty_table;

/* The seven before the last are tables for versions before 2.5, which did not count O lines, or neither Q nor O lines:
 * without a row, and with an R row of head 1 and of head -1. The last one is right, but there is no room for its text. */
static const faulty_table TABLES[] = {
    {{1, 0, 0}, 3, BANTAMEASEL_REFUSED_TABLE_LENGTH, 0},
    {{1, 0, 0, 0, 0, 0, 0}, 7, BANTAMEASEL_REFUSED_TABLE_LENGTH, 0},
    {{0, 0, 0, 0, 0, 41}, 6, BANTAMEASEL_REFUSED_OUT_OF_RANGE, 1},
    {{1, 201, 0, 0, 0, 0}, 6, BANTAMEASEL_REFUSED_TOO_MANY, 1},
    {{1, 0, 17, 0, 0, 0}, 6, BANTAMEASEL_REFUSED_TOO_MANY, 1},
    {{1, 0, 0, 33, 0, 0}, 6, BANTAMEASEL_REFUSED_TOO_MANY, 1},
    {{1, 0, 0, 0, 33, 0}, 6, BANTAMEASEL_REFUSED_TOO_MANY, 1},
    {{1, 0, 0, 0, -1, 0}, 6, BANTAMEASEL_REFUSED_TOO_MANY, 1},
    {{1, 0, 0, 0, 0, 41}, 6, BANTAMEASEL_REFUSED_TOO_MANY, 1},
    {{1, 0, 0, 0, 0, -1}, 6, BANTAMEASEL_REFUSED_TOO_MANY, 1},
    {{1, 0, 0, 0, 1, 0, 1, 1, 0, 0, 0, 0, 0, 0, 0}, 15, BANTAMEASEL_REFUSED_TABLE_LENGTH, 0},
    {{1, 0, 0, 0, 1, 0, 1, 1, 0, 0, 0, 0, 0, 0, 0, 0}, 16, BANTAMEASEL_REFUSED_PREFERENCE, 2},
    {{1, 0, 0, 0, 1, 0, 1, 1, 0, 0, 0, 0, 0, 0, 0, 2}, 16, BANTAMEASEL_REFUSED_OUT_OF_RANGE, 2},
    {{1, 0, 0, 0, 1, 0, 1, 0, 0, 0, 0, 0, 0, 0, 0, 0}, 16, BANTAMEASEL_REFUSED_OUT_OF_RANGE, 2},
    {{1, 0, 0, 0, 0, 1, 1, -1, 0, 0, 0, 0, 0, 0, 0, 0}, 16, BANTAMEASEL_REFUSED_TABLE_LENGTH, 0},
    {{1, 0, 0, 0, 0, 1, 1, 0, 0, 0, 0, 0, 0, 0, 0, 0, 0}, 17, BANTAMEASEL_REFUSED_TOO_FEW_HEADS, 2},
    {{1, 0, 0, 0, 0, 1, 0, 0, 0, 1, 0, 0, 0, 0, 0, 0, 0}, 17, BANTAMEASEL_REFUSED_TOO_FEW_HEADS, 2},
    {{1, 0, 0, 0, 0, 1, 2, 0, 0, 0, 0, 0, 0, 0, 0, 0, 0}, 17, BANTAMEASEL_REFUSED_OUT_OF_RANGE, 2},
    {{1, 0, 0, 0, 0, 1, 1, 0, 0, 0, 0, 0, 0, 0, 0, 0, -2}, 17, BANTAMEASEL_REFUSED_OUT_OF_RANGE, 2},
    {{1, 0, 0, 0, 0, 1, 1, 0, 1, 0, 0, 0, 0, 0, 0, 0, -1}, 17, BANTAMEASEL_REFUSED_BUFFER_SHORT, 0},
    {{1, 0, 0, 0, 0}, 5, BANTAMEASEL_REFUSED_TABLE_LENGTH, 0},
    {{1, 1, 0, 0, 0, 1, 0, 0, 0, 0, 0, 0, 0, 0}, 14, BANTAMEASEL_REFUSED_TABLE_LENGTH, 0},
    {{1, 1, 0, 0, 0, 0, 0, 0, 0, 0, 0, 0, 0, 0}, 14, BANTAMEASEL_REFUSED_TABLE_LENGTH, 0},
    {{1, 1, 0, 0, 0, -1, 0, 0, 0, 0, 0, 0, 0, 0}, 14, BANTAMEASEL_REFUSED_TOO_MANY, 1},
    {{1, 0, 0, 0}, 4, BANTAMEASEL_REFUSED_TABLE_LENGTH, 0},
    {{1, 1, 0, 0, 1, 0, 0, 0, 0, 0, 0, 0, 0}, 13, BANTAMEASEL_REFUSED_TABLE_LENGTH, 0},
    {{1, 1, 0, 0, -1, 0, 0, 0, 0, 0, 0, 0, 0}, 13, BANTAMEASEL_REFUSED_TOO_MANY, 1},
    {{1, 0, 0, 0, 0, 0}, 6, BANTAMEASEL_REFUSED_BUFFER_SHORT, 0},
};

static void test_tables(void) {
    for (size_t k = 0; k < sizeof TABLES / sizeof TABLES[0]; k++) {
        bantameasel_length answer = bantameasel_write(TABLES[k].numbers, TABLES[k].length, NULL, 0);
        expect_refusal("a table", answer.refusal, TABLES[k].refusal);
        expect("the line of a table", answer.line, TABLES[k].line);
    }
}

void test_refusals(void) {
    bantameasel_pair none = {0, 0, 0};
    for (size_t k = 0; k < sizeof TEXTS / sizeof TEXTS[0]; k++) {
        const uint8_t *text = (const uint8_t *)TEXTS[k].text;
        size_t length = strlen(TEXTS[k].text);
        read_refuses(text, length, TEXTS[k].refusal, TEXTS[k].line);
        others_refuse(text, length, none, TEXTS[k].refusal, TEXTS[k].line);
        firsts_refuse(text, length, TEXTS[k].refusal, TEXTS[k].line);
    }
    expect("the older name of 5", BANTAMEASEL_REFUSED_FIELD_MISSPELT, BANTAMEASEL_REFUSED_FIELD_CHARACTER);
    test_pairs();
    test_tables();
}

/* Exceptions 1 and 2 give statements 1 and 2, and 1 outranks 2; exception 3 needs statement 2. */
void test_verdicts(void) {
    static const struct {
        bantameasel_pair pair;
        uint32_t verdict;
    } pairs[] = {
        {{0, 0, 0}, BANTAMEASEL_VERDICT_RESOLUTION}, {{0, 1, 0}, BANTAMEASEL_VERDICT_NO_ANSWER_SET},
        {{3, 3, 0}, BANTAMEASEL_VERDICT_OUTRANKED},  {{4, 0, 0}, BANTAMEASEL_VERDICT_NOT_SATISFIED},
        {{2, 2, 0}, BANTAMEASEL_VERDICT_DOMINATED},  {{1, 1, 0}, BANTAMEASEL_VERDICT_NOT_LEAST},
    };
    book b;
    begin(&b, 2);
    add(&b, 'X', (row){.head = 1});
    add(&b, 'X', (row){.head = 2});
    add(&b, 'X', (row){.head = 1, .needed = {2}});
    prefer(&b, 1, 2);
    finish(&b);
    for (size_t k = 0; k < sizeof pairs / sizeof pairs[0]; k++) {
        bantameasel_verdict answer = bantameasel_judge(b.bytes, b.length, pairs[k].pair);
        expect("Judge's refusal", answer.refusal, BANTAMEASEL_NOT_REFUSED);
        expect("the verdict", answer.verdict, pairs[k].verdict);
        expect("the verdicts in their order", answer.verdict, k);
    }
    expect("all verdicts", sizeof pairs / sizeof pairs[0], BANTAMEASEL_LAST_VERDICT + 1);
}

static int verdict_given(uint32_t verdict) { return verdict <= BANTAMEASEL_LAST_VERDICT; }

/* The words of all numbers that are given are there and differ from each other and from those of an unknown one; the
 * other numbers have those of an unknown one. */
static void test_words_of(const char *(*words)(uint32_t), int (*is_given)(uint32_t)) {
    const char *unknown = words(UINT32_MAX);
    expect("unknown words", strlen(unknown) > 0, 1);
    for (uint32_t number = 0; number < 100; number++) {
        expect("the words of a number", strlen(words(number)) > 10, 1);
        expect("known words", strcmp(words(number), unknown) != 0, (uint64_t)is_given(number));
        for (uint32_t other = 0; is_given(number) && other < number; other++)
            expect("other words", strcmp(words(number), words(other)) != 0, 1);
    }
}

void test_words(void) {
    test_words_of(bantameasel_refusal_words, given);
    test_words_of(bantameasel_verdict_words, verdict_given);
    expect("the words of 24", strstr(bantameasel_refusal_words(24), "not a store") != NULL, 1);
    expect("the words of 25", strstr(bantameasel_refusal_words(25), "misspelt") != NULL, 1);
    expect("the words of 26", strstr(bantameasel_refusal_words(26), "full") != NULL, 1);
    expect("the words of 17", strstr(bantameasel_refusal_words(17), "blank") != NULL, 1);
    expect("the words of 18", strstr(bantameasel_refusal_words(18), "leading zero") != NULL, 1);
    expect("the words of 11", strstr(bantameasel_refusal_words(11), "Z line") != NULL, 1);
    expect("the words of 19", strstr(bantameasel_refusal_words(19), "Q lines") != NULL, 1);
    expect("the words of 22", strstr(bantameasel_refusal_words(22), "O lines") != NULL, 1);
    expect("the words of 23", strstr(bantameasel_refusal_words(23), "two heads") != NULL, 1);
    expect("the words of verdict 4", strstr(bantameasel_verdict_words(4), "outranks one taken here") != NULL, 1);
    expect("the words of verdict 5", strstr(bantameasel_verdict_words(5), "some undominated view") != NULL, 1);
}
