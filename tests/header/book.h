/* Books that are made line by line, and checks that are counted: what the tests of the header share. */
#ifndef BOOK_H
#define BOOK_H

#include "bantameasel.h"

enum { BOOK_ROOM = 2 * BANTAMEASEL_MOST_TEXT, ENTRIES = 4, HEADS = 3 };

typedef struct {
    uint8_t bytes[BOOK_ROOM];
    size_t length;
    int lines; /* how many lines Z counts */
} book;

/* A rule or an exception, or the condition of a preference, which has no head: what it needs and what it bars; an
 * unused entry is 0. A rule with alternatives has its heads in the other place. */
typedef struct {
    int head, needed[ENTRIES], barred[ENTRIES], heads[HEADS];
} row;

/* The lines of a book, from B to Z. */
void begin(book *b, int statements);
void add(book *b, char letter, row r);
void either(book *b, row r);
void prefer(book *b, int one, int other);
void prefer_if(book *b, int one, int other, row condition);
void finish(book *b);

/* The book in which each of the statements from 1 to n is held or denied, as one likes; Z is left to the caller. */
void choices(book *b, int statements, int free);

/* A book at every limit: its text and its table have the most bytes and numbers. */
void full(book *b);

/* A pair, and its verdict. */
typedef struct {
    bantameasel_pair pair;
    uint32_t verdict;
} judged;

/* Checks that these are the resolutions of the book, by steps and in a page, and that pairs are judged so. */
void lists(const char *what, const book *b, const bantameasel_pair *wanted, size_t count);
void judges(const char *what, const book *b, const judged *pairs, size_t count);

/* Checks that a text has this answer of Read and this table, and that Write turns the table into the text. */
void reads_and_writes(const char *text, bantameasel_book answer, const int32_t *numbers, size_t count);

/* Counts a check, and ends the program if the two numbers differ. */
void expect(const char *what, uint64_t got, uint64_t wanted);
unsigned checks(void);

/* The same of a refusal, which counts as provoked from then on. */
void expect_refusal(const char *what, uint32_t got, uint32_t wanted);
int provoked(uint32_t refusal);

/* Whether this version gives a refusal with this number, or 0 for none: 20 and 21 are kept for later ones. */
int given(uint32_t refusal);

/* The tests. */
void test_refusals(void);
void test_verdicts(void);
void test_words(void);
void test_limits(void);
void test_conditions(void);
void test_alternatives(void);
void test_layout(void);
void test_null(void);
void test_listings(void);
void test_stores(void);
void test_stack(void);
void test_threads(void);

#endif
