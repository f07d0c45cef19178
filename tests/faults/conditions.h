/* The number table of a book, its lines, and deliberate faults that only Q lines show. */
#ifndef CONDITIONS_H
#define CONDITIONS_H

#include "true.h"

/* The places of the numbers before a table's rows, and how many numbers the rows have: R and X, O, P, Q. */
enum { STATEMENTS, PLAIN, EXCEPTIONS, PREFERENCES, CONDITIONALS, ALTERNATIVES, FRONT };
enum { ROW = 9, ALTERNATIVE = 11, ORDER = 2, CONDITIONAL = 10 };

/* How many numbers a table has by its counts, and where its O, X and P rows begin. */
size_t length_of(const int32_t *table);
int32_t *alternatives_of(int32_t *table);
int32_t *exceptions_of(int32_t *table);
int32_t *orders_of(int32_t *table);

/* Puts so many numbers from the front of some behind the rest of them. */
void rotate(int32_t *numbers, size_t front, size_t all);

/* Whether the count at this place of a table is the first that is out of its range. */
int first_out(const int32_t *table, int count);

/* Where a line of a text, counted from 1, begins, and how many of the lines above it have this letter. */
const uint8_t *line_at(const uint8_t *text, uint64_t line);
int32_t above(const uint8_t *text, uint64_t line, char letter);

/* A kind of line: its letter and its bytes. */
typedef struct {
    char letter;
    size_t bytes;
} line_kind;

/* Puts the lines of one kind that stand behind lines of another kind before these, in a text of such lines. */
void put_first(uint8_t *text, size_t length, line_kind behind, line_kind before);

/* Changes the Q rows of a table. */
void change_conditionals(int32_t *table);

/* Puts the Q rows of a table before its P rows. */
void exchange_orders(int32_t *table);

/* Changes the refusal of a Q line, or of a text for its Q lines. */
void change_refusal_of_conditionals(uint32_t *number, uint64_t line, const uint8_t *text);

/* Refuses an accepted text for its Q lines. */
void refuse_conditionals(bantameasel_book *answer, size_t text_length);

/* Write, for a table that is taken for another because of its Q rows. */
bantameasel_length write_faulty_conditionals(const int32_t *table, size_t length, uint8_t *text, size_t text_length);

/* Judge, First (without a pair), After and the pages, by the reading of Q or O lines that is asked for. */
bantameasel_verdict judge_otherwise(const uint8_t *text, size_t length, bantameasel_pair pair);
bantameasel_answer next_otherwise(const uint8_t *text, size_t length, const bantameasel_pair *from);
bantameasel_page page_otherwise(const uint8_t *text, size_t length, const bantameasel_pair *from, uint64_t *pairs,
                                size_t pairs_length);

#endif
