/* Deliberate faults that only O lines show. */
#ifndef ALTERNATIVES_H
#define ALTERNATIVES_H

#include "conditions.h"

enum { HEADS = 3 };

/* Changes the O rows of a table. */
void change_alternatives(int32_t *table);

/* A text as it is seen, for its O lines. */
void see_alternatives(uint8_t *text, size_t length);

/* Changes the refusal of an O line. */
void change_refusal_of_alternatives(uint32_t *number, uint64_t line, const uint8_t *text);

/* Refuses an accepted text for its O lines, or changes what Read answers and writes. */
void change_read(bantameasel_book *answer, int32_t *table, size_t text_length);

/* Write, for a table that is taken for another. */
bantameasel_length write_faulty_table(const int32_t *table, size_t length, uint8_t *text, size_t text_length);

/* Whether the fault is another reading of O lines; and by it whether a pair's conclusions are an answer set. */
int reads_heads_otherwise(void);
int answers_otherwise(int32_t *table, bantameasel_pair pair);

/* Whether all entries of a body are satisfied: needed ones first, then barred ones. */
int body_satisfied(const int32_t *body, bantameasel_pair pair);

#endif
