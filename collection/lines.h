/* The lines of a book's text, as docs/BOOKS.md lays them out: for a book that was refused, to find what is at fault. */
#ifndef COLLECTION_LINES_H
#define COLLECTION_LINES_H

#include <stdbool.h>
#include <stddef.h>
#include <stdint.h>

#include "bantameasel.h"

enum {
    COLUMNS = 4 /* columns of a field */
};

/* The kinds of line, in the order in which they stand in a book. */
enum { FIRST, PLAIN, ALTERNATIVES, EXCEPTION, PREFERENCE, CONDITIONAL, LAST, KINDS };

enum {
    HEADS = 3 /* heads of a rule with alternatives */
};

/* A kind of line: its letter, how many fields follow it, and how many such lines a book may have. */
typedef struct {
    char letter;
    int fields;
    uint64_t most;
} kind;

extern const kind kinds[KINDS];

/* A line of the text, without its line feed; none where the text has no such line. */
typedef struct {
    const uint8_t *bytes;
    size_t length;
    bool none;
} line;

/* A line, its number and its kind, and what stands above it: how many lines of each kind, the kind of the last, the
   number of statements. A kind is -1 where there is none. */
typedef struct {
    line at;
    uint64_t number;
    int of;
    uint64_t above[KINDS];
    int last;
    int statements;
} place;

/* From where to where the numbers of a field go. */
typedef struct {
    int low;
    int high;
} range;

/* The line at the front of the text from *rest on; *rest moves past its line feed. */
line next_line(const uint8_t **rest, const uint8_t *end);

/* The kind with this letter; -1 if there is none. */
int kind_of(uint8_t letter);

/* The place of a line, counted from 1, in a text; the lines above it are known to be right. */
place find(const uint8_t *text, size_t length, uint64_t number);

/* The first column of field k, from 0 on. Columns count from 1. */
size_t column_of(int k);

/* Reads field k of a line that has it: a whole number, right-justified after spaces, spelt in the one way there is. */
bool read_columns(line l, int k, int *number);

/* Whether field k of a line of this kind names an exception. */
bool names_exception(int of, int k);

/* The range of the numbers in field k of a line of this kind, in a book of so many statements. */
range range_of(int of, int k, int statements);

/* What field k of a line of this kind holds, in words. */
const char *field_words(int of, int k);

#endif
