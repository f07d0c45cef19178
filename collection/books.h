/* A book in memory and what the engine says of it. Only books.c calls the engine. */
#ifndef COLLECTION_BOOKS_H
#define COLLECTION_BOOKS_H

#include <stdbool.h>
#include <stddef.h>
#include <stdint.h>

#include "bantameasel.h"

enum {
    FIELD = 4,         /* columns of a field */
    NAME = 8,          /* characters of a name, the spaces behind it included */
    SHORT_FIELDS = 12, /* fields of an A line for the exceptions taken, in a book that has no more exceptions */
    LONG_FIELDS = 16   /* the same in any other book */
};

/* A book: its file's name, its text, and the numbers of its statements and its exceptions. */
typedef struct {
    const char *name;
    uint8_t *text;
    size_t length;
    uint64_t statements;
    uint64_t exceptions;
} book;

/* A pair: number i is worth 2^(i-1) in each. */
typedef bantameasel_pair pair;

/* The point of a listing: before the first pair, or at a pair. */
typedef struct {
    bool begun;
    pair at;
} point;

/* A store of named pairs: its file's name, and its bytes. Of a file that is too long they are one more than a store
   has. */
typedef struct {
    const char *name;
    size_t length;
    uint8_t bytes[BANTAMEASEL_STORE + 1];
} store;

/* Says on standard error what went wrong with a thing; answers false, so that callers can hand it on. */
bool fail(const char *thing, const char *words);

/* Reads the file and has the engine read its text. A book that is refused is shown with its fault. */
bool open_book(const char *name, book *b);
void close_book(book *b);

/* How many fields for the exceptions taken the A lines of the book have; the byte at which the statements' marks begin
   in a line of so many; the bytes of an A line of the book, its line feed included. */
size_t taken_fields(const book *b);
size_t marks_after(size_t fields);
size_t line_length(const book *b);

/* Has the engine write the A line of a pair into a buffer of line_length bytes. The second only answers the refusal. */
bool write_line(const book *b, pair p, uint8_t *line);
uint32_t line_refusal(const book *b, pair p, uint8_t *line);

bool same_pair(pair p, pair q);

/* Pair k of a page. */
pair pair_at(const uint64_t *pairs, uint64_t k);

/* Fetches at most room resolutions later than the point: in one search, or by a step for each. */
bool fetch(const book *b, point from, uint64_t *pairs, size_t room, uint64_t *count);
bool fetch_by_steps(const book *b, point from, uint64_t *pairs, size_t room, uint64_t *count);

/* The place of a resolution in the whole listing, from 1; the resolution at such a place. */
bool place_of(const book *b, pair p, uint64_t *place);
bool resolution_at(const book *b, uint64_t place, pair *p);

/* The engine's verdict on a pair. */
bool verdict_on(const book *b, pair p, uint32_t *verdict);

/* Has the engine say whether the bytes are a store. */
bool check_store(const store *s);

/* Has the engine put a pair under a name, answer the pair of a name, and drop a name. What is refused is said in words,
   but find_name says nothing where there is no such name. */
bool set_name(store *s, const char *word, pair p);
bool go_to_name(const store *s, const char *word, pair *p);
bool find_name(const store *s, const char *word, pair *p);
bool drop_name(store *s, const char *word);

#endif
