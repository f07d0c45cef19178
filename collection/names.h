/* The store of named resolutions, kept in a file from one run to the next. */
#ifndef COLLECTION_NAMES_H
#define COLLECTION_NAMES_H

#include "books.h"

/* Reads the store's file; without such a file the store is empty. Whether its bytes are a store, the engine says. */
bool read_store(const char *name, store *s);

/* Writes the store into its file; a failure leaves the old file whole, and no other. */
bool write_store(const store *s);

/* Makes the small letters of a word capitals, as names have them. */
void capitals(char *word);

/* The name of entry k, from 0 on, without its spaces; false if the store has no such entry. */
bool name_at(const store *s, size_t k, char word[NAME + 1]);

/* Says on standard error why a store and a word were refused by 24, 25 or 26, and what to do. */
void show_store_fault(const store *s, const char *word, uint32_t refusal);

#endif
