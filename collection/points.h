/* The point of a listing, kept in a small text file from one run to the next. */
#ifndef COLLECTION_POINTS_H
#define COLLECTION_POINTS_H

#include "books.h"

/* Reads the point that an earlier run wrote down; without such a file it is before the first pair. */
bool read_point(const char *name, point *at);

/* Writes the point down; a failure leaves the old one whole. */
bool write_point(const char *name, point at);

/* Reads a whole number of digits only from *at on, and moves *at past it. */
bool read_number(const char **at, uint64_t *number);

/* The two names joined; NULL if there is no memory. */
char *joined(const char *name, const char *ending);

#endif
