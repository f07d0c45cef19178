/* The engine's library under other names, and the fault that is asked for.
 *
 * The Makefile renames the library's functions from bantameasel_ to true_, so that functions with a deliberate fault
 * can stand in their place. */
#ifndef TRUE_H
#define TRUE_H

#include <stdlib.h>
#include <string.h>

#define bantameasel_read true_read
#define bantameasel_write true_write
#define bantameasel_judge true_judge
#define bantameasel_first true_first
#define bantameasel_after true_after
#define bantameasel_line true_line
#define bantameasel_first_page true_first_page
#define bantameasel_page_after true_page_after
#define bantameasel_set true_set
#define bantameasel_go true_go
#define bantameasel_drop true_drop
#include "bantameasel.h"
#undef bantameasel_read
#undef bantameasel_write
#undef bantameasel_judge
#undef bantameasel_first
#undef bantameasel_after
#undef bantameasel_line
#undef bantameasel_first_page
#undef bantameasel_page_after
#undef bantameasel_set
#undef bantameasel_go
#undef bantameasel_drop

/* Whether the environment variable FAULT names this fault. */
static inline int fault(const char *name) {
    const char *asked = getenv("FAULT");
    return asked != NULL && strcmp(asked, name) == 0;
}

/* The pair that Go answered last; before that one that no book has. */
extern bantameasel_pair gone_to;

#endif
