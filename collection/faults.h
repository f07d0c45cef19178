/* What is wrong with a book that was refused, in words. */
#ifndef COLLECTION_FAULTS_H
#define COLLECTION_FAULTS_H

#include <stddef.h>
#include <stdint.h>

/* Shows on standard error the faulty line of a text that was refused by one of 1 to 11, 17 to 19, 22 and 23, points at
   the columns that are at fault where there are such, and says the cause. */
void show_fault(const uint8_t *text, size_t length, uint32_t refusal, uint64_t line);

#endif
