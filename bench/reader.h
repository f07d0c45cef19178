/* A plain C reader and writer of books with the engine's checks, to compare its Read and Write with. */
#ifndef READER_H
#define READER_H

#include <stddef.h>
#include <stdint.h>

enum {
    READER_STATEMENTS = 48,
    READER_PLAIN = 200,
    READER_EXCEPTIONS = 16,
    READER_PREFERENCES = 32,
    READER_CONDITIONALS = 32,
    READER_ALTERNATIVES = 40,
    READER_TEXT = 11728,
    READER_FRONT = 6,
    READER_ROWS = READER_PLAIN + READER_ALTERNATIVES + READER_EXCEPTIONS + READER_PREFERENCES + READER_CONDITIONALS,
    READER_TABLE = READER_FRONT + 9 * (READER_PLAIN + READER_EXCEPTIONS) + 11 * READER_ALTERNATIVES +
        2 * READER_PREFERENCES + 10 * READER_CONDITIONALS
};

/* A refusal's number (0: none) and line, and how many numbers or bytes were written. */
typedef struct {
    uint32_t refusal;
    uint32_t line;
    size_t length;
} reader_answer;

reader_answer reader_read(const uint8_t *text, size_t text_length, int32_t *table, size_t table_length);
reader_answer reader_write(const int32_t *table, size_t table_length, uint8_t *text, size_t text_length);

#endif
