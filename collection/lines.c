/* The lines of a book's text, as docs/BOOKS.md lays them out. */
#include "lines.h"

#include <stdio.h>
#include <string.h>

/* The most lines that Z counts. */
enum {
    ROWS_MOST = BANTAMEASEL_MOST_PLAIN + BANTAMEASEL_MOST_ALTERNATIVES + BANTAMEASEL_MOST_EXCEPTIONS
        + BANTAMEASEL_MOST_PREFERENCES + BANTAMEASEL_MOST_CONDITIONALS
};

const kind kinds[KINDS] = {
    { 'B', 2, 1 },
    { 'R', 9, BANTAMEASEL_MOST_PLAIN },
    { 'O', 11, BANTAMEASEL_MOST_ALTERNATIVES },
    { 'X', 9, BANTAMEASEL_MOST_EXCEPTIONS },
    { 'P', 2, BANTAMEASEL_MOST_PREFERENCES },
    { 'Q', 10, BANTAMEASEL_MOST_CONDITIONALS },
    { 'Z', 1, 1 }
};

line next_line(const uint8_t **rest, const uint8_t *end)
{
    line l = { *rest, 0, *rest == end };
    while (*rest < end && **rest != '\n') {
        ++*rest;
        l.length++;
    }
    if (*rest < end) {
        ++*rest;
    }
    return l;
}

int kind_of(uint8_t letter)
{
    for (int k = 0; k < KINDS; k++) {
        if (kinds[k].letter == letter) {
            return k;
        }
    }
    return -1;
}

/* Goes on to the next line of the text. */
static void go_on(place *p, const uint8_t **rest, const uint8_t *end)
{
    p->last = p->of;
    if (p->of >= 0) {
        p->above[p->of]++;
    }
    if (p->of == FIRST) {
        read_columns(p->at, 1, &p->statements);
    }
    p->at = next_line(rest, end);
    p->of = p->at.length > 0 ? kind_of(p->at.bytes[0]) : -1;
    p->number++;
}

place find(const uint8_t *text, size_t length, uint64_t number)
{
    const uint8_t *rest = text;
    place p = { .of = -1, .last = -1 };
    while (p.number < number) {
        go_on(&p, &rest, text + length);
    }
    return p;
}

size_t column_of(int k)
{
    return 2 + (size_t)(COLUMNS * k);
}

bool read_columns(line l, int k, int *number)
{
    char columns[COLUMNS + 1] = { 0 };
    char right[16];
    memcpy(columns, l.bytes + column_of(k) - 1, COLUMNS);
    if (strspn(columns, " -0123456789") != COLUMNS || sscanf(columns, "%d", number) != 1) {
        return false;
    }
    snprintf(right, sizeof right, "%4d", *number);
    return strcmp(columns, right) == 0;
}

bool names_exception(int of, int k)
{
    return (of == PREFERENCE || of == CONDITIONAL) && k < 2;
}

range range_of(int of, int k, int statements)
{
    range edition = { 1, 1 }, count = { 1, BANTAMEASEL_MOST_STATEMENTS };
    range exception = { 1, BANTAMEASEL_MOST_EXCEPTIONS };
    range rows = { 0, ROWS_MOST }, entry = { -statements, statements };
    switch (of) {
    case FIRST: return k == 0 ? edition : count;
    case LAST: return rows;
    default: return names_exception(of, k) ? exception : entry;
    }
}

const char *field_words(int of, int k)
{
    static const char *const entries[] = {
        "the first needed entry", "the second needed entry", "the third needed entry", "the fourth needed entry",
        "the first barred entry", "the second barred entry", "the third barred entry", "the fourth barred entry"
    };
    static const char *const heads[HEADS] = { "the first head", "the second head", "the third head" };
    if (names_exception(of, k)) {
        return k == 0 ? "the exception that outranks" : "the exception that is outranked";
    }
    switch (of) {
    case FIRST: return k == 0 ? "the edition" : "the number of statements";
    case ALTERNATIVES: return k < HEADS ? heads[k] : entries[k - HEADS];
    case CONDITIONAL: return entries[k - 2];
    case LAST: return "the number of R, O, X, P and Q lines";
    default: return k == 0 ? "the head" : entries[k - 1];
    }
}
