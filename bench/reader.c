/* A plain C reader and writer of books, with every check of the engine in its order. A lent buffer is written only
 * after everything has been tested, as the engine does. */
#include "reader.h"

#include <string.h>

enum { LINE_FEED = 10, COLUMNS = 4 };

/* The kinds of line, in the order of a text, and none of them. */
enum { FIRST, PLAIN, ALTERNATIVES, EXCEPTION, PREFERENCE, CONDITIONAL, LAST, NONE };

/* A kind of line: its letter, its fields, and the number of its count in the table (0: none). */
typedef struct {
    uint8_t letter;
    unsigned fields;
    unsigned count;
} kind;

static const kind KINDS[NONE] = {{'B', 2, 0}, {'R', 9, 1}, {'O', 11, 5}, {'X', 9, 2}, {'P', 2, 3}, {'Q', 10, 4}, {'Z', 1, 0}};
static const int32_t LIMITS[READER_FRONT] = {
    0, READER_PLAIN, READER_EXCEPTIONS, READER_PREFERENCES, READER_CONDITIONALS, READER_ALTERNATIVES};

static reader_answer refused(uint32_t number, uint32_t line) {
    reader_answer answer = {number, line, 0};
    return answer;
}

/* Reads the number that four columns spell; answers 0 if they spell none. */
static int spelt(const uint8_t *columns, int32_t *value) {
    unsigned place = 0;
    int32_t size = 0;
    int minus = 0;
    while (place < COLUMNS && columns[place] == ' ') place++;
    if (place < COLUMNS && columns[place] == '-') {
        minus = 1;
        place++;
    }
    if (place == COLUMNS) return 0;
    if (columns[place] == '0' && (minus || place + 1 != COLUMNS)) return 0;
    for (; place < COLUMNS; place++) {
        unsigned digit = (unsigned)columns[place] - '0';
        if (digit > 9) return 0;
        size = 10 * size + (int32_t)digit;
    }
    *value = minus ? -size : size;
    return 1;
}

static int is_digit(uint8_t byte) { return byte >= '0' && byte <= '9'; }

/* The refusal of four columns that spell no number: 5, 17, and for all that is left 18. It stays out of the way of good
 * books. */
__attribute__((cold, noinline)) static uint32_t misspelling(const uint8_t *columns) {
    int digits = 0, gap = 0;
    for (unsigned place = 0; place < COLUMNS; place++) {
        int after_digit = place > 0 && is_digit(columns[place - 1]);
        int before_digit = place + 1 < COLUMNS && is_digit(columns[place + 1]);
        if (columns[place] == '-') {
            if (after_digit || !before_digit) return 5;
        } else if (columns[place] == ' ') {
            gap |= after_digit;
        } else if (is_digit(columns[place])) {
            digits = 1;
        } else {
            return 5;
        }
    }
    return gap || !digits ? 17 : 18;
}

/* The kind of the line that begins with the letter below a line of the kind `above`. */
static unsigned kind_below(unsigned above, uint8_t letter) {
    unsigned from = above == NONE ? FIRST : above == FIRST ? PLAIN : above == LAST ? NONE : above;
    unsigned last = above == NONE ? FIRST : LAST;
    for (unsigned number = from; number <= last && number < NONE; number++) {
        if (KINDS[number].letter == letter) return number;
    }
    return NONE;
}

/* The refusal of a field's value by its kind and place: 7, 6 or 0. */
static uint32_t test_field(unsigned number, unsigned place, int32_t value, int32_t statements) {
    int32_t low = -statements, high = statements;
    switch (number) {
    case FIRST:
        if (place == 0) return value == 1 ? 0 : 7;
        low = 1, high = READER_STATEMENTS;
        break;
    case PREFERENCE:
    case CONDITIONAL:
        if (place < 2) low = 1, high = READER_EXCEPTIONS;
        break;
    case LAST:
        low = 0, high = READER_ROWS;
        break;
    }
    return value < low || value > high ? 6 : 0;
}

/* Whether two exceptions are not both there. */
static int is_missing(const int32_t *fields, int32_t exceptions) {
    return fields[0] > exceptions || fields[1] > exceptions;
}

/* Whether fewer than two of three heads are filled. */
static int lacks_heads(const int32_t *heads) { return (heads[0] != 0) + (heads[1] != 0) + (heads[2] != 0) < 2; }

/* How many lines a table has between B and Z. */
static int32_t rows_of(const int32_t *table) { return table[1] + table[2] + table[3] + table[4] + table[5]; }

/* The refusal of a line as a whole: 8, 22, 23, 19, 9, 10, 11 or 0. */
static uint32_t test_line(unsigned number, const int32_t *fields, const int32_t *table) {
    switch (number) {
    case PLAIN:
        return table[1] == READER_PLAIN ? 8 : 0;
    case ALTERNATIVES:
        return table[5] == READER_ALTERNATIVES ? 22 : lacks_heads(fields) ? 23 : 0;
    case EXCEPTION:
        return table[2] == READER_EXCEPTIONS ? 8 : fields[0] == 0 ? 9 : 0;
    case PREFERENCE:
        return table[3] == READER_PREFERENCES ? 8 : is_missing(fields, table[2]) ? 10 : 0;
    case CONDITIONAL:
        return table[4] == READER_CONDITIONALS ? 19 : is_missing(fields, table[2]) ? 10 : 0;
    case LAST:
        return fields[0] != rows_of(table) ? 11 : 0;
    default:
        return 0;
    }
}

reader_answer reader_read(const uint8_t *text, size_t text_length, int32_t *table, size_t table_length) {
    int32_t own[READER_TABLE + 11];
    size_t length = READER_FRONT, at = 0;
    uint32_t line = 0;
    unsigned above = NONE;
    if (text_length > READER_TEXT) return refused(1, 0);
    if (text_length == 0 || text[text_length - 1] != LINE_FEED) return refused(2, 0);
    memset(own, 0, READER_FRONT * sizeof own[0]);
    while (at < text_length) {
        const uint8_t *start = text + at;
        size_t bytes = (size_t)((const uint8_t *)memchr(start, LINE_FEED, text_length - at) - start) + 1;
        unsigned number = kind_below(above, start[0]);
        int32_t *fields = own + length;
        line++;
        if (number == NONE) return refused(3, line);
        if (bytes != 2 + COLUMNS * KINDS[number].fields) return refused(4, line);
        for (unsigned place = 0; place < KINDS[number].fields; place++) {
            uint32_t refusal;
            const uint8_t *columns = start + 1 + COLUMNS * place;
            if (!spelt(columns, &fields[place])) return refused(misspelling(columns), line);
            refusal = test_field(number, place, fields[place], own[0]);
            if (refusal != 0) return refused(refusal, line);
        }
        uint32_t refusal = test_line(number, fields, own);
        if (refusal != 0) return refused(refusal, line);
        if (number == FIRST) own[0] = fields[1];
        if (KINDS[number].count != 0) {
            own[KINDS[number].count]++;
            length += KINDS[number].fields;
        }
        above = number;
        at += bytes;
    }
    if (above != LAST) return refused(3, line + 1);
    if (table_length < length) return refused(15, 0);
    memcpy(table, own, length * sizeof own[0]);
    reader_answer answer = {0, 0, length};
    return answer;
}

/* Whether one of so many heads or entries is out of range. */
static int test_entries(const int32_t *entries, unsigned count, int32_t statements) {
    for (unsigned place = 0; place < count; place++) {
        if (entries[place] < -statements || entries[place] > statements) return 1;
    }
    return 0;
}

/* Whether one of two exceptions is out of range. */
static int test_order(const int32_t *order) {
    return order[0] < 1 || order[0] > READER_EXCEPTIONS || order[1] < 1 || order[1] > READER_EXCEPTIONS;
}

/* The refusal of a table, by number and line. */
static reader_answer test_table(const int32_t *table, size_t length) {
    if (length < READER_FRONT) return refused(16, 0);
    if (table[0] < 1 || table[0] > READER_STATEMENTS) return refused(6, 1);
    for (unsigned place = 1; place < READER_FRONT; place++) {
        if (table[place] < 0 || table[place] > LIMITS[place]) return refused(8, 1);
    }
    size_t plain = (size_t)table[1], exceptions = (size_t)table[2], orders = (size_t)table[3];
    size_t lines = (size_t)table[4], heads = (size_t)table[5];
    if (length != READER_FRONT + 9 * (plain + exceptions) + 2 * orders + 10 * lines + 11 * heads) return refused(16, 0);
    const int32_t *row = table + READER_FRONT;
    uint32_t line = 2;
    for (size_t number = 0; number < plain; number++, line++, row += 9) {
        if (test_entries(row, 9, table[0])) return refused(6, line);
    }
    for (size_t number = 0; number < heads; number++, line++, row += 11) {
        if (test_entries(row, 11, table[0])) return refused(6, line);
        if (lacks_heads(row)) return refused(23, line);
    }
    for (size_t number = 0; number < exceptions; number++, line++, row += 9) {
        if (test_entries(row, 9, table[0])) return refused(6, line);
        if (row[0] == 0) return refused(9, line);
    }
    for (size_t number = 0; number < orders; number++, line++, row += 2) {
        if (test_order(row)) return refused(6, line);
        if (is_missing(row, table[2])) return refused(10, line);
    }
    for (size_t number = 0; number < lines; number++, line++, row += 10) {
        if (test_order(row) || test_entries(row + 2, 8, table[0])) return refused(6, line);
        if (is_missing(row, table[2])) return refused(10, line);
    }
    return refused(0, 0);
}

/* Writes a number right-justified into four columns. */
static void put_field(uint8_t *columns, int32_t value) {
    uint32_t size = value < 0 ? (uint32_t)-value : (uint32_t)value;
    unsigned place = COLUMNS;
    do {
        columns[--place] = (uint8_t)('0' + size % 10);
        size /= 10;
    } while (size != 0);
    if (value < 0) columns[--place] = '-';
    while (place != 0) columns[--place] = ' ';
}

/* Writes a line and answers where the next begins. */
static uint8_t *put_line(uint8_t *text, uint8_t letter, const int32_t *fields, unsigned count) {
    *text++ = letter;
    for (unsigned place = 0; place < count; place++, text += COLUMNS) put_field(text, fields[place]);
    *text++ = LINE_FEED;
    return text;
}

reader_answer reader_write(const int32_t *table, size_t table_length, uint8_t *text, size_t text_length) {
    reader_answer answer = test_table(table, table_length);
    if (answer.refusal != 0) return answer;
    int32_t first[2] = {1, table[0]}, last = rows_of(table);
    size_t length = 16 + 38 * (size_t)(table[1] + table[2]) + 10 * (size_t)table[3] + 42 * (size_t)table[4] +
        46 * (size_t)table[5];
    const int32_t *row = table + READER_FRONT;
    if (text_length < length) return refused(15, 0);
    text = put_line(text, 'B', first, 2);
    for (int32_t number = 0; number < table[1]; number++, row += 9) text = put_line(text, 'R', row, 9);
    for (int32_t number = 0; number < table[5]; number++, row += 11) text = put_line(text, 'O', row, 11);
    for (int32_t number = 0; number < table[2]; number++, row += 9) text = put_line(text, 'X', row, 9);
    for (int32_t number = 0; number < table[3]; number++, row += 2) text = put_line(text, 'P', row, 2);
    for (int32_t number = 0; number < table[4]; number++, row += 10) text = put_line(text, 'Q', row, 10);
    put_line(text, 'Z', &last, 1);
    answer.length = length;
    return answer;
}
