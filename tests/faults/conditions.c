/* The engine's library with a deliberate fault, to show that the test program can fail: Q lines in tables, in texts and
 * in what the rules of a table say. What they mean is in readings.c. */
#include "conditions.h"

size_t length_of(const int32_t *table) {
    return FRONT + ROW * (size_t)(table[PLAIN] + table[EXCEPTIONS]) + ALTERNATIVE * (size_t)table[ALTERNATIVES] +
           ORDER * (size_t)table[PREFERENCES] + CONDITIONAL * (size_t)table[CONDITIONALS];
}

int32_t *alternatives_of(int32_t *table) { return table + FRONT + ROW * table[PLAIN]; }
int32_t *exceptions_of(int32_t *table) { return alternatives_of(table) + ALTERNATIVE * table[ALTERNATIVES]; }
int32_t *orders_of(int32_t *table) { return exceptions_of(table) + ROW * table[EXCEPTIONS]; }

/* ---- meaning: the Q lines that a faulty reader of them would see */

/* The body of the row is satisfied by no set. */
static void never(int32_t *row) { row[2] = 1, row[3] = -1; }

static void exchange(int32_t *row, int one, int other, int count) {
    for (int place = 0; place < count; place++) {
        int32_t kept = row[one + place];
        row[one + place] = row[other + place];
        row[other + place] = kept;
    }
}

static void change_conditional(int32_t *row) {
    if (fault("a Q line whose body fails counts")) memset(row + 2, 0, 8 * sizeof row[0]);
    if (fault("a Q line never counts")) never(row);
    if (fault("the exceptions of a Q line are exchanged")) exchange(row, 0, 1, 1);
    if (fault("needed and barred entries of a Q line are exchanged")) exchange(row, 2, 6, 4);
    if (fault("the fourth needed entry of a Q line is lost")) row[5] = 0;
    if (fault("the fourth barred entry of a Q line is lost")) row[9] = 0;
    if (fault("barred -i of a Q line is read as needed +i") && row[6] < 0 && row[2] == 0) row[2] = -row[6], row[6] = 0;
    if (fault("Q lines past the twelfth exception are lost") && (row[0] > 12 || row[1] > 12)) never(row);
}

void change_conditionals(int32_t *table) {
    int32_t *rows = orders_of(table) + ORDER * table[PREFERENCES], count = table[CONDITIONALS];
    for (int32_t place = 0; place < count; place++) change_conditional(rows + CONDITIONAL * place);
    if (fault("the 32nd Q line is lost") && count == 32) never(rows + CONDITIONAL * 31);
}

/* ---- tables */

void rotate(int32_t *numbers, size_t front, size_t all) {
    int32_t kept[BANTAMEASEL_MOST_TABLE];
    memcpy(kept, numbers, front * sizeof kept[0]);
    memmove(numbers, numbers + front, (all - front) * sizeof kept[0]);
    memcpy(numbers + all - front, kept, front * sizeof kept[0]);
}

/* The numbers of a table's P rows and of its Q rows. */
static size_t of_orders(const int32_t *table) { return ORDER * (size_t)table[PREFERENCES]; }
static size_t of_conditionals(const int32_t *table) { return CONDITIONAL * (size_t)table[CONDITIONALS]; }

void exchange_orders(int32_t *table) {
    rotate(orders_of(table), of_orders(table), of_orders(table) + of_conditionals(table));
}

int first_out(const int32_t *table, int count) {
    static const int32_t most[] = {0, BANTAMEASEL_MOST_PLAIN, BANTAMEASEL_MOST_EXCEPTIONS, BANTAMEASEL_MOST_PREFERENCES,
                                   BANTAMEASEL_MOST_CONDITIONALS, BANTAMEASEL_MOST_ALTERNATIVES};
    for (int place = PLAIN; place < count; place++) {
        if (table[place] < 0 || table[place] > most[place]) return 0;
    }
    return table[count] < 0 || table[count] > most[count];
}

/* Whether both exceptions that a row names are in their range, and one is missing. */
static int names_missing(const int32_t *row, int32_t exceptions) {
    int ranged = row[0] >= 1 && row[0] <= 16 && row[1] >= 1 && row[1] <= 16;
    return ranged && (row[0] > exceptions || row[1] > exceptions);
}

/* The Q row of a table that would have this line, or NULL. */
static const int32_t *row_of(int32_t *table, uint64_t line) {
    int64_t place = (int64_t)line - 2 - table[PLAIN] - table[ALTERNATIVES] - table[EXCEPTIONS] - table[PREFERENCES];
    return place < 0 ? NULL : orders_of(table) + of_orders(table) + CONDITIONAL * place;
}

bantameasel_length write_faulty_conditionals(const int32_t *table, size_t length, uint8_t *text, size_t text_length) {
    int32_t other[BANTAMEASEL_MOST_TABLE] = {0};
    bantameasel_length answer = true_write(table, length, text, text_length);
    if (length > BANTAMEASEL_MOST_TABLE) return answer;
    memcpy(other, table, length * sizeof other[0]);
    if (fault("four numbers are enough before the rows") && length == FRONT - 2)
        return true_write(other, FRONT, text, text_length);
    if (fault("Q rows stand before P rows") && answer.refusal == 0) {
        rotate(orders_of(other), of_conditionals(other), of_orders(other) + of_conditionals(other));
        return true_write(other, length, text, text_length);
    }
    if (answer.refusal == 8 && first_out(other, CONDITIONALS)) {
        if (fault("19 comes from a table")) answer.refusal = 19;
        if (fault("the fourth count is not tested")) answer.refusal = 16, answer.line = 0;
    }
    if (fault("10 of a Q row comes before its 6") && answer.refusal == 6 && answer.line > 1) {
        const int32_t *row = row_of(other, answer.line);
        if (row != NULL && names_missing(row, other[EXCEPTIONS])) answer.refusal = 10;
    }
    return answer;
}

/* ---- texts */

const uint8_t *line_at(const uint8_t *text, uint64_t line) {
    while (--line > 0) text = (const uint8_t *)strchr((const char *)text, '\n') + 1;
    return text;
}

int32_t above(const uint8_t *text, uint64_t line, char letter) {
    int32_t count = 0;
    for (uint64_t other = 1; other < line; other++) count += *line_at(text, other) == letter;
    return count;
}

/* Whether a Q line names a missing exception, and both that it names are in their range. */
static int line_names_missing(const uint8_t *text, uint64_t line) {
    char fields[9] = {0};
    int32_t row[2];
    memcpy(fields, line_at(text, line) + 1, 8);
    row[1] = atoi(fields + 4);
    fields[4] = 0;
    row[0] = atoi(fields);
    return names_missing(row, above(text, line, 'X'));
}

void change_refusal_of_conditionals(uint32_t *number, uint64_t line, const uint8_t *text) {
    if (line == 0 || (*number != 6 && *number != 10 && *number != 19) || *line_at(text, line) != 'Q') return;
    int missing = line_names_missing(text, line), over = above(text, line, 'Q') >= BANTAMEASEL_MOST_CONDITIONALS;
    if (fault("19 comes after 10") && *number == 19 && missing) *number = 10;
    if (fault("a Q line over the limit is 8") && *number == 19) *number = 8;
    if (fault("19 comes before 6") && *number == 6 && over) *number = 19;
    if (fault("10 comes before a Q line's entries") && *number == 6 && missing && !over) *number = 10;
    if (fault("a Q line of a missing exception is out of range") && *number == 10) *number = 6;
}

void refuse_conditionals(bantameasel_book *answer, size_t text_length) {
    bantameasel_book refused = {0};
    uint64_t others = answer->plain + answer->alternatives + answer->exceptions + answer->preferences;
    if (answer->refusal != 0) return;
    if (fault("Z does not count Q lines") && answer->conditionals > 0)
        refused.refusal = 11, refused.line = 2 + others + answer->conditionals;
    if (fault("a text has at most 8,544 bytes") && text_length > 8544) refused.refusal = 1;
    if (fault("the 32nd Q line is one too many") && answer->conditionals == 32)
        refused.refusal = 19, refused.line = 1 + others + 32;
    if (refused.refusal != 0) *answer = refused;
}

void put_first(uint8_t *text, size_t length, line_kind behind, line_kind before) {
    enum { MOST_BYTES = 46 };
    for (size_t at = 0; at + before.bytes + behind.bytes <= length; at++) {
        uint8_t *line = text + at, *next = line + before.bytes, kept[MOST_BYTES];
        if ((at > 0 && line[-1] != '\n') || line[0] != before.letter || next[-1] != '\n') continue;
        if (next[0] != behind.letter || next[behind.bytes - 1] != '\n') continue;
        memcpy(kept, next, behind.bytes);
        memmove(line + behind.bytes, line, before.bytes);
        memcpy(line, kept, behind.bytes);
        at = 0;
    }
}
