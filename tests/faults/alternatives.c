/* The engine's library with a deliberate fault, to show that the test program can fail: O lines in tables, in texts and
 * in what the rules of a table say. What they mean is in heads.c. */
#include "alternatives.h"

/* How many of the heads of a row are filled. */
static int filled(const int32_t *row) { return (row[0] != 0) + (row[1] != 0) + (row[2] != 0); }

/* The first head of a row that is filled. */
static int32_t first_head(const int32_t *row) { return row[0] != 0 ? row[0] : row[1] != 0 ? row[1] : row[2]; }

/* Whether all heads of a row that are filled are one and the same. */
static int same_heads(const int32_t *row) {
    for (int place = 0; place < HEADS; place++) {
        if (row[place] != 0 && row[place] != first_head(row)) return 0;
    }
    return 1;
}

/* ---- meaning: the O lines that a faulty reader of them would see */

/* The body of the row is satisfied by no set. */
static void never(int32_t *row) { row[3] = 1, row[4] = -1; }

/* Gives a row one head alone, twice, which is a plain rule. */
static void keep_head(int32_t *row, int32_t head) { row[0] = row[1] = head, row[2] = 0; }

static void exchange_entries(int32_t *row) {
    for (int place = 3; place < 7; place++) {
        int32_t kept = row[place];
        row[place] = row[place + 4];
        row[place + 4] = kept;
    }
}

static void change_heads(int32_t *row) {
    if (fault("only the first head of an O line counts")) keep_head(row, first_head(row));
    if (fault("the third head of an O line is lost")) {
        row[2] = 0;
        if (filled(row) < 2) keep_head(row, first_head(row));
    }
    if (fault("denied heads of an O line are held")) {
        for (int place = 0; place < HEADS; place++) row[place] = abs(row[place]);
    }
    if (fault("a head that is repeated makes an O line say nothing") && same_heads(row)) never(row);
}

static void change_alternative(int32_t *row) {
    change_heads(row);
    if (fault("an O line says nothing")) never(row);
    if (fault("the fourth needed entry of an O line is lost")) row[6] = 0;
    if (fault("the fourth barred entry of an O line is lost")) row[10] = 0;
    if (fault("needed and barred entries of an O line are exchanged")) exchange_entries(row);
    if (fault("barred -i of an O line is read as needed +i") && row[7] < 0 && row[3] == 0) row[3] = -row[7], row[7] = 0;
}

/* Gives each O line of a table so many that each has one of its heads, if a book may have them all. */
static void part_heads(int32_t *table) {
    int32_t rows[3 * BANTAMEASEL_MOST_ALTERNATIVES * ALTERNATIVE], count = 0, *own = alternatives_of(table);
    for (int32_t place = 0; place < HEADS * table[ALTERNATIVES]; place++) {
        const int32_t *row = own + ALTERNATIVE * (place / HEADS);
        if (row[place % HEADS] == 0) continue;
        memcpy(rows + ALTERNATIVE * count, row, ALTERNATIVE * sizeof rows[0]);
        keep_head(rows + ALTERNATIVE * count++, row[place % HEADS]);
    }
    if (count > BANTAMEASEL_MOST_ALTERNATIVES) return;
    int32_t *behind = exceptions_of(table), *end = table + length_of(table);
    memmove(own + ALTERNATIVE * count, behind, (size_t)(end - behind) * sizeof rows[0]);
    memcpy(own, rows, (size_t)(ALTERNATIVE * count) * sizeof rows[0]);
    table[ALTERNATIVES] = count;
}

void change_alternatives(int32_t *table) {
    int32_t *rows = alternatives_of(table), count = table[ALTERNATIVES];
    for (int32_t place = 0; place < count; place++) change_alternative(rows + ALTERNATIVE * place);
    if (fault("the 40th O line is lost") && count == 40) never(rows + ALTERNATIVE * 39);
    if (fault("all heads of an O line are given")) part_heads(table);
}

/* ---- tables */

/* The numbers of a table's O rows and of its X rows. */
static size_t of_alternatives(const int32_t *table) { return ALTERNATIVE * (size_t)table[ALTERNATIVES]; }
static size_t of_exceptions(const int32_t *table) { return ROW * (size_t)table[EXCEPTIONS]; }

/* The numbers from a table's O rows on. */
static size_t from_alternatives(int32_t *table) {
    return (size_t)(table + length_of(table) - alternatives_of(table));
}

/* Exchanges the counts of Q and O lines. */
static void exchange_counts(int32_t *table) {
    int32_t kept = table[CONDITIONALS];
    table[CONDITIONALS] = table[ALTERNATIVES];
    table[ALTERNATIVES] = kept;
}

/* A table as a writer would take it that has O rows in another place. */
static void put_back(int32_t *table) {
    int32_t *rows = alternatives_of(table);
    size_t own = of_alternatives(table), others = of_exceptions(table), all = from_alternatives(table);
    if (fault("O rows stand behind the X rows")) rotate(rows, others, own + others);
    if (fault("O rows stand last")) rotate(rows, all - own, all);
}

/* The O row of a table that would have this line, or NULL. */
static const int32_t *row_of(int32_t *table, uint64_t line) {
    int64_t place = (int64_t)line - 2 - table[PLAIN];
    return place < 0 || place >= table[ALTERNATIVES] ? NULL : alternatives_of(table) + ALTERNATIVE * place;
}

/* The refusal that is given to a table in the place of the true one. */
static void change_refusal_of_table(bantameasel_length *answer, int32_t *table) {
    if (answer->refusal == 8 && first_out(table, ALTERNATIVES)) {
        if (fault("22 comes from a table")) answer->refusal = 22;
        if (fault("the fifth count is not tested")) answer->refusal = 16, answer->line = 0;
    }
    const int32_t *row = answer->line > 1 ? row_of(table, answer->line) : NULL;
    if (fault("23 of an O row comes before its 6") && answer->refusal == 6 && row != NULL && filled(row) < 2)
        answer->refusal = 23;
    if (answer->refusal == 23) {
        if (fault("23 of an O row has no line")) answer->line = 0;
        if (fault("an O row without two heads is 9")) answer->refusal = 9;
    }
}

bantameasel_length write_faulty_table(const int32_t *table, size_t length, uint8_t *text, size_t text_length) {
    int32_t other[BANTAMEASEL_MOST_TABLE] = {0};
    bantameasel_length answer = write_faulty_conditionals(table, length, text, text_length);
    if (length > BANTAMEASEL_MOST_TABLE) return answer;
    memcpy(other, table, length * sizeof other[0]);
    if (fault("five numbers are enough before the rows") && length == FRONT - 1)
        return true_write(other, FRONT, text, text_length);
    if (fault("O lines are counted before Q lines") && length >= FRONT) {
        exchange_counts(other);
        return true_write(other, length, text, text_length);
    }
    if (length == 0 || answer.refusal == 16) return answer;
    change_refusal_of_table(&answer, other);
    if (answer.refusal != 0) return answer;
    put_back(other);
    return true_write(other, length, text, text_length);
}

/* ---- texts */

/* The three heads of an O line of a text. */
static void heads_at(const uint8_t *text, uint64_t line, int32_t *heads) {
    const uint8_t *fields = line_at(text, line) + 1;
    char field[5] = {0};
    for (int place = 0; place < HEADS; place++) heads[place] = atoi(memcpy(field, fields + 4 * place, 4));
}

void change_refusal_of_alternatives(uint32_t *number, uint64_t line, const uint8_t *text) {
    int32_t heads[HEADS];
    if (line == 0 || (*number != 6 && *number != 22 && *number != 23) || *line_at(text, line) != 'O') return;
    heads_at(text, line, heads);
    int few = filled(heads) < 2, over = above(text, line, 'O') >= BANTAMEASEL_MOST_ALTERNATIVES;
    if (fault("23 comes before 22") && *number == 22 && few) *number = 23;
    if (fault("an O line over the limit is 8") && *number == 22) *number = 8;
    if (fault("22 comes before 6") && *number == 6 && over) *number = 22;
    if (fault("23 comes before 6") && *number == 6 && few && !over) *number = 23;
    if (fault("an O line without two heads is 9") && *number == 23) *number = 9;
    if (fault("an O line with no head is out of range") && *number == 23 && filled(heads) == 0) *number = 6;
}

/* Gives an O line, from its first field on, that has one head the same head in an unused place. */
static void repeat_head(uint8_t *fields) {
    int place = 0, unused = 0;
    while (place < HEADS && memcmp(fields + 4 * place, "   0", 4) == 0) place++;
    while (unused < HEADS && memcmp(fields + 4 * unused, "   0", 4) != 0) unused++;
    if (place < HEADS && unused < HEADS) memcpy(fields + 4 * unused, fields + 4 * place, 4);
}

void see_alternatives(uint8_t *text, size_t length) {
    enum { BYTES = 46 };
    const line_kind rule = {'R', 38}, alternative = {'O', BYTES}, exception = {'X', 38};
    if (fault("an O line behind an X line is seen before it")) put_first(text, length, alternative, exception);
    if (fault("an R line behind an O line is seen before it")) put_first(text, length, rule, alternative);
    for (size_t at = 0; fault("an O line with one head is seen as a rule") && at + BYTES <= length; at++) {
        uint8_t *line = text + at;
        if ((at == 0 || line[-1] == '\n') && line[0] == 'O' && line[BYTES - 1] == '\n') repeat_head(line + 1);
    }
}

/* The first O row of a table with one and the same head in all places that are filled, counted from 1, or 0. */
static uint64_t same_heads_at(int32_t *table) {
    for (int32_t place = 0; place < table[ALTERNATIVES]; place++) {
        if (same_heads(alternatives_of(table) + ALTERNATIVE * place)) return (uint64_t)place + 1;
    }
    return 0;
}

/* The refusal of an accepted text for its O lines, if the fault asks for one. */
static bantameasel_book refusal_of(const bantameasel_book *answer, int32_t *table, size_t text_length) {
    bantameasel_book refused = {0};
    uint64_t rules = answer->plain + answer->alternatives + answer->exceptions, same = same_heads_at(table);
    if (fault("Z does not count O lines") && answer->alternatives > 0)
        refused.refusal = 11, refused.line = 2 + rules + answer->preferences + answer->conditionals;
    if (fault("a text has at most 9,888 bytes") && text_length > 9888) refused.refusal = 1;
    if (fault("the 40th O line is one too many") && answer->alternatives == 40)
        refused.refusal = 22, refused.line = 1 + answer->plain + 40;
    if (fault("two different heads are asked for") && same != 0)
        refused.refusal = 23, refused.line = 1 + answer->plain + same;
    return refused;
}

void change_read(bantameasel_book *answer, int32_t *table, size_t text_length) {
    if (answer->refusal != 0) return;
    bantameasel_book refused = refusal_of(answer, table, text_length);
    size_t own = of_alternatives(table), all = from_alternatives(table);
    if (fault("O rows stand behind the X rows")) rotate(alternatives_of(table), own, own + of_exceptions(table));
    if (fault("O rows stand last")) rotate(alternatives_of(table), own, all);
    if (fault("O lines are counted before Q lines")) exchange_counts(table);
    if (fault("Read answers no count of O lines")) answer->alternatives = 0;
    if (fault("O lines are counted among the R lines")) answer->plain += answer->alternatives;
    if (refused.refusal != 0) *answer = refused;
}
