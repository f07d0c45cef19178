/* The engine's library with a deliberate fault, to show that the test program can fail: what it does with books. The
 * functions here stand in the place of the true ones, and give their answers but for the fault that is asked for. */
#include <ctype.h>

#include "alternatives.h"
#include "true.h"

enum { MOST_TEXT = BANTAMEASEL_MOST_TEXT, MOST_TABLE = BANTAMEASEL_MOST_TABLE };
enum { MOST_LINE = BANTAMEASEL_MOST_LINE, SIXTEEN = BANTAMEASEL_MOST_EXCEPTIONS };

/* The limits before there were sixteen exceptions. */
enum { TWELVE = 12, SHORTER_TEXT = 8392 };

/* ---- meaning: the book that a faulty reader of rules would see */

static void change_row(int32_t *row) {
    if (fault("barred -i is read as needed +i") && row[5] < 0 && row[1] == 0) row[1] = -row[5], row[5] = 0;
    if (fault("the fourth needed entry is lost")) row[4] = 0;
    if (fault("the fourth barred entry is lost")) row[8] = 0;
    if (fault("statement 48 is never held") && row[0] == 48) row[1] = 48;
    if (fault("constraints are not looked at") && row[0] == 0) row[1] = row[5] = 1;
}

/* Whether a preference is lost, given its two exceptions, its place and how many there are. */
static int loses(const int32_t *order, int32_t place, int32_t count) {
    if (fault("the last preference is lost") && place == count - 1) return 1;
    return fault("preferences past the twelfth exception are lost") && (order[0] > TWELVE || order[1] > TWELVE);
}

/* Takes the preferences that are lost out of a table. */
static void lose_preferences(int32_t *table) {
    int32_t *orders = orders_of(table), *end = table + length_of(table), left = 0;
    for (int32_t place = 0; place < table[PREFERENCES]; place++) {
        if (loses(orders + 2 * place, place, table[PREFERENCES])) continue;
        memmove(orders + 2 * left++, orders + 2 * place, 2 * sizeof orders[0]);
    }
    int32_t *behind = orders + 2 * table[PREFERENCES];
    memmove(orders + 2 * left, behind, (size_t)(end - behind) * sizeof orders[0]);
    table[PREFERENCES] = left;
}

/* Changes the table of a book. */
static void change_table(int32_t *table) {
    int32_t *orders = orders_of(table), *last = table + FRONT + ROW * 199;
    int ranked = table[PREFERENCES] > 0;
    for (int32_t number = 0; number < table[PLAIN]; number++) change_row(table + FRONT + ROW * number);
    for (int32_t number = 0; number < table[EXCEPTIONS]; number++) change_row(exceptions_of(table) + ROW * number);
    if (fault("the rule past the 199th is lost") && table[PLAIN] == 200) last[0] = last[1] = 1;
    if (fault("the twelfth exception is never taken") && table[EXCEPTIONS] == 12 && ranked) orders[0] = orders[1] = 12;
    if (fault("the sixteenth exception is never taken") && table[EXCEPTIONS] == 16 && ranked)
        orders[0] = orders[1] = 16;
    lose_preferences(table);
    change_conditionals(table);
    change_alternatives(table);
}

typedef struct {
    uint8_t bytes[MOST_TEXT];
    size_t length;
} text_of_book;

/* The text that is searched in the place of the one that was handed in. */
static const uint8_t *changed(const uint8_t *text, size_t *length) {
    static text_of_book other;
    int32_t table[MOST_TABLE];
    bantameasel_book read = true_read(text, *length, table, MOST_TABLE);
    if (getenv("FAULT") == NULL || read.refusal != 0) return text;
    change_table(table);
    other.length = true_write(table, length_of(table), other.bytes, MOST_TEXT).length;
    *length = other.length;
    return other.bytes;
}

/* ---- refusals */

enum { FIELD = 4 };

/* The first field of a line, counted from 1. */
static const uint8_t *fields_of(const uint8_t *text, uint64_t line) {
    while (--line > 0) text = (const uint8_t *)strchr((const char *)text, '\n') + 1;
    return text + 1;
}

/* The highest number in the fields of a line of two fields. */
static int highest_of_two(const uint8_t *text, uint64_t line) {
    char fields[9] = {0};
    memcpy(fields, fields_of(text, line), 8);
    int second = atoi(fields + 4);
    fields[4] = 0;
    return atoi(fields) > second ? atoi(fields) : second;
}

/* ---- misspelt fields */

#define DIGITS "0123456789"

/* Whether the number is a refusal of a misspelt field. */
static int of_spelling(uint32_t number) { return number == 5 || number == 17 || number == 18; }

/* The refusal by which a field is misspelt, or 0: that of a small book with the field in the edition's place. */
static uint32_t misspelt(const uint8_t *field) {
    uint8_t small[] = "B   1   1\nZ   0\n";
    memcpy(small + 1, field, FIELD);
    uint32_t number = true_read(small, sizeof small - 1, NULL, 0).refusal;
    return of_spelling(number) ? number : 0;
}

/* The first misspelt field of a line, or its line feed if there is none. */
static const uint8_t *misspelt_field(const uint8_t *text, uint64_t line) {
    const uint8_t *field = fields_of(text, line);
    while (*field != '\n' && misspelt(field) == 0) field += FIELD;
    return field;
}

/* Whether one of these bytes stands directly before one of those. */
static int has(const char *field, const char *these, const char *those) {
    for (; field[0] != 0 && field[1] != 0; field++) {
        if (strchr(these, field[0]) != NULL && strchr(those, field[1]) != NULL) return 1;
    }
    return 0;
}

/* The refusal that is given to a misspelt field in the place of the true one. */
static uint32_t other_misspelling(uint32_t number, const char *field) {
    int gap = has(field, DIGITS, " "), zeros = field[strspn(field, " -")] == '0' && has(field, "0", DIGITS);
    if (fault("every misspelt field is 5")) return 5;
    if (fault("17 comes before 5") && number == 5 && gap) return 17;
    if (fault("18 comes before 17") && number == 17 && zeros) return 18;
    if (fault("a minus before a space is 17") && number == 5 && has(field, "-", " ")) return 17;
    if (fault("a leading zero behind a minus is 5") && number == 18 && zeros && has(field, "-", "0")) return 5;
    if (fault("a blank field is 5") && strcmp(field, "    ") == 0) return 5;
    return number;
}

/* Changes the refusal of a line with a misspelt field, whether this is the first fault of the line or a later one. */
static void change_spelling(uint32_t *number, uint64_t *line, const uint8_t *text) {
    char field[FIELD + 1] = {0};
    if (*number != 6 && !of_spelling(*number)) return;
    const uint8_t *at = misspelt_field(text, *line);
    if (*at == '\n') return;
    if (fault("a line's spelling comes before its ranges")) *number = misspelt(at);
    if (!of_spelling(*number)) return;
    *number = other_misspelling(*number, memcpy(field, at, FIELD));
    if (fault("7 comes before 17") && *number == 17 && at == text + 1) *number = 7;
    if (fault("17 has line 0") && *number == 17) *line = 0;
}

/* Whether the fault is that a field is taken for another: these faults say what is seen. */
static int seen_otherwise(void) {
    const char *asked = getenv("FAULT");
    return asked != NULL && strstr(asked, " is seen ") != NULL;
}

/* A field as it is seen: one that is wrongly taken becomes 0, and one that is wrongly refused gets an x. */
static void see_field(uint8_t *field) {
    if (fault("-0 is seen as 0") && memcmp(field, "  -0", FIELD) == 0) field[2] = ' ';
    if (fault("a minus in the last column is seen before the next field's digit") &&
        memcmp(field, "   -", FIELD) == 0 && isdigit(field[FIELD]))
        field[3] = '0';
    if (fault("a minus in the first column is seen after the digit of the field before") && field[0] == '-' &&
        isdigit(field[-1]))
        field[0] = 'x';
}

/* The text as it is seen, field by field. */
static const uint8_t *seen(const uint8_t *text, size_t length) {
    static uint8_t other[MOST_TEXT + 1];
    if (!seen_otherwise() || length > MOST_TEXT) return text;
    memcpy(other, text, length);
    other[length] = '\n';
    for (uint8_t *line = other, *end; line < other + length; line = end + 1) {
        end = memchr(line, '\n', (size_t)(other + length + 1 - line));
        for (uint8_t *field = line + 1; field + FIELD <= end; field += FIELD) see_field(field);
    }
    if (fault("a P line behind a Q line is seen before it"))
        put_first(other, length, (line_kind){'P', 10}, (line_kind){'Q', 42});
    see_alternatives(other, length);
    return other;
}

/* The refusal that is given in the place of the true one. */
static void change_refusal(uint32_t *number, uint64_t *line, const uint8_t *text, size_t length) {
    change_spelling(number, line, text);
    if (fault("lines are counted from 0") && *line > 0) --*line;
    if (fault("2 comes before 1") && *number == 1 && text[length - 1] != '\n') *number = 2;
    if (fault("3 comes after 4") && *number == 3 && *line == 1 && length < 10) *number = 4;
    if (fault("7 comes after 6") && *number == 7 && memcmp(text + 5, "  49", 4) == 0) *number = 6;
    if (fault("a preference of a missing exception past the twelfth is out of range") && *number == 10 &&
        highest_of_two(text, *line) > TWELVE)
        *number = 6;
    change_refusal_of_conditionals(number, *line, text);
    change_refusal_of_alternatives(number, *line, text);
}

/* What is refused by the limits of twelve exceptions. */
static void keep_to_twelve(bantameasel_book *answer, size_t length) {
    bantameasel_book refused = {0};
    if (answer->refusal != 0) return;
    if (fault("the thirteenth exception is one too many") && answer->exceptions > TWELVE)
        refused.refusal = BANTAMEASEL_REFUSED_TOO_MANY,
        refused.line = 2 + answer->plain + answer->alternatives + TWELVE;
    if (fault("a text has at most 8,392 bytes") && length > SHORTER_TEXT)
        refused.refusal = BANTAMEASEL_REFUSED_TEXT_TOO_LONG;
    if (refused.refusal != 0) *answer = refused;
}

static void change_pair_refusal(uint32_t *number, bantameasel_pair pair) {
    if (fault("13 comes before 12") && *number == 12 && ((pair.held | pair.denied) >> 48) != 0) *number = 13;
    if (fault("14 is not looked for") && *number == 14) *number = 0;
    if (fault("12 applies past the twelfth exception") && *number == 0 && pair.taken >> TWELVE != 0) *number = 12;
    if (fault("12 applies only past the sixteenth exception") && *number == 12 && pair.taken >> SIXTEEN == 0)
        *number = 0;
}

/* ---- the operations */

bantameasel_book bantameasel_read(const uint8_t *text, size_t text_length, int32_t *table, size_t table_length) {
    if (fault("a text may be one byte longer") && text_length == MOST_TEXT + 1) text_length--;
    if (fault("a text is written") && text_length > 9) ((uint8_t *)text)[9] ^= 1;
    text = seen(text, text_length);
    bantameasel_book answer = true_read(text, text_length, table, table_length);
    size_t numbers = answer.refusal == 0 ? length_of(table) : 0;
    if (fault("Read writes before a refusal") && answer.refusal != 0 && table_length > 0) table[0] ^= 1;
    if (fault("Read writes past the table") && answer.refusal == 0 && table_length > numbers) table[numbers] ^= 1;
    if (fault("Read writes past the lent slice") && answer.refusal == 15) table[table_length] ^= 1;
    if (fault("Read miscounts") && answer.plain > 0) answer.plain--;
    if (fault("a count stands beside a refusal") && answer.refusal != 0) answer.plain = 1;
    if (fault("a reserved field is not 0")) answer.reserved[1] = 1;
    if (fault("an accepted book has edition 0")) answer.edition = 0;
    if (fault("Read answers no count of Q lines")) answer.conditionals = 0;
    if (fault("Q rows stand before P rows") && answer.refusal == 0) exchange_orders(table);
    change_refusal(&answer.refusal, &answer.line, text, text_length);
    keep_to_twelve(&answer, text_length);
    refuse_conditionals(&answer, text_length);
    change_read(&answer, table, text_length);
    return answer;
}

bantameasel_length bantameasel_write(const int32_t *table, size_t table_length, uint8_t *text, size_t text_length) {
    bantameasel_length answer = write_faulty_table(table, table_length, text, text_length);
    if (fault("Write writes before a refusal") && answer.refusal != 0 && text_length > 0) text[0] ^= 1;
    if (fault("Write writes past the text") && answer.refusal == 0 && text_length > answer.length)
        text[answer.length] = 0;
    if (fault("Write leaves a byte out") && answer.refusal == 0) text[answer.length - 1] ^= 1;
    if (fault("rows of tables are counted from 1") && answer.line > 1) answer.line--;
    if (fault("16 comes before 8") && answer.refusal == 8) answer.refusal = 16, answer.line = 0;
    return answer;
}

bantameasel_verdict bantameasel_judge(const uint8_t *text, size_t length, bantameasel_pair pair) {
    const uint8_t *searched = changed(text, &length);
    bantameasel_verdict answer = judge_otherwise(searched, length, pair);
    if (fault("every pair has verdict 1") && answer.refusal == 0) answer.verdict = 1;
    if (fault("verdict 2 is given after 3") && answer.verdict == 2) answer.verdict = 3;
    if (fault("verdict 4 is never given") && answer.verdict == 4) answer.verdict = 0;
    if (fault("verdict 5 is never given") && answer.verdict == 5) answer.verdict = 0;
    change_pair_refusal(&answer.refusal, pair);
    if (answer.refusal != 0) answer.verdict = 0;
    return answer;
}

/* ---- the order of exception sets: resolutions are looked for in another order of pairs */

/* Whether the fault is one of the order: these name sets. */
static int order_at_fault(void) {
    const char *asked = getenv("FAULT");
    return asked != NULL && strstr(asked, "sets ") != NULL;
}

static int value_at(bantameasel_pair pair, int place) {
    return (int)(pair.held >> place & 1) + 2 * (int)(pair.denied >> place & 1);
}

/* The set that stands in a set's place. */
static uint64_t exchanged(uint64_t taken) {
    if (fault("the sets of exceptions {1} and {2} are exchanged") && (taken == 1 || taken == 2)) return 3 - taken;
    return taken;
}

/* Below 0 if one pair comes before the other in the faulty order, above 0 if it comes after it. */
static int other_order(bantameasel_pair one, bantameasel_pair other) {
    int sizes = __builtin_popcountll(one.taken) - __builtin_popcountll(other.taken);
    if (fault("larger sets of exceptions come first")) sizes = -sizes;
    if (fault("sets of exceptions stand by number alone")) sizes = 0;
    if (fault("sets with an exception past the twelfth come last") && (one.taken ^ other.taken) >> TWELVE != 0)
        sizes = one.taken < other.taken ? -1 : 1;
    if (sizes != 0) return sizes;
    if (one.taken != other.taken) return exchanged(one.taken) < exchanged(other.taken) ? -1 : 1;
    uint64_t apart = (one.held ^ other.held) | (one.denied ^ other.denied);
    if (apart == 0) return 0;
    int place = __builtin_ctzll(apart);
    return value_at(one, place) - value_at(other, place);
}

/* The first resolution after a pair (NULL: of all) in the faulty order; of long listings the true one. */
static bantameasel_answer in_other_order(const uint8_t *text, size_t length, const bantameasel_pair *from,
                                         bantameasel_answer true_answer) {
    if (!order_at_fault() || true_answer.refusal != 0) return true_answer;
    bantameasel_answer best = {0}, next = true_first(text, length);
    for (int step = 0; next.found != 0; step++, next = true_after(text, length, next.pair)) {
        if (step == 300) return true_answer;
        if (from != NULL && other_order(next.pair, *from) <= 0) continue;
        if (best.found == 0 || other_order(next.pair, best.pair) < 0) best = next;
    }
    return best;
}

bantameasel_answer bantameasel_first(const uint8_t *text, size_t length) {
    const uint8_t *searched = changed(text, &length);
    bantameasel_answer answer = in_other_order(searched, length, NULL, next_otherwise(searched, length, NULL));
    if (fault("First answers End")) answer = (bantameasel_answer){0};
    if (fault("First finds a pair where there is none") && answer.refusal == 0) answer.found = 1;
    change_refusal(&answer.refusal, &answer.line, text, length);
    return answer;
}

bantameasel_answer bantameasel_after(const uint8_t *text, size_t length, bantameasel_pair pair) {
    static int moved;
    const uint8_t *searched = changed(text, &length);
    bantameasel_answer answer = in_other_order(searched, length, &pair, next_otherwise(searched, length, &pair));
    int from_name = memcmp(&pair, &gone_to, sizeof pair) == 0;
    int over = fault("After passes one over") || (fault("a refused call moves the point") && moved) ||
               (fault("After passes one over from the point that Go gave") && from_name);
    if (over && answer.found) answer = true_after(searched, length, answer.pair);
    moved = answer.refusal != 0;
    if (fault("After repeats its point") && answer.refusal == 0 &&
        true_judge(searched, length, pair).verdict == 0)
        answer.found = 1, answer.pair = pair;
    change_pair_refusal(&answer.refusal, pair);
    return answer;
}

/* ---- the width of Line: 12 fields for exceptions in some books, 16 in others */

enum { FIRST_FIELD = 5, NARROW = 12, WIDE = 16 };

/* How many fields a line has that is at fault: in a book of so many exceptions, of a pair that takes so many. */
static int faulty_fields(uint64_t exceptions, int taken) {
    if (fault("a book of thirteen has twelve fields") && exceptions == NARROW + 1 && taken <= NARROW) return NARROW;
    if (fault("a book of twelve has sixteen fields") && exceptions == NARROW) return WIDE;
    if (fault("every line has sixteen fields")) return WIDE;
    if (fault("the fields go by the exceptions taken")) return taken <= NARROW ? NARROW : WIDE;
    return exceptions <= NARROW ? NARROW : WIDE;
}

/* The byte at which a line's marks begin. */
static size_t marks_at(int fields) { return (size_t)(FIRST_FIELD + FIELD * fields); }

/* Line, with as many fields for exceptions as the fault asks for. */
static bantameasel_length fielded_line(const uint8_t *text, size_t length, bantameasel_pair pair, uint8_t *line,
                                       size_t line_length) {
    int32_t table[MOST_TABLE];
    uint8_t whole[MOST_LINE + FIELD * (WIDE - NARROW)];
    bantameasel_book book = true_read(text, length, table, MOST_TABLE);
    bantameasel_length answer = true_line(text, length, pair, whole, MOST_LINE);
    int fields = faulty_fields(book.exceptions, __builtin_popcountll(pair.taken));
    int true_fields = book.exceptions <= NARROW ? NARROW : WIDE;
    if (answer.refusal != 0 || fields == true_fields) return true_line(text, length, pair, line, line_length);
    memmove(whole + marks_at(fields), whole + marks_at(true_fields), answer.length - marks_at(true_fields));
    for (int place = true_fields; place < fields; place++) memcpy(whole + marks_at(place), "   0", FIELD);
    answer.length += marks_at(fields) - marks_at(true_fields);
    if (line_length < answer.length) return (bantameasel_length){.refusal = BANTAMEASEL_REFUSED_BUFFER_SHORT};
    memcpy(line, whole, answer.length);
    return answer;
}

bantameasel_length bantameasel_line(const uint8_t *text, size_t length, bantameasel_pair pair, uint8_t *line,
                                    size_t line_length) {
    bantameasel_pair swapped = {pair.taken, pair.denied, pair.held};
    bantameasel_length answer =
        fielded_line(text, length, fault("Line's signs are swapped") ? swapped : pair, line, line_length);
    if (fault("Line writes before a refusal") && answer.refusal != 0 && line_length > 0) line[0] = 'A' ^ line[0];
    if (fault("Line writes past the line") && answer.refusal == 0 && line_length > answer.length)
        line[answer.length] ^= 1;
    if (fault("Line's count is invented") && answer.refusal == 0) line[4] = '7';
    return answer;
}

/* A page that is at fault, once the true one stands in the slice. */
static void change_page(bantameasel_page *page, uint64_t *pairs, size_t length) {
    if (fault("a page is one short") && page->count > 0 && page->count == length / 3) page->count--;
    if (fault("a page stops at 300") && page->count > 300) page->count = 300;
    if (fault("a page writes past its pairs") && page->refusal == 0 && 3 * page->count < length)
        pairs[3 * page->count]++;
    if (fault("a page has two pairs in the wrong order") && page->count > 1) {
        uint64_t first[3];
        memcpy(first, pairs, sizeof first);
        memmove(pairs, pairs + 3, sizeof first);
        memcpy(pairs + 3, first, sizeof first);
    }
}

bantameasel_page bantameasel_first_page(const uint8_t *text, size_t length, uint64_t *pairs, size_t pairs_length) {
    const uint8_t *searched = changed(text, &length);
    bantameasel_page answer = page_otherwise(searched, length, NULL, pairs, pairs_length);
    change_page(&answer, pairs, pairs_length);
    return answer;
}

bantameasel_page bantameasel_page_after(const uint8_t *text, size_t length, bantameasel_pair pair, uint64_t *pairs,
                                        size_t pairs_length) {
    const uint8_t *searched = changed(text, &length);
    bantameasel_page answer = page_otherwise(searched, length, &pair, pairs, pairs_length);
    change_page(&answer, pairs, pairs_length);
    change_pair_refusal(&answer.refusal, pair);
    return answer;
}
