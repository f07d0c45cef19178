/*
 * What is wrong with a book that was refused, in words. The engine says which refusal it is and in which line; which
 * column is at fault, and the likely cause, are found here.
 */
#include "faults.h"

#include <ctype.h>
#include <inttypes.h>
#include <stdarg.h>
#include <stdio.h>
#include <string.h>

#include "lines.h"

enum {
    SHOWN_MOST = 72 /* columns that are shown of a line */
};

/* ---- words ---- */

/* Says a sentence about the fault. */
static void say(const char *words, ...)
{
    va_list numbers;
    va_start(numbers, words);
    fputs("    ", stderr);
    vfprintf(stderr, words, numbers);
    fputs("\n", stderr);
    va_end(numbers);
}

/* Shows the front of a line; a byte that is no character of ASCII is shown as '?', so that columns stay columns. */
static void show(line l)
{
    fputs("    ", stderr);
    for (size_t c = 0; c < l.length && c < SHOWN_MOST; c++) {
        fputc(l.bytes[c] >= ' ' && l.bytes[c] <= '~' ? l.bytes[c] : '?', stderr);
    }
    fputs(l.length > SHOWN_MOST ? " ..\n" : "\n", stderr);
}

/* Shows a line, and points at the columns from first on, as many as width. */
static void point_at(line l, size_t first, size_t width)
{
    show(l);
    if (first + width > SHOWN_MOST) {
        return;
    }
    fprintf(stderr, "    %*s", (int)(first - 1), "");
    for (size_t c = 0; c < width; c++) {
        fputc('^', stderr);
    }
    fputs("\n", stderr);
}

/* What a byte that no field may hold is, and what to do about it; NULL for a byte that a field may hold. */
static const char *odd_words(uint8_t byte)
{
    switch (byte) {
    case '\t': return "this is a tab; write spaces";
    case '\r': return "this is a carriage return; save the file with line feeds only";
    case ',':
    case ';': return "this is a separator, as in a file of separated values; a field has 4 columns and nothing between";
    case '"': return "this is a quotation mark, as in a file of separated values; write none";
    case '+': return "this is a plus sign; write none";
    case '.': return "this is a point; write a whole number";
    case '(':
    case ')': return "this is a bracket, as accounts have them for negative numbers; write a minus";
    case 'O':
    case 'o': return "this is the letter O; write 0";
    default: break;
    }
    if (byte >= 128) {
        return "this is no ASCII character: a typographic minus, a hard space or another; write it anew";
    }
    return byte == ' ' || byte == '-' || isdigit(byte) ? NULL : "this is no space, minus or digit";
}

/* The first of the line's columns behind its letter with a byte that no field may hold; 0 if there is none. */
static size_t odd_column(line l)
{
    for (size_t c = 2; c <= l.length; c++) {
        if (odd_words(l.bytes[c - 1]) != NULL) {
            return c;
        }
    }
    return 0;
}

/* ---- 1 and 2: the text as a whole ---- */

/* Says so if the file begins as no ASCII text does. */
static bool not_ascii(const uint8_t *text, size_t length)
{
    if (length >= 3 && memcmp(text, "\xEF\xBB\xBF", 3) == 0) {
        say("The file begins with a byte order mark. Save it without one, as plain text or ASCII.");
        return true;
    }
    if (length >= 2 && (memcmp(text, "\xFF\xFE", 2) == 0 || memcmp(text, "\xFE\xFF", 2) == 0
                        || (text[0] == 0) != (text[1] == 0))) {
        say("The file is saved as UTF-16, two bytes for a character. Save it as plain text or ASCII.");
        return true;
    }
    if (length >= 4 && memcmp(text, "PK\x03\x04", 4) == 0) {
        say("The file is a spreadsheet's or a word processor's own. Save it as plain text.");
        return true;
    }
    return false;
}

/* The last line of a text. */
static line last_line(const uint8_t *text, size_t length)
{
    const uint8_t *rest = text;
    line l = { text, 0, true };
    while (rest < text + length) {
        l = next_line(&rest, text + length);
    }
    return l;
}

static void explain_end(line l)
{
    if (l.none) {
        say("The file is empty.");
        return;
    }
    point_at(l, l.length + 1, 1);
    if (l.bytes[l.length - 1] == '\r') {
        say("The file ends with a carriage return. Save it with line feeds only.");
    } else {
        say("Near column %zu of the last line: the file ends here without a line feed.", l.length + 1);
    }
}

static void explain_text(const uint8_t *text, size_t length)
{
    if (length > BANTAMEASEL_MOST_TEXT) {
        say("A book has at most %d bytes. Keep one book to a file.", BANTAMEASEL_MOST_TEXT);
    } else {
        explain_end(last_line(text, length));
    }
}

/* ---- 3: the letter ---- */

/* Why no line begins with this byte. */
static const char *letter_words(uint8_t byte)
{
    if (kind_of((uint8_t)toupper(byte)) >= 0) {
        return "the letter is small; write a capital";
    }
    switch (byte) {
    case ' ': return "a space stands before the letter";
    case '\r': return "the line is empty but for a carriage return";
    case '"': return "a quotation mark, as in a file of separated values; write none";
    case '0': return "this is the digit 0; a rule with alternatives begins with the letter O";
    default: return "no line begins so; the letters are B, R, O, X, P, Q and Z, and there are no comments";
    }
}

/* Why a line of this kind may not stand here. */
static void explain_order(const place *p)
{
    if (p->last < 0) {
        say("Near column 1: the first line has to be a B line.");
    } else if (p->last == LAST) {
        say("Near column 1: nothing may follow the Z line. Keep one book to a file.");
    } else {
        say("Near column 1: %c may not follow %c. The order is B, R, O, X, P, Q, Z.", kinds[p->of].letter,
            kinds[p->last].letter);
    }
}

static void explain_letter(const place *p)
{
    if (p->at.none) {
        say("The file ends after line %" PRIu64 " without a Z line.", p->number - 1);
        return;
    }
    if (p->at.length == 0) {
        say("Line %" PRIu64 " is empty. Take it out.", p->number);
        return;
    }
    point_at(p->at, 1, 1);
    if (p->of < 0) {
        say("Near column 1: %s.", letter_words(p->at.bytes[0]));
    } else {
        explain_order(p);
    }
}

/* ---- 4: the length ---- */

/* The first of the fields that the line has whole which is misspelt; -1 if there is none. */
static int misspelt(const place *p)
{
    int number;
    for (int k = 0; k < kinds[p->of].fields && column_of(k + 1) <= p->at.length + 1; k++) {
        if (!read_columns(p->at, k, &number)) {
            return k;
        }
    }
    return -1;
}

/* The first column of the spaces at the end of the line. */
static size_t last_spaces(line l)
{
    size_t c = l.length;
    while (c > 0 && l.bytes[c - 1] == ' ') {
        c--;
    }
    return c + 1;
}

/* A rule or a preference of one kind that has the length of another is likely to be of the other. */
static void explain_other_kind(const place *p)
{
    static const struct {
        int of, other;
        const char *words;
    } likely[] = {
        { PREFERENCE, CONDITIONAL, "A preference under a condition is a Q line." },
        { CONDITIONAL, PREFERENCE, "A preference without a condition is a P line." },
        { PLAIN, ALTERNATIVES, "A rule with alternatives, three fields for heads, is an O line." },
        { ALTERNATIVES, PLAIN, "An O line has three fields for heads; a rule with one head is an R line." },
    };
    for (size_t k = 0; k < sizeof likely / sizeof likely[0]; k++) {
        if (p->of == likely[k].of && p->at.length + 1 == column_of(kinds[likely[k].other].fields)) {
            say("%s", likely[k].words);
        }
    }
}

static void explain_length(const place *p)
{
    line l = p->at;
    int k = misspelt(p);
    size_t past = column_of(kinds[p->of].fields), odd = odd_column(l);
    if (odd != 0) {
        point_at(l, odd, 1);
        say("Near column %zu: %s.", odd, odd_words(l.bytes[odd - 1]));
    } else if (l.length >= past && last_spaces(l) <= past) {
        point_at(l, past, l.length + 1 - past);
        say("Near column %zu: spaces stand after the last field.", past);
    } else if (k >= 0) {
        point_at(l, column_of(k), COLUMNS);
        say("Near column %zu: from here on the numbers do not end in the last of their 4 columns.", column_of(k));
    } else {
        show(l);
    }
    say("The line has %zu columns; a line with the letter %c has %zu.", l.length, kinds[p->of].letter, past - 1);
    explain_other_kind(p);
}

/* ---- 5, 17, 18: a field's spelling ---- */

static const char digits[] = "0123456789";

/* Which columns of a field are at fault, from one on, counted from 0, and how many; and why. */
typedef struct {
    size_t from;
    size_t width;
    const char *why;
} flaw;

/* Why a minus at this place of a field of spaces, minus signs and digits is misplaced; NULL if it is not: if it is
   directly before a digit, and not directly after one. */
static const char *minus_words(const char *columns, size_t at)
{
    size_t digit = strcspn(columns, digits);
    bool before = isdigit((uint8_t)columns[at + 1]), after = at > 0 && isdigit((uint8_t)columns[at - 1]);
    if (before && !after) {
        return NULL;
    }
    if (digit == COLUMNS) {
        return "this is a minus with no digit in its field; an unused field is 0";
    }
    if (strchr(columns, '-') != strrchr(columns, '-')) {
        return "this is one minus too many";
    }
    if (before) {
        return "this is a minus between digits; a field holds one number";
    }
    return digit < at ? "this is a minus behind its number; write it directly in front"
                      : "this is a minus apart from its number; write it directly in front";
}

/* 5: the first byte that no field may hold; where there is none, the first minus that is misplaced. */
static flaw stray_flaw(const char *columns)
{
    flaw f = { 0, 1, NULL };
    for (; f.from < COLUMNS; f.from++) {
        f.why = odd_words((uint8_t)columns[f.from]);
        if (f.why != NULL) {
            return f;
        }
    }
    for (f.from = 0; f.from < COLUMNS; f.from++) {
        f.why = columns[f.from] == '-' ? minus_words(columns, f.from) : NULL;
        if (f.why != NULL) {
            return f;
        }
    }
    return (flaw){ 0, COLUMNS, "this is not one whole number" };
}

/* 17: the whole field where it is blank, or has nothing but spaces behind its number; otherwise the gap. */
static flaw gap_flaw(const char *columns)
{
    size_t digit = strcspn(columns, digits);
    size_t gap = digit + strspn(columns + digit, digits);
    size_t behind = gap + strspn(columns + gap, " ");
    if (digit == COLUMNS) {
        return (flaw){ 0, COLUMNS, "the field is blank; write 0" };
    }
    if (behind == COLUMNS) {
        return (flaw){ 0, COLUMNS, "the number does not stand at the right of its field" };
    }
    return (flaw){ gap, behind - gap, "a space stands after a digit, and more follows; a field holds one number" };
}

/* 18: the minus of "-0", or the zeros that lead; a zero in the last column does not. */
static flaw zero_flaw(const char *columns)
{
    size_t digit = strcspn(columns, digits), last = COLUMNS - 1;
    size_t zeros = strspn(columns + digit, "0"), others = last - digit;
    if (digit == last) {
        return (flaw){ digit - 1, 1, "zero has no sign; write 0" };
    }
    return (flaw){ digit, zeros < others ? zeros : others,
                   "the number has a leading zero; fill up with spaces, at the left" };
}

/* What is wrong with the columns of a field that was refused so. */
static flaw flaw_of(const char *columns, uint32_t refusal)
{
    switch (refusal) {
    case BANTAMEASEL_REFUSED_FIELD_GAP: return gap_flaw(columns);
    case BANTAMEASEL_REFUSED_FIELD_ZERO: return zero_flaw(columns);
    default: return stray_flaw(columns);
    }
}

static void explain_spelling(const place *p, uint32_t refusal)
{
    int k = misspelt(p);
    if (k < 0) {
        show(p->at);
        return;
    }
    char columns[COLUMNS + 1] = { 0 };
    memcpy(columns, p->at.bytes + column_of(k) - 1, COLUMNS);
    flaw f = flaw_of(columns, refusal);
    size_t first = column_of(k) + f.from;
    point_at(p->at, first, f.width);
    say("Near column %zu, in %s: %s.", first, field_words(p->of, k), f.why);
}

/* ---- 6, 7, 9, 10, 11: a field's number ---- */

/* The range in which the number of field k would be right, as far as this refusal looks. */
static range right_range(const place *p, uint32_t refusal, int k)
{
    range r = range_of(p->of, k, p->statements);
    if (refusal == BANTAMEASEL_REFUSED_PREFERENCE && names_exception(p->of, k)) {
        r.high = (int)p->above[EXCEPTION];
    } else if (refusal == BANTAMEASEL_REFUSED_TOTAL) {
        r.low = r.high = (int)(p->number - 2); /* the lines between B and Z */
    }
    return r;
}

/* The first field of the line whose number is not right; -1 if there is none. */
static int wrong_field(const place *p, uint32_t refusal, int *number)
{
    for (int k = 0; k < kinds[p->of].fields; k++) {
        range r = right_range(p, refusal, k);
        bool read = read_columns(p->at, k, number);
        if (read && (refusal == BANTAMEASEL_REFUSED_NO_HEAD ? *number == 0 : *number < r.low || *number > r.high)) {
            return k;
        }
    }
    return -1;
}

/* Says of a field's number what would be right. */
static void explain_right(const place *p, uint32_t refusal, int k, int number)
{
    const char *field = field_words(p->of, k);
    size_t at = column_of(k);
    range r = right_range(p, refusal, k);
    switch (refusal) {
    case BANTAMEASEL_REFUSED_EDITION:
        say("Near column %zu: %s is %d; it has to be %d.", at, field, number, r.high);
        break;
    case BANTAMEASEL_REFUSED_NO_HEAD:
        say("Near column %zu: %s is 0. An exception needs a head; a constraint is an R line.", at, field);
        break;
    case BANTAMEASEL_REFUSED_PREFERENCE:
        say("Near column %zu: %s is %d; the number of X lines is %d.", at, field, number, r.high);
        break;
    case BANTAMEASEL_REFUSED_TOTAL:
        say("Near column %zu: %s is given as %d; there are %d.", at, field, number, r.high);
        break;
    default: say("Near column %zu: %s is %d; it has to be from %d to %d.", at, field, number, r.low, r.high);
    }
    if (refusal == BANTAMEASEL_REFUSED_OUT_OF_RANGE && r.low < 0) {
        say("The number of statements in line 1 is %d.", p->statements);
    }
}

static void explain_number(const place *p, uint32_t refusal)
{
    int number = 0, k = wrong_field(p, refusal, &number);
    if (k < 0) {
        show(p->at);
        return;
    }
    point_at(p->at, column_of(k), COLUMNS);
    explain_right(p, refusal, k, number);
}

/* ---- 23: too few heads ---- */

/* Points at the three fields for heads, and says how many are filled and what the line could be instead. */
static void explain_heads(const place *p)
{
    int filled = 0, number;
    for (int k = 0; k < HEADS; k++) {
        filled += read_columns(p->at, k, &number) && number != 0;
    }
    point_at(p->at, column_of(0), HEADS * COLUMNS);
    if (filled == 0) {
        say("Near column %zu: all three heads are 0; an O line needs two. A constraint is an R line.", column_of(0));
    } else {
        say("Near column %zu: only one of the three heads is not 0; an O line needs two. A rule with one head is an R "
            "line.", column_of(0));
    }
}

/* ---- 8, 19, 22: too many lines ---- */

static void explain_many(const place *p)
{
    show(p->at);
    say("This is %c line %" PRIu64 "; a book has at most %" PRIu64 ".", kinds[p->of].letter, p->above[p->of] + 1,
        kinds[p->of].most);
}

/* ---- all ---- */

/* The fault of a line of some kind. */
static void explain_line(const place *p, uint32_t refusal)
{
    switch (refusal) {
    case BANTAMEASEL_REFUSED_LINE_LENGTH: explain_length(p); break;
    case BANTAMEASEL_REFUSED_FIELD_CHARACTER:
    case BANTAMEASEL_REFUSED_FIELD_GAP:
    case BANTAMEASEL_REFUSED_FIELD_ZERO: explain_spelling(p, refusal); break;
    case BANTAMEASEL_REFUSED_TOO_MANY:
    case BANTAMEASEL_REFUSED_TOO_MANY_CONDITIONALS:
    case BANTAMEASEL_REFUSED_TOO_MANY_ALTERNATIVES: explain_many(p); break;
    case BANTAMEASEL_REFUSED_TOO_FEW_HEADS: explain_heads(p); break;
    default: explain_number(p, refusal);
    }
}

void show_fault(const uint8_t *text, size_t length, uint32_t refusal, uint64_t number)
{
    if (number <= 1 && not_ascii(text, length)) {
        return;
    }
    if (number == 0) {
        explain_text(text, length);
        return;
    }
    place p = find(text, length, number);
    if (refusal == BANTAMEASEL_REFUSED_LINE_PLACE || p.of < 0) {
        explain_letter(&p);
    } else {
        explain_line(&p, refusal);
    }
}
