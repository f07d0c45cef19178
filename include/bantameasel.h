/*
 * bantameasel: a rule engine for museum catalogues, for programs in C.
 *
 * A museum writes a book: statements numbered from 1 to n, plain rules, some of them with alternatives, exceptions, and
 * preferences among the exceptions, some of them under a condition. The engine lists the book's resolutions in a fixed
 * order; the one that a curator picks becomes the catalogue entry. docs/BOOKS.md teaches the text of a book and what a
 * resolution is. Link with -lbantameasel.
 *
 * WHAT HOLDS FOR EVERY FUNCTION
 *
 * - It answers on every input and always returns. Judge, First, After and the pages search, which may take long on a
 *   hard book; no bound on their time is promised.
 * - A slice is a pointer and the number of elements behind it. The elements must be there, aligned for their type, and
 *   no lent buffer may overlap another slice of the same call. A length of 0 is allowed: then nothing is read or
 *   written through the pointer, and it may be NULL.
 * - Slices that are const are only read. A buffer that you lend is written only as the function says. If the call is
 *   refused, every lent buffer is as it was before the call.
 * - Nothing is kept from one call to the next: the same arguments give the same answer. So any number of threads may
 *   call at once, with the same text too, as long as no two of them lend the same buffer and none writes what another
 *   call reads.
 * - It takes no memory but the stack: less than BANTAMEASEL_MOST_STACK bytes (256 KB). A thread that is given less may
 *   crash. Read, Write and Line take less than 32 KB, Set, Go and Drop less than 8 KB.
 * - Each answer has a refusal and a line. Look at refusal first. If it is 0, the call was not refused, and line is 0.
 *   Otherwise it is one of the numbers below, line is the line of the book's text that it is about, counted from 1, or
 *   0 where it is about no single line, and all other fields are 0.
 *
 * WHAT STAYS FROM VERSION TO VERSION, AND WHAT DOES NOT
 *
 * - Refusals and verdicts keep their numbers. Later versions have more refusals, some for faults that had another one's
 *   number before: take any number but 0 for a refusal.
 * - Structs keep their size, and every field its place. A reserved field is 0 in this version; do not use it, since a
 *   later version may give it a name and a meaning.
 * - Limits may grow, but not BANTAMEASEL_MOST_STACK. A program that was built with an earlier header then gets 15 where
 *   a buffer of the earlier length is too short. The number table may get more numbers before its rows and in them: keep
 *   a book as its text, not as its table. A pair that was noted for a book goes on to the same resolutions.
 * - BANTAMEASEL_VERSION is the version of this header, bantameasel_version() that of the library linked. Where the two
 *   are not the same, the limits below may not be those of the library.
 * - From 2.0 to 2.1: a book may have 16 exceptions (12 in 2.0), so the longest text, table and line are longer. The
 *   lines of a book of at most 12 exceptions are as they were.
 * - From 2.1 to 2.2: a misspelt field was 5 in every case; now it is 5, 17 or 18, with the same line and in the same
 *   place of the order. Every book that was accepted is accepted as before. A program that treats 5 specially wants to
 *   treat 17 and 18 so too.
 * - From 2.2 to 2.3: Set, Go and Drop are new, with the refusals 24 to 26, which only these three give. Every other
 *   function answers as before.
 * - From 2.3 to 2.4: a book may have up to 32 Q lines after its P lines, preferences under a condition. Read's answer
 *   has their number in the place of the first reserved one, and 19 is the refusal of one too many. Every text that 2.3
 *   accepts is accepted, and Judge, First, After, Line and the pages answer for it as before, byte for byte; verdict 5
 *   now asks for an undominated view, which makes no difference where there are no Q lines. A text that 2.3 refuses may
 *   be accepted, or refused otherwise, if it has a Q line (3 before), 8,545 to 9,888 bytes (1 before), or 249 to 280 in
 *   its Z line (6 before).
 *   A program that was built with the header of 2.3 keeps working as it is, but for number tables. These have one number
 *   more in front, in every book, also in one without Q lines. What a program that uses them must change:
 *   Rows   that Read writes begin at table[5] and no longer at table[4], where the number of Q lines now stands.
 *   Tables for Write need that number too, mostly 0, behind the one of P lines. None of 2.3 is taken for another book's:
 *          Write refuses each of them, by 8 or by 16.
 *   Room   for Read's table: text_length / 4 + 1 numbers in 2.4. text_length / 4 are one too few for a book that has no
 *          line between B and Z, or a single R or X line; BANTAMEASEL_MOST_TABLE was 2,333 in 2.4 and 2,012 before. Read
 *          refuses what is too short by 15.
 * - From 2.4 to 2.5: a book may have up to 40 O lines after its R lines, plain rules with alternatives. Read's answer
 *   has their number in the place of the next reserved one; 22 is the refusal of one too many, and 23 that of one with
 *   fewer than two heads. Every text that 2.4 accepts is accepted, and Judge, First, After, Line and the pages answer
 *   for it as before, byte for byte. A text that 2.4 refuses may be accepted, or refused otherwise, if it has an O line
 *   (3 before), 9,889 to 11,728 bytes (1 before), or 281 to 320 in its Z line (6 before). The numbers 20 and 21 are kept
 *   for later versions, and this one never gives them: the refusals up to BANTAMEASEL_LAST_REFUSAL have a gap there.
 *   A program that was built with the header of 2.4 keeps working as it is, but for number tables. These have one number
 *   more in front, in every book, also in one without O lines. What a program that uses them must change:
 *   Rows   that Read writes begin at table[6] and no longer at table[5], where the number of O lines now stands. The O
 *          rows stand behind the R rows, as in the text, though their number stands last.
 *   Tables for Write need that number too, mostly 0, behind the one of Q lines. None of 2.4 is taken for another book's:
 *          Write refuses each of them, by 8 or by 16.
 *   Room   for Read's table: text_length / 4 + 2 numbers. text_length / 4 + 1 are one too few for a book that has no
 *          line between B and Z, or a single one; BANTAMEASEL_MOST_TABLE is 2,774. Read refuses what is too short by 15.
 *
 * THE REFUSALS, IN THE ORDER IN WHICH THEY ARE LOOKED FOR; the first that applies is given. The names are below.
 *
 * Of a text:
 *    1  the text is longer than 11,728 bytes (line 0)
 *    2  the text is empty, or its last byte is not a line feed (line 0)
 *    then line by line, from the top:
 *    3  the line's letter is not allowed here; an empty line; a line after Z; a missing Z, at the line after the last
 *    4  the line has the wrong length for its letter
 *    then the line's fields from left to right, each tested in the order 5, 17, 18, 7, 6; a field is misspelt if one of
 *    the first three applies, and otherwise a whole number, right-justified after spaces in 4 columns:
 *    5  the field has a byte other than space, digit or minus, or a minus directly after a digit or not directly before
 *       one; neighbours are looked for inside the field only
 *   17  the field is blank, or a space follows a digit
 *   18  the number has a leading zero, also one behind a minus, or is "-0"
 *    7  the edition is not 1
 *    6  the number is outside its range
 *    then the line as a whole:
 *    8  this is one R, X or P line more than a book may have (200, 16, 32)
 *   22  this is one O line more than a book may have (40), in the place of 8
 *   19  this is one Q line more than a book may have (32), in the place of 8
 *    9  an exception has the head 0
 *   23  an O line has fewer than two heads that are not 0, in the place of 9
 *   10  a preference, in a P or a Q line, names an exception that the book does not have
 *   11  the number in the Z line is not the number of R, O, X, P and Q lines
 * Of a pair, once the text is accepted (line 0):
 *   12  taken has a bit for an exception that the book does not have
 *   13  held or denied has a bit for a statement above n
 *   14  held and denied share a bit
 * Of a number table:
 *   16  it has fewer than 6 numbers (line 0)
 *    6  n is not 1 to 48 (line 1)
 *    8  a count is negative or above its limit, that of Q or O lines too: 19 and 22 are never given for a table (line 1)
 *   16  its length is not the one that the counts ask for (line 0)
 *    then row by row, with the line that the row would have in the text (the first row: 2):
 *    6  a number is outside its range
 *    9  an exception has the head 0
 *   23  an O row has fewer than two heads that are not 0
 *   10  a preference, in a P or a Q row, names an exception that the book does not have
 * Of a lent buffer, after everything else:
 *   15  it is shorter than the answer (line 0)
 * Of a store and a name, in Set, Go and Drop, which take no text (line 0):
 *   24  the bytes are not a store, or are not 1,024; what a store is stands below
 *   25  the name is misspelt; for Go and Drop also: the store does not have it
 *   26  Set: the store has 32 names, and this is none of them
 * 20 and 21 are not given by this version.
 *
 * A PAIR is three numbers: the exceptions taken, the statements held, the statements denied. Number i is worth 2^(i-1)
 * in each, so exception 1 and statement 1 have the lowest bit. A pair is lawful for a book if none of 12 to 14 applies.
 * Where a function takes or writes many of them, they are a slice of numbers, three for each pair. An array of the
 * struct bantameasel_pair is such a slice: see bantameasel_first_pairs and bantameasel_pairs_after.
 *
 * THE ORDER OF PAIRS, in which resolutions are listed: fewer exceptions taken come first; then the smaller number
 * taken; then the lowest-numbered statement that differs decides: absent before held before denied.
 *
 * A LISTING, from its start to its end, one resolution at a time:
 *
 *     bantameasel_answer a = bantameasel_first(text, length);
 *     while (a.refusal == 0 && a.found) {
 *         show(a.pair);
 *         a = bantameasel_after(text, length, a.pair);
 *     }
 *
 * A LISTING IN PAGES, here of at most 100 resolutions each; it shows the same pairs, and takes less time:
 *
 *     bantameasel_pair pairs[100];
 *     bantameasel_page page = bantameasel_first_pairs(text, length, pairs, 100);
 *     while (page.refusal == 0 && page.count > 0) {
 *         for (uint64_t k = 0; k < page.count; k++) show(pairs[k]);
 *         if (page.count < 100) break;
 *         page = bantameasel_pairs_after(text, length, pairs[99], pairs, 100);
 *     }
 *
 * A STORE OF STOPPING POINTS keeps up to 32 pairs under names, so that a curator can name a resolution and return to
 * it next week. It is 1,024 bytes, the same on every machine; your program keeps them as they are, mostly in a file.
 *
 * - An entry is 32 bytes: a name of 8, then taken, held and denied, 8 bytes each, the least byte first.
 * - A name is one or more of the letters A to Z and the digits 0 to 9, then spaces, 8 bytes in all. A space in front or
 *   inside, a small letter, a 0 byte or any other makes it misspelt.
 * - The entries stand one after another from the first byte on, in strictly ascending order of their names, compared
 *   byte by byte: a space comes before the digits, and these before the letters, so A before A0 before AA before B.
 * - Every byte behind the last entry is 0. The empty store is 1,024 bytes of 0.
 *
 * Other bytes are not a store (24). Two stores with the same names and pairs are the same bytes. A store knows nothing
 * of the book: keep one for each book. Set tests nothing in the pair: any three numbers are kept, and Go gives them
 * back. Only going on, which is After with Go's pair, looks at a book. A pair that is not lawful for it is refused
 * there by 12 to 14, as where the name was set for another book. From a pair that is lawful but no resolution, as where
 * the book was changed, After goes on to the first resolution later than it. The pair 0, 0, 0 is a pair like any other;
 * the point before the first resolution cannot be named.
 *
 * To name a resolution, here in an empty store; if one was kept before, read its bytes into store first, or its names
 * are lost:
 *
 *     uint8_t store[BANTAMEASEL_STORE] = {0};
 *     bantameasel_done done = bantameasel_set(store, BANTAMEASEL_STORE, bantameasel_name_of("LINING"), pair);
 *     if (done.refusal == 0) keep(store);
 *     else tell(bantameasel_refusal_words(done.refusal));
 *
 * To keep it in a file, write a new file beside the old one, flush it to the disk, and rename it to the old one's name:
 * whatever fails in between, the file is then the old store or the new one, and whole.
 *
 * To go on from it next week, with the store that was kept:
 *
 *     bantameasel_answer a = bantameasel_go(store, BANTAMEASEL_STORE, bantameasel_name_of("LINING"));
 *     if (a.refusal == 0) a = bantameasel_after(text, length, a.pair);
 *     while (a.refusal == 0 && a.found) {
 *         show(a.pair);
 *         a = bantameasel_after(text, length, a.pair);
 *     }
 *     if (a.refusal != 0) tell(bantameasel_refusal_words(a.refusal));
 */
#ifndef BANTAMEASEL_H
#define BANTAMEASEL_H

#include <stddef.h>
#include <stdint.h>

#ifdef __cplusplus
extern "C" {
#endif

/* The version of this header: 100 for each whole version and 1 for each part of one, so that 205 is version 2.5. */
#define BANTAMEASEL_VERSION 205

/* The limits of a book, and what follows from them. */
#define BANTAMEASEL_MOST_STATEMENTS 48   /* statements, n */
#define BANTAMEASEL_MOST_PLAIN 200       /* R lines */
#define BANTAMEASEL_MOST_EXCEPTIONS 16   /* X lines */
#define BANTAMEASEL_MOST_PREFERENCES 32  /* P lines */
#define BANTAMEASEL_MOST_CONDITIONALS 32 /* Q lines */
#define BANTAMEASEL_MOST_ALTERNATIVES 40 /* O lines */
#define BANTAMEASEL_MOST_TEXT 11728      /* bytes of a text */
#define BANTAMEASEL_MOST_TABLE 2774      /* numbers of a number table */
#define BANTAMEASEL_MOST_LINE 118        /* bytes of an A line, its line feed included */

/* A store of stopping points. */
#define BANTAMEASEL_STORE 1024    /* its bytes, always as many */
#define BANTAMEASEL_MOST_NAMES 32 /* its names, and so its entries */

/* Bytes of stack: more than any call takes. */
#define BANTAMEASEL_MOST_STACK 262144

/* The refusals. What each one means stands above, and bantameasel_refusal_words says it in a few words. */
enum {
    BANTAMEASEL_NOT_REFUSED = 0,
    BANTAMEASEL_REFUSED_TEXT_TOO_LONG = 1,
    BANTAMEASEL_REFUSED_TEXT_END = 2,
    BANTAMEASEL_REFUSED_LINE_PLACE = 3,
    BANTAMEASEL_REFUSED_LINE_LENGTH = 4,
    BANTAMEASEL_REFUSED_FIELD_CHARACTER = 5,
    BANTAMEASEL_REFUSED_FIELD_MISSPELT = 5, /* the older name of the same number, for programs written before 2.2 */
    BANTAMEASEL_REFUSED_OUT_OF_RANGE = 6,
    BANTAMEASEL_REFUSED_EDITION = 7,
    BANTAMEASEL_REFUSED_TOO_MANY = 8,
    BANTAMEASEL_REFUSED_NO_HEAD = 9,
    BANTAMEASEL_REFUSED_PREFERENCE = 10,
    BANTAMEASEL_REFUSED_TOTAL = 11,
    BANTAMEASEL_REFUSED_PAIR_TAKEN = 12,
    BANTAMEASEL_REFUSED_PAIR_STATEMENT = 13,
    BANTAMEASEL_REFUSED_PAIR_BOTH = 14,
    BANTAMEASEL_REFUSED_BUFFER_SHORT = 15,
    BANTAMEASEL_REFUSED_TABLE_LENGTH = 16,
    BANTAMEASEL_REFUSED_FIELD_GAP = 17,
    BANTAMEASEL_REFUSED_FIELD_ZERO = 18,
    BANTAMEASEL_REFUSED_TOO_MANY_CONDITIONALS = 19,
    BANTAMEASEL_REFUSED_TOO_MANY_ALTERNATIVES = 22,
    BANTAMEASEL_REFUSED_TOO_FEW_HEADS = 23,
    BANTAMEASEL_REFUSED_STORE = 24,
    BANTAMEASEL_REFUSED_NAME = 25,
    BANTAMEASEL_REFUSED_STORE_FULL = 26,
    BANTAMEASEL_LAST_REFUSAL = 26 /* the highest number of this version, which does not give 20 and 21 */
};

/* The verdicts of Judge. What each one means stands at bantameasel_verdict. */
enum {
    BANTAMEASEL_VERDICT_RESOLUTION = 0,
    BANTAMEASEL_VERDICT_NO_ANSWER_SET = 1,
    BANTAMEASEL_VERDICT_OUTRANKED = 2,
    BANTAMEASEL_VERDICT_NOT_SATISFIED = 3,
    BANTAMEASEL_VERDICT_DOMINATED = 4,
    BANTAMEASEL_VERDICT_NOT_LEAST = 5,
    BANTAMEASEL_LAST_VERDICT = 5 /* the highest number of this version */
};

/* A pair: number i is worth 2^(i-1) in each. */
typedef struct {
    uint64_t taken;  /* exceptions taken */
    uint64_t held;   /* statements held */
    uint64_t denied; /* statements denied */
} bantameasel_pair;

/* What Read answers: the refusal and its line, or what stands before the table's rows. */
typedef struct {
    uint32_t refusal;      /* 0: not refused */
    uint32_t edition;      /* 1 */
    uint64_t line;         /* the refusal's line, or 0 */
    uint64_t statements;   /* n, 1 to 48 */
    uint64_t plain;        /* how many R lines, 0 to 200 */
    uint64_t exceptions;   /* how many X lines, 0 to 16 */
    uint64_t preferences;  /* how many P lines, 0 to 32 */
    uint64_t conditionals; /* how many Q lines, 0 to 32; before 2.4 reserved, and 0 */
    uint64_t alternatives; /* how many O lines, 0 to 40; before 2.5 reserved, and 0 */
    uint64_t reserved[2];  /* each 0 */
} bantameasel_book;

/* What Write and Line answer: the refusal and its line, or how many bytes were written. */
typedef struct {
    uint32_t refusal; /* 0: not refused */
    uint64_t line;    /* the refusal's line, or 0 */
    uint64_t length;  /* the bytes written, from the buffer's start on */
} bantameasel_length;

/*
 * What Judge answers: the refusal and its line, or the verdict, the first that applies:
 *    1  the statements are no answer set of the plain rules with the exceptions taken
 *    2  an exception taken outranks another one taken, or itself
 *    3  an exception is taken whose body is not satisfied
 *    4  dominated: some view takes an exception that outranks one taken here
 *    5  some undominated view takes a proper subset of the exceptions taken here
 *    0  none of these: the pair is a resolution
 * The statements are an answer set if no constraint's body is satisfied and if they are closed, while no part of them
 * is: with the rules that the pair's statements bar left out, each body that is satisfied has its head among them, and
 * of an O line at least one of its heads. Without O lines that is the least closed set.
 * A view is a pair to which none of 1 to 3 applies. A P line gives the step from its exception a to its exception b in
 * every pair, a Q line in those whose statements satisfy its body. One exception outranks another if steps lead from it
 * to the other, one or more: for 2 the steps given in the pair itself; for 4 only those given in both, the view and the
 * pair, by the same lines or by others.
 */
typedef struct {
    uint32_t refusal; /* 0: not refused */
    uint32_t verdict; /* 0 to 5 */
    uint64_t line;    /* the refusal's line, or 0 */
} bantameasel_verdict;

/*
 * What First, After and Go answer: the refusal and its line, or a resolution, or the End. Go answers the pair of a
 * name, which need not be a resolution of any book, and never the End.
 */
typedef struct {
    uint32_t refusal;      /* 0: not refused */
    uint32_t found;        /* 1: the pair below is the answer; 0: End, and the pair below is 0, 0, 0 */
    uint64_t line;         /* the refusal's line, or 0 */
    bantameasel_pair pair; /* the resolution, or the pair of the name */
} bantameasel_answer;

/* What a page answers: the refusal and its line, or how many pairs were written. */
typedef struct {
    uint32_t refusal; /* 0: not refused */
    uint64_t line;    /* the refusal's line, or 0 */
    uint64_t count;   /* the pairs written, three numbers each */
} bantameasel_page;

/* A name: letters A to Z and digits 0 to 9, at least one, then spaces. bantameasel_name_of makes it from a string. */
typedef struct {
    uint8_t bytes[8];
} bantameasel_name;

/* What Set and Drop answer: the refusal, or that it was done. */
typedef struct {
    uint32_t refusal; /* 0: done */
    uint64_t line;    /* 0: no refusal of Set and Drop is about a line */
} bantameasel_done;

/* The version of the library, by the rule of BANTAMEASEL_VERSION. */
uint32_t bantameasel_version(void);

/*
 * Read: turns the text of a book into its number table.
 *
 * Takes    the text, and a lent table of table_length numbers.
 * Answers  the edition, n and the numbers of R, X, P, Q and O lines.
 * Writes   the number table, from the table's start on: n, the counts of R, X, P, Q and O, in this order; then, in line
 *          order, 9 numbers for each R and X (head, 4 needed, 4 barred), 11 for each O (3 heads, 4 needed, 4 barred), 2
 *          for each P (a, b) and 10 for each Q (a, b, 4 needed, 4 barred). So the O rows stand between the R and the X
 *          rows. There are 6 + 9 * (plain + exceptions) + 11 * alternatives + 2 * preferences + 10 * conditionals
 *          numbers in all. The rest of the table is unchanged. text_length / 4 + 2 numbers are always room enough, and
 *          no book needs more than BANTAMEASEL_MOST_TABLE.
 * Refuses  1 to 11, 17 to 19, 22 and 23 for the text; then 15 if the table is too short. The table is then unchanged.
 */
bantameasel_book bantameasel_read(const uint8_t *text, size_t text_length, int32_t *table, size_t table_length);

/*
 * Write: turns a number table into the text of its book. It is the inverse of Read.
 *
 * Takes    the number table, table_length being exactly its length, and a lent buffer of text_length bytes.
 * Answers  the length of the text.
 * Writes   the text, from the buffer's start on. The bytes past it are unchanged, and no 0 byte is put behind it.
 *          5 * table_length bytes are always room enough, and no book needs more than BANTAMEASEL_MOST_TEXT.
 * Refuses  16, 6, 8, 9, 23 or 10 for the table, in the order given above; then 15 if the buffer is too short. The
 *          buffer is then unchanged.
 */
bantameasel_length bantameasel_write(const int32_t *table, size_t table_length, uint8_t *text, size_t text_length);

/*
 * Judge: the verdict on a pair.
 *
 * Takes    the text of a book and a pair.
 * Answers  the verdict, 0 to 5.
 * Writes   nothing; no buffer is lent.
 * Refuses  1 to 11, 17 to 19, 22 and 23 for the text; then 12 to 14 for the pair.
 */
bantameasel_verdict bantameasel_judge(const uint8_t *text, size_t text_length, bantameasel_pair pair);

/*
 * First: the first resolution.
 *
 * Takes    the text of a book.
 * Answers  found 1 and the first resolution in the order of pairs, or found 0 (End) if the book has none.
 * Writes   nothing; no buffer is lent.
 * Refuses  1 to 11, 17 to 19, 22 and 23 for the text.
 */
bantameasel_answer bantameasel_first(const uint8_t *text, size_t text_length);

/*
 * After: the first resolution that is later than a pair.
 *
 * Takes    the text of a book and a lawful pair, which need not be a resolution. To go on with a listing, pass the
 *          resolution that was answered last; it may have been written down in an earlier run. Do not begin a listing
 *          with the pair 0, 0, 0: it may be a resolution itself, and After would pass over it. Begin with First.
 * Answers  found 1 and the first resolution later than the pair, or found 0 (End) if there is none.
 * Writes   nothing; no buffer is lent.
 * Refuses  1 to 11, 17 to 19, 22 and 23 for the text; then 12 to 14 for the pair.
 */
bantameasel_answer bantameasel_after(const uint8_t *text, size_t text_length, bantameasel_pair pair);

/*
 * Line: the A line of a pair, as `ways` prints it.
 *
 * Takes    the text of a book, a lawful pair, which need not be a resolution, and a lent buffer of line_length bytes.
 * Answers  the length of the line: 54 + n in a book of at most 12 exceptions, 70 + n in one of 13 to 16. It is the same
 *          for all pairs of a book, however many exceptions they take.
 * Writes   the line, from the buffer's start on: the letter A; the count of exceptions taken in 4 columns; 12 fields,
 *          or 16 in a book of 13 to 16 exceptions, of 4 columns with the exceptions taken, ascending, then 0; for each
 *          statement '.' (absent), '+' (held) or '-' (denied); a line feed. The bytes past it are unchanged, and no 0
 *          byte is put behind it. BANTAMEASEL_MOST_LINE bytes are room enough for every book.
 * Refuses  1 to 11, 17 to 19, 22 and 23 for the text; then 12 to 14 for the pair; then 15 if the buffer is too short.
 *          The buffer is then unchanged.
 */
bantameasel_length bantameasel_line(const uint8_t *text, size_t text_length, bantameasel_pair pair, uint8_t *line, size_t line_length);

/*
 * First page: the first resolutions, as many as there is room for. The pairs are those that First and then After, again
 * and again, would answer; they are found in one search instead of one for each.
 *
 * Takes    the text of a book, and a lent slice of pairs_length numbers: room for pairs_length / 3 pairs, rounded down.
 * Answers  how many pairs were written. Fewer than there is room for means that the listing has ended.
 * Writes   the pairs in order, from the slice's start on, three numbers each: taken, held, denied. The rest of the
 *          slice is unchanged. With room for no pair nothing is written and count is 0.
 * Refuses  1 to 11, 17 to 19, 22 and 23 for the text. The slice is then unchanged. A short slice is never refused.
 */
bantameasel_page bantameasel_first_page(const uint8_t *text, size_t text_length, uint64_t *pairs, size_t pairs_length);

/*
 * Page after: the first resolutions that are later than a pair, as many as there is room for.
 *
 * Takes    the text of a book, a lawful pair, which need not be a resolution, and a lent slice as for the first page.
 * Answers  how many pairs were written. Fewer than there is room for means that the listing has ended.
 * Writes   the pairs in order, from the slice's start on, three numbers each: taken, held, denied. The rest of the
 *          slice is unchanged. With room for no pair nothing is written and count is 0.
 * Refuses  1 to 11, 17 to 19, 22 and 23 for the text; then 12 to 14 for the pair. The slice is then unchanged. A short
 *          slice is never refused.
 */
bantameasel_page bantameasel_page_after(const uint8_t *text, size_t text_length, bantameasel_pair pair, uint64_t *pairs, size_t pairs_length);

/*
 * The two pages into an array of room pairs. An array of structs of three numbers is a slice of numbers: the three
 * tests say that the struct has nothing between its numbers and nothing after them.
 */
typedef char bantameasel_held_is_second[offsetof(bantameasel_pair, held) == sizeof(uint64_t) ? 1 : -1];
typedef char bantameasel_denied_is_third[offsetof(bantameasel_pair, denied) == 2 * sizeof(uint64_t) ? 1 : -1];
typedef char bantameasel_pair_is_three[sizeof(bantameasel_pair) == 3 * sizeof(uint64_t) ? 1 : -1];

static inline bantameasel_page bantameasel_first_pairs(const uint8_t *text, size_t text_length, bantameasel_pair *pairs,
                                                       size_t room)
{
    return bantameasel_first_page(text, text_length, (uint64_t *)pairs, 3 * room);
}

static inline bantameasel_page bantameasel_pairs_after(const uint8_t *text, size_t text_length, bantameasel_pair pair,
                                                       bantameasel_pair *pairs, size_t room)
{
    return bantameasel_page_after(text, text_length, pair, (uint64_t *)pairs, 3 * room);
}

/*
 * Set: puts a pair under a name, in the place of the pair that the name had before, if it had one.
 *
 * Takes    a lent store, store_length being BANTAMEASEL_STORE, a name, and a pair, which may be any three numbers.
 * Answers  that it was done.
 * Writes   the store: the entries that it had, and this one, as is laid down above for all of its bytes.
 * Refuses  24 for the store; then 25 if the name is misspelt; then 26 if the store has BANTAMEASEL_MOST_NAMES names and
 *          this is none of them. The store is then unchanged.
 */
bantameasel_done bantameasel_set(uint8_t *store, size_t store_length, bantameasel_name name, bantameasel_pair pair);

/*
 * Go: the pair that was last set under a name.
 *
 * Takes    a store, store_length being BANTAMEASEL_STORE, and a name.
 * Answers  found 1 and the pair. To go on from it in a book, pass it to After or to the page after.
 * Writes   nothing; the store is only read.
 * Refuses  24 for the store; then 25 if the name is misspelt or the store does not have it.
 */
bantameasel_answer bantameasel_go(const uint8_t *store, size_t store_length, bantameasel_name name);

/*
 * Drop: takes a name and its pair out of the store.
 *
 * Takes    a lent store, store_length being BANTAMEASEL_STORE, and a name.
 * Answers  that it was done.
 * Writes   the store: the entries that it had, without this one, as is laid down above for all of its bytes; those
 *          behind it move up, and the last 32 bytes become 0.
 * Refuses  24 for the store; then 25 if the name is misspelt or the store does not have it. The store is then
 *          unchanged.
 */
bantameasel_done bantameasel_drop(uint8_t *store, size_t store_length, bantameasel_name name);

/*
 * The name of a word of 1 to 8 characters, filled up with spaces. Where the word is empty or longer than 8, the name
 * begins with a space: it is misspelt, and each of the three functions refuses it by 25. Nothing else is tested or
 * changed here; a small letter stays one, and is refused so too.
 */
static inline bantameasel_name bantameasel_name_of(const char *word)
{
    bantameasel_name name = {{' ', ' ', ' ', ' ', ' ', ' ', ' ', ' '}};
    size_t length = 0;
    while (length < sizeof name.bytes && word[length] != '\0') {
        name.bytes[length] = (uint8_t)word[length];
        length++;
    }
    if (word[length] != '\0') {
        name.bytes[0] = ' ';
    }
    return name;
}

/* What a refusal means, in words for the people who write books. */
static inline const char *bantameasel_refusal_words(uint32_t refusal)
{
    switch (refusal) {
    case BANTAMEASEL_NOT_REFUSED: return "nothing was refused";
    case BANTAMEASEL_REFUSED_TEXT_TOO_LONG: return "the text is longer than a book may be";
    case BANTAMEASEL_REFUSED_TEXT_END: return "the text is empty, or its last line does not end with a line feed";
    case BANTAMEASEL_REFUSED_LINE_PLACE: return "a line with this letter may not stand here, or a line is missing";
    case BANTAMEASEL_REFUSED_LINE_LENGTH: return "the line is too long or too short for its letter";
    case BANTAMEASEL_REFUSED_FIELD_CHARACTER:
        return "a field has a character other than space, digit and minus, or a minus in the wrong place";
    case BANTAMEASEL_REFUSED_OUT_OF_RANGE: return "a number is outside its range";
    case BANTAMEASEL_REFUSED_EDITION: return "the edition is one that this version does not know";
    case BANTAMEASEL_REFUSED_TOO_MANY: return "there are more lines of this kind than a book may have";
    case BANTAMEASEL_REFUSED_NO_HEAD: return "an exception needs a head, and this one has 0";
    case BANTAMEASEL_REFUSED_PREFERENCE: return "the preference names an exception that the book does not have";
    case BANTAMEASEL_REFUSED_TOTAL: return "the number in the Z line is not the number of lines above it, B left out";
    case BANTAMEASEL_REFUSED_PAIR_TAKEN: return "the pair takes an exception that the book does not have";
    case BANTAMEASEL_REFUSED_PAIR_STATEMENT: return "the pair holds or denies a statement that the book does not have";
    case BANTAMEASEL_REFUSED_PAIR_BOTH: return "the pair both holds and denies a statement";
    case BANTAMEASEL_REFUSED_BUFFER_SHORT: return "the room lent for the answer is too short";
    case BANTAMEASEL_REFUSED_TABLE_LENGTH: return "the number table has another length than its counts ask for";
    case BANTAMEASEL_REFUSED_FIELD_GAP: return "a field is blank, or a space stands after a digit";
    case BANTAMEASEL_REFUSED_FIELD_ZERO: return "a number has a leading zero, or is -0";
    case BANTAMEASEL_REFUSED_TOO_MANY_CONDITIONALS: return "there are more Q lines than a book may have";
    case BANTAMEASEL_REFUSED_TOO_MANY_ALTERNATIVES: return "there are more O lines than a book may have";
    case BANTAMEASEL_REFUSED_TOO_FEW_HEADS: return "an O line needs two heads or three, and this one has fewer";
    case BANTAMEASEL_REFUSED_STORE: return "this is not a store of named resolutions, or it is damaged";
    case BANTAMEASEL_REFUSED_NAME: return "the name is misspelt, or there is no such name";
    case BANTAMEASEL_REFUSED_STORE_FULL: return "the store is full, and this name would be one more than it may have";
    default: return "a refusal that this version does not know";
    }
}

/* What a verdict means, in words for the people who read listings. */
static inline const char *bantameasel_verdict_words(uint32_t verdict)
{
    switch (verdict) {
    case BANTAMEASEL_VERDICT_RESOLUTION: return "this is a resolution";
    case BANTAMEASEL_VERDICT_NO_ANSWER_SET: return "the statements are no answer set of the plain rules with the exceptions taken";
    case BANTAMEASEL_VERDICT_OUTRANKED: return "an exception is taken together with one that outranks it, or outranks itself";
    case BANTAMEASEL_VERDICT_NOT_SATISFIED: return "an exception is taken whose conditions are not met";
    case BANTAMEASEL_VERDICT_DOMINATED:
        return "some view takes an exception that outranks one taken here, by preferences that hold in both";
    case BANTAMEASEL_VERDICT_NOT_LEAST: return "some undominated view takes only a part of the exceptions taken here";
    default: return "a verdict that this version does not know";
    }
}

#ifdef __cplusplus
}
#endif

#endif
