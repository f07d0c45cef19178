/*
 * collection: shows a book's resolutions one or a page at a time, and keeps them under names, as a museum's collection
 * program would.
 * It uses the functions of bantameasel.h and nothing else of the engine.
 *
 *   collection.c   the commands
 *   books.c        a book in memory; every call of the engine
 *   faults.c       what is wrong with a book that was refused, in words
 *   points.c       how far a listing was shown, from one run to the next
 *   names.c        resolutions under names, from one run to the next
 */
#include <inttypes.h>
#include <stdbool.h>
#include <stdint.h>
#include <stdio.h>
#include <stdlib.h>
#include <string.h>

#include "books.h"
#include "names.h"
#include "points.h"

enum {
    PAGE_USUAL = 10,     /* resolutions shown where no count is given */
    PAGE_MOST = 9999     /* the most that may be asked for at once */
};

/* The files that are kept from one run to the next: the point of the listing, and the store of names. */
typedef struct {
    const char *point;
    const char *store;
} files;

/* Writes out what was printed so far; a full disk or a closed pipe is a failure. */
static bool printed(void)
{
    if (fflush(stdout) != 0 || ferror(stdout)) {
        return fail("standard output", "it could not be written");
    }
    return true;
}

/* Reads a word of the command line that is a number from 1 to most. */
static bool read_count(const char *word, uint64_t most, uint64_t *number)
{
    const char *at = word;
    if (!read_number(&at, number) || *at != '\0' || *number < 1 || *number > most) {
        fprintf(stderr, "collection: '%s' is not a number from 1 to %" PRIu64 ".\n", word, most);
        return false;
    }
    return true;
}

/* Prints the A line of a pair. */
static bool print_line(const book *b, pair p)
{
    uint8_t *line = malloc(line_length(b));
    if (line == NULL) {
        return fail(b->name, "there is no memory for a line");
    }
    bool good = write_line(b, p, line);
    if (good) {
        fwrite(line, 1, line_length(b), stdout);
    }
    free(line);
    return good;
}

/* ---- next ---- */

/* Prints the page's resolutions with their places in the listing. */
static bool print_page(const book *b, const uint64_t *pairs, uint64_t shown, uint64_t place)
{
    for (uint64_t k = 0; k < shown; k++) {
        printf("%6" PRIu64 "  ", place + k);
        if (!print_line(b, pair_at(pairs, k))) {
            return false;
        }
    }
    return true;
}

/* Shows a page that has been fetched, and writes down the last resolution shown. One pair more than asked for says that
   more remain. */
static bool show_page(const book *b, const char *point_name, point from, const uint64_t *pairs, uint64_t found,
                      uint64_t asked)
{
    uint64_t shown = found < asked ? found : asked;
    uint64_t place = 1;
    if (shown == 0) {
        puts(from.begun ? "End of the listing: no resolution is later than the point." : "The book has no resolution.");
        return printed();
    }
    if (from.begun && !place_of(b, pair_at(pairs, 0), &place)) {
        return false;
    }
    if (!print_page(b, pairs, shown, place)) {
        return false;
    }
    puts(found > asked ? "More remain." : "End of the listing.");
    point last = { true, pair_at(pairs, shown - 1) };
    return printed() && write_point(point_name, last);
}

/* collection BOOK next [COUNT]: a single resolution is found by steps, more by a page. */
static bool next_page(const book *b, const char *point_name, uint64_t asked)
{
    point from;
    uint64_t found = 0;
    size_t room = (size_t)asked + 1;
    if (!read_point(point_name, &from)) {
        return false;
    }
    uint64_t *pairs = malloc(3 * room * sizeof *pairs);
    if (pairs == NULL) {
        return fail(b->name, "there is no memory for a page");
    }
    bool good = asked == 1 ? fetch_by_steps(b, from, pairs, room, &found) : fetch(b, from, pairs, room, &found);
    if (good) {
        good = show_page(b, point_name, from, pairs, found, asked);
    } else if (from.begun) {
        fail(point_name, "the point was written down for another book; from-start begins anew");
    }
    free(pairs);
    return good;
}

/* ---- from-start ---- */

/* collection BOOK from-start: a file that holds no point is left as it is. */
static bool from_start(const char *point_name)
{
    point at;
    if (!read_point(point_name, &at)) {
        return false;
    }
    at.begun = false;
    if (!write_point(point_name, at)) {
        return false;
    }
    puts("The next page begins with the first resolution.");
    return printed();
}

/* ---- pick ---- */

/* Prints the members of a set, of the numbers 1 to most, on one line. */
static void print_set(const char *title, uint64_t set, uint64_t most)
{
    bool empty = true;
    printf("%s:", title);
    for (uint32_t i = 1; i <= most; i++) {
        if (set >> (i - 1) & 1) {
            printf(" %" PRIu32, i);
            empty = false;
        }
    }
    puts(empty ? " none" : "");
}

/* collection BOOK pick N: the catalogue entry. */
static bool pick(const book *b, uint64_t place)
{
    pair p;
    if (!resolution_at(b, place, &p)) {
        return false;
    }
    printf("Resolution %" PRIu64 " of %s\n", place, b->name);
    if (!print_line(b, p)) {
        return false;
    }
    print_set("Exceptions taken", p.taken, b->exceptions);
    print_set("Statements held", p.held, b->statements);
    print_set("Statements denied", p.denied, b->statements);
    print_set("Statements left open", ~(p.held | p.denied), b->statements);
    return printed();
}

/* ---- judge ---- */

/* Prints a verdict and what it means. */
static void print_verdict(uint32_t verdict)
{
    printf("Verdict %" PRIu32 ": %s.\n", verdict, bantameasel_verdict_words(verdict));
}

/* Reads a field of an A line: digits after spaces. Its spelling is compared later with the engine's own line. */
static bool read_field(const char *field, uint64_t *number)
{
    char columns[FIELD + 1] = { 0 };
    memcpy(columns, field, FIELD);
    const char *at = columns + strspn(columns, " ");
    return read_number(&at, number) && *at == '\0';
}

/* Adds the exceptions of an A line's fields, so many of them after the count, to the pair. */
static bool read_taken(const char *line, size_t fields, pair *p)
{
    for (size_t k = 0; k <= fields; k++) {
        uint64_t number;
        if (!read_field(line + 1 + FIELD * k, &number) || number > 64) {
            return false;
        }
        if (k > 0 && number > 0) {
            p->taken |= UINT64_C(1) << (number - 1);
        }
    }
    return true;
}

/* Adds the statements' marks to the pair. */
static bool read_marks(const char *marks, uint64_t statements, pair *p)
{
    for (uint32_t i = 0; i < statements; i++) {
        if (marks[i] == '+') {
            p->held |= UINT64_C(1) << i;
        } else if (marks[i] == '-') {
            p->denied |= UINT64_C(1) << i;
        } else if (marks[i] != '.') {
            return false;
        }
    }
    return true;
}

/* Says that a pasted line has another length than the book's lines; and if it has as many fields as those of a book
   with fewer or more exceptions, that too. */
static bool wrong_length(const book *b, size_t length)
{
    size_t fields = taken_fields(b), others = SHORT_FIELDS + LONG_FIELDS - fields;
    fprintf(stderr, "collection: the pasted line has %zu bytes; an A line of this book has %zu.\n", length,
            line_length(b) - 1);
    if (length == marks_after(others) + b->statements) {
        fprintf(stderr, "    It has %zu fields for exceptions; the lines of a book with %" PRIu64 " X lines have %zu.\n"
                "    It is of another book, or of this one as it was before.\n", others, b->exceptions, fields);
    }
    return false;
}

/* The pair of a pasted A line, without its line feed. */
static bool read_a_line(const book *b, const char *line, size_t length, pair *p)
{
    size_t fields = taken_fields(b);
    memset(p, 0, sizeof *p);
    if (length != line_length(b) - 1) {
        return wrong_length(b, length);
    }
    if (line[0] != 'A') {
        return fail("the pasted line", "it does not begin with the letter A");
    }
    if (!read_taken(line, fields, p)) {
        fprintf(stderr, "collection: the pasted line: after the letter stand %zu fields of 4 columns, "
                "each a whole number of 0 to 64.\n", fields + 1);
        return false;
    }
    if (!read_marks(line + marks_after(fields), b->statements, p)) {
        return fail("the pasted line", "each statement's mark is '.', '+' or '-'");
    }
    return true;
}

/* Compares a pasted line with the line that the engine writes for its pair. */
static bool same_line(const book *b, pair p, const char *line)
{
    uint8_t *right = malloc(line_length(b));
    if (right == NULL) {
        return fail(b->name, "there is no memory for a line");
    }
    bool good = write_line(b, p, right);
    if (good && memcmp(right, line, line_length(b) - 1) != 0) {
        good = fail("the pasted line", "the engine writes it otherwise: a count, the exceptions ascending, then 0");
    }
    free(right);
    return good;
}

/* collection BOOK judge LINE */
static bool judge(const book *b, const char *line)
{
    pair p;
    uint32_t verdict;
    size_t length = strlen(line);
    if (length > 0 && line[length - 1] == '\n') {
        length--;
    }
    if (!read_a_line(b, line, length, &p) || !same_line(b, p, line) || !verdict_on(b, p, &verdict)) {
        return false;
    }
    print_verdict(verdict);
    return printed();
}

/* ---- name, go, names, drop ---- */

/* Reads the store and has the engine look at its bytes. */
static bool open_store(const char *store_name, store *s)
{
    return read_store(store_name, s) && check_store(s);
}

/* Prints the A line of a named pair; where it is not lawful for the book, its numbers and the refusal. */
static bool print_pair(const book *b, pair p)
{
    uint8_t *line = malloc(line_length(b));
    if (line == NULL) {
        return fail(b->name, "there is no memory for a line");
    }
    uint32_t refusal = line_refusal(b, p, line);
    if (refusal == 0) {
        fwrite(line, 1, line_length(b), stdout);
    } else {
        printf("taken %" PRIu64 ", held %" PRIu64 ", denied %" PRIu64 ": refusal %" PRIu32 ": %s.\n", p.taken, p.held,
               p.denied, refusal, bantameasel_refusal_words(refusal));
    }
    free(line);
    return true;
}

/* Prints which resolution a name stands for: its place in the listing and its A line. */
static bool print_named(const book *b, const char *word, pair p, uint64_t place)
{
    uint64_t pairs[3] = { p.taken, p.held, p.denied };
    printf("%s is resolution %" PRIu64 " of %s.\n", word, place, b->name);
    return print_page(b, pairs, 1, place);
}

/* Prints the pair that a name no longer stands for. */
static bool print_former(const book *b, const char *words, pair p)
{
    printf("%s\n        ", words);
    return print_pair(b, p);
}

/* The resolution that was shown last, and its place. */
static bool shown_last(const book *b, const char *point_name, pair *p, uint64_t *place)
{
    point last;
    uint32_t verdict;
    if (!read_point(point_name, &last)) {
        return false;
    }
    if (!last.begun) {
        return fail(b->name, "the listing stands at its start; show some by next, or give the place of the one to name");
    }
    *p = last.at;
    if (!verdict_on(b, *p, &verdict)) {
        return fail(point_name, "the point was written down for another book; give the place of the one to name");
    }
    if (verdict != BANTAMEASEL_VERDICT_RESOLUTION) {
        return fail(point_name, "the point is no resolution of the book; give the place of the one to name");
    }
    return place_of(b, *p, place);
}

/* collection BOOK name NAME [N]: place is 0 where N is not given. */
static bool name(const book *b, const files *f, const char *word, uint64_t place)
{
    store s;
    pair p, former;
    if (!open_store(f->store, &s)) {
        return false;
    }
    if (!(place != 0 ? resolution_at(b, place, &p) : shown_last(b, f->point, &p, &place))) {
        return false;
    }
    bool replaced = find_name(&s, word, &former) && !same_pair(p, former);
    if (!set_name(&s, word, p) || !write_store(&s) || !print_named(b, word, p, place)) {
        return false;
    }
    if (replaced && !print_former(b, "Before, it was this one:", former)) {
        return false;
    }
    return printed();
}

/* Shows the pair of a name, which has this verdict: as a resolution with its place, or why it is none. */
static bool show_named(const book *b, const char *word, pair p, uint32_t verdict)
{
    uint64_t place;
    if (verdict == BANTAMEASEL_VERDICT_RESOLUTION) {
        return place_of(b, p, &place) && print_named(b, word, p, place);
    }
    printf("%s is no resolution of %s.\n        ", word, b->name);
    if (!print_line(b, p)) {
        return false;
    }
    print_verdict(verdict);
    return true;
}

/* collection BOOK go NAME: the point is moved once the named resolution was shown; a file that holds no point is left
   as it is. */
static bool go(const book *b, const files *f, const char *word)
{
    store s;
    point at;
    uint32_t verdict;
    if (!read_point(f->point, &at) || !read_store(f->store, &s) || !go_to_name(&s, word, &at.at)) {
        return false;
    }
    at.begun = true;
    if (!verdict_on(b, at.at, &verdict)) {
        return fail(word, "it was named for another book, or for this one as it was before; name it anew or drop it");
    }
    if (!show_named(b, word, at.at, verdict)) {
        return false;
    }
    puts("The next page begins after it.");
    return printed() && write_point(f->point, at);
}

/* collection BOOK names */
static bool names(const book *b, const char *store_name)
{
    store s;
    pair p;
    size_t k;
    char word[NAME + 1];
    if (!open_store(store_name, &s)) {
        return false;
    }
    for (k = 0; name_at(&s, k, word); k++) {
        printf("%-*s  ", NAME, word);
        if (!go_to_name(&s, word, &p) || !print_pair(b, p)) {
            return false;
        }
    }
    printf("%zu %s; there is room for %zu more.\n", k, k == 1 ? "name" : "names", BANTAMEASEL_MOST_NAMES - k);
    return printed();
}

/* collection BOOK drop NAME */
static bool drop(const book *b, const char *store_name, const char *word)
{
    store s;
    pair p;
    if (!read_store(store_name, &s) || !go_to_name(&s, word, &p) || !drop_name(&s, word) || !write_store(&s)) {
        return false;
    }
    printf("%s is dropped. ", word);
    return print_former(b, "It was this one:", p) && printed();
}

/* ---- the command line ---- */

static void usage(FILE *to)
{
    fputs("usage: collection [-p POINT] [-s STORE] BOOK COMMAND\n"
          "The commands:\n"
          "    next [COUNT]     show the next COUNT resolutions (10 if not given)\n"
          "    from-start       let the next page begin with the first resolution\n"
          "    pick N           print the catalogue entry of resolution N, from 1\n"
          "    judge 'A ...'    print the verdict on a pasted A line\n"
          "    name NAME [N]    name resolution N, or the one that was shown last if N is not given\n"
          "    go NAME          show the named resolution, and let the next page begin after it\n"
          "    names            list the names\n"
          "    drop NAME        forget a name\n"
          "A name has 1 to 8 characters: letters and digits. Small letters are taken for capitals.\n"
          "The point reached is kept in the file POINT, or in BOOK.point where -p is not given.\n"
          "The names are kept in the file STORE, or in BOOK.names where -s is not given.\n"
          "The exit status is 0 if all went well, 1 if not, 2 if the command line is wrong.\n",
          to);
}

/* Does what the words after BOOK say about names: 0 done, 1 failed, 2 not understood. */
static int obey_names(const book *b, const files *f, int count, char **words)
{
    uint64_t place = 0;
    const char *what = words[0];
    if (count >= 2) {
        capitals(words[1]);
    }
    if (strcmp(what, "name") == 0 && (count == 2 || count == 3)) {
        if (count == 3 && !read_count(words[2], UINT64_MAX, &place)) {
            return 2;
        }
        return name(b, f, words[1], place) ? 0 : 1;
    }
    if (strcmp(what, "go") == 0 && count == 2) {
        return go(b, f, words[1]) ? 0 : 1;
    }
    if (strcmp(what, "names") == 0 && count == 1) {
        return names(b, f->store) ? 0 : 1;
    }
    if (strcmp(what, "drop") == 0 && count == 2) {
        return drop(b, f->store, words[1]) ? 0 : 1;
    }
    usage(stderr);
    return 2;
}

/* Does what the words after BOOK say: 0 done, 1 failed, 2 not understood. */
static int obey(const book *b, const files *f, int count, char **words)
{
    uint64_t number = PAGE_USUAL;
    const char *what = words[0];
    if (strcmp(what, "next") == 0 && count <= 2) {
        if (count == 2 && !read_count(words[1], PAGE_MOST, &number)) {
            return 2;
        }
        return next_page(b, f->point, number) ? 0 : 1;
    }
    if (strcmp(what, "from-start") == 0 && count == 1) {
        return from_start(f->point) ? 0 : 1;
    }
    if (strcmp(what, "pick") == 0 && count == 2) {
        if (!read_count(words[1], UINT64_MAX, &number)) {
            return 2;
        }
        return pick(b, number) ? 0 : 1;
    }
    if (strcmp(what, "judge") == 0 && count == 2) {
        return judge(b, words[1]) ? 0 : 1;
    }
    return obey_names(b, f, count, words);
}

/* Opens the book and obeys; a file whose name is not given is kept beside the book. */
static int run(const char *book_name, files f, int count, char **words)
{
    book b = { 0 };
    int status = 1;
    char *point_beside = joined(book_name, ".point");
    char *store_beside = joined(book_name, ".names");
    if (point_beside == NULL || store_beside == NULL) {
        fail(book_name, "there is no memory for its name");
    } else if (open_book(book_name, &b)) {
        f.point = f.point != NULL ? f.point : point_beside;
        f.store = f.store != NULL ? f.store : store_beside;
        status = obey(&b, &f, count, words);
    }
    close_book(&b);
    free(point_beside);
    free(store_beside);
    return status;
}

/* Reads the options in front of BOOK, each with a file's name; answers where BOOK stands. */
static int read_options(int argc, char **argv, files *f)
{
    int at = 1;
    for (; at + 1 < argc; at += 2) {
        if (strcmp(argv[at], "-p") == 0) {
            f->point = argv[at + 1];
        } else if (strcmp(argv[at], "-s") == 0) {
            f->store = argv[at + 1];
        } else {
            break;
        }
    }
    return at;
}

int main(int argc, char **argv)
{
    files f = { NULL, NULL };
    if (argc == 2 && strcmp(argv[1], "--help") == 0) {
        usage(stdout);
        return printed() ? 0 : 1;
    }
    int first = read_options(argc, argv, &f);
    if (argc < first + 2) {
        usage(stderr);
        return 2;
    }
    return run(argv[first], f, argc - first - 1, argv + first + 1);
}
