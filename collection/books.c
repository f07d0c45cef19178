/* A book in memory and what the engine says of it: the one file that calls the functions of bantameasel.h. */
#include "books.h"

#include <errno.h>
#include <inttypes.h>
#include <stdio.h>
#include <stdlib.h>
#include <string.h>

#include "faults.h"
#include "names.h"

enum {
    READ_MOST = 65536,   /* a file that fills this is longer than any book: the engine refuses it by 1 */
    WALK = 256           /* pairs fetched at a time where the listing is walked from its start */
};

/* ---- words ---- */

bool fail(const char *thing, const char *words)
{
    fprintf(stderr, "collection: %s: %s.\n", thing, words);
    return false;
}

/* Says which refusal the engine gave for a thing, and at which line where it is tied to one. */
static bool refused(const char *thing, uint32_t refusal, uint64_t line)
{
    fprintf(stderr, "collection: %s: refusal %" PRIu32, thing, refusal);
    if (line != 0) {
        fprintf(stderr, " at line %" PRIu64, line);
    }
    fprintf(stderr, ": %s.\n", bantameasel_refusal_words(refusal));
    return false;
}

/* ---- reading ---- */

/* Reads the file's bytes, at most as many as show that it is too long. */
static bool load(const char *name, book *b)
{
    FILE *file = fopen(name, "rb");
    if (file == NULL) {
        return fail(name, strerror(errno));
    }
    b->name = name;
    b->text = malloc(READ_MOST);
    if (b->text == NULL) {
        fclose(file);
        return fail(name, "there is no memory for the book");
    }
    b->length = fread(b->text, 1, READ_MOST, file);
    bool good = !ferror(file);
    fclose(file);
    return good || fail(name, "it could not be read");
}

/* Has the engine read the text, and keeps the numbers of statements and exceptions. Its table has at most two numbers
   more than there are fourths in the text's length. */
static bool measure(book *b)
{
    size_t room = b->length / FIELD + 2;
    int32_t *table = malloc(room * sizeof *table);
    if (table == NULL) {
        return fail(b->name, "there is no memory for the number table");
    }
    bantameasel_book answer = bantameasel_read(b->text, b->length, table, room);
    free(table);
    if (answer.refusal != 0) {
        refused(b->name, answer.refusal, answer.line);
        show_fault(b->text, b->length, answer.refusal, answer.line);
        return false;
    }
    b->statements = answer.statements;
    b->exceptions = answer.exceptions;
    return true;
}

bool open_book(const char *name, book *b)
{
    return load(name, b) && measure(b);
}

void close_book(book *b)
{
    free(b->text);
}

/* ---- lines ---- */

size_t taken_fields(const book *b)
{
    return b->exceptions <= SHORT_FIELDS ? SHORT_FIELDS : LONG_FIELDS;
}

size_t marks_after(size_t fields)
{
    return 1 + FIELD * (1 + fields);
}

size_t line_length(const book *b)
{
    return marks_after(taken_fields(b)) + b->statements + 1;
}

bool write_line(const book *b, pair p, uint8_t *line)
{
    bantameasel_length answer =
        bantameasel_line(b->text, b->length, p, line, line_length(b));
    if (answer.refusal != 0) {
        return refused(b->name, answer.refusal, answer.line);
    }
    return answer.length == line_length(b) || fail(b->name, "the engine's line has another length than the book's");
}

uint32_t line_refusal(const book *b, pair p, uint8_t *line)
{
    return bantameasel_line(b->text, b->length, p, line, line_length(b)).refusal;
}

/* ---- pages ---- */

bool same_pair(pair p, pair q)
{
    return p.taken == q.taken && p.held == q.held && p.denied == q.denied;
}

pair pair_at(const uint64_t *pairs, uint64_t k)
{
    pair p = { pairs[3 * k], pairs[3 * k + 1], pairs[3 * k + 2] };
    return p;
}

/* Makes p pair k of a page. */
static void put_pair(uint64_t *pairs, uint64_t k, pair p)
{
    pairs[3 * k] = p.taken;
    pairs[3 * k + 1] = p.held;
    pairs[3 * k + 2] = p.denied;
}

bool fetch(const book *b, point from, uint64_t *pairs, size_t room, uint64_t *count)
{
    bantameasel_page answer = from.begun
        ? bantameasel_page_after(b->text, b->length, from.at, pairs, 3 * room)
        : bantameasel_first_page(b->text, b->length, pairs, 3 * room);
    if (answer.refusal != 0) {
        return refused(b->name, answer.refusal, answer.line);
    }
    *count = answer.count;
    return true;
}

/* Takes one step of a listing: by First before the first pair, else by After from the point. A resolution found becomes
   the point; at the End the point stays. */
static bool step(const book *b, point *at, bool *found)
{
    bantameasel_answer answer = at->begun
        ? bantameasel_after(b->text, b->length, at->at)
        : bantameasel_first(b->text, b->length);
    if (answer.refusal != 0) {
        return refused(b->name, answer.refusal, answer.line);
    }
    *found = answer.found != 0;
    if (*found) {
        point next = { true, answer.pair };
        *at = next;
    }
    return true;
}

bool fetch_by_steps(const book *b, point from, uint64_t *pairs, size_t room, uint64_t *count)
{
    bool found;
    for (*count = 0; *count < room; ++*count) {
        if (!step(b, &from, &found)) {
            return false;
        }
        if (!found) {
            return true;
        }
        put_pair(pairs, *count, from.at);
    }
    return true;
}

/* ---- places ---- */

/* A listing that is walked from its start: the pairs fetched, how many were handed out of them and in all. */
typedef struct {
    const book *of;
    uint64_t pairs[3 * WALK];
    uint64_t fetched;
    uint64_t used;
    uint64_t place;
    point reached;
} walk;

static void walk_from_start(walk *w, const book *b)
{
    memset(w, 0, sizeof *w);
    w->of = b;
}

/* The next resolution of the walk; *found says whether there was one. Its place, from 1, is then w->place. */
static bool walk_on(walk *w, pair *p, bool *found)
{
    if (w->used == w->fetched) {
        if (!fetch(w->of, w->reached, w->pairs, WALK, &w->fetched)) {
            return false;
        }
        w->used = 0;
    }
    *found = w->used < w->fetched;
    if (*found) {
        *p = pair_at(w->pairs, w->used);
        w->reached.begun = true;
        w->reached.at = *p;
        w->used++;
        w->place++;
    }
    return true;
}

bool place_of(const book *b, pair p, uint64_t *place)
{
    walk w;
    pair q;
    bool found;
    walk_from_start(&w, b);
    do {
        if (!walk_on(&w, &q, &found)) {
            return false;
        }
        if (!found) {
            return fail(b->name, "the listing from its start does not meet the listing from the point");
        }
    } while (!same_pair(p, q));
    *place = w.place;
    return true;
}

bool resolution_at(const book *b, uint64_t place, pair *p)
{
    walk w;
    bool found;
    walk_from_start(&w, b);
    do {
        if (!walk_on(&w, p, &found)) {
            return false;
        }
        if (!found) {
            fprintf(stderr, "collection: %s: there is no resolution %" PRIu64 "; the book has %" PRIu64 ".\n",
                    b->name, place, w.place);
            return false;
        }
    } while (w.place != place);
    return true;
}

/* ---- verdicts ---- */

bool verdict_on(const book *b, pair p, uint32_t *verdict)
{
    bantameasel_verdict answer = bantameasel_judge(b->text, b->length, p);
    if (answer.refusal != 0) {
        return refused(b->name, answer.refusal, answer.line);
    }
    *verdict = answer.verdict;
    return true;
}

/* ---- names ---- */

/* Says which refusal the engine gave for a store and a word, and what to do. */
static bool refused_name(const store *s, const char *word, uint32_t refusal)
{
    refused(s->name, refusal, 0);
    show_store_fault(s, word, refusal);
    return false;
}

/* Whatever the name, Go looks at the store's bytes first. */
bool check_store(const store *s)
{
    const char *word = "A";
    bantameasel_answer answer = bantameasel_go(s->bytes, s->length, bantameasel_name_of(word));
    return answer.refusal != BANTAMEASEL_REFUSED_STORE || refused_name(s, word, answer.refusal);
}

bool set_name(store *s, const char *word, pair p)
{
    bantameasel_done answer = bantameasel_set(s->bytes, s->length, bantameasel_name_of(word), p);
    return answer.refusal == 0 || refused_name(s, word, answer.refusal);
}

bool find_name(const store *s, const char *word, pair *p)
{
    bantameasel_answer answer = bantameasel_go(s->bytes, s->length, bantameasel_name_of(word));
    *p = answer.pair;
    return answer.refusal == 0;
}

bool go_to_name(const store *s, const char *word, pair *p)
{
    bantameasel_answer answer = bantameasel_go(s->bytes, s->length, bantameasel_name_of(word));
    *p = answer.pair;
    return answer.refusal == 0 || refused_name(s, word, answer.refusal);
}

bool drop_name(store *s, const char *word)
{
    bantameasel_done answer = bantameasel_drop(s->bytes, s->length, bantameasel_name_of(word));
    return answer.refusal == 0 || refused_name(s, word, answer.refusal);
}
