/* Books that are made line by line, and checks that are counted. */
#include "book.h"

#include <inttypes.h>
#include <stdio.h>
#include <stdlib.h>
#include <string.h>

enum { SHOWN = 8 };

static unsigned counted;
static int seen[BANTAMEASEL_LAST_REFUSAL + 1];

void expect(const char *what, uint64_t got, uint64_t wanted) {
    counted++;
    if (got == wanted) return;
    printf("FAILED: %s: %" PRIu64 ", not %" PRIu64 "\n", what, got, wanted);
    exit(1);
}

unsigned checks(void) { return counted; }

void expect_refusal(const char *what, uint32_t got, uint32_t wanted) {
    expect(what, got, wanted);
    seen[got] = 1;
}

int provoked(uint32_t refusal) { return seen[refusal]; }

int given(uint32_t refusal) { return refusal <= BANTAMEASEL_LAST_REFUSAL && refusal != 20 && refusal != 21; }

static void put(book *b, char letter, const int *numbers, int count) {
    char *at = (char *)b->bytes + b->length;
    size_t needed = 2 + 4 * (size_t)count;
    if (b->length + needed + 1 > BOOK_ROOM) expect("room for the book of a test", b->length, 0);
    *at++ = letter;
    for (int place = 0; place < count; place++) at += sprintf(at, "%4d", numbers[place]);
    *at = '\n';
    b->length += needed;
}

void begin(book *b, int statements) {
    int numbers[2] = {1, statements};
    b->length = 0;
    b->lines = 0;
    put(b, 'B', numbers, 2);
}

/* The entries of a body: the needed ones, then the barred ones. */
static void put_body(int *numbers, row r) {
    for (int place = 0; place < ENTRIES; place++) {
        numbers[place] = r.needed[place];
        numbers[ENTRIES + place] = r.barred[place];
    }
}

void add(book *b, char letter, row r) {
    int numbers[1 + 2 * ENTRIES] = {r.head};
    put_body(numbers + 1, r);
    put(b, letter, numbers, 1 + 2 * ENTRIES);
    b->lines++;
}

void either(book *b, row r) {
    int numbers[HEADS + 2 * ENTRIES];
    for (int place = 0; place < HEADS; place++) numbers[place] = r.heads[place];
    put_body(numbers + HEADS, r);
    put(b, 'O', numbers, HEADS + 2 * ENTRIES);
    b->lines++;
}

void prefer(book *b, int one, int other) {
    int numbers[2] = {one, other};
    put(b, 'P', numbers, 2);
    b->lines++;
}

void prefer_if(book *b, int one, int other, row condition) {
    int numbers[2 + 2 * ENTRIES] = {one, other};
    put_body(numbers + 2, condition);
    put(b, 'Q', numbers, 2 + 2 * ENTRIES);
    b->lines++;
}

void finish(book *b) { put(b, 'Z', &b->lines, 1); }

void choices(book *b, int statements, int free) {
    begin(b, statements);
    for (int i = 1; i <= free; i++) {
        add(b, 'R', (row){.head = i, .barred = {-i}});
        add(b, 'R', (row){.head = -i, .barred = {i}});
    }
}

void full(book *b) {
    begin(b, BANTAMEASEL_MOST_STATEMENTS);
    for (int k = 0; k < BANTAMEASEL_MOST_PLAIN; k++) add(b, 'R', (row){.head = 1 + k % 48, .needed = {1 + k % 7}});
    for (int k = 0; k < BANTAMEASEL_MOST_ALTERNATIVES; k++)
        either(b, (row){.heads = {-48, 0, 1 + k}, .needed = {1 + k}, .barred = {0, -1 - k}});
    for (int k = 0; k < BANTAMEASEL_MOST_EXCEPTIONS; k++) add(b, 'X', (row){.head = 1 + k});
    for (int k = 0; k < BANTAMEASEL_MOST_PREFERENCES; k++)
        prefer(b, 1 + k % (BANTAMEASEL_MOST_EXCEPTIONS - 1), BANTAMEASEL_MOST_EXCEPTIONS);
    for (int k = 0; k < BANTAMEASEL_MOST_CONDITIONALS; k++)
        prefer_if(b, 1 + k % BANTAMEASEL_MOST_EXCEPTIONS, 1, (row){.needed = {1 + k, -1 - k}, .barred = {-48, 0, 48}});
    finish(b);
}

void lists(const char *what, const book *b, const bantameasel_pair *wanted, size_t count) {
    bantameasel_pair page[SHOWN];
    bantameasel_answer answer = bantameasel_first(b->bytes, b->length);
    for (size_t k = 0; k < count; k++) {
        expect(what, answer.found, 1);
        expect(what, memcmp(&answer.pair, &wanted[k], sizeof answer.pair) != 0, 0);
        answer = bantameasel_after(b->bytes, b->length, answer.pair);
    }
    expect(what, answer.refusal | answer.found, 0);
    expect(what, bantameasel_first_pairs(b->bytes, b->length, page, SHOWN).count, count);
    expect(what, memcmp(page, wanted, count * sizeof page[0]) != 0, 0);
}

void judges(const char *what, const book *b, const judged *pairs, size_t count) {
    for (size_t k = 0; k < count; k++) {
        bantameasel_verdict answer = bantameasel_judge(b->bytes, b->length, pairs[k].pair);
        expect(what, answer.refusal, BANTAMEASEL_NOT_REFUSED);
        expect(what, answer.verdict, pairs[k].verdict);
    }
}

void reads_and_writes(const char *text, bantameasel_book answer, const int32_t *numbers, size_t count) {
    const size_t length = strlen(text);
    int32_t *table = malloc((count + 1) * sizeof *table);
    uint8_t *again = malloc(length + 1);
    expect("memory", table != NULL && again != NULL, 1);
    table[count] = 77;
    again[length] = 'x';
    bantameasel_book read = bantameasel_read((const uint8_t *)text, length, table, count + 1);
    expect("Read's answer", memcmp(&read, &answer, sizeof read) != 0, 0);
    expect("the table", memcmp(table, numbers, count * sizeof table[0]) != 0, 0);
    expect("what stands behind the table", (uint64_t)table[count], 77);
    bantameasel_length written = bantameasel_write(table, count, again, length + 1);
    expect_refusal("Write", written.refusal, BANTAMEASEL_NOT_REFUSED);
    expect("the text's length", written.length, length);
    expect("the text", memcmp(again, text, length) != 0, 0);
    expect("what stands behind the text", again[length], 'x');
    free(table);
    free(again);
}
