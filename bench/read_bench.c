/* Times the engine's Read and Write against the plain C reader and writer on a full book of 11,728 bytes.
 *
 *     read_bench [LOOPS]
 *
 * Both are first compared on the full book and on every damaged byte of it. Then each is called LOOPS times in a row,
 * in rounds that take turns, and the least and the median round are printed, by processor time. Before each call one
 * byte of the text, or one number of the table, is changed to another lawful one, so that no call can be left out.
 * Buffers aren't cleared. */
#define _POSIX_C_SOURCE 199309L
#include <stdio.h>
#include <stdlib.h>
#include <string.h>
#include <time.h>

#include "bantameasel.h"
#include "reader.h"

enum { ROUNDS = 15, LOOPS = 4000 };

static uint8_t text[READER_TEXT + 1], other_text[READER_TEXT];
static int32_t table[READER_TABLE], other_table[READER_TABLE];

/* A small generator of numbers, so that every run has the same book. */
static int32_t draw(int32_t bound) {
    static uint32_t state = 1;
    state = state * 1664525u + 1013904223u;
    return (int32_t)((state >> 16) % (uint32_t)bound);
}

/* An entry, often 0. */
static int32_t draw_entry(void) { return draw(3) == 0 ? 0 : draw(97) - 48; }

/* Draws so many rows of a rule, of which so many heads are filled, and answers what comes next in the table. */
static int32_t *put_rules(int32_t *next, int rows, int heads) {
    for (int row = 0; row < rows; row++) {
        for (int place = 0; place < (heads == 1 ? 1 : 3) + 8; place++) {
            int32_t entry = draw_entry();
            *next++ = place < heads && entry == 0 ? 1 : entry;
        }
    }
    return next;
}

/* Fills the table with a book at every limit; the first head is 1. */
static void make_full_book(void) {
    int32_t *next = table;
    *next++ = READER_STATEMENTS, *next++ = READER_PLAIN, *next++ = READER_EXCEPTIONS, *next++ = READER_PREFERENCES;
    *next++ = READER_CONDITIONALS, *next++ = READER_ALTERNATIVES;
    next = put_rules(next, READER_PLAIN, 1);
    next = put_rules(next, READER_ALTERNATIVES, 2);
    next = put_rules(next, READER_EXCEPTIONS, 1);
    for (int row = 0; row < 2 * READER_PREFERENCES; row++) *next++ = 1 + draw(READER_EXCEPTIONS);
    for (int row = 0; row < READER_CONDITIONALS; row++) {
        for (int place = 0; place < 10; place++) *next++ = place < 2 ? 1 + draw(READER_EXCEPTIONS) : draw_entry();
    }
    table[READER_FRONT] = 1;
}

static void fail(const char *what, size_t place) {
    printf("FAILED: %s differs at %zu\n", what, place);
    exit(1);
}

/* Compares both readers on the text at hand. */
static void compare_reads(size_t place) {
    static int32_t one[READER_TABLE], other[READER_TABLE];
    memset(one, 7, sizeof one);
    memset(other, 7, sizeof other);
    reader_answer plain = reader_read(text, READER_TEXT, one, READER_TABLE);
    bantameasel_book engine = bantameasel_read(text, READER_TEXT, other, READER_TABLE);
    if (plain.refusal != engine.refusal || (plain.refusal != 0 && plain.line != engine.line))
        fail("Read's refusal", place);
    if (memcmp(one, other, sizeof one) != 0) fail("Read's table", place);
}

/* Compares both writers on the table at hand. */
static void compare_writes(size_t place) {
    static uint8_t one[READER_TEXT], other[READER_TEXT];
    memset(one, 7, sizeof one);
    memset(other, 7, sizeof other);
    reader_answer plain = reader_write(table, READER_TABLE, one, READER_TEXT);
    bantameasel_length engine = bantameasel_write(table, READER_TABLE, other, READER_TEXT);
    if (plain.refusal != engine.refusal || (plain.refusal != 0 && plain.line != engine.line))
        fail("Write's refusal", place);
    if (memcmp(one, other, sizeof one) != 0) fail("Write's text", place);
}

/* Compares both on the full book, and with every byte and every number of it damaged. */
static void compare_all(void) {
    static const uint8_t bytes[] = {' ', '-', '0', '9', 'X', 128, '\n'};
    compare_reads(0);
    compare_writes(0);
    for (size_t place = 0; place < READER_TEXT; place++) {
        uint8_t kept = text[place];
        for (size_t number = 0; number < sizeof bytes; number++) {
            text[place] = bytes[number];
            compare_reads(place);
        }
        text[place] = kept;
    }
    for (size_t place = 0; place < READER_TABLE; place++) {
        int32_t kept = table[place];
        for (int32_t number = -50; number <= 50; number += 25) {
            table[place] = number;
            compare_writes(place);
        }
        table[place] = kept;
    }
}

static double now(void) {
    struct timespec time;
    clock_gettime(CLOCK_PROCESS_CPUTIME_ID, &time);
    return (double)time.tv_sec * 1e6 + (double)time.tv_nsec / 1e3;
}

/* The four jobs. Each answers a number that depends on what was done. */
static uint64_t plain_read(void) { return reader_read(text, READER_TEXT, other_table, READER_TABLE).length; }
static uint64_t engine_read(void) { return bantameasel_read(text, READER_TEXT, other_table, READER_TABLE).plain; }
static uint64_t plain_write(void) { return reader_write(table, READER_TABLE, other_text, READER_TEXT).length; }
static uint64_t engine_write(void) { return bantameasel_write(table, READER_TABLE, other_text, READER_TEXT).length; }

typedef uint64_t job(void);
static job *const JOBS[4] = {plain_read, engine_read, plain_write, engine_write};
static const char *const NAMES[4] = {"Read, plain C", "Read, engine", "Write, plain C", "Write, engine"};

/* The time of one call in a round of so many, in microseconds. */
static double round_of(job *call, int loops) {
    uint64_t sum = 0;
    double begun = now();
    for (int loop = 0; loop < loops; loop++) {
        text[14] = (uint8_t)('1' + loop % 9);
        table[READER_FRONT] = 1 + loop % 9;
        sum += call();
    }
    double time = (now() - begun) / loops;
    if (sum == 0) fail("a timed call", 0);
    return time;
}

static int compare(const void *one, const void *other) {
    double a = *(const double *)one, b = *(const double *)other;
    return (a > b) - (a < b);
}

int main(int count, char **arguments) {
    static double times[4][ROUNDS];
    int loops = count > 1 ? atoi(arguments[1]) : LOOPS;
    if (loops < 1) return 2;
    make_full_book();
    reader_answer full = reader_write(table, READER_TABLE, text, READER_TEXT);
    if (full.refusal != 0 || full.length != READER_TEXT) fail("the full book", 0);
    compare_all();
    for (int round = 0; round < ROUNDS; round++) {
        for (int number = 0; number < 4; number++) times[number][round] = round_of(JOBS[number], loops);
    }
    printf("| job | least, us a call | median, us a call |\n|---|---|---|\n");
    for (int number = 0; number < 4; number++) {
        qsort(times[number], ROUNDS, sizeof times[number][0], compare);
        printf("| %s | %.2f | %.2f |\n", NAMES[number], times[number][0], times[number][ROUNDS / 2]);
    }
    printf("\nengine / plain C by least round: Read %.2f, Write %.2f (%d rounds of %d calls, taking turns)\n",
           times[1][0] / times[0][0], times[3][0] / times[2][0], ROUNDS, loops);
    return 0;
}
