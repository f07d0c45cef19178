/* Times First and After by the call: the time of a whole process hides them.
 *
 *     call_bench BOOK...
 *
 * Of each book: how many exceptions it has, then in microseconds of processor time First, After from the first
 * resolution, and After from the last one (or the thousandth, if there are more). Each is called LOOPS times in a row, in ROUNDS
 * rounds, and the least round counts. A book without a resolution has First alone. */
#define _POSIX_C_SOURCE 199309L
#include <stdio.h>
#include <stdlib.h>
#include <string.h>
#include <time.h>

#include "bantameasel.h"

enum { ROUNDS = 9, LOOPS = 200, MOST = 1000 };

static uint8_t text[BANTAMEASEL_MOST_TEXT + 1];
static int32_t table[BANTAMEASEL_MOST_TABLE];
static size_t length;

static double now(void) {
    struct timespec at;
    clock_gettime(CLOCK_PROCESS_CPUTIME_ID, &at);
    return (double)at.tv_sec * 1e6 + (double)at.tv_nsec / 1e3;
}

/* The answer of First, or of After from a pair. */
static bantameasel_answer ask(const bantameasel_pair *from) {
    bantameasel_answer answer = from == NULL ? bantameasel_first(text, length) : bantameasel_after(text, length, *from);
    if (answer.refusal != 0) {
        printf("refused by %u\n", (unsigned)answer.refusal);
        exit(1);
    }
    return answer;
}

/* Microseconds of one call. */
static double time_of(const bantameasel_pair *from) {
    double least = 0;
    for (int round = 0; round < ROUNDS; round++) {
        double begin = now();
        for (int loop = 0; loop < LOOPS; loop++) ask(from);
        double taken = (now() - begin) / LOOPS;
        if (round == 0 || taken < least) least = taken;
    }
    return least;
}

static void load(const char *name) {
    FILE *file = fopen(name, "rb");
    if (file == NULL) {
        perror(name);
        exit(1);
    }
    length = fread(text, 1, sizeof text, file);
    fclose(file);
}

int main(int count, char **names) {
    printf("| Book | Exceptions | First, us | After the first, us | After the last, us |\n|---|---|---|---|---|\n");
    for (int place = 1; place < count; place++) {
        load(names[place]);
        bantameasel_book book = bantameasel_read(text, length, table, BANTAMEASEL_MOST_TABLE);
        bantameasel_answer first = ask(NULL), last = first, next = first;
        for (int step = 0; next.found != 0 && step < MOST; step++) {
            last = next;
            next = ask(&last.pair);
        }
        const char *name = strrchr(names[place], '/');
        printf("| %s | %llu | %.2f |", name == NULL ? names[place] : name + 1, (unsigned long long)book.exceptions, time_of(NULL));
        if (first.found != 0) printf(" %.2f | %.2f |\n", time_of(&first.pair), time_of(&last.pair));
        else printf(" - | - |\n");
        fflush(stdout);
    }
    return 0;
}
