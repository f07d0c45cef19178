/* Times Set, Go and Drop by the call, on stores of 1, 16 and 32 names.
 *
 *     point_bench
 *
 * Of each store, in microseconds of processor time: Go to the last name, Set of the last name, which is there already,
 * and Drop of the first name together with a Set that puts it back. Each is called LOOPS times in a row, in ROUNDS
 * rounds, and the least round counts. */
#define _POSIX_C_SOURCE 199309L
#include <stdio.h>
#include <stdlib.h>
#include <time.h>

#include "bantameasel.h"

enum { ROUNDS = 9, LOOPS = 20000 };

static uint8_t store[BANTAMEASEL_STORE];
static const bantameasel_pair pair = {1, 5, 2};

static double now(void) {
    struct timespec at;
    clock_gettime(CLOCK_PROCESS_CPUTIME_ID, &at);
    return (double)at.tv_sec * 1e6 + (double)at.tv_nsec / 1e3;
}

/* The name with this number, 0 to 31: two letters, ascending. */
static bantameasel_name name_of(int number) {
    bantameasel_name name = {{(uint8_t)('A' + number / 8), (uint8_t)('0' + number % 8), ' ', ' ', ' ', ' ', ' ', ' '}};
    return name;
}

/* Ends the program if a call was refused. */
static void expect_done(uint32_t refusal) {
    if (refusal == 0) return;
    printf("refused by %u\n", (unsigned)refusal);
    exit(1);
}

static void set(int number) { expect_done(bantameasel_set(store, sizeof store, name_of(number), pair).refusal); }

static void go(int number) { expect_done(bantameasel_go(store, sizeof store, name_of(number)).refusal); }

/* Drop, and a Set that puts the name back. */
static void drop_and_set(int number) {
    expect_done(bantameasel_drop(store, sizeof store, name_of(number)).refusal);
    set(number);
}

/* Microseconds of one call. */
static double time_of(void (*call)(int), int number) {
    double least = 0;
    for (int round = 0; round < ROUNDS; round++) {
        double begin = now();
        for (int loop = 0; loop < LOOPS; loop++) call(number);
        double taken = (now() - begin) / LOOPS;
        if (round == 0 || taken < least) least = taken;
    }
    return least;
}

int main(void) {
    const int counts[] = {1, 16, BANTAMEASEL_MOST_NAMES};
    int count = 0;
    printf("| Names | Go, us | Set, us | Drop and Set, us |\n|---|---|---|---|\n");
    for (int place = 0; place < 3; place++) {
        while (count < counts[place]) set(count++);
        printf("| %d | %.2f | %.2f | %.2f |\n", count, time_of(go, count - 1), time_of(set, count - 1),
               time_of(drop_and_set, 0));
    }
    return 0;
}
