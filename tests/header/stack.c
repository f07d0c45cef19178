/* The deepest books in threads with the stack that the header asks for; and many threads at once. */
#define _GNU_SOURCE
#include <inttypes.h>
#include <pthread.h>
#include <stdio.h>
#include <string.h>
#include <sys/mman.h>

#include "book.h"

enum { SMALL_STACK = 32768, LEAST_STACK = 8192, GUARD = 4096, PAINT = 0xA5, ROOM = 64, THREADS = 8, ROUNDS = 20 };

/* What one thread is to do: a function on a book and a pair. */
typedef struct task task;
typedef void job(task *);
struct task {
    job *call;
    const book *of;
    bantameasel_pair pair, found, pairs[ROOM];
    uint64_t count;
};

/* What these three write is not on the thread's stack. */
static int32_t table[BANTAMEASEL_MOST_TABLE];
static uint8_t written[BANTAMEASEL_MOST_TEXT];

static void call_read(task *t) {
    t->count = bantameasel_read(t->of->bytes, t->of->length, table, BANTAMEASEL_MOST_TABLE).refusal;
}

static void call_write(task *t) {
    t->count = bantameasel_write(table, BANTAMEASEL_MOST_TABLE, written, BANTAMEASEL_MOST_TEXT).refusal;
}

static void call_line(task *t) {
    t->count = bantameasel_line(t->of->bytes, t->of->length, t->pair, written, BANTAMEASEL_MOST_LINE).refusal;
}

/* The store that these three work on is full but for one name, between the others. */
static uint8_t store[BANTAMEASEL_STORE];

static void call_set(task *t) {
    t->count = bantameasel_set(store, BANTAMEASEL_STORE, bantameasel_name_of("M"), t->pair).refusal;
}

static void call_go(task *t) {
    t->count = bantameasel_go(store, BANTAMEASEL_STORE, bantameasel_name_of("M")).refusal;
}

static void call_drop(task *t) {
    t->count = bantameasel_drop(store, BANTAMEASEL_STORE, bantameasel_name_of("M")).refusal;
}

static void call_nothing(task *t) { t->count = BANTAMEASEL_NOT_REFUSED; }

static void call_judge(task *t) { t->count = bantameasel_judge(t->of->bytes, t->of->length, t->pair).verdict; }

static void call_first(task *t) { t->found = bantameasel_first(t->of->bytes, t->of->length).pair; }

static void call_after(task *t) { t->found = bantameasel_after(t->of->bytes, t->of->length, t->pair).pair; }

/* A page of few pairs is searched for in another way than one of many. */
static void call_short_page(task *t) {
    t->count = bantameasel_first_pairs(t->of->bytes, t->of->length, t->pairs, 10).count;
}

static void call_first_page(task *t) {
    t->count = bantameasel_first_pairs(t->of->bytes, t->of->length, t->pairs, ROOM).count;
}

static void call_page_after(task *t) {
    t->count = bantameasel_pairs_after(t->of->bytes, t->of->length, t->pair, t->pairs, ROOM).count;
}

static void *work(void *asked) {
    task *t = asked;
    t->call(t);
    return NULL;
}

/* Runs the task in a thread with so many bytes of stack, its own included, above a page that nobody may touch. Answers
 * how many bytes of it were written. */
static size_t deepest(task *t, size_t stack) {
    uint8_t *low = mmap(NULL, GUARD + stack, PROT_READ | PROT_WRITE, MAP_PRIVATE | MAP_ANONYMOUS, -1, 0);
    pthread_attr_t attributes;
    pthread_t thread;
    expect("memory for a stack", low != MAP_FAILED, 1);
    memset(low + GUARD, PAINT, stack);
    expect("the guard", (uint64_t)mprotect(low, GUARD, PROT_NONE), 0);
    pthread_attr_init(&attributes);
    expect("the stack", (uint64_t)pthread_attr_setstack(&attributes, low + GUARD, stack), 0);
    expect("the thread", (uint64_t)pthread_create(&thread, &attributes, work, t), 0);
    expect("its end", (uint64_t)pthread_join(thread, NULL), 0);
    size_t left = 0;
    while (left < stack && low[GUARD + left] == PAINT) left++;
    munmap(low, GUARD + stack);
    return stack - left;
}

/* Runs the functions that search on a book, from the pair, from the first resolution and from the last of a page. */
static size_t test_deep(book *b, bantameasel_pair pair) {
    static job *const calls[] = {call_first, call_after, call_short_page, call_first_page, call_page_after, call_judge};
    size_t most = 0;
    finish(b);
    expect_refusal("a deep book", bantameasel_first(b->bytes, b->length).refusal, BANTAMEASEL_NOT_REFUSED);
    bantameasel_pair from[2] = {pair, bantameasel_first(b->bytes, b->length).pair};
    for (size_t k = 0; k < 2 * sizeof calls / sizeof calls[0]; k++) {
        task t = {.call = calls[k / 2], .of = b, .pair = from[k % 2]};
        size_t used = deepest(&t, BANTAMEASEL_MOST_STACK);
        if (used > most) most = used;
    }
    return most;
}

/* No three statements of the circle from first on, at these distances, have an odd number of held ones; where another
 * statement is given, only if it is held. */
static void even_circle(book *b, int first, int size, int second, int third, int where) {
    for (int i = 0; i < size; i++) {
        int at[3] = {first + i, first + (i + second) % size, first + (i + third) % size};
        for (int held = 1; held < 8; held++) {
            if ((held ^ held >> 1 ^ held >> 2) % 2 == 0) continue;
            row r = {.head = 0, .needed = {0, 0, 0, where}};
            for (int k = 0; k < 3; k++) r.needed[k] = held >> k & 1 ? at[k] : -at[k];
            add(b, 'R', r);
        }
    }
}

/* Of each five conclusions in a row exactly one, over statements 1 to 47; the exceptions all give statement 48. */
static void fives(book *b) {
    begin(b, 48);
    for (int first = 0; first + 5 <= 94; first += 5) {
        for (int k = 0; k < 5; k++) {
            row r = {0};
            for (int other = 0, place = 0; other < 5; other++) {
                int number = first + other, conclusion = number % 2 ? -(1 + number / 2) : 1 + number / 2;
                if (other == k) r.head = conclusion;
                else r.barred[place++] = conclusion;
            }
            add(b, 'R', r);
        }
    }
    for (int k = 0; k < BANTAMEASEL_MOST_EXCEPTIONS; k++) add(b, 'X', (row){.head = 48});
}

/* Every statement is denied: the search in order tries three values at each. */
static size_t test_denied(book *b) {
    begin(b, 48);
    for (int i = 1; i <= 48; i++) add(b, 'R', (row){.head = -i});
    return test_deep(b, (bantameasel_pair){0, 0, 0});
}

/* The same after many dead ends, with a choice at the last statement. */
static size_t test_dead_ends(book *b) {
    choices(b, 48, 16);
    even_circle(b, 1, 16, 3, 7, 0);
    for (int i = 17; i < 48; i++) add(b, 'R', (row){.head = -i});
    add(b, 'R', (row){.head = 48, .barred = {-48}});
    add(b, 'R', (row){.head = -48, .barred = {48}});
    return test_deep(b, (bantameasel_pair){0, 0, 0});
}

/* All exceptions that a book may have are needed, beside choices. */
static size_t test_needed(book *b) {
    const int last = BANTAMEASEL_MOST_STATEMENTS, free = last - BANTAMEASEL_MOST_EXCEPTIONS;
    choices(b, last, free);
    for (int i = free + 1; i <= last; i++) add(b, 'R', (row){.head = 0, .barred = {-i}});
    for (int i = free + 1; i <= last; i++) add(b, 'X', (row){.head = -i});
    return test_deep(b, (bantameasel_pair){0, 0, 0});
}

/* Judge's deepest: a pair with more exceptions than needed, while the views of fewer take many steps to find. */
static size_t test_judged(book *b) {
    fives(b);
    finish(b);
    bantameasel_pair pair = bantameasel_first(b->bytes, b->length).pair;
    b->length -= 6;
    pair.taken = (1 << BANTAMEASEL_MOST_EXCEPTIONS) - 1;
    pair.held |= UINT64_C(1) << 47;
    size_t most = test_deep(b, pair);
    expect("the verdict", bantameasel_judge(b->bytes, b->length, pair).verdict, BANTAMEASEL_VERDICT_NOT_LEAST);
    return most;
}

/* As many preferences under a condition as there may be: exception 1, which holds 48, is outranked by the others, which
 * hold 47, if one of the statements 1 to 16 is held; but then 47 is not. Whether some view that holds 47 outranks a pair
 * is asked line by line, and there are many dead ends on the way to such a view. */
static size_t test_conditional(book *b) {
    const uint64_t free = (UINT64_C(1) << 32) - 1, last = UINT64_C(1) << 47, two_last = last | last >> 1;
    choices(b, 48, 32);
    even_circle(b, 17, 16, 3, 7, 47);
    for (int i = 1; i <= 16; i++) add(b, 'R', (row){.needed = {i, 47}});
    add(b, 'R', (row){.barred = {47, 48}});
    add(b, 'X', (row){.head = 48});
    for (int k = 1; k < BANTAMEASEL_MOST_EXCEPTIONS; k++) add(b, 'X', (row){.head = 47});
    for (int k = 0; k < BANTAMEASEL_MOST_CONDITIONALS; k++)
        prefer_if(b, 2 + k % (BANTAMEASEL_MOST_EXCEPTIONS - 1), 1, (row){.needed = {1 + k % 16}});
    bantameasel_pair one = {1, last | free, 0}, all = {(1 << BANTAMEASEL_MOST_EXCEPTIONS) - 1, two_last, free};
    size_t most = test_deep(b, one);
    expect("the verdict on one", bantameasel_judge(b->bytes, b->length, one).verdict, BANTAMEASEL_VERDICT_RESOLUTION);
    b->length -= 6;
    size_t others = test_deep(b, all);
    expect("the verdict on all", bantameasel_judge(b->bytes, b->length, all).verdict, BANTAMEASEL_VERDICT_NOT_LEAST);
    return most > others ? most : others;
}

/* If the choices 1 to 32 are all held, or all denied where side is -1, then 47 is not held. Statements 33 to 40 say it of
 * four choices each, 41 and 42 of sixteen each. */
static void not_all(book *b, int side) {
    choices(b, 48, 32);
    for (int i = 0; i < 8; i++) {
        int last = side * (4 * i + 4);
        add(b, 'R', (row){.head = 33 + i, .needed = {last - 3 * side, last - 2 * side, last - side, last}});
    }
    add(b, 'R', (row){.head = 41, .needed = {33, 34, 35, 36}});
    add(b, 'R', (row){.head = 42, .needed = {37, 38, 39, 40}});
    add(b, 'R', (row){.needed = {41, 42, 47}});
}

/* A set of statements, from the first to the last. */
static uint64_t from_to(int first, int last) { return ((UINT64_C(1) << last) - 1) & ~((UINT64_C(1) << (first - 1)) - 1); }

/* A chain leads from exception 15, which holds 47, to 1, which holds 48, over exceptions that can never be taken. Its last
 * step is given by 19 lines, each other step by one, and each line asks for another one of the choices. So the search for
 * a view that outranks the pair of all assumes them one after the other, and finds that 47 is not held with all of them;
 * a view with all but one of the 19 is what outranks it. The pair of more lacks the last choice, and so the first step of
 * the chain; it takes exception 16 without need. */
static size_t test_chain(book *b, int side) {
    not_all(b, side);
    add(b, 'R', (row){.barred = {47, 48}});
    add(b, 'R', (row){.needed = {46}});
    add(b, 'X', (row){.head = 48});
    for (int k = 2; k <= 14; k++) add(b, 'X', (row){.head = 46});
    add(b, 'X', (row){.head = 47});
    add(b, 'X', (row){.head = 45});
    for (int k = 1; k <= 19; k++) prefer_if(b, 2, 1, (row){.needed = {side * k}});
    for (int k = 2; k <= 14; k++) prefer_if(b, k + 1, k, (row){.needed = {side * (18 + k)}});
    bantameasel_pair all = {1, from_to(33, 42) | from_to(48, 48), 0};
    bantameasel_pair more = {1 | 1 << 15, from_to(33, 39) | from_to(41, 41) | from_to(45, 45) | from_to(48, 48), 0};
    *(side > 0 ? &all.held : &all.denied) |= from_to(1, 32);
    *(side > 0 ? &more.held : &more.denied) |= from_to(1, 31);
    *(side > 0 ? &more.denied : &more.held) |= from_to(32, 32);
    size_t most = test_deep(b, all);
    expect("the verdict on all", bantameasel_judge(b->bytes, b->length, all).verdict, BANTAMEASEL_VERDICT_DOMINATED);
    b->length -= 6;
    size_t others = test_deep(b, more);
    expect("the verdict on more", bantameasel_judge(b->bytes, b->length, more).verdict, BANTAMEASEL_VERDICT_NOT_LEAST);
    return most > others ? most : others;
}

static size_t test_held_chain(book *b) { return test_chain(b, 1); }

static size_t test_denied_chain(book *b) { return test_chain(b, -1); }

/* A choice of 1 to 6, and 20 pairs of which both follow where a term holds. So the pairs are all there or none, and of a
 * set that is found it must be shown that no part of it is closed, which takes many dead ends. */
static size_t test_terms(book *b) {
    const int free = 6, pairs = 20, last = free + 2 * pairs + 1;
    const uint64_t all = ((UINT64_C(1) << (2 * pairs + 1)) - 1) << free;
    begin(b, BANTAMEASEL_MOST_STATEMENTS);
    for (int k = 0; k < 2 * pairs; k++) add(b, 'R', (row){.head = free + 1 + k, .needed = {last}});
    for (int k = 0; k < 60; k++) {
        int chosen = k % 2 ? 1 + k % free : -1 - k % free;
        int one = free + 1 + 2 * (k % pairs) + k % 2, other = free + 2 + 2 * ((k * 7 + 3) % pairs) - k / 20 % 2;
        add(b, 'R', (row){.head = last, .needed = {chosen, one, other}});
    }
    for (int k = 0; k < pairs; k++) {
        int one = free + 1 + 2 * k, other = free + 2 + 2 * ((k + 1) % pairs);
        add(b, 'R', (row){.head = last, .needed = {one, other}});
    }
    add(b, 'R', (row){.barred = {last}});
    for (int k = 1; k <= free; k++) either(b, (row){.heads = {k, -k}});
    for (int k = 0; k < pairs; k++) either(b, (row){.heads = {free + 1 + 2 * k, free + 2 + 2 * k}});
    add(b, 'X', (row){.head = last, .needed = {1}});
    return test_deep(b, (bantameasel_pair){1, all | 1, 62});
}

/* Sets with one of three in each of forty lines, which bring each other about in a circle of all 48. */
static size_t test_circle_of_heads(book *b) {
    begin(b, BANTAMEASEL_MOST_STATEMENTS);
    for (int k = 0; k < 48; k++) add(b, 'R', (row){.head = 1 + (k + 1) % 48, .needed = {1 + k}});
    for (int k = 0; k < BANTAMEASEL_MOST_ALTERNATIVES; k++)
        either(b, (row){.heads = {1 + k, 1 + (k + 16) % 48, 1 + (k + 32) % 48}});
    return test_deep(b, (bantameasel_pair){0, (UINT64_C(1) << 48) - 1, 0});
}

/* The smallest sets with one of three in each of forty lines. */
static size_t test_hitting(book *b) {
    begin(b, BANTAMEASEL_MOST_STATEMENTS);
    for (int k = 0; k < BANTAMEASEL_MOST_ALTERNATIVES; k++)
        either(b, (row){.heads = {1 + k, 1 + (k * 5 + 7) % 48, 1 + (k * 11 + 3) % 48}});
    return test_deep(b, (bantameasel_pair){0, 0, 0});
}

/* Every statement is a choice. */
static size_t test_choices(book *b) {
    choices(b, 48, 48);
    return test_deep(b, (bantameasel_pair){0, 0, (UINT64_C(1) << 48) - 1});
}

/* Read, Write and Line on a full book, in this order: Write takes the table that Read wrote. They search for nothing. */
static void test_small(book *b) {
    static job *const calls[] = {call_read, call_write, call_line};
    full(b);
    for (size_t k = 0; k < sizeof calls / sizeof calls[0]; k++) {
        task t = {.call = calls[k], .of = b};
        t.count = BANTAMEASEL_LAST_REFUSAL;
        expect("a small stack", deepest(&t, SMALL_STACK) < SMALL_STACK, 1);
        expect("not refused", t.count, BANTAMEASEL_NOT_REFUSED);
    }
}

/* Set, Go and Drop on a store that Set makes full: what a thread takes that calls nothing is not theirs. */
static void test_stores_small(void) {
    static job *const calls[] = {call_set, call_go, call_drop};
    task none = {.call = call_nothing};
    size_t own = deepest(&none, SMALL_STACK), most = 0;
    for (int k = 1; k < BANTAMEASEL_MOST_NAMES; k++) {
        char word[3] = {(char)('A' + k % 26), (char)('0' + k / 26), '\0'};
        expect("Set", bantameasel_set(store, BANTAMEASEL_STORE, bantameasel_name_of(word), none.pair).refusal, 0);
    }
    for (size_t k = 0; k < sizeof calls / sizeof calls[0]; k++) {
        task t = {.call = calls[k], .count = BANTAMEASEL_LAST_REFUSAL};
        size_t used = deepest(&t, SMALL_STACK);
        expect("not refused", t.count, BANTAMEASEL_NOT_REFUSED);
        if (used > most) most = used;
    }
    printf("stack: Set, Go and Drop used at most %zu bytes beside the %zu of a thread that calls nothing\n",
           most > own ? most - own : 0, own);
    expect("the stack of Set, Go and Drop", most < own + LEAST_STACK, 1);
}

/* A call that takes more stack than this ends the program by a signal. */
void test_stack(void) {
    static size_t (*const tests[])(book *) = {
        test_denied,     test_dead_ends,    test_needed,  test_judged, test_conditional,
        test_held_chain, test_denied_chain, test_choices, test_terms,  test_circle_of_heads,
        test_hitting};
    size_t most = 0;
    book b;
    printf("stack: the deepest books in threads with %d bytes\n", BANTAMEASEL_MOST_STACK);
    fflush(stdout);
    for (size_t k = 0; k < sizeof tests / sizeof tests[0]; k++) {
        size_t used = tests[k](&b);
        if (used > most) most = used;
    }
    printf("stack: at most %zu bytes were used, the thread's own included\n", most);
    test_small(&b);
    test_stores_small();
}

/* Each thread asks for the first page again and again. */
static void call_pages(task *t) {
    for (int round = 0; round < ROUNDS; round++) call_first_page(t);
}

/* Many threads at once, on one text: each has the answers that one alone has. */
void test_threads(void) {
    static task tasks[THREADS];
    pthread_t threads[THREADS];
    book b;
    choices(&b, 48, 48);
    finish(&b);
    task alone = {.call = call_first_page, .of = &b};
    work(&alone);
    for (int k = 0; k < THREADS; k++) {
        tasks[k] = (task){.call = call_pages, .of = &b};
        expect("a thread", (uint64_t)pthread_create(&threads[k], NULL, work, &tasks[k]), 0);
    }
    for (int k = 0; k < THREADS; k++) {
        pthread_join(threads[k], NULL);
        expect("the count of one thread among many", tasks[k].count, alone.count);
        expect("its pairs", memcmp(tasks[k].pairs, alone.pairs, sizeof alone.pairs) != 0, 0);
    }
}
