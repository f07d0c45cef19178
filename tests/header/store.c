/* Stores of stopping points: what Set, Go and Drop answer and write, by the worked calls and at every edge; names made
 * from words; the two pieces of code in the header's comment, as they stand there. */
#include <stdlib.h>
#include <string.h>

#include "book.h"

enum { ENTRY = BANTAMEASEL_STORE / BANTAMEASEL_MOST_NAMES };

static const bantameasel_pair SOME = {1, 5, 2};

/* A store under test, with what it held before a call. */
static uint8_t store[BANTAMEASEL_STORE], before[BANTAMEASEL_STORE];

/* An entry as its 64 hexadecimal digits stand in the worked calls; its bytes go to place k of a store. */
static void put_entry(uint8_t *to, size_t k, const char *digits) {
    for (size_t byte = 0; byte < ENTRY; byte++) {
        char two[3] = {digits[2 * byte], digits[2 * byte + 1], '\0'};
        to[ENTRY * k + byte] = (uint8_t)strtoul(two, NULL, 16);
    }
}

/* The store has these entries, up to the first that is NULL, and zeros behind them. */
static void holds(const char *what, const char *const entries[3]) {
    uint8_t wanted[BANTAMEASEL_STORE] = {0};
    for (size_t k = 0; k < 3 && entries[k] != NULL; k++) put_entry(wanted, k, entries[k]);
    expect(what, memcmp(store, wanted, sizeof store) != 0, 0);
}

/* A call on the store is done or refused so, with line 0; refused, it leaves every byte as it was. */
static void answered(const char *what, bantameasel_done got, uint32_t refusal) {
    expect_refusal(what, got.refusal, refusal);
    expect("the line of Set and Drop", got.line, 0);
    if (refusal != 0) expect("a store after a refusal", memcmp(store, before, sizeof store) != 0, 0);
}

static void set(const char *word, bantameasel_pair pair, uint32_t refusal) {
    memcpy(before, store, sizeof store);
    answered("Set", bantameasel_set(store, sizeof store, bantameasel_name_of(word), pair), refusal);
}

static void drop(const char *word, uint32_t refusal) {
    memcpy(before, store, sizeof store);
    answered("Drop", bantameasel_drop(store, sizeof store, bantameasel_name_of(word)), refusal);
}

static void go(const char *word, bantameasel_pair pair, uint32_t refusal) {
    memcpy(before, store, sizeof store);
    bantameasel_answer got = bantameasel_go(store, sizeof store, bantameasel_name_of(word));
    if (refusal != 0) memset(&pair, 0, sizeof pair);
    expect_refusal("Go", got.refusal, refusal);
    expect("the line of Go", got.line, 0);
    expect("whether Go found it", got.found, refusal == 0);
    expect("the pair of a name", memcmp(&got.pair, &pair, sizeof pair) != 0, 0);
    expect("a store after Go", memcmp(store, before, sizeof store) != 0, 0);
}

/* The worked calls, from an empty store to an empty one. */
static void test_worked(void) {
    const char *b = "4220202020202020010000000000000005000000000000000200000000000000";
    const char *a1 = "4131202020202020ffff00000000000003000000000000000300000000000000";
    const char *a1_again = "4131202020202020020000000000000004000000000000000800000000000000";
    const char *a = "4120202020202020000000000000000000000000000000000000000000000100";
    const uint32_t absent = BANTAMEASEL_REFUSED_NAME;
    memset(store, 0, sizeof store);
    set("B", SOME, 0);
    holds("B", (const char *[3]){b});
    set("A1", (bantameasel_pair){65535, 3, 3}, 0);
    holds("A1 before B", (const char *[3]){a1, b});
    set("A", (bantameasel_pair){0, 0, UINT64_C(1) << 48}, 0);
    holds("A before A1", (const char *[3]){a, a1, b});
    go("A1", (bantameasel_pair){65535, 3, 3}, 0);
    go("C", SOME, absent);
    set("A1", (bantameasel_pair){2, 4, 8}, 0);
    holds("A1 again", (const char *[3]){a, a1_again, b});
    drop("A", 0);
    holds("A dropped", (const char *[3]){a1_again, b});
    drop("A", absent);
    set("A B", SOME, absent);
    set("        ", SOME, absent);
    drop("B", 0);
    holds("B dropped", (const char *[3]){a1_again});
    drop("A1", 0);
    holds("all dropped", (const char *[3]){NULL});
}

/* All three calls refuse the first bytes of a slice, so many of them, by 24, whatever the name and the pair. */
static void no_store(size_t length) {
    static const char *const words[] = {"A", "", "B C"};
    uint8_t *slice = malloc(length), *kept = malloc(length);
    expect("memory", slice != NULL && kept != NULL, 1);
    memset(slice, 0, length);
    memcpy(slice, store, length < sizeof store ? length : sizeof store);
    memcpy(kept, slice, length);
    for (size_t k = 0; k < sizeof words / sizeof words[0]; k++) {
        bantameasel_name name = bantameasel_name_of(words[k]);
        bantameasel_answer gone = bantameasel_go(slice, length, name);
        expect_refusal("Set", bantameasel_set(slice, length, name, SOME).refusal, BANTAMEASEL_REFUSED_STORE);
        expect_refusal("Drop", bantameasel_drop(slice, length, name).refusal, BANTAMEASEL_REFUSED_STORE);
        expect_refusal("Go", gone.refusal, BANTAMEASEL_REFUSED_STORE);
        expect("Go's answer", gone.found | gone.line | gone.pair.taken | gone.pair.held | gone.pair.denied, 0);
        expect("bytes that are no store", memcmp(slice, kept, length) != 0, 0);
    }
    free(slice);
    free(kept);
}

/* Makes the store one of A and B with their pairs. */
static void two_names(void) {
    memset(store, 0, sizeof store);
    set("A", SOME, 0);
    set("B", SOME, 0);
}

/* The store with a byte changed is none, in calls of the right length. */
static void spoilt(size_t at, uint8_t byte) {
    two_names();
    store[at] = byte;
    no_store(sizeof store);
}

static void test_no_stores(void) {
    static const uint8_t odd[] = {0, 1, '-', '/', ':', '@', '[', '`', 'a', 'z', 127, 128, 255};
    two_names();
    no_store(BANTAMEASEL_STORE - 1);
    no_store(BANTAMEASEL_STORE + 1);
    no_store(ENTRY);
    no_store(2 * BANTAMEASEL_STORE);
    for (size_t k = 0; k < sizeof odd; k++) spoilt(3, odd[k]);
    spoilt(0, ' ');
    spoilt(0, 0);
    spoilt(0, 'B');
    spoilt(0, 'C');
    spoilt(2, 'A');
    spoilt(2 * ENTRY, 'C');
    spoilt(2 * ENTRY + 8, 1);
    spoilt(BANTAMEASEL_STORE - 1, 1);
    two_names();
    memcpy(store + 3 * ENTRY, store + ENTRY, ENTRY);
    no_store(sizeof store);
    memset(store, ' ', 8);
    no_store(sizeof store);
}

/* A change in an entry's last 24 bytes leaves it a store, with another pair. */
static void test_any_pair(void) {
    const bantameasel_pair most = {UINT64_MAX, UINT64_MAX, UINT64_MAX}, none = {0, 0, 0};
    two_names();
    for (size_t at = 8; at < ENTRY; at++) {
        store[at] = 255;
        go("B", SOME, 0);
    }
    go("A", most, 0);
    set("B", none, 0);
    go("B", none, 0);
    set("C", most, 0);
    go("C", most, 0);
    set("C", (bantameasel_pair){UINT64_C(0x0807060504030201), 0, 0}, 0);
    for (uint8_t k = 0; k < 8; k++) expect("the least byte first", store[2 * ENTRY + 8 + k], k + 1);
}

/* Name k of those that fill a store: A, A0, A1 to A9, AA, AB and so on, ascending. */
static const char *word_of(int k) {
    static const char letters[] = "0123456789ABCDEFGHIJKLMNOPQRSTUVWXYZ";
    static char word[3];
    word[0] = 'A';
    word[1] = k == 0 ? '\0' : letters[k - 1];
    word[2] = '\0';
    return word;
}

/* A full store, filled in falling order, refuses one name more, but not one that it has. */
static void test_full(void) {
    const int most = BANTAMEASEL_MOST_NAMES;
    const bantameasel_pair other = {7, 8, 9};
    memset(store, 0, sizeof store);
    for (int k = most - 1; k >= 0; k--) set(word_of(k), (bantameasel_pair){(uint64_t)k, 1, 2}, 0);
    for (int k = 0; k < most; k++) {
        bantameasel_name name = bantameasel_name_of(word_of(k));
        expect("names in order", memcmp(store + ENTRY * k, name.bytes, sizeof name.bytes) != 0, 0);
        go(word_of(k), (bantameasel_pair){(uint64_t)k, 1, 2}, 0);
    }
    set("A1B", other, BANTAMEASEL_REFUSED_STORE_FULL);
    set("0", other, BANTAMEASEL_REFUSED_STORE_FULL);
    set("Z", other, BANTAMEASEL_REFUSED_STORE_FULL);
    set("a", other, BANTAMEASEL_REFUSED_NAME);
    go("Z", other, BANTAMEASEL_REFUSED_NAME);
    drop("Z", BANTAMEASEL_REFUSED_NAME);
    set(word_of(5), other, 0);
    go(word_of(5), other, 0);
    drop(word_of(0), 0);
    expect("the last entry", store[BANTAMEASEL_STORE - ENTRY], 0);
    set("Z", other, 0);
    go("Z", other, 0);
    no_store(BANTAMEASEL_STORE + 1);
}

/* A name made from a word has these 8 bytes. */
static void made(const char *word, const char *bytes) {
    bantameasel_name name = bantameasel_name_of(word);
    expect(word, memcmp(name.bytes, bytes, sizeof name.bytes) != 0, 0);
}

static void test_name_of(void) {
    static const char *const misspelt[] = {"",   " ",   "lining", " A",  "A B", "A-B",       "A\n",
                                           "\t", "A_1", "\xc4",   "A\"", "[",   "ABCDEFGHI", "A        "};
    static const char *const right[] = {"A", "Z", "0", "9", "LINING", "ABCDEFGH", "01234567", "A  ", "STUVWXYZ"};
    made("A", "A       ");
    made("LINING", "LINING  ");
    made("ABCDEFGH", "ABCDEFGH");
    made("", "        ");
    two_names();
    for (size_t k = 0; k < sizeof misspelt / sizeof misspelt[0]; k++) {
        set(misspelt[k], SOME, BANTAMEASEL_REFUSED_NAME);
        go(misspelt[k], SOME, BANTAMEASEL_REFUSED_NAME);
        drop(misspelt[k], BANTAMEASEL_REFUSED_NAME);
    }
    for (size_t k = 0; k < sizeof right / sizeof right[0]; k++) {
        memset(store, 0, sizeof store);
        set(right[k], SOME, 0);
        go(right[k], SOME, 0);
        drop(right[k], 0);
    }
    for (int length = 0; length < 300; length++) {
        char word[301] = {0};
        memset(word, 'A', (size_t)length);
        bantameasel_name name = bantameasel_name_of(word);
        expect("the front of a word's name", name.bytes[0] == ' ', length == 0 || length > 8);
    }
}

/* ---- the code of the header's comment ---- */

static uint8_t kept[BANTAMEASEL_STORE];
static bantameasel_pair shown[10];
static size_t count;
static const char *told;

static void keep(const uint8_t *bytes) { memcpy(kept, bytes, sizeof kept); }

static void tell(const char *words) { told = words; }

static void show(bantameasel_pair pair) {
    expect("room for what a test shows", count < 10, 1);
    shown[count++] = pair;
}

static void name_it(bantameasel_pair pair) {
#include "naming.inc"
}

static void come_back(const uint8_t *store, const uint8_t *text, size_t length) {
#include "return.inc"
}

/* Going on from a pair that was named: so many resolutions, or words about this refusal. */
static void test_return(const book *b, bantameasel_pair pair, size_t wanted, uint32_t refusal) {
    told = NULL;
    count = 0;
    name_it(pair);
    expect("the name was told of", told != NULL, 0);
    come_back(kept, b->bytes, b->length);
    expect("what follows a named pair", count, wanted);
    expect("words", told != NULL, refusal != 0);
    if (refusal != 0) expect("the words", strcmp(told, bantameasel_refusal_words(refusal)) != 0, 0);
}

/* The book has the resolutions of statements 1 and 2 held or denied as one likes, four of them. */
static void test_comment(void) {
    book b;
    choices(&b, 2, 2);
    finish(&b);
    test_return(&b, (bantameasel_pair){0, 3, 0}, 3, 0);
    test_return(&b, (bantameasel_pair){0, 2, 1}, 1, 0);
    expect("the last resolution", shown[0].denied, 3);
    test_return(&b, (bantameasel_pair){0, 0, 3}, 0, 0);
    test_return(&b, (bantameasel_pair){0, 0, 0}, 4, 0);
    test_return(&b, (bantameasel_pair){1, 0, 0}, 0, BANTAMEASEL_REFUSED_PAIR_TAKEN);
    test_return(&b, (bantameasel_pair){0, 4, 0}, 0, BANTAMEASEL_REFUSED_PAIR_STATEMENT);
    test_return(&b, (bantameasel_pair){0, 1, 1}, 0, BANTAMEASEL_REFUSED_PAIR_BOTH);
    memset(kept, 0, sizeof kept);
    come_back(kept, b.bytes, b.length);
    expect("no such name", strcmp(told, bantameasel_refusal_words(BANTAMEASEL_REFUSED_NAME)) != 0, 0);
}

void test_stores(void) {
    expect("bytes of a store", BANTAMEASEL_STORE, 1024);
    expect("bytes of an entry", ENTRY, 8 + sizeof(bantameasel_pair));
    test_worked();
    test_no_stores();
    test_any_pair();
    test_full();
    test_name_of();
    test_comment();
}
