/* The engine's library with a deliberate fault, to show that the test program can fail: Set, Go and Drop. The functions
 * here stand in the place of the true ones, and give their answers but for the fault that is asked for. */
#include <ctype.h>

#include "true.h"

enum { STORE = BANTAMEASEL_STORE, MOST = BANTAMEASEL_MOST_NAMES, NAME = 8, ENTRY = 32, WORD = 8 };

/* How many entries stand at a store's start. */
static int count_of(const uint8_t *store) {
    int count = 0;
    while (count < MOST && store[ENTRY * count] != 0) count++;
    return count;
}

/* The first entry whose name has the same first bytes, so many of them, or NULL. */
static uint8_t *entry_of(uint8_t *store, bantameasel_name name, size_t bytes) {
    uint8_t *end = store + ENTRY * count_of(store);
    for (uint8_t *entry = store; entry < end; entry += ENTRY) {
        if (memcmp(entry, name.bytes, bytes) == 0) return entry;
    }
    return NULL;
}

/* Moves the entries from this one on up by one, into the last entry's place and past it, if there is room. */
static void open_gap(uint8_t *store, uint8_t *entry) {
    if (count_of(store) < MOST) memmove(entry + ENTRY, entry, (size_t)(store + STORE - ENTRY - entry));
}

static int is_misspelt(bantameasel_name name) {
    uint8_t empty[STORE] = {0};
    return true_set(empty, STORE, name, (bantameasel_pair){0}).refusal == 25;
}

/* ---- layout: stores that are kept otherwise, and read as they are kept */

static int by_name(const void *one, const void *other) { return memcmp(one, other, NAME); }

static int from_last_byte(const void *one, const void *other) {
    const uint8_t *left = one, *right = other;
    int place = NAME - 1;
    while (place > 0 && left[place] == right[place]) place--;
    return left[place] - right[place];
}

static int digits_last(const void *one, const void *other) {
    const uint8_t *left = one, *right = other;
    int place = 0;
    while (place < NAME - 1 && left[place] == right[place]) place++;
    return (isdigit(left[place]) ? 128 : left[place]) - (isdigit(right[place]) ? 128 : right[place]);
}

static void sort(uint8_t *store, int (*order)(const void *, const void *)) {
    qsort(store, (size_t)count_of(store), ENTRY, order);
}

/* Exchanges held and denied, or turns every number round, in every entry; twice gives the same again. */
static void turn_numbers(uint8_t *store) {
    uint8_t old[STORE];
    memcpy(old, store, STORE);
    for (int place = 0; place < STORE; place++) {
        int word = place % ENTRY / WORD;
        if (fault("held and denied are stored in each other's place") && word > 1)
            store[place] = old[word == 2 ? place + WORD : place - WORD];
        if (fault("the greatest byte comes first") && word > 0) store[place] = old[place + 7 - 2 * (place % WORD)];
    }
}

/* Makes of bytes that are kept with a fault those that the true library takes. */
static void to_true(uint8_t *store) {
    turn_numbers(store);
    if (fault("names are compared from the last byte") || fault("digits come after letters") ||
        fault("the order of a store's names is not looked at"))
        sort(store, by_name);
    if (fault("bytes behind the last entry are not looked at"))
        memset(store + ENTRY * count_of(store), 0, (size_t)(STORE - ENTRY * count_of(store)));
}

static void from_true(uint8_t *store) {
    turn_numbers(store);
    if (fault("names are compared from the last byte")) sort(store, from_last_byte);
    if (fault("digits come after letters")) sort(store, digits_last);
}

/* ---- what is seen of the arguments */

static size_t seen_length(size_t length) {
    return fault("a store may be a byte longer") && length == STORE + 1 ? STORE : length;
}

/* The name as it is seen: one that is wrongly taken becomes one that is rightly spelt. */
static bantameasel_name seen_name(bantameasel_name name) {
    for (int place = 0; place < NAME; place++) {
        uint8_t *byte = &name.bytes[place];
        int inside = place > 0 && place < NAME - 1 && name.bytes[place + 1] != ' ';
        if (fault("a name with a space inside is taken") && *byte == ' ' && inside) *byte = '0';
        if (fault("small letters are taken")) *byte = (uint8_t)toupper(*byte);
        if (fault("zeros behind a name are taken") && *byte == 0 && place > 0) *byte = ' ';
    }
    return name;
}

/* ---- refusals */

/* The refusal that is given in the place of the true one, whichever the call. */
static uint32_t other_refusal(uint32_t number, const uint8_t *before, size_t length, bantameasel_name name) {
    int is_store = length == STORE && number != 24;
    if (fault("25 comes before 24") && number == 24 && is_misspelt(name)) return 25;
    if (fault("a full store is no store") && is_store && count_of(before) == MOST) return 24;
    if (fault("a name of eight letters is misspelt") && is_store && name.bytes[NAME - 1] != ' ') return 25;
    return number;
}

/* The refusal that Set gives in the place of the true one. */
static uint32_t other_of_set(uint32_t number, uint8_t *before, bantameasel_name name, bantameasel_pair pair) {
    if (number == 24) return number;
    int full = count_of(before) == MOST;
    if (fault("26 comes before 25") && number == 25 && full) return 26;
    if (fault("26 is given for a name that is there") && full && entry_of(before, name, NAME) != NULL) return 26;
    if (fault("Set refuses what is held and denied") && number == 0 && (pair.held & pair.denied) != 0) return 14;
    return number;
}

static uint64_t line_of(uint32_t number) { return fault("24 has line 1") && number == 24; }

/* ---- Set */

/* Changes what Set has left in a store. */
static void change_set(uint8_t *store, uint8_t *before, bantameasel_name name) {
    uint8_t *entry = entry_of(store, name, NAME), *last = store + STORE - ENTRY;
    int is_new = entry_of(before, name, NAME) == NULL;
    if (fault("an equal name is kept twice") && !is_new) open_gap(store, entry);
    if (fault("the entry at the 32nd place is lost") && is_new && last[0] != 0) memset(last, 0, ENTRY);
    if (fault("a new name is put last") && is_new) {
        uint8_t kept[ENTRY], *end = store + ENTRY * (count_of(store) - 1);
        memcpy(kept, entry, ENTRY);
        memmove(entry, entry + ENTRY, (size_t)(end - entry));
        memcpy(end, kept, ENTRY);
    }
}

/* Changes what a refused Set has left. */
static void change_refused_set(uint32_t number, uint8_t *store, size_t length, bantameasel_name name) {
    if (fault("a refused Set writes") && length > 0) store[length - 1] ^= 1;
    if (fault("a Set that meets 26 replaces the last name") && number == 26) {
        memcpy(store + STORE - ENTRY, name.bytes, NAME);
    }
}

/* The last store that was written, for the fault of Go that asks for it. */
static uint8_t written[STORE];

bantameasel_done bantameasel_set(uint8_t *store, size_t length, bantameasel_name name, bantameasel_pair pair) {
    uint8_t before[STORE], *alike = NULL;
    length = seen_length(length), name = seen_name(name);
    if (length != STORE) {
        bantameasel_done refused = true_set(store, length, name, pair);
        change_refused_set(refused.refusal, store, length, name);
        return (bantameasel_done){other_refusal(refused.refusal, store, length, name), line_of(refused.refusal)};
    }
    memcpy(before, store, STORE);
    to_true(store);
    if (fault("Set keeps 48 bits of a number")) pair.denied = pair.denied << 16 >> 16;
    if (fault("Set compares the first seven bytes of a name")) alike = entry_of(store, name, NAME - 1);
    if (alike != NULL && !is_misspelt(name)) memcpy(name.bytes, alike, NAME);
    bantameasel_done answer = true_set(store, STORE, name, pair);
    if (answer.refusal == 0) change_set(store, before, name);
    from_true(store);
    uint32_t number = other_refusal(answer.refusal, before, STORE, name);
    number = other_of_set(number, before, name, pair);
    if (number != 0) memcpy(store, before, STORE), change_refused_set(number, store, STORE, name);
    memcpy(written, store, STORE);
    return (bantameasel_done){number, line_of(number)};
}

/* ---- Go */

bantameasel_pair gone_to = {UINT64_MAX, UINT64_MAX, UINT64_MAX};

/* Makes a rightly spelt name of a full store's last one if it has a colon in its last column. */
static void take_colon(uint8_t *store) {
    uint8_t *last = store + STORE - ENTRY + NAME - 1;
    if (count_of(store) == MOST && *last == ':') *last = last[-1] == ' ' ? ' ' : 'Z';
}

/* The answer of Go for an absent name: the pair of the first later name. */
static bantameasel_answer of_neighbour(const uint8_t *store, bantameasel_name name, bantameasel_answer answer) {
    bantameasel_name other;
    for (int place = 0; place < count_of(store); place++) {
        memcpy(other.bytes, store + ENTRY * place, NAME);
        if (memcmp(other.bytes, name.bytes, NAME) > 0) return true_go(store, STORE, other);
    }
    return answer;
}

/* Changes what Go answers. */
static bantameasel_answer change_go(bantameasel_answer answer, const uint8_t *store, bantameasel_name name) {
    bantameasel_pair pair = answer.pair;
    int nothing = (pair.taken | pair.held | pair.denied) == 0;
    if (fault("Go answers the neighbour of a missing name") && answer.refusal == 25 && !is_misspelt(name))
        answer = of_neighbour(store, name, answer);
    if (fault("Go answers that it found nothing")) answer.found = 0;
    if (fault("Go takes 0, 0, 0 for a missing point") && answer.found && nothing) answer.refusal = 25, answer.found = 0;
    if (fault("Go exchanges held and denied")) answer.pair = (bantameasel_pair){pair.taken, pair.denied, pair.held};
    return answer;
}

bantameasel_answer bantameasel_go(const uint8_t *store, size_t length, bantameasel_name name) {
    uint8_t copy[STORE];
    length = seen_length(length), name = seen_name(name);
    if (length == STORE) {
        memcpy(copy, fault("Go looks at the store that was written last") ? written : store, STORE);
        if (fault("Go writes the store")) ((uint8_t *)store)[STORE - 1] ^= 1;
        to_true(copy);
        if (fault("Go takes a colon in the last column of the 32nd name")) take_colon(copy);
        store = copy;
    }
    bantameasel_answer answer = true_go(store, length, name);
    if (length == STORE) answer = change_go(answer, store, name);
    uint32_t number = other_refusal(answer.refusal, store, length, name);
    if (number != answer.refusal) answer = (bantameasel_answer){.refusal = number};
    answer.line = line_of(number);
    if (answer.found) gone_to = answer.pair;
    return answer;
}

/* ---- Drop */

/* Changes what Drop has left in a store. */
static void change_drop(uint8_t *store, uint8_t *before, bantameasel_name name) {
    size_t at = (size_t)(entry_of(before, name, NAME) - before), last = ENTRY * (size_t)count_of(store);
    if (fault("Drop leaves the gap open")) memcpy(store, before, STORE), memset(store + at, 0, ENTRY);
    if (fault("Drop leaves the last entry's bytes behind")) memcpy(store + last, before + last, ENTRY);
    if (fault("Drop leaves the last entry's pair behind"))
        memcpy(store + last + NAME, before + last + NAME, ENTRY - NAME);
}

bantameasel_done bantameasel_drop(uint8_t *store, size_t length, bantameasel_name name) {
    uint8_t before[STORE];
    length = seen_length(length), name = seen_name(name);
    if (length == STORE) memcpy(before, store, STORE), to_true(store);
    bantameasel_done answer = true_drop(store, length, name);
    uint32_t number = other_refusal(answer.refusal, length == STORE ? before : store, length, name);
    if (length == STORE) {
        if (answer.refusal == 0) change_drop(store, before, name);
        from_true(store);
        if (number != 0) memcpy(store, before, STORE);
        memcpy(written, store, STORE);
    }
    if (fault("Drop of a missing name is done") && number == 25 && !is_misspelt(name)) number = 0;
    if (fault("a refused Drop writes") && number != 0 && length > 0) store[0] ^= 1;
    return (bantameasel_done){number, line_of(number)};
}
