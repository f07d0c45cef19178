/* NULL in the place of every slice that has length 0. */
#include <stdlib.h>
#include <string.h>

#include "book.h"

/* Every function without a text: refused as an empty one. */
static void test_no_text(bantameasel_pair pair) {
    const uint32_t empty = BANTAMEASEL_REFUSED_TEXT_END;
    expect_refusal("Read", bantameasel_read(NULL, 0, NULL, 0).refusal, empty);
    expect_refusal("Judge", bantameasel_judge(NULL, 0, pair).refusal, empty);
    expect_refusal("First", bantameasel_first(NULL, 0).refusal, empty);
    expect_refusal("After", bantameasel_after(NULL, 0, pair).refusal, empty);
    expect_refusal("Line", bantameasel_line(NULL, 0, pair, NULL, 0).refusal, empty);
    expect_refusal("the first page", bantameasel_first_page(NULL, 0, NULL, 0).refusal, empty);
    expect_refusal("the page after", bantameasel_page_after(NULL, 0, pair, NULL, 0).refusal, empty);
    expect_refusal("Write", bantameasel_write(NULL, 0, NULL, 0).refusal, BANTAMEASEL_REFUSED_TABLE_LENGTH);
}

/* Every function with a text of its own, on the heap so that nothing past it can be read unseen, and no room. */
static void test_no_room(const uint8_t *text, size_t length, bantameasel_pair pair) {
    const uint32_t no_room = BANTAMEASEL_REFUSED_BUFFER_SHORT;
    const int32_t table[6] = {1, 0, 0, 0, 0, 0};
    expect_refusal("Read", bantameasel_read(text, length, NULL, 0).refusal, no_room);
    expect_refusal("Write", bantameasel_write(table, 6, NULL, 0).refusal, no_room);
    expect_refusal("Line", bantameasel_line(text, length, pair, NULL, 0).refusal, no_room);
    bantameasel_page page = bantameasel_first_page(text, length, NULL, 0);
    expect_refusal("the first page", page.refusal, BANTAMEASEL_NOT_REFUSED);
    expect("the first page's count", page.count, 0);
    page = bantameasel_page_after(text, length, pair, NULL, 0);
    expect_refusal("the page after", page.refusal, BANTAMEASEL_NOT_REFUSED);
    expect("its count", page.count, 0);
    expect("no room for a pair", bantameasel_first_pairs(text, length, NULL, 0).count, 0);
}

/* Set, Go and Drop without a store, and with one of their own on the heap, so that nothing past it can be read or
 * written unseen. */
static void test_no_store(bantameasel_pair pair) {
    const uint32_t none = BANTAMEASEL_REFUSED_STORE;
    bantameasel_name name = bantameasel_name_of("LINING");
    expect_refusal("Set", bantameasel_set(NULL, 0, name, pair).refusal, none);
    expect_refusal("Go", bantameasel_go(NULL, 0, name).refusal, none);
    expect_refusal("Drop", bantameasel_drop(NULL, 0, name).refusal, none);
    uint8_t *store = calloc(1, BANTAMEASEL_STORE);
    expect("memory", store != NULL, 1);
    for (int k = 0; k < BANTAMEASEL_MOST_NAMES; k++) {
        char word[3] = {(char)('A' + k % 26), (char)('0' + k / 26), '\0'};
        expect("Set", bantameasel_set(store, BANTAMEASEL_STORE, bantameasel_name_of(word), pair).refusal, 0);
    }
    expect_refusal("one name more", bantameasel_set(store, BANTAMEASEL_STORE, name, pair).refusal,
                   BANTAMEASEL_REFUSED_STORE_FULL);
    expect_refusal("no such name", bantameasel_go(store, BANTAMEASEL_STORE, name).refusal, BANTAMEASEL_REFUSED_NAME);
    expect("Drop", bantameasel_drop(store, BANTAMEASEL_STORE, bantameasel_name_of("A0")).refusal, 0);
    expect("Go", bantameasel_go(store, BANTAMEASEL_STORE, bantameasel_name_of("Z0")).found, 1);
    free(store);
}

void test_null(void) {
    bantameasel_pair pair = {0, 1, 0};
    book b;
    test_no_text(pair);
    test_no_store(pair);
    choices(&b, 3, 3);
    finish(&b);
    uint8_t *text = malloc(b.length);
    expect("memory", text != NULL, 1);
    memcpy(text, b.bytes, b.length);
    test_no_room(text, b.length, pair);
    free(text);
}
