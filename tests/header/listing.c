/* The two listings of the header's comment, as they stand there: both show the same pairs. */
#include <string.h>

#include "book.h"

enum { SHOWN = 1000 };

typedef struct {
    bantameasel_pair pairs[SHOWN];
    size_t count;
} list;

static list one_by_one, in_pages, *showing;

static void show(bantameasel_pair pair) {
    expect("room for the listing of a test", showing->count < SHOWN, 1);
    showing->pairs[showing->count++] = pair;
}

static void list_one_by_one(const uint8_t *text, size_t length) {
#include "listing.inc"
}

static void list_in_pages(const uint8_t *text, size_t length) {
#include "pages.inc"
}

static void test_listing(book *b, size_t count) {
    finish(b);
    memset(&one_by_one, 0, sizeof one_by_one);
    memset(&in_pages, 0, sizeof in_pages);
    showing = &one_by_one;
    list_one_by_one(b->bytes, b->length);
    showing = &in_pages;
    list_in_pages(b->bytes, b->length);
    expect("resolutions one by one", one_by_one.count, count);
    expect("resolutions in pages", in_pages.count, count);
    expect("the same pairs", memcmp(&one_by_one, &in_pages, sizeof one_by_one) != 0, 0);
}

/* Of these conclusions exactly one. */
static void one_of(book *b, const int *conclusions, int count) {
    for (int k = 0; k < count; k++) {
        row r = {.head = conclusions[k]};
        for (int other = 0, place = 0; other < count; other++)
            if (other != k) r.barred[place++] = conclusions[other];
        add(b, 'R', r);
    }
}

/* No page, a page that is not full, one that is, and several. */
void test_listings(void) {
    static const int one_to_five[5] = {1, 2, 3, 4, 5}, six_to_ten[5] = {6, 7, 8, 9, 10}, others[4] = {11, 12, 13, 14};
    book b;
    begin(&b, 1);
    add(&b, 'R', (row){.head = 1, .barred = {1}});
    test_listing(&b, 0);
    choices(&b, 3, 3);
    test_listing(&b, 8);
    choices(&b, 9, 9);
    test_listing(&b, 512);
    begin(&b, 14);
    one_of(&b, one_to_five, 5);
    one_of(&b, six_to_ten, 5);
    one_of(&b, others, 4);
    test_listing(&b, 100);
    begin(&b, 49);
    test_listing(&b, 0);
}
