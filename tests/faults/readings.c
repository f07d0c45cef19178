/* The engine's library with a deliberate fault, to show that the test program can fail: other readings of what Q or O
 * lines mean, on small books that have some. The pairs that satisfy everything but rankings are taken from the true
 * library, by the same book without P and Q lines, or from heads.c; what ranks is worked out here. */
#include "alternatives.h"

enum { MOST_PAIRS = 3000, MOST_VIEWS = 400, SIXTEEN = BANTAMEASEL_MOST_EXCEPTIONS };

/* The bits of P lines among the lines of a book; those of Q lines follow. */
#define P_LINES UINT64_C(0xffffffff)

/* A pair that no ranking forbids, the P and Q lines that count in it, and what it is by the reading. */
typedef struct {
    bantameasel_pair pair;
    uint64_t lines;
    int stands, resolved;
} view;

/* The book that was read last, and its views in the order of pairs. */
static struct {
    uint8_t text[BANTAMEASEL_MOST_TEXT];
    size_t length;
    int32_t table[BANTAMEASEL_MOST_TABLE];
    view views[MOST_VIEWS];
    int count, known;
} last;

/* What comes before what: from each exception the set of those that it leads to. */
typedef struct {
    uint64_t to[SIXTEEN];
} relation;

/* Whether the fault is another reading. */
static int reads_otherwise(void) {
    return fault("domination goes by chains of each set") || fault("domination goes by lines and not by steps") ||
           fault("domination goes by the dominating set alone") || fault("domination goes by the dominated set alone") ||
           fault("domination goes by the steps of either set") || fault("domination goes by P lines alone") ||
           fault("domination goes by single steps") || fault("dominated views do not dominate") ||
           fault("a dominated smaller view excludes") || fault("verdict 2 goes by P lines alone") ||
           fault("verdict 2 goes by all Q lines") || fault("verdict 2 goes by single steps") ||
           fault("verdict 2 goes by the set without exceptions") || fault("verdict 5 comes before 4");
}

/* ---- rankings */

static int concluded(bantameasel_pair pair, int32_t entry) {
    return entry > 0 ? pair.held >> (entry - 1) & 1 : pair.denied >> (-entry - 1) & 1;
}

/* Whether a Q row's body is satisfied. */
static int counts(const int32_t *row, bantameasel_pair pair) {
    for (int place = 0; place < 4; place++) {
        int32_t needed = row[2 + place], barred = row[6 + place];
        if (needed != 0 && !concluded(pair, needed)) return 0;
        if (barred != 0 && concluded(pair, barred)) return 0;
    }
    return 1;
}

/* The two exceptions of a line. */
static const int32_t *order_at(int line) {
    const int32_t *orders = orders_of(last.table);
    if (line < 32) return orders + ORDER * line;
    return orders + ORDER * last.table[PREFERENCES] + CONDITIONAL * (line - 32);
}

/* The lines that count in a pair's conclusions. */
static uint64_t lines_in(bantameasel_pair pair) {
    uint64_t lines = (UINT64_C(1) << last.table[PREFERENCES]) - 1;
    for (int place = 0; place < last.table[CONDITIONALS]; place++) {
        if (counts(order_at(32 + place), pair)) lines |= UINT64_C(1) << (32 + place);
    }
    return lines;
}

static relation steps_of(uint64_t lines) {
    relation steps = {{0}};
    for (int line = 0; line < 64; line++) {
        if (lines >> line & 1) steps.to[order_at(line)[0] - 1] |= UINT64_C(1) << (order_at(line)[1] - 1);
    }
    return steps;
}

static relation chains_of(relation steps) {
    for (int through = 0; through < SIXTEEN; through++) {
        for (int from = 0; from < SIXTEEN; from++) {
            if (steps.to[from] >> through & 1) steps.to[from] |= steps.to[through];
        }
    }
    return steps;
}

static relation both(relation one, relation other) {
    for (int from = 0; from < SIXTEEN; from++) one.to[from] &= other.to[from];
    return one;
}

/* Whether some member of the one set leads to some member of the other. */
static int leads(relation to, uint64_t above, uint64_t below) {
    for (int from = 0; from < SIXTEEN; from++) {
        if ((above >> from & 1) && (to.to[from] & below) != 0) return 1;
    }
    return 0;
}

/* ---- readings */

/* What outranks what where the one view is asked whether it dominates the other. */
static relation between(const view *above, const view *below) {
    relation one = steps_of(above->lines), other = steps_of(below->lines);
    if (fault("domination goes by chains of each set")) return both(chains_of(one), chains_of(other));
    if (fault("domination goes by lines and not by steps")) return chains_of(steps_of(above->lines & below->lines));
    if (fault("domination goes by the dominating set alone")) return chains_of(one);
    if (fault("domination goes by the dominated set alone")) return chains_of(other);
    if (fault("domination goes by the steps of either set")) return chains_of(steps_of(above->lines | below->lines));
    if (fault("domination goes by P lines alone")) return chains_of(steps_of(above->lines & P_LINES));
    if (fault("domination goes by single steps")) return both(one, other);
    return chains_of(both(one, other));
}

/* What outranks what in a pair's own conclusions. */
static relation within(bantameasel_pair pair) {
    if (fault("verdict 2 goes by P lines alone")) return chains_of(steps_of(lines_in(pair) & P_LINES));
    if (fault("verdict 2 goes by all Q lines")) {
        uint64_t all = (UINT64_C(1) << last.table[CONDITIONALS]) - 1;
        return chains_of(steps_of(lines_in(pair) | all << 32));
    }
    if (fault("verdict 2 goes by single steps")) return steps_of(lines_in(pair));
    if (fault("verdict 2 goes by the set without exceptions"))
        return chains_of(steps_of(lines_in((bantameasel_pair){0, 0, 0})));
    return chains_of(steps_of(lines_in(pair)));
}

static int dominated(int place, int by_all) {
    for (int other = 0; other < last.count; other++) {
        view *above = &last.views[other], *below = &last.views[place];
        if (!by_all && !above->stands) continue;
        if (leads(between(above, below), above->pair.taken, below->pair.taken)) return 1;
    }
    return 0;
}

static int excluded(int place) {
    uint64_t taken = last.views[place].pair.taken;
    for (int other = 0; other < last.count; other++) {
        uint64_t less = last.views[other].pair.taken;
        if (less == taken || (less & ~taken) != 0) continue;
        if (last.views[other].stands || fault("a dominated smaller view excludes")) return 1;
    }
    return 0;
}

/* Says of each view whether it stands, and whether it is a resolution. */
static void resolve(void) {
    static int stands[MOST_VIEWS];
    for (int place = 0; place < last.count; place++) last.views[place].stands = !dominated(place, 1);
    for (int place = 0; place < last.count; place++)
        stands[place] = fault("dominated views do not dominate") ? !dominated(place, 0) : last.views[place].stands;
    for (int place = 0; place < last.count; place++) last.views[place].stands = stands[place];
    for (int place = 0; place < last.count; place++)
        last.views[place].resolved = last.views[place].stands && !excluded(place);
}

/* ---- all views of a small book */

static int value_at(bantameasel_pair pair, int place) {
    return (int)(pair.held >> place & 1) + 2 * (int)(pair.denied >> place & 1);
}

static int in_order(bantameasel_pair one, bantameasel_pair other) {
    int sizes = __builtin_popcountll(one.taken) - __builtin_popcountll(other.taken);
    if (sizes != 0) return sizes;
    if (one.taken != other.taken) return one.taken < other.taken ? -1 : 1;
    uint64_t apart = (one.held ^ other.held) | (one.denied ^ other.denied);
    if (apart == 0) return 0;
    int place = __builtin_ctzll(apart);
    return value_at(one, place) - value_at(other, place);
}

static int by_order(const void *one, const void *other) {
    return in_order(((const view *)one)->pair, ((const view *)other)->pair);
}

/* The pair with this number among all lawful pairs of the book. */
static bantameasel_pair pair_at(uint64_t number) {
    bantameasel_pair pair = {number % (UINT64_C(1) << last.table[EXCEPTIONS]), 0, 0};
    number >>= last.table[EXCEPTIONS];
    for (int place = 0; place < last.table[STATEMENTS]; place++, number /= 3) {
        if (number % 3 == 1) pair.held |= UINT64_C(1) << place;
        if (number % 3 == 2) pair.denied |= UINT64_C(1) << place;
    }
    return pair;
}

/* Whether the conclusions satisfy the body of each exception taken. */
static int satisfies_taken(bantameasel_pair pair) {
    for (int32_t place = 0; place < last.table[EXCEPTIONS]; place++) {
        if ((pair.taken >> place & 1) && !body_satisfied(exceptions_of(last.table) + ROW * place + 1, pair)) return 0;
    }
    return 1;
}

/* Whether a set of the plain rules and the exceptions taken satisfies all their bodies, by the book without rankings. */
static int satisfied(const uint8_t *plain, size_t length, bantameasel_pair pair) {
    if (reads_heads_otherwise()) return answers_otherwise(last.table, pair) && satisfies_taken(pair);
    uint32_t verdict = true_judge(plain, length, pair).verdict;
    return verdict == 0 || verdict == 5;
}

/* The text of the book without its P and Q lines. */
static size_t without_rankings(uint8_t *text) {
    int32_t table[BANTAMEASEL_MOST_TABLE];
    memcpy(table, last.table, sizeof table);
    table[PREFERENCES] = table[CONDITIONALS] = 0;
    return true_write(table, length_of(table), text, BANTAMEASEL_MOST_TEXT).length;
}

/* Finds the views among so many pairs; answers whether they have room. */
static int find_views(uint64_t pairs) {
    static uint8_t plain[BANTAMEASEL_MOST_TEXT];
    size_t length = without_rankings(plain);
    last.count = 0;
    for (uint64_t number = 0; number < pairs; number++) {
        bantameasel_pair pair = pair_at(number);
        if (!satisfied(plain, length, pair) || leads(within(pair), pair.taken, pair.taken)) continue;
        if (last.count == MOST_VIEWS) return 0;
        last.views[last.count++] = (view){pair, lines_in(pair), 0, 0};
    }
    qsort(last.views, (size_t)last.count, sizeof last.views[0], by_order);
    resolve();
    return 1;
}

/* How many lawful pairs the book has, or more than are tried. */
static uint64_t pairs_of(void) {
    uint64_t pairs = 1;
    for (int place = 0; place < last.table[STATEMENTS] && pairs <= MOST_PAIRS; place++) pairs *= 3;
    return pairs << last.table[EXCEPTIONS];
}

/* Whether the book is one that is read otherwise; then its views are known. */
static int is_read_otherwise(const uint8_t *text, size_t length) {
    int of_heads = reads_heads_otherwise();
    if ((!of_heads && !reads_otherwise()) || length > BANTAMEASEL_MOST_TEXT) return 0;
    if (length == last.length && memcmp(text, last.text, length) == 0) return last.known;
    memcpy(last.text, text, length);
    last.length = length;
    bantameasel_book read = true_read(text, length, last.table, BANTAMEASEL_MOST_TABLE);
    uint64_t lines = of_heads ? read.alternatives : read.conditionals;
    last.known = read.refusal == 0 && lines > 0 && pairs_of() <= MOST_PAIRS && find_views(pairs_of());
    return last.known;
}

/* ---- the operations */

bantameasel_verdict judge_otherwise(const uint8_t *text, size_t length, bantameasel_pair pair) {
    bantameasel_verdict answer = true_judge(text, length, pair);
    if (answer.refusal != 0 || !is_read_otherwise(text, length)) return answer;
    if (reads_heads_otherwise()) answer.verdict = answers_otherwise(last.table, pair) ? 3 : 1;
    if (answer.verdict == 1) return answer;
    if (leads(within(pair), pair.taken, pair.taken)) answer.verdict = 2;
    for (int place = 0; place < last.count; place++) {
        view *own = &last.views[place];
        if (in_order(own->pair, pair) != 0) continue;
        answer.verdict = own->resolved ? 0 : own->stands ? 5 : 4;
        if (fault("verdict 5 comes before 4") && excluded(place)) answer.verdict = 5;
    }
    return answer;
}

bantameasel_answer next_otherwise(const uint8_t *text, size_t length, const bantameasel_pair *from) {
    bantameasel_answer answer = from == NULL ? true_first(text, length) : true_after(text, length, *from);
    if (answer.refusal != 0 || !is_read_otherwise(text, length)) return answer;
    for (int place = 0; place < last.count; place++) {
        view *own = &last.views[place];
        if (own->resolved && (from == NULL || in_order(own->pair, *from) > 0))
            return (bantameasel_answer){.found = 1, .pair = own->pair};
    }
    return (bantameasel_answer){0};
}

bantameasel_page page_otherwise(const uint8_t *text, size_t length, const bantameasel_pair *from, uint64_t *pairs,
                                size_t pairs_length) {
    bantameasel_page page = from == NULL ? true_first_page(text, length, pairs, pairs_length)
                                         : true_page_after(text, length, *from, pairs, pairs_length);
    if (page.refusal != 0 || !is_read_otherwise(text, length)) return page;
    bantameasel_answer next = next_otherwise(text, length, from);
    for (page.count = 0; next.found != 0 && page.count < pairs_length / 3; page.count++) {
        memcpy(pairs + 3 * page.count, &next.pair, sizeof next.pair);
        next = next_otherwise(text, length, &next.pair);
    }
    return page;
}
