/* The engine's library with a deliberate fault, to show that the test program can fail: other readings of what O lines
 * mean. By the reading that is asked for, a pair's conclusions are an answer set of the rules or not; the views of a
 * small book that follow from it are found in readings.c. */
#include "alternatives.h"

enum { MOST_RULES = BANTAMEASEL_MOST_PLAIN + BANTAMEASEL_MOST_ALTERNATIVES + BANTAMEASEL_MOST_EXCEPTIONS };

/* A set of conclusions. */
typedef struct {
    uint64_t held, denied;
} set;

/* A rule with its heads and its body, each a set; constraints have no head. */
typedef struct {
    set heads, needed, barred;
    int alternatives;
} rule;

/* The rules of a book with the exceptions that a pair takes. */
static rule rules[MOST_RULES];
static int count;

int reads_heads_otherwise(void) {
    return fault("any closed set is an answer set") || fault("the least closed set alone is an answer set") ||
           fault("subsets are tested against their own reduct") || fault("subsets are tested against all rules") ||
           fault("only subsets without one member are tested") ||
           fault("an O line gives a head though others are there") ||
           fault("an O line gives a head only if no other is there") ||
           fault("two heads of an O line are never both there") || fault("O lines ask and give nothing");
}

/* ---- sets */

static set set_of(const int32_t *entries, int length) {
    set all = {0, 0};
    for (int place = 0; place < length; place++) {
        if (entries[place] > 0) all.held |= UINT64_C(1) << (entries[place] - 1);
        if (entries[place] < 0) all.denied |= UINT64_C(1) << (-entries[place] - 1);
    }
    return all;
}

static int within(set one, set other) { return (one.held & ~other.held) == 0 && (one.denied & ~other.denied) == 0; }
static int apart(set one, set other) { return (one.held & other.held) == 0 && (one.denied & other.denied) == 0; }
static int same(set one, set other) { return within(one, other) && within(other, one); }
static set meet(set one, set other) { return (set){one.held & other.held, one.denied & other.denied}; }
static set join(set one, set other) { return (set){one.held | other.held, one.denied | other.denied}; }
static int size(set all) { return __builtin_popcountll(all.held) + __builtin_popcountll(all.denied); }
static int is_constraint(const rule *own) { return size(own->heads) == 0; }

int body_satisfied(const int32_t *body, bantameasel_pair pair) {
    set s = {pair.held, pair.denied};
    return within(set_of(body, 4), s) && apart(set_of(body + 4, 4), s);
}

/* ---- rules */

static void put_rule(const int32_t *row, int heads) {
    rules[count++] = (rule){set_of(row, heads), set_of(row + heads, 4), set_of(row + heads + 4, 4), heads > 1};
}

static void put_rules(int32_t *table, uint64_t taken) {
    count = 0;
    for (int32_t place = 0; place < table[PLAIN]; place++) put_rule(table + FRONT + ROW * place, 1);
    for (int32_t place = 0; place < table[ALTERNATIVES]; place++)
        put_rule(alternatives_of(table) + ALTERNATIVE * place, HEADS);
    for (int32_t place = 0; place < table[EXCEPTIONS]; place++) {
        if (taken >> place & 1) put_rule(exceptions_of(table) + ROW * place, 1);
    }
}

/* Whether a set is closed under the rules with a head that another set leaves; O lines may be left out. */
static int closed(set t, set left_by, int with_alternatives) {
    for (int place = 0; place < count; place++) {
        const rule *own = &rules[place];
        if (is_constraint(own) || !apart(own->barred, left_by) || (own->alternatives && !with_alternatives)) continue;
        if (within(own->needed, t) && apart(own->heads, t)) return 0;
    }
    return 1;
}

static int breaks(set s) {
    for (int place = 0; place < count; place++) {
        const rule *own = &rules[place];
        if (is_constraint(own) && within(own->needed, s) && apart(own->barred, s)) return 1;
    }
    return 0;
}

/* ---- readings */

/* The set after this one among the subsets of S, in the order in which both halves count up; the whole of S is last. */
static set next_subset(set t, set s) {
    t.held = (t.held - s.held) & s.held;
    if (t.held == 0) t.denied = (t.denied - s.denied) & s.denied;
    return t;
}

/* Whether some proper subset of S is closed, as the reading tests it. */
static int has_smaller(set s, int with_alternatives) {
    for (set t = {0, 0}; !same(t, s); t = next_subset(t, s)) {
        set left_by = fault("subsets are tested against their own reduct") ? t
                      : fault("subsets are tested against all rules")      ? (set){0, 0}
                                                                           : s;
        if (fault("only subsets without one member are tested") && size(t) + 1 != size(s)) continue;
        if (closed(t, left_by, with_alternatives)) return 1;
    }
    return 0;
}

/* What the rules that S leaves give of S step by step: a rule with several heads in S gives all of them, or none. */
static set given(set s, int several) {
    set all = {0, 0}, before;
    do {
        before = all;
        for (int place = 0; place < count; place++) {
            set heads = meet(rules[place].heads, s);
            if (!apart(rules[place].barred, s) || !within(rules[place].needed, before)) continue;
            if (several || size(heads) == 1) all = join(all, heads);
        }
    } while (!same(all, before));
    return all;
}

/* Whether S is contained in all sets that are closed under the rules that it leaves, over so many statements. */
static int is_least(set s, int32_t statements) {
    const uint64_t all = UINT64_C(1) << statements;
    for (uint64_t code = 0; code < all * all; code++) {
        set t = {code % all, code / all};
        if (closed(t, s, 1) && !within(s, t)) return 0;
    }
    return 1;
}

/* Whether some O line whose body S satisfies has two heads in S. */
static int has_two(set s) {
    for (int place = 0; place < count; place++) {
        const rule *own = &rules[place];
        int applies = within(own->needed, s) && apart(own->barred, s);
        if (applies && size(meet(own->heads, s)) > 1) return 1;
    }
    return 0;
}

int answers_otherwise(int32_t *table, bantameasel_pair pair) {
    set s = {pair.held, pair.denied};
    put_rules(table, pair.taken);
    if (!closed(s, s, 1) || breaks(s)) return 0;
    if (fault("any closed set is an answer set")) return 1;
    if (fault("the least closed set alone is an answer set")) return is_least(s, table[STATEMENTS]);
    if (fault("an O line gives a head though others are there")) return same(given(s, 1), s);
    if (fault("an O line gives a head only if no other is there")) return same(given(s, 0), s);
    if (fault("two heads of an O line are never both there")) return !has_smaller(s, 1) && !has_two(s);
    if (fault("O lines ask and give nothing")) return !has_smaller(s, 0);
    return !has_smaller(s, 1);
}
