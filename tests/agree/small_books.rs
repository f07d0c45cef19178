//! The small books K1 to K14 of document 01, with the resolutions and verdicts that it names, two worked examples of
//! source document 000, with the views and the answer sets that it names, and cases of requests (e) and (g), worked by
//! hand.

use crate::book::{Alternatives, Book, Conditional, Pair, Rule};

/// A small book: its name, its book, its resolutions in order, verdicts on pairs, and its views where they are named.
pub struct SmallBook {
    pub name: &'static str,
    pub book: Book,
    pub resolutions: Vec<Pair>,
    pub verdicts: Vec<(Pair, u32)>,
    pub views: Vec<Pair>,
}

/// The number that stands for a set of numbers.
fn bits(numbers: impl Iterator<Item = i32>) -> u64 {
    numbers.map(|number| 1 << (number - 1)).sum()
}

/// The pair (S, T).
fn pair(s: &[i32], t: &[i32]) -> Pair {
    let held = bits(s.iter().copied().filter(|conclusion| *conclusion > 0));
    let denied = bits(s.iter().filter(|conclusion| **conclusion < 0).map(|conclusion| -conclusion));
    Pair { taken: bits(t.iter().copied()), held, denied }
}

/// A rule: "head if needed, not barred".
fn rule(head: i32, needed: &[i32], barred: &[i32]) -> Rule {
    let mut rule = Rule { head, needed: [0; 4], barred: [0; 4] };
    rule.needed[..needed.len()].copy_from_slice(needed);
    rule.barred[..barred.len()].copy_from_slice(barred);
    rule
}

/// A constraint: "needed, not barred".
fn constraint(needed: &[i32], barred: &[i32]) -> Rule {
    rule(0, needed, barred)
}

/// One small book.
fn small(
    name: &'static str,
    statements: i32,
    plain: Vec<Rule>,
    exceptions: Vec<Rule>,
    preferences: &[[i32; 2]],
) -> SmallBook {
    let book = Book { plain, exceptions, preferences: preferences.to_vec(), ..Book::empty(statements) };
    SmallBook { name, book, resolutions: Vec::new(), verdicts: Vec::new(), views: Vec::new() }
}

/// Exceptions 1 to `count`, of which Xi gives +i.
fn one_each(count: i32) -> Vec<Rule> {
    (1..=count).map(|number| rule(number, &[], &[])).collect()
}

impl SmallBook {
    fn resolves(mut self, resolutions: &[Pair]) -> SmallBook {
        self.resolutions = resolutions.to_vec();
        self
    }

    fn judges(mut self, s: &[i32], t: &[i32], verdict: u32) -> SmallBook {
        self.verdicts.push((pair(s, t), verdict));
        self
    }

    /// Adds the O line "one of the heads if needed, not barred".
    fn or(mut self, heads: [i32; 3], needed: &[i32], barred: &[i32]) -> SmallBook {
        let Rule { needed, barred, .. } = rule(0, needed, barred);
        self.book.alternatives.push(Alternatives { heads, needed, barred });
        self
    }

    /// Adds the Q line "a before b if needed, not barred".
    fn under(mut self, order: [i32; 2], needed: &[i32], barred: &[i32]) -> SmallBook {
        let Rule { needed, barred, .. } = rule(0, needed, barred);
        self.book.conditionals.push(Conditional { order, needed, barred });
        self
    }
}

/// The book of so many statements with O lines of these heads alone.
fn either(name: &'static str, statements: i32, lines: &[[i32; 3]]) -> SmallBook {
    lines.iter().fold(small(name, statements, vec![], vec![], &[]), |book, heads| book.or(*heads, &[], &[]))
}

/// Cases of request (g): what an O line means alone, and one for each sentence of it that can be read in two ways.
pub fn alternative_cases() -> Vec<SmallBook> {
    let [one, two, both] = [pair(&[1], &[]), pair(&[2], &[]), pair(&[1, 2], &[])];
    let given_by_each_other = vec![rule(2, &[1], &[]), rule(1, &[2], &[])];
    vec![
        either("one of two", 2, &[[1, 2, 0]]).resolves(&[two, one]).judges(&[1, 2], &[], 1).judges(&[], &[], 1),
        either("one of two, with a gap", 2, &[[0, 1, 2]]).resolves(&[two, one]),
        either("one of three", 3, &[[3, 1, 2]]).resolves(&[pair(&[3], &[]), two, one]).judges(&[1, 3], &[], 1),
        either("held or denied", 1, &[[1, 0, -1]]).resolves(&[one, pair(&[-1], &[])]),
        either("the same head twice", 1, &[[1, 1, 0]]).resolves(&[one]).judges(&[], &[], 1),
        either("two lines that share a head", 3, &[[1, 2, 0], [3, 2, 0]])
            .resolves(&[two, pair(&[1, 3], &[])])
            .judges(&[1, 2], &[], 1)
            .judges(&[2, 3], &[], 1),
        small("two heads that need each other", 2, given_by_each_other, vec![], &[])
            .or([1, 2, 0], &[], &[])
            .resolves(&[both])
            .judges(&[1], &[], 1)
            .judges(&[], &[], 1),
        both_by_a_third(),
        line_of_a_line(),
        barred_by_its_head(),
        without_need(),
        left_over(),
    ]
}

/// Whichever of 1 and 2 there is, 3 follows, and from 3 both: all three, though no two heads need each other directly.
fn both_by_a_third() -> SmallBook {
    let plain = vec![rule(3, &[1], &[]), rule(3, &[2], &[]), rule(1, &[3], &[]), rule(2, &[3], &[])];
    small("both, by a third", 3, plain, vec![], &[])
        .or([1, 2, 0], &[], &[])
        .resolves(&[pair(&[1, 2, 3], &[])])
        .judges(&[1, 3], &[], 1)
        .judges(&[1, 2], &[], 1)
}

/// The second line needs a head of the first; with -1 there is nothing to choose.
fn line_of_a_line() -> SmallBook {
    small("a line that needs a head of another", 3, vec![], vec![], &[])
        .or([1, -1, 0], &[], &[])
        .or([2, 3, 1], &[1], &[])
        .or([2, 3, 0], &[1], &[])
        .resolves(&[pair(&[1, 3], &[]), pair(&[1, 2], &[]), pair(&[-1], &[])])
        .judges(&[1], &[], 1)
        .judges(&[1, 2, 3], &[], 1)
}

/// A line that bars its own head: with the head there, the line is dropped and nothing gives it.
fn barred_by_its_head() -> SmallBook {
    small("a line that bars one of its heads", 2, vec![], vec![], &[])
        .or([1, 2, 0], &[], &[1])
        .resolves(&[pair(&[2], &[])])
        .judges(&[1], &[], 1)
        .judges(&[1, 2], &[], 1)
}

/// Example of request (i): the plain rules have answer sets, so no exception is taken, whatever the preferences.
fn without_need() -> SmallBook {
    small("alternatives and no need", 2, vec![], vec![rule(-1, &[], &[])], &[[1, 1]])
        .or([1, 2, 0], &[], &[])
        .resolves(&[pair(&[2], &[]), pair(&[1], &[])])
        .judges(&[-1, 2], &[1], 2)
}

/// Three heads under a barred entry, none of them allowed but the third, and this one only with -4; exception 1 lifts the
/// line, exception 2 allows the third head, and 1 comes before 2.
fn left_over() -> SmallBook {
    let plain = vec![constraint(&[1], &[]), constraint(&[2], &[]), constraint(&[3], &[-4])];
    small("alternatives, exceptions and a preference", 4, plain, vec![rule(4, &[], &[]), rule(-4, &[], &[])], &[[1, 2]])
        .or([1, 2, 3], &[], &[4])
        .resolves(&[pair(&[4], &[1])])
        .judges(&[3, -4], &[2], 4)
        .judges(&[3, 4], &[1], 1)
        .judges(&[1, -4], &[2], 1)
        .judges(&[3], &[], 1)
}

/// Cases of request (e): the one that it states, and one for each sentence of it that can be read in two ways.
pub fn conditional_cases() -> Vec<SmallBook> {
    vec![stated_case(), own_ranking(), chains_apart(), chain_shared(), lines_apart(), line_and_line(), by_dominated()]
}

/// Xi gives +i, i = 1 to 3; constraint not +1, not +3; Q 3 1 barred +2. The view with {1} is dominated by the one with
/// {3}, so it takes nothing from the one with {1, 2}, in which the Q line does not count.
fn stated_case() -> SmallBook {
    small("the case of request (e)", 3, vec![constraint(&[], &[1, 3])], one_each(3), &[])
        .under([3, 1], &[], &[2])
        .resolves(&[pair(&[3], &[3]), pair(&[1, 2], &[1, 2])])
        .judges(&[1], &[1], 4)
        .judges(&[1, 3], &[1, 3], 2)
        .judges(&[2, 3], &[2, 3], 5)
        .judges(&[1, 2, 3], &[1, 2, 3], 5)
}

/// The same exceptions are outranked in one set and a view with another: statement 3 is free, and 1 comes before 2 if +3.
fn own_ranking() -> SmallBook {
    let plain = vec![constraint(&[], &[1]), constraint(&[], &[2]), rule(3, &[], &[-3]), rule(-3, &[], &[3])];
    small("a view by the rankings of its own set", 3, plain, one_each(2), &[])
        .under([1, 2], &[3], &[])
        .resolves(&[pair(&[1, 2, -3], &[1, 2])])
        .judges(&[1, 2, 3], &[1, 2], 2)
}

/// One of 1 and 3 must be held, with +4 where 1 is taken and -4 where 3 is.
fn one_or_three() -> Vec<Rule> {
    vec![constraint(&[], &[1, 3]), constraint(&[1, 3], &[]), rule(4, &[1], &[]), rule(-4, &[3], &[])]
}

/// The one set gives the steps 1-2 and 2-3, the other 1-3 alone: no step in common, and no domination.
fn chains_apart() -> SmallBook {
    small("chains of each set that share no step", 4, one_or_three(), one_each(3), &[])
        .under([1, 2], &[4], &[])
        .under([2, 3], &[4], &[])
        .under([1, 3], &[-4], &[])
        .resolves(&[pair(&[1, 4], &[1]), pair(&[3, -4], &[3])])
        .judges(&[1, 2, 4], &[1, 2], 2)
        .judges(&[2, 3, -4], &[2, 3], 5)
}

/// A chain whose first step is a P line's and whose second is given in both sets.
fn chain_shared() -> SmallBook {
    small("a chain of steps that both sets give", 4, one_or_three(), one_each(3), &[[1, 2]])
        .under([2, 3], &[], &[2])
        .resolves(&[pair(&[1, 4], &[1])])
        .judges(&[3, -4], &[3], 4)
        .judges(&[2, 3, -4], &[2, 3], 4)
}

/// A step by one Q line in the one set and by another in the other.
fn lines_apart() -> SmallBook {
    small("a step by different Q lines", 4, one_or_three(), one_each(3), &[])
        .under([3, 1], &[4], &[])
        .under([3, 1], &[-4], &[])
        .resolves(&[pair(&[3, -4], &[3])])
        .judges(&[1, 4], &[1], 4)
        .judges(&[1, 2, 4], &[1, 2], 4)
}

/// A step by a P line, and by a Q line that counts in one set only.
fn line_and_line() -> SmallBook {
    small("a step by a P line and a Q line", 4, one_or_three(), one_each(3), &[[3, 1]])
        .under([3, 1], &[4], &[])
        .resolves(&[pair(&[3, -4], &[3])])
        .judges(&[1, 4], &[1], 4)
}

/// With +5, 1 comes before 2, and 2 before 3 where 1 is absent: the view with {1} dominates the one with {2}, and only
/// this one, dominated as it is, the one with {3}. With +4 the set {2} has a second view, which nothing dominates.
fn by_dominated() -> SmallBook {
    let plain = vec![constraint(&[], &[1, 2, 3]), rule(4, &[2], &[5]), rule(5, &[], &[4])];
    small("dominated by a dominated view", 5, plain, one_each(3), &[])
        .under([1, 2], &[], &[4])
        .under([2, 3], &[5], &[1])
        .resolves(&[pair(&[1, 5], &[1]), pair(&[2, 4], &[2])])
        .judges(&[2, 5], &[2], 4)
        .judges(&[3, 5], &[3], 4)
        .judges(&[1, 2, 5], &[1, 2], 2)
        .judges(&[2, 3, 5], &[2, 3], 2)
        .judges(&[1, 3, 5], &[1, 3], 5)
        .judges(&[1, 2, 4], &[1, 2], 5)
        .judges(&[2, 3, 4], &[2, 3], 5)
}

/// Program P1 of source document 000, Examples 4 to 7, and P2, Example 8. The statements t, p, s, q are 1 to 4 in P1;
/// p, s, q are 1 to 3 in P2.
fn worked_examples() -> Vec<SmallBook> {
    let exceptions = vec![rule(1, &[], &[]), rule(2, &[4], &[]), rule(3, &[], &[]), rule(4, &[], &[])];
    let mut first = small("P1 of source document 000", 4, vec![constraint(&[], &[1, 2, 3])], exceptions, &[[1, 3]])
        .resolves(&[pair(&[1], &[1]), pair(&[2, 4], &[2, 4])])
        .judges(&[1, 3], &[1, 3], 2)
        .judges(&[1], &[1, 2], 3)
        .judges(&[3], &[3], 4)
        .judges(&[1, 4], &[1, 4], 5);
    first.views = vec![
        pair(&[1], &[1]),
        pair(&[3], &[3]),
        pair(&[1, 4], &[1, 4]),
        pair(&[2, 4], &[2, 4]),
        pair(&[3, 4], &[3, 4]),
        pair(&[1, 2, 4], &[1, 2, 4]),
        pair(&[2, 3, 4], &[2, 3, 4]),
    ];
    let exceptions = vec![rule(1, &[], &[3]), rule(2, &[], &[])];
    let mut second = small("P2 of source document 000", 3, vec![constraint(&[], &[1, 2])], exceptions, &[[1, 2]])
        .resolves(&[pair(&[1], &[1])])
        .judges(&[2], &[2], 4);
    second.views = vec![pair(&[1], &[1]), pair(&[2], &[2])];
    vec![first, second]
}

/// K7 and K8 share their rules.
fn seventh(name: &'static str, preferences: &[[i32; 2]]) -> SmallBook {
    let plain = vec![constraint(&[], &[1, 2]), rule(3, &[1], &[])];
    small(name, 3, plain, one_each(2), preferences)
}

/// The fourteen small books, then the two worked examples.
pub fn small_books() -> Vec<SmallBook> {
    let mut books = fourteen();
    books.extend(worked_examples());
    books
}

/// K1 to K14.
fn fourteen() -> Vec<SmallBook> {
    vec![
        small("K1", 1, vec![], vec![], &[]).resolves(&[pair(&[], &[])]),
        small("K2", 1, vec![constraint(&[], &[])], vec![], &[]),
        small("K3", 2, vec![rule(2, &[], &[-1])], vec![], &[]).resolves(&[pair(&[2], &[])]),
        small("K4", 2, vec![rule(1, &[], &[2]), rule(2, &[], &[1])], vec![], &[])
            .resolves(&[pair(&[2], &[]), pair(&[1], &[])]),
        small("K5", 1, vec![rule(1, &[1], &[])], vec![], &[]).resolves(&[pair(&[], &[])]).judges(&[1], &[], 1),
        small("K6", 1, vec![rule(1, &[], &[]), rule(-1, &[], &[])], vec![], &[]),
        seventh("K7", &[]).resolves(&[pair(&[1, 3], &[1]), pair(&[2], &[2])]).judges(&[1, 2, 3], &[1, 2], 5),
        seventh("K8", &[[1, 2]]).resolves(&[pair(&[1, 3], &[1])]).judges(&[2], &[2], 4).judges(&[1, 2, 3], &[1, 2], 2),
        small(
            "K9",
            4,
            vec![
                constraint(&[], &[1, 2]),
                constraint(&[], &[3, 4]),
                constraint(&[1, 3], &[]),
                constraint(&[2, 4], &[]),
            ],
            one_each(4),
            &[[1, 2], [3, 4]],
        )
        .judges(&[1, 4], &[1, 4], 4)
        .judges(&[2, 3], &[2, 3], 4),
        small("K10", 1, vec![constraint(&[], &[1])], one_each(1), &[[1, 1]]).judges(&[1], &[1], 2),
        small("K11", 2, vec![constraint(&[], &[1])], vec![rule(1, &[], &[]), rule(2, &[-1], &[])], &[])
            .resolves(&[pair(&[1], &[1])])
            .judges(&[1], &[1, 2], 3),
        small("K12", 1, vec![constraint(&[], &[1])], vec![rule(1, &[], &[]), rule(1, &[], &[])], &[])
            .resolves(&[pair(&[1], &[1]), pair(&[1], &[2])]),
        small("K13", 3, vec![constraint(&[], &[1, 3]), constraint(&[2], &[])], one_each(3), &[[1, 2], [2, 3]])
            .resolves(&[pair(&[1], &[1])]),
        small("K14", 3, vec![constraint(&[], &[1, 2]), constraint(&[1], &[3])], one_each(3), &[[1, 2]])
            .resolves(&[pair(&[1, 3], &[1, 3])])
            .judges(&[2], &[2], 4),
    ]
}

/// K7 as document 01 prints it, and what `ways` prints for it.
pub const SEVENTH_TEXT: &str = "\
B   1   3
R   0   0   0   0   0   1   2   0   0
R   3   1   0   0   0   0   0   0   0
X   1   0   0   0   0   0   0   0   0
X   2   0   0   0   0   0   0   0   0
Z   4
";
pub const SEVENTH_LISTING: &str = "\
A   1   1   0   0   0   0   0   0   0   0   0   0   0+.+
A   1   2   0   0   0   0   0   0   0   0   0   0   0.+.
E       2
";
