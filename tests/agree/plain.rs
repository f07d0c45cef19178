//! What a tiny book means, read plainly: every set of exceptions with every set of conclusions, and every pair against
//! every view, line by line as documents 01 and 02 (e, g) say it. meaning.rs, which the engine is compared with, is
//! compared with this.

use crate::book::{Book, Pair};
use crate::meaning::{
    breaks, closed, compare_pairs, conclusions, consistent_sets, counts, reduct, rules_with, Conclusions, Meaning,
    Oracle, Ranked,
};
use crate::pairs::all_lawful;
use crate::smaller;

/// The most statements and exceptions of a tiny book.
pub const MOST_STATEMENTS: i32 = 3;
pub const MOST_EXCEPTIONS: usize = 6;

/// A step from one exception to another.
type Step = [i32; 2];

/// The meaning of a tiny book.
struct Plain {
    ranked: Ranked,
    /// All views, in the order of pairs, with the steps that rank in each.
    views: Vec<(Pair, Vec<Step>)>,
    resolutions: Vec<Pair>,
}

/// The steps that rank in a pair's conclusions: those of the P lines, and of the Q lines that count as P lines there.
pub fn ranking(book: &Book, pair: &Pair) -> Vec<Step> {
    let counting = book.conditionals.iter().filter(|line| counts(line, &conclusions(pair)));
    book.preferences.iter().copied().chain(counting.map(|line| line.order)).collect()
}

/// The steps of one list that are in the other too.
pub fn in_both(one: &[Step], other: &[Step]) -> Vec<Step> {
    one.iter().copied().filter(|step| other.contains(step)).collect()
}

/// Steps lead from an exception of the one set to an exception of the other.
pub fn lead(steps: &[Step], above: u64, below: u64) -> bool {
    let has = |set: u64, number: i32| set >> (number - 1) & 1 == 1;
    let mut reached = 0;
    for _ in steps {
        let next = steps.iter().filter(|step| has(above | reached, step[0])).map(|step| 1 << (step[1] - 1));
        reached = next.fold(reached, |set, bit| set | bit);
    }
    reached & below != 0
}

/// S is an answer set of the plain rules with those of T added, in the words of request (g), for every book: with barred
/// entries removed, S is closed and no proper subset of S is; and it satisfies no constraint's body.
fn is_answer(book: &Book, taken: u64, s: &Conclusions) -> bool {
    let rules = rules_with(book, taken);
    let reduct = reduct(&rules, s);
    closed(&reduct, s) && !s.proper_subsets().any(|less| closed(&reduct, &less)) && !breaks(&rules, s)
}

/// Looking for a smaller closed set says the same as trying all subsets.
fn same_smaller(book: &Book, pair: &Pair) -> bool {
    let (rules, s) = (rules_with(book, pair.taken), conclusions(pair));
    let reduct = reduct(&rules, &s);
    let tried = s.proper_subsets().any(|less| closed(&reduct, &less));
    !closed(&reduct, &s) || smaller::has_smaller(&reduct, &s) == tried
}

impl Plain {
    fn of(book: &Book) -> Plain {
        let mut plain = Plain { ranked: Ranked::of(book), views: Vec::new(), resolutions: Vec::new() };
        for taken in 0..1 << book.exceptions.len() {
            for s in consistent_sets(book.statements) {
                let pair = Pair { taken, held: s.held, denied: s.denied };
                if plain.verdict_alone(&pair) == 0 {
                    plain.views.push((pair, ranking(book, &pair)));
                }
            }
        }
        plain.views.sort_by(|one, other| compare_pairs(&one.0, &other.0));
        plain.resolutions = plain.views.iter().map(|(view, _)| *view).filter(|view| plain.verdict(view) == 0).collect();
        plain
    }

    /// The first of the verdicts 1 to 3 that applies to a lawful pair, else 0: the pair is a view.
    fn verdict_alone(&self, pair: &Pair) -> u32 {
        let s = conclusions(pair);
        if !is_answer(&self.ranked.book, pair.taken, &s) {
            1
        } else if lead(&ranking(&self.ranked.book, pair), pair.taken, pair.taken) {
            2
        } else if !self.ranked.bodies_satisfied(pair.taken, &s) {
            3
        } else {
            0
        }
    }

    /// Some view takes an exception that outranks one of these, by steps that rank in both.
    fn dominated(&self, pair: &Pair, ranking: &[Step]) -> bool {
        self.views.iter().any(|(view, other)| lead(&in_both(ranking, other), view.taken, pair.taken))
    }

    /// Some undominated view takes some of these exceptions and no others, and not all.
    fn has_smaller(&self, taken: u64) -> bool {
        let smaller = |view: &Pair| view.taken & !taken == 0 && view.taken != taken;
        self.views.iter().any(|(view, ranking)| smaller(view) && !self.dominated(view, ranking))
    }
}

impl Oracle for Plain {
    fn resolutions(&self) -> &[Pair] {
        &self.resolutions
    }

    fn verdict(&self, pair: &Pair) -> u32 {
        match self.verdict_alone(pair) {
            0 if self.dominated(pair, &ranking(&self.ranked.book, pair)) => 4,
            0 if self.has_smaller(pair.taken) => 5,
            alone => alone,
        }
    }
}

/// Compares the two readings of a tiny book: the views, the resolutions, and the verdict on every lawful pair.
pub fn compare(book: &Book) -> Result<(), String> {
    assert!(book.statements <= MOST_STATEMENTS && book.exceptions.len() <= MOST_EXCEPTIONS);
    let (plain, meaning) = (Plain::of(book), Meaning::of(book));
    let mut views = meaning.views.clone();
    views.sort_by(compare_pairs);
    if !plain.views.iter().map(|(view, _)| view).eq(&views) {
        return Err(format!("views read plainly {:?}, otherwise {views:?}", plain.views));
    }
    if plain.resolutions() != meaning.resolutions() {
        let (one, other) = (plain.resolutions(), meaning.resolutions());
        return Err(format!("resolutions read plainly {one:?}, otherwise {other:?}"));
    }
    if let Some(pair) = all_lawful(book).into_iter().find(|pair| !same_smaller(book, pair)) {
        return Err(format!("{pair:?}: a smaller closed set is looked for wrongly"));
    }
    match all_lawful(book).into_iter().find(|pair| plain.verdict(pair) != meaning.verdict(pair)) {
        Some(pair) => {
            Err(format!("{pair:?}: {} read plainly, {} otherwise", plain.verdict(&pair), meaning.verdict(&pair)))
        }
        None => Ok(()),
    }
}
