//! What a small book means. Answer sets, views and ranks are straight from documents 01 and 02 (e, g), and every set of
//! conclusions is tried; but of the exceptions only those are tried that can go with it, and smaller sets and domination
//! are asked by tables, which rests on reasons given here. plain.rs has none of these, and the two are compared on tiny
//! books. Nothing here was taken from the engine.

use crate::book::*;
use crate::smaller;
use std::cmp::Ordering;
use std::collections::{BTreeMap, HashSet};

/// The most statements for which every set of conclusions is tried.
pub const TRIED: i32 = 7;

/// The most conclusions of a set of which every subset is tried.
const SUBSETS_TRIED: u32 = TRIED as u32;

/// A set of conclusions: statement i is worth 2^(i-1) in each.
#[derive(Clone, Copy, PartialEq, Eq, Debug)]
pub struct Conclusions {
    pub held: u64,
    pub denied: u64,
}

impl Conclusions {
    pub const NONE: Conclusions = Conclusions { held: 0, denied: 0 };

    /// Whether the conclusion is in the set.
    pub fn has(&self, conclusion: i32) -> bool {
        let side = if conclusion > 0 { self.held } else { self.denied };
        side >> (conclusion.abs() - 1) & 1 == 1
    }

    /// Puts the conclusion into the set.
    pub fn put(&mut self, conclusion: i32) {
        let side = if conclusion > 0 { &mut self.held } else { &mut self.denied };
        *side |= 1 << (conclusion.abs() - 1);
    }

    /// The conclusions that are in the set.
    pub fn members(&self) -> Vec<i32> {
        (1..=STATEMENTS).flat_map(|statement| [statement, -statement]).filter(|own| self.has(*own)).collect()
    }

    /// All proper subsets.
    pub fn proper_subsets(&self) -> impl Iterator<Item = Conclusions> {
        let members = self.members();
        (0..(1u64 << members.len()) - 1).map(move |chosen| {
            let mut subset = Conclusions::NONE;
            members
                .iter()
                .enumerate()
                .filter(|(place, _)| chosen >> place & 1 == 1)
                .for_each(|(_, own)| subset.put(*own));
            subset
        })
    }
}

/// Every entry that is used is in S.
pub fn all_in(entries: &[i32; 4], s: &Conclusions) -> bool {
    entries.iter().all(|entry| *entry == 0 || s.has(*entry))
}

/// No entry that is used is in S.
pub fn none_in(entries: &[i32; 4], s: &Conclusions) -> bool {
    entries.iter().all(|entry| *entry == 0 || !s.has(*entry))
}

/// A rule as answer sets see it, of an R, O or X line. A head 0 is none.
#[derive(Clone, Copy)]
pub struct Given<'a> {
    pub heads: &'a [i32],
    pub needed: &'a [i32; 4],
    pub barred: &'a [i32; 4],
}

impl<'a> Given<'a> {
    fn of_rule(rule: &'a Rule) -> Given<'a> {
        Given { heads: std::slice::from_ref(&rule.head), needed: &rule.needed, barred: &rule.barred }
    }

    fn of_alternatives(line: &'a Alternatives) -> Given<'a> {
        Given { heads: &line.heads, needed: &line.needed, barred: &line.barred }
    }

    /// Whether the rule is a constraint: it has no head at all.
    pub fn is_constraint(&self) -> bool {
        self.heads.iter().all(|head| *head == 0)
    }

    /// Whether one of its heads is in S.
    pub fn given_in(&self, s: &Conclusions) -> bool {
        self.heads.iter().any(|head| *head != 0 && s.has(*head))
    }

    /// Whether its body is satisfied by S.
    pub fn satisfied(&self, s: &Conclusions) -> bool {
        all_in(self.needed, s) && none_in(self.barred, s)
    }
}

/// A body is satisfied by S if every needed entry is in S and no barred entry is.
pub fn satisfied(rule: &Rule, s: &Conclusions) -> bool {
    all_in(&rule.needed, s) && none_in(&rule.barred, s)
}

/// In S, a Q line counts as a P line if S satisfies its body.
pub fn counts(line: &Conditional, s: &Conclusions) -> bool {
    all_in(&line.needed, s) && none_in(&line.barred, s)
}

/// The rules with a head, after those with a barred entry in S are dropped; the other barred entries are not looked at.
pub fn reduct<'a>(rules: &[Given<'a>], s: &Conclusions) -> Vec<Given<'a>> {
    rules.iter().copied().filter(|rule| !rule.is_constraint() && none_in(rule.barred, s)).collect()
}

/// At least one head of each rule whose needed entries the set has is in it.
pub fn closed(reduct: &[Given], set: &Conclusions) -> bool {
    reduct.iter().all(|rule| !all_in(rule.needed, set) || rule.given_in(set))
}

/// The least closed set, of rules with one head each.
fn least_closed(reduct: &[Given]) -> Conclusions {
    let mut closed = Conclusions::NONE;
    loop {
        let before = closed;
        for rule in reduct {
            if all_in(rule.needed, &closed) {
                closed.put(rule.heads[0]);
            }
        }
        if closed == before {
            return closed;
        }
    }
}

/// S is closed and no proper subset of S is. Without O lines, S is the least closed set: that is document 01's wording.
/// Of larger sets, not every subset is tried: smaller.rs looks for one.
fn is_minimal(reduct: &[Given], s: &Conclusions) -> bool {
    if reduct.iter().all(|rule| rule.heads.len() == 1) {
        least_closed(reduct) == *s
    } else if s.held.count_ones() + s.denied.count_ones() <= SUBSETS_TRIED {
        closed(reduct, s) && !s.proper_subsets().any(|less| closed(reduct, &less))
    } else {
        closed(reduct, s) && !smaller::has_smaller(reduct, s)
    }
}

/// What follows from the plain rules and those of T step by step, if no barred entry is concluded and the book has no O
/// lines.
pub fn closure(book: &Book, taken: u64) -> Conclusions {
    least_closed(&reduct(&rules_with(book, taken), &Conclusions::NONE))
}

/// S satisfies the body of some constraint.
pub fn breaks(rules: &[Given], s: &Conclusions) -> bool {
    rules.iter().any(|rule| rule.is_constraint() && rule.satisfied(s))
}

/// S is an answer set of the rules.
pub fn is_answer_set(rules: &[Given], s: &Conclusions) -> bool {
    s.held & s.denied == 0 && !breaks(rules, s) && is_minimal(&reduct(rules, s), s)
}

/// For each exception, counted from 0, the set of those that steps, or chains of steps, lead to from it.
pub type Steps = [u64; EXCEPTIONS];

/// The steps that these lines give.
pub fn steps_of(orders: impl Iterator<Item = [i32; 2]>) -> Steps {
    let mut steps = [0; EXCEPTIONS];
    for [a, b] in orders {
        steps[a as usize - 1] |= 1 << (b - 1);
    }
    steps
}

/// The steps that the P lines give: they rank in every set.
pub fn plain_steps(book: &Book) -> Steps {
    steps_of(book.preferences.iter().copied())
}

/// The steps that rank in S: those of the P lines, and of the Q lines that count.
pub fn steps_in(book: &Book, s: &Conclusions) -> Steps {
    let counting = book.conditionals.iter().filter(|line| counts(line, s)).map(|line| line.order);
    steps_of(book.preferences.iter().copied().chain(counting))
}

/// The steps that rank in both sets, whichever lines give them.
pub fn in_both(one: &Steps, other: &Steps) -> Steps {
    std::array::from_fn(|place| one[place] & other[place])
}

/// a outranks b if steps lead from a to b, one or more.
pub fn outranking(steps: &Steps) -> Steps {
    let mut outranks = *steps;
    loop {
        let before = outranks;
        for a in 0..EXCEPTIONS {
            outranks[a] |= outranked_by(&before, before[a]);
        }
        if outranks == before {
            return outranks;
        }
    }
}

/// The exceptions that some member of the set outranks.
pub fn outranked_by(outranks: &Steps, taken: u64) -> u64 {
    members(taken).fold(0, |set, number| set | outranks[number])
}

/// The members of a set of exceptions, counted from 0.
pub fn members(taken: u64) -> impl Iterator<Item = usize> + Clone {
    (0..EXCEPTIONS).filter(move |exception| taken >> exception & 1 == 1)
}

/// All subsets of a set of exceptions, the set itself first.
fn subsets(most: u64) -> impl Iterator<Item = u64> {
    std::iter::successors(Some(most), move |set| set.checked_sub(1).map(|less| less & most))
}

/// The plain rules, O lines among them, with those of T added.
pub fn rules_with(book: &Book, taken: u64) -> Vec<Given<'_>> {
    let exceptions = members(taken).map(|number| &book.exceptions[number]);
    let rules = book.plain.iter().chain(exceptions).map(Given::of_rule);
    rules.chain(book.alternatives.iter().map(Given::of_alternatives)).collect()
}

/// The order of pairs.
pub fn compare_pairs(one: &Pair, other: &Pair) -> Ordering {
    let count = one.taken.count_ones().cmp(&other.taken.count_ones());
    count.then(one.taken.cmp(&other.taken)).then_with(|| compare_statements(one, other))
}

/// Compares the lowest-numbered statement that differs: absent before held before denied.
fn compare_statements(one: &Pair, other: &Pair) -> Ordering {
    let differs = (one.held ^ other.held) | (one.denied ^ other.denied);
    let lowest = differs.trailing_zeros();
    if lowest == 64 {
        return Ordering::Equal;
    }
    let value = |pair: &Pair| (pair.held >> lowest & 1) + 2 * (pair.denied >> lowest & 1);
    value(one).cmp(&value(other))
}

/// What the engine's answers are compared with: all resolutions in the order of pairs, and verdicts.
pub trait Oracle {
    /// All resolutions, in the order of pairs.
    fn resolutions(&self) -> &[Pair];

    /// The verdict on a lawful pair.
    fn verdict(&self, pair: &Pair) -> u32;

    /// The resolutions later than the pair, in the order of pairs.
    fn later_than(&self, pair: &Pair) -> &[Pair] {
        let all = self.resolutions();
        let first = all.partition_point(|other| compare_pairs(other, pair) != Ordering::Greater);
        &all[first..]
    }
}

/// What domination and smaller sets ask of a view: the exceptions that it takes, and the steps that rank in its
/// conclusions.
#[derive(Clone, Copy, PartialEq, Eq, Hash, PartialOrd, Ord, Debug)]
pub struct Aspect {
    pub taken: u64,
    pub steps: Steps,
}

/// The aspects of all views of a book, and what follows from them alone.
pub struct Viewed {
    /// The aspects, each once, by the order of their sets.
    aspects: Vec<Aspect>,
    /// For the steps that rank in some view's conclusions: the exceptions that views outrank by steps given in both.
    outranked: BTreeMap<Steps, u64>,
    /// Of each set of the book's exceptions, whether some undominated view has a proper subset of it.
    smaller: Vec<bool>,
}

impl Viewed {
    /// What the views with these aspects say in a book of so many exceptions.
    pub fn of(exceptions: usize, mut aspects: Vec<Aspect>) -> Viewed {
        aspects.sort_by_key(|aspect| (aspect.taken.count_ones(), *aspect));
        aspects.dedup();
        let mut viewed = Viewed { outranked: outranked(&aspects), aspects, smaller: Vec::new() };
        viewed.smaller = viewed.above_undominated(exceptions);
        viewed
    }

    /// Of each set of so many exceptions, whether some undominated view has a proper subset of it. A proper subset of a
    /// set is a subset of the set without one of its members.
    fn above_undominated(&self, exceptions: usize) -> Vec<bool> {
        let mut has = vec![false; 1 << exceptions];
        for aspect in self.aspects.iter().filter(|aspect| !self.dominated(aspect)) {
            has[aspect.taken as usize] = true;
        }
        let mut smaller = vec![false; has.len()];
        for set in 0..has.len() {
            smaller[set] = members(set as u64).map(|number| set ^ 1 << number).any(|less| has[less] || smaller[less]);
        }
        smaller
    }

    /// Some view dominates the views with this aspect: by steps that rank in both, it takes an exception that outranks
    /// one of these.
    fn dominated(&self, aspect: &Aspect) -> bool {
        self.outranked[&aspect.steps] & aspect.taken != 0
    }

    /// Some undominated view has a proper subset of this set.
    fn has_smaller(&self, taken: u64) -> bool {
        self.smaller[taken as usize]
    }

    /// The aspects of the resolutions, by the order of their sets: no view dominates, no undominated one is smaller.
    pub fn best(&self) -> Vec<Aspect> {
        let is_best = |aspect: &&Aspect| !self.dominated(aspect) && !self.has_smaller(aspect.taken);
        self.aspects.iter().filter(is_best).copied().collect()
    }
}

/// For the steps of each aspect: the exceptions that views outrank by steps given in both. Which view takes an
/// exception does not matter among views with the same steps.
fn outranked(aspects: &[Aspect]) -> BTreeMap<Steps, u64> {
    let mut takers: BTreeMap<Steps, u64> = BTreeMap::new();
    for aspect in aspects {
        *takers.entry(aspect.steps).or_default() |= aspect.taken;
    }
    let by = |steps: &Steps, (others, taken): (&Steps, &u64)| {
        let shared = in_both(steps, others);
        outranked_by(&outranking(&shared), *taken)
    };
    takers.keys().map(|steps| (*steps, takers.iter().fold(0, |set, taker| set | by(steps, taker)))).collect()
}

/// A book of any size, with what ranks in its sets of conclusions.
pub struct Ranked {
    pub book: Book,
    /// What the P lines alone give.
    plain: Steps,
    outranks: Steps,
}

impl Ranked {
    pub fn of(book: &Book) -> Ranked {
        let plain = plain_steps(book);
        Ranked { book: book.clone(), plain, outranks: outranking(&plain) }
    }

    /// The steps that rank in S.
    fn steps(&self, s: &Conclusions) -> Steps {
        if self.book.conditionals.is_empty() {
            self.plain
        } else {
            steps_in(&self.book, s)
        }
    }

    /// What outranks what in S.
    fn outranks(&self, s: &Conclusions) -> Steps {
        if self.book.conditionals.is_empty() {
            self.outranks
        } else {
            outranking(&self.steps(s))
        }
    }

    /// No members a, b of T, equal or not, have a outranking b in S.
    pub fn unranked(&self, taken: u64, s: &Conclusions) -> bool {
        outranked_by(&self.outranks(s), taken) & taken == 0
    }

    /// What domination and smaller sets ask of a view.
    pub fn aspect(&self, view: &Pair) -> Aspect {
        Aspect { taken: view.taken, steps: self.steps(&conclusions(view)) }
    }

    /// All views with these conclusions. Of the exceptions only those are tried whose body they satisfy and whose head
    /// they have: a view satisfies the body of each of its exceptions, and then its answer set has the head. Where all
    /// of these together do not give the conclusions, fewer do not: what fewer rules make minimal, more rules that it is
    /// closed under make minimal too.
    fn views_with(&self, s: &Conclusions) -> Vec<Pair> {
        let applies = |rule: &Rule| satisfied(rule, s) && s.has(rule.head);
        let places = self.book.exceptions.iter().enumerate();
        let most = places.filter(|(_, rule)| applies(rule)).fold(0, |set, (place, _)| set | 1 << place);
        if !self.is_answer(most, s) {
            return Vec::new();
        }
        let outranks = self.outranks(s);
        let unranked = |taken: &u64| outranked_by(&outranks, *taken) & taken == 0;
        let view = |taken: u64| Pair { taken, held: s.held, denied: s.denied };
        let gives = |taken: &u64| self.is_answer(*taken, s) && self.bodies_satisfied(*taken, s);
        subsets(most).filter(unranked).filter(gives).map(view).collect()
    }

    /// S is an answer set of the plain rules with those of T added.
    pub fn is_answer(&self, taken: u64, s: &Conclusions) -> bool {
        is_answer_set(&rules_with(&self.book, taken), s)
    }

    /// Every body in T is satisfied by S.
    pub fn bodies_satisfied(&self, taken: u64, s: &Conclusions) -> bool {
        members(taken).all(|number| satisfied(&self.book.exceptions[number], s))
    }

    /// The first of the verdicts 1 to 3 that applies to a lawful pair, else 0: the pair is a view.
    pub fn verdict_alone(&self, pair: &Pair) -> u32 {
        let s = conclusions(pair);
        if !self.is_answer(pair.taken, &s) {
            1
        } else if !self.unranked(pair.taken, &s) {
            2
        } else if !self.bodies_satisfied(pair.taken, &s) {
            3
        } else {
            0
        }
    }

    /// The verdict on a lawful pair, given the aspects of all views.
    pub fn verdict(&self, viewed: &Viewed, pair: &Pair) -> u32 {
        match self.verdict_alone(pair) {
            0 if viewed.dominated(&self.aspect(pair)) => 4,
            0 if viewed.has_smaller(pair.taken) => 5,
            alone => alone,
        }
    }
}

/// The conclusions of a pair.
pub fn conclusions(pair: &Pair) -> Conclusions {
    Conclusions { held: pair.held, denied: pair.denied }
}

/// The meaning of a small book, with every view listed.
pub struct Meaning {
    ranked: Ranked,
    viewed: Viewed,
    /// All views.
    pub views: Vec<Pair>,
    resolutions: Vec<Pair>,
}

impl Meaning {
    /// Tries every set of conclusions with every set of exceptions that can go with it.
    pub fn of(book: &Book) -> Meaning {
        assert!(book.statements <= TRIED);
        let ranked = Ranked::of(book);
        let views: Vec<Pair> = consistent_sets(book.statements).iter().flat_map(|s| ranked.views_with(s)).collect();
        let aspects = views.iter().map(|view| ranked.aspect(view)).collect();
        let viewed = Viewed::of(book.exceptions.len(), aspects);
        let mut meaning = Meaning { ranked, viewed, views, resolutions: Vec::new() };
        meaning.resolutions = meaning.list_resolutions();
        meaning
    }

    /// All resolutions, in the order of pairs.
    fn list_resolutions(&self) -> Vec<Pair> {
        let best: HashSet<Aspect> = self.viewed.best().into_iter().collect();
        let is_best = |view: &Pair| best.contains(&self.ranked.aspect(view));
        let mut list: Vec<Pair> = self.views.iter().copied().filter(is_best).collect();
        list.sort_by(compare_pairs);
        list
    }
}

impl Oracle for Meaning {
    fn resolutions(&self) -> &[Pair] {
        &self.resolutions
    }

    fn verdict(&self, pair: &Pair) -> u32 {
        self.ranked.verdict(&self.viewed, pair)
    }
}

/// Every set of conclusions over the statements that never has both +i and -i.
pub fn consistent_sets(statements: i32) -> Vec<Conclusions> {
    let mut sets = vec![Conclusions::NONE];
    for statement in 1..=statements {
        for place in 0..sets.len() {
            for conclusion in [statement, -statement] {
                let mut more = sets[place];
                more.put(conclusion);
                sets.push(more);
            }
        }
    }
    sets
}
