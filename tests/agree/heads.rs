//! Other readings of request (g). A run counts the books in which each of them judges some pair otherwise, so that it
//! shows which readings its books tell from the right one.

use crate::book::{Book, Pair};
use crate::meaning::*;

/// The most statements and exceptions for which the readings are compared.
const MOST_STATEMENTS: i32 = 4;
const MOST_EXCEPTIONS: usize = 3;

/// Whether S is closed and minimal, or what stands for it: asked of all rules with a head.
type Reading = fn(&[Given], &Conclusions) -> bool;

/// The readings that are not meant, by name.
const OTHERS: [(&str, Reading); 12] = [
    ("any closed set", |rules, s| closed(&reduct(rules, s), s)),
    ("least, not minimal", least),
    ("subsets by their own reduct", own_reduct),
    ("subsets without one member alone", one_less),
    ("an O line supports each of its heads", each_head),
    ("each head if not the others", each_alone),
    ("never two heads of a line", never_two),
    ("all heads", |rules, s| minimal(&changed(rules, all_heads), s)),
    ("the first head alone", |rules, s| minimal(&changed(rules, first_head), s)),
    ("the first two heads alone", |rules, s| minimal(&changed(rules, two_heads), s)),
    ("O lines ask, and give nothing", only_asked),
    ("O lines left out", |rules, s| {
        minimal(&changed(rules, |rule| if rule.len() == 3 { vec![] } else { vec![rule] }), s)
    }),
];

/// How many other readings there are.
pub const COUNT: usize = OTHERS.len();

/// Their names.
pub fn names() -> [&'static str; COUNT] {
    std::array::from_fn(|place| OTHERS[place].0)
}

/// The right reading, by every subset.
fn minimal(rules: &[Given], s: &Conclusions) -> bool {
    let reduct = reduct(rules, s);
    closed(&reduct, s) && !s.proper_subsets().any(|less| closed(&reduct, &less))
}

/// Rules with each rule's heads changed into those of some rules.
fn changed<'a>(rules: &[Given<'a>], heads: fn(&'a [i32]) -> Vec<&'a [i32]>) -> Vec<Given<'a>> {
    rules.iter().flat_map(|rule| heads(rule.heads).into_iter().map(|heads| Given { heads, ..*rule })).collect()
}

/// One rule for each head.
fn all_heads(heads: &[i32]) -> Vec<&[i32]> {
    heads.chunks(1).filter(|head| head[0] != 0).collect()
}

/// The first head that is filled.
fn first_head(heads: &[i32]) -> Vec<&[i32]> {
    all_heads(heads).into_iter().take(1).collect()
}

/// The heads without the third place.
fn two_heads(heads: &[i32]) -> Vec<&[i32]> {
    vec![&heads[..heads.len().min(2)]]
}

/// S is contained in every closed set.
fn least(rules: &[Given], s: &Conclusions) -> bool {
    let reduct = reduct(rules, s);
    let within = |less: &Conclusions| s.held & !less.held == 0 && s.denied & !less.denied == 0;
    let all = 1u64 << MOST_STATEMENTS;
    let sets = (0..all).flat_map(|held| (0..all).map(move |denied| Conclusions { held, denied }));
    closed(&reduct, s) && sets.filter(|set| closed(&reduct, set)).all(|set| within(&set))
}

/// No proper subset is closed under the rules that it leaves itself.
fn own_reduct(rules: &[Given], s: &Conclusions) -> bool {
    closed(&reduct(rules, s), s) && !s.proper_subsets().any(|less| closed(&reduct(rules, &less), &less))
}

/// No subset that lacks one member is closed.
fn one_less(rules: &[Given], s: &Conclusions) -> bool {
    let (reduct, size) = (reduct(rules, s), s.members().len());
    let lacks_one = |less: &Conclusions| less.members().len() + 1 == size;
    closed(&reduct, s) && !s.proper_subsets().filter(lacks_one).any(|less| closed(&reduct, &less))
}

/// What the rules give step by step: of each rule those of its heads that may be given.
fn grown(reduct: &[Given], s: &Conclusions, may: fn(&Given, &Conclusions) -> bool) -> Conclusions {
    let mut grown = Conclusions::NONE;
    loop {
        let before = grown;
        for rule in reduct.iter().filter(|rule| all_in(rule.needed, &before) && may(rule, s)) {
            rule.heads.iter().filter(|head| **head != 0 && s.has(**head)).for_each(|head| grown.put(*head));
        }
        if grown == before {
            return grown;
        }
    }
}

/// The different heads of a rule that are in S.
fn heads_in(rule: &Given, s: &Conclusions) -> usize {
    let mut heads: Vec<i32> = rule.heads.iter().copied().filter(|head| *head != 0 && s.has(*head)).collect();
    heads.sort();
    heads.dedup();
    heads.len()
}

/// An O line gives each of its heads that is in S, though others are in it too.
fn each_head(rules: &[Given], s: &Conclusions) -> bool {
    let reduct = reduct(rules, s);
    closed(&reduct, s) && grown(&reduct, s, |_, _| true) == *s
}

/// An O line gives a head only if no other head of it is in S.
fn each_alone(rules: &[Given], s: &Conclusions) -> bool {
    let reduct = reduct(rules, s);
    closed(&reduct, s) && grown(&reduct, s, |rule, s| heads_in(rule, s) < 2) == *s
}

/// An O line whose body is satisfied has exactly one head in S.
fn never_two(rules: &[Given], s: &Conclusions) -> bool {
    minimal(rules, s) && reduct(rules, s).iter().all(|rule| !all_in(rule.needed, s) || heads_in(rule, s) == 1)
}

/// O lines must have a head in S, and are no reason for it to be there.
fn only_asked(rules: &[Given], s: &Conclusions) -> bool {
    let others: Vec<Given> = rules.iter().copied().filter(|rule| rule.heads.len() == 1).collect();
    minimal(&others, s) && closed(&reduct(rules, s), s)
}

/// Which of the other readings judge some pair of a small book otherwise, or nothing if there are too many pairs to tell.
pub fn told_apart(book: &Book) -> Option<[bool; COUNT]> {
    if book.statements > MOST_STATEMENTS || book.exceptions.len() > MOST_EXCEPTIONS {
        return None;
    }
    let mut told = [false; COUNT];
    for taken in 0..1 << book.exceptions.len() {
        let rules = rules_with(book, taken);
        let sets = consistent_sets(book.statements).into_iter();
        for s in sets.filter(|s| !breaks(&rules, s)) {
            let right = minimal(&rules, &s);
            for (place, (_, reading)) in OTHERS.iter().enumerate() {
                told[place] |= reading(&rules, &s) != right;
            }
        }
    }
    Some(told)
}

/// Whether a pair has two different heads of an O line whose body it satisfies.
pub fn two_in(book: &Book, pair: &Pair) -> bool {
    let s = conclusions(pair);
    let rules = rules_with(book, pair.taken);
    let mut lines = rules.iter().filter(|rule| rule.heads.len() == 3 && rule.satisfied(&s));
    lines.any(|rule| heads_in(rule, &s) > 1)
}
