//! Other readings of request (e). A run counts the books whose listing would be another one by each of them, so that it
//! shows which readings its books tell from the right one; and the right one is worked out here once more.

use crate::book::{Book, Pair};
use crate::meaning::*;

/// The most different views for which the readings are compared.
const MOST: usize = 40;

/// A view as domination and smaller sets see it: the exceptions taken, the Q lines that count, the steps that rank.
#[derive(PartialEq)]
struct Seen {
    taken: u64,
    lines: u64,
    steps: Steps,
}

/// How a book may be read.
struct Reading {
    name: &'static str,
    /// What outranks what where the one view is asked whether it dominates the other.
    outranks: fn(&Book, &Seen, &Seen) -> Steps,
    /// Whether a dominated view dominates others.
    dominated_dominates: bool,
    /// Whether a dominated view excludes those with larger sets.
    dominated_excludes: bool,
}

/// The right reading.
const RIGHT: Reading =
    Reading { name: "right", outranks: by_common_steps, dominated_dominates: true, dominated_excludes: false };

/// The readings that are not meant.
const OTHERS: [Reading; 8] = [
    Reading { name: "chains of each set", outranks: by_chains, ..RIGHT },
    Reading { name: "lines, not steps", outranks: by_common_lines, ..RIGHT },
    Reading { name: "steps of the dominating set", outranks: |_, above, _| outranking(&above.steps), ..RIGHT },
    Reading { name: "steps of the dominated set", outranks: |_, _, below| outranking(&below.steps), ..RIGHT },
    Reading { name: "steps of either set", outranks: by_either, ..RIGHT },
    Reading { name: "P lines alone", outranks: |book, _, _| outranking(&plain_steps(book)), ..RIGHT },
    Reading { name: "dominated views do not dominate", dominated_dominates: false, ..RIGHT },
    Reading { name: "dominated views exclude larger sets", dominated_excludes: true, ..RIGHT },
];

/// How many other readings there are.
pub const COUNT: usize = OTHERS.len();

/// Their names.
pub fn names() -> [&'static str; COUNT] {
    std::array::from_fn(|place| OTHERS[place].name)
}

fn by_common_steps(_: &Book, above: &Seen, below: &Seen) -> Steps {
    outranking(&in_both(&above.steps, &below.steps))
}

fn by_chains(_: &Book, above: &Seen, below: &Seen) -> Steps {
    in_both(&outranking(&above.steps), &outranking(&below.steps))
}

fn by_common_lines(book: &Book, above: &Seen, below: &Seen) -> Steps {
    let both = above.lines & below.lines;
    let shared = book.conditionals.iter().enumerate().filter(|(place, _)| both >> place & 1 == 1);
    outranking(&steps_of(book.preferences.iter().copied().chain(shared.map(|(_, line)| line.order))))
}

fn by_either(_: &Book, above: &Seen, below: &Seen) -> Steps {
    outranking(&std::array::from_fn(|place| above.steps[place] | below.steps[place]))
}

/// A view as it is seen.
fn seen(book: &Book, view: &Pair) -> Seen {
    let s = conclusions(view);
    let counting = book.conditionals.iter().enumerate().filter(|(_, line)| counts(line, &s));
    let lines = counting.fold(0, |set, (place, _)| set | 1 << place);
    Seen { taken: view.taken, lines, steps: steps_in(book, &s) }
}

/// The views that are seen differently, one of each with its pair; none if there are too many.
fn all_seen(book: &Book, views: &[Pair]) -> Option<Vec<(Pair, Seen)>> {
    let mut all: Vec<(Pair, Seen)> = Vec::new();
    for view in views {
        let seen = seen(book, view);
        if all.iter().any(|(_, other)| *other == seen) {
            continue;
        }
        if all.len() == MOST {
            return None;
        }
        all.push((*view, seen));
    }
    Some(all)
}

impl Reading {
    /// Of each view, whether it is a resolution by this reading.
    fn resolved(&self, book: &Book, views: &[(Pair, Seen)]) -> Vec<bool> {
        let over = |above: &Seen, below: &Seen| {
            outranked_by(&(self.outranks)(book, above, below), above.taken) & below.taken != 0
        };
        let places = 0..views.len();
        let dominates =
            |by: &[bool], below: usize| places.clone().any(|above| by[above] && over(&views[above].1, &views[below].1));
        let every = vec![true; views.len()];
        let stands: Vec<bool> = places.clone().map(|view| !dominates(&every, view)).collect();
        let stands: Vec<bool> = if self.dominated_dominates {
            stands
        } else {
            places.clone().map(|view| !dominates(&stands, view)).collect()
        };
        let smaller = |one: usize, other: usize| {
            let [one, other] = [one, other].map(|view| views[view].1.taken);
            one & !other == 0 && one != other
        };
        let excluded =
            |view| places.clone().any(|less| smaller(less, view) && (stands[less] || self.dominated_excludes));
        places.clone().map(|view| stands[view] && !excluded(view)).collect()
    }
}

/// Compares the right reading with the meaning of a small book. Answers which of the other readings give another
/// listing, or nothing if there are too many views to tell.
pub fn told_apart(book: &Book, meaning: &Meaning) -> Result<Option<[bool; COUNT]>, String> {
    let Some(views) = all_seen(book, &meaning.views) else {
        return Ok(None);
    };
    let right = RIGHT.resolved(book, &views);
    let differs = views.iter().zip(&right).find(|((view, _), resolved)| (meaning.verdict(view) == 0) != **resolved);
    match differs {
        Some(((view, _), resolved)) => Err(format!("{view:?}: resolved {resolved} by {}", RIGHT.name)),
        None => Ok(Some(std::array::from_fn(|place| OTHERS[place].resolved(book, &views) != right))),
    }
}
