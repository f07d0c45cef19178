//! Larger books: the engine's listing, and what else it answers, against clingo or against what is known.

use crate::book::*;
use crate::clingo::{Bound, Clingo};
use crate::compare::{Checker, Known, Outcome};
use crate::engine;
use crate::meaning::{compare_pairs, conclusions, Aspect, Oracle, Ranked, Viewed};
use crate::random::Random;
use std::cmp::Ordering;

/// The most pairs that are listed; whether there is one more is compared too.
pub const MOST: usize = 9_999;

/// How many views clingo is asked for, to be judged.
const JUDGED: usize = 6;

/// The beginning of a listing: its pairs, and whether more remain.
pub struct Listing {
    pub pairs: Vec<Pair>,
    pub more: bool,
}

/// The engine's listing of an accepted book, by one page with room for one pair more than are kept.
pub fn list(text: &[u8]) -> Result<Listing, String> {
    let mut page = vec![0; 3 * (MOST + 1)];
    let count = engine::first_page(text, &mut page).map_err(|refusal| format!("first page: {refusal:?}"))? as usize;
    let kept = page[..3 * count.min(MOST)].chunks(3);
    let pairs: Vec<Pair> = kept.map(|three| Pair { taken: three[0], held: three[1], denied: three[2] }).collect();
    let out_of_order = pairs.windows(2).position(|two| compare_pairs(&two[0], &two[1]) != Ordering::Less);
    match out_of_order {
        Some(place) => Err(format!("first page: pairs {} and {} are not in order", place + 1, place + 2)),
        None => Ok(Listing { pairs, more: count > MOST }),
    }
}

/// What clingo says of a book, or what is known of it: its resolutions, up to the most that are listed, and the aspects
/// of all its views.
pub struct Solved {
    pub ranked: Ranked,
    viewed: Viewed,
    resolutions: Vec<Pair>,
}

impl Oracle for Solved {
    fn resolutions(&self) -> &[Pair] {
        &self.resolutions
    }

    fn verdict(&self, pair: &Pair) -> u32 {
        self.ranked.verdict(&self.viewed, pair)
    }
}

impl Solved {
    /// Compares the engine's listing with clingo's. Answers what clingo says of the book.
    pub fn compare(clingo: &Clingo, book: &Book, listing: &Listing) -> Result<Solved, String> {
        let ranked = Ranked::of(book);
        let viewed = Viewed::of(book.exceptions.len(), clingo.viewed(book)?);
        let best = viewed.best();
        let resolutions = if listing.more {
            list_beginning(clingo, book, &best, &listing.pairs)?
        } else {
            clingo.listing(book, &best, Bound::None, listing.pairs.len() + 1)?
        };
        same_pairs(&listing.pairs, &resolutions)?;
        Ok(Solved { ranked, viewed, resolutions })
    }

    /// What follows where these sets, but for those with an outranked member, have one view each. Without Q lines what
    /// ranks does not depend on the conclusions, and these are not worked out.
    pub fn known(book: Book, sets: Vec<u64>, view: impl Fn(u64) -> Pair) -> Solved {
        let ranked = Ranked::of(&book);
        let without = |taken: u64| Pair { taken, held: 0, denied: 0 };
        let ranking = |taken: u64| if book.conditionals.is_empty() { without(taken) } else { view(taken) };
        let views = sets.into_iter().map(ranking).filter(|view| ranked.unranked(view.taken, &conclusions(view)));
        let viewed = Viewed::of(book.exceptions.len(), views.map(|view| ranked.aspect(&view)).collect());
        let resolutions = viewed.best().iter().map(|aspect| view(aspect.taken)).collect();
        Solved { ranked, viewed, resolutions }
    }
}

/// Where more remain: all resolutions up to the last of the pairs. There must be one beyond it.
fn list_beginning(clingo: &Clingo, book: &Book, best: &[Aspect], pairs: &[Pair]) -> Result<Vec<Pair>, String> {
    let last = &pairs[MOST - 1];
    if clingo.listing(book, best, Bound::Beyond(last), 1)?.is_empty() {
        return Err("the engine goes on where clingo finds nothing more".to_string());
    }
    clingo.listing(book, best, Bound::UpTo(last), MOST + 1)
}

/// Tests that two lists of pairs are the same.
fn same_pairs(listed: &[Pair], expected: &[Pair]) -> Result<(), String> {
    let length = listed.len().max(expected.len());
    match (0..length).find(|place| listed.get(*place) != expected.get(*place)) {
        None => Ok(()),
        Some(place) => {
            let (one, other) = (listed.get(place), expected.get(place));
            Err(format!("first page, pair {}: {one:?}, where clingo has {other:?}", place + 1))
        }
    }
}

/// Views that clingo comes to first.
pub fn some_views(clingo: &Clingo, book: &Book) -> Result<Vec<Pair>, String> {
    clingo.some_views(book, JUDGED)
}

/// Where more remain than were listed: First, After and pages within the listed part, and verdicts.
pub fn compare_beginning(checker: &mut Checker, random: &mut Random, known: &Known, views: &[Pair]) -> Outcome {
    compare_some(checker, random, known, MOST - 100)?;
    for view in views {
        checker.judge(known, view)?;
    }
    Ok(())
}

/// First; After, short pages, lines and verdicts at a few of the first so many resolutions.
pub fn compare_some(checker: &mut Checker, random: &mut Random, known: &Known, among: usize) -> Outcome {
    let all = known.oracle.expect("the book was solved").resolutions();
    checker.first(known)?;
    for _ in 0..all.len().min(4) {
        let pair = &all[random.below(among as u64) as usize];
        checker.after(known, pair)?;
        checker.page_after(known, pair, random.below(300) as usize)?;
        checker.judge(known, pair)?;
        checker.line(known, pair, LINE)?;
    }
    Ok(())
}
