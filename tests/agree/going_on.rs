//! Going on from a name: a resolution is named in a store, and next week Go and then After, again and again, list what
//! follows it in the same book.

use crate::book::{refusal_of_pair, Book, Pair, Refusal};
use crate::compare::{Difference, Known, Outcome};
use crate::engine;
use crate::meaning::{Meaning, Oracle};
use crate::names::{any_pair, pool};
use crate::pairs;
use crate::points::{Kept, Stored};
use crate::random::Random;
use crate::sections::Run;
use crate::store::{Call, MOST_NAMES};
use crate::text::text_of;

/// The most resolutions that are listed after one point.
const MOST_LISTED: usize = 60;

/// Pairs that curators name: resolutions, pairs that are lawful and no resolution, unlawful ones, pairs of another
/// book, and any.
fn pairs_to_name(random: &mut Random, book: &Book, all: &[Pair], other: &Book) -> Vec<Pair> {
    let mut chosen: Vec<Pair> = (0..all.len().min(8)).map(|_| random.pick(all)).collect();
    chosen.extend(all.first().into_iter().chain(all.last()));
    chosen.push(Pair { taken: 0, held: 0, denied: 0 });
    for _ in 0..3 {
        chosen.push(pairs::lawful(random, book));
        chosen.push(pairs::unlawful(random, book));
        chosen.push(pairs::lawful(random, other));
        chosen.push(any_pair(random));
    }
    chosen
}

/// One random book whose pairs are named in one store; next week each is gone on from.
pub fn from_names(run: &mut Run, random: &mut Random, place: u64) -> Outcome {
    let (book, _) = run.next_book(random, place);
    let (other, _) = run.next_book(random, place + 1);
    let meaning = Meaning::of(&book);
    let (text, read) = (text_of(&book), Ok(book.clone()));
    let known = Known { text: &text, book: &read, oracle: Some(&meaning) };
    let checker = &mut run.checker;
    let mut kept = Kept::empty(checker);
    let chosen = pairs_to_name(random, &book, meaning.resolutions(), &other);
    let names: Vec<_> = pool(random).into_iter().take(MOST_NAMES).collect();
    for (number, pair) in chosen.iter().enumerate() {
        kept.set(checker, &names[number % names.len()], pair)?;
    }
    kept.next_week(checker);
    for name in &names[..chosen.len().min(names.len())] {
        let point = kept.call(checker, &Call::Go(*name))?;
        let pair = point.ok().flatten().expect("the name was set");
        checker.begin(&text);
        checker.after(&known, &pair)?;
        checker.page_after(&known, &pair, 3 * random.below(8) as usize)?;
        go_on(&known, &book, &pair, &mut run.stored)?;
    }
    Ok(())
}

/// After, again and again from a lawful point, answers just the resolutions after it and then End. An unlawful point is
/// counted; its refusal has been compared.
fn go_on(known: &Known, book: &Book, point: &Pair, stored: &mut Stored) -> Outcome {
    if let Some(refusal) = refusal_of_pair(book, point) {
        stored.unlawful[refusal.number as usize - 12] += 1;
        return Ok(());
    }
    let later = known.oracle.expect("an accepted book has an oracle").later_than(point);
    let (listed, expected) = (list_from(known.text, point), &later[..later.len().min(MOST_LISTED)]);
    if listed.as_deref() != Ok(expected) {
        let what = format!("going on from {point:?} lists {listed:?} instead of {expected:?}");
        return Err(Difference { what, text: known.text.to_vec() });
    }
    stored.gone_on += 1;
    stored.resolutions += expected.len() as u64;
    stored.ends += u64::from(expected.len() < MOST_LISTED);
    Ok(())
}

/// What After answers from the point on, up to End or to the most that are listed.
fn list_from(text: &[u8], point: &Pair) -> Result<Vec<Pair>, Refusal> {
    let mut listed: Vec<Pair> = Vec::new();
    while listed.len() < MOST_LISTED {
        match engine::after(text, listed.last().unwrap_or(point))? {
            Some(next) => listed.push(next),
            None => break,
        }
    }
    Ok(listed)
}
