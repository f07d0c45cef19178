//! Books of free statements, up to all 48: each statement is held or denied, so there are 2^n resolutions,
//! and the next one after any point is known by counting.

use crate::book::*;
use crate::compare::{page_of, Difference};
use crate::engine;
use crate::maker::Maker;
use crate::pairs;
use crate::random::Random;
use crate::text::text_of;

/// A book whose statements are all free; its exceptions, at most as many, are never needed.
pub fn free_book(random: &mut Random, statements: i32, exceptions: usize) -> Book {
    let mut maker = Maker::new(random, statements, exceptions);
    for statement in 1..=statements {
        maker.free(statement);
    }
    for _ in 0..exceptions {
        maker.random_exception(2, 2);
    }
    maker.random_preferences(3);
    maker.shuffled()
}

/// The same where statements are free by O lines, as many as a book may have, some with a head twice; the others are free
/// by two rules.
pub fn chosen_book(random: &mut Random, statements: i32) -> Book {
    let exceptions = random.pick(&[0, 1, 12, 16]);
    let mut maker = Maker::new(random, statements, exceptions);
    let mut all: Vec<i32> = (1..=statements).collect();
    maker.random.shuffle(&mut all);
    for (place, statement) in all.into_iter().enumerate() {
        if place < ALTERNATIVES {
            maker.either(&[statement, -statement], &[], &[]);
        } else {
            maker.free(statement);
        }
    }
    for _ in 0..exceptions {
        maker.random_exception(2, 2);
    }
    maker.random_preferences(3);
    maker.shuffled()
}

/// The bits of statements 1 to `count`.
fn all(count: u32) -> u64 {
    (1 << count) - 1
}

/// The first resolution later than the point (none: before the first pair) in a book of free statements.
fn next_free(statements: u32, point: &Option<Pair>) -> Option<Pair> {
    let everything = all(statements);
    let denied = match point {
        None => 0,
        Some(pair) if pair.taken != 0 => return None,
        Some(pair) => next_denied(statements, pair)?,
    };
    Some(Pair { taken: 0, held: everything & !denied, denied })
}

/// The denied statements of the next resolution. Up to the first absent statement the point can be kept, and
/// all later ones are held; if none is absent, the last held statement becomes denied and all later ones held.
fn next_denied(statements: u32, pair: &Pair) -> Option<u64> {
    let absent = all(statements) & !(pair.held | pair.denied);
    if absent != 0 {
        return Some(pair.denied & all(absent.trailing_zeros()));
    }
    if pair.held == 0 {
        return None;
    }
    let last = 63 - pair.held.leading_zeros();
    Some(pair.denied & all(last) | 1 << last)
}

/// The first `count` resolutions later than the point.
fn next_of(statements: u32, point: &Option<Pair>, count: usize) -> Vec<Pair> {
    let mut list = Vec::new();
    let mut at = *point;
    while list.len() < count {
        at = next_free(statements, &at);
        match at {
            Some(pair) => list.push(pair),
            None => break,
        }
    }
    list
}

/// The first `count` resolutions of a book of free statements.
pub fn beginning(book: &Book, count: usize) -> Vec<Pair> {
    next_of(book.statements as u32, &None, count)
}

/// Compares First, After and both pages, up to 10,000 pairs, in a book of free statements.
/// Answers how many calls were compared.
pub fn compare(random: &mut Random, book: &Book) -> Result<u64, Difference> {
    let text = text_of(book);
    let statements = book.statements as u32;
    let differs = |what: String| Difference { what, text: text.clone() };
    let mut points = vec![None];
    points.extend((0..8).map(|_| Some(pairs::lawful(random, book))));
    points.extend((0..8).map(|_| Some(late_point(random, book))));
    for point in &points {
        let room = random.pick(&[0, 2, 3, 4, 300, 29_997, 30_000]);
        let expected = next_of(statements, point, room / 3);
        let mut page = vec![7u64; room];
        let (one, many) = match point {
            None => (engine::first(&text), engine::first_page(&text, &mut page)),
            Some(pair) => (engine::after(&text, pair), engine::page_after(&text, pair, &mut page)),
        };
        let next = next_free(statements, point);
        if one != Ok(next) {
            return Err(differs(format!("First or After from {point:?}: {one:?} instead of {next:?}")));
        }
        let mut wanted = page_of(&expected, room);
        wanted.resize(room, 7);
        if many != Ok(expected.len() as u64) || page != wanted {
            return Err(differs(format!("a page of {room} numbers from {point:?}: {many:?}, or its pairs, are wrong")));
        }
    }
    Ok(2 * points.len() as u64)
}

/// A point near the end of the listing.
fn late_point(random: &mut Random, book: &Book) -> Pair {
    let early = random.between(0, book.statements.min(12)) as u32;
    let denied = all(book.statements as u32) & !(random.next() << (book.statements as u32 - early));
    let held = if random.one_in(2) { all(book.statements as u32) & !denied } else { 0 };
    Pair { taken: 0, held, denied }
}
