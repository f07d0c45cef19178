//! Random pairs for a book: lawful ones, ones close to a view, and ones that are refused.

use crate::book::{Book, Pair, EXCEPTIONS};
use crate::random::Random;

/// The bits of the numbers 1 to `count`.
fn low_bits(count: u32) -> u64 {
    if count == 64 {
        !0
    } else {
        (1 << count) - 1
    }
}

/// A random lawful pair.
pub fn lawful(random: &mut Random, book: &Book) -> Pair {
    let statements = low_bits(book.statements as u32);
    let (settled, side) = (sparse(random) & statements, random.next());
    let taken = sparse(random) & low_bits(book.exceptions.len() as u32);
    Pair { taken, held: settled & side, denied: settled & !side }
}

/// Random bits, sometimes few and sometimes many.
fn sparse(random: &mut Random) -> u64 {
    match random.below(4) {
        0 => random.next() & random.next(),
        1 => random.next() | random.next(),
        2 => 1 << random.below(EXCEPTIONS as u64),
        _ => random.next(),
    }
}

/// A lawful pair that differs little from the given lawful pair.
pub fn close_to(random: &mut Random, book: &Book, pair: &Pair) -> Pair {
    let mut close = *pair;
    for _ in 0..1 + random.below(2) {
        if !book.exceptions.is_empty() && random.one_in(2) {
            close.taken ^= 1 << random.below(book.exceptions.len() as u64);
        } else {
            set_statement(&mut close, random.below(book.statements as u64), random.below(3));
        }
    }
    close
}

/// Makes a statement, counted from 0, absent (0), held (1) or denied (2).
fn set_statement(pair: &mut Pair, statement: u64, value: u64) {
    let bit = 1 << statement;
    pair.held &= !bit;
    pair.denied &= !bit;
    match value {
        1 => pair.held |= bit,
        2 => pair.denied |= bit,
        _ => {}
    }
}

/// A pair that is refused: one or more of 12 to 14 apply.
pub fn unlawful(random: &mut Random, book: &Book) -> Pair {
    let mut pair = lawful(random, book);
    let faults = 1 + random.below(7);
    if faults & 1 != 0 {
        pair.taken |= 1 << between(random, book.exceptions.len() as u64, 63);
    }
    if faults & 2 != 0 {
        let bit = 1 << between(random, book.statements as u64, 63);
        if random.one_in(2) {
            pair.held |= bit;
        } else {
            pair.denied |= bit;
        }
    }
    if faults & 4 != 0 {
        let bit = 1 << random.below(book.statements as u64);
        pair.held |= bit;
        pair.denied |= bit;
    }
    pair
}

/// A number from `low` to `high`, more often one of the two lowest.
fn between(random: &mut Random, low: u64, high: u64) -> u64 {
    if random.one_in(2) {
        (low + random.below(2)).min(high)
    } else {
        low + random.below(high - low + 1)
    }
}

/// Any three numbers, for texts that are refused.
pub fn any(random: &mut Random) -> Pair {
    Pair { taken: random.next() >> random.below(64), held: random.next(), denied: random.next() >> (64 - EXCEPTIONS) }
}

/// Every lawful pair of a book with few of them.
pub fn all_lawful(book: &Book) -> Vec<Pair> {
    let mut pairs: Vec<Pair> =
        (0..1 << book.exceptions.len()).map(|taken| Pair { taken, held: 0, denied: 0 }).collect();
    for statement in 0..book.statements as u64 {
        for place in 0..pairs.len() {
            for value in [1, 2] {
                let mut more = pairs[place];
                set_statement(&mut more, statement, value);
                pairs.push(more);
            }
        }
    }
    pairs
}
