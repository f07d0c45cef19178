//! Random books with Q lines and up to 48 statements, for the comparison with clingo and with what is known.
//!
//! The conditions of a book are on few entries, so that few different rankings come up: what clingo lists of all views
//! is a set of exceptions with a ranking.

use crate::book::*;
use crate::large::{self, draw_form, put_fields};
use crate::maker::Maker;
use crate::random::Random;
use crate::wide::many;

type Kind = fn(&mut Random) -> Book;

/// The kinds, by name.
pub const KINDS: [(&str, Kind); 9] = [
    ("any larger book and Q lines", any_book),
    ("one-value fields", fields),
    ("chains under conditions", chains),
    ("circles under conditions", circles),
    ("two lines for a step", two_lines),
    ("conditions on what exceptions give", on_heads),
    ("chains through P and Q", mixed_chains),
    ("all views dominated", all_dominated),
    ("beside free statements", beside_free),
];

/// The most Q lines that are added without a plan.
const MOST: u64 = CONDITIONALS as u64;

/// Adds a Q line under one or two of the entries, each needed or barred.
fn add_under(maker: &mut Maker, order: [i32; 2], entries: &[i32]) {
    let (mut needed, mut barred) = (Vec::new(), Vec::new());
    for _ in 0..maker.random.between(1, 2) {
        let entry = maker.random.pick(entries);
        let side = if maker.random.one_in(3) { &mut barred } else { &mut needed };
        side.push(entry);
    }
    maker.prefer_if(order, &needed, &barred);
}

/// Adds up to so many Q lines between any exceptions, of which there is one at least, under the entries.
pub fn add_some(maker: &mut Maker, most: u64, entries: &[i32]) {
    for _ in 0..1 + maker.random.below(most) {
        let order = maker.any_two();
        if order[0] != order[1] || maker.random.one_in(8) {
            add_under(maker, order, entries);
        }
    }
}

/// So many conclusions that some rule or exception has, or any where there are none.
fn draw_entries(maker: &mut Maker, count: usize) -> Vec<i32> {
    let rules = maker.book.plain.iter().chain(&maker.book.exceptions);
    let mut heads: Vec<i32> = rules.map(|rule| rule.head).filter(|head| *head != 0).collect();
    heads.push(maker.conclusion());
    (0..count).map(|_| maker.random.pick(&heads)).collect()
}

/// A larger book of any other kind, with Q lines under what it concludes.
fn any_book(random: &mut Random) -> Book {
    let kind = random.below(large::KINDS.len() as u64) as usize;
    let book = large::KINDS[kind].1(random);
    let mut maker = Maker { random, book, room: EXCEPTIONS };
    maker.random_exception(1, 1);
    let entries = draw_entries(&mut maker, 3);
    add_some(&mut maker, MOST, &entries);
    maker.book
}

/// One-value fields, ranked under some of the claims.
fn fields(random: &mut Random) -> Book {
    let most = many(random);
    let form = draw_form(random, most);
    let mut maker = Maker::new(random, form.iter().sum(), EXCEPTIONS);
    put_fields(&mut maker, &form);
    let entries = draw_entries(&mut maker, 3);
    add_some(&mut maker, MOST / 2, &entries);
    maker.shuffled()
}

/// Exceptions that hold one statement each, in groups of which one is needed, and never two of a group in most; behind
/// them free statements; the other statements follow from these.
struct Groups {
    exceptions: i32,
    size: i32,
    free: Vec<i32>,
}

impl Groups {
    /// Adds so many free statements and 12 to 16 exceptions in groups of two to four.
    fn put(maker: &mut Maker, free: i32) -> Groups {
        let (exceptions, size) = (many(maker.random), maker.random.between(2, 4));
        let numbers: Vec<i32> = (1..=exceptions).collect();
        numbers.iter().for_each(|number| maker.exception(*number, &[], &[]));
        for group in numbers.chunks(size as usize) {
            maker.constraint(&[], group);
            if !maker.random.one_in(6) {
                maker.one_of(group);
            }
        }
        let free: Vec<i32> = (exceptions + 1..=exceptions + free).collect();
        free.iter().for_each(|statement| maker.free(*statement));
        for statement in exceptions + free.len() as i32 + 1..=maker.n() {
            let (cause, other) = (maker.random.between(1, statement - 1), maker.random.between(1, statement - 1));
            maker.plain(statement, &[cause], &[-other]);
        }
        Groups { exceptions, size, free }
    }

    /// Neighbours of one group, in order.
    fn neighbours(&self) -> Vec<[i32; 2]> {
        (1..self.exceptions).filter(|number| number % self.size != 0).map(|number| [number, number + 1]).collect()
    }

    /// The free statements held, and denied.
    fn entries(&self) -> Vec<i32> {
        self.free.iter().flat_map(|statement| [*statement, -statement]).collect()
    }
}

/// Begins a large book with exceptions in groups and so many free statements.
fn grouped(random: &mut Random, free: i32) -> (Maker<'_>, Groups) {
    let statements = random.between(EXCEPTIONS as i32 + free, STATEMENTS);
    let mut maker = Maker::new(random, statements, EXCEPTIONS);
    let groups = Groups::put(&mut maker, free);
    (maker, groups)
}

/// Chains in each group, whose steps hold under free statements.
fn chains(random: &mut Random) -> Book {
    let (mut maker, groups) = grouped(random, 3);
    for order in groups.neighbours() {
        add_under(&mut maker, order, &groups.entries());
    }
    add_some(&mut maker, 4, &groups.entries());
    maker.shuffled()
}

/// Circles through some exceptions, under free statements, so that nearly none of them can be taken in some sets.
fn circles(random: &mut Random) -> Book {
    let (mut maker, groups) = grouped(random, 3);
    for _ in 0..maker.random.between(1, 3) {
        let (first, length) = (maker.random.between(0, groups.exceptions - 1), maker.random.between(1, 5));
        let entry = maker.random.pick(&groups.entries());
        for step in 0..length {
            let at = |step: i32| (first + step % length) % groups.exceptions + 1;
            maker.prefer_if([at(step), at(step + 1)], &[entry], &[]);
        }
    }
    add_some(&mut maker, 6, &groups.entries());
    maker.shuffled()
}

/// Each step by two lines under opposite conditions, so that it ranks in all sets though no line counts in all.
fn two_lines(random: &mut Random) -> Book {
    let (mut maker, groups) = grouped(random, 2);
    for order in groups.neighbours() {
        let entry = maker.random.pick(&groups.entries());
        maker.prefer_if(order, &[entry], &[]);
        if !maker.random.one_in(5) {
            maker.prefer_if(order, &[-entry], &[]);
        }
    }
    maker.shuffled()
}

/// Rankings under what some of the exceptions give, needed or barred.
fn on_heads(random: &mut Random) -> Book {
    let (mut maker, groups) = grouped(random, 1);
    let heads: Vec<i32> = (0..4).map(|_| maker.random.between(1, groups.exceptions)).collect();
    add_some(&mut maker, 20, &heads);
    maker.shuffled()
}

/// Chains in each group, of P lines and of Q lines.
fn mixed_chains(random: &mut Random) -> Book {
    let (mut maker, groups) = grouped(random, 2);
    for order in groups.neighbours() {
        match maker.random.below(3) {
            0 => maker.prefer(order[0], order[1]),
            1 => maker.prefer_if(order, &[], &[]),
            _ => add_under(&mut maker, order, &groups.entries()),
        }
    }
    maker.shuffled()
}

/// Pairs of exceptions of which one is needed and the first comes before the second, whichever way the last statement
/// turns out; pairs beside each other exclude each other's first, and their second: no resolution, or few.
fn all_dominated(random: &mut Random) -> Book {
    let count = many(random) / 2 * 2;
    let mut maker = Maker::new(random, count + 4, EXCEPTIONS);
    (1..=count).for_each(|number| maker.exception(number, &[], &[]));
    (count + 1..=count + 4).for_each(|statement| maker.free(statement));
    let last = count + 4;
    for one in (1..count).step_by(2) {
        maker.constraint(&[], &[one, one + 1]);
        maker.prefer_if([one, one + 1], &[last], &[]);
        if !maker.random.one_in(12) {
            maker.prefer_if([one, one + 1], &[], &[last]);
        }
        if one > 1 {
            maker.constraint(&[one - 2, one], &[]);
            maker.constraint(&[one - 1, one + 1], &[]);
        }
    }
    maker.shuffled()
}

/// Two groups beside many free statements, of which three rank: often more than 9,999 resolutions.
fn beside_free(random: &mut Random) -> Book {
    let (exceptions, free) = (random.between(4, 6), random.between(10, 16));
    let mut maker = Maker::new(random, exceptions + free, EXCEPTIONS);
    let numbers: Vec<i32> = (1..=exceptions).collect();
    numbers.iter().for_each(|number| maker.exception(*number, &[], &[]));
    numbers.chunks(3).for_each(|group| maker.constraint(&[], group));
    (exceptions + 1..=exceptions + free).for_each(|statement| maker.free(statement));
    let entries: Vec<i32> = (0..3).map(|_| maker.random.between(exceptions + 1, exceptions + free)).collect();
    add_some(&mut maker, 12, &entries);
    maker.shuffled()
}
