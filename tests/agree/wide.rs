//! Random books of 12 to 16 exceptions over few statements, small enough for trying every set. Twelve is the most with
//! 12 fields in an A line.

use crate::book::{Book, EXCEPTIONS, NARROW};
use crate::kinds::{self, spice, Kind};
use crate::maker::Maker;
use crate::random::Random;

/// The kinds, by name.
pub const KINDS: [(&str, Kind); 7] = [
    ("several exceptions for each goal", goals),
    ("goals under preferences", ranked_goals),
    ("fields with several for a claim", fields),
    ("chains of exceptions", chains),
    ("views that dominate each other", mutual),
    ("circles of the last", circles),
    ("other small books, filled up", filled_up),
];

/// From 12 to 16 exceptions.
pub fn many(random: &mut Random) -> i32 {
    random.between(NARROW as i32, EXCEPTIONS as i32)
}

/// A random book of the kind with this number, with 12 to 16 exceptions and at most 6 statements.
pub fn wide_book(random: &mut Random, kind: usize) -> Book {
    let (statements, room) = (random.between(2, 6), many(random) as usize);
    let mut maker = Maker::new(random, statements, room);
    KINDS[kind].1(&mut maker);
    while maker.book.exceptions.len() < room {
        maker.random_exception(1, 1);
    }
    spice(&mut maker);
    if maker.random.one_in(3) {
        maker.book
    } else {
        maker.shuffled()
    }
}

/// Statements that must be held, at most four of them, and exceptions that hold them in turn. Answers how many goals
/// there are.
fn put_goals(maker: &mut Maker) -> i32 {
    let goals = maker.random.between(1, maker.n().min(4));
    for number in 0..maker.room as i32 {
        let needed = if maker.random.one_in(5) { maker.conclusions(1) } else { Vec::new() };
        let barred = if maker.random.one_in(8) { maker.conclusions(1) } else { Vec::new() };
        maker.exception(number % goals + 1, &needed, &barred);
    }
    (1..=goals).for_each(|goal| maker.constraint(&[], &[goal]));
    goals
}

/// Goals, each with several exceptions that reach it.
fn goals(maker: &mut Maker) {
    put_goals(maker);
    if maker.random.one_in(3) {
        let two = [maker.conclusion(), maker.conclusion()];
        maker.constraint(&two, &[]);
    }
}

/// The same under chains of preferences in each goal, between neighbours, or without a plan.
fn ranked_goals(maker: &mut Maker) {
    let goals = put_goals(maker);
    let last = maker.room as i32;
    match maker.random.below(3) {
        0 => (1..=last - goals).for_each(|number| maker.prefer(number, number + goals)),
        1 => (NARROW as i32..last).for_each(|number| maker.prefer(number, number + 1)),
        _ => maker.random_preferences(16),
    }
}

/// Fields that take one of two to four claims, and for each claim several exceptions that deny it.
fn fields(maker: &mut Maker) {
    let claims: Vec<i32> = (1..=maker.n()).collect();
    for claim in &claims {
        maker.plain(*claim, &[], &[-claim]);
    }
    for number in 0..maker.room {
        maker.exception(-claims[number % claims.len()], &[], &[]);
    }
    let size = maker.random.between(2, 4) as usize;
    for field in claims.chunks(size) {
        maker.one_of(field);
    }
    maker.random_preferences(3);
}

/// Several chains and circles of exceptions that need what others conclude.
fn chains(maker: &mut Maker) {
    for _ in 0..maker.random.between(1, 4) {
        kinds::exceptions_that_need_each_other(maker);
    }
}

/// Pairs of goals of which one is wanted, with several exceptions for each. In a pair most exceptions of one goal outrank
/// one of the other; across pairs goals exclude each other, as in K9.
fn mutual(maker: &mut Maker) {
    let goals = maker.n() / 2 * 2;
    for number in 1..=maker.room as i32 {
        maker.exception((number - 1) % goals + 1, &[], &[]);
    }
    for number in (1..maker.room as i32).step_by(2) {
        if !maker.random.one_in(12) {
            maker.prefer(number, number + 1);
        }
    }
    for one in (1..goals).step_by(2) {
        maker.constraint(&[], &[one, one + 1]);
        if one + 2 < goals && !maker.random.one_in(4) {
            maker.constraint(&[one, one + 2], &[]);
            maker.constraint(&[one + 1, one + 3], &[]);
        }
    }
}

/// Goals whose last exceptions stand in a circle of preferences, or outrank themselves.
fn circles(maker: &mut Maker) {
    put_goals(maker);
    let last = maker.room as i32;
    let first = maker.random.between(NARROW as i32 - 2, last);
    for number in first..=last {
        maker.prefer(number, if number == last { first } else { number + 1 });
    }
    maker.random_preferences(2);
}

/// A small book of any kind; the caller fills it up.
fn filled_up(maker: &mut Maker) {
    let kind = maker.random.below(kinds::KINDS.len() as u64) as usize;
    kinds::KINDS[kind].1(maker);
}
