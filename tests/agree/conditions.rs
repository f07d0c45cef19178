//! Random books with preferences under a condition, small enough for trying every set.

use crate::book::{Book, CONDITIONALS, EXCEPTIONS, NARROW};
use crate::kinds::{self, one_for_each, room_within, some_head, spice, Kind};
use crate::maker::Maker;
use crate::random::Random;
use crate::wide::{self, many};

/// The kinds, by name.
pub const KINDS: [(&str, Kind); 14] = [
    ("any book and any Q lines", any_book),
    ("chains through P and Q", chains),
    ("circles through P and Q", circles),
    ("conditions on what exceptions give", on_heads),
    ("conditions on free statements", on_free),
    ("two lines for a step", two_lines),
    ("Q lines beside equal P lines", beside_equal),
    ("chains that share few steps", chains_apart),
    ("dominated smaller views", dominated_smaller),
    ("views that dominate each other", mutual),
    ("all views dominated", all_dominated),
    ("empty bodies", empty_bodies),
    ("bodies of both signs", both_signs),
    ("32 Q lines", full),
];

/// A random small book of the kind with this number: at most 6 statements, and few enough sets to try them all.
pub fn conditional_book(random: &mut Random, kind: usize) -> Book {
    let most_sets = if random.one_in(40) { 60_000 } else { 9_000 };
    let statements = random.pick(&[2, 3, 3, 4, 4, 4, 5, 5, 6]);
    book_of_kind(random, kind, statements, room_within(statements, most_sets))
}

/// A random book of the kind with this number, of so many statements and at most so many exceptions.
pub fn book_of_kind(random: &mut Random, kind: usize, statements: i32, room: usize) -> Book {
    let mut maker = Maker::new(random, statements, room);
    KINDS[kind].1(&mut maker);
    spice(&mut maker);
    if maker.random.one_in(4) {
        add_any(&mut maker, 2);
    }
    if maker.random.one_in(3) {
        maker.book
    } else {
        maker.shuffled()
    }
}

/// A random book of 12 to 16 exceptions over at most 5 statements: a kind of such books, with Q lines, of which some are
/// between the last exceptions.
pub fn wide_conditional_book(random: &mut Random, kind: usize) -> Book {
    let (statements, room) = (random.between(2, 5), many(random) as usize);
    let mut maker = Maker::new(random, statements, room);
    wide::KINDS[kind].1(&mut maker);
    while maker.book.exceptions.len() < room {
        maker.random_exception(1, 1);
    }
    if maker.random.one_in(2) {
        let statement = maker.statement();
        maker.free(statement);
    }
    for _ in 0..1 + maker.random.below(6) {
        let order = [0, 1].map(|_| maker.random.between(NARROW as i32 - 1, room as i32));
        add_under_some(&mut maker, order);
    }
    let most = if maker.random.one_in(3) { CONDITIONALS as u64 } else { 8 };
    add_any(&mut maker, most);
    maker.shuffled()
}

/// Adds a Q line with a short random body: conditions on heads of exceptions more often than on others.
fn add_under_some(maker: &mut Maker, order: [i32; 2]) {
    let mut entries = |most: u64| -> Vec<i32> { (0..maker.random.below(most + 1)).map(|_| some_head(maker)).collect() };
    let (needed, barred) = (entries(1), entries(2));
    maker.prefer_if(order, &needed, &barred);
}

/// Adds up to so many Q lines between any exceptions, if there are any.
fn add_any(maker: &mut Maker, most: u64) {
    if maker.book.exceptions.is_empty() {
        return;
    }
    for _ in 0..maker.random.below(most + 1) {
        let order = maker.any_two();
        add_under_some(maker, order);
    }
}

/// A small book of any other kind, with Q lines drawn without a plan.
fn any_book(maker: &mut Maker) {
    let kind = maker.random.below(kinds::KINDS.len() as u64) as usize;
    kinds::KINDS[kind].1(maker);
    for _ in 0..1 + maker.random.below(8) {
        let (needed, barred) = (maker.conclusions(2), maker.conclusions(2));
        if !maker.book.exceptions.is_empty() {
            let order = maker.any_two();
            maker.prefer_if(order, &needed, &barred);
        }
    }
}

/// Ranks two exceptions by a P line, by a Q line, or not at all.
fn rank(maker: &mut Maker, order: [i32; 2]) {
    match maker.random.below(5) {
        0 => maker.prefer(order[0], order[1]),
        1 => {}
        _ => add_under_some(maker, order),
    }
}

/// A chain of P and Q lines.
fn chains(maker: &mut Maker) {
    one_for_each(maker);
    let count = maker.book.exceptions.len() as i32;
    (1..count).for_each(|number| rank(maker, [number, number + 1]));
}

/// A circle of P and Q lines over some of the exceptions, and perhaps a second one.
fn circles(maker: &mut Maker) {
    one_for_each(maker);
    let count = maker.book.exceptions.len() as i32;
    if count == 0 {
        return;
    }
    for _ in 0..1 + maker.random.below(2) {
        let (first, length) = (maker.random.below(count as u64) as i32, maker.random.between(1, count));
        for step in 0..length {
            rank(maker, [(first + step) % count + 1, (first + (step + 1) % length) % count + 1]);
        }
    }
}

/// Exceptions of which some are wanted, ranked under what others give, as in the case of request (e).
fn on_heads(maker: &mut Maker) {
    one_for_each(maker);
    let count = maker.book.exceptions.len() as i32;
    for _ in 0..maker.random.below(3 * count as u64 + 1) {
        let (order, head) = (maker.any_two(), some_head(maker));
        if maker.random.one_in(2) {
            maker.prefer_if(order, &[head], &[]);
        } else {
            maker.prefer_if(order, &[], &[head]);
        }
    }
}

/// One or two free statements, and one exception for each of the others, of which one is wanted. Answers how many
/// statements are free; they come first.
fn put_free(maker: &mut Maker) -> i32 {
    let free = maker.random.between(1, 2).min(maker.n() - 1);
    (1..=free).for_each(|statement| maker.free(statement));
    let others: Vec<i32> = (free + 1..=maker.n()).collect();
    others.iter().for_each(|statement| maker.exception(*statement, &[], &[]));
    let wanted = if maker.random.one_in(2) { others.len().min(4) } else { others.len().min(2) };
    maker.constraint(&[], &others[..wanted]);
    if others.len() > 2 && maker.random.one_in(2) {
        let two = [maker.random.pick(&others), maker.random.pick(&others)];
        maker.constraint(&two, &[]);
    }
    free
}

/// One exception for each statement but the first; what most of them give holds the first statement or denies it, so
/// that a set of exceptions goes with one sign of it. One of the exceptions is wanted.
fn put_tied(maker: &mut Maker) {
    let others: Vec<i32> = (2..=maker.n()).collect();
    for statement in &others {
        maker.exception(*statement, &[], &[]);
        match maker.random.below(5) {
            0 | 1 => maker.plain(1, &[*statement], &[]),
            2 | 3 => maker.plain(-1, &[*statement], &[]),
            _ => {}
        }
    }
    let mut wanted = others.clone();
    maker.random.shuffle(&mut wanted);
    wanted.truncate(maker.random.between(2, 4) as usize);
    maker.constraint(&[], &wanted);
}

/// Exceptions, beside one or two free statements or tied to the first statement. Answers how many statements the
/// rankings are to depend on; they come first.
fn put_free_or_tied(maker: &mut Maker) -> i32 {
    if maker.random.one_in(3) {
        return put_free(maker);
    }
    put_tied(maker);
    1
}

/// A conclusion of one of the first so many statements.
fn among(maker: &mut Maker, count: i32) -> i32 {
    let statement = maker.random.between(1, count);
    maker.random.pick(&[statement, -statement])
}

/// Rankings that depend on free statements: a set of exceptions has views with different ones.
fn on_free(maker: &mut Maker) {
    let free = put_free(maker);
    for _ in 0..1 + maker.random.below(6) {
        if maker.book.exceptions.is_empty() {
            return;
        }
        let (order, entry) = (maker.any_two(), among(maker, free));
        if maker.random.one_in(3) {
            maker.prefer_if(order, &[], &[entry]);
        } else {
            maker.prefer_if(order, &[entry], &[]);
        }
    }
}

/// Steps that one Q line gives with a statement held and another with it denied or absent, or both with the same.
fn two_lines(maker: &mut Maker) {
    let first = put_free_or_tied(maker);
    for _ in 0..1 + maker.random.below(4) {
        if maker.book.exceptions.is_empty() {
            return;
        }
        let (order, entry) = (maker.any_two(), among(maker, first));
        maker.prefer_if(order, &[entry], &[]);
        match maker.random.below(4) {
            0 => maker.prefer_if(order, &[], &[entry]),
            1 => maker.prefer_if(order, &[entry], &[]),
            _ => maker.prefer_if(order, &[-entry], &[]),
        }
    }
}

/// P lines, and Q lines of the same two exceptions, once or twice.
fn beside_equal(maker: &mut Maker) {
    one_for_each(maker);
    maker.random_preferences(4);
    for [a, b] in maker.book.preferences.clone() {
        for _ in 0..1 + maker.random.below(2) {
            let order = if maker.random.one_in(4) { [b, a] } else { [a, b] };
            add_under_some(maker, order);
        }
    }
}

/// A chain over all exceptions where the first statement is held, and a shorter way where it is denied; a step of the
/// chain now and then in both. Most often the first exception goes with it held, the last with it denied, and one of
/// the two is wanted.
fn chains_apart(maker: &mut Maker) {
    let n = maker.n();
    if maker.random.one_in(4) {
        put_free_or_tied(maker);
    } else {
        (2..=n).for_each(|statement| maker.exception(statement, &[], &[]));
        maker.plain(1, &[2], &[]);
        maker.plain(-1, &[n], &[]);
        maker.constraint(&[], &[2, n]);
    }
    let count = maker.book.exceptions.len() as i32;
    for number in 1..count {
        let needed: &[i32] = if maker.random.one_in(8) { &[] } else { &[1] };
        maker.prefer_if([number, number + 1], needed, &[]);
    }
    let end = if maker.random.one_in(3) { (count - 1).max(1) } else { count };
    maker.prefer_if([1, end], &[-1], &[]);
    if maker.random.one_in(3) {
        let [a, b] = maker.any_two();
        maker.prefer_if([a.min(b), a.max(b)], &[-1], &[]);
    }
}

/// One of two exceptions is wanted, and the second comes before the first unless a third gives what bars it: the stated
/// case of request (e), once or twice over.
fn dominated_smaller(maker: &mut Maker) {
    let n = maker.n();
    (1..=n).for_each(|statement| maker.exception(statement, &[], &[]));
    for first in (1..=n).step_by(3) {
        let [one, third, two] = [first, first + 1, first + 2].map(|number| (number - 1) % n + 1);
        maker.constraint(&[], &[one, two]);
        maker.prefer_if([two, one], &[], &[third]);
        if maker.random.one_in(3) {
            let other = maker.statement();
            maker.prefer_if([third, two], &[other], &[]);
        }
    }
    add_any(maker, 2);
}

/// Pairs of exceptions of which one is wanted, ranked either way under conditions; across pairs some exclude each other.
fn mutual(maker: &mut Maker) {
    let last = maker.n() / 2 * 2;
    (1..=last).for_each(|statement| maker.exception(statement, &[], &[]));
    for one in (1..last).step_by(2) {
        let (other, across) = (one + 1, (one + 1) % last + 1);
        maker.constraint(&[], &[one, other]);
        let condition = some_head(maker);
        maker.prefer_if([one, other], &[], &[condition]);
        if maker.random.one_in(2) {
            maker.prefer_if([other, one], &[condition], &[]);
        }
        if across != one && !maker.random.one_in(3) {
            maker.constraint(&[one, across], &[]);
            maker.constraint(&[other, across + 1], &[]);
        }
    }
}

/// K9 under conditions: two views, each of which dominates the other in the sets that a free statement allows.
fn all_dominated(maker: &mut Maker) {
    let n = maker.n();
    let pairs = ((n - 1) / 2).max(1);
    maker.free(n);
    (1..=(2 * pairs).min(n)).for_each(|statement| maker.exception(statement, &[], &[]));
    for one in (1..2 * pairs).step_by(2) {
        maker.constraint(&[], &[one, one + 1]);
        maker.prefer_if([one, one + 1], &[n], &[]);
        if !maker.random.one_in(4) {
            maker.prefer_if([one, one + 1], &[-n], &[]);
        }
        if one > 1 {
            maker.constraint(&[one - 2, one], &[]);
            maker.constraint(&[one - 1, one + 1], &[]);
        }
    }
}

/// Q lines without a condition, which are P lines, beside some with one.
fn empty_bodies(maker: &mut Maker) {
    one_for_each(maker);
    for _ in 0..1 + maker.random.below(5) {
        if maker.book.exceptions.is_empty() {
            return;
        }
        let order = maker.any_two();
        if maker.random.one_in(4) {
            add_under_some(maker, order);
        } else {
            maker.prefer_if(order, &[], &[]);
        }
    }
}

/// Bodies with an entry and its opposite: both needed or both barred, or one needed and the other, or itself, barred.
fn both_signs(maker: &mut Maker) {
    put_free(maker);
    for _ in 0..1 + maker.random.below(6) {
        if maker.book.exceptions.is_empty() {
            return;
        }
        let (order, entry) = (maker.any_two(), maker.conclusion());
        let (needed, barred): (&[i32], &[i32]) = match maker.random.below(5) {
            0 => (&[entry, -entry], &[]),
            1 => (&[], &[entry, -entry]),
            2 => (&[entry], &[entry]),
            3 => (&[entry], &[-entry]),
            _ => (&[], &[entry]),
        };
        maker.prefer_if(order, needed, barred);
    }
}

/// As many Q lines as a book may have, with bodies long enough that few of them count at once; or one that matters, the
/// last, behind many that do not count.
fn full(maker: &mut Maker) {
    one_for_each(maker);
    if maker.book.exceptions.is_empty() {
        maker.random_exception(0, 0);
    }
    let idle = maker.random.one_in(3);
    while maker.book.conditionals.len() < CONDITIONALS - 1 {
        let order = maker.any_two();
        if idle {
            let entry = maker.conclusion();
            maker.prefer_if(order, &[entry, -entry], &[]);
        } else {
            let (needed, barred) = (maker.conclusions(4), maker.conclusions(4));
            maker.prefer_if(order, &needed, &barred);
        }
    }
    let order = maker.any_two();
    add_under_some(maker, order);
}

/// A book whose exceptions are never needed, with Q lines: each of its statements is free.
pub fn free_book(random: &mut Random, statements: i32) -> Book {
    let exceptions = random.pick(&[1, 3, 12, 16]).min(EXCEPTIONS);
    let book = crate::loops::free_book(random, statements, exceptions);
    let mut maker = Maker { random, book, room: EXCEPTIONS };
    add_any(&mut maker, CONDITIONALS as u64);
    maker.book
}
