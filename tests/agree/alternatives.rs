//! Random books with rules with alternatives, small enough for trying every set.

use crate::book::{Book, ALTERNATIVES};
use crate::conditions;
use crate::kinds::{self, room_within, spice, Kind};
use crate::maker::Maker;
use crate::random::Random;
use crate::wide::{self, many};

/// The kinds, by name.
pub const KINDS: [(&str, Kind); 17] = [
    ("any book and any O lines", any_book),
    ("any book with Q lines and O lines", any_conditional),
    ("few statements, many O lines", few_statements),
    ("choices", choices),
    ("smallest hitting sets", hitting_sets),
    ("heads in circles", circles),
    ("O lines that need heads of others", chained),
    ("both of each, if a term holds", for_all),
    ("both signs as heads", both_signs),
    ("repeated heads and gaps", repeated),
    ("barred heads", barred_heads),
    ("heads that are denied", denied_heads),
    ("exceptions for what is left", left_over),
    ("exceptions that leave a field open", open_fields),
    ("exceptions under heads", under_heads),
    ("companies that control each other", companies),
    ("40 O lines", full),
];

/// A random small book of the kind with this number: at most 6 statements, and few enough sets to try them all.
pub fn alternative_book(random: &mut Random, kind: usize) -> Book {
    let most_sets = if random.one_in(40) { 30_000 } else { 6_000 };
    let statements = random.pick(&[1, 2, 2, 3, 3, 3, 4, 4, 4, 5, 5, 6]);
    book_of_kind(random, kind, statements, room_within(statements, most_sets))
}

/// A random book of the kind with this number, of so many statements and at most so many exceptions.
pub fn book_of_kind(random: &mut Random, kind: usize, statements: i32, room: usize) -> Book {
    let mut maker = Maker::new(random, statements, room);
    KINDS[kind].1(&mut maker);
    spice(&mut maker);
    if maker.random.one_in(4) || maker.book.alternatives.is_empty() {
        add_any(&mut maker, 2);
    }
    if maker.random.one_in(3) {
        maker.book
    } else {
        maker.shuffled()
    }
}

/// A random book of 12 to 16 exceptions over at most 4 statements: a kind of such books, with O lines.
pub fn wide_alternative_book(random: &mut Random, kind: usize) -> Book {
    let (statements, room) = (random.between(2, 4), many(random) as usize);
    let mut maker = Maker::new(random, statements, room);
    wide::KINDS[kind].1(&mut maker);
    while maker.book.exceptions.len() < room {
        maker.random_exception(1, 1);
    }
    let most = if maker.random.one_in(4) { 12 } else { 3 };
    add_any(&mut maker, most);
    maker.shuffled()
}

/// Adds one to so many O lines, drawn without a plan.
fn add_any(maker: &mut Maker, most: u64) {
    for _ in 0..1 + maker.random.below(most) {
        let (needed, barred) = (maker.random.below(3), maker.random.below(3));
        maker.random_either(needed, barred);
    }
}

/// Two or three different statements, or as many as there are.
fn some_heads(maker: &mut Maker) -> Vec<i32> {
    let mut all: Vec<i32> = (1..=maker.n()).collect();
    maker.random.shuffle(&mut all);
    all.truncate(maker.random.between(2, 3) as usize);
    if all.len() == 1 {
        all.push(-all[0]);
    }
    all
}

/// Adds a plain rule by which the one conclusion follows from the other.
fn follows(maker: &mut Maker, from: i32, to: i32) {
    maker.plain(to, &[from], &[]);
}

/// A small book of any other kind, with O lines drawn without a plan.
fn any_book(maker: &mut Maker) {
    let kind = maker.random.below(kinds::KINDS.len() as u64) as usize;
    kinds::KINDS[kind].1(maker);
    add_any(maker, 4);
}

/// A small book of any kind with Q lines, with O lines drawn without a plan.
fn any_conditional(maker: &mut Maker) {
    if maker.n() == 1 {
        return any_book(maker);
    }
    let kind = maker.random.below(conditions::KINDS.len() as u64) as usize;
    conditions::KINDS[kind].1(maker);
    add_any(maker, 4);
}

/// At most three statements, or all, in many O lines.
fn few_statements(maker: &mut Maker) {
    let last = maker.n().min(3);
    let sparse = maker.random.one_in(2);
    let some = |maker: &mut Maker, least: i32, most: i32| -> Vec<i32> {
        let count = maker.random.between(least, most);
        (0..count).map(|_| maker.random.between(1, last) * maker.random.pick(&[1, 1, 1, -1])).collect()
    };
    for _ in 0..3 + maker.random.below(10) {
        let (heads, barred) = (some(maker, 2, 3), some(maker, 0, 1));
        let needed = some(maker, 0, if sparse { 1 } else { 2 });
        maker.either(&heads, &needed, &barred);
    }
}

/// Statements that are held or denied, by O lines, with filters.
fn choices(maker: &mut Maker) {
    for statement in 1..=maker.n() {
        if !maker.random.one_in(5) {
            maker.either(&[statement, -statement], &[], &[]);
        }
    }
    for _ in 0..maker.random.below(3) {
        let (needed, barred) = (maker.conclusions(2), maker.conclusions(2));
        maker.constraint(&needed, &barred);
    }
    for _ in 0..maker.random.below(3) {
        let (head, needed) = (maker.conclusion(), maker.conclusions(2));
        maker.plain(head, &needed, &[]);
    }
}

/// O lines of two or three statements without a body, and perhaps statements that exclude each other.
fn hitting_sets(maker: &mut Maker) {
    for _ in 0..1 + maker.random.below(2 * maker.n() as u64) {
        let heads = some_heads(maker);
        maker.either(&heads, &[], &[]);
    }
    if maker.random.one_in(3) {
        let two = [maker.statement(), maker.statement()];
        maker.constraint(&two, &[]);
    }
}

/// O lines whose heads follow from each other, in circles and in chains: two heads are both there if each needs the other.
fn circles(maker: &mut Maker) {
    for _ in 0..1 + maker.random.below(3) {
        let heads = some_heads(maker);
        maker.either(&heads, &[], &[]);
        for (place, head) in heads.iter().enumerate() {
            if !maker.random.one_in(4) {
                follows(maker, *head, heads[(place + 1) % heads.len()]);
            }
        }
    }
    for _ in 0..maker.random.below(3) {
        let (from, to) = (maker.statement(), maker.statement());
        follows(maker, from, to);
    }
    if maker.random.one_in(3) {
        let wanted = maker.statement();
        maker.constraint(&[], &[wanted]);
    }
}

/// O lines that need what other O lines give.
fn chained(maker: &mut Maker) {
    let first = some_heads(maker);
    maker.either(&first, &[], &[]);
    for _ in 0..1 + maker.random.below(5) {
        let (heads, needed) = (some_heads(maker), maker.statement());
        let barred = if maker.random.one_in(4) { maker.conclusions(1) } else { Vec::new() };
        maker.either(&heads, &[needed], &barred);
    }
    if maker.random.one_in(2) {
        let (from, to) = (maker.statement(), maker.statement());
        follows(maker, from, to);
    }
}

/// Choices, and pairs of statements of which both are there if a term holds: the terms must cover all that the pairs can
/// be. The last statement says that a term holds.
fn for_all(maker: &mut Maker) {
    let (n, pairs) = (maker.n(), ((maker.n() - 1) / 2).min(2));
    let free = n - 1 - 2 * pairs;
    (1..=free).for_each(|statement| maker.either(&[statement, -statement], &[], &[]));
    let sides: Vec<[i32; 2]> = (0..pairs).map(|pair| [free + 2 * pair + 1, free + 2 * pair + 2]).collect();
    for side in &sides {
        maker.either(side, &[], &[]);
        side.iter().for_each(|own| follows(maker, n, *own));
    }
    for _ in 0..maker.random.below(5) {
        let mut term: Vec<i32> = sides.iter().map(|side| maker.random.pick(side)).collect();
        if free > 0 && maker.random.one_in(2) {
            let statement = maker.random.between(1, free);
            term.push(maker.random.pick(&[statement, -statement]));
        }
        if term.len() > 1 && maker.random.one_in(3) {
            term.remove(0);
        }
        maker.plain(n, &term, &[]);
    }
    if !maker.random.one_in(3) {
        maker.constraint(&[], &[n]);
    }
}

/// Heads +i and -i in one line, often with a third, with and without a body.
fn both_signs(maker: &mut Maker) {
    for _ in 0..1 + maker.random.below(4) {
        let head = maker.conclusion();
        let mut heads = vec![head, -head];
        heads.extend(maker.conclusions(1));
        let (needed, barred) = (maker.conclusions(1), maker.conclusions(1));
        maker.either(&heads, &needed, &barred);
    }
    for _ in 0..maker.random.below(3) {
        maker.random_plain(1, 1);
    }
}

/// The same head twice or three times, which is a plain rule, and heads in every place.
fn repeated(maker: &mut Maker) {
    for _ in 0..1 + maker.random.below(4) {
        let (one, other) = (maker.conclusion(), maker.conclusion());
        let heads = maker.random.pick(&[[one, one, 0], [one, one, one], [one, other, one], [one, other, 0]]);
        let filled: Vec<i32> = heads.iter().copied().filter(|head| *head != 0).collect();
        let (needed, barred) = (maker.conclusions(2), maker.conclusions(2));
        maker.either(&filled, &needed, &barred);
        if let (Some(line), true) = (maker.book.alternatives.last_mut(), filled.len() == 2) {
            let mut places = [filled[0], filled[1], 0];
            maker.random.shuffle(&mut places);
            line.heads = places;
        }
    }
}

/// O lines that bar their own heads, and those of others: alternatives through negation.
fn barred_heads(maker: &mut Maker) {
    for _ in 0..2 + maker.random.below(4) {
        let heads = some_heads(maker);
        let barred = if maker.random.one_in(3) { maker.random.pick(&heads) } else { maker.conclusion() };
        maker.either(&heads, &[], &[barred]);
    }
    if maker.random.one_in(2) {
        let (head, barred) = (maker.conclusion(), maker.conclusion());
        maker.plain(head, &[], &[barred]);
    }
}

/// O lines beside rules that deny some of their heads, or that need the denial of one.
fn denied_heads(maker: &mut Maker) {
    for _ in 0..1 + maker.random.below(3) {
        let heads = some_heads(maker);
        let denied = maker.random.pick(&heads);
        let needed = maker.conclusions(1);
        match maker.random.below(3) {
            0 => maker.plain(-denied, &[], &[denied]),
            1 => maker.plain(-denied, &needed, &[]),
            _ => {}
        }
        let body = if maker.random.one_in(3) { vec![-denied] } else { Vec::new() };
        maker.either(&heads, &body, &[]);
    }
}

/// Alternatives that are all excluded, unless an exception gives something else; the exceptions are ranked.
fn left_over(maker: &mut Maker) {
    let heads = some_heads(maker);
    maker.either(&heads, &[], &[]);
    for head in &heads {
        let (needed, other) = (*head, maker.conclusion());
        maker.constraint(&[needed], &[other]);
        maker.exception(other, &[], &[]);
    }
    maker.random_exception(1, 1);
    maker.random_preferences(3);
    if maker.random.one_in(2) {
        let (needed, barred) = (maker.conclusions(1), maker.conclusions(1));
        let order = maker.any_two();
        maker.prefer_if(order, &needed, &barred);
    }
}

/// Fields of two claims, of which one at least holds unless an exception leaves the field open; claims exclude each
/// other, and the exceptions are ranked, some under a claim.
fn open_fields(maker: &mut Maker) {
    let fields = (maker.n() / 3).max(1);
    for field in 0..fields {
        let [one, other, open] = [1, 2, 3].map(|own| (3 * field + own - 1) % maker.n() + 1);
        maker.either(&[one, other], &[], &[open]);
        maker.exception(open, &[], &[]);
        let given = maker.random.pick(&[one, -one]);
        maker.exception(given, &[], &[]);
    }
    for _ in 0..1 + maker.random.below(4) {
        let some = [maker.statement(), maker.statement()];
        maker.constraint(&some, &[]);
    }
    maker.random_preferences(2);
    let claim = maker.conclusion();
    let order = maker.any_two();
    maker.prefer_if(order, &[claim], &[]);
}

/// Exceptions whose bodies need heads of O lines, or bar them.
fn under_heads(maker: &mut Maker) {
    let heads = some_heads(maker);
    maker.either(&heads, &[], &[]);
    for head in &heads {
        let given = maker.conclusion();
        if maker.random.one_in(3) {
            maker.exception(given, &[], &[*head]);
        } else {
            maker.exception(given, &[*head], &[]);
        }
    }
    let wanted = maker.conclusion();
    maker.constraint(&[], &[wanted]);
    maker.random_preferences(3);
}

/// Goods of which each is made by two or three companies, and companies that are kept if all that control them are.
fn companies(maker: &mut Maker) {
    for _ in 0..1 + maker.random.below(4) {
        let heads = some_heads(maker);
        maker.either(&heads, &[], &[]);
    }
    for _ in 0..1 + maker.random.below(4) {
        let (kept, one, other) = (maker.statement(), maker.statement(), maker.statement());
        maker.plain(kept, &[one, other], &[]);
    }
    if maker.random.one_in(2) {
        let asked = maker.statement();
        maker.constraint(&[], &[asked]);
    }
}

/// As many O lines as a book may have: nearly all of them need something that does not hold; or one that matters stands
/// last, behind many that say nothing new.
fn full(maker: &mut Maker) {
    let idle = maker.random.one_in(2);
    while maker.book.alternatives.len() < ALTERNATIVES - 1 {
        if idle {
            let entry = maker.conclusion();
            maker.either(&[entry, -entry], &[entry], &[]);
        } else {
            let heads = some_heads(maker);
            let (needed, barred) = (maker.conclusions(3), maker.conclusions(2));
            let needed = [&[maker.statement()][..], &needed].concat();
            maker.either(&heads, &needed, &barred);
        }
    }
    let heads = some_heads(maker);
    maker.either(&heads, &[], &[]);
}
