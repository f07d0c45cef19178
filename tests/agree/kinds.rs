//! Random books of many kinds, small enough for trying every set.

use crate::book::{Book, EXCEPTIONS};
use crate::maker::Maker;
use crate::random::Random;

pub type Kind = fn(&mut Maker);

/// The kinds, by name.
pub const KINDS: [(&str, Kind); 15] = [
    ("any rules", any_rules),
    ("defaults", defaults),
    ("loops through negation", loops_through_negation),
    ("positive loops", positive_loops),
    ("both signs", both_signs),
    ("constraints", constraints),
    ("exceptions that need each other", exceptions_that_need_each_other),
    ("chains of preferences", chains),
    ("circles of preferences", circles),
    ("crossing preferences", crossing),
    ("many exceptions", many_exceptions),
    ("many resolutions", many_resolutions),
    ("stated generator", stated_generator),
    ("sparse orders", sparse_orders),
    ("ways of different sizes to one goal", ways_to_one_goal),
];

/// A random small book of the kind with this number: at most 7 statements, and few enough sets to try them all.
pub fn small_book(random: &mut Random, kind: usize) -> Book {
    let most_sets = if random.one_in(40) { 120_000 } else { 9_000 };
    let statements = if KINDS[kind].0 == "many exceptions" {
        random.between(1, 3)
    } else {
        random.pick(&[1, 2, 3, 3, 4, 4, 4, 5, 5, 6, 7])
    };
    book_of_kind(random, kind, statements, room_within(statements, most_sets))
}

/// The most exceptions for which there are at most so many sets of conclusions and exceptions to try.
pub fn room_within(statements: i32, most_sets: u64) -> usize {
    (0..=EXCEPTIONS).rev().find(|room| 3u64.pow(statements as u32) << room <= most_sets).unwrap_or(0)
}

/// A random book of the kind with this number, of so many statements and at most so many exceptions.
pub fn book_of_kind(random: &mut Random, kind: usize, statements: i32, room: usize) -> Book {
    let mut maker = Maker::new(random, statements, room);
    KINDS[kind].1(&mut maker);
    spice(&mut maker);
    if maker.random.one_in(3) {
        maker.book
    } else {
        maker.shuffled()
    }
}

/// Sometimes adds a few random lines, so that no kind is too regular.
pub fn spice(maker: &mut Maker) {
    if maker.random.one_in(3) {
        for _ in 0..maker.random.below(3) {
            maker.random_plain(2, 2);
        }
    }
    if maker.random.one_in(4) {
        maker.random_exception(1, 1);
    }
    if maker.random.one_in(4) {
        maker.random_preferences(3);
    }
    if maker.random.one_in(6) {
        if let Some(rule) = maker.book.plain.first().copied() {
            maker.plain(rule.head, &rule.needed, &rule.barred);
        }
    }
}

/// Rules, exceptions and preferences drawn without a plan.
pub fn any_rules(maker: &mut Maker) {
    let needed = maker.random.below(3);
    let barred = 1 + maker.random.below(4);
    for _ in 0..maker.random.below(3 * maker.n() as u64 + 2) {
        maker.random_plain(needed, barred);
    }
    for _ in 0..maker.random.below(5) {
        maker.random_exception(needed, 2);
    }
    maker.random_preferences(4);
}

/// Statements that hold if nothing is known against them, observations against some, exceptions that deny.
pub fn defaults(maker: &mut Maker) {
    for statement in 1..=maker.n() {
        let sign = if maker.random.one_in(4) { -1 } else { 1 };
        maker.plain(sign * statement, &[], &[-sign * statement]);
        match maker.random.below(4) {
            0 => maker.constraint(&[sign * statement], &[]),
            1 => maker.constraint(&[], &[-sign * statement]),
            _ => {}
        }
        if !maker.random.one_in(4) {
            maker.exception(-sign * statement, &[], &[]);
        }
    }
    if maker.random.one_in(2) {
        let pair = [maker.conclusion(), maker.conclusion()];
        maker.constraint(&pair, &[]);
    }
}

/// Rings of rules, each barred by the next: an even ring has two sets, an odd one none.
pub fn loops_through_negation(maker: &mut Maker) {
    for _ in 0..1 + maker.random.below(3) {
        let mut ring: Vec<i32> = (0..1 + maker.random.below(4)).map(|_| maker.conclusion()).collect();
        ring.dedup();
        for place in 0..ring.len() {
            let next = ring[(place + 1) % ring.len()];
            let needed = if maker.random.one_in(5) { maker.conclusions(1) } else { Vec::new() };
            maker.plain(ring[place], &needed, &[next]);
        }
    }
    maker.random_exception(1, 1);
    maker.random_exception(0, 1);
}

/// Rings of rules, each needing the next, entered by choices or by exceptions.
pub fn positive_loops(maker: &mut Maker) {
    for _ in 0..1 + maker.random.below(2) {
        let ring: Vec<i32> = (0..1 + maker.random.below(4)).map(|_| maker.conclusion()).collect();
        for place in 0..ring.len() {
            maker.plain(ring[place], &[ring[(place + 1) % ring.len()]], &[]);
        }
        let (entry, wanted) = (maker.random.pick(&ring), maker.random.pick(&ring));
        match maker.random.below(4) {
            0 => maker.plain(entry, &[], &[-entry]),
            1 => maker.exception(entry, &[], &[]),
            2 => {
                maker.exception(entry, &[], &[]);
                maker.exception(wanted, &[], &[]);
                maker.constraint(&[], &[wanted]);
            }
            _ => {}
        }
    }
    if maker.random.one_in(2) {
        let statement = maker.statement();
        maker.free(statement);
    }
    maker.random_exception(1, 0);
}

/// Rules for a statement and against it, some of which bar each other.
pub fn both_signs(maker: &mut Maker) {
    for statement in 1..=maker.n() {
        let (for_it, against) = (maker.conclusions(1), maker.conclusions(1));
        let apart = !maker.random.one_in(4);
        let (without, within): (&[i32], &[i32]) = if apart { (&[-statement], &[statement]) } else { (&[], &[]) };
        if !maker.random.one_in(3) {
            maker.plain(statement, &for_it, without);
        }
        if !maker.random.one_in(3) {
            maker.plain(-statement, &against, within);
        }
    }
    for _ in 0..1 + maker.random.below(3) {
        maker.random_exception(0, 2);
    }
    if maker.random.one_in(2) {
        let wanted = some_head(maker);
        maker.constraint(&[], &[wanted]);
    }
}

/// Constraints that only exceptions can meet.
pub fn constraints(maker: &mut Maker) {
    for _ in 0..2 + maker.random.below(3) {
        maker.random_exception(1, 1);
    }
    for _ in 0..1 + maker.random.below(3) {
        let barred: Vec<i32> = (0..1 + maker.random.below(3)).map(|_| some_head(maker)).collect();
        let needed = if maker.random.one_in(3) { maker.conclusions(1) } else { Vec::new() };
        maker.constraint(&needed, &barred);
    }
    maker.random_plain(2, 1);
    maker.random_preferences(2);
}

/// The head of some exception, or any conclusion.
pub fn some_head(maker: &mut Maker) -> i32 {
    let heads: Vec<i32> = maker.book.exceptions.iter().map(|rule| rule.head).collect();
    if heads.is_empty() || maker.random.one_in(6) {
        maker.conclusion()
    } else {
        maker.random.pick(&heads)
    }
}

/// Exceptions whose bodies need what other exceptions conclude, in chains and in circles.
pub fn exceptions_that_need_each_other(maker: &mut Maker) {
    let chain: Vec<i32> = (0..2 + maker.random.below(3)).map(|_| maker.conclusion()).collect();
    let circle = maker.random.one_in(3);
    for place in 0..chain.len() {
        let needed = match place {
            0 if circle => vec![chain[chain.len() - 1]],
            0 => Vec::new(),
            _ => vec![chain[place - 1]],
        };
        maker.exception(chain[place], &needed, &[]);
    }
    maker.constraint(&[], &[chain[chain.len() - 1]]);
    if maker.random.one_in(2) {
        let entry = maker.random.pick(&chain);
        maker.exception(entry, &[], &[]);
    }
    if maker.random.one_in(3) {
        maker.random_preferences(2);
    }
}

/// One exception for each statement; some of them are wanted.
pub fn one_for_each(maker: &mut Maker) {
    for statement in 1..=maker.n() {
        maker.exception(statement, &[], &[]);
    }
    for _ in 0..1 + maker.random.below(2) {
        let (one, other) = (maker.statement(), maker.statement());
        maker.constraint(&[], &[one, other]);
    }
    if maker.random.one_in(2) {
        let (one, other) = (maker.statement(), maker.statement());
        maker.constraint(&[one, other], &[]);
    }
    if maker.random.one_in(3) {
        let (one, other) = (maker.statement(), maker.statement());
        maker.constraint(&[one], &[other]);
    }
}

/// A chain of preferences.
pub fn chains(maker: &mut Maker) {
    one_for_each(maker);
    let count = maker.book.exceptions.len() as i32;
    for number in 1..count {
        if !maker.random.one_in(4) {
            maker.prefer(number, number + 1);
        }
    }
}

/// A circle of preferences over some of the exceptions.
pub fn circles(maker: &mut Maker) {
    one_for_each(maker);
    let count = maker.book.exceptions.len() as i32;
    if count == 0 {
        return;
    }
    let length = maker.random.between(1, count);
    for number in 1..=length {
        maker.prefer(number, number % length + 1);
    }
    maker.random_preferences(1);
}

/// Views that dominate each other across pairs of exceptions, as in K9.
pub fn crossing(maker: &mut Maker) {
    let pairs = (maker.n() / 2).max(1).min(3);
    for statement in 1..=(2 * pairs).min(maker.n()) {
        maker.exception(statement, &[], &[]);
    }
    for pair in 0..pairs {
        let (one, other) = (2 * pair + 1, (2 * pair + 2).min(maker.n()));
        maker.constraint(&[], &[one, other]);
        maker.prefer(one, other);
        let across = (one + 2 - 1) % (2 * pairs) + 1;
        if across <= maker.n() && !maker.random.one_in(3) {
            maker.constraint(&[one, across], &[]);
        }
        let across = (other + 2 - 1) % (2 * pairs) + 1;
        if across <= maker.n() && !maker.random.one_in(3) {
            maker.constraint(&[other, across], &[]);
        }
    }
}

/// As many exceptions as the book has room for, over few statements.
pub fn many_exceptions(maker: &mut Maker) {
    for _ in 0..maker.room {
        maker.random_exception(1, 1);
    }
    for _ in 0..1 + maker.random.below(2) {
        let wanted = some_head(maker);
        maker.constraint(&[], &[wanted]);
    }
    if maker.random.one_in(3) {
        maker.random_plain(1, 1);
    }
    maker.random_preferences(6);
}

/// Free statements, and several exceptions of which one is wanted.
pub fn many_resolutions(maker: &mut Maker) {
    for statement in 1..maker.n() {
        maker.free(statement);
    }
    let wanted = maker.n();
    if !maker.random.one_in(3) {
        maker.constraint(&[], &[wanted]);
    }
    for _ in 0..maker.random.below(4) {
        let barred = maker.conclusions(1);
        maker.exception(wanted, &[], &barred);
    }
    if maker.random.one_in(2) {
        let filter = [maker.conclusion(), maker.conclusion()];
        maker.constraint(&filter, &[]);
    }
}

/// The generator that document 02, request (m), states, from a random shape and a random start.
pub fn stated_generator(maker: &mut Maker) {
    let rules = maker.random.below(3 * maker.n() as u64 + 3) as usize;
    let exceptions = maker.random.below(maker.room.min(4) as u64 + 1) as usize;
    let preferences = if exceptions == 0 { 0 } else { maker.random.below(4) as usize };
    let start = maker.random.next() as u32;
    fill_as_stated(maker, [rules, exceptions, preferences], start);
}

/// Fills the book as request (m) states.
pub fn fill_as_stated(maker: &mut Maker, counts: [usize; 3], start: u32) {
    let mut number = start;
    let mut draw = |bound: i32| {
        number = number.wrapping_mul(1_664_525).wrapping_add(1_013_904_223);
        ((number / 65_536) % bound as u32) as i32
    };
    let n = maker.book.statements;
    let mut row = || std::array::from_fn::<i32, 9, _>(|_| draw(2 * n + 1) - n);
    for _ in 0..counts[0] {
        maker.book.plain.push(crate::book::Rule::of_row(&row()));
    }
    for _ in 0..counts[1] {
        let mut rule = crate::book::Rule::of_row(&row());
        rule.head = if rule.head == 0 { 1 } else { rule.head };
        maker.book.exceptions.push(rule);
    }
    for _ in 0..counts[2] {
        let order = [1 + draw(counts[1] as i32), 1 + draw(counts[1] as i32)];
        maker.book.preferences.push(order);
    }
}

/// Exceptions with bodies under a sparse order, with constraints that several of them can meet.
pub fn sparse_orders(maker: &mut Maker) {
    let wanted = maker.conclusion();
    for _ in 0..2 + maker.random.below(4) {
        if maker.random.one_in(2) {
            let needed = maker.conclusions(1);
            maker.exception(wanted, &needed, &[]);
        } else {
            maker.random_exception(1, 1);
        }
    }
    maker.exception(wanted, &[], &[]);
    maker.constraint(&[], &[wanted]);
    if maker.random.one_in(2) {
        maker.random_plain(1, 2);
    }
    maker.random_preferences(5);
}

/// Several ways to one goal, each by one to three exceptions of its own, so that resolutions differ in how many they take.
pub fn ways_to_one_goal(maker: &mut Maker) {
    let goal = maker.n();
    let mut next = 1;
    while next < goal || maker.random.one_in(3) {
        let size = maker.random.between(1, 3).min(goal - next);
        let own: Vec<i32> = (next..next + size).collect();
        for statement in &own {
            maker.exception(*statement, &[], &[]);
        }
        if size == 0 {
            maker.exception(goal, &[], &[]);
        } else {
            maker.plain(goal, &own, &[]);
        }
        next += size;
    }
    maker.constraint(&[], &[goal]);
    if maker.random.one_in(3) {
        maker.random_preferences(3);
    }
}
