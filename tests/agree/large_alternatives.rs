//! Random books with O lines and up to 48 statements, for the comparison with clingo.

use crate::book::*;
use crate::large;
use crate::large_conditions;
use crate::maker::Maker;
use crate::random::Random;

type Kind = fn(&mut Random) -> Book;

/// The kinds, by name.
pub const KINDS: [(&str, Kind); 13] = [
    ("any larger book and O lines", any_book),
    ("any larger book with Q lines and O lines", any_conditional),
    ("choices with filters", choices),
    ("one of three, so many times", of_three),
    ("colours", colours),
    ("smallest hitting sets", hitting_sets),
    ("hitting sets in circles", linked),
    ("companies", companies),
    ("clauses with bodies", clauses),
    ("whatever the others are", for_all),
    ("random rules, 40 O lines", random_rules),
    ("fields that exceptions leave open", open_fields),
    ("causes of what is seen", causes),
];

/// So many different statements.
fn different(maker: &mut Maker, count: usize) -> Vec<i32> {
    let mut all: Vec<i32> = (1..=maker.n()).collect();
    maker.random.shuffle(&mut all);
    all.truncate(count);
    all
}

/// Adds an O line without a body over two or three different statements.
fn either_of_some(maker: &mut Maker) {
    let count = maker.random.between(2, 3) as usize;
    let heads = different(maker, count);
    maker.either(&heads, &[], &[]);
}

/// Begins a book of so many statements.
fn maker(random: &mut Random, least: i32, most: i32) -> Maker<'_> {
    let statements = random.between(least, most);
    Maker::new(random, statements, EXCEPTIONS)
}

/// Adds a few O lines to a book, drawn without a plan.
fn with_some(random: &mut Random, book: Book) -> Book {
    let mut maker = Maker { random, book, room: EXCEPTIONS };
    for _ in 0..1 + maker.random.below(8) {
        maker.random_either(2, 2);
    }
    maker.book
}

fn any_book(random: &mut Random) -> Book {
    let kind = random.below(large::KINDS.len() as u64) as usize;
    let book = large::KINDS[kind].1(random);
    with_some(random, book)
}

fn any_conditional(random: &mut Random) -> Book {
    let kind = random.below(large_conditions::KINDS.len() as u64) as usize;
    let book = large_conditions::KINDS[kind].1(random);
    with_some(random, book)
}

/// Statements that are held or denied, by O lines, with filters of three; often more than 9,999 resolutions.
fn choices(random: &mut Random) -> Book {
    let mut maker = maker(random, 8, 48);
    let lines = maker.n().min(ALTERNATIVES as i32);
    (1..=lines).for_each(|statement| maker.either(&[statement, -statement], &[], &[]));
    for _ in 0..maker.random.below(3 * lines as u64) {
        let three = [(); 3].map(|()| maker.conclusion());
        maker.constraint(&three, &[]);
    }
    maker.shuffled()
}

/// One of three statements, so many times, with a few pairs that exclude each other.
fn of_three(random: &mut Random) -> Book {
    let groups = random.between(3, 16);
    let mut maker = Maker::new(random, 3 * groups, EXCEPTIONS);
    for first in (1..3 * groups).step_by(3) {
        maker.either(&[first, first + 1, first + 2], &[], &[]);
    }
    for _ in 0..maker.random.below(6) {
        let two = different(&mut maker, 2);
        maker.constraint(&two, &[]);
    }
    maker.shuffled()
}

/// Nodes in one of three colours, and pairs of nodes that differ.
fn colours(random: &mut Random) -> Book {
    let nodes = random.between(5, 14);
    let mut maker = Maker::new(random, 3 * nodes, EXCEPTIONS);
    for node in 0..nodes {
        maker.either(&[1, 2, 3].map(|colour| 3 * node + colour), &[], &[]);
    }
    for _ in 0..maker.random.between(nodes, 2 * nodes) {
        let [one, other] = [(); 2].map(|()| maker.random.between(0, nodes - 1));
        if one != other {
            (1..=3).for_each(|colour| maker.constraint(&[3 * one + colour, 3 * other + colour], &[]));
        }
    }
    maker.shuffled()
}

/// The smallest sets with one of two or three in each line, with a few pairs that exclude each other.
fn hitting_sets(random: &mut Random) -> Book {
    let mut maker = maker(random, 8, 24);
    for _ in 0..maker.random.between(8, ALTERNATIVES as i32) {
        either_of_some(&mut maker);
    }
    for _ in 0..maker.random.below(8) {
        let two = different(&mut maker, 2);
        maker.constraint(&two, &[]);
    }
    maker.shuffled()
}

/// Hitting sets whose statements bring each other, in circles too.
fn linked(random: &mut Random) -> Book {
    let mut maker = maker(random, 10, 40);
    for _ in 0..maker.random.between(10, ALTERNATIVES as i32) {
        either_of_some(&mut maker);
    }
    for statement in 1..=maker.n() {
        let other = maker.statement();
        if other != statement {
            maker.plain(other, &[statement], &[]);
        }
    }
    maker.shuffled()
}

/// Goods of which each is made by two or three companies, and companies that are kept if all that control them are.
fn companies(random: &mut Random) -> Book {
    let mut maker = maker(random, 16, 48);
    for _ in 0..ALTERNATIVES {
        either_of_some(&mut maker);
    }
    for _ in 0..maker.random.between(2 * maker.book.statements, 3 * maker.book.statements) {
        let count = maker.random.between(2, 4) as usize;
        let some = different(&mut maker, count);
        maker.plain(some[0], &some[1..], &[]);
    }
    let asked = maker.statement();
    maker.constraint(&[], &[asked]);
    maker.shuffled()
}

/// Minimal models of clauses with bodies, from a few facts.
fn clauses(random: &mut Random) -> Book {
    let mut maker = maker(random, 12, 36);
    for statement in different(&mut maker, 4) {
        maker.plain(statement, &[], &[]);
    }
    for _ in 0..ALTERNATIVES {
        let (heads, needed) = (maker.random.between(2, 3) as usize, maker.random.below(3) as usize);
        let some = different(&mut maker, heads + needed);
        let barred = if maker.random.one_in(5) { vec![maker.statement()] } else { Vec::new() };
        maker.either(&some[..heads], &some[heads..], &barred);
    }
    maker.shuffled()
}

/// Is there a choice such that, whatever the others are, one of the terms holds? What is for all has two statements each,
/// and both follow if a term holds. Sometimes an exception adds a term.
fn for_all(random: &mut Random) -> Book {
    let (chosen, others) = (random.between(3, 8), random.between(3, 8));
    let mut maker = Maker::new(random, chosen + 2 * others + 1, EXCEPTIONS);
    let (last, repaired) = (maker.n(), maker.random.one_in(3));
    let sides = |number: i32| [chosen + 2 * number + 1, chosen + 2 * number + 2];
    (1..=chosen).for_each(|statement| maker.either(&[statement, -statement], &[], &[]));
    for number in 0..others {
        maker.either(&sides(number), &[], &[]);
        sides(number).iter().for_each(|side| maker.plain(*side, &[last], &[]));
    }
    let terms = maker.random.between(2 * others, 5 * others);
    for number in 0..terms {
        let statement = maker.random.between(1, chosen);
        let mut term = vec![maker.random.pick(&[statement, -statement])];
        for _ in 0..maker.random.between(1, 2) {
            let pair = maker.random.between(0, others - 1);
            term.push(maker.random.pick(&sides(pair)));
        }
        if repaired && number % 3 == 0 {
            maker.exception(last, &term, &[]);
        } else {
            maker.plain(last, &term, &[]);
        }
    }
    maker.constraint(&[], &[last]);
    maker.random_preferences(3);
    maker.shuffled()
}

/// Random rules with 0 to 2 needed and 1 to 3 barred entries, of which 40 have alternatives.
fn random_rules(random: &mut Random) -> Book {
    let mut maker = maker(random, 16, 48);
    let (needed, barred) = (maker.random.below(3), 1 + maker.random.below(3));
    let rules = maker.random.between(maker.book.statements, 3 * maker.book.statements);
    let denied = maker.random.pick(&[4, 8, 1_000]);
    let entry = |maker: &mut Maker| maker.statement() * if maker.random.one_in(denied) { -1 } else { 1 };
    let some = |maker: &mut Maker, count: u64| -> Vec<i32> { (0..count).map(|_| entry(maker)).collect() };
    for number in 0..rules + ALTERNATIVES as i32 {
        let (heads, bars, count) = (some(&mut maker, 3), some(&mut maker, barred), maker.random.below(needed + 1));
        let needs = some(&mut maker, count);
        if number < rules {
            maker.plain(heads[0], &needs, &bars);
        } else {
            maker.either(&heads, &needs, &bars);
        }
    }
    for _ in 0..maker.random.below(6) {
        maker.random_exception(1, 2);
    }
    maker.random_preferences(4);
    maker.book
}

/// Fields of three claims, of which one at least holds unless an exception leaves the field open; claims of different
/// fields exclude each other or bring each other; the exceptions are ranked, often under claims.
fn open_fields(random: &mut Random) -> Book {
    let fields = random.between(3, 8);
    let mut maker = Maker::new(random, 4 * fields, EXCEPTIONS);
    let claim = |maker: &mut Maker| 4 * maker.random.between(0, fields - 1) + maker.random.between(1, 3);
    for field in 0..fields {
        let [one, two, three, open] = [1, 2, 3, 4].map(|own| 4 * field + own);
        maker.either(&[one, two, three], &[], &[open]);
        maker.exception(open, &[], &[]);
    }
    for _ in 0..maker.random.between(5 * fields, 10 * fields) {
        let two = [claim(&mut maker), claim(&mut maker)];
        maker.constraint(&two, &[]);
    }
    for _ in 0..fields {
        let (brought, by) = (claim(&mut maker), [claim(&mut maker), claim(&mut maker)]);
        maker.plain(brought, &by, &[]);
    }
    maker.random_preferences(fields as u64);
    let entries = [claim(&mut maker), claim(&mut maker)];
    if maker.random.one_in(2) {
        large_conditions::add_some(&mut maker, 6, &entries);
    }
    maker.shuffled()
}

/// What is seen has one of three causes, unless it was seen wrongly, which an exception says; causes exclude each other
/// and bring each other.
fn causes(random: &mut Random) -> Book {
    let (seen, total) = (random.between(3, 8), random.between(8, 20));
    let mut maker = Maker::new(random, 2 * seen + total, EXCEPTIONS);
    let cause = |maker: &mut Maker| 2 * seen + maker.random.between(1, total);
    for sight in 1..=seen {
        let some = [(); 4].map(|()| cause(&mut maker));
        maker.plain(sight, &[], &[]);
        maker.either(&some[..3], &[sight], &[seen + sight]);
        maker.either(&some[2..], &[some[0]], &[]);
        maker.exception(seen + sight, &[sight], &[]);
    }
    for _ in 0..maker.random.between(total, 2 * total) {
        let two = [cause(&mut maker), cause(&mut maker)];
        maker.constraint(&two, &[]);
    }
    for _ in 0..total / 2 {
        let (brought, by) = (cause(&mut maker), [cause(&mut maker), cause(&mut maker)]);
        maker.plain(brought, &by, &[]);
    }
    maker.random_preferences(4);
    maker.shuffled()
}
