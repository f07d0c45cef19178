//! The sections of a run on books with O lines, request (g): what is compared, and what was met.

use crate::alternatives::{self, alternative_book, book_of_kind, wide_alternative_book};
use crate::blocks::Blocks;
use crate::book::Book;
use crate::compare::{Known, Outcome};
use crate::damage;
use crate::damaged_alternatives;
use crate::heads;
use crate::large_alternatives;
use crate::library::{compare_book, compare_small, judge_all, Outcomes};
use crate::listing::walk;
use crate::loops;
use crate::meaning::{Meaning, Oracle};
use crate::plain;
use crate::random::Random;
use crate::sections::{at_text, no_outcomes, Run, STEP};
use crate::small_books::alternative_cases;
use crate::text::text_of;
use crate::tiny;
use crate::wide;

/// The lists of calls on one book.
const LISTINGS: usize = 6;

/// How many books with O lines each section takes; 0 leaves the section out.
#[derive(Clone, Copy, Default)]
pub struct Counts {
    pub plain_tiny: u64,
    pub plain_small: u64,
    pub tiny: u64,
    pub small: u64,
    pub wide: u64,
    pub blocks: u64,
    pub free: u64,
    pub limits: u64,
    pub faulty: u64,
    pub lengths: u64,
    pub listings: u64,
    pub by_clingo: u64,
    pub large: u64,
    pub ways: u64,
}

/// What was met in books with O lines.
pub struct Met {
    /// One for each kind of small book, one for books of one statement and one for books of many parts.
    pub small: Vec<Outcomes>,
    /// One for each kind of small book of 12 to 16 exceptions.
    pub wide: Vec<Outcomes>,
    /// One for each kind of larger book.
    pub large: Vec<Outcomes>,
    /// How many books were read in other ways too, and in how many of them each of these judges some pair otherwise.
    pub read_otherwise: u64,
    pub told_apart: [u64; heads::COUNT],
    /// Books with a resolution that has two different heads of a line whose body it satisfies.
    pub two_heads: u64,
}

/// The places of the two last in `Met::small`.
const OF_ONE_STATEMENT: usize = alternatives::KINDS.len();
const OF_PARTS: usize = alternatives::KINDS.len() + 1;

impl Met {
    /// Before any book came up.
    pub fn nothing() -> Met {
        Met {
            small: no_outcomes(alternatives::KINDS.len() + 2),
            wide: no_outcomes(wide::KINDS.len()),
            large: no_outcomes(large_alternatives::KINDS.len()),
            read_otherwise: 0,
            told_apart: [0; heads::COUNT],
            two_heads: 0,
        }
    }

    /// Reads a small book in the other ways, and counts those that judge some pair otherwise.
    fn read_otherwise(&mut self, book: &Book, meaning: &Meaning) {
        self.two_heads += u64::from(meaning.resolutions().iter().any(|pair| heads::two_in(book, pair)));
        if let Some(told) = heads::told_apart(book) {
            self.read_otherwise += 1;
            self.told_apart = std::array::from_fn(|place| self.told_apart[place] + u64::from(told[place]));
        }
    }
}

/// The kind of small book that is next.
fn kind_at(place: u64) -> usize {
    place as usize % alternatives::KINDS.len()
}

/// The cases of request (g), every lawful pair judged.
pub fn cases(run: &mut Run, random: &mut Random, _: u64) -> Outcome {
    for case in alternative_cases() {
        let meaning = compare_small(&mut run.checker, random, &case.book, &mut run.walked)?;
        run.alternative.read_otherwise(&case.book, &meaning);
        judge_all(&mut run.checker, &case.book, &meaning)?;
    }
    Ok(())
}

/// The book of one statement with this place.
fn tiny_book(place: u64) -> Book {
    tiny::alternative_book((place * STEP as u64 % tiny::ALTERNATIVE) as usize)
}

/// The two readings of one book of one statement.
pub fn plain_tiny(_: &mut Run, _: &mut Random, place: u64) -> Outcome {
    let book = tiny_book(place);
    plain::compare(&book).map_err(at_text(&text_of(&book)))
}

/// The two readings of one random tiny book.
pub fn plain_small(_: &mut Run, random: &mut Random, place: u64) -> Outcome {
    let statements = random.between(1, plain::MOST_STATEMENTS);
    let book = book_of_kind(random, kind_at(place), statements, plain::MOST_EXCEPTIONS);
    plain::compare(&book).map_err(at_text(&text_of(&book)))
}

/// One book of one statement, every operation that it needs.
pub fn one_statement(run: &mut Run, _: &mut Random, place: u64) -> Outcome {
    let (book, before) = (tiny_book(place), run.questions());
    let meaning = Meaning::of(&book);
    tiny::compare(&mut run.checker, &book, &meaning)?;
    let asked = run.questions() - before;
    run.alternative.small[OF_ONE_STATEMENT].count_asked(&book, meaning.resolutions(), asked);
    Ok(())
}

/// One random small book, every operation; and what other readings would make of it.
pub fn small(run: &mut Run, random: &mut Random, place: u64) -> Outcome {
    let (book, before) = (alternative_book(random, kind_at(place)), run.questions());
    let meaning = compare_small(&mut run.checker, random, &book, &mut run.walked)?;
    let asked = run.questions() - before;
    run.alternative.small[kind_at(place)].count_asked(&book, meaning.resolutions(), asked);
    run.alternative.read_otherwise(&book, &meaning);
    Ok(())
}

/// One random small book of 12 to 16 exceptions, every operation.
pub fn wide_books(run: &mut Run, random: &mut Random, place: u64) -> Outcome {
    let kind = place as usize % wide::KINDS.len();
    let (book, before) = (wide_alternative_book(random, kind), run.questions());
    let meaning = compare_small(&mut run.checker, random, &book, &mut run.walked)?;
    let asked = run.questions() - before;
    run.alternative.wide[kind].count_asked(&book, meaning.resolutions(), asked);
    Ok(())
}

/// One large book of small parts, every operation.
pub fn blocks(run: &mut Run, random: &mut Random, _: u64) -> Outcome {
    let (blocks, before) = (Blocks::draw_alternative(random), run.questions());
    let views: Vec<_> = (0..10).filter_map(|_| blocks.some_view(random)).collect();
    compare_book(&mut run.checker, random, &blocks.book, &blocks, &views, &mut run.walked)?;
    let asked = run.questions() - before;
    run.alternative.small[OF_PARTS].count_asked(&blocks.book, blocks.resolutions(), asked);
    Ok(())
}

/// One book of free statements, most of them by O lines.
pub fn free(run: &mut Run, random: &mut Random, place: u64) -> Outcome {
    let statements = if place % 3 == 0 { 48 } else { random.between(1, 48) };
    let book = loops::chosen_book(random, statements);
    run.checker.begin(&text_of(&book));
    loops::compare(random, &book).map(|_| ())
}

/// One faulty text and one faulty table of a book with O lines.
pub fn faulty(run: &mut Run, random: &mut Random, place: u64) -> Outcome {
    let book = alternative_book(random, kind_at(place));
    damaged_alternatives::several_faults(&mut run.checker, random, &book)?;
    damage::faulty_table_of(&mut run.checker, random, &book)
}

/// Texts around the limit of O lines, and tables.
pub fn limits(run: &mut Run, random: &mut Random, _: u64) -> Outcome {
    damaged_alternatives::limits(&mut run.checker, random)
}

/// One small book with every length of every lent buffer, and all its lines and numbers damaged.
pub fn lengths(run: &mut Run, random: &mut Random, place: u64) -> Outcome {
    let book = alternative_book(random, kind_at(place));
    run.lengths_of(random, &book)?;
    damage::replace_bytes(&mut run.checker, random, &text_of(&book), 3)
}

/// Lists of calls on one small book, refused calls among them, from random points.
pub fn listings(run: &mut Run, random: &mut Random, place: u64) -> Outcome {
    let (book, before) = (alternative_book(random, kind_at(place)), run.questions());
    let meaning = Meaning::of(&book);
    let (text, read) = (text_of(&book), Ok(book.clone()));
    let known = Known { text: &text, book: &read, oracle: Some(&meaning) };
    run.checker.begin(&text);
    for _ in 0..LISTINGS {
        walk(random, &known, &book, &mut run.walked)?;
    }
    let asked = run.questions() - before;
    run.alternative.small[kind_at(place)].count_asked(&book, meaning.resolutions(), asked);
    Ok(())
}

/// A random small book; of every sixteen one has 12 to 16 exceptions. It comes with the outcomes of its kind.
fn next_book<'a>(met: &'a mut Met, random: &mut Random, place: u64) -> (Book, &'a mut Outcomes) {
    if place % 16 == 15 {
        let kind = place as usize / 16 % wide::KINDS.len();
        (wide_alternative_book(random, kind), &mut met.wide[kind])
    } else {
        (alternative_book(random, kind_at(place)), &mut met.small[kind_at(place)])
    }
}

/// The views and the resolutions of one small book, by brute force and by clingo.
pub fn by_clingo(run: &mut Run, random: &mut Random, place: u64) -> Outcome {
    let (book, outcomes) = next_book(&mut run.alternative, random, place);
    let meaning = Meaning::of(&book);
    outcomes.count(&book, meaning.resolutions());
    run.alternative.read_otherwise(&book, &meaning);
    run.same_by_clingo(&book, &meaning)
}

/// One larger book of the kind that is next.
pub fn large_books(run: &mut Run, random: &mut Random, place: u64) -> Outcome {
    let kind = place as usize % large_alternatives::KINDS.len();
    let (book, before) = (large_alternatives::KINDS[kind].1(random), run.questions());
    let listed = run.large_book(random, &book)?;
    let asked = run.questions() - before;
    run.alternative.large[kind].count_asked(&book, &listed, asked);
    Ok(())
}

/// `ways` on one small book and on one faulty text.
pub fn ways_small(run: &mut Run, random: &mut Random, place: u64) -> Outcome {
    let (book, outcomes) = next_book(&mut run.alternative, random, place);
    let meaning = Meaning::of(&book);
    outcomes.count(&book, meaning.resolutions());
    run.ways_on_book(random, &book, &meaning)
}
