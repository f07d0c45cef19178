//! The sections of a run: what is compared, how often, and what is printed about it.

use crate::alternative_sections as alternative;
use crate::blocks::Blocks;
use crate::book::{Book, Pair, TEXT};
use crate::clingo::Clingo;
use crate::compare::{Checker, Difference, Known, Outcome};
use crate::conditional_sections::{self as conditional, Met};
use crate::damage;
use crate::damaged_stores;
use crate::going_on;
use crate::kinds::{book_of_kind, small_book, KINDS};
use crate::known::known_book;
use crate::large;
use crate::library::{compare_book, compare_small, judge_all, Outcomes};
use crate::listing::Walked;
use crate::loops;
use crate::meaning::{Meaning, Oracle};
use crate::own;
use crate::plain;
use crate::points::{self, Stored};
use crate::process::{allow_seconds, MOST_SECONDS};
use crate::random::Random;
use crate::report;
use crate::small_books::{small_books, SEVENTH_LISTING, SEVENTH_TEXT};
use crate::solved::{self, Solved};
use crate::store_examples;
use crate::text::{read_text, refusal_line, table_of, text_of};
use crate::tiny;
use crate::ways::{self, listing_of, Closed};
use crate::wide::{self, wide_book};
use std::fs::File;
use std::time::Instant;

/// The step from one book of one statement to the next; it is prime, so that none is met twice.
pub const STEP: usize = 30_011;

/// How many books or texts each section takes; 0 leaves the section out.
#[derive(Clone, Copy, Default)]
pub struct Counts {
    pub plain_tiny: u64,
    pub plain_small: u64,
    pub tiny: u64,
    pub small: u64,
    pub wide: u64,
    pub blocks: u64,
    pub free: u64,
    pub full_texts: u64,
    pub faulty: u64,
    pub lengths: u64,
    pub by_clingo: u64,
    pub large: u64,
    pub known: u64,
    pub ways: u64,
    pub lists: u64,
    pub moved: u64,
    pub stores: u64,
    pub named: u64,
    /// The sections on books with Q lines, and on those with O lines.
    pub conditional: conditional::Counts,
    pub alternative: alternative::Counts,
}

impl Counts {
    /// The gate's first part: the library against brute force, and damage.
    pub fn gate_library() -> Counts {
        Counts {
            plain_tiny: u64::MAX,
            plain_small: 3_000,
            tiny: 5_000,
            small: 9_000,
            wide: 105,
            blocks: 500,
            free: 15,
            full_texts: 1,
            faulty: 40_000,
            lengths: 45,
            lists: 5_000,
            moved: 60_000,
            stores: 1,
            named: 800,
            conditional: conditional::Counts {
                plain_tiny: 20_000,
                plain_small: 2_800,
                tiny: 3_000,
                small: 5_600,
                wide: 70,
                blocks: 300,
                free: 6,
                limits: 1,
                faulty: 15_000,
                lengths: 28,
                listings: 700,
                ..conditional::Counts::default()
            },
            alternative: alternative::Counts {
                plain_tiny: 100_000,
                plain_small: 3_400,
                tiny: 4_000,
                small: 6_800,
                wide: 70,
                blocks: 300,
                free: 6,
                limits: 1,
                faulty: 17_000,
                lengths: 34,
                listings: 850,
                ..alternative::Counts::default()
            },
            ..none()
        }
    }

    /// The gate's second part: clingo and `ways`.
    pub fn gate_solver() -> Counts {
        let conditional =
            conditional::Counts { by_clingo: 224, large: 180, known: 12, ways: 224, ..Default::default() };
        let alternative = alternative::Counts { by_clingo: 272, large: 234, ways: 272, ..Default::default() };
        Counts { by_clingo: 300, large: 504, known: 24, ways: 450, conditional, alternative, ..none() }
    }

    /// A long run of so many small books.
    pub fn long(count: u64) -> Counts {
        let part = |of: u64| (count / of).max(1);
        let (by_clingo, large, known, ways) = (part(50), part(100), part(1_000), part(50));
        let library = Counts::library(count);
        let conditional = conditional::Counts { by_clingo, large, known, ways, ..library.conditional };
        let alternative = alternative::Counts { by_clingo, large, ways, ..library.alternative };
        Counts { by_clingo, large, known, ways, conditional, alternative, ..library }
    }

    /// A run of the library alone.
    pub fn library(count: u64) -> Counts {
        let part = |of: u64| (count / of).max(1);
        Counts {
            plain_tiny: count,
            plain_small: count,
            tiny: count,
            small: count,
            wide: part(50).max(30),
            blocks: part(20),
            free: part(500),
            full_texts: part(50_000),
            faulty: count * 2,
            lengths: part(500),
            conditional: conditional::Counts {
                plain_tiny: count,
                plain_small: count,
                tiny: count,
                small: count,
                wide: part(50).max(30),
                blocks: part(20),
                free: part(500),
                limits: part(50_000),
                faulty: count,
                lengths: part(500),
                listings: part(5),
                ..conditional::Counts::default()
            },
            alternative: alternative::Counts {
                plain_tiny: count,
                plain_small: count,
                tiny: count,
                small: count,
                wide: part(50).max(30),
                blocks: part(20),
                free: part(500),
                limits: part(50_000),
                faulty: count,
                lengths: part(500),
                listings: part(5),
                ..alternative::Counts::default()
            },
            ..Counts::points(count)
        }
    }

    /// Named stopping points alone.
    pub fn points(count: u64) -> Counts {
        let part = |of: u64| (count / of).max(1);
        Counts { lists: count, moved: count * 10, stores: part(50_000), named: part(10), ..none() }
    }

    /// Books with Q lines alone.
    pub fn conditions(count: u64) -> Counts {
        let conditional = conditional::Counts { ways: 0, ..Counts::long(count).conditional };
        Counts { conditional, ..none() }
    }

    /// Books with O lines alone.
    pub fn alternatives(count: u64) -> Counts {
        let alternative = alternative::Counts { ways: 0, ..Counts::long(count).alternative };
        Counts { alternative, ..none() }
    }

    /// Small books with O lines by brute force and by clingo, without the library.
    pub fn encoding(count: u64) -> Counts {
        let alternative =
            alternative::Counts { plain_tiny: count, plain_small: count, by_clingo: count, ..Default::default() };
        Counts { alternative, ..none() }
    }

    /// Larger books by clingo alone.
    pub fn clingo(count: u64) -> Counts {
        let conditional = conditional::Counts { by_clingo: count, large: count, ..Default::default() };
        let alternative = alternative::Counts { by_clingo: count, large: count, ..Default::default() };
        Counts { by_clingo: count, large: count, conditional, alternative, ..none() }
    }

    /// `ways` alone, on so many small books and as many larger ones.
    pub fn only_ways(count: u64) -> Counts {
        let conditional = conditional::Counts { ways: count, large: count, known: count / 10, ..Default::default() };
        let alternative = alternative::Counts { ways: count, large: count, ..Default::default() };
        Counts { ways: count, large: count, known: count / 10, conditional, alternative, ..none() }
    }
}

/// No section.
fn none() -> Counts {
    Counts::default()
}

/// A difference, with the section that found it.
pub struct Failure {
    pub section: String,
    pub what: String,
    pub text: Vec<u8>,
}

impl Failure {
    /// What a whole run has failed to show.
    pub fn of_run(what: String) -> Failure {
        Failure { section: "the whole run".to_string(), what, text: Vec::new() }
    }
}

/// One run of all sections.
pub struct Run {
    seed: u64,
    /// The path of `ways`; without it what needs `ways` is skipped.
    ways: Option<String>,
    clingo: Clingo,
    tiny: Vec<Book>,
    pub checker: Checker,
    pub walked: Walked,
    /// One for each kind of small book, one for books of many parts and one for books of one statement.
    pub outcomes: Vec<Outcomes>,
    /// One for each kind of small book of 12 to 16 exceptions.
    pub wide: Vec<Outcomes>,
    /// One for each kind of larger book, and one for books whose views are known.
    pub large: Vec<Outcomes>,
    pub closed: Closed,
    pub ways_skipped: u64,
    pub stored: Stored,
    pub conditional: Met,
    pub alternative: alternative::Met,
}

/// Outcomes of so many kinds of book, before any came up.
pub fn no_outcomes(kinds: usize) -> Vec<Outcomes> {
    (0..kinds).map(|_| Outcomes::default()).collect()
}

/// A difference that a process or a check of this program reports, at a text.
pub fn at_text(text: &[u8]) -> impl Fn(String) -> Difference + '_ {
    move |what| Difference { what, text: text.to_vec() }
}

impl Run {
    /// A run from a seed, with the file for the text at hand and the other programs' paths.
    pub fn new(seed: u64, running: File, ways: Option<String>, clingo: String) -> Run {
        Run {
            seed,
            ways,
            clingo: Clingo { path: clingo },
            tiny: tiny::all_books(),
            checker: Checker::new(running),
            walked: Walked::default(),
            outcomes: no_outcomes(KINDS.len() + 2),
            wide: no_outcomes(wide::KINDS.len()),
            large: no_outcomes(large::KINDS.len() + 1),
            closed: Closed::default(),
            ways_skipped: 0,
            stored: Stored::default(),
            conditional: Met::nothing(),
            alternative: alternative::Met::nothing(),
        }
    }

    /// How many answers of the library have been compared.
    pub fn questions(&self) -> u64 {
        self.checker.tally.calls.iter().sum::<u64>() + self.walked.going_on + self.walked.refused
    }

    /// All sections, in order.
    pub fn all(&mut self, counts: &Counts) -> Result<(), Failure> {
        println!("agree, seed {}", self.seed);
        self.section("own code against document 01", 1, Run::own_code)?;
        self.section("small books K1 to K14 and two of source document 000", counts.small.min(1), Run::named_books)?;
        let [plain_tiny, tiny] = [counts.plain_tiny, counts.tiny].map(|count| count.min(self.tiny.len() as u64));
        self.section("two readings of books of one statement, two R and one X", plain_tiny, Run::plain_tiny)?;
        self.section("two readings of random books of three statements, six X", counts.plain_small, Run::plain_small)?;
        self.section("books of one statement, two R and one X", tiny, Run::tiny)?;
        self.section("random small books", counts.small, Run::small)?;
        self.section("random small books of 12 to 16 exceptions", counts.wide, Run::wide_books)?;
        self.section("books of many parts, to 48 statements", counts.blocks, Run::blocks)?;
        self.section("free statements, pages to 10,000", counts.free, Run::free)?;
        self.section("limits and spelling", counts.full_texts, Run::limits)?;
        self.section("texts and tables with several faults", counts.faulty, Run::faulty)?;
        self.section("every length of lent buffers", counts.lengths, Run::lengths)?;
        self.section("full texts and tables, damaged everywhere", counts.full_texts, Run::full_text)?;
        self.section("stopping points as in the worked example", counts.lists.min(1), store_examples::compare)?;
        self.section("lists of Set, Go and Drop from empty stores", counts.lists, points::list)?;
        self.section("stores with bytes replaced and entries moved", counts.moved, damaged_stores::moved)?;
        self.section("stores of every length", counts.stores, damaged_stores::every_length)?;
        self.section("stores damaged at every byte", counts.stores, damaged_stores::every_byte)?;
        self.section("going on from names", counts.named, going_on::from_names)?;
        self.section("brute force against clingo", counts.by_clingo, Run::by_clingo)?;
        self.section("larger books against clingo, to 48 statements", counts.large, Run::large_books)?;
        self.section("books of 12 to 16 exceptions whose views are known", counts.known, Run::known_books)?;
        self.section("ways on small books and faulty texts", counts.ways, Run::ways_small)?;
        self.section("ways on K7, long texts and 9,999 lines", counts.ways.min(1), Run::ways_once)?;
        self.section("ways on listings that fill whole parts", counts.ways.min(1), Run::ways_parts)?;
        self.conditional_sections(&counts.conditional)?;
        self.alternative_sections(&counts.alternative)?;
        report::print(self);
        report::all_met(self, counts)
    }

    /// The sections on books with Q lines, in order.
    fn conditional_sections(&mut self, counts: &conditional::Counts) -> Result<(), Failure> {
        self.section("Q lines: cases of request (e)", counts.small.min(1), conditional::cases)?;
        let [plain_tiny, tiny] = [counts.plain_tiny, counts.tiny].map(|count| count.min(tiny::CONDITIONAL));
        self.section("Q lines: two readings of books of one statement, two X", plain_tiny, conditional::plain_tiny)?;
        self.section("Q lines: two readings of random small books", counts.plain_small, conditional::plain_small)?;
        self.section("Q lines: books of one statement, two X", tiny, conditional::one_statement)?;
        self.section("Q lines: random small books", counts.small, conditional::small)?;
        self.section("Q lines: small books of 12 to 16 exceptions", counts.wide, conditional::wide_books)?;
        self.section("Q lines: books of many parts, to 48 statements", counts.blocks, conditional::blocks)?;
        self.section("Q lines: free statements, pages to 10,000", counts.free, conditional::free)?;
        self.section("Q lines: limits", counts.limits, conditional::limits)?;
        self.section("Q lines: texts and tables with several faults", counts.faulty, conditional::faulty)?;
        self.section("Q lines: every length of lent buffers", counts.lengths, conditional::lengths)?;
        self.section("Q lines: lists of calls, refused ones among them", counts.listings, conditional::listings)?;
        self.section("Q lines: brute force against clingo", counts.by_clingo, conditional::by_clingo)?;
        self.section("Q lines: larger books against clingo", counts.large, conditional::large_books)?;
        self.section("Q lines: books whose views are known", counts.known, conditional::known_books)?;
        self.section("Q lines: ways on small books and faulty texts", counts.ways, conditional::ways_small)
    }

    /// The sections on books with O lines, in order.
    fn alternative_sections(&mut self, counts: &alternative::Counts) -> Result<(), Failure> {
        self.section("O lines: cases of request (g)", counts.small.min(1), alternative::cases)?;
        let [plain_tiny, tiny] = [counts.plain_tiny, counts.tiny].map(|count| count.min(tiny::ALTERNATIVE));
        self.section("O lines: two readings of books of one statement", plain_tiny, alternative::plain_tiny)?;
        self.section("O lines: two readings of random small books", counts.plain_small, alternative::plain_small)?;
        self.section("O lines: books of one statement", tiny, alternative::one_statement)?;
        self.section("O lines: random small books", counts.small, alternative::small)?;
        self.section("O lines: small books of 12 to 16 exceptions", counts.wide, alternative::wide_books)?;
        self.section("O lines: books of many parts, to 48 statements", counts.blocks, alternative::blocks)?;
        self.section("O lines: choices, pages to 10,000", counts.free, alternative::free)?;
        self.section("O lines: limits", counts.limits, alternative::limits)?;
        self.section("O lines: texts and tables with several faults", counts.faulty, alternative::faulty)?;
        self.section("O lines: every length of lent buffers", counts.lengths, alternative::lengths)?;
        self.section("O lines: lists of calls, refused ones among them", counts.listings, alternative::listings)?;
        self.section("O lines: brute force against clingo", counts.by_clingo, alternative::by_clingo)?;
        self.section("O lines: larger books against clingo", counts.large, alternative::large_books)?;
        self.section("O lines: ways on small books and faulty texts", counts.ways, alternative::ways_small)
    }

    /// Runs one section for each place below the count, and prints what it did and how long it took.
    fn section(
        &mut self,
        name: &str,
        count: u64,
        body: fn(&mut Run, &mut Random, u64) -> Outcome,
    ) -> Result<(), Failure> {
        if count == 0 {
            println!("  {name}: left out");
            return Ok(());
        }
        let begun = Instant::now();
        for place in 0..count {
            allow_seconds(MOST_SECONDS);
            let mut random = Random::of(self.seed, name, place);
            body(self, &mut random, place).map_err(|difference| Failure {
                section: format!("{name}, number {place}, seed {}", self.seed),
                what: difference.what,
                text: difference.text,
            })?;
        }
        allow_seconds(0);
        println!("  {name}: {count} in {:.1} s", begun.elapsed().as_secs_f64());
        Ok(())
    }

    /// This program's own code on what document 01 states.
    fn own_code(&mut self, _: &mut Random, _: u64) -> Outcome {
        own::check().map(|_| ()).map_err(at_text(b""))
    }

    /// K1 to K14 by the library, every lawful pair judged.
    fn named_books(&mut self, random: &mut Random, _: u64) -> Outcome {
        for small in small_books() {
            let meaning = compare_small(&mut self.checker, random, &small.book, &mut self.walked)?;
            judge_all(&mut self.checker, &small.book, &meaning)?;
        }
        Ok(())
    }

    /// The two readings of one book of one statement.
    fn plain_tiny(&mut self, _: &mut Random, place: u64) -> Outcome {
        let book = self.tiny_book(place);
        plain::compare(book).map_err(at_text(&text_of(book)))
    }

    /// The two readings of one random tiny book.
    fn plain_small(&mut self, random: &mut Random, place: u64) -> Outcome {
        let statements = random.between(1, plain::MOST_STATEMENTS);
        let book = book_of_kind(random, place as usize % KINDS.len(), statements, plain::MOST_EXCEPTIONS);
        plain::compare(&book).map_err(at_text(&text_of(&book)))
    }

    /// The book of one statement with this place; as many places as there are such books meet each of them once.
    fn tiny_book(&self, place: u64) -> &Book {
        &self.tiny[place as usize * STEP % self.tiny.len()]
    }

    /// One book of one statement, every operation that it needs.
    fn tiny(&mut self, _: &mut Random, place: u64) -> Outcome {
        let book = &self.tiny_book(place).clone();
        let meaning = Meaning::of(book);
        self.outcomes[KINDS.len() + 1].count(book, meaning.resolutions());
        tiny::compare(&mut self.checker, book, &meaning)
    }

    /// One random small book, every operation.
    fn small(&mut self, random: &mut Random, place: u64) -> Outcome {
        let book = small_book(random, place as usize % KINDS.len());
        let meaning = compare_small(&mut self.checker, random, &book, &mut self.walked)?;
        self.outcomes[place as usize % KINDS.len()].count(&book, meaning.resolutions());
        Ok(())
    }

    /// One random small book of 12 to 16 exceptions, every operation.
    fn wide_books(&mut self, random: &mut Random, place: u64) -> Outcome {
        let kind = place as usize % wide::KINDS.len();
        let book = wide_book(random, kind);
        let meaning = compare_small(&mut self.checker, random, &book, &mut self.walked)?;
        self.wide[kind].count(&book, meaning.resolutions());
        Ok(())
    }

    /// A random small book; of every sixteen one has 12 to 16 exceptions. It comes with the outcomes of its kind.
    pub fn next_book(&mut self, random: &mut Random, place: u64) -> (Book, &mut Outcomes) {
        let place = place as usize;
        if place % 16 == 15 {
            let kind = place / 16 % wide::KINDS.len();
            (wide_book(random, kind), &mut self.wide[kind])
        } else {
            let kind = place % KINDS.len();
            (small_book(random, kind), &mut self.outcomes[kind])
        }
    }

    /// One large book of small parts, every operation.
    fn blocks(&mut self, random: &mut Random, _: u64) -> Outcome {
        let blocks = Blocks::draw(random);
        let views: Vec<_> = (0..10).filter_map(|_| blocks.some_view(random)).collect();
        compare_book(&mut self.checker, random, &blocks.book, &blocks, &views, &mut self.walked)?;
        self.outcomes[KINDS.len()].count(&blocks.book, blocks.resolutions());
        Ok(())
    }

    /// One book of free statements.
    fn free(&mut self, random: &mut Random, place: u64) -> Outcome {
        let statements = if place % 3 == 0 { 48 } else { random.between(1, 48) };
        let exceptions = random.pick(&[0, 1, 3, 12, 13, 16]);
        let book = loops::free_book(random, statements, exceptions);
        self.checker.begin(&text_of(&book));
        loops::compare(random, &book).map(|_| ())
    }

    /// A full book, damaged at every byte and every number.
    fn full_text(&mut self, random: &mut Random, _: u64) -> Outcome {
        let book = damage::full_book(random);
        let text = text_of(&book);
        damage::replace_bytes(&mut self.checker, random, &text, 1)?;
        damage::truncate(&mut self.checker, random, &text)?;
        damage::move_lines(&mut self.checker, random, &text)?;
        damage::wrong_counts(&mut self.checker, random, &text)?;
        damage::replace_numbers(&mut self.checker, random, &table_of(&book), 6)?;
        damage::every_length(&mut self.checker, random, &book)
    }

    /// Texts at the limits, and every spelling of fields.
    fn limits(&mut self, random: &mut Random, _: u64) -> Outcome {
        damage::limits(&mut self.checker, random)?;
        damage::spell_fields(&mut self.checker, random)?;
        damage::spell_neighbours(&mut self.checker, random)
    }

    /// One faulty text, one of random bytes and one faulty table.
    fn faulty(&mut self, random: &mut Random, _: u64) -> Outcome {
        damage::several_faults(&mut self.checker, random)?;
        damage::random_bytes(&mut self.checker, random)?;
        damage::faulty_table(&mut self.checker, random)
    }

    /// One small book with every length of every lent buffer, and all its lines and numbers damaged.
    fn lengths(&mut self, random: &mut Random, place: u64) -> Outcome {
        let (book, _) = self.next_book(random, place);
        self.lengths_of(random, &book)
    }

    /// A small book with every length of every lent buffer, and all its lines and numbers damaged.
    pub fn lengths_of(&mut self, random: &mut Random, book: &Book) -> Outcome {
        let text = text_of(book);
        damage::every_length(&mut self.checker, random, book)?;
        damage::every_page(&mut self.checker, random, book)?;
        damage::truncate(&mut self.checker, random, &text)?;
        damage::move_lines(&mut self.checker, random, &text)?;
        damage::replace_numbers(&mut self.checker, random, &table_of(book), usize::MAX)
    }

    /// The views and the resolutions of one small book, by brute force and by clingo.
    fn by_clingo(&mut self, random: &mut Random, place: u64) -> Outcome {
        let (book, outcomes) = self.next_book(random, place);
        let meaning = Meaning::of(&book);
        outcomes.count(&book, meaning.resolutions());
        self.same_by_clingo(&book, &meaning)
    }

    /// The views and the resolutions of a small book by clingo are those of its meaning.
    pub fn same_by_clingo(&mut self, book: &Book, meaning: &Meaning) -> Outcome {
        let text = text_of(book);
        let differs = at_text(&text);
        let mut views = meaning.views.clone();
        views.sort_by(crate::meaning::compare_pairs);
        let shown = self.clingo.views(book).map_err(&differs)?;
        if shown != views {
            return Err(differs(format!("views by brute force {views:?}, by clingo {shown:?}")));
        }
        let listed = self.clingo.resolutions(book).map_err(&differs)?;
        if listed != meaning.resolutions() {
            return Err(differs(format!(
                "resolutions by brute force {:?}, by clingo {listed:?}",
                meaning.resolutions()
            )));
        }
        Ok(())
    }

    /// `ways` on a text, unless it is skipped.
    fn ways_on(&mut self, text: &[u8], expected: &[u8]) -> Outcome {
        match &self.ways {
            Some(path) => ways::compare(path, text, expected, &mut self.closed).map_err(at_text(text)),
            None => {
                self.ways_skipped += 1;
                Ok(())
            }
        }
    }

    /// `ways` on one small book and on one faulty text.
    fn ways_small(&mut self, random: &mut Random, place: u64) -> Outcome {
        let (book, outcomes) = self.next_book(random, place);
        let meaning = Meaning::of(&book);
        outcomes.count(&book, meaning.resolutions());
        self.ways_on_book(random, &book, &meaning)
    }

    /// `ways` on a small book, and on its text with a byte replaced.
    pub fn ways_on_book(&mut self, random: &mut Random, book: &Book, meaning: &Meaning) -> Outcome {
        let text = text_of(book);
        self.checker.begin(&text);
        self.ways_on(&text, &listing_of(book, meaning.resolutions(), false))?;
        let mut faulty = text.clone();
        let spot = random.below(faulty.len() as u64) as usize;
        faulty[spot] = random.pick(b"\n\0ROXPZ90-+ ");
        self.ways_refuses(&faulty)
    }

    /// `ways` on a text, if it is refused.
    fn ways_refuses(&mut self, text: &[u8]) -> Outcome {
        match read_text(text) {
            Err(refusal) => self.ways_on(text, &refusal_line(&refusal)),
            Ok(_) => Ok(()),
        }
    }

    /// `ways` on K7, on K7 with its first head misspelt, on texts that are empty or too long, and at the boundary of
    /// 9,999 lines.
    fn ways_once(&mut self, random: &mut Random, _: u64) -> Outcome {
        self.ways_on(SEVENTH_TEXT.as_bytes(), SEVENTH_LISTING.as_bytes())?;
        let mut misspelt = SEVENTH_TEXT.as_bytes().to_vec();
        for field in damage::FIELDS {
            misspelt[11..15].copy_from_slice(field);
            self.ways_refuses(&misspelt)?;
        }
        let full = text_of(&damage::full_book(random));
        let long = |length: usize| full.iter().copied().cycle().take(length - 1).chain([10]).collect::<Vec<u8>>();
        for text in [vec![], vec![10], vec![b'B'], full[..TEXT - 1].to_vec()] {
            self.ways_refuses(&text)?;
        }
        for length in [TEXT + 1, 2 * TEXT, 70_000, 1_000_000] {
            self.ways_refuses(&long(length))?;
        }
        for less in 0..3 {
            let book = large::counted(random, less);
            let listed = self.large_book(random, &book)?;
            if listed.len() != (10_000 - less).min(solved::MOST) {
                let what = format!("{} pairs listed of {} resolutions", listed.len(), 10_000 - less);
                return Err(at_text(&text_of(&book))(what));
            }
        }
        Ok(())
    }

    /// `ways` prints in parts of 1,024 lines: books with half a part, with one, two, four and eight whole parts, and
    /// with more lines than it prints; lines of both widths.
    fn ways_parts(&mut self, random: &mut Random, _: u64) -> Outcome {
        for statements in 9..=14 {
            for exceptions in [0, 12, 13] {
                let book = loops::free_book(random, statements, exceptions);
                let resolutions = loops::beginning(&book, ways::MOST + 1);
                self.ways_on(&text_of(&book), &listing_of(&book, &resolutions, false))?;
            }
        }
        Ok(())
    }

    /// One book of 12 to 16 exceptions whose views are known: its whole listing, other operations, and `ways`.
    fn known_books(&mut self, random: &mut Random, place: u64) -> Outcome {
        let solved = known_book(random, place);
        self.large[large::KINDS.len()].count(&solved.ranked.book, solved.resolutions());
        self.known_book(random, &solved)
    }

    /// A book whose resolutions are known: its whole listing, other operations, and `ways`.
    pub fn known_book(&mut self, random: &mut Random, solved: &Solved) -> Outcome {
        let (book, all) = (&solved.ranked.book, solved.resolutions());
        let text = text_of(book);
        let read = Ok(book.clone());
        let known = Known { text: &text, book: &read, oracle: Some(solved) };
        self.checker.begin(&text);
        self.checker.first_page(&known, 3 * all.len() + 3)?;
        solved::compare_some(&mut self.checker, random, &known, all.len())?;
        self.ways_on(&text, &listing_of(book, all, false))
    }

    /// One larger book of the kind that is next.
    fn large_books(&mut self, random: &mut Random, place: u64) -> Outcome {
        let kind = place as usize % large::KINDS.len();
        let book: Book = large::KINDS[kind].1(random);
        let listed = self.large_book(random, &book)?;
        self.large[kind].count(&book, &listed);
        Ok(())
    }

    /// A larger book: the listing and the other operations against clingo, then `ways`. Answers the pairs listed.
    pub fn large_book(&mut self, random: &mut Random, book: &Book) -> Result<Vec<Pair>, Difference> {
        let text = text_of(book);
        let differs = at_text(&text);
        self.checker.begin(&text);
        let listing = solved::list(&text).map_err(&differs)?;
        let solved = Solved::compare(&self.clingo, book, &listing).map_err(&differs)?;
        let views = solved::some_views(&self.clingo, book).map_err(&differs)?;
        let read = Ok(book.clone());
        let known = Known { text: &text, book: &read, oracle: Some(&solved) };
        if listing.more {
            solved::compare_beginning(&mut self.checker, random, &known, &views)?;
        } else {
            compare_book(&mut self.checker, random, book, &solved, &views, &mut self.walked)?;
        }
        self.ways_on(&text, &listing_of(book, &listing.pairs, listing.more))?;
        Ok(listing.pairs)
    }
}
