//! All operations of the library on accepted books whose meaning is known.

use crate::book::{Book, Pair, NARROW};
use crate::compare::{Checker, Difference, Known, Outcome};
use crate::listing::{walk, Walked};
use crate::meaning::{Meaning, Oracle};
use crate::pairs;
use crate::random::Random;
use crate::text::{read_text, table_of, text_of};

/// The outcomes that books had.
#[derive(Default)]
pub struct Outcomes {
    pub books: u64,
    pub none: u64,
    pub one: u64,
    pub several: u64,
    pub with_exceptions: u64,
    pub without_need: u64,
    pub most: usize,
    /// Books of 13 to 16 exceptions, and those of them of which a resolution takes one past the twelfth.
    pub wide: u64,
    pub past_twelfth: u64,
    /// The most statements, R, X, P, Q and O lines.
    pub largest: [usize; 6],
    /// How many answers were compared, where they were counted by kind.
    pub asked: u64,
}

impl Outcomes {
    /// Counts a book by its resolutions.
    pub fn count(&mut self, book: &Book, resolutions: &[Pair]) {
        self.books += 1;
        match resolutions.len() {
            0 => self.none += 1,
            1 => self.one += 1,
            _ => self.several += 1,
        }
        self.most = self.most.max(resolutions.len());
        self.wide += u64::from(book.is_wide());
        self.past_twelfth += u64::from(resolutions.iter().any(|pair| pair.taken >> NARROW != 0));
        let shape = [&[book.statements as usize][..], &book.counts()].concat();
        self.largest = std::array::from_fn(|place| self.largest[place].max(shape[place]));
        if resolutions.first().is_some_and(|pair| pair.taken != 0) {
            self.with_exceptions += 1;
        } else if !resolutions.is_empty() && !book.exceptions.is_empty() {
            self.without_need += 1;
        }
    }

    /// Counts a book by its resolutions, and so many answers that were compared on it.
    pub fn count_asked(&mut self, book: &Book, resolutions: &[Pair], asked: u64) {
        self.count(book, resolutions);
        self.asked += asked;
    }
}

/// Compares every operation on an accepted book, given some of its views.
pub fn compare_book(
    checker: &mut Checker,
    random: &mut Random,
    book: &Book,
    oracle: &dyn Oracle,
    views: &[Pair],
    walked: &mut Walked,
) -> Outcome {
    let text = text_of(book);
    let read = read_text(&text);
    assert_eq!(read.as_ref(), Ok(book), "reading undoes writing");
    let known = Known { text: &text, book: &read, oracle: Some(oracle) };
    checker.begin(&text);
    compare_text(checker, random, &known, book)?;
    compare_listing(checker, random, &known, book, oracle)?;
    for pair in judged_pairs(random, book, oracle, views) {
        checker.judge(&known, &pair)?;
    }
    for _ in 0..2 {
        walk(random, &known, book, walked)?;
    }
    if text != text_of(book) {
        return Err(Difference { what: "a call has written the text".to_string(), text });
    }
    Ok(())
}

/// A length of a lent buffer: one too short, some more than needed, or any up to there.
fn near(random: &mut Random, needed: usize) -> usize {
    match random.below(3) {
        0 => needed - 1,
        1 => needed + 1 + random.below(4) as usize,
        _ => random.below(needed as u64 + 5) as usize,
    }
}

/// Read, Write and Line.
fn compare_text(checker: &mut Checker, random: &mut Random, known: &Known, book: &Book) -> Outcome {
    let table = table_of(book);
    checker.read(known, table.len())?;
    checker.read(known, near(random, table.len()))?;
    checker.write(&table, known.text.len())?;
    checker.write(&table, near(random, known.text.len()))?;
    if table != table_of(book) {
        return Err(Difference { what: "Write has written the table".to_string(), text: known.text.to_vec() });
    }
    for pair in [pairs::lawful(random, book), pairs::lawful(random, book), pairs::unlawful(random, book)] {
        checker.line(known, &pair, book.line_bytes())?;
        checker.line(known, &pair, near(random, book.line_bytes()))?;
    }
    Ok(())
}

/// First, After and both pages.
fn compare_listing(
    checker: &mut Checker,
    random: &mut Random,
    known: &Known,
    book: &Book,
    oracle: &dyn Oracle,
) -> Outcome {
    let all = oracle.resolutions();
    checker.first(known)?;
    checker.first_page(known, 3 * all.len() + 3)?;
    checker.first_page(known, random.below(3 * all.len() as u64 + 9) as usize)?;
    let step = all.len() / 40 + 1;
    for pair in all.iter().skip(random.below(step as u64) as usize).step_by(step) {
        checker.after(known, pair)?;
    }
    if let Some(last) = all.last() {
        checker.after(known, last)?;
        checker.page_after(known, last, 6)?;
        checker.line(known, last, book.line_bytes())?;
    }
    for _ in 0..8 {
        let pair = pairs::lawful(random, book);
        checker.after(known, &pair)?;
        checker.page_after(known, &pair, random.below(3 * all.len() as u64 + 9) as usize)?;
    }
    let pair = pairs::unlawful(random, book);
    checker.after(known, &pair)?;
    checker.judge(known, &pair)?;
    checker.page_after(known, &pair, 6)
}

/// Pairs worth a verdict: resolutions, views, pairs close to views, and any lawful pairs.
fn judged_pairs(random: &mut Random, book: &Book, oracle: &dyn Oracle, views: &[Pair]) -> Vec<Pair> {
    let mut list = Vec::new();
    for source in [oracle.resolutions(), views] {
        if !source.is_empty() {
            for _ in 0..source.len().min(12) {
                let view = random.pick(source);
                list.push(view);
                list.push(pairs::close_to(random, book, &view));
            }
        }
    }
    list.extend((0..12).map(|_| pairs::lawful(random, book)));
    list
}

/// Compares every operation on a small book; every lawful pair is judged if there are few.
pub fn compare_small(
    checker: &mut Checker,
    random: &mut Random,
    book: &Book,
    walked: &mut Walked,
) -> Result<Meaning, Difference> {
    let meaning = Meaning::of(book);
    compare_book(checker, random, book, &meaning, &meaning.views, walked)?;
    if 3usize.pow(book.statements as u32) << book.exceptions.len() <= 100 {
        judge_all(checker, book, &meaning)?;
    }
    Ok(meaning)
}

/// Judges every lawful pair of a small book.
pub fn judge_all(checker: &mut Checker, book: &Book, meaning: &Meaning) -> Outcome {
    let text = text_of(book);
    let read = Ok(book.clone());
    let known = Known { text: &text, book: &read, oracle: Some(meaning) };
    for pair in pairs::all_lawful(book) {
        checker.judge(&known, &pair)?;
    }
    Ok(())
}
