//! One comparison for each operation: the engine's answer and every number of the lent memory
//! against what document 01 says they are.

use crate::book::*;
use crate::engine;
use crate::meaning::Oracle;
use crate::process::{allow_seconds, MOST_SECONDS};
use crate::text::{a_line_of, read_table, table_of, text_of};
use std::fmt::Debug;
use std::fs::File;
use std::os::unix::fs::FileExt;

/// How many numbers beside a lent buffer are watched, on each side: more than an entry of a store has bytes, and an odd
/// number, so that lent bytes begin at an odd address.
const MARGIN: usize = 33;

/// A difference between the engine and document 01, with the input that shows it.
pub struct Difference {
    pub what: String,
    pub text: Vec<u8>,
}

pub type Outcome = Result<(), Difference>;

/// A text, what document 01's reader says of it, and, where answers are asked for, what the book means.
#[derive(Clone, Copy)]
pub struct Known<'a> {
    pub text: &'a [u8],
    pub book: &'a Result<Book, Refusal>,
    pub oracle: Option<&'a dyn Oracle>,
}

impl<'a> Known<'a> {
    /// The refusal of the text, else the refusal of the pair, else what the oracle says.
    fn expect<T>(&self, pair: Option<&Pair>, answer: impl Fn(&'a dyn Oracle) -> T) -> Result<T, Refusal> {
        let book = self.book.as_ref().map_err(|refusal| *refusal)?;
        match pair.and_then(|pair| refusal_of_pair(book, pair)) {
            Some(refusal) => Err(refusal),
            None => Ok(answer(self.oracle.expect("an accepted book has an oracle"))),
        }
    }

    /// The difference at this text.
    fn differs(&self, what: String) -> Difference {
        Difference { what, text: self.text.to_vec() }
    }
}

/// A number that a lent buffer can hold.
pub trait Cell: Copy + PartialEq + Debug {
    fn from_bits(bits: u64) -> Self;
}

impl Cell for u8 {
    fn from_bits(bits: u64) -> u8 {
        bits as u8
    }
}

impl Cell for i32 {
    fn from_bits(bits: u64) -> i32 {
        bits as i32
    }
}

impl Cell for u64 {
    fn from_bits(bits: u64) -> u64 {
        bits
    }
}

/// Memory with known content: a margin, the lent buffer, a margin.
pub struct Lent<T: Cell> {
    before: Vec<T>,
    now: Vec<T>,
}

impl<T: Cell> Lent<T> {
    /// Memory for a lent buffer of this length; the salt changes its content.
    fn new(length: usize, salt: u64) -> Lent<T> {
        let cell = |place: u64| T::from_bits((place + salt).wrapping_mul(0x9e37_79b9_7f4a_7c15) >> 23);
        let before: Vec<T> = (0..(length + 2 * MARGIN) as u64).map(cell).collect();
        Lent { now: before.clone(), before }
    }

    /// Memory whose lent part has this content.
    fn with(content: &[T], salt: u64) -> Lent<T> {
        let mut lent = Lent::new(content.len(), salt);
        lent.part().copy_from_slice(content);
        lent
    }

    /// The part that is lent.
    pub fn part(&mut self) -> &mut [T] {
        let end = self.now.len() - MARGIN;
        &mut self.now[MARGIN..end]
    }

    /// Tests that the lent part begins with the answer and that nothing else has changed.
    pub fn holds(&self, answer: &[T]) -> Result<(), String> {
        let end = MARGIN + answer.len();
        let same = self.now[MARGIN..end] == *answer
            && self.now[..MARGIN] == self.before[..MARGIN]
            && self.now[end..] == self.before[end..];
        if same {
            Ok(())
        } else {
            Err(self.first_change(answer))
        }
    }

    /// Names the first number of the memory that is not what it should be.
    fn first_change(&self, answer: &[T]) -> String {
        let wanted = |place: usize| match place.checked_sub(MARGIN).and_then(|inner| answer.get(inner)) {
            Some(cell) => *cell,
            None => self.before[place],
        };
        let place = (0..self.now.len()).find(|place| self.now[*place] != wanted(*place)).unwrap_or(0);
        let (inner, now) = (place as i64 - MARGIN as i64, self.now[place]);
        format!("lent buffer at {inner} (of {}): {now:?} instead of {:?}", self.now.len() - 2 * MARGIN, wanted(place))
    }
}

/// How often each operation was compared, and which answers came up.
#[derive(Default)]
pub struct Tally {
    pub calls: [u64; OPERATIONS.len()],
    pub refusals: [u64; LAST_REFUSAL + 1],
    pub verdicts: [u64; 6],
    pub ends: u64,
    pub pairs: u64,
    /// Lines with 12 and with 16 fields for exceptions.
    pub lines: [u64; 2],
}

/// The operations, in the order of `Tally::calls`.
pub const OPERATIONS: [&str; 11] =
    ["Read", "Write", "Judge", "First", "After", "Line", "first page", "page after", "Set", "Go", "Drop"];

/// Compares operations and counts what was compared.
pub struct Checker {
    pub tally: Tally,
    /// The text at hand, kept in a file so that it is there if the engine stops the program.
    running: File,
    /// How many bytes that file has.
    noted: usize,
    salt: u64,
}

impl Checker {
    /// A checker that keeps the text at hand in this file.
    pub fn new(running: File) -> Checker {
        Checker { tally: Tally::default(), running, noted: 0, salt: 0 }
    }

    /// Notes the text that the next calls are about, and gives them some time.
    pub fn begin(&mut self, text: &[u8]) {
        let cut = if text.len() < self.noted { self.running.set_len(text.len() as u64) } else { Ok(()) };
        let noted = cut.and_then(|()| self.running.write_all_at(text, 0));
        noted.expect("the text at hand can be written to its file");
        self.noted = text.len();
        allow_seconds(MOST_SECONDS);
    }

    /// Memory for a lent buffer, with other content at each call.
    fn lend<T: Cell>(&mut self, length: usize) -> Lent<T> {
        self.salt += 1_000_003;
        Lent::new(length, self.salt)
    }

    /// Memory whose lent part has this content, with other content beside it at each call.
    pub fn lend_with(&mut self, content: &[u8]) -> Lent<u8> {
        self.salt += 1_000_003;
        Lent::with(content, self.salt)
    }

    /// Counts one comparison of the operation with this number, and its refusal if it has one.
    pub fn count<T>(&mut self, operation: usize, expected: &Result<T, Refusal>) {
        self.tally.calls[operation] += 1;
        if let Err(refusal) = expected {
            self.tally.refusals[refusal.number as usize] += 1;
        }
    }

    /// Read into a lent buffer of this length.
    pub fn read(&mut self, known: &Known, length: usize) -> Outcome {
        let table = known.book.as_ref().map(table_of).map_err(|refusal| *refusal);
        let fitting = table.and_then(|table| if length < table.len() { Err(refused(15)) } else { Ok(table) });
        self.count(0, &fitting);
        let mut lent = self.lend::<i32>(length);
        let answer = engine::read(known.text, lent.part());
        let front = |table: &Vec<i32>| std::array::from_fn::<u64, FRONT, _>(|place| table[place] as u64);
        let expected = fitting.as_ref().map(front).map_err(|refusal| *refusal);
        let compared = same(&expected, &answer).and_then(|()| lent.holds(fitting.as_deref().unwrap_or(&[])));
        compared.map_err(|what| known.differs(format!("Read, {length} numbers lent: {what}")))
    }

    /// Write into a lent buffer of this length.
    pub fn write(&mut self, table: &[i32], length: usize) -> Outcome {
        let text = read_table(table).map(|book| text_of(&book));
        let fitting = text.and_then(|text| if length < text.len() { Err(refused(15)) } else { Ok(text) });
        self.count(1, &fitting);
        let mut lent = self.lend::<u8>(length);
        let answer = engine::write(table, lent.part());
        let expected = fitting.as_ref().map(|text| text.len() as u64).map_err(|refusal| *refusal);
        let compared = same(&expected, &answer).and_then(|()| lent.holds(fitting.as_deref().unwrap_or(&[])));
        compared.map_err(|what| Difference {
            what: format!("Write, {length} bytes lent, the table is {table:?}: {what}"),
            text: fitting.clone().unwrap_or_default(),
        })
    }

    /// Judge on any pair.
    pub fn judge(&mut self, known: &Known, pair: &Pair) -> Outcome {
        let expected = known.expect(Some(pair), |oracle| oracle.verdict(pair));
        self.count(2, &expected);
        if let Ok(verdict) = expected {
            self.tally.verdicts[verdict as usize] += 1;
        }
        let answer = engine::judge(known.text, pair);
        same(&expected, &answer).map_err(|what| known.differs(format!("Judge on {pair:?}: {what}")))
    }

    /// First.
    pub fn first(&mut self, known: &Known) -> Outcome {
        let expected = known.expect(None, |oracle| oracle.resolutions().first().copied());
        self.count(3, &expected);
        self.count_pair(&expected);
        let answer = engine::first(known.text);
        same(&expected, &answer).map_err(|what| known.differs(format!("First: {what}")))
    }

    /// After any pair.
    pub fn after(&mut self, known: &Known, pair: &Pair) -> Outcome {
        let expected = known.expect(Some(pair), |oracle| oracle.later_than(pair).first().copied());
        self.count(4, &expected);
        self.count_pair(&expected);
        let answer = engine::after(known.text, pair);
        same(&expected, &answer).map_err(|what| known.differs(format!("After {pair:?}: {what}")))
    }

    /// Counts a pair or an End that First or After should answer.
    fn count_pair(&mut self, expected: &Result<Option<Pair>, Refusal>) {
        match expected {
            Ok(Some(_)) => self.tally.pairs += 1,
            Ok(None) => self.tally.ends += 1,
            Err(_) => {}
        }
    }

    /// Line of any pair into a lent buffer of this length.
    pub fn line(&mut self, known: &Known, pair: &Pair, length: usize) -> Outcome {
        let line = known.book.as_ref().map_err(|refusal| *refusal).and_then(|book| match refusal_of_pair(book, pair) {
            Some(refusal) => Err(refusal),
            None => Ok(a_line_of(book, pair)),
        });
        let fitting = line.and_then(|line| if length < line.len() { Err(refused(15)) } else { Ok(line) });
        self.count(5, &fitting);
        if let (Ok(book), Ok(_)) = (known.book, &fitting) {
            self.tally.lines[usize::from(book.is_wide())] += 1;
        }
        let mut lent = self.lend::<u8>(length);
        let answer = engine::line(known.text, pair, lent.part());
        let expected = fitting.as_ref().map(|line| line.len() as u64).map_err(|refusal| *refusal);
        let compared = same(&expected, &answer).and_then(|()| lent.holds(fitting.as_deref().unwrap_or(&[])));
        compared.map_err(|what| known.differs(format!("Line of {pair:?}, {length} bytes lent: {what}")))
    }

    /// The first page, in a lent buffer of so many numbers.
    pub fn first_page(&mut self, known: &Known, length: usize) -> Outcome {
        let expected = known.expect(None, |oracle| page_of(oracle.resolutions(), length));
        self.count(6, &expected);
        let mut lent = self.lend::<u64>(length);
        let answer = engine::first_page(known.text, lent.part());
        let compared = compare_page(&lent, &expected, answer);
        compared.map_err(|what| known.differs(format!("First page, {length} numbers lent: {what}")))
    }

    /// The page after any pair, in a lent buffer of so many numbers.
    pub fn page_after(&mut self, known: &Known, pair: &Pair, length: usize) -> Outcome {
        let expected = known.expect(Some(pair), |oracle| page_of(oracle.later_than(pair), length));
        self.count(7, &expected);
        let mut lent = self.lend::<u64>(length);
        let answer = engine::page_after(known.text, pair, lent.part());
        let compared = compare_page(&lent, &expected, answer);
        compared.map_err(|what| known.differs(format!("Page after {pair:?}, {length} numbers lent: {what}")))
    }
}

/// The numbers of as many of the pairs as a slice of this length has room for.
pub fn page_of(pairs: &[Pair], length: usize) -> Vec<u64> {
    pairs.iter().take(length / 3).flat_map(|pair| [pair.taken, pair.held, pair.denied]).collect()
}

/// Compares a page's count and its memory.
fn compare_page(
    lent: &Lent<u64>,
    expected: &Result<Vec<u64>, Refusal>,
    answer: Result<u64, Refusal>,
) -> Result<(), String> {
    let count = expected.as_ref().map(|page| page.len() as u64 / 3).map_err(|refusal| *refusal);
    same(&count, &answer)?;
    lent.holds(expected.as_deref().unwrap_or(&[]))
}

/// Tests that the engine's answer is the expected one.
pub fn same<T: PartialEq + Debug>(expected: &T, answer: &T) -> Result<(), String> {
    if expected == answer {
        Ok(())
    } else {
        Err(format!("{answer:?} instead of {expected:?}"))
    }
}
