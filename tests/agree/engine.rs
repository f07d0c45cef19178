//! The engine's C interface (include/bantameasel.h), wrapped so that each call answers a Rust value.

use crate::book::{Pair, Refusal, FRONT};
use std::fmt::Debug;

#[repr(C)]
struct BookAnswer {
    refusal: u32,
    edition: u32,
    line: u64,
    statements: u64,
    plain: u64,
    exceptions: u64,
    preferences: u64,
    conditionals: u64,
    alternatives: u64,
    reserved: [u64; 2],
}

#[repr(C)]
struct LengthAnswer {
    refusal: u32,
    line: u64,
    length: u64,
}

#[repr(C)]
struct VerdictAnswer {
    refusal: u32,
    verdict: u32,
    line: u64,
}

#[repr(C)]
struct PairAnswer {
    refusal: u32,
    found: u32,
    line: u64,
    pair: Pair,
}

#[repr(C)]
struct PageAnswer {
    refusal: u32,
    line: u64,
    count: u64,
}

/// A name of a stopping point, handed over by value.
#[repr(C)]
struct NameBytes {
    bytes: [u8; 8],
}

#[repr(C)]
struct DoneAnswer {
    refusal: u32,
    line: u64,
}

extern "C" {
    fn bantameasel_read(text: *const u8, text_length: usize, table: *mut i32, table_length: usize) -> BookAnswer;
    fn bantameasel_write(table: *const i32, table_length: usize, text: *mut u8, text_length: usize) -> LengthAnswer;
    fn bantameasel_judge(text: *const u8, text_length: usize, pair: Pair) -> VerdictAnswer;
    fn bantameasel_first(text: *const u8, text_length: usize) -> PairAnswer;
    fn bantameasel_after(text: *const u8, text_length: usize, pair: Pair) -> PairAnswer;
    fn bantameasel_line(
        text: *const u8,
        text_length: usize,
        pair: Pair,
        line: *mut u8,
        line_length: usize,
    ) -> LengthAnswer;
    fn bantameasel_first_page(text: *const u8, text_length: usize, pairs: *mut u64, pairs_length: usize) -> PageAnswer;
    fn bantameasel_page_after(
        text: *const u8,
        text_length: usize,
        pair: Pair,
        pairs: *mut u64,
        pairs_length: usize,
    ) -> PageAnswer;
    fn bantameasel_set(store: *mut u8, store_length: usize, name: NameBytes, pair: Pair) -> DoneAnswer;
    fn bantameasel_go(store: *const u8, store_length: usize, name: NameBytes) -> PairAnswer;
    fn bantameasel_drop(store: *mut u8, store_length: usize, name: NameBytes) -> DoneAnswer;
}

/// The answer if there is no refusal. By the engine's contract the line is 0 beside an answer, and the answer is 0
/// beside a refusal; anything else stops this program.
fn unless_refused<T: Default + PartialEq + Debug>(number: u32, line: u64, answer: T) -> Result<T, Refusal> {
    if number == 0 {
        assert_eq!(line, 0, "the line beside an answer");
        Ok(answer)
    } else {
        assert_eq!(answer, T::default(), "what stands beside refusal {number}");
        Err(Refusal { number, line })
    }
}

/// The pair that a call found, or none at End, where the pair's numbers are 0.
fn found(answer: PairAnswer) -> Result<Option<Pair>, Refusal> {
    let PairAnswer { refusal, found, line, pair } = answer;
    match unless_refused(refusal, line, (found, pair.taken, pair.held, pair.denied))? {
        (0, 0, 0, 0) => Ok(None),
        (1, taken, held, denied) => Ok(Some(Pair { taken, held, denied })),
        other => panic!("found and the pair are {other:?}"),
    }
}

/// Read: the numbers before the table's rows. By the engine's contract the edition is 1 and what is reserved is 0;
/// anything else stops this program.
pub fn read(text: &[u8], table: &mut [i32]) -> Result<[u64; FRONT], Refusal> {
    let answer = unsafe { bantameasel_read(text.as_ptr(), text.len(), table.as_mut_ptr(), table.len()) };
    let shape = [
        answer.statements,
        answer.plain,
        answer.exceptions,
        answer.preferences,
        answer.conditionals,
        answer.alternatives,
    ];
    assert_eq!(answer.reserved, [0; 2], "what is reserved");
    let (edition, shape) = unless_refused(answer.refusal, answer.line, (answer.edition, shape))?;
    assert_eq!(edition, 1, "the edition of an accepted book");
    Ok(shape)
}

/// Write: the text's length.
pub fn write(table: &[i32], text: &mut [u8]) -> Result<u64, Refusal> {
    let answer = unsafe { bantameasel_write(table.as_ptr(), table.len(), text.as_mut_ptr(), text.len()) };
    unless_refused(answer.refusal, answer.line, answer.length)
}

/// Judge: the verdict.
pub fn judge(text: &[u8], pair: &Pair) -> Result<u32, Refusal> {
    let answer = unsafe { bantameasel_judge(text.as_ptr(), text.len(), *pair) };
    unless_refused(answer.refusal, answer.line, answer.verdict)
}

/// First: the first resolution, or none at End.
pub fn first(text: &[u8]) -> Result<Option<Pair>, Refusal> {
    found(unsafe { bantameasel_first(text.as_ptr(), text.len()) })
}

/// After: the first resolution later than the pair, or none at End.
pub fn after(text: &[u8], pair: &Pair) -> Result<Option<Pair>, Refusal> {
    found(unsafe { bantameasel_after(text.as_ptr(), text.len(), *pair) })
}

/// Line: the line's length.
pub fn line(text: &[u8], pair: &Pair, line: &mut [u8]) -> Result<u64, Refusal> {
    let answer = unsafe { bantameasel_line(text.as_ptr(), text.len(), *pair, line.as_mut_ptr(), line.len()) };
    unless_refused(answer.refusal, answer.line, answer.length)
}

/// The first page: how many pairs were written.
pub fn first_page(text: &[u8], pairs: &mut [u64]) -> Result<u64, Refusal> {
    let answer = unsafe { bantameasel_first_page(text.as_ptr(), text.len(), pairs.as_mut_ptr(), pairs.len()) };
    unless_refused(answer.refusal, answer.line, answer.count)
}

/// The page after a pair: how many pairs were written.
pub fn page_after(text: &[u8], pair: &Pair, pairs: &mut [u64]) -> Result<u64, Refusal> {
    let answer = unsafe { bantameasel_page_after(text.as_ptr(), text.len(), *pair, pairs.as_mut_ptr(), pairs.len()) };
    unless_refused(answer.refusal, answer.line, answer.count)
}

/// Set: that the pair now stands in the store under the name.
pub fn set(store: &mut [u8], name: [u8; 8], pair: &Pair) -> Result<(), Refusal> {
    let answer = unsafe { bantameasel_set(store.as_mut_ptr(), store.len(), NameBytes { bytes: name }, *pair) };
    unless_refused(answer.refusal, answer.line, ())
}

/// Go: the pair that stands in the store under the name. None would be an End, which Go doesn't have.
pub fn go(store: &[u8], name: [u8; 8]) -> Result<Option<Pair>, Refusal> {
    found(unsafe { bantameasel_go(store.as_ptr(), store.len(), NameBytes { bytes: name }) })
}

/// Drop: that no pair stands in the store under the name any longer.
pub fn drop(store: &mut [u8], name: [u8; 8]) -> Result<(), Refusal> {
    let answer = unsafe { bantameasel_drop(store.as_mut_ptr(), store.len(), NameBytes { bytes: name }) };
    unless_refused(answer.refusal, answer.line, ())
}
