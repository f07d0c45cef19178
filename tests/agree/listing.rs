//! Listings: lists of calls drawn at random, refused calls among them, from random points.

use crate::book::{refusal_of_pair, Book, Pair, Refusal, LINE};
use crate::compare::{Difference, Known, Outcome};
use crate::engine;
use crate::meaning::Oracle;
use crate::pairs;
use crate::random::Random;

/// One call of a list.
enum Call {
    /// First if the point is before the first pair, else After with the point.
    GoingOn,
    /// After with a pair that is refused.
    Refused(Pair),
    /// Calls of other operations and on another text, which must not matter.
    Aside(Pair),
}

/// What First or After answers.
type Answer = Result<Option<Pair>, Refusal>;

/// A listing: the point at which it begins (none: before the first pair) and its calls.
struct Listing {
    begins: Option<Pair>,
    calls: Vec<Call>,
}

/// How many calls went on and how many were refused, over all listings.
#[derive(Default)]
pub struct Walked {
    pub listings: u64,
    pub going_on: u64,
    pub refused: u64,
}

/// Makes a random listing in an accepted book and compares every answer with the list of all resolutions.
pub fn walk(random: &mut Random, known: &Known, book: &Book, walked: &mut Walked) -> Outcome {
    let oracle = known.oracle.expect("an accepted book has an oracle");
    let listing = draw(random, book, oracle);
    let expected = listing.expected(book, oracle);
    let answers = listing.run(known.text);
    if answers != expected {
        let what = format!("a listing from {:?} answers {answers:?} instead of {expected:?}", listing.begins);
        return Err(Difference { what, text: known.text.to_vec() });
    }
    walked.listings += 1;
    walked.refused += expected.iter().filter(|answer| answer.is_err()).count() as u64;
    walked.going_on += expected.iter().filter(|answer| answer.is_ok()).count() as u64;
    Ok(())
}

/// Draws a beginning and a list of calls that often reaches the end.
fn draw(random: &mut Random, book: &Book, oracle: &dyn Oracle) -> Listing {
    let resolutions = oracle.resolutions();
    let begins = match random.below(3) {
        0 => None,
        1 if !resolutions.is_empty() => Some(random.pick(resolutions)),
        _ => Some(pairs::lawful(random, book)),
    };
    let going_on = random.below(resolutions.len().min(40) as u64 + 4);
    let mut calls = Vec::new();
    for _ in 0..going_on {
        calls.push(Call::GoingOn);
        if random.one_in(4) {
            calls.push(Call::Refused(pairs::unlawful(random, book)));
        }
        if random.one_in(4) {
            calls.push(Call::Aside(pairs::lawful(random, book)));
        }
    }
    if random.one_in(2) {
        calls.insert(0, Call::Refused(pairs::unlawful(random, book)));
    }
    Listing { begins, calls }
}

impl Listing {
    /// The answers by the definitions: going on hands out the resolutions later than the beginning,
    /// in order and each once, and then End; a refused call answers its refusal.
    fn expected(&self, book: &Book, oracle: &dyn Oracle) -> Vec<Answer> {
        let mut later = match &self.begins {
            None => oracle.resolutions(),
            Some(pair) => oracle.later_than(pair),
        }
        .iter();
        let mut answers = Vec::new();
        for call in &self.calls {
            match call {
                Call::GoingOn => answers.push(Ok(later.next().copied())),
                Call::Refused(pair) => answers.push(refusal_of_pair(book, pair).map_or(Ok(None), Err)),
                Call::Aside(_) => {}
            }
        }
        answers
    }

    /// The answers of the engine's own First and After.
    fn run(&self, text: &[u8]) -> Vec<Answer> {
        let mut point = self.begins;
        let mut answers = Vec::new();
        for call in &self.calls {
            match call {
                Call::GoingOn => {
                    let answer = go_on(text, &point);
                    point = answer.unwrap_or(None).or(point);
                    answers.push(answer);
                }
                Call::Refused(pair) => answers.push(engine::after(text, pair)),
                Call::Aside(pair) => call_others(text, pair),
            }
        }
        answers
    }
}

/// First if the point is before the first pair, else After with the point.
fn go_on(text: &[u8], point: &Option<Pair>) -> Answer {
    match point {
        None => engine::first(text),
        Some(pair) => engine::after(text, pair),
    }
}

/// A book with a Q line: the case of request (e).
const CONDITIONAL: &[u8] = b"\
B   1   3
R   0   0   0   0   0   1   3   0   0
X   1   0   0   0   0   0   0   0   0
X   2   0   0   0   0   0   0   0   0
X   3   0   0   0   0   0   0   0   0
Q   3   1   0   0   0   0   2   0   0   0
Z   5
";

/// Calls other operations on this text and on others, without looking at what they answer.
fn call_others(text: &[u8], pair: &Pair) {
    let other = b"B   1   2\nR   1   0   0   0   0   2   0   0   0\nR   2   0   0   0   0   1   0   0   0\nZ   2\n";
    let _ = engine::judge(text, pair);
    let _ = engine::line(text, pair, &mut [0; LINE]);
    let _ = engine::page_after(text, pair, &mut [0; 6]);
    let _ = engine::first(other);
    let _ = engine::first(CONDITIONAL);
    let _ = engine::after(other, &Pair { taken: 0, held: 2, denied: 0 });
    let _ = engine::read(&text[1..], &mut [0; 40]);
}
