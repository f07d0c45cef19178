//! The worked example of named stopping points: calls from an empty store, their answers, and the entries that they
//! leave; the order of names.

use crate::book::{refused, Pair};
use crate::compare::{Checker, Difference, Outcome};
use crate::names::{name_of, LETTERS};
use crate::points::Kept;
use crate::random::Random;
use crate::sections::Run;
use crate::store::{comes_before, Answer, Call, Points, STORE};

/// A call of the worked example, what it answers, and the entries that stand in the store after it, in hexadecimal.
pub struct Example {
    call: Call,
    answer: Answer,
    entries: &'static [&'static str],
}

/// The entries of the worked example; A1 is set twice.
const A: &str = "4120202020202020000000000000000000000000000000000000000000000100";
const A1: &str = "4131202020202020ffff00000000000003000000000000000300000000000000";
const A1_AGAIN: &str = "4131202020202020020000000000000004000000000000000800000000000000";
const B: &str = "4220202020202020010000000000000005000000000000000200000000000000";

/// The twelve calls of the worked example.
pub fn examples() -> Vec<Example> {
    let done = |call: Call, entries| Example { call, answer: Ok(None), entries };
    let absent = |call: Call, entries| Example { call, answer: Err(refused(25)), entries };
    let set = |name: &[u8], [taken, held, denied]: [u64; 3]| Call::Set(name_of(name), Pair { taken, held, denied });
    let (go, drop) = (|name: &[u8]| Call::Go(name_of(name)), |name: &[u8]| Call::Drop(name_of(name)));
    let found = Some(Pair { taken: 65_535, held: 3, denied: 3 });
    vec![
        done(set(b"B", [1, 5, 2]), &[B]),
        done(set(b"A1", [65_535, 3, 3]), &[A1, B]),
        done(set(b"A", [0, 0, 1 << 48]), &[A, A1, B]),
        Example { call: go(b"A1"), answer: Ok(found), entries: &[A, A1, B] },
        absent(go(b"C"), &[A, A1, B]),
        done(set(b"A1", [2, 4, 8]), &[A, A1_AGAIN, B]),
        done(drop(b"A"), &[A1_AGAIN, B]),
        absent(drop(b"A"), &[A1_AGAIN, B]),
        absent(set(b"A B", [1, 5, 2]), &[A1_AGAIN, B]),
        absent(set(b"", [1, 5, 2]), &[A1_AGAIN, B]),
        done(drop(b"B"), &[A1_AGAIN]),
        done(drop(b"A1"), &[]),
    ]
}

impl Example {
    /// The store after the call.
    fn store(&self) -> Vec<u8> {
        let digits = self.entries.concat();
        let pairs = (0..digits.len()).step_by(2).map(|place| &digits[place..place + 2]);
        let mut bytes: Vec<u8> = pairs.map(|two| u8::from_str_radix(two, 16).expect("two digits")).collect();
        bytes.resize(STORE, 0);
        bytes
    }
}

/// The worked example on this program's own stores, and what it says of the order of names and of bytes that are no
/// store; answers the first that doesn't hold.
pub fn check() -> Result<(), &'static str> {
    let mut points = Points::default();
    for example in examples() {
        if points.call(&example.call) != example.answer || points.bytes() != example.store() {
            return Err("the worked example of stopping points");
        }
    }
    let ascending: [&[u8]; 5] = [b"A", b"A0", b"A1", b"AA", b"B"];
    if ascending.windows(2).any(|two| !comes_before(&name_of(two[0]), &name_of(two[1]))) {
        return Err("the order of names");
    }
    check_bytes()
}

/// What the worked example says of bytes that are no store.
fn check_bytes() -> Result<(), &'static str> {
    let store = examples()[5].store();
    let is_store = |change: &dyn Fn(&mut Vec<u8>)| {
        let mut bytes = store.clone();
        change(&mut bytes);
        Points::of_bytes(&bytes).is_some()
    };
    let expected: [(&'static str, bool, &dyn Fn(&mut Vec<u8>)); 11] = [
        ("a store", true, &|_| {}),
        ("another last byte of an entry", true, &|bytes| bytes[95] = 1),
        ("a space inside a name", false, &|bytes| bytes[2] = b'C'),
        ("a space in front of a name", false, &|bytes| bytes[..2].copy_from_slice(b" A")),
        ("a name of spaces", false, &|bytes| bytes[0] = b' '),
        ("the same name twice", false, &|bytes| bytes[1] = b'1'),
        ("names in falling order", false, &|bytes| bytes[0] = b'C'),
        ("a zero entry before a filled one", false, &|bytes| bytes[32..64].fill(0)),
        ("a byte behind the last entry", false, &|bytes| bytes[1_023] = 1),
        ("1,023 bytes", false, &|bytes| bytes.truncate(1_023)),
        ("1,025 bytes", false, &|bytes| bytes.push(0)),
    ];
    match expected.iter().find(|(_, wanted, change)| is_store(change) != *wanted) {
        Some((name, _, _)) => Err(name),
        None => Ok(()),
    }
}

/// The worked example and the order of names by the library.
pub fn compare(run: &mut Run, _: &mut Random, _: u64) -> Outcome {
    let mut kept = Kept::empty(&mut run.checker);
    for example in examples() {
        let answer = kept.call(&mut run.checker, &example.call)?;
        if answer != example.answer || kept.bytes() != example.store() {
            let what = format!("the worked example at {:?}: {answer:?}, or its bytes, are wrong", example.call);
            return Err(Difference { what, text: kept.bytes() });
        }
    }
    compare_order(&mut run.checker)
}

/// Any two different names of one letter, or of A and one more, stand in the order space, digits, letters.
fn compare_order(checker: &mut Checker) -> Outcome {
    let one = LETTERS.iter().map(|letter| name_of(&[*letter]));
    let names: Vec<_> = one.chain(LETTERS.iter().map(|letter| name_of(&[b'A', *letter]))).collect();
    let rank = |letter: &u8| LETTERS.iter().position(|other| other == letter).map_or(0, |place| place + 1);
    for first in &names {
        for second in names.iter().filter(|second| *second != first) {
            let mut kept = Kept::empty(checker);
            for name in [first, second] {
                kept.set(checker, name, &Pair { taken: 1, held: 2, denied: 4 })?;
            }
            let ordered = if first.iter().map(rank).lt(second.iter().map(rank)) { first } else { second };
            if kept.bytes()[..8] != *ordered {
                let what = format!("of {first:?} and {second:?} the wrong one comes first");
                return Err(Difference { what, text: kept.bytes() });
            }
        }
    }
    Ok(())
}
