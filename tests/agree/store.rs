//! A store of named stopping points by the words of document 02, (h): which bytes are one, what each call answers and
//! which bytes it leaves. Nothing here was taken from the engine.

use crate::book::{refused, Pair, Refusal};
use std::collections::BTreeMap;

/// The bytes of a store, of an entry and of its name, and the most entries.
pub const STORE: usize = 1_024;
pub const ENTRY: usize = 32;
pub const NAME: usize = 8;
pub const MOST_NAMES: usize = 32;

/// A name as a call takes it, rightly spelt or not.
pub type Name = [u8; NAME];

/// One call on a store.
#[derive(Clone, Copy, Debug)]
pub enum Call {
    Set(Name, Pair),
    Go(Name),
    Drop(Name),
}

impl Call {
    /// The name that the call is about.
    pub fn name(&self) -> Name {
        match self {
            Call::Set(name, _) | Call::Go(name) | Call::Drop(name) => *name,
        }
    }
}

/// What a call answers: a pair if it is Go, none if it is Set or Drop.
pub type Answer = Result<Option<Pair>, Refusal>;

/// One or more of A to Z and 0 to 9, then only spaces.
pub fn is_name(bytes: &[u8]) -> bool {
    let used = bytes.iter().take_while(|byte| matches!(byte, b'A'..=b'Z' | b'0'..=b'9')).count();
    used >= 1 && bytes[used..].iter().all(|byte| *byte == b' ')
}

/// The first byte that differs is the smaller one.
pub fn comes_before(one: &[u8], other: &[u8]) -> bool {
    one.iter().zip(other).find(|(left, right)| left != right).is_some_and(|(left, right)| left < right)
}

/// The bytes are so many entries with rightly spelt names, each before the next, and only zeros behind.
fn is_store_of(bytes: &[u8], count: usize) -> bool {
    let (filled, behind) = bytes.split_at(ENTRY * count);
    let name = |place: usize| &filled[ENTRY * place..][..NAME];
    behind.iter().all(|byte| *byte == 0)
        && (0..count).all(|place| is_name(name(place)))
        && (1..count).all(|place| comes_before(name(place - 1), name(place)))
}

/// The bytes of a number, least first.
fn bytes_of(number: u64) -> impl Iterator<Item = u8> {
    (0..8).map(move |place| (number >> (8 * place)) as u8)
}

/// The number of eight bytes, least first.
fn number_of(bytes: &[u8]) -> u64 {
    (0..8).map(|place| u64::from(bytes[place]) << (8 * place)).sum()
}

/// The name and the pair of an entry.
fn of_entry(entry: &[u8]) -> (Name, Pair) {
    let number = |place: usize| number_of(&entry[NAME + 8 * place..]);
    let name = std::array::from_fn(|place| entry[place]);
    (name, Pair { taken: number(0), held: number(1), denied: number(2) })
}

/// The bytes of an entry.
pub fn entry_of(name: &Name, pair: &Pair) -> Vec<u8> {
    let numbers = [pair.taken, pair.held, pair.denied];
    name.iter().copied().chain(numbers.into_iter().flat_map(bytes_of)).collect()
}

/// What stands in a store: pairs by name.
#[derive(Clone, Default)]
pub struct Points {
    pairs: BTreeMap<Name, Pair>,
}

impl Points {
    /// What stands in these bytes, or none if they are no store.
    pub fn of_bytes(bytes: &[u8]) -> Option<Points> {
        if bytes.len() != STORE {
            return None;
        }
        let count = (0..=MOST_NAMES).find(|count| is_store_of(bytes, *count))?;
        Some(Points { pairs: bytes.chunks(ENTRY).take(count).map(of_entry).collect() })
    }

    /// The bytes of the store: the entries by name, packed from the start, and zeros behind.
    pub fn bytes(&self) -> Vec<u8> {
        let mut bytes: Vec<u8> = self.pairs.iter().flat_map(|(name, pair)| entry_of(name, pair)).collect();
        bytes.resize(STORE, 0);
        bytes
    }

    /// Whether the store has as many entries as it can have.
    pub fn is_full(&self) -> bool {
        self.pairs.len() == MOST_NAMES
    }

    /// Makes the call and answers it; a refused call changes nothing.
    pub fn call(&mut self, call: &Call) -> Answer {
        let name = call.name();
        if !is_name(&name) {
            return Err(refused(25));
        }
        let there = self.pairs.get(&name).copied();
        match call {
            Call::Set(..) if there.is_none() && self.is_full() => return Err(refused(26)),
            Call::Set(_, pair) => drop(self.pairs.insert(name, *pair)),
            Call::Go(_) => return there.map(Some).ok_or(refused(25)),
            Call::Drop(_) => drop(self.pairs.remove(&name).ok_or(refused(25))?),
        }
        Ok(None)
    }
}

/// The answer of a call on any bytes, of which it is known whether they are a store, and the bytes that it leaves.
pub fn call_on(bytes: &[u8], points: &Option<Points>, call: &Call) -> (Answer, Vec<u8>) {
    let Some(points) = points else {
        return (Err(refused(24)), bytes.to_vec());
    };
    let mut points = points.clone();
    let answer = points.call(call);
    (answer, points.bytes())
}
