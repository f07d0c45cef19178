//! Stores damaged in every way: which bytes are still a store, what each call answers, and that every byte stays where
//! a call is refused.

use crate::compare::{Checker, Difference, Outcome};
use crate::names::{any_name, any_pair, misspelt, mixed};
use crate::points::{compare_call, Stored};
use crate::random::Random;
use crate::sections::Run;
use crate::store::{call_on, entry_of, Call, Name, Points, ENTRY, MOST_NAMES, NAME, STORE};

/// Makes the calls, each on the same bytes, and compares answers and bytes.
fn compare_calls(checker: &mut Checker, bytes: &[u8], points: &Option<Points>, calls: &[Call]) -> Outcome {
    checker.begin(bytes);
    for call in calls {
        let (expected, left) = call_on(bytes, points, call);
        let mut lent = checker.lend_with(bytes);
        let compared = compare_call(checker, &mut lent, call, &expected, &left);
        compared.map_err(|what| Difference { what, text: bytes.to_vec() })?;
    }
    Ok(())
}

/// One call of each kind on bytes that may be no store.
fn compare_damaged(run: &mut Run, random: &mut Random, bytes: &[u8], near: usize) -> Outcome {
    let points = Points::of_bytes(bytes);
    run.stored.count_damaged(bytes, &points);
    let mut name = || asked_name(random, bytes, near);
    let names = [name(), name(), name()];
    let calls = [Call::Set(names[0], any_pair(random)), Call::Go(names[1]), Call::Drop(names[2])];
    compare_calls(&mut run.checker, bytes, &points, &calls)
}

/// A name to ask for in bytes that may be no store: that of the entry near this place or of one beside it, any that
/// stands there, another name, or a misspelt one.
fn asked_name(random: &mut Random, bytes: &[u8], near: usize) -> Name {
    let entries = (bytes.len() / ENTRY) as u64;
    let place = match random.below(8) {
        0..=2 => near / ENTRY,
        3 => near / ENTRY + 1,
        4 => (near / ENTRY).saturating_sub(1),
        5 => random.below(entries.max(1)) as usize,
        6 => return any_name(random),
        _ => {
            let name = any_name(random);
            return misspelt(random, &name);
        }
    };
    let stands = bytes.get(ENTRY * place..ENTRY * place + NAME);
    stands.map_or_else(|| any_name(random), |bytes| std::array::from_fn(|column| bytes[column]))
}

impl Stored {
    /// Counts bytes that may be no store.
    fn count_damaged(&mut self, bytes: &[u8], points: &Option<Points>) {
        self.damaged += u64::from(bytes.len() == STORE);
        self.other_lengths += u64::from(bytes.len() != STORE);
        self.still_stores += u64::from(points.is_some());
    }
}

/// So many entries in the order of their names, packed; up to 32 of them begin a store.
fn entries(random: &mut Random, count: usize) -> Vec<u8> {
    let mut names = mixed(random, count);
    names.sort();
    names.iter().flat_map(|name| entry_of(name, &any_pair(random))).collect()
}

/// A store of so many entries.
fn store_of(random: &mut Random, count: usize) -> Vec<u8> {
    let mut bytes = entries(random, count);
    bytes.resize(STORE, 0);
    bytes
}

/// The bytes that are put in the place of others where not all are tried.
const BYTES: [u8; 20] =
    [0, 1, 10, 31, b' ', b'!', b'/', b'0', b'1', b'9', b':', b'@', b'A', b'B', b'Z', b'[', b'a', b'z', 128, 255];

/// Every byte of a full store replaced by every other value; every byte of stores with 16, 31, 1 and no entries by some.
pub fn every_byte(run: &mut Run, random: &mut Random, _: u64) -> Outcome {
    let all: Vec<u8> = (0..=255).collect();
    for (count, values) in [(MOST_NAMES, &all[..]), (16, &BYTES), (31, &BYTES), (1, &BYTES), (0, &BYTES)] {
        let mut bytes = store_of(random, count);
        for place in 0..STORE {
            let true_byte = bytes[place];
            for value in values.iter().filter(|value| **value != true_byte) {
                bytes[place] = *value;
                compare_damaged(run, random, &bytes, place)?;
            }
            bytes[place] = true_byte;
        }
    }
    Ok(())
}

/// A store of any number of entries, damaged once or twice: bytes replaced, or entries or names moved.
pub fn moved(run: &mut Run, random: &mut Random, _: u64) -> Outcome {
    let count = random.pick(&[0, 1, 2, 3, 8, 16, 30, 31, 32, 32]);
    let mut bytes = store_of(random, count);
    let mut near = 0;
    for _ in 0..1 + random.below(2) {
        near = ENTRY * random.below(count as u64 + 1).min(MOST_NAMES as u64 - 1) as usize;
        match random.below(3) {
            0 => replace_two(random, &mut bytes, near),
            1 => move_entries(random, &mut bytes, near),
            _ => change_name(random, &mut bytes, near),
        }
    }
    compare_damaged(run, random, &bytes, near)
}

/// Replaces a byte near a place and another anywhere.
fn replace_two(random: &mut Random, bytes: &mut [u8], near: usize) {
    for place in [near + random.below(ENTRY as u64) as usize, random.below(STORE as u64) as usize] {
        bytes[place] = if random.one_in(2) { random.pick(&BYTES) } else { random.next() as u8 };
    }
}

/// Exchanges, repeats or takes out the entry at a place, shifts what stands behind it, or turns the store round.
fn move_entries(random: &mut Random, bytes: &mut Vec<u8>, at: usize) {
    let other = ENTRY * random.below(MOST_NAMES as u64) as usize;
    let next = (at + ENTRY).min(STORE - ENTRY);
    let behind = random.pick(&[other, next]);
    match random.below(9) {
        0 => (0..ENTRY).for_each(|column| bytes.swap(at + column, behind + column)),
        1 => bytes.copy_within(at..at + ENTRY, behind),
        2 => bytes.copy_within(at..STORE - ENTRY, at + ENTRY),
        3 => bytes[at..at + ENTRY].fill(0),
        4 => bytes[at..].rotate_right(ENTRY),
        5 => bytes[at..].rotate_left(random.pick(&[1, 8, ENTRY])),
        6 => bytes[at..].rotate_right(random.pick(&[1, 8])),
        7 => *bytes = bytes.chunks(ENTRY).rev().flatten().copied().collect(),
        _ => bytes.fill(random.pick(&[0, b' ', b'A', 255])),
    }
}

/// Gives the entry at a place another's name, no name, a misspelt one or any.
fn change_name(random: &mut Random, bytes: &mut [u8], at: usize) {
    let other = ENTRY * random.below(MOST_NAMES as u64) as usize;
    let next = (at + ENTRY).min(STORE - ENTRY);
    let name: Name = std::array::from_fn(|column| bytes[at + column]);
    match random.below(7) {
        0 => bytes.copy_within(at..at + NAME, next),
        1 => (0..NAME).for_each(|column| bytes.swap(at + column, next + column)),
        2 => (0..NAME).for_each(|column| bytes.swap(at + column, other + column)),
        3 => bytes[at..at + NAME].fill(0),
        4 => bytes[at] = 0,
        5 => bytes[at..at + NAME].copy_from_slice(&misspelt(random, &name)),
        _ => bytes[at..at + NAME].copy_from_slice(&any_name(random)),
    }
}

/// Slices of every length up to 1,100 and of some beyond: stores cut short, with more entries behind, or with other
/// bytes behind.
pub fn every_length(run: &mut Run, random: &mut Random, _: u64) -> Outcome {
    let filled = [entries(random, MOST_NAMES + 8), entries(random, MOST_NAMES), entries(random, 16), vec![]];
    for length in (0..=1_100).chain([1_280, 2_047, 2_048, 2_049, 4_096, 65_536, 66_560]) {
        for entries in &filled {
            for behind in [0, b' ', 255] {
                let mut bytes = entries.clone();
                bytes.resize(bytes.len().max(STORE), 0);
                bytes.resize(length, behind);
                let near = random.below(length as u64 + 1) as usize;
                compare_damaged(run, random, &bytes, near)?;
            }
        }
    }
    Ok(())
}
