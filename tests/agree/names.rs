//! Random names of stopping points, rightly spelt and misspelt, and pairs to stand under them.

use crate::book::Pair;
use crate::random::Random;
use crate::store::{is_name, Name, NAME};

/// What a name may be spelt with.
pub const LETTERS: &[u8] = b"0123456789ABCDEFGHIJKLMNOPQRSTUVWXYZ";

/// The name that begins with these letters, with spaces behind.
pub fn name_of(letters: &[u8]) -> Name {
    let mut name = [b' '; NAME];
    name[..letters.len()].copy_from_slice(letters);
    name
}

/// A random name of one to eight of these letters.
fn spelt_with(random: &mut Random, letters: &[u8]) -> Name {
    let length = 1 + random.below(NAME as u64) as usize;
    name_of(&(0..length).map(|_| random.pick(letters)).collect::<Vec<u8>>())
}

/// A name of any letters.
pub fn any_name(random: &mut Random) -> Name {
    spelt_with(random, LETTERS)
}

/// How the names of a pool are alike.
#[derive(Clone, Copy)]
enum Alike {
    /// They are spelt with these letters.
    Spelt(&'static [u8]),
    /// They use all eight columns, and differ from one another in one of them or in two.
    In(usize, usize),
    /// They are beginnings of one name, or have another last letter.
    Beginning,
}

/// Every way in which names can be alike.
const ALIKE: [Alike; 9] = [
    Alike::Spelt(LETTERS),
    Alike::Spelt(b"A0"),
    Alike::Spelt(b"09AZ"),
    Alike::Spelt(b"YZ"),
    Alike::In(7, 7),
    Alike::In(0, 7),
    Alike::In(6, 7),
    Alike::In(0, 1),
    Alike::Beginning,
];

/// A random name that is like the example.
fn like(random: &mut Random, alike: Alike, example: &Name) -> Name {
    let mut name = *example;
    match alike {
        Alike::Spelt(letters) => return spelt_with(random, letters),
        Alike::In(column, other) => {
            name[column] = random.pick(LETTERS);
            name[other] = random.pick(LETTERS);
        }
        Alike::Beginning => {
            let length = 1 + random.below(NAME as u64) as usize;
            name[length..].fill(b' ');
            name[length - 1] = if random.one_in(3) { random.pick(LETTERS) } else { name[length - 1] };
        }
    }
    name
}

/// So many different names, each like an example in the way that is drawn for it.
fn different(random: &mut Random, count: usize, mut way: impl FnMut(&mut Random) -> Alike) -> Vec<Name> {
    let example: Name = std::array::from_fn(|_| random.pick(LETTERS));
    let mut names: Vec<Name> = Vec::new();
    let mut tries = 0;
    while names.len() < count {
        tries += 1;
        let alike = if tries < 10 * count { way(random) } else { ALIKE[0] };
        let name = like(random, alike, &example);
        if !names.contains(&name) {
            names.push(name);
        }
    }
    names
}

/// The sizes of pools; a store has room for 32 names.
const SIZES: [usize; 12] = [1, 2, 3, 6, 12, 24, 31, 32, 33, 36, 44, 60];

/// A pool of different names that are often alike.
pub fn pool(random: &mut Random) -> Vec<Name> {
    let (size, alike) = (random.pick(&SIZES), random.pick(&ALIKE));
    different(random, size, |_| alike)
}

/// So many different names of which some are alike.
pub fn mixed(random: &mut Random, count: usize) -> Vec<Name> {
    different(random, count, |random| random.pick(&ALIKE))
}

/// Bytes that no name has; most stand beside those that it may have.
const STRANGE: [u8; 18] =
    [0, 1, 9, 10, 13, 31, b'!', b'-', b'/', b':', b'@', b'[', b'_', b'`', b'a', b'z', 128 + b'A', 255];

/// A misspelt name that looks like this one.
pub fn misspelt(random: &mut Random, name: &Name) -> Name {
    let mut name = *name;
    let place = random.below(NAME as u64) as usize;
    match random.below(8) {
        0 => name = [b' '; NAME],
        1 => name.rotate_right(1),
        2 => name = name.map(|byte| if byte == b' ' { 0 } else { byte }),
        3 => name = name.map(|byte| byte.to_ascii_lowercase()),
        4 => name[place] = name[place].to_ascii_lowercase(),
        5 => name = name_of(&[random.pick(LETTERS), b' ', random.pick(LETTERS)]),
        6 => name[..place].fill(b' '),
        _ => {}
    }
    if is_name(&name) {
        name[place] = random.pick(&STRANGE);
    }
    name
}

/// A number of 64 bits: an end of the range, a single bit, few bits, bytes that tell their places, or any.
fn number(random: &mut Random) -> u64 {
    match random.below(8) {
        0 => 0,
        1 => u64::MAX,
        2 => 1 << random.below(64),
        3 => random.next() >> random.below(64),
        4 => random.next() << random.below(64),
        5 => 0x0807_0605_0403_0201,
        _ => random.next(),
    }
}

/// Any three numbers, lawful in some book or in none.
pub fn any_pair(random: &mut Random) -> Pair {
    match random.below(12) {
        0 => Pair { taken: 0, held: 0, denied: 0 },
        1 => Pair { taken: random.below(16), held: random.below(64), denied: random.below(64) },
        _ => Pair { taken: number(random), held: number(random), denied: number(random) },
    }
}
