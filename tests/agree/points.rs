//! Set, Go and Drop: each call against the words of document 02, (h), and random lists of calls from empty stores.

use crate::book::{refused, Pair};
use crate::compare::{same, Checker, Difference, Lent, Outcome};
use crate::engine;
use crate::names::{any_name, any_pair, misspelt, pool};
use crate::random::Random;
use crate::sections::Run;
use crate::store::{Answer, Call, Name, Points, STORE};

/// The number of Set among the operations; Go and Drop follow.
const SET: usize = 8;

/// What was compared of stores.
#[derive(Default)]
pub struct Stored {
    pub lists: u64,
    /// Calls of lists: Set, Go and Drop.
    pub calls: [u64; 3],
    /// Calls of lists that were refused by 25 and by 26.
    pub refused: [u64; 2],
    /// Lists in which a store got all its 32 entries.
    pub full: u64,
    /// Damaged stores, and those of them that are stores again.
    pub damaged: u64,
    pub still_stores: u64,
    /// Slices that don't have 1,024 bytes.
    pub other_lengths: u64,
    /// Points that were gone on from, with the resolutions and the Ends that followed.
    pub gone_on: u64,
    pub resolutions: u64,
    pub ends: u64,
    /// Points that were refused by 12, 13 and 14.
    pub unlawful: [u64; 3],
}

impl Stored {
    /// Counts a call of a list.
    fn count(&mut self, call: &Call, answer: &Answer) {
        let operation = match call {
            Call::Set(..) => 0,
            Call::Go(_) => 1,
            Call::Drop(_) => 2,
        };
        self.calls[operation] += 1;
        if let Err(refusal) = answer {
            self.refused[refusal.number as usize - 25] += 1;
        }
    }
}

/// Makes a call on the lent bytes and compares its answer and every byte that it leaves.
pub fn compare_call(
    checker: &mut Checker,
    lent: &mut Lent<u8>,
    call: &Call,
    expected: &Answer,
    left: &[u8],
) -> Result<(), String> {
    let name = call.name();
    let (operation, answer) = match call {
        Call::Set(_, pair) => (SET, engine::set(lent.part(), name, pair).map(|()| None)),
        Call::Go(_) => (SET + 1, engine::go(lent.part(), name)),
        Call::Drop(_) => (SET + 2, engine::drop(lent.part(), name).map(|()| None)),
    };
    checker.count(operation, expected);
    let compared = same(expected, &answer).and_then(|()| lent.holds(left));
    compared.map_err(|what| format!("{} on {} bytes: {what}", in_words(call), left.len()))
}

/// The call as a report names it.
fn in_words(call: &Call) -> String {
    let name = call.name().escape_ascii().to_string();
    match call {
        Call::Set(_, pair) => format!("Set '{name}' {pair:?}"),
        Call::Go(_) => format!("Go '{name}'"),
        Call::Drop(_) => format!("Drop '{name}'"),
    }
}

/// A store in memory from which a list of calls is made, beside what should stand in it.
pub struct Kept {
    points: Points,
    lent: Lent<u8>,
    /// The calls that were not refused, in order.
    done: Vec<Call>,
    was_full: bool,
}

impl Kept {
    /// An empty store: 1,024 zeros.
    pub fn empty(checker: &mut Checker) -> Kept {
        let lent = checker.lend_with(&[0; STORE]);
        Kept { points: Points::default(), lent, done: Vec::new(), was_full: false }
    }

    /// Makes one more call of the list and compares its answer and all bytes.
    pub fn call(&mut self, checker: &mut Checker, call: &Call) -> Result<Answer, Difference> {
        let text = self.bytes();
        checker.begin(&text);
        let expected = self.points.call(call);
        let left = self.points.bytes();
        let compared = compare_call(checker, &mut self.lent, call, &expected, &left);
        compared.map_err(|what| Difference { what, text })?;
        if expected.is_ok() {
            self.done.push(*call);
        }
        self.was_full |= self.points.is_full();
        Ok(expected)
    }

    /// Set, where the answer doesn't matter any further.
    pub fn set(&mut self, checker: &mut Checker, name: &Name, pair: &Pair) -> Outcome {
        self.call(checker, &Call::Set(*name, *pair)).map(|_| ())
    }

    /// The bytes of the store as the calls have left them.
    pub fn bytes(&mut self) -> Vec<u8> {
        self.lent.part().to_vec()
    }

    /// Puts the store away and takes it out again, at another place in memory.
    pub fn next_week(&mut self, checker: &mut Checker) {
        let bytes = self.bytes();
        self.lent = checker.lend_with(&bytes);
    }

    /// The pair last set under the name and not dropped since, by the calls alone.
    fn last_set(&self, name: &Name) -> Option<Pair> {
        let last = self.done.iter().rev().find(|call| !matches!(call, Call::Go(_)) && call.name() == *name);
        match last {
            Some(Call::Set(_, pair)) => Some(*pair),
            _ => None,
        }
    }

    /// Go gives for every name what the list says.
    fn go_everywhere(&mut self, checker: &mut Checker, stored: &mut Stored, names: &[Name]) -> Outcome {
        for name in names {
            let call = Call::Go(*name);
            let answer = self.call(checker, &call)?;
            stored.count(&call, &answer);
            if answer != self.last_set(name).map(Some).ok_or(refused(25)) {
                let what = format!("the test program's own store gives {answer:?} for {name:?}");
                return Err(Difference { what, text: self.points.bytes() });
            }
        }
        Ok(())
    }
}

/// Of twenty calls of a part of a list, how many are Set and how many Go; the others are Drop.
const FILLING: [u64; 2] = [17, 2];
const MIXED: [u64; 2] = [9, 5];
const EMPTYING: [u64; 2] = [2, 5];

/// One random call; a name is sometimes outside the pool, and sometimes misspelt.
fn draw_call(random: &mut Random, [sets, goes]: [u64; 2], names: &[Name]) -> Call {
    let mut name = if random.one_in(30) { any_name(random) } else { random.pick(names) };
    if random.one_in(10) {
        name = misspelt(random, &name);
    }
    match random.below(20) {
        draw if draw < sets => Call::Set(name, any_pair(random)),
        draw if draw < sets + goes => Call::Go(name),
        _ => Call::Drop(name),
    }
}

/// A part of a list: each name set once, in a random order, ascending or descending; or random calls.
fn draw_part(random: &mut Random, names: &[Name]) -> Vec<Call> {
    if random.one_in(3) {
        let mut names = names.to_vec();
        names.sort();
        match random.below(3) {
            0 => random.shuffle(&mut names),
            1 => names.reverse(),
            _ => {}
        }
        return names.into_iter().map(|name| Call::Set(name, any_pair(random))).collect();
    }
    let weights = random.pick(&[FILLING, MIXED, EMPTYING]);
    let length = random.below(50);
    (0..length).map(|_| draw_call(random, weights, names)).collect()
}

/// One random list of calls from an empty store, in two to five parts with a week between them, and calls on a second
/// store among them; then Go for every name that came up.
pub fn list(run: &mut Run, random: &mut Random, _: u64) -> Outcome {
    let (checker, stored) = (&mut run.checker, &mut run.stored);
    let mut kept = [Kept::empty(checker), Kept::empty(checker)];
    let names = pool(random);
    let mut used = names.clone();
    for _ in 0..2 + random.below(4) {
        for call in draw_part(random, &names) {
            let which = usize::from(random.one_in(8));
            let answer = kept[which].call(checker, &call)?;
            stored.count(&call, &answer);
            used.push(call.name());
        }
        kept[0].next_week(checker);
    }
    used.sort();
    used.dedup();
    for store in &mut kept {
        store.go_everywhere(checker, stored, &used)?;
    }
    stored.lists += 1;
    stored.full += u64::from(kept.iter().any(|store| store.was_full));
    Ok(())
}
