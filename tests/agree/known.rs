//! Books of 12 to 16 exceptions whose views are known without any search: so many of the exceptions are needed, or
//! each of some fields takes one claim. Nothing is barred but a claim's own denial, so a set of exceptions has one
//! view.

use crate::book::*;
use crate::large::{claims_of, draw_form, put_fields};
use crate::large_conditions::add_some;
use crate::maker::Maker;
use crate::meaning::{closure, members, Conclusions};
use crate::random::Random;
use crate::solved::Solved;
use crate::wide::many;

/// The exceptions of each part of a book in which they are counted, and how many such parts there are.
const PART: usize = 4;
const PARTS: usize = EXCEPTIONS / PART;

/// The forms of fields of 16 claims that are tried before random ones.
const FORMS: [&[i32]; 6] =
    [&[4, 4, 4, 4], &[2, 2, 2, 2, 2, 2, 2, 2], &[5, 5, 3, 3], &[5, 5, 5, 1], &[3, 3, 3, 3, 2, 2], &[4, 3, 3, 3, 3]];

/// A book with what is known of it.
pub fn known_book(random: &mut Random, place: u64) -> Solved {
    if place % 2 == 0 {
        fields(random, form_at(place), prefer_some)
    } else {
        let count = many(random);
        so_many(random, count, prefer_some)
    }
}

/// The same with Q lines under three of its claims or exceptions; of exceptions that are counted there are twelve.
pub fn known_conditional_book(random: &mut Random, place: u64) -> Solved {
    if place % 2 == 0 {
        fields(random, form_at(place), prefer_if_some)
    } else {
        so_many(random, NARROW as i32, prefer_if_some)
    }
}

/// The form that is next, as long as there are some.
fn form_at(place: u64) -> Option<Vec<i32>> {
    FORMS.get(place as usize / 2).map(|form| form.to_vec())
}

/// What ranks the exceptions of a book.
type Ranking = fn(&mut Maker);

/// One-value fields: a set of exceptions has a view if it leaves at most one claim of each field; the claims that are
/// left are held. With one left in each it is a resolution's.
fn fields(random: &mut Random, form: Option<Vec<i32>>, rank: Ranking) -> Solved {
    let claims = many(random);
    let form = form.unwrap_or_else(|| draw_form(random, claims));
    let mut maker = Maker::new(random, form.iter().sum(), EXCEPTIONS);
    put_fields(&mut maker, &form);
    rank(&mut maker);
    let fields: Vec<u64> = claims_of(&form).iter().map(|field| bits(field)).collect();
    let left = |taken: u64| fields.iter().map(move |field| (field & !taken).count_ones());
    let all = bits(&(1..=maker.n()).collect::<Vec<i32>>());
    let view = |taken: u64| Pair { taken, held: all & !taken, denied: taken };
    let viewed = (0..=all).filter(|taken| left(*taken).all(|count| count <= 1)).collect();
    Solved::known(maker.book, viewed, view)
}

/// Adds a few preferences to every third book.
fn prefer_some(maker: &mut Maker) {
    if maker.random.one_in(3) {
        maker.random_preferences(3);
    }
}

/// Adds Q lines under what three of the exceptions give, and a few preferences.
fn prefer_if_some(maker: &mut Maker) {
    let heads: Vec<i32> = maker.book.exceptions.iter().map(|rule| rule.head).collect();
    let entries: Vec<i32> = (0..3).map(|_| maker.random.pick(&heads)).collect();
    add_some(maker, CONDITIONALS as u64, &entries);
    prefer_some(maker);
}

/// The set of these numbers.
fn bits(numbers: &[i32]) -> u64 {
    numbers.iter().map(|number| 1 << (number - 1)).sum()
}

/// Of so many exceptions at least some number is needed, few or nearly all more often than half of them.
fn so_many(random: &mut Random, count: i32, rank: Ranking) -> Solved {
    let wanted = match random.below(5) {
        0 | 1 => random.between(1, 2),
        2 | 3 => random.between(count - 1, count),
        _ => random.between(3, 5),
    };
    let mut maker = Maker::new(random, STATEMENTS, EXCEPTIONS);
    put_counting(&mut maker, count, wanted);
    rank(&mut maker);
    let book = maker.book;
    let plain = book.clone();
    let view = move |taken: u64| {
        let Conclusions { held, denied } = closure(&plain, taken);
        Pair { taken, held, denied }
    };
    let viewed = (0u64..1 << count).filter(|taken| taken.count_ones() as i32 >= wanted).collect();
    Solved::known(book, viewed, view)
}

/// Statements that say how many are taken of some exceptions: the first for at least 1, the second for at least 2, ..
type Counters = Vec<i32>;

/// Statements that no rule concludes yet.
type Fresh = std::ops::Range<i32>;

/// Adds exceptions that hold one statement each, counts how many are taken in four parts and in two halves, and asks
/// for so many of them.
fn put_counting(maker: &mut Maker, count: i32, wanted: i32) {
    let numbers: Vec<i32> = (1..=count).collect();
    let goal = maker.n();
    let mut fresh = count + 1..goal;
    numbers.iter().for_each(|number| maker.exception(*number, &[], &[]));
    let mut parts: Vec<Counters> = numbers.chunks(PART).map(|part| put_part(maker, part, &mut fresh)).collect();
    parts.resize(PARTS, Vec::new());
    let sides: Vec<Half> = parts.chunks(2).map(|two| Half::put(maker, two, &mut fresh)).collect();
    for one in 0..=wanted as usize {
        let both = [sides[0].at_least(one), sides[1].at_least(wanted as usize - one)];
        if let [Some(first), Some(second)] = both {
            maker.plain(goal, &[first, second].concat(), &[]);
        }
    }
    maker.constraint(&[], &[goal]);
}

/// Counts the exceptions of a part.
fn put_part(maker: &mut Maker, part: &[i32], fresh: &mut Fresh) -> Counters {
    let counters: Counters = fresh.take(part.len()).collect();
    for set in 1u64..1 << part.len() {
        let taken: Vec<i32> = members(set).map(|place| part[place]).collect();
        maker.plain(counters[taken.len() - 1], &taken, &[]);
    }
    counters
}

/// Two parts counted together: what must be held where at least 1, 2, .. are taken.
struct Half {
    needed: Vec<Vec<i32>>,
}

impl Half {
    /// Counts two parts together; that all of both are taken needs no statement of its own.
    fn put(maker: &mut Maker, parts: &[Counters], fresh: &mut Fresh) -> Half {
        let all = parts[0].len() + parts[1].len();
        let mut needed: Vec<Vec<i32>> = fresh.take(all.saturating_sub(1)).map(|counter| vec![counter]).collect();
        for first in 0..=parts[0].len() {
            for second in (0..=parts[1].len()).filter(|second| (1..=all).contains(&(first + second))) {
                let both = [last_of(&parts[0][..first]), last_of(&parts[1][..second])].concat();
                match needed.get(first + second - 1) {
                    Some(counter) => maker.plain(counter[0], &both, &[]),
                    None => needed.push(both),
                }
            }
        }
        Half { needed }
    }

    /// What must be held where at least so many are taken; none where there are not so many.
    fn at_least(&self, count: usize) -> Option<Vec<i32>> {
        match count {
            0 => Some(Vec::new()),
            _ => self.needed.get(count - 1).cloned(),
        }
    }
}

/// The last of the counters, if there is one.
fn last_of(counters: &[i32]) -> Vec<i32> {
    counters.last().copied().into_iter().collect()
}
