//! Every book of one statement with at most two plain rules, at most one exception and perhaps a preference of it over
//! itself; every one with at most one constraint, two exceptions and a Q line; and every one with an O line, at most one
//! plain rule and at most one exception. The order of the two rules and of a rule's entries aside.

use crate::book::{Alternatives, Book, Conditional, Rule};
use crate::compare::{Checker, Known, Outcome};
use crate::meaning::{Meaning, Oracle};
use crate::pairs::all_lawful;
use crate::text::text_of;

/// The sets of entries that a body's half can have.
const ENTRIES: [[i32; 4]; 4] = [[0, 0, 0, 0], [0, 1, 0, 0], [-1, 0, 0, 0], [0, -1, 0, 1]];

/// Every rule with one of these heads.
fn rules(heads: &[i32]) -> Vec<Rule> {
    let mut list = Vec::new();
    for head in heads {
        for needed in ENTRIES {
            for barred in ENTRIES {
                list.push(Rule { head: *head, needed, barred });
            }
        }
    }
    list
}

/// Every list of at most two of the rules, without regard to order.
fn lists(rules: &[Rule]) -> Vec<Vec<Rule>> {
    let mut all = vec![Vec::new()];
    for (place, one) in rules.iter().enumerate() {
        all.push(vec![*one]);
        all.extend(rules[place..].iter().map(|other| vec![*one, *other]));
    }
    all
}

/// Every list of at most one exception, with and without the preference.
fn exceptions() -> Vec<(Vec<Rule>, Vec<[i32; 2]>)> {
    let mut all = vec![(Vec::new(), Vec::new())];
    for rule in rules(&[1, -1]) {
        all.push((vec![rule], Vec::new()));
        all.push((vec![rule], vec![[1, 1]]));
    }
    all
}

/// Every such book.
pub fn all_books() -> Vec<Book> {
    let (lists, exceptions) = (lists(&rules(&[1, -1, 0])), exceptions());
    let with = |plain: &Vec<Rule>, (exceptions, preferences): &(Vec<Rule>, Vec<[i32; 2]>)| Book {
        plain: plain.clone(),
        exceptions: exceptions.clone(),
        preferences: preferences.clone(),
        ..Book::empty(1)
    };
    lists.iter().flat_map(|plain| exceptions.iter().map(move |chosen| with(plain, chosen))).collect()
}

/// How many books of one statement there are with at most one constraint, two exceptions and a Q line: the choices of
/// the Q line's two exceptions and of its body, of the two exceptions, and of the constraint or none.
pub const CONDITIONAL: u64 = (4 * 16) * (32 * 32) * 17;

/// Takes one of the items by the lowest part of the place, and leaves the rest of it.
fn take<T: Copy>(place: &mut usize, items: &[T]) -> T {
    let item = items[*place % items.len()];
    *place /= items.len();
    item
}

/// The book with this place among them.
pub fn conditional_book(mut place: usize) -> Book {
    let place = &mut place;
    let order = take(place, &[[1, 2], [2, 1], [1, 1], [2, 2]]);
    let (needed, barred) = (take(place, &ENTRIES), take(place, &ENTRIES));
    let exceptions = rules(&[1, -1]);
    let exceptions = vec![take(place, &exceptions), take(place, &exceptions)];
    let plain = rules(&[0]).get(*place).copied();
    let conditionals = vec![Conditional { order, needed, barred }];
    Book { plain: plain.into_iter().collect(), exceptions, conditionals, ..Book::empty(1) }
}

/// How many books of one statement there are with an O line, at most one plain rule and at most one exception: the choices
/// of three heads, of which two are filled, of its body, of the plain rule or none, and of the exception or none.
pub const ALTERNATIVE: u64 = 20 * 16 * (48 + 1) * (32 + 1);

/// Every choice of three heads of which at least two are filled.
fn three_heads() -> Vec<[i32; 3]> {
    let all = (0..27).map(|code| [code % 3 - 1, code / 3 % 3 - 1, code / 9 - 1]);
    all.filter(|heads| heads.iter().filter(|head| **head != 0).count() > 1).collect()
}

/// The book with this place among them.
pub fn alternative_book(mut place: usize) -> Book {
    let place = &mut place;
    let heads = take(place, &three_heads());
    let (needed, barred) = (take(place, &ENTRIES), take(place, &ENTRIES));
    let or_none = |rules: Vec<Rule>| rules.into_iter().map(Some).chain([None]).collect::<Vec<_>>();
    let plain = take(place, &or_none(rules(&[1, -1, 0])));
    let exception = take(place, &or_none(rules(&[1, -1])));
    Book {
        plain: plain.into_iter().collect(),
        alternatives: vec![Alternatives { heads, needed, barred }],
        exceptions: exception.into_iter().collect(),
        ..Book::empty(1)
    }
}

/// Compares First, a page, After from every lawful pair, and Judge on it.
pub fn compare(checker: &mut Checker, book: &Book, meaning: &Meaning) -> Outcome {
    let text = text_of(book);
    let read = Ok(book.clone());
    let known = Known { text: &text, book: &read, oracle: Some(meaning) };
    checker.begin(&text);
    checker.first(&known)?;
    checker.first_page(&known, 3 * meaning.resolutions().len() + 3)?;
    for pair in all_lawful(book) {
        checker.judge(&known, &pair)?;
        checker.after(&known, &pair)?;
    }
    Ok(())
}
