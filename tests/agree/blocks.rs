//! Large books made of small ones side by side, whose resolutions are known without any search:
//! the parts share no statement and no exception, so the views, and with them the resolutions, are the products. A view
//! of the whole is dominated just where one of its parts is.

use crate::alternatives::{self, alternative_book};
use crate::book::*;
use crate::conditions::{self, conditional_book};
use crate::kinds::{small_book, KINDS};
use crate::meaning::{compare_pairs, outranking, plain_steps, Meaning, Oracle};
use crate::random::Random;

/// The most resolutions that are listed.
const MOST: usize = 4_000;

/// One part: its meaning, and the numbers, counted from 0, that its statements and exceptions have in the whole.
struct Part {
    meaning: Meaning,
    statements: Vec<usize>,
    exceptions: Vec<usize>,
}

/// A book of parts, with all its resolutions in the order of pairs.
pub struct Blocks {
    pub book: Book,
    parts: Vec<Part>,
    resolutions: Vec<Pair>,
}

/// Moves the bits of a number to their places in the whole.
fn spread(number: u64, places: &[usize]) -> u64 {
    places.iter().enumerate().map(|(own, place)| (number >> own & 1) << place).sum()
}

/// Gathers the bits of a number from their places in the whole.
fn gather(number: u64, places: &[usize]) -> u64 {
    places.iter().enumerate().map(|(own, place)| (number >> place & 1) << own).sum()
}

impl Part {
    /// The part's pair as a pair of the whole.
    fn outward(&self, pair: &Pair) -> Pair {
        Pair {
            taken: spread(pair.taken, &self.exceptions),
            held: spread(pair.held, &self.statements),
            denied: spread(pair.denied, &self.statements),
        }
    }

    /// What a pair of the whole says about the part.
    fn inward(&self, pair: &Pair) -> Pair {
        Pair {
            taken: gather(pair.taken, &self.exceptions),
            held: gather(pair.held, &self.statements),
            denied: gather(pair.denied, &self.statements),
        }
    }

    /// An entry or head of the part as one of the whole.
    fn entry(&self, entry: i32) -> i32 {
        if entry == 0 {
            0
        } else {
            entry.signum() * (self.statements[entry.unsigned_abs() as usize - 1] as i32 + 1)
        }
    }

    /// A rule of the part as one of the whole.
    fn rule(&self, rule: &Rule) -> Rule {
        let entries = |entries: [i32; 4]| entries.map(|entry| self.entry(entry));
        Rule { head: self.entry(rule.head), needed: entries(rule.needed), barred: entries(rule.barred) }
    }
}

/// The pair that has the members of both.
fn joined(one: &Pair, other: &Pair) -> Pair {
    Pair { taken: one.taken | other.taken, held: one.held | other.held, denied: one.denied | other.denied }
}

/// A small book of any kind without Q lines.
fn any_small(random: &mut Random) -> Book {
    let kind = random.below(KINDS.len() as u64) as usize;
    small_book(random, kind)
}

/// A small book of any kind, three times of four with Q lines.
fn any_conditional(random: &mut Random) -> Book {
    if random.one_in(4) {
        return any_small(random);
    }
    let kind = random.below(conditions::KINDS.len() as u64) as usize;
    conditional_book(random, kind)
}

/// A small book of any kind, most often with O lines.
fn any_alternative(random: &mut Random) -> Book {
    if random.one_in(5) {
        return any_conditional(random);
    }
    let kind = random.below(alternatives::KINDS.len() as u64) as usize;
    alternative_book(random, kind)
}

/// Small books whose sizes together stay within the limits.
fn draw_parts(random: &mut Random, draw: fn(&mut Random) -> Book) -> Vec<Book> {
    let mut parts: Vec<Book> = Vec::new();
    let (mut statements, mut counts, mut product) = (0, [0; 5], 1);
    for _ in 0..2 + random.below(14) {
        let book = draw(random);
        if book.statements > 5 || book.exceptions.len() > 5 {
            continue;
        }
        let count = Meaning::of(&book).resolutions().len();
        let keep_none = count > 0 || random.one_in(30);
        let together: [usize; 5] = std::array::from_fn(|kind| counts[kind] + book.counts()[kind]);
        let limits = [PLAIN, EXCEPTIONS, PREFERENCES, CONDITIONALS, ALTERNATIVES];
        let fits = statements + book.statements <= STATEMENTS
            && (0..5).all(|kind| together[kind] <= limits[kind])
            && product * count <= MOST;
        if fits && keep_none {
            statements += book.statements;
            counts = together;
            product *= count;
            parts.push(book);
        }
    }
    parts
}

impl Blocks {
    /// A random book of parts without Q lines.
    pub fn draw(random: &mut Random) -> Blocks {
        Blocks::draw_of(random, any_small)
    }

    /// A random book of parts, most of them with Q lines.
    pub fn draw_conditional(random: &mut Random) -> Blocks {
        let mut blocks = Blocks::draw_of(random, any_conditional);
        add_idle(random, &mut blocks.book);
        blocks
    }

    /// A random book of parts, most of them with O lines.
    pub fn draw_alternative(random: &mut Random) -> Blocks {
        let mut blocks = Blocks::draw_of(random, any_alternative);
        add_idle(random, &mut blocks.book);
        add_given(random, &mut blocks.book);
        blocks
    }

    /// A random book of parts, with the numbers of the parts mixed or in a row.
    fn draw_of(random: &mut Random, draw: fn(&mut Random) -> Book) -> Blocks {
        let parts = draw_parts(random, draw);
        let used: i32 = parts.iter().map(|part| part.statements).sum();
        let total = random.between(used.max(1), STATEMENTS) as usize;
        let count: usize = parts.iter().map(|part| part.exceptions.len()).sum();
        let (mut statements, mut exceptions): (Vec<usize>, Vec<usize>) = ((0..total).collect(), (0..count).collect());
        if !random.one_in(3) {
            random.shuffle(&mut statements);
            random.shuffle(&mut exceptions);
        }
        Blocks::join(random, parts, statements, exceptions, total as i32)
    }

    /// Puts the parts together, their numbers taken from the front of the given ones.
    fn join(
        random: &mut Random,
        books: Vec<Book>,
        statements: Vec<usize>,
        exceptions: Vec<usize>,
        total: i32,
    ) -> Blocks {
        let mut whole = Book::empty(total);
        whole.exceptions = vec![Rule { head: 1, needed: [0; 4], barred: [0; 4] }; exceptions.len()];
        let (mut statements, mut exceptions) = (statements.into_iter(), exceptions.into_iter());
        let mut parts = Vec::new();
        for book in &books {
            let part = Part {
                meaning: Meaning::of(book),
                statements: statements.by_ref().take(book.statements as usize).collect(),
                exceptions: exceptions.by_ref().take(book.exceptions.len()).collect(),
            };
            put_part(&mut whole, book, &part);
            parts.push(part);
        }
        fill_up(random, &mut whole, statements.next());
        add_implied(random, &mut whole);
        random.shuffle(&mut whole.plain);
        let resolutions = product(&parts);
        Blocks { book: whole, parts, resolutions }
    }

    /// A view of the whole, if there is one: a random view of each part.
    pub fn some_view(&self, random: &mut Random) -> Option<Pair> {
        let mut view = Pair { taken: 0, held: 0, denied: 0 };
        for part in &self.parts {
            if part.meaning.views.is_empty() {
                return None;
            }
            view = joined(&view, &part.outward(&random.pick(&part.meaning.views)));
        }
        Some(view)
    }
}

/// Adds a part's lines to the whole book.
fn put_part(whole: &mut Book, book: &Book, part: &Part) {
    whole.plain.extend(book.plain.iter().map(|rule| part.rule(rule)));
    for line in &book.alternatives {
        let [needed, barred] = [line.needed, line.barred].map(|entries| entries.map(|entry| part.entry(entry)));
        let heads = line.heads.map(|head| part.entry(head));
        whole.alternatives.push(Alternatives { heads, needed, barred });
    }
    for (own, rule) in book.exceptions.iter().enumerate() {
        whole.exceptions[part.exceptions[own]] = part.rule(rule);
    }
    let order = |order: [i32; 2]| order.map(|number| part.exceptions[number as usize - 1] as i32 + 1);
    whole.preferences.extend(book.preferences.iter().map(|own| order(*own)));
    for line in &book.conditionals {
        let [needed, barred] = [line.needed, line.barred].map(|entries| entries.map(|entry| part.entry(entry)));
        whole.conditionals.push(Conditional { order: order(line.order), needed, barred });
    }
}

/// Sometimes fills the book up to the limit with rules that change nothing in the meaning: rules that need a
/// statement which nothing concludes, or repeats.
fn fill_up(random: &mut Random, book: &mut Book, idle: Option<usize>) {
    let count = book.plain.len();
    if count == 0 || random.one_in(2) {
        return;
    }
    while book.plain.len() < PLAIN {
        let mut rule = book.plain[random.below(count as u64) as usize];
        if let Some(statement) = idle {
            rule.needed[random.below(4) as usize] = statement as i32 + 1;
        }
        book.plain.push(rule);
    }
}

/// Sometimes fills the preferences up to the limit with some that follow from those there are: in any order, or with
/// copies of the first before all others.
fn add_implied(random: &mut Random, book: &mut Book) {
    if book.preferences.is_empty() || random.one_in(3) {
        return;
    }
    if random.one_in(2) {
        let copies = vec![book.preferences[0]; PREFERENCES - book.preferences.len()];
        book.preferences.splice(0..0, copies);
        return;
    }
    let outranks = outranking(&plain_steps(book));
    while book.preferences.len() < PREFERENCES {
        let (a, b) = (random.below(EXCEPTIONS as u64) as usize, random.below(EXCEPTIONS as u64) as usize);
        if outranks[a] >> b & 1 == 1 {
            book.preferences.push([a as i32 + 1, b as i32 + 1]);
        }
    }
    random.shuffle(&mut book.preferences);
}

/// Sometimes fills the Q lines up to the limit with some that change nothing: repeats, lines of a step that a P line
/// gives, and lines that need a statement held and denied. Then puts them into a random order.
fn add_idle(random: &mut Random, book: &mut Book) {
    let count = book.conditionals.len();
    while count > 0 && book.conditionals.len() < CONDITIONALS && !random.one_in(20) {
        let mut line = book.conditionals[random.below(count as u64) as usize];
        match random.below(3) {
            0 if !book.preferences.is_empty() => line.order = random.pick(&book.preferences),
            1 => {
                let statement = random.between(1, book.statements);
                line.needed[..2].copy_from_slice(&[statement, -statement]);
                line.order = [0, 1].map(|_| random.between(1, book.exceptions.len() as i32));
            }
            _ => {}
        }
        book.conditionals.push(line);
    }
    random.shuffle(&mut book.conditionals);
}

/// Sometimes fills the O lines up to the limit with some that change nothing: repeats, and lines that need one of their
/// heads. Then puts them into a random order.
fn add_given(random: &mut Random, book: &mut Book) {
    let count = book.alternatives.len();
    while count > 0 && book.alternatives.len() < ALTERNATIVES && !random.one_in(20) {
        let mut line = book.alternatives[random.below(count as u64) as usize];
        if random.one_in(2) {
            let own = line.heads.into_iter().find(|head| *head != 0).unwrap_or(0);
            line.needed[random.below(4) as usize] = own;
        }
        book.alternatives.push(line);
    }
    random.shuffle(&mut book.alternatives);
}

/// All combinations of the parts' resolutions, in the order of pairs.
fn product(parts: &[Part]) -> Vec<Pair> {
    let mut list = vec![Pair { taken: 0, held: 0, denied: 0 }];
    for part in parts {
        let own: Vec<Pair> = part.meaning.resolutions().iter().map(|pair| part.outward(pair)).collect();
        list = list.iter().flat_map(|one| own.iter().map(|other| joined(one, other))).collect();
    }
    list.sort_by(compare_pairs);
    list
}

impl Oracle for Blocks {
    fn resolutions(&self) -> &[Pair] {
        &self.resolutions
    }

    /// The first verdict that applies is the smallest of the parts' verdicts other than 0.
    /// A statement that no part has must be absent.
    fn verdict(&self, pair: &Pair) -> u32 {
        let owned: u64 = self.parts.iter().map(|part| spread(!0, &part.statements)).sum();
        if (pair.held | pair.denied) & !owned != 0 {
            return 1;
        }
        let verdicts = self.parts.iter().map(|part| part.meaning.verdict(&part.inward(pair)));
        verdicts.filter(|verdict| *verdict != 0).min().unwrap_or(0)
    }
}
