//! Puts random books together, line by line.

use crate::book::*;
use crate::random::Random;

/// A book in the making. Lines over a limit are left out.
pub struct Maker<'a> {
    pub random: &'a mut Random,
    pub book: Book,
    /// The most exceptions that the book may get.
    pub room: usize,
}

impl<'a> Maker<'a> {
    /// Begins a book of so many statements and at most so many exceptions.
    pub fn new(random: &'a mut Random, statements: i32, room: usize) -> Maker<'a> {
        Maker { random, book: Book::empty(statements), room }
    }

    /// The number of statements.
    pub fn n(&self) -> i32 {
        self.book.statements
    }

    /// A random statement.
    pub fn statement(&mut self) -> i32 {
        self.random.between(1, self.book.statements)
    }

    /// A random conclusion.
    pub fn conclusion(&mut self) -> i32 {
        let statement = self.statement();
        if self.random.one_in(2) {
            statement
        } else {
            -statement
        }
    }

    /// Up to `most` random conclusions.
    pub fn conclusions(&mut self, most: u64) -> Vec<i32> {
        (0..self.random.below(most + 1)).map(|_| self.conclusion()).collect()
    }

    /// Puts at most four entries into four columns: in random places, with gaps, sometimes repeated.
    fn columns(&mut self, entries: &[i32]) -> [i32; 4] {
        let mut columns = [0; 4];
        columns[..entries.len()].copy_from_slice(entries);
        if self.random.one_in(3) {
            if !entries.is_empty() && entries.len() < 4 && self.random.one_in(3) {
                columns[entries.len()] = self.random.pick(entries);
            }
            self.random.shuffle(&mut columns);
        }
        columns
    }

    /// The rule of a head and its entries.
    fn rule(&mut self, head: i32, needed: &[i32], barred: &[i32]) -> Rule {
        Rule { head, needed: self.columns(needed), barred: self.columns(barred) }
    }

    /// Adds a plain rule.
    pub fn plain(&mut self, head: i32, needed: &[i32], barred: &[i32]) {
        let rule = self.rule(head, needed, barred);
        if self.book.plain.len() < PLAIN {
            self.book.plain.push(rule);
        }
    }

    /// Adds a constraint.
    pub fn constraint(&mut self, needed: &[i32], barred: &[i32]) {
        self.plain(0, needed, barred);
    }

    /// Puts at most three heads into three columns: in random places, with gaps, sometimes repeated.
    fn head_columns(&mut self, heads: &[i32]) -> [i32; 3] {
        let mut columns = [0; 3];
        columns[..heads.len()].copy_from_slice(heads);
        if self.random.one_in(3) {
            if heads.len() < 3 && self.random.one_in(3) {
                columns[2] = self.random.pick(heads);
            }
            self.random.shuffle(&mut columns);
        }
        columns
    }

    /// Adds a rule with alternatives, of two or three heads.
    pub fn either(&mut self, heads: &[i32], needed: &[i32], barred: &[i32]) {
        let heads = self.head_columns(heads);
        let line = Alternatives { heads, needed: self.columns(needed), barred: self.columns(barred) };
        if self.book.alternatives.len() < ALTERNATIVES {
            self.book.alternatives.push(line);
        }
    }

    /// Adds a random rule with alternatives with at most so many needed and barred entries.
    pub fn random_either(&mut self, needed: u64, barred: u64) {
        let heads: Vec<i32> = (0..self.random.between(2, 3)).map(|_| self.conclusion()).collect();
        let (needed, barred) = (self.conclusions(needed), self.conclusions(barred));
        self.either(&heads, &needed, &barred);
    }

    /// Adds an exception.
    pub fn exception(&mut self, head: i32, needed: &[i32], barred: &[i32]) {
        let rule = self.rule(head, needed, barred);
        if self.book.exceptions.len() < self.room {
            self.book.exceptions.push(rule);
        }
    }

    /// Adds a preference, if both exceptions are there. Call it after the exceptions.
    pub fn prefer(&mut self, a: i32, b: i32) {
        let count = self.book.exceptions.len() as i32;
        if a.max(b) <= count && self.book.preferences.len() < PREFERENCES {
            self.book.preferences.push([a, b]);
        }
    }

    /// Adds a preference under a condition, if both exceptions are there. Call it after the exceptions.
    pub fn prefer_if(&mut self, [a, b]: [i32; 2], needed: &[i32], barred: &[i32]) {
        let line = Conditional { order: [a, b], needed: self.columns(needed), barred: self.columns(barred) };
        let count = self.book.exceptions.len() as i32;
        if a.max(b) <= count && self.book.conditionals.len() < CONDITIONALS {
            self.book.conditionals.push(line);
        }
    }

    /// Two exceptions, which may be the same one. There is at least one.
    pub fn any_two(&mut self) -> [i32; 2] {
        let count = self.book.exceptions.len() as i32;
        [self.random.between(1, count), self.random.between(1, count)]
    }

    /// Adds a preference between any two exceptions, which may be the same one. There is at least one.
    pub fn prefer_any(&mut self) {
        let [a, b] = self.any_two();
        self.prefer(a, b);
    }

    /// Adds up to `most` random preferences, more often without circles than with them.
    pub fn random_preferences(&mut self, most: u64) {
        let count = self.book.exceptions.len() as i32;
        if count == 0 {
            return;
        }
        let circles = self.random.one_in(3);
        for _ in 0..self.random.below(most + 1) {
            let (a, b) = (self.random.between(1, count), self.random.between(1, count));
            if a < b || (circles && (a != b || self.random.one_in(8))) {
                self.prefer(a, b);
            }
        }
    }

    /// Adds a random plain rule with at most so many needed and barred entries.
    pub fn random_plain(&mut self, needed: u64, barred: u64) {
        let head = if self.random.one_in(6) { 0 } else { self.conclusion() };
        let (needed, barred) = (self.conclusions(needed), self.conclusions(barred));
        self.plain(head, &needed, &barred);
    }

    /// Adds a random exception with at most so many needed and barred entries.
    pub fn random_exception(&mut self, needed: u64, barred: u64) {
        let head = self.conclusion();
        let (needed, barred) = (self.conclusions(needed), self.conclusions(barred));
        self.exception(head, &needed, &barred);
    }

    /// Adds two rules that leave the statement free to be held or denied.
    pub fn free(&mut self, statement: i32) {
        self.plain(statement, &[], &[-statement]);
        self.plain(-statement, &[], &[statement]);
    }

    /// Adds constraints by which no two of the statements are both held.
    pub fn one_of(&mut self, statements: &[i32]) {
        for (place, one) in statements.iter().enumerate() {
            statements[place + 1..].iter().for_each(|other| self.constraint(&[*one, *other], &[]));
        }
    }

    /// Puts the lines of each kind into a random order; preferences, under a condition or not, follow their exceptions.
    pub fn shuffled(mut self) -> Book {
        self.random.shuffle(&mut self.book.plain);
        self.random.shuffle(&mut self.book.alternatives);
        let mut places: Vec<usize> = (0..self.book.exceptions.len()).collect();
        self.random.shuffle(&mut places);
        let old = self.book.exceptions.clone();
        for (number, place) in places.iter().enumerate() {
            self.book.exceptions[*place] = old[number];
        }
        let conditional = self.book.conditionals.iter_mut().map(|line| &mut line.order);
        for order in self.book.preferences.iter_mut().chain(conditional) {
            *order = order.map(|number| places[number as usize - 1] as i32 + 1);
        }
        self.random.shuffle(&mut self.book.preferences);
        self.random.shuffle(&mut self.book.conditionals);
        self.book
    }
}
