//! The views and the resolutions of a book by clingo. tests/ENCODING.md explains how.

use crate::book::*;
use crate::meaning::{compare_pairs, members, Aspect, Steps, Viewed};
use crate::process::run;
use std::fmt::Write;

/// The encodings, which stand beside ENCODING.md.
const VIEWS: &str = include_str!("../views.lp");
const LISTING: &str = include_str!("../listing.lp");

/// What is shown of a model: the whole pair, or the exceptions taken and the steps that rank.
const SHOW_PAIR: &str = "#show taken/1. #show held/1. #show -held/1.\n";
const SHOW_ASPECT: &str = "#show taken/1. #show step/2.\n";

/// What is shown of models is listed once each.
const PROJECT: &str = "--project=show";

/// By this clingo leaves the rules as they are. Without it, clingo 5.4.1 now and then answers a set that is not founded in
/// programs with disjunctions; with it, it may answer a set twice. ENCODING.md shows how.
const UNCHANGED: [&str; 2] = ["--eq=0", PROJECT];

/// The exit status of clingo: as many models as wanted, all models, or none. Any other means that it did not finish.
const FOUND: i32 = 10;
const FOUND_ALL: i32 = 30;
const NONE: i32 = 20;

/// A part of the order of pairs that ends at a pair, or begins after it.
pub enum Bound<'a> {
    None,
    UpTo(&'a Pair),
    Beyond(&'a Pair),
}

/// clingo, by the path of its program.
pub struct Clingo {
    pub path: String,
}

/// A signed statement as two arguments.
fn signed(conclusion: i32) -> String {
    format!("{}, {}", if conclusion > 0 { "plus" } else { "minus" }, conclusion.abs())
}

/// The facts of one rule.
fn rule_facts(facts: &mut String, name: &str, rule: &Rule) {
    let _ = write!(facts, "rule({name}).");
    if rule.head == 0 {
        let _ = write!(facts, " constraint({name}).");
    } else {
        let _ = write!(facts, " head({name}, {}).", signed(rule.head));
    }
    body_facts(facts, name, &rule.needed, &rule.barred);
}

/// The facts of a body, which end the line.
fn body_facts(facts: &mut String, name: &str, needed: &[i32; 4], barred: &[i32; 4]) {
    for (kind, entries) in [("needed", needed), ("barred", barred)] {
        for entry in entries.iter().filter(|entry| **entry != 0) {
            let _ = write!(facts, " {kind}({name}, {}).", signed(*entry));
        }
    }
    facts.push('\n');
}

/// The facts of a book.
pub fn facts_of(book: &Book) -> String {
    let mut facts = String::new();
    for (place, rule) in book.plain.iter().enumerate() {
        rule_facts(&mut facts, &format!("r({})", place + 1), rule);
    }
    for (place, line) in book.alternatives.iter().enumerate() {
        let name = format!("o({})", place + 1);
        let _ = write!(facts, "rule({name}).");
        for head in line.heads.iter().filter(|head| **head != 0) {
            let _ = write!(facts, " head({name}, {}).", signed(*head));
        }
        body_facts(&mut facts, &name, &line.needed, &line.barred);
    }
    for (place, rule) in book.exceptions.iter().enumerate() {
        rule_facts(&mut facts, &format!("x({})", place + 1), rule);
        let _ = writeln!(facts, "exception({}).", place + 1);
    }
    for order in &book.preferences {
        let _ = writeln!(facts, "before({}, {}).", order[0], order[1]);
    }
    for (place, line) in book.conditionals.iter().enumerate() {
        let name = format!("q({})", place + 1);
        let _ = write!(facts, "rule({name}). before({name}, {}, {}).", line.order[0], line.order[1]);
        body_facts(&mut facts, &name, &line.needed, &line.barred);
    }
    facts
}

/// What stands in the brackets of an atom that begins so.
fn in_brackets<'a>(atom: &'a str, begins: &str) -> Option<&'a str> {
    atom.strip_prefix(begins)?.strip_suffix(')')
}

/// The bit of the number in brackets, for an atom that begins so.
fn bit_of(atom: &str, begins: &str) -> Option<u64> {
    let number: u32 = in_brackets(atom, begins)?.parse().ok()?;
    Some(1 << (number - 1))
}

/// The pair that a model's atoms show.
fn pair_of(model: &str) -> Result<Pair, String> {
    let mut pair = Pair { taken: 0, held: 0, denied: 0 };
    for atom in model.split_whitespace() {
        let sides = [("taken(", &mut pair.taken), ("held(", &mut pair.held), ("-held(", &mut pair.denied)];
        let side = sides.into_iter().find_map(|(begins, side)| bit_of(atom, begins).map(|bit| (side, bit)));
        let (side, bit) = side.ok_or(format!("clingo shows {atom}"))?;
        *side |= bit;
    }
    Ok(pair)
}

/// The two numbers of an atom for a step.
fn step_of(atom: &str) -> Option<[usize; 2]> {
    let (a, b) = in_brackets(atom, "step(")?.split_once(',')?;
    Some([a.parse().ok()?, b.parse().ok()?])
}

/// The aspect that a model's atoms show.
fn aspect_of(model: &str) -> Result<Aspect, String> {
    let mut aspect = Aspect { taken: 0, steps: Steps::default() };
    for atom in model.split_whitespace() {
        match (bit_of(atom, "taken("), step_of(atom)) {
            (Some(bit), _) => aspect.taken |= bit,
            (None, Some([a, b])) => aspect.steps[a - 1] |= 1 << (b - 1),
            (None, None) => return Err(format!("clingo shows {atom}")),
        }
    }
    Ok(aspect)
}

/// What clingo is told besides, for a book.
fn options_for(book: &Book) -> &'static [&'static str] {
    if book.alternatives.is_empty() {
        &[]
    } else {
        &UNCHANGED
    }
}

impl Clingo {
    /// All models, or as many as are wanted (0: all), of a program, read from what is shown of them.
    fn models<T>(
        &self,
        program: &str,
        wanted: usize,
        more: &[&str],
        read: fn(&str) -> Result<T, String>,
    ) -> Result<Vec<T>, String> {
        let count = wanted.to_string();
        let arguments = [&["-V0", "-n", &count, "--time-limit=100"], more].concat();
        let (output, status) = run(&self.path, &arguments, program.as_bytes())?;
        let output = String::from_utf8(output).map_err(|_| "clingo prints no text".to_string())?;
        let mut lines: Vec<&str> = output.lines().collect();
        match (lines.pop(), status) {
            (Some("SATISFIABLE"), FOUND | FOUND_ALL) => lines.into_iter().map(read).collect(),
            (Some("UNSATISFIABLE"), NONE) if lines.is_empty() => Ok(Vec::new()),
            (last, status) => Err(format!("clingo ends with {last:?} and status {status}")),
        }
    }

    /// All models, or as many as are wanted (0: all), of a program about a book that shows pairs.
    fn pairs(&self, book: &Book, program: &str, wanted: usize) -> Result<Vec<Pair>, String> {
        self.models(program, wanted, options_for(book), pair_of)
    }

    /// All views, in the order of pairs.
    pub fn views(&self, book: &Book) -> Result<Vec<Pair>, String> {
        let mut views = self.pairs(book, &[VIEWS, SHOW_PAIR, &facts_of(book)].concat(), 0)?;
        views.sort_by(compare_pairs);
        Ok(views)
    }

    /// The aspects of all views, each once.
    pub fn viewed(&self, book: &Book) -> Result<Vec<Aspect>, String> {
        let more = if book.alternatives.is_empty() { &[PROJECT] } else { options_for(book) };
        self.models(&[VIEWS, SHOW_ASPECT, &facts_of(book)].concat(), 0, more, aspect_of)
    }

    /// Views with one of the aspects, which stand by the order of their sets, within a bound, in the order of pairs; no
    /// more than are wanted (0: all).
    pub fn listing(&self, book: &Book, best: &[Aspect], bound: Bound, wanted: usize) -> Result<Vec<Pair>, String> {
        if best.is_empty() {
            return Ok(Vec::new());
        }
        let mut sets: Vec<u64> = best.iter().map(|aspect| aspect.taken).collect();
        sets.dedup();
        let given = [facts_of(book), facts_of_aspects(best, &sets), facts_of_bound(book, &sets, bound)].concat();
        let mut list = self.pairs(book, &[VIEWS, LISTING, SHOW_PAIR, &given].concat(), wanted)?;
        list.sort_by(compare_pairs);
        Ok(list)
    }

    /// A few views, whichever clingo comes to first.
    pub fn some_views(&self, book: &Book, wanted: usize) -> Result<Vec<Pair>, String> {
        self.pairs(book, &[VIEWS, SHOW_PAIR, &facts_of(book)].concat(), wanted)
    }

    /// All resolutions, in the order of pairs.
    pub fn resolutions(&self, book: &Book) -> Result<Vec<Pair>, String> {
        let viewed = Viewed::of(book.exceptions.len(), self.viewed(book)?);
        self.listing(book, &viewed.best(), Bound::None, 0)
    }
}

/// The facts of the allowed aspects, each with the place of its set among the sets.
fn facts_of_aspects(best: &[Aspect], sets: &[u64]) -> String {
    let mut facts = String::new();
    let mut place = 0;
    for (number, aspect) in best.iter().enumerate() {
        let name = number + 1;
        place += usize::from(place == 0 || sets[place - 1] != aspect.taken);
        let _ = write!(facts, "allowed({name}). place({name}, {place}).");
        for own in members(aspect.taken) {
            let _ = write!(facts, " member({name}, {}).", own + 1);
        }
        for (a, to) in aspect.steps.iter().enumerate() {
            for b in members(*to) {
                let _ = write!(facts, " ranked({name}, {}, {}).", a + 1, b + 1);
            }
        }
        facts.push('\n');
    }
    facts
}

/// The facts of a bound, whose own set is one of the sets.
fn facts_of_bound(book: &Book, sets: &[u64], bound: Bound) -> String {
    let (pair, side) = match bound {
        Bound::None => return String::new(),
        Bound::UpTo(pair) => (pair, "upto"),
        Bound::Beyond(pair) => (pair, "beyond"),
    };
    let place = sets.iter().position(|taken| *taken == pair.taken).map_or(0, |place| place + 1);
    let mut facts = format!("{side}. last({place}).\n");
    for statement in 1..=book.statements {
        let value = match (pair.held >> (statement - 1) & 1, pair.denied >> (statement - 1) & 1) {
            (1, _) => "plus",
            (_, 1) => "minus",
            _ => "absent",
        };
        let _ = writeln!(facts, "value({statement}, {value}).");
    }
    facts
}
