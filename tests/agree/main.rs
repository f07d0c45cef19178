//! agree: compares the engine with document 01, by trying every set and by clingo.
//!
//!     agree gate library         the gate's fixed seed and counts: the library against brute force, and damage
//!     agree gate solver          the gate's fixed seed and counts: larger books against clingo, and `ways`
//!     agree long SEED COUNT      everything: as many random small books, and a hundredth as many larger ones by clingo
//!     agree library SEED COUNT   the same without `ways` and without clingo
//!     agree clingo SEED COUNT    so many small and as many larger books against clingo
//!     agree ways SEED COUNT      `ways`, on so many small and as many larger books
//!     agree points SEED COUNT    named stopping points alone: so many lists of calls
//!     agree conditions SEED COUNT   books with Q lines alone, without `ways`
//!     agree alternatives SEED COUNT   books with O lines alone, without `ways`
//!     agree encoding SEED COUNT   so many small books with O lines by brute force and by clingo, without the library
//!
//! Options: --ways PATH (needed by gate solver, long and ways), --clingo PATH, --save FOLDER.
//! At the first difference it saves the book or the store, says what differs, and ends with status 1.

mod alternative_sections;
mod alternatives;
mod blocks;
mod book;
mod clingo;
mod compare;
mod conditional_sections;
mod conditions;
mod damage;
mod damaged_alternatives;
mod damaged_conditions;
mod damaged_stores;
mod engine;
mod going_on;
mod heads;
mod kinds;
mod known;
mod large;
mod large_alternatives;
mod large_conditions;
mod library;
mod listing;
mod loops;
mod maker;
mod meaning;
mod names;
mod own;
mod pairs;
mod plain;
mod points;
mod process;
mod random;
mod readings;
mod report;
mod sections;
mod small_books;
mod smaller;
mod solved;
mod store;
mod store_examples;
mod text;
mod tiny;
mod ways;
mod wide;

use sections::{Counts, Failure, Run};
use std::fs::File;
use std::path::{Path, PathBuf};
use std::process::{exit, Command};

/// The stack that the engine and this program get: 1 MB for the engine and as much as this program needs.
const STACK: usize = (1 << 20) + (1 << 18);

/// The argument that tells the inner process from the outer one.
const INSIDE: &str = "--inside";

fn main() {
    let arguments: Vec<String> = std::env::args().skip(1).collect();
    match arguments.split_last() {
        Some((last, rest)) if last == INSIDE => inside(rest.to_vec()),
        _ => outside(&arguments),
    }
}

/// Runs the comparisons in a process of their own, so that a stop of the engine is seen and its text kept.
fn outside(arguments: &[String]) {
    let asked = Asked::of(arguments).unwrap_or_else(|what| {
        eprintln!("agree: {what}");
        exit(2)
    });
    let own = std::env::current_exe().expect("this program has a path");
    let status = Command::new(own).args(arguments).arg(INSIDE).status().expect("this program can be started again");
    let (running, failed) = (asked.running(), asked.failed());
    if !matches!(status.code(), Some(0 | 1)) && std::fs::rename(&running, &failed).is_ok() {
        println!("FAILED: the program was stopped ({status}); the text at hand is in {}", failed.display());
    }
    let _ = std::fs::remove_file(running);
    exit(if status.success() { 0 } else { 1 });
}

/// Does the comparisons on a stack of known size.
fn inside(arguments: Vec<String>) {
    let worker = std::thread::Builder::new().stack_size(STACK).spawn(move || {
        let asked = Asked::of(&arguments).expect("the outer process has read the arguments");
        let running = File::create(asked.running()).expect("the folder for failed books can be written");
        let mut run = Run::new(asked.seed, running, asked.ways.clone(), asked.clingo.clone());
        match run.all(&asked.counts) {
            Ok(()) => 0,
            Err(failure) => save(&asked.failed(), &failure),
        }
    });
    exit(worker.expect("a thread can be started").join().unwrap_or(3));
}

/// Saves the book or the store of a failure and says what differs.
fn save(path: &Path, failure: &Failure) -> i32 {
    let saved = std::fs::write(path, &failure.text);
    println!("FAILED in {}: {}", failure.section, failure.what);
    match saved {
        Ok(()) => println!("the book or the store is in {}", path.display()),
        Err(error) => println!("it could not be saved: {error}"),
    }
    1
}

/// What the command line asks for.
struct Asked {
    seed: u64,
    counts: Counts,
    ways: Option<String>,
    clingo: String,
    save: PathBuf,
}

impl Asked {
    /// Reads the command line.
    fn of(arguments: &[String]) -> Result<Asked, String> {
        let mut options = [("--ways", None), ("--clingo", None), ("--save", None)];
        let mut plain: Vec<&str> = Vec::new();
        let mut rest = arguments.iter();
        while let Some(argument) = rest.next() {
            match options.iter_mut().find(|(name, _)| name == argument) {
                Some((name, value)) => *value = Some(rest.next().ok_or(format!("{name} needs a value"))?.clone()),
                None => plain.push(argument),
            }
        }
        let [ways, clingo, save] = options.map(|(_, value)| value);
        let (seed, counts) = plan(&plain)?;
        if counts.ways > 0 && ways.is_none() {
            return Err("this needs --ways and the path of the program".to_string());
        }
        let (clingo, save) = (clingo.unwrap_or("clingo".to_string()), save.unwrap_or(".".to_string()));
        Ok(Asked { seed, counts, ways, clingo, save: PathBuf::from(save) })
    }

    /// The file that holds the text at hand.
    fn running(&self) -> PathBuf {
        self.save.join("agree-running.book")
    }

    /// The file that gets the book of a difference.
    fn failed(&self) -> PathBuf {
        self.save.join("agree-failed.book")
    }
}

/// How this program is used.
const USE: &str = "use: agree gate library|solver, or \
    agree long|library|clingo|ways|points|conditions|alternatives|encoding SEED COUNT";

/// The seed of the gate.
const GATE_SEED: u64 = 1;

/// The seed and the counts of a plan by name.
fn plan(plain: &[&str]) -> Result<(u64, Counts), String> {
    let number = |text: &str| text.parse::<u64>().map_err(|_| format!("{text} is no number"));
    match plain {
        ["gate", "library"] => Ok((GATE_SEED, Counts::gate_library())),
        ["gate", "solver"] => Ok((GATE_SEED, Counts::gate_solver())),
        ["long", seed, count] => Ok((number(seed)?, Counts::long(number(count)?))),
        ["library", seed, count] => Ok((number(seed)?, Counts::library(number(count)?))),
        ["clingo", seed, count] => Ok((number(seed)?, Counts::clingo(number(count)?))),
        ["ways", seed, count] => Ok((number(seed)?, Counts::only_ways(number(count)?))),
        ["points", seed, count] => Ok((number(seed)?, Counts::points(number(count)?))),
        ["conditions", seed, count] => Ok((number(seed)?, Counts::conditions(number(count)?))),
        ["alternatives", seed, count] => Ok((number(seed)?, Counts::alternatives(number(count)?))),
        ["encoding", seed, count] => Ok((number(seed)?, Counts::encoding(number(count)?))),
        _ => Err(USE.to_string()),
    }
}
