//! What a run prints at its end, and what it must have met.

use crate::alternative_sections as alternative;
use crate::alternatives;
use crate::book::{OF_ALTERNATIVES, OF_BOOKS, OF_STORES};
use crate::compare::OPERATIONS;
use crate::conditional_sections::Met;
use crate::conditions;
use crate::heads;
use crate::kinds::KINDS;
use crate::large;
use crate::large_alternatives;
use crate::large_conditions;
use crate::library::Outcomes;
use crate::points::Stored;
use crate::readings;
use crate::sections::{Counts, Failure, Run};
use crate::wide;

/// Prints how often each operation, answer and kind of book was compared.
pub fn print(run: &Run) {
    let tally = &run.checker.tally;
    let calls: Vec<String> =
        OPERATIONS.iter().zip(tally.calls).map(|(name, count)| format!("{name} {count}")).collect();
    println!("compared: {}", calls.join(", "));
    let [of_books, of_alternatives, of_stores] =
        [OF_BOOKS, OF_ALTERNATIVES, OF_STORES].map(|numbers| &tally.refusals[numbers]);
    println!("refusals 1 to 19: {of_books:?}; 22 and 23: {of_alternatives:?}; 24 to 26: {of_stores:?}");
    println!("verdicts 0 to 5: {:?}", tally.verdicts);
    println!("First and After: {} pairs, {} Ends", tally.pairs, tally.ends);
    println!("Line: {} with 12 fields, {} with 16", tally.lines[0], tally.lines[1]);
    let walked = &run.walked;
    println!("listings: {}, with {} calls going on and {} refused", walked.listings, walked.going_on, walked.refused);
    let closed = &run.closed;
    println!(
        "ways: {} with E and no line, {} with E and lines, {} with M, {} with F; {} A lines",
        closed.end_with_none, closed.end_with_some, closed.more, closed.refused, closed.lines
    );
    if run.ways_skipped > 0 {
        println!("SKIPPED: {} runs of ways (none was given)", run.ways_skipped);
    }
    print_stored(&run.stored);
    print_told_apart(&run.conditional);
    print_judged_apart(&run.alternative);
    print_outcomes(run);
}

/// Prints how many books would be listed otherwise by each of the other readings of request (e).
fn print_told_apart(met: &Met) {
    if met.read_otherwise > 0 {
        let told: Vec<String> =
            readings::names().iter().zip(met.told_apart).map(|(name, count)| format!("{name} {count}")).collect();
        println!(
            "books with Q lines read in other ways: {}, listed otherwise by {}",
            met.read_otherwise,
            told.join(", ")
        );
    }
}

/// Prints in how many books a pair would be judged otherwise by each of the other readings of request (g).
fn print_judged_apart(met: &alternative::Met) {
    if met.read_otherwise > 0 {
        let told: Vec<String> =
            heads::names().iter().zip(met.told_apart).map(|(name, count)| format!("{name} {count}")).collect();
        println!(
            "books with O lines read in other ways: {}, judged otherwise by {}; {} with two heads of a line",
            met.read_otherwise,
            told.join(", "),
            met.two_heads
        );
    }
}

/// Prints what was done with stores, if anything was.
fn print_stored(stored: &Stored) {
    let Stored { lists, calls: [sets, goes, drops], refused: [by_25, by_26], full, .. } = stored;
    if *lists == 0 {
        return;
    }
    println!(
        "stores: {lists} lists of calls, with Set {sets}, Go {goes}, Drop {drops}; refused by 25 {by_25}, by 26 {by_26}; \
         {full} lists with a full store"
    );
    let Stored { damaged, still_stores, other_lengths, gone_on, resolutions, ends, unlawful, .. } = stored;
    println!("stores damaged: {damaged}, of which {still_stores} are stores; {other_lengths} slices of other lengths");
    println!(
        "going on from names: {gone_on} points, with {resolutions} resolutions and {ends} Ends; \
         refused by 12 to 14 {unlawful:?}"
    );
}

/// Prints what the books were like, kind by kind.
fn print_outcomes(run: &Run) {
    println!("books by kind: all, without a resolution, with one, with several (at most), in need of exceptions,");
    println!(
        "  with exceptions and no need, of 13 to 16 exceptions (taking one past the twelfth), [most n, R, X, P, Q, O],"
    );
    println!("  and for books with Q or O lines the answers compared");
    let small = KINDS.iter().map(|(name, _)| *name).chain(["many parts", "one statement"]).zip(&run.outcomes);
    let large = large::KINDS.iter().map(|(name, _)| *name).chain(["known views"]).zip(&run.large);
    for (name, seen) in small {
        print_kind("small", name, seen);
    }
    for ((name, _), seen) in wide::KINDS.iter().zip(&run.wide) {
        print_kind("wide", name, seen);
    }
    for (name, seen) in large {
        print_kind("large", name, seen);
    }
    print_conditional(&run.conditional);
    print_alternative(&run.alternative);
}

/// Prints what the books with O lines were like, kind by kind.
fn print_alternative(met: &alternative::Met) {
    let small = alternatives::KINDS.iter().map(|(name, _)| *name).chain(["one statement", "many parts"]);
    for (name, seen) in small.zip(&met.small) {
        print_kind("O small", name, seen);
    }
    for ((name, _), seen) in wide::KINDS.iter().zip(&met.wide) {
        print_kind("O wide", name, seen);
    }
    for ((name, _), seen) in large_alternatives::KINDS.iter().zip(&met.large) {
        print_kind("O large", name, seen);
    }
}

/// Prints what the books with Q lines were like, kind by kind.
fn print_conditional(met: &Met) {
    let small = conditions::KINDS.iter().map(|(name, _)| *name).chain(["one statement", "many parts"]);
    for (name, seen) in small.zip(&met.small) {
        print_kind("Q small", name, seen);
    }
    for ((name, _), seen) in wide::KINDS.iter().zip(&met.wide) {
        print_kind("Q wide", name, seen);
    }
    let large = large_conditions::KINDS.iter().map(|(name, _)| *name).chain(["known views"]);
    for (name, seen) in large.zip(&met.large) {
        print_kind("Q large", name, seen);
    }
}

/// Prints one kind of book, if it has come up.
fn print_kind(size: &str, name: &str, seen: &Outcomes) {
    let Outcomes { books, none, one, several, most, with_exceptions, without_need, wide, past_twelfth, largest, asked } =
        seen;
    if *books > 0 {
        let (several, wide) = (format!("{several} ({most})"), format!("{wide} ({past_twelfth})"));
        let counts = format!("{books:>7}{none:>7}{one:>7}{several:>13}{with_exceptions:>7}{without_need:>7}{wide:>11}");
        let asked = if *asked > 0 { format!("{asked:>9}") } else { String::new() };
        let kind = format!("{size}, {name}");
        println!("  {kind:<43}{counts}  {largest:?}{asked}");
    }
}

/// In a run of some size, every verdict, refusal, outcome and closing line must have come up,
/// or the run has shown less than it says.
pub fn all_met(run: &Run, counts: &Counts) -> Result<(), Failure> {
    let mut needed = Vec::new();
    if counts.small >= 500 || counts.by_clingo >= 300 {
        needed.extend(needed_outcomes(run));
    }
    if counts.small >= 500 {
        needed.extend(needed_answers(run));
    }
    if counts.conditional.small >= 500 {
        needed.extend(needed_readings(run));
    }
    if counts.alternative.small >= 500 || counts.alternative.by_clingo >= 500 {
        needed.extend(needed_heads(run));
    }
    if counts.alternative.faulty >= 500 {
        needed.push(("22 or 23", least(&run.checker.tally.refusals[OF_ALTERNATIVES])));
    }
    if counts.lists >= 500 {
        needed.extend(needed_stores(run));
    }
    if counts.ways >= 50 && run.ways_skipped == 0 {
        needed.extend(needed_closings(run));
    }
    match needed.iter().find(|(_, count)| *count == 0) {
        Some((name, _)) => Err(Failure::of_run(format!("{name} never came up"))),
        None => {
            println!("agreed");
            Ok(())
        }
    }
}

/// The outcomes that random small books must have had.
fn needed_outcomes(run: &Run) -> [(&'static str, u64); 7] {
    let sum = |count: fn(&Outcomes) -> u64| run.outcomes.iter().chain(&run.wide).map(count).sum::<u64>();
    [
        ("a book without a resolution", sum(|seen| seen.none)),
        ("a book with one resolution", sum(|seen| seen.one)),
        ("a book with several resolutions", sum(|seen| seen.several)),
        ("a book in need of exceptions", sum(|seen| seen.with_exceptions)),
        ("a book with exceptions and no need", sum(|seen| seen.without_need)),
        ("a book of 13 to 16 exceptions", sum(|seen| seen.wide)),
        ("a resolution with an exception past the twelfth", sum(|seen| seen.past_twelfth)),
    ]
}

/// The least of some counts.
fn least(counts: &[u64]) -> u64 {
    counts.iter().copied().min().unwrap_or(0)
}

/// The answers that the library must have been asked for.
fn needed_answers(run: &Run) -> [(&'static str, u64); 5] {
    let tally = &run.checker.tally;
    [
        ("a refusal", least(&tally.refusals[OF_BOOKS])),
        ("a verdict", least(&tally.verdicts)),
        ("a pair or End", tally.pairs.min(tally.ends)),
        ("a refused call of a listing", run.walked.refused),
        ("a line with 12 or with 16 fields", tally.lines[0].min(tally.lines[1])),
    ]
}

/// What books with Q lines must have told from other readings, and what they must have had.
fn needed_readings(run: &Run) -> [(&'static str, u64); 4] {
    let met = &run.conditional;
    let outcomes = met.small.iter().chain(&met.wide);
    [
        ("a book that another reading of Q lines lists otherwise", least(&met.told_apart)),
        ("a kind of book with Q lines", outcomes.clone().map(|seen| seen.books).min().unwrap_or(0)),
        ("a book with Q lines and several resolutions", outcomes.clone().map(|seen| seen.several).sum()),
        ("a book with Q lines that takes an exception past the twelfth", outcomes.map(|seen| seen.past_twelfth).sum()),
    ]
}

/// What books with O lines must have told from other readings, and what they must have had.
fn needed_heads(run: &Run) -> [(&'static str, u64); 5] {
    let met = &run.alternative;
    let outcomes = met.small.iter().chain(&met.wide);
    [
        ("a book in which another reading of O lines judges otherwise", least(&met.told_apart)),
        ("a resolution with two heads of a line", met.two_heads),
        ("a book with O lines and without a resolution", outcomes.clone().map(|seen| seen.none).sum()),
        ("a book with O lines and several resolutions", outcomes.clone().map(|seen| seen.several).sum()),
        ("a book with O lines in need of exceptions", outcomes.map(|seen| seen.with_exceptions).sum()),
    ]
}

/// What stores must have met.
fn needed_stores(run: &Run) -> [(&'static str, u64); 6] {
    let stored = &run.stored;
    [
        ("a refusal of a store", least(&run.checker.tally.refusals[OF_STORES])),
        ("25 or 26 in a list", least(&stored.refused)),
        ("a list with a full store", stored.full),
        ("a damaged store that is a store or is none", stored.still_stores.min(stored.damaged - stored.still_stores)),
        ("a resolution or End after a name", stored.resolutions.min(stored.ends)),
        ("an unlawful point", least(&stored.unlawful)),
    ]
}

/// The closing lines that `ways` must have printed.
fn needed_closings(run: &Run) -> [(&'static str, u64); 4] {
    let closed = &run.closed;
    [
        ("E without lines", closed.end_with_none),
        ("E with lines", closed.end_with_some),
        ("M", closed.more),
        ("F", closed.refused),
    ]
}
