//! Faulty Q lines: in texts, at their limit, and in number tables.

use crate::book::*;
use crate::compare::{Checker, Outcome};
use crate::damage::{damage_last, damage_line, fault, full_book, lines_at_limit, lines_of, with_faults, NUMBERS};
use crate::random::Random;
use crate::text::{line_of, read_text, table_of, text_of};

/// How many R, X, P, Q and O lines the books have whose last line is damaged.
const CASES: [[usize; 5]; 10] = [
    [0, 0, 0, 1, 0],
    [0, 2, 0, 1, 1],
    [0, 2, 1, 1, 0],
    [0, 13, 0, 1, 0],
    [0, 2, 0, 32, 0],
    [0, 2, 0, 33, 0],
    [0, 2, 32, 33, 0],
    [0, 16, 33, 33, 0],
    [200, 16, 32, 32, 40],
    [200, 16, 32, 33, 39],
];

/// Texts around the limit of Q lines, each with its last line damaged, also where it names a missing exception; then
/// tables too short to have rows, and Q rows with two numbers damaged.
pub fn limits(checker: &mut Checker, random: &mut Random) -> Outcome {
    let full = full_book(random);
    for counts in CASES {
        damage_last(checker, random, lines_at_limit(&full, counts), &[b"   0", b"   3", b"  16"])?;
    }
    short_tables(checker)?;
    let text = [lines_at_limit(&full, [1, 2, 1, 2, 1]).concat(), line_of(b'Z', &[7])].concat();
    let book = read_text(&text).expect("the book is accepted");
    damaged_rows(checker, &table_of(&book))
}

/// Every table of at most seven numbers, each of which is one of these.
pub fn short_tables(checker: &mut Checker) -> Outcome {
    const FEW: [i32; 6] = [-1, 0, 1, 33, 41, 49];
    for length in 0..=7 {
        for code in 0..FEW.len().pow(length) {
            let number = |place: u32| FEW[code / FEW.len().pow(place) % FEW.len()];
            checker.write(&(0..length).map(number).collect::<Vec<i32>>(), TEXT)?;
        }
    }
    Ok(())
}

/// Each number of the last Q row replaced, alone and together with the first, which names an exception that is missing
/// or out of range.
fn damaged_rows(checker: &mut Checker, table: &[i32]) -> Outcome {
    let row = table.len() - 10;
    for place in row..table.len() {
        for number in NUMBERS {
            for first in [table[row], 3, 16, 17, 0] {
                let mut damaged = table.to_vec();
                damaged[row] = first;
                damaged[place] = number;
                checker.write(&damaged, TEXT)?;
            }
        }
    }
    Ok(())
}

/// A book with Q lines and one to four faults, half of them in these lines.
pub fn several_faults(checker: &mut Checker, random: &mut Random, book: &Book) -> Outcome {
    with_faults(checker, random, lines_of(&text_of(book)), |random, lines| {
        if random.one_in(2) {
            fault(random, lines)
        } else {
            fault_of_conditionals(random, lines)
        }
    })
}

/// One fault in Q lines: one damaged, one more of them anywhere, one of another letter, so many that a book may not have
/// them all, or a line of two fields behind them.
fn fault_of_conditionals(random: &mut Random, lines: &mut Vec<Vec<u8>>) {
    let has_fields = |line: &Vec<u8>| line[0] == b'Q' && line.len() >= 10;
    let own: Vec<usize> = (0..lines.len()).filter(|place| has_fields(&lines[*place])).collect();
    let Some(last) = own.last().copied() else {
        return fault(random, lines);
    };
    let place = random.pick(&own);
    match random.below(8) {
        0 => lines.insert(random.below(lines.len() as u64) as usize, lines[place].clone()),
        1 => lines[place][0] = random.pick(b"ROXPZq"),
        2 => {
            let more = vec![lines[place].clone(); (CONDITIONALS + 1).saturating_sub(own.len())];
            lines.splice(last..last, more);
        }
        3 => lines.insert(last + 1, b"P   1   1\n".to_vec()),
        4 => lines[place][1..9].copy_from_slice(&line_of(b' ', &[random.between(0, 17), random.between(0, 17)])[1..9]),
        _ => damage_line(random, &mut lines[place]),
    }
}
