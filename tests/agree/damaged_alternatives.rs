//! Faulty O lines: in texts, at their limit, and in number tables.

use crate::book::*;
use crate::compare::{Checker, Outcome};
use crate::damage::{damage_last, damage_line, fault, full_book, lines_at_limit, lines_of, with_faults, NUMBERS};
use crate::damaged_conditions::short_tables;
use crate::random::Random;
use crate::text::{line_of, read_text, table_of, text_of};

/// How many R and O lines the books have whose last line, an O line, is damaged.
const CASES: [[usize; 2]; 8] = [[0, 1], [1, 1], [0, 2], [0, 40], [0, 41], [199, 41], [200, 40], [200, 41]];

/// Texts around the limit of O lines, each with its last line damaged, also where its first head is 0 or out of range;
/// then the same with X, P and Q lines behind them; tables too short to have rows, and O rows with two numbers damaged.
pub fn limits(checker: &mut Checker, random: &mut Random) -> Outcome {
    let full = full_book(random);
    for [plain, alternatives] in CASES {
        let lines = lines_at_limit(&full, [plain, 0, 0, 0, alternatives]);
        damage_last(checker, random, lines, &[b"   0", b"  48", b"  49"])?;
    }
    for counts in [[0, 1, 0, 0, 1], [1, 2, 1, 0, 40], [0, 2, 1, 1, 41], [200, 16, 32, 32, 40]] {
        damage_last(checker, random, lines_at_limit(&full, counts), &[b"   0"])?;
    }
    short_tables(checker)?;
    let text = [lines_at_limit(&full, [1, 2, 1, 1, 2]).concat(), line_of(b'Z', &[7])].concat();
    let book = read_text(&text).expect("the book is accepted");
    damaged_rows(checker, &table_of(&book))
}

/// Each number of the second O row replaced, alone and together with its first, its second or its third; and beside a
/// fault in the R row before it or in the X row behind it.
fn damaged_rows(checker: &mut Checker, table: &[i32]) -> Outcome {
    let row = FRONT + 9 + 11;
    for place in row..row + 11 {
        for number in NUMBERS {
            for (other, put) in [(row, 0), (row + 1, 0), (row + 2, 0), (row, 49), (FRONT, 49), (row + 11, 0)] {
                let mut damaged = table.to_vec();
                damaged[other] = put;
                damaged[place] = number;
                checker.write(&damaged, TEXT)?;
            }
        }
    }
    heads_of_rows(checker, table, row)
}

/// The three heads of the row at this place, each one of these.
fn heads_of_rows(checker: &mut Checker, table: &[i32], row: usize) -> Outcome {
    const FEW: [i32; 6] = [0, 1, -1, 48, -48, 49];
    for code in 0..FEW.len().pow(3) {
        let mut damaged = table.to_vec();
        (0..3).for_each(|place| damaged[row + place] = FEW[code / FEW.len().pow(place as u32) % FEW.len()]);
        checker.write(&damaged, TEXT)?;
    }
    Ok(())
}

/// A book with O lines and one to four faults, half of them in these lines.
pub fn several_faults(checker: &mut Checker, random: &mut Random, book: &Book) -> Outcome {
    with_faults(checker, random, lines_of(&text_of(book)), |random, lines| {
        if random.one_in(2) {
            fault(random, lines)
        } else {
            fault_of_alternatives(random, lines)
        }
    })
}

/// One fault in O lines: one damaged, heads taken away, one more of them anywhere, one of another letter, so many that a
/// book may not have them all, or an R line behind them.
fn fault_of_alternatives(random: &mut Random, lines: &mut Vec<Vec<u8>>) {
    let has_fields = |line: &Vec<u8>| line[0] == b'O' && line.len() >= 14;
    let own: Vec<usize> = (0..lines.len()).filter(|place| has_fields(&lines[*place])).collect();
    let Some(last) = own.last().copied() else {
        return fault(random, lines);
    };
    let place = random.pick(&own);
    let head = 1 + 4 * random.below(3) as usize;
    match random.below(10) {
        0 => lines.insert(random.below(lines.len() as u64) as usize, lines[place].clone()),
        1 => lines[place][0] = random.pick(b"RXPQZo0"),
        2 => {
            let more = vec![lines[place].clone(); (ALTERNATIVES + 1).saturating_sub(own.len())];
            lines.splice(last..last, more);
        }
        3 => lines.insert(last + 1, line_of(b'R', &[0; 9])),
        4 | 5 => lines[place][head..head + 4].copy_from_slice(b"   0"),
        6 => lines[place][1..13].copy_from_slice(b"   0   0   0"),
        7 => {
            let number = random.between(-7, 7);
            lines[place][head..head + 4].copy_from_slice(&line_of(b' ', &[number])[1..5]);
        }
        _ => damage_line(random, &mut lines[place]),
    }
}
