//! Checks of the test program itself: its reading, its order and its meaning against what document 01 states, and
//! against document 02: the closing line (a), sixteen exceptions (c), misspelt fields (d), preferences under a condition
//! (e), heads with alternatives (g), and named stopping points (h).

use crate::book::*;
use crate::meaning::{compare_pairs, Meaning, Oracle};
use crate::small_books::{alternative_cases, conditional_cases, small_books, SEVENTH_LISTING, SEVENTH_TEXT};
use crate::store_examples;
use crate::text::*;
use crate::ways::{listing_of, MOST};

/// Every statement of document 01 about its small books, its order and its spelling, on this program's own code.
pub fn check() -> Result<u64, String> {
    let mut count = 0;
    for small in small_books().into_iter().chain(conditional_cases()).chain(alternative_cases()) {
        let meaning = Meaning::of(&small.book);
        expect(small.name, meaning.resolutions() == small.resolutions)?;
        for (pair, verdict) in &small.verdicts {
            expect(small.name, meaning.verdict(pair) == *verdict)?;
        }
        expect(small.name, read_text(&text_of(&small.book)).as_ref() == Ok(&small.book))?;
        expect(small.name, read_table(&table_of(&small.book)).as_ref() == Ok(&small.book))?;
        let mut views = meaning.views.clone();
        views.sort_by(compare_pairs);
        expect(small.name, small.views.is_empty() || small.views == views)?;
        count += 4 + small.verdicts.len() as u64;
    }
    let seventh = &small_books()[6];
    expect("K7's text", text_of(&seventh.book) == SEVENTH_TEXT.as_bytes())?;
    expect("K7's listing", listing_of(&seventh.book, &seventh.resolutions, false) == SEVENTH_LISTING.as_bytes())?;
    check_closing(&seventh.book, &seventh.resolutions[0])?;
    check_order()?;
    check_limits()?;
    check_exceptions()?;
    check_lines()?;
    check_spelling()?;
    check_misspelling()?;
    check_order_of_fields()?;
    check_conditionals()?;
    check_tables()?;
    check_alternatives()?;
    check_tables_of_alternatives()?;
    store_examples::check().or_else(|name| expect(name, false))?;
    Ok(count + 15)
}

/// A named expectation.
fn expect(name: &str, holds: bool) -> Result<(), String> {
    if holds {
        Ok(())
    } else {
        Err(format!("the test program's own code differs from the documents at {name}"))
    }
}

/// By document 02, (a), an empty listing closes with E and 0, and 9,999 lines with 9999 after E, or M if more remain.
fn check_closing(book: &Book, pair: &Pair) -> Result<(), String> {
    let closes = |lines: usize, more: bool, closing: &[u8]| {
        let listing = listing_of(book, &vec![*pair; lines], more);
        listing.ends_with(closing) && listing.len() == lines.min(MOST) * 57 + 10
    };
    expect("an empty listing", closes(0, false, b"E       0\n"))?;
    expect("9,999 lines", closes(9_999, false, b"\nE    9999\n"))?;
    expect("9,999 lines and more", closes(9_999, true, b"\nM    9999\n") && closes(10_000, false, b"\nM    9999\n"))
}

/// The order of the sets of 12 exceptions begins 0, 1, 2, 4; entry 13 is 3, entry 14 is 5, the last 4,095. Of 16
/// exceptions entry 17 is 3, entry 18 is 5, the last 65,535. Sets of the first 12 stand in one order in both.
fn check_order() -> Result<(), String> {
    let pair = |taken: u64| Pair { taken, held: 0, denied: 0 };
    let ordered = |count: u64| {
        let mut sets: Vec<u64> = (0..count).collect();
        sets.sort_by(|one, other| compare_pairs(&pair(*one), &pair(*other)));
        sets
    };
    let (twelve, sixteen) = (ordered(4_096), ordered(65_536));
    expect("the order of sets", twelve[..4] == [0, 1, 2, 4] && twelve[13..15] == [3, 5] && twelve[4_095] == 4_095)?;
    expect("the order of 65,536 sets", sixteen[17..19] == [3, 5] && sixteen[65_535] == 65_535)?;
    expect("one order", sixteen.into_iter().filter(|set| *set < 4_096).eq(twelve))
}

/// The text of a book of one statement with so many exceptions, this preference and this number in its last line.
fn with_preference(exceptions: usize, order: [i32; 2], last: i32) -> Vec<u8> {
    let rules = vec![line_of(b'X', &[1, 0, 0, 0, 0, 0, 0, 0, 0]); exceptions].concat();
    [line_of(b'B', &[1, 1]), rules, line_of(b'P', &order), line_of(b'Z', &[last])].concat()
}

/// 16 X are accepted, 17 give 8; P fields up to 16 give 10 where the exception is missing, and 17 gives 6; Z up to 320
/// is in its range; a text of 11,729 bytes is too long.
fn check_exceptions() -> Result<(), String> {
    let read = |exceptions, order, last| read_text(&with_preference(exceptions, order, last));
    let refusal = |number, line| Err(Refusal { number, line });
    expect("16 X", read(16, [16, 13], 17).is_ok())?;
    expect("17 X", read(17, [1, 1], 18) == refusal(8, 18))?;
    expect("P 13 of 12", read(12, [13, 1], 13) == refusal(10, 14) && read(12, [1, 16], 13) == refusal(10, 14))?;
    expect("P 17", read(16, [17, 1], 17) == refusal(6, 18))?;
    expect("Z 320", read(1, [1, 1], 320) == refusal(11, 4) && read(1, [1, 1], 321) == refusal(6, 4))?;
    let spaces = |bytes: usize| read_text(&vec![b' '; bytes]);
    expect("11,728 bytes", spaces(11_728) == Err(refused(2)) && spaces(11_729) == Err(refused(1)))
}

/// The text of a book of three statements and so many R lines, with so many O lines, then these lines, and this number in
/// its last line.
fn with_alternatives(plain: usize, count: usize, more: &str, last: i32) -> Vec<u8> {
    let rules = vec![line_of(b'R', &[0, 1, 0, 0, 0, 0, 0, 0, 0]); plain].concat();
    let lines = vec![line_of(b'O', &[1, 2, 0, 0, 0, 0, 0, 0, 0, 0, 0]); count].concat();
    [line_of(b'B', &[1, 3]), rules, lines, more.as_bytes().to_vec(), line_of(b'Z', &[last])].concat()
}

/// An O line has 46 bytes and stands after the R lines and before the X lines. 40 are accepted; the 41st gives 22, after
/// its length and its fields and before its 23. Heads lie in -n to n; two of them must be filled, the same one twice too,
/// with a gap too, +i and -i too.
fn check_alternatives() -> Result<(), String> {
    let read = |plain, count, line: &str, last| {
        let read = read_text(&with_alternatives(plain, count, line, last));
        read.map(|book| book.alternatives.len()).map_err(|refusal| (refusal.number, refusal.line))
    };
    let zeros = "   0".repeat(8);
    let line = |heads: &str| format!("O{heads}{zeros}\n");
    let one = |heads: &str| read(0, 0, &line(heads), 1);
    expect("40 O", read(200, 40, "", 240) == Ok(40))?;
    expect("41 O", read(0, 40, &line("   1   2   0"), 41) == Err((22, 42)))?;
    expect("22 before 23", read(0, 40, &line("   0   2   0"), 41) == Err((22, 42)))?;
    expect("6 before 22", read(0, 40, &line("   1   2   4"), 41) == Err((6, 42)))?;
    expect("17 before 22", read(0, 40, &line("   1   2    "), 41) == Err((17, 42)))?;
    expect("4 before 22", read(0, 40, &line("   1   2"), 41) == Err((4, 42)))?;
    expect("R after O", read(0, 1, &line("   1").replace('O', "R"), 2) == Err((3, 3)))?;
    expect(
        "O after X",
        read(0, 1, &format!("{}{}", line("   1").replace('O', "X"), line("   1   2   0")), 3) == Err((3, 4)),
    )?;
    expect("X after O", read(0, 1, &line("   1").replace('O', "X"), 2) == Ok(1))?;
    expect("no head", one("   0   0   0") == Err((23, 2)))?;
    expect("one head", one("   0   0  -3") == Err((23, 2)) && one("   2   0   0") == Err((23, 2)))?;
    expect("two heads with a gap", one("   1   0   2") == Ok(1) && one("   0   1   2") == Ok(1))?;
    expect("the same head twice", one("   1   1   0") == Ok(1) && one("  -3  -3  -3") == Ok(1))?;
    expect("both signs", one("   1  -1   0") == Ok(1))?;
    expect("6 before 23", one("   4   0   0") == Err((6, 2)) && one("   0   0  -4") == Err((6, 2)))?;
    expect("18 before 23", one("   0   0  -0") == Err((18, 2)))?;
    expect("23 before a wrong Z", read(0, 0, &line("   1   0   0"), 9) == Err((23, 2)))?;
    expect("an O line of Z's count", read(1, 1, "", 1) == Err((11, 4)))
}

/// The number table of a book with an O line: n, five counts of which that of O lines is the last, and the O row behind
/// the R rows. Under six numbers are 16; a count out of range is 8 and never 22; a row's 6 comes before its 23, and each
/// carries its line.
fn check_tables_of_alternatives() -> Result<(), String> {
    let more = "O   3   0  -1   2   0   0   0   0   0   0  -3\nX   1   0   0   0   0   0   0   0   0\nP   1   1\n";
    let text = with_alternatives(2, 0, more, 5);
    let table = table_of(&read_text(&text).expect("the book is accepted"));
    let read = |places: &[(usize, i32)]| {
        let mut table = table.clone();
        places.iter().for_each(|(place, number)| table[*place] = *number);
        read_table(&table).map_err(|refusal| (refusal.number, refusal.line)).err()
    };
    let row = [3, 0, -1, 2, 0, 0, 0, 0, 0, 0, -3];
    expect("six numbers before the rows", table[..6] == [3, 2, 1, 1, 0, 1] && table.len() == 6 + 18 + 11 + 9 + 2)?;
    expect("the O row behind the R rows", table[24..35] == row && table[35..44] == [1, 0, 0, 0, 0, 0, 0, 0, 0])?;
    expect("five numbers", read_table(&[3; 5]) == Err(refused(16)) && read_table(&[3, 0, 0, 0, 0, 0]).is_ok())?;
    expect("an O count of 41", read(&[(5, 41)]) == Some((8, 1)) && read(&[(5, -1)]) == Some((8, 1)))?;
    expect("an O count of 2", read(&[(5, 2)]) == Some((16, 0)) && read(&[(5, 0)]) == Some((16, 0)))?;
    expect("an O row's 23", read(&[(24, 0)]) == Some((23, 4)) && read(&[(26, 0)]) == Some((23, 4)))?;
    expect("an O row's 6 before its 23", read(&[(24, 0), (34, 4)]) == Some((6, 4)))?;
    expect("an O row before an X row", read(&[(24, 0), (35, 0)]) == Some((23, 4)) && read(&[(35, 0)]) == Some((9, 5)))?;
    expect("an R row before an O row", read(&[(6, 4), (24, 0)]) == Some((6, 2)))?;
    expect("the text again", read_table(&table).map(|book| text_of(&book)) == Ok(text))
}

/// The text of a book of three statements and two exceptions with so many Q lines, then these lines, and this number in
/// its last line.
fn with_conditionals(count: usize, more: &str, last: i32) -> Vec<u8> {
    let rules = vec![line_of(b'X', &[1, 0, 0, 0, 0, 0, 0, 0, 0]); 2].concat();
    let lines = vec![line_of(b'Q', &[1, 2, 0, 0, 0, 0, 0, 0, 0, 0]); count].concat();
    [line_of(b'B', &[1, 3]), rules, lines, more.as_bytes().to_vec(), line_of(b'Z', &[last])].concat()
}

/// A Q line has 42 bytes and stands after the P lines. 32 are accepted; the 33rd gives 19, after its length and its
/// fields and before its 10. a and b lie in 1 to 16 and the entries in -n to n, all looked at before 10.
fn check_conditionals() -> Result<(), String> {
    let read = |count, line: &str, last| {
        let read = read_text(&with_conditionals(count, line, last));
        read.map(|book| book.conditionals.len()).map_err(|refusal| (refusal.number, refusal.line))
    };
    let zeros = "   0".repeat(7);
    let line = |fields: &str| format!("Q{fields}{zeros}\n");
    let one = |fields: &str| read(0, &line(fields), 3);
    expect("32 Q", read(32, "", 34) == Ok(32))?;
    expect("33 Q", read(32, &line("   1   1   0"), 35) == Err((19, 36)))?;
    expect("19 before 10", read(32, &line("   1   3   0"), 35) == Err((19, 36)))?;
    expect("6 before 19", read(32, &line("   1   1   4"), 35) == Err((6, 36)))?;
    expect("17 before 19", read(32, &line("   1   1    "), 35) == Err((17, 36)))?;
    expect("4 before 19", read(32, &line("   1   1"), 35) == Err((4, 36)))?;
    expect("P after Q", read(1, "P   1   1\n", 4) == Err((3, 5)))?;
    expect("X after Q", read(1, &line("   1   1   0").replace('Q', "X"), 4) == Err((3, 5)))?;
    expect("a equal to b", one("   2   2  -3") == Ok(1))?;
    expect("Q 3 of 2", one("   3   1   0") == Err((10, 4)) && one("   1  16   0") == Err((10, 4)))?;
    expect("Q 17", one("  17   1   0") == Err((6, 4)) && one("   1   0   0") == Err((6, 4)))?;
    expect("6 before 10", one("   3   1   4") == Err((6, 4)) && one("   3   1  -4") == Err((6, 4)))?;
    expect("18 before 10", one("   3   1  -0") == Err((18, 4)))?;
    expect("10 before a wrong Z", read(0, &line("   3   1   0"), 9) == Err((10, 4)))?;
    expect("a Q line of Z's count", read(1, "", 2) == Err((11, 5)))
}

/// The number table of a book with a Q line: n, five counts, and the Q row last. A count out of range is 8 and never 19;
/// a row's 6 comes before its 10.
fn check_tables() -> Result<(), String> {
    let text = with_conditionals(0, "P   2   1\nQ   1   2   3  -3   0   0   0   0   0  -1\n", 4);
    let table = table_of(&read_text(&text).expect("the book is accepted"));
    let read = |place: usize, number: i32| {
        let mut table = table.clone();
        table[place] = number;
        read_table(&table).map_err(|refusal| (refusal.number, refusal.line)).err()
    };
    let row = [1, 2, 3, -3, 0, 0, 0, 0, 0, -1];
    expect("the numbers before the rows", table[..6] == [3, 0, 2, 1, 1, 0] && table.len() == 6 + 18 + 2 + 10)?;
    expect("the Q row last", table[24..26] == [2, 1] && table[26..] == row)?;
    expect("a Q count of 33", read(4, 33) == Some((8, 1)) && read(4, -1) == Some((8, 1)))?;
    expect("a Q count of 2", read(4, 2) == Some((16, 0)))?;
    expect("a Q row's 10", read(26, 16) == Some((10, 5)) && read(26, 17) == Some((6, 5)))?;
    expect("a Q row's 6", read(28, 4) == Some((6, 5)) && read(35, -4) == Some((6, 5)))?;
    expect("the text again", read_table(&table).map(|book| text_of(&book)) == Ok(text))
}

/// A line of a book of 12 exceptions has 12 fields for them and 54 + n bytes; of a longer book, 16 and 70 + n, also
/// where the pair takes none.
fn check_lines() -> Result<(), String> {
    let line = |exceptions: usize, taken: u64| {
        let book =
            read_text(&with_preference(exceptions, [1, 1], exceptions as i32 + 1)).expect("the book is accepted");
        let line = a_line_of(&book, &Pair { taken, held: 1, denied: 0 });
        (line.len() == book.line_bytes()).then(|| String::from_utf8(line).expect("a line is ASCII"))
    };
    let zeros = |count: usize| "   0".repeat(count);
    expect("a line of 12", line(12, 0x800) == Some(format!("A   1  12{}+\n", zeros(11))))?;
    expect("a line of 13", line(13, 0x1000) == Some(format!("A   1  13{}+\n", zeros(15))))?;
    expect("a line of 16", line(16, 0) == Some(format!("A   0{}+\n", zeros(16))))?;
    expect("the lengths of lines", [12, 13].map(|count| line(count, 1).map(|line| line.len())) == [Some(55), Some(71)])
}

/// n 48 is accepted, 49 gives 6; 200 R are accepted, 201 give 8.
fn check_limits() -> Result<(), String> {
    let statements = |n: i32| read_text(&[line_of(b'B', &[1, n]), line_of(b'Z', &[0])].concat());
    let plain = |count: usize| {
        let rules = vec![line_of(b'R', &[0; 9]); count].concat();
        read_text(&[line_of(b'B', &[1, 1]), rules, line_of(b'Z', &[count as i32])].concat())
    };
    expect("n 48", statements(48).is_ok())?;
    expect("n 49", statements(49) == Err(Refusal { number: 6, line: 1 }))?;
    expect("200 R", plain(200).is_ok())?;
    expect("201 R", plain(201) == Err(Refusal { number: 8, line: 202 }))
}

/// A field spells a number exactly if it is the number, right-justified after spaces, and exactly then it has no
/// refusal of 5, 17 and 18.
fn check_spelling() -> Result<(), String> {
    let alphabet = b" -+0129a";
    for code in 0..8usize.pow(4) {
        let field: [u8; 4] = std::array::from_fn(|column| alphabet[code >> (3 * column) & 7]);
        let text = std::str::from_utf8(&field).expect("the alphabet is ASCII");
        let value: Option<i32> = text.trim_start_matches(' ').parse().ok();
        let wanted = value.filter(|value| format!("{value:>4}") == text);
        expect(&format!("the field '{text}'"), spelt(&field) == wanted)?;
        expect(&format!("the refusal of '{text}'"), misspelling(&field).is_none() == wanted.is_some())?;
    }
    Ok(())
}

/// Fields by the refusal that they have: a later one may apply to them as well, but no earlier one.
fn check_misspelling() -> Result<(), String> {
    let all: [(u32, &[&str]); 3] = [
        (5, &["1 1x", "01 x", "-  1", "  1-", " --1", "-   ", "   -", "- 1 ", " 1-1", "-0-0", "  +1", "+   ", "\t  1"]),
        (17, &["    ", "0   ", " 0  ", "  1 ", "01 1", "0  0", "1 -1", "-1  ", "0 -0", "12 3"]),
        (18, &["  01", " 010", "0001", " -01", "-010", "  00", "0000", " -00", "-000", "  -0"]),
    ];
    for (refusal, fields) in all {
        for field in fields {
            expect(&format!("{refusal} of '{field}'"), misspelling(field.as_bytes()) == Some(refusal))?;
        }
    }
    Ok(())
}

/// All three refusals of misspelt fields stand where 5 stood: before 7 and 6 of the same field, after those of a field
/// before it, after 4 and before the line as a whole. A field ends where the next begins.
fn check_order_of_fields() -> Result<(), String> {
    let read = |lines: &str| read_text(lines.as_bytes()).map_err(|refusal| (refusal.number, refusal.line)).err();
    let rule = |fields: &str| read(&format!("B   1   3\nR{fields}   0   0   0   0   0   0   0\nZ   1\n"));
    expect("17 before 7", read("B       1\n") == Some((17, 1)))?;
    expect("18 before 7", read("B  02   1\n") == Some((18, 1)))?;
    expect("7 before a later 17", read("B   2    \n") == Some((7, 1)))?;
    expect("18 before 6", rule("0009   0") == Some((18, 2)))?;
    expect("6 before a later 17", rule("   4    ") == Some((6, 2)))?;
    expect("17 before a later 6", rule("       4") == Some((17, 2)))?;
    expect("17 before a later 5", rule("       x") == Some((17, 2)))?;
    expect("4 before 17", rule("        1") == Some((4, 2)))?;
    expect("18 before 9", read("B   1   3\nX   0 -00   0   0   0   0   0   0   0\n") == Some((18, 2)))?;
    expect("a minus before the next field's digit", rule("   -1000") == Some((5, 2)))?;
    expect("a minus after the digit of the field before", rule("   1-100") == Some((6, 2)))?;
    expect("a gap across two fields", rule("   1   2").is_none())
}
