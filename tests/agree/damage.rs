//! Faulty texts, tables and buffers: every refusal by number and line, and every lent buffer unchanged.

use crate::book::*;
use crate::compare::{Checker, Difference, Known, Outcome};
use crate::kinds::{small_book, KINDS};
use crate::maker::Maker;
use crate::meaning::Meaning;
use crate::pairs;
use crate::random::Random;
use crate::text::{line_of, read_table, read_text, table_of, text_of};

/// The bytes that are put in the place of others.
const BYTES: [u8; 24] = [
    0, 9, 10, 13, b' ', b'+', b'-', b'.', b'0', b'1', b'4', b'8', b'9', b'B', b'O', b'P', b'Q', b'R', b'X', b'Z', b'a',
    127, 128, 255,
];

/// A book at every limit: 48 statements, 200 R, 40 O, 16 X, 32 P and 32 Q lines, 11,728 bytes.
pub fn full_book(random: &mut Random) -> Book {
    let mut maker = Maker::new(random, STATEMENTS, EXCEPTIONS);
    while maker.book.plain.len() < PLAIN {
        maker.random_plain(4, 4);
    }
    while maker.book.alternatives.len() < ALTERNATIVES {
        maker.random_either(4, 4);
    }
    while maker.book.exceptions.len() < EXCEPTIONS {
        maker.random_exception(4, 4);
    }
    while maker.book.preferences.len() < PREFERENCES {
        maker.prefer_any();
    }
    while maker.book.conditionals.len() < CONDITIONALS {
        prefer_any_if(&mut maker);
    }
    maker.book
}

/// Adds a Q line between any two exceptions, of which there is one at least, with a body of any length.
fn prefer_any_if(maker: &mut Maker) {
    let (order, needed, barred) = (maker.any_two(), maker.conclusions(4), maker.conclusions(4));
    maker.prefer_if(order, &needed, &barred);
}

/// Compares Read on a text, and, if wanted, the other operations.
fn compare_text(checker: &mut Checker, random: &mut Random, text: &[u8], others: bool) -> Outcome {
    let book = read_text(text);
    let known = Known { text, book: &book, oracle: None };
    checker.begin(text);
    checker.read(&known, TABLE)?;
    match &book {
        _ if !others => Ok(()),
        Ok(book) => compare_accepted(checker, random, &known, book),
        Err(_) => compare_refused(checker, random, &known),
    }
}

/// Write gives an accepted text back, and Line works on it.
fn compare_accepted(checker: &mut Checker, random: &mut Random, known: &Known, book: &Book) -> Outcome {
    let table = table_of(book);
    if read_table(&table).as_ref() != Ok(book) || text_of(book) != known.text {
        return Err(Difference {
            what: "the test's own Read and Write are not inverse".into(),
            text: known.text.to_vec(),
        });
    }
    checker.write(&table, known.text.len())?;
    checker.line(known, &pairs::lawful(random, book), book.line_bytes())
}

/// Every other operation on a refused text gives the same refusal.
fn compare_refused(checker: &mut Checker, random: &mut Random, known: &Known) -> Outcome {
    let pair = pairs::any(random);
    let length = random.below(110) as usize;
    checker.read(known, length)?;
    checker.judge(known, &pair)?;
    checker.first(known)?;
    checker.after(known, &pair)?;
    checker.line(known, &pair, length)?;
    checker.first_page(known, length)?;
    checker.page_after(known, &pair, length)
}

/// Every byte of a text replaced by each of the bytes, at every `step`-th place.
pub fn replace_bytes(checker: &mut Checker, random: &mut Random, text: &[u8], step: usize) -> Outcome {
    let mut damaged = text.to_vec();
    for place in (0..text.len()).step_by(step) {
        for byte in BYTES {
            damaged[place] = byte;
            let others = random.one_in(16);
            compare_text(checker, random, &damaged, others)?;
        }
        damaged[place] = text[place];
    }
    Ok(())
}

/// Every beginning of a text, as it is and with a line feed added.
pub fn truncate(checker: &mut Checker, random: &mut Random, text: &[u8]) -> Outcome {
    for length in 0..=text.len() {
        let others = random.one_in(16);
        compare_text(checker, random, &text[..length], others)?;
        let mut ended = text[..length].to_vec();
        ended.push(10);
        compare_text(checker, random, &ended, others)?;
    }
    Ok(())
}

/// The lines of a text, each with its line feed.
pub fn lines_of(text: &[u8]) -> Vec<Vec<u8>> {
    text.split_inclusive(|byte| *byte == 10).map(|line| line.to_vec()).collect()
}

/// Lines swapped, repeated, left out, and moved to the end.
pub fn move_lines(checker: &mut Checker, random: &mut Random, text: &[u8]) -> Outcome {
    let lines = lines_of(text);
    for place in 0..lines.len() {
        let other = random.below(lines.len() as u64) as usize;
        let next = (place + 1).min(lines.len() - 1);
        for partner in [other, next] {
            let mut swapped = lines.clone();
            swapped.swap(place, partner);
            compare_text(checker, random, &swapped.concat(), true)?;
        }
        let mut repeated = lines.clone();
        repeated.insert(other, lines[place].clone());
        compare_text(checker, random, &repeated.concat(), true)?;
        let mut without = lines.clone();
        let line = without.remove(place);
        compare_text(checker, random, &without.concat(), true)?;
        without.push(line);
        compare_text(checker, random, &without.concat(), true)?;
    }
    Ok(())
}

/// The last line's number replaced by every other.
pub fn wrong_counts(checker: &mut Checker, random: &mut Random, text: &[u8]) -> Outcome {
    let rest = &text[..text.len() - 6];
    for count in -20..340 {
        let changed = [rest, &line_of(b'Z', &[count])].concat();
        compare_text(checker, random, &changed, true)?;
    }
    Ok(())
}

/// The text of a small book with one R, one O, two X, one P and one Q line.
fn short_text(random: &mut Random) -> Vec<u8> {
    let mut maker = Maker::new(random, STATEMENTS, 2);
    maker.random_plain(2, 2);
    maker.random_either(2, 2);
    maker.random_exception(2, 2);
    maker.random_exception(2, 2);
    maker.prefer(1, 2);
    prefer_any_if(&mut maker);
    text_of(&maker.book)
}

/// Every string of four from some bytes in each kind of field of a small book: from all that a field may have and two
/// others in the second field of R, elsewhere from fewer.
pub fn spell_fields(checker: &mut Checker, random: &mut Random) -> Outcome {
    let text = short_text(random);
    // The fields of B, the first, second and last of R, the first three and the last of O, the first and last of X, both
    // of P, the first three and the last of Q, and that of Z.
    for place in [1, 5, 11, 15, 43, 49, 53, 57, 89, 95, 127, 171, 175, 181, 185, 189, 217, 223] {
        let alphabet: &[u8] = if place == 15 { b" -0123456789+x" } else { b" -+0149" };
        let mut damaged = text.clone();
        for code in 0..alphabet.len().pow(4) {
            for column in 0..4 {
                damaged[place + column] = alphabet[code / alphabet.len().pow(column as u32) % alphabet.len()];
            }
            compare_text(checker, random, &damaged, false)?;
        }
    }
    Ok(())
}

/// Each of the fields beside each of them, in the first two places of B, R, X and P and in three of O and Q: what stands
/// in one field says nothing about the spelling of the other.
pub fn spell_neighbours(checker: &mut Checker, random: &mut Random) -> Outcome {
    let text = short_text(random);
    for place in [1, 11, 49, 53, 95, 171, 181, 185] {
        let mut damaged = text.clone();
        for first in FIELDS {
            damaged[place..place + 4].copy_from_slice(first);
            for second in FIELDS {
                damaged[place + 4..place + 8].copy_from_slice(second);
                compare_text(checker, random, &damaged, false)?;
            }
        }
    }
    Ok(())
}

/// Texts at the limits, and one past them.
pub fn limits(checker: &mut Checker, random: &mut Random) -> Outcome {
    let full = full_book(random);
    let text = text_of(&full);
    assert_eq!(text.len(), TEXT, "the full book has as many bytes as a text may have");
    compare_text(checker, random, &text, true)?;
    for more in 1..4 {
        for last in [10, b'Z'] {
            let mut longer = text.clone();
            longer.resize(TEXT + more, last);
            compare_text(checker, random, &longer, true)?;
        }
    }
    let small = text_of(&small_book(random, 0));
    let ended = |end: &[u8]| small.split(|byte| *byte == 10).map(|line| line.to_vec()).collect::<Vec<_>>().join(end);
    for end in [&b"\r\n"[..], b"\n\r", b"\r", b"\n\n", b" \n", b"\0"] {
        compare_text(checker, random, &ended(end), true)?;
    }
    for statements in [-1, 0, 1, 2, 47, 48, 49, 50, 100, 999, 1_000, 9_999] {
        let book = [line_of(b'B', &[1, statements]), line_of(b'Z', &[0])].concat();
        compare_text(checker, random, &book, true)?;
    }
    for edition in [-999, -1, 0, 1, 2, 3, 11, 9_999] {
        for statements in [0, 1, 48, 49] {
            let book = [line_of(b'B', &[edition, statements]), line_of(b'Z', &[0])].concat();
            compare_text(checker, random, &book, true)?;
        }
    }
    over_limit(checker, random, &full)
}

/// What a field is replaced by: lawful numbers, numbers out of range, and fields that are refused by 5, by 17 and by
/// 18, in some of which a later one of these could be found as well.
pub const FIELDS: [&[u8]; 44] = [
    b"   0", b"   1", b"   2", b"   3", b"  12", b"  13", b"  16", b"  17", b"  48", b"  49", b" -48", b" -49",
    b" 244", b" 245", b" 248", b" 249", b" 280", b" 281", b" 320", b" 321", b"9999", b"-999", b"+  1", b"  1\0",
    b"1 1x", b"01 x", b" - 1", b"-  1", b"  1-", b" --1", b"-   ", b"   -", b"    ", b" 1  ", b"0   ", b"01 1",
    b"0  0", b"1 -1", b"  01", b" -01", b"0001", b"  00", b" -00", b"  -0",
];

/// Books with so many R, X and P lines, around each limit, each with its last line damaged.
fn over_limit(checker: &mut Checker, random: &mut Random, full: &Book) -> Outcome {
    let cases = [
        [199, 0, 0],
        [200, 0, 0],
        [201, 0, 0],
        [0, 1, 0],
        [0, 12, 1],
        [0, 13, 1],
        [0, 15, 1],
        [0, 16, 0],
        [0, 17, 0],
        [0, 16, 32],
        [0, 16, 33],
        [0, 2, 32],
        [0, 2, 33],
        [0, 0, 1],
    ];
    for [plain, exceptions, preferences] in cases {
        let lines = lines_at_limit(full, [plain, exceptions, preferences, 0, 0]);
        damage_last(checker, random, lines, &[b"   0"])?;
    }
    Ok(())
}

/// The lines of a book with so many R, X, P, Q and O lines, without its last, from those of a full book.
pub fn lines_at_limit(full: &Book, counts: [usize; 5]) -> Vec<Vec<u8>> {
    let [plain, exceptions, preferences, conditionals, alternatives] = counts;
    let between = |place: usize| Conditional { order: [1, 2], ..full.conditionals[place % CONDITIONALS] };
    let mut lines = vec![line_of(b'B', &[1, 48])];
    lines.extend((0..plain).map(|place| line_of(b'R', &full.plain[place % PLAIN].row())));
    lines.extend((0..alternatives).map(|place| line_of(b'O', &full.alternatives[place % ALTERNATIVES].row())));
    lines.extend((0..exceptions).map(|place| line_of(b'X', &full.exceptions[place % EXCEPTIONS].row())));
    lines.extend((0..preferences).map(|place| line_of(b'P', &[1 + place as i32 % 2, 2])));
    lines.extend((0..conditionals).map(|place| line_of(b'Q', &between(place).row())));
    lines
}

/// The text of these lines and a right last one; and each field of the last of the lines replaced by each of the fields,
/// alone and together with the first field, so that two refusals apply to one line.
pub fn damage_last(checker: &mut Checker, random: &mut Random, mut lines: Vec<Vec<u8>>, first: &[&[u8; 4]]) -> Outcome {
    let last = lines.pop().expect("there is a last line");
    let before = lines.concat();
    let end = line_of(b'Z', &[lines.len() as i32]);
    for damaged in damaged_lines(&last, first) {
        compare_text(checker, random, &[&before, &damaged, &end].map(|part| &part[..]).concat(), true)?;
    }
    compare_text(checker, random, &[before, last, end].concat(), true)
}

/// A line with each field replaced, and beside it with the first field made each of these; and with a byte more or less.
fn damaged_lines(line: &[u8], first: &[&[u8; 4]]) -> Vec<Vec<u8>> {
    let mut all = Vec::new();
    for start in (1..line.len() - 1).step_by(4) {
        for field in FIELDS {
            let mut damaged = line.to_vec();
            damaged[start..start + 4].copy_from_slice(field);
            all.push(damaged.clone());
            for beside in first {
                damaged[1..5].copy_from_slice(&beside[..]);
                all.push(damaged.clone());
            }
        }
    }
    all.push([&line[..1], b" ", &line[1..]].concat());
    all.push([&line[..1], &line[2..]].concat());
    all
}

/// The bytes of random fields. Zeros, spaces and minuses stand here more than once, so that 17 and 18 come up often.
const SPELLING: &[u8] = b"      --0000123456789x+";

/// Four random bytes, nearly all of them such as fields have.
fn random_field(random: &mut Random) -> [u8; 4] {
    std::array::from_fn(|_| random.pick(SPELLING))
}

/// Changes one field, byte or length of a line.
pub fn damage_line(random: &mut Random, line: &mut Vec<u8>) {
    let fields = line.len().saturating_sub(2) / 4;
    if fields == 0 {
        return line.insert(0, random.pick(&BYTES));
    }
    let start = 1 + 4 * random.below(fields as u64) as usize;
    match random.below(10) {
        0 => line[start..start + 4].copy_from_slice(b"   0"),
        1 | 2 => line[start..start + 4].copy_from_slice(random.pick(&FIELDS)),
        3 => line[start] = random.pick(&BYTES),
        4 => line.insert(start, b' '),
        5 => drop(line.remove(start)),
        6 => line[0] = random.pick(b"BROXPQZA"),
        7 | 8 => line[start..start + 4].copy_from_slice(&random_field(random)),
        _ => line[start..start + 4].copy_from_slice(random.pick(&[b"   3", b"  16", b"  -3", b"   2"])),
    }
}

/// A small random book with one to four faults anywhere. Where it is still accepted, its meaning is compared too.
pub fn several_faults(checker: &mut Checker, random: &mut Random) -> Outcome {
    let kind = random.below(KINDS.len() as u64) as usize;
    let lines = lines_of(&text_of(&small_book(random, kind)));
    with_faults(checker, random, lines, fault)
}

/// Lines with one to four faults. Where the text is still accepted, its meaning is compared too.
pub fn with_faults(
    checker: &mut Checker,
    random: &mut Random,
    mut lines: Vec<Vec<u8>>,
    fault: impl Fn(&mut Random, &mut Vec<Vec<u8>>),
) -> Outcome {
    for _ in 0..1 + random.below(4) {
        fault(random, &mut lines);
    }
    let mut text = lines.concat();
    if random.one_in(20) {
        text.pop();
    }
    compare_text(checker, random, &text, true)?;
    compare_meaning(checker, &text)
}

/// One fault in a line, in the order of the lines, or in their number.
pub fn fault(random: &mut Random, lines: &mut Vec<Vec<u8>>) {
    if lines.is_empty() {
        return lines.push(vec![10]);
    }
    let place = random.below(lines.len() as u64) as usize;
    let other = random.below(lines.len() as u64) as usize;
    match random.below(12) {
        0 => lines.swap(place, other),
        1 => lines.insert(other, lines[place].clone()),
        2 => drop(lines.remove(place)),
        3 => lines.push(random.pick(&[&b"Z   0\n"[..], b"\n", b"R\n", b"x\n", b"P   1   1\n"]).to_vec()),
        4 => lines.insert(place, line_of(b'X', &[random.between(-1, 1), 0, 0, 0, 0, 0, 0, 0, 0])),
        5 => lines.insert(place, line_of(b'P', &[random.between(0, 17), random.between(0, 17)])),
        _ => damage_line(random, &mut lines[place]),
    }
}

/// First and a page on a text that is still accepted and small.
fn compare_meaning(checker: &mut Checker, text: &[u8]) -> Outcome {
    let read = read_text(text);
    let small = |book: &Book| book.statements <= 5 && book.exceptions.len() <= 4;
    let Some(book) = read.as_ref().ok().filter(|book| small(book)) else {
        return Ok(());
    };
    let meaning = Meaning::of(book);
    let known = Known { text, book: &read, oracle: Some(&meaning) };
    checker.first(&known)?;
    checker.first_page(&known, 30)
}

/// Random bytes: any bytes, or bytes that books have.
pub fn random_bytes(checker: &mut Checker, random: &mut Random) -> Outcome {
    let length = random.below(160) as usize;
    let any = random.one_in(2);
    let mut text: Vec<u8> = (0..length).map(|_| if any { random.next() as u8 } else { random.pick(&BYTES) }).collect();
    if random.one_in(3) {
        text = [&b"B   1   3\n"[..], &text].concat();
    }
    if !random.one_in(4) {
        text.push(10);
    }
    compare_text(checker, random, &text, true)
}

/// Numbers that tables get where other numbers were.
pub const NUMBERS: [i32; 24] = [
    i32::MIN,
    i32::MIN + 1,
    -65_536,
    -201,
    -49,
    -48,
    -13,
    -1,
    0,
    1,
    12,
    13,
    16,
    17,
    32,
    33,
    40,
    41,
    48,
    49,
    200,
    201,
    65_536,
    i32::MAX,
];

/// Every number of a table replaced by each of the numbers, or by some of them, and every length.
pub fn replace_numbers(checker: &mut Checker, random: &mut Random, table: &[i32], some: usize) -> Outcome {
    let room = read_table(table).map_or(TEXT, |book| text_of(&book).len());
    let mut damaged = table.to_vec();
    let mut numbers = NUMBERS;
    for place in 0..table.len() {
        random.shuffle(&mut numbers);
        for number in &numbers[..some.min(NUMBERS.len())] {
            damaged[place] = *number;
            checker.write(&damaged, TEXT)?;
        }
        damaged[place] = table[place];
        checker.write(&table[..place], room)?;
    }
    for more in 1..4 {
        checker.write(&[table, &vec![0; more][..]].concat(), room)?;
    }
    Ok(())
}

/// A random table with one to three faults.
pub fn faulty_table(checker: &mut Checker, random: &mut Random) -> Outcome {
    let kind = random.below(KINDS.len() as u64) as usize;
    let book = small_book(random, kind);
    faulty_table_of(checker, random, &book)
}

/// The table of a book with one to three faults.
pub fn faulty_table_of(checker: &mut Checker, random: &mut Random, book: &Book) -> Outcome {
    let mut table = table_of(book);
    for _ in 0..1 + random.below(3) {
        damage_table(random, &mut table);
    }
    let room = random.pick(&[0, 10, 100, TEXT]);
    checker.write(&table, room)
}

/// Shortens or lengthens a table, or changes one of its numbers; those before the rows more often.
fn damage_table(random: &mut Random, table: &mut Vec<i32>) {
    let place = random.below(table.len() as u64 + 1) as usize;
    let front = random.below(FRONT as u64) as usize;
    match random.below(8) {
        0 => table.truncate(place),
        1 => table.insert(place, random.pick(&NUMBERS)),
        2 | 3 if front < table.len() => table[front] = random.between(-2, 18),
        _ if place < table.len() => table[place] = random.pick(&NUMBERS),
        _ => table.push(0),
    }
}

/// Every length of a lent buffer from 0 to two past what is needed, for every operation that has one.
pub fn every_length(checker: &mut Checker, random: &mut Random, book: &Book) -> Outcome {
    let text = text_of(book);
    let read = Ok(book.clone());
    let table = table_of(book);
    let known = Known { text: &text, book: &read, oracle: None };
    checker.begin(&text);
    for length in 0..=table.len() + 2 {
        checker.read(&known, length)?;
    }
    for length in 0..=text.len() + 2 {
        checker.write(&table, length)?;
    }
    for length in 0..=book.line_bytes() + 2 {
        checker.line(&known, &pairs::lawful(random, book), length)?;
        checker.line(&known, &pairs::unlawful(random, book), length)?;
    }
    Ok(())
}

/// Every length of a lent page from 0 to two past what all resolutions need.
pub fn every_page(checker: &mut Checker, random: &mut Random, book: &Book) -> Outcome {
    let text = text_of(book);
    let read = Ok(book.clone());
    let meaning = Meaning::of(book);
    let known = Known { text: &text, book: &read, oracle: Some(&meaning) };
    checker.begin(&text);
    let all = crate::meaning::Oracle::resolutions(&meaning).len().min(40);
    for length in 0..=3 * all + 2 {
        checker.first_page(&known, length)?;
        checker.page_after(&known, &pairs::lawful(random, book), length)?;
        checker.page_after(&known, &pairs::unlawful(random, book), length)?;
    }
    Ok(())
}
