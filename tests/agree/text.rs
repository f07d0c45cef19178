//! Reading and writing of texts, number tables and A lines, straight from document 01, and of document 02 the three
//! refusals of misspelt fields (d), the Q lines (e) and the O lines (g). Nothing here was taken from the engine.

use crate::book::*;

const LINE_FEED: u8 = 10;

/// Reads a text, or gives the first refusal of 1 to 11, 17 to 19, 22 and 23 that applies.
pub fn read_text(text: &[u8]) -> Result<Book, Refusal> {
    if text.len() > TEXT {
        return Err(refused(1));
    }
    if text.last() != Some(&LINE_FEED) {
        return Err(refused(2));
    }
    let mut book = Book::empty(0);
    let mut above = 0;
    let mut number = 0;
    for line in text[..text.len() - 1].split(|byte| *byte == LINE_FEED) {
        number += 1;
        above = read_line(&mut book, above, line).map_err(|refusal| Refusal { number: refusal, line: number })?;
    }
    if above != b'Z' {
        return Err(Refusal { number: 3, line: number + 1 });
    }
    Ok(book)
}

/// Reads one line, given without its line feed, below a line of the letter `above` (0: none).
/// Answers its letter, or the number of the first refusal that applies.
fn read_line(book: &mut Book, above: u8, line: &[u8]) -> Result<u8, u32> {
    let letter = *line.first().ok_or(3u32)?;
    if !letters_below(above).contains(&letter) {
        return Err(3);
    }
    if line.len() + 1 != bytes_of_line(letter) {
        return Err(4);
    }
    let fields = read_fields(book, letter, &line[1..])?;
    take_line(book, letter, &fields)?;
    Ok(letter)
}

/// The letters that may stand below a line of this letter.
fn letters_below(above: u8) -> &'static [u8] {
    match above {
        0 => b"B",
        b'B' | b'R' => b"ROXPQZ",
        b'O' => b"OXPQZ",
        b'X' => b"XPQZ",
        b'P' => b"PQZ",
        b'Q' => b"QZ",
        _ => b"",
    }
}

/// The bytes of a line of this letter, with its line feed.
fn bytes_of_line(letter: u8) -> usize {
    match letter {
        b'B' | b'P' => 10,
        b'O' => 46,
        b'Q' => 42,
        b'Z' => 6,
        _ => 38,
    }
}

/// Reads the fields from left to right, each tested for its spelling first, then 7, 6.
fn read_fields(book: &Book, letter: u8, columns: &[u8]) -> Result<Vec<i32>, u32> {
    let mut fields = Vec::with_capacity(11);
    for (place, field) in columns.chunks(4).enumerate() {
        let value = read_field(field)?;
        test_field(book, letter, place, value)?;
        fields.push(value);
    }
    Ok(fields)
}

/// The number that a field spells if none of 5, 17 and 18 applies to it, else the first that applies.
fn read_field(field: &[u8]) -> Result<i32, u32> {
    match misspelling(field) {
        Some(refusal) => Err(refusal),
        None => Ok(spelt(field).expect("a field to which none of 5, 17 and 18 applies spells a number")),
    }
}

/// The number that a field of four columns spells, if it spells one.
pub fn spelt(field: &[u8]) -> Option<i32> {
    let spaces = field.iter().take_while(|byte| **byte == b' ').count();
    let minus = usize::from(field.get(spaces) == Some(&b'-'));
    let digits = &field[spaces + minus..];
    let first = *digits.first()?;
    if !digits.iter().all(u8::is_ascii_digit) || (first == b'0' && minus + digits.len() > 1) {
        return None;
    }
    let size = digits.iter().fold(0, |sum, digit| 10 * sum + i32::from(digit - b'0'));
    Some(if minus == 1 { -size } else { size })
}

/// The first of 5, 17 and 18 that applies to a field. Each is looked for in the whole field, and in the field alone.
pub fn misspelling(field: &[u8]) -> Option<u32> {
    if has_other_byte(field) || has_wrong_minus(field) {
        Some(5)
    } else if is_blank(field) || has_space_after_digit(field) {
        Some(17)
    } else if has_leading_zero(field) || is_minus_zero(field) {
        Some(18)
    } else {
        None
    }
}

/// "A byte other than space, digit or minus".
fn has_other_byte(field: &[u8]) -> bool {
    !field.iter().all(|byte| *byte == b' ' || byte.is_ascii_digit() || *byte == b'-')
}

/// "A minus directly after a digit or not directly before one".
fn has_wrong_minus(field: &[u8]) -> bool {
    let digit_at = |place: usize| field.get(place).is_some_and(u8::is_ascii_digit);
    let wrong = |place: usize| place.checked_sub(1).is_some_and(digit_at) || !digit_at(place + 1);
    (0..field.len()).any(|place| field[place] == b'-' && wrong(place))
}

/// "The field is blank".
fn is_blank(field: &[u8]) -> bool {
    field.iter().all(|byte| *byte == b' ')
}

/// "A space follows a digit", directly.
fn has_space_after_digit(field: &[u8]) -> bool {
    field.windows(2).any(|two| two[0].is_ascii_digit() && two[1] == b' ')
}

/// "It has a leading zero", also behind a minus: the first digit is a zero, and another digit follows it.
fn has_leading_zero(field: &[u8]) -> bool {
    let mut digits = field.iter().filter(|byte| byte.is_ascii_digit());
    digits.next() == Some(&b'0') && digits.next().is_some()
}

/// It "is "-0"".
fn is_minus_zero(field: &[u8]) -> bool {
    field == b"  -0"
}

/// Tests one field's value: 7 for the edition, 6 for the others.
fn test_field(book: &Book, letter: u8, place: usize, value: i32) -> Result<(), u32> {
    let (low, high) = match (letter, place) {
        (b'B', 0) => return if value == 1 { Ok(()) } else { Err(7) },
        (b'B', _) => (1, STATEMENTS),
        (b'P', _) | (b'Q', 0 | 1) => (1, EXCEPTIONS as i32),
        (b'Z', _) => (0, (PLAIN + ALTERNATIVES + EXCEPTIONS + PREFERENCES + CONDITIONALS) as i32),
        _ => (-book.statements, book.statements),
    };
    if value < low || value > high {
        Err(6)
    } else {
        Ok(())
    }
}

/// Tests the line as a whole, 8 or 19 or 22 and then 9 to 11 or 23, and takes it into the book.
fn take_line(book: &mut Book, letter: u8, fields: &[i32]) -> Result<(), u32> {
    let [plain, exceptions, preferences, conditionals, alternatives] = book.counts();
    match letter {
        b'B' => book.statements = fields[1],
        b'R' => {
            within(plain, PLAIN, 8)?;
            book.plain.push(Rule::of_row(fields));
        }
        b'O' => {
            within(alternatives, ALTERNATIVES, 22)?;
            book.alternatives.push(with_two_heads(Alternatives::of_row(fields))?);
        }
        b'X' => {
            within(exceptions, EXCEPTIONS, 8)?;
            book.exceptions.push(with_head(Rule::of_row(fields))?);
        }
        b'P' => {
            within(preferences, PREFERENCES, 8)?;
            book.preferences.push(of_exceptions([fields[0], fields[1]], exceptions)?);
        }
        b'Q' => {
            within(conditionals, CONDITIONALS, 19)?;
            of_exceptions([fields[0], fields[1]], exceptions)?;
            book.conditionals.push(Conditional::of_row(fields));
        }
        _ => return if fields[0] as usize == book.lines() { Ok(()) } else { Err(11) },
    }
    Ok(())
}

/// This refusal if the line after so many is one over its limit.
fn within(count: usize, limit: usize, refusal: u32) -> Result<(), u32> {
    if count == limit {
        Err(refusal)
    } else {
        Ok(())
    }
}

/// 9 if an exception has head 0.
fn with_head(rule: Rule) -> Result<Rule, u32> {
    if rule.head == 0 {
        Err(9)
    } else {
        Ok(rule)
    }
}

/// 23 if fewer than two of the heads are filled: a head that is not 0 is, be it that of another place again.
fn with_two_heads(line: Alternatives) -> Result<Alternatives, u32> {
    if line.filled() < 2 {
        Err(23)
    } else {
        Ok(line)
    }
}

/// 10 if a preference, under a condition or not, names a missing exception.
fn of_exceptions(order: [i32; 2], exceptions: usize) -> Result<[i32; 2], u32> {
    if order.iter().any(|number| *number as usize > exceptions) {
        Err(10)
    } else {
        Ok(order)
    }
}

/// A line of this letter and these fields.
pub fn line_of(letter: u8, fields: &[i32]) -> Vec<u8> {
    let mut line = Vec::with_capacity(64);
    line.push(letter);
    for field in fields {
        put_field(&mut line, *field);
    }
    line.push(LINE_FEED);
    line
}

/// Adds a field of four columns, the number right-justified after spaces. A longer number gets more columns.
fn put_field(line: &mut Vec<u8>, field: i32) {
    let shown = field.to_string();
    line.extend(std::iter::repeat_n(b' ', 4usize.saturating_sub(shown.len())));
    line.extend_from_slice(shown.as_bytes());
}

/// The text of a book.
pub fn text_of(book: &Book) -> Vec<u8> {
    let mut text = line_of(b'B', &[1, book.statements]);
    for rule in &book.plain {
        text.extend(line_of(b'R', &rule.row()));
    }
    for line in &book.alternatives {
        text.extend(line_of(b'O', &line.row()));
    }
    for rule in &book.exceptions {
        text.extend(line_of(b'X', &rule.row()));
    }
    for order in &book.preferences {
        text.extend(line_of(b'P', order));
    }
    for line in &book.conditionals {
        text.extend(line_of(b'Q', &line.row()));
    }
    text.extend(line_of(b'Z', &[book.lines() as i32]));
    text
}

/// The number table of a book.
pub fn table_of(book: &Book) -> Vec<i32> {
    let mut table = vec![book.statements];
    table.extend(book.counts().map(|count| count as i32));
    for rule in &book.plain {
        table.extend(rule.row());
    }
    for line in &book.alternatives {
        table.extend(line.row());
    }
    for rule in &book.exceptions {
        table.extend(rule.row());
    }
    for order in &book.preferences {
        table.extend(order);
    }
    for line in &book.conditionals {
        table.extend(line.row());
    }
    table
}

/// Reads a number table, or gives the first refusal that applies.
pub fn read_table(table: &[i32]) -> Result<Book, Refusal> {
    if table.len() < FRONT {
        return Err(refused(16));
    }
    if table[0] < 1 || table[0] > STATEMENTS {
        return Err(Refusal { number: 6, line: 1 });
    }
    let limits = [PLAIN, EXCEPTIONS, PREFERENCES, CONDITIONALS, ALTERNATIVES];
    if (0..5).any(|place| table[place + 1] < 0 || table[place + 1] > limits[place] as i32) {
        return Err(Refusal { number: 8, line: 1 });
    }
    let [plain, exceptions, preferences, conditionals, alternatives] =
        [1, 2, 3, 4, 5].map(|place| table[place] as usize);
    let rules = 9 * plain + 11 * alternatives + 9 * exceptions;
    if table.len() != FRONT + rules + 2 * preferences + 10 * conditionals {
        return Err(refused(16));
    }
    let (rules, others) = table[FRONT..].split_at(rules);
    let (orders, lines) = others.split_at(2 * preferences);
    let mut book = Book::empty(table[0]);
    take_rules(&mut book, rules, plain, alternatives)?;
    for row in orders.chunks(2) {
        test_order(&book, row)?;
        book.preferences.push([row[0], row[1]]);
    }
    for row in lines.chunks(10) {
        test_entries(&book, &row[2..])?;
        test_order(&book, &row[..2])?;
        book.conditionals.push(Conditional::of_row(row));
    }
    Ok(book)
}

/// Takes the rows of so many R and O lines, and then those of X lines.
fn take_rules(book: &mut Book, rows: &[i32], plain: usize, alternatives: usize) -> Result<(), Refusal> {
    let (plain, rest) = rows.split_at(9 * plain);
    let (alternatives, exceptions) = rest.split_at(11 * alternatives);
    for row in plain.chunks(9) {
        take_row(book, false, row)?;
    }
    for row in alternatives.chunks(11) {
        test_entries(book, row)?;
        let line = with_two_heads(Alternatives::of_row(row)).map_err(|number| refused_row(book, number))?;
        book.alternatives.push(line);
    }
    for row in exceptions.chunks(9) {
        take_row(book, true, row)?;
    }
    Ok(())
}

/// The refusal of the row that would come next in the book's text.
fn refused_row(book: &Book, number: u32) -> Refusal {
    Refusal { number, line: book.lines() as u64 + 2 }
}

/// Tests a row of nine numbers, 6 then 9, and takes it.
fn take_row(book: &mut Book, exception: bool, row: &[i32]) -> Result<(), Refusal> {
    test_entries(book, row)?;
    if exception && row[0] == 0 {
        return Err(refused_row(book, 9));
    }
    let rules = if exception { &mut book.exceptions } else { &mut book.plain };
    rules.push(Rule::of_row(row));
    Ok(())
}

/// 6 if a head or an entry of the next row is out of range.
fn test_entries(book: &Book, entries: &[i32]) -> Result<(), Refusal> {
    if entries.iter().any(|value| *value < -book.statements || *value > book.statements) {
        return Err(refused_row(book, 6));
    }
    Ok(())
}

/// 6 if one of the two exceptions that the next row names is out of range, then 10 if it is missing.
fn test_order(book: &Book, order: &[i32]) -> Result<(), Refusal> {
    if order.iter().any(|value| *value < 1 || *value > EXCEPTIONS as i32) {
        return Err(refused_row(book, 6));
    }
    if order.iter().any(|value| *value as usize > book.exceptions.len()) {
        return Err(refused_row(book, 10));
    }
    Ok(())
}

/// The A line of a lawful pair.
pub fn a_line_of(book: &Book, pair: &Pair) -> Vec<u8> {
    let mut fields: Vec<i32> = (1..=64).filter(|number| pair.taken >> (number - 1) & 1 == 1).collect();
    fields.insert(0, fields.len() as i32);
    fields.resize(if book.is_wide() { 17 } else { 13 }, 0);
    let mut line = line_of(b'A', &fields);
    line.pop();
    for statement in 0..book.statements {
        line.push(match (pair.held >> statement & 1, pair.denied >> statement & 1) {
            (1, _) => b'+',
            (_, 1) => b'-',
            _ => b'.',
        });
    }
    line.push(LINE_FEED);
    line
}

/// What `ways` prints for the first refusal of a text.
pub fn refusal_line(refusal: &Refusal) -> Vec<u8> {
    line_of(b'F', &[refusal.number as i32, refusal.line as i32])
}
