//! The program `ways`: what it prints, byte for byte.

use crate::book::*;
use crate::process::run;
use crate::text::a_line_of;

/// The most A lines that `ways` prints.
pub const MOST: usize = 9_999;

/// How often each closing line was compared.
#[derive(Default)]
pub struct Closed {
    pub end_with_none: u64,
    pub end_with_some: u64,
    pub more: u64,
    pub refused: u64,
    pub lines: u64,
}

/// What `ways` prints for a book with these resolutions first, of which there may be more.
pub fn listing_of(book: &Book, resolutions: &[Pair], more: bool) -> Vec<u8> {
    let shown = &resolutions[..resolutions.len().min(MOST)];
    let mut output: Vec<u8> = shown.iter().flat_map(|pair| a_line_of(book, pair)).collect();
    output.extend(closing_line(if more || resolutions.len() > MOST { 'M' } else { 'E' }, shown.len()));
    output
}

/// The closing line below so many A lines: a letter, and their number at the right of 8 columns.
fn closing_line(letter: char, lines: usize) -> Vec<u8> {
    format!("{letter}{lines:>8}\n").into_bytes()
}

/// Compares what `ways` prints for a text.
pub fn compare(path: &str, text: &[u8], expected: &[u8], closed: &mut Closed) -> Result<(), String> {
    closed.count(expected);
    let (output, _) = run(path, &[], text)?;
    if output == expected {
        Ok(())
    } else {
        Err(shown_difference(&output, expected))
    }
}

/// The first line at which two outputs differ.
fn shown_difference(output: &[u8], expected: &[u8]) -> String {
    let lines = |bytes: &[u8]| -> Vec<String> { String::from_utf8_lossy(bytes).lines().map(str::to_string).collect() };
    let (output, expected) = (lines(output), lines(expected));
    let place = (0..output.len().max(expected.len())).find(|place| output.get(*place) != expected.get(*place));
    match place {
        Some(place) => {
            format!("ways, line {}: {:?} instead of {:?}", place + 1, output.get(place), expected.get(place))
        }
        None => "ways: the line feeds differ".to_string(),
    }
}

impl Closed {
    /// Counts an expected output by its closing line.
    fn count(&mut self, output: &[u8]) {
        let lines: Vec<&[u8]> = output.split_inclusive(|byte| *byte == 10).collect();
        let above = lines.len() - 1;
        self.lines += above as u64;
        match lines[above][0] {
            b'F' => self.refused += 1,
            b'M' => self.more += 1,
            _ if above == 0 => self.end_with_none += 1,
            _ => self.end_with_some += 1,
        }
    }
}
