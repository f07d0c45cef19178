//! A book, a pair and a refusal, as document 01 names them, and of document 02 the Q lines (e) and the O lines (g).

/// The most statements, plain rules, exceptions, preferences, preferences under a condition and rules with alternatives
/// of a book, and the most bytes of its text.
pub const STATEMENTS: i32 = 48;
pub const PLAIN: usize = 200;
pub const EXCEPTIONS: usize = 16;
pub const PREFERENCES: usize = 32;
pub const CONDITIONALS: usize = 32;
pub const ALTERNATIVES: usize = 40;
pub const TEXT: usize = 11_728;

/// The numbers before the rows of a number table, the most numbers that it can have, and the most bytes of an A line.
pub const FRONT: usize = 6;
pub const TABLE: usize = FRONT + 9 * (PLAIN + EXCEPTIONS) + 11 * ALTERNATIVES + 2 * PREFERENCES + 10 * CONDITIONALS;
pub const LINE: usize = 70 + STATEMENTS as usize;

/// The most exceptions of a book whose A lines have 12 fields for them. In a longer book they have 16.
pub const NARROW: usize = 12;

/// A plain rule or an exception: +i is i, -i is -i, and 0 is an unused entry or no head.
#[derive(Clone, Copy, PartialEq, Eq, Debug)]
pub struct Rule {
    pub head: i32,
    pub needed: [i32; 4],
    pub barred: [i32; 4],
}

impl Rule {
    /// The nine numbers of the rule's row.
    pub fn row(&self) -> [i32; 9] {
        let mut row = [self.head; 9];
        row[1..5].copy_from_slice(&self.needed);
        row[5..9].copy_from_slice(&self.barred);
        row
    }

    /// The rule of a row of nine numbers.
    pub fn of_row(row: &[i32]) -> Rule {
        let mut rule = Rule { head: row[0], needed: [0; 4], barred: [0; 4] };
        rule.needed.copy_from_slice(&row[1..5]);
        rule.barred.copy_from_slice(&row[5..9]);
        rule
    }
}

/// A plain rule with alternatives, of an O line: at least one of its heads, where its body is satisfied. An unused head
/// is 0.
#[derive(Clone, Copy, PartialEq, Eq, Debug)]
pub struct Alternatives {
    pub heads: [i32; 3],
    pub needed: [i32; 4],
    pub barred: [i32; 4],
}

impl Alternatives {
    /// The eleven numbers of the line's row.
    pub fn row(&self) -> [i32; 11] {
        let mut row = [0; 11];
        row[..3].copy_from_slice(&self.heads);
        row[3..7].copy_from_slice(&self.needed);
        row[7..].copy_from_slice(&self.barred);
        row
    }

    /// The line of a row of eleven numbers.
    pub fn of_row(row: &[i32]) -> Alternatives {
        let mut line = Alternatives { heads: [row[0], row[1], row[2]], needed: [0; 4], barred: [0; 4] };
        line.needed.copy_from_slice(&row[3..7]);
        line.barred.copy_from_slice(&row[7..11]);
        line
    }

    /// How many of its heads are filled.
    pub fn filled(&self) -> usize {
        self.heads.iter().filter(|head| **head != 0).count()
    }
}

/// A preference under a condition, of a Q line: it counts where its body is satisfied.
#[derive(Clone, Copy, PartialEq, Eq, Debug)]
pub struct Conditional {
    pub order: [i32; 2],
    pub needed: [i32; 4],
    pub barred: [i32; 4],
}

impl Conditional {
    /// The ten numbers of the line's row.
    pub fn row(&self) -> [i32; 10] {
        let mut row = [0; 10];
        row[..2].copy_from_slice(&self.order);
        row[2..6].copy_from_slice(&self.needed);
        row[6..].copy_from_slice(&self.barred);
        row
    }

    /// The line of a row of ten numbers.
    pub fn of_row(row: &[i32]) -> Conditional {
        let mut line = Conditional { order: [row[0], row[1]], needed: [0; 4], barred: [0; 4] };
        line.needed.copy_from_slice(&row[2..6]);
        line.barred.copy_from_slice(&row[6..10]);
        line
    }
}

/// A book. Exceptions are numbered from 1 in the order of `exceptions`.
#[derive(Clone, PartialEq, Eq, Debug)]
pub struct Book {
    pub statements: i32,
    pub plain: Vec<Rule>,
    pub alternatives: Vec<Alternatives>,
    pub exceptions: Vec<Rule>,
    pub preferences: Vec<[i32; 2]>,
    pub conditionals: Vec<Conditional>,
}

impl Book {
    /// The book of so many statements without any rule.
    pub fn empty(statements: i32) -> Book {
        Book {
            statements,
            plain: Vec::new(),
            alternatives: Vec::new(),
            exceptions: Vec::new(),
            preferences: Vec::new(),
            conditionals: Vec::new(),
        }
    }

    /// How many R, X, P, Q and O lines the book has, in the order of a table's counts.
    pub fn counts(&self) -> [usize; 5] {
        [
            self.plain.len(),
            self.exceptions.len(),
            self.preferences.len(),
            self.conditionals.len(),
            self.alternatives.len(),
        ]
    }

    /// How many lines the book has between its first and its last.
    pub fn lines(&self) -> usize {
        self.counts().iter().sum()
    }

    /// Whether the book has more than 12 exceptions.
    pub fn is_wide(&self) -> bool {
        self.exceptions.len() > NARROW
    }

    /// The bytes of an A line of the book, by the book's exceptions and not by those that a pair takes.
    pub fn line_bytes(&self) -> usize {
        let others = if self.is_wide() { 70 } else { 54 };
        others + self.statements as usize
    }
}

/// A pair: number i is worth 2^(i-1) in each of the three.
#[repr(C)]
#[derive(Clone, Copy, PartialEq, Eq, Debug)]
pub struct Pair {
    pub taken: u64,
    pub held: u64,
    pub denied: u64,
}

/// The highest number of a refusal. 20 and 21 are kept for a request to come, and nothing is refused by them.
pub const LAST_REFUSAL: usize = 26;
pub const OF_BOOKS: std::ops::RangeInclusive<usize> = 1..=19;
pub const OF_ALTERNATIVES: std::ops::RangeInclusive<usize> = 22..=23;
pub const OF_STORES: std::ops::RangeInclusive<usize> = 24..=26;

/// A refusal of document 01 or 02, by number and line.
#[derive(Clone, Copy, PartialEq, Eq, Debug)]
pub struct Refusal {
    pub number: u32,
    pub line: u64,
}

/// The refusal with this number, tied to no line.
pub fn refused(number: u32) -> Refusal {
    Refusal { number, line: 0 }
}

/// Document 01's refusals of a pair, 12 to 14, the first that applies.
pub fn refusal_of_pair(book: &Book, pair: &Pair) -> Option<Refusal> {
    let past_statements = !0u64 << book.statements;
    if pair.taken >> book.exceptions.len() != 0 {
        Some(refused(12))
    } else if (pair.held | pair.denied) & past_statements != 0 {
        Some(refused(13))
    } else if pair.held & pair.denied != 0 {
        Some(refused(14))
    } else {
        None
    }
}
