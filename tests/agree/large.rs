//! Random books of many kinds with up to 48 statements, for the comparison of `ways` with clingo.

use crate::blocks::Blocks;
use crate::book::*;
use crate::kinds;
use crate::maker::Maker;
use crate::random::Random;
use crate::wide::many;

type Kind = fn(&mut Random) -> Book;

/// The kinds, by name.
pub const KINDS: [(&str, Kind); 18] = [
    ("linked blocks", linked_blocks),
    ("one-value fields", fields),
    ("defaults", defaults),
    ("free statements with filters", filtered),
    ("clauses over free statements", clauses),
    ("random rules", random_rules),
    ("positive loops", positive_loops),
    ("preferences", preferences),
    ("large sets of exceptions", large_sets),
    ("all exceptions needed", all_needed),
    ("views that dominate each other", mutual),
    ("pigeonholes", pigeonholes),
    ("parities", parities),
    ("stated generator", stated_generator),
    ("exceptions that need each other", needing),
    ("both signs", both_signs),
    ("boundary of 9,999", boundary),
    ("unplanned", unplanned),
];

/// Begins a large book.
fn maker(random: &mut Random, low: i32, high: i32) -> Maker<'_> {
    let statements = random.between(low, high);
    Maker::new(random, statements, EXCEPTIONS)
}

/// Small books side by side, then a few lines across them, so that the parts are no longer apart.
fn linked_blocks(random: &mut Random) -> Book {
    let book = Blocks::draw(random).book;
    let mut maker = Maker { random, book, room: EXCEPTIONS };
    for _ in 0..maker.random.below(6) {
        maker.random_plain(2, 2);
    }
    maker.random_exception(1, 1);
    maker.random_preferences(2);
    maker.book
}

/// One-value fields: each claim is held if not denied, two claims of a field are never both held,
/// and one exception denies each claim.
fn fields(random: &mut Random) -> Book {
    let most = many(random);
    let form = draw_form(random, most);
    let mut maker = Maker::new(random, form.iter().sum(), EXCEPTIONS);
    put_fields(&mut maker, &form);
    if maker.random.one_in(2) {
        maker.random_preferences(4);
    }
    maker.shuffled()
}

/// How many claims each of at most eight fields has, one to five; so many claims in all, or fewer.
pub fn draw_form(random: &mut Random, most: i32) -> Vec<i32> {
    let mut form: Vec<i32> = Vec::new();
    while form.len() < 8 && form.iter().sum::<i32>() < most {
        form.push(random.between(1, 5).min(most - form.iter().sum::<i32>()));
    }
    form
}

/// The numbers of the claims of each field.
pub fn claims_of(form: &[i32]) -> Vec<Vec<i32>> {
    let mut numbers = 1..;
    form.iter().map(|count| numbers.by_ref().take(*count as usize).collect()).collect()
}

/// Adds one-value fields of so many claims.
pub fn put_fields(maker: &mut Maker, form: &[i32]) {
    for field in claims_of(form) {
        for claim in &field {
            maker.plain(*claim, &[], &[-claim]);
            maker.exception(-claim, &[], &[]);
        }
        maker.one_of(&field);
    }
}

/// Many defaults, observations against some of them, consequences, and exceptions that deny.
fn defaults(random: &mut Random) -> Book {
    let mut maker = maker(random, 16, 48);
    for statement in 1..=maker.n() {
        maker.plain(statement, &[], &[-statement]);
        if maker.random.one_in(3) {
            let cause = maker.conclusion();
            maker.plain(-statement, &[cause], &[statement]);
        }
    }
    for _ in 0..maker.random.between(2, EXCEPTIONS as i32) {
        let statement = maker.statement();
        maker.exception(-statement, &[], &[]);
        if maker.random.one_in(2) {
            maker.constraint(&[], &[-statement]);
        }
    }
    let heads: Vec<i32> = maker.book.exceptions.iter().map(|rule| -rule.head).collect();
    for _ in 0..3 {
        let two = [maker.random.pick(&heads), maker.random.pick(&heads)];
        maker.constraint(&two, &[]);
    }
    maker.random_preferences(4);
    maker.shuffled()
}

/// Free statements and random filters; often more than 9,999 resolutions.
fn filtered(random: &mut Random) -> Book {
    let mut maker = maker(random, 8, 48);
    for statement in 1..=maker.n() {
        if statement < 20 || maker.random.one_in(3) {
            maker.free(statement);
        }
    }
    for _ in 0..maker.random.below(12) {
        let filter = [maker.conclusion(), maker.conclusion(), maker.conclusion()];
        maker.constraint(&filter, &[]);
    }
    if maker.random.one_in(2) {
        let wanted = maker.statement();
        maker.constraint(&[], &[wanted, -wanted]);
        maker.exception(wanted, &[], &[]);
        maker.exception(-wanted, &[], &[]);
    }
    maker.shuffled()
}

/// Clauses of three over free statements near the hard region; exceptions repair some of them.
fn clauses(random: &mut Random) -> Book {
    let mut maker = maker(random, 14, 28);
    let variables = maker.n() - 4;
    for statement in 1..=variables {
        maker.free(statement);
    }
    for number in 0..(variables * 9 / 2).min(130) {
        let mut clause: Vec<i32> = (0..3).map(|_| maker.random.between(1, variables)).collect();
        clause.dedup();
        let clause: Vec<i32> =
            clause.iter().map(|statement| if maker.random.one_in(2) { *statement } else { -statement }).collect();
        let repaired = if number % 9 == 0 { vec![variables + 1 + number / 9 % 4] } else { Vec::new() };
        maker.constraint(&clause, &repaired);
    }
    for repair in variables + 1..=variables + 4 {
        maker.exception(repair, &[], &[]);
    }
    maker.random_preferences(3);
    maker.shuffled()
}

/// Random rules with 0 to 2 needed and 1 to 4 barred entries.
fn random_rules(random: &mut Random) -> Book {
    let mut maker = maker(random, 10, 48);
    let (needed, barred) = (maker.random.pick(&[0, 0, 0, 1, 2]), 1 + maker.random.below(4));
    let rules = (maker.n() as u64 * (2 + maker.random.below(3))).min(PLAIN as u64);
    let (constraints, denials) = (maker.random.one_in(3), maker.random.one_in(4));
    for _ in 0..rules {
        let head = match maker.conclusion() {
            _ if constraints && maker.random.one_in(25) => 0,
            conclusion if denials => conclusion,
            conclusion => conclusion.abs(),
        };
        let entry = |maker: &mut Maker| if denials { maker.conclusion() } else { maker.statement() };
        let needs: Vec<i32> = (0..maker.random.below(needed + 1)).map(|_| entry(&mut maker)).collect();
        let bars: Vec<i32> = (0..barred).map(|_| entry(&mut maker)).collect();
        maker.plain(head, &needs, &bars);
    }
    for _ in 0..maker.random.below(EXCEPTIONS as u64 + 1) {
        maker.random_exception(1, 2);
    }
    maker.random_preferences(8);
    maker.book
}

/// Rings of needed entries, entered by free statements or by exceptions; the rings must be reached.
fn positive_loops(random: &mut Random) -> Book {
    let mut maker = maker(random, 12, 40);
    let free = 4;
    for statement in 1..=free {
        maker.free(statement);
    }
    let mut ring: Vec<i32> = (free + 1..=maker.n()).collect();
    maker.random.shuffle(&mut ring);
    for part in ring.chunks(6) {
        for place in 0..part.len() {
            maker.plain(part[place], &[part[(place + 1) % part.len()]], &[]);
        }
        let (entry, cause) = (maker.random.pick(part), maker.random.between(1, free));
        maker.plain(entry, &[cause], &[]);
        let entry = maker.random.pick(part);
        maker.exception(entry, &[], &[]);
        if maker.random.one_in(2) {
            let wanted = maker.random.pick(part);
            maker.constraint(&[], &[wanted]);
        }
        if maker.random.one_in(3) {
            let unwanted = maker.random.between(1, free);
            maker.constraint(&[unwanted], &[]);
        }
    }
    maker.random_preferences(3);
    maker.shuffled()
}

/// Many exceptions under chains, circles and sparse orders, with wants that several of them meet.
fn preferences(random: &mut Random) -> Book {
    let count = many(random);
    let mut maker = maker(random, count, 48);
    for statement in 1..=count {
        let needed = if maker.random.one_in(6) { vec![maker.random.between(1, count)] } else { Vec::new() };
        maker.exception(statement, &needed, &[]);
    }
    for statement in count + 1..=maker.n() {
        let cause = maker.random.between(1, statement - 1);
        maker.plain(statement, &[cause], &[]);
    }
    for _ in 0..maker.random.between(1, 5) {
        let wanted: Vec<i32> = (0..maker.random.between(1, 4)).map(|_| maker.statement()).collect();
        maker.constraint(&[], &wanted);
    }
    for _ in 0..maker.random.below(3) {
        let two = [maker.random.between(1, count), maker.random.between(1, count)];
        maker.constraint(&two, &[]);
    }
    match maker.random.below(3) {
        0 => (1..count).for_each(|number| {
            if number % 4 != 0 {
                maker.prefer(number, number + 1)
            }
        }),
        1 => (1..4).for_each(|number| maker.prefer(number, number % 3 + 1)),
        _ => maker.random_preferences(count as u64),
    }
    maker.shuffled()
}

/// Views only with many exceptions: covers, or all of them.
fn large_sets(random: &mut Random) -> Book {
    let count = many(random);
    let mut maker = maker(random, 2 * count, 40);
    for number in 1..=count {
        maker.exception(number, &[], &[]);
        for _ in 0..2 {
            let covered = maker.random.between(count + 1, maker.book.statements);
            maker.plain(covered, &[number], &[]);
        }
    }
    for statement in count + 1..=maker.n() {
        let reached = maker.book.plain.iter().any(|rule| rule.head == statement);
        if reached && !maker.random.one_in(4) {
            maker.constraint(&[], &[statement]);
        }
    }
    for _ in 0..maker.random.below(3) {
        maker.random_plain(2, 2);
    }
    maker.random_preferences(2);
    maker.shuffled()
}

/// Every exception is needed: by itself, or since the next one needs what it concludes.
fn all_needed(random: &mut Random) -> Book {
    let count = many(random);
    let mut maker = maker(random, count, 48);
    let mut before = None;
    for number in 1..=count {
        let needed: Vec<i32> = before.into_iter().collect();
        maker.exception(number, &needed, &[]);
        let ends = number == count || maker.random.one_in(4);
        if ends {
            maker.constraint(&[], &[number]);
        }
        before = if ends { None } else { Some(number) };
    }
    for statement in (count + 1..=maker.n()).take(8) {
        maker.free(statement);
    }
    maker.random_exception(1, 1);
    maker.shuffled()
}

/// Pairs of exceptions of which one is needed, and the first outranks the second in some; across pairs some exclude
/// each other, as in K9.
fn mutual(random: &mut Random) -> Book {
    let count = many(random) / 2 * 2;
    let mut maker = maker(random, count, 48);
    (1..=count).for_each(|number| maker.exception(number, &[], &[]));
    for one in (1..count).step_by(2) {
        maker.constraint(&[], &[one, one + 1]);
        if maker.random.one_in(2) {
            maker.prefer(one, one + 1);
        }
        let other = 1 + 2 * maker.random.between(0, count / 2 - 1);
        if other != one {
            maker.constraint(&[one, other], &[]);
            if maker.random.one_in(2) {
                maker.constraint(&[one + 1, other + 1], &[]);
            }
        }
    }
    maker.shuffled()
}

/// Pigeons in too few holes; exceptions let single pigeons go.
fn pigeonholes(random: &mut Random) -> Book {
    let (pigeons, holes) = (random.between(3, 5), random.between(2, 4));
    let mut maker = Maker::new(random, pigeons * holes + pigeons, EXCEPTIONS);
    let place = |pigeon: i32, hole: i32| pigeon * holes + hole + 1;
    for pigeon in 0..pigeons {
        let all: Vec<i32> = (0..holes).map(|hole| place(pigeon, hole)).collect();
        let gone = pigeons * holes + pigeon + 1;
        for own in &all {
            let mut others: Vec<i32> = all.iter().copied().filter(|other| other != own).collect();
            others.push(gone);
            maker.plain(*own, &[], &others[..others.len().min(4)]);
        }
        maker.exception(gone, &[], &[]);
    }
    for hole in 0..holes {
        for one in 0..pigeons {
            for other in one + 1..pigeons {
                maker.constraint(&[place(one, hole), place(other, hole)], &[]);
            }
        }
    }
    maker.random_preferences(3);
    maker.shuffled()
}

/// Parities of three over free statements, with exceptions that stand beside some.
fn parities(random: &mut Random) -> Book {
    let mut maker = maker(random, 9, 20);
    let variables = maker.n() - 3;
    for statement in 1..=variables {
        maker.free(statement);
    }
    for number in 0..variables.min(16) {
        let mut three: Vec<i32> = (1..=variables).collect();
        maker.random.shuffle(&mut three);
        let wanted = maker.random.below(2);
        let repaired = if number % 4 == 0 { vec![variables + 1 + number / 4 % 3] } else { Vec::new() };
        for signs in (0..8u64).filter(|signs| u64::from(signs.count_ones()) % 2 == wanted) {
            let row: Vec<i32> =
                (0..3).map(|place| if signs >> place & 1 == 1 { three[place] } else { -three[place] }).collect();
            maker.constraint(&row, &repaired);
        }
    }
    for repair in variables + 1..=variables + 3 {
        maker.exception(repair, &[], &[]);
    }
    maker.shuffled()
}

/// The stated generator of document 02, request (m), on a random shape.
fn stated_generator(random: &mut Random) -> Book {
    let mut maker = maker(random, 8, 48);
    let rules = maker.random.below(PLAIN as u64 + 1) as usize;
    let exceptions = maker.random.below(EXCEPTIONS as u64 + 1) as usize;
    let preferences = if exceptions == 0 { 0 } else { maker.random.below(12) as usize };
    let start = maker.random.next() as u32;
    kinds::fill_as_stated(&mut maker, [rules, exceptions, preferences], start);
    maker.book
}

/// Exceptions whose bodies need what other exceptions conclude, several chains of them.
fn needing(random: &mut Random) -> Book {
    let mut maker = maker(random, 12, 48);
    for _ in 0..maker.random.between(2, 6) {
        kinds::exceptions_that_need_each_other(&mut maker);
    }
    for _ in 0..maker.random.below(8) {
        let head = maker.statement();
        let (needed, barred) = (maker.conclusions(1), maker.conclusions(2));
        maker.plain(head, &needed, &barred);
    }
    maker.shuffled()
}

/// Rules for many statements and against them, under barred entries.
fn both_signs(random: &mut Random) -> Book {
    let mut maker = maker(random, 10, 48);
    for statement in 1..=maker.n() {
        let (one, other) = (maker.conclusion(), maker.conclusion());
        maker.plain(statement, &[], &[-statement, one]);
        maker.plain(-statement, &[other], &[statement]);
    }
    for _ in 0..maker.random.below(10) {
        maker.random_exception(1, 2);
    }
    for _ in 0..maker.random.below(4) {
        let wanted = maker.conclusion();
        maker.constraint(&[], &[wanted]);
    }
    maker.random_preferences(5);
    maker.shuffled()
}

/// A book with 10,000 resolutions, less those that up to two constraints take away.
fn boundary(random: &mut Random) -> Book {
    let less = random.below(3) as usize;
    counted(random, less)
}

/// A book with exactly 10,000 - `less` resolutions: four choices of one in five and four free statements.
pub fn counted(random: &mut Random, less: usize) -> Book {
    let mut maker = Maker::new(random, 24, EXCEPTIONS);
    for group in 0..4 {
        let five: Vec<i32> = (1..=5).map(|own| 5 * group + own).collect();
        for own in &five {
            let others: Vec<i32> = five.iter().copied().filter(|other| other != own).collect();
            maker.plain(*own, &[], &others);
        }
    }
    (21..=24).for_each(|statement| maker.free(statement));
    for own in 1..=less as i32 {
        maker.constraint(&[own, 6, 11, 16], &[21, 22, 23, 24]);
    }
    maker.shuffled()
}

/// Any rules at all, in larger numbers.
fn unplanned(random: &mut Random) -> Book {
    let mut maker = maker(random, 8, 48);
    for _ in 0..maker.random.below(2 * maker.n() as u64) {
        let head = maker.statement();
        let (needed, barred) = (maker.conclusions(1), maker.conclusions(2));
        maker.plain(head, &needed, &barred);
    }
    kinds::loops_through_negation(&mut maker);
    if maker.random.one_in(2) {
        kinds::constraints(&mut maker);
    }
    maker.shuffled()
}
