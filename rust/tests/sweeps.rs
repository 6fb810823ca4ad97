//! Sweeps over books and sheets: cut at every length, with every byte changed to every value, with every set of faults. On
//! each the library, by the wrapper and by the C calls, must answer and write what the plain implementation does.

mod compared;
// Of these the other tests use what is left unused here.
#[allow(dead_code)]
mod generate;
#[allow(dead_code)]
mod plain;
#[allow(dead_code)]
mod support;

use std::iter;
use std::time::Instant;

use compared::compare;
use compared::tally::Tally;
use generate::damage::damaged;
use generate::random::Random;
use generate::sheets::raise;
use plain::book::{Book, Grade};
use plain::grades::Interpretation;
use plain::Plain;
use support::buffer::Buffer;
use support::calls::{Answer, Call};
use support::draft::{is_set, Draft, ALL, AND, EACH_AT_LEAST, NAME, NOT, OR, SOME, TOP};

/// With more candidates a book is not decided here: the plain implementation takes long.
const FEW: usize = 256;

/// The book that document 01 prints.
const PRINTED: &str = "
    01 02  00 12 00 02  00 18 00 02  00 1C 00 01  00 20 00 00
    00 00 00  01 00 00
    00 01  01 00
    00 00 00 01
";

/// The same with claims on sets: A at least 1 of 1 and 2, "not A" at most 1 of 0 and 2, and on an empty set what nobody meets.
const SETS: &str = "
    01 02  00 12 00 02  00 18 00 02  00 1C 00 04  00 2C 00 00
    00 00 00  01 00 00
    00 01  01 00
    00 00 00 01  06 00 02 01  05 01 03 01  00 01 02 02
";

/// All kinds of terms, quantified four deep, a rule, and claims that some interpretations break, two of them on sets. N is 4.
const FOUR_DEEP: &str = "
    01 04  00 12 00 10  00 42 00 01  00 44 00 03  00 50 00 01
    00 00 00  00 01 00  06 00 00  07 00 00  01 00 00  02 01 04  03 00 05  04 00 01
    05 01 00  04 01 05  05 00 07  01 0A 00  04 00 0B  05 01 0C  02 0D 09  03 0E 08
    0E 0D
    00 07 00 01  06 0F 03 03  05 00 02 01
    01 00 01 01
";

/// Every sort of record; of the membership claims three are on sets, one of them empty. N is 2, and there are eight places: with one more there are too many candidates.
const LARGER: &str = "
    01 02  00 12 00 30  00 A2 00 18  00 D2 00 10  01 12 00 0C
    00 00 00  00 07 00  00 0F 00  00 04 00  01 00 00  02 01 04  03 02 03  06 00 00  07 00 00  04 00 05  05 07 06  04 03 07
    05 03 08  07 00 00  06 00 00  01 0E 00  02 03 07  03 05 02  02 04 04  02 05 05  02 06 05  02 0B 0D  02 0A 09  01 13 00
    02 09 0F  02 0F 16  02 17 0B  06 00 00  01 0E 00  02 18 07  03 10 08  03 18 19  03 05 0D  03 15 11  06 00 00  01 09 00
    01 22 00  02 1A 09  03 24 08  03 17 09  01 1A 00  02 1D 1F  02 1E 19  03 1F 15  02 1F 11  06 00 00  01 13 00  02 2E 00
    00 01  2F 00  00 2F  0D 0D  15 29  0B 25  00 1E  23 10  14 2A  11 1D  12 20  29 2B
    16 16  11 29  16 2F  1A 16  0B 2C  1C 17  15 21  09 21  0A 0C  17 1E  12 2C  05 2E
    00 00 00 00  07 2F 01 02  06 0A 01 01  04 2E 00 00  A5 25 03 02  02 0E 00 02  00 1E 00 00  00 08 02 01
    02 1E 00 02  00 1A 01 01  48 2A 02 02  03 0F 01 00  05 19 01 01  01 2C 01 00  04 06 01 02  05 25 01 01
    00 00 00 00  07 07 07 02  02 06 06 02  05 07 02 00  06 07 03 00  01 05 00 01
    01 05 02 01  06 06 06 00  07 04 07 02  06 06 02 02  04 04 07 01  06 00 05 01
";

/// Edition 2: of three roles each is under the next, the second by way of one that no term uses, and a fifth under itself.
/// N is 2. Claims on sets of 0 and 1, of 1 and 2, whom no other claim mentions, and of nobody. Some interpretations break the
/// rule, some each pair but the last, and some each claim but that on nobody.
const RANKED: &str = "
    02 02  00 16 00 04  00 22 00 01  00 24 00 04  00 34 00 02  00 3C 00 04
    00 00 00  04 00 00  05 01 00  04 02 00
    01 03
    00 02 00 01  03 00 02 01  06 02 03 01  00 03 03 00
    00 00 01 01  03 01 00 02
    00 01  01 03  03 02  04 04
";

/// A name in terms before and behind a quantified one, and another name behind those. N is 2. A rule, a claim and "not" are on
/// the repeated term, a rule and a claim on a set on others. Some interpretations break each rule and each claim.
const PASTED: &str = "
    01 02  00 12 00 05  00 21 00 02  00 25 00 02  00 2D 00 01
    00 00 00  04 00 00  00 00 00  00 01 00  01 02 00
    02 01  04 03
    00 02 00 01  03 00 02 01
    00 00 01 01
";

fn from_hex(text: &str) -> Vec<u8> {
    let byte = |digits| u8::from_str_radix(digits, 16).expect("two hexadecimal digits");
    text.split_whitespace().map(byte).collect()
}

struct Sweep {
    start: Instant,
    random: Random,
    tally: Tally,
    compared: usize,
}

impl Sweep {
    fn begin(number: u64, tally: Tally) -> Sweep {
        Sweep { start: Instant::now(), random: Random::of(1, number), tally, compared: 0 }
    }

    /// Compares the calls on a book, and gives the answer to counting.
    fn book(&mut self, book: &[u8]) -> Answer {
        self.compared += 1;
        let plain = Plain::open(book);
        self.call(book, &plain, &[], Call::Check);
        if let Some(marks) = plain.count().ok().filter(|&count| count <= FEW) {
            let draft = Draft::of(book);
            let sets = draft.memberships.iter().any(is_set);
            let ([_, outcome, ..], _) =
                self.call(book, &plain, &[], Call::Decide { marks, placement: zegbiko::PLACEMENT });
            for n in 1..=3 {
                self.tally.add(&format!("outcome  {n} with sets"), sets && outcome == n);
                self.tally.add(&format!("outcome  {n} where a name recurs"), draft.recurs() && outcome == n);
            }
        }
        let marks = plain.count().ok().filter(|&count| count <= FEW).unwrap_or(0);
        let table = plain.book().map_or(0, |book| book.terms.len().pow(2));
        for (marks, table) in [(marks, table), (marks, table.saturating_sub(1))] {
            self.call(book, &plain, &[], Call::ImpliedRules { marks, table });
        }
        self.call(book, &plain, &[], Call::Count).0
    }

    /// Compares what is worked out of a sheet, with grids of these lengths, and gives them.
    fn sheet(&mut self, book: &[u8], plain: &Plain, sheet: &[u8], grids: &[usize]) -> Vec<Buffer> {
        self.compared += 1;
        let mut worked_out = |&grid: &usize| {
            let (answer, buffers) = self.call(book, plain, sheet, Call::WorkOut { grid });
            let set = matches!(answer, [0, 2, claim, ..] if is_set(&Draft::of(book).memberships[claim]));
            self.tally.add("verdict  2 on a set", set);
            buffers
        };
        grids.iter().flat_map(&mut worked_out).collect()
    }

    fn call(&mut self, book: &[u8], plain: &Plain, sheet: &[u8], call: Call) -> (Answer, Vec<Buffer>) {
        let compared = compare(&mut self.random, book, plain, sheet, call);
        let (answer, buffers) = compared.unwrap_or_else(|difference| panic!("{difference}"));
        self.tally.add_answer(call, answer);
        (answer, buffers)
    }

    fn end(self, what: &str) {
        let seconds = self.start.elapsed().as_secs_f64();
        println!("{} {what} agree, in {seconds:.1} s\n{}", self.compared, self.tally);
        self.tally.demand_all();
    }
}

/// The bytes at every length up to the longest, cut or with zeros behind them.
fn cut_and_extended(bytes: &[u8], longest: usize) -> impl Iterator<Item = Vec<u8>> + '_ {
    (0..=longest).map(|length| bytes.iter().copied().chain(iter::repeat(0)).take(length).collect())
}

/// Every byte changed to every other value.
fn changed(bytes: &[u8]) -> impl Iterator<Item = Vec<u8>> + '_ {
    let changes = (0..bytes.len()).flat_map(|at| (1..=255).map(move |by| (at, by)));
    changes.map(|(at, by)| {
        let mut bytes = bytes.to_vec();
        bytes[at] = bytes[at].wrapping_add(by);
        bytes
    })
}

#[test]
fn books() {
    let refusals = [("refusal", 1..=11), ("refusal", 22..=23), ("outcome", 1..=3)];
    let mut sweep = Sweep::begin(0, Tally::demanding(&refusals));
    for book in [PRINTED, SETS, LARGER, RANKED, PASTED].map(from_hex) {
        for edition in 0..=3 {
            let book = [&[edition], &book[1..]].concat();
            for book in cut_and_extended(&book, zegbiko::BOOK_MOST + 1) {
                sweep.book(&book);
            }
        }
        for book in changed(&book) {
            sweep.book(&book);
        }
        for _ in 0..5_000 {
            let right = sweep.random.below(book.len());
            let rest = sweep.random.bytes(book.len() - right);
            sweep.book(&[&book[..right], &rest].concat());
        }
    }
    sets_of_faults(&mut sweep, 850, None, &FAULTS);
    sets_of_faults(&mut sweep, 982, Some(vec![[0; 2]]), &FAULTS_OF_EDITION_2);
    for edition in [1, 2] {
        for _ in 0..20_000 {
            let book = drawn(&mut sweep.random, edition);
            sweep.book(&book);
        }
    }
    sweep.end("books");
}

/// Each check from 2 on, in the order in which they are asked, with a byte and the value with which it says no.
type Faults = [(usize, usize, u8)];

const FAULTS: [(usize, usize, u8); 9] =
    [(2, 0, 3), (3, 1, 9), (4, 17, 65), (5, 3, 17), (6, 63, 8), (7, 66, 16), (8, 68, 8), (9, 72, 8), (10, 60, SOME)];

const FAULTS_OF_EDITION_2: [(usize, usize, u8); 10] = [
    (2, 0, 3),
    (3, 1, 9),
    (4, 21, 65),
    (5, 19, 81),
    (6, 67, 8),
    (7, 70, 16),
    (8, 74, 4),
    (9, 76, 8),
    (22, 81, 8),
    (10, 64, SOME),
];

/// Whatever faults a book has, the first check that says no gives the number. It is too long by one byte for check 1.
fn sets_of_faults(sweep: &mut Sweep, most: usize, pairs: Option<Vec<[u8; 2]>>, faults: &Faults) {
    let mut sound = Draft { pairs, ..Draft::new(1) };
    sound.terms = (0..14).map(|name| [NAME, name, 0]).chain([[NOT, 0, 0], [TOP, 0, 0]]).collect();
    (sound.rules, sound.memberships, sound.links) = (vec![[0; 2]], vec![[0; 4]], vec![[0; 4]]);
    for set in 0..2 << faults.len() {
        let mut book = sound.bytes();
        let mut found = Vec::new();
        if set & 1 == 1 {
            book.resize(most + 1, 0);
            found.push(1);
        }
        for (bit, &(check, at, value)) in (1..).zip(faults) {
            if set >> bit & 1 == 1 {
                book[at] = value;
                found.push(check);
            }
        }
        assert_eq!(sweep.book(&book)[0], found.first().copied().unwrap_or(0), "{book:?}");
    }
}

/// The head agrees with the records. Each of their bytes is below its bound, or, one in a hundred, the bound. One book in
/// four is damaged.
fn drawn(random: &mut Random, edition: u8) -> Vec<u8> {
    let mut book = Draft::new(1 + random.up_to(7));
    let mut byte = |bound: u8| if random.one_in(100) { bound } else { random.up_to(bound.saturating_sub(1)) };
    for number in 0..byte(13) {
        let kind = if number == 0 { NAME } else { byte(8) };
        let (a, b) = match kind {
            NAME => (16, 1),
            NOT => (number, 1),
            AND | OR => (number, number),
            SOME | ALL => (8, number),
            _ => (1, 1),
        };
        book.term(kind, byte(a), byte(b));
    }
    let (terms, grades) = (book.terms.len() as u8, book.steps + 1);
    book.rules = (0..byte(5)).map(|_| [terms, terms].map(&mut byte)).collect();
    for _ in 0..byte(5) {
        let sense = byte(4);
        let first = if sense < EACH_AT_LEAST { 8 } else { 255 };
        book.memberships.push([byte(first), byte(terms), sense, byte(grades)]);
    }
    book.links = (0..byte(5)).map(|_| [8, 8, 8, grades].map(&mut byte)).collect();
    if edition == 2 {
        book.pairs = Some((0..byte(5)).map(|_| [8, 8].map(&mut byte)).collect());
    }
    if random.one_in(4) {
        damaged(random, book.bytes())
    } else {
        book.bytes()
    }
}

#[test]
fn sheets() {
    let mut sweep = Sweep::begin(1, Tally::demanding(&[("refusal", 13..=16), ("verdict", 0..=4)]));
    for book in [PRINTED, FOUR_DEEP, LARGER, RANKED, PASTED].map(from_hex) {
        let plain = Plain::open(&book);
        let read = plain.book().expect("a right book");
        for elements in 1..=4 {
            let sheet = right(&mut sweep.random, read, elements);
            let cells = elements * read.terms.len();
            sweep.sheet(&book, &plain, &sheet, &Vec::from_iter(0..=cells));
            for other in cut_and_extended(&sheet, sheet.len() + 20).chain(changed(&sheet)) {
                sweep.sheet(&book, &plain, &other, &[cells - 1, cells + 20]);
            }
            for _ in 0..250 {
                let sheet = right(&mut sweep.random, read, elements);
                sweep.sheet(&book, &plain, &sheet, &[cells]);
            }
        }
    }
    for elements in (0..4).flat_map(|_| 1..=64) {
        let book = deep(&mut sweep.random);
        let plain = Plain::open(&book);
        let sheet = right(&mut sweep.random, plain.book().expect("a right book"), elements);
        let grid = &sweep.sheet(&book, &plain, &sheet, &[zegbiko::GRID + 20])[0];
        let mut deepest = grid.contents().chunks(64).take(elements).map(|row| row[63]);
        let first = deepest.next();
        sweep.tally.add("sheets of the greatest length", sheet.len() == zegbiko::SHEET);
        sweep.tally.add("sheets where the deepest term has several grades", deepest.any(|grade| Some(grade) != first));
    }
    sweep.end("sheets");
}

/// A right sheet. Of an element's links for a role all but some three are 0: with many links deep terms have one grade
/// everywhere. Where the book has pairs, half of the sheets meet them.
fn right(random: &mut Random, book: &Book, elements: usize) -> Vec<u8> {
    let mut rows = |width, drawn| -> Vec<Vec<Grade>> {
        let mut grade = || if random.below(width) < drawn { random.up_to(book.steps) } else { 0 };
        (0..elements).map(|_| (0..width).map(|_| grade()).collect()).collect()
    };
    let names = rows(book.names(), book.names());
    let links = (0..book.roles()).map(|_| rows(elements, 3)).collect();
    let individuals = (0..book.individuals()).map(|_| random.below(elements)).collect();
    let mut sheet = book.sheet_of(&Interpretation { elements, names, links, individuals });
    if !book.pairs.is_empty() && random.one_in(2) {
        let links = 12 + elements * book.names()..sheet.len() - book.individuals();
        raise(&mut sheet[links], elements, &book.pairs);
    }
    sheet
}

/// 64 terms, each but the names over the one before it, and most of them quantified. The sheets of such a book are the
/// longest, but for their number of elements. Half of the books have pairs.
fn deep(random: &mut Random) -> Vec<u8> {
    let mut book = Draft::new(1 + random.up_to(7));
    book.terms = [0, 5, 10, 15].map(|name| [NAME, name, 0]).to_vec();
    for last in 3..63 {
        match random.below(8) {
            0 => book.term(NOT, last, 0),
            1 => book.term(AND, last, random.up_to(last)),
            2 => book.term(OR, last, random.up_to(last)),
            _ => book.term(random.pick(&[SOME, ALL]), random.up_to(7), last),
        };
    }
    book.rules.push([random.up_to(63), random.up_to(63)]);
    let sense = random.up_to(3);
    let first = if sense < EACH_AT_LEAST { 7 } else { 255 };
    book.memberships.push([random.up_to(first), 63, sense, random.up_to(book.steps)]);
    book.links.push([7, 7, random.up_to(7), random.up_to(book.steps)]);
    if random.one_in(2) {
        book.pairs = Some((0..1 + random.below(4)).map(|_| [random.up_to(7), random.up_to(7)]).collect());
    }
    book.bytes()
}
