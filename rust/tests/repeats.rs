//! "A name may recur": "the grades of all terms with one name agree in every type. Candidate numbering follows the new
//! places." So a book in which names recur is answered as the same book with each name in one term, the first that it had.
//! Seeded books in which names recur are asked beside those, of the library and of the plain implementation: for their
//! candidates, outcome, marks and placement, their tables of implied rules, and their sheets.

// Of these the other tests use what is left unused here.
#[allow(dead_code)]
mod compared;
#[allow(dead_code)]
mod generate;
#[allow(dead_code)]
mod plain;
#[allow(dead_code)]
mod support;

use std::ops::RangeInclusive;
use std::time::Instant;

use compared::tally::Tally;
use generate::random::Random;
use generate::{books, sheets};
use plain::book::Book;
use plain::Plain;
use support::buffer::Buffer;
use support::calls::{self, Answer, Call};
use support::draft::{Draft, NAME};

const SEED: u64 = 5;
/// So many books are drawn of each edition; about one in six is accepted, and a name recurs in it.
const DRAWN: u64 = 10_000;
/// So many are drawn of each edition that get a term more.
const LONGER: u64 = 1_000;
/// Of so many candidates at most the grades are compared.
const GRADED: usize = 16;

fn edition_1(case: u64) -> (Vec<u8>, Random) {
    let mut random = Random::of(SEED, case);
    (books::any(&mut random), random)
}

fn edition_2(case: u64) -> (Vec<u8>, Random) {
    let mut random = Random::of_edition_2(SEED, case);
    (books::ranked(&mut random), random)
}

#[test]
fn names_that_recur_in_edition_1() {
    answered_alike("edition 1", 0..=3, edition_1);
}

#[test]
fn names_that_recur_in_edition_2() {
    answered_alike("edition 2", 0..=4, edition_2);
}

fn answered_alike(edition: &str, verdicts: RangeInclusive<usize>, draw: fn(u64) -> (Vec<u8>, Random)) {
    let start = Instant::now();
    let mut tally = Tally::demanding(&[("outcome", 1..=3), ("verdict", verdicts), ("refusal", 10..=10)]);
    let mut alike = 0;
    for case in 0..DRAWN {
        let (book, random) = draw(case);
        if let Some(mut both) = Both::of(book, random) {
            alike += 1;
            both.deciding(&mut tally);
            both.implied_rules(&mut tally);
            both.candidates(&mut tally);
            both.sheets(&mut tally);
        }
    }
    println!("{edition}: {alike} of {DRAWN} books alike, in {:.1} s\n{tally}", start.elapsed().as_secs_f64());
    tally.demand_all();
}

/// A book in which names recur, and the same with each name in one term.
struct Both {
    books: [Vec<u8>; 2],
    plain: [Plain; 2],
    /// Of each term of the first, the number of the one that stands for it in the second.
    numbers: Vec<usize>,
    random: Random,
}

impl Both {
    /// If the book is accepted, and a name recurs in it.
    fn of(book: Vec<u8>, random: Random) -> Option<Both> {
        let plain = Plain::open(&book);
        plain.book().ok()?;
        let draft = Draft::of(&book);
        let once = draft.names_once().bytes();
        let numbers: Vec<usize> = draft.numbers_once().into_iter().map(usize::from).collect();
        (once != book).then(|| Both { plain: [plain, Plain::open(&once)], books: [book, once], numbers, random })
    }

    fn terms(&self) -> [usize; 2] {
        [0, 1].map(|which| self.plain[which].book().map_or(0, |book| book.terms.len()))
    }

    fn deciding(&mut self, tally: &mut Tally) {
        self.same(&[], Call::Check);
        self.same(&[], Call::Count);
        let marks = self.plain[0].count().unwrap_or(zegbiko::MARKS) + self.random.below(3);
        let call = Call::Decide { marks, placement: zegbiko::PLACEMENT };
        let (answer, _) = self.same(&[], call);
        tally.add_answer(call, answer);
        let [more, fewer] = self.terms();
        tally.add("books with several terms more", more > fewer + 1);
        // Where a place has a term before it that repeats a name, its term's number is another one here and there.
        let moved = (0..more).any(|term| self.numbers[term] < term && !Draft::of(&self.books[0]).repeats(term));
        tally.add("books with terms that move", moved);
    }

    /// The table agrees through the numbers: a term that repeats a name has the row and the column of the name's first.
    fn implied_rules(&mut self, tally: &mut Tally) {
        let terms = self.terms();
        let marks = self.plain[0].count().unwrap_or(0);
        let calls = terms.map(|terms| Call::ImpliedRules { marks, table: terms * terms });
        for [(answer, buffers), (_, others)] in self.ask(&[], calls) {
            assert_eq!(buffers[0].contents(), others[0].contents(), "{}", self.hex());
            if answer[0] == 0 {
                let [table, other] = [buffers, others].map(|buffers| buffers[1].contents().to_vec());
                for (left, right) in (0..terms[0]).flat_map(|left| (0..terms[0]).map(move |right| (left, right))) {
                    let expected = other[self.numbers[left] * terms[1] + self.numbers[right]];
                    assert_eq!(table[left * terms[0] + right], expected, "{left} {right}: {}", self.hex());
                }
                tally.add("tables with zeros", table.contains(&0));
            }
        }
    }

    /// Each term has the grade of the one that stands for it, and links are the same; of every candidate, or of some.
    fn candidates(&mut self, tally: &mut Tally) {
        let Ok(count) = self.plain[0].count() else { return };
        for drawn in 0..count.min(GRADED) {
            let candidate = if count <= GRADED { drawn } else { self.random.below(count) };
            let [row, once] = self.plain.each_ref().map(|plain| plain.book().expect("accepted").type_of(candidate));
            for (term, (&grade, &number)) in row.iter().zip(&self.numbers).enumerate() {
                let grades = [(&self.books[0], term), (&self.books[1], number)]
                    .map(|(book, term)| zegbiko::grade(book, candidate, term));
                assert_eq!((once[number], grades), (grade, [Ok(grade); 2]), "{candidate} {term}: {}", self.hex());
            }
            let (role, to) = (self.random.up_to(7), self.random.below(count));
            self.same(&[], Call::Link { role, from: candidate, to });
        }
        tally.add("books of which every candidate is graded", count <= GRADED);
    }

    /// The sheet that is written, and others.
    fn sheets(&mut self, tally: &mut Tally) {
        let marks = self.plain[0].count().unwrap_or(zegbiko::MARKS);
        let sheet = self.sheet_length() + self.random.below(3);
        let call = Call::WriteSheet { marks, placement: zegbiko::PLACEMENT, sheet };
        let ([refusal, length, ..], buffers) = self.same(&[], call);
        tally.add("sheets written", refusal == 0);
        if refusal == 0 {
            self.work_out(&buffers[2].contents()[..length], tally);
        }
        for _ in 0..3 {
            let Ok(book) = self.plain[0].book() else { unreachable!("accepted") };
            let sheet = sheets::any(&mut self.random, book);
            self.work_out(&sheet, tally);
        }
    }

    /// That of the model's sheet, if it fits on one.
    fn sheet_length(&self) -> usize {
        let (Ok(book), Ok(eliminated)) = (self.plain[0].book(), self.plain[0].eliminated()) else { return 0 };
        let n = eliminated.survivors.len().min(zegbiko::ELEMENTS);
        12 + n * (book.names() + book.roles() * n) + book.individuals()
    }

    /// The verdict is the same, and the grid agrees through the numbers.
    fn work_out(&mut self, sheet: &[u8], tally: &mut Tally) {
        let (terms, elements) = (self.terms(), sheet.get(2).map_or(0, |&elements| usize::from(elements)));
        let calls = terms.map(|terms| Call::WorkOut { grid: elements * terms });
        for [(answer, buffers), (_, others)] in self.ask(sheet, calls) {
            if answer[0] == 0 {
                let [grid, other] = [buffers, others].map(|buffers| buffers[0].contents().to_vec());
                let rows = grid.chunks(terms[0]).zip(other.chunks(terms[1]));
                let agree =
                    |(row, once): (&[u8], &[u8])| (0..terms[0]).all(|term| row[term] == once[self.numbers[term]]);
                assert!(rows.into_iter().all(agree), "{}\nsheet {sheet:02X?}", self.hex());
            }
            tally.add_answer(calls[0], answer);
        }
    }

    /// Makes one call on both books. Answer and every byte must be the same, and are given.
    fn same(&mut self, sheet: &[u8], call: Call) -> (Answer, Vec<Buffer>) {
        let asked = self.ask(sheet, [call; 2]);
        for [(_, buffers), (_, others)] in &asked {
            let same = buffers.iter().zip(others).all(|(one, other)| one.contents() == other.contents());
            assert!(same, "{call:?}: {}", self.hex());
        }
        let [plainly, ..] = asked;
        let [(answer, buffers), _] = plainly;
        (answer, buffers)
    }

    /// Makes a call on each of the two books, of every side and on buffers that held the same. The answers must be the same,
    /// and the sides leave the same.
    fn ask(&mut self, sheet: &[u8], calls: [Call; 2]) -> [[(Answer, Vec<Buffer>); 2]; 3] {
        let longest: Vec<_> = calls[0].lengths().into_iter().map(|length| self.random.bytes(length)).collect();
        let [asked, others] = [0, 1].map(|which| {
            let lengths = calls[which].lengths();
            let held: Vec<_> = longest.iter().zip(lengths).map(|(bytes, length)| bytes[..length].to_vec()).collect();
            calls::on_every_side(&self.books[which], &self.plain[which], sheet, calls[which], &held)
        });
        for sides in [&asked, &others] {
            for (answer, buffers) in sides {
                let left = sides[0].1.iter().zip(buffers).all(|(one, other)| one.contents() == other.contents());
                assert!(*answer == asked[0].0 && left, "{calls:?}: {}", self.hex());
            }
        }
        let mut others = others.into_iter();
        asked.map(|asked| [asked, others.next().expect("as many sides")])
    }

    fn hex(&self) -> String {
        format!("book {:02X?}\nonce {:02X?}", self.books[0], self.books[1])
    }
}

/// One term more, behind all others, that repeats a name: no term, rule or claim is on it, so outcome, marks, placement and
/// sheet stay.
#[test]
fn a_repeated_name_at_the_end_says_nothing() {
    let (mut longer, mut outcomes) = (0, [0; 4]);
    for (book, mut random) in (0..LONGER).flat_map(|case| [edition_1(case), edition_2(case)]) {
        let plain = Plain::open(&book);
        let Ok(names) = plain.book().map(Book::distinct_names) else { continue };
        let draft = Draft::of(&book);
        if names.is_empty() || draft.terms.len() == 64 {
            continue;
        }
        let mut more = draft.clone();
        more.term(NAME, random.pick(&Vec::from_iter(names)), 0);
        let more = more.bytes();
        let (opened, marks) = (Plain::open(&more), plain.count().unwrap_or(0));
        let placement = zegbiko::PLACEMENT;
        for call in [Call::Decide { marks, placement }, Call::WriteSheet { marks, placement, sheet: zegbiko::SHEET }] {
            let held: Vec<_> = call.lengths().into_iter().map(|length| random.bytes(length)).collect();
            let [before, after] = [(&book, &plain), (&more, &opened)]
                .map(|(book, plain)| calls::on_every_side(book, plain, &[], call, &held));
            for ((answer, buffers), (other, others)) in before.iter().zip(&after) {
                let same = buffers.iter().zip(others).all(|(one, other)| one.contents() == other.contents());
                assert!(answer == other && same, "{call:?}: {answer:?} {other:?}\n{book:02X?}\n{more:02X?}");
            }
            if let (Call::Decide { .. }, [0, outcome, ..]) = (call, before[0].0) {
                outcomes[outcome] += 1;
            }
        }
        longer += 1;
    }
    println!("{longer} books with a term more are answered alike; outcomes 1 to 3: {:?}", &outcomes[1..]);
    assert!(outcomes[1..].iter().all(|&books| books > 0));
}
