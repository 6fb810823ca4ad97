//! The match of sets and single claims: "An accepted book, with its sets written out as single claims, must get the same
//! outcome, marks and placement, where it then fits in 64 claims." Seeded books with sets are decided beside the same books
//! written out, by the library and by the plain implementation; likewise their tables of implied rules are filled, and their
//! sheets written and worked out.

// Of these the other tests use what is left unused here.
#[allow(dead_code)]
mod compared;
#[allow(dead_code)]
mod generate;
#[allow(dead_code)]
mod plain;
#[allow(dead_code)]
mod support;

use std::time::Instant;

use compared::tally::Tally;
use generate::random::Random;
use generate::{books, sheets};
use plain::book::Book;
use plain::Plain;
use support::buffer::Buffer;
use support::calls::{self, Answer, Call};
use support::draft::{is_set, Draft};

const SEED: u64 = 2;
/// So many books are drawn of each edition; about one in three is accepted, has sets, and fits when written out.
const DRAWN: u64 = 16_000;

#[test]
fn edition_1() {
    matched("edition 1", |case| {
        let mut random = Random::of(SEED, case);
        (books::any(&mut random), random)
    });
}

#[test]
fn edition_2() {
    matched("edition 2", |case| {
        let mut random = Random::of_edition_2(SEED, case);
        (books::ranked(&mut random), random)
    });
}

fn matched(edition: &str, draw: fn(u64) -> (Vec<u8>, Random)) {
    let start = Instant::now();
    let mut tally = Tally::demanding(&[("outcome", 1..=3), ("verdict", 0..=3)]);
    let mut matches = 0;
    for case in 0..DRAWN {
        let (book, random) = draw(case);
        if let Some(mut both) = Both::of(book, random) {
            matches += 1;
            both.deciding(&mut tally);
            both.sheets(&mut tally);
        }
    }
    println!("{edition}: {matches} of {DRAWN} books match, in {:.1} s\n{tally}", start.elapsed().as_secs_f64());
    tally.demand_all();
}

/// A book with sets, and the same written out.
struct Both {
    books: [Vec<u8>; 2],
    plain: [Plain; 2],
    /// Of each claim written out, the number of the one that it comes from.
    origins: Vec<usize>,
    /// Whether a membership claim is on a set.
    sets: Vec<bool>,
    random: Random,
}

impl Both {
    /// If the book is accepted, has sets, and has room for them written out.
    fn of(book: Vec<u8>, random: Random) -> Option<Both> {
        let plain = Plain::open(&book);
        plain.book().ok()?;
        let draft = Draft::of(&book);
        let sets: Vec<bool> = draft.memberships.iter().map(is_set).collect();
        let written_out = draft.written_out();
        if !sets.contains(&true) || written_out.memberships.len() > 64 {
            return None;
        }
        let alone = |&claim: &[u8; 4]| Draft { memberships: vec![claim], ..Draft::new(1) }.written_out().memberships;
        let parts = draft.memberships.iter().map(alone).enumerate();
        let origins = parts.flat_map(|(number, part)| vec![number; part.len()]).collect();
        let written_out = written_out.bytes();
        let plain = [plain, Plain::open(&written_out)];
        Some(Both { books: [book, written_out], plain, origins, sets, random })
    }

    fn deciding(&mut self, tally: &mut Tally) {
        let marks = self.plain[0].count().unwrap_or(zegbiko::MARKS) + self.random.below(3);
        let call = Call::Decide { marks, placement: zegbiko::PLACEMENT };
        let (answer, _) = self.call(&[], call);
        tally.add_answer(call, answer);
        let terms = self.plain[0].book().map_or(0, |book| book.terms.len());
        let table = terms * terms + self.random.below(3);
        self.call(&[], Call::ImpliedRules { marks, table });
        let sets = &self.sets;
        let individuals = self.plain[0].book().map_or(0, Book::individuals);
        tally.add("books with several sets", sets.iter().filter(|set| **set).count() > 1);
        tally.add("books with sets alone", !sets.contains(&false));
        tally.add("books with sets and no individual", individuals == 0);
        tally.add("books of eight individuals", individuals == 8);
        tally.add("books with fewer claims written out", self.origins.len() < sets.len());
    }

    /// The sheet that is written, with each individual moved in turn; and others.
    fn sheets(&mut self, tally: &mut Tally) {
        let marks = self.plain[0].count().unwrap_or(zegbiko::MARKS);
        let sheet = self.sheet_length() + self.random.below(3);
        let call = Call::WriteSheet { marks, placement: zegbiko::PLACEMENT, sheet };
        let ([refusal, length, ..], buffers) = self.call(&[], call);
        if refusal == 0 {
            let written = &buffers[2].contents()[..length];
            let (elements, individuals) = (written[2], usize::from(written[5]));
            self.work_out(written, tally);
            for individual in 0..individuals {
                let mut moved = written.to_vec();
                moved[length - individuals + individual] = self.random.up_to(elements - 1);
                self.work_out(&moved, tally);
            }
        }
        for _ in 0..3 {
            let Ok(book) = self.plain[0].book() else { unreachable!("accepted") };
            let sheet = sheets::any(&mut self.random, book);
            self.work_out(&sheet, tally);
        }
    }

    /// That of the model's sheet, if it fits on one.
    fn sheet_length(&self) -> usize {
        let (Ok(book), Ok(eliminated)) = (self.plain[0].book(), self.plain[0].eliminated()) else { return 0 };
        let n = eliminated.survivors.len().min(zegbiko::ELEMENTS);
        12 + n * (book.names() + book.roles() * n) + book.individuals()
    }

    fn work_out(&mut self, sheet: &[u8], tally: &mut Tally) {
        let terms = self.plain[0].book().map_or(0, |book| book.terms.len());
        let grid = sheet.get(2).map_or(0, |&elements| usize::from(elements) * terms + self.random.below(3));
        let call = Call::WorkOut { grid };
        let (answer, _) = self.call(sheet, call);
        tally.add_answer(call, answer);
        tally.add("verdict  2 on a set", matches!(answer, [0, 2, claim, ..] if self.sets[claim]));
    }

    /// Makes a call on both books, of each side and on buffers that held the same, and gives answer and buffers of the book
    /// with sets. But for the number of a broken claim they must be the same.
    fn call(&mut self, sheet: &[u8], call: Call) -> (Answer, Vec<Buffer>) {
        let held: Vec<_> = call.lengths().into_iter().map(|length| self.random.bytes(length)).collect();
        let [with_sets, written_out] =
            [0, 1].map(|which| calls::on_every_side(&self.books[which], &self.plain[which], sheet, call, &held));
        for ((answer, buffers), (other, others)) in with_sets.iter().zip(&written_out) {
            let mut expected = *other;
            if let (Call::WorkOut { .. }, [0, 2, claim, ..]) = (call, other) {
                expected[2] = self.origins[*claim];
            }
            let same = buffers.iter().zip(others).all(|(one, other)| one.contents() == other.contents());
            assert!(*answer == expected && same, "{call:?}: {answer:?}, {other:?}\n{:02X?}\n{sheet:02X?}", self.books);
        }
        with_sets.into_iter().next().expect("a side")
    }
}
