//! Every call of the library against the plain implementation, on seeded books and sheets. A case has a book of each
//! edition; one case in sixteen has also one for the table of implied rules.
//!
//! `ZEGBIKO_SEED` gives another seed, `ZEGBIKO_CASES` another number of cases; `ZEGBIKO_CASE` runs that one alone.

mod compared;
mod generate;
mod plain;
// Of this the other tests use what is left unused here.
#[allow(dead_code)]
mod support;

use std::collections::BTreeSet;
use std::env;
use std::fs::File;
use std::io::{Seek, Write};
use std::thread;
use std::time::Instant;

use compared::compare;
use compared::tally::Tally;
use generate::damage::damaged;
use generate::random::Random;
use generate::{books, sheets, tables};
use plain::book::{Book, Pair, Term};
use plain::placement::Decision;
use plain::Plain;
use support::buffer::Buffer;
use support::calls::{Answer, Call};
use support::draft::{is_set, Draft, ALL, AND, AT_LEAST, AT_MOST, EACH_AT_LEAST, EACH_AT_MOST, NAME, NOT, OR, SOME};

const SEED: u64 = 1;
const CASES: u64 = 60_000;

/// What a case has a book of: a name, how many cases there are for one with such a book, the case's numbers, and what draws
/// the book by them.
type Sort = (&'static str, u64, fn(u64, u64) -> Random, fn(&mut Random) -> Vec<u8>);

const FOR_THE_TABLE: &str = "for the table";

const SORTS: [Sort; 3] = [
    ("edition 1", 1, Random::of, books::any),
    ("edition 2", 1, Random::of_edition_2, books::ranked),
    (FOR_THE_TABLE, 16, Random::of_tables, tables::any),
];

fn sorts_of(case: u64) -> impl Iterator<Item = Sort> {
    SORTS.into_iter().filter(move |(_, one_in, ..)| case.is_multiple_of(*one_in))
}

#[test]
fn library_and_plain_implementation_agree() {
    let (seed, cases) = (setting("ZEGBIKO_SEED").unwrap_or(SEED), setting("ZEGBIKO_CASES").unwrap_or(CASES));
    if let Some(number) = setting("ZEGBIKO_CASE") {
        sorts_of(number).for_each(|sort| Case::run(seed, sort, number, &mut tally()));
        println!("seed {seed}: case {number} agrees");
        return;
    }
    let start = Instant::now();
    let workers = thread::available_parallelism().map_or(1, usize::from);
    let work = |worker: usize| {
        // If the library crashes, or does not end, this file tells at which case.
        let mut note = File::create(format!("{}/differential-{worker}", env!("CARGO_TARGET_TMPDIR"))).expect("a file");
        let mut tally = tally();
        for number in (worker as u64..cases).step_by(workers) {
            for sort in sorts_of(number) {
                let case = name(seed, sort, number);
                note.rewind().and_then(|()| writeln!(note, "{case:40}")).expect("a line");
                Case::run(seed, sort, number, &mut tally);
            }
        }
        tally
    };
    // These threads have Rust's default stack of 2 MB, which the wrapper says suffices.
    let tally: Tally = thread::scope(|scope| {
        let threads: Vec<_> = (0..workers).map(|worker| scope.spawn(move || work(worker))).collect();
        threads.into_iter().map(|thread| thread.join().expect("no difference")).sum()
    });
    println!("seed {seed}: {cases} cases agree, in {:.1} s\n{tally}", start.elapsed().as_secs_f64());
    tally.demand_all();
}

fn tally() -> Tally {
    let mut tally = Tally::demanding(&[("refusal", 1..=23), ("outcome", 1..=3), ("verdict", 0..=4)]);
    (0..=4).for_each(|verdict| tally.add(&format!("verdict {verdict:2} where a name recurs"), false));
    tally
}

fn name(seed: u64, (sort, ..): Sort, number: u64) -> String {
    format!("seed {seed} case {number} {sort}")
}

fn setting(name: &str) -> Option<u64> {
    env::var(name).ok().map(|value| value.parse().unwrap_or_else(|_| panic!("{name} is no number: {value}")))
}

/// One book with many calls on it.
struct Case<'a> {
    name: String,
    random: Random,
    book: Vec<u8>,
    plain: Plain,
    tally: &'a mut Tally,
}

impl Case<'_> {
    fn run(seed: u64, sort: Sort, number: u64, tally: &mut Tally) {
        let (_, _, numbers, draw) = sort;
        let mut random = numbers(seed, number);
        let book = draw(&mut random);
        let plain = Plain::open(&book);
        let mut case = Case { name: name(seed, sort, number), random, book, plain, tally };
        case.note_the_book();
        case.note_the_sets();
        case.note_the_names();
        case.compare(Call::Check, &[]);
        case.compare(Call::Count, &[]);
        case.compare_candidates();
        case.compare_deciding();
        case.compare_implied_rules();
        case.compare_sheets();
    }

    /// Counts books of the special kinds; each kind has to occur.
    fn note_the_book(&mut self) {
        let mut note = |name: &str, seen| self.tally.add(&format!("books {name}"), seen);
        let (length, first) = (self.book.len(), self.book.first().copied());
        [18, 22, 850, 851, 982, 983].iter().for_each(|&n| note(&format!("of {n:3} bytes"), length == n));
        (0..=3).for_each(|byte| note(&format!("that begin with {byte}"), first == Some(byte)));
        note("of edition 2, cut inside the head", first == Some(2) && (18..22).contains(&length));
        let Ok(book) = self.plain.book() else { return };
        [(1, 18), (1, 850), (2, 22), (2, 850), (2, 851), (2, 982)].iter().for_each(|&(edition, n)| {
            note(&format!("accepted, edition {edition}, of {n:3} bytes"), first == Some(edition) && length == n)
        });
        (1..=8).for_each(|steps| note(&format!("accepted, N {steps}"), book.steps == steps));
        note("accepted, a gap in the names", book.distinct_names().len() < book.names());
        note("accepted, three roles or more in terms", roles(book).len() >= 3);
        note("accepted, an individual that no claim mentions", individuals(book).len() < book.individuals());
        if first == Some(2) {
            let mut note = |name: &str, seen| note(&format!("accepted, edition 2, {name}"), seen);
            note("no pairs", book.pairs.is_empty());
            note("64 pairs", book.pairs.len() == 64);
            note("a role under itself", book.pairs.iter().any(|pair| pair.lower == pair.upper));
            note("a pair that recurs", pairs(book).len() < book.pairs.len());
            note("a circle of two roles or more", has_a_circle(book));
            note("a way through a role that no term and no claim uses", has_a_way_through_an_unused_role(book));
            note("a role that only pairs name is the highest", roles_in_terms_and_claims(book) < book.roles());
        }
        let Ok(eliminated) = self.plain.eliminated() else { return };
        note("of 16,384 candidates", self.plain.count() == Ok(16_384));
        [1, 2, 4, 8, 16].iter().for_each(|&n| note(&format!("of {n:2} sweeps or more"), eliminated.sweeps >= n));
        (64..=65).for_each(|n| note(&format!("of {n} survivors"), eliminated.survivors.len() == n));
        if !book.pairs.is_empty() && self.plain.count().is_ok_and(|count| count <= 81) {
            let unranked = Plain::open(&Draft { pairs: None, ..Draft::of(&self.book) }.bytes());
            let Ok(other) = unranked.eliminated() else { unreachable!("as many candidates") };
            let (fewer, most) = (eliminated.survivors.len(), other.survivors.len());
            assert!(fewer <= most, "{}: with pairs no type comes to be that was not one", self.name);
            note("whose pairs take survivors away", fewer < most);
            note("whose pairs take all survivors away", fewer == 0 && most > 0);
            let fails = matches!(self.plain.decision(), Ok(Decision::ClaimsFail));
            let held = matches!(unranked.decision(), Ok(Decision::HoldsTogether(_)));
            note("of outcome 2, 1 without their pairs", fails && held);
        }
    }

    /// Likewise, for claims on sets of individuals.
    fn note_the_sets(&mut self) {
        match self.plain.book() {
            Ok(_) => {
                self.note_right_sets();
                self.note_what_sets_do();
            }
            Err(8) => self.note_wrong_sets(),
            Err(_) => {}
        }
    }

    fn note_right_sets(&mut self) {
        let mut note = |name: &str, seen| self.tally.add(&format!("books accepted, {name}"), seen);
        let book = Draft::of(&self.book);
        let (sets, singles): (Vec<[u8; 4]>, Vec<_>) = book.memberships.iter().partition(|claim| is_set(claim));
        note("no sets", sets.is_empty());
        for sense in [EACH_AT_LEAST, EACH_AT_MOST] {
            let seen = sets.iter().any(|claim| claim[2] == sense);
            (1..=2).for_each(|n| note(&format!("edition {n}, sense {sense}"), seen && self.book[0] == n));
        }
        for n in 0..=8 {
            note(&format!("a set of {n}"), sets.iter().any(|claim| claim[0].count_ones() == n));
        }
        note("64 sets", sets.len() == 64);
        note("more than 64 claims when written out", book.written_out().memberships.len() > 64);
        let meet = |single: &[u8; 4], set: &[u8; 4]| set[0] >> single[0] & 1 == 1 && set[1] == single[1];
        let beside = singles.iter().any(|single| sets.iter().any(|set| meet(single, set)));
        note("a set beside a single claim on a member and the same term", beside);
    }

    /// Books of few candidates, beside the same without their sets.
    fn note_what_sets_do(&mut self) {
        let mut note = |name: &str, seen| self.tally.add(&format!("books {name}"), seen);
        let mut fewer = Draft::of(&self.book);
        let sets = fewer.memberships.iter().any(is_set);
        if !sets || self.plain.count().is_ok_and(|count| count > 81) {
            return;
        }
        fewer.memberships.retain(|claim| !is_set(claim));
        let other = Plain::open(&fewer.bytes());
        let [with, without] = [&self.plain, &other].map(|book| book.book().map_or(0, Book::individuals));
        note("accepted, sets and no individual", with == 0);
        note("accepted, an individual that no other claim raises I to", without < with);
        let [with, without] = [&self.plain, &other].map(|book| match book.decision() {
            Ok(Decision::HoldsTogether(places)) => Some(places),
            _ => None,
        });
        note("of outcome 2, 1 without their sets", with.is_none() && without.is_some());
        let moved = with.zip(without).is_some_and(|(with, without)| !with.starts_with(without));
        note("whose sets move an individual", moved);
    }

    fn note_wrong_sets(&mut self) {
        let book = Draft::of(&self.book);
        let mut note = |name: &str, wrong: &dyn Fn([u8; 4]) -> bool| {
            self.tally.add(&format!("books refused 8, {name}"), book.memberships.iter().any(|&claim| wrong(claim)));
        };
        let empty = |claim: [u8; 4]| claim[0] == 0 && [EACH_AT_LEAST, EACH_AT_MOST].contains(&claim[2]);
        note("a sense above 3", &|claim| claim[2] > EACH_AT_MOST);
        note("an individual above 7", &|claim| claim[0] > 7 && [AT_LEAST, AT_MOST].contains(&claim[2]));
        note("a wrong term in an empty set", &|claim| empty(claim) && usize::from(claim[1]) >= book.terms.len());
        note("a wrong grade in an empty set", &|claim| empty(claim) && claim[3] > book.steps);
    }

    /// Likewise, for names that recur.
    fn note_the_names(&mut self) {
        let Ok(book) = self.plain.book() else { return };
        let mut note = |name: &str, seen| self.tally.add(&format!("books accepted, {name}"), seen);
        let recurs = Draft::of(&self.book).recurs();
        note("names, of which none recurs", !recurs && book.names() > 0);
        (1..=2).for_each(|n| note(&format!("edition {n}, a name recurs"), recurs && self.book[0] == n));
        if recurs {
            self.note_where_names_recur();
            self.note_who_uses_repeats();
            self.note_what_repeats_do();
        }
    }

    fn note_where_names_recur(&mut self) {
        let mut note = |name: &str, seen| self.tally.add(&format!("books accepted, {name}"), seen);
        let book = Draft::of(&self.book);
        let repeats = |number: &usize| book.repeats(*number);
        let names: Vec<[u8; 3]> = book.terms.iter().filter(|term| term[0] == NAME).copied().collect();
        let most = names.iter().map(|name| names.iter().filter(|other| *other == name).count()).max();
        note("a name in  2 terms and none in more", most == Some(2));
        [4, 16, 60].iter().for_each(|&n| note(&format!("a name in {n} terms or more"), most >= Some(n)));
        let distinct: BTreeSet<[u8; 3]> = names.into_iter().collect();
        note("16 names in 64 terms", distinct.len() == 16 && book.terms.len() == 64);
        let first = |number: usize| book.terms.iter().position(|term| *term == book.terms[number]).expect("itself");
        let around = |number| book.terms[first(number)..number].iter().any(is_quantified);
        note("a name before and after a quantified term", (0..book.terms.len()).filter(repeats).any(around));
        let behind = (0..book.terms.len()).skip_while(|number| !repeats(number));
        let is_place =
            |number: usize| is_quantified(&book.terms[number]) || book.terms[number][0] == NAME && !repeats(&number);
        note("a place behind a repeated name", behind.into_iter().any(is_place));
        note("a repeated name as the last term", repeats(&(book.terms.len() - 1)));
    }

    fn note_who_uses_repeats(&mut self) {
        let mut note = |name: &str, seen| self.tally.add(&format!("books accepted, {name}"), seen);
        let book = Draft::of(&self.book);
        let repeats = |number: u8| book.repeats(number.into());
        let terms =
            |kinds: &[u8]| book.terms.iter().filter(|term| kinds.contains(&term[0])).copied().collect::<Vec<_>>();
        note("\"not\" of a repeated name", terms(&[NOT]).iter().any(|term| repeats(term[1])));
        note(
            "\"and\" or \"or\" of a repeated name",
            terms(&[AND, OR]).iter().any(|term| repeats(term[1]) || repeats(term[2])),
        );
        note("a quantified term over a repeated name", terms(&[SOME, ALL]).iter().any(|term| repeats(term[2])));
        note("a rule on a repeated name", book.rules.iter().flatten().any(|&number| repeats(number)));
        let between = |&[left, right]: &[u8; 2]| {
            let [one, other] = [left, right].map(|number| book.terms[usize::from(number)]);
            left != right && one == other && one[0] == NAME
        };
        note("a rule between two terms of one name", book.rules.iter().any(between));
        note("a claim on a repeated name", book.memberships.iter().any(|claim| repeats(claim[1])));
    }

    fn note_what_repeats_do(&mut self) {
        let mut note = |name: &str, seen| self.tally.add(&format!("books in which a name recurs, {name}"), seen);
        let Ok(book) = self.plain.book() else { unreachable!("accepted") };
        let grades = usize::from(book.steps) + 1;
        let quantified = book.terms.iter().filter(|term| matches!(term, Term::Some(..) | Term::All(..))).count();
        let names = book.terms.iter().filter(|term| matches!(term, Term::Name(_))).count();
        let all_places = grades.checked_pow((names + quantified) as u32);
        let one_fewer = grades.checked_pow((book.distinct_names().len() + quantified - 1) as u32);
        let too_wide = self.plain.count() == Err(10);
        note("refused 10 for one place", too_wide && one_fewer.is_some_and(|count| count <= 16_384));
        note("refused 10 for more places", too_wide && one_fewer.is_none_or(|count| count > 16_384));
        if let Ok(count) = self.plain.count() {
            note("of 16,384 candidates", count == 16_384);
            note("of as many places as are accepted", count * grades > 16_384);
            note("of more terms of kinds 0, 4 and 5 than that", all_places.is_none_or(|count| count > 16_384));
        }
        if let Ok(decision) = self.plain.decision() {
            note("of outcome 1", matches!(decision, Decision::HoldsTogether(_)));
            note("of outcome 2", matches!(decision, Decision::ClaimsFail));
            note("of outcome 3", matches!(decision, Decision::NoModel));
        }
    }

    fn compare_candidates(&mut self) {
        let count = self.plain.count().unwrap_or(9);
        let terms = self.plain.book().map_or(9, |book| book.terms.len());
        for _ in 0..4 {
            let (candidate, term) = (self.index(count), self.index(terms));
            self.compare(Call::Grade { candidate, term }, &[]);
            let role = if self.random.one_in(8) { self.random.pick(&[8, 9, 255]) } else { self.role() };
            let (from, to) = (self.index(count), self.index(count));
            let ([refusal, link, ..], _) = self.compare(Call::Link { role, from, to }, &[]);
            if let (0, Ok(book)) = (refusal, self.plain.book()) {
                let bound = book.bound(role, &book.type_of(from), &book.type_of(to));
                self.tally.add("links below the role's own bound", link < usize::from(bound));
            }
        }
    }

    /// Any role, or, as often, the lower one of a pair.
    fn role(&mut self) -> u8 {
        match self.plain.book() {
            Ok(book) if !book.pairs.is_empty() && self.random.one_in(2) => {
                book.pairs[self.random.below(book.pairs.len())].lower
            }
            _ => self.random.up_to(7),
        }
    }

    fn compare_deciding(&mut self) {
        let (marks, placement) = self.deciding_lengths();
        let ([refusal, outcome, ..], buffers) = self.compare(Call::Decide { marks, placement }, &[]);
        if refusal == 0 {
            self.note_the_placement(outcome, buffers[1].contents());
            self.compare_decision(outcome, buffers[1].contents());
        }
        self.compare_writing();
    }

    /// The wrapper's `Decision` says the same, with list and placement as numbers.
    fn compare_decision(&self, outcome: usize, placement: &[u8]) {
        let (Ok(book), Ok(eliminated)) = (self.plain.book(), self.plain.eliminated()) else { unreachable!("decided") };
        let placed = if outcome == 1 { book.individuals() } else { 0 };
        let decision = zegbiko::Decision::of(&self.book).expect("decided");
        assert_eq!(
            (decision.outcome() as usize, decision.survivors()),
            (outcome, eliminated.survivors.len()),
            "{}",
            self.name
        );
        assert!(decision.listed().eq(eliminated.survivors.keys().copied()), "{}", self.name);
        let seats = placement.chunks(2).map(|place| usize::from(place[0]) * 256 + usize::from(place[1]));
        assert!(decision.placed().eq(seats.take(placed)), "{}", self.name);
    }

    fn note_the_placement(&mut self, outcome: usize, placement: &[u8]) {
        let (Ok(book), Ok(eliminated)) = (self.plain.book(), self.plain.eliminated()) else { return };
        let seats = book.seats(&eliminated.survivors);
        let first: Option<Vec<usize>> = seats.iter().map(|seats| seats.first().copied()).collect();
        let Some(first) = first else { return };
        let at_first = first.iter().zip(placement.chunks(2)).all(|(&seat, place)| (seat as u16).to_be_bytes() == place);
        self.tally.add("outcome 1, not every individual at its first seat", outcome == 1 && !at_first);
        self.tally.add("outcome 2, although every individual has a seat", outcome == 2);
    }

    fn compare_writing(&mut self) {
        let length = match (self.plain.book(), self.plain.eliminated()) {
            (Ok(book), Ok(eliminated)) => {
                let n = eliminated.survivors.len().min(64);
                12 + n * book.names() + book.roles() * n * n + book.individuals()
            }
            _ => 12,
        };
        let ((marks, placement), sheet) = (self.deciding_lengths(), self.near(length));
        let ([refusal, length, ..], buffers) = self.compare(Call::WriteSheet { marks, placement, sheet }, &[]);
        if refusal == 0 {
            self.tally.add("sheets written, the longest", length == zegbiko::SHEET);
            let written = buffers[2].contents()[..length].to_vec();
            let answer = self.compare_sheet(&written);
            assert!(matches!(answer, [0, 0, ..] | [16, ..]), "{}: a written sheet meets its book", self.name);
            let other = damaged(&mut self.random, written);
            self.compare_sheet(&other);
        }
    }

    fn deciding_lengths(&mut self) -> (usize, usize) {
        let count = self.plain.count().unwrap_or(9);
        (self.near(count), self.near(zegbiko::PLACEMENT))
    }

    fn compare_implied_rules(&mut self) {
        let terms = self.plain.book().map_or(3, |book| book.terms.len());
        let ((marks, _), table) = (self.deciding_lengths(), self.near(terms * terms));
        let ([refusal, survivors, ..], buffers) = self.compare(Call::ImpliedRules { marks, table }, &[]);
        self.tally.add("refusal 11, and the table buffer is too short too", refusal == 11 && table < terms * terms);
        if refusal == 0 {
            let table = &buffers[1].contents()[..terms * terms];
            self.note_the_table(table);
            // It is the same call once more, so not of every book.
            if self.name.ends_with(FOR_THE_TABLE) {
                self.compare_kept_table(survivors, terms, table);
            }
        }
    }

    /// The wrapper's `ImpliedRules` says the same.
    fn compare_kept_table(&self, survivors: usize, terms: usize, table: &[u8]) {
        let implied = zegbiko::ImpliedRules::of(&self.book).expect("worked out");
        assert_eq!((implied.survivors(), implied.terms()), (survivors, terms), "{}", self.name);
        let pairs = || (0..=terms).flat_map(|left| (0..=terms).map(move |right| (left, right)));
        let byte = |(left, right)| left < terms && right < terms && table[left * terms + right] == 1;
        assert!(pairs().all(|(left, right)| implied.implies(left, right) == byte((left, right))), "{}", self.name);
        let both = |(left, right)| byte((left, right)) && byte((right, left));
        assert!(pairs().all(|(left, right)| implied.agree(left, right) == both((left, right))), "{}", self.name);
        assert!(implied.rules().eq(pairs().filter(|&pair| byte(pair))), "{}", self.name);
    }

    /// Counts tables of the special kinds; each kind has to occur.
    fn note_the_table(&mut self, table: &[u8]) {
        let (Ok(book), Ok(eliminated)) = (self.plain.book(), self.plain.eliminated()) else {
            unreachable!("worked out")
        };
        let (terms, rows) = (book.terms.len(), &eliminated.survivors);
        let mut note = |name: &str, seen| self.tally.add(&format!("tables {name}"), seen);
        let ones = table.iter().filter(|&&byte| byte == 1).count();
        [0, 1, 63, 64].iter().for_each(|&n| note(&format!("of {n} terms"), terms == n));
        note("of several terms, no survivors", terms > 1 && rows.is_empty());
        note("of several terms, one survivor", terms > 1 && rows.len() == 1);
        note(
            "of several terms, all ones although there are survivors",
            terms > 1 && ones == table.len() && !rows.is_empty(),
        );
        note("of several terms, ones on the diagonal alone", terms > 1 && ones == terms);
        note("of 64 terms, ones and zeros a thousand each", terms == 64 && (1000..3096).contains(&ones));
        let fails = matches!(self.plain.decision(), Ok(Decision::ClaimsFail));
        note("of outcome 2, ones and zeros", fails && ones < table.len());
        note("of a book in which a name recurs, ones and zeros", Draft::of(&self.book).recurs() && ones < table.len());
        if !(3..=200).contains(&rows.len()) || terms > 32 {
            return;
        }
        // Of each zero whose pair one survivor alone tells apart, where that stands in the list.
        let mut alone = BTreeSet::new();
        for at in (0..table.len()).filter(|&at| table[at] == 0) {
            let mut telling = rows.values().enumerate().filter(|(_, row)| row[at / terms] > row[at % terms]);
            alone.extend(telling.next().filter(|_| telling.next().is_none()).map(|(number, _)| number));
        }
        note("with a zero for the sake of the first survivor alone", alone.contains(&0));
        note("with a zero for the sake of the last survivor alone", alone.contains(&(rows.len() - 1)));
        note("with a zero for the sake of another one alone", alone.iter().any(|&one| one > 0 && one < rows.len() - 1));
    }

    fn compare_sheets(&mut self) {
        for _ in 0..3 {
            let sheet = match self.plain.book() {
                Ok(book) => sheets::any(&mut self.random, book),
                Err(_) => self.random.bytes(12),
            };
            self.compare_sheet(&sheet);
        }
    }

    fn compare_sheet(&mut self, sheet: &[u8]) -> Answer {
        let elements = sheet.get(2).map_or(0, |&n| usize::from(n));
        let terms = self.plain.book().map_or(0, |book| book.terms.len());
        let grid = self.near(elements * terms);
        let (answer, _) = self.compare(Call::WorkOut { grid }, sheet);
        if let [0, verdict, ..] = answer {
            self.tally.add(&format!("verdict {verdict:2} where a name recurs"), Draft::of(&self.book).recurs());
        }
        if let [0, 2, claim, ..] = answer {
            self.note_the_broken_claim(sheet, claim);
        }
        answer
    }

    /// Counts the sheets on which a claim on a set is named, by who of its members breaks it.
    fn note_the_broken_claim(&mut self, sheet: &[u8], claim: usize) {
        let Ok(book) = self.plain.book() else { unreachable!("worked out") };
        let Ok(world) = book.read_sheet(sheet) else { unreachable!("worked out") };
        let (rows, claimed) = (book.rows(&world), &book.memberships[claim]);
        let met: Vec<bool> =
            claimed.members.iter().map(|&member| claimed.met_by(&rows[world.individuals[member]])).collect();
        let set = is_set(&Draft::of(&self.book).memberships[claim]);
        let mut note = |name: &str, seen| self.tally.add(&format!("sheets that break a set, {name}"), set && seen);
        note("every member", met.iter().all(|met| !met));
        note("its lowest member alone", met.len() > 1 && met[1..].iter().all(|met| *met));
        note("its highest member alone", met.len() > 1 && met[..met.len() - 1].iter().all(|met| *met));
    }

    /// A length, most often just sufficient, or a little shorter or longer.
    fn near(&mut self, length: usize) -> usize {
        match self.random.below(16) {
            0 => length.saturating_sub(1),
            1 => self.random.below(length + 1),
            2 | 3 => length + 1,
            4..=6 => length + self.random.below(40),
            _ => length,
        }
    }

    /// A number, most often below the bound.
    fn index(&mut self, bound: usize) -> usize {
        match self.random.below(16) {
            0 => bound,
            1 => self.random.pick(&[bound + 1, bound + 256, 1 << 32, 1 << 63, usize::MAX]),
            2 | 3 => bound.saturating_sub(1),
            _ => self.random.below(bound.max(1)),
        }
    }

    fn compare(&mut self, call: Call, sheet: &[u8]) -> (Answer, Vec<Buffer>) {
        let compared = compare(&mut self.random, &self.book, &self.plain, sheet, call);
        let (answer, buffers) = compared.unwrap_or_else(|difference| panic!("{}: {difference}", self.name));
        self.tally.add_answer(call, answer);
        (answer, buffers)
    }
}

fn is_quantified(term: &[u8; 3]) -> bool {
    [SOME, ALL].contains(&term[0])
}

fn roles(book: &Book) -> BTreeSet<u8> {
    let role = |term: &Term| if let Term::Some(role, _) | Term::All(role, _) = *term { Some(role) } else { None };
    book.terms.iter().filter_map(role).collect()
}

fn roles_in_terms_and_claims(book: &Book) -> usize {
    let in_claims = book.links.iter().map(|claim| claim.role);
    roles(book).into_iter().chain(in_claims).max().map_or(0, |role| usize::from(role) + 1)
}

fn pairs(book: &Book) -> BTreeSet<(u8, u8)> {
    book.pairs.iter().map(|pair| (pair.lower, pair.upper)).collect()
}

fn has_a_circle(book: &Book) -> bool {
    let back = |pair: &Pair| book.upward[usize::from(pair.upper)].contains(&pair.lower);
    book.pairs.iter().any(|pair| pair.lower != pair.upper && back(pair))
}

/// Two roles of terms, and one of neither terms nor claims between them, without which no pair leads from one to the other.
fn has_a_way_through_an_unused_role(book: &Book) -> bool {
    let (roles, pairs) = (roles(book), pairs(book));
    let used = |role: u8| roles.contains(&role) || book.links.iter().any(|claim| claim.role == role);
    let between = |lower: u8, upper: u8| {
        (0..=7).any(|role| !used(role) && pairs.contains(&(lower, role)) && pairs.contains(&(role, upper)))
    };
    let apart = |lower: u8, upper: u8| lower != upper && !pairs.contains(&(lower, upper));
    roles.iter().any(|&lower| roles.iter().any(|&upper| apart(lower, upper) && between(lower, upper)))
}

fn individuals(book: &Book) -> BTreeSet<usize> {
    let linked = book.links.iter().flat_map(|claim| [claim.from, claim.to]);
    book.memberships.iter().flat_map(|claim| claim.members.iter().copied()).chain(linked).collect()
}
