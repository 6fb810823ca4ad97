//! What has to hold of the table of implied rules, of the library alone: on seeded books, and on the hard ones of the
//! benchmark. `differential.rs` compares its bytes with those of the plain implementation, `readings.rs` with tables worked
//! out by hand.

// Of these the other tests use what is left unused here.
#[allow(dead_code)]
mod generate;
#[allow(dead_code)]
mod plain;
#[allow(dead_code)]
mod support;

use std::fs;

use generate::random::Random;
use generate::{books, tables};
use support::draft::{Draft, AT_LEAST, EACH_AT_MOST, NAME};
use zegbiko::{Decision, ImpliedRules};

const SEED: u64 = 4;
/// So many books are drawn of each sort.
const DRAWN: u64 = 4_000;
/// With more candidates a book is left out where each type's grades are asked for.
const FEW: usize = 260;

/// Seeded books that are not refused, each with numbers to go on with.
fn drawn() -> impl Iterator<Item = (Vec<u8>, Random)> {
    type Sort = (fn(u64, u64) -> Random, fn(&mut Random) -> Vec<u8>);
    let sorts: [Sort; 3] =
        [(Random::of, books::any), (Random::of_edition_2, books::ranked), (Random::of_tables, tables::any)];
    let cases = (0..DRAWN).flat_map(move |case| sorts.map(|(numbers, draw)| (numbers(SEED, case), draw)));
    let books = cases.map(|(mut random, draw)| (draw(&mut random), random));
    books.filter(|(book, _)| zegbiko::count(book).is_ok())
}

/// The books of the benchmark.
fn hard() -> Vec<Vec<u8>> {
    let text = fs::read_to_string("../bench/books.hex").expect("the benchmark's books");
    let byte = |digits| u8::from_str_radix(digits, 16).expect("two hexadecimal digits");
    let lines = text.lines().filter(|line| line.starts_with(|sign: char| sign.is_ascii_digit()));
    lines.map(|line| line.split_whitespace().map(byte).collect()).collect()
}

/// Marks, survivors and table, in buffers of just the length.
fn filled(book: &[u8]) -> (Vec<u8>, usize, Vec<u8>) {
    let terms = Draft::of(book).terms.len();
    let (mut marks, mut table) = (vec![7; zegbiko::count(book).expect("accepted")], vec![7; terms * terms]);
    let survivors = zegbiko::implied_rules(book, &mut marks, &mut table).expect("buffers that suffice");
    (marks, survivors, table)
}

fn implied(book: &[u8]) -> ImpliedRules {
    ImpliedRules::of(book).expect("accepted")
}

/// The grades of all terms in each type that deciding lists.
fn types(book: &[u8]) -> Vec<Vec<u8>> {
    let terms = Draft::of(book).terms.len();
    let decision = Decision::of(book).expect("accepted");
    let grade = |candidate, term| zegbiko::grade(book, candidate, term).expect("a candidate and a term");
    decision.listed().map(|candidate| (0..terms).map(|term| grade(candidate, term)).collect()).collect()
}

fn pairs(terms: usize) -> impl Iterator<Item = (usize, usize)> {
    (0..terms).flat_map(move |left| (0..terms).map(move |right| (left, right)))
}

/// "A call without placement sets the marks, returns the survivor count": both as deciding does.
#[test]
fn marks_and_count_are_those_of_deciding() {
    for book in drawn().map(|(book, _)| book).chain(hard()) {
        let (marks, survivors, table) = filled(&book);
        let (mut decided_marks, mut placement) = (vec![7; marks.len()], [0; zegbiko::PLACEMENT]);
        let decided = zegbiko::decide(&book, &mut decided_marks, &mut placement).expect("accepted");
        assert_eq!((survivors, marks), (decided.survivors, decided_marks), "{book:02X?}");
        assert!(table.iter().all(|&byte| byte <= 1), "{book:02X?}");
    }
}

#[test]
fn terms_bound_themselves_and_what_they_bound_is_bounded_by_their_bounds() {
    for book in drawn().map(|(book, _)| book).chain(hard()) {
        let implied = implied(&book);
        let terms = implied.terms();
        assert!((0..terms).all(|term| implied.implies(term, term) && implied.agree(term, term)), "{book:02X?}");
        for (left, middle) in implied.rules() {
            let beyond = |right| !implied.implies(middle, right) || implied.implies(left, right);
            assert!((0..terms).all(beyond), "{book:02X?}");
        }
        let rules = Draft::of(&book).rules;
        assert!(rules.iter().all(|rule| implied.implies(rule[0].into(), rule[1].into())), "{book:02X?}");
        assert!(implied.survivors() > 0 || implied.rules().eq(pairs(terms)), "{book:02X?}");
    }
}

/// The recipe "Does a rule follow?" of `docs/USING.md`, by the lines of the list: a rule is implied if and only if every type
/// has a left grade at most the right one. So where a byte is 0 some type shows it, and where it is 1 none does.
#[test]
fn a_rule_is_implied_where_every_type_meets_it() {
    let (mut books, mut ones, mut zeros) = (0, 0, 0);
    for book in drawn().map(|(book, _)| book).filter(|book| zegbiko::count(book).is_ok_and(|count| count <= FEW)) {
        let (types, implied) = (types(&book), implied(&book));
        assert_eq!(types.len(), implied.survivors(), "{book:02X?}");
        for (left, right) in pairs(implied.terms()) {
            let follows = types.iter().all(|row| row[left] <= row[right]);
            assert_eq!(implied.implies(left, right), follows, "{left} {right} {book:02X?}");
            *(if follows { &mut ones } else { &mut zeros }) += 1;
        }
        books += 1;
    }
    println!("{books} books, {ones} implied rules, {zeros} others");
    assert!(ones > 100_000 && zeros > 100_000);
}

/// Of the hard books, each type's grades of some pairs of terms.
#[test]
fn so_it_is_with_many_types() {
    let mut random = Random::of(SEED, 0);
    for book in hard() {
        let (implied, decision) = (implied(&book), Decision::of(&book).expect("accepted"));
        for _ in 0..8 {
            let [left, right] = [(); 2].map(|()| random.below(implied.terms()));
            let grade = |candidate, term| zegbiko::grade(&book, candidate, term).expect("a candidate and a term");
            let follows = decision.listed().all(|candidate| grade(candidate, left) <= grade(candidate, right));
            assert_eq!(implied.implies(left, right), follows, "{left} {right} {book:02X?}");
        }
    }
}

/// Written into the book, a rule that is implied strikes no type and implies no other; one that is not strikes some.
#[test]
fn an_implied_rule_changes_nothing() {
    let (mut kept, mut struck) = (0, 0);
    for (book, mut random) in drawn() {
        let draft = Draft::of(&book);
        if draft.terms.is_empty() || draft.rules.len() == 64 {
            continue;
        }
        let (marks, survivors, table) = filled(&book);
        for _ in 0..4 {
            let [left, right] = [(); 2].map(|()| random.below(draft.terms.len()));
            let mut more = draft.clone();
            more.rules.push([left as u8, right as u8]);
            let (more_marks, fewer, more_table) = filled(&more.bytes());
            if table[left * draft.terms.len() + right] == 1 {
                assert_eq!((more_marks, fewer, more_table), (marks.clone(), survivors, table.clone()), "{book:02X?}");
                kept += 1;
            } else {
                assert!(fewer < survivors, "{book:02X?}");
                assert!(table.iter().zip(&more_table).all(|(before, after)| before <= after), "{book:02X?}");
                struck += 1;
            }
        }
    }
    println!("{kept} implied rules change nothing, {struck} others strike types");
    assert!(kept > 1000 && struck > 1000);
}

/// "Claims play no part": without them, and with others, answer and every byte are the same.
#[test]
fn claims_play_no_part() {
    let (mut outcomes, mut fails) = (0, 0);
    for (book, mut random) in drawn() {
        let draft = Draft::of(&book);
        let without = Draft { memberships: vec![], links: vec![], ..draft.clone() };
        let mut others = without.clone();
        for term in 0..draft.terms.len() as u8 {
            // Every grade of every term, at one end or the other: few books hold together with that.
            let grade = random.up_to(draft.steps);
            others
                .memberships
                .push(random.pick(&[[0, term, AT_LEAST, draft.steps], [0xFF, term, EACH_AT_MOST, grade]]));
        }
        others.links = vec![[0, 0, 1, draft.steps], [random.up_to(7), 7, 0, 1]];
        let expected = filled(&book);
        for other in [without, others] {
            assert_eq!(filled(&other.bytes()), expected, "{book:02X?}");
            let [one, two] = [&book, &other.bytes()].map(|book| Decision::of(book).expect("accepted").outcome());
            outcomes += usize::from(one != two);
            fails += usize::from(two == zegbiko::Outcome::ClaimsFail);
        }
    }
    println!("{outcomes} times the outcome was another, {fails} times the claims failed");
    assert!(outcomes > 1000 && fails > 1000);
}

/// A book of edition 2 without pairs has the table of that of edition 1, and pairs leave at least its ones.
#[test]
fn more_pairs_imply_no_less() {
    let mut more = 0;
    for (book, _) in drawn().filter(|(book, _)| book[0] == 2) {
        let [none, first] = [Some(vec![]), None].map(|pairs| filled(&Draft { pairs, ..Draft::of(&book) }.bytes()));
        assert_eq!(none, first, "{book:02X?}");
        let (_, survivors, table) = filled(&book);
        assert!(survivors <= none.1 && none.2.iter().zip(&table).all(|(without, with)| without <= with), "{book:02X?}");
        more += usize::from(table != none.2);
    }
    println!("in {more} books pairs imply more");
    assert!(more > 100);
}

/// "The grades of all terms with one name agree in every type": each of them bounds the others.
#[test]
fn terms_of_one_name_agree() {
    let mut agree = 0;
    for (book, _) in drawn() {
        let draft = Draft::of(&book);
        if draft.recurs() {
            let implied = implied(&book);
            for (one, other) in pairs(draft.terms.len()) {
                if draft.terms[one] == draft.terms[other] && draft.terms[one][0] == NAME {
                    assert!(implied.agree(one, other), "{one} {other} {book:02X?}");
                    agree += usize::from(one < other);
                }
            }
        }
    }
    println!("{agree} pairs of terms of one name agree");
    assert!(agree > 1000);
}

#[test]
fn numbers_that_are_no_terms() {
    let implied = implied(&Draft { terms: vec![[0, 0, 0], [1, 0, 0]], ..Draft::new(2) }.bytes());
    assert_eq!((implied.terms(), implied.survivors()), (2, 3));
    assert!(implied.rules().eq([(0, 0), (1, 1)]));
    for (left, right) in [(0, 2), (2, 0), (2, 2), (1, usize::MAX), (usize::MAX, 1), (usize::MAX, usize::MAX)] {
        assert!(!implied.implies(left, right) && !implied.agree(left, right));
    }
    let nothing = ImpliedRules::of(&Draft::new(1).bytes()).expect("accepted");
    assert_eq!((nothing.terms(), nothing.survivors(), nothing.rules().count()), (0, 1, 0));
    assert!(!nothing.implies(0, 0));
    assert_eq!(format!("{nothing:?}"), "ImpliedRules { survivors: 1, terms: 0, rules: [] }");
}
