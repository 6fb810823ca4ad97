//! The plain implementation against itself, with no call of the library: its types and outcomes come from links and
//! elimination, and its implied rules from the types; here all interpretations of one and two elements are tried, and the
//! model of the survivors. So what the other tests hold the library to is what the documents ask for: the types that occur
//! where rules and pairs are met, and the terms that bound each other there.

#[allow(dead_code)]
mod generate;
#[allow(dead_code)]
mod plain;
#[allow(dead_code)]
mod support;

use std::collections::BTreeSet;

use generate::random::Random;
use generate::repeats;
use plain::book::{Book, Grade};
use plain::grades::{Interpretation, Verdict};
use plain::placement::Decision;
use plain::Plain;
use support::draft::{is_set, Draft, ALL, BOTTOM, EACH_AT_LEAST, NAME, NOT, SOME, TOP};

const BOOKS: u64 = 60;

/// One name, a few quantified terms of two roles or three, rules and claims, and pairs in four of five. Half of the
/// membership claims are on a set of two individuals, of one or of none. In half of the books the name recurs.
fn drawn(random: &mut Random) -> Draft {
    let steps = random.pick(&[1, 1, 1, 1, 2]);
    let roles = if steps == 1 { 3 } else { 2 };
    let mut book = Draft::new(steps);
    let a = book.term(NAME, 0, 0);
    let children = [a, book.term(NOT, a, 0), book.term(TOP, 0, 0), book.term(BOTTOM, 0, 0)];
    for _ in 0..random.pick(&[1, 2, 2, 3]) {
        book.term(random.pick(&[SOME, SOME, ALL]), random.up_to(roles - 1), random.pick(&children));
    }
    let any_term = |random: &mut Random, book: &Draft| random.below(book.terms.len()) as u8;
    for _ in 0..random.pick(&[0, 0, 1, 2]) {
        book.rules.push([any_term(random, &book), any_term(random, &book)]);
    }
    for _ in 0..random.pick(&[0, 1, 2]) {
        book.memberships.push([random.up_to(1), any_term(random, &book), random.up_to(1), random.up_to(steps)]);
    }
    for _ in 0..random.pick(&[0, 1, 1]) {
        book.links.push([random.up_to(roles - 1), random.up_to(1), random.up_to(1), 1 + random.up_to(steps - 1)]);
    }
    let count = random.pick(&[0, 1, 1, 2, 3]);
    book.pairs = Some((0..count).map(|_| [random.up_to(roles - 1), random.up_to(roles - 1)]).collect());
    for claim in &mut book.memberships {
        if random.one_in(2) {
            *claim = [random.up_to(3), claim[1], claim[2] + EACH_AT_LEAST, claim[3]];
        }
    }
    if random.one_in(2) {
        let more = 1 + random.below(3);
        repeats::add(random, &mut book, more);
    }
    book
}

/// Every interpretation of so many elements: all grades of names and links, and all places of individuals.
fn each(book: &Book, elements: usize, mut see: impl FnMut(&Interpretation)) {
    let (names, roles) = (elements * book.names(), book.roles() * elements * elements);
    let mut digits = vec![0; names + roles + book.individuals()];
    let most = |at: usize| if at < names + roles { book.steps } else { elements as Grade - 1 };
    loop {
        let (of_names, rest) = digits.split_at(names);
        let (of_links, seats) = rest.split_at(roles);
        let rows = |part: &[Grade], width: usize| part.chunks(width.max(1)).map(<[Grade]>::to_vec).collect::<Vec<_>>();
        see(&Interpretation {
            elements,
            names: rows(of_names, book.names()),
            links: rows(of_links, elements).chunks(elements).map(<[_]>::to_vec).collect(),
            individuals: seats.iter().map(|&seat| usize::from(seat)).collect(),
        });
        let Some(at) = (0..digits.len()).find(|&at| digits[at] < most(at)) else { return };
        digits[at] += 1;
        digits[..at].fill(0);
    }
}

/// The pairs of terms of which the first is above the second in one of the rows.
fn told_apart<'a>(terms: usize, rows: impl IntoIterator<Item = &'a Vec<Grade>>) -> BTreeSet<(usize, usize)> {
    let pairs = move || (0..terms).flat_map(move |left| (0..terms).map(move |right| (left, right)));
    rows.into_iter().flat_map(|row| pairs().filter(|&(left, right)| row[left] > row[right])).collect()
}

#[test]
fn types_and_outcomes() {
    let (mut tried, mut equal, mut outcomes, mut by_pairs, mut with_sets) = (0, 0, [0; 3], 0, [0; 3]);
    let (mut implied, mut not_implied, mut shown, mut recurring) = (0, 0, 0, [0; 3]);
    for case in 0..BOOKS {
        let draft = drawn(&mut Random::of(1, case));
        let plain = Plain::open(&draft.bytes());
        let (book, survivors) = (plain.book().expect("a right book"), &plain.eliminated().expect("few").survivors);
        let (mut seen, mut held) = (BTreeSet::new(), false);
        for elements in 1..=2 {
            each(book, elements, |world| {
                tried += 1;
                let rows = book.rows(world);
                let verdict = book.verdict(world, &rows);
                if !matches!(verdict, Verdict::BreaksRule { .. } | Verdict::BreaksPair { .. }) {
                    seen.extend(rows);
                    held |= matches!(verdict, Verdict::Meets);
                }
            });
        }
        // What occurs is listed, and a book that is met holds together.
        assert!(seen.iter().all(|row| survivors.values().any(|other| row == other)), "{draft:?}");
        equal += usize::from(seen.len() == survivors.len());
        // Where an implied rule stands no interpretation breaks it; the model of the survivors breaks all others. Its
        // individuals play no part.
        let terms = book.terms.len();
        let table = book.implied_rules(survivors);
        let zeros = (0..table.len()).filter(|&at| table[at] == 0).map(|at| (at / terms, at % terms));
        let (zeros, broken): (BTreeSet<_>, _) = (zeros.collect(), told_apart(terms, &seen));
        assert!(broken.is_subset(&zeros), "{draft:?}");
        let model = book.model(survivors, &[]);
        assert_eq!(zeros, told_apart(terms, &book.rows(&model)), "{draft:?}");
        not_implied += zeros.len();
        implied += table.len() - zeros.len();
        shown += broken.len();
        let outcome = match plain.decision().expect("few") {
            Decision::HoldsTogether(places) => {
                // What is listed occurs, and the book is met: in the model.
                let model = book.model(survivors, places);
                let rows = book.rows(&model);
                assert!(rows.iter().eq(survivors.values()), "{draft:?}");
                assert!(matches!(book.verdict(&model, &rows), Verdict::Meets), "{draft:?}");
                0
            }
            Decision::ClaimsFail => 1,
            Decision::NoModel => 2,
        };
        assert!(!held || outcome == 0, "{draft:?}");
        outcomes[outcome] += 1;
        recurring[outcome] += usize::from(draft.recurs());
        for (members, books) in (0..).zip(&mut with_sets) {
            let is_such = |claim: &[u8; 4]| is_set(claim) && claim[0].count_ones() == members;
            *books += usize::from(draft.memberships.iter().any(is_such));
        }
        let unranked = Plain::open(&Draft { pairs: None, ..draft }.bytes());
        by_pairs += usize::from(unranked.eliminated().expect("few").survivors.len() > survivors.len());
    }
    println!(
        "{BOOKS} books, {tried} interpretations; outcomes 1 to 3: {outcomes:?}; pairs take types away in {by_pairs}"
    );
    println!("{implied} rules are implied, {not_implied} are not, {shown} of these by two elements or one");
    println!("in {equal} books every type occurs with two elements or one; sets of 0 to 2 are in {with_sets:?}");
    println!("a name recurs in {recurring:?} books of outcomes 1 to 3");
    let each = outcomes.iter().chain(&with_sets).chain(&recurring);
    assert!(each.into_iter().all(|&count| count > 0) && by_pairs > 0 && equal > 0);
    assert!(implied > 0 && shown > 0);
}
