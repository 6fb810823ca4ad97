//! The readings of the specification (document 01, and P1, P2, P4 and P5 of document 02) and the hard books of the benchmark,
//! held against the library and the plain implementation alike. The expected values come from the documents, or were worked
//! out by hand.

mod plain;
// Of this the other tests use what is left unused here.
#[allow(dead_code)]
mod support;

use std::fs;

use plain::Plain;
use support::buffer::Buffer;
use support::calls::{self, Answer, Call, Side};
use support::draft::{
    Draft, ALL, AND, AT_LEAST, AT_MOST, BOTTOM, EACH_AT_LEAST, EACH_AT_MOST, NAME, NOT, OR, SOME, TOP,
};

const SIDES: [Side; 3] = [plainly, calls::wrapped, calls::raw];

fn plainly(book: &[u8], sheet: &[u8], call: Call, buffers: &mut [Buffer]) -> Answer {
    calls::plain(&Plain::open(book), sheet, call, buffers)
}

/// What the buffers of a call hold before it.
const KEPT: u8 = 0xFF;

fn ask(side: Side, book: &[u8], sheet: &[u8], call: Call) -> (Answer, Vec<Buffer>) {
    let mut buffers: Vec<Buffer> = call.lengths().iter().map(|&length| Buffer::new(&vec![KEPT; length], 64)).collect();
    let answer = side(book, sheet, call, &mut buffers);
    assert!(buffers.iter().all(Buffer::margins_kept), "{} of {book:?}", call.name());
    (answer, buffers)
}

/// Asks every side, and expects the first fields of one answer, 0 in the others, and the first bytes of the last buffer.
fn answers<const N: usize>(book: &Draft, sheet: &[u8], call: Call, expected: [usize; N], written: &[u8]) {
    for side in SIDES {
        let (answer, buffers) = ask(side, &book.bytes(), sheet, call);
        assert_eq!(answer, calls::answer(expected), "{} of {book:?}", call.name());
        let last = buffers.last().map_or(&[][..], Buffer::contents);
        assert!(last.starts_with(written) && last[written.len()..].iter().all(|&byte| byte == KEPT));
    }
}

/// Outcome, survivors, and the candidates at which individuals are placed; or the number of a refusal.
type Decided = Result<(usize, Vec<usize>, Vec<usize>), usize>;

fn decide(side: Side, book: &[u8]) -> Decided {
    let call = Call::Decide { marks: zegbiko::MARKS, placement: zegbiko::PLACEMENT };
    let ([refusal, outcome, survivors, ..], buffers) = ask(side, book, &[], call);
    if refusal != 0 {
        return Err(refusal);
    }
    let marks = buffers[0].contents().iter().enumerate();
    let marked: Vec<usize> = marks.filter(|(_, &mark)| mark == 1).map(|(candidate, _)| candidate).collect();
    assert_eq!(marked.len(), survivors);
    let placed = buffers[1].contents().chunks(2).filter(|place| *place != [KEPT; 2]);
    let placed = placed.map(|place| usize::from(place[0]) * 256 + usize::from(place[1])).collect();
    Ok((outcome, marked, placed))
}

fn decided(book: &Draft, outcome: usize, survivors: &[usize], placed: &[usize]) {
    for side in SIDES {
        assert_eq!(decide(side, &book.bytes()), Ok((outcome, survivors.to_vec(), placed.to_vec())), "{book:?}");
    }
}

fn outcome(book: &Draft, expected: usize) {
    for side in SIDES {
        assert_eq!(decide(side, &book.bytes()).map(|(outcome, ..)| outcome), Ok(expected), "{book:?}");
    }
}

#[test]
fn links() {
    for (kind, grade, child, expected) in [(ALL, 3, 1, 1), (ALL, 3, 3, 4), (SOME, 1, 3, 1), (SOME, 2, 2, 4)] {
        let mut book = Draft::new(4);
        let a = book.term(NAME, 0, 0);
        book.term(kind, 0, a);
        // Candidates are A's grade and five times the quantified term's.
        answers(&book, &[], Call::Link { role: 0, from: 5 * grade, to: child }, [0, expected, 0, 0], &[]);
    }
}

fn printed_book() -> Draft {
    let mut book = Draft::new(2);
    let a = book.term(NAME, 0, 0);
    let not_a = book.term(NOT, a, 0);
    book.rules = vec![[a, not_a], [not_a, a]];
    book.memberships = vec![[0, a, AT_LEAST, 1]];
    book
}

#[test]
fn the_printed_book() {
    let book = printed_book();
    let printed = "01 02 00 12 00 02 00 18 00 02 00 1C 00 01 00 20 00 00 00 00 00 01 00 00 00 01 01 00 00 00 00 01";
    assert_eq!(book.bytes(), from_hex(printed));
    assert_eq!(Draft::of(&book.bytes()).bytes(), book.bytes());
    decided(&book, 1, &[1], &[1]);
    decided(&Draft { steps: 1, ..book }, 3, &[], &[]);
}

#[test]
fn every_call_on_the_printed_book() {
    let book = printed_book();
    answers(&book, &[], Call::Check, [0; 4], &[]);
    answers(&book, &[], Call::Count, [0, 3, 0, 0], &[]);
    answers(&book, &[], Call::Grade { candidate: 0, term: 1 }, [0, 2, 0, 0], &[]);
    answers(&book, &[], Call::Grade { candidate: 3, term: 2 }, [20, 0, 0, 0], &[]);
    answers(&book, &[], Call::Link { role: 7, from: 0, to: 2 }, [0, 2, 0, 0], &[]);
    answers(&book, &[], Call::Link { role: 8, from: 0, to: 2 }, [21, 0, 0, 0], &[]);
    answers(&book, &[], Call::ImpliedRules { marks: 3, table: 6 }, [0, 1, 0, 0], &[1, 1, 1, 1]);

    let model = from_hex("01 02 01 01 00 01 00 0C 00 0D 00 0D 01 00");
    let call = Call::WriteSheet { marks: 3, placement: 16, sheet: 20 };
    answers(&book, &[], call, [0, 14, 0, 0], &model);
    answers(&book, &model, Call::WorkOut { grid: 5 }, [0, 0, 0, 0], &[1, 1]);
    // Two elements, A graded 1 and 0: "not A" is greater than A at the second.
    let broken = from_hex("01 02 02 01 00 01 00 0C 00 0E 00 0E 01 00 00");
    answers(&book, &broken, Call::WorkOut { grid: 5 }, [0, 1, 1, 1], &[1, 1, 0, 2]);
}

#[test]
fn no_terms_or_claims() {
    decided(&Draft::new(1), 1, &[0], &[]);
}

#[test]
fn a_under_some_a() {
    let mut book = Draft::new(1);
    let a = book.term(NAME, 0, 0);
    let some_a = book.term(SOME, 0, a);
    book.rules = vec![[a, some_a]];
    book.memberships = vec![[0, a, AT_LEAST, 1]];
    decided(&book, 1, &[0, 2, 3], &[3]);
}

#[test]
fn some_bottom() {
    let mut book = Draft::new(1);
    let bottom = book.term(BOTTOM, 0, 0);
    let some = book.term(SOME, 0, bottom);
    book.memberships = vec![[0, some, AT_LEAST, 1]];
    decided(&book, 2, &[0], &[]);
}

#[test]
fn a_and_not_a() {
    for (steps, expected) in [(2, 1), (1, 2)] {
        let mut book = Draft::new(steps);
        let a = book.term(NAME, 0, 0);
        let not_a = book.term(NOT, a, 0);
        book.memberships = vec![[0, a, AT_LEAST, 1], [0, not_a, AT_LEAST, 1]];
        outcome(&book, expected);
    }
}

fn linked_to_itself(most: u8) -> Draft {
    let mut book = Draft::new(2);
    let a = book.term(NAME, 0, 0);
    let all_a = book.term(ALL, 0, a);
    book.memberships = vec![[0, all_a, AT_LEAST, 2], [0, a, AT_MOST, most]];
    book.links = vec![[0, 0, 0, 2]];
    book
}

#[test]
fn an_individual_linked_to_itself() {
    outcome(&linked_to_itself(1), 2);
    outcome(&linked_to_itself(2), 1);
}

#[test]
fn the_first_claim_broken() {
    // One element: A, its link to itself; then verdict and claim, and the grades of A and "all r0 A".
    for (a, link, verdict, claim, all_a) in [(1, 1, 2, 0, 1), (2, 2, 2, 1, 2), (1, 0, 3, 0, 2)] {
        let sheet = [1, 2, 1, 1, 1, 1, 0, 12, 0, 13, 0, 14, a, link, 0];
        let call = Call::WorkOut { grid: 2 };
        answers(&linked_to_itself(1), &sheet, call, [0, verdict, claim, 0], &[a, all_a]);
    }
}

#[test]
fn one_individual_on_four_steps() {
    for (most, expected) in [(1, 2), (2, 1)] {
        let mut book = Draft::new(4);
        let b = book.term(NAME, 0, 0);
        let c = book.term(NAME, 1, 0);
        let not_b = book.term(NOT, b, 0);
        let all_not_b = book.term(ALL, 0, not_b);
        let b_and_c = book.term(AND, b, c);
        let some_b_and_c = book.term(SOME, 0, b_and_c);
        let either = book.term(OR, all_not_b, some_b_and_c);
        let all_c = book.term(ALL, 0, c);
        book.memberships = vec![[0, either, AT_MOST, most], [0, all_c, AT_LEAST, 3]];
        outcome(&book, expected);
    }
}

/// Every N, with every number of places that 64 terms can have: one name, and "some" terms over it.
#[test]
fn as_many_candidates_as_the_power() {
    for steps in 1..=8 {
        for places in 0..=64 {
            let mut book = Draft::new(steps);
            book.terms = (0..places).map(|term| if term == 0 { [NAME, 0, 0] } else { [SOME, 0, 0] }).collect();
            let power = (u64::from(steps) + 1).checked_pow(places).filter(|&power| power <= 16384);
            let expected = power.map_or([10, 0], |power| [0, power as usize]);
            answers(&book, &[], Call::Count, expected, &[]);
        }
    }
}

#[test]
fn at_most_16384_candidates() {
    for (steps, most) in [(1, 14), (2, 8), (3, 7), (4, 6), (5, 5), (6, 4), (7, 4), (8, 4)] {
        let mut book = Draft::new(steps);
        book.terms = (0..most).map(|name| [NAME, name, 0]).collect();
        outcome(&book, 1);
        book.term(NAME, most, 0);
        for side in SIDES {
            assert_eq!(decide(side, &book.bytes()), Err(10));
        }
    }
}

#[test]
fn a_or_not_a_is_not_top() {
    let mut book = Draft::new(2);
    let a = book.term(NAME, 0, 0);
    let not_a = book.term(NOT, a, 0);
    let either = book.term(OR, a, not_a);
    book.memberships = vec![[0, either, AT_MOST, 1]];
    decided(&book, 1, &[0, 1, 2], &[1]);
}

#[test]
fn a_witness_through_a_link_of_0() {
    let mut book = Draft::new(1);
    let bottom = book.term(BOTTOM, 0, 0);
    let all = book.term(ALL, 0, bottom);
    book.memberships = vec![[0, all, AT_LEAST, 1]];
    decided(&book, 1, &[0, 1], &[1]);
}

#[test]
fn links_bounded_by_some() {
    let mut book = Draft::new(1);
    let top = book.term(TOP, 0, 0);
    let some = book.term(SOME, 0, top);
    book.memberships = vec![[0, some, AT_MOST, 0]];
    book.links = vec![[0, 0, 1, 1]];
    decided(&book, 2, &[0, 1], &[]);
}

#[test]
fn two_individuals_at_one_element() {
    let mut book = printed_book();
    book.memberships.push([1, 0, AT_MOST, 1]);
    decided(&book, 1, &[1], &[1, 1]);
}

#[test]
fn looking_again() {
    // A under "some r0 B", B under "some r0 C", C under bottom.
    let mut book = Draft::new(1);
    let [a, b, c] = [0, 1, 2].map(|name| book.term(NAME, name, 0));
    let [some_b, some_c] = [b, c].map(|child| book.term(SOME, 0, child));
    let bottom = book.term(BOTTOM, 0, 0);
    book.rules = vec![[a, some_b], [b, some_c], [c, bottom]];
    decided(&book, 1, &[0], &[]);
    let plain = Plain::open(&book.bytes());
    assert_eq!(plain.eliminated().map(|eliminated| eliminated.sweeps), Ok(2));
}

/// Of edition 2, with these pairs of lower and upper role.
fn ranked(book: &Draft, pairs: &[[u8; 2]]) -> Draft {
    Draft { pairs: Some(pairs.to_vec()), ..book.clone() }
}

/// "An interpretation meets a pair when the lower role's link never exceeds the upper's": a link claim on the lower role
/// is one on the upper role too.
#[test]
fn a_link_of_the_lower_role_seen_by_all_of_the_upper() {
    // Individual 0 is in "all r1 A" fully, is linked to individual 1 by r0 fully, and 1 is in A at most to some grade.
    let book = |most| {
        let mut book = Draft::new(2);
        let a = book.term(NAME, 0, 0);
        let all_a = book.term(ALL, 1, a);
        book.memberships = vec![[0, all_a, AT_LEAST, 2], [1, a, AT_MOST, most]];
        book.links = vec![[0, 0, 1, 2]];
        book
    };
    // Candidates are A's grade and three times that of "all r1 A". All survive, whatever the pairs, which r0 alone could feel
    // below r1: g is taken from A graded g through a link of 2. Without pairs the claim says nothing of r1.
    let all: Vec<usize> = (0..9).collect();
    decided(&book(1), 1, &all, &[6, 0]);
    // r0 under r1: the link of r1 is 2 too, so "all r1 A" is at most the grade of A at individual 1.
    decided(&ranked(&book(1), &[[0, 1]]), 2, &all, &[]);
    // With A at most 2 there is a seat for individual 1: the first candidate with A graded 2.
    decided(&ranked(&book(2), &[[0, 1]]), 1, &all, &[6, 2]);
    // Not the other way round: r1 under r0 leaves r1 below the link claimed.
    decided(&ranked(&book(1), &[[1, 0]]), 1, &all, &[6, 0]);
    // A circle makes them equal, which has the pair's effect again.
    decided(&ranked(&book(1), &[[1, 0], [0, 1]]), 2, &all, &[]);
}

#[test]
fn a_link_of_the_lower_role_seen_by_some_of_the_upper() {
    // "some r1 top" at most 0 at individual 0, which is linked by r0.
    let mut book = Draft::new(1);
    let top = book.term(TOP, 0, 0);
    let some = book.term(SOME, 1, top);
    book.memberships = vec![[0, some, AT_MOST, 0]];
    book.links = vec![[0, 0, 0, 1]];
    decided(&book, 1, &[0, 1], &[0]);
    decided(&ranked(&book, &[[0, 1]]), 2, &[0, 1], &[]);
    decided(&ranked(&book, &[[1, 0]]), 1, &[0, 1], &[0]);
}

/// "some r top" for each of these roles, N 1: the candidates' bits, lowest first, say which roles have a link.
fn linked_by(roles: &[u8]) -> Draft {
    let mut book = Draft::new(1);
    let top = book.term(TOP, 0, 0);
    for &role in roles {
        book.term(SOME, role, top);
    }
    book
}

#[test]
fn types_under_pairs() {
    let book = linked_by(&[0, 1]);
    decided(&book, 1, &[0, 1, 2, 3], &[]);
    // r0 under r1: of candidate 1 r1 has no link, so r0 has none, and "some r0 top" is not 1.
    decided(&ranked(&book, &[[0, 1]]), 1, &[0, 2, 3], &[]);
    decided(&ranked(&book, &[[1, 0]]), 1, &[0, 1, 3], &[]);
    // A pair that recurs says nothing new, and one of a role with itself nothing at all.
    decided(&ranked(&book, &[[0, 1], [0, 1]]), 1, &[0, 2, 3], &[]);
    decided(&ranked(&book, &[[0, 0], [1, 1]]), 1, &[0, 1, 2, 3], &[]);
    // Pairs of other roles leave these two alone.
    decided(&ranked(&book, &[[2, 0], [1, 3], [4, 5]]), 1, &[0, 1, 2, 3], &[]);
}

#[test]
fn circles_make_roles_equal() {
    let book = linked_by(&[0, 1, 2]);
    // r0 under r1 under r2: bit 0 is at most bit 1, and bit 1 at most bit 2.
    decided(&ranked(&book, &[[0, 1], [1, 2]]), 1, &[0, 4, 6, 7], &[]);
    // With r2 under r0 all bits are equal, whichever pair comes first.
    decided(&ranked(&book, &[[0, 1], [1, 2], [2, 0]]), 1, &[0, 7], &[]);
    decided(&ranked(&book, &[[2, 0], [1, 2], [0, 1]]), 1, &[0, 7], &[]);
    // r0 and r1 in a circle under r2.
    decided(&ranked(&book, &[[0, 1], [1, 0], [1, 2]]), 1, &[0, 4, 7], &[]);
}

#[test]
fn a_pair_through_a_role_that_no_term_uses() {
    // r0 under r5 under r1 is r0 under r1. R is 6: roles in pairs count.
    let book = ranked(&linked_by(&[0, 1]), &[[5, 1], [0, 5]]);
    decided(&book, 1, &[0, 2, 3], &[]);
    // The elements are the types 0, 2 and 3. r5 has no bound of its own, and that of r1. r2 to r4 have none at all.
    let links = ["000 000 111", "000 111 111", "111 111 111", "111 111 111", "111 111 111", "000 111 111"];
    let links = links.concat().bytes().filter(u8::is_ascii_digit).map(|digit| digit - b'0').collect::<Vec<u8>>();
    let sheet = [&from_hex("01 01 03 00 06 00 00 0C 00 0C 00 42")[..], &links].concat();
    answers(&book, &[], Call::WriteSheet { marks: 4, placement: 16, sheet: 70 }, [0, 66], &sheet);
    answers(&book, &sheet, Call::WorkOut { grid: 9 }, [0, 0], &[1, 0, 0, 1, 0, 1, 1, 1, 1]);
    // Either byte of a pair counts: with R 2 the sheet is not this book's.
    for pairs in [[[5, 1]], [[1, 5]]] {
        let short = [&from_hex("01 01 01 00 02 00 00 0C 00 0C 00 0E")[..], &[0, 0]].concat();
        let right = [&from_hex("01 01 01 00 06 00 00 0C 00 0C 00 12")[..], &[0; 6]].concat();
        let book = linked_by(&[0, 1]);
        answers(&book, &short, Call::WorkOut { grid: 3 }, [0, 0], &[1, 0, 0]);
        answers(&ranked(&book, &pairs), &short, Call::WorkOut { grid: 3 }, [13], &[]);
        answers(&ranked(&book, &pairs), &right, Call::WorkOut { grid: 3 }, [0, 0], &[1, 0, 0]);
    }
}

/// "A link of two candidates is now the least of its own bound and those of all roles reachable upward."
#[test]
fn links_under_pairs() {
    let mut book = Draft::new(4);
    let a = book.term(NAME, 0, 0);
    for role in 0..3 {
        book.term(ALL, role, a);
    }
    // To a candidate with A graded 0, "all r A" graded g bounds r by 4 - g. These are graded 1, 3 and 2, so the bounds of
    // r0, r1 and r2 are 3, 1 and 2, and r3 has none.
    let from = 5 * (1 + 5 * (3 + 5 * 2));
    let links = |pairs: &[[u8; 2]], expected: [usize; 4]| {
        for (role, link) in (0..).zip(expected) {
            answers(&ranked(&book, pairs), &[], Call::Link { role, from, to: 0 }, [0, link], &[]);
        }
    };
    links(&[], [3, 1, 2, 4]);
    links(&[[0, 2]], [2, 1, 2, 4]);
    links(&[[0, 2], [2, 1]], [1, 1, 1, 4]);
    links(&[[1, 2], [2, 0]], [3, 1, 2, 4]); // what is above has no lower bound
    links(&[[0, 3], [3, 2]], [2, 1, 2, 2]); // through r3, which takes the bound of r2
    links(&[[3, 0], [3, 2]], [3, 1, 2, 2]); // the least of two above
    links(&[[0, 2], [2, 0]], [2, 1, 2, 4]);
    links(&[[0, 3], [3, 1], [1, 0]], [1, 1, 2, 1]);
    links(&[[7, 1], [0, 7]], [1, 1, 2, 4]);
}

/// "The verdict, list and later questions cover only interpretations that meet every pair."
#[test]
fn rules_without_a_model_under_pairs() {
    // Everything has a link by r0, and nothing one by r1.
    let mut book = linked_by(&[0, 1]);
    let bottom = book.term(BOTTOM, 0, 0);
    book.rules = vec![[0, 1], [2, bottom]];
    decided(&book, 1, &[1], &[]);
    decided(&ranked(&book, &[[1, 0]]), 1, &[1], &[]);
    decided(&ranked(&book, &[[0, 1]]), 3, &[], &[]);
}

/// "On a sheet, "meets" asks for every pair too, and a broken pair is named after the rules and before the claims, with its
/// lowest first, then second element."
#[test]
fn a_pair_that_a_sheet_breaks() {
    // A not greater than B; individual 0 is in A at least 2, and linked to itself by r0 at least 2; r0 under r1, r2 under r0.
    let mut book = Draft::new(2);
    let [a, b] = [0, 1].map(|name| book.term(NAME, name, 0));
    book.rules = vec![[a, b]];
    book.memberships = vec![[0, a, AT_LEAST, 2]];
    book.links = vec![[0, 0, 0, 2]];
    let book = ranked(&book, &[[0, 1], [2, 0]]);
    // Two elements with A and B; then the links of r0, r1 and r2, from 0 to 0, 0 to 1, 1 to 0 and 1 to 1; individual 0 is at 0.
    let works_out = |names: [u8; 4], links: [[u8; 4]; 3], expected: [usize; 5]| {
        let head = from_hex("01 02 02 02 03 01 00 0C 00 10 00 1C");
        let sheet = [&head[..], &names, &links.concat(), &[0]].concat();
        answers(&book, &sheet, Call::WorkOut { grid: 4 }, expected, &names);
    };
    let met = [2, 2, 0, 0];
    works_out(met, [[2, 1, 0, 1], [2, 1, 1, 1], [1, 0, 0, 1]], [0, 0, 0, 0, 0]);
    // Pair 0 from 1 to 1 only.
    works_out(met, [[2, 1, 0, 2], [2, 1, 1, 1], [1, 0, 0, 1]], [0, 4, 0, 1, 1]);
    // From 1 to 0 and to 1: the lowest second element.
    works_out(met, [[2, 1, 2, 2], [2, 1, 1, 1], [1, 0, 0, 1]], [0, 4, 0, 1, 0]);
    // From 0 to 1 and from 1 to 0: the lowest first element, although the second one is then higher.
    works_out(met, [[2, 2, 2, 1], [2, 1, 1, 1], [1, 0, 0, 1]], [0, 4, 0, 0, 1]);
    // Pair 1 from 0 to 1 only.
    works_out(met, [[2, 1, 0, 1], [2, 1, 1, 1], [1, 2, 0, 1]], [0, 4, 1, 0, 1]);
    // Both, pair 1 at lower elements: the first pair.
    works_out(met, [[2, 1, 0, 2], [2, 1, 1, 1], [2, 2, 0, 1]], [0, 4, 0, 1, 1]);

    // Both claims are broken too: the pair is named.
    let neither = [1, 2, 0, 0];
    works_out(neither, [[1, 1, 2, 1], [2, 1, 1, 1], [1, 0, 0, 1]], [0, 4, 0, 1, 0]);
    works_out(neither, [[1, 1, 0, 1], [2, 1, 1, 1], [1, 0, 0, 1]], [0, 2, 0, 0, 0]);
    works_out(met, [[1, 1, 0, 1], [2, 1, 1, 1], [1, 0, 0, 1]], [0, 3, 0, 0, 0]);
    // The rule is broken too, at element 1: the rule is named.
    works_out([2, 2, 1, 0], [[1, 1, 2, 1], [2, 1, 1, 1], [1, 0, 0, 1]], [0, 1, 0, 1, 0]);
}

/// Head of 22 bytes, at most 64 pairs, body last.
#[test]
fn the_bytes_of_edition_2() {
    let bytes = from_hex(
        "02 02  00 16 00 02  00 1C 00 02  00 20 00 01  00 24 00 00  00 24 00 02
         00 00 00  01 00 00   00 01  01 00   00 00 00 01   00 07  03 03",
    );
    assert_eq!(ranked(&printed_book(), &[[0, 7], [3, 3]]).bytes(), bytes);
    assert_eq!(Draft::of(&bytes).bytes(), bytes);
    decided(&ranked(&printed_book(), &[[0, 7], [3, 3]]), 1, &[1], &[1]);
}

#[test]
fn edition_2_without_pairs_answers_as_edition_1() {
    let mut both = linked_to_itself(1);
    both.term(SOME, 3, 0);
    let too_wide = Draft { terms: (0..15).map(|name| [NAME, name, 0]).collect(), ..Draft::new(1) };
    let books =
        [Draft::new(1), printed_book(), linked_to_itself(1), linked_to_itself(2), linked_by(&[0, 1]), both, too_wide];
    let sheets = [
        from_hex("01 02 01 01 00 01 00 0C 00 0D 00 0D 01 00"),
        from_hex("01 02 01 01 01 01 00 0C 00 0D 00 0E 01 00 00"),
        from_hex("01 02 01 01 04 01 00 0C 00 0D 00 11 01 01 02 00 02 00"),
        vec![],
    ];
    for (book, sheet) in books.iter().flat_map(|book| sheets.iter().map(move |sheet| (book, sheet))) {
        let calls = [
            Call::Check,
            Call::Count,
            Call::Decide { marks: 27, placement: 16 },
            Call::ImpliedRules { marks: 27, table: 20 },
            Call::WriteSheet { marks: 27, placement: 16, sheet: 2000 },
            Call::WorkOut { grid: 4 },
            Call::Grade { candidate: 1, term: 1 },
            Call::Link { role: 0, from: 1, to: 2 },
        ];
        for (side, call) in SIDES.into_iter().flat_map(|side| calls.map(|call| (side, call))) {
            let [one, two] = [book.bytes(), ranked(book, &[]).bytes()].map(|bytes| ask(side, &bytes, sheet, call));
            assert_eq!(one.0, two.0, "{} of {book:?}", call.name());
            assert!(
                one.1.iter().zip(&two.1).all(|(one, two)| one.contents() == two.contents()),
                "{call:?} of {book:?}"
            );
        }
    }
}

/// "Check 1 reads 22 to 982 when byte 0 is 2, and check 2 admits 2."
#[test]
fn lengths_by_edition() {
    answers_check(&[], 1);
    // Zeros behind byte 0: a book that passes 1 and 2 is refused 3.
    let bounds = [(0, 18, 850, 2), (1, 18, 850, 3), (2, 22, 982, 3), (3, 18, 850, 2), (255, 18, 850, 2)];
    for (first, least, most, passed) in bounds {
        for length in [1, 17, 18, 19, 20, 21, 22, 23, 849, 850, 851, 981, 982, 983, 1000] {
            let mut book = vec![0; length];
            book[0] = first;
            answers_check(&book, if (least..=most).contains(&length) { passed } else { 1 });
        }
    }
    // The longest, with 64 records in each section.
    let mut longest = Draft::new(1);
    (longest.terms, longest.rules) = (vec![[TOP, 0, 0]; 64], vec![[0, 0]; 64]);
    (longest.memberships, longest.links) = (vec![[0, 0, 0, 0]; 64], vec![[0, 0, 0, 0]; 64]);
    assert_eq!((longest.bytes().len(), ranked(&longest, &[[0, 1]; 64]).bytes().len()), (850, zegbiko::BOOK_MOST));
    answers_check(&longest.bytes(), 0);
    answers_check(&ranked(&longest, &[[0, 1]; 64]).bytes(), 0);
    answers_check(&ranked(&longest, &[[0, 1]; 65]).bytes(), 1);
    // Fewer than 850 bytes, but too many pairs.
    answers_check(&ranked(&Draft::new(1), &[[0, 1]; 65]).bytes(), 4);
}

fn answers_check(book: &[u8], expected: usize) {
    for side in SIDES {
        assert_eq!(ask(side, book, &[], Call::Check).0, calls::answer([expected]), "{book:?}");
    }
}

/// "22 when a pair names a role above 7, straight after 9, on every call on a book."
#[test]
fn pairs_that_name_a_role_above_7() {
    let calls = [
        Call::Check,
        Call::Count,
        Call::Decide { marks: 0, placement: 0 },
        Call::ImpliedRules { marks: 0, table: 0 },
        Call::WriteSheet { marks: 0, placement: 0, sheet: 0 },
        Call::WorkOut { grid: 0 },
        Call::Grade { candidate: 1 << 20, term: 100 },
        Call::Link { role: 8, from: 1 << 20, to: 0 },
    ];
    // Too many candidates, which is refused 10, and no sheet, which is refused 13: both come after 22.
    let mut book = Draft::new(1);
    book.terms = (0..15).map(|name| [NAME, name, 0]).collect();
    book.links = vec![[7, 0, 0, 0]];
    for wrong in [[8, 0], [0, 8], [255, 255]] {
        let pairs = [[0, 7], [7, 0], wrong, [1, 1]];
        calls.into_iter().for_each(|call| answers(&ranked(&book, &pairs), &[], call, [22], &[]));
        let both = Draft { links: vec![[8, 0, 0, 0]], ..ranked(&book, &pairs) };
        calls.into_iter().for_each(|call| answers(&both, &[], call, [9], &[]));
    }
    for (call, refused) in calls.into_iter().zip([0, 10, 10, 10, 10, 13, 10, 10]) {
        answers(&ranked(&book, &[[0, 7], [7, 0]]), &[], call, [refused], &[]);
    }
}

/// A and bottom on two steps, with these membership claims.
fn of_a(memberships: &[[u8; 4]]) -> Draft {
    let terms = vec![[NAME, 0, 0], [BOTTOM, 0, 0]];
    Draft { terms, memberships: memberships.to_vec(), ..Draft::new(2) }
}

/// The book in both editions.
fn editions(book: &Draft) -> [Draft; 2] {
    [book.clone(), ranked(book, &[])]
}

/// "Senses 2 and 3 mean "at least" and "at most" for a set: the first byte has bit i set for individual i, and the claim
/// holds when each member meets it."
#[test]
fn claims_on_sets() {
    let (a, all) = (0, [0, 1, 2]);
    let placed = |memberships: &[[u8; 4]], expected: &[usize]| {
        for book in editions(&of_a(memberships)) {
            decided(&book, 1, &all, expected);
            decided(&book.written_out(), 1, &all, expected);
        }
    };
    placed(&[[0b101, a, EACH_AT_LEAST, 1], [0b110, a, EACH_AT_LEAST, 2]], &[1, 2, 2]);
    placed(&[[0b111, a, EACH_AT_LEAST, 1], [0b010, a, EACH_AT_MOST, 1], [0b001, a, EACH_AT_LEAST, 2]], &[2, 1, 1]);
    // Beside single claims, and with each bit.
    placed(&[[1, a, AT_LEAST, 2], [0b11, a, EACH_AT_LEAST, 1]], &[1, 2]);
    placed(&[[0b1010_0101, a, EACH_AT_LEAST, 1], [0b1001_0110, a, EACH_AT_LEAST, 2]], &[1, 2, 2, 0, 2, 1, 0, 2]);
    // One member that cannot meet the claim is enough.
    for (claims, expected) in [
        ([[0b011, a, EACH_AT_LEAST, 2], [1, a, AT_MOST, 1]], 2),
        ([[0b011, a, EACH_AT_LEAST, 2], [2, a, AT_MOST, 1]], 1),
        ([[0b110, a, EACH_AT_MOST, 0], [0b011, a, EACH_AT_LEAST, 1]], 2),
        ([[0b100, a, EACH_AT_MOST, 0], [0b011, a, EACH_AT_LEAST, 1]], 1),
    ] {
        editions(&of_a(&claims)).iter().for_each(|book| outcome(book, expected));
    }
    // A link between members of two sets: individual 0 sees A through "all", and 1 has less of it.
    for (most, expected) in [(1, 2), (2, 1)] {
        let mut book = linked_to_itself(most);
        book.memberships = vec![[0b101, 1, EACH_AT_LEAST, 2], [0b010, 0, EACH_AT_MOST, most]];
        book.links = vec![[0, 0, 1, 2]];
        editions(&book).iter().for_each(|book| outcome(book, expected));
    }
}

/// "An empty set claims nothing and raises no individual count."
#[test]
fn empty_sets() {
    let [a, bottom] = [0, 1];
    // What nobody meets, of nobody.
    let unmet = [0, bottom, EACH_AT_LEAST, 2];
    let without = from_hex("01 02 01 01 00 00 00 0C 00 0D 00 0D 01");
    for book in editions(&of_a(&[unmet, [0, a, EACH_AT_MOST, 0]])) {
        decided(&book, 1, &[0, 1, 2], &[]);
        answers(&book, &without, Call::WorkOut { grid: 2 }, [0, 0], &[1, 0]);
    }
    for book in editions(&of_a(&[unmet, [2, a, AT_LEAST, 1]])) {
        decided(&book, 1, &[0, 1, 2], &[0, 0, 1]);
        answers(&book, &without, Call::WorkOut { grid: 2 }, [13], &[]);
    }
}

#[test]
fn an_individual_that_only_a_set_has() {
    let sheet = |elements: &[u8]| {
        let head = [1, 2, 2, 1, 0, elements.len() as u8, 0, 12, 0, 14, 0, 14];
        [&head[..], &[0, 2], elements].concat() // A is graded 0 at element 0, and 2 at element 1
    };
    for book in editions(&of_a(&[[0b1000_0000, 0, EACH_AT_LEAST, 1]])) {
        decided(&book, 1, &[0, 1, 2], &[0, 0, 0, 0, 0, 0, 0, 1]);
        answers(&book, &sheet(&[0, 0, 0, 0, 0, 0, 0, 1]), Call::WorkOut { grid: 4 }, [0, 0], &[0, 0, 2, 0]);
        answers(&book, &sheet(&[1, 1, 1, 1, 1, 1, 1, 0]), Call::WorkOut { grid: 4 }, [0, 2, 0], &[0, 0, 2, 0]);
        answers(&book, &sheet(&[1]), Call::WorkOut { grid: 4 }, [13], &[]);
    }
}

/// A broken claim on a set has its own number, whichever member breaks it.
#[test]
fn a_set_that_a_sheet_breaks() {
    let [a, bottom] = [0, 1];
    let mut book = of_a(&[
        [0, bottom, EACH_AT_LEAST, 2],
        [0b101, a, EACH_AT_LEAST, 1],
        [1, a, AT_MOST, 1],
        [0b110, a, EACH_AT_MOST, 1],
    ]);
    book.links = vec![[0, 0, 0, 1]];
    // Three elements with A graded 0, 1 and 2, of which the second has a link to itself; then those of the individuals.
    let works_out = |individuals: [u8; 3], verdict: [usize; 2]| {
        let head = from_hex("01 02 03 01 01 03 00 0C 00 0F 00 18");
        let sheet = [&head[..], &[0, 1, 2], &[0, 0, 0, 0, 1, 0, 0, 0, 0], &individuals].concat();
        for book in editions(&book) {
            answers(&book, &sheet, Call::WorkOut { grid: 6 }, [0, verdict[0], verdict[1]], &[0, 0, 1, 0, 2, 0]);
        }
    };
    works_out([1, 0, 1], [0, 0]);
    // By the lowest member, by the highest, by both.
    works_out([0, 0, 1], [2, 1]);
    works_out([1, 0, 0], [2, 1]);
    works_out([0, 0, 0], [2, 1]);
    works_out([1, 1, 2], [2, 3]);
    // A set and a single claim are broken: the first is named, whichever it is.
    works_out([0, 2, 1], [2, 1]);
    works_out([1, 2, 1], [2, 2]);
    // By an individual that is no member, and then the link claim.
    works_out([2, 0, 1], [3, 0]);
    works_out([2, 2, 2], [2, 2]);
}

/// "Check 8 admits both senses": a set is any byte, an individual 0 to 7; and in an empty set too term and grade are checked.
#[test]
fn senses_and_first_bytes() {
    for (first, sense) in (0..=255).flat_map(|first| (0..=255).map(move |sense| (first, sense))) {
        let admitted = if sense <= AT_MOST { first <= 7 } else { sense <= EACH_AT_MOST };
        answers_check(&of_a(&[[first, 0, sense, 0]]).bytes(), if admitted { 0 } else { 8 });
    }
    for sense in [AT_LEAST, AT_MOST, EACH_AT_LEAST, EACH_AT_MOST] {
        for (term, grade, expected) in [(1, 2, 0), (2, 2, 8), (255, 0, 8), (1, 3, 8), (0, 255, 8)] {
            for book in editions(&of_a(&[[0, term, sense, grade]])) {
                answers_check(&book.bytes(), expected);
            }
        }
    }
}

/// "Where it then fits in 64 claims": a book with sets may say more than one without.
#[test]
fn sets_that_do_not_fit_written_out() {
    let a = 0;
    for (sets, fits) in [(8, true), (9, false), (64, false)] {
        let mut book = of_a(&vec![[255, a, EACH_AT_LEAST, 1]; sets]);
        book.memberships[0] = [0b1111_1111, a, EACH_AT_MOST, 1];
        for book in editions(&book) {
            decided(&book, 1, &[0, 1, 2], &[1; 8]);
            let written_out = book.written_out();
            assert_eq!(written_out.memberships.len(), 8 * sets);
            if fits {
                decided(&written_out, 1, &[0, 1, 2], &[1; 8]);
            } else {
                answers_check(&written_out.bytes(), if sets == 64 { 1 } else { 4 });
                // 512 claims are too long as well
            }
        }
    }
}

/// The marked candidates, and the table row by row, of every side; what is past both is kept. A book without pairs is asked
/// of in both editions.
fn implies(book: &Draft, survivors: &[usize], rows: &[&str]) {
    let cells: Vec<u8> = rows.concat().bytes().map(|digit| digit - b'0').collect();
    assert_eq!(cells.len(), book.terms.len() * book.terms.len());
    let books = if book.pairs.is_some() { vec![book.clone()] } else { editions(book).to_vec() };
    for (side, book) in SIDES.into_iter().flat_map(|side| books.iter().map(move |book| (side, book))) {
        let marks = Plain::open(&book.bytes()).count().expect("few");
        let (answer, buffers) =
            ask(side, &book.bytes(), &[], Call::ImpliedRules { marks: marks + 3, table: cells.len() + 3 });
        assert_eq!(answer, calls::answer([0, survivors.len()]), "{book:?}");
        let marked: Vec<u8> = (0..marks).map(|candidate| u8::from(survivors.contains(&candidate))).collect();
        assert_eq!(buffers[0].contents(), [&marked[..], &[KEPT; 3]].concat(), "{book:?}");
        assert_eq!(buffers[1].contents(), [&cells[..], &[KEPT; 3]].concat(), "{book:?}");
    }
}

/// "1 if left is never greater than right in any finite interpretation that meets the rules, else 0."
#[test]
fn implied_rules_of_the_printed_book() {
    // The rules ask for a <= 2 - a and 2 - a <= a of A's grade a at every element, so it is 1, and that of "not A" is 1 too.
    implies(&printed_book(), &[1], &["11", "11"]);
    // By the first alone a is 0 or 1: "not A" is 2 or 1, never below A, and above it where a is 0.
    let mut first = printed_book();
    first.rules.pop();
    implies(&first, &[0, 1], &["11", "01"]);
    // By the second alone a is 1 or 2.
    let mut second = printed_book();
    second.rules.remove(0);
    implies(&second, &[1, 2], &["10", "11"]);
    // With no rule a is any grade: 2 above 0, or 0 below 2.
    implies(&Draft { rules: vec![], ..printed_book() }, &[0, 1, 2], &["10", "01"]);
    // "With no survivors all are 1": on one step no grade a is 1 - a.
    implies(&Draft { steps: 1, ..printed_book() }, &[], &["11", "11"]);
}

/// The harness of `docs/USING.md`: the fault, "not" of it, and "all r1" of that; r0 is under r1. There are no rules.
#[test]
fn implied_rules_of_the_harness() {
    let mut book = Draft::new(2);
    let fault = book.term(NAME, 0, 0);
    let sound = book.term(NOT, fault, 0);
    let wired_to_sound = book.term(ALL, 1, sound);
    book.memberships = vec![[0, wired_to_sound, AT_LEAST, 1], [1, fault, AT_LEAST, 2]];
    book.links = vec![[0, 0, 1, 2]];
    // An element may have the fault to any grade f, and then "not" of it to 2 - f. Without links "all r1" is 2 there, and by an
    // r1 link of 2 to an element that has the fault to grade 1 or 2 it is 1 or 0. So all nine types occur, and among them are
    // (2, 0, 2), (2, 0, 0), (0, 2, 2) and (0, 2, 0): each term is 2 where another is 0, so no term bounds another.
    let all: Vec<usize> = (0..9).collect();
    implies(&ranked(&book, &[[0, 1]]), &all, &["100", "010", "001"]);
    // The claims contradict each other by the pair, and do not without it: the table is the same.
    outcome(&ranked(&book, &[[0, 1]]), 2);
    outcome(&book, 1);
    implies(&book, &all, &["100", "010", "001"]);

    // The rule "fault not greater than all r1 sound" strikes the types with the fault above "all r1": (1, 1, 0), (2, 0, 0) and
    // (2, 0, 1). The others occur: without links "all r1" is 2, and by a link of 2 to an element without links that has the
    // fault to grade 1 or 2 it is 1 or 0. So the rule has its byte 1, and no other follows: (0, 2, 2), (2, 0, 2) and (0, 2, 0).
    book.rules = vec![[fault, wired_to_sound]];
    implies(&ranked(&book, &[[0, 1]]), &[0, 3, 4, 6, 7, 8], &["101", "010", "001"]);
}

#[test]
fn implied_rules_of_connectives() {
    // A, B, "A and B", "A or B", "not A", top and bottom, on two steps.
    let mut book = Draft::new(2);
    let [a, b] = [0, 1].map(|name| book.term(NAME, name, 0));
    for (kind, first, second) in [(AND, a, b), (OR, a, b), (NOT, a, 0), (TOP, 0, 0), (BOTTOM, 0, 0)] {
        book.term(kind, first, second);
    }
    // Any grades a and b occur together. The smaller bounds from below, the larger from above, and top and bottom all. The
    // others are told apart: a 2, b 0 gives 2 0 0 2 0 2 0; a 0, b 2 gives 0 2 0 2 2 2 0; a 0, b 0 gives 0 0 0 0 2 2 0; a 2, b 2
    // gives 2 2 2 2 0 2 0.
    let rows = ["1001010", "0101010", "1111010", "0001010", "0000110", "0000010", "1111111"];
    implies(&book, &Vec::from_iter(0..9), &rows);
    // With A not greater than B, "A and B" is A and "A or B" is B. Of the grades left, a 0, b 0 and a 0, b 2 and a 2, b 2, as
    // above, tell the others apart.
    book.rules = vec![[a, b]];
    let rows = ["1111010", "0101010", "1111010", "0101010", "0000110", "0000010", "1111111"];
    implies(&book, &[0, 3, 4, 6, 7, 8], &rows);
}

#[test]
fn implied_rules_of_a_chain() {
    // A not greater than B, B not greater than C, N 1: A is not greater than C.
    let mut book = Draft::new(1);
    book.terms = [0, 1, 2].map(|name| [NAME, name, 0]).to_vec();
    book.rules = vec![[0, 1], [1, 2]];
    implies(&book, &[0, 4, 6, 7], &["111", "011", "001"]);
    // Closed to a circle all three are alike.
    book.rules.push([2, 0]);
    implies(&book, &[0, 7], &["111", "111", "111"]);
}

#[test]
fn implied_rules_of_quantified_terms() {
    // A, "not A", "all r0 (not A)", "not" of that, and "some r0 A", on four steps. With link l to an element where A is a, the
    // last takes min(l, a), and the third max(4 - l, 4 - a), which is 4 less that. So the last two are alike, whatever the
    // links. No other two are: A is any grade, whatever an element is linked to, and that may be nothing, so that "some" is 0,
    // or an element with A fully, so that it is 4.
    let mut book = Draft::new(4);
    let a = book.term(NAME, 0, 0);
    let not_a = book.term(NOT, a, 0);
    let all_not_a = book.term(ALL, 0, not_a);
    book.term(NOT, all_not_a, 0);
    book.term(SOME, 0, a);
    // Places are A, "all" and "some", the digits in base 5: all that have "some" at 4 less "all".
    let survivors: Vec<usize> = (0..125).filter(|type_of| type_of / 25 == 4 - type_of / 5 % 5).collect();
    implies(&book, &survivors, &["10000", "01000", "00100", "00011", "00011"]);

    // "some r0 bottom" is bottom, and "all r0 top" is top.
    let mut book = Draft::new(3);
    let (bottom, top) = (book.term(BOTTOM, 0, 0), book.term(TOP, 0, 0));
    book.term(SOME, 0, bottom);
    book.term(ALL, 0, top);
    implies(&book, &[12], &["1111", "0101", "1111", "0101"]);
}

#[test]
fn implied_rules_under_pairs() {
    // A, "some r0 A", "some r1 A", N 1. Each may be 1 where another is 0: A by itself, without links; "some" by a link.
    let mut book = Draft::new(1);
    let a = book.term(NAME, 0, 0);
    book.term(SOME, 0, a);
    book.term(SOME, 1, a);
    implies(&book, &Vec::from_iter(0..8), &["100", "010", "001"]);
    // r0 under r1: whoever has a link by r0 has it by r1, to the same element. By r1 alone shows that it is not so the other way.
    implies(&ranked(&book, &[[0, 1]]), &[0, 1, 4, 5, 6, 7], &["100", "011", "001"]);
    implies(&ranked(&book, &[[1, 0]]), &[0, 1, 2, 3, 6, 7], &["100", "010", "011"]);
    // A circle, also by way of a role that no term uses, makes both alike.
    for pairs in [&[[0, 1], [1, 0]][..], &[[0, 5], [5, 1], [1, 0]]] {
        implies(&ranked(&book, pairs), &[0, 1, 6, 7], &["100", "011", "011"]);
    }
    // For "all" it is the other way round.
    let all = Draft { terms: vec![[NAME, 0, 0], [ALL, 0, 0], [ALL, 1, 0]], ..book };
    implies(&ranked(&all, &[[0, 1]]), &[0, 1, 2, 3, 6, 7], &["100", "010", "011"]);
}

/// "Claims play no part. With no survivors all are 1."
#[test]
fn implied_rules_whatever_is_claimed() {
    // Bottom is claimed at least 1 of an individual, or of each of three: outcome 2, and the table is that of the rules.
    for claim in [[0, 1, AT_LEAST, 1], [0b111, 1, EACH_AT_LEAST, 1], [0, 1, EACH_AT_LEAST, 1], [3, 0, AT_LEAST, 1]] {
        implies(&of_a(&[claim]), &[0, 1, 2], &["10", "11"]);
    }
    outcome(&of_a(&[[0, 1, AT_LEAST, 1]]), 2);
    // Top not greater than bottom.
    let never = Draft { terms: vec![[TOP, 0, 0], [BOTTOM, 0, 0], [NAME, 0, 0]], rules: vec![[0, 1]], ..Draft::new(1) };
    implies(&never, &[], &["111", "111", "111"]);
    // No terms: no bytes, and a table buffer of none suffices.
    implies(&Draft::new(5), &[0], &[]);
    answers(&Draft::new(5), &[], Call::ImpliedRules { marks: 1, table: 0 }, [0, 1], &[]);
}

/// "23 when the table buffer is shorter than the square of the term count, after 11." 12 is not asked: there is no placement.
#[test]
fn the_checks_of_implied_rules() {
    let refused = |book: &Draft, marks: usize, table: usize, number: usize| {
        for side in SIDES {
            let (answer, buffers) = ask(side, &book.bytes(), &[], Call::ImpliedRules { marks, table });
            assert_eq!(answer, calls::answer([number]), "{marks} {table} {book:?}");
            let untouched = buffers.iter().all(|buffer| buffer.contents().iter().all(|&byte| byte == KEPT));
            assert!(untouched, "{marks} {table} {book:?}");
        }
    };
    // Three candidates, two terms.
    for book in editions(&printed_book()) {
        [(2, 4), (2, 9), (0, 4), (2, 3), (0, 0)].iter().for_each(|&(marks, table)| refused(&book, marks, table, 11));
        [(3, 3), (4, 3), (9, 2), (3, 0)].iter().for_each(|&(marks, table)| refused(&book, marks, table, 23));
        answers(&book, &[], Call::ImpliedRules { marks: 3, table: 4 }, [0, 1], &[1; 4]);
        answers(&book, &[], Call::ImpliedRules { marks: 5, table: 9 }, [0, 1], &[1; 4]);
    }
    // Without survivors too.
    refused(&Draft { steps: 1, ..printed_book() }, 2, 3, 23);
    // The most of both: 14 places, and 64 terms.
    let mut largest = Draft::new(1);
    largest.terms = (0..64).map(|term| if term < 14 { [NAME, term, 0] } else { [TOP, 0, 0] }).collect();
    for book in editions(&largest) {
        refused(&book, 16383, 4096, 11);
        refused(&book, 16384, 4095, 23);
        refused(&book, 16383, 4095, 11);
        let all = Vec::from_iter(0..16384);
        // Of the names each is bounded by itself and by the 50 tops, which are bounded by each other.
        let name = |i: usize| "0".repeat(i) + "1" + &"0".repeat(13 - i) + &"1".repeat(50);
        let top = "0".repeat(14) + &"1".repeat(50);
        let rows: Vec<String> = (0..14).map(name).chain(vec![top; 50]).collect();
        implies(&book, &all, &rows.iter().map(String::as_str).collect::<Vec<_>>());
    }
    // 10 comes before 11, and what is wrong with claims is seen, although they play no part.
    let too_wide = Draft { terms: (0..15).map(|name| [NAME, name, 0]).collect(), ..Draft::new(1) };
    let wrong = |memberships: &[[u8; 4]], links: &[[u8; 4]]| Draft {
        memberships: memberships.to_vec(),
        links: links.to_vec(),
        ..too_wide.clone()
    };
    for (marks, table) in [(0, 0), (16384, 4096)] {
        editions(&too_wide).iter().for_each(|book| refused(book, marks, table, 10));
        refused(&wrong(&[[8, 0, AT_LEAST, 0]], &[[8, 0, 0, 0]]), marks, table, 8);
        refused(&wrong(&[], &[[8, 0, 0, 0]]), marks, table, 9);
        refused(&ranked(&too_wide, &[[0, 8]]), marks, table, 22);
    }
}

/// The grades of all terms in each candidate, of every side.
fn graded(book: &Draft, types: &[&[usize]]) {
    answers(book, &[], Call::Count, [0, types.len()], &[]);
    for (candidate, grades) in types.iter().enumerate() {
        assert_eq!(grades.len(), book.terms.len());
        for (term, &grade) in grades.iter().enumerate() {
            answers(book, &[], Call::Grade { candidate, term }, [0, grade], &[]);
        }
    }
}

/// "Check 6 no longer objects. A place is now a distinct name number, at its first term, or a quantified term. The grades of
/// all terms with one name agree in every type."
#[test]
fn a_name_in_two_terms() {
    // A twice, on two steps: one place, and three candidates, A's grades.
    let twice = |memberships: &[[u8; 4]]| Draft {
        terms: vec![[NAME, 0, 0], [NAME, 0, 0]],
        memberships: memberships.to_vec(),
        ..Draft::new(2)
    };
    for book in editions(&twice(&[])) {
        answers(&book, &[], Call::Check, [0], &[]);
        graded(&book, &[&[0, 0], &[1, 1], &[2, 2]]);
        // Each term is nowhere greater than the other.
        implies(&book, &[0, 1, 2], &["11", "11"]);
    }
    // What is claimed of either term is claimed of A: at least 1 of the one and at most 1 of the other leave grade 1.
    decided(&twice(&[[0, 0, AT_LEAST, 1], [0, 1, AT_MOST, 1]]), 1, &[0, 1, 2], &[1]);
    decided(&twice(&[[0, 1, AT_LEAST, 2], [0, 0, AT_MOST, 1]]), 2, &[0, 1, 2], &[]);
    // The individuals have elements of their own, so nothing clashes here.
    decided(&twice(&[[0, 1, AT_LEAST, 2], [1, 0, AT_MOST, 1]]), 1, &[0, 1, 2], &[2, 0]);
    decided(&twice(&[[0b11, 1, EACH_AT_LEAST, 1], [0b10, 0, EACH_AT_MOST, 1]]), 1, &[0, 1, 2], &[1, 1]);

    // The printed book with a term for A in each of its two fragments, "A not greater than not A" and "not A not greater than
    // A": it asks for the same as with one term.
    let mut book = Draft::new(2);
    let a = book.term(NAME, 0, 0);
    let not_a = book.term(NOT, a, 0);
    let again = book.term(NAME, 0, 0);
    let not_again = book.term(NOT, again, 0);
    book.rules = vec![[a, not_a], [not_again, again]];
    book.memberships = vec![[0, again, AT_LEAST, 1]];
    decided(&book, 1, &[1], &[1]);
    implies(&book, &[1], &["1111"; 4]);
    decided(&Draft { steps: 1, ..book }, 3, &[], &[]);
}

/// "Candidate numbering follows the new places."
#[test]
fn a_name_before_and_after_a_quantified_term() {
    // The reading "A not greater than some r0 A, claim A at least 1, N 1: survivors 0, 2, 3, placed at 3", with A in three terms:
    // for the claim, for the child and for the rule. The places are A, by its first term, and "some".
    let mut book = Draft::new(1);
    let claimed = book.term(NAME, 5, 0);
    let child = book.term(NAME, 5, 0);
    let some = book.term(SOME, 0, child);
    let ruled = book.term(NAME, 5, 0);
    book.rules = vec![[ruled, some]];
    book.memberships = vec![[0, claimed, AT_LEAST, 1]];
    graded(&book, &[&[0, 0, 0, 0], &[1, 1, 0, 1], &[0, 0, 1, 0], &[1, 1, 1, 1]]);
    decided(&book, 1, &[0, 2, 3], &[3]);
    // A name behind the one that recurs: its digit is the third, as if the repeated term were not there.
    book.term(NAME, 1, 0);
    decided(&book, 1, &[0, 2, 3, 4, 6, 7], &[3]);

    // A, top, "some r0 top" and A again, on two steps; or A in the last two terms. The first term of A says where its place is, so
    // the candidates are A and three times "some", or "some" and three times A. Any grades of the two occur together.
    let before = Draft { terms: vec![[NAME, 3, 0], [TOP, 0, 0], [SOME, 0, 1], [NAME, 3, 0]], ..Draft::new(2) };
    let behind = Draft { terms: vec![[TOP, 0, 0], [SOME, 0, 0], [NAME, 3, 0], [NAME, 3, 0]], ..Draft::new(2) };
    for (mut book, first, some, places) in [(before, 0, 2, [2 + 3, 3]), (behind, 2, 1, [1 + 6, 1])] {
        // The first candidate with "some" at least 1 and A at least 2 has 1 and 2; that with A at most 0 has 1 and 0.
        book.memberships = vec![[0, some, AT_LEAST, 1], [0, 3, AT_LEAST, 2]];
        decided(&book, 1, &Vec::from_iter(0..9), &[places[0]]);
        book.memberships = vec![[0, some, AT_LEAST, 1], [0, first, AT_MOST, 0]];
        decided(&book, 1, &Vec::from_iter(0..9), &[places[1]]);
    }
}

/// Three names and two quantified terms, N 1, among terms that repeat the names: B, A, B, "some r0 B", A, C, "all r1 A", C, B.
#[test]
fn the_digits_of_recurring_names() {
    let mut book = Draft::new(1);
    let [_, a, b] = [1, 0, 1].map(|name| book.term(NAME, name, 0));
    book.term(SOME, 0, b);
    let a_again = book.term(NAME, 0, 0);
    book.term(NAME, 2, 0);
    book.term(ALL, 1, a_again);
    book.term(NAME, 2, 0);
    book.term(NAME, 1, 0);
    // The places are B, A, "some", C and "all", in this order: the bits of the candidate from the lowest on.
    let types: Vec<[usize; 9]> = (0..32)
        .map(|candidate| {
            let [b, a, some, c, all] = [0, 1, 2, 3, 4].map(|bit| candidate >> bit & 1);
            [b, a, b, some, a, c, all, c, b]
        })
        .collect();
    graded(&book, &types.iter().map(|row| &row[..]).collect::<Vec<_>>());
    // All occur: "some" is 1 by a link to an element with B, "all" 0 by one to an element without A. The first with B at most 0,
    // A at least 1 and "all" at most 0 has A's bit alone.
    book.memberships = vec![[0, 8, AT_MOST, 0], [0, a, AT_LEAST, 1], [0, 6, AT_MOST, 0]];
    decided(&book, 1, &Vec::from_iter(0..32), &[2]);
    // By the rule "B not greater than C", on the last terms of both, go the candidates with bit 0 and without bit 3.
    book.rules = vec![[8, 7]];
    let kept: Vec<usize> = (0..32).filter(|candidate| candidate & 1 == 0 || candidate & 8 != 0).collect();
    decided(&book, 1, &kept, &[2]);
}

/// Two equal quantified terms are two places, also over two terms of one name; they are graded alike wherever they occur.
#[test]
fn equal_quantified_terms_over_a_recurring_name() {
    let mut book = Draft::new(1);
    for _ in 0..2 {
        let a = book.term(NAME, 0, 0);
        book.term(SOME, 0, a);
    }
    // The bits are A, "some", and "some" again. Where the last two differ, the one that is 1 asks for a link to an element with
    // A, and the other allows none.
    decided(&book, 1, &[0, 1, 6, 7], &[]);
    implies(&book, &[0, 1, 6, 7], &["1010", "0101", "1010", "0101"]);
}

/// "14 names, N 1: accepted; 15: refused 10. N 8: four places accepted, five refused 10", however often the names recur.
#[test]
fn at_most_16384_candidates_of_recurring_names() {
    let of_names = |steps: u8, names: u8, times: usize| {
        let each: Vec<[u8; 3]> = (0..names).map(|name| [NAME, name, 0]).collect();
        Draft { terms: each.repeat(times), ..Draft::new(steps) }
    };
    let refused = |book: &Draft| {
        answers(book, &[], Call::Check, [0], &[]);
        SIDES.iter().for_each(|side| assert_eq!(decide(*side, &book.bytes()), Err(10)));
    };
    for (steps, names, times, candidates) in [(1, 14, 4, 16384), (8, 4, 16, 6561), (3, 7, 9, 16384), (2, 8, 8, 6561)] {
        let mut book = of_names(steps, names, times);
        answers(&book, &[], Call::Count, [0, candidates], &[]);
        // Without rules each grade of each name occurs with each of the others.
        decided(&book, 1, &Vec::from_iter(0..candidates), &[]);
        // Term t repeats the name of term t - names, so a rule between them says nothing, and a claim on the last copy of the last
        // name is one on the highest digit.
        book.rules = (names..names * times as u8).map(|term| [term, term - names]).collect();
        let last = names * times as u8 - 1;
        book.memberships = vec![[0, last, AT_LEAST, steps]];
        let highest = usize::from(steps) * candidates / (usize::from(steps) + 1);
        decided(&book, 1, &Vec::from_iter(0..candidates), &[highest]);
    }
    refused(&of_names(1, 15, 4));
    refused(&of_names(8, 5, 12));
    // One more name, in the last of 57 terms; or a quantified term. With 13 names there is room for one, and not for two.
    for last in [[NAME, 14, 0], [SOME, 0, 0], [ALL, 7, 55]] {
        let mut book = of_names(1, 14, 4);
        book.terms.push(last);
        refused(&book);
    }
    let mut book = of_names(1, 13, 4);
    book.terms.insert(20, [SOME, 0, 19]);
    outcome(&book, 1);
    book.terms.push([SOME, 0, 19]);
    refused(&book);
    // 16 names in 64 terms are refused 10 on the shortest chain, and on every other.
    (1..=8).for_each(|steps| refused(&of_names(steps, 16, 4)));
}

/// A sheet has a grade for each name, in however many terms it stands; and each of them gets it.
#[test]
fn sheets_of_recurring_names() {
    // A, C, A again and "A and C", N 2. The sheet has three names, since C is name 2. A at least 1, by its second term.
    let mut book = Draft::new(2);
    book.terms = vec![[NAME, 0, 0], [NAME, 2, 0], [NAME, 0, 0], [AND, 2, 1], [BOTTOM, 0, 0]];
    book.rules = vec![[1, 0], [2, 1], [4, 2]];
    book.memberships = vec![[0, 2, AT_LEAST, 1]];
    // By the first two rules A and C are graded alike; the types 0 0, 1 1 and 2 2 are the candidates 0, 4 and 8.
    decided(&book, 1, &[0, 4, 8], &[4]);
    let head = from_hex("01 02 03 03 00 01 00 0C 00 15 00 15");
    let model = [&head[..], &[0, 0, 0, 1, 0, 1, 2, 0, 2], &[1]].concat();
    answers(&book, &[], Call::WriteSheet { marks: 9, placement: 16, sheet: 30 }, [0, 22], &model);
    let rows = [[0, 0, 0, 0, 0], [1, 1, 1, 1, 0], [2, 2, 2, 2, 0]].concat();
    answers(&book, &model, Call::WorkOut { grid: 20 }, [0, 0], &rows);
    // A graded 2 and C 1 at the second element: rule 1 is on A's second term.
    let broken = [&head[..], &[0, 0, 0, 2, 0, 1, 2, 0, 2], &[1]].concat();
    let rows = [[0, 0, 0, 0, 0], [2, 1, 2, 1, 0], [2, 2, 2, 2, 0]].concat();
    answers(&book, &broken, Call::WorkOut { grid: 15 }, [0, 1, 1, 1], &rows);
    // The individual at the first element: the claim on that term is broken.
    let broken = [&head[..], &[0, 0, 0, 1, 0, 1, 2, 0, 2], &[0]].concat();
    let rows = [[0, 0, 0, 0, 0], [1, 1, 1, 1, 0], [2, 2, 2, 2, 0]].concat();
    answers(&book, &broken, Call::WorkOut { grid: 15 }, [0, 2, 0], &rows);
    // 16 names in 64 terms: too many candidates, but sheets are worked out. Name i is graded i modulo 3.
    let names: Vec<u8> = (0..16).map(|name| name % 3).collect();
    let all = Draft { terms: (0..16).map(|name| [NAME, name, 0]).collect::<Vec<_>>().repeat(4), ..Draft::new(2) };
    let sheet = [&from_hex("01 02 01 10 00 00 00 0C 00 1C 00 1C")[..], &names].concat();
    answers(&all, &sheet, Call::WorkOut { grid: 64 }, [0, 0], &names.repeat(4));
    answers(&all, &sheet, Call::WorkOut { grid: 63 }, [16], &[]);
}

/// All else of check 6 stays: a name is 0 to 15, with a byte 0 behind it, also where it recurs.
#[test]
fn the_rest_of_check_6() {
    for (term, expected) in [
        ([NAME, 0, 0], 0),
        ([NAME, 15, 0], 0),
        ([NAME, 16, 0], 6),
        ([NAME, 255, 0], 6),
        ([NAME, 0, 1], 6),
        ([NAME, 0, 255], 6),
        ([NOT, 1, 0], 0),
        ([NOT, 2, 0], 6),
        ([NOT, 0, 1], 6),
        ([SOME, 7, 1], 0),
        ([SOME, 8, 1], 6),
        ([ALL, 0, 2], 6),
        ([TOP, 0, 1], 6),
        ([8, 0, 0], 6),
    ] {
        for name in [0, 15] {
            let book = Draft { terms: vec![[NAME, name, 0], [NAME, name, 0], term, [NAME, name, 0]], ..Draft::new(3) };
            editions(&book).iter().for_each(|book| answers_check(&book.bytes(), expected));
        }
    }
}

/// The hard books that the plain implementation decides within five seconds.
const QUICK: [&str; 18] = [
    "unmeetable_last",
    "unmeetable_unmentioned",
    "names_only",
    "counter_6_bits_back",
    "counter_two_roles",
    "nested_n2",
    "rules_n2",
    "three_terms_n8",
    "rules_n8",
    "half_unfit",
    "chain_of_8_none",
    "chain_of_8_late",
    "web_of_8_n3",
    "web_of_7_n2",
    "web_of_5_n4_none",
    "sets_of_8",
    "repeated_names",
    "pasted_ring",
];

/// Outcome and number of survivors are in the file; for the quick ones the sides agree on every mark and place too.
#[test]
fn hard_books() {
    let text = fs::read_to_string("../bench/books.hex").expect("the benchmark's books");
    let mut lines = text.lines().filter(|line| !line.is_empty() && !line.starts_with('#'));
    let mut quick = 0;
    while let (Some(title), Some(book)) = (lines.next(), lines.next()) {
        let words: Vec<&str> = title.split(' ').collect();
        let ["book", name, "outcome", outcome, "survivors", survivors] = words[..] else { panic!("{title}") };
        let book = from_hex(book);
        let found = decide(calls::wrapped, &book);
        let counted = found.as_ref().map(|(outcome, survivors, _)| (outcome.to_string(), survivors.len().to_string()));
        assert_eq!(counted, Ok((outcome.into(), survivors.into())), "{name}");
        if QUICK.contains(&name) {
            assert_eq!(found, decide(plainly, &book), "{name}");
            quick += 1;
        }
    }
    assert_eq!(quick, QUICK.len());
}

fn from_hex(text: &str) -> Vec<u8> {
    let byte = |digits| u8::from_str_radix(digits, 16).expect("two hexadecimal digits");
    text.split_whitespace().map(byte).collect()
}
