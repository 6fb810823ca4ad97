//! Claims on sets of individuals, for books that are drawn.

use super::random::Random;
use crate::support::draft::{is_set, Draft, AT_LEAST, EACH_AT_LEAST, EACH_AT_MOST};

/// The book as it is, or, as often, with claims on sets among its membership claims.
pub fn mixed_in(random: &mut Random, mut book: Draft) -> Draft {
    if book.terms.is_empty() || random.one_in(2) {
        return book;
    }
    if book.memberships.len() >= 64 {
        in_place(random, &mut book);
    } else {
        add(random, &mut book);
    }
    book
}

fn add(random: &mut Random, book: &mut Draft) {
    for _ in 0..random.pick(&[1, 1, 2, 2, 3, 5]) {
        let claim = claim(random, book);
        book.memberships.insert(random.below(book.memberships.len() + 1), claim);
    }
}

/// Claims on sets in place of all claims, or of some.
fn in_place(random: &mut Random, book: &mut Draft) {
    let share = random.pick(&[1, 2, 8]);
    for number in 0..book.memberships.len() {
        if random.one_in(share) {
            let [individual, term, sense, grade] = book.memberships[number];
            let (set, more) = (1 << individual, set(random, book));
            let set = if random.one_in(4) { more } else { set | more };
            book.memberships[number] = [set, term, sense + EACH_AT_LEAST, grade];
        }
    }
}

/// A claim of its own; or, as often, one beside a single claim on the same term, which asks for the same of its members,
/// bounds it on the other side, or clashes with it where they have the individual in common.
fn claim(random: &mut Random, book: &Draft) -> [u8; 4] {
    let set = set(random, book);
    let singles: Vec<[u8; 4]> = book.memberships.iter().filter(|claim| !is_set(claim)).copied().collect();
    if singles.is_empty() || random.one_in(2) {
        let term = random.below(book.terms.len()) as u8;
        return [set, term, random.pick(&[EACH_AT_LEAST, EACH_AT_MOST]), random.up_to(book.steps)];
    }
    let [individual, term, sense, grade] = random.pick(&singles);
    let set = if random.one_in(4) { set } else { set | 1 << individual };
    let (same, other) = if sense == AT_LEAST { (EACH_AT_LEAST, EACH_AT_MOST) } else { (EACH_AT_MOST, EACH_AT_LEAST) };
    match random.below(6) {
        0..=2 => [set, term, same, grade],
        3 | 4 => [set, term, other, grade],
        _ if other == EACH_AT_MOST => [set, term, other, grade.saturating_sub(1)],
        _ => [set, term, other, book.steps.min(grade + 1)],
    }
}

/// Any set, from none to all eight; of individuals that claims mention; or of such as are above all of these.
fn set(random: &mut Random, book: &Draft) -> u8 {
    let (mentioned, any) = (mentioned(book), random.up_to(255));
    let above = u8::MAX.checked_shl(8 - mentioned.leading_zeros()).unwrap_or(0);
    match random.below(10) {
        0 => 0,
        1 => 1 << random.up_to(7),
        2 => 255,
        3 | 4 => any & above,
        5..=7 => any & mentioned,
        _ => any,
    }
}

/// The individuals in the claims, as a set.
fn mentioned(book: &Draft) -> u8 {
    let in_memberships = book.memberships.iter().map(|claim| if is_set(claim) { claim[0] } else { 1 << claim[0] });
    let in_links = book.links.iter().map(|claim| 1 << claim[1] | 1 << claim[2]);
    in_memberships.chain(in_links).fold(0, |all, set| all | set)
}

/// The book with a claim on a set that is damaged where sets differ from single claims: in its first byte, which gives
/// another set; in its sense; or with its set empty, which excuses no wrong term or grade.
pub fn damaged(random: &mut Random, mut book: Draft) -> Draft {
    if book.terms.is_empty() {
        return book;
    }
    let [set, term, sense, grade] = claim(random, &book);
    let wrong = match random.below(8) {
        0 => [random.up_to(255), term, sense, grade],
        1 | 2 => [set, term, sense - EACH_AT_LEAST, grade],
        3 => [set, term, random.pick(&[4, 5, 6, 7, 8, 64, 128, 255]), grade],
        4 => [set, term, 4 + random.up_to(251), grade],
        5 => [0, term, random.pick(&[4, 255]), grade],
        6 => [0, random.pick(&[book.terms.len() as u8, 64, 255]), sense, grade],
        _ => [0, term, sense, random.pick(&[book.steps + 1, 9, 255])],
    };
    book.memberships.insert(random.below(book.memberships.len() + 1), wrong);
    book
}
