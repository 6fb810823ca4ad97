//! Books. Those that are decided have few candidates, or rules that leave few, so that the plain implementation ends.

use std::collections::BTreeSet;

use super::damage::{damaged, damaged_by_edition};
use super::random::Random;
use super::{repeats, sets};
use crate::support::draft::{Draft, ALL, AND, BOTTOM, NAME, NOT, OR, SOME, TOP};

const MOST_CANDIDATES: usize = 16_384;

/// Any book of edition 1: one in four damaged, the others right but for those past a limit. Half of them have claims on
/// sets of individuals; in about one of four a name recurs.
pub fn any(random: &mut Random) -> Vec<u8> {
    let book = match random.below(200) {
        0..=62 => mixed(random),
        63..=72 => repeats::pasted(random),
        73..=74 => repeats::of_all_names(random),
        75..=89 => web(random),
        90..=99 => chain(random),
        100..=109 => counter(random),
        110..=124 => full(random),
        125..=134 => of_64_survivors(random),
        135 => widest(random),
        136..=139 => too_wide(random),
        140..=141 => Draft::new(steps(random)),
        142..=144 => too_many(random),
        145..=151 => {
            let book = mixed(random);
            return sets::damaged(random, book).bytes();
        }
        _ => {
            let book = random.pick(&[mixed, mixed, chain, full])(random);
            let book = with_more(random, book);
            return damaged(random, book.bytes());
        }
    };
    with_more(random, book).bytes()
}

/// The book as it is, or with names that recur, claims on sets, or both.
pub(super) fn with_more(random: &mut Random, book: Draft) -> Draft {
    let book = repeats::mixed_in(random, book);
    sets::mixed_in(random, book)
}

/// Any book of edition 2, likewise.
pub fn ranked(random: &mut Random) -> Vec<u8> {
    let book = match random.below(200) {
        0..=24 => with_pairs(random, mixed),
        25..=59 => with_pairs(random, layered),
        60..=67 => with_pairs(random, repeats::pasted),
        68..=69 => with_pairs(random, repeats::of_all_names),
        70..=84 => with_pairs(random, web),
        85..=94 => with_pairs(random, chain),
        95..=104 => with_pairs(random, counter),
        105..=119 => full_ranked(random),
        120..=129 => of_64_survivors_ranked(random),
        130 => with_pairs(random, widest),
        131..=133 => with_pairs(random, too_wide),
        134..=135 => Draft { pairs: Some(Vec::new()), ..Draft::new(steps(random)) },
        136..=139 => too_many_ranked(random),
        140..=144 => wrong_pair(random),
        145..=151 => {
            let book = with_pairs(random, mixed);
            return sets::damaged(random, book).bytes();
        }
        _ => {
            let book = random.pick(&[mixed, mixed, chain, full]);
            let book = with_pairs(random, book);
            let book = with_more(random, book);
            return damaged_by_edition(random, book.bytes());
        }
    };
    with_more(random, book).bytes()
}

pub(super) fn steps(random: &mut Random) -> u8 {
    1 + random.up_to(7)
}

/// The most places with which a book of these steps has at most so many candidates.
pub(super) fn places_within(steps: u8, candidates: usize) -> usize {
    candidates.ilog(usize::from(steps) + 1) as usize
}

/// Terms of all kinds in any order, with rules and claims.
pub(super) fn mixed(random: &mut Random) -> Draft {
    let mut book = Draft::new(steps(random));
    let candidates = if random.one_in(20) { 1000 } else { random.pick(&[9, 32, 81, 81, 260, 260]) };
    let places = random.below(places_within(book.steps, candidates) + 1);
    let roles = [random.up_to(7), random.up_to(7), random.up_to(7)];
    let mut left = places;
    let count = places + random.below(8);
    for number in 0..count {
        if random.below(count - number) < left {
            left -= 1;
            add_place(random, &mut book, &roles);
        } else {
            add_connective(random, &mut book);
        }
    }
    add_rules(random, &mut book);
    add_claims(random, &mut book, &roles);
    book
}

/// Adds a name that the book does not have yet, or a quantified term.
pub(super) fn add_place(random: &mut Random, book: &mut Draft, roles: &[u8]) -> u8 {
    let free: Vec<u8> = (0..16).filter(|&name| !book.terms.contains(&[NAME, name, 0])).collect();
    let name = book.terms.is_empty() || (!free.is_empty() && random.one_in(3));
    if name {
        book.term(NAME, random.pick(&free), 0)
    } else {
        book.term(random.pick(&[SOME, ALL]), random.pick(roles), child(random, book))
    }
}

pub(super) fn add_connective(random: &mut Random, book: &mut Draft) {
    let kind = random.pick(&[NOT, NOT, AND, OR, TOP, BOTTOM]);
    match kind {
        NOT if !book.terms.is_empty() => book.term(NOT, child(random, book), 0),
        AND | OR if !book.terms.is_empty() => book.term(kind, child(random, book), child(random, book)),
        _ => book.term(random.pick(&[TOP, BOTTOM]), 0, 0),
    };
}

/// Any term, or, as often, the last.
pub(super) fn child(random: &mut Random, book: &Draft) -> u8 {
    let last = book.terms.len() as u8 - 1;
    if random.one_in(2) {
        last
    } else {
        random.up_to(last)
    }
}

pub(super) fn add_rules(random: &mut Random, book: &mut Draft) {
    if book.terms.is_empty() {
        return;
    }
    for _ in 0..random.pick(&[0, 0, 1, 1, 2, 3, 4]) {
        book.rules.push([any_term(random, book), any_term(random, book)]);
    }
}

pub(super) fn any_term(random: &mut Random, book: &Draft) -> u8 {
    random.below(book.terms.len()) as u8
}

/// Claims about some of the individuals, up to any of the eight.
pub(super) fn add_claims(random: &mut Random, book: &mut Draft, roles: &[u8]) {
    let mentioned: Vec<u8> = (0..1 + random.below(4)).map(|_| random.pick(&[0, 0, 1, 1, 2, 3, 5, 7])).collect();
    if !book.terms.is_empty() {
        for _ in 0..random.pick(&[0, 1, 1, 2, 3, 5]) {
            let (individual, term) = (random.pick(&mentioned), any_term(random, book));
            book.memberships.push([individual, term, random.up_to(1), random.up_to(book.steps)]);
        }
    }
    for _ in 0..random.pick(&[0, 0, 1, 1, 2, 4]) {
        let role = if random.one_in(8) { random.up_to(7) } else { random.pick(roles) };
        book.links.push([role, random.pick(&mentioned), random.pick(&mentioned), random.up_to(book.steps)]);
    }
}

/// A0 under "some r A1", A1 under "some r A2" .. and the last one under bottom: each sweep takes one more name away.
fn chain(random: &mut Random) -> Draft {
    let length = random.pick(&[2, 3, 3, 4]);
    let mut book = Draft::new(if length > 3 { 1 } else { random.pick(&[1, 2]) });
    let roles = [random.up_to(7), random.up_to(7)];
    let names: Vec<u8> = (0..length).map(|i| book.term(NAME, i, 0)).collect();
    for pair in names.windows(2) {
        let next = book.term(SOME, random.pick(&roles), pair[1]);
        book.rules.push([pair[0], next]);
    }
    let bottom = book.term(BOTTOM, 0, 0);
    book.rules.push([names[names.len() - 1], bottom]);
    add_claims(random, &mut book, &roles);
    book
}

/// A binary counter: an element is linked only to such as have, at least, the bits of the next number, and the greatest
/// number is ruled out, so a sweep takes one number away. Half of them lack one of these rules.
fn counter(random: &mut Random) -> Draft {
    let mut book = Draft::new(1);
    let role = random.up_to(7);
    let (top, bottom) = (book.term(TOP, 0, 0), book.term(BOTTOM, 0, 0));
    let linked = book.term(SOME, role, top);
    book.rules.push([top, linked]);
    let mut carry = top;
    for number in 0..random.pick(&[2, 3, 4, 4, 5]) {
        let bit = book.term(NAME, number, 0);
        let next = book.term(ALL, role, bit);
        let (either, both) = (book.term(OR, bit, carry), book.term(AND, bit, carry));
        let not_both = book.term(NOT, both, 0);
        let flipped = book.term(AND, either, not_both);
        book.rules.extend([[next, flipped], [flipped, next]]);
        carry = both;
    }
    book.rules.push([carry, bottom]);
    if random.one_in(2) {
        book.rules.swap_remove(random.below(book.rules.len()));
    }
    add_claims(random, &mut book, &[role]);
    book
}

/// Few candidates and several individuals, with claims that say something on links for which quantified terms speak.
fn web(random: &mut Random) -> Draft {
    let mut book = Draft::new(random.pick(&[1, 1, 2, 3]));
    let role = random.up_to(7);
    for _ in 0..places_within(book.steps, 16) {
        add_place(random, &mut book, &[role]);
    }
    let last = random.pick(&[1, 2, 3]);
    for individual in 0..=last {
        let (term, sense) = (any_term(random, &book), random.up_to(1));
        let grade = 1 - sense + random.up_to(book.steps - 1);
        book.memberships.push([individual, term, sense, grade]);
        for _ in 0..2 {
            book.links.push([role, individual, random.up_to(last), 1 + random.up_to(book.steps - 1)]);
        }
    }
    book
}

/// 850 bytes: a book filled up to 64 records in each section with such as change nothing.
fn full(random: &mut Random) -> Draft {
    filled(random, 64)
}

fn filled(random: &mut Random, terms: usize) -> Draft {
    let mut book = mixed(random);
    while book.terms.len() < terms {
        add_connective(random, &mut book);
    }
    while book.rules.len() < 64 {
        let term = any_term(random, &book);
        book.rules.push([term, term]);
    }
    while book.memberships.len() < 64 {
        let (term, sense) = (any_term(random, &book), random.up_to(1));
        book.memberships.push([0, term, sense, sense * book.steps]);
    }
    while book.links.len() < 64 {
        book.links.push([random.up_to(7), 0, 0, 0]);
    }
    book
}

/// A book with 65 records in one section.
fn too_many(random: &mut Random) -> Draft {
    let mut book = mixed(random);
    match random.below(4) {
        0 => book.terms.resize(65, [TOP, 0, 0]),
        1 => book.rules.resize(65, [0, 0]),
        2 => book.memberships.resize(65, [0; 4]),
        _ => book.links.resize(65, [0; 4]),
    }
    book
}

/// Just 64 survivors, or 65; half of them with the highest name, role and individual, so that the sheet is the longest.
fn of_64_survivors(random: &mut Random) -> Draft {
    let (steps, places) = random.pick(&[(1, 6), (3, 3), (7, 2)]);
    let mut book = Draft::new(steps);
    let top = book.term(TOP, 0, 0);
    // A name and, for a role of its own, "some r top" may each have any grade, whatever the others have.
    let free: Vec<u8> = (0..places)
        .map(|i| if random.one_in(3) { book.term(SOME, i, top) } else { book.term(NAME, 15 - i, 0) })
        .collect();
    if steps == 1 && random.one_in(2) {
        // The 65th: a name that is graded 0 unless all others are graded 1.
        let all = book.term(NAME, 0, 0);
        book.rules = free.iter().map(|&other| [all, other]).collect();
    }
    if random.one_in(2) {
        book.links.push([7, 7, random.up_to(7), random.up_to(steps)]);
    }
    book
}

/// As many places as are accepted. Without rules all of them are names; else rules hold most places to one grade.
fn widest(random: &mut Random) -> Draft {
    let mut book = Draft::new(random.pick(&[1, 1, 1, 3, 3, 3, 2, 4, 5, 6, 7, 8]));
    let places = places_within(book.steps, MOST_CANDIDATES);
    if random.one_in(3) {
        add_names(random, &mut book, places);
        return book;
    }
    let (bottom, top) = (book.term(BOTTOM, 0, 0), book.term(TOP, 0, 0));
    let free = places_within(book.steps, 81);
    for place in 0..places {
        let term = add_place(random, &mut book, &[0, 1]);
        if place >= free {
            book.rules.push(random.pick(&[[term, bottom], [top, term]]));
        }
    }
    book
}

/// So many names; in half of the books they stand in as many terms as there can be.
fn add_names(random: &mut Random, book: &mut Draft, names: usize) {
    book.terms = (0..names as u8).map(|name| [NAME, name, 0]).collect();
    if random.one_in(2) {
        repeats::add(random, book, 64);
    }
}

/// A place more than is accepted, or several; where there are names for all of them, in one of three books these are names.
fn too_wide(random: &mut Random) -> Draft {
    let mut book = Draft::new(steps(random));
    let places = places_within(book.steps, MOST_CANDIDATES) + random.pick(&[1, 1, 1, 2, 50]);
    if places <= 16 && random.one_in(3) {
        add_names(random, &mut book, places);
        return book;
    }
    for _ in 0..places {
        add_place(random, &mut book, &[0, 1]);
    }
    book
}

/// The book with pairs. In three of four first a few roles are dealt out anew to quantified terms and link claims, since
/// pairs of roles that no term uses say nothing.
pub(super) fn with_pairs(random: &mut Random, kind: fn(&mut Random) -> Draft) -> Draft {
    let mut book = kind(random);
    if !random.one_in(4) {
        let few = some_roles(random);
        let quantified = book.terms.iter_mut().filter(|term| [SOME, ALL].contains(&term[0]));
        quantified.for_each(|term| term[1] = random.pick(&few));
        book.links.iter_mut().for_each(|claim| claim[0] = random.pick(&few));
    }
    book.pairs = Some(pairs(random, &book));
    book
}

/// Quantified terms of several roles over few children, and claims on links of these roles, so that pairs tell.
pub(super) fn layered(random: &mut Random) -> Draft {
    let mut book = Draft::new(random.pick(&[1, 1, 1, 2, 2, 3]));
    let roles = some_roles(random);
    let (top, bottom, a) = (book.term(TOP, 0, 0), book.term(BOTTOM, 0, 0), book.term(NAME, 0, 0));
    let not_a = book.term(NOT, a, 0);
    let some_top = random.one_in(4);
    for _ in 1..places_within(book.steps, 81) {
        if some_top {
            book.term(SOME, random.pick(&roles), top);
        } else {
            book.term(random.pick(&[SOME, ALL]), random.pick(&roles), random.pick(&[top, a, not_a]));
        }
    }
    let [one, other] = [not_a + 1, not_a + 2];
    match random.below(4) {
        0 => book.rules.extend([[top, one], [other, bottom]]), // one fully everywhere, the other nowhere: pairs may forbid that
        1 => book.rules.push([any_term(random, &book), any_term(random, &book)]),
        _ => {}
    }
    for _ in 0..random.pick(&[0, 1, 2, 4]) {
        let (individual, term) = (random.up_to(1), any_term(random, &book));
        book.memberships.push([individual, term, random.up_to(1), random.up_to(book.steps)]);
    }
    for _ in 0..random.pick(&[0, 1, 2]) {
        let (role, from, to) = (random.pick(&roles), random.up_to(1), random.up_to(1));
        book.links.push([role, from, to, 1 + random.up_to(book.steps - 1)]);
    }
    book
}

/// Two to four roles, in any order.
fn some_roles(random: &mut Random) -> Vec<u8> {
    let mut roles = in_any_order(random, 0..8);
    roles.truncate(2 + random.below(3));
    roles
}

pub(super) fn in_any_order(random: &mut Random, items: impl IntoIterator<Item = u8>) -> Vec<u8> {
    let mut left: Vec<u8> = items.into_iter().collect();
    (0..left.len()).map(|_| left.swap_remove(random.below(left.len()))).collect()
}

/// Pairs of the roles that the book's terms and claims have, two at least, and of others.
fn pairs(random: &mut Random, book: &Draft) -> Vec<[u8; 2]> {
    let quantified = book.terms.iter().filter(|term| [SOME, ALL].contains(&term[0])).map(|term| term[1]);
    let used: BTreeSet<u8> = quantified.chain(book.links.iter().map(|claim| claim[0])).collect();
    let mut others = in_any_order(random, (0..8).filter(|role| !used.contains(role)));
    let mut roles = in_any_order(random, used);
    while roles.len() < 2 {
        roles.extend(others.pop());
    }
    let upward: Vec<[u8; 2]> = roles.windows(2).map(|two| [two[0], two[1]]).collect();
    let circle = [&upward[..], &[[roles[roles.len() - 1], roles[0]]]].concat();
    match random.below(16) {
        0 => Vec::new(),
        1..=4 => upward,
        5 | 6 => circle,
        7 => [&[[roles[0], roles[0]]], &upward[..]].concat(),
        8 => [&upward[..], &upward].concat(),
        9..=11 => through(&upward, &others),
        12..=14 => (0..1 + random.below(6)).map(|_| [random.up_to(7), random.up_to(7)]).collect(),
        _ => sixty_four(random, &roles),
    }
}

/// Each pair by way of a role that no term and no claim has, as far as there are such.
fn through(pairs: &[[u8; 2]], others: &[u8]) -> Vec<[u8; 2]> {
    let by_way = pairs.iter().zip(others).flat_map(|(&[lower, upper], &other)| [[other, upper], [lower, other]]);
    by_way.chain(pairs.iter().skip(others.len()).copied()).collect()
}

/// 64 pairs of these roles: each of a role with a later one, or of any two, which soon makes all equal.
fn sixty_four(random: &mut Random, roles: &[u8]) -> Vec<[u8; 2]> {
    let ordered = random.one_in(2);
    let mut pair = || {
        let (one, other) = (random.below(roles.len()), random.below(roles.len()));
        let [lower, upper] = if ordered { [one.min(other), one.max(other)] } else { [one, other] };
        [roles[lower], roles[upper]]
    };
    (0..64).map(|_| pair()).collect()
}

/// 982 bytes; or 850 or 851, no more than in edition 1 or one more, of which edition 2 takes both.
fn full_ranked(random: &mut Random) -> Draft {
    match random.below(4) {
        0 => Draft { pairs: Some(Vec::new()), ..filled(random, 63) },
        1 => {
            let mut book = Draft { pairs: Some(Vec::new()), ..full(random) };
            book.links.pop();
            book
        }
        _ => {
            let mut book = full(random);
            let roles = some_roles(random);
            book.pairs = Some(sixty_four(random, &roles));
            book
        }
    }
}

/// A book with 65 records in one section, the pairs too.
fn too_many_ranked(random: &mut Random) -> Draft {
    if random.one_in(2) {
        with_pairs(random, too_many)
    } else {
        Draft { pairs: Some(vec![[0, 0]; 65]), ..mixed(random) }
    }
}

/// A book in which one pair has a role above 7; half of them with too many candidates, which is asked later.
fn wrong_pair(random: &mut Random) -> Draft {
    let kind = random.pick(&[mixed, too_wide]);
    let mut book = with_pairs(random, kind);
    let pairs = book.pairs.get_or_insert_default();
    pairs.push([random.up_to(7), random.up_to(7)]);
    let wrong = random.below(pairs.len());
    pairs[wrong][random.below(2)] = random.pick(&[8, 8, 9, 15, 16, 128, 255]);
    book
}

/// As without pairs, since these are about roles that no term has; the highest of them has no claim either.
fn of_64_survivors_ranked(random: &mut Random) -> Draft {
    let pairs = random.pick(&[&[[7, 7]][..], &[[6, 7], [7, 6]], &[[7, 6]]]).to_vec();
    Draft { pairs: Some(pairs), ..of_64_survivors(random) }
}
