//! Books for the table of implied rules: of many terms that are no places, so that many pairs of terms keep one order; such
//! in which a single type tells two terms apart; with one survivor, and with none; of no terms, and of 64.

use super::books::{
    add_claims, add_place, add_rules, any_term, layered, mixed, places_within, steps, with_more, with_pairs,
};
use super::random::Random;
use crate::support::draft::{Draft, ALL, AND, BOTTOM, NAME, NOT, OR, SOME, TOP};

/// Any such book, of either edition. Half of them have claims on sets of individuals; in about one of four a name recurs.
pub fn any(random: &mut Random) -> Vec<u8> {
    let mut book = match random.below(16) {
        0..=4 => nested(random),
        5..=7 => ranked(random),
        8..=10 => told_by_one(random),
        11 | 12 => held(random),
        13 | 14 => without_survivors(random),
        _ => of_few_terms(random),
    };
    if book.pairs.is_none() && random.one_in(2) {
        book.pairs = Some(Vec::new());
    }
    with_more(random, book).bytes()
}

/// Adds "and", "or" and a few others over any terms, up to a number of terms.
fn add_bounds(random: &mut Random, book: &mut Draft) {
    let most = random.pick(&[8, 16, 32, 63, 64, 64]);
    while book.terms.len() < most {
        let [a, b] = [(); 2].map(|()| any_term(random, book));
        match random.below(12) {
            0..=4 => book.term(AND, a, b),
            5..=9 => book.term(OR, a, b),
            10 => book.term(NOT, a, 0),
            _ => book.term(random.pick(&[TOP, BOTTOM]), 0, 0),
        };
    }
}

/// A few places, and many terms over them.
fn nested(random: &mut Random) -> Draft {
    let mut book = Draft::new(steps(random));
    let roles = [random.up_to(7), random.up_to(7)];
    for _ in 0..1 + random.below(places_within(book.steps, 81)) {
        add_place(random, &mut book, &roles);
    }
    add_bounds(random, &mut book);
    if random.one_in(2) {
        add_rules(random, &mut book);
    }
    add_claims(random, &mut book, &roles);
    book
}

/// Quantified terms of roles under roles, which bound each other, and terms over them.
fn ranked(random: &mut Random) -> Draft {
    let mut book = with_pairs(random, layered);
    add_bounds(random, &mut book);
    book
}

/// N 1, names, and terms that are each graded 1 in one type alone, the first and the last among them; so each but bottom
/// is not below bottom for that type's sake.
fn told_by_one(random: &mut Random) -> Draft {
    let mut book = Draft::new(1);
    let bottom = book.term(BOTTOM, 0, 0);
    let names: Vec<u8> = (0..random.pick(&[1, 2, 3, 5, 7])).map(|name| book.term(NAME, name, 0)).collect();
    let opposites: Vec<u8> = names.iter().map(|&name| book.term(NOT, name, 0)).collect();
    for number in 0..4 {
        let mut all = book.term(NOT, bottom, 0);
        for (&name, &opposite) in names.iter().zip(&opposites) {
            let holds = if number < 2 { number == 1 } else { random.one_in(2) };
            all = book.term(AND, all, if holds { name } else { opposite });
        }
    }
    if random.one_in(3) {
        add_rules(random, &mut book);
    }
    add_claims(random, &mut book, &[0]);
    book
}

/// Rules hold each name at 0 or at N: one survivor is left.
fn held(random: &mut Random) -> Draft {
    let mut book = Draft::new(steps(random));
    let (bottom, top) = (book.term(BOTTOM, 0, 0), book.term(TOP, 0, 0));
    for name in 0..1 + random.below(places_within(book.steps, 260)) as u8 {
        let name = book.term(NAME, name, 0);
        book.rules.push(random.pick(&[[name, bottom], [top, name]]));
    }
    add_bounds(random, &mut book);
    add_claims(random, &mut book, &[0]);
    book
}

/// Rules that no interpretation meets, at once or after some sweeps.
fn without_survivors(random: &mut Random) -> Draft {
    let mut book = mixed(random);
    let role = random.up_to(7);
    let (top, bottom) = (book.term(TOP, 0, 0), book.term(BOTTOM, 0, 0));
    match random.below(4) {
        0 => book.rules.push([top, bottom]),
        1 => {
            let some_bottom = book.term(SOME, role, bottom);
            book.rules.push([top, some_bottom]);
        }
        2 => {
            let all_top = book.term(ALL, role, top);
            book.rules.push([all_top, bottom]);
        }
        _ => {
            // Everything is linked to what is not there.
            let linked = book.term(SOME, role, any_term(random, &book));
            let child = book.terms[usize::from(linked)][2];
            book.rules.extend([[top, linked], [child, bottom]]);
        }
    }
    book
}

/// No term, or one, or two.
fn of_few_terms(random: &mut Random) -> Draft {
    let mut book = Draft::new(steps(random));
    for _ in 0..random.pick(&[0, 0, 1, 2]) {
        match book.terms.len() {
            0 => book.terms.push(random.pick(&[[NAME, 3, 0], [TOP, 0, 0], [BOTTOM, 0, 0]])),
            _ => book.terms.push(random.pick(&[[NAME, 1, 0], [NOT, 0, 0], [SOME, 0, 0], [ALL, 2, 0], [OR, 0, 0]])),
        }
    }
    add_claims(random, &mut book, &[0, 2]);
    book
}
