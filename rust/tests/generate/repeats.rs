//! Names that recur, for books that are drawn.

use super::books::{add_claims, add_connective, any_term, child, in_any_order, places_within, steps};
use super::random::Random;
use crate::support::draft::{Draft, ALL, NAME, SOME};

const MOST_TERMS: usize = 64;

/// The book as it is, or, one in four, with terms that repeat its names.
pub fn mixed_in(random: &mut Random, mut book: Draft) -> Draft {
    if random.one_in(4) {
        let more = random.pick(&[1, 1, 2, 3, 5, MOST_TERMS]);
        add(random, &mut book, more);
    }
    book
}

/// Adds terms that repeat the book's names, if it has any: so many, or as many as it has room for. They stand anywhere, also
/// before the terms that had the names. In a full book they take the place of some that are neither names nor quantified.
pub fn add(random: &mut Random, book: &mut Draft, more: usize) {
    let names: Vec<[u8; 3]> = book.terms.iter().filter(|term| term[0] == NAME).copied().collect();
    if names.is_empty() {
        return;
    }
    if book.terms.len() < MOST_TERMS {
        for _ in 0..more.min(MOST_TERMS - book.terms.len()) {
            let at = random.below(book.terms.len() + 1);
            book.insert(at, random.pick(&names));
        }
    } else {
        let share = random.pick(&[1, 2, 8]);
        let free = book.terms.iter_mut().filter(|term| ![NAME, SOME, ALL].contains(&term[0]));
        for term in free {
            if random.one_in(share) {
                *term = random.pick(&names);
            }
        }
    }
    spread(random, book);
}

/// Half of the children, rules and claims that are on a term of a name get any of the terms that it has.
fn spread(random: &mut Random, book: &mut Draft) {
    let terms = book.terms.clone();
    book.renumber(|number, bound| {
        let Some(&named) = terms.get(usize::from(number)).filter(|term| term[0] == NAME) else { return number };
        if random.one_in(2) {
            return number;
        }
        let alike: Vec<u8> = (0..bound).filter(|&other| terms[other] == named).map(|other| other as u8).collect();
        random.pick(&alike)
    });
}

/// Fragments pasted one behind the other. Each has terms of its own for the names that it is about.
pub fn pasted(random: &mut Random) -> Draft {
    let mut book = Draft::new(steps(random));
    let places = 1 + random.below(places_within(book.steps, 81));
    let mut names = in_any_order(random, 0..16);
    names.truncate(1 + random.below(places));
    let mut quantified = places - names.len();
    let roles = [random.up_to(7), random.up_to(7)];
    for _ in 0..random.pick(&[2, 2, 3, 4, 7]) {
        let mut fragment = Draft::new(book.steps);
        for _ in 0..1 + random.below(3) {
            fragment.term(NAME, random.pick(&names), 0);
        }
        for _ in 0..random.below(6) {
            if quantified > 0 && random.one_in(2) {
                quantified -= 1;
                add_quantified(random, &mut fragment, &roles);
            } else {
                add_connective(random, &mut fragment);
            }
        }
        if random.one_in(3) {
            fragment.rules.push([any_term(random, &fragment), any_term(random, &fragment)]);
        }
        if random.one_in(3) {
            add_claims(random, &mut fragment, &roles);
        }
        book.paste(fragment);
    }
    if random.one_in(3) {
        book.rules.push([any_term(random, &book), any_term(random, &book)]);
    }
    book
}

/// All 16 names over 64 terms, with quantified ones among them: too many candidates on any chain, but such a book is
/// accepted, and sheets are worked out on it.
pub fn of_all_names(random: &mut Random) -> Draft {
    let mut book = Draft::new(steps(random));
    book.terms = in_any_order(random, 0..16).into_iter().map(|name| [NAME, name, 0]).collect();
    let roles = [random.up_to(7), random.up_to(7)];
    while book.terms.len() < MOST_TERMS {
        match random.below(4) {
            0 => add_quantified(random, &mut book, &roles),
            1 => add_connective(random, &mut book),
            _ => book.terms.push([NAME, random.up_to(15), 0]),
        }
    }
    book.rules.push([any_term(random, &book), any_term(random, &book)]);
    add_claims(random, &mut book, &roles);
    book
}

fn add_quantified(random: &mut Random, book: &mut Draft, roles: &[u8]) {
    let (kind, role, child) = (random.pick(&[SOME, ALL]), random.pick(roles), child(random, book));
    book.term(kind, role, child);
}
