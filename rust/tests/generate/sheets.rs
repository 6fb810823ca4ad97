//! Sheets for an accepted book.

use super::damage::damaged;
use super::random::Random;
use crate::plain::book::{Book, Pair};

/// The numbers in a sheet's head.
#[derive(Clone, Copy)]
struct Head {
    steps: u8,
    elements: u8,
    names: usize,
    roles: usize,
    individuals: usize,
}

/// Any sheet: half of them right, the others wrong in one number or damaged. Of the right ones for a book with pairs one
/// in three is left as drawn, which breaks most pairs; the others meet the pairs, but for a link in half of them.
pub fn any(random: &mut Random, book: &Book) -> Vec<u8> {
    let elements = match random.below(50) {
        0 => 64,
        1 => 1 + random.up_to(63),
        _ => 1 + random.up_to(5),
    };
    let head =
        Head { steps: book.steps, elements, names: book.names(), roles: book.roles(), individuals: book.individuals() };
    match random.below(8) {
        0 => wrong_head(random, head),
        1 => wrong_entry(random, head),
        2 | 3 => {
            let sheet = right(random, head);
            damaged(random, sheet)
        }
        _ if book.pairs.is_empty() => right(random, head),
        _ => {
            let mut sheet = right(random, head);
            let links = 12 + usize::from(elements) * head.names..sheet.len() - head.individuals;
            let fate = random.below(3);
            if fate > 0 {
                raise(&mut sheet[links.clone()], usize::from(elements), &book.pairs);
            }
            if fate > 1 {
                sheet[links.start + random.below(links.len())] = random.up_to(book.steps);
            }
            sheet
        }
    }
}

/// Raises upper roles' links, given as on a sheet, until all pairs are met.
pub fn raise(links: &mut [u8], elements: usize, pairs: &[Pair]) {
    let square = elements * elements;
    let mut before = Vec::new();
    while before != links {
        before = links.to_vec();
        for (pair, at) in pairs.iter().flat_map(|pair| (0..square).map(move |at| (pair, at))) {
            let [lower, upper] = [pair.lower, pair.upper].map(|role| usize::from(role) * square + at);
            links[upper] = links[upper].max(links[lower]);
        }
    }
}

/// A sheet whose layout agrees with its head, with grades up to N and elements below n.
fn right(random: &mut Random, head: Head) -> Vec<u8> {
    let n = usize::from(head.elements);
    let links = 12 + n * head.names;
    let individuals = links + head.roles * n * n;
    let mut bytes = vec![1, head.steps, head.elements, head.names as u8, head.roles as u8, head.individuals as u8];
    for offset in [12, links, individuals] {
        bytes.extend((offset as u16).to_be_bytes());
    }
    bytes.extend((12..individuals).map(|_| random.up_to(head.steps)));
    bytes.extend((0..head.individuals).map(|_| random.up_to(head.elements.saturating_sub(1))));
    bytes
}

/// Right in itself, but one number of its head is not the book's, or no element count.
fn wrong_head(random: &mut Random, mut head: Head) -> Vec<u8> {
    match random.below(6) {
        0 => head.steps = random.pick(&[head.steps - 1, head.steps + 1]),
        1 => head.elements = random.pick(&[0, 65]),
        2 => head.names += 1,
        3 => head.roles += 1,
        4 => head.individuals += 1,
        _ => head.names = head.names.saturating_sub(1),
    }
    right(random, head)
}

/// Right but for one grade above N or one element that is not below n.
fn wrong_entry(random: &mut Random, head: Head) -> Vec<u8> {
    let mut bytes = right(random, head);
    if bytes.len() > 12 {
        let position = 12 + random.below(bytes.len() - 12);
        let grades = bytes.len() - head.individuals;
        bytes[position] = if position < grades { head.steps + 1 } else { head.elements };
    }
    bytes
}
