//! P4, "Table of implied rules".

use super::book::Book;
use super::elimination::Types;

impl Book {
    /// "One byte per ordered pair of terms, row by row: 1 if left is never greater than right in any finite interpretation
    /// that meets the rules, else 0." The elements of these have the types that survive, each of them in some; so "with no
    /// survivors all are 1", and "claims play no part".
    pub fn implied_rules(&self, survivors: &Types) -> Vec<u8> {
        let terms = 0..self.terms.len();
        let pairs = terms.clone().flat_map(|left| terms.clone().map(move |right| (left, right)));
        let types: Vec<_> = survivors.values().collect();
        let never_greater = |left: usize, right: usize| types.iter().all(|row| row[left] <= row[right]);
        pairs.map(|(left, right)| u8::from(never_greater(left, right))).collect()
    }
}
