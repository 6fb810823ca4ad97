//! "Types and links", and P5, "A name may recur": places, candidates, their types, and the link between two types.

use super::book::{Book, Grade, Term};

impl Book {
    /// The number of candidates, if it is at most 16,384. "A place is now a distinct name number .. or a quantified term."
    pub fn candidates(&self) -> Option<usize> {
        let quantified = self.terms.iter().filter(|term| matches!(term, Term::Some(..) | Term::All(..)));
        let places = self.distinct_names().len() + quantified.count();
        let count = (usize::from(self.steps) + 1).checked_pow(places as u32)?;
        (count <= 16_384).then_some(count)
    }

    /// The grades of all terms in a candidate: its digits at the places, lowest first, and what follows at the others. A
    /// name's place is "at its first term", and "the grades of all terms with one name agree".
    pub fn type_of(&self, candidate: usize) -> Vec<Grade> {
        let base = usize::from(self.steps) + 1;
        let mut digits = candidate;
        let mut next_digit = || {
            let digit = digits % base;
            digits /= base;
            digit as Grade
        };
        let mut of_names = [None; 16];
        let mut row = Vec::new();
        for term in &self.terms {
            let grade = match *term {
                Term::Name(name) => *of_names[usize::from(name)].get_or_insert_with(&mut next_digit),
                Term::Some(..) | Term::All(..) => next_digit(),
                _ => self.connective(*term, &row),
            };
            row.push(grade);
        }
        row
    }

    /// "A link of two candidates is now the least of its own bound and those of all roles reachable upward."
    pub fn link(&self, role: u8, first: &[Grade], second: &[Grade]) -> Grade {
        let upward = self.upward[usize::from(role)].iter();
        upward.map(|&role| self.bound(role, first, second)).min().expect("the role itself")
    }

    /// The bound of one role: the greatest link that each of its quantified terms allows. All of them allow 0.
    pub fn bound(&self, role: u8, first: &[Grade], second: &[Grade]) -> Grade {
        (0..=self.steps).rev().find(|&r| self.allows(role, r, first, second)).expect("a link of 0 is allowed")
    }

    fn allows(&self, role: u8, r: Grade, first: &[Grade], second: &[Grade]) -> bool {
        self.terms.iter().zip(first).all(|(term, &grade)| match *term {
            Term::All(own, child) if own == role => (self.steps - r).max(second[child]) >= grade,
            Term::Some(own, child) if own == role => r.min(second[child]) <= grade,
            _ => true,
        })
    }
}
