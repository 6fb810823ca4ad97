//! The largest sound set, by sweeps over whole sets: start from the candidates that meet every rule, take away all that
//! lack a witness in the set, and begin again until none does.

use std::collections::BTreeMap;

use super::book::{Book, Grade, Term};

/// Candidates with their types, ascending.
pub type Types = BTreeMap<usize, Vec<Grade>>;

pub struct Eliminated {
    pub survivors: Types,
    /// How many sweeps took something away.
    pub sweeps: usize,
}

impl Book {
    pub fn eliminate(&self) -> Eliminated {
        let count = self.candidates().expect("at most 16,384 candidates");
        let mut set: Types = (0..count).map(|candidate| (candidate, self.type_of(candidate))).collect();
        set.retain(|_, row| self.rules.iter().all(|rule| row[rule.left] <= row[rule.right]));
        let mut sweeps = 0;
        loop {
            let before = set.clone();
            set.retain(|_, row| self.has_witnesses(row, &before));
            if set.len() == before.len() {
                return Eliminated { survivors: set, sweeps };
            }
            sweeps += 1;
        }
    }

    /// Whether each quantified term of a type takes exactly its grade from some member, through the link to that member.
    fn has_witnesses(&self, row: &[Grade], set: &Types) -> bool {
        self.terms.iter().zip(row).all(|(term, &grade)| match *term {
            Term::Some(role, child) => set.values().any(|other| self.link(role, row, other).min(other[child]) == grade),
            Term::All(role, child) => {
                set.values().any(|other| (self.steps - self.link(role, row, other)).max(other[child]) == grade)
            }
            _ => true,
        })
    }
}
