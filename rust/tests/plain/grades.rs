//! "Chain and terms": interpretations, the grades of all terms at all elements, and what it is to meet a rule, a pair or a claim.

use super::book::{Book, Grade, LinkClaim, Membership, Pair, Sense, Term};

/// A finite interpretation on a book's chain.
pub struct Interpretation {
    pub elements: usize,
    /// By element, then name.
    pub names: Vec<Vec<Grade>>,
    /// By role, then from, then to.
    pub links: Vec<Vec<Vec<Grade>>>,
    /// The element of each individual.
    pub individuals: Vec<usize>,
}

pub enum Verdict {
    Meets,
    BreaksRule { rule: usize, element: usize },
    BreaksPair { pair: usize, first: usize, second: usize },
    BreaksMembership { claim: usize },
    BreaksLink { claim: usize },
}

impl Book {
    /// Each element's row of term grades. Children stand before their terms, so the terms are taken in order.
    pub fn rows(&self, world: &Interpretation) -> Vec<Vec<Grade>> {
        let mut rows = vec![Vec::new(); world.elements];
        for term in &self.terms {
            let grades: Vec<Grade> = (0..world.elements).map(|e| self.grade_at(*term, e, world, &rows)).collect();
            for (row, grade) in rows.iter_mut().zip(grades) {
                row.push(grade);
            }
        }
        rows
    }

    /// The table of terms: the grade of one term at one element, from the rows of its children.
    fn grade_at(&self, term: Term, e: usize, world: &Interpretation, rows: &[Vec<Grade>]) -> Grade {
        let others = 0..world.elements;
        match term {
            Term::Name(name) => world.names[e][usize::from(name)],
            Term::Some(role, child) => {
                let links = &world.links[usize::from(role)][e];
                others.map(|f| links[f].min(rows[f][child])).max().expect("there is an element")
            }
            Term::All(role, child) => {
                let links = &world.links[usize::from(role)][e];
                others.map(|f| (self.steps - links[f]).max(rows[f][child])).min().expect("there is an element")
            }
            _ => self.connective(term, &rows[e]),
        }
    }

    /// The grade of a term that is neither a name nor quantified, from the row of grades before it.
    pub fn connective(&self, term: Term, row: &[Grade]) -> Grade {
        match term {
            Term::Not(child) => self.steps - row[child],
            Term::And(a, b) => row[a].min(row[b]),
            Term::Or(a, b) => row[a].max(row[b]),
            Term::Top => self.steps,
            Term::Bottom => 0,
            Term::Name(_) | Term::Some(..) | Term::All(..) => unreachable!("it has a grade of its own"),
        }
    }

    /// The first rule broken with its lowest element, else the first membership claim broken, else the first link claim;
    /// "a broken pair is named after the rules and before the claims, with its lowest first, then second element".
    pub fn verdict(&self, world: &Interpretation, rows: &[Vec<Grade>]) -> Verdict {
        for (number, rule) in self.rules.iter().enumerate() {
            if let Some(element) = rows.iter().position(|row| row[rule.left] > row[rule.right]) {
                return Verdict::BreaksRule { rule: number, element };
            }
        }
        for (number, pair) in self.pairs.iter().enumerate() {
            if let Some((first, second)) = pair.broken_at(world) {
                return Verdict::BreaksPair { pair: number, first, second };
            }
        }
        let row_of = |individual: usize| &rows[world.individuals[individual]];
        let met = |claim: &Membership| claim.members.iter().all(|&member| claim.met_by(row_of(member)));
        if let Some(claim) = self.memberships.iter().position(|claim| !met(claim)) {
            return Verdict::BreaksMembership { claim };
        }
        let link_of = |claim: &LinkClaim| {
            world.links[usize::from(claim.role)][world.individuals[claim.from]][world.individuals[claim.to]]
        };
        match self.links.iter().position(|claim| link_of(claim) < claim.grade) {
            Some(claim) => Verdict::BreaksLink { claim },
            None => Verdict::Meets,
        }
    }
}

impl Pair {
    /// The lowest element from which the lower role's link exceeds the upper's, and the lowest to which it then does.
    fn broken_at(&self, world: &Interpretation) -> Option<(usize, usize)> {
        let [lower, upper] = [self.lower, self.upper].map(|role| &world.links[usize::from(role)]);
        let all = (0..world.elements).flat_map(|first| (0..world.elements).map(move |second| (first, second)));
        all.into_iter().find(|&(first, second)| lower[first][second] > upper[first][second])
    }
}

impl Membership {
    /// Whether a member meets the claim whose element has this row of grades.
    pub fn met_by(&self, row: &[Grade]) -> bool {
        match self.sense {
            Sense::AtLeast => row[self.term] >= self.grade,
            Sense::AtMost => row[self.term] <= self.grade,
        }
    }
}
