//! Outcome and placement. The individuals sit down in order, each at its lowest seat that leaves the later ones theirs.

use std::collections::HashSet;

use super::book::{Book, Grade};
use super::elimination::Types;

pub enum Decision {
    /// With the candidate of each individual.
    HoldsTogether(Vec<usize>),
    ClaimsFail,
    NoModel,
}

/// For each individual, or each from some one on, a list of the candidates at which it may sit, ascending.
pub type Seats = Vec<Vec<usize>>;

impl Book {
    pub fn place(&self, survivors: &Types) -> Decision {
        if survivors.is_empty() {
            return Decision::NoModel;
        }
        match self.first_placement(&self.seats(survivors), survivors, &mut HashSet::new()) {
            Some(places) => Decision::HoldsTogether(places),
            None => Decision::ClaimsFail,
        }
    }

    /// For each individual the survivors that meet what is claimed of it alone, in sets too.
    pub fn seats(&self, survivors: &Types) -> Seats {
        let alone = |individual: usize, row: &[Grade]| {
            let mut memberships = self.memberships.iter().filter(|claim| claim.members.contains(&individual));
            memberships.all(|claim| claim.met_by(row)) && self.links_met(individual, row, individual, row)
        };
        let seats_of = |individual| survivors.iter().filter(move |(_, row)| alone(individual, row)).map(|(&c, _)| c);
        (0..self.individuals()).map(|individual| seats_of(individual).collect()).collect()
    }

    /// The first placement, in dictionary order, of the last individuals, one for each list of seats: each is at a seat
    /// of its list, and the link claims among them are met.
    ///
    /// It is the first because the leading individual tries its seats ascending, and each leaves to the others all
    /// seats that fit it: no placement is passed over, and what follows is the first one for the seats left.
    ///
    /// Earlier individuals do not count here: the claims that tie them to these have told on the lists already. So
    /// lists that had no placement have none when they come again; `in_vain` has them.
    fn first_placement(&self, seats: &Seats, survivors: &Types, in_vain: &mut HashSet<Seats>) -> Option<Vec<usize>> {
        let Some((own, later)) = seats.split_first() else { return Some(Vec::new()) };
        if seats.iter().any(Vec::is_empty) || in_vain.contains(seats) {
            return None;
        }
        let leading = self.individuals() - seats.len();
        for &candidate in own {
            let left = self.left(leading, candidate, later, survivors);
            if let Some(places) = self.first_placement(&left, survivors, in_vain) {
                return Some([vec![candidate], places].concat());
            }
        }
        in_vain.insert(seats.clone());
        None
    }

    /// The seats of the later individuals that fit, when an individual sits at this candidate.
    fn left(&self, individual: usize, candidate: usize, later: &[Vec<usize>], survivors: &Types) -> Seats {
        let row = &survivors[&candidate];
        let fits = |other: usize, seat: usize| {
            let other_row = &survivors[&seat];
            self.links_met(individual, row, other, other_row) && self.links_met(other, other_row, individual, row)
        };
        let fitting = |other, seats: &[usize]| seats.iter().copied().filter(|&seat| fits(other, seat)).collect();
        (individual + 1..).zip(later).map(|(other, seats)| fitting(other, seats)).collect()
    }

    /// Whether the link claims from one individual to another are met where they have these types.
    fn links_met(&self, from: usize, from_row: &[Grade], to: usize, to_row: &[Grade]) -> bool {
        let mut claims = self.links.iter().filter(|claim| claim.from == from && claim.to == to);
        claims.all(|claim| self.link(claim.role, from_row, to_row) >= claim.grade)
    }
}
