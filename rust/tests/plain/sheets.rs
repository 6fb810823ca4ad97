//! "The sheet": bytes to an interpretation with checks 13 to 15, and an interpretation to bytes; the survivors as one.

use super::ask;
use super::book::{ends, number, Book, Grade, Term};
use super::elimination::Types;
use super::grades::Interpretation;

impl Book {
    pub fn read_sheet(&self, bytes: &[u8]) -> Result<Interpretation, u8> {
        ask(13, bytes.len() >= 12)?;
        let n = usize::from(bytes[2]);
        ask(13, (1..=64).contains(&n) && bytes[..6] == self.sheet_head(n))?;
        let ends = self.sheet_ends(n);
        let offsets: Vec<usize> = bytes[6..12].chunks(2).map(number).collect();
        ask(14, offsets == [12, ends[0], ends[1]] && bytes.len() == ends[2])?;

        let mut body = bytes[12..].iter().copied();
        let mut rows = |width| -> Vec<Vec<Grade>> { (0..n).map(|_| body.by_ref().take(width).collect()).collect() };
        let names = rows(self.names());
        let links: Vec<_> = (0..self.roles()).map(|_| rows(n)).collect();
        let individuals: Vec<_> = body.map(usize::from).collect();
        let mut grades = names.iter().chain(links.iter().flatten()).flatten();
        ask(15, grades.all(|&grade| grade <= self.steps) && individuals.iter().all(|&element| element < n))?;
        Ok(Interpretation { elements: n, names, links, individuals })
    }

    pub fn sheet_of(&self, world: &Interpretation) -> Vec<u8> {
        let ends = self.sheet_ends(world.elements);
        let mut bytes = self.sheet_head(world.elements).to_vec();
        for offset in [12, ends[0], ends[1]] {
            bytes.extend((offset as u16).to_be_bytes());
        }
        bytes.extend(world.names.concat());
        bytes.extend(world.links.concat().concat());
        bytes.extend(world.individuals.iter().map(|&element| element as u8));
        bytes
    }

    /// The survivors as an interpretation, one element for each, with the individuals as placed.
    pub fn model(&self, survivors: &Types, places: &[usize]) -> Interpretation {
        let rows = || survivors.values();
        let links = |role| rows().map(|from| rows().map(|to| self.link(role, from, to)).collect()).collect();
        let element = |place| survivors.keys().position(|candidate| candidate == place);
        Interpretation {
            elements: survivors.len(),
            names: rows().map(|row| self.names_in(row)).collect(),
            links: (0..self.roles() as u8).map(links).collect(),
            individuals: places.iter().map(|place| element(place).expect("placed at a survivor")).collect(),
        }
    }

    /// The grades of the names in a type, 0 for a name that no term uses.
    fn names_in(&self, row: &[Grade]) -> Vec<Grade> {
        let mut names = vec![0; self.names()];
        for (term, &grade) in self.terms.iter().zip(row) {
            if let Term::Name(name) = *term {
                names[usize::from(name)] = grade;
            }
        }
        names
    }

    /// Edition, N, n, A, R, I.
    fn sheet_head(&self, n: usize) -> [u8; 6] {
        [1, self.steps, n as u8, self.names() as u8, self.roles() as u8, self.individuals() as u8]
    }

    /// Where the bodies of names, links and individuals end.
    fn sheet_ends(&self, n: usize) -> Vec<usize> {
        ends(12, &[n * self.names(), self.roles() * n * n, self.individuals()])
    }
}
