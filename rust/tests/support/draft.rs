//! A book before its bytes: the records of each section, right or wrong.

#[derive(Clone, Debug)]
pub struct Draft {
    pub steps: u8,
    pub terms: Vec<[u8; 3]>,
    pub rules: Vec<[u8; 2]>,
    pub memberships: Vec<[u8; 4]>,
    pub links: Vec<[u8; 4]>,
    /// Lower and upper role; of edition 1 a book has none, and no entry for them.
    pub pairs: Option<Vec<[u8; 2]>>,
}

pub const NAME: u8 = 0;
pub const NOT: u8 = 1;
pub const AND: u8 = 2;
pub const OR: u8 = 3;
pub const SOME: u8 = 4;
pub const ALL: u8 = 5;
pub const TOP: u8 = 6;
pub const BOTTOM: u8 = 7;

/// Senses about an individual.
pub const AT_LEAST: u8 = 0;
pub const AT_MOST: u8 = 1;
/// Senses about a set, bit i for individual i.
pub const EACH_AT_LEAST: u8 = 2;
pub const EACH_AT_MOST: u8 = 3;

impl Draft {
    pub fn new(steps: u8) -> Draft {
        Draft { steps, terms: Vec::new(), rules: Vec::new(), memberships: Vec::new(), links: Vec::new(), pairs: None }
    }

    /// The records of a book whose head agrees with its sections.
    pub fn of(book: &[u8]) -> Draft {
        Draft {
            steps: book[1],
            terms: records(book, 2),
            rules: records(book, 6),
            memberships: records(book, 10),
            links: records(book, 14),
            pairs: (book[0] == 2).then(|| records(book, 18)),
        }
    }

    /// Each claim on a set written out in its place: a single claim for each member, ascending.
    pub fn written_out(&self) -> Draft {
        let singles = |claim: &[u8; 4]| -> Vec<[u8; 4]> {
            if !is_set(claim) {
                return vec![*claim];
            }
            let [set, term, sense, grade] = *claim;
            let members = (0..8).filter(|individual| set & 1 << individual != 0);
            members.map(|individual| [individual, term, sense - EACH_AT_LEAST, grade]).collect()
        };
        Draft { memberships: self.memberships.iter().flat_map(singles).collect(), ..self.clone() }
    }

    /// Whether a name stands in several terms.
    pub fn recurs(&self) -> bool {
        (0..self.terms.len()).any(|number| self.repeats(number))
    }

    /// Whether a term has the name of an earlier one.
    pub fn repeats(&self, number: usize) -> bool {
        let term = self.terms[number];
        term[0] == NAME && self.terms[..number].contains(&term)
    }

    /// The book with each name in one term: those that repeat a name are left out, and the name's first term stands for them.
    pub fn names_once(&self) -> Draft {
        let numbers = self.numbers_once();
        let mut once = self.clone();
        once.renumber(|number, _| numbers[usize::from(number)]);
        let kept = (0..once.terms.len()).filter(|&number| !self.repeats(number));
        once.terms = kept.map(|number| once.terms[number]).collect();
        once
    }

    /// Of each term, the number of the one that stands for it there.
    pub fn numbers_once(&self) -> Vec<u8> {
        let (mut numbers, mut kept) = (Vec::new(), 0);
        for (number, term) in self.terms.iter().enumerate() {
            if self.repeats(number) {
                let first = self.terms.iter().position(|other| other == term).expect("an earlier term");
                numbers.push(numbers[first]);
            } else {
                numbers.push(kept);
                kept += 1;
            }
        }
        numbers
    }

    /// Replaces each number of a term, in terms, rules and membership claims. The second number handed on is the one that it
    /// has to stay below: of a child its term's own, else the number of terms.
    pub fn renumber(&mut self, mut new: impl FnMut(u8, usize) -> u8) {
        for (own, term) in self.terms.iter_mut().enumerate() {
            let children = match term[0] {
                NOT => 1..2,
                AND | OR => 1..3,
                SOME | ALL => 2..3,
                _ => continue,
            };
            term[children].iter_mut().for_each(|child| *child = new(*child, own));
        }
        let in_rules = self.rules.iter_mut().flatten();
        let in_claims = self.memberships.iter_mut().map(|claim| &mut claim[1]);
        in_rules.chain(in_claims).for_each(|number| *number = new(*number, self.terms.len()));
    }

    /// Puts in a term that has no child; the numbers of those behind it follow.
    pub fn insert(&mut self, at: usize, term: [u8; 3]) {
        self.renumber(|number, _| if usize::from(number) < at { number } else { number + 1 });
        self.terms.insert(at, term);
    }

    /// Puts another book's records behind these.
    pub fn paste(&mut self, mut other: Draft) {
        let before = self.terms.len() as u8;
        other.renumber(|number, _| before + number);
        self.terms.extend(other.terms);
        self.rules.extend(other.rules);
        self.memberships.extend(other.memberships);
        self.links.extend(other.links);
    }

    /// Adds a term and gives its number.
    pub fn term(&mut self, kind: u8, a: u8, b: u8) -> u8 {
        self.terms.push([kind, a, b]);
        (self.terms.len() - 1) as u8
    }

    /// The book with a head that agrees with its sections.
    pub fn bytes(&self) -> Vec<u8> {
        let mut sections = vec![
            (self.terms.len(), self.terms.concat()),
            (self.rules.len(), self.rules.concat()),
            (self.memberships.len(), self.memberships.concat()),
            (self.links.len(), self.links.concat()),
        ];
        let edition = if let Some(pairs) = &self.pairs {
            sections.push((pairs.len(), pairs.concat()));
            2
        } else {
            1
        };
        let mut bytes = vec![edition, self.steps];
        let mut offset = 2 + 4 * sections.len();
        for (count, body) in &sections {
            bytes.extend((offset as u16).to_be_bytes());
            bytes.extend((*count as u16).to_be_bytes());
            offset += body.len();
        }
        bytes.extend(sections.into_iter().flat_map(|(_, body)| body));
        bytes
    }
}

/// Whether a membership claim is on a set, by its sense.
pub fn is_set(claim: &[u8; 4]) -> bool {
    claim[2] >= EACH_AT_LEAST
}

/// The records of the section whose entry is here in the head.
fn records<const WIDTH: usize>(book: &[u8], entry: usize) -> Vec<[u8; WIDTH]> {
    let word = |at: usize| usize::from(book[at]) * 256 + usize::from(book[at + 1]);
    let body = &book[word(entry)..][..WIDTH * word(entry + 2)];
    body.chunks(WIDTH).map(|record| record.try_into().expect("a whole record")).collect()
}
