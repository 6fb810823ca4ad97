//! "The book": bytes to plain values with checks 1 to 9 and 22, and the counts A, R and I.

use std::collections::BTreeSet;

use super::ask;

pub type Grade = u8;

#[derive(Clone, Copy)]
pub enum Term {
    Name(u8),
    Not(usize),
    And(usize, usize),
    Or(usize, usize),
    Some(u8, usize),
    All(u8, usize),
    Top,
    Bottom,
}

pub struct Rule {
    pub left: usize,
    pub right: usize,
}

pub enum Sense {
    AtLeast,
    AtMost,
}

/// "The claim holds when each member meets it." A claim about one individual has just that member.
pub struct Membership {
    pub members: BTreeSet<usize>,
    pub term: usize,
    pub sense: Sense,
    pub grade: Grade,
}

pub struct LinkClaim {
    pub role: u8,
    pub from: usize,
    pub to: usize,
    pub grade: Grade,
}

/// "An interpretation meets a pair when the lower role's link never exceeds the upper's."
pub struct Pair {
    pub lower: u8,
    pub upper: u8,
}

pub struct Book {
    pub steps: Grade,
    pub terms: Vec<Term>,
    pub rules: Vec<Rule>,
    pub memberships: Vec<Membership>,
    pub links: Vec<LinkClaim>,
    /// None in edition 1.
    pub pairs: Vec<Pair>,
    /// By role 0 to 7: itself and the roles reachable upward.
    pub upward: Vec<BTreeSet<u8>>,
}

impl Book {
    pub fn read(bytes: &[u8]) -> Result<Book, u8> {
        // "Check 1 reads 22 to 982 when byte 0 is 2, and check 2 admits 2."
        let edition = bytes.first().copied();
        let allowed = if edition == Some(2) { 22..=982 } else { 18..=850 };
        ask(1, allowed.contains(&bytes.len()))?;
        ask(2, edition == Some(1) || edition == Some(2))?;
        let steps = bytes[1];
        ask(3, (1..=8).contains(&steps))?;

        // "Edition 2 books have a fifth contents entry (head 22 bytes, at most 64 pairs .., body last)."
        let widths: &[usize] = if edition == Some(2) { &[3, 2, 4, 4, 2] } else { &[3, 2, 4, 4] };
        let head = 2 + 4 * widths.len();
        let (offsets, counts): (Vec<_>, Vec<_>) =
            bytes[2..head].chunks(4).map(|entry| (number(&entry[..2]), number(&entry[2..]))).unzip();
        ask(4, counts.iter().all(|&count| count <= 64))?;
        let lengths: Vec<usize> = widths.iter().zip(counts).map(|(width, count)| width * count).collect();
        let ends = ends(head, &lengths);
        let (end, starts) = ends.split_last().expect("a section");
        ask(5, offsets == [&[head], starts].concat() && bytes.len() == *end)?;
        let section = |i: usize| bytes[offsets[i]..ends[i]].chunks(widths[i]);

        let terms = section(0).enumerate().map(|(number, record)| term(number, record));
        let terms: Vec<Term> = terms.collect::<Option<_>>().ok_or(6)?;
        let rules = section(1).map(|record| rule(terms.len(), record));
        let rules = rules.collect::<Option<_>>().ok_or(7)?;
        let memberships = section(2).map(|record| membership(steps, terms.len(), record));
        let memberships = memberships.collect::<Option<_>>().ok_or(8)?;
        let links = section(3).map(|record| link_claim(steps, record));
        let links = links.collect::<Option<_>>().ok_or(9)?;
        // "22 when a pair names a role above 7, straight after 9, on every call on a book."
        let pairs: Option<Vec<Pair>> = (4..widths.len()).flat_map(section).map(pair).collect();
        let pairs = pairs.ok_or(22)?;
        let upward = (0..=7).map(|role| upward(role, &pairs)).collect();
        Ok(Book { steps, terms, rules, memberships, links, pairs, upward })
    }

    /// The name numbers in terms.
    pub fn distinct_names(&self) -> BTreeSet<u8> {
        let name = |term: &Term| if let Term::Name(name) = *term { Some(name) } else { None };
        self.terms.iter().filter_map(name).collect()
    }

    /// A: one more than the highest name number, or 0.
    pub fn names(&self) -> usize {
        one_more_than_highest(self.distinct_names().into_iter().map(usize::from))
    }

    /// R: one more than the highest role number in terms, claims and pairs, or 0.
    pub fn roles(&self) -> usize {
        let in_terms = self.terms.iter().filter_map(|term| match *term {
            Term::Some(role, _) | Term::All(role, _) => Some(role),
            _ => None,
        });
        let in_claims = self.links.iter().map(|claim| claim.role);
        let in_pairs = self.pairs.iter().flat_map(|pair| [pair.lower, pair.upper]);
        one_more_than_highest(in_terms.chain(in_claims).chain(in_pairs).map(usize::from))
    }

    /// I: one more than the highest individual claimed, or 0. "An empty set .. raises no individual count."
    pub fn individuals(&self) -> usize {
        let in_memberships = self.memberships.iter().flat_map(|claim| claim.members.iter().copied());
        let in_links = self.links.iter().flat_map(|claim| [claim.from, claim.to]);
        one_more_than_highest(in_memberships.chain(in_links))
    }
}

/// A number of two bytes, the high byte first.
pub fn number(bytes: &[u8]) -> usize {
    256 * usize::from(bytes[0]) + usize::from(bytes[1])
}

/// Where each body ends that follows another without a gap.
pub fn ends(start: usize, lengths: &[usize]) -> Vec<usize> {
    let add = |end: &mut usize, length: &usize| {
        *end += length;
        Some(*end)
    };
    lengths.iter().scan(start, add).collect()
}

fn term(number: usize, record: &[u8]) -> Option<Term> {
    let child = |byte: u8| Some(usize::from(byte)).filter(|&child| child < number);
    let role = |byte: u8| Some(byte).filter(|&role| role <= 7);
    match *record {
        [0, name, 0] if name <= 15 => Some(Term::Name(name)),
        [1, a, 0] => Some(Term::Not(child(a)?)),
        [2, a, b] => Some(Term::And(child(a)?, child(b)?)),
        [3, a, b] => Some(Term::Or(child(a)?, child(b)?)),
        [4, a, b] => Some(Term::Some(role(a)?, child(b)?)),
        [5, a, b] => Some(Term::All(role(a)?, child(b)?)),
        [6, 0, 0] => Some(Term::Top),
        [7, 0, 0] => Some(Term::Bottom),
        _ => None,
    }
}

fn rule(terms: usize, record: &[u8]) -> Option<Rule> {
    let (left, right) = (usize::from(record[0]), usize::from(record[1]));
    (left < terms && right < terms).then_some(Rule { left, right })
}

fn membership(steps: Grade, terms: usize, record: &[u8]) -> Option<Membership> {
    let (term, grade) = (usize::from(record[1]), record[3]);
    let (members, sense) = match record[2] {
        0 => (single(record[0])?, Sense::AtLeast),
        1 => (single(record[0])?, Sense::AtMost),
        2 => (set(record[0]), Sense::AtLeast),
        3 => (set(record[0]), Sense::AtMost),
        _ => return None,
    };
    (term < terms && grade <= steps).then_some(Membership { members, term, sense, grade })
}

fn single(individual: u8) -> Option<BTreeSet<usize>> {
    (individual <= 7).then(|| BTreeSet::from([usize::from(individual)]))
}

/// "The first byte has bit i set for individual i."
fn set(bits: u8) -> BTreeSet<usize> {
    (0..8).filter(|individual| bits >> individual & 1 == 1).collect()
}

fn link_claim(steps: Grade, record: &[u8]) -> Option<LinkClaim> {
    let (role, from, to, grade) = (record[0], usize::from(record[1]), usize::from(record[2]), record[3]);
    (role <= 7 && from <= 7 && to <= 7 && grade <= steps).then_some(LinkClaim { role, from, to, grade })
}

fn pair(record: &[u8]) -> Option<Pair> {
    let (lower, upper) = (record[0], record[1]);
    (lower <= 7 && upper <= 7).then_some(Pair { lower, upper })
}

/// A role and all that are reachable from it upward, by a search: each role met for the first time leads on to the upper
/// roles of its pairs. So circles end, and roles that no term uses lead on as the others do.
fn upward(role: u8, pairs: &[Pair]) -> BTreeSet<u8> {
    let (mut reached, mut ahead) = (BTreeSet::new(), vec![role]);
    while let Some(role) = ahead.pop() {
        if reached.insert(role) {
            ahead.extend(pairs.iter().filter(|pair| pair.lower == role).map(|pair| pair.upper));
        }
    }
    reached
}

fn one_more_than_highest(numbers: impl Iterator<Item = usize>) -> usize {
    numbers.max().map_or(0, |highest| highest + 1)
}
