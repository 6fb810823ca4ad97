//! A proved checker for graded rule books: knowledge bases in the description logic fuzzy ALC on a chain of N steps.
//!
//! This crate is the safe side of `include/zegbiko.h`. `docs/USING.md` of the repository describes books and sheets byte by
//! byte, and has recipes; `docs/NUMBERS.md` says which call asks what, in which order, and what usually causes a refusal.
//!
//! Every call takes a book's bytes as they come and checks them first: bad input is refused with a [`Refusal`], and nothing
//! is asked of the caller. A refusal changes no buffer, but for 17 to 19, which come after deciding. Buffers of [`MARKS`],
//! [`PLACEMENT`], [`TABLE`], [`SHEET`] and [`GRID`] bytes suffice for every book.
//!
//! A book of edition 2 may rank roles: an interpretation meets a pair of a lower and an upper role when the lower role's
//! link never exceeds the upper's. Only interpretations that meet every pair count, in every answer.
//!
//! A membership claim is about one individual ([`AT_LEAST`], [`AT_MOST`]) or about a set of them ([`EACH_AT_LEAST`],
//! [`EACH_AT_MOST`]), and then says of each member what a claim on that one would say: outcome, list, placement and written
//! sheet are the same. The empty set claims nothing.
//!
//! A name may stand in several terms, as in a book pasted from fragments. They have one grade, at every element and in every
//! candidate, and add no candidates; two equal "some" or "all" terms do.
//!
//! No call keeps anything for a later one, so all may be made from several threads at once. None uses the heap, but for
//! [`Decision::of`] and [`ImpliedRules::of`]. [`decide`], [`write_sheet`] and [`implied_rules`] need some 1.2 MB of stack: a
//! thread with Rust's default of 2 MB suffices, one of 1 MB does not. The others need a few KB. Deciding most books takes
//! some 20 to 75 µs, but placing individuals is exponential at worst, and nothing stops it: decide books of strangers in a
//! process with a limit of time. [`implied_rules`] places nobody.
//!
//! The library is `target/staticlib/libzegbiko.a` of the repository, which `./build library` makes, or the one in the
//! folder that `ZEGBIKO_LIB_DIR` names when this crate is built; a relative name is meant from the folder in which cargo is
//! called. x86-64 Linux.
//!
//! The book printed in the specification grades A and "not A" alike, on two steps, and claims A at least 1 of individual 0:
//!
//! ```
//! use zegbiko::{Outcome, Verdict};
//!
//! let book = [
//!     1, 2, 0, 18, 0, 2, 0, 24, 0, 2, 0, 28, 0, 1, 0, 32, 0, 0, // edition, N, then offset and count of each section
//!     0, 0, 0, 1, 0, 0, // terms: 0 is the name A, 1 is "not A"
//!     0, 1, 1, 0, // rules: A is not greater than "not A", and "not A" not greater than A
//!     0, 0, 0, 1, // membership claim: individual 0, A, at least, grade 1
//! ];
//! let mut marks = [0; zegbiko::MARKS];
//! let mut placement = [0; zegbiko::PLACEMENT];
//! let decided = zegbiko::decide(&book, &mut marks, &mut placement)?;
//! assert_eq!(decided.outcome, Outcome::HoldsTogether);
//! assert_eq!(decided.survivors, 1);
//! assert_eq!(marks[..3], [0, 1, 0]); // of the candidates 0, 1 and 2 only 1 survives,
//! assert_eq!(placement[..2], [0, 1]); // and individual 0 is placed there
//! assert_eq!(zegbiko::grade(&book, 1, 0), Ok(1));
//!
//! let decision = zegbiko::Decision::of(&book)?; // the same, with buffers of its own
//! assert!(decision.listed().eq([1]) && decision.placed().eq([1]));
//!
//! let mut table = [0; zegbiko::TABLE];
//! assert_eq!(zegbiko::implied_rules(&book, &mut marks, &mut table), Ok(1));
//! assert_eq!(table[..4], [1, 1, 1, 1]); // each of the two terms bounds itself and the other,
//! assert!(zegbiko::ImpliedRules::of(&book)?.agree(0, 1)); // so they are graded alike
//!
//! let mut sheet = [0; zegbiko::SHEET];
//! let length = zegbiko::write_sheet(&book, &mut marks, &mut placement, &mut sheet)?;
//! let mut grid = [0; zegbiko::GRID];
//! assert_eq!(zegbiko::work_out(&book, &sheet[..length], &mut grid), Ok(Verdict::Meets));
//! assert_eq!(grid[..2], [1, 1]); // the grades of A and "not A" at the model's one element
//! # Ok::<(), zegbiko::Refusal>(())
//! ```

use std::error::Error;
use std::fmt;

/// The version, of header, wrapper and manual page alike; `docs/USING.md`, "Versions", says what it promises.
pub const VERSION: &str = "1.4.0";
/// The bytes of the shortest book; of edition 2 it has 22.
pub const BOOK_LEAST: usize = 18;
/// The bytes of the longest book, which is of edition 2; of edition 1 it has 850.
pub const BOOK_MOST: usize = 982;
/// A marks buffer that suffices for every book; [`count`] says how many bytes a book needs.
pub const MARKS: usize = 16384;
/// The placement buffer: two bytes for each of 8 individuals, asked for with fewer too.
pub const PLACEMENT: usize = 16;
/// A sheet buffer that suffices for every sheet: 12 + 64 * 16 + 8 * 64 * 64 + 8.
pub const SHEET: usize = 33812;
/// A grid buffer that suffices for every sheet: 64 elements times 64 terms.
pub const GRID: usize = 4096;
/// A table buffer that suffices for every book: 64 terms times 64.
pub const TABLE: usize = 4096;
/// The most elements of a sheet.
pub const ELEMENTS: usize = 64;

/// The kind of a term that is a name.
pub const KIND_NAME: u8 = 0;
/// The kind of "not".
pub const KIND_NOT: u8 = 1;
/// The kind of "and".
pub const KIND_AND: u8 = 2;
/// The kind of "or".
pub const KIND_OR: u8 = 3;
/// The kind of "some".
pub const KIND_SOME: u8 = 4;
/// The kind of "all".
pub const KIND_ALL: u8 = 5;
/// The kind of top.
pub const KIND_TOP: u8 = 6;
/// The kind of bottom.
pub const KIND_BOTTOM: u8 = 7;
/// The sense "at least" of a membership claim on one individual, which the claim's first byte names.
pub const AT_LEAST: u8 = 0;
/// The sense "at most" of a membership claim on one individual.
pub const AT_MOST: u8 = 1;
/// The sense "at least" of a membership claim on a set, whose members each have to meet it: the claim's first byte has bit
/// i set for individual i.
pub const EACH_AT_LEAST: u8 = 2;
/// The sense "at most" of a membership claim on a set.
pub const EACH_AT_MOST: u8 = 3;

macro_rules! refusals {
    ($($name:ident = $number:literal, $question:literal, $statement:literal;)*) => {
        /// The first check that said no, with its number; `docs/NUMBERS.md` says which call asks what, when, and what
        /// usually causes a refusal.
        #[derive(Clone, Copy, Debug, PartialEq, Eq, PartialOrd, Ord, Hash)]
        #[repr(u8)]
        #[non_exhaustive]
        pub enum Refusal {
            $(#[doc = $statement] $name = $number,)*
        }

        impl Refusal {
            /// The check, as a question.
            pub const fn question(self) -> &'static str {
                match self {
                    $(Refusal::$name => $question,)*
                }
            }

            /// What is wrong, as a statement.
            pub const fn statement(self) -> &'static str {
                match self {
                    $(Refusal::$name => $statement,)*
                }
            }

            /// The refusal with this number, if there is one.
            pub const fn numbered(number: u8) -> Option<Refusal> {
                match number {
                    $($number => Some(Refusal::$name),)*
                    _ => None,
                }
            }
        }
    };
}

refusals! {
    BookLength = 1,
        "is the book 22 to 982 bytes long when byte 0 is 2, and else 18 to 850?",
        "the book is not 18 to 850 bytes long, or, where byte 0 is 2, not 22 to 982";
    Edition = 2,
        "is byte 0 equal to 1 or 2?",
        "the edition, byte 0, is not 1 or 2";
    Steps = 3,
        "is N 1 to 8?",
        "N, byte 1, is not 1 to 8";
    Counts = 4,
        "is each count at most 64?",
        "a count of terms, rules, claims or pairs is above 64";
    Layout = 5,
        "do the offsets and the length agree with the layout?",
        "an offset or the length disagrees with the layout";
    Terms = 6,
        "is every term as described?",
        "a term has a kind above 7, an operand out of range or an unused byte other than 0";
    Rules = 7,
        "does every rule name two terms?",
        "a rule names a term that the book does not have";
    MembershipClaims = 8,
        "is every membership claim within its ranges, grade at most N?",
        "a membership claim is out of range, or its grade is above N";
    LinkClaims = 9,
        "is every link claim within its ranges, grade at most N?",
        "a link claim is out of range, or its grade is above N";
    Candidates = 10,
        "are there at most 16,384 candidates?",
        "there are more than 16,384 candidates";
    Marks = 11,
        "has the marks buffer a byte for each candidate?",
        "the marks buffer has fewer bytes than there are candidates";
    Placement = 12,
        "has the placement buffer 16 bytes?",
        "the placement buffer has fewer than 16 bytes";
    SheetHead = 13,
        "has the sheet 12 bytes or more, byte 0 equal to 1, the book's N, n of 1 to 64, and the book's A, R, I?",
        "the sheet has fewer than 12 bytes, byte 0 is not 1, n is not 1 to 64, or N, A, R or I are not the book's";
    SheetLayout = 14,
        "do the sheet's three offsets and its length agree with the layout?",
        "an offset or the length of the sheet disagrees with the layout";
    SheetEntries = 15,
        "is every grade at most N, and every individual's element below n?",
        "a grade on the sheet is above N, or an individual's element is not below n";
    Grid = 16,
        "has the grid buffer n times the term count?",
        "the grid buffer has fewer bytes than n times the term count";
    Outcome = 17,
        "is the outcome 1?",
        "the outcome is not 1: rules and claims do not hold together";
    Survivors = 18,
        "are there at most 64 survivors?",
        "there are more than 64 survivors";
    SheetBuffer = 19,
        "is the sheet buffer long enough?",
        "the sheet buffer is too short for the sheet";
    Candidate = 20,
        "is each candidate number below the count?",
        "a candidate number is not below the number of candidates";
    TermOrRole = 21,
        "is the term, or the role (0 to 7), in range?",
        "the term is not one of the book's, or the role is above 7";
    Pairs = 22,
        "does every pair name two roles of 0 to 7?",
        "a pair names a role above 7";
    Table = 23,
        "has the table buffer the square of the term count?",
        "the table buffer has fewer bytes than the square of the term count";
}

impl Refusal {
    /// The number of the check, 1 to 23. All calls ask 22 straight after 9, and [`implied_rules`] asks 23 straight after 11.
    pub const fn number(self) -> u8 {
        self as u8
    }

    /// What a call's `refusal` field says: 0 is an answer.
    fn unless_answered(number: u8) -> Result<(), Refusal> {
        match number {
            0 => Ok(()),
            _ => Err(Refusal::numbered(number).expect("a refusal is 1 to 23")),
        }
    }
}

impl fmt::Display for Refusal {
    fn fmt(&self, f: &mut fmt::Formatter) -> fmt::Result {
        write!(f, "refused {}: {}", self.number(), self.statement())
    }
}

impl Error for Refusal {}

/// What deciding finds. A model is an interpretation that meets every pair of the book.
#[derive(Clone, Copy, Debug, PartialEq, Eq, Hash)]
#[repr(u8)]
#[non_exhaustive]
pub enum Outcome {
    /// Some model meets rules and claims.
    HoldsTogether = 1,
    /// The rules have a model, but none meets the claims.
    ClaimsFail = 2,
    /// The rules have no model.
    NoModel = 3,
}

impl fmt::Display for Outcome {
    fn fmt(&self, f: &mut fmt::Formatter) -> fmt::Result {
        f.write_str(match self {
            Outcome::HoldsTogether => "rules and claims hold together",
            Outcome::ClaimsFail => "the rules have a model, but none meets the claims",
            Outcome::NoModel => "the rules have no model",
        })
    }
}

/// The answer of [`decide`].
#[derive(Clone, Copy, Debug, PartialEq, Eq, Hash)]
#[non_exhaustive]
pub struct Decided {
    pub outcome: Outcome,
    /// How many candidates are marked 1.
    pub survivors: usize,
}

/// What deciding finds of a book, kept: the answer of [`decide`], its list and its placement as numbers.
#[derive(Clone, PartialEq, Eq, Hash)]
pub struct Decision {
    decided: Decided,
    marks: Vec<u8>,
    placement: [u8; PLACEMENT],
}

impl Decision {
    /// Decides a book, with buffers of its own: refused with 1 to 9, 22 or 10, or decided.
    ///
    /// Needs the stack that [`decide`] needs, and a byte of the heap for each candidate.
    pub fn of(book: &[u8]) -> Result<Decision, Refusal> {
        // A candidate's number is below 16,384, so no individual's bytes are these.
        let mut placement = [0xFF; PLACEMENT];
        let mut marks = vec![0; count(book)?];
        let decided = decide(book, &mut marks, &mut placement)?;
        Ok(Decision { decided, marks, placement })
    }

    pub fn outcome(&self) -> Outcome {
        self.decided.outcome
    }

    /// How many candidates survive.
    pub fn survivors(&self) -> usize {
        self.decided.survivors
    }

    /// Does this candidate survive?
    pub fn lists(&self, candidate: usize) -> bool {
        self.marks.get(candidate) == Some(&1)
    }

    /// The candidates that survive, ascending: exactly the types that can occur in a model of the rules.
    pub fn listed(&self) -> impl DoubleEndedIterator<Item = usize> + '_ {
        (0..self.marks.len()).filter(|&candidate| self.lists(candidate))
    }

    /// The candidate at which each individual is placed, individual 0 first; empty but for [`Outcome::HoldsTogether`].
    pub fn placed(&self) -> impl DoubleEndedIterator<Item = usize> + ExactSizeIterator + '_ {
        let seat = |two: &[u8]| usize::from(two[0]) * 256 + usize::from(two[1]);
        let individuals = self.placement.chunks(2).take_while(|two| seat(two) < MARKS).count();
        self.placement[..2 * individuals].chunks(2).map(seat)
    }
}

impl fmt::Debug for Decision {
    fn fmt(&self, f: &mut fmt::Formatter) -> fmt::Result {
        let placed: Vec<usize> = self.placed().collect();
        let mut fields = f.debug_struct("Decision");
        fields.field("outcome", &self.outcome()).field("survivors", &self.survivors()).field("placed", &placed).finish()
    }
}

/// Which term bounds which wherever a book's rules and pairs are met, kept: the answer of [`implied_rules`] and its table.
/// Claims play no part in it.
#[derive(Clone, PartialEq, Eq, Hash)]
pub struct ImpliedRules {
    survivors: usize,
    terms: usize,
    /// A byte for each ordered pair of terms, row by row.
    table: Vec<u8>,
}

impl ImpliedRules {
    /// Works out the table of a book, with buffers of its own: refused with 1 to 9, 22 or 10, or worked out.
    ///
    /// Needs the stack that [`implied_rules`] needs, and of the heap a byte for each candidate and each pair of terms.
    pub fn of(book: &[u8]) -> Result<ImpliedRules, Refusal> {
        let mut marks = vec![0; count(book)?];
        // The book is accepted, so it has a head, and the count of its terms stands there.
        let terms = usize::from(book[4]) * 256 + usize::from(book[5]);
        let mut table = vec![0; terms * terms];
        let survivors = implied_rules(book, &mut marks, &mut table)?;
        Ok(ImpliedRules { survivors, terms, table })
    }

    /// How many candidates survive. Where none does, no interpretation meets the rules, and every rule is implied.
    pub fn survivors(&self) -> usize {
        self.survivors
    }

    /// How many terms the book has; they are numbered from 0.
    pub fn terms(&self) -> usize {
        self.terms
    }

    /// Is the left term nowhere graded above the right one, wherever rules and pairs are met? False if either number is no
    /// term's.
    pub fn implies(&self, left: usize, right: usize) -> bool {
        left < self.terms && right < self.terms && self.table[left * self.terms + right] == 1
    }

    /// Are the two terms graded alike everywhere, wherever rules and pairs are met: does each bound the other? False if
    /// either number is no term's.
    pub fn agree(&self, left: usize, right: usize) -> bool {
        self.implies(left, right) && self.implies(right, left)
    }

    /// The implied rules as pairs of left and right term, row by row, those of a term with itself too.
    pub fn rules(&self) -> impl DoubleEndedIterator<Item = (usize, usize)> + '_ {
        let implied = (0..self.table.len()).filter(|&at| self.table[at] == 1);
        implied.map(|at| (at / self.terms, at % self.terms))
    }
}

impl fmt::Debug for ImpliedRules {
    fn fmt(&self, f: &mut fmt::Formatter) -> fmt::Result {
        let rules: Vec<(usize, usize)> = self.rules().collect();
        let mut fields = f.debug_struct("ImpliedRules");
        fields.field("survivors", &self.survivors).field("terms", &self.terms).field("rules", &rules).finish()
    }
}

/// The answer of [`work_out`]. Rules are looked at first, then pairs, membership claims and link claims. All of these and
/// elements are numbered from 0.
#[derive(Clone, Copy, Debug, PartialEq, Eq, Hash)]
#[repr(u8)]
#[non_exhaustive]
pub enum Verdict {
    /// Every rule, pair and claim is met.
    Meets = 0,
    /// The first rule broken, and the lowest element at which it is.
    BreaksRule { rule: usize, element: usize } = 1,
    /// No rule is broken; the first pair broken, the lowest element from which a link breaks it, and then the lowest to
    /// which one from there does.
    BreaksPair { pair: usize, first: usize, second: usize } = 4,
    /// No rule and no pair is broken; the first membership claim broken, one on a set by whichever member.
    BreaksMembership { claim: usize } = 2,
    /// Nor is one of these; the first link claim broken.
    BreaksLink { claim: usize } = 3,
}

impl fmt::Display for Verdict {
    fn fmt(&self, f: &mut fmt::Formatter) -> fmt::Result {
        match self {
            Verdict::Meets => write!(f, "meets"),
            Verdict::BreaksRule { rule, element } => write!(f, "breaks rule {rule} at element {element}"),
            Verdict::BreaksPair { pair, first, second } => {
                write!(f, "breaks pair {pair} from element {first} to element {second}")
            }
            Verdict::BreaksMembership { claim } => write!(f, "breaks membership claim {claim}"),
            Verdict::BreaksLink { claim } => write!(f, "breaks link claim {claim}"),
        }
    }
}

/// Checks a book: refused with 1 to 9 or 22, or accepted.
pub fn check(book: &[u8]) -> Result<(), Refusal> {
    // SAFETY: as for every call below, a slice's pointer is not null and valid for its length, and a mutable slice
    // overlaps no other.
    let refusal = unsafe { raw::zegbiko_check(book.as_ptr(), book.len()) };
    Refusal::unless_answered(refusal)
}

/// Counts the candidates of a book; refused with 1 to 9, 22 and 10.
pub fn count(book: &[u8]) -> Result<usize, Refusal> {
    // SAFETY: see `check`.
    let counted = unsafe { raw::zegbiko_count(book.as_ptr(), book.len()) };
    Refusal::unless_answered(counted.refusal)?;
    Ok(counted.candidates as usize)
}

/// Decides a book by type elimination; refused with 1 to 9, 22 and 10 to 12.
///
/// Byte c of `marks` is set to 1 if candidate c survives, else to 0; bytes past the number of candidates are kept. For
/// [`Outcome::HoldsTogether`] two bytes of `placement` for each individual, the high byte first, are set to the
/// candidate at which it is placed; the bytes past them are kept, and for the other outcomes all of them.
///
/// Needs some 1.2 MB of stack; a thread of Rust's default size has it. Nothing stops a placing that takes long.
pub fn decide(book: &[u8], marks: &mut [u8], placement: &mut [u8]) -> Result<Decided, Refusal> {
    // SAFETY: see `check`.
    let decided = unsafe {
        raw::zegbiko_decide(
            book.as_ptr(),
            book.len(),
            marks.as_mut_ptr(),
            marks.len(),
            placement.as_mut_ptr(),
            placement.len(),
        )
    };
    Refusal::unless_answered(decided.refusal)?;
    let outcome = match decided.outcome {
        1 => Outcome::HoldsTogether,
        2 => Outcome::ClaimsFail,
        3 => Outcome::NoModel,
        other => unreachable!("outcome {other}"),
    };
    Ok(Decided { outcome, survivors: decided.survivors })
}

/// Fills the table of implied rules of a book, and gives the number of survivors; refused with 1 to 9, 22, 10, 11 and 23.
///
/// `marks` are set, and kept past the number of candidates, as by [`decide`]. With T terms, byte left * T + right of
/// `table` is set to 1 if the left term is nowhere graded above the right one in any finite interpretation that meets the
/// rules and pairs, else to 0; the bytes past the first T * T are kept. Without survivors all bytes are 1. Claims play no
/// part in answer and bytes.
///
/// So each term bounds itself, what bounds a bound of a term bounds the term, and a rule of the book has its byte 1. Where a
/// byte is 0, some candidate that is marked 1 shows it: its [`grade`] of the left term exceeds that of the right one.
///
/// Needs some 1.2 MB of stack; a thread of Rust's default size has it. [`ImpliedRules::of`] has buffers of its own.
pub fn implied_rules(book: &[u8], marks: &mut [u8], table: &mut [u8]) -> Result<usize, Refusal> {
    // SAFETY: see `check`.
    let implied = unsafe {
        raw::zegbiko_implied_rules(
            book.as_ptr(),
            book.len(),
            marks.as_mut_ptr(),
            marks.len(),
            table.as_mut_ptr(),
            table.len(),
        )
    };
    Refusal::unless_answered(implied.refusal)?;
    Ok(implied.survivors)
}

/// Decides a book as [`decide`] does, `marks` and `placement` likewise, then writes the sheet of its model and gives the
/// sheet's length; refused with 1 to 9, 22, 10 to 12 and, after deciding, 17 to 19.
///
/// The model's elements are the survivors, ascending, with the individuals as placed. The bytes of `sheet` past the sheet
/// are kept, and on a refusal all of them; a refusal with 17 to 19 leaves `marks` and `placement` as decided.
///
/// Needs some 1.2 MB of stack; a thread of Rust's default size has it.
pub fn write_sheet(book: &[u8], marks: &mut [u8], placement: &mut [u8], sheet: &mut [u8]) -> Result<usize, Refusal> {
    // SAFETY: see `check`.
    let written = unsafe {
        raw::zegbiko_write_sheet(
            book.as_ptr(),
            book.len(),
            marks.as_mut_ptr(),
            marks.len(),
            placement.as_mut_ptr(),
            placement.len(),
            sheet.as_mut_ptr(),
            sheet.len(),
        )
    };
    Refusal::unless_answered(written.refusal)?;
    Ok(written.length)
}

/// Works out a sheet on a book: whether it meets the rules, pairs and claims, or which is broken first; refused with 1 to
/// 9, 22 and 13 to 16.
///
/// The first n times the term count bytes of `grid` are set, element by element, to the grades of all terms; the bytes
/// past them are kept.
pub fn work_out(book: &[u8], sheet: &[u8], grid: &mut [u8]) -> Result<Verdict, Refusal> {
    // SAFETY: see `check`.
    let worked = unsafe {
        raw::zegbiko_work_out(book.as_ptr(), book.len(), sheet.as_ptr(), sheet.len(), grid.as_mut_ptr(), grid.len())
    };
    Refusal::unless_answered(worked.refusal)?;
    Ok(match worked.verdict {
        0 => Verdict::Meets,
        1 => Verdict::BreaksRule { rule: worked.number, element: worked.element },
        2 => Verdict::BreaksMembership { claim: worked.number },
        3 => Verdict::BreaksLink { claim: worked.number },
        4 => Verdict::BreaksPair { pair: worked.number, first: worked.element, second: worked.second },
        other => unreachable!("verdict {other}"),
    })
}

/// The grade of a term in a candidate; refused with 1 to 9, 22, 10, 20 and 21.
///
/// A candidate gives each term a grade. Its places are each name, at the first term that has it, and each "some" or "all"
/// term (the kinds 4 and 5). The grades of the places, in the terms' order, are the digits of the candidate's number in base
/// N + 1, lowest first. A later term of a name has the name's grade; the grades of the other terms follow from their
/// children's.
pub fn grade(book: &[u8], candidate: usize, term: usize) -> Result<u8, Refusal> {
    // SAFETY: see `check`.
    let graded = unsafe { raw::zegbiko_grade(book.as_ptr(), book.len(), candidate, term) };
    Refusal::unless_answered(graded.refusal)?;
    Ok(graded.grade)
}

/// The link from one candidate to another for a role: the strongest that their grades and the pairs allow; refused with 1
/// to 9, 22, 10, 20 and 21.
///
/// It is the least of the role's own bound and those of all roles above it: the upper roles of its pairs, theirs, and so
/// on. A role's bound is the greatest r of 0 to N such that
///
/// - for each "all" term of the role, max(N − r, the child's grade in `to`) is at least the term's grade in `from`, and
/// - for each "some" term of the role, min(r, the child's grade in `to`) is at most the term's grade in `from`,
///
/// and N where no term has the role. In a book without pairs no role is above another, so the link is the role's own bound.
/// No interpretation that meets the pairs has a stronger link between elements of these two types, and these links meet the
/// pairs.
///
/// With the link r for the term's own role, `to` is a *witness* of a quantified term in `from` when the term takes just
/// its grade from it: "all" when max(N − r, the child's grade in `to`) equals the term's grade in `from`, "some" when min(r,
/// the child's grade in `to`) does. A link of 0 can do that too. Each quantified term of a survivor has a witness among the
/// survivors. Take survivors, at least one, such that each quantified term of each has a witness among them: with these
/// links they are an interpretation that meets the rules and pairs, and in which each has its grades. `docs/USING.md` makes
/// a sheet of such survivors ("A model that fits on a sheet").
pub fn link(book: &[u8], role: u8, from: usize, to: usize) -> Result<u8, Refusal> {
    // SAFETY: see `check`.
    let graded = unsafe { raw::zegbiko_link(book.as_ptr(), book.len(), role, from, to) };
    Refusal::unless_answered(graded.refusal)?;
    Ok(graded.grade)
}

/// The calls of `include/zegbiko.h` as they are.
///
/// In each answer `refusal` is 0 if the call is answered; else it is a refusal number, and every other field is 0.
///
/// # Safety
///
/// Each pointer must be valid for the length given with it and not null, also where the length is 0, and a buffer that a
/// call writes must overlap no other buffer of that call.
pub mod raw {
    #[derive(Clone, Copy, Debug)]
    #[repr(C)]
    pub struct Counted {
        pub refusal: u8,
        pub candidates: u64,
    }

    #[derive(Clone, Copy, Debug)]
    #[repr(C)]
    pub struct Decided {
        pub refusal: u8,
        pub outcome: u8,
        pub survivors: usize,
    }

    #[derive(Clone, Copy, Debug)]
    #[repr(C)]
    pub struct Implied {
        pub refusal: u8,
        pub survivors: usize,
    }

    #[derive(Clone, Copy, Debug)]
    #[repr(C)]
    pub struct Written {
        pub refusal: u8,
        pub length: usize,
    }

    #[derive(Clone, Copy, Debug)]
    #[repr(C)]
    pub struct Worked {
        pub refusal: u8,
        pub verdict: u8,
        pub number: usize,
        pub element: usize,
        pub second: usize,
    }

    #[derive(Clone, Copy, Debug)]
    #[repr(C)]
    pub struct Graded {
        pub refusal: u8,
        pub grade: u8,
    }

    extern "C" {
        pub fn zegbiko_check(book: *const u8, book_length: usize) -> u8;
        pub fn zegbiko_count(book: *const u8, book_length: usize) -> Counted;
        pub fn zegbiko_decide(
            book: *const u8,
            book_length: usize,
            marks: *mut u8,
            marks_length: usize,
            placement: *mut u8,
            placement_length: usize,
        ) -> Decided;
        pub fn zegbiko_implied_rules(
            book: *const u8,
            book_length: usize,
            marks: *mut u8,
            marks_length: usize,
            table: *mut u8,
            table_length: usize,
        ) -> Implied;
        pub fn zegbiko_write_sheet(
            book: *const u8,
            book_length: usize,
            marks: *mut u8,
            marks_length: usize,
            placement: *mut u8,
            placement_length: usize,
            sheet: *mut u8,
            sheet_length: usize,
        ) -> Written;
        pub fn zegbiko_work_out(
            book: *const u8,
            book_length: usize,
            sheet: *const u8,
            sheet_length: usize,
            grid: *mut u8,
            grid_length: usize,
        ) -> Worked;
        pub fn zegbiko_grade(book: *const u8, book_length: usize, candidate: usize, term: usize) -> Graded;
        pub fn zegbiko_link(book: *const u8, book_length: usize, role: u8, from: usize, to: usize) -> Graded;
    }
}
