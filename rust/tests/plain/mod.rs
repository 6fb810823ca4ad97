//! The specification (document 01, and P1, P2, P4 and P5 of document 02) once more, written from its text alone and the
//! obvious way: bytes are read into plain values, each sentence is a function, and speed is no aim but in placing. It is the
//! other side of the differential test and of the sweeps.
//!
//! A refusal is its number; `ask` is the rule "the first no gives the number".

pub mod book;
pub mod candidates;
pub mod elimination;
pub mod grades;
pub mod implied;
pub mod placement;
pub mod sheets;

use std::cell::OnceCell;

use book::Book;
use elimination::Eliminated;
use grades::Verdict;
use placement::Decision;

fn ask(number: u8, yes: bool) -> Result<(), u8> {
    if yes {
        Ok(())
    } else {
        Err(number)
    }
}

/// A book's bytes, read once, with the calls on them.
pub struct Plain {
    book: Result<Book, u8>,
    eliminated: OnceCell<Eliminated>,
    decision: OnceCell<Decision>,
}

impl Plain {
    pub fn open(bytes: &[u8]) -> Plain {
        Plain { book: Book::read(bytes), eliminated: OnceCell::new(), decision: OnceCell::new() }
    }

    /// The book, after checks 1 to 9 and 22.
    pub fn book(&self) -> Result<&Book, u8> {
        self.book.as_ref().map_err(|&number| number)
    }

    /// The number of candidates, after check 10 too.
    pub fn count(&self) -> Result<usize, u8> {
        self.book()?.candidates().ok_or(10)
    }

    /// What elimination leaves, after the same checks.
    pub fn eliminated(&self) -> Result<&Eliminated, u8> {
        self.count()?;
        let book = self.book()?;
        Ok(self.eliminated.get_or_init(|| book.eliminate()))
    }

    /// Outcome and placement, after the same checks.
    pub fn decision(&self) -> Result<&Decision, u8> {
        let (book, survivors) = (self.book()?, &self.eliminated()?.survivors);
        Ok(self.decision.get_or_init(|| book.place(survivors)))
    }

    /// The decision and the number of survivors.
    pub fn decide(&self, marks: &mut [u8], placement: &mut [u8]) -> Result<(&Decision, usize), u8> {
        let count = self.count()?;
        ask(11, marks.len() >= count)?;
        ask(12, placement.len() >= 16)?;
        let survivors = self.mark(&mut marks[..count])?;
        let decision = self.decision()?;
        if let Decision::HoldsTogether(places) = decision {
            for (bytes, &candidate) in placement.chunks_mut(2).zip(places) {
                bytes.copy_from_slice(&(candidate as u16).to_be_bytes());
            }
        }
        Ok((decision, survivors))
    }

    /// Sets a mark for each candidate, and gives the number of survivors.
    fn mark(&self, marks: &mut [u8]) -> Result<usize, u8> {
        let survivors = &self.eliminated()?.survivors;
        for (candidate, mark) in marks.iter_mut().enumerate() {
            *mark = u8::from(survivors.contains_key(&candidate));
        }
        Ok(survivors.len())
    }

    /// "A call without placement sets the marks, returns the survivor count and fills" the table. "23 when the table buffer
    /// is shorter than the square of the term count, after 11."
    pub fn implied_rules(&self, marks: &mut [u8], table: &mut [u8]) -> Result<usize, u8> {
        let (book, count) = (self.book()?, self.count()?);
        ask(11, marks.len() >= count)?;
        let cells = book.terms.len().pow(2);
        ask(23, table.len() >= cells)?;
        let survivors = self.mark(&mut marks[..count])?;
        table[..cells].copy_from_slice(&book.implied_rules(&self.eliminated()?.survivors));
        Ok(survivors)
    }

    pub fn write_sheet(&self, marks: &mut [u8], placement: &mut [u8], sheet: &mut [u8]) -> Result<usize, u8> {
        let (Decision::HoldsTogether(places), _) = self.decide(marks, placement)? else {
            return Err(17);
        };
        let survivors = &self.eliminated()?.survivors;
        ask(18, survivors.len() <= 64)?;
        let book = self.book()?;
        let written = book.sheet_of(&book.model(survivors, places));
        ask(19, sheet.len() >= written.len())?;
        sheet[..written.len()].copy_from_slice(&written);
        Ok(written.len())
    }

    pub fn work_out(&self, sheet: &[u8], grid: &mut [u8]) -> Result<Verdict, u8> {
        let book = self.book()?;
        let world = book.read_sheet(sheet)?;
        let rows = book.rows(&world);
        let cells = rows.concat();
        ask(16, grid.len() >= cells.len())?;
        grid[..cells.len()].copy_from_slice(&cells);
        Ok(book.verdict(&world, &rows))
    }

    pub fn grade(&self, candidate: usize, term: usize) -> Result<u8, u8> {
        let count = self.count()?;
        ask(20, candidate < count)?;
        let row = self.book()?.type_of(candidate);
        row.get(term).copied().ok_or(21)
    }

    pub fn link(&self, role: u8, from: usize, to: usize) -> Result<u8, u8> {
        let count = self.count()?;
        ask(20, from < count && to < count)?;
        ask(21, role <= 7)?;
        let book = self.book()?;
        Ok(book.link(role, &book.type_of(from), &book.type_of(to)))
    }
}
