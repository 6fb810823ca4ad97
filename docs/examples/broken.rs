//! broken BOOK SHEET: every rule, pair and claim of a book that a sheet breaks, not only the first; docs/USING.md says how. Status 1 if there is one, or
//! if book or sheet is refused. As a program of cargo it needs the package rust/ as a dependency; docs/examples/run builds it by rustc.

use std::error::Error;
use std::process::ExitCode;
use std::slice::Chunks;
use zegbiko::{work_out, AT_LEAST, EACH_AT_LEAST, GRID};

fn word(bytes: &[u8], at: usize) -> usize {
    usize::from(bytes[at]) * 256 + usize::from(bytes[at + 1])
}

/// The records of a section, by its entry in the book's head and the size of a record.
fn records(book: &[u8], entry: usize, size: usize) -> Chunks<'_, u8> {
    book[word(book, entry)..][..size * word(book, entry + 2)].chunks(size)
}

/// What is broken, in the order in which working out looks at it.
fn broken(book: &[u8], sheet: &[u8]) -> Result<Vec<String>, zegbiko::Refusal> {
    let mut grid = [0; GRID];
    work_out(book, sheet, &mut grid)?; // so both are accepted, and the grid is filled
    let (terms, elements) = (word(book, 4), usize::from(sheet[2]));
    let (links, individuals) = (word(sheet, 8), word(sheet, 10));
    let grade_at = |element: usize, term: u8| grid[element * terms + usize::from(term)];
    let element_of = |individual: u8| usize::from(sheet[individuals + usize::from(individual)]);
    let link = |role: u8, from, to| sheet[links + (usize::from(role) * elements + from) * elements + to];

    let mut lines = Vec::new();
    for (number, rule) in records(book, 6, 2).enumerate() {
        for e in 0..elements {
            let (left, right) = (grade_at(e, rule[0]), grade_at(e, rule[1]));
            if left > right {
                lines.push(format!("rule {number} at element {e}: {left} above {right}"));
            }
        }
    }
    let pairs = if book[0] == 2 { records(book, 18, 2) } else { [].chunks(2) }; // edition 1 has no entry for them
    for (number, pair) in pairs.enumerate() {
        for (e, f) in (0..elements).flat_map(|e| (0..elements).map(move |f| (e, f))) {
            let (lower, upper) = (link(pair[0], e, f), link(pair[1], e, f));
            if lower > upper {
                lines.push(format!("pair {number} from element {e} to element {f}: {lower} above {upper}"));
            }
        }
    }
    for (number, claim) in records(book, 10, 4).enumerate() {
        let (first, term, sense, claimed) = (claim[0], claim[1], claim[2], claim[3]);
        let (set, at_least) = (sense >= EACH_AT_LEAST, [AT_LEAST, EACH_AT_LEAST].contains(&sense));
        for i in (0..8).filter(|&i| if set { first >> i & 1 == 1 } else { first == i }) {
            let is = grade_at(element_of(i), term);
            let (met, sense) = if at_least { (is >= claimed, "at least") } else { (is <= claimed, "at most") };
            let member = if set { format!(" at individual {i}") } else { String::new() };
            if !met {
                lines.push(format!("membership claim {number}{member}: {is}, claimed {sense} {claimed}"));
            }
        }
    }
    for (number, claim) in records(book, 14, 4).enumerate() {
        let (is, claimed) = (link(claim[0], element_of(claim[1]), element_of(claim[2])), claim[3]);
        if is < claimed {
            lines.push(format!("link claim {number}: {is}, claimed at least {claimed}"));
        }
    }
    Ok(lines)
}

fn main() -> Result<ExitCode, Box<dyn Error>> {
    let files: Vec<String> = std::env::args().skip(1).collect();
    let [book, sheet] = &files[..] else { return Err("name a book and a sheet".into()) };
    match broken(&std::fs::read(book)?, &std::fs::read(sheet)?) {
        Err(refusal) => println!("{refusal}"),
        Ok(lines) if lines.is_empty() => {
            println!("meets");
            return Ok(ExitCode::SUCCESS);
        }
        Ok(lines) => println!("{}", lines.join("\n")),
    }
    Ok(ExitCode::FAILURE)
}
