//! A recipe of `docs/USING.md` on many books: the program `model` makes a sheet for books whose survivors do not fit on one.
//! Each sheet has to meet its book.

#[allow(dead_code)]
mod generate;
#[allow(dead_code)]
mod plain;
#[allow(dead_code)]
mod support;

use std::fs;
use std::process::Command;

use generate::books;
use generate::random::Random;
use zegbiko::{Decision, Outcome};

const PROGRAM: &str = "../docs/examples/model.c";
const HARD: [&str; 2] = ["../bench/books.hex", "../bench/placing.hex"];
const SEEDED: usize = 1000;

fn compiled(source: &str) -> String {
    let program = format!("{}/model", env!("CARGO_TARGET_TMPDIR"));
    let mut compiler = Command::new("cc");
    compiler.args(["-O2", "-I../include", source, env!("ZEGBIKO_LIBRARY"), "-o", &program]);
    assert!(compiler.status().expect("a C compiler").success(), "{compiler:?}");
    program
}

/// How many elements the sheet has that the program makes; it has to meet the book.
fn elements(program: &str, book: &[u8]) -> usize {
    let file = format!("{program}.book");
    fs::write(&file, book).expect("a file");
    let output = Command::new(program).arg(&file).output().expect("a program");
    let lines = String::from_utf8(output.stdout).expect("text");
    assert!(lines.ends_with("\nmeets\n"), "{book:02X?}:\n{lines}");
    lines.lines().filter(|line| line.starts_with("element ")).count()
}

/// Does it hold together, with more than 64 types?
fn refused_18(book: &[u8]) -> bool {
    Decision::of(book).is_ok_and(|decision| decision.outcome() == Outcome::HoldsTogether && decision.survivors() > 64)
}

/// The benchmark's books with outcome 1.
fn hard() -> Vec<Vec<u8>> {
    let mut books = Vec::new();
    for file in HARD {
        let text = fs::read_to_string(file).expect(file);
        let mut meant = false;
        for line in text.lines().filter(|line| !line.is_empty() && !line.starts_with('#')) {
            match line.strip_prefix("book ") {
                Some(head) => meant = head.contains(" outcome 1 "),
                None if meant => books.push(bytes(line)),
                None => {}
            }
        }
    }
    books
}

fn bytes(hexadecimal: &str) -> Vec<u8> {
    hexadecimal.split_whitespace().map(|byte| u8::from_str_radix(byte, 16).expect("a byte")).collect()
}

#[test]
fn a_model_that_fits_on_a_sheet() {
    let program = compiled(PROGRAM);
    let most = |books: &mut dyn Iterator<Item = Vec<u8>>| {
        books.filter(|book| refused_18(book)).take(SEEDED).map(|book| elements(&program, &book)).max()
    };
    let seeded = most(&mut (0..).map(|case| books::any(&mut Random::of(1, case))));
    let ranked = most(&mut (0..).map(|case| books::ranked(&mut Random::of_edition_2(1, case))));
    let hard: Vec<usize> = hard().iter().map(|book| elements(&program, book)).collect();
    println!("{SEEDED} seeded books that are refused 18: {seeded:?} elements at most; of edition 2: {ranked:?}");
    println!("{} books of the benchmark: {:?} elements at most", hard.len(), hard.iter().max());
    assert_eq!((seeded, ranked, hard.iter().max()), (Some(5), Some(5), Some(&13)), "as docs/USING.md says");
}
