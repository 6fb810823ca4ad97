//! The interface is written three times: in the header, in the wrapper and in the exports. Here they are held against each
//! other, against the tables of refusals and against the manual page; then a program that includes the header is compiled as
//! C and as C++, and run.

#[path = "support/document.rs"]
#[allow(dead_code)]
mod document;
mod interface;

use std::fs;
use std::mem::{offset_of, size_of};
use std::process::Command;

use document::{numbered, table_under};
use interface::{c, rust, struct_name, Lines};
use zegbiko::raw;

const HEADER: &str = "../include/zegbiko.h";
const WRAPPER: &str = "src/lib.rs";
/// The calls, and the structs that they answer.
const EXPORTS: &str = "../crates/zegbiko/src/lib.rt";
const ANSWERS: &str = "../crates/numbers/src/lib.rt";
const NUMBERS: &str = "../docs/NUMBERS.md";
const MANUAL: &str = "../docs/decide.1";

fn read(path: &str) -> String {
    fs::read_to_string(path).unwrap_or_else(|error| panic!("{path}: {error}"))
}

fn agree(one: (&str, Lines), other: (&str, Lines)) {
    let mut differences = Vec::new();
    for ((name, lines), (_, others)) in [(&one, &other), (&other, &one)] {
        assert!(!lines.is_empty(), "nothing is found in {name}");
        differences.extend(lines.difference(others).map(|line| format!("only in {name}: {line}")));
    }
    assert!(differences.is_empty(), "\n{}", differences.join("\n"));
}

#[test]
fn calls_of_header_and_wrapper() {
    agree((HEADER, c::calls(&read(HEADER))), (WRAPPER, rust::wrapper_calls(&read(WRAPPER))));
}

#[test]
fn calls_of_header_and_exports() {
    let exports = read(EXPORTS) + &read(ANSWERS);
    agree((HEADER, c::calls(&read(HEADER))), (EXPORTS, rust::export_calls(&exports)));
}

#[test]
fn constants_of_header_and_wrapper() {
    agree((HEADER, c::constants(&read(HEADER))), (WRAPPER, rust::constants(&read(WRAPPER))));
}

/// The header has the version; the others repeat it.
#[test]
fn versions() {
    assert_eq!(zegbiko::VERSION, env!("CARGO_PKG_VERSION"), "that of Cargo.toml");
    let manual = read(MANUAL);
    let title = manual.lines().find(|line| line.starts_with(".TH ")).expect("a title");
    assert!(title.contains(&format!("\"Zegbiko {}\"", zegbiko::VERSION)), "{MANUAL}: {title}");
}

/// What the document explains in brackets is its own.
#[test]
fn questions_of_wrapper_and_document() {
    let rows = table_under(&read(NUMBERS), "| number | question | asked by | after |");
    let document = rows.iter().map(|row| without_brackets(&format!("{} \"{}\"", row[0], row[1])));
    let questions = rust::questions(&read(WRAPPER));
    assert_eq!(questions.len(), 23);
    agree((NUMBERS, document.collect()), (WRAPPER, questions.iter().map(|line| without_brackets(line)).collect()));
}

/// The texts of the header are held against the wrapper's below, where a program in C writes them.
#[test]
fn statements_of_wrapper_and_documents() {
    let statements = rust::statements(&read(WRAPPER));
    assert_eq!(statements.len(), 23);
    let document = read(NUMBERS);
    let written = numbered(&document).into_iter().map(|(number, text)| format!("{number} \"{text}\""));
    agree((NUMBERS, written.collect()), (WRAPPER, statements.clone()));

    let manual = read(MANUAL);
    let refusals =
        manual.lines().skip_while(|line| *line != ".SH REFUSALS").take_while(|line| *line != ".SH EXIT STATUS");
    let printed = refusals
        .filter_map(|line| line.trim_start().split_once("  "))
        .filter(|(number, _)| number.parse::<u8>().is_ok());
    let of_the_program = statements
        .into_iter()
        .filter(|line| line.split(' ').next().is_some_and(|n| n.parse::<u8>().is_ok_and(|n| n <= 10 || n == 22)));
    agree(
        (MANUAL, printed.map(|(number, text)| format!("{number} \"{text}\"")).collect()),
        (WRAPPER, of_the_program.collect()),
    );
}

fn without_brackets(line: &str) -> String {
    match (line.find(" ("), line.find(')')) {
        (Some(open), Some(close)) => line[..open].to_string() + &line[close + 1..],
        _ => line.to_string(),
    }
}

/// The header says what the library calls.
#[test]
fn what_the_library_needs() {
    let output = Command::new("nm").args(["-u", env!("ZEGBIKO_LIBRARY")]).output().expect("nm");
    let text = String::from_utf8(output.stdout).expect("text");
    let needs: Lines = text.lines().filter_map(|line| line.trim().strip_prefix("U ")).map(str::to_string).collect();
    assert_eq!(needs.iter().map(String::as_str).collect::<Vec<_>>(), ["memcpy", "memset"]);
    assert!(read(HEADER).replace("\n * ", " ").contains("It calls nothing but memset and memcpy."));
}

/// Sizes, offsets and texts in C and C++ are Rust's, and a call from there is answered.
#[test]
fn programs_in_c_and_cplusplus() {
    let mut expected = Vec::new();
    macro_rules! add {
        ($($name:ident { $($field:ident),* })*) => {$(
            let name = struct_name(stringify!($name));
            expected.push(format!("{name} {}", size_of::<raw::$name>()));
            $(expected.push(format!("{name}.{} {}", stringify!($field), offset_of!(raw::$name, $field)));)*
        )*};
    }
    add! {
        Counted { refusal, candidates }
        Decided { refusal, outcome, survivors }
        Implied { refusal, survivors }
        Written { refusal, length }
        Worked { refusal, verdict, number, element, second }
        Graded { refusal, grade }
    }

    expected.push("0 \"not refused\"".into());
    let statements = rust::statements(&read(WRAPPER));
    for number in 1..=23 {
        expected.push(statements.iter().find(|line| line.starts_with(&format!("{number} "))).expect("a text").clone());
    }
    expected.push("24 \"no refusal number\"".into());

    let mut program = String::from("#include <zegbiko.h>\n#include <stdio.h>\nint main(void) {\n");
    for (name, fields) in c::structs(&read(HEADER)) {
        program += &format!("printf(\"{name} %zu\\n\", sizeof(zegbiko_{name}));\n");
        for (field, _) in fields {
            program += &format!("printf(\"{name}.{field} %zu\\n\", offsetof(zegbiko_{name}, {field}));\n");
        }
    }
    program += "for (uint8_t i = 0; i < 25; i++) printf(\"%d \\\"%s\\\"\\n\", i, zegbiko_refusal_text(i));\n";
    program += "return zegbiko_check((const uint8_t *)\"\", 0) == ZEGBIKO_REFUSED_BOOK_LENGTH ? 0 : 1;\n}\n";

    for (language, standard) in [("c", "-std=c99"), ("c++", "-std=c++11")] {
        let program_path = format!("{}/layout-{language}", env!("CARGO_TARGET_TMPDIR"));
        let source_path = format!("{program_path}.{language}");
        fs::write(&source_path, &program).expect("a source file");
        let mut compiler = Command::new("cc");
        compiler.args(["-x", language, standard, "-Wall", "-Wextra", "-pedantic", "-Werror", "-I../include"]);
        compiler.args([&source_path, "-x", "none", env!("ZEGBIKO_LIBRARY"), "-o", &program_path]);
        assert!(compiler.status().expect("a C compiler").success(), "{compiler:?}");
        let run = Command::new(&program_path).output().expect("a program");
        assert!(run.status.success(), "in {language} a book of no bytes is not refused with 1");
        assert_eq!(String::from_utf8_lossy(&run.stdout).lines().collect::<Vec<_>>(), expected, "{language}");
    }
}
