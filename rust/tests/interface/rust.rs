//! The wrapper, and the exports: Rattle writes signatures and structs as Rust does.

use super::{behind, entries, function_line, inside, struct_line, struct_name, tokens, Lines, Typed};

pub fn wrapper_calls(text: &str) -> Lines {
    let tokens = tokens(text);
    let declared = behind(&tokens, &["extern", "\"C\""]).flat_map(|rest| functions(inside(rest), &["pub", "fn"]));
    declared.chain(structs(&tokens)).collect()
}

pub fn export_calls(text: &str) -> Lines {
    let tokens = tokens(text);
    let marker = "# [ unsafe ( no_mangle ) ] pub extern \"C\" fn";
    let exported = functions(&tokens, &marker.split(' ').collect::<Vec<_>>());
    exported.into_iter().chain(structs(&tokens)).collect()
}

/// Constants, and the numbered cases of the enums, by the names that the header gives them.
pub fn constants(text: &str) -> Lines {
    let tokens = tokens(text);
    let constants = behind(&tokens, &["pub", "const"]).filter(|rest| rest[1] == ":");
    let value = |rest: &[String]| rest[1 + rest.iter().position(|token| token == "=").expect("a value")].clone();
    let mut lines: Lines = constants.map(|rest| format!("{} = {}", rest[0], value(rest))).collect();
    for (prefix, pattern) in [("REFUSED_", "refusals !"), ("", "pub enum Outcome"), ("", "pub enum Verdict")] {
        for rest in behind(&tokens, &pattern.split(' ').collect::<Vec<_>>()) {
            lines.extend(numbered(inside(rest)).map(|(case, number)| format!("{prefix}{} = {number}", upper(case))));
        }
    }
    lines
}

/// The refusals with their questions: `number "question"`.
pub fn questions(text: &str) -> Lines {
    refusals(text, |question, _| question)
}

/// The refusals with their statements, likewise.
pub fn statements(text: &str) -> Lines {
    refusals(text, |_, statement| statement)
}

fn refusals(text: &str, words: for<'a> fn(&'a str, &'a str) -> &'a str) -> Lines {
    let tokens = tokens(text);
    let refusals = behind(&tokens, &["refusals", "!"]).flat_map(|rest| entries(inside(rest), ";"));
    let lines = refusals.filter_map(|entry| match entry {
        [_, _, number, _, question, _, statement] => Some(format!("{number} {}", words(question, statement))),
        _ => None,
    });
    lines.collect()
}

fn functions(tokens: &[String], marker: &[&str]) -> Vec<String> {
    let functions = behind(tokens, marker).map(|rest| {
        let list = inside(rest);
        let parameters: Vec<Typed> = entries(list, ",").flat_map(typed).collect();
        let [dash, arrow, result, ..] = &rest[list.len() + 3..] else { panic!("{} ends early", rest[0]) };
        assert_eq!([dash, arrow], ["-", ">"], "{} has a result", rest[0]);
        function_line(&rest[0], &parameters, &struct_name(result))
    });
    functions.collect()
}

fn structs(tokens: &[String]) -> Vec<String> {
    let line = |rest: &[String]| {
        let fields: Vec<Typed> = entries(inside(rest), ",").flat_map(|field| typed(&field[1..])).collect();
        struct_line(&struct_name(&rest[0]), &fields)
    };
    let markers = ["# [ repr ( C ) ] pub struct", "# [ repr ( C ) ] # [ derive ( Clone , Copy ) ] pub struct"];
    let markers = markers.map(|marker| marker.split(' ').collect::<Vec<_>>());
    markers.iter().flat_map(|marker| behind(tokens, marker).map(line)).collect()
}

/// A field or parameter. A slice is two for C, pointer and length. The exports say `b`, since `book` is a crate there.
fn typed(tokens: &[String]) -> Vec<Typed> {
    let name = if tokens[0] == "b" { "book" } else { tokens[0].as_str() };
    let slice = |pointer: &str| vec![(name.into(), pointer.into()), (format!("{name}_length"), "usize".into())];
    match tokens[2..].join(" ").as_str() {
        "& [ u8 ]" => slice("*const u8"),
        "& mut [ u8 ]" => slice("*mut u8"),
        "* const u8" => vec![(name.into(), "*const u8".into())],
        "* mut u8" => vec![(name.into(), "*mut u8".into())],
        other => vec![(name.into(), other.into())],
    }
}

/// The cases of an enum with their numbers; a case may have fields.
fn numbered(block: &[String]) -> impl Iterator<Item = (&str, &str)> {
    (0..block.len()).filter(|&i| block[i] == "=").map(|i| {
        let fields = if block[i - 1] == "}" { block[..i].iter().rposition(|token| token == "{") } else { None };
        (block[fields.unwrap_or(i) - 1].as_str(), block[i + 1].as_str())
    })
}

/// `BookLength` as `BOOK_LENGTH`.
fn upper(case: &str) -> String {
    let letter = |(i, letter): (usize, char)| {
        let gap = if i > 0 && letter.is_uppercase() { "_" } else { "" };
        format!("{gap}{}", letter.to_ascii_uppercase())
    };
    case.chars().enumerate().map(letter).collect()
}
