//! The interface as the header, the wrapper and the exports write it, read into lines of one form.

pub mod c;
pub mod rust;

use std::collections::BTreeSet;

/// What a text says: `name(parameter: type, ..) -> type`, `struct { field: type, .. }`, `CONSTANT = number`. Types are
/// Rust's, and a struct goes by the word that its three names share.
pub type Lines = BTreeSet<String>;

/// A parameter or field, with its type.
pub type Typed = (String, String);

/// Words, numbers, strings and single signs, without comments; of C, Rust and Rattle alike.
pub fn tokens(text: &str) -> Vec<String> {
    let is_word = |sign: char| sign.is_ascii_alphanumeric() || sign == '_';
    let is_comment = |text: &str| text.starts_with("//") || text.starts_with("/*");
    let mut tokens = Vec::new();
    let mut rest = text.trim_start();
    while let Some(first) = rest.chars().next() {
        let length = match first {
            '/' if rest.starts_with("//") => rest.find('\n').unwrap_or(rest.len()),
            '/' if rest.starts_with("/*") => rest.find("*/").expect("a comment ends") + 2,
            '"' => rest[1..].find('"').expect("a string ends") + 2,
            _ if is_word(first) => rest.find(|sign| !is_word(sign)).unwrap_or(rest.len()),
            _ => first.len_utf8(),
        };
        if !is_comment(rest) {
            tokens.push(rest[..length].to_string());
        }
        rest = rest[length..].trim_start();
    }
    tokens
}

/// What stands behind each occurrence of a pattern.
pub fn behind<'a>(tokens: &'a [String], pattern: &'a [&str]) -> impl Iterator<Item = &'a [String]> {
    let windows = tokens.windows(pattern.len()).enumerate();
    windows.filter(move |(_, window)| *window == pattern).map(move |(start, _)| &tokens[start + pattern.len()..])
}

/// What stands inside the first bracket, which is to be closed by its own kind.
pub fn inside(tokens: &[String]) -> &[String] {
    let open = tokens.iter().position(|token| token == "{" || token == "(").expect("a bracket opens");
    let close = if tokens[open] == "{" { "}" } else { ")" };
    let mut depth = 0;
    let length = tokens[open..].iter().position(|token| {
        depth += i32::from(*token == tokens[open]) - i32::from(token == close);
        depth == 0
    });
    &tokens[open + 1..open + length.expect("a bracket closes")]
}

/// The entries of a list, without the empty one behind its last separator.
pub fn entries<'a>(tokens: &'a [String], separator: &'a str) -> impl Iterator<Item = &'a [String]> {
    tokens.split(move |token| token == separator).filter(|entry| !entry.is_empty())
}

/// `zegbiko_counted` in the header, `Counted` in the wrapper, `CountedNumbers` in the exports.
pub fn struct_name(name: &str) -> String {
    name.trim_start_matches("zegbiko_").trim_end_matches("Numbers").to_lowercase()
}

pub fn struct_line(name: &str, fields: &[Typed]) -> String {
    format!("{name} {{ {} }}", list(fields))
}

pub fn function_line(name: &str, parameters: &[Typed], result: &str) -> String {
    format!("{name}({}) -> {result}", list(parameters))
}

fn list(typed: &[Typed]) -> String {
    typed.iter().map(|(name, kind)| format!("{name}: {kind}")).collect::<Vec<_>>().join(", ")
}
