//! The header.

use super::{behind, entries, function_line, inside, struct_line, struct_name, tokens, Lines, Typed};

pub fn calls(header: &str) -> Lines {
    let code = code(header);
    let opened = (0..code.len()).filter(|&i| code[i] == "(");
    let functions = opened.map(|i| {
        let parameters: Vec<Typed> = entries(inside(&code[i..]), ",").map(typed).collect();
        function_line(&code[i - 1], &parameters, &rust_type(&code[i - 2..i - 1]))
    });
    functions.chain(structs(header).iter().map(|(name, fields)| struct_line(name, fields))).collect()
}

pub fn structs(header: &str) -> Vec<(String, Vec<Typed>)> {
    let code = code(header);
    let structs = behind(&code, &["typedef", "struct"]).map(|rest| {
        let fields = inside(rest);
        (struct_name(&rest[fields.len() + 2]), entries(fields, ";").map(typed).collect())
    });
    structs.collect()
}

pub fn constants(header: &str) -> Lines {
    let defined = header.lines().filter_map(|line| line.strip_prefix("#define ZEGBIKO_"));
    let constants = defined.filter_map(|line| match line.split_whitespace().collect::<Vec<_>>()[..] {
        [name, number, ..] => Some(format!("{name} = {number}")),
        _ => None,
    });
    constants.collect()
}

/// The tokens without directives, without the brackets that only C++ sees, and without functions that the header has whole.
fn code(header: &str) -> Vec<String> {
    let mut whole = false;
    let for_c = |line: &&str| {
        let inside = whole || line.starts_with("static inline ");
        whole = inside && *line != "}";
        !inside && !line.starts_with('#') && *line != "extern \"C\" {" && *line != "}"
    };
    tokens(&header.lines().filter(for_c).collect::<Vec<_>>().join("\n"))
}

fn typed(tokens: &[String]) -> Typed {
    let (name, c_type) = tokens.split_last().expect("a name");
    (name.clone(), rust_type(c_type))
}

fn rust_type(c_type: &[String]) -> String {
    match c_type.join(" ").as_str() {
        "const uint8_t *" => "*const u8".into(),
        "uint8_t *" => "*mut u8".into(),
        "uint8_t" => "u8".into(),
        "uint64_t" => "u64".into(),
        "size_t" => "usize".into(),
        other => struct_name(other),
    }
}
