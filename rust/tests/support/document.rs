//! Tables and lists of the documents.

/// The cells of each row of the table with this head.
pub fn table_under(document: &str, head: &str) -> Vec<Vec<String>> {
    let lines = document.lines().skip_while(|line| *line != head).skip(2);
    let rows: Vec<Vec<String>> = lines.take_while(|line| line.starts_with('|')).map(cells).collect();
    assert!(!rows.is_empty(), "no table {head}");
    rows
}

fn cells(row: &str) -> Vec<String> {
    row.trim_matches('|').split('|').map(|cell| cell.trim().to_string()).collect()
}

/// The points of the list that follows a line which begins so.
pub fn bullets_under<'a>(document: &'a str, line_before: &str) -> Vec<&'a str> {
    let lines = document.lines().skip_while(|line| !line.starts_with(line_before));
    lines.skip_while(|line| !line.starts_with("- ")).map_while(|line| line.strip_prefix("- ")).collect()
}

/// What stands in the lines `**number: text**`.
pub fn numbered(document: &str) -> Vec<(u8, &str)> {
    let bold = document.lines().filter_map(|line| line.strip_prefix("**")?.strip_suffix("**")?.split_once(": "));
    bold.map(|(number, text)| (number.parse().expect("a number"), text)).collect()
}
