//! Tables on a page.

/// The cells of a table's line; `\|` stands for a bar inside one.
pub fn cells(line: &str) -> Vec<String> {
    const BAR: &str = "\u{1}";
    let Some(line) = line.strip_prefix('|') else {
        return Vec::new();
    };
    let line = line.replace("\\|", BAR);
    let line = line.trim_end();
    let cells = line.strip_suffix('|').unwrap_or(line).split('|');
    cells.map(|cell| cell.trim().replace(BAR, "|")).collect()
}

/// The rows of the first table whose first heading is this one, without its headings.
pub fn table(text: &str, heading: &str) -> Vec<Vec<String>> {
    let start = format!("| {heading} |");
    let lines = text.lines().skip_while(|line| !line.starts_with(&start));
    let rows = lines.skip(2).take_while(|line| line.starts_with('|'));
    rows.map(cells).collect()
}
