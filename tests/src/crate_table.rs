//! The table of crates on the page about the layout: each by the first line of its source, in the layers of `crates.txt`.

use crate::crates::{Crate, Crates};
use std::fs;
use std::path::Path;

/// The page, and the heading under which the table ends it.
pub const PAGE: &str = "docs/LAYOUT.md";
const START: &str = "| layer | crate | what it holds |\n|---|---|---|\n";

/// The most letters that a description may have.
pub const LONGEST: usize = 150;

/// What the first line of a crate's source says, which is a remark.
pub fn description(root: &Path, name: &str) -> Result<String, String> {
    let folder = root.join("crates").join(name).join("src");
    let sources = ["lib.rt", "main.rt"].map(|file| fs::read_to_string(folder.join(file)));
    let source = sources.into_iter().find_map(Result::ok);
    let source = source.ok_or_else(|| format!("`{name}` has no source"))?;
    let first = source.lines().next().unwrap_or("");
    let text = first.strip_prefix("// ").map(str::trim);
    let text = text.ok_or_else(|| format!("`{name}` does not begin with a remark"))?;
    match complaint(text) {
        None => Ok(text.to_string()),
        Some(fault) => Err(format!("`{name}`: the first line {fault}: {text}")),
    }
}

/// What keeps a line from being a description by itself.
pub fn complaint(text: &str) -> Option<&'static str> {
    let starts = text.starts_with(|letter: char| letter.is_ascii_uppercase());
    match text {
        _ if !text.ends_with('.') || text.ends_with("..") => Some("does not end a sentence"),
        _ if !starts => Some("does not begin a sentence"),
        _ if text.chars().count() > LONGEST => Some("is too long"),
        _ if text.contains('|') => Some("has a bar"),
        _ => None,
    }
}

/// The table, made anew.
pub fn table(root: &Path) -> Result<String, String> {
    let crates = Crates::of_repository();
    let mut table = START.to_string();
    let mut last = None;
    for Crate { name, group, .. } in &crates.list {
        let layer = match *group {
            Some(group) if last != Some(group) => crates.groups[group].as_str(),
            _ => "",
        };
        last = *group;
        let said = description(root, name)?;
        let layer = format!("| {layer}").trim_end().to_string();
        table += &format!("{layer} | `{name}` | {} |\n", said.trim_end_matches('.'));
    }
    Ok(table)
}

/// A page with another table, or with one where it has none yet, at its end.
pub fn with_table(page: &str, table: &str) -> String {
    let before = page.find(START).map_or(page, |place| &page[..place]);
    format!("{before}{table}")
}
