//! The pages of the repository, its files in Markdown: their examples, their links, and the files that they name.

pub mod examples;
pub mod links;
pub mod names;
pub mod tables;

use std::fs;
use std::path::Path;

/// What is made, and no part of the repository.
const MADE: [&str; 3] = [".git", "build", "target"];

/// A page: its path from the repository's root, and its text.
#[derive(Clone, Debug)]
pub struct Page {
    pub path: String,
    pub text: String,
}

impl Page {
    /// A page of a repository.
    pub fn read(root: &Path, path: &str) -> Page {
        let text = fs::read_to_string(root.join(path));
        Page {
            path: path.to_string(),
            text: text.unwrap_or_else(|error| panic!("{path}: {error}")),
        }
    }

    /// The lines outside of fences, each with its number from 1.
    fn unfenced(&self) -> Vec<(usize, &str)> {
        let mut is_fenced = false;
        let is_outside = |&(_, line): &(usize, &str)| {
            let is_fence = line.starts_with("```");
            is_fenced ^= is_fence;
            !is_fenced && !is_fence
        };
        let lines = self.text.lines().enumerate();
        let lines = lines.map(|(index, line)| (index + 1, line));
        lines.filter(is_outside).collect()
    }

    /// The lines that are no code, each with its number from 1.
    pub fn prose(&self) -> Vec<(usize, &str)> {
        let lines = self.unfenced().into_iter();
        lines
            .filter(|(_, line)| !line.starts_with("    "))
            .collect()
    }

    /// What stands between backticks, each with its line.
    pub fn spans<'a>(&'a self) -> Vec<(usize, &'a str)> {
        let lines = self.prose().into_iter();
        let spans = |(number, line): (usize, &'a str)| {
            let spans = line.split('`').skip(1).step_by(2);
            spans.map(move |span| (number, span)).collect::<Vec<_>>()
        };
        lines.flat_map(spans).collect()
    }

    /// The indented lines, each with its number.
    pub fn blocks<'a>(&'a self) -> Vec<(usize, &'a str)> {
        let lines = self.unfenced().into_iter();
        let code = |(number, line): (usize, &'a str)| Some((number, line.strip_prefix("    ")?));
        lines.filter_map(code).collect()
    }

    /// The headings, without their signs.
    pub fn headings(&self) -> Vec<&str> {
        let lines = self.prose().into_iter();
        let headings = lines.filter(|(_, line)| line.starts_with('#'));
        headings
            .map(|(_, line)| line.trim_start_matches('#').trim())
            .collect()
    }

    /// What stands under a heading of the second rank, up to the next one.
    pub fn section(&self, heading: &str) -> &str {
        let start = format!("\n## {heading}\n");
        let place = self.text.find(&start);
        let place = place.unwrap_or_else(|| panic!("{} has no `{heading}`", self.path));
        let rest = &self.text[place + start.len()..];
        rest.split("\n## ").next().unwrap_or(rest)
    }
}

/// Every file and folder of the repository, by its path from the root.
pub fn tree(root: &Path) -> Vec<String> {
    let mut found = Vec::new();
    let mut open = vec![String::new()];
    while let Some(folder) = open.pop() {
        let entries = fs::read_dir(root.join(&folder));
        for entry in entries.expect("a folder").flatten() {
            let name = entry.file_name().to_string_lossy().into_owned();
            if folder.is_empty() && MADE.contains(&name.as_str()) {
                continue;
            }
            let path = match folder.as_str() {
                "" => name,
                _ => format!("{folder}/{name}"),
            };
            if entry.path().is_dir() {
                open.push(path.clone());
            }
            found.push(path);
        }
    }
    found.sort();
    found
}

/// Every page of the repository.
pub fn pages(root: &Path) -> Vec<Page> {
    let paths = tree(root).into_iter();
    let pages = paths.filter(|path| path.ends_with(".md"));
    pages.map(|path| Page::read(root, &path)).collect()
}
