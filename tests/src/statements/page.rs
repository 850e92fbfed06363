//! The page: its blocks, each with the file that it names, and the entries of its key.

use super::{antt, source, Item};
use crate::pages::tables::cells;
use std::collections::BTreeSet;
use std::fs;
use std::path::Path;

const FENCE: &str = "```";

/// A fenced block. The line above it ends with the file's path in backticks and a colon.
pub struct Block {
    pub file: Option<String>,
    pub items: Vec<Item>,
    /// The lines between the fences, counted from 0; the end is not one of them.
    pub lines: (usize, usize),
}

pub struct Page {
    pub blocks: Vec<Block>,
    /// Every word in the code of the first column of the key's table.
    pub key: BTreeSet<String>,
}

/// The items of a file or of a block that names it.
pub fn items_of(file: &str, text: &str) -> Vec<Item> {
    if file.ends_with(".rt") {
        source::items(text)
    } else {
        antt::items(text)
    }
}

impl Page {
    pub fn parse(text: &str) -> Page {
        let lines: Vec<&str> = text.lines().collect();
        let fences: Vec<usize> = (0..lines.len())
            .filter(|&index| lines[index].starts_with(FENCE))
            .collect();
        let block = |pair: &[usize]| {
            let start = pair[0] + 1;
            let end = pair.get(1).copied().unwrap_or(lines.len());
            let above = lines[..pair[0]]
                .iter()
                .rev()
                .find(|line| !line.trim().is_empty());
            let file = above.and_then(|line| named_file(line));
            let items = items_of(file.as_deref().unwrap_or(""), &lines[start..end].join("\n"));
            let lines = (start, end);
            Block { file, items, lines }
        };
        let blocks = fences.chunks(2).map(block).collect();
        let key = key_words(&lines);
        Page { blocks, key }
    }

    pub fn has(&self, file: &str, name: &str) -> bool {
        let of_file = |block: &&Block| block.file.as_deref() == Some(file);
        let mut blocks = self.blocks.iter().filter(of_file);
        blocks.any(|block| block.items.iter().any(|item| item.name == name))
    }

    /// Blocks without a file, files that are not there, definitions that differ or stand twice.
    pub fn complaints(&self, root: &Path) -> Vec<String> {
        let mut found = Vec::new();
        let mut seen = BTreeSet::new();
        for block in &self.blocks {
            let place = format!("the block at line {}", block.lines.0);
            let Some(file) = &block.file else {
                found.push(format!("{place} names no file"));
                continue;
            };
            let Ok(text) = fs::read_to_string(root.join(file)) else {
                found.push(format!("{place} names {file}, which cannot be read"));
                continue;
            };
            if block.items.is_empty() {
                found.push(format!("{place} has no definition"));
            }
            let items = items_of(file, &text);
            for item in &block.items {
                let name = &item.name;
                match items.iter().find(|other| other.name == *name) {
                    None => found.push(format!(
                        "{file}: `{name}` is on the page and not in the file"
                    )),
                    Some(other) if other.text != item.text => {
                        found.push(format!("{file}: `{name}` differs from the page"));
                    }
                    Some(_) => {}
                }
                if !seen.insert((file.clone(), name.clone())) {
                    found.push(format!("{file}: `{name}` is on the page twice"));
                }
            }
        }
        found
    }

    /// The page with the text of every definition as its file has it.
    pub fn refreshed(&self, root: &Path, text: &str) -> String {
        let lines: Vec<&str> = text.lines().collect();
        let mut result: Vec<String> = Vec::new();
        let mut next = 0;
        for block in &self.blocks {
            let (start, end) = block.lines;
            result.extend(lines[next..start].iter().map(|line| line.to_string()));
            let file = block.file.clone().unwrap_or_default();
            let in_file = fs::read_to_string(root.join(&file)).unwrap_or_default();
            let items = items_of(&file, &in_file);
            let current = |item: &Item| {
                let found = items.iter().find(|other| other.name == item.name);
                found.unwrap_or(item).text.clone()
            };
            let texts: Vec<String> = block.items.iter().map(current).collect();
            result.push(texts.join("\n\n"));
            next = end;
        }
        result.extend(lines[next..].iter().map(|line| line.to_string()));
        result.join("\n") + "\n"
    }
}

/// The path in the last backticks of a line that ends with a colon.
fn named_file(line: &str) -> Option<String> {
    let line = line.trim_end().strip_suffix("`:")?;
    let path = &line[line.rfind('`')? + 1..];
    Some(path.to_string())
}

/// The words in the code of the first column, in the section whose heading has the word "notation".
fn key_words(lines: &[&str]) -> BTreeSet<String> {
    let mut inside = false;
    let mut words = BTreeSet::new();
    for line in lines {
        if line.starts_with('#') {
            inside = line.to_lowercase().contains("notation");
        }
        let cells = cells(line);
        if !inside || cells.len() < 2 || cells[1].is_empty() {
            continue;
        }
        for code in cells[0].split('`').skip(1).step_by(2) {
            words.extend(antt::tokens(code).into_iter().map(|token| token.text));
            words.extend(source::words(code));
        }
    }
    words
}
