//! Names of files in code on a page.

use super::Page;
use crate::statements::citations;

/// The endings by which a word without a folder is the name of a file.
pub const ENDINGS: [&str; 17] = [
    "md", "rt", "antt", "rs", "c", "h", "a", "job", "out", "trial", "edit", "toml", "txt", "pc",
    "py", "tsv", "patch",
];

/// What the tools write or install, and pages name.
const MADE: [&str; 11] = [
    "build",
    "build/network",
    "build/recover",
    "build/release/throughput",
    "target",
    "target/bin/print",
    "target/staticlib/libcapi.a",
    "bin/hanthuvelo",
    "bin/hanthuvelo-print",
    "lib/libhanthuvelo.a",
    "lib/pkgconfig/hanthuvelo.pc",
];

/// The folders at the repository's root.
const FOLDERS: [&str; 9] = [
    ".ci", "crates", "docs", "examples", "include", "rust", "scripts", "tests", "tools",
];

/// Whether a word can be the name of a file or a folder.
fn is_name(word: &str) -> bool {
    let is_of_name = |letter: char| letter.is_ascii_alphanumeric() || "_-./*".contains(letter);
    let is_below_root = !word.starts_with('/') && word.trim_matches('/') != "";
    is_below_root && word.chars().all(is_of_name) && !citations::is_citation(word)
}

/// Whether it has an ending that files have.
fn has_ending(word: &str) -> bool {
    let stem = word.rsplit_once('.');
    stem.is_some_and(|(stem, ending)| !stem.is_empty() && ENDINGS.contains(&ending))
}

/// Whether it begins with a folder of the repository.
fn has_folder(word: &str) -> bool {
    let start = word.trim_start_matches("./").split_once('/');
    start.is_some_and(|(folder, _)| FOLDERS.contains(&folder))
}

/// The words of code that are names by this test, each with its line.
fn names(code: Vec<(usize, &str)>, is_meant: impl Fn(&str) -> bool) -> Vec<(usize, String)> {
    let mut found = Vec::new();
    for (number, code) in code {
        let words = code.split_whitespace();
        let words = words.map(|word| word.trim_end_matches([',', ';', ':', '.', '`']));
        let names = words.filter(|word| is_name(word) && is_meant(word));
        found.extend(names.map(|name| (number, name.to_string())));
    }
    found
}

/// The files and folders that a page names, each with its line: in the text every path, in blocks, where fractions stand too, those
/// with a folder of the repository or an ending. A theorem, `crate/File.theorem`, is none of them.
pub fn named_files(page: &Page) -> Vec<(usize, String)> {
    let in_text = names(page.spans(), |word| word.contains('/') || has_ending(word));
    let in_blocks = names(page.blocks(), |word| has_folder(word) || has_ending(word));
    [in_text, in_blocks].concat()
}

/// Whether a path ends with a name, part by part; `*` in a part stands for any letters.
fn ends_with(path: &str, name: &str) -> bool {
    let (mut path, name) = (path.rsplit('/'), name.rsplit('/'));
    let fits = |part: &str, pattern: &str| match pattern.split_once('*') {
        Some((start, end)) => {
            part.len() >= start.len() + end.len() && part.starts_with(start) && part.ends_with(end)
        }
        None => part == pattern,
    };
    let mut name = name;
    name.all(|pattern| path.next().is_some_and(|part| fits(part, pattern)))
}

/// Whether a name, given from any folder on, leads to something in the tree or to something that is made.
pub fn is_there(name: &str, tree: &[String]) -> bool {
    let name = name.trim_end_matches('/').trim_start_matches("./");
    let name = name.trim_start_matches("../");
    MADE.contains(&name) || tree.iter().any(|path| ends_with(path, name))
}

/// The names on a page that lead nowhere.
pub fn lost_names(page: &Page, tree: &[String]) -> Vec<(usize, String)> {
    let names = named_files(page).into_iter();
    names.filter(|(_, name)| !is_there(name, tree)).collect()
}
