//! `docs/STATEMENTS.md` held against the definitions that it shows, and `docs/METHOD.md` against the theorems that it cites.
//!
//! The walk starts at the contracts of `ROOTS` and follows every name down to the toolchain's library. What it meets must stand on the
//! page as it stands in its file; names of the library, and symbols of the language, must stand in the page's key.

pub mod antt;
pub mod citations;
pub mod page;
pub mod source;
pub mod walk;

use page::Page;
use std::path::{Path, PathBuf};
use walk::Walk;

/// The functions whose contracts are the demands and the requests, each in the sources of its crate.
pub const ROOTS: [(&str, &str); 20] = [
    ("recovery", "recover"),
    ("enlargement", "recover_both"),
    ("capi", "hanthuvelo_recover"),
    ("trial", "trial"),
    ("trial_recovery", "write_and_recover"),
    ("capi", "hanthuvelo_trial"),
    ("reciprocal", "reciprocal"),
    ("capi", "hanthuvelo_reciprocal"),
    ("offered_answer", "judge"),
    ("judged_recovery", "recover_and_judge"),
    ("capi", "hanthuvelo_judge"),
    ("form_check", "check"),
    ("checked_recovery", "check_and_recover"),
    ("capi", "hanthuvelo_check"),
    ("either_header", "recover_either"),
    ("margin", "margin"),
    ("margin", "recover_with_margin"),
    ("capi", "hanthuvelo_margin"),
    ("read_u64", "read_u64"),
    ("read_u64", "part"),
];

/// Where the page stands in the repository.
pub const PAGE: &str = "docs/STATEMENTS.md";

/// A definition, a type, or a function with its contract: its name and its text without remarks.
#[derive(Clone, Debug, PartialEq, Eq)]
pub struct Item {
    pub name: String,
    pub text: String,
}

/// The repository that these tests stand in.
pub fn repository() -> PathBuf {
    PathBuf::from(concat!(env!("CARGO_MANIFEST_DIR"), "/.."))
}

/// Everything wrong with the page; nothing where it is right.
pub fn complaints(root: &Path, text: &str) -> Vec<String> {
    let walk = Walk::of(root);
    let page = Page::parse(text);
    let mut found = page.complaints(root);
    found.extend(walk.complaints.iter().cloned());
    for (file, name) in walk.definitions.keys() {
        if !page.has(file, name) {
            found.push(format!("{file}: `{name}` is not on the page"));
        }
    }
    for (name, user) in &walk.key {
        if !page.key.contains(name) {
            found.push(format!(
                "`{name}`, which `{user}` uses, is not in the page's key"
            ));
        }
    }
    found
}

/// The blocks that the page lacks, as they could be put in.
pub fn missing_blocks(root: &Path, text: &str) -> Vec<String> {
    let page = Page::parse(text);
    let walk = Walk::of(root);
    let lacking = walk.definitions.iter();
    lacking
        .filter(|((file, name), _)| !page.has(file, name))
        .map(|((file, _), text)| format!("`{file}`:\n\n```\n{text}\n```"))
        .collect()
}

/// What stands on the page and no demand rests on.
pub fn beyond_need(root: &Path, text: &str) -> Vec<String> {
    let walk = Walk::of(root);
    let page = Page::parse(text);
    let items = page.blocks.iter().flat_map(|block| {
        let file = block.file.clone().unwrap_or_default();
        block
            .items
            .iter()
            .map(move |item| (file.clone(), item.name.clone()))
    });
    items
        .filter(|key| !walk.definitions.contains_key(key))
        .map(|(file, name)| format!("{file}: `{name}`"))
        .collect()
}
