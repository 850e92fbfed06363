//! From the contracts down to the library: every definition that a demand rests on.

use super::antt::{self, Import};
use super::source::{self, Use};
use super::{Item, ROOTS};
use std::collections::{BTreeMap, BTreeSet};
use std::fs;
use std::path::{Path, PathBuf};

/// A file's path from the repository's root, and the name of one of its items.
pub type Place = (String, String);

#[derive(Default)]
struct File {
    items: Vec<Item>,
    imports: Vec<Import>,
    uses: Vec<Use>,
}

/// What a name stands for.
enum Meaning {
    Definition(Place),
    /// A name of the toolchain's library.
    Library,
    Unknown,
}

/// What was met on the way.
#[derive(Default)]
pub struct Walk {
    root: PathBuf,
    files: BTreeMap<String, File>,
    pub definitions: BTreeMap<Place, String>,
    /// Names that the key has to explain, each with the first definition that uses it.
    pub key: BTreeMap<String, String>,
    pub complaints: Vec<String>,
}

impl Walk {
    /// From all contracts.
    pub fn of(root: &Path) -> Walk {
        Walk::from_contracts(root, &ROOTS)
    }

    /// From these contracts, each a function in the sources of its crate.
    pub fn from_contracts(root: &Path, contracts: &[(&str, &str)]) -> Walk {
        let root = root.to_path_buf();
        let mut walk = Walk {
            root,
            ..Walk::default()
        };
        let mut open: Vec<Place> = Vec::new();
        for (name, function) in contracts {
            match walk.in_sources(name, function) {
                Some(place) => open.push(place),
                None => walk.complaints.push(format!(
                    "crates/{name}/src: there is no function `{function}`"
                )),
            }
        }
        while let Some(place) = open.pop() {
            if !walk.definitions.contains_key(&place) {
                open.extend(walk.enter(place));
            }
        }
        walk
    }

    /// Takes a definition in and returns what it uses.
    fn enter(&mut self, place: Place) -> Vec<Place> {
        let (path, name) = &place;
        self.load(path);
        let item = self.files[path]
            .items
            .iter()
            .find(|item| item.name == *name)
            .cloned();
        let Some(item) = item else {
            self.complaints
                .push(format!("{path}: there is no definition `{name}`"));
            return Vec::new();
        };
        self.definitions.insert(place.clone(), item.text.clone());
        if path.ends_with(".rt") {
            self.follow_source(path, &item)
        } else {
            self.follow(path, &item, &BTreeSet::new())
        }
    }

    /// Every word of a definition: one of the file's or an import, or bound there, or left to the key.
    fn follow(&mut self, path: &str, item: &Item, outside: &BTreeSet<String>) -> Vec<Place> {
        let bound = antt::bound_names(item);
        let mut found = Vec::new();
        for token in item.text.lines().flat_map(antt::tokens) {
            let word = &token.text;
            let number = word.starts_with(|first: char| first.is_ascii_digit());
            if token.projected || antt::is_mark(&token) || number || word == "_" {
                continue;
            }
            match self.meaning(path, word) {
                Meaning::Definition(place) => found.push(place),
                Meaning::Unknown if bound.contains(word) || outside.contains(word) => {}
                _ => self.note(word, &item.name),
            }
        }
        found
    }

    /// The types of a source's item, and the names of its contract.
    fn follow_source(&mut self, path: &str, item: &Item) -> Vec<Place> {
        let (head, contract) = source::parts(item);
        let words = source::words(&head);
        let mut found = Vec::new();
        for word in &words {
            if source::WORDS.contains(&word.as_str()) {
                self.note(word, &item.name);
            }
            found.extend(self.type_named(path, word));
        }
        for clause in source::CLAUSES {
            if contract.contains(clause) {
                self.note(clause, &item.name);
            }
        }
        let text = source::facts(&contract);
        for token in text.lines().flat_map(antt::tokens) {
            if token.projected && source::MOMENTS.contains(&token.text.as_str()) {
                self.note(&token.text, &item.name);
            }
        }
        let name = item.name.clone();
        let parameters = words.into_iter().collect();
        found.extend(self.follow(path, &Item { name, text }, &parameters));
        found
    }

    fn note(&mut self, word: &str, user: &str) {
        let entry = self.key.entry(word.to_string());
        entry.or_insert_with(|| user.to_string());
    }

    fn load(&mut self, path: &str) {
        if self.files.contains_key(path) {
            return;
        }
        let text = fs::read_to_string(self.root.join(path)).unwrap_or_default();
        let file = if path.ends_with(".rt") {
            File {
                items: source::items(&text),
                imports: antt::imports(&text, "ghost use "),
                uses: source::uses(&text),
            }
        } else {
            File {
                items: antt::items(&text),
                imports: antt::imports(&text, "use "),
                uses: Vec::new(),
            }
        };
        self.files.insert(path.to_string(), file);
    }

    fn meaning(&mut self, path: &str, word: &str) -> Meaning {
        let file = &self.files[path];
        let own = file
            .items
            .iter()
            .find(|item| names(&item.name, word) || antt::has_case(item, word));
        if let (Some(item), false) = (own, path.ends_with(".rt")) {
            return Meaning::Definition((path.to_string(), item.name.clone()));
        }
        let import = file.imports.iter().find(|import| names(&import.name, word));
        match import.cloned() {
            Some(import) => self.imported(path, &import),
            None => Meaning::Unknown,
        }
    }

    fn imported(&mut self, path: &str, import: &Import) -> Meaning {
        let (name, module) = (&import.name, &import.module);
        let Some((owner, rest)) = module
            .strip_prefix("Rattle.")
            .and_then(|rest| rest.split_once('.'))
        else {
            return Meaning::Library;
        };
        if !self.root.join("crates").join(owner).is_dir() {
            return Meaning::Library;
        }
        let parts: Vec<&str> = rest.split('.').skip(1).collect();
        if parts.first() != Some(&"declared") {
            let file = format!("crates/{owner}/specs/{}.antt", parts.join("/"));
            return Meaning::Definition((file, name.clone()));
        }
        let type_name = parts.iter().rev().find(|part| **part != "TheVariants");
        match self.in_sources(owner, type_name.unwrap_or(&"")) {
            Some(place) => Meaning::Definition(place),
            None => {
                self.complaints.push(format!(
                    "{path}: `{module}` is no type of crates/{owner}/src"
                ));
                Meaning::Library
            }
        }
    }

    /// A type of the same crate, or one that the source uses of another.
    fn type_named(&mut self, path: &str, word: &str) -> Option<Place> {
        let uses = &self.files[path].uses;
        let other = uses
            .iter()
            .find(|used| used.name == word)
            .map(|used| used.from.clone());
        let own = path.split('/').nth(1).unwrap_or("").to_string();
        let owner = other.unwrap_or(own);
        if !word.starts_with(char::is_uppercase) {
            return None;
        }
        self.in_sources(&owner, word)
    }

    /// The item of that name in a crate's sources.
    fn in_sources(&mut self, owner: &str, name: &str) -> Option<Place> {
        let folder = format!("crates/{owner}/src");
        for path in sources(&self.root, &folder) {
            self.load(&path);
            if self.files[&path].items.iter().any(|item| item.name == name) {
                return Some((path, name.to_string()));
            }
        }
        None
    }
}

/// Whether the word is this name, or the visible part of an operator's, as `+` is of `◌+◌`.
fn names(name: &str, word: &str) -> bool {
    name == word || (name.contains('◌') && name.split('◌').any(|part| part == word))
}

fn sources(root: &Path, folder: &str) -> Vec<String> {
    let mut found = Vec::new();
    let Ok(entries) = fs::read_dir(root.join(folder)) else {
        return found;
    };
    for entry in entries.flatten() {
        let path = format!("{folder}/{}", entry.file_name().to_string_lossy());
        if entry.path().is_dir() {
            found.extend(sources(root, &path));
        } else if path.ends_with(".rt") {
            found.push(path);
        }
    }
    found.sort();
    found
}
