//! The list of crates, `crates.txt`: what each crate uses, and the groups, each of which rests on those below it.

use crate::statements::repository;
use std::collections::BTreeSet;
use std::fs;

/// The most crates that there may be.
pub const MOST_CRATES: usize = 55;

/// A crate of the list.
#[derive(Debug)]
pub struct Crate {
    pub name: String,
    pub used: Vec<String>,
    /// The place of its group among all, from above; none where no group's name stands over it.
    pub group: Option<usize>,
}

/// The crates in the order of the list.
#[derive(Debug, Default)]
pub struct Crates {
    /// The groups' names, programs first.
    pub groups: Vec<String>,
    pub list: Vec<Crate>,
    /// Lines that are neither a crate's nor a remark.
    pub unread: Vec<String>,
}

/// The text of the repository's list.
pub fn crates_text() -> String {
    let path = repository().join("crates.txt");
    fs::read_to_string(path).expect("crates.txt")
}

impl Crates {
    /// The repository's crates.
    pub fn of_repository() -> Crates {
        Crates::parse(&crates_text())
    }

    /// The crates of a list. A remark that stands behind an empty line and directly before a crate names a group, which ends at
    /// the next empty line; so a remark of several lines names none.
    pub fn parse(text: &str) -> Crates {
        let lines: Vec<&str> = text.lines().map(str::trim).collect();
        let (mut crates, mut group) = (Crates::default(), None);
        for (place, line) in lines.iter().enumerate() {
            if line.is_empty() {
                group = None;
            } else if let Some(remark) = line.strip_prefix('#') {
                if names_a_group(&lines, place) {
                    group = Some(crates.groups.len());
                    crates.groups.push(remark.trim().to_string());
                }
            } else {
                match crate_of(line, group) {
                    Some(found) => crates.list.push(found),
                    None => crates.unread.push(line.to_string()),
                }
            }
        }
        crates
    }

    pub fn find(&self, name: &str) -> Option<&Crate> {
        self.list.iter().find(|each| each.name == name)
    }

    /// Those of these names that no crate has.
    pub fn unlisted<'a>(&self, names: &[&'a str]) -> Vec<&'a str> {
        let names = names.iter().copied();
        names.filter(|name| self.find(name).is_none()).collect()
    }

    /// All crates that one uses, and those that these use; also such as are not listed.
    pub fn below(&self, name: &str) -> BTreeSet<String> {
        assert!(self.find(name).is_some(), "there is no crate `{name}`");
        let mut found = BTreeSet::new();
        let mut open = vec![name];
        while let Some(next) = open.pop() {
            for used in self.find(next).iter().flat_map(|each| &each.used) {
                if found.insert(used.clone()) {
                    open.push(used);
                }
            }
        }
        found
    }

    /// What keeps the list from being one of layers: lines that are no crates, crates or groups that stand there twice, crates
    /// without a group, crates that use one of a group further up, and too many crates.
    pub fn layer_complaints(&self) -> Vec<String> {
        let unread = self.unread.iter();
        let unread = unread.map(|line| format!("`{line}` is no crate's line"));
        let names: Vec<&String> = self.list.iter().map(|each| &each.name).collect();
        let groups: Vec<&String> = self.groups.iter().collect();
        let repeated = repeated(&names).into_iter().chain(repeated(&groups));
        let repeated = repeated.map(|name| format!("`{name}` stands there twice"));
        let breaches = self.list.iter().flat_map(|each| self.breaches(each));
        let count = self.list.len();
        let many = (count > MOST_CRATES).then(|| format!("{count} crates, {MOST_CRATES} at most"));
        unread.chain(repeated).chain(breaches).chain(many).collect()
    }

    /// What a crate uses of groups further up; or that it has no group itself.
    fn breaches(&self, user: &Crate) -> Vec<String> {
        let Some(own) = user.group else {
            return vec![format!("`{}` stands in no group", user.name)];
        };
        let used = user.used.iter().filter_map(|name| self.find(name));
        let above = used.filter_map(|each| Some((each, each.group.filter(|group| *group < own)?)));
        above
            .map(|(each, group)| {
                format!(
                    "`{}` of the group `{}` uses `{}` of the group `{}`, which stands further up",
                    user.name, self.groups[own], each.name, self.groups[group]
                )
            })
            .collect()
    }
}

/// The names that stand in the list before.
fn repeated<'a>(names: &[&'a String]) -> Vec<&'a String> {
    let later = names.iter().enumerate();
    let later = later.filter(|(place, name)| names[..*place].contains(name));
    later.map(|(_, name)| *name).collect()
}

/// Whether the remark at this place names the group of the crates behind it.
fn names_a_group(lines: &[&str], place: usize) -> bool {
    let is_behind_empty = place > 0 && lines[place - 1].is_empty();
    let next = lines.get(place + 1);
    is_behind_empty && next.is_some_and(|next| crate_of(next, None).is_some())
}

/// The crate of a line `name: used ones`, or `name staticlib: used ones` for a static library, if it is one.
fn crate_of(line: &str, group: Option<usize>) -> Option<Crate> {
    let line = line.split('#').next().unwrap_or("");
    let (name, used) = line.split_once(':')?;
    let name = name.strip_suffix(" staticlib").unwrap_or(name);
    let used: Vec<String> = used.split_whitespace().map(str::to_string).collect();
    let is_crate = is_name(name) && used.iter().all(|each| is_name(each));
    is_crate.then(|| Crate {
        name: name.to_string(),
        used,
        group,
    })
}

fn is_name(word: &str) -> bool {
    let is_of_name = |letter: char| letter.is_ascii_lowercase() || letter.is_ascii_digit();
    !word.is_empty()
        && word
            .chars()
            .all(|letter| is_of_name(letter) || letter == '_')
}
