//! Links from one page to another, and to places on it.

use super::Page;
use std::path::{Component, Path, PathBuf};

/// The targets of a page's links, `[words](target)`, each with its line.
pub fn links(page: &Page) -> Vec<(usize, String)> {
    let mut found = Vec::new();
    for (number, line) in page.prose() {
        // What stands in code is no link.
        let words: String = line.split('`').step_by(2).collect();
        let ends = words.split("](").skip(1);
        let targets = ends.filter_map(|rest| rest.split(')').next());
        found.extend(targets.map(|target| (number, target.to_string())));
    }
    found
}

/// The name by which a heading is linked to: small letters, digits and hyphens, a hyphen for each blank.
pub fn anchor(heading: &str) -> String {
    let letters = heading.chars().flat_map(char::to_lowercase);
    let kept = letters.filter(|letter| letter.is_alphanumeric() || " -_".contains(*letter));
    kept.collect::<String>().replace(' ', "-")
}

/// A path from the root, without `..`; none where it leads out of the repository.
fn plain(path: &Path) -> Option<String> {
    let mut parts: Vec<&str> = Vec::new();
    for part in path.components() {
        match part {
            Component::ParentDir => {
                parts.pop()?;
            }
            Component::Normal(name) => parts.push(name.to_str()?),
            Component::CurDir => {}
            _ => return None,
        }
    }
    Some(parts.join("/"))
}

/// What is wrong with the links of a page, beside the paths and the pages of its repository.
pub fn broken_links(page: &Page, tree: &[String], pages: &[Page]) -> Vec<String> {
    let folder = Path::new(&page.path).parent().map(PathBuf::from);
    let folder = folder.unwrap_or_default();
    let complaint = |(line, target): (usize, String)| {
        let (path, heading) = target.split_once('#').unwrap_or((&target, ""));
        let path = match path {
            "" => Some(page.path.clone()),
            _ => plain(&folder.join(path)),
        };
        let place = format!("{}, line {line}: {target}", page.path);
        let Some(path) = path.filter(|path| tree.contains(path)) else {
            return Some(format!("{place} is not there"));
        };
        let other = pages.iter().find(|other| other.path == path);
        let has_heading = heading.is_empty()
            || other
                .is_some_and(|other| other.headings().iter().any(|each| anchor(each) == heading));
        (!has_heading).then(|| format!("{place}: there is no such heading"))
    };
    links(page).into_iter().filter_map(complaint).collect()
}
