//! The theorems that `docs/METHOD.md` cites, and what the crates' remarks cite.

use super::antt;
use crate::pages::names::ENDINGS;
use std::fs;
use std::path::Path;

/// Where the method is written down.
pub const METHOD: &str = "docs/METHOD.md";

/// The citations of a text: code of the form `crate/File.theorem`, for `crates/crate/proofs/File.antt`.
pub fn citations(text: &str) -> Vec<String> {
    let code = text.split('`').skip(1).step_by(2);
    code.filter(|code| is_citation(code))
        .map(str::to_string)
        .collect()
}

/// Whether code is a citation.
pub fn is_citation(code: &str) -> bool {
    parts(code).is_some()
}

/// The file of a citation and the theorem's name.
fn parts(citation: &str) -> Option<(String, &str)> {
    let (owner, rest) = citation.split_once('/')?;
    let (file, theorem) = rest.split_once('.')?;
    let plain = |text: &str| !text.is_empty() && !text.contains(char::is_whitespace);
    let ending = ENDINGS.contains(&theorem);
    let citation = plain(owner) && plain(file) && plain(theorem) && !ending;
    citation.then(|| (format!("crates/{owner}/proofs/{file}.antt"), theorem))
}

/// Citations that lead to no theorem.
pub fn broken_citations(root: &Path, text: &str) -> Vec<String> {
    let mut found = Vec::new();
    for citation in citations(text) {
        let Some((file, theorem)) = parts(&citation) else {
            continue;
        };
        match fs::read_to_string(root.join(&file)) {
            Err(_) => found.push(format!("`{citation}`: there is no {file}")),
            Ok(proofs) if !declares(&proofs, theorem) => {
                found.push(format!("`{citation}`: {file} has no `{theorem}`"));
            }
            Ok(_) => {}
        }
    }
    found
}

fn declares(proofs: &str, theorem: &str) -> bool {
    let mut lines = proofs.lines().filter(|line| !antt::is_remark(line));
    lines.any(|line| antt::declared_name(line.trim_start()).as_deref() == Some(theorem))
}

/// The numbers of the text's sections: lines `## 3. ..`.
pub fn sections(text: &str) -> Vec<String> {
    let headings = text.lines().filter_map(|line| line.strip_prefix("## "));
    let numbers = headings.filter_map(|heading| heading.split_once(". "));
    numbers.map(|(number, _)| number.to_string()).collect()
}

/// What is wrong with a remark that speaks of the method, if anything.
pub fn remark_complaint(remark: &str, sections: &[String]) -> Option<String> {
    let mentions = remark.matches("METHOD").count();
    if mentions != remark.matches(METHOD).count() {
        return Some(format!("cites the method other than as `{METHOD}`"));
    }
    let rest = remark.split("section ").nth(1)?;
    let number: String = rest.chars().take_while(char::is_ascii_digit).collect();
    let known = number.is_empty() || mentions == 0 || sections.contains(&number);
    (!known).then(|| format!("{METHOD} has no section {number}"))
}

/// The same of all remarks under a folder of Rattle and antt files.
pub fn remark_complaints(root: &Path, folder: &str, sections: &[String]) -> Vec<String> {
    let mut found = Vec::new();
    let Ok(entries) = fs::read_dir(root.join(folder)) else {
        return vec![format!("{folder} cannot be read")];
    };
    for entry in entries.flatten() {
        let path = format!("{folder}/{}", entry.file_name().to_string_lossy());
        if entry.path().is_dir() {
            found.extend(remark_complaints(root, &path, sections));
        } else if path.ends_with(".antt") || path.ends_with(".rt") {
            let text = fs::read_to_string(root.join(&path)).unwrap_or_default();
            let remarks = text.lines().filter(|line| is_remark(line));
            let wrong = remarks.filter_map(|remark| remark_complaint(remark, sections));
            found.extend(wrong.map(|complaint| format!("{path}: a remark {complaint}")));
        }
    }
    found
}

fn is_remark(line: &str) -> bool {
    antt::is_remark(line) || line.trim_start().starts_with("//")
}
