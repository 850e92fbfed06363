//! The text of a Rattle source: its types, its functions with their contracts, and what it uses of other crates.

use super::Item;

/// Words of the language that a reader meets in types and signatures; the page's key explains those that occur.
pub const WORDS: [&str; 15] = [
    "u8",
    "u16",
    "u32",
    "u64",
    "usize",
    "bool",
    "struct",
    "enum",
    "fn",
    "extern",
    "requires",
    "ensures",
    "repr",
    "unsafe",
    "no_mangle",
];

/// The keywords of a contract's clauses.
pub const CLAUSES: [&str; 2] = ["requires", "ensures"];

/// What may stand behind a parameter's name in a contract: its value now, when the function is called, and when it has returned.
pub const MOMENTS: [&str; 3] = ["now", "old", "new"];

/// Attributes that say nothing to a reader of contracts: how values are copied, and how the checker looks for proofs.
const UNREAD: [&str; 2] = ["#[derive(", "#[tactic("];

/// A name of another crate that a source uses.
#[derive(Clone, Debug, PartialEq, Eq)]
pub struct Use {
    pub name: String,
    pub from: String,
}

fn is_remark(line: &str) -> bool {
    line.trim_start().starts_with("//")
}

fn behind_marks(line: &str) -> &str {
    let line = line.strip_prefix("pub ").unwrap_or(line);
    line.strip_prefix("extern \"C\" ").unwrap_or(line)
}

fn name_behind(line: &str, keyword: &str) -> Option<String> {
    let rest = behind_marks(line).strip_prefix(keyword)?;
    let end = rest
        .find(|character: char| !character.is_alphanumeric() && character != '_')
        .unwrap_or(rest.len());
    Some(rest[..end].to_string())
}

/// The lines of a source without remarks and without the attributes that nobody reads, which may have several lines.
fn read_lines(source: &str) -> Vec<&str> {
    let mut found = Vec::new();
    let mut is_inside = false;
    for line in source.lines().filter(|line| !is_remark(line)) {
        let begins = UNREAD.iter().any(|start| line.starts_with(start));
        if begins || is_inside {
            is_inside = !line.ends_with(")]");
        } else {
            found.push(line);
        }
    }
    found
}

/// The types and functions at the margin. A function's text ends where its body begins.
pub fn items(source: &str) -> Vec<Item> {
    let mut found = Vec::new();
    let mut attributes: Vec<&str> = Vec::new();
    let lines = read_lines(source);
    for (index, line) in lines.iter().enumerate() {
        if line.starts_with("#[") {
            attributes.push(line);
            continue;
        }
        let a_type = name_behind(line, "struct ").or_else(|| name_behind(line, "enum "));
        let body = match (a_type, name_behind(line, "fn ")) {
            (Some(name), _) => Some((name, type_lines(&lines[index..]))),
            (None, Some(name)) => Some((name, function_lines(&lines[index..]))),
            _ => None,
        };
        if let Some((name, body)) = body {
            let all: Vec<&str> = attributes.iter().copied().chain(body).collect();
            let text = all.join("\n");
            found.push(Item { name, text });
        }
        attributes.clear();
    }
    found
}

fn type_lines<'a>(lines: &[&'a str]) -> Vec<&'a str> {
    let ends = |line: &&str| {
        *line == "}" || line.ends_with(';') || (line.ends_with('}') && !line.starts_with(' '))
    };
    let end = lines.iter().position(ends).unwrap_or(0);
    lines[..=end].to_vec()
}

fn function_lines<'a>(lines: &[&'a str]) -> Vec<&'a str> {
    let mut found = Vec::new();
    for line in lines {
        if *line == "{" {
            break;
        }
        let head = line.strip_suffix(" {");
        found.push(head.unwrap_or(line));
        if head.is_some() && !begins_clause(line) {
            break;
        }
    }
    found
}

/// `use a::B;` and `use a::{B, C};`.
pub fn uses(source: &str) -> Vec<Use> {
    let statements = source.lines().filter_map(|line| line.strip_prefix("use "));
    let mut found = Vec::new();
    for statement in statements {
        let Some((from, names)) = statement.trim_end_matches(';').split_once("::") else {
            continue;
        };
        let names = names.trim_matches(|mark| mark == '{' || mark == '}');
        for name in names
            .split(',')
            .map(str::trim)
            .filter(|name| !name.is_empty())
        {
            let name = name.rsplit("::").next().unwrap_or(name).to_string();
            let from = from.to_string();
            found.push(Use { name, from });
        }
    }
    found
}

/// The item's text before its contract, and the contract.
pub fn parts(item: &Item) -> (String, String) {
    let lines: Vec<&str> = item.text.lines().collect();
    let end = lines.iter().position(|line| begins_clause(line));
    let end = end.unwrap_or(lines.len());
    (lines[..end].join("\n"), lines[end..].join("\n"))
}

fn begins_clause(line: &str) -> bool {
    let line = line.trim_start();
    CLAUSES.iter().any(|keyword| line.starts_with(keyword))
}

/// The facts of a contract, without the keywords of its clauses and the clauses' names. Its lines stay off the margin.
pub fn facts(contract: &str) -> String {
    let fact = |line: &str| {
        let start = line.find('{').filter(|_| begins_clause(line));
        format!("    {}", &line[start.unwrap_or(0)..])
    };
    contract.lines().map(fact).collect::<Vec<_>>().join("\n")
}

/// The identifiers of a text.
pub fn words(text: &str) -> Vec<String> {
    let split = text.split(|character: char| !character.is_alphanumeric() && character != '_');
    split
        .filter(|word| !word.is_empty())
        .map(str::to_string)
        .collect()
}
