//! The text of a file of definitions: its items, its imports, and the names that an item uses.

use super::Item;
use std::collections::BTreeSet;

/// A name that a file imports, and the module that has it.
#[derive(Clone, Debug, PartialEq, Eq)]
pub struct Import {
    pub name: String,
    pub module: String,
}

/// A word of an item's text, or one of the marks that stand between words.
#[derive(Clone, Debug, PartialEq, Eq)]
pub struct Token {
    pub text: String,
    /// A field's name behind its dot, as `rows` in `bounds.rows`.
    pub projected: bool,
}

const MARKS: &str = "(){};,@\"«»";
const NOT_ITEMS: [&str; 7] = [
    "use ", "pub mod ", "mod ", "infix ", "infixl ", "infixr ", "module ",
];

pub fn is_remark(line: &str) -> bool {
    line.trim_start().starts_with("--")
}

/// The name that a line at the margin declares, if it is a signature.
pub fn declared_name(line: &str) -> Option<String> {
    let mut words = line.split_whitespace().peekable();
    while words
        .next_if(|word| ["unfoldable", "abbrev", "pub", "axiom"].contains(word))
        .is_some()
    {}
    let first = words.next()?;
    if ["record", "data"].contains(&first) {
        return words.next().map(str::to_string);
    }
    let signature = words
        .next()
        .is_some_and(|next| next == ":" || next.starts_with('{'));
    signature.then(|| first.to_string())
}

/// Whether the item is a data type that has this case.
pub fn has_case(item: &Item, word: &str) -> bool {
    let mut lines = item.text.lines();
    let data = lines.next().is_some_and(|line| {
        let line = line.strip_prefix("pub ").unwrap_or(line);
        line.starts_with("data ")
    });
    data && lines.any(|line| line.split_whitespace().next() == Some(word))
}

/// The items of a file: a signature and everything up to the next one, without remarks and empty lines.
pub fn items(source: &str) -> Vec<Item> {
    let mut found: Vec<Item> = Vec::new();
    let mut inside = false;
    for line in source.lines().map(str::trim_end) {
        if line.is_empty() || is_remark(line) {
            continue;
        }
        let at_margin = !line.starts_with(' ');
        if at_margin && NOT_ITEMS.iter().any(|start| line.starts_with(start)) {
            inside = false;
        } else if let (true, Some(name)) = (at_margin, declared_name(line)) {
            inside = true;
            let text = line.to_string();
            found.push(Item { name, text });
        } else if let (true, Some(last)) = (inside, found.last_mut()) {
            last.text += "\n";
            last.text += line;
        }
    }
    found
}

/// What the lines that begin with `keyword` import: `use MODULE.{a, b}`, over several lines if need be.
pub fn imports(source: &str, keyword: &str) -> Vec<Import> {
    let mut found = Vec::new();
    let mut rest = source;
    while let Some(line) = rest.lines().next() {
        let mut length = line.len();
        if let Some(start) = line.strip_prefix(keyword) {
            let statement = if start.contains('{') {
                let end = rest.find('}').map_or(rest.len(), |place| place + 1);
                length = end.max(length);
                &rest[keyword.len()..end]
            } else {
                start
            };
            found.extend(statement_imports(statement));
        }
        rest = rest[length..].trim_start_matches('\n');
    }
    found
}

/// A module that is imported whole has the empty name.
fn statement_imports(statement: &str) -> Vec<Import> {
    let statement = statement.trim_end_matches(';').trim_end_matches('}');
    let (module, names) = statement.split_once(".{").unwrap_or((statement, ""));
    let import = |name: &str| Import {
        name: name.trim().to_string(),
        module: module.trim().to_string(),
    };
    if names.is_empty() {
        return vec![import("")];
    }
    let named = names.split(',').filter(|name| !name.trim().is_empty());
    named.map(import).collect()
}

/// The words and marks of one line.
pub fn tokens(line: &str) -> Vec<Token> {
    let line = if is_remark(line) { "" } else { line };
    let line = line.split(" -- ").next().unwrap_or("");
    let mut found: Vec<Token> = Vec::new();
    let (mut word, mut projected, mut before) = (String::new(), false, ' ');
    let characters: Vec<char> = line.chars().chain([' ']).collect();
    for (index, &character) in characters.iter().enumerate() {
        let mark = MARKS.contains(character) || character == '.';
        if !mark && !character.is_whitespace() {
            word.push(character);
            before = character;
            continue;
        }
        if !word.is_empty() {
            let text = std::mem::take(&mut word);
            found.push(Token { text, projected });
        }
        let next = characters.get(index + 1).copied().unwrap_or(' ');
        projected = character == '.' && !before.is_whitespace() && next.is_lowercase();
        if mark && !projected {
            let text = character.to_string();
            found.push(Token {
                text,
                projected: false,
            });
        }
        before = character;
    }
    found
}

pub fn is_mark(token: &Token) -> bool {
    token.text == "." || (token.text.chars().count() == 1 && MARKS.contains(&token.text))
}

/// The names that an item binds itself: patterns, arguments, fields.
pub fn bound_names(item: &Item) -> BTreeSet<String> {
    let mut bound = BTreeSet::new();
    for line in item.text.lines() {
        let line_tokens = tokens(line);
        let at_margin = !line.starts_with(' ');
        if at_margin && declared_name(line).is_none() {
            let left = line_tokens.iter().take_while(|token| token.text != "=");
            bound.extend(left.map(|token| token.text.clone()));
        }
        if !at_margin {
            bound.extend(field_name(&line_tokens));
        }
        bind_in_line(&line_tokens, &mut bound);
    }
    bound
}

/// `pub NAME :` or `NAME =` at the start of an indented line.
fn field_name(line: &[Token]) -> Option<String> {
    let line = match line.first() {
        Some(first) if first.text == "pub" => &line[1..],
        _ => line,
    };
    match line {
        [name, next, ..] if next.text == ":" || next.text == "=" => Some(name.text.clone()),
        _ => None,
    }
}

/// `(x y : A)`, `{x : A}`, `λ x y.`, and `{ field = ..; field = .. }`.
fn bind_in_line(line: &[Token], bound: &mut BTreeSet<String>) {
    for (index, token) in line.iter().enumerate() {
        let behind = &line[index + 1..];
        let (ends, taken): (&str, usize) = match token.text.as_str() {
            "(" | "{" => (":", behind.len()),
            "λ" => (".", behind.len()),
            _ => ("", 0),
        };
        let run = behind[..taken]
            .iter()
            .position(|next| next.text == ends || is_mark(next));
        if let Some(end) = run.filter(|&end| behind[end].text == ends) {
            bound.extend(behind[..end].iter().map(|name| name.text.clone()));
        }
        if let ("{" | ";", [name, next, ..]) = (token.text.as_str(), behind) {
            if next.text == "=" {
                bound.insert(name.text.clone());
            }
        }
    }
}
