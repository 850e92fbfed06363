//! Examples on a page: in an indented block each line behind `$ ` is a command, and what follows it is what it prints.

use super::Page;

/// A command, the line where it stands, and what it prints on standard output.
#[derive(Clone, Debug, PartialEq, Eq)]
pub struct Example {
    pub line: usize,
    pub command: String,
    pub printed: String,
}

/// The examples of a page, in their order. Empty lines belong to what is printed where more of it follows.
pub fn examples(page: &Page) -> Vec<Example> {
    let mut found: Vec<Example> = Vec::new();
    let mut is_open = false;
    let mut empty_lines = 0;
    for (index, line) in page.text.lines().enumerate() {
        let Some(content) = line.strip_prefix("    ") else {
            is_open &= line.is_empty();
            empty_lines += 1;
            continue;
        };
        if let Some(command) = content.strip_prefix("$ ") {
            is_open = true;
            found.push(Example {
                line: index + 1,
                command: command.to_string(),
                printed: String::new(),
            });
        } else if let Some(example) = found.last_mut().filter(|_| is_open) {
            example.printed += &"\n".repeat(empty_lines);
            example.printed += &format!("{content}\n");
        }
        empty_lines = 0;
    }
    found
}
