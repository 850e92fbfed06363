//! The pages: their sizes, their links, the files that they name, the table of crates; and the scripts that they tell people to run.

use outside_checks::crate_table::{complaint, description, table, with_table, LONGEST};
use outside_checks::crates::Crates;
use outside_checks::pages::examples::{examples, Example};
use outside_checks::pages::links::{anchor, broken_links, links};
use outside_checks::pages::names::{is_there, lost_names, named_files};
use outside_checks::pages::{pages, tables, tree, Page};
use outside_checks::statements::citations::{broken_citations, citations};
use outside_checks::statements::repository;
use std::collections::{BTreeMap, BTreeSet};
use std::fs;
use std::os::unix::fs::PermissionsExt;

/// The most bytes of README, of a page of the manual, and of a line in either.
const MOST_OF_README: usize = 8000;
const MOST_OF_A_PAGE: usize = 12_000;
const MOST_OF_A_LINE: usize = 600;

/// Files that notes of earlier changes name and that are not there any more.
const GONE: [&str; 14] = [
    "answer/proofs/Copies.antt",
    "answer/proofs/Determined",
    "bin/jobs.rs",
    "coefficients/proofs/Ranges.antt",
    "docs/figures",
    "docs/lines",
    "job/specs/Answer",
    "judge/proofs/JobRows.antt",
    "library.rs",
    "row_search/proofs/FirstBelow.antt",
    "row_search/specs/Search.antt",
    "row_word/proofs/Parts.antt",
    "soundness/proofs/Sizes",
    "word/proofs/Counts.antt",
];
const NOTES: &str = "docs/CHANGES.md";

/// The page that lays the old text of contracts, definitions and files beside today's, and so names what is not there any more.
const PORT: &str = "docs/PORT.md";

fn page(path: &str, text: &str) -> Page {
    Page {
        path: path.to_string(),
        text: text.to_string(),
    }
}

/// What a user reads: README and the manual.
fn manual() -> Vec<Page> {
    let is_manual = |page: &Page| page.path == "README.md" || page.path.starts_with("docs/manual/");
    let found: Vec<Page> = pages(&repository()).into_iter().filter(is_manual).collect();
    assert!(found.len() >= 7, "{found:?}");
    found
}

#[test]
fn pages_are_short() {
    for Page { path, text } in manual() {
        let most = match path.as_str() {
            "README.md" => MOST_OF_README,
            _ => MOST_OF_A_PAGE,
        };
        assert!(text.len() <= most, "{path} has {} bytes", text.len());
        let longest = text.lines().map(str::len).max();
        assert!(longest <= Some(MOST_OF_A_LINE), "{path}: {longest:?}");
    }
}

/// Sentences of eight words or more.
fn sentences(page: &Page) -> BTreeSet<String> {
    let lines = page.prose().into_iter();
    let pieces = lines.flat_map(|(_, line)| line.split(['|', '.', ':', ';']));
    let words = pieces.map(|piece| piece.split_whitespace().collect::<Vec<&str>>());
    let long = words.filter(|words| words.len() >= 8);
    long.map(|words| words.join(" ")).collect()
}

#[test]
fn nothing_is_said_on_two_pages() {
    let mut seen: BTreeMap<String, String> = BTreeMap::new();
    for page in pages(&repository()) {
        if [NOTES, PORT, "docs/STATEMENTS.md"].contains(&page.path.as_str()) {
            continue;
        }
        for sentence in sentences(&page) {
            let other = seen.insert(sentence.clone(), page.path.clone());
            assert_eq!(other, None, "{}: {sentence}", page.path);
        }
    }
    assert!(seen.len() > 200, "{}", seen.len());
}

#[test]
fn every_link_leads_somewhere() {
    let (tree, pages) = (tree(&repository()), pages(&repository()));
    let mut count = 0;
    for page in &pages {
        let broken = broken_links(page, &tree, &pages);
        assert!(broken.is_empty(), "{}", broken.join("\n"));
        count += links(page).len();
    }
    assert!(count >= 40, "{count}");
}

#[test]
fn a_broken_link_is_reported() {
    let tree = ["README.md", "docs/a.md", "docs/b.md"].map(str::to_string);
    let text =
        "# A\n\n[b](b.md) [b](b.md#two-words-b) [top](../README.md) [here](#a), `[x](none)`\n";
    let (a, b) = (
        page("docs/a.md", text),
        page("docs/b.md", "## Two words: `b`\n"),
    );
    let both = [a.clone(), b];
    assert_eq!(broken_links(&a, &tree, &both), Vec::<String>::new());
    for (old, new) in [
        ("(b.md)", "(c.md)"),
        ("(b.md)", "(docs/b.md)"),
        ("(b.md)", "(../../b.md)"),
        ("words-b", "words"),
        ("(#a)", "(#b)"),
        ("(../README.md)", "(../README.md#a)"),
    ] {
        assert!(text.contains(old));
        let changed = page("docs/a.md", &text.replace(old, new));
        assert_eq!(broken_links(&changed, &tree, &both).len(), 1, "{new}");
    }
    assert_eq!(anchor("Many jobs"), "many-jobs");
}

#[test]
fn every_named_file_is_there() {
    let tree = tree(&repository());
    let mut count = 0;
    for page in pages(&repository()) {
        for (line, name) in lost_names(&page, &tree) {
            let is_told_as_gone = page.path == NOTES && GONE.contains(&name.as_str());
            let is_told_as_gone = is_told_as_gone || page.path == PORT;
            assert!(is_told_as_gone, "{}, line {line}: {name}", page.path);
        }
        count += named_files(&page).len();
    }
    assert!(count >= 150, "{count}");
}

/// What is there again, or what nobody names any more, leaves the list.
#[test]
fn what_is_gone_is_named_and_not_there() {
    let tree = tree(&repository());
    let notes = Page::read(&repository(), NOTES);
    let lost: BTreeSet<String> = lost_names(&notes, &tree)
        .into_iter()
        .map(|lost| lost.1)
        .collect();
    assert_eq!(lost, GONE.map(str::to_string).into());
}

#[test]
fn a_lost_name_is_reported() {
    let tree = ["crates/a/src/lib.rt", "crates/a/src", "docs/b.md"].map(str::to_string);
    for there in [
        "src/lib.rt",
        "lib.rt",
        "crates/*/src/",
        "docs/b.md",
        "./docs/b.md",
        "../docs/b.md",
        "b.md",
        "target/bin/print",
    ] {
        assert!(is_there(there, &tree), "{there}");
        let page = page("README.md", &format!("Read `{there}`, it is short.\n"));
        assert_eq!(lost_names(&page, &tree), Vec::new());
        assert_eq!(named_files(&page).len(), 1, "{there}");
    }
    for lost in [
        "src/main.rt",
        "ib.rt",
        "crates/*/specs",
        "docs/c.md",
        "docs/b.rs",
        "target/bin/other",
        "b.h",
    ] {
        let page = page("README.md", &format!("One\n\nTwo `cat {lost}`.\n"));
        assert_eq!(lost_names(&page, &tree), [(3, lost.to_string())]);
    }
    for no_name in [
        "a and b",
        ".job",
        "/",
        "~/own",
        "/usr",
        "f(x)",
        "method/Problem.unique",
        "--hex",
    ] {
        let page = page("README.md", &format!("`{no_name}`\n"));
        assert_eq!(named_files(&page), Vec::new(), "{no_name}");
    }
    let block = page("README.md", "    cat docs/c.md f1/g ./docs/b.md, b.rs\n");
    let lost = ["docs/c.md", "b.rs"].map(|name| (1, name.to_string()));
    assert_eq!(lost_names(&block, &tree), lost);
}

#[test]
fn every_cited_theorem_is_there() {
    for page in pages(&repository()) {
        let is_of_now = page.path != NOTES && page.path != PORT;
        let broken = broken_citations(&repository(), &page.text);
        assert!(!is_of_now || broken.is_empty(), "{}", broken.join("\n"));
    }
    assert_eq!(citations("`examples/lowpass.job`, `a/B.c-d`"), ["a/B.c-d"]);
}

#[test]
fn every_wrong_program_is_on_its_page() {
    let page = Page::read(&repository(), "docs/WRONG-PROGRAMS.md");
    let mut named = BTreeSet::new();
    let mut owner = String::new();
    for row in tables::table(&page.text, "crate") {
        let code = |cell: &str| -> Vec<String> {
            let code = cell.split('`').skip(1).step_by(2);
            code.map(str::to_string).collect()
        };
        owner = code(&row[0]).first().unwrap_or(&owner).clone();
        let edits = code(&row[2]).into_iter();
        named.extend(edits.map(|edit| format!("crates/{owner}/must-fail/{edit}.edit")));
    }
    let tree = tree(&repository()).into_iter();
    let edits: BTreeSet<String> = tree.filter(|path| path.ends_with(".edit")).collect();
    let lost: Vec<&String> = named.difference(&edits).collect();
    assert!(lost.is_empty(), "not there: {lost:?}");
    let untold: Vec<&String> = edits.difference(&named).collect();
    assert!(untold.is_empty(), "not on the page: {untold:?}");
}

#[test]
fn the_table_of_crates_is_that_of_their_sources() {
    let page = Page::read(&repository(), outside_checks::crate_table::PAGE);
    let table = table(&repository()).unwrap_or_else(|message| panic!("{message}"));
    let help = "`cargo run --release --bin layout -- --write` writes it anew";
    assert!(page.text == with_table(&page.text, &table), "{help}");
    let crates = Crates::of_repository();
    assert_eq!(table.lines().count(), 2 + crates.list.len());
    let said: BTreeSet<String> = crates
        .list
        .iter()
        .map(|each| description(&repository(), &each.name).expect("a description"))
        .collect();
    assert_eq!(said.len(), crates.list.len());
}

#[test]
fn a_first_line_that_is_no_description_is_reported() {
    assert_eq!(complaint("A polynomial times (u - x), in place."), None);
    for bad in [
        "",
        "The rows of a job: a point and",
        "and the values.",
        "One of two, ..",
        "One | two.",
        &format!("{}.", "A".repeat(LONGEST)),
    ] {
        assert!(complaint(bad).is_some(), "{bad}");
    }
    assert!(description(&repository(), "no_crate").is_err());
}

#[test]
fn every_script_is_executable() {
    let root = repository();
    let mut found = BTreeSet::new();
    for path in tree(&root) {
        let bytes = fs::read(root.join(&path)).unwrap_or_default();
        if bytes.starts_with(b"#!") {
            let mode = fs::metadata(root.join(&path))
                .expect("a file")
                .permissions();
            assert!(mode.mode() & 0o111 == 0o111, "{path}");
            found.insert(path);
        }
    }
    for name in [
        ".ci/run",
        "examples/run",
        "hanthuvelo",
        "install",
        "scripts/build",
    ] {
        assert!(found.contains(name), "{name}");
    }
}

#[test]
fn examples_are_read() {
    let text = "A\n\n    $ one\n    1\n\n    2\n    $ two\n\nB\n\n    3\n\n    $ three\n    4\n";
    let read = examples(&page("README.md", text));
    let read: Vec<(usize, &str, &str)> = read
        .iter()
        .map(
            |Example {
                 line,
                 command,
                 printed,
             }| (*line, command.as_str(), printed.as_str()),
        )
        .collect();
    assert_eq!(
        read,
        [(3, "one", "1\n\n2\n"), (7, "two", ""), (13, "three", "4\n")]
    );
}
