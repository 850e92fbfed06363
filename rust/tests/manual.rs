//! README and the manual: every example as it stands, in a shell for each page, and every table that lists what there is.

mod support;

use hanthuvelo::{hex, Form, Judgement};
use outside_checks::pages::examples::{examples, Example};
use outside_checks::pages::{pages, tables, Page};
use std::collections::BTreeSet;
use std::fs;
use std::os::unix::fs::symlink;
use std::path::{Path, PathBuf};
use std::process::{Command, Stdio};
use support::{run, COMMAND, ROOT};

/// The pages that have examples.
const FOLLOWED: [&str; 7] = [
    "README.md",
    "docs/manual/c.md",
    "docs/manual/command.md",
    "docs/manual/formats.md",
    "docs/manual/installing.md",
    "docs/manual/rust.md",
    "examples/README.md",
];

fn page(path: &str) -> Page {
    Page::read(Path::new(ROOT), path)
}

/// An empty folder outside of the repository, so that cargo takes a package in it for one of its own; gone with this.
struct Home(PathBuf);

impl Home {
    fn new(name: &str) -> Home {
        let name = format!("hanthuvelo-{}-{name}", std::process::id());
        let folder = std::env::temp_dir().join(name);
        fs::create_dir(&folder).expect("a new folder");
        Home(folder)
    }
}

impl Drop for Home {
    fn drop(&mut self) {
        let _ = fs::remove_dir_all(&self.0);
    }
}

/// A folder in which a shell finds the command and the printing program by their names.
fn programs(home: &Path) -> String {
    let programs = home.join("programs");
    fs::create_dir(&programs).expect("a folder");
    symlink(COMMAND, programs.join("hanthuvelo")).expect("a link");
    let print = fs::canonicalize(format!("{ROOT}/target/bin/print")).expect("the program");
    symlink(print, programs.join("hanthuvelo-print")).expect("a link");
    programs.display().to_string()
}

/// A shell at the repository's root with an empty home; what rustup and cargo keep stays where it is.
fn shell(home: &Path, script: &str) -> Command {
    let own_home = std::env::var("HOME").expect("a home");
    let path = std::env::var("PATH").expect("a path");
    let mut shell = Command::new("bash");
    shell
        .args(["-c", script])
        .current_dir(ROOT)
        .stdin(Stdio::null())
        .env("HOME", home)
        .env("PATH", format!("{}:{path}", programs(home)));
    for (name, place) in [("CARGO_HOME", ".cargo"), ("RUSTUP_HOME", ".rustup")] {
        let known = std::env::var(name);
        shell.env(name, known.unwrap_or(format!("{own_home}/{place}")));
    }
    shell
}

/// What commands print, one after the other in one shell, each with its exit status; and all that they say.
fn session(name: &str, commands: &[&str]) -> (Vec<(String, String)>, String) {
    let mark = "printf '\\001%s\\001' \"$?\"";
    let script: String = commands
        .iter()
        .map(|command| format!("{command}\n{mark}\n"))
        .collect();
    let home = Home::new(name);
    let output = shell(&home.0, &script).output().expect("bash");
    let printed = String::from_utf8_lossy(&output.stdout).into_owned();
    let said = String::from_utf8_lossy(&output.stderr).into_owned();
    let pieces: Vec<&str> = printed.split('\u{1}').collect();
    let pairs = pieces.chunks_exact(2);
    let runs = pairs.map(|pair| (pair[0].to_string(), pair[1].to_string()));
    (runs.collect(), said)
}

/// Every example of a page prints what the page says; one that prints nothing ends well.
fn follow(path: &str) {
    let examples = examples(&page(path));
    assert!(!examples.is_empty(), "{path}");
    let commands: Vec<&str> = examples.iter().map(|each| each.command.as_str()).collect();
    let (runs, said) = session(&path.replace('/', "-"), &commands);
    assert_eq!(runs.len(), examples.len(), "{path}: {said}");
    for (example, (printed, status)) in examples.iter().zip(&runs) {
        let Example { line, command, .. } = example;
        let place = format!("{path}, line {line}: {command}\n{said}");
        assert_eq!(*printed, example.printed, "{place}");
        let is_silent = printed.is_empty();
        assert!(!is_silent || status == "0", "{place}");
    }
}

#[test]
fn readme_is_followed() {
    follow("README.md");
}

#[test]
fn the_page_on_c_is_followed() {
    follow("docs/manual/c.md");
}

#[test]
fn the_page_on_the_command_is_followed() {
    follow("docs/manual/command.md");
}

#[test]
fn the_page_on_formats_is_followed() {
    follow("docs/manual/formats.md");
}

#[test]
fn the_page_on_installing_is_followed() {
    follow("docs/manual/installing.md");
}

#[test]
fn the_page_on_rust_is_followed() {
    follow("docs/manual/rust.md");
}

#[test]
fn the_page_on_examples_is_followed() {
    follow("examples/README.md");
}

#[test]
fn every_page_with_examples_is_followed() {
    let pages = pages(Path::new(ROOT)).into_iter();
    let with_examples = pages.filter(|page| !examples(page).is_empty());
    let paths: Vec<String> = with_examples.map(|page| page.path).collect();
    assert_eq!(paths, FOLLOWED);
}

/// An example that prints something else is seen, wherever it stands, and a word that is set in one line is known in the next.
#[test]
fn a_shell_remembers() {
    let commands = ["export A=1", "echo $A; false", "ls ~"];
    let (runs, _) = session("remembers", &commands);
    let expected = [("", "0"), ("1\n", "1"), ("programs\n", "0")];
    let expected = expected.map(|(printed, status)| (printed.to_string(), status.to_string()));
    assert_eq!(runs, expected);
}

const COMMAND_PAGE: &str = "docs/manual/command.md";

/// The words that begin a line of a help text, behind two blanks.
fn first_words(help: &str) -> Vec<String> {
    let lines = help.lines().filter_map(|line| line.strip_prefix("  "));
    let words = lines.filter_map(|line| Some(line.split_once(' ')?.0.to_string()));
    words.filter(|word| !word.is_empty()).collect()
}

#[test]
fn every_verb_has_a_section_with_an_example_and_all_its_options() {
    let page = page(COMMAND_PAGE);
    let verbs = first_words(&run(&["--help"]).text);
    assert!(verbs.len() >= 8, "{verbs:?}");
    let listed = tables::table(&page.text, "verb");
    let listed: Vec<&str> = listed
        .iter()
        .map(|row| row[0].split('`').nth(1).expect("a verb"))
        .collect();
    assert_eq!(listed, verbs);
    let intro = page.text.split("\n## ").next().expect("a beginning");
    for verb in &verbs {
        let section = page.section(verb);
        assert!(section.contains(&format!("hanthuvelo {verb} ")), "{verb}");
        let mut told = format!("{intro}{section}");
        if section.contains("(#many-jobs)") {
            told += page.section("Many jobs");
        }
        let options = first_words(&run(&[verb, "--help"]).text);
        for option in options.iter().filter(|word| word.starts_with("--")) {
            let is_told =
                told.contains(&format!("`{option}`")) || told.contains(&format!("`{option} N`"));
            assert!(is_told, "{verb} {option}");
        }
    }
}

/// The keys of the schema's table are those of the objects, for each of the five statuses.
#[test]
fn the_schema_names_every_key() {
    let rows = tables::table(&page(COMMAND_PAGE).text, "key");
    let key = |row: &Vec<String>| row[0].trim_matches(['`', '"']).to_string();
    let documented: BTreeSet<String> = rows.iter().map(key).collect();
    let commands = [
        "hanthuvelo recover --json examples README.md",
        "hanthuvelo check --json examples",
        "hanthuvelo pack examples/h01.job examples/h07.job | head -c 29 | hanthuvelo recover --stream --json -",
        "echo 00 | hanthuvelo judge --json --hex examples/h01.job",
        "echo 2000000000010004 | hanthuvelo judge --json --hex examples/h01.job",
    ];
    let (runs, _) = session("schema", &commands);
    let objects: String = runs.into_iter().map(|(printed, _)| printed).collect();
    for status in ["recovered", "accepted", "judged", "refused", "unreadable"] {
        let pair = format!("\"status\":\"{status}\"");
        assert!(objects.contains(&pair), "{objects}");
    }
    let mut met = BTreeSet::new();
    for object in objects.lines() {
        // A key stands between quotes before a colon, behind a brace or a comma.
        let pieces = object
            .split("\":")
            .filter_map(|piece| piece.rsplit_once('"'));
        let keys = pieces.filter(|(before, _)| before.ends_with(['{', ',']));
        met.extend(keys.map(|(_, key)| key.to_string()));
    }
    assert_eq!(documented, met);
}

const FORMATS_PAGE: &str = "docs/manual/formats.md";

/// The refusals of a call in the order of its tests, by the table of refusals.
fn order_of(call: &str) -> Vec<u32> {
    let page = page(FORMATS_PAGE);
    let headings = page.text.lines().find(|line| line.starts_with("| no |"));
    let headings = tables::cells(headings.expect("a table"));
    let column = headings.iter().position(|heading| heading == call);
    let column = column.expect("a column for each call");
    let mut order: Vec<(u32, u32)> = Vec::new();
    for row in tables::table(&page.text, "no") {
        let number = row[0].parse().expect("a refusal");
        let places = row[column].split(',').filter(|place| !place.is_empty());
        order.extend(places.map(|place| (place.trim().parse().expect("a place"), number)));
    }
    order.sort();
    let places: Vec<u32> = order.iter().map(|(place, _)| *place).collect();
    assert_eq!(places, (1..=order.len() as u32).collect::<Vec<u32>>());
    order.into_iter().map(|(_, number)| number).collect()
}

fn bytes(text: &str) -> Vec<u8> {
    hex::bytes(text).expect("hexadecimal text")
}

/// Jobs modulo 7 with df 0, dg 0 and E 1, in each of which one fault is mended that the one before had; what is behind it in
/// the order stays wrong as long as it can. The first fault of each is its refusal.
const MENDED: [(&str, u32); 9] = [
    ("0180", 1),
    ("010003 00000001", 11),
    ("010003 00000800 0000 0007 0000", 3),
    ("010003 00000800 0000 0007 0000 FFFE", 4),
    ("018003 00000800 0000 0007 0000 FFFE 0000 FFFE", 5),
    ("018003 00000800 0000 0005 0000 FFFE 0000 FFFE", 12),
    ("018003 00000800 0000 0005 0000 0004 0000 0002", 6),
    ("018003 00000800 0000 0005 0001 0004 0002 0002", 7),
    ("018003 00000800 0000 0005 0001 0004 0002 0002", 8),
];

/// The area of the first eight is too short.
#[test]
fn a_recovery_tests_in_the_order_of_the_table() {
    let mut found = Vec::new();
    for (place, (job, number)) in MENDED.into_iter().enumerate() {
        let mut area = vec![0; if place == 8 { 8 } else { 7 }];
        let report = hanthuvelo::recover(&bytes(job), &mut area);
        assert_eq!(report.refusal, number, "{job}");
        found.push(report.refusal);
    }
    assert_eq!(found, order_of("recover"));
}

#[test]
fn a_check_and_a_judge_test_in_the_order_of_the_table() {
    let (mut checked, mut judged) = (Vec::new(), Vec::new());
    for (job, number) in &MENDED[..7] {
        let (job, offered) = (bytes(job), bytes("00"));
        assert_eq!(hanthuvelo::check(&job).refusal, *number);
        checked.push(hanthuvelo::check(&job).refusal);
        judged.push(hanthuvelo::judge(&job, &offered).refusal);
    }
    let sound = bytes(MENDED[7].0);
    assert_eq!(hanthuvelo::check(&sound), Form::ACCEPTED);
    let judgement = hanthuvelo::judge(&sound, &bytes("00"));
    judged.push(judgement.refusal);
    assert_eq!(hanthuvelo::judge(&sound, &[0; 8]), Judgement::judged(false));
    assert_eq!(checked, order_of("check"));
    assert_eq!(judged, order_of("judge"));
}

/// A header, coefficients, the number of rows to be spoiled and the length of the area, mended in the same way.
#[test]
fn a_trial_tests_in_the_order_of_the_table() {
    let mended = [
        ("0180", "", 9, 0),
        ("010003 00000001 00", "", 9, 0),
        ("010002 00", "", 9, 0),
        ("010002", "0002 0007", 9, 0),
        ("018002", "0002 0007", 4, 0),
        ("018002", "0002 0007", 3, 0),
        ("018002", "0002 0005", 3, 0),
        ("018002", "0001 0005", 3, 0),
    ];
    let refused = mended.map(|(header, coefficients, spoiled, length)| {
        let mut area = vec![0; length];
        let (header, coefficients) = (bytes(header), bytes(coefficients));
        hanthuvelo::trial(&header, &coefficients, 0, spoiled, &mut area).refusal
    });
    assert_eq!(refused[..], order_of("trial"));
    let mut area = [0; 15];
    let written = hanthuvelo::trial(&bytes("018002"), &bytes("0001 0005"), 0, 3, &mut area);
    assert!(written.is_written());
}

/// The refusals of the C header, all of them and no others.
#[test]
fn the_table_of_refusals_is_whole() {
    let header = fs::read_to_string(format!("{ROOT}/include/hanthuvelo.h")).expect("the header");
    let start = header.find("enum {").expect("the refusals");
    let end = start + header[start..].find("};").expect("their end");
    let number = |line: &str| {
        line.split_once(" = ")?
            .1
            .split([',', ' '])
            .next()?
            .parse()
            .ok()
    };
    let named: BTreeSet<u32> = header[start..end].lines().filter_map(number).collect();
    let rows = tables::table(&page(FORMATS_PAGE).text, "no");
    let told: Vec<u32> = rows
        .iter()
        .map(|row| row[0].parse().expect("a refusal"))
        .collect();
    let refusals: Vec<u32> = named.into_iter().filter(|number| *number != 0).collect();
    assert_eq!(told, refusals);
}

/// The functions of the C header, all of them and no others.
#[test]
fn the_page_on_c_names_every_function() {
    let header = fs::read_to_string(format!("{ROOT}/include/hanthuvelo.h")).expect("the header");
    let declared = header
        .lines()
        .filter(|line| line.contains('(') && !line.starts_with([' ', '#', '/']));
    let name = |line: &str| {
        line.split('(')
            .next()?
            .rsplit(' ')
            .next()
            .map(str::to_string)
    };
    let declared: BTreeSet<String> = declared.filter_map(name).collect();
    let rows = tables::table(&page("docs/manual/c.md").text, "function");
    let told: BTreeSet<String> = rows
        .iter()
        .map(|row| row[0].trim_matches('`').to_string())
        .collect();
    assert_eq!(told, declared);
    assert_eq!(told.len(), rows.len());
}
