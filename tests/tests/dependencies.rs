//! What a crate rests on, by `crates.txt`, and the list's groups as layers.

use outside_checks::crates::{crates_text, Crates, MOST_CRATES};
use outside_checks::statements::repository;
use std::fs;

/// What the recovery has of its own: the interpolation and the candidates that it leads to, and the mathematics of both.
const RECOVERY: [&str; 11] = [
    "pairs",
    "lane_combination",
    "lane_linear",
    "lane_differences",
    "interpolation",
    "fraction",
    "column",
    "candidate",
    "solver",
    "method",
    "soundness",
];

/// What the judge of offered answers needs.
const JUDGE: [&str; 4] = ["job", "answer", "reduced", "wrong_rows"];

/// What the check of the form shares with the reader of jobs: the tests of the header, the row reader and test 6.
const READER: [&str; 4] = ["job", "header", "rows", "row_search"];

/// What comes behind the reader of jobs, besides what the recovery has of its own.
const BEHIND_THE_READER: [&str; 3] = ["recovery", "problem", "wrong_rows"];

/// A crate that is merged with another one, or has another name, must not stay in a list here: what is not there is not used.
#[test]
fn every_name_in_a_list_is_a_crate() {
    let crates = Crates::of_repository();
    for names in [&RECOVERY[..], &JUDGE, &READER, &BEHIND_THE_READER] {
        assert_eq!(crates.unlisted(names), Vec::<&str>::new());
    }
    assert_eq!(crates.unlisted(&["wrong_rows", "no_crate"]), ["no_crate"]);
}

#[test]
fn the_judge_rests_on_nothing_of_the_recovery() {
    let crates = Crates::of_repository();
    let (judge, recovery) = (crates.below("offered_answer"), crates.below("recovery"));
    for name in RECOVERY {
        assert!(recovery.contains(name), "the recovery does not use {name}");
        assert!(!judge.contains(name), "the judge uses {name}");
    }
    assert!(!judge.contains("recovery"));
    for name in JUDGE {
        assert!(judge.contains(name), "the judge does not use {name}");
    }
}

#[test]
fn the_form_check_rests_on_the_reader_alone() {
    let form = Crates::of_repository().below("form_check");
    for name in RECOVERY.into_iter().chain(BEHIND_THE_READER) {
        assert!(!form.contains(name), "the form check uses {name}");
    }
    for name in READER {
        assert!(form.contains(name), "the form check does not use {name}");
    }
}

/// So that the tests above look at all there is. Of the toolchain's libraries only std is used, which no list names.
#[test]
fn every_crate_that_is_used_is_listed() {
    let crates = Crates::of_repository();
    for used in crates.list.iter().flat_map(|each| &each.used) {
        assert!(crates.find(used).is_some(), "{used}");
    }
    let folders = fs::read_dir(repository().join("crates")).expect("crates");
    assert_eq!(folders.count(), crates.list.len());
}

/// So that the test below looks at every use.
#[test]
fn every_crate_belongs_to_a_group() {
    let crates = Crates::of_repository();
    let alone = crates.list.iter().filter(|each| each.group.is_none());
    let alone: Vec<&str> = alone.map(|each| each.name.as_str()).collect();
    assert_eq!(alone, Vec::<&str>::new());
    assert_eq!(crates.unread, Vec::<String>::new());
    assert!(crates.groups.len() > 1 && crates.list.len() > crates.groups.len());
}

#[test]
fn every_group_rests_on_groups_below_it() {
    let complaints = Crates::of_repository().layer_complaints();
    assert!(complaints.is_empty(), "{}", complaints.join("\n"));
}

/// A list of layers: each crate uses its own group and those below, above and below itself.
const LAYERS: &str = "\
# What the list is, in
# several lines: programs first.

# programs
print: text field io
archive staticlib: text
text_examples: text

# texts
text: words
# A remark among them.
words: text field    # and behind one of them

# numbers
field:
";

#[test]
fn the_groups_are_read() {
    let crates = Crates::parse(LAYERS);
    assert_eq!(crates.groups, ["programs", "texts", "numbers"]);
    let found: Vec<(&str, Option<usize>)> = crates
        .list
        .iter()
        .map(|each| (each.name.as_str(), each.group))
        .collect();
    let expected = [
        ("print", Some(0)),
        ("archive", Some(0)),
        ("text_examples", Some(0)),
        ("text", Some(1)),
        ("words", Some(1)),
        ("field", Some(2)),
    ];
    assert_eq!(found, expected);
    assert_eq!(crates.list[0].used, ["text", "field", "io"]);
    assert_eq!(crates.list[1].used, ["text"]);
    assert_eq!(crates.list[4].used, ["text", "field"]);
    assert_eq!(crates.layer_complaints(), Vec::<String>::new());
}

/// Each line of the list in other words, with what is said of it then.
const BREACHES: [(&str, &str, &[&str]); 10] = [
    (
        "field:",
        "field: words",
        &["`field` of the group `numbers` uses `words` of the group `texts`, which stands further up"],
    ),
    (
        "text: words",
        "text: print words text_examples",
        &[
            "`text` of the group `texts` uses `print` of the group `programs`, which stands further up",
            "`text` of the group `texts` uses `text_examples` of the group `programs`, which stands further up",
        ],
    ),
    // No name over them, one of two lines, and an empty line in a group.
    ("# texts\n", "", &["`text` stands in no group", "`words` stands in no group"]),
    ("# numbers\n", "# numbers,\n# all of them\n", &["`field` stands in no group"]),
    ("# A remark among them.", "", &["`words` stands in no group"]),
    ("# numbers", "# texts", &["`texts` stands there twice"]),
    ("text_examples: text", "print:", &["`print` stands there twice"]),
    ("field:", "field\nother:", &["`field` is no crate's line", "`other` stands in no group"]),
    ("archive staticlib:", "print staticlib:", &["`print` stands there twice"]),
    ("archive staticlib: text", "archive program: text", &["`archive program: text` is no crate's line"]),
];

#[test]
fn a_breach_is_reported() {
    for (line, other, expected) in BREACHES {
        assert_eq!(LAYERS.matches(line).count(), 1, "{line}");
        let changed = LAYERS.replace(line, other);
        assert_eq!(
            Crates::parse(&changed).layer_complaints(),
            expected,
            "{changed}"
        );
    }
    // In the group above it the crate may use what it likes.
    let moved = LAYERS
        .replace("# texts\n", "")
        .replace("\n\ntext:", "\ntext:");
    let moved = Crates::parse(&moved.replace("text: words", "text: print words"));
    assert_eq!(moved.layer_complaints(), Vec::<String>::new());
}

/// A crate of the lowest group that uses one of the highest is seen in the repository's list too.
#[test]
fn a_breach_in_the_list_of_the_repository_is_reported() {
    let crates = Crates::of_repository();
    let (first, last) = (&crates.list[0], &crates.list[crates.list.len() - 1]);
    let text = crates_text();
    let line = format!("\n{}:", last.name);
    assert_eq!(text.matches(&line).count(), 1);
    let changed = text.replace(&line, &format!("{line} {}", first.name));
    let (user, own) = (&last.name, &crates.groups[last.group.expect("a group")]);
    let (used, other) = (&first.name, &crates.groups[first.group.expect("a group")]);
    let said = format!(
        "`{user}` of the group `{own}` uses `{used}` of the group `{other}`, which stands further up"
    );
    assert!(!crates.layer_complaints().contains(&said));
    assert!(Crates::parse(&changed).layer_complaints().contains(&said));
}

#[test]
fn too_many_crates_are_reported() {
    let list = |count: usize| -> String {
        let lines = (0..count).map(|number| format!("crate_{number}:\n"));
        format!("\n# all\n{}", lines.collect::<String>())
    };
    let complaints = |count: usize| Crates::parse(&list(count)).layer_complaints();
    assert_eq!(MOST_CRATES, 55);
    assert_eq!(complaints(55), Vec::<String>::new());
    assert_eq!(complaints(56), ["56 crates, 55 at most"]);
}

#[test]
#[should_panic(expected = "there is no crate `no_crate`")]
fn nothing_is_below_what_is_no_crate() {
    Crates::of_repository().below("no_crate");
}
