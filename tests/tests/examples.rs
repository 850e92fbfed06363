//! The example files: their jobs, and what the printing program writes for them.

use hanthuvelo::{hex, readable};
use outside_checks::layout::{HeaderForm, Job, LONGEST_JOB};
use outside_checks::paper::examples;
use outside_checks::second::printed;
use std::fs;
use std::path::PathBuf;

fn folder() -> PathBuf {
    PathBuf::from(concat!(env!("CARGO_MANIFEST_DIR"), "/../examples"))
}

fn read(name: &str) -> String {
    fs::read_to_string(folder().join(name)).unwrap_or_else(|error| panic!("{name}: {error}"))
}

/// The bytes of an example's job.
fn packed(name: &str) -> Vec<u8> {
    let job = readable::parse(read(name).as_bytes());
    job.unwrap_or_else(|error| panic!("{name}: {error}")).pack()
}

/// The names of all jobs in the folder, without `.job`.
fn names() -> Vec<String> {
    let entries = fs::read_dir(folder()).expect("the folder of examples");
    let names = entries.map(|entry| entry.expect("an example").file_name());
    let mut names: Vec<String> = names
        .filter_map(|name| Some(name.to_str()?.strip_suffix(".job")?.to_string()))
        .collect();
    names.sort();
    names
}

#[test]
fn the_files_of_the_paper_pack_into_its_bytes() {
    for (index, example) in examples()[..12].iter().enumerate() {
        let name = format!("h{:02}.job", index + 1);
        assert_eq!(example.name, format!("H{}", index + 1));
        let expected = hex::bytes(example.job).expect("the paper's job");
        assert_eq!(packed(&name), expected, "{name}");
    }
}

#[test]
fn every_file_has_its_printed_text() {
    let names = names();
    assert_eq!(names.len(), 19);
    for form in HeaderForm::ALL {
        let has_form = |name: &String| HeaderForm::of(&packed(&format!("{name}.job"))) == form;
        assert!(names.iter().any(has_form), "{form:?}");
    }
    for name in names {
        let text = printed(&packed(&format!("{name}.job")));
        assert_eq!(text, read(&format!("{name}.out")), "{name}");
    }
}

/// Under the longer header it is the longest of all; with a byte more it fills what the program reads.
#[test]
fn one_byte_more_than_the_longest_job() {
    let short = packed("full.job");
    assert_eq!(short.len(), 313);
    let text = printed(&short);
    assert!(text.starts_with("recovered 6\n"));
    let longer = Job::unpack(&short).under(HeaderForm::OwnBounds).pack();
    assert_eq!(longer.len(), LONGEST_JOB);
    assert_eq!(printed(&longer), text);
    for mut input in [short, longer] {
        input.push(0);
        assert_eq!(printed(&input), "refused 3 0\n");
    }
}

#[cfg(feature = "program")]
#[test]
fn the_program_prints_the_text_of_every_file() {
    for name in names() {
        let output = outside_checks::program::run(&[&packed(&format!("{name}.job"))]);
        let output = output.unwrap_or_else(|message| panic!("{message}"));
        let text = String::from_utf8_lossy(&output.stdout);
        assert_eq!(text, read(&format!("{name}.out")), "{name}");
    }
}
