//! `docs/TRIAL.md`, the example worked out by hand, against every writer and the example's file.

use hanthuvelo::{hex, readable, Written};
use outside_checks::layout::value_at;
use outside_checks::pages::tables::table;
use outside_checks::second::next_word;
use outside_checks::{implementations, writers};
use std::fs;

const ROOT: &str = concat!(env!("CARGO_MANIFEST_DIR"), "/..");

fn read(name: &str) -> String {
    let path = format!("{ROOT}/{name}");
    fs::read_to_string(&path).unwrap_or_else(|error| panic!("{path}: {error}"))
}

/// What the page's only indented line with this label says.
fn said(page: &str, label: &str) -> String {
    let lines = page.lines().filter_map(|line| line.strip_prefix("    "));
    let mut found = lines.filter_map(|line| line.strip_prefix(label)?.strip_prefix(' '));
    let text = found.next().unwrap_or_else(|| panic!("no {label}"));
    assert_eq!(found.next(), None, "{label}");
    text.trim().to_string()
}

fn bytes(page: &str, label: &str) -> Vec<u8> {
    hex::bytes(&said(page, label)).unwrap_or_else(|error| panic!("{label}: {error}"))
}

fn number(text: &str) -> u32 {
    text.parse().unwrap_or_else(|_| panic!("{text}: no number"))
}

fn start(page: &str) -> u32 {
    u32::from_str_radix(&said(page, "start"), 16).expect("a word")
}

#[test]
fn every_writer_writes_the_job_of_the_page() {
    let page = read("docs/TRIAL.md");
    let (header, coefficients) = (bytes(&page, "header"), bytes(&page, "coefficients"));
    let (spoiled, job) = (number(&said(&page, "spoiled")), bytes(&page, "job"));
    for writer in writers() {
        let mut area = vec![0xA5; job.len() + 2];
        let written = (writer.trial)(&header, &coefficients, start(&page), spoiled, &mut area);
        assert_eq!(written, Written::bytes(job.len() as u32), "{}", writer.name);
        assert_eq!(area, [&job[..], &[0xA5; 2]].concat(), "{}", writer.name);
    }
    for implementation in implementations() {
        let mut area = vec![0; 254];
        let report = (implementation.recover)(&job, &mut area);
        let answer = &area[..report.written as usize];
        assert_eq!(answer, bytes(&page, "answer"), "{}", implementation.name);
        assert_eq!((report.refusal, report.wrong), (0, 2));
        assert_eq!(answer[4..], coefficients);
    }
}

#[test]
fn the_examples_file_is_the_trial_of_the_page() {
    let page = read("docs/TRIAL.md");
    let trial = readable::parse_trial(read("examples/pole.trial").as_bytes()).expect("a trial");
    assert_eq!(trial.header()[..], bytes(&page, "header"));
    assert_eq!(trial.coefficients(), bytes(&page, "coefficients"));
    assert_eq!(trial.start, start(&page));
    assert_eq!(trial.spoiled, number(&said(&page, "spoiled")));
}

/// The table of rows: g and the values before the spoiling by the definition, the written ones by the job.
#[test]
fn the_table_of_rows_has_the_values_of_the_job() {
    let page = read("docs/TRIAL.md");
    let rows = table(&page, "point");
    assert_eq!(rows.len(), 7);
    let job = bytes(&page, "job");
    for (place, cells) in rows.iter().enumerate() {
        let cells: Vec<u32> = cells.iter().map(|cell| number(cell)).collect();
        let &[point, g, first, second, written_first, written_second] = &cells[..] else {
            panic!("six cells in row {place}");
        };
        assert_eq!(point as usize, place);
        assert_eq!(g, value_at(&[1, 1], point, 7));
        let fits = match g {
            0 => first == 0 && second == 0,
            _ => g * first % 7 == 5 && g * second % 7 == 1,
        };
        assert!(fits && first < 7 && second < 7, "{cells:?}");
        let written = [point, written_first, written_second];
        let written = written.map(|number| (number as u16).to_be_bytes()).concat();
        assert_eq!(written, job[3 + 6 * place..][..6]);
    }
}

#[test]
fn the_table_of_draws_has_the_words_from_the_start() {
    let page = read("docs/TRIAL.md");
    let draws = table(&page, "draw");
    assert_eq!(draws.len(), 4);
    let mut word = start(&page);
    for (index, cells) in draws.iter().enumerate() {
        word = next_word(word);
        let (top, modulus) = (word >> 16, [7, 6][index % 2]);
        assert_eq!(cells[0], (index + 1).to_string());
        assert_eq!(cells[1], format!("{word:08X}"));
        assert_eq!(cells[2], top.to_string());
        assert_eq!(cells[3], format!("{} of {modulus}", top % modulus));
    }
}
