//! The printing program's text against the second solver's.
#![cfg(feature = "program")]

use hanthuvelo::hex;
use outside_checks::jobs::{generate, Random};
use outside_checks::layout::HeaderForm;
use outside_checks::paper::{
    every_example, every_refusal, example, BOUNDS_PRINTED, H1_PRINTED, POLE_PRINTED,
};
use outside_checks::program::{run, run_redirected, run_unread};
use outside_checks::second::printed;
use std::os::unix::process::ExitStatusExt;

const SEED: u64 = 77;

/// Runs the program on the pieces; it must end well and print what the second solver would.
fn compare(pieces: &[&[u8]]) -> String {
    let input = pieces.concat();
    let output = run(pieces).unwrap_or_else(|message| panic!("{message}"));
    let text = String::from_utf8_lossy(&output.stdout).into_owned();
    assert!(
        output.status.success(),
        "{:?} for {}",
        output.status,
        hex::text(&input)
    );
    assert_eq!(text, printed(&input), "input {}", hex::text(&input));
    assert!(output.stderr.is_empty(), "input {}", hex::text(&input));
    text
}

#[test]
fn the_papers_examples() {
    for example in every_example().into_iter().chain(every_refusal()) {
        compare(&[&hex::bytes(example.job).expect("the paper's job")]);
    }
    let printed = [
        ("H1", H1_PRINTED),
        ("H1 with its own bound", H1_PRINTED),
        ("bounds 2, 0, 1", BOUNDS_PRINTED),
        ("two outputs and a pole", POLE_PRINTED),
    ];
    for (name, text) in printed {
        let job = hex::bytes(example(name).job).expect("an example's job");
        assert_eq!(compare(&[&job]), text);
    }
}

#[test]
fn generated_jobs() {
    let (mut answered, mut refused) = (0, 0);
    for index in 0..600 {
        let text = compare(&[&generate(SEED, index).bytes]);
        answered += usize::from(text.starts_with("recovered"));
        refused += usize::from(text.starts_with("refused"));
    }
    assert!(
        answered >= 300 && refused >= 100,
        "{answered} answered, {refused} refused"
    );
}

#[test]
fn no_input() {
    assert_eq!(compare(&[]), "refused 1 0\n");
}

/// An input that cannot be read at all is an empty one.
#[test]
fn closed_input() {
    for redirection in ["<&-", "< /dev/null", "< /"] {
        let output = run_redirected(redirection, &[]).unwrap_or_else(|message| panic!("{message}"));
        assert!(
            output.status.success(),
            "{redirection}: {:?}",
            output.status
        );
        assert_eq!(output.stdout, b"refused 1 0\n", "{redirection}");
        assert!(output.stderr.is_empty(), "{redirection}");
    }
}

/// The text has nowhere to go; the program ends all the same, and says nothing elsewhere.
#[test]
fn output_not_taken() {
    let h1 = hex::bytes(example("H1").job).expect("the paper's job");
    for redirection in [">&-", "> /dev/full"] {
        let output = run_redirected(redirection, &h1).unwrap_or_else(|message| panic!("{message}"));
        assert!(
            output.status.success(),
            "{redirection}: {:?}",
            output.status
        );
        assert!(
            output.stdout.is_empty() && output.stderr.is_empty(),
            "{redirection}"
        );
    }
    // A pipe that nobody reads may end the program by SIGPIPE, as it does any other.
    let output = run_unread(&h1).unwrap_or_else(|message| panic!("{message}"));
    let ended = output.status.success() || output.status.signal() == Some(13);
    assert!(ended && output.stderr.is_empty(), "{:?}", output.status);
}

#[test]
fn input_in_pieces() {
    let mut random = Random::new(SEED, 1000);
    for index in 1000..1060 {
        let bytes = generate(SEED, index).bytes;
        let length = random.between(1, 1 + bytes.len() / 2);
        let pieces: Vec<&[u8]> = bytes.chunks(length).collect();
        compare(&pieces);
    }
}

/// The program reads 318 bytes; with one byte more than the longest job it tests the refusals on those.
#[test]
fn inputs_around_the_longest() {
    for form in HeaderForm::ALL {
        let job = generate_longest(form);
        let length = 310 + form.length();
        assert_eq!(job.len(), length);
        assert!(compare(&[&job]).starts_with("re"));
        for surplus in [1, 2, 3, 4, 5, 6, 100, 5000, 200_000] {
            let mut longer = job.clone();
            longer.resize(length + surplus, 0);
            assert_eq!(compare(&[&longer]), "refused 3 0\n");
            // The last flag, in the first row where the spare bit was 0: refused with 2 by paper 01.
            longer[2] |= 1;
            longer[6] |= 1;
            assert_eq!(compare(&[&longer]), "refused 11 0\n");
            compare(&[&longer[..300], &longer[300..]]);
        }
    }
}

/// A job of 31 rows with four outputs under a header of this form.
fn generate_longest(form: HeaderForm) -> Vec<u8> {
    let jobs = (0..).map(|index| generate(SEED, index).bytes);
    let is_longest = |job: &Vec<u8>| {
        job.len() == 310 + form.length()
            && HeaderForm::of(job) == form
            && printed(job) != "refused 3 0\n"
    };
    jobs.into_iter().find(is_longest).expect("a job")
}
