//! `hanthuvelo trial`: what it prints where, its exit status, and bad inputs.

mod support;

use hanthuvelo::{hex, readable, LONGEST_JOB};
use outside_checks::jobs::trial::generate;
use outside_checks::second::trial_job;
use std::fs;
use support::own_bounds::{df_of, has_own_bounds, header_length, outputs_of, Added};
use support::{
    assert_done, assert_fails, file, folder, run, run_on, run_redirected, PAGE_RECOVERED, ROOT,
};

const EXAMPLE: &str = "examples/pole.trial";
/// The job of docs/TRIAL.md.
const JOB: &str = "\
prime 7 outputs 2 df 0 dg 1 errors 2
0: 2 1
1: 6 4
2: 4 5
3: 3 2
4: 1 3
5: 2 6
6: 2 0
";
const HEX: &str =
    "138024000000020001000100060004000200040005000300030002000400010003000500020006000600020000\n";

fn example() -> Vec<u8> {
    fs::read(format!("{ROOT}/{EXAMPLE}")).expect("an example")
}

#[test]
fn a_trial_is_a_readable_job() {
    let read = run(&["trial", EXAMPLE]);
    assert_eq!(
        (read.text.as_str(), read.said.as_str(), read.status),
        (JOB, "", 0)
    );
    let piped = run_on(&["trial", "-"], &example());
    assert_eq!((piped.text.as_str(), piped.status), (JOB, 0));
    let recovered = run_on(&["recover", "-"], &read.out);
    assert_done(&recovered, PAGE_RECOVERED);
}

#[test]
fn a_trial_is_bytes_where_asked() {
    let text = run(&["trial", "--bytes", "--hex", EXAMPLE]);
    assert_eq!((text.text.as_str(), text.status), (HEX, 0));
    let bytes = run(&["trial", EXAMPLE, "--bytes", EXAMPLE]);
    let job = hex::bytes(HEX).expect("bytes");
    assert_eq!((bytes.out, bytes.status), (job.repeat(2), 0));
    assert_eq!(run_on(&["pack", "-"], JOB.as_bytes()).out, job);
    let both = run(&["trial", EXAMPLE, EXAMPLE]);
    assert_eq!(both.text, format!("# {EXAMPLE}\n{JOB}").repeat(2));
}

/// Without spoiled rows there are the values of the fractions; with one, row 6 is another.
#[test]
fn options_stand_for_what_the_file_says() {
    let none = run(&["trial", "--spoiled", "0", EXAMPLE]).text;
    let right = JOB.replace("0: 2 1", "0: 5 1").replace("6: 2 0", "6: 0 0");
    assert_eq!(none, right);
    let one = run(&["trial", "--spoiled", "1", EXAMPLE]).text;
    assert_eq!(one, right.replace("6: 0 0", "6: 2 0"));
    let other = run(&["trial", "--start", "4294967295", EXAMPLE]).text;
    let text = String::from_utf8(example()).expect("text");
    let changed = text.replace("start 14", "start 4294967295");
    assert_eq!(run_on(&["trial", "-"], changed.as_bytes()).text, other);
    assert_ne!(other, JOB);
}

#[test]
fn a_refusal_goes_to_standard_error() {
    let words = "refused 9: 8 rows are to be spoiled, the job has 7 rows\n";
    for form in [&[][..], &["--bytes"], &["--bytes", "--hex"]] {
        let run = run(&[&["trial", EXAMPLE, "--spoiled", "8"], form].concat());
        assert_eq!((run.text.as_str(), run.status), ("", 1));
        assert_eq!(run.said, format!("{EXAMPLE}: {words}"));
    }
    let text = String::from_utf8(example()).expect("text");
    let folder = folder("refused-trial");
    let bad = text.replace("g = 1 + u", "g = 1 + 3 u");
    let bad = file(&folder, "bad.trial", bad.as_bytes());
    let both = run(&["trial", &bad, EXAMPLE]);
    let words = "refused 10: the leading coefficient of g is 3, not 1\n";
    assert_eq!(both.said, format!("{bad}: {words}"));
    assert_eq!((both.text, both.status), (format!("# {EXAMPLE}\n{JOB}"), 1));
}

#[test]
fn files_that_cannot_be_read_are_named() {
    let folder = folder("unreadable-trial");
    let text = String::from_utf8(example()).expect("text");
    let bad = text.replace("f2 = 1", "f2 = 1 + u");
    let bad = file(&folder, "bad.trial", bad.as_bytes());
    let job = file(&folder, "job", &hex::bytes(HEX).expect("bytes"));
    for (name, message) in [
        (
            "none.trial",
            ": expected a trial: No such file or directory (os error 2)",
        ),
        ("examples", ": expected a trial: found a directory"),
        (
            "/dev/zero",
            ": expected a trial, found more than 1048576 bytes",
        ),
        (
            &bad,
            ", line 7: expected f2 of degree 0 at most, found degree 1",
        ),
        (&job, ", line 1: expected text in UTF-8"),
        (
            "examples/h01.job",
            ", line 3: expected `rows L start S spoiled W`, found `0: 5`",
        ),
    ] {
        assert_fails(&run(&["trial", EXAMPLE, name]), &format!("{name}{message}"));
    }
    let empty = run_on(&["trial", "-"], &[]);
    let message = "standard input, line 1: expected `prime P outputs N df D.. dg D errors E`\n";
    assert_eq!((empty.said.as_str(), empty.status), (message, 2));
    let full = run_redirected("trial examples/pole.trial", "> /dev/full");
    let message = "standard output: No space left on device (os error 28)\n";
    assert_eq!((full.said.as_str(), full.status), (message, 2));
}

/// The command on generated trials as text, against the second writer.
#[test]
fn generated_trials_are_written_or_refused() {
    let (mut written, mut refused) = (0, 0);
    for index in 0..600 {
        let call = generate(33, index);
        let Some(text) = trial_text(&call.header, &call.coefficients) else {
            continue;
        };
        let (start, spoiled) = (call.start.to_string(), call.spoiled.to_string());
        let words = [
            "trial",
            "--bytes",
            "--start",
            &start,
            "--spoiled",
            &spoiled,
            "-",
        ];
        let run = run_on(&words, text.as_bytes());
        match trial_job(
            &call.header,
            &call.coefficients,
            call.start,
            call.spoiled,
            LONGEST_JOB,
        ) {
            Ok(job) => {
                assert_eq!((run.out, run.status), (job.bytes, 0), "{}", call.describe());
                written += 1;
            }
            Err(number) => {
                let start = format!("standard input: refused {number}: ");
                assert!(run.said.starts_with(&start), "{}", run.said);
                assert_eq!((run.text.as_str(), run.status), ("", 1));
                refused += 1;
            }
        }
    }
    assert!(written > 250 && refused > 50, "{written}, {refused}");
}

/// The bound of each output, and the words that stand for them behind `df`; none where the bytes are not a whole header, or
/// one that breaks a rule.
fn bounds_and_words(header: &[u8]) -> Option<(Vec<usize>, String)> {
    let is_whole = header.len() >= 3 && header.len() == header_length(header);
    if !is_whole {
        return None;
    }
    let (outputs, df) = (outputs_of(header), df_of(header));
    if !has_own_bounds(header) {
        return Some((vec![df; outputs], df.to_string()));
    }
    let added = Some(Added::of(header)).filter(|added| !added.breaks_a_rule(header))?;
    let bounds = added.bounds[..outputs].to_vec();
    let words: Vec<String> = bounds.iter().map(usize::to_string).collect();
    let word = match (added.flags, outputs) {
        (0, 1) => " long",
        (0, _) => "",
        _ => " marks",
    };
    Some((bounds, words.join(" ") + word))
}

/// The readable trial of these bytes, every term written out; none where they do not fit each other.
fn trial_text(header: &[u8], coefficients: &[u8]) -> Option<String> {
    let (bounds, df) = bounds_and_words(header)?;
    let bits = u32::from_be_bytes([0, header[0], header[1], header[2]]);
    let field = |above: u32, width: u32| bits >> above & ((1 << width) - 1);
    let prime = [7, 97, 257, 65521][field(22, 2) as usize];
    let (outputs, rows, dg) = (bounds.len(), field(15, 5), field(5, 5) as usize);
    let widths = std::iter::once(dg + 1).chain(bounds.iter().map(|bound| bound + 1));
    if coefficients.len() != 2 * widths.clone().sum::<usize>() {
        return None;
    }
    let mut text = format!(
        "prime {prime} outputs {outputs} df {df} dg {dg} errors {}\nrows {rows} start 0 spoiled 0\n",
        field(1, 4)
    );
    let mut rest = coefficients.chunks(2);
    for (place, width) in widths.enumerate() {
        let term = |power| {
            let pair = rest.next().expect("a coefficient");
            format!(
                "{} u^{power}",
                u32::from(pair[0]) * 256 + u32::from(pair[1])
            )
        };
        let terms: Vec<String> = (0..width).map(term).collect();
        let name = match place {
            0 => "g".to_string(),
            output => format!("f{output}"),
        };
        text += &format!("{name} = {}\n", terms.join(" + "));
    }
    assert!(readable::is_readable(text.as_bytes()));
    Some(text)
}
