//! `hanthuvelo check`: what it prints where, its exit status, and bad inputs.

#[path = "support/made.rs"]
mod made;
mod support;
#[path = "support/words.rs"]
mod words;

use hanthuvelo::hex;
use made::{Made, ACCEPTED};
use outside_checks::jobs::generate;
use outside_checks::paper::{example, refusals};
use support::own_bounds::has_own_bounds;
use support::{
    assert_done, assert_fails, assert_prints, example_names, file, folder, run, run_on,
    stream_jobs, Run,
};
use words::REFUSED;

const SEED: u64 = 42;

fn bytes(text: &str) -> Vec<u8> {
    hex::bytes(text).expect("bytes")
}

/// What a check says of a job that a recovery refuses in these words: the area and the answer, of which 7 and 8 speak, are
/// not looked at.
fn said_of_form(refused: &'static str) -> &'static str {
    match refused.as_bytes()[8] {
        b'7' | b'8' => ACCEPTED,
        _ => refused,
    }
}

/// The object of a job, from its place and what is said of it in words.
fn object(place: &str, said: &str) -> String {
    let Some(refused) = said.strip_prefix("refused ") else {
        return format!("{{{place},\"status\":\"{said}\"}}\n");
    };
    let (number, reason) = refused.split_once(": ").expect("a reason");
    let (number, row) = number.split_once(", row ").unwrap_or((number, "0"));
    let members = format!("\"refusal\":{number},\"row\":{row},\"reason\":\"{reason}\"");
    format!("{{{place},\"status\":\"refused\",{members}}}\n")
}

/// From a file and from standard input, in words and as an object.
#[test]
fn each_refusal_is_said() {
    let folder = folder("check-paper");
    assert_eq!(refusals().len(), REFUSED.len());
    for (example, said) in refusals().into_iter().zip(REFUSED.map(said_of_form)) {
        let job = bytes(example.job);
        let name = file(&folder, "job", &job);
        let status = i32::from(said != ACCEPTED);
        let text = run(&["check", "--binary", &name]);
        assert_prints(&text, &format!("{name}: {said}\n"), status);
        let json = run(&["check", "--binary", "--json", &name]);
        assert_prints(
            &json,
            &object(&format!("\"file\":\"{name}\""), said),
            status,
        );
        let input = run_on(&["check", "--binary", "-"], &job);
        assert_prints(&input, &format!("standard input: {said}\n"), status);
        let refused = run(&["check", "--binary", "--refused", &name]);
        let line = match said {
            ACCEPTED => String::new(),
            _ => format!("{name}: {said}\n"),
        };
        assert_prints(&refused, &line, status);
    }
}

/// Readable jobs and binary ones are told apart, unless a form is forced.
#[test]
fn each_form_is_taken() {
    let readable = "prime 7 outputs 1 df 0 dg 0 errors 1\n0: 5\n1: 5\n2: 2\n";
    let accepted = "standard input: accepted\n";
    let packed = bytes(example("H1").job);
    for job in [readable.as_bytes(), &packed] {
        assert_done(&run_on(&["check", "-"], job), accepted);
    }
    let forced = run_on(&["check", "--readable", "-"], readable.as_bytes());
    assert_done(&forced, accepted);
    let binary = run_on(&["check", "--readable", "-"], &packed);
    assert_fails(&binary, "standard input, line 1: expected text in UTF-8");
    // The third byte is an `i`, 0x69, which is odd, and ` 7`, 0x20 0x37, ends in the twelve bits behind the bounds.
    let text = run_on(&["check", "--binary", "-"], readable.as_bytes());
    let refused =
        "standard input: refused 11: the flag bits are 000000110111, not all 0 behind the first\n";
    assert_prints(&text, refused, 1);
    let nothing = "standard input: refused 1: expected 3 bytes or more, found 0\n";
    assert_prints(&run_on(&["check", "-"], &[]), nothing, 1);
}

/// Of the examples H11 alone is refused by its form; H7 and H9 have no answer.
#[test]
fn a_folder_is_its_jobs_by_name() {
    let names = example_names();
    let refused = "refused 5, row 0: a point or a value is 65521 or more";
    let line = |name: &String| match name.as_str() {
        "h11.job" => format!("examples/{name}: {refused}\n"),
        _ => format!("examples/{name}: accepted\n"),
    };
    let lines: String = names.iter().map(line).collect();
    let files: Vec<String> = names
        .iter()
        .map(|name| format!("examples/{name}"))
        .collect();
    let files: Vec<&str> = files.iter().map(String::as_str).collect();
    let (jobs, accepted) = (names.len(), names.len() - 1);
    for all in [
        run(&["check", "examples"]),
        run(&[&["check"], &files[..]].concat()),
    ] {
        assert_eq!((all.text.as_str(), all.status), (lines.as_str(), 1));
        assert_summary(&all, jobs, accepted);
    }
    let quiet = run(&["check", "--quiet", "examples"]);
    assert_prints(&quiet, &lines, 1);
    let refused = run(&["check", "--quiet", "--refused", "examples"]);
    assert_prints(&refused, &line(&"h11.job".to_string()), 1);
    let good = run(&[
        "check",
        "--quiet",
        "--refused",
        "examples/h07.job",
        "examples/h09.job",
    ]);
    assert_done(&good, "");
}

fn lines(name: &str, jobs: &[Made]) -> String {
    let line = |job: &Made| {
        let Made {
            number, byte, said, ..
        } = job;
        format!("{name}, job {number} at byte {byte}: {said}\n")
    };
    jobs.iter().map(line).collect()
}

fn objects(name: &str, jobs: &[Made]) -> String {
    let object = |job: &Made| {
        let (number, byte) = (job.number, job.byte);
        let place = format!("\"file\":\"{name}\",\"job\":{number},\"byte\":{byte}");
        object(&place, &job.said)
    };
    jobs.iter().map(object).collect()
}

fn assert_summary(run: &Run, jobs: usize, accepted: usize) {
    let refused = jobs - accepted;
    let summary = format!("{jobs} jobs: {accepted} accepted, {refused} refused; ");
    assert!(run.said.starts_with(&summary), "{}", run.said);
    assert!(run.said.ends_with(" jobs a second\n"), "{}", run.said);
    assert_eq!(run.said.lines().count(), 1, "{}", run.said);
}

#[test]
fn damaged_jobs_of_a_stream_are_named() {
    let jobs = made::stream(8000);
    let stream = made::bytes_of(&jobs);
    let with = |start: &str| {
        jobs.iter()
            .filter(|job| job.said.starts_with(start))
            .count()
    };
    let accepted = with(ACCEPTED);
    assert!(accepted > 4000, "{accepted}");
    // No job meets 2; where its spare bit is 1 it has the longer header, and meets 11 where that breaks a rule.
    for refusal in [
        "refused 11: the flag bits",
        "refused 11: ",
        "refused 4:",
        "refused 5, row ",
        "refused 6, row ",
    ] {
        assert!(with(refusal) > 400, "{refusal} {}", with(refusal));
    }
    let all = lines("standard input", &jobs);
    for threads in ["1", "2", "3", "7"] {
        let run = run_on(&["check", "--stream", "--threads", threads, "-"], &stream);
        assert!(run.text == all, "on {threads} threads");
        assert_eq!(run.status, 1);
        assert_summary(&run, jobs.len(), accepted);
    }
    let json = run_on(&["check", "--stream", "--json", "--quiet", "-"], &stream);
    let all = objects("standard input", &jobs);
    assert!(json.text == all, "other objects");
    assert_eq!((json.said.as_str(), json.status), ("", 1));
}

/// With `--refused` a file of jobs has a line for each damaged one, and the summary counts all.
#[test]
fn refused_jobs_alone_are_printed_where_asked() {
    let jobs = made::stream(3000);
    let folder = folder("check-refused");
    let name = file(&folder, "stream", &made::bytes_of(&jobs));
    let (good, bad): (Vec<Made>, Vec<Made>) =
        jobs.into_iter().partition(|job| job.said == ACCEPTED);
    let text = run(&["check", "--refused", "--stream", &name]);
    assert_eq!((text.text, text.status), (lines(&name, &bad), 1));
    let json = run(&["check", "--refused", "--json", "--stream", &name]);
    assert_eq!((&json.text, json.status), (&objects(&name, &bad), 1));
    assert_summary(&json, 3000, good.len());
    let name = file(&folder, "good", &made::bytes_of(&good));
    let none = run(&["check", "--refused", "--stream", &name]);
    assert_eq!((none.text.as_str(), none.status), ("", 0));
    assert_summary(&none, good.len(), good.len());
}

/// A stream that is cut anywhere: the whole jobs are checked, and the broken one is named.
#[test]
fn a_broken_stream_names_the_job_that_breaks_off() {
    let jobs = made::stream(6);
    let stream = made::bytes_of(&jobs);
    let longer = jobs.iter().filter(|job| has_own_bounds(&job.bytes));
    assert!((2..5).contains(&longer.count()));
    for (index, job) in jobs.iter().enumerate() {
        let (number, start, length) = (job.number, job.byte, job.bytes.len());
        let whole = lines("standard input", &jobs[..index]);
        for found in 1..length {
            let needed = match found {
                1 | 2 => "at least 3".to_string(),
                3..7 if has_own_bounds(&job.bytes) => "at least 7".to_string(),
                _ => length.to_string(),
            };
            let message = format!(
                "the stream breaks off inside job {number}, which begins at byte {start}: \
                 expected {needed} bytes, found {found}"
            );
            let cut = &stream[..start + found];
            let text = run_on(&["check", "--stream", "--quiet", "-"], cut);
            assert_eq!((&text.text, text.status), (&whole, 2));
            assert_eq!(text.said, format!("standard input: {message}\n"));
            if found + 1 == length {
                let json = run_on(&["check", "--stream", "--refused", "--json", "-"], cut);
                let place =
                    format!("\"file\":\"standard input\",\"job\":{number},\"byte\":{start}");
                let last =
                    format!("{{{place},\"status\":\"unreadable\",\"message\":\"{message}\"}}\n");
                assert!(json.text.ends_with(&last), "{}", json.text);
            }
        }
    }
}

/// Inputs that cannot be read are named, the others are checked all the same, and the status is 2.
#[test]
fn a_bad_input_does_not_stop_the_others() {
    let files = [
        "none.job",
        "examples/h11.job",
        "README.md",
        "examples/h01.job",
    ];
    let run_files = |words: &[&str]| run(&[&["check"], words, &files].concat());
    let text = run_files(&[]);
    let refused = "examples/h11.job: refused 5, row 0: a point or a value is 65521 or more\n";
    assert_eq!(text.text, format!("{refused}examples/h01.job: accepted\n"));
    let missing =
        "none.job: expected a job: No such file or directory (os error 2)\nREADME.md, line 3: ";
    assert!(text.said.starts_with(missing), "{}", text.said);
    let summary = "\n2 jobs: 1 accepted, 1 refused; 2 inputs could not be read; ";
    assert!(text.said.contains(summary), "{}", text.said);
    assert_eq!(text.status, 2);
    let json = run_files(&["--json"]);
    let statuses = ["unreadable", "refused", "unreadable", "accepted"];
    assert_eq!(json.text.lines().count(), statuses.len());
    for (line, status) in json.text.lines().zip(statuses) {
        assert!(line.contains(&format!("\"status\":\"{status}\"")), "{line}");
    }
}

/// What a check says of the jobs that `recover` printed this of: its refusals 1, 11, 3 to 5, 12 and 6 in the same words, and
/// `accepted` for what it recovered or refused with 8; with how many of each refusal there are, 0 for the recovered jobs.
fn by_recovery(recovered: &str) -> (String, [usize; 13]) {
    let (mut lines, mut met) = (String::new(), [0; 13]);
    for line in recovered.lines().filter(|line| !line.starts_with(' ')) {
        let refused = line.split_once(": refused ");
        let number = refused.map_or(0, |(_, rest)| {
            let digits = rest.split([',', ':']).next();
            digits
                .and_then(|digits| digits.parse().ok())
                .expect("a number")
        });
        met[number] += 1;
        lines += &match refused.or_else(|| line.split_once(": recovered ")) {
            Some((place, _)) if matches!(number, 0 | 8) => format!("{place}: accepted\n"),
            _ => format!("{line}\n"),
        };
    }
    (lines, met)
}

/// On generated jobs of every kind, in a stream and as files of any length.
#[test]
fn recover_says_the_same() {
    let stream = stream_jobs(SEED, 4000).concat();
    let folder = folder("check-generated");
    for index in 0..2000 {
        let job = generate(SEED + 1, index).bytes;
        file(&folder, &format!("{index:04}.job"), &job);
    }
    let name = folder.to_str().expect("a plain name");
    let mut met = [0; 13];
    for (words, input) in [(["--stream", "-"], &stream[..]), (["--binary", name], &[])] {
        let run_verb = |verb: &str| run_on(&[&[verb], &words[..]].concat(), input);
        let (expected, numbers) = by_recovery(&run_verb("recover").text);
        let checked = run_verb("check");
        assert!(checked.text == expected, "{words:?}");
        let accepted = numbers[0] + numbers[8];
        assert_summary(&checked, numbers.iter().sum(), accepted);
        for (all, more) in met.iter_mut().zip(numbers) {
            *all += more;
        }
    }
    let is_met = |number: usize| met[number] >= 10;
    // 2 has no job any more; the jobs that met it meet 1 or 11.
    assert!([0, 1, 3, 4, 5, 6, 8, 11].into_iter().all(is_met), "{met:?}");
}
