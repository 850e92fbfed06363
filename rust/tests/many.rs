//! The command on many jobs: order, places, broken streams, progress.

mod support;
#[path = "support/terminal.rs"]
mod terminal;

use hanthuvelo::{hex, Report};
use outside_checks::layout::{HeaderForm, Job, Mark};
use outside_checks::second;
use std::fs::File;
use std::io::{BufRead, BufReader, Read, Write};
use std::process::Stdio;
use std::thread;
use std::time::Duration;
use support::own_bounds::{has_own_bounds, header_length, known_by};
use support::{command, file, folder, run, run_on, stream_jobs, Run};

const SEED: u64 = 12;

/// What the second solver makes of a job: its report, and the area's bytes. It is asked for the same job with the short header
/// where the longer one has equal bounds, as both have the same answer.
fn outside(job: &[u8]) -> (Report, Vec<u8>) {
    let Some(job) = known_by(job) else {
        return (Report::refused(11, 0), Vec::new());
    };
    let mut area = vec![0; 254];
    let report = second::recover(&job, &mut area);
    area.truncate(report.written as usize);
    (report, area)
}

/// The numbers in the line of the printing program's text that begins with a label.
fn numbers_of(text: &str, label: &str) -> Option<Vec<usize>> {
    let line = text
        .lines()
        .find(|line| line.split(' ').next() == Some(label))?;
    Some(
        line.split(' ')
            .skip(1)
            .map(|word| word.parse().expect("a number"))
            .collect(),
    )
}

fn joined(numbers: &[usize]) -> String {
    let words: Vec<String> = numbers.iter().map(usize::to_string).collect();
    words.join(",")
}

/// The object of a job in a stream, made from what the printing program would write for it; of a
/// refused job without the reason.
fn expected_object(job: &[u8], number: usize, byte: usize) -> String {
    let place = format!("{{\"file\":\"standard input\",\"job\":{number},\"byte\":{byte}");
    let known_by = known_by(job);
    let text = known_by.map_or("refused 11 0\n".to_string(), |job| second::printed(&job));
    if let Some(refused) = numbers_of(&text, "refused") {
        let (refusal, row) = (refused[0], refused[1]);
        return format!("{place},\"status\":\"refused\",\"refusal\":{refusal},\"row\":{row},");
    }
    let prime = [7, 97, 257, 65521][usize::from(job[0] / 64)];
    let outputs = usize::from(job[0] / 16 % 4) + 1;
    let labels = (1..=outputs).map(|output| format!("f{output}"));
    let f: Vec<String> = labels
        .map(|label| {
            format!(
                "[{}]",
                joined(&numbers_of(&text, &label).expect("a numerator"))
            )
        })
        .collect();
    let point = |row: usize| {
        let start = header_length(job) + row * 2 * (1 + outputs);
        usize::from(job[start]) * 256 + usize::from(job[start + 1])
    };
    let wrong: Vec<String> = numbers_of(&text, "wrong")
        .expect("the wrong rows")
        .into_iter()
        .map(|row| format!("{{\"row\":{row},\"point\":{}}}", point(row)))
        .collect();
    let g = joined(&numbers_of(&text, "g").expect("a denominator"));
    let margin = joined(&numbers_of(&text, "margin").expect("a margin"));
    let (f, wrong, marks) = (f.join(","), wrong.join(","), expected_marks(job));
    format!("{place},\"status\":\"recovered\",\"prime\":{prime},\"g\":[{g}],\"f\":[{f}],\"wrong\":[{wrong}]{marks},\"margin\":{margin}}}")
}

/// The rows that report a pole and the silent ones, where the header has the flag.
fn expected_marks(job: &[u8]) -> String {
    let job = Job::unpack(job);
    if job.header != HeaderForm::Flagged {
        return String::new();
    }
    let [poles, silent] = Mark::ALL.map(|mark| {
        let rows = job.marked(mark).into_iter();
        let point = |row: usize| job.rows[row].point;
        let rows = rows.map(|row| format!("{{\"row\":{row},\"point\":{}}}", point(row)));
        rows.collect::<Vec<String>>().join(",")
    });
    format!(",\"poles\":[{poles}],\"silent\":[{silent}]")
}

#[test]
fn results_come_in_order_on_any_number_of_threads() {
    let jobs = stream_jobs(SEED, 6000);
    let stream = jobs.concat();
    let mut byte = 0;
    let mut objects = Vec::new();
    let (mut refused, mut refusals) = (0, [0; 13]);
    for (number, job) in jobs.iter().enumerate() {
        objects.push(expected_object(job, number, byte));
        byte += job.len();
        let refusal = outside(job).0.refusal as usize;
        refusals[refusal] += 1;
        refused += usize::from(refusal != 0);
    }
    let met = refusals.iter().filter(|&&count| count >= 20).count();
    assert!(met >= 6 && refusals[0] > 3000, "{refusals:?}");
    assert!(refusals[11] >= 150, "{refusals:?}");
    assert!(refusals[12] >= 50, "{refusals:?}");
    let longer = jobs.iter().filter(|job| has_own_bounds(job)).count();
    assert!((2000..5000).contains(&longer), "{longer}");
    for threads in ["1", "2", "3", "7"] {
        let run = run_on(
            &["recover", "--stream", "--json", "--threads", threads, "-"],
            &stream,
        );
        assert_eq!((run.text.lines().count(), run.status), (jobs.len(), 1));
        for (line, expected) in run.text.lines().zip(&objects) {
            assert!(line.starts_with(expected.as_str()), "{line}\n{expected}");
        }
        let summary = format!(
            "6000 jobs: {} recovered, {refused} refused; ",
            6000 - refused
        );
        assert!(run.said.starts_with(&summary), "{}", run.said);
    }
}

#[test]
fn bytes_are_those_of_the_second_solver() {
    let jobs = stream_jobs(SEED + 1, 4000);
    let folder = folder("bytes");
    let name = file(&folder, "stream", &jobs.concat());
    let (mut answers, mut lines, mut places) = (Vec::new(), String::new(), Vec::new());
    let mut byte = 0;
    for (number, job) in jobs.iter().enumerate() {
        let (report, answer) = outside(job);
        if report.is_recovered() {
            lines += &(hex::text(&answer) + "\n");
            answers.extend(answer);
        } else {
            let refusal = report.refusal;
            places.push(format!(
                "{name}, job {number} at byte {byte}: refused {refusal}"
            ));
        }
        byte += job.len();
    }
    assert!(places.len() > 300);
    let bytes = run(&["recover", "--stream", "--bytes", &name]);
    assert_eq!((bytes.out, bytes.status), (answers, 1));
    for (line, place) in bytes.said.lines().zip(&places) {
        assert!(line.starts_with(place.as_str()), "{line}\n{place}");
    }
    assert_eq!(bytes.said.lines().count(), places.len() + 1);
    let text = run(&["recover", "--stream", "--bytes", "--hex", "--quiet", &name]);
    assert_eq!(text.text, lines);
}

/// Four jobs of few bytes, to be cut at every byte: two with each header, the longer one first and third.
fn small_jobs() -> Vec<Vec<u8>> {
    let jobs = stream_jobs(SEED + 2, 400).into_iter();
    let (longer, short): (Vec<_>, Vec<_>) = jobs
        .filter(|job| job.len() < 60)
        .partition(|job| has_own_bounds(job));
    let pairs = longer.into_iter().zip(short).take(2);
    let small: Vec<Vec<u8>> = pairs.flat_map(|(one, other)| [one, other]).collect();
    assert_eq!(small.len(), 4);
    small
}

/// A stream that is cut anywhere: the whole jobs are answered, and the broken one is named.
#[test]
fn a_broken_stream_names_the_job_that_breaks_off() {
    let jobs = small_jobs();
    let stream = jobs.concat();
    for cut in 1..stream.len() {
        let (mut whole, mut start) = (0, 0);
        while start + jobs[whole].len() <= cut {
            start += jobs[whole].len();
            whole += 1;
        }
        let run = run_on(&["recover", "--stream", "--bytes", "-"], &stream[..cut]);
        let answers = jobs[..whole].iter().flat_map(|job| outside(job).1);
        assert_eq!(run.out, answers.collect::<Vec<u8>>(), "{cut}");
        assert_eq!(run.status == 2, start != cut, "{cut}: {}", run.said);
        let found = cut - start;
        let needed = match found {
            0 => {
                assert!(!run.said.contains("breaks off"), "{cut}: {}", run.said);
                continue;
            }
            1 | 2 => "at least 3".to_string(),
            3..7 if has_own_bounds(&jobs[whole]) => "at least 7".to_string(),
            _ => jobs[whole].len().to_string(),
        };
        let message = format!(
            "standard input: the stream breaks off inside job {whole}, which begins at byte {start}: \
             expected {needed} bytes, found {found}\n"
        );
        assert!(run.said.contains(&message), "{cut}: {}", run.said);
    }
}

#[test]
fn a_broken_stream_has_an_object() {
    let jobs = small_jobs();
    let stream = jobs.concat();
    let cut = &stream[..stream.len() - 1];
    let run = run_on(&["recover", "--stream", "--json", "-"], cut);
    let start = stream.len() - jobs[3].len();
    let last = run.text.lines().last().expect("an object");
    let place = format!("{{\"file\":\"standard input\",\"job\":3,\"byte\":{start}");
    let message = "\"status\":\"unreadable\",\"message\":\"the stream breaks off";
    assert!(last.starts_with(&format!("{place},{message}")), "{last}");
}

#[test]
fn an_empty_or_missing_stream_is_named() {
    let empty = run_on(&["recover", "--stream", "-"], &[]);
    assert!(
        empty
            .said
            .starts_with("standard input: expected jobs, found an empty stream\n"),
        "{}",
        empty.said
    );
    assert_eq!((empty.text.as_str(), empty.status), ("", 2));
    let directory = run(&["recover", "--stream", "examples"]);
    assert!(directory
        .said
        .starts_with("examples: expected a stream of jobs: found a directory\n"));
    assert_eq!(directory.status, 2);
    let folder = folder("streams");
    let jobs = stream_jobs(SEED + 3, 600);
    let one = file(&folder, "one", &jobs[..300].concat());
    let two = file(&folder, "two", &jobs[300..].concat());
    let all = run(&["recover", "--stream", "--bytes", &one, "none", &two]);
    assert!(all
        .said
        .contains("none: expected a stream of jobs: No such file or directory (os error 2)\n"));
    assert_eq!(all.status, 2);
    let answers: Vec<u8> = jobs.iter().flat_map(|job| outside(job).1).collect();
    assert_eq!(all.out, answers);
    let refused = jobs[300..]
        .iter()
        .position(|job| outside(job).0.refusal != 0)
        .expect("a refusal");
    let byte: usize = jobs[300..300 + refused].iter().map(Vec::len).sum();
    assert!(all
        .said
        .contains(&format!("{two}, job {refused} at byte {byte}: refused ")));
}

/// A job that comes through a slow pipe is answered before the next one comes.
#[test]
fn a_slow_stream_is_answered_as_it_comes() {
    let jobs = stream_jobs(SEED + 4, 20);
    let mut child = command(&["recover", "--stream", "--json", "-"])
        .spawn()
        .expect("the command starts");
    let mut input = child.stdin.take().expect("a pipe");
    let mut output = BufReader::new(child.stdout.take().expect("a pipe"));
    for (number, job) in jobs.iter().enumerate() {
        let half = job.len() / 2;
        input.write_all(&job[..half]).expect("half a job");
        thread::sleep(Duration::from_millis(2));
        input.write_all(&job[half..]).expect("the rest");
        let mut line = String::new();
        output.read_line(&mut line).expect("a line");
        assert!(line.contains(&format!("\"job\":{number},")), "{line}");
    }
    drop(input);
    let status = child.wait().expect("an end").code();
    assert!(matches!(status, Some(0 | 1)), "{status:?}");
}

/// A run whose standard error is a terminal, and its standard output too where that is asked for.
fn on_a_terminal(words: &[&str], shares: bool) -> (Run, String) {
    let (mut screen, program) = terminal::open();
    let mut command = command(words);
    command
        .stdin(Stdio::null())
        .stderr(program.try_clone().expect("a terminal"));
    if shares {
        command.stdout(program.try_clone().expect("a terminal"));
    }
    let child = command.spawn().expect("the command starts");
    drop((command, program));
    let reader = thread::spawn(move || {
        let (mut shown, mut buffer) = (Vec::new(), [0; 4096]);
        // The end of a terminal is an error.
        while let Ok(count @ 1..) = screen.read(&mut buffer) {
            shown.extend(&buffer[..count]);
        }
        String::from_utf8_lossy(&shown).into_owned()
    });
    let run = Run::of(child.wait_with_output().expect("an end"));
    (run, reader.join().expect("what was shown"))
}

/// What a terminal shows in the end: a line that is taken back is gone.
fn settled(shown: &str) -> String {
    let line = |line: &str| {
        let line = line.trim_end_matches('\r');
        line.rsplit("\r\x1b[K").next().unwrap_or("").to_string()
    };
    shown.split('\n').map(line).collect::<Vec<_>>().join("\n")
}

#[test]
fn progress_is_shown_on_a_terminal_alone() {
    let folder = folder("progress");
    // Long enough for some lines at ten a second.
    let jobs = stream_jobs(SEED + 5, 2000).concat();
    let name = folder.join("stream");
    let mut stream = File::create(&name).expect("a file");
    for _ in 0..120 {
        stream.write_all(&jobs).expect("room");
    }
    let name = name.to_str().expect("a name");
    let words = ["recover", "--stream", "--json", "--threads", "1", name];
    let (run, shown) = on_a_terminal(&words, false);
    assert_eq!((run.text.lines().count(), run.status), (240_000, 1));
    let lines: Vec<&str> = shown
        .split('\r')
        .filter(|line| line.contains(" done, "))
        .collect();
    assert!(lines.len() >= 2, "{shown}");
    for line in &lines {
        let parts: Vec<&str> = line.trim_end_matches("\x1b[K").split(", ").collect();
        let endings = [" done", " refused", " jobs a second", " s left"];
        assert_eq!(parts.len(), endings.len(), "{line}");
        assert!(
            parts
                .iter()
                .zip(endings)
                .all(|(part, ending)| part.ends_with(ending)),
            "{line}"
        );
    }
    assert!(settled(&shown).starts_with("240000 jobs: "), "{shown}");
    assert!(run_on(&words, &[]).said.starts_with("240000 jobs: "));
    let quiet = [&words[..], &["--quiet"]].concat();
    assert_eq!(on_a_terminal(&quiet, false).1, "");
}

/// Where output and progress share the terminal, what stays is the output and the summary.
#[test]
fn progress_makes_room_for_the_output() {
    let folder = folder("shared");
    let jobs = stream_jobs(SEED + 6, 20_000).concat().repeat(5);
    let name = file(&folder, "stream", &jobs);
    let words = ["recover", "--stream", "--json", "--threads", "1", &name];
    let (_, shown) = on_a_terminal(&words, true);
    assert!(
        shown.matches(" done, ").count() >= 2,
        "no progress was shown"
    );
    let plain = run(&words).text;
    let settled = settled(&shown);
    let (output, summary) = settled.split_at(plain.len());
    assert!(output == plain, "other output on a terminal");
    assert!(summary.starts_with("100000 jobs: "), "{summary}");
}
