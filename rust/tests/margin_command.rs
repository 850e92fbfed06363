//! The margin: in the command's text and objects, in streams, and by the crate's functions.

mod support;

use hanthuvelo::{margin, Job, Report};
use outside_checks::jobs::generate;
use outside_checks::second;
use support::{assert_done, assert_prints, file, folder, run, run_on};

/// Five readings of a constant modulo 7: it is 5, row 2 is wrong, and S - df - dg - 2 W is 5 - 0 - 0 - 2.
const READINGS: &str = "prime 7 outputs 1 df 0 dg 0 errors 1\n0: 5\n1: 5\n2: 2\n3: 5\n4: 5\n";

/// What stands in their place, and the margin then; the constant stays.
const CHANGES: [(&str, &str, u32); 10] = [
    ("", "", 3),
    // Rows that are silent, or none at all, and a row more.
    ("4: 5", "4: silent", 2),
    ("3: 5\n4: 5", "3: silent\n4: silent", 1),
    ("3: 5\n4: 5\n", "", 1),
    ("4: 5", "4: 5\n5: 5", 4),
    // A row that reports a pole speaks, and here it is wrong; no row is wrong; E does not count.
    ("errors 1\n0: 5", "errors 2\n0: pole", 1),
    ("2: 2", "2: 5", 5),
    ("errors 1", "errors 2", 3),
    // The bounds count, and not the degrees.
    ("df 0", "df 1", 2),
    ("dg 0", "dg 2", 1),
];

/// The readings with such a change, as a readable job.
fn changed((from, to, _): (&str, &str, u32)) -> String {
    let job = READINGS.replacen(from, to, 1);
    assert!(from.is_empty() || job != READINGS, "{from}");
    job
}

#[test]
fn the_margin_is_the_last_line() {
    for change in CHANGES {
        let (job, last) = (changed(change), format!("\n  margin: {}\n", change.2));
        let text = run_on(&["recover", "-"], job.as_bytes());
        assert!(text.text.ends_with(&last), "{job}{}", text.text);
        assert!(text.text.contains("\n  f1 = 5\n"), "{}", text.text);
        assert_eq!((text.said.as_str(), text.status), ("", 0));
    }
    let silent = run_on(&["recover", "-"], changed(CHANGES[1]).as_bytes());
    let expected = "\
standard input: recovered modulo 7
  f1 = 5
  wrong rows: 2 (u = 2)
  silent rows: 4 (u = 4)
  margin: 2
";
    assert_done(&silent, expected);
}

#[test]
fn the_margin_is_the_last_key() {
    for change in CHANGES {
        let (job, last) = (changed(change), format!("],\"margin\":{}}}\n", change.2));
        let object = run_on(&["recover", "--json", "-"], job.as_bytes());
        assert!(object.text.ends_with(&last), "{job}{}", object.text);
        assert_eq!(object.text.matches("margin").count(), 1, "{}", object.text);
    }
    let found = "\"prime\":7,\"g\":[1],\"f\":[[5]],\"wrong\":[{\"row\":2,\"point\":2}]";
    let object =
        format!("{{\"file\":\"standard input\",\"status\":\"recovered\",{found},\"margin\":3}}\n");
    assert_done(
        &run_on(&["recover", "--json", "-"], READINGS.as_bytes()),
        &object,
    );
}

/// f1 = 4 and f2 = 2 + 3u at five points; y1 of row 1 is wrong. The largest bound counts, at whichever output it stands.
#[test]
fn the_largest_bound_counts() {
    let rows = [(4, 2), (5, 5), (4, 1), (4, 4), (4, 0)];
    for (bounds, is_swapped, margin) in [
        ("0 1", false, 2),
        ("1 0", true, 2),
        ("1 1", false, 2),
        ("1", false, 2),
        ("0 2", false, 1),
        ("2 1", false, 1),
        ("2 0", true, 1),
    ] {
        let mut job = format!("prime 7 outputs 2 df {bounds} dg 0 errors 1\n");
        for (point, (first, second)) in rows.into_iter().enumerate() {
            job += &match is_swapped {
                false => format!("{point}: {first} {second}\n"),
                true => format!("{point}: {second} {first}\n"),
            };
        }
        let text = run_on(&["recover", "-"], job.as_bytes()).text;
        let end = format!("\n  wrong rows: 1 (u = 1)\n  margin: {margin}\n");
        assert!(text.ends_with(&end), "{job}{text}");
    }
}

/// Each job of a stream has its own margin, and a refused one has none.
#[test]
fn a_stream_has_the_margin_of_each_job() {
    let repeated = ("1: 5", "0: 5", 0);
    let without_answer = ("0: 5\n1: 5", "0: 4\n1: 3", 0);
    let order = [CHANGES[0], repeated, CHANGES[1], CHANGES[6], without_answer];
    let (mut stream, mut margins) = (Vec::new(), Vec::new());
    for change in order.into_iter().chain(CHANGES) {
        stream.extend(run_on(&["pack", "-"], changed(change).as_bytes()).out);
        margins.push(change.2);
    }
    let name = file(&folder("margins"), "stream", &stream);
    for threads in ["1", "2"] {
        let words = ["--stream", "--quiet", "--threads", threads, &name];
        let text = run(&[&["recover"], &words[..]].concat());
        let found: Vec<u32> = numbers_behind(&text.text, "\n  margin: ", '\n');
        let expected = margins.iter().copied().filter(|&margin| margin > 0);
        assert_eq!(found, expected.collect::<Vec<u32>>(), "{}", text.text);
        let objects = run(&[&["recover", "--json"], &words[..]].concat());
        let of_line = |line: &str| numbers_behind(line, ",\"margin\":", '}');
        let found: Vec<Vec<u32>> = objects.text.lines().map(of_line).collect();
        let expected = margins.iter().map(|&margin| match margin {
            0 => vec![],
            margin => vec![margin],
        });
        assert_eq!(found, expected.collect::<Vec<Vec<u32>>>());
        assert_eq!((text.status, objects.status), (1, 1));
    }
}

/// The numbers in a text between each of these words and this character.
fn numbers_behind(text: &str, words: &str, end: char) -> Vec<u32> {
    let pieces = text.split(words).skip(1);
    let numbers = pieces.map(|piece| piece.split(end).next().expect("a piece"));
    numbers
        .map(|word| word.parse().expect("a number"))
        .collect()
}

/// The bytes of an answer are as they were, and no other verb speaks of a margin.
#[test]
fn nothing_else_has_a_margin() {
    let job = READINGS.as_bytes();
    let words = ["recover", "--bytes", "--hex", "-"];
    assert_done(&run_on(&words, job), "2000000000010005\n");
    let name = file(&folder("no-margin"), "readings.job", job);
    let answer = b"2000000000010005";
    for (words, printed) in [
        (
            &["unpack", "--hex", &name][..],
            "wrong rows: 2\ng = 1\nf1 = 5\n",
        ),
        (&["judge", "--hex", &name], "yes\n"),
        (&["show", &name], READINGS),
    ] {
        assert_done(&run_on(words, answer), printed);
    }
    assert_done(&run(&["check", &name]), &format!("{name}: accepted\n"));
    let refused = run_on(
        &["recover", "-"],
        b"prime 7 outputs 1 df 0 dg 0 errors 1\n0: 5\n",
    );
    let line = "standard input: refused 4: df + dg + 2 E + 1 is 3, the job has 1 row\n";
    assert_prints(&refused, line, 1);
    let help = run(&["recover", "--help"]).text;
    let meaning = "The margin says how sure an answer is: every other one\nwithin the bounds leaves at least that many rows more wrong.\n";
    assert!(help.contains(meaning), "{help}");
}

/// `Job::margin` of a recovered job is that of the call, and of the second solver's own count.
#[test]
fn the_crate_gives_the_margin_of_an_answer() {
    let (mut answered, mut above) = (0, 0);
    for index in 0..3000 {
        let bytes = generate(7, index).bytes;
        let mut area = [0; 254];
        let Report { refusal, wrong, .. } = second::recover(&bytes, &mut area);
        if refusal != 0 {
            continue;
        }
        let job = Job::unpack(&bytes).expect("a job");
        let answer = job.recover().expect("an answer");
        let expected = second::margin(&bytes, wrong);
        assert_eq!(job.margin(&answer), expected, "{index}");
        assert_eq!(margin(&bytes, wrong), expected, "{index}");
        answered += 1;
        above += usize::from(expected > 1);
    }
    assert!(answered >= 1500 && above >= 300, "{answered} {above}");
    // With E 3 seven rows are needed, and the job is refused.
    let job: Job = READINGS.parse().expect("a readable job");
    let answer = job.recover().expect("an answer");
    let few: Job = READINGS
        .replace("errors 1", "errors 3")
        .parse()
        .expect("a readable job");
    assert_eq!((job.margin(&answer), few.margin(&answer)), (3, 0));
}
