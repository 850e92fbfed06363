//! The command on jobs with a bound for each output: each verb, streams of both headers, objects, and what is said of bad ones.

mod support;

use hanthuvelo::hex;
use support::{assert_done, assert_fails, assert_prints, file, folder, run, run_on};

/// H8 with a bound for each output, as text and as bytes; 1 / (1 + u) and u / (1 + u) are its outputs.
const OWN: &str = "prime 7 outputs 2 df 0 1 dg 1 errors 0\n0: 1 0\n1: 4 4\n2: 5 3\n";
/// 00 01 00011 00001 00001 0000 1, then 00000 00001 00000 00000 and no flag; then the rows.
const OWN_BYTES: &str = "11842100400000000000010000000100040004000200050003";
const OWN_ANSWER: &str = "00000000 0001 0001 0001 0000 0001";
const OWN_TEXT: &str = "recovered modulo 7
  f1 = 1 / (1 + u)
  f2 = u / (1 + u)
  wrong rows: none
  margin: 1";
/// The example's polynomials, which its file was made from.
const G: [u32; 6] = [3969, 9825, 58887, 44548, 52417, 1];
const F: [&[u32]; 3] = [
    &[34745],
    &[34745, 51597, 57323],
    &[34745, 37673, 62204, 12449, 58969],
];

fn bytes(text: &str) -> Vec<u8> {
    hex::bytes(text).expect("bytes")
}

fn listed(numbers: &[u32]) -> String {
    let words: Vec<String> = numbers.iter().map(u32::to_string).collect();
    words.join(",")
}

/// The answer of the example: three rows of 16 are wrong, and each f has its own bound plus 1 coefficients.
#[test]
fn the_example_is_recovered() {
    let name = "examples/filter.job";
    let (g, f) = (listed(&G), F.map(listed).join("],["));
    let wrong = [(4, 5), (9, 10), (13, 14)];
    let wrong = wrong.map(|(row, point)| format!("{{\"row\":{row},\"point\":{point}}}"));
    let wrong = wrong.join(",");
    let place = format!("\"file\":\"{name}\",\"status\":\"recovered\",\"prime\":65521");
    let object =
        format!("{{{place},\"g\":[{g}],\"f\":[[{f}]],\"wrong\":[{wrong}],\"margin\":1}}\n");
    assert_done(&run(&["recover", "--json", name]), &object);
    // Rows 4, 9 and 13, from the top.
    let numbers = [&G[..], F[0], F[1], F[2]].concat();
    let numbers: String = numbers.iter().map(|each| format!("{each:04X}")).collect();
    let text = run(&["recover", "--bytes", "--hex", name]);
    assert_done(&text, &format!("08440000{numbers}\n"));
    let judged = run_on(&["judge", "--hex", name], text.text.as_bytes());
    assert_done(&judged, "yes\n");
}

#[test]
fn each_verb_takes_a_bound_for_each_output() {
    let job = bytes(OWN_BYTES);
    assert_done(
        &run_on(&["pack", "--hex", "-"], OWN.as_bytes()),
        &format!("{OWN_BYTES}\n"),
    );
    assert_done(&run_on(&["show", "-"], &job), OWN);
    let text = format!("standard input: {OWN_TEXT}\n");
    for input in [OWN.as_bytes(), &job] {
        assert_done(&run_on(&["recover", "-"], input), &text);
        assert_done(
            &run_on(&["check", "-"], input),
            "standard input: accepted\n",
        );
    }
    let folder = folder("own-bounds");
    let name = file(&folder, "job", &job);
    let unpacked = "wrong rows: none\ng = 1 + u\nf1 = 1\nf2 = u\n";
    let answer = OWN_ANSWER.as_bytes();
    assert_done(&run_on(&["unpack", "--hex", &name], answer), unpacked);
    assert_done(&run_on(&["judge", "--hex", &name], answer), "yes\n");
    // The same job with `long`, and one bound for one output.
    let one = "prime 7 outputs 1 df 0 long dg 0 errors 1\n0: 5\n1: 5\n2: 2\n";
    let packed = run_on(&["pack", "--hex", "-"], one.as_bytes());
    assert_done(&packed, "01800300000000000000050001000500020002\n");
    assert_done(&run_on(&["show", "-"], &bytes(&packed.text)), one);
    let answer = run_on(&["recover", "--bytes", "--hex", "-"], one.as_bytes());
    assert_done(&answer, "2000000000010005\n");
}

/// Answers offered for the same job, and what is said of them.
const OFFERED: [(&str, &str); 6] = [
    // The answer of H8, whose f1 has a coefficient more.
    (
        "00000000 0001 0001 0001 0000 0000 0001",
        "refused 3: the job's answer has 14 bytes, the offered one has 16",
    ),
    (
        "00000000 0001 0001 0001 0000",
        "refused 3: the job's answer has 14 bytes, the offered one has 12",
    ),
    (
        "00000000 0001 0001 0008 0000 0009",
        "no: the constant term of f1 is 8, not below 7",
    ),
    (
        "00000000 0001 0001 0001 0000 0009",
        "no: the coefficient of u in f2 is 9, not below 7",
    ),
    (
        "00000000 0001 0001 0001 0001 0001",
        "no: the word does not mark row 0, at the point 0, and it is wrong: f2/g is 1 there, the row has 0",
    ),
    (
        "00000000 0001 0001 0000 0001 0001",
        "no: 1 + u divides g and every f",
    ),
];

#[test]
fn offered_answers_are_judged_by_each_bound() {
    let folder = folder("own-bounds-judged");
    let name = file(&folder, "job", OWN.as_bytes());
    for (answer, said) in OFFERED {
        let judged = run_on(&["judge", "--hex", &name], answer.as_bytes());
        assert_prints(&judged, &format!("{said}\n"), 1);
    }
    let short = run_on(&["unpack", "--hex", &name], OFFERED[0].0.as_bytes());
    let message = "expected 14 bytes for this job's answer, found 16";
    assert_fails(&short, &format!("standard input: {message}"));
}

/// Bytes whose header is refused, with what is said; and what `show`, which cannot write them as text, says.
const REFUSED: [(&str, &str, &str); 5] = [
    (
        "01 80 03",
        "1: expected 7 bytes or more, as the spare bit is 1, found 3",
        "expected a header of 7 bytes, as the spare bit is 1, found 3",
    ),
    (
        "01 80 03 00 00 0C 00",
        "11: the flag bits are 110000000000, not all 0 behind the first",
        "",
    ),
    (
        "11 84 21 00 42 00 00",
        "11: the bound of f3 is 1, the job has 2 outputs",
        "",
    ),
    (
        "11 84 21 00 00 00 00 00",
        "11: df is 1, the largest bound is 0",
        "",
    ),
    (
        "11 84 21 00 40 00 00 00",
        "3: the header asks for 25 bytes, the job has 8",
        "expected 25 bytes, as the header says, found 8",
    ),
];

#[test]
fn a_bad_header_is_said_by_each_verb() {
    for (job, said, shown) in REFUSED {
        let job = bytes(job);
        let line = format!("standard input: refused {said}\n");
        for verb in ["recover", "check"] {
            assert_prints(&run_on(&[verb, "--binary", "-"], &job), &line, 1);
            let (number, reason) = said.split_once(": ").expect("a reason");
            let members = format!("\"refusal\":{number},\"row\":0,\"reason\":\"{reason}\"");
            let place = "\"file\":\"standard input\",\"status\":\"refused\"";
            let object = run_on(&[verb, "--binary", "--json", "-"], &job);
            assert_prints(&object, &format!("{{{place},{members}}}\n"), 1);
        }
        let judged = run_on(&["judge", "--binary", "-", "README.md"], &job);
        assert_prints(&judged, &format!("refused {said}\n"), 1);
        let shown = match shown {
            "" => {
                let (_, rule) = said.split_once(": ").expect("a rule");
                format!("expected an added header that breaks no rule: {rule}")
            }
            _ => shown.to_string(),
        };
        let show = run_on(&["show", "--binary", "-"], &job);
        assert_fails(&show, &format!("standard input: {shown}"));
    }
}

/// The jobs of a stream, with what is said of each behind its place.
const STREAM: [(&str, &str); 5] = [
    (
        "01 80 02 0000 0005 0001 0005 0002 0002",
        "recovered modulo 7\n  f1 = 5\n  wrong rows: 2 (u = 2)\n  margin: 1",
    ),
    (OWN_BYTES, OWN_TEXT),
    (
        "11 84 21 00 40 00 01 0000 0001 0000 0001 0004 0004 0002 0005 0003",
        "refused 11: the flag bits are 000000000001, not all 0 behind the first",
    ),
    (
        "11 84 21 08 00 00 00 0000 0001 0000 0001 0004 0004 0002 0005 0003",
        "refused 8: no reduced answer within df 1 0 and dg 1 has at most 0 wrong rows",
    ),
    (
        "01 00 20 0001 0001 0002 0004",
        "recovered modulo 7\n  f1 = 1 / u\n  wrong rows: none\n  margin: 1",
    ),
];

#[test]
fn a_stream_mixes_both_headers() {
    let (mut stream, mut lines) = (Vec::new(), String::new());
    for (number, (job, said)) in STREAM.into_iter().enumerate() {
        let byte = stream.len();
        lines += &format!("standard input, job {number} at byte {byte}: {said}\n");
        stream.extend(bytes(job));
    }
    assert_eq!(stream.len(), 15 + 25 + 25 + 25 + 11);
    for threads in ["1", "2"] {
        let words = ["recover", "--stream", "--quiet", "--threads", threads, "-"];
        assert_prints(&run_on(&words, &stream), &lines, 1);
    }
}

/// A stream that ends inside a header with a bound for each output, or behind it.
#[test]
fn a_stream_breaks_off_at_every_byte_of_a_header_with_bounds() {
    let (first, job) = (bytes(STREAM[0].0), bytes(OWN_BYTES));
    for found in 1..job.len() {
        let stream = [&first[..], &job[..found]].concat();
        let needed = match found {
            1 | 2 => "at least 3",
            3..7 => "at least 7",
            _ => "25",
        };
        let message = format!(
            "the stream breaks off inside job 1, which begins at byte 15: expected {needed} bytes, found {found}"
        );
        for (verb, said) in [("recover", STREAM[0].1), ("check", "accepted")] {
            let run = run_on(&[verb, "--stream", "--quiet", "-"], &stream);
            let whole = format!("standard input, job 0 at byte 0: {said}\n");
            assert_eq!((run.text, run.status), (whole, 2), "{verb} {found}");
            assert_eq!(run.said, format!("standard input: {message}\n"));
        }
    }
}

/// The trial of docs/TRIAL.md with a bound for each output: the same rows behind another first line.
#[test]
fn a_trial_has_the_header_that_is_asked_for() {
    let short = run(&["trial", "examples/pole.trial"]).text;
    let trial = std::fs::read_to_string(format!("{}/examples/pole.trial", support::ROOT));
    let trial = trial.expect("an example").replace("df 0 dg", "df 0 0 dg");
    let longer = run_on(&["trial", "-"], trial.as_bytes());
    assert_done(&longer, &short.replace("df 0 dg", "df 0 0 dg"));
    assert!(longer
        .text
        .starts_with("prime 7 outputs 2 df 0 0 dg 1 errors 2\n0: 2 1\n"));
    // The header is 13 80 24 with the spare bit, and four bytes of zeros.
    let packed = run_on(&["trial", "--bytes", "--hex", "-"], trial.as_bytes());
    assert!(
        packed.text.starts_with("13802500000000000000020001"),
        "{}",
        packed.text
    );
    // f1 has the bound 0, f2 the bound 1: a row fewer would be too few.
    let wider = trial
        .replace("df 0 0 dg", "df 0 1 dg")
        .replace("f2 = 1", "f2 = 1 + 2 u");
    let job = run_on(&["trial", "-"], wider.as_bytes());
    let recovered = run_on(&["recover", "-"], &job.out);
    let expected = "\
standard input: recovered modulo 7
  f1 = 5 / (1 + u)
  f2 = (1 + 2 u) / (1 + u)
  wrong rows: 0 (u = 0), 6 (u = 6)
  margin: 1
";
    assert_done(&recovered, expected);
    let beyond = wider.replace("f1 = 5", "f1 = 5 + u");
    let message = "line 6: expected f1 of degree 0 at most, found degree 1";
    let failed = run_on(&["trial", "-"], beyond.as_bytes());
    assert_fails(&failed, &format!("standard input, {message}"));
}
