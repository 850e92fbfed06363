//! The command on jobs with rows that report a pole or are silent: each verb, and what it says of such rows.

mod support;

use hanthuvelo::hex;
use std::fs;
use support::{
    assert_done, assert_fails, assert_prints, file, folder, run, run_on, PAGE_RECOVERED, ROOT,
};

/// The example of the paper: g = 3 + u, which is 0 at 4, f1 = 4 and f2 = 2.
const REPORTED: &str = "examples/reported.job";
const REPORTED_BYTES: &str = "110021000008000003000300050004FFFFFFFF";
const REPORTED_ANSWER: &str = "000000000003000100040002";
/// g = (u - 3)(u - 5), f1 = 1 + 2 u, f2 = 4 + u^2; the poles 3 and 5 are reported rightly, 8 wrongly; 6 and 9 are silent.
const SILENT: &str = "examples/silent.job";

#[test]
fn poles_and_silent_rows_are_listed() {
    let text = "\
examples/reported.job: recovered modulo 7
  f1 = 4 / (3 + u)
  f2 = 2 / (3 + u)
  wrong rows: none
  reported poles: 1 (u = 4)
  margin: 1
examples/silent.job: recovered modulo 97
  f1 = (1 + 2 u) / (15 + 89 u + u^2)
  f2 = (4 + u^2) / (15 + 89 u + u^2)
  wrong rows: 8 (u = 8), 10 (u = 10)
  reported poles: 3 (u = 3), 5 (u = 5), 8 (u = 8)
  silent rows: 6 (u = 6), 9 (u = 9)
  margin: 2
";
    assert_done(&run(&["recover", "--quiet", REPORTED, SILENT]), text);
}

#[test]
fn poles_and_silent_rows_stand_in_objects() {
    let start = "{\"file\":\"examples/reported.job\",\"status\":\"recovered\",\"prime\":7";
    let found = "\"g\":[3,1],\"f\":[[4],[2]],\"wrong\":[]";
    let marks = "\"poles\":[{\"row\":1,\"point\":4}],\"silent\":[]";
    let object = format!("{start},{found},{marks},\"margin\":1}}\n");
    assert_done(&run(&["recover", "--json", REPORTED]), &object);
    let silent = run(&["recover", "--json", SILENT]).text;
    let rows = |rows: [u32; 2]| {
        let rows = rows.map(|row| format!("{{\"row\":{row},\"point\":{row}}}"));
        rows.join(",")
    };
    let wrong = format!("\"wrong\":[{}],", rows([8, 10]));
    let end = format!("\"silent\":[{}],\"margin\":2}}\n", rows([6, 9]));
    assert!(
        silent.contains(&wrong) && silent.ends_with(&end),
        "{silent}"
    );
}

/// The flag without any marked row has its keys all the same, and a job without the flag has none.
#[test]
fn objects_have_the_keys_where_the_flag_is() {
    let h1 = fs::read_to_string(format!("{ROOT}/examples/h01.job")).expect("an example");
    let flagged = h1.replace("df 0 dg", "df 0 marks dg");
    let object = run_on(&["recover", "--json", "-"], flagged.as_bytes()).text;
    let end = "\"wrong\":[{\"row\":2,\"point\":2}],\"poles\":[],\"silent\":[],\"margin\":1}\n";
    assert!(object.ends_with(end), "{object}");
    let text = run_on(&["recover", "-"], flagged.as_bytes());
    let plain = run_on(&["recover", "-"], h1.as_bytes());
    assert_done(&text, &plain.text);
    let object = run_on(&["recover", "--json", "-"], h1.as_bytes()).text;
    assert!(
        !object.contains("poles") && !object.contains("silent"),
        "{object}"
    );
    // The same answer, byte for byte.
    let words = ["recover", "--bytes", "--hex", "-"];
    assert_done(&run_on(&words, flagged.as_bytes()), "2000000000010005\n");
}

#[test]
fn jobs_are_packed_and_shown() {
    let packed = run(&["pack", "--hex", REPORTED]);
    assert_done(&packed, &format!("{REPORTED_BYTES}\n"));
    let job = hex::bytes(REPORTED_BYTES).expect("bytes");
    let shown = "prime 7 outputs 2 df 0 0 dg 1 errors 0\n3: 3 5\n4: pole\n";
    assert_done(&run_on(&["show", "-"], &job), shown);
    let again = run_on(&["pack", "-"], shown.as_bytes());
    assert_eq!((again.out, again.status), (job.clone(), 0));
    let answer = run_on(&["recover", "--bytes", "--hex", "-"], &job);
    assert_done(&answer, &format!("{REPORTED_ANSWER}\n"));
    let unpacked = run_on(&["unpack", "--hex", REPORTED], answer.text.as_bytes());
    assert_done(&unpacked, "wrong rows: none\ng = 3 + u\nf1 = 4\nf2 = 2\n");
    let bad = run_on(
        &["pack", "-"],
        b"prime 7 outputs 1 df 0 dg 0 errors 0\n4: poles\n",
    );
    let message = "line 2: expected value as a number from 0 to 65535, found `poles`";
    assert_fails(&bad, &format!("standard input, {message}"));
}

/// Jobs that are refused for their marks, with what `recover` and `check` say.
const REFUSED: [(&str, &str); 5] = [
    (
        "prime 7 outputs 1 df 0 dg 0 errors 1\n0: 5\n1: 5\n2: silent\n",
        "12: df + dg + 2 E + 1 is 3, the number of rows that speak is 2",
    ),
    // The repeated point is tested later.
    (
        "prime 7 outputs 1 df 0 dg 0 errors 1\n0: 5\n0: 5\n2: silent\n",
        "12: df + dg + 2 E + 1 is 3, the number of rows that speak is 2",
    ),
    (
        "prime 7 outputs 2 df 0 marks dg 1 errors 0\n3: 3 5\n4: 65535 65534\n",
        "5, row 1: a point or a value is 7 or more",
    ),
    (
        "prime 7 outputs 2 df 0 0 dg 1 errors 0\n3: 3 5\n4: 65535 65535\n",
        "5, row 1: a point or a value is 7 or more",
    ),
    (
        "prime 7 outputs 2 df 0 dg 1 errors 0\n3: 3 5\n3: pole\n",
        "6, row 1: its point 3 stands in an earlier row",
    ),
];

#[test]
fn refusals_for_marks_are_said() {
    for (job, said) in REFUSED {
        let line = format!("standard input: refused {said}\n");
        for verb in ["recover", "check"] {
            assert_prints(&run_on(&[verb, "-"], job.as_bytes()), &line, 1);
        }
        let judged = run_on(&["judge", "-", REPORTED], job.as_bytes());
        assert_prints(&judged, &format!("refused {said}\n"), 1);
    }
    assert_done(
        &run(&["check", REPORTED]),
        "examples/reported.job: accepted\n",
    );
    let few = run_on(&["check", "--json", "-"], REFUSED[0].0.as_bytes());
    let reason = "df + dg + 2 E + 1 is 3, the number of rows that speak is 2";
    let object = format!("{{\"file\":\"standard input\",\"status\":\"refused\",\"refusal\":12,\"row\":0,\"reason\":\"{reason}\"}}\n");
    assert_prints(&few, &object, 1);
}

/// Offered answers, with the verdict on each.
#[test]
fn answers_of_jobs_with_poles_and_silent_rows_are_judged() {
    let poles = "000F00590001000100020000000400000001";
    for (job, answer, said) in [
        (REPORTED, REPORTED_ANSWER.to_string(), "yes"),
        (
            REPORTED,
            "400000000003000100040002".to_string(),
            "no: the word marks row 1, at the point 4, and it is right",
        ),
        (
            REPORTED,
            "000000000001000000030005".to_string(),
            "no: the word does not mark row 1, at the point 4, and it is wrong: it reports a pole, and g is 1 there",
        ),
        // Rows 8 and 10; 6 besides; 10 alone.
        (SILENT, format!("00A00000{poles}"), "yes"),
        (
            SILENT,
            format!("02A00000{poles}"),
            "no: the word marks row 6, at the point 6, and it is silent",
        ),
        (
            SILENT,
            format!("00200000{poles}"),
            "no: the word does not mark row 8, at the point 8, and it is wrong: it reports a pole, and g is 15 there",
        ),
    ] {
        let judged = run_on(&["judge", "--hex", job], answer.as_bytes());
        assert_prints(&judged, &format!("{said}\n"), i32::from(said != "yes"));
    }
}

/// The trial of docs/TRIAL.md with the flag: the same rows behind another first line, and the pole has zeros and is wrong.
#[test]
fn a_trial_takes_the_flag() {
    let trial = fs::read_to_string(format!("{ROOT}/examples/pole.trial")).expect("an example");
    let flagged = trial.replace("df 0 dg", "df 0 marks dg");
    let job = run_on(&["trial", "-"], flagged.as_bytes());
    let short = run(&["trial", "examples/pole.trial"]).text;
    assert_done(&job, &short.replace("df 0 dg", "df 0 0 marks dg"));
    let packed = run_on(&["trial", "--bytes", "--hex", "-"], flagged.as_bytes());
    assert!(
        packed.text.starts_with("138025000008000000"),
        "{}",
        packed.text
    );
    let recovered = run_on(&["recover", "-"], &job.out);
    assert_done(&recovered, PAGE_RECOVERED);
}

/// Such jobs in a stream, and one of which too few rows speak.
#[test]
fn a_stream_has_jobs_with_poles_and_silent_rows() {
    let few = "01800300000800000000050001000500 02FFFE";
    let jobs = [REPORTED_BYTES, few, REPORTED_BYTES].map(|job| hex::bytes(job).expect("bytes"));
    let name = file(&folder("poles-and-silence"), "stream", &jobs.concat());
    let said = run(&["recover", "--stream", "--quiet", &name]);
    let fractions =
        "  f1 = 4 / (3 + u)\n  f2 = 2 / (3 + u)\n  wrong rows: none\n  reported poles: 1 (u = 4)\n";
    let answer = format!("recovered modulo 7\n{fractions}  margin: 1\n");
    let refused = "refused 12: df + dg + 2 E + 1 is 3, the number of rows that speak is 2\n";
    let expected = format!(
        "{name}, job 0 at byte 0: {answer}{name}, job 1 at byte 19: {refused}{name}, job 2 at byte 38: {answer}"
    );
    assert_prints(&said, &expected, 1);
}
