//! The examples of paper 01, and those of a bound for each output and of poles and silent rows, against every implementation.

use hanthuvelo::{hex, Form, Judgement, Report, Written};
use outside_checks::layout::{HeaderForm, Job};
use outside_checks::paper::{
    every_example, every_refusal, example, examples, not_answers, refusals, Example,
    BOUNDS_PRINTED, H1_PRINTED, MARGINS, POLE_PRINTED,
};
use outside_checks::second;
use outside_checks::{checkers, implementations, judges, margins, writers, Implementation, Margin};

/// Bytes behind the area that the example names, to see that they stay.
const SURPLUS: usize = 9;

fn try_example(implementation: Implementation, example: &Example, surplus: usize) {
    let (job, answer) = (paper_bytes(example.job), paper_bytes(example.answer));
    for filling in [0x00, 0xFF, 0xA5] {
        let mut area = vec![filling; example.area_length + surplus];
        let mut expected = area.clone();
        expected[..answer.len()].copy_from_slice(&answer);
        let report = (implementation.recover)(&job, &mut area);
        let name = format!("{} by {}", example.name, implementation.name);
        assert_eq!(report, example.report, "{name}");
        assert_eq!(area, expected, "{name}");
    }
}

#[test]
fn every_example_is_answered_as_it_says() {
    for implementation in implementations() {
        for example in every_example() {
            try_example(implementation, &example, 0);
            if example.report.refusal != 7 {
                try_example(implementation, &example, SURPLUS);
            }
        }
    }
}

#[test]
fn every_refusal_is_given() {
    for implementation in implementations() {
        for example in every_refusal() {
            try_example(implementation, &example, 0);
        }
    }
}

/// Every example of paper 01 of three bytes or more, but for the one of refusal 2, is answered alike where each output has the
/// bound df of its own, with the flag and without.
#[test]
fn the_examples_of_the_paper_with_a_bound_for_each_output() {
    let mut count = 0;
    let all = [examples(), refusals()].concat();
    for example in &all {
        let job = paper_bytes(example.job);
        if job.len() < 3 || HeaderForm::of(&job).has_own_bounds() {
            continue;
        }
        let header = Job::unpack(&job[..3]);
        for form in [HeaderForm::OwnBounds, HeaderForm::Flagged] {
            let mut with_bounds = job.clone();
            with_bounds[2] |= 1;
            let bounds = header.under(form).packed_header();
            with_bounds.splice(3..3, bounds[3..].iter().copied());
            for implementation in implementations() {
                let mut area = vec![0xA5; example.area_length];
                let mut expected = area.clone();
                let answer = paper_bytes(example.answer);
                expected[..answer.len()].copy_from_slice(&answer);
                let report = (implementation.recover)(&with_bounds, &mut area);
                let name = format!("{} by {}", example.name, implementation.name);
                assert_eq!((report, area), (example.report, expected), "{name}");
            }
            count += 1;
        }
    }
    assert_eq!(count, 2 * (13 + 10 - 2));
}

/// Each of the twelve flags but the first alone, with H1's job.
#[test]
fn every_other_flag_is_refused() {
    for flag in 0..11 {
        let mut job = paper_bytes(example("H1 with its own bound").job);
        job[5] |= (1u16 << flag).to_be_bytes()[0];
        job[6] |= (1u16 << flag).to_be_bytes()[1];
        for implementation in implementations() {
            let report = (implementation.recover)(&job, &mut [0; 8]);
            let name = format!("{flag} by {}", implementation.name);
            assert_eq!(report, Report::refused(11, 0), "{name}");
        }
    }
}

#[test]
fn an_empty_job_and_an_empty_area() {
    for implementation in implementations() {
        assert_eq!(
            (implementation.recover)(&[], &mut []).refusal,
            1,
            "{}",
            implementation.name
        );
        let job = paper_bytes(example("H1").job);
        assert_eq!(
            (implementation.recover)(&job, &mut []).refusal,
            7,
            "{}",
            implementation.name
        );
    }
}

/// The job with the bounds 2, 0 and 1 is a trial job of its own answer: its points are 0 to 3, and no row is spoiled. Its
/// header has 7 bytes and its coefficients 16.
#[test]
fn the_example_of_bounds_is_a_trial_job() {
    let known = example("bounds 2, 0, 1");
    let (job, answer) = (paper_bytes(known.job), paper_bytes(known.answer));
    let surplus = [&answer[4..], &[0, 0]].concat();
    for writer in writers() {
        let refusal = |header: &[u8], coefficients: &[u8], area_length: usize| {
            let mut area = vec![0xA5; area_length];
            let written = (writer.trial)(header, coefficients, 0, 0, &mut area);
            assert!(written.is_written() || area == vec![0xA5; area_length]);
            written.refusal
        };
        let mut area = vec![0xA5; job.len() + 2];
        let written = (writer.trial)(&job[..7], &answer[4..], 0, 0, &mut area);
        assert_eq!(written, Written::bytes(39), "{}", writer.name);
        assert_eq!(area, [&job[..], &[0xA5; 2]].concat(), "{}", writer.name);
        for length in 0..7 {
            assert_eq!(
                refusal(&job[..length], &answer[4..], 39),
                1,
                "{}",
                writer.name
            );
        }
        // The flag stays in the header, and a trial has no marks.
        let mut flagged = job.clone();
        flagged[5] |= 8;
        let written = (writer.trial)(&flagged[..7], &answer[4..], 0, 0, &mut area);
        assert_eq!(written, Written::bytes(39), "{}", writer.name);
        assert_eq!(area[..39], flagged, "{}", writer.name);
        let mut flagged = job[..8].to_vec();
        flagged[6] = 1;
        assert_eq!(refusal(&flagged[..7], &answer[4..], 39), 11);
        assert_eq!(refusal(&flagged, &surplus, 0), 11);
        assert_eq!(refusal(&job[..8], &answer[4..], 39), 3);
        assert_eq!(refusal(&job[..7], &surplus, 39), 3);
        assert_eq!(refusal(&job[..7], &answer[6..], 39), 3);
        assert_eq!(refusal(&job[..7], &answer[4..], 38), 7);
    }
}

fn paper_bytes(text: &str) -> Vec<u8> {
    hex::bytes(text).expect("the paper's bytes")
}

/// The paper's own answers are a yes, and with another number of bytes they are refused.
#[test]
fn the_answers_of_the_examples_are_judged() {
    for judge in judges() {
        let all = every_example().into_iter();
        let answered = all.filter(|each| !each.answer.is_empty());
        for example in answered {
            let name = format!("{} by {}", example.name, judge.name);
            let (job, answer) = (paper_bytes(example.job), paper_bytes(example.answer));
            let judged = (judge.judge)(&job, &answer);
            assert_eq!(judged, Judgement::judged(true), "{name}");
            let with_surplus = [&answer[..], &[0]].concat();
            for other in [&with_surplus, &answer[1..], &answer[4..], &[]] {
                let judged = (judge.judge)(&job, other);
                assert_eq!(judged, Judgement::refused(3, 0), "{name}");
            }
        }
        for (name, offered) in not_answers() {
            let job = paper_bytes(example(name).job);
            let judged = (judge.judge)(&job, &paper_bytes(offered));
            let name = format!("{name} {offered} by {}", judge.name);
            assert_eq!(judged, Judgement::judged(false), "{name}");
        }
    }
}

/// With df + 1 coefficients of each f, as under the short header, an answer has too many bytes; without f2's one too few.
#[test]
fn an_answer_has_each_outputs_own_bound() {
    let job = paper_bytes(example("bounds 2, 0, 1").job);
    for offered in [
        "00000000 0001 0001 0001 0000 0001 0003 0000 0000 0000 0002 0000",
        "00000000 0001 0001 0001 0000 0001 0003 0000 0002 0000",
        "00000000 0001 0001 0001 0000 0001 0000 0002",
    ] {
        for judge in judges() {
            let judged = (judge.judge)(&job, &paper_bytes(offered));
            assert_eq!(judged, Judgement::refused(3, 0), "{}", judge.name);
        }
    }
}

/// Refusals 1, 11, 3 to 5, 12 and 6 are the job's, whatever is offered; 7 and 8 do not occur.
#[test]
fn the_refusals_of_the_table_are_those_of_a_judgement() {
    for judge in judges() {
        for example in every_refusal().into_iter().chain([example("H11")]) {
            let (job, report) = (paper_bytes(example.job), example.report);
            for length in [0, 7, 8, 9, 12, 14, 254] {
                let judged = (judge.judge)(&job, &vec![0; length]);
                let expected = match (report.refusal, length) {
                    (7 | 8, length) if length == Job::unpack(&job).answer_length() => {
                        Judgement::judged(false)
                    }
                    (7 | 8, _) => Judgement::refused(3, 0),
                    (number, _) => Judgement::refused(number, report.row),
                };
                assert_eq!(judged, expected, "{} by {}", example.name, judge.name);
            }
        }
        let judged = (judge.judge)(&[], &[]);
        assert_eq!(judged, Judgement::refused(1, 0), "{}", judge.name);
    }
}

/// Refusals 1, 11, 3 to 5, 12 and 6 are found by a check of the form alone; other jobs have theirs.
#[test]
fn the_form_of_each_example_is_checked() {
    for checker in checkers() {
        for example in every_example().into_iter().chain(every_refusal()) {
            let expected = match example.report {
                Report {
                    refusal: number @ (1..=6 | 11 | 12),
                    row,
                    ..
                } => Form::refused(number, row),
                _ => Form::ACCEPTED,
            };
            let form = (checker.check)(&paper_bytes(example.job));
            assert_eq!(form, expected, "{} by {}", example.name, checker.name);
        }
        let form = (checker.check)(&[]);
        assert_eq!(form, Form::refused(1, 0), "{}", checker.name);
    }
}

/// Refusals 1, 11, 3 to 5, 12 and 6 leave no margin, whatever number of wrong rows is named.
#[test]
fn the_margins_of_the_examples() {
    for Margin { name, find } in margins() {
        for (example_name, wrong, margin) in MARGINS {
            let job = paper_bytes(example(example_name).job);
            assert_eq!(find(&job, wrong), margin, "{example_name} by {name}");
        }
        for example in every_refusal() {
            let job = paper_bytes(example.job);
            let has_margin = matches!(example.report.refusal, 7 | 8);
            assert_eq!(find(&job, 0) > 0, has_margin, "{} by {name}", example.name);
            assert_eq!(find(&job, u32::MAX), 0, "{} by {name}", example.name);
        }
        assert_eq!(find(&[], 0), 0, "{name}");
    }
    // Each answer is among them, with its number of wrong rows.
    for example in examples()[..12]
        .iter()
        .filter(|each| !each.answer.is_empty())
    {
        let mut listed = MARGINS.iter();
        let is_listed =
            listed.any(|(name, wrong, _)| *name == example.name && *wrong == example.report.wrong);
        assert!(is_listed, "{}", example.name);
    }
}

#[test]
fn the_printed_text_of_the_second_solver() {
    let printed = |name: &str| second::printed(&paper_bytes(example(name).job));
    assert_eq!(printed("H1"), H1_PRINTED);
    assert_eq!(printed("H2"), "recovered 0\nwrong\ng 0 1\nf1 1\nmargin 1\n");
    assert_eq!(
        printed("H3"),
        "recovered 1\nwrong 0\ng 0 1\nf1 1\nmargin 1\n"
    );
    assert_eq!(printed("H5"), "recovered 1\nwrong 2\ng 1\nf1 0\nmargin 1\n");
    assert_eq!(printed("H7"), "refused 8 0\n");
    assert_eq!(
        printed("H8"),
        "recovered 0\nwrong\ng 1 1\nf1 1\nf2 0 1\nmargin 1\n"
    );
    assert_eq!(printed("H11"), "refused 5 0\n");
    assert_eq!(second::printed(&[]), "refused 1 0\n");
    assert_eq!(printed("H1 with its own bound"), H1_PRINTED);
    assert_eq!(printed("bounds 2, 0, 1"), BOUNDS_PRINTED);
    assert_eq!(printed("bounds 1, 0"), "refused 8 0\n");
    assert_eq!(printed("two outputs and a pole"), POLE_PRINTED);
    assert_eq!(printed("8, two poles"), "refused 8 0\n");
    assert_eq!(second::printed(&[0; 314]), "refused 3 0\n");
    assert_eq!(second::printed(&[0; 318]), "refused 3 0\n");
    assert_eq!(second::printed(&[1; 6]), "refused 1 0\n");
    assert_eq!(second::printed(&[1; 400]), "refused 11 0\n");
}
