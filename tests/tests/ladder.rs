//! A network of real parts: the fractions of its node voltages, found from the nodal equations
//! themselves, against what is recovered from values of which some have a flipped bit.

use hanthuvelo::readable;
use outside_checks::implementations;
use outside_checks::jobs::Random;
use outside_checks::ladder::{Fractions, Ladder, Spoiled};
use outside_checks::layout::{row_bit, Answer};
use outside_checks::second::polynomial::Polynomial;
use outside_checks::second::Field;
use std::fs;

const SEED: u64 = 7;
const EXAMPLE: &str = concat!(env!("CARGO_MANIFEST_DIR"), "/../examples/ladder.job");

fn field() -> Field {
    Field::new(65521)
}

/// Recovers the job by every implementation; each must find these fractions and these wrong rows.
fn compare(spoiled: &Spoiled, expected: &Fractions) {
    let Spoiled { job, wrong } = spoiled;
    for implementation in implementations() {
        let mut area = vec![0; job.answer_length()];
        let report = (implementation.recover)(&job.pack(), &mut area);
        assert!(report.is_recovered(), "{report:?} {job:?}");
        let answer = Answer::unpack(&area, job);
        let marks: u32 = wrong.iter().copied().map(row_bit).sum();
        assert_eq!(answer.word, marks, "{job:?}");
        assert_eq!(report.wrong as usize, job.error_bound);
        let numerators = answer.numerators.into_iter().map(Polynomial::new);
        let found = Fractions {
            denominator: Polynomial::new(answer.denominator),
            numerators: numerators.collect(),
        };
        assert_eq!(found, *expected, "{}: {job:?}", implementation.name);
    }
}

/// What is known of such a ladder beforehand: seven parts store energy, each node further from the
/// source loses two degrees, and to direct current the ladder is a voltage divider.
fn check_physics(ladder: &Ladder, fractions: &Fractions) {
    let field = field();
    assert_eq!(fractions.denominator.degree(), Some(7), "{ladder:?}");
    let degrees: Vec<Option<usize>> = fractions.numerators.iter().map(|f| f.degree()).collect();
    assert_eq!(degrees, [Some(6), Some(4), Some(2), Some(0)], "{ladder:?}");
    let below = fractions.denominator.coefficient(0);
    for numerator in &fractions.numerators {
        let divided = field.multiply(below, ladder.load);
        let whole = field.multiply(numerator.coefficient(0), ladder.source + ladder.load);
        assert_eq!(divided, whole, "{ladder:?}");
    }
}

#[test]
fn a_hundred_ladders() {
    for index in 0..100 {
        let mut random = Random::new(SEED, index);
        let ladder = Ladder::draw(&mut random);
        let fractions = ladder.fractions(field());
        check_physics(&ladder, &fractions);
        compare(&ladder.job(&mut random), &fractions);
    }
}

/// The values that are not spoiled are those of the fractions: two eliminations that share only
/// the equations.
#[test]
fn voltages_are_values_of_the_fractions() {
    let (ladder, field) = (Ladder::BUTTERWORTH, field());
    let fractions = ladder.fractions(field);
    for point in 1..=1000 {
        let below = fractions.denominator.value_at(point, field);
        let voltages = ladder.voltages(point, field);
        assert_eq!(voltages.is_none(), below == 0, "{point}");
        for (f, voltage) in fractions
            .numerators
            .iter()
            .zip(voltages.unwrap_or_default())
        {
            assert_eq!(f.value_at(point, field), field.multiply(below, voltage));
        }
    }
}

/// The example's file: the ladder's job, each row whose bit is flipped with a remark.
fn example_text(spoiled: &Spoiled) -> String {
    let remarks = "\
# A Butterworth low-pass of order 7 for 50 ohms and some 10 MHz, as a ladder with a resistor at both ends:
#
#  1 V --50--o--1000--o--1600--o--1000--o-----
#            |        |        |        |    |
#           150      560      560      150   50     ohms, picofarads, nanohenries; u in 1/ns
#            |        |        |        |    |
# -----------o--------o--------o--------o-----
#
# The four node voltages at the points 1 to 31, by the nodal equations modulo 65521. A bit is flipped in eight rows.
prime 65521 outputs 4 df 6 dg 7 errors 8
";
    let mut text = remarks.to_string();
    for (index, row) in spoiled.job.rows.iter().enumerate() {
        let values: Vec<String> = row.values.iter().map(u32::to_string).collect();
        let remark = match spoiled.wrong.contains(&index) {
            true => "  # a bit is flipped",
            false => "",
        };
        text += &format!("{}: {}{remark}\n", row.point, values.join(" "));
    }
    text
}

#[test]
fn the_example_is_this_network() {
    let ladder = Ladder::BUTTERWORTH;
    let spoiled = ladder.job(&mut Random::new(SEED, 100));
    let fractions = ladder.fractions(field());
    check_physics(&ladder, &fractions);
    compare(&spoiled, &fractions);
    let expected = example_text(&spoiled);
    let text = fs::read_to_string(EXAMPLE).unwrap_or_default();
    assert!(
        text == expected,
        "examples/ladder.job should be:\n{expected}"
    );
    let job = readable::parse(text.as_bytes()).expect("a readable job");
    assert_eq!(job.pack(), spoiled.job.pack());
}
