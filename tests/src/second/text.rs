//! What the printing program writes for an input.

use super::margin::difference;
use super::polynomial::Polynomial;
use super::{reader, solve};
use std::fmt::Write;

/// The program reads no more than this.
const LONGEST_INPUT: usize = 318;
/// No answer needs more.
const LONGEST_ANSWER: usize = 254;

/// The whole output of the printing program for `input`.
pub fn printed(input: &[u8]) -> String {
    let read = &input[..input.len().min(LONGEST_INPUT)];
    let problem = match reader::read(read, LONGEST_ANSWER) {
        Ok(problem) => problem,
        Err(refusal) => return format!("refused {} {}\n", refusal.number, refusal.row),
    };
    let Some(solution) = solve(&problem) else {
        return "refused 8 0\n".to_string();
    };
    let wrong: Vec<u32> = solution.wrong_rows.iter().map(|&row| row as u32).collect();
    let mut text = format!("recovered {}\n", wrong.len());
    push_line(&mut text, "wrong", &wrong);
    push_line(
        &mut text,
        "g",
        &printed_coefficients(&solution.candidate.denominator),
    );
    for (index, numerator) in solution.candidate.numerators.iter().enumerate() {
        push_line(
            &mut text,
            &format!("f{}", index + 1),
            &printed_coefficients(numerator),
        );
    }
    let margin = difference(&problem, wrong.len() as u32);
    text + &format!("margin {margin}\n")
}

fn printed_coefficients(polynomial: &Polynomial) -> Vec<u32> {
    if polynomial.is_zero() {
        vec![0]
    } else {
        polynomial.coefficients().to_vec()
    }
}

fn push_line(text: &mut String, label: &str, numbers: &[u32]) {
    text.push_str(label);
    for number in numbers {
        write!(text, " {number}").expect("writing to a string succeeds");
    }
    text.push('\n');
}
