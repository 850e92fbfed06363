//! The equations of source document 001, (14), with one value for each output in a row:
//! Φi(x) = yi Ψ(x) for every row and output, deg Φi ≤ dfi + E with the bound dfi of fi, deg Ψ ≤ dg + E.
//! A row that reports a pole asks for Ψ(x) = 0, once for all outputs; a silent one asks for nothing.

use super::field::Field;
use super::polynomial::Polynomial;
use super::reader::{Problem, Row, Said};

type Matrix = Vec<Vec<u32>>;

/// A nonzero solution as (Φ1 .. Φn, Ψ), or `None` where only zero solves the equations.
pub fn kernel_vector(field: Field, problem: &Problem) -> Option<(Vec<Polynomial>, Polynomial)> {
    let solution = nonzero_solution(field, matrix(field, problem))?;
    let mut rest = &solution[..];
    let mut polynomial = |width: usize| {
        let (own, others) = rest.split_at(width);
        rest = others;
        Polynomial::new(own.to_vec())
    };
    let numerators = numerator_widths(problem).map(&mut polynomial).collect();
    Some((numerators, polynomial(denominator_width(problem))))
}

/// How many coefficients each of Φ1 .. Φn has.
fn numerator_widths(problem: &Problem) -> impl Iterator<Item = usize> + '_ {
    let bounds = problem.numerator_bounds.iter();
    bounds.map(|bound| bound + problem.error_bound + 1)
}

fn denominator_width(problem: &Problem) -> usize {
    problem.denominator_bound + problem.error_bound + 1
}

/// One line for each row and output, or one for a row that reports a pole; the columns are the coefficients of Φ1 .. Φn and
/// then of Ψ.
fn matrix(field: Field, problem: &Problem) -> Matrix {
    problem
        .rows
        .iter()
        .flat_map(|row| lines_of(field, problem, row))
        .collect()
}

fn lines_of(field: Field, problem: &Problem, row: &Row) -> Matrix {
    let denominator_start: usize = numerator_widths(problem).sum();
    let blank = vec![0; denominator_start + denominator_width(problem)];
    // Φ begins at `start`, and Ψ has the factor 1 or − yi.
    let line = |start: usize, width: usize, factor: u32| {
        let mut line = blank.clone();
        for power in 0..width {
            line[start + power] = field.power(row.point, power as u32);
        }
        for power in 0..denominator_width(problem) {
            let product = field.multiply(factor, field.power(row.point, power as u32));
            line[denominator_start + power] = product;
        }
        line
    };
    match &row.said {
        Said::Nothing => Vec::new(),
        Said::Pole => vec![line(0, 0, 1)],
        Said::Values(values) => {
            let mut start = 0;
            let of_output = |(width, &value): (usize, &u32)| {
                start += width;
                line(start - width, width, field.subtract(0, value))
            };
            numerator_widths(problem)
                .zip(values)
                .map(of_output)
                .collect()
        }
    }
}

/// Gaussian elimination up to the first column without a pivot: every column before it has one, so
/// 1 in that column, 0 behind it and back substitution before it solve the equations.
fn nonzero_solution(field: Field, mut lines: Matrix) -> Option<Vec<u32>> {
    let columns = lines[0].len();
    for column in 0..columns {
        let pivot = (column..lines.len()).find(|&line| lines[line][column] != 0);
        let Some(pivot) = pivot else {
            return Some(back_substitution(field, &lines, column));
        };
        lines.swap(column, pivot);
        eliminate_below(field, &mut lines, column);
    }
    None
}

/// Clears `column` below its pivot, which stands in the line of the same number, after making the
/// pivot 1.
fn eliminate_below(field: Field, lines: &mut Matrix, column: usize) {
    let (upper, lower) = lines.split_at_mut(column + 1);
    let pivot_line = &mut upper[column];
    let unit = field.reciprocal(pivot_line[column]);
    for entry in &mut pivot_line[column..] {
        *entry = field.multiply(*entry, unit);
    }
    for line in lower {
        let factor = line[column];
        if factor == 0 {
            continue;
        }
        for (entry, &above) in line[column..].iter_mut().zip(&pivot_line[column..]) {
            *entry = field.subtract(*entry, field.multiply(factor, above));
        }
    }
}

fn back_substitution(field: Field, lines: &Matrix, free_column: usize) -> Vec<u32> {
    let mut solution = vec![0; lines[0].len()];
    solution[free_column] = 1;
    for line in (0..free_column).rev() {
        let mut sum = 0;
        for column in line + 1..=free_column {
            sum = field.add(sum, field.multiply(lines[line][column], solution[column]));
        }
        solution[line] = field.subtract(0, sum);
    }
    solution
}
