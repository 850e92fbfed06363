//! An LC ladder with a resistor at both ends: its node voltages at a point, and as fractions.
//!
//! ```text
//!  1 V --R--o--L--o--L--o--L--o----
//!           |     |     |     |   |
//!           C     C     C     C   R
//!           |     |     |     |   |
//! ----------o-----o-----o-----o----
//! ```
//!
//! In ohms, picofarads, nanohenries and with u in 1/ns a capacitor conducts u C and an inductor
//! 1000 / (u L) millisiemens. The nodal equations say that the currents out of each node add up to
//! the source's. Everything is taken modulo a prime.

use crate::jobs::Random;
use crate::layout::{HeaderForm, Job, Row};
use crate::second::polynomial::Polynomial;
use crate::second::Field;

/// How many nodes the ladder has, each of them an output.
pub const NODES: usize = 4;
/// A job's points: 1 to 31. At 0 the inductors are short circuits, and the equations say too little.
const POINTS: u32 = 31;

/// The parts, from the source to the load.
#[derive(Clone, Debug)]
pub struct Ladder {
    /// In ohms.
    pub source: u32,
    pub load: u32,
    /// In picofarads.
    pub capacitors: [u32; NODES],
    /// In nanohenries.
    pub inductors: [u32; NODES - 1],
}

/// Fractions over one denominator, reduced.
#[derive(Debug, PartialEq, Eq)]
pub struct Fractions {
    pub denominator: Polynomial,
    pub numerators: Vec<Polynomial>,
}

/// A job with the rows that are wrong in it, rising.
pub struct Spoiled {
    pub job: Job,
    pub wrong: Vec<usize>,
}

impl Ladder {
    /// Close to a Butterworth low-pass of order 7 for 50 ohms and 10 MHz, by parts that are made (E24).
    pub const BUTTERWORTH: Ladder = Ladder {
        source: 50,
        load: 50,
        capacitors: [150, 560, 560, 150],
        inductors: [1000, 1600, 1000],
    };

    /// A ladder with other parts, of the twelve values to a decade in which they are made (E12).
    pub fn draw(random: &mut Random) -> Ladder {
        const SERIES: [u32; 12] = [10, 12, 15, 18, 22, 27, 33, 39, 47, 56, 68, 82];
        let mut part = |decade: u32| SERIES[random.below(SERIES.len())] * decade;
        let (source, load) = (part(1), part(1));
        Ladder {
            source,
            load,
            capacitors: std::array::from_fn(|_| part(10)),
            inductors: std::array::from_fn(|_| part(100)),
        }
    }

    /// The nodal equations, each times u: a polynomial for each node, and the source's behind them.
    fn equations(&self, field: Field) -> Vec<Vec<Polynomial>> {
        let per_thousand = |number: u32| field.multiply(1000, field.reciprocal(number));
        let mut rows = vec![vec![Polynomial::zero(); NODES + 1]; NODES];
        let inverse = |inductor: Option<usize>| {
            let part = inductor.and_then(|place| self.inductors.get(place));
            part.map_or(0, |&part| per_thousand(part))
        };
        let coupling = |inverse: u32| Polynomial::new(vec![field.subtract(0, inverse)]);
        for node in 0..NODES {
            let (left, right) = (inverse(node.checked_sub(1)), inverse(Some(node)));
            let resistor = match node {
                0 => per_thousand(self.source),
                _ if node == NODES - 1 => per_thousand(self.load),
                _ => 0,
            };
            let own = vec![field.add(left, right), resistor, self.capacitors[node]];
            rows[node][node] = Polynomial::new(own);
            if node > 0 {
                rows[node][node - 1] = coupling(left);
            }
            if node + 1 < NODES {
                rows[node][node + 1] = coupling(right);
            }
        }
        rows[0][NODES] = Polynomial::new(vec![0, per_thousand(self.source)]);
        rows
    }

    /// The node voltages at a point other than 0, by elimination on numbers; none at a pole.
    pub fn voltages(&self, point: u32, field: Field) -> Option<Vec<u32>> {
        let equations = self.equations(field);
        let value = |entry: &Polynomial| entry.value_at(point, field);
        let mut rows: Vec<Vec<u32>> = equations
            .iter()
            .map(|row| row.iter().map(value).collect())
            .collect();
        for column in 0..NODES {
            let pivot = (column..NODES).find(|&row| rows[row][column] != 0)?;
            rows.swap(column, pivot);
            let unit = field.reciprocal(rows[column][column]);
            let leading: Vec<u32> = rows[column]
                .iter()
                .map(|&entry| field.multiply(entry, unit))
                .collect();
            for (index, row) in rows.iter_mut().enumerate() {
                let factor = row[column];
                for (entry, &other) in row.iter_mut().zip(&leading) {
                    *entry = match index == column {
                        true => other,
                        false => field.subtract(*entry, field.multiply(factor, other)),
                    };
                }
            }
        }
        Some(rows.iter().map(|row| row[NODES]).collect())
    }

    /// The node voltages as reduced fractions in u, by elimination on the matrix of polynomials:
    /// each is a quotient of two determinants.
    pub fn fractions(&self, field: Field) -> Fractions {
        let equations = self.equations(field);
        let with_column = |replaced: usize| -> Vec<Vec<Polynomial>> {
            let row = |row: &Vec<Polynomial>| {
                let mut row = row.clone();
                row.swap(replaced, NODES);
                row.truncate(NODES);
                row
            };
            equations.iter().map(row).collect()
        };
        let denominator = determinant(with_column(NODES), field);
        let numerators: Vec<Polynomial> = (0..NODES)
            .map(|node| determinant(with_column(node), field))
            .collect();
        let divisor = numerators
            .iter()
            .fold(denominator.clone(), |d, f| d.common_divisor(f, field));
        let quotient = |polynomial: &Polynomial| polynomial.divide(&divisor, field).0;
        let denominator = quotient(&denominator);
        let leading = denominator
            .leading()
            .expect("a determinant that is not zero");
        let unit = field.reciprocal(leading);
        let scaled = |polynomial: &Polynomial| quotient(polynomial).scaled(unit, field);
        Fractions {
            numerators: numerators.iter().map(scaled).collect(),
            denominator: denominator.scaled(unit, field),
        }
    }

    /// The job of this ladder modulo 65521, with bits flipped in as many rows as the bounds allow.
    pub fn job(&self, random: &mut Random) -> Spoiled {
        let mut job = Job {
            header: HeaderForm::Short,
            prime_code: 3,
            numerator_bounds: vec![6; NODES],
            denominator_bound: 7,
            error_bound: 8,
            rows: Vec::new(),
        };
        let field = Field::new(job.prime());
        let mut wrong = Vec::new();
        for point in 1..=POINTS {
            let values = self.voltages(point, field).unwrap_or_else(|| {
                wrong.push(job.rows.len());
                vec![0; NODES]
            });
            job.rows.push(Row { point, values });
        }
        while wrong.len() < job.error_bound {
            let row = random.below(job.rows.len());
            if !wrong.contains(&row) {
                flip_bit(random, &mut job.rows[row], field);
                wrong.push(row);
            }
        }
        wrong.sort_unstable();
        Spoiled { job, wrong }
    }
}

/// Flips a bit of a value so that it stays a residue.
fn flip_bit(random: &mut Random, row: &mut Row, field: Field) {
    loop {
        let value = &mut row.values[random.below(NODES)];
        let flipped = *value ^ 1 << random.below(16);
        if flipped < field.prime() {
            *value = flipped;
            return;
        }
    }
}

/// The determinant by Bareiss's elimination: every division leaves no remainder.
fn determinant(mut rows: Vec<Vec<Polynomial>>, field: Field) -> Polynomial {
    let size = rows.len();
    let (mut before, mut is_odd) = (Polynomial::one(), false);
    for column in 0..size - 1 {
        let Some(pivot) = (column..size).find(|&row| !rows[row][column].is_zero()) else {
            return Polynomial::zero();
        };
        is_odd ^= pivot != column;
        rows.swap(column, pivot);
        for row in column + 1..size {
            for place in column + 1..size {
                let gained = rows[row][place].times(&rows[column][column], field);
                let lost = rows[row][column].times(&rows[column][place], field);
                let (entry, rest) = gained.minus(&lost, field).divide(&before, field);
                assert!(rest.is_zero(), "a remainder in Bareiss's elimination");
                rows[row][place] = entry;
            }
        }
        before = rows[column][column].clone();
    }
    let last = &rows[size - 1][size - 1];
    if is_odd {
        Polynomial::zero().minus(last, field)
    } else {
        last.clone()
    }
}
