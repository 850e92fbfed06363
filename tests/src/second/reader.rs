//! The job bytes and the refusals before 8, from paper 01 with items 5 and 6 of paper 02: 1, 11, 3, 4, 5, 12, 6 and 7, in this
//! order.

/// The primes by their codes.
pub const PRIMES: [u32; 4] = [7, 97, 257, 65521];

pub struct Refusal {
    pub number: u32,
    pub row: u32,
}

/// What every value of a row is that reports a pole, and of one that is silent.
const POLE: u32 = 65535;
const SILENT: u32 = 65534;

pub struct Row {
    pub point: u32,
    pub said: Said,
}

/// What a row says at its point.
pub enum Said {
    /// One value for each output.
    Values(Vec<u32>),
    /// That g is 0 there.
    Pole,
    Nothing,
}

impl Row {
    fn speaks(&self) -> bool {
        !matches!(self.said, Said::Nothing)
    }
}

/// A well formed job.
pub struct Problem {
    pub prime: u32,
    /// The bound of each output's f.
    pub numerator_bounds: Vec<usize>,
    pub denominator_bound: usize,
    pub error_bound: usize,
    pub rows: Vec<Row>,
}

impl Problem {
    /// How many rows say something.
    pub fn speaking(&self) -> usize {
        self.rows.iter().filter(|row| row.speaks()).count()
    }
}

/// The fields of the three or seven bytes that a job begins with.
pub struct Header {
    /// How many bytes it has.
    pub length: usize,
    code: usize,
    pub outputs: usize,
    pub row_count: usize,
    /// df, the largest bound of an f.
    numerator_bound: usize,
    /// The bound of each output's f.
    pub numerator_bounds: Vec<usize>,
    pub denominator_bound: usize,
    error_bound: usize,
    /// Whether the first flag is set.
    has_marks: bool,
}

impl Header {
    pub fn prime(&self) -> u32 {
        PRIMES[self.code]
    }

    /// df + dg + 2E + 1.
    pub fn needed_rows(&self) -> usize {
        self.numerator_bound + self.denominator_bound + 2 * self.error_bound + 1
    }

    /// How many bytes a job with this header has.
    pub fn job_length(&self) -> usize {
        self.length + 2 * self.row_count * (1 + self.outputs)
    }
}

/// The job that `bytes` hold, or the first refusal that applies before 8.
pub fn read(bytes: &[u8], area_length: usize) -> Result<Problem, Refusal> {
    let problem = read_form(bytes)?;
    refuse_if(area_length < answer_length(&problem), 7, 0)?;
    Ok(problem)
}

/// The job that `bytes` hold, or the first refusal that applies before 7; no area is lent.
pub fn read_form(bytes: &[u8]) -> Result<Problem, Refusal> {
    let header = read_header(bytes)?;
    let needed = header.needed_rows();
    refuse_if(bytes.len() != header.job_length(), 3, 0)?;
    refuse_if(header.row_count < needed, 4, 0)?;
    let problem = Problem {
        prime: header.prime(),
        rows: read_rows(&header, &bytes[header.length..]),
        numerator_bounds: header.numerator_bounds,
        denominator_bound: header.denominator_bound,
        error_bound: header.error_bound,
    };
    refuse_row(first_row_out_of_range(&problem), 5)?;
    refuse_if(problem.speaking() < needed, 12, 0)?;
    refuse_row(first_row_with_used_point(&problem), 6)?;
    Ok(problem)
}

pub fn refuse_if(applies: bool, number: u32, row: u32) -> Result<(), Refusal> {
    if applies {
        Err(Refusal { number, row })
    } else {
        Ok(())
    }
}

fn refuse_row(found: Option<usize>, number: u32) -> Result<(), Refusal> {
    match found {
        Some(row) => Err(Refusal {
            number,
            row: row as u32,
        }),
        None => Ok(()),
    }
}

/// A number that is taken apart from its low end.
struct LowEnd(usize);

impl LowEnd {
    fn take(&mut self, width: u32) -> usize {
        let size = 1 << width;
        let number = self.0 % size;
        self.0 /= size;
        number
    }
}

/// The header, or refusal 1 or 11.
pub fn read_header(bytes: &[u8]) -> Result<Header, Refusal> {
    refuse_if(bytes.len() < 3, 1, 0)?;
    let mut rest = LowEnd(u32::from_be_bytes([0, bytes[0], bytes[1], bytes[2]]) as usize);
    let spare = rest.take(1);
    let error_bound = rest.take(4);
    let denominator_bound = rest.take(5);
    let numerator_bound = rest.take(5);
    let row_count = rest.take(5);
    let outputs = rest.take(2) + 1;
    let mut header = Header {
        length: 3,
        code: rest.take(2),
        outputs,
        row_count,
        numerator_bound,
        numerator_bounds: vec![numerator_bound; outputs],
        denominator_bound,
        error_bound,
        has_marks: false,
    };
    if spare == 1 {
        refuse_if(bytes.len() < 7, 1, 0)?;
        read_added(&mut header, [bytes[3], bytes[4], bytes[5], bytes[6]])?;
    }
    Ok(header)
}

/// The added header's bounds take the place of df; refused with 11 where it breaks a rule.
fn read_added(header: &mut Header, added: [u8; 4]) -> Result<(), Refusal> {
    let mut rest = LowEnd(u32::from_be_bytes(added) as usize);
    let other_flags = rest.take(11);
    header.has_marks = rest.take(1) == 1;
    let mut bounds = [0; 4].map(|_: usize| rest.take(5));
    bounds.reverse();
    let (existing, absent) = bounds.split_at(header.outputs);
    let is_largest = existing.iter().max() == Some(&header.numerator_bound);
    let is_sound = is_largest && absent.iter().all(|&bound| bound == 0) && other_flags == 0;
    refuse_if(!is_sound, 11, 0)?;
    header.length = 7;
    header.numerator_bounds = existing.to_vec();
    Ok(())
}

fn read_rows(header: &Header, bytes: &[u8]) -> Vec<Row> {
    let number = |pair: &[u8]| u32::from(u16::from_be_bytes([pair[0], pair[1]]));
    let row = |stretch: &[u8]| {
        let values: Vec<u32> = stretch[2..].chunks(2).map(number).collect();
        let are_all = |mark: u32| header.has_marks && values.iter().all(|&value| value == mark);
        Row {
            point: number(&stretch[..2]),
            said: match () {
                () if are_all(POLE) => Said::Pole,
                () if are_all(SILENT) => Said::Nothing,
                () => Said::Values(values),
            },
        }
    };
    bytes.chunks(2 * (1 + header.outputs)).map(row).collect()
}

/// A row that mixes marks, or marks with values, is one of values, of which a mark is too large.
fn first_row_out_of_range(problem: &Problem) -> Option<usize> {
    let too_large = |number: &u32| *number >= problem.prime;
    let has_large_value = |said: &Said| match said {
        Said::Values(values) => values.iter().any(too_large),
        Said::Pole | Said::Nothing => false,
    };
    let mut rows = problem.rows.iter();
    rows.position(|row| too_large(&row.point) || has_large_value(&row.said))
}

fn first_row_with_used_point(problem: &Problem) -> Option<usize> {
    let rows = &problem.rows;
    (0..rows.len()).find(|&later| {
        rows[..later]
            .iter()
            .any(|row| row.point == rows[later].point)
    })
}

pub fn answer_length(problem: &Problem) -> usize {
    4 + 2 * coefficient_count(&problem.numerator_bounds, problem.denominator_bound)
}

/// How many coefficients g and every f have together, each up to its bound.
pub fn coefficient_count(numerator_bounds: &[usize], denominator_bound: usize) -> usize {
    let numerators: usize = numerator_bounds.iter().map(|bound| bound + 1).sum();
    denominator_bound + 1 + numerators
}
