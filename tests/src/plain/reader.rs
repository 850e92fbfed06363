//! The job bytes and the refusals 1, 11, 3, 4, 5, 12, 6 and 7, into fixed arrays.

/// The first of the twelve flags of an added header, by which rows can be marked.
const MARKS: u32 = 0x800;

pub struct Refusal {
    pub number: u32,
    pub row: u32,
}

impl Refusal {
    fn new(number: u32) -> Refusal {
        Refusal { number, row: 0 }
    }

    pub fn of_row(number: u32, row: usize) -> Refusal {
        Refusal {
            number,
            row: row as u32,
        }
    }
}

/// The fields of a header that the refusals 1, 11, 3 and 4 do not apply to.
pub struct Header {
    pub prime: u32,
    pub outputs: usize,
    pub row_count: usize,
    /// How many bytes stand before the rows.
    pub length: usize,
    /// The bound of each f; 0 where there is no such output.
    numerator_bounds: [usize; 4],
    denominator_bound: usize,
    error_bound: usize,
    /// df + dg + 2E + 1.
    needed_rows: usize,
    /// Whether rows can be marked.
    has_marks: bool,
}

/// What a row says at its point.
#[derive(Clone, Copy, PartialEq, Eq)]
pub enum Said {
    Values,
    Pole,
    Nothing,
}

/// A well formed job.
pub struct Problem {
    pub prime: u32,
    pub outputs: usize,
    pub row_count: usize,
    pub numerator_bounds: [usize; 4],
    pub denominator_bound: usize,
    pub error_bound: usize,
    pub points: [u32; 31],
    pub said: [Said; 31],
    /// Those of a row that says something else mean nothing.
    pub values: [[u32; 4]; 31],
}

impl Problem {
    /// How many rows say something.
    pub fn speaking(&self) -> usize {
        let said = self.said[..self.row_count].iter();
        said.filter(|said| **said != Said::Nothing).count()
    }
}

/// The well formed job that `job` holds, or the refusal.
pub fn read(job: &[u8], area_length: usize) -> Result<Problem, Refusal> {
    let header = read_header(job)?;
    let mut problem = Problem {
        prime: header.prime,
        outputs: header.outputs,
        row_count: header.row_count,
        numerator_bounds: header.numerator_bounds,
        denominator_bound: header.denominator_bound,
        error_bound: header.error_bound,
        points: [0; 31],
        said: [Said::Values; 31],
        values: [[0; 4]; 31],
    };
    read_rows(&mut problem, &header, &job[header.length..])?;
    header.refuse_too_few_speaking(problem.speaking())?;
    refuse_repeated_point(&problem.points[..problem.row_count])?;
    let bounds = &problem.numerator_bounds[..problem.outputs];
    let numerators = problem.outputs + bounds.iter().sum::<usize>();
    if area_length < 4 + 2 * (problem.denominator_bound + 1 + numerators) {
        return Err(Refusal::new(7));
    }
    Ok(problem)
}

/// The header, with refusals 1, 11, 3 and 4; the number of bytes is then that of its rows.
pub fn read_header(job: &[u8]) -> Result<Header, Refusal> {
    if job.len() < 3 {
        return Err(Refusal::new(1));
    }
    let df = usize::from(job[1] >> 2 & 31);
    let mut header = header_fields(job, df);
    if job[2] & 1 == 1 {
        header.length = 7;
        let Some(added) = job[3..].first_chunk() else {
            return Err(Refusal::new(1));
        };
        let word = u32::from_be_bytes(*added);
        header.has_marks = word & MARKS != 0;
        header.numerator_bounds = added_bounds(word & !MARKS, header.outputs, df)?;
    }
    if job.len() != header.length + 2 * header.row_count * (1 + header.outputs) {
        return Err(Refusal::new(3));
    }
    if header.row_count < header.needed_rows {
        return Err(Refusal::new(4));
    }
    Ok(header)
}

impl Header {
    pub fn refuse_too_few_speaking(&self, speaking: usize) -> Result<(), Refusal> {
        match speaking < self.needed_rows {
            true => Err(Refusal::new(12)),
            false => Ok(()),
        }
    }

    /// The mark that these values of a row are, if they are one.
    pub fn mark(&self, values: impl Iterator<Item = u32> + Clone) -> Option<Said> {
        let are_all = |mark: u32| self.has_marks && values.clone().all(|value| value == mark);
        match () {
            () if are_all(65535) => Some(Said::Pole),
            () if are_all(65534) => Some(Said::Nothing),
            () => None,
        }
    }
}

/// The fields of the first three bytes, with df as the bound of every f.
fn header_fields(job: &[u8], df: usize) -> Header {
    let (first, second, third) = (job[0] as usize, job[1] as usize, job[2] as usize);
    let outputs = (first >> 4 & 3) + 1;
    let mut numerator_bounds = [0; 4];
    numerator_bounds[..outputs].fill(df);
    let (denominator_bound, error_bound) = ((second & 3) << 3 | third >> 5, third >> 1 & 15);
    Header {
        prime: match first >> 6 {
            0 => 7,
            1 => 97,
            2 => 257,
            _ => 65521,
        },
        outputs,
        row_count: (first & 15) << 1 | second >> 7,
        length: 3,
        numerator_bounds,
        denominator_bound,
        error_bound,
        needed_rows: df + denominator_bound + 2 * error_bound + 1,
        has_marks: false,
    }
}

/// The bounds of the added header without its first flag, or refusal 11: a bound without an output or a flag is set, a
/// bound is above df, or none is as large.
fn added_bounds(word: u32, outputs: usize, df: usize) -> Result<[usize; 4], Refusal> {
    let bounds = [0, 5, 10, 15].map(|before| (word << before >> 27) as usize);
    let has_surplus = word << (5 * outputs) != 0;
    let existing = &bounds[..outputs];
    if has_surplus || existing.iter().any(|&bound| bound > df) || !existing.contains(&df) {
        return Err(Refusal::new(11));
    }
    Ok(bounds)
}

/// Fills in the rows; refuses the first one with a point of p or more, or such a value where the row is not marked.
fn read_rows(problem: &mut Problem, header: &Header, rows: &[u8]) -> Result<(), Refusal> {
    let row_length = 2 * (1 + problem.outputs);
    for row in 0..problem.row_count {
        let stretch = &rows[row * row_length..(row + 1) * row_length];
        let number =
            |index: usize| u32::from(stretch[2 * index]) << 8 | u32::from(stretch[2 * index + 1]);
        problem.points[row] = number(0);
        let mut largest = number(0);
        for output in 0..problem.outputs {
            let value = number(1 + output);
            problem.values[row][output] = value;
            largest = largest.max(value);
        }
        if largest >= problem.prime {
            let values = problem.values[row][..problem.outputs].iter().copied();
            let mark = header.mark(values).filter(|_| number(0) < problem.prime);
            problem.said[row] = mark.ok_or(Refusal::of_row(5, row))?;
        }
    }
    Ok(())
}

/// Refuses the first row whose point stands in an earlier one.
pub fn refuse_repeated_point<T: PartialEq>(points: &[T]) -> Result<(), Refusal> {
    for (row, point) in points.iter().enumerate() {
        if points[..row].contains(point) {
            return Err(Refusal::of_row(6, row));
        }
    }
    Ok(())
}
