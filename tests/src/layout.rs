//! The formats of paper 01, with the bounds for each output and the rows that report a pole or are silent of paper 02, as the
//! generator and the tests use them: job and answer bytes written and read back. The solvers have readers and writers of
//! their own.

mod marks;

pub use marks::Mark;

/// The primes by their codes.
pub const PRIMES: [u32; 4] = [7, 97, 257, 65521];
/// The most rows that a header can name.
pub const MOST_ROWS: usize = 31;
/// The most bytes that a job can have: the longer header, 31 rows, four outputs.
pub const LONGEST_JOB: usize = 317;

#[derive(Clone, Debug, PartialEq, Eq, PartialOrd, Ord)]
pub struct Row {
    pub point: u32,
    pub values: Vec<u32>,
}

/// Which header a job begins with.
#[derive(Clone, Copy, Debug, PartialEq, Eq, PartialOrd, Ord)]
pub enum HeaderForm {
    /// Three bytes with the spare bit 0; df bounds every f.
    Short,
    /// Four more bytes behind the spare bit 1: a bound for each f, and flags, which are all 0.
    OwnBounds,
    /// The same with the first flag 1, by which rows can be marked.
    Flagged,
}

impl HeaderForm {
    pub const ALL: [HeaderForm; 3] = [
        HeaderForm::Short,
        HeaderForm::OwnBounds,
        HeaderForm::Flagged,
    ];

    /// The form of the header that three bytes or more begin with; flags that are not there count as 0.
    pub fn of(bytes: &[u8]) -> HeaderForm {
        match (bytes[2] % 2, bytes.get(5)) {
            (0, _) => HeaderForm::Short,
            (_, Some(byte)) if byte / 8 % 2 == 1 => HeaderForm::Flagged,
            _ => HeaderForm::OwnBounds,
        }
    }

    /// Whether the spare bit is 1, so that there is a bound for each f.
    pub fn has_own_bounds(self) -> bool {
        self != HeaderForm::Short
    }

    /// How many bytes the header has.
    pub fn length(self) -> usize {
        match self {
            HeaderForm::Short => 3,
            HeaderForm::OwnBounds | HeaderForm::Flagged => 7,
        }
    }
}

/// A job as its header's fields and its rows; nothing is tested until it is read by a solver.
#[derive(Clone, Debug, PartialEq, Eq)]
pub struct Job {
    pub header: HeaderForm,
    pub prime_code: usize,
    /// The bound of each f; there are as many as outputs. They are equal under the short header.
    pub numerator_bounds: Vec<usize>,
    pub denominator_bound: usize,
    pub error_bound: usize,
    pub rows: Vec<Row>,
}

impl Job {
    pub fn prime(&self) -> u32 {
        PRIMES[self.prime_code]
    }

    pub fn outputs(&self) -> usize {
        self.numerator_bounds.len()
    }

    /// df, the largest bound of an f.
    pub fn numerator_bound(&self) -> usize {
        let largest = self.numerator_bounds.iter().max();
        *largest.expect("an output")
    }

    pub fn has_equal_bounds(&self) -> bool {
        let df = self.numerator_bound();
        self.numerator_bounds.iter().all(|&bound| bound == df)
    }

    /// The forms of header that the job can have with the same meaning: the short one only where all bounds are equal, and
    /// the flag alone where a row is marked.
    pub fn headers(&self) -> &'static [HeaderForm] {
        match (self.has_marks(), self.has_equal_bounds()) {
            (true, _) => &HeaderForm::ALL[2..],
            (_, false) => &HeaderForm::ALL[1..],
            _ => &HeaderForm::ALL,
        }
    }

    /// The same job under a header of this form; under the short one df bounds every f.
    pub fn under(&self, header: HeaderForm) -> Job {
        let mut job = Job {
            header,
            ..self.clone()
        };
        if header == HeaderForm::Short {
            let df = self.numerator_bound();
            job.numerator_bounds.fill(df);
        }
        job
    }

    /// df + dg + 2E + 1.
    pub fn needed_rows(&self) -> usize {
        self.numerator_bound() + self.denominator_bound + 2 * self.error_bound + 1
    }

    pub fn answer_length(&self) -> usize {
        let numerators: usize = self.numerator_bounds.iter().map(|bound| bound + 1).sum();
        4 + 2 * (self.denominator_bound + 1 + numerators)
    }

    /// The coefficients of each f, in a list where those of f1, f2, .. stand one after the other.
    pub fn numerators_in<'a>(
        &'a self,
        coefficients: &'a [u32],
    ) -> impl Iterator<Item = &'a [u32]> + 'a {
        let mut rest = coefficients;
        self.numerator_bounds.iter().map(move |bound| {
            let (own, others) = rest.split_at(bound + 1);
            rest = others;
            own
        })
    }

    pub fn pack(&self) -> Vec<u8> {
        let mut bytes = self.packed_header();
        for row in &self.rows {
            bytes.extend(packed_row(row));
        }
        bytes
    }

    pub fn packed_header(&self) -> Vec<u8> {
        let is_short = self.header == HeaderForm::Short;
        assert!(!is_short || self.has_equal_bounds(), "{self:?}");
        let fields = [
            (2, self.prime_code),
            (2, self.outputs() - 1),
            (5, self.rows.len()),
            (5, self.numerator_bound()),
            (5, self.denominator_bound),
            (4, self.error_bound),
            (1, usize::from(!is_short)),
        ];
        let bounds = self.numerator_bounds.iter().map(|&bound| (5, bound));
        let absent = std::iter::repeat_n((5, 0), 4 - self.outputs());
        let flags = [
            (1, usize::from(self.header == HeaderForm::Flagged)),
            (11, 0),
        ];
        let added = bounds.chain(absent).chain(flags);
        let added = added.filter(|_| !is_short);
        let mut bits = 0u64;
        for (width, number) in fields.into_iter().chain(added) {
            assert!(number < 1 << width, "{number} does not fit {width} bits");
            bits = bits << width | number as u64;
        }
        bits.to_be_bytes()[8 - self.header.length()..].to_vec()
    }

    /// The job that well formed bytes hold. Of other bytes, a whole header at least, it has the
    /// header's fields, and as many rows as are whole; the bounds under the longer header are those
    /// of the outputs that exist, and df is the largest of them.
    pub fn unpack(bytes: &[u8]) -> Job {
        let fields = number(&bytes[..2]) << 8 | u32::from(bytes[2]);
        let field = |low: u32, width: u32| (fields >> low) as usize % (1 << width);
        let (header, outputs) = (HeaderForm::of(bytes), field(20, 2) + 1);
        let numerator_bounds = match header {
            HeaderForm::Short => vec![field(10, 5); outputs],
            _ => added_bounds(&bytes[3..7])[..outputs].to_vec(),
        };
        let row = |stretch: &[u8]| Row {
            point: number(&stretch[..2]),
            values: stretch[2..].chunks(2).map(number).collect(),
        };
        let rows = bytes[header.length()..].chunks_exact(2 * (1 + outputs));
        Job {
            header,
            prime_code: field(22, 2),
            numerator_bounds,
            denominator_bound: field(5, 5),
            error_bound: field(1, 4),
            rows: rows.map(row).collect(),
        }
    }
}

/// Whether the added header of bytes that begin with the longer one meets every rule of paper 02.
pub fn has_sound_added_header(bytes: &[u8]) -> bool {
    let (df, outputs) = (
        usize::from(bytes[1] / 4 % 32),
        usize::from(bytes[0] / 16 % 4) + 1,
    );
    let bounds = added_bounds(&bytes[3..7]);
    let flags = number(&bytes[5..7]) % 4096;
    let has_absent = bounds[outputs..].iter().any(|&bound| bound > 0);
    bounds[..outputs].iter().max() == Some(&df) && !has_absent && flags & 0x7FF == 0
}

/// The four bounds in the four bytes of an added header.
fn added_bounds(added: &[u8]) -> [usize; 4] {
    let bits = number(&added[..2]) << 16 | number(&added[2..]);
    [27, 22, 17, 12].map(|low| (bits >> low) as usize % 32)
}

/// The 16-bit number in two bytes.
fn number(pair: &[u8]) -> u32 {
    u32::from(pair[0]) * 256 + u32::from(pair[1])
}

/// A row's bytes: the point and the values, 16 bits each.
pub fn packed_row(row: &Row) -> Vec<u8> {
    let numbers = std::iter::once(&row.point).chain(&row.values);
    numbers
        .flat_map(|&number| (number as u16).to_be_bytes())
        .collect()
}

/// An answer: the word of wrong rows, and coefficients up to the degree bounds.
#[derive(Clone, Debug, PartialEq, Eq)]
pub struct Answer {
    pub word: u32,
    pub denominator: Vec<u32>,
    pub numerators: Vec<Vec<u32>>,
}

impl Answer {
    /// The answer's bytes, each polynomial filled up with zeros to the job's bound.
    pub fn pack(&self, job: &Job) -> Vec<u8> {
        let mut bytes = self.word.to_be_bytes().to_vec();
        let mut push = |coefficients: &[u32], bound: usize| {
            for power in 0..=bound {
                let coefficient = coefficients.get(power).copied().unwrap_or(0);
                bytes.extend((coefficient as u16).to_be_bytes());
            }
        };
        push(&self.denominator, job.denominator_bound);
        for (numerator, &bound) in self.numerators.iter().zip(&job.numerator_bounds) {
            push(numerator, bound);
        }
        bytes
    }

    /// The answer in the first bytes of an area, which must be long enough for the job.
    pub fn unpack(area: &[u8], job: &Job) -> Answer {
        let word = number(&area[..2]) << 16 | number(&area[2..4]);
        let coefficients: Vec<u32> = area[4..job.answer_length()].chunks(2).map(number).collect();
        let (denominator, numerators) = coefficients.split_at(job.denominator_bound + 1);
        Answer {
            word,
            denominator: denominator.to_vec(),
            numerators: job.numerators_in(numerators).map(<[u32]>::to_vec).collect(),
        }
    }

    /// The same polynomials without zeros above their degrees, so that answers under different
    /// bounds can be compared.
    pub fn trimmed(&self) -> (Vec<u32>, Vec<Vec<u32>>) {
        (
            trimmed(&self.denominator),
            self.numerators.iter().map(|f| trimmed(f)).collect(),
        )
    }
}

/// The coefficients up to the last one that is not zero.
pub fn trimmed(coefficients: &[u32]) -> Vec<u32> {
    let length = coefficients
        .iter()
        .rposition(|&coefficient| coefficient != 0);
    coefficients[..length.map_or(0, |place| place + 1)].to_vec()
}

/// The word's bit for a row.
pub fn row_bit(row: usize) -> u32 {
    1 << (31 - row)
}

/// The polynomial's value, term by term. Primes below 2^16 keep every sum below 2^32.
pub fn value_at(coefficients: &[u32], point: u32, prime: u32) -> u32 {
    let (mut sum, mut power) = (0, 1);
    for &coefficient in coefficients {
        sum = (sum + coefficient * power) % prime;
        power = power * point % prime;
    }
    sum
}

/// Paper 01's "right" of a row with values: fi(x) = g(x) yi modulo p for every output.
pub fn is_right<'a>(
    denominator: &[u32],
    numerators: impl Iterator<Item = &'a [u32]>,
    row: &Row,
    prime: u32,
) -> bool {
    let below = value_at(denominator, row.point, prime);
    numerators
        .zip(&row.values)
        .all(|(numerator, &value)| value_at(numerator, row.point, prime) == below * value % prime)
}

/// The word of the wrong rows.
pub fn wrong_rows(job: &Job, denominator: &[u32], numerators: &[Vec<u32>]) -> u32 {
    let wrong = |row: &usize| {
        let polynomials = numerators.iter().map(Vec::as_slice);
        job.is_wrong(&job.rows[*row], denominator, polynomials)
    };
    (0..job.rows.len()).filter(wrong).map(row_bit).sum()
}

/// Whether g has a root among the points of the rows.
pub fn has_pole(job: &Job, denominator: &[u32]) -> bool {
    job.rows
        .iter()
        .any(|row| value_at(denominator, row.point, job.prime()) == 0)
}
