//! The form of a job alone, for comparing speed: the rows are looked at where they stand.

use super::reader::{read_header, refuse_repeated_point, Header, Refusal, Said};
use hanthuvelo::Form;

/// The first of the refusals 1, 11, 3, 4, 5, 12 and 6 that applies to the job, if one does.
pub fn check(job: &[u8]) -> Form {
    match look(job) {
        Ok(()) => Form::ACCEPTED,
        Err(refusal) => Form::refused(refusal.number, refusal.row),
    }
}

fn look(job: &[u8]) -> Result<(), Refusal> {
    let header = read_header(job)?;
    let mut points = [0; 31];
    let rows = job[header.length..].chunks_exact(2 * (1 + header.outputs));
    for ((row, stretch), point) in rows.enumerate().zip(&mut points) {
        *point = number(stretch);
        let mut numbers = stretch.chunks_exact(2).map(number);
        if numbers.any(|number| u32::from(number) >= header.prime) {
            return look_for_marks(job, &header, row);
        }
    }
    refuse_repeated_point(&points[..header.row_count])
}

/// The same from this row on, the first one with a number of p or more; it may be marked.
#[cold]
fn look_for_marks(job: &[u8], header: &Header, first: usize) -> Result<(), Refusal> {
    let rows = job[header.length..].chunks_exact(2 * (1 + header.outputs));
    let points: Vec<u16> = rows.clone().map(number).collect();
    let mut speaking = header.row_count;
    for (row, stretch) in rows.enumerate().skip(first) {
        let mut numbers = stretch.chunks_exact(2).map(number);
        if numbers.any(|number| u32::from(number) >= header.prime) {
            let said = mark(header, stretch).ok_or(Refusal::of_row(5, row))?;
            speaking -= usize::from(said == Said::Nothing);
        }
    }
    header.refuse_too_few_speaking(speaking)?;
    refuse_repeated_point(&points)
}

/// The mark of a row, if it has one and its point is below p.
fn mark(header: &Header, stretch: &[u8]) -> Option<Said> {
    let (point, values) = stretch.split_at(2);
    let mark = header.mark(values.chunks_exact(2).map(number).map(u32::from));
    mark.filter(|_| u32::from(number(point)) < header.prime)
}

/// The number in the first two bytes.
fn number(bytes: &[u8]) -> u16 {
    u16::from_be_bytes([bytes[0], bytes[1]])
}
