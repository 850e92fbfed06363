//! What is printed of a job: for people, or as an object of JSON for programs.

use crate::input::InputError;
use hanthuvelo::{trimmed, Answer, FormatError, Job, Reading, Refusal};
use std::fmt::{Display, Formatter};

/// Where a job stands.
pub struct Place<'a> {
    pub file: &'a str,
    /// In a stream: the job's number there, and the byte where it begins, both counted from 0.
    pub in_stream: Option<(u64, u64)>,
}

impl Place<'_> {
    /// A file that is one job.
    pub fn of(file: &str) -> Place<'_> {
        let in_stream = None;
        Place { file, in_stream }
    }

    pub fn error(&self, error: &FormatError) -> InputError {
        InputError {
            file: self.file.to_string(),
            line: None,
            in_stream: self.in_stream,
            message: error.to_string(),
        }
    }
}

impl Display for Place<'_> {
    fn fmt(&self, formatter: &mut Formatter<'_>) -> std::fmt::Result {
        formatter.write_str(self.file)?;
        match self.in_stream {
            Some((job, byte)) => write!(formatter, ", job {job} at byte {byte}"),
            None => Ok(()),
        }
    }
}

/// A recovered job.
pub struct Recovered {
    job: Job,
    answer: Answer,
    margin: u32,
}

impl Recovered {
    /// The job in `bytes` with the answer that was written for it, of which so many rows were reported wrong.
    pub fn read(bytes: &[u8], written: &[u8], wrong: u32) -> Result<Recovered, FormatError> {
        let job = Job::unpack(bytes)?;
        let answer = Answer::unpack(written, job.bounds(), job.rows().len())?;
        let margin = hanthuvelo::margin(bytes, wrong);
        Ok(Recovered {
            job,
            answer,
            margin,
        })
    }

    /// Each wrong row with its point.
    fn wrong_rows(&self) -> Vec<(usize, u16)> {
        let rows = self.job.rows();
        let with_point = |row: usize| rows.get(row).map(|found| (row, found.point));
        let wrong = self.answer.wrong_rows();
        wrong.into_iter().filter_map(with_point).collect()
    }

    /// Each row with this reading, with its point.
    fn rows_with(&self, reading: Reading) -> Vec<(usize, u16)> {
        let rows = self.job.rows().iter().enumerate();
        let found = rows.filter(|(_, row)| row.reading == reading);
        found.map(|(place, row)| (place, row.point)).collect()
    }

    pub fn text(&self, place: &Place) -> String {
        let prime = self.job.bounds().prime.value();
        let mut text = format!("{place}: recovered modulo {prime}\n");
        for output in 0..self.answer.numerators.len() {
            let fraction = self.answer.fraction(output);
            text += &format!("  f{} = {fraction}\n", output + 1);
        }
        text += &rows_line("wrong rows", &self.wrong_rows());
        for (name, reading) in [
            ("reported poles", Reading::Pole),
            ("silent rows", Reading::Silent),
        ] {
            let rows = self.rows_with(reading);
            if !rows.is_empty() {
                text += &rows_line(name, &rows);
            }
        }
        text + &format!("  margin: {}\n", self.margin)
    }

    pub fn json(&self, place: &Place) -> String {
        let prime = self.job.bounds().prime.value();
        let wrong = json_rows(&self.wrong_rows());
        let marks = match self.job.allows_marks() {
            true => {
                let poles = json_rows(&self.rows_with(Reading::Pole));
                let silent = json_rows(&self.rows_with(Reading::Silent));
                format!(",\"poles\":{poles},\"silent\":{silent}")
            }
            false => String::new(),
        };
        let g = json_polynomial(&self.answer.denominator);
        let f = self.answer.numerators.iter();
        let f: Vec<String> = f.map(|each| json_polynomial(each)).collect();
        let (f, margin) = (f.join(","), self.margin);
        json_object(
            place,
            "recovered",
            &format!("\"prime\":{prime},\"g\":{g},\"f\":[{f}],\"wrong\":{wrong}{marks},\"margin\":{margin}"),
        )
    }
}

/// A line for rows with their points.
fn rows_line(name: &str, rows: &[(usize, u16)]) -> String {
    let with_point = |(row, point): &(usize, u16)| format!("{row} (u = {point})");
    let rows: Vec<String> = rows.iter().map(with_point).collect();
    format!("  {name}: {}\n", listed(&rows, ", "))
}

/// Rows with their points, as a list of objects.
fn json_rows(rows: &[(usize, u16)]) -> String {
    let object = |(row, point): &(usize, u16)| format!("{{\"row\":{row},\"point\":{point}}}");
    let rows: Vec<String> = rows.iter().map(object).collect();
    format!("[{}]", rows.join(","))
}

/// `none` for an empty list.
pub fn listed(items: &[String], separator: &str) -> String {
    match items.len() {
        0 => "none".to_string(),
        _ => items.join(separator),
    }
}

/// Of a job whose form is accepted.
pub fn accepted_json(place: &Place) -> String {
    json_object(place, "accepted", "")
}

pub fn refused_text(place: &Place, refusal: &Refusal) -> String {
    format!("{place}: {refusal}\n")
}

pub fn refused_json(place: &Place, refusal: &Refusal) -> String {
    let (number, row) = (refusal.number, refusal.row);
    let reason = json_string(&refusal.reason);
    json_object(
        place,
        "refused",
        &format!("\"refusal\":{number},\"row\":{row},\"reason\":{reason}"),
    )
}

/// The verdict on an offered answer; the reason is that of a no.
pub fn judged_json(place: &Place, reason: Option<&str>) -> String {
    let verdict = match reason {
        None => "\"yes\":true".to_string(),
        Some(reason) => format!("\"yes\":false,\"reason\":{}", json_string(reason)),
    };
    json_object(place, "judged", &verdict)
}

pub fn unreadable_json(error: &InputError) -> String {
    let place = Place {
        file: &error.file,
        in_stream: error.in_stream,
    };
    let line = match error.line {
        Some(line) => format!("\"line\":{line},"),
        None => String::new(),
    };
    let message = json_string(&error.message);
    json_object(
        &place,
        "unreadable",
        &format!("{line}\"message\":{message}"),
    )
}

/// An object with what is known of every job, and then the rest, if there is any.
fn json_object(place: &Place, status: &str, rest: &str) -> String {
    let file = json_string(place.file);
    let comma = if rest.is_empty() { "" } else { "," };
    let stream = match place.in_stream {
        Some((job, byte)) => format!("\"job\":{job},\"byte\":{byte},"),
        None => String::new(),
    };
    format!("{{\"file\":{file},{stream}\"status\":\"{status}\"{comma}{rest}}}\n")
}

/// Coefficients from the constant term to the degree; zero is `[0]`.
fn json_polynomial(coefficients: &[u16]) -> String {
    let shown = match trimmed(coefficients) {
        [] => &[0],
        shown => shown,
    };
    let shown: Vec<String> = shown.iter().map(u16::to_string).collect();
    format!("[{}]", shown.join(","))
}

fn json_string(text: &str) -> String {
    let mut string = String::from("\"");
    for character in text.chars() {
        match character {
            '"' | '\\' => string.extend(['\\', character]),
            control if control < ' ' => string += &format!("\\u{:04x}", u32::from(control)),
            other => string.push(other),
        }
    }
    string.push('"');
    string
}

#[cfg(test)]
mod tests {
    use super::json_string;

    #[test]
    fn strings_are_escaped() {
        assert_eq!(json_string("a \"b\" \\ ü\n"), r#""a \"b\" \\ ü\u000a""#);
    }
}
