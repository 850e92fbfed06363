//! The worked examples of paper 01, typed from it, and examples of a bound for each output, of poles and silent rows, and of the
//! margin, items 5 to 7 of paper 02, worked out by hand.

mod own_bounds;
mod poles_and_silence;

use hanthuvelo::{hex, Report};
pub use own_bounds::BOUNDS_PRINTED;
pub use poles_and_silence::POLE_PRINTED;

/// A job of the paper with the area that it is given and what comes back.
#[derive(Clone, Copy, Debug, PartialEq, Eq)]
pub struct Example {
    pub name: &'static str,
    pub job: &'static str,
    pub area_length: usize,
    pub report: Report,
    /// The answer's bytes; empty where the job is refused.
    pub answer: &'static str,
}

/// H1 to H12.
const EXAMPLES: &str = "\
H1 | 01 80 02 0000 0005 0001 0005 0002 0002 | 1 wrong, 20000000 0001 0005
H2 | 01 00 20 0001 0001 0002 0004 | 0 wrong, 00000000 0000 0001 0001
H3 | 02 00 22 0000 0000 0001 0001 0002 0004 0003 0005 | 1 wrong, 80000000 0000 0001 0001
H4 | 02 00 22 0000 0006 0001 0001 0002 0004 0003 0005 | 1 wrong, 80000000 0000 0001 0001
H5 | 01 80 02 0000 0000 0001 0000 0002 0003 | 1 wrong, 20000000 0001 0000
H6 | 01 84 20 0000 0001 0001 0001 0002 0001 | 0 wrong, 00000000 0001 0000 0001 0000
H7 | 01 84 20 0000 0001 0001 0001 0002 0002 | area 12, refused 8
H8 | 11 84 20 0000 0001 0000 0001 0004 0004 0002 0005 0003 | 0 wrong, 00000000 0001 0001 0001 0000 0000 0001
H9 | 01 80 02 0000 0005 0001 0004 0002 0002 | area 8, refused 8
H10 | C0 80 00 0000 FFF0 | 0 wrong, 00000000 0001 FFF0
H11 | C0 80 00 0000 FFF1 | area 8, refused 5
H12 | 01 80 02 0000 0005 0001 0005 0002 0002 | area 7, refused 7
H12, eight bytes | 01 80 02 0000 0005 0001 0005 0002 0002 | 1 wrong, 20000000 0001 0005
";

/// The example inputs of the table of refusals, and the cases named in the text below it.
const REFUSALS: &str = "\
1 | 01 80 | area 8, refused 1
# Refused with 2 until item 5 of paper 02.
2 | 01 80 03 | area 8, refused 1
3 | 01 80 02 00 00 | area 8, refused 3
4 | 01 00 02 0000 0005 0001 0005 | area 8, refused 4
5 | 01 80 02 0000 0005 0001 0005 0002 0007 | area 8, refused 5 at row 2
6 | 01 80 02 0000 0005 0001 0005 0000 0002 | area 8, refused 6 at row 2
7 | 01 80 02 0000 0005 0001 0005 0002 0002 | area 7, refused 7
8 | 01 80 02 0000 0005 0001 0004 0002 0002 | area 8, refused 8
no rows | 00 00 00 | area 8, refused 4
header and surplus bytes | 00 00 00 FF | area 8, refused 3
";

/// Examples with bytes of the right number that are not the job's answer.
pub const NOT_ANSWERS: [(&str, &str); 27] = [
    // Row 1 marked, no row, row 1 too, and a row that does not exist.
    ("H1", "40000000 0001 0005"),
    ("H1", "00000000 0001 0005"),
    ("H1", "60000000 0001 0005"),
    ("H1", "30000000 0001 0005"),
    ("H1", "20000001 0001 0005"),
    // The constant 2 is wrong at two rows; 5 + 7; 1 + 7; both times 2; nothing but zeros.
    ("H1", "C0000000 0001 0002"),
    ("H1", "20000000 0001 000C"),
    ("H1", "20000000 0008 0005"),
    ("H1", "20000000 0002 0003"),
    ("H1", "00000000 0000 0000"),
    // 1/u the other way round; 3/3u.
    ("H2", "00000000 0001 0000 0001"),
    ("H2", "00000000 0000 0003 0003"),
    // The row at the pole is not right.
    ("H3", "00000000 0000 0001 0001"),
    ("H4", "00000000 0000 0001 0001"),
    // f = 0 with g = 3 and g = 0.
    ("H5", "20000000 0003 0000"),
    ("H5", "00000000 0000 0000"),
    // f = g = u - 2, and u.
    ("H6", "00000000 0005 0001 0005 0001"),
    ("H6", "00000000 0000 0001 0000 0001"),
    // f = g = u - 2 solves the equations; reduced, row 2 is wrong.
    ("H7", "00000000 0005 0001 0005 0001"),
    ("H7", "00000000 0001 0000 0001 0000"),
    ("H7", "20000000 0001 0000 0001 0000"),
    // The numerators the other way round.
    ("H8", "00000000 0001 0001 0000 0001 0001 0000"),
    // Each reading is right at one row alone.
    ("H9", "60000000 0001 0005"),
    ("H9", "20000000 0001 0005"),
    ("H9", "A0000000 0001 0004"),
    ("H9", "C0000000 0001 0002"),
    // 1 + 65521.
    ("H10", "00000000 FFF2 FFF0"),
];

/// Margins, S − df − dg − 2W or 0: the example, W and the margin. Those of H1 to H12 that have an answer stand here with its W.
pub const MARGINS: [(&str, u32, u32); 27] = [
    // S is 3, and 2W is 0, 2, 4 and more.
    ("H1", 1, 1),
    ("H1", 0, 3),
    ("H1", 2, 0),
    ("H1", 0x8000_0001, 0),
    ("H12", 1, 1),
    ("H5", 1, 1),
    // 2 − 0 − 1.
    ("H2", 0, 1),
    // 4 − 0 − 1 − 2W.
    ("H3", 1, 1),
    ("H3", 0, 3),
    ("H4", 1, 1),
    // 3 − 1 − 1, without an answer too.
    ("H6", 0, 1),
    ("H7", 0, 1),
    ("H7", 1, 0),
    ("H8", 0, 1),
    ("H9", 1, 1),
    ("H10", 0, 1),
    // The value is too large.
    ("H11", 0, 0),
    // 4 − 2 − 1, and 4 − 1 − 0 − 2W whichever output has the bound 1.
    ("bounds 2, 0, 1", 0, 1),
    ("bounds 0, 1", 1, 1),
    ("bounds 1, 0", 0, 3),
    ("df 1", 1, 1),
    // A row that reports a pole speaks, rightly or not: S is 2, 3 and 3. 4 − 1 − 2 with two outputs.
    ("two outputs and a pole", 0, 1),
    ("H1 with a pole", 1, 1),
    ("8, poles alone", 0, 3),
    ("a pole of each output alone", 0, 1),
    // S is one less than L: 3 of 4, and 2 of 3.
    ("H1 with a silent row", 1, 1),
    ("1/u silent at its pole", 0, 1),
];

/// The whole output of the printing program for H1, with the line that item 7 of paper 02 adds.
pub const H1_PRINTED: &str = "recovered 1\nwrong 2\ng 1\nf1 5\nmargin 1\n";

/// H1 to H12, with H12's area of eight bytes at the end.
pub fn examples() -> Vec<Example> {
    read(EXAMPLES)
}

/// Those of paper 01's table of refusals, in its order, and the cases below it.
pub fn refusals() -> Vec<Example> {
    read(REFUSALS)
}

/// The examples of paper 01, of a bound for each output, and of poles and silent rows.
pub fn every_example() -> Vec<Example> {
    let tables = [EXAMPLES, own_bounds::EXAMPLES, poles_and_silence::EXAMPLES];
    tables.into_iter().flat_map(read).collect()
}

/// The refusals of paper 01, of the added header, and of poles and silent rows.
pub fn every_refusal() -> Vec<Example> {
    let tables = [REFUSALS, own_bounds::REFUSALS, poles_and_silence::REFUSALS];
    tables.into_iter().flat_map(read).collect()
}

/// One of all examples.
pub fn example(name: &str) -> Example {
    let mut all = every_example().into_iter();
    all.find(|example| example.name == name)
        .unwrap_or_else(|| panic!("there is no example `{name}`"))
}

/// Examples, by their names, with bytes of the right number that are not the job's answer.
pub fn not_answers() -> impl Iterator<Item = (&'static str, &'static str)> {
    let others = own_bounds::NOT_ANSWERS.into_iter();
    let others = others.chain(poles_and_silence::NOT_ANSWERS);
    NOT_ANSWERS.into_iter().chain(others)
}

/// The examples of a table, a line for each: its name, the job, and what comes back, which is `1 wrong, ` and the answer, whose
/// length the area has, or as `area 8, refused 5 at row 2`, without the row if that is 0. What begins with # is a remark.
fn read(table: &'static str) -> Vec<Example> {
    let lines = table.lines().filter(|line| !line.starts_with('#'));
    let example = |line| read_line(line).unwrap_or_else(|| panic!("no example: {line}"));
    lines.map(example).collect()
}

fn read_line(line: &'static str) -> Option<Example> {
    let parts: Vec<&str> = line.split(" | ").collect();
    let [name, job, outcome] = parts[..] else {
        return None;
    };
    let (area_length, report, answer) = match outcome.split_once(" wrong, ") {
        Some((wrong, answer)) => {
            let length = hex::bytes(answer).ok()?.len();
            let report = Report::recovered(length as u32, wrong.parse().ok()?);
            (length, report, answer)
        }
        None => {
            let (area, refusal) = outcome.strip_prefix("area ")?.split_once(", refused ")?;
            let (number, row) = refusal.split_once(" at row ").unwrap_or((refusal, "0"));
            let report = Report::refused(number.parse().ok()?, row.parse().ok()?);
            (area.parse().ok()?, report, "")
        }
    };
    hex::bytes(job).ok()?;
    Some(Example {
        name,
        job,
        area_length,
        report,
        answer,
    })
}

#[cfg(test)]
mod tests {
    use super::{every_example, every_refusal, own_bounds, poles_and_silence, read, read_line};
    use super::{Example, EXAMPLES, REFUSALS};
    use hanthuvelo::Report;
    use std::collections::BTreeSet;

    #[test]
    fn every_part_of_a_line_is_read() {
        let answered = Example {
            name: "a name, and more",
            job: "01 80",
            area_length: 6,
            report: Report::recovered(6, 3),
            answer: "20000000 0005",
        };
        let line = "a name, and more | 01 80 | 3 wrong, 20000000 0005";
        assert_eq!(read_line(line), Some(answered));
        let refused = Example {
            area_length: 17,
            report: Report::refused(5, 2),
            answer: "",
            ..answered
        };
        let line = "a name, and more | 01 80 | area 17, refused 5 at row 2";
        assert_eq!(read_line(line), Some(refused));
        let report = Report::refused(5, 0);
        let line = "a name, and more | 01 80 | area 17, refused 5";
        assert_eq!(read_line(line), Some(Example { report, ..refused }));
    }

    #[test]
    fn what_is_no_example_is_none() {
        for line in [
            "",
            "1 | 01 80",
            "1 | 01 80 | 8",
            "1 | 01 8 | area 8, refused 1",
            "1 | 01 80 | area 8, refused 1 | 1",
            "1 | 01 80 | area, refused 1",
            "1 | 01 80 | area 8, refused",
            "1 | 01 80 | area 8, refused 1 at row",
            "1 | 01 80 | 1 wrong, 2000000",
            "1 | 01 80 | wrong, 20000000",
        ] {
            assert_eq!(read_line(line), None, "{line}");
        }
    }

    /// No line is lost, and no name stands for two examples.
    #[test]
    fn every_table_has_all_its_lines() {
        let examples = [EXAMPLES, own_bounds::EXAMPLES, poles_and_silence::EXAMPLES];
        assert_eq!(examples.map(|table| read(table).len()), [13, 6, 12]);
        let refusals = [REFUSALS, own_bounds::REFUSALS, poles_and_silence::REFUSALS];
        assert_eq!(refusals.map(|table| read(table).len()), [10, 30, 31]);
        for (all, count) in [(every_example(), 31), (every_refusal(), 71)] {
            let names: BTreeSet<&str> = all.iter().map(|each| each.name).collect();
            assert_eq!((names.len(), all.len()), (count, count));
        }
    }
}
