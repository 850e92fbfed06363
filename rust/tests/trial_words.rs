//! The words of each refusal of a trial.

use hanthuvelo::{hex, trial, Refusal};

const HEADER: &str = "13 80 24";
const COEFFICIENTS: &str = "0001 0001 0005 0001";

/// Header, coefficients, number of spoiled rows and length of the area, with the refusal.
const REFUSED: [(&str, &str, u32, usize, &str); 21] = [
    ("", "", 0, 0, "1: expected 3 bytes or more, found 0"),
    (
        "13 80",
        COEFFICIENTS,
        2,
        45,
        "1: expected 3 bytes or more, found 2",
    ),
    // This header met 2 before there was a longer one.
    (
        "13 80 25",
        COEFFICIENTS,
        2,
        45,
        "1: expected 7 bytes or more, as the spare bit is 1, found 3",
    ),
    (
        "13 80 25 00 00 00",
        COEFFICIENTS,
        2,
        49,
        "1: expected 7 bytes or more, as the spare bit is 1, found 6",
    ),
    (
        "13 80 25 08 00 18 01",
        "",
        8,
        0,
        "11: the flag bits are 100000000001, not all 0 behind the first",
    ),
    (
        "13 80 25 08 00 10 00",
        "",
        8,
        0,
        "11: the bound of f4 is 1, the job has 2 outputs",
    ),
    (
        "13 80 25 08 00 00 00 00",
        "",
        8,
        0,
        "11: df is 0, the largest bound is 1",
    ),
    (
        "13 80 25 00 00 00 00 00",
        COEFFICIENTS,
        2,
        49,
        "3: expected a header of 7 bytes, as the spare bit is 1, found 8",
    ),
    // df is 1, that of f1; f2 has the bound 0.
    (
        "13 84 25 08 00 00 00",
        COEFFICIENTS,
        2,
        49,
        "3: the header asks for coefficients of 10 bytes, they have 8",
    ),
    (
        "13 80 25 00 00 00 00",
        COEFFICIENTS,
        2,
        48,
        "7: the job needs 49 bytes",
    ),
    (
        "13 80 24 00",
        COEFFICIENTS,
        2,
        45,
        "3: expected a header of 3 bytes, found 4",
    ),
    (
        HEADER,
        "0001 0001",
        2,
        45,
        "3: the header asks for coefficients of 8 bytes, they have 4",
    ),
    (
        "12 80 24",
        COEFFICIENTS,
        2,
        45,
        "4: df + dg + 2 E + 1 is 6, the job has 5 rows",
    ),
    (
        "14 00 24",
        COEFFICIENTS,
        2,
        99,
        "9: there are 7 points, the job has 8 rows",
    ),
    (
        HEADER,
        COEFFICIENTS,
        8,
        45,
        "9: 8 rows are to be spoiled, the job has 7 rows",
    ),
    (
        HEADER,
        "0001 0001 0005 0007",
        2,
        45,
        "5: a coefficient is 7 or more",
    ),
    (HEADER, "0000 0000 0005 0001", 2, 45, "10: g is zero"),
    (
        HEADER,
        "0001 0003 0005 0001",
        2,
        45,
        "10: the leading coefficient of g is 3, not 1",
    ),
    (
        HEADER,
        "0003 0000 0005 0001",
        2,
        45,
        "10: the leading coefficient of g is 3, not 1",
    ),
    (
        HEADER,
        "0001 0001 0000 0000",
        2,
        45,
        "10: a polynomial of positive degree divides g and every f",
    ),
    (HEADER, COEFFICIENTS, 2, 44, "7: the job needs 45 bytes"),
];

#[test]
fn refusals_are_said_in_words() {
    for (header, coefficients, spoiled, length, words) in REFUSED {
        let header = hex::bytes(header).expect("bytes");
        let coefficients = hex::bytes(coefficients).expect("bytes");
        let written = trial(&header, &coefficients, 14, spoiled, &mut vec![0; length]);
        let refusal = Refusal::of_trial(written, &header, &coefficients, spoiled);
        let refusal = refusal.expect("a refusal");
        assert_eq!(refusal.to_string(), format!("refused {words}"));
        assert_eq!(refusal.number, written.refusal);
        assert!(refusal.row == 0 && !refusal.names_a_row());
    }
}
