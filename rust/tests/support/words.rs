//! The words of the refusals that the paper's table has examples of, in its order. The second, which met 2 before there was a
//! longer header, meets 1 now.

pub const REFUSED: [&str; 10] = [
    "refused 1: expected 3 bytes or more, found 2",
    "refused 1: expected 7 bytes or more, as the spare bit is 1, found 3",
    "refused 3: the header asks for 15 bytes, the job has 5",
    "refused 4: df + dg + 2 E + 1 is 3, the job has 2 rows",
    "refused 5, row 2: a point or a value is 7 or more",
    "refused 6, row 2: its point 0 stands in an earlier row",
    "refused 7: the answer needs 8 bytes",
    "refused 8: no reduced answer within df 0 and dg 0 has at most 1 wrong row",
    "refused 4: df + dg + 2 E + 1 is 1, the job has 0 rows",
    "refused 3: the header asks for 3 bytes, the job has 4",
];
