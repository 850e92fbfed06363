//! Examples of rows that report a pole or are silent, paper 02, item 6, worked out by hand.

/// Jobs modulo 7 with a bound for each output and with the first flag, which is 0x 800.
pub const EXAMPLES: &str = "\
# n 2, L 2, df 0, dg 1, E 0 are 00 01 00010 00000 00001 0000 1, the bounds 0 and 0. g = u + 3 is 6 at 3, so f1 = 6 * 3 = 4
# and f2 = 6 * 5 = 2; at 4 it is 0.
two outputs and a pole | 11 00 21 00000800 0003 0003 0005 0004 FFFF FFFF | 0 wrong, 00000000 0003 0001 0004 0002
# n 1: the pole is told, so that E can be 0, unlike H3's.
1/u with its pole | 01 00 21 00000800 0000 FFFF 0001 0001 | 0 wrong, 00000000 0000 0001 0001
# L 3, E 1. A reading of H1 reports a pole, and a constant has none.
H1 with a pole | 01 80 03 00000800 0000 0005 0001 0005 0002 FFFF | 1 wrong, 20000000 0001 0005
H1 with the flag | 01 80 03 00000800 0000 0005 0001 0005 0002 0002 | 1 wrong, 20000000 0001 0005
# L 4: H1 with a silent row between; the wrong row is row 3.
H1 with a silent row | 02 00 03 00000800 0000 0005 0003 FFFE 0001 0005 0002 0002 | 1 wrong, 10000000 0001 0005
# L 3, dg 1, E 0: 1/u, silent at its pole.
1/u silent at its pole | 01 80 21 00000800 0000 FFFE 0001 0001 0002 0004 | 0 wrong, 00000000 0000 0001 0001
# L 4, dg 1, E 1 are 00 00 00100 00000 00001 0001 1: H3's rows, the one at 0 a pole told rightly, and that at 3 wrongly.
H3 with poles told rightly and wrongly | 02 00 23 00000800 0000 FFFF 0001 0001 0002 0004 0003 FFFF | 1 wrong, 10000000 0000 0001 0001
# n 2, L 4, df 1, dg 2, E 0 are 00 01 00100 00001 00010 0000 1; the bounds 1, 1 are 00001 00001. g = u (u + 1), f1 = u and
# f2 = u + 1: f1/g = 1/(u + 1) has the pole 6 alone and f2/g = 1/u the pole 0 alone. At 1 they are 4 and 1, as 4 * 2 = 1;
# at 2 they are 5 and 4.
a pole of each output alone | 12 04 41 08400800 0000 FFFF FFFF 0001 0004 0001 0002 0005 0004 0006 FFFF FFFF | 0 wrong, 00000000 0000 0001 0001 0000 0001 0001 0001
# All values 0 make every f 0; then g is 1, which is not 0 at 4.
8, a pole of the zero vector | 11 00 21 00000800 0003 0000 0000 0004 FFFF FFFF | area 12, refused 8
# Two roots are too many for dg 1.
8, two poles | 01 00 21 00000800 0000 FFFF 0001 FFFF | area 10, refused 8
# Three false poles are two too many for a constant g.
8, poles alone | 01 80 03 00000800 0000 FFFF 0001 FFFF 0002 FFFF | area 8, refused 8
# n 4: a mark has as many numbers as there are outputs. L 2, dg 1: 00 11 00010 00000 00001 0000 1; g = u + 3 as above,
# and f3 = 6 * 1, f4 = 6 * 0.
four outputs and a pole | 31 00 21 00000800 0003 0003 0005 0001 0000 0004 FFFF FFFF FFFF FFFF | 0 wrong, 00000000 0003 0001 0004 0002 0006 0000
";

/// The refusals in the order 1, 11, 3, 4, 5, 12, 6, 7, 8. H1's job, or that of two outputs and a pole.
pub const REFUSALS: &str = "\
11, flags 1 and 2 | 01 80 03 00000C00 0000 0005 0001 0005 0002 FFFE | area 8, refused 11
11, flags 1 and 12 | 01 80 03 00000801 0000 0005 0001 0005 0002 0002 | area 8, refused 11
11, f2 and the flag | 01 80 03 00400800 0000 0005 0001 0005 0002 0002 | area 8, refused 11
3 before 12 | 01 80 03 00000800 0000 0005 0001 0005 0002 FFFE 00 | area 8, refused 3
4 before 12 | 01 00 03 00000800 0000 0005 0001 FFFE | area 8, refused 4
# Silent rows count for 4: two rows, of which one is silent, are enough for df 0, dg 0, E 0.
8 with a silent row | 01 00 01 00000800 0000 FFFE 0001 FFFF | area 8, refused 8
5 before 12 | 01 80 03 00000800 0000 FFFE 0001 0007 0002 FFFE | area 8, refused 5 at row 1
5, a pole and a value | 11 00 21 00000800 0003 0003 0005 0004 FFFF 0005 | area 12, refused 5 at row 1
5, a value and a pole | 11 00 21 00000800 0003 0003 FFFF 0004 FFFF FFFF | area 12, refused 5
5, silent and a value | 11 00 21 00000800 0003 0003 0005 0004 FFFE 0005 | area 12, refused 5 at row 1
5, a value and silent | 11 00 21 00000800 0003 0003 0005 0004 0005 FFFE | area 12, refused 5 at row 1
5, a pole and silent | 11 00 21 00000800 0003 0003 0005 0004 FFFF FFFE | area 12, refused 5 at row 1
5, silent and a pole | 11 00 21 00000800 0003 0003 0005 0004 FFFE FFFF | area 12, refused 5 at row 1
5, no mark | 01 80 03 00000800 0000 0005 0001 0005 0002 FFFD | area 8, refused 5 at row 2
5, a pole under the short header | 11 00 20 0003 0003 0005 0004 FFFF FFFF | area 12, refused 5 at row 1
5, silent under the short header | 01 80 02 0000 0005 0001 0005 0002 FFFE | area 8, refused 5 at row 2
5, a pole without the flag | 11 00 21 00000000 0003 0003 0005 0004 FFFF FFFF | area 12, refused 5 at row 1
5, silent without the flag | 01 80 03 00000000 0000 0005 0001 0005 0002 FFFE | area 8, refused 5 at row 2
5, the point of a pole | 11 00 21 00000800 0003 0003 0005 FFFF FFFF FFFF | area 12, refused 5 at row 1
5, the point of a silent row | 01 80 03 00000800 0000 0005 0001 0005 0007 FFFE | area 8, refused 5 at row 2
12 | 01 80 03 00000800 0000 0005 0001 0005 0002 FFFE | area 8, refused 12
12, a pole speaks | 01 80 03 00000800 0000 FFFF 0001 0005 0002 FFFE | area 8, refused 12
12, no row speaks | 01 80 03 00000800 0000 FFFE 0001 FFFE 0002 FFFE | area 8, refused 12
12 before 6 | 01 80 03 00000800 0000 0005 0001 0005 0000 FFFE | area 8, refused 12
12 before 7 | 01 80 03 00000800 0000 0005 0001 0005 0002 FFFE | area 7, refused 12
12 before 8 | 01 80 03 00000800 0000 0005 0001 0004 0002 FFFE | area 8, refused 12
6, a pole | 11 00 21 00000800 0003 0003 0005 0003 FFFF FFFF | area 12, refused 6 at row 1
# L 3.
6, a silent row | 11 80 21 00000800 0003 0003 0005 0004 FFFF FFFF 0004 FFFE FFFE | area 12, refused 6 at row 2
7 with a pole | 11 00 21 00000800 0003 0003 0005 0004 FFFF FFFF | area 11, refused 7
# L 8 modulo 7, with df 0, dg 0 and E 0: the last row repeats the first one's point, and no row or one speaks.
12, more rows than 7 | 04 00 01 00000800 0000 FFFE 0001 FFFE 0002 FFFE 0003 FFFE 0004 FFFE 0005 FFFE 0006 FFFE 0000 FFFE | area 8, refused 12
6, more rows than 7 | 04 00 01 00000800 0000 FFFE 0001 FFFE 0002 0005 0003 FFFE 0004 FFFE 0005 FFFE 0006 FFFE 0000 FFFE | area 8, refused 6 at row 7
";

/// Examples above with bytes of the right number that are not the job's answer.
pub const NOT_ANSWERS: [(&str, &str); 11] = [
    // The row that reports the pole is marked; both are; a row that does not exist is.
    ("two outputs and a pole", "40000000 0003 0001 0004 0002"),
    ("two outputs and a pole", "C0000000 0003 0001 0004 0002"),
    ("two outputs and a pole", "20000000 0003 0001 0004 0002"),
    // The constants 3 and 5 with g = 1, and the pole not marked, then marked.
    ("two outputs and a pole", "00000000 0001 0000 0003 0005"),
    ("two outputs and a pole", "40000000 0001 0000 0003 0005"),
    ("two outputs and a pole", "00000000 0003 0001 0002 0004"),
    ("H1 with a pole", "00000000 0001 0005"),
    // The silent row is marked, besides the wrong one and alone.
    ("H1 with a silent row", "50000000 0001 0005"),
    ("H1 with a silent row", "40000000 0001 0005"),
    ("1/u silent at its pole", "80000000 0000 0001 0001"),
    (
        "H3 with poles told rightly and wrongly",
        "90000000 0000 0001 0001",
    ),
];

/// What the printing program writes for two outputs and a pole; two rows speak, and dg is 1.
pub const POLE_PRINTED: &str = "recovered 0\nwrong\ng 3 1\nf1 4\nf2 2\nmargin 1\n";
