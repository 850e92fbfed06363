//! Examples of jobs with a bound for each output, paper 02, item 5, worked out by hand.

/// Jobs modulo 7, all but the last with the added header, in which f1 has the bits 0x F8000000, f2 0x 07C00000, f3 0x 003E0000,
/// f4 0x 0001F000; the flags are 0x FFF.
pub const EXAMPLES: &str = "\
# H1 with the bound 0 for f1.
H1 with its own bound | 01 80 03 00000000 0000 0005 0001 0005 0002 0002 | 1 wrong, 20000000 0001 0005
# n 3, L 4, df 2, dg 1, E 0 are 00 10 00100 00010 00001 0000 1; the bounds 2, 0, 1 are 00010 00000 00001 00000.
# g = 1 + u is 1, 2, 3, 4 at the points 0 to 3, with the reciprocals 1, 4, 5, 2. f1 = 1 + u^2 is 1, 2, 5, 3, so y1 is
# 1, 1, 4, 6; f2 = 3, so y2 is 3, 5, 1, 6; f3 = 2u is 0, 2, 4, 6, so y3 is 0, 1, 6, 5. f2 is a unit, so it is reduced.
bounds 2, 0, 1 | 22 08 21 10020000 0000 0001 0003 0000 0001 0001 0005 0001 0002 0004 0001 0006 0003 0006 0006 0005 | 0 wrong, 00000000 0001 0001 0001 0000 0001 0003 0000 0002
# n 2, L 4, df 1, dg 0, E 1 are 00 01 00100 00001 00000 0001 1; the bounds 0, 1 are 00000 00001. g = 1, f1 = 4 and
# f2 = 2 + 3u, which is 2, 5, 1, 4; in row 1 y1 is 5 in place of 4.
bounds 0, 1 | 12 04 03 00400000 0000 0004 0002 0001 0005 0005 0002 0004 0001 0003 0004 0004 | 1 wrong, 40000000 0001 0004 0002 0003
# The same rows with the bounds 1, 0: f2 has the degree 1. Within df for both there is one answer only, that of the
# next example, so within these bounds there is none.
bounds 1, 0 | 12 04 03 08000000 0000 0004 0002 0001 0005 0005 0002 0004 0001 0003 0004 0004 | area 12, refused 8
bounds 1, 1 | 12 04 03 08400000 0000 0004 0002 0001 0005 0005 0002 0004 0001 0003 0004 0004 | 1 wrong, 40000000 0001 0004 0000 0002 0003
# The same with the short header.
df 1 | 12 04 02 0000 0004 0002 0001 0005 0005 0002 0004 0001 0003 0004 0004 | 1 wrong, 40000000 0001 0004 0000 0002 0003
";

/// The added header broken in each way, and each refusal beside it in the order 1, 11, 3, 4, 5, 6, 7, 8. Where nothing else
/// is said, it is H1's job.
pub const REFUSALS: &str = "\
1, four bytes | 01 80 03 00 | area 8, refused 1
1, five bytes | 01 80 03 0000 | area 8, refused 1
1, six bytes | 01 80 03 000000 | area 8, refused 1
1 before 11 | 01 80 03 FFFFFF | area 8, refused 1
11 for f2 | 01 80 03 00400000 0000 0005 0001 0005 0002 0002 | area 8, refused 11
11 for f3 | 01 80 03 00020000 0000 0005 0001 0005 0002 0002 | area 8, refused 11
11 for f4 | 01 80 03 00001000 0000 0005 0001 0005 0002 0002 | area 8, refused 11
11, df below f1 | 01 80 03 08000000 0000 0005 0001 0005 0002 0002 | area 10, refused 11
# df 1, dg 0, E 0 are 00001 00000 0000 1.
11, df above f1 | 01 84 01 00000000 0000 0005 0001 0005 0002 0002 | area 10, refused 11
# The largest of all four places is df, the largest of those that exist is not.
11, df at f2 | 01 84 01 00400000 0000 0005 0001 0005 0002 0002 | area 10, refused 11
11, flag 2 | 01 80 03 00000400 0000 0005 0001 0005 0002 0002 | area 8, refused 11
11, flag 5 | 01 80 03 00000080 0000 0005 0001 0005 0002 0002 | area 8, refused 11
11, flag 12 | 01 80 03 00000001 0000 0005 0001 0005 0002 0002 | area 8, refused 11
# Three of the bounds 2, 0, 1 exist.
11 for f4, three outputs | 22 08 21 10021000 0000 0001 0003 0000 0001 0001 0005 0001 0002 0004 0001 0006 0003 0006 0006 0005 | area 20, refused 11
11, df below f3 | 22 08 21 10060000 0000 0001 0003 0000 0001 0001 0005 0001 0002 0004 0001 0006 0003 0006 0006 0005 | area 24, refused 11
11, df above all | 22 08 21 08020000 0000 0001 0003 0000 0001 0001 0005 0001 0002 0004 0001 0006 0003 0006 0006 0005 | area 20, refused 11
11 before 3 | 01 80 03 00000001 | area 8, refused 11
11 before 4 | 01 00 03 00000001 0000 0005 0001 0005 | area 8, refused 11
11 before 5 | 01 80 03 00000001 0000 0005 0001 0005 0002 0007 | area 8, refused 11
11 before 6 | 01 80 03 00000001 0000 0005 0001 0005 0000 0002 | area 8, refused 11
11 before 7 | 01 80 03 00000001 0000 0005 0001 0005 0002 0002 | area 7, refused 11
11 before 8 | 01 80 03 00000001 0000 0005 0001 0004 0002 0002 | area 8, refused 11
3, no rows | 01 80 03 00000000 | area 8, refused 3
3, a byte more | 01 80 03 00000000 0000 0005 0001 0005 0002 0002 00 | area 8, refused 3
# As many bytes as with the short header.
3, four bytes less | 01 80 03 00000000 0000 0005 0001 0005 | area 8, refused 3
4, no rows | 00 00 01 00000000 | area 8, refused 4
# n 2, L 1, df 1 are 00 01 00001 00001: the bounds 0, 1 and 1, 0 ask for two rows, although the lower one asks for one.
4 by the bound of f2 | 10 84 01 00400000 0000 0000 0000 | area 12, refused 4
4 by the bound of f1 | 10 84 01 08000000 0000 0000 0000 | area 12, refused 4
# The bounds 0, 1 need 12 bytes, and 14 with df for both.
7 by each bound | 12 04 03 00400000 0000 0004 0002 0001 0005 0005 0002 0004 0001 0003 0004 0004 | area 11, refused 7
5 behind the added header | 12 04 03 00400000 0000 0004 0002 0001 0007 0005 0002 0004 0001 0003 0004 0007 | area 12, refused 5 at row 1
";

/// Examples above with bytes of the right number that are not the job's answer.
pub const NOT_ANSWERS: [(&str, &str); 4] = [
    // f2 and f3 the other way round, f3 at the place it would have behind df + 1 coefficients of f2, f1 at its end.
    (
        "bounds 2, 0, 1",
        "00000000 0001 0001 0001 0000 0001 0000 0002 0003",
    ),
    (
        "bounds 2, 0, 1",
        "00000000 0001 0001 0001 0000 0001 0003 0000 0000",
    ),
    (
        "bounds 2, 0, 1",
        "00000000 0001 0001 0003 0000 0002 0001 0000 0001",
    ),
    // f2 cut at its bound.
    ("bounds 1, 0", "40000000 0001 0004 0000 0002"),
];

/// What the printing program writes for the example with the bounds 2, 0 and 1; four rows speak.
pub const BOUNDS_PRINTED: &str = "recovered 0\nwrong\ng 1 1\nf1 1 0 1\nf2 3\nf3 0 2\nmargin 1\n";
