/*
 * Hanthuvelo: recovers polynomials over a common denominator from rows of values, some of them wrong.
 *
 * Given rows (x; y1 .. yn) modulo a prime p, the library finds the reduced fractions f1/g .. fn/g within the
 * degree bounds that are wrong at no more than E rows, and says which rows those are; or it says that there
 * are none. It also says how far off the next answer is, checks the form of jobs alone, writes trial jobs, whose result is
 * known, from such fractions, judges answers that others computed, and gives reciprocals modulo p.
 *
 * After `./install PREFIX`, pkg-config knows the flags as `hanthuvelo`. Without it link
 * target/staticlib/libcapi.a, which `scripts/build archive` writes. The archive is for x86-64 Linux and needs nothing
 * beside the C library. What a function promises is its contract in crates/capi/src/lib.rt, which is proved.
 */
#ifndef HANTHUVELO_H
#define HANTHUVELO_H

#include <stddef.h>
#include <stdint.h>

#ifdef __cplusplus
extern "C" {
#endif

/*
 * The most bytes that a job can have: the longer header, 31 rows, 4 outputs. An area of this length is long enough for any
 * trial job.
 */
#define HANTHUVELO_JOB_MAX 317

/* The most bytes that an answer can have; an area of this length is never refused as too short. */
#define HANTHUVELO_ANSWER_MAX 254

/* The first of the twelve flag bits that end a longer header, in the last two of its bytes: rows can be marked. */
#define HANTHUVELO_MARKS 0x800

/* What every value is of a row that reports a pole, and of a silent row, under a header with that flag. */
#define HANTHUVELO_POLE 65535
#define HANTHUVELO_SILENT 65534

/* The value of a reciprocal that does not exist, 4294967295: no residue of any of the four primes, so no reciprocal. */
#define HANTHUVELO_NO_RECIPROCAL UINT32_MAX

/*
 * A job. Its numbers are packed with the most significant bit first. It begins with a header, short or longer:
 *
 *   bits  field
 *   2     prime: 0 is 7, 1 is 97, 2 is 257, 3 is 65521
 *   2     n - 1, for n outputs
 *   5     L, the number of rows
 *   5     df, the largest degree bound of an f
 *   5     dg, the degree bound of g
 *   4     E, how many rows may be wrong
 *   1     the spare bit: 0 in the short header, which ends here, 3 bytes; 1 in the longer one, of 7 bytes
 *
 * The short header bounds the degree of every f by df. The longer one has a bound for each, in four bytes more:
 *
 *   bits  field
 *   5     d1, the degree bound of f1
 *   5     d2, that of f2; 0 if n is 1
 *   5     d3, that of f3; 0 if n is 2 or less
 *   5     d4, that of f4; 0 if n is 3 or less
 *   12    flag bits: the first is HANTHUVELO_MARKS, all others are 0
 *
 * df is the largest of d1 .. dn. With the short header d1 .. dn are df, here and below; a job with the longer header and
 * equal bounds has the same answer, byte for byte.
 *
 * L rows follow, each a point and n values, 16 bits a number: 3 + 2 L (1 + n) bytes in all with the short header,
 * 7 + 2 L (1 + n) with the longer one. Points are below p and differ, and values are below p.
 *
 * Marked rows. With the flag HANTHUVELO_MARKS, a row whose values are all HANTHUVELO_POLE reports a pole at its point, and
 * one whose values are all HANTHUVELO_SILENT is silent. Every row that is not silent speaks. Without the flag these two are
 * numbers of p or more.
 *
 * An answer. A 32-bit word comes first: row r, counted from 0, has the bit r places below the top, and a 1 says
 * that the row is wrong. Then dg + 1 coefficients of g, d1 + 1 of f1, and so on up to dn + 1 of fn, each from the constant
 * term upward, 16 bits a number, most significant byte first: 4 + 2 ((dg + 1) + (d1 + 1) + .. + (dn + 1)) bytes in all.
 * g has leading coefficient 1, and no polynomial of positive degree divides g and every f. A row with values is right if
 * fi(x) = g(x) yi modulo p for every i, and one that reports a pole if g(x) = 0 modulo p; else it is wrong. A silent row is
 * neither, and its bit is 0.
 */

/*
 * The refusals; the first that applies is returned. A recovery tests 1, 11, 3, 4, 5, 12, 6, 7 and 8 in this order, a check
 * 1, 11, 3, 4, 5, 12 and 6, a trial 1, 11, 3, 4, 9, 5, 10 and 7, as said at hanthuvelo_trial, a judgement what a check tests
 * and then 3 again, as said at hanthuvelo_judge.
 */
enum {
    HANTHUVELO_RECOVERED = 0,      /* not refused: the area begins with the answer */
    HANTHUVELO_ACCEPTED = 0,       /* of a check: none of 1, 11, 3, 4, 5, 12 and 6 applies */
    HANTHUVELO_WRITTEN = 0,        /* of a trial: the area begins with the job */
    HANTHUVELO_JUDGED = 0,         /* of a judgement: the offered answer is judged */
    HANTHUVELO_TOO_SHORT = 1,      /* the job has fewer than 3 bytes, or fewer than 7 and the spare bit is 1 */
    HANTHUVELO_SPARE_BIT = 2,      /* the header's last bit is 1; no longer given for jobs, trials and offered answers */
    HANTHUVELO_BYTE_COUNT = 3,     /* the job has not the number of bytes that its header fixes */
    HANTHUVELO_TOO_FEW_ROWS = 4,   /* L is below df + dg + 2 E + 1 */
    HANTHUVELO_OUT_OF_RANGE = 5,   /* a point is p or more, or a value of a row that is not marked; `row` is the first such
                                      row */
    HANTHUVELO_REPEATED_POINT = 6, /* a point stands in an earlier row; `row` is the first such later row */
    HANTHUVELO_AREA_TOO_SHORT = 7, /* the area is shorter than the answer */
    HANTHUVELO_NO_ANSWER = 8,      /* no reduced fractions within d1 .. dn and dg are wrong at E rows or fewer */
    HANTHUVELO_TOO_MANY_ROWS = 9,  /* of a trial alone: L is above p, or more rows are to be spoiled than L */
    HANTHUVELO_NOT_REDUCED = 10,   /* of a trial alone: the fractions are not reduced */
    HANTHUVELO_ADDED_HEADER = 11,  /* a longer header has a flag bit behind the first that is 1, a bound other than 0 for an
                                      output that does not exist, or a df that is not the largest bound */
    HANTHUVELO_TOO_FEW_SPEAKING = 12 /* fewer than df + dg + 2 E + 1 rows speak */
};

/* What a recovery returns. */
struct hanthuvelo_report {
    uint32_t refusal; /* 0 if the job is recovered, else the number of the refusal */
    uint32_t row;     /* the row that refusal 5 or 6 speaks of, counted from 0; else 0 */
    uint32_t written; /* how many bytes of the area were written; 0 if the job is refused */
    uint32_t wrong;   /* how many rows are wrong, the ones in the answer's word; 0 if the job is refused */
};

/*
 * Recovers the job of job_length bytes at `job`, and writes the answer to the start of the area_length bytes
 * at `area`.
 *
 * Any bytes make a job, and any length an area. Bytes of the area behind the answer keep what they held; if the
 * job is refused, the whole area does. The job is only read.
 *
 * The caller sees to it that each pointer leads to as many bytes as the length beside it says, that the two
 * stretches do not overlap, and that until the call returns nothing else writes to either of them or reads the
 * area. A pointer whose length is 0 is not followed.
 *
 * The call allocates no memory and keeps nothing between calls, so threads may call it at the same time, each
 * with an area of its own; they may share a job.
 */
struct hanthuvelo_report hanthuvelo_recover(const uint8_t *job, size_t job_length, uint8_t *area,
                                            size_t area_length);

/* What a check of a job's form returns. */
struct hanthuvelo_refusal {
    uint32_t refusal; /* 0 if the job is accepted, else the number of the refusal: 1, 11, 3, 4, 5, 12 or 6 */
    uint32_t row;     /* the row that refusal 5 or 6 speaks of, counted from 0; else 0 */
};

/*
 * Checks the form of the job of job_length bytes at `job`: returns the first of the refusals 1, 11, 3, 4, 5, 12 and 6 that
 * applies, tested in this order, with the row that 5 or 6 speaks of, and refusal 0 and row 0 if none does.
 *
 * It recovers nothing and has no area. A job that is refused here is refused by a recovery in the same way, whatever its
 * area. One that is accepted is recovered, or refused with 7 or 8, which depend on the area and on the answer.
 *
 * Any bytes make a job, which is only read. The caller sees to it that the pointer leads to as many bytes as the length
 * says, and that nothing writes to them until the call returns. A pointer whose length is 0 is not followed. As a recovery,
 * the call allocates no memory and keeps nothing between calls.
 */
struct hanthuvelo_refusal hanthuvelo_check(const uint8_t *job, size_t job_length);

/*
 * How far off the next answer is: S - df - dg - 2 wrong, S being how many rows of the job of job_length bytes at `job`
 * speak.
 *
 * With the number of wrong rows that a recovery of the job returns, this is the margin of its answer: any other reduced
 * fractions within d1 .. dn and dg leave at least that many rows more wrong than the answer does. So where one row is wrong
 * and the margin is 5, all others are wrong at six rows or more. The margin of an answer is never below 1. It says the same
 * of any reduced fractions within these bounds that are wrong at `wrong` rows, also more than E, if it is not 0.
 *
 * Returns 0 where a check refuses the job, with 1, 11, 3, 4, 5, 12 or 6, and where S - df - dg - 2 wrong is below 1.
 *
 * Any bytes make a job, which is only read, and any number is taken as `wrong`. The caller sees to it that the pointer
 * leads to as many bytes as the length says, and that nothing writes to them until the call returns. A pointer whose length
 * is 0 is not followed. As a recovery, the call allocates no memory and keeps nothing between calls.
 */
uint32_t hanthuvelo_margin(const uint8_t *job, size_t job_length, uint32_t wrong);

/* What a call that writes a trial job returns. */
struct hanthuvelo_written {
    uint32_t refusal; /* 0 if the job is written, else the number of the refusal */
    uint32_t row;     /* 0: no refusal of a trial names a row */
    uint32_t written; /* how many bytes of the area were written; 0 if the call is refused */
};

/*
 * Writes a trial job, whose result is known, to the start of the area_length bytes at `area`: from the header_length
 * bytes of a job's header, the coefficients_length bytes of g and f1 .. fn as an answer lists them behind its word, the
 * word `start`, and the number `spoiled` of rows to be spoiled.
 *
 * The job begins with the header. Row r has the point r; where g(r) is 0 its values are zeros, else those below p with
 * fi(r) = g(r) yi modulo p. No row is marked, also under a header with the flag for that. Then `spoiled` different rows are
 * spoiled, each by two draws. A draw is a new word: 1664525 times the last one, which is `start` before the first draw, plus
 * 1013904223, modulo 2^32. The top 16 bits of one draw modulo L choose the row, or the next one that is not spoiled yet,
 * row 0 following the last. The top 16 bits of the next draw modulo p - 1, plus 1, are added to the row's first value
 * modulo p.
 *
 * Where the rows that are spoiled or have g(r) = 0 are E at most, a recovery of the job into an area that is long enough
 * gives back g and f1 .. fn, and exactly those rows.
 *
 * Refused, in this order:
 *
 *   1   the header has fewer than 3 bytes, or fewer than 7 and the spare bit is 1
 *   11  it is a longer one and breaks a rule
 *   3   bytes follow it, or the coefficients are not 2 ((dg + 1) + (d1 + 1) + .. + (dn + 1)) bytes
 *   4   L is below df + dg + 2 E + 1
 *   9   L is above p, or `spoiled` is above L
 *   5   a coefficient is p or more
 *   10  g is zero, its leading coefficient is not 1, or a polynomial of positive degree divides g and every f
 *   7   the area is shorter than the job, which has 3 + 2 L (1 + n) bytes with a short header, 7 + 2 L (1 + n) with a longer
 *
 * Any bytes are taken, and any lengths, `start` and `spoiled`. Bytes of the area behind the job keep what they held; if
 * the call is refused, the whole area does. Header and coefficients are only read, and may overlap each other.
 *
 * The caller sees to it that each pointer leads to as many bytes as the length beside it says, that the area overlaps
 * neither of the others, and that until the call returns nothing else writes to any of them or reads the area. A pointer
 * whose length is 0 is not followed. As a recovery, the call allocates no memory and keeps nothing between calls.
 */
struct hanthuvelo_written hanthuvelo_trial(const uint8_t *header, size_t header_length, const uint8_t *coefficients,
                                           size_t coefficients_length, uint32_t start, uint32_t spoiled,
                                           uint8_t *area, size_t area_length);

/* What a call for a reciprocal returns. */
struct hanthuvelo_reciprocal {
    uint32_t exists; /* 1 if there is a reciprocal, else 0 */
    uint32_t value;  /* the reciprocal, from 1 to p - 1; HANTHUVELO_NO_RECIPROCAL where none exists */
};

/*
 * The reciprocal of `number` modulo the prime p that has this code in a job's header: the only r below p with
 * r number = 1 modulo p.
 *
 * Zero has no reciprocal: none exists where `number` is 0 modulo p, as 0, p and 2 p are. None exists either where
 * `prime_code` is above 3, as such a code has no prime. In both cases `exists` is 0 and `value` HANTHUVELO_NO_RECIPROCAL,
 * and in no other.
 *
 * Any two numbers are taken, and nothing is asked of the caller. As a recovery, the call allocates no memory and keeps
 * nothing between calls. The structure has the function's name and stands behind the word `struct`, in C++ too.
 */
struct hanthuvelo_reciprocal hanthuvelo_reciprocal(uint32_t prime_code, uint32_t number);

/* What a call that judges an offered answer returns. */
struct hanthuvelo_judgement {
    uint32_t refusal; /* 0 if the answer is judged, else the number of the refusal: 1, 11, 3, 4, 5, 12 or 6 */
    uint32_t row;     /* the row of the job that refusal 5 or 6 speaks of, counted from 0; else 0 */
    uint32_t yes;     /* 1 if the offered answer is the job's, else 0 */
};

/*
 * Judges the answer_length bytes at `answer`, which somebody offers as the answer of the job of job_length bytes at
 * `job`: yes exactly if the job has an answer, one that a recovery would give, and the offered bytes are that answer's,
 * every one of them, the word included. It does not recover the job, and takes less time.
 *
 * A coefficient of p or more is a no; so are a leading coefficient of g other than 1, a polynomial of positive degree
 * that divides g and every f, a word that marks other rows than the wrong ones, a silent one for example, or a row that does
 * not exist, and more wrong rows than E.
 *
 * Refused, in this order: 1, 11, 3, 4, 5, 12, 6 as a recovery of the job is, and then 3 also if the offered answer has not
 * 4 + 2 ((dg + 1) + (d1 + 1) + .. + (dn + 1)) bytes.
 *
 * Any bytes make a job, and any bytes an offered answer. Both are only read, and may overlap. The caller sees to it that
 * each pointer leads to as many bytes as the length beside it says, and that nothing writes to them until the call
 * returns. A pointer whose length is 0 is not followed. As a recovery, the call allocates no memory and keeps nothing
 * between calls.
 */
struct hanthuvelo_judgement hanthuvelo_judge(const uint8_t *job, size_t job_length, const uint8_t *answer,
                                             size_t answer_length);

#ifdef __cplusplus
}
#endif

#endif
