//! The boundary to the proved library: its functions on byte slices and numbers.

use crate::{Answer, Header, Job, Prime, Refusal, Trial, LONGEST_ANSWER, LONGEST_JOB};

#[allow(unsafe_code)]
mod linked {
    use crate::{Form, Judgement, Report, Written};

    /// What a call for a reciprocal returns; `value` is the reciprocal where `exists` is 1.
    #[repr(C)]
    struct Reciprocal {
        exists: u32,
        value: u32,
    }

    extern "C" {
        fn hanthuvelo_recover(
            job: *const u8,
            job_length: usize,
            area: *mut u8,
            area_length: usize,
        ) -> Report;

        fn hanthuvelo_trial(
            header: *const u8,
            header_length: usize,
            coefficients: *const u8,
            coefficients_length: usize,
            start: u32,
            spoiled: u32,
            area: *mut u8,
            area_length: usize,
        ) -> Written;

        fn hanthuvelo_reciprocal(prime_code: u32, number: u32) -> Reciprocal;

        fn hanthuvelo_judge(
            job: *const u8,
            job_length: usize,
            answer: *const u8,
            answer_length: usize,
        ) -> Judgement;

        fn hanthuvelo_check(job: *const u8, job_length: usize) -> Form;

        fn hanthuvelo_margin(job: *const u8, job_length: usize, wrong: u32) -> u32;
    }

    /// Recovers the job in `job` and writes its answer to the start of `area`.
    ///
    /// Any bytes make a job, and any length an area. Bytes of the area behind the answer keep what they held; if the job is
    /// refused, the whole area does.
    pub fn recover(job: &[u8], area: &mut [u8]) -> Report {
        // SAFETY: both pointers come from live slices of the lengths passed with them, the area is lent alone, and the
        // function asks nothing else of its caller.
        unsafe { hanthuvelo_recover(job.as_ptr(), job.len(), area.as_mut_ptr(), area.len()) }
    }

    /// Writes the trial job of a header and coefficients, with so many spoiled rows, to the start of `area`.
    ///
    /// Any bytes are taken, and any length of the area. Bytes of the area behind the job keep what they held; if the call is
    /// refused, the whole area does. [`Trial`](crate::Trial) has the bytes of both, and says what the job is.
    pub fn trial(
        header: &[u8],
        coefficients: &[u8],
        start: u32,
        spoiled: u32,
        area: &mut [u8],
    ) -> Written {
        // SAFETY: the pointers come from live slices of the lengths passed with them, the area is lent alone, and the
        // function asks nothing else of its caller.
        unsafe {
            hanthuvelo_trial(
                header.as_ptr(),
                header.len(),
                coefficients.as_ptr(),
                coefficients.len(),
                start,
                spoiled,
                area.as_mut_ptr(),
                area.len(),
            )
        }
    }

    /// The reciprocal of a number modulo the prime of this code, 0 to 3 as in [`Prime::ALL`](crate::Prime::ALL).
    ///
    /// Any two numbers are taken. There is no reciprocal where the number is 0 modulo the prime, nor where the code is above
    /// 3, which no prime has.
    pub fn reciprocal(prime_code: u32, number: u32) -> Option<u32> {
        // SAFETY: the function takes two numbers and asks nothing of its caller.
        let found = unsafe { hanthuvelo_reciprocal(prime_code, number) };
        (found.exists == 1).then_some(found.value)
    }

    /// Judges an offered answer: whether its bytes are those of the job's answer, every one of them.
    ///
    /// Any bytes make a job, and any bytes an offered answer.
    pub fn judge(job: &[u8], answer: &[u8]) -> Judgement {
        // SAFETY: both pointers come from live slices of the lengths passed with them, and the function asks nothing else
        // of its caller.
        unsafe { hanthuvelo_judge(job.as_ptr(), job.len(), answer.as_ptr(), answer.len()) }
    }

    /// Checks the form of a job: the first of the refusals 1, 11, 3, 4, 5, 12 and 6 that applies, if one does. Nothing is
    /// recovered.
    ///
    /// Any bytes make a job. What is refused here is refused by a recovery in the same way. What is accepted is recovered, or
    /// refused with 7 or 8, which depend on the area and on the answer.
    pub fn check(job: &[u8]) -> Form {
        // SAFETY: the pointer comes from a live slice of the length passed with it, and the function asks nothing else of
        // its caller.
        unsafe { hanthuvelo_check(job.as_ptr(), job.len()) }
    }

    /// How far off the next answer is: S - df - dg - 2 `wrong`, S being how many rows of the job speak. It is 0 where a check
    /// refuses the job, and where that number is below 1.
    ///
    /// Any bytes make a job, and any number is taken. With the number of wrong rows that a recovery reports it is the margin
    /// of the job's answer, and means what [`Job::margin`](crate::Job::margin) says. It means the same for any reduced vector
    /// within the bounds that is wrong at so many rows, also more than E, if it is not 0.
    ///
    /// ```
    /// use hanthuvelo::{hex, margin};
    ///
    /// // Three readings of a constant modulo 7: S is 3, df and dg are 0.
    /// let job = hex::bytes("01 80 02 0000 0005 0001 0005 0002 0002").expect("bytes");
    /// assert_eq!([0, 1, 2, u32::MAX].map(|wrong| margin(&job, wrong)), [3, 1, 0, 0]);
    ///
    /// // A byte is missing.
    /// assert_eq!(margin(&job[..14], 0), 0);
    /// ```
    pub fn margin(job: &[u8], wrong: u32) -> u32 {
        // SAFETY: the pointer comes from a live slice of the length passed with it, and the function asks nothing else of
        // its caller.
        unsafe { hanthuvelo_margin(job.as_ptr(), job.len(), wrong) }
    }
}

pub use linked::{check, judge, margin, reciprocal, recover, trial};

impl Prime {
    /// The reciprocal of a number modulo this prime p: the only r below p whose product with the number is 1 modulo p.
    ///
    /// Any number is taken. Those that are 0 modulo p, as 0, p and 2 p, have no reciprocal.
    ///
    /// ```
    /// use hanthuvelo::Prime;
    ///
    /// // The curve 1 / (3 + x) modulo 7 at the points 0 to 6. At 4, where 3 + x is 7, it has a pole and no value.
    /// let curve: Vec<Option<u32>> = (0..7).map(|x| Prime::P7.reciprocal(3 + x)).collect();
    /// assert_eq!(curve, [Some(5), Some(2), Some(3), Some(6), None, Some(1), Some(4)]);
    /// ```
    pub fn reciprocal(self, number: u32) -> Option<u32> {
        reciprocal(self as u32, number)
    }
}

impl Job {
    /// The answer of this job, or why there is none.
    pub fn recover(&self) -> Result<Answer, Refusal> {
        let bytes = self.pack();
        let mut area = [0; LONGEST_ANSWER];
        let report = recover(&bytes, &mut area);
        match Refusal::of(report, &bytes) {
            Some(refusal) => Err(refusal),
            None => Ok(Answer::read(&area, self.bounds())),
        }
    }

    /// The margin of this job's answer: every other answer within the bounds leaves at least that many rows more wrong than
    /// this one does.
    ///
    /// It is S - df - dg - 2 W, where S rows speak and W of them are wrong, and never below 1. It means this of the answer that
    /// [`recover`](Job::recover) gives. Of any other answer, only the number of its marked rows is looked at; 0 stands for a
    /// number below 1, and for a job that [`check`](Job::check) refuses.
    ///
    /// ```
    /// use hanthuvelo::Job;
    ///
    /// // Five readings of a constant modulo 7, of which one may be wrong: it is 5, and row 2 is wrong. S is 5 and W is 1. The
    /// // constant 2 is wrong at four rows, and every other one at all five.
    /// let readings = "prime 7 outputs 1 df 0 dg 0 errors 1\n0: 5\n1: 5\n2: 2\n3: 5\n4: 5";
    /// let job: Job = readings.parse().expect("a readable job");
    /// let answer = job.recover().expect("an answer");
    /// assert_eq!(job.margin(&answer), 3);
    ///
    /// // A silent row is not counted: S is 4.
    /// let job: Job = readings.replace("4: 5", "4: silent").parse().expect("a readable job");
    /// let answer = job.recover().expect("an answer");
    /// assert_eq!(job.margin(&answer), 2);
    /// ```
    pub fn margin(&self, answer: &Answer) -> u32 {
        margin(&self.pack(), answer.word.count_ones())
    }

    /// Whether this job's form is as it should be, or which refusal of the form it meets first: 4, 5, 12 or 6, as the bytes of
    /// a `Job` are whole and their header breaks no rule.
    ///
    /// The job is not recovered for that: an accepted one may still have no answer.
    ///
    /// ```
    /// use hanthuvelo::Job;
    ///
    /// // Three readings of a constant modulo 7, of which one may be wrong. No constant is wrong at one row only.
    /// let job: Job = "prime 7 outputs 1 df 0 dg 0 errors 1\n0: 5\n1: 4\n2: 2".parse().expect("a readable job");
    /// assert_eq!(job.check(), Ok(()));
    /// assert_eq!(job.recover().expect_err("no answer").number, 8);
    ///
    /// // The point 0 stands twice.
    /// let job: Job = "prime 7 outputs 1 df 0 dg 0 errors 1\n0: 5\n1: 5\n0: 2".parse().expect("a readable job");
    /// let refusal = job.check().expect_err("a repeated point");
    /// assert_eq!(refusal.to_string(), "refused 6, row 2: its point 0 stands in an earlier row");
    /// assert_eq!(job.recover(), Err(refusal));
    /// ```
    pub fn check(&self) -> Result<(), Refusal> {
        let bytes = self.pack();
        match Refusal::of_check(check(&bytes), &bytes) {
            Some(refusal) => Err(refusal),
            None => Ok(()),
        }
    }

    /// Whether these bytes are this job's answer, every one of them; or why they are not judged.
    ///
    /// The job is not recovered for that. [`objection`](fn@crate::objection) says why a no is a no.
    ///
    /// ```
    /// use hanthuvelo::{hex, Job};
    ///
    /// // Three readings of a constant modulo 7, of which one may be wrong: it is 5, and row 2 is wrong.
    /// let job: Job = "prime 7 outputs 1 df 0 dg 0 errors 1\n0: 5\n1: 5\n2: 2".parse().expect("a readable job");
    /// let mut offered = hex::bytes("20000000 0001 0005").expect("bytes");
    /// assert_eq!(job.judge(&offered), Ok(true));
    ///
    /// // The constant 4 is wrong at every row.
    /// offered[7] = 4;
    /// assert_eq!(job.judge(&offered), Ok(false));
    ///
    /// let refusal = job.judge(&offered[..7]).expect_err("too few bytes");
    /// assert_eq!(refusal.to_string(), "refused 3: the job's answer has 8 bytes, the offered one has 7");
    /// ```
    pub fn judge(&self, offered: &[u8]) -> Result<bool, Refusal> {
        let bytes = self.pack();
        let judgement = judge(&bytes, offered);
        match Refusal::of_judgement(judgement, &bytes, offered) {
            Some(refusal) => Err(refusal),
            None => Ok(judgement.is_yes()),
        }
    }
}

impl Trial {
    /// The job of this trial, or why there is none.
    pub fn write(&self) -> Result<Job, Refusal> {
        let (header, coefficients) = (self.header(), self.coefficients());
        let mut area = [0; LONGEST_JOB];
        let written = trial(&header, &coefficients, self.start, self.spoiled, &mut area);
        match Refusal::of_trial(written, &header, &coefficients, self.spoiled) {
            Some(refusal) => Err(refusal),
            None => {
                let (bounds, rows) = (*self.bounds(), self.rows());
                let header = Header::new(bounds, rows, self.allows_marks());
                Ok(Job::read(&area[..written.written as usize], header))
            }
        }
    }
}
