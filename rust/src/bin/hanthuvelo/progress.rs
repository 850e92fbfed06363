//! How far a long run is: a line on standard error while it lasts, a summary behind it.

use crate::Status;
use std::io::{IsTerminal, Write};
use std::time::{Duration, Instant};

/// What became of the jobs so far.
#[derive(Clone, Copy, Default)]
pub struct Tally {
    /// Jobs that are not refused.
    pub passed: u64,
    pub refused: u64,
    /// Inputs that could not be read.
    pub unreadable: u64,
    /// How many bytes of the streams they took.
    pub bytes: u64,
}

impl Tally {
    pub fn add(&mut self, other: Tally) {
        self.passed += other.passed;
        self.refused += other.refused;
        self.unreadable += other.unreadable;
        self.bytes += other.bytes;
    }

    pub fn jobs(&self) -> u64 {
        self.passed + self.refused
    }

    pub fn status(&self) -> Status {
        match (self.unreadable, self.refused) {
            (0, 0) => Status::Done,
            (0, _) => Status::Refused,
            _ => Status::Failed,
        }
    }
}

/// How much there is to do, where that is known beforehand.
#[derive(Clone, Copy)]
pub enum Extent {
    Files(u64),
    Bytes(u64),
    Unknown,
}

impl Extent {
    /// The part that is done, from 0 to 1.
    fn part_done(self, tally: &Tally) -> Option<f64> {
        let (done, all) = match self {
            Extent::Files(all) => (tally.jobs() + tally.unreadable, all),
            Extent::Bytes(all) => (tally.bytes, all),
            Extent::Unknown => return None,
        };
        (done > 0).then(|| (done as f64 / all as f64).min(1.0))
    }
}

const BETWEEN_LINES: Duration = Duration::from_millis(100);

pub struct Progress {
    extent: Extent,
    start: Instant,
    /// When the line was last written; none where standard error is no terminal.
    last: Option<Instant>,
    is_shown: bool,
    /// Whether the output itself goes to a terminal, so that the line must make room for it.
    shares_terminal: bool,
}

impl Progress {
    pub fn new(extent: Extent, is_wanted: bool) -> Progress {
        let start = Instant::now();
        let is_shown = is_wanted && std::io::stderr().is_terminal();
        Progress {
            extent,
            start,
            last: is_shown.then_some(start),
            is_shown: false,
            shares_terminal: std::io::stdout().is_terminal(),
        }
    }

    /// Makes room for output that is about to be written.
    pub fn make_room(&mut self) {
        if self.is_shown && self.shares_terminal {
            self.clear();
        }
    }

    /// Removes the line.
    pub fn clear(&mut self) {
        if self.is_shown {
            let _ = write!(std::io::stderr(), "\r\x1b[K");
            self.is_shown = false;
        }
    }

    /// Writes the line anew if the last one is old enough.
    pub fn update(&mut self, tally: &Tally) {
        let is_due = |last: Instant| last.elapsed() >= BETWEEN_LINES;
        if self.last.is_some_and(is_due) {
            let line = line(tally, self.extent, self.start.elapsed());
            let _ = write!(std::io::stderr(), "\r{line}\x1b[K");
            self.last = Some(Instant::now());
            self.is_shown = true;
        }
    }

    /// All that was done; `passed` says what became of a job that is not refused.
    pub fn summary(&self, tally: &Tally, passed: &str) -> String {
        summary(tally, passed, self.start.elapsed())
    }
}

fn rate(tally: &Tally, elapsed: Duration) -> f64 {
    tally.jobs() as f64 / elapsed.as_secs_f64().max(1e-9)
}

/// `12000 done, 3 refused, 95000 jobs a second, 1.2 s left`.
fn line(tally: &Tally, extent: Extent, elapsed: Duration) -> String {
    let (done, refused, rate) = (tally.jobs(), tally.refused, rate(tally, elapsed));
    let mut line = format!("{done} done, {refused} refused, {rate:.0} jobs a second");
    if let Some(part) = extent.part_done(tally) {
        let left = elapsed.as_secs_f64() * (1.0 - part) / part;
        line += &format!(", {left:.1} s left");
    }
    line
}

/// `14 jobs: 11 recovered, 3 refused; 0.02 s, 700 jobs a second`.
fn summary(tally: &Tally, passed: &str, elapsed: Duration) -> String {
    let (jobs, count, refused) = (tally.jobs(), tally.passed, tally.refused);
    let noun = if jobs == 1 { "job" } else { "jobs" };
    let unreadable = match tally.unreadable {
        0 => String::new(),
        1 => "; 1 input could not be read".to_string(),
        count => format!("; {count} inputs could not be read"),
    };
    let (seconds, rate) = (elapsed.as_secs_f64(), rate(tally, elapsed));
    format!("{jobs} {noun}: {count} {passed}, {refused} refused{unreadable}; {seconds:.2} s, {rate:.0} jobs a second")
}

#[cfg(test)]
mod tests {
    use super::*;

    const TALLY: Tally = Tally {
        passed: 90,
        refused: 10,
        unreadable: 0,
        bytes: 2000,
    };
    const TWO_SECONDS: Duration = Duration::from_secs(2);

    #[test]
    fn the_line_says_what_is_known() {
        let said = "100 done, 10 refused, 50 jobs a second";
        assert_eq!(line(&TALLY, Extent::Unknown, TWO_SECONDS), said);
        let by_files = line(&TALLY, Extent::Files(400), TWO_SECONDS);
        assert_eq!(by_files, format!("{said}, 6.0 s left"));
        let by_bytes = line(&TALLY, Extent::Bytes(4000), TWO_SECONDS);
        assert_eq!(by_bytes, format!("{said}, 2.0 s left"));
        let nothing = line(&Tally::default(), Extent::Files(4), Duration::ZERO);
        assert_eq!(nothing, "0 done, 0 refused, 0 jobs a second");
    }

    #[test]
    fn the_summary_counts_jobs_and_inputs() {
        let said = "100 jobs: 90 recovered, 10 refused; 2.00 s, 50 jobs a second";
        assert_eq!(summary(&TALLY, "recovered", TWO_SECONDS), said);
        let said = "100 jobs: 90 accepted, 10 refused; 2.00 s, 50 jobs a second";
        assert_eq!(summary(&TALLY, "accepted", TWO_SECONDS), said);
        let with_failure = Tally {
            passed: 0,
            refused: 1,
            unreadable: 2,
            bytes: 0,
        };
        let said =
            "1 job: 0 recovered, 1 refused; 2 inputs could not be read; 2.00 s, 0 jobs a second";
        assert_eq!(summary(&with_failure, "recovered", TWO_SECONDS), said);
    }
}
