// Margin reports with one fault, for the wrong copies that have it: in which jobs count, in the ticks
// that they use, in how a line takes a job in, and in the allowances.

use crate::class::Class;
use crate::event::{kind, Event};
use crate::margins::{place_of, Allowances, Report, EMPTY, LARGEST, NO_JOBS};
use crate::model::{Chip, Line, Record};

/// The faults, in words: those of the jobs, of their ticks, of their margins, of the lines, of a
/// refused script and of the allowances; the last one is in the answer.
pub const FAULTS: [&str; 49] = [
    "a job that stood at the start is counted",
    "a job that goes on is counted",
    "a job dropped by another is counted",
    "a job dropped by a reset is counted",
    "a job dropped by a power cut is counted",
    "a job begun in suspension counts from the begin of the one that it drops",
    "a job begun in suspension is not counted",
    "of the jobs of a kind the first of a script is counted",
    "a job that ends in the wait of a suspend is not counted",
    "a job that ends by a stamp is not counted",
    "a job that ends inside a frame is not counted",
    "ticks in suspension are not used",
    "the tick of a suspend's wait is not used",
    "the tick of the last step is not used",
    "the ticks after the last step are used",
    "ticks of 04h are not used",
    "ticks of 05h are not used",
    "ticks of stamps are not used",
    "ticks inside a frame are not used",
    "a resume begins the ticks anew",
    "ticks used are kept in 16 bits",
    "a margin is one too large",
    "a margin is one too small",
    "a margin is ticks used less allowance",
    "a late job has the margin 0",
    "a late job's margin has no sign",
    "smallest and largest are swapped",
    "the smallest margin is the last one",
    "the largest margin is the last one",
    "margins of a count of 0 are read",
    "a count of 0 leaves its margins",
    "a line without a new job loses its margins",
    "crossed margins are put right",
    "a count passes its ceiling to 0",
    "a count stops one below its ceiling",
    "at the ceiling the margins stay",
    "a report begins empty with each script",
    "the lines of write status and program are swapped",
    "the lines of the two sector erases are swapped",
    "a program has the allowance of a small sector erase",
    "a refused script clears the margins of a count of 0",
    "a refused script empties the report",
    "18 is tested after 1",
    "18 is tested last",
    "an allowance of 1,000,000 is refused",
    "an allowance of 1,000,001 is taken",
    "an allowance from 2^31 on is taken",
    "the allowance of a chip erase is not tested",
    "a run with a report answers with the ticks used as working ones",
];

/// The places of lines.
const STATUS: usize = 0;
const PROGRAM: usize = 1;
const SMALL: usize = 2;
const SECTOR: usize = 3;

/// An event of a run: the kind that it has in the script, what a chip sees of it, and what came.
pub struct Happened<'a> {
    pub source: u64,
    pub event: Event,
    pub before: &'a Chip,
    pub after: &'a Chip,
    pub record: Record,
    pub worked: u64,
}

/// A job that is watched.
#[derive(Clone, Copy)]
struct Watched {
    place: usize,
    used: u64,
    /// It does not count, whatever comes.
    passed_over: bool,
}

/// What is carried through a run, with the fault of that number, or with none.
pub struct Watch {
    fault: Option<usize>,
    allowances: Allowances,
    handed: Report,
    report: Report,
    job: Option<Watched>,
    counted: [bool; 5],
    /// The ticks that a job used and that did not work.
    idle: u64,
}

impl Watch {
    /// A watch at the start of a run, from the chip and the report that are handed in.
    pub fn new(
        fault: Option<usize>,
        chip: &Chip,
        allowances: &Allowances,
        report: &Report,
    ) -> Watch {
        let stood = chip.job.as_ref().filter(|_| fault == Some(0)).map(Class::of);
        let begun = |class| Watched { place: place_of(class), used: 0, passed_over: false };
        let job = stood.map(begun);
        let (allowances, handed) = (*allowances, *report);
        let report = if fault == Some(36) { EMPTY } else { handed };
        Watch { fault, allowances, handed, report, job, counted: [false; 5], idle: 0 }
    }

    /// Whether a fault is the planted one.
    fn has(&self, fault: usize) -> bool {
        self.fault == Some(fault)
    }

    /// Follows an event.
    pub fn follow(&mut self, happened: &Happened) {
        let Happened { before, after, record, .. } = *happened;
        let ticks = match happened.event {
            (kind::TICK, _) => 1,
            (kind::TICKS, ticks) => ticks,
            _ => 0,
        };
        match (record, before.frame.opcode) {
            (Record::Verdict(2), _) => return self.begin(before, after),
            (Record::Verdict(1), 0x30) if self.has(19) => {
                self.job = self.job.map(|job| Watched { used: 0, ..job });
            }
            _ => {}
        }
        if after.job.is_some() {
            self.use_ticks(happened, ticks);
        } else if happened.worked > 0 {
            let used = if self.has(14) { ticks } else { happened.worked };
            self.use_ticks(happened, used);
            self.end(happened);
        } else {
            self.drop_job(happened.event.0 == kind::POWER_CUT);
        }
    }

    /// Begins to watch a job, perhaps in the place of a suspended one.
    fn begin(&mut self, before: &Chip, after: &Chip) {
        let old = self.job.take();
        if let Some(old) = old.filter(|_| self.has(2)) {
            self.count(old);
        }
        let used = old.filter(|_| self.has(5)).map_or(0, |old| old.used);
        let passed_over = self.has(6) && before.suspended;
        let class = after.job.as_ref().map(Class::of);
        self.job = class.map(|class| Watched { place: place_of(class), used, passed_over });
    }

    /// Has the job use ticks of an event.
    fn use_ticks(&mut self, happened: &Happened, ticks: u64) {
        let (before, source) = (happened.before, happened.source);
        let ticks = match self.fault {
            Some(11) if before.suspended => 0,
            Some(11) if before.waiting => ticks.min(1),
            Some(12) if before.waiting => ticks.max(1) - 1,
            Some(15) if source == kind::TICK => 0,
            Some(16) if source == kind::TICKS => 0,
            Some(17) if source == kind::STAMP => 0,
            Some(18) if before.frame.byte_count > 0 => 0,
            _ => ticks,
        };
        if let Some(job) = &mut self.job {
            job.used += ticks;
            self.idle += ticks.saturating_sub(happened.worked);
        }
    }

    /// The ticks that the answer tells as working ones beside those that work.
    pub fn ticks_more(&self) -> u64 {
        if self.has(48) {
            self.idle
        } else {
            0
        }
    }

    /// Ends the job with its last step.
    fn end(&mut self, happened: &Happened) {
        let Some(mut job) = self.job.take() else { return };
        let passed_over = match self.fault {
            Some(8) => happened.before.waiting,
            Some(9) => happened.source == kind::STAMP,
            Some(10) => happened.before.frame.byte_count > 0,
            _ => job.passed_over,
        };
        if self.has(13) {
            job.used -= 1;
        }
        if !passed_over {
            self.count(job);
        }
    }

    /// Drops the job, by a power cut or a reset.
    fn drop_job(&mut self, cut: bool) {
        let counted = if cut { 4 } else { 3 };
        if let Some(job) = self.job.take().filter(|_| self.has(counted)) {
            self.count(job);
        }
    }

    /// Counts a job.
    fn count(&mut self, job: Watched) {
        if self.has(7) && self.counted[job.place] {
            return;
        }
        self.counted[job.place] = true;
        let margin = self.margin(job);
        let place = match (self.fault, job.place) {
            (Some(37), STATUS) => PROGRAM,
            (Some(37), PROGRAM) => STATUS,
            (Some(38), SMALL) => SECTOR,
            (Some(38), SECTOR) => SMALL,
            (_, place) => place,
        };
        self.report[place] = self.joined(self.report[place], margin);
    }

    /// The margin of a job.
    fn margin(&self, job: Watched) -> i32 {
        let place = if self.has(39) && job.place == PROGRAM { SMALL } else { job.place };
        let used = if self.has(20) { job.used & 0xFFFF } else { job.used };
        let margin = i64::from(self.allowances[place]) - used as i64;
        let margin = match self.fault {
            Some(21) => margin + 1,
            Some(22) => margin - 1,
            Some(23) => -margin,
            Some(24) => margin.max(0),
            Some(25) => margin.abs(),
            _ => margin,
        };
        margin as i32
    }

    /// A line that has taken a margin in.
    fn joined(&self, line: Line, margin: i32) -> Line {
        let Line { count, smallest, largest } = line;
        let more = match self.fault {
            Some(33) => count.wrapping_add(1),
            Some(34) => count.saturating_add(1).min(u32::MAX - 1).max(count),
            _ => count.saturating_add(1),
        };
        let (low, high) = (smallest.min(margin), largest.max(margin));
        let (smallest, largest) = match self.fault {
            Some(29) => (low, high),
            _ if count == 0 => (margin, margin),
            Some(26) => (smallest.max(margin), largest.min(margin)),
            Some(27) => (margin, high),
            Some(28) => (low, margin),
            Some(32) if smallest > largest => (margin, margin),
            Some(35) if count == u32::MAX => (smallest, largest),
            _ => (low, high),
        };
        Line { count: more, smallest, largest }
    }

    /// The report after the run, from its refusal.
    pub fn report_after(mut self, refusal: u8) -> Report {
        if refusal != 0 {
            return match self.fault {
                Some(40) => tidied(self.handed),
                Some(41) => EMPTY,
                _ => self.handed,
            };
        }
        if let Some(job) = self.job.take().filter(|_| self.has(1)) {
            self.count(job);
        }
        if self.has(31) {
            for (line, counted) in self.report.iter_mut().zip(self.counted) {
                *line = if counted { *line } else { Line { count: line.count, ..NO_JOBS } };
            }
        }
        if self.has(30) {
            self.report
        } else {
            tidied(self.report)
        }
    }
}

/// A report whose lines without a job have no margins.
fn tidied(report: Report) -> Report {
    report.map(|line| if line.count == 0 { NO_JOBS } else { line })
}

/// Whether allowances are refused by 18, with the fault of that number, given what the run would be
/// refused by without them.
pub fn refuses(fault: Option<usize>, allowances: &Allowances, otherwise: u8) -> bool {
    let largest = match fault {
        Some(44) => LARGEST - 1,
        Some(45) => LARGEST + 1,
        _ => LARGEST,
    };
    let late = match fault {
        Some(42) => otherwise == 1,
        Some(43) => otherwise != 0,
        _ => false,
    };
    let tested = match fault {
        Some(47) => &allowances[..4],
        _ => &allowances[..],
    };
    let taken = |allowance: u32| match fault {
        Some(46) => allowance as i32 <= largest as i32,
        _ => allowance <= largest,
    };
    !late && !tested.iter().all(|allowance| taken(*allowance))
}

/// Whether the harness's own reckoning has to find a fault: all but those of 18 and of the answer.
pub fn is_reckoned(fault: usize) -> bool {
    fault < 42
}
