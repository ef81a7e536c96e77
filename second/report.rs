// The margin report: how much of its allowance each kind of job left, over the jobs that a run saw
// from their begin to their last step.

use super::{run_watched, Chip, Done, JobKind, Record, RunAnswer};

/// The largest allowance, in ticks.
const LARGEST_ALLOWANCE: u32 = 1_000_000;
/// The kinds of job, each of which has a line and an allowance.
const KINDS: usize = 5;

/// The report's line for one kind of job: how many jobs, and the smallest and largest margin.
#[derive(Clone, Copy, Debug, PartialEq, Eq, Default)]
pub struct Line {
    pub count: u32,
    pub smallest: i32,
    pub largest: i32,
}

/// A job that has begun in this run and not ended: its line, and the ticks since it began.
struct Watched {
    line: usize,
    ticks_used: u64,
}

/// What is carried through a run for its report. There is at most one job, so one is watched.
struct Watch<'a> {
    allowances: &'a [u32; KINDS],
    report: &'a mut [Line; KINDS],
    job: Option<Watched>,
}

impl Line {
    /// Takes one more job in. With a count of 0 the margins say nothing and are not read; a count
    /// that can go no further stays, but the margins still see every job.
    fn join(&mut self, margin: i32) {
        if self.count == 0 {
            *self = Line { count: 1, smallest: margin, largest: margin };
            return;
        }
        self.count = self.count.saturating_add(1);
        self.smallest = self.smallest.min(margin);
        self.largest = self.largest.max(margin);
    }
}

impl Watch<'_> {
    /// Follows one event. While a watched job is there it uses every tick, suspended or not. Gone,
    /// it has done its last step if a tick of the event worked, and then it used those that worked
    /// and no more; otherwise it was dropped.
    fn after_event(&mut self, chip: &Chip, done: Done) {
        if done.record == Record::Verdict(2) {
            self.job = chip.job.as_ref().map(|job| watched(&job.kind));
            return;
        }
        let Some(job) = &mut self.job else {
            return;
        };
        if chip.job.is_some() {
            job.ticks_used += done.ticks;
            return;
        }
        if done.working > 0 {
            let margin = margin(self.allowances[job.line], job.ticks_used + done.working);
            self.report[job.line].join(margin);
        }
        self.job = None;
    }
}

/// A job of that kind as it is watched from its begin. The order of the lines is fixed here.
fn watched(kind: &JobKind) -> Watched {
    let line = match kind {
        JobKind::WriteStatus(_) => 0,
        JobKind::Program(_) => 1,
        JobKind::SmallSectorErase => 2,
        JobKind::SectorErase => 3,
        JobKind::ChipErase => 4,
    };
    Watched { line, ticks_used: 0 }
}

/// The allowance less the ticks used, negative for a late job. The last cast loses nothing: events
/// of 65,535 ticks take three bytes each, and as many as a script can hold stay below 2^31 ticks.
fn margin(allowance: u32, ticks_used: u64) -> i32 {
    (i64::from(allowance) - ticks_used as i64) as i32
}

/// Runs a whole script as the plain run does and carries the report on, or refuses it and changes
/// nothing, the report included. The five are in the order write status, program, small sector
/// erase, sector erase, chip erase.
#[allow(dead_code)]
pub fn run_with_report(
    chip: &mut Chip,
    memory: &mut [u8],
    area: &[u8],
    script: &[u8],
    output: &mut [u8],
    allowances: &[u32; KINDS],
    report: &mut [Line; KINDS],
) -> RunAnswer {
    if allowances.iter().any(|allowance| *allowance > LARGEST_ALLOWANCE) {
        return RunAnswer::refused(18, 0);
    }
    let mut watch = Watch { allowances, report, job: None };
    let watcher = |chip: &Chip, done: Done| watch.after_event(chip, done);
    let answer = run_watched(chip, memory, area, script, output, watcher);
    if answer.refusal == 0 {
        clear_margins_of_no_jobs(report);
    }
    answer
}

/// Sets the margins of lines without a job to 0, whatever was handed in.
fn clear_margins_of_no_jobs(report: &mut [Line; KINDS]) {
    for line in report.iter_mut().filter(|line| line.count == 0) {
        *line = Line::default();
    }
}
