// The margin report by the harness's own reckoning: the jobs of a run from their begins to their
// last steps, and how the lines of a report take them in.

use crate::class::Class;
use crate::event::{kind, Event};
use crate::model::{Chip, Line, Record};
use crate::rng::Rng;

/// What the words of a difference between reports begin with.
pub const DIFFERENCE: &str = "report";

/// The kinds of job, each of which has a line and an allowance, in the order of both.
pub const KINDS: [(&str, Class); 5] = [
    ("write status", Class::WriteStatus),
    ("program", Class::Program),
    ("small sector erase", Class::SmallSector),
    ("sector erase", Class::Sector),
    ("chip erase", Class::Chip),
];

/// The ticks that a job of each kind may use.
pub type Allowances = [u32; KINDS.len()];
/// A line for each kind of job.
pub type Report = [Line; KINDS.len()];

/// The largest allowance that is not refused.
pub const LARGEST: u32 = 1_000_000;
/// A line without a job.
pub const NO_JOBS: Line = Line { count: 0, smallest: 0, largest: 0 };
/// A report without a job.
pub const EMPTY: Report = [NO_JOBS; KINDS.len()];

/// The place of a kind's line and of its allowance.
pub fn place_of(class: Class) -> usize {
    KINDS.iter().position(|(_, known)| *known == class).expect("a kind of the list")
}

/// A job that a run has begun, and the ticks that it has used.
#[derive(Clone, Copy, Debug, PartialEq, Eq)]
pub struct Begun {
    pub class: Class,
    pub used: u64,
}

/// Follows the jobs of a run; there is at most one at a time.
#[derive(Clone, Copy, Default)]
pub struct Watch {
    pub job: Option<Begun>,
}

impl Watch {
    /// Follows an event that a part sees, from the chip before it and its record, and gives the job
    /// that did its last step, if this run has begun it.
    pub fn follow(
        &mut self,
        before: &Chip,
        event: Event,
        record: Record,
        length: usize,
    ) -> Option<Begun> {
        match (event.0, record, before.frame.opcode) {
            (kind::TICK, ..) => return self.pass(before, 1, length),
            (kind::TICKS, ..) => return self.pass(before, event.1, length),
            (kind::DESELECT, Record::Verdict(2), opcode) => {
                self.job = Class::begun_by(opcode).map(|class| Begun { class, used: 0 });
            }
            (kind::DESELECT, Record::Verdict(1), 0x99) | (kind::POWER_CUT, ..) => self.job = None,
            _ => {}
        }
        None
    }

    /// Lets ticks pass: all of them are used by a job that is still there after them, those up to
    /// its last step by one that ends.
    fn pass(&mut self, before: &Chip, ticks: u64, length: usize) -> Option<Begun> {
        let job = self.job.as_mut()?;
        match last_step(before, length) {
            Some(last) if last <= ticks => {
                job.used += last;
                self.job.take()
            }
            _ => {
                job.used += ticks;
                None
            }
        }
    }
}

/// The tick, from 1, in which the last step of a chip's job is done if nothing but ticks comes: none
/// for a job that is suspended, or will be after the tick that its suspend waits for.
pub fn last_step(chip: &Chip, length: usize) -> Option<u64> {
    let job = chip.job.as_ref()?;
    let left = u64::from(Class::of(job).steps(length) - job.steps_done);
    (!chip.suspended && (!chip.waiting || left == 1)).then_some(left)
}

/// The margin of a job: what it left of its allowance, negative where it was late.
pub fn margin_of(job: Begun, allowances: &Allowances) -> i32 {
    let margin = i64::from(allowances[place_of(job.class)]) - job.used as i64;
    i32::try_from(margin).expect("a margin of one script")
}

/// A line that has taken in one job more.
fn with_job(line: Line, margin: i32) -> Line {
    match line.count {
        0 => Line { count: 1, smallest: margin, largest: margin },
        count => Line {
            count: if count == u32::MAX { count } else { count + 1 },
            smallest: line.smallest.min(margin),
            largest: line.largest.max(margin),
        },
    }
}

/// The report after a run that is done, from the one that was handed in and the jobs that it counts.
pub fn report_after(handed: &Report, jobs: &[Begun], allowances: &Allowances) -> Report {
    let mut report = *handed;
    for job in jobs {
        let line = &mut report[place_of(job.class)];
        *line = with_job(*line, margin_of(*job, allowances));
    }
    report.map(|line| if line.count == 0 { NO_JOBS } else { line })
}

/// The first line in which a report differs, in words.
pub fn report_difference(side: &str, wanted: &Report, found: &Report) -> Option<String> {
    let place = (0..KINDS.len()).find(|place| wanted[*place] != found[*place])?;
    let name = KINDS[place].0;
    let (wanted, found) = (line_words(&wanted[place]), line_words(&found[place]));
    Some(format!("{DIFFERENCE}: {side}{name}: {found}\nin place of {wanted}"))
}

/// A line in words.
pub fn line_words(Line { count, smallest, largest }: &Line) -> String {
    format!("{count} jobs, margins {smallest} to {largest}")
}

/// Allowances that are not refused, about what jobs use, or anything else.
pub fn any_allowances(rng: &mut Rng) -> Allowances {
    KINDS.map(|(_, class)| {
        let steps = class.steps(Chip::SECTOR);
        let any = rng.below(LARGEST as usize + 1) as u32;
        let near = steps + rng.below(60) as u32;
        rng.pick(&[0, steps - 1, steps, steps + 1, near, near, 1_000, any, LARGEST])
    })
}

/// Any report: lines without a job but with margins, with a count about its ceiling, with crossed
/// margins, or with none of these.
pub fn any_report(rng: &mut Rng) -> Report {
    KINDS.map(|_| {
        let any = rng.next() as u32;
        let [smallest, largest] = [0, 1].map(|_| {
            let (near, far) = (rng.below(400) as i32 - 200, rng.next() as i32);
            rng.pick(&[0, near, near, far, i32::MIN, i32::MAX])
        });
        let count = rng.pick(&[0, 0, 1, 2, any, u32::MAX - 1, u32::MAX]);
        Line { count, smallest, largest }
    })
}
