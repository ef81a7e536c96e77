// A session: the bench, the case that is on it, and how steps and rows of events are put to it.

use crate::area_scenes::any_scene;
use crate::areas;
use crate::bench::Bench;
use crate::case::{Case, Content, Start, Step, LENGTHS};
use crate::coverage::Coverage;
use crate::event::{body_length, script_of, Event};
use crate::generate::Writer;
use crate::image::Edit;
use crate::margins::{any_allowances, Allowances};
use crate::model::Chip;
use crate::rng::Rng;
use crate::side::Answer;
use crate::stamps::with_stamps;

/// A case with a difference at its last step.
pub struct Failure {
    pub case: Case,
    pub difference: String,
}

/// What came of a step or a case.
pub type Outcome = Result<(), Failure>;

/// The ways in which events are put to a side: alone, alone on a lent chip, and in a run.
#[derive(Clone, Copy)]
pub enum Entry {
    Alone,
    Lent,
    Run,
}

/// Every entry point of events.
pub const EVERY_ENTRY: [Entry; 3] = [Entry::Alone, Entry::Lent, Entry::Run];

/// What events are answered: their records, and the number of their working ticks.
pub struct Said {
    pub records: Vec<u8>,
    pub ticks: u64,
}

/// The bench, the case that is on it, and all that has occurred.
pub struct Session<'a> {
    pub bench: Bench<'a>,
    pub coverage: Coverage,
    pub cases: u64,
    pub events: u64,
    pub rng: Rng,
    case: Case,
    scratch: Vec<u8>,
}

impl<'a> Session<'a> {
    /// A session with nothing done.
    pub fn new(bench: Bench<'a>, seed: u64) -> Session<'a> {
        let case = Case {
            length: LENGTHS[0],
            start: Start::Fresh(0),
            content: Content::Blank,
            area: Vec::new(),
            steps: Vec::new(),
        };
        let (coverage, rng, scratch) = (Coverage::new(), Rng::new(seed), vec![0; LENGTHS[5]]);
        Session { bench, coverage, cases: 0, events: 0, case, rng, scratch }
    }

    /// The failure of the case as it stands.
    pub fn failure(&self, difference: String) -> Failure {
        Failure { case: self.case.clone(), difference }
    }

    /// Starts a case.
    fn open_case(&mut self, case: Case) -> Outcome {
        self.cases += 1;
        self.case = case;
        self.coverage.note_start(&self.case);
        self.bench.start(&self.case).map_err(|difference| self.failure(difference))
    }

    /// Starts a case that lends any SFDP area that is not refused.
    pub fn open(&mut self, length: usize, start: Start, content: Content) -> Outcome {
        let area = areas::taken(&mut self.rng);
        self.open_case(Case { length, start, content, area, steps: Vec::new() })
    }

    /// Starts a case that lends an SFDP area, from a fresh state over a blank memory.
    pub fn open_lending(&mut self, length: usize, area: Vec<u8>) -> Outcome {
        let (start, content) = (Start::Fresh(0), Content::Blank);
        self.open_case(Case { length, start, content, area, steps: Vec::new() })
    }

    /// Starts a case from a fresh state over noise.
    pub fn open_fresh(&mut self, length: usize, status: u8) -> Outcome {
        let content = Content::Noise(self.rng.next());
        self.open(length, Start::Fresh(status), content)
    }

    /// Does a step on both sides.
    pub fn step(&mut self, step: Step) -> Result<Answer, Failure> {
        let (before, handed) = (self.bench.expected.clone(), self.bench.report);
        let answer = self.bench.perform(&step);
        if let Ok(answer) = &answer {
            self.coverage.note_reports(&handed, &self.bench.report);
            self.events += self.coverage.note_step(&before, &step, answer, self.case.length);
        }
        self.case.steps.push(step);
        answer.map_err(|difference| self.failure(difference))
    }

    /// Holds records, or a script, to what is written out in the plan.
    pub fn hold_to(&self, found: &[u8], written_out: &[u8]) -> Outcome {
        if found != written_out {
            let words = format!("written: {found:02X?}\nin place of {written_out:02X?}");
            return Err(self.failure(words));
        }
        Ok(())
    }

    /// Ends a case: its last state has to be legal, or not, on both sides.
    pub fn close(&mut self) -> Outcome {
        self.bench.compare_legal().map_err(|difference| self.failure(difference))
    }

    /// Lets a writer write events for the chip as it is.
    pub fn write(&mut self, scene: impl FnOnce(&mut Writer)) -> Vec<Event> {
        let memory = &mut self.scratch[..self.case.length];
        let mut writer = Writer::new(&mut self.rng, self.bench.expected.chip.clone(), memory);
        writer.area = self.bench.area().len();
        scene(&mut writer);
        writer.events
    }

    /// No edit, or what a legal state leaves free filled with noise: it has to be accepted, to be
    /// kept and to influence nothing.
    pub fn any_edit(&mut self) -> Edit {
        let seed = self.rng.next();
        if self.rng.once_in(2) {
            Edit::Free(seed)
        } else {
            Edit::None
        }
    }

    /// Whether the next single event goes through a lent chip record.
    pub fn lent(&mut self) -> bool {
        self.rng.once_in(3)
    }

    /// Applies events one by one; a body that an event has not may be any number.
    pub fn one_by_one(&mut self, events: &[Event]) -> Outcome {
        for (kind, body) in events {
            let any = self.rng.next();
            let body = match body_length(*kind) {
                Some(0) => self.rng.pick(&[0, 0, 1, any]),
                _ => *body,
            };
            let lent = self.lent();
            self.step(Step::Event { event: (*kind, body), lent, length: None })?;
        }
        Ok(())
    }

    /// Allowances for a run in three, which then carries the report on, and none for the others.
    pub fn some_allowances(&mut self) -> Option<Allowances> {
        self.rng.once_in(3).then(|| any_allowances(&mut self.rng))
    }

    /// A run of a script over the case's memory, plain or with the report.
    pub fn any_run(&mut self, script: Vec<u8>, spare: i64) -> Step {
        let allowances = self.some_allowances();
        Step::Run { script, spare, length: None, allowances }
    }

    /// Runs a script over the case's memory, with some bytes of room more or less than it asks for.
    pub fn run(&mut self, script: Vec<u8>, spare: i64) -> Outcome {
        let step = self.any_run(script, spare);
        self.step(step).map(|_| ())
    }

    /// Runs a script over the case's memory in one of the two forms: plain, or with the report.
    pub fn run_form(
        &mut self,
        script: Vec<u8>,
        spare: i64,
        allowances: Option<Allowances>,
    ) -> Result<Answer, Failure> {
        self.step(Step::Run { script, spare, length: None, allowances })
    }

    /// Runs events as one script.
    pub fn one_run(&mut self, events: &[Event]) -> Outcome {
        let spare = self.rng.pick(&[0, 0, 0, 1, 2, 7, 100]);
        self.run(script_of(events), spare)
    }

    /// What events are answered at an entry point; a run is given the exact room.
    pub fn said_at(&mut self, entry: Entry, events: &[Event]) -> Result<Said, Failure> {
        if let Entry::Run = entry {
            let step = self.any_run(script_of(events), 0);
            let answer = self.step(step)?;
            return Ok(Said { records: self.bench.written(&answer).to_vec(), ticks: answer.ticks });
        }
        let lent = matches!(entry, Entry::Lent);
        let mut said = Said { records: Vec::new(), ticks: 0 };
        for event in events {
            let answer = self.step(Step::Event { event: *event, lent, length: None })?;
            said.records.extend_from_slice(answer.record.written());
            said.ticks += answer.ticks;
        }
        Ok(said)
    }

    /// Delivers events: one by one, as one run, or as runs one after another. Many events, and
    /// those over a large memory, which takes long to compare, go more often as runs.
    pub fn deliver(&mut self, events: &[Event]) -> Outcome {
        let heavy = events.len() * self.case.length / Chip::SECTOR;
        let alone = if heavy > 300 { 12 } else { 2 };
        if self.rng.once_in(alone) {
            return self.one_by_one(events);
        }
        if self.rng.once_in(2) {
            return self.stamped_run(events);
        }
        let mut rest = events;
        while !rest.is_empty() {
            let (part, after) = rest.split_at(1 + self.rng.below(rest.len().min(40)));
            self.stamped_run(part)?;
            rest = after;
        }
        Ok(())
    }

    /// Runs events as one script, at times with stamps in the place of ticks.
    fn stamped_run(&mut self, events: &[Event]) -> Outcome {
        if self.rng.once_in(3) {
            let stamped = with_stamps(&mut self.rng, events);
            return self.one_run(&stamped);
        }
        self.one_run(events)
    }

    /// One to three scenes, at times cut off inside a frame.
    pub fn scene(&mut self) -> Outcome {
        let mut events = self.write(|writer| {
            for _ in 0..1 + writer.rng.below(3) {
                any_scene(writer.rng)(writer);
            }
        });
        if self.rng.once_in(4) {
            let kept = self.rng.below(events.len() + 1);
            events.truncate(kept);
        }
        self.deliver(&events)
    }
}
