// The bench: the model beside the side that is held to it, compared after each step.

use crate::case::{room, Case, Content, Start, Step, Use, LENGTHS};
use crate::clock::seen_events;
use crate::enable::{self, Moment};
use crate::event::{events_of, room_needed, Event};
use crate::expected::Expected;
use crate::image::{edited_image, image_difference, Image};
use crate::margins::{self, report_difference, Allowances, Begun, Report, Watch};
use crate::model::{self, Chip, RunAnswer};
use crate::programming::{self, Programming};
use crate::promise::{self, Promise};
use crate::protection::sectors_difference;
use crate::rng::Rng;
use crate::sfdp::{self, Found};
use crate::side::{
    record_bytes, Answer, Loan, Side, GUARD, MEMORY_AREA, NO_RECORD, OUTPUT_AREA, SFDP_AREA,
};
use crate::writer::{self, Written};

/// The part's own SFDP area as the file that a bench may take it from.
const OWN_AREA_FILE: &[u8; 208] = include_bytes!("../samples/le25s161.sfdp");

/// What the words of a difference about the room of refusal 7 begin with.
pub const ROOM_DIFFERENCE: &str = "room";

/// The chip that is expected, the model's memory and output, the SFDP area that is lent, and the
/// side that is held to them.
pub struct Bench<'a> {
    pub expected: Expected,
    pub length: usize,
    memory: Vec<u8>,
    output: Vec<u8>,
    /// The records that are due for the last step, where verdict 9 is reckoned here.
    due: Vec<u8>,
    /// The moments of those records.
    moments: Vec<Moment>,
    /// The report that the case carries from script to script.
    pub report: Report,
    /// The jobs that the last run began and ended, as they are reckoned here.
    jobs: Vec<Begun>,
    /// The SFDP area with its guards.
    sfdp: Vec<u8>,
    area_length: usize,
    /// A memory whose content does not matter.
    scratch: Vec<u8>,
    /// The memories may differ, for the last step found a difference.
    differs: bool,
    other: &'a mut dyn Side,
}

/// The answer to what has none.
const NO_ANSWER: Answer = Answer { refusal: 0, record: NO_RECORD, offset: 0, written: 0, ticks: 0 };

/// What a place of the output holds before a run, or before a script is written.
fn mark(place: usize) -> u8 {
    (place * 37 + 11) as u8
}

/// Marks an output.
fn mark_output(output: &mut [u8]) {
    for (place, byte) in output.iter_mut().enumerate() {
        *byte = mark(place);
    }
}

/// What stands before and after an SFDP area: never FFh, so that a byte driven from there shows.
fn mark_guards(sfdp: &mut [u8]) {
    for (place, byte) in sfdp.iter_mut().enumerate() {
        *byte = (place % 127) as u8;
    }
}

/// The first place where two areas differ, in words.
fn area_difference(name: &str, wanted: &[u8], found: &[u8]) -> Option<String> {
    if wanted == found {
        return None;
    }
    let at = (0..wanted.len()).find(|at| wanted[*at] != found[*at])?;
    let places = (0..wanted.len()).filter(|at| wanted[*at] != found[*at]).count();
    let (wanted, found) = (wanted[at], found[at]);
    Some(format!("{name} at {at:X}h: {found:02X}h in place of {wanted:02X}h ({places} differ)"))
}

/// A side's answer to a run, in words, if it is wrong by the room alone, whatever the model says:
/// done in less than the run asks for, or refused by 7 in that room or more.
fn room_difference(side: &str, answer: &Answer, script: &[u8], room: usize) -> Option<String> {
    let refusal = answer.refusal;
    if !matches!(refusal, 0 | 7) {
        return None;
    }
    let needed = room_needed(script) as usize;
    let wrong = (refusal == 7) != (room < needed);
    wrong.then(|| format!("{ROOM_DIFFERENCE} {room} of {needed}: {side} {refusal}"))
}

/// What is wrong with a script writer's answer or with the output that it was lent, the guard
/// included, in words: the script there, or a mark behind it that is gone.
fn writing_difference(
    side: &str,
    asked: &Programming,
    answer: Written,
    output: &[u8],
) -> Option<String> {
    asked.difference(side, answer, output).or_else(|| {
        let at = (answer.written..output.len()).find(|at| output[*at] != mark(*at))?;
        Some(format!("{}: {side}output is touched at {at:X}h", programming::DIFFERENCE))
    })
}

/// What the text form makes of a programming's line, in words, if it is not the writer's script.
fn text_difference(script: &[u8], found: Result<Vec<u8>, String>) -> Option<String> {
    let words = match found {
        Ok(found) if found == script => return None,
        Ok(found) if found.len() == script.len() => area_difference("script", script, &found)?,
        Ok(found) => format!("{} bytes in place of {}", found.len(), script.len()),
        Err(reason) => reason,
    };
    Some(format!("{}: {words}", programming::TEXT_DIFFERENCE))
}

/// An answer in words.
fn answer_words(answer: &Answer) -> String {
    let Answer { refusal, record, offset, written, ticks } = answer;
    let record = format!("{:02X?} of length {}", record.bytes, record.length);
    format!("{refusal}, record {record}, offset {offset}, written {written}, ticks {ticks}")
}

/// The reader's answer in words.
fn found_words(Found { refusal, place, length }: &Found) -> String {
    format!("{refusal}, place {place}, length {length}")
}

impl<'a> Bench<'a> {
    /// A bench with the side to compare.
    pub fn new(other: &'a mut dyn Side) -> Bench<'a> {
        let (expected, length) = (Expected::fresh(0), LENGTHS[0]);
        let (memory, output, due) = (vec![0; MEMORY_AREA], vec![0; OUTPUT_AREA], Vec::new());
        let (sfdp, area_length) = (vec![0; SFDP_AREA], 0);
        let (scratch, differs) = (vec![0; MEMORY_AREA], true);
        let (report, jobs, moments) = (margins::EMPTY, Vec::new(), Vec::new());
        Bench {
            expected,
            length,
            memory,
            output,
            due,
            moments,
            report,
            jobs,
            sfdp,
            area_length,
            scratch,
            differs,
            other,
        }
    }

    /// The SFDP area that is lent.
    pub fn area(&self) -> &[u8] {
        &self.sfdp[GUARD..GUARD + self.area_length]
    }

    /// What the last run that was done wrote, given its answer.
    pub fn written(&self, answer: &Answer) -> &[u8] {
        &self.output[..answer.written as usize]
    }

    /// Lends an SFDP area from here on.
    fn lend(&mut self, area: &[u8]) {
        mark_guards(&mut self.sfdp);
        self.sfdp[GUARD..GUARD + area.len()].copy_from_slice(area);
        self.area_length = area.len();
        self.other.sfdp().copy_from_slice(&self.sfdp);
    }

    /// Makes both memory areas the same again, if they may differ.
    fn wipe(&mut self) {
        if self.differs {
            self.memory.fill(0);
            self.other.memory().fill(0);
        }
        self.differs = false;
    }

    /// Puts the start of a case on both sides and compares the states and their legality.
    pub fn start(&mut self, case: &Case) -> Result<(), String> {
        self.wipe();
        (self.length, self.report) = (case.length, margins::EMPTY);
        let cells = &mut self.memory[..case.length];
        match case.content {
            Content::Blank => cells.fill(0xFF),
            Content::Noise(seed) => Rng::new(seed).fill(cells),
        }
        self.other.memory()[..case.length].copy_from_slice(cells);
        self.lend(&case.area);
        match &case.start {
            Start::Fresh(status) => {
                self.expected = Expected::fresh(*status);
                self.other.fresh(*status)?;
                self.compare_state()?;
            }
            Start::Lent(chip, edit) => {
                let image = edited_image(chip, edit);
                self.expected = Expected::lent(chip, &image);
                self.other.put(chip, &image)?;
                as_error(image_difference(&image, &self.other.image()))?;
            }
        }
        self.compare_legal()
    }

    /// Compares what the two sides say about the legality of their chips; neither may take a job
    /// with WEN 0 as legal.
    pub fn compare_legal(&mut self) -> Result<(), String> {
        let (wanted, found) =
            (self.expected.chip.legal(self.length), self.other.legal(self.length)?);
        let (model, other) = (self.expected.image(), self.other.image());
        as_error(enable::legal_difference("the model's ", wanted, &model))?;
        as_error(enable::legal_difference("", found, &other))?;
        if wanted != found {
            return Err(format!("legal: {found} in place of {wanted}"));
        }
        Ok(())
    }

    /// Compares the states as far as they can be seen.
    fn compare_state(&mut self) -> Result<(), String> {
        as_error(self.expected.difference(&self.other.image()))
    }

    /// Does one step on both sides, compares all that came of it and gives the answer.
    pub fn perform(&mut self, step: &Step) -> Result<Answer, String> {
        match step {
            Step::Event { event, lent, length } => {
                self.event(length.unwrap_or(self.length), *event, *lent)
            }
            Step::Run { script, spare, length, allowances: None } => {
                self.run(length.unwrap_or(self.length), script, room(script, *spare))
            }
            Step::Run { script, spare, length, allowances: Some(allowances) } => {
                let length = length.unwrap_or(self.length);
                self.run_report(length, script, room(script, *spare), allowances)
            }
            Step::Report(report) => {
                self.report = *report;
                Ok(NO_ANSWER)
            }
            Step::HandOver => self.hand_over(),
            Step::Lend(area) => {
                self.lend(area);
                Ok(NO_ANSWER)
            }
            Step::Find(identity) => self.find(*identity),
            Step::OwnArea => self.own_area(),
            Step::Script(asked, used) => self.use_script(asked, *used),
        }
    }

    /// Applies one event on both sides and compares.
    fn event(&mut self, length: usize, event: Event, lent: bool) -> Result<Answer, String> {
        self.differs = true;
        let (before, loan) = (self.other.image(), self.loan(length));
        let wanted = self.model_event(length, event);
        let found = self.other.event(loan, event, lent)?;
        let (model, other) = (wanted.record.written(), found.record.written());
        self.find_what_cannot_be((wanted.refusal, model), (found.refusal, other))?;
        self.compare_sectors(model, other)?;
        self.compare_step(&before, length, 0, wanted, found)
    }

    /// Runs a script on both sides and compares.
    fn run(&mut self, length: usize, script: &[u8], room: usize) -> Result<Answer, String> {
        let (before, loan) = (self.begin_run(room), self.loan(length));
        let wanted = self.model_run(length, script, room);
        let found = self.other.run(loan, script, room)?;
        self.compare_run(&before, loan, (script, room), wanted, found)
    }

    /// Runs a script that carries the report on, on both sides, and compares; both reports are held
    /// to the harness's own reckoning.
    fn run_report(
        &mut self,
        length: usize,
        script: &[u8],
        room: usize,
        allowances: &Allowances,
    ) -> Result<Answer, String> {
        let (before, loan, handed) = (self.begin_run(room), self.loan(length), self.report);
        let wanted = self.model_run_report(length, script, room, allowances);
        let mut left = handed;
        let found = self.other.run_report(loan, script, room, allowances, &mut left)?;
        self.compare_run(&before, loan, (script, room), wanted, found)?;
        let due = match wanted.refusal {
            0 => margins::report_after(&handed, &self.jobs, allowances),
            _ => handed,
        };
        as_error(report_difference("the model's ", &due, &self.report))?;
        as_error(report_difference("", &due, &left))?;
        Ok(wanted)
    }

    /// Marks both outputs for a run in a room and gives the other side's chip before it.
    fn begin_run(&mut self, room: usize) -> Image {
        self.differs = true;
        mark_output(&mut self.output[..room + GUARD]);
        mark_output(&mut self.other.output()[..room + GUARD]);
        self.other.image()
    }

    /// Compares all that came of a run of a script in a room, and gives the answer.
    fn compare_run(
        &mut self,
        before: &Image,
        loan: Loan,
        (script, room): (&[u8], usize),
        wanted: Answer,
        found: Answer,
    ) -> Result<Answer, String> {
        let end = room + GUARD;
        as_error(room_difference("the model's answer", &wanted, script, room))?;
        as_error(room_difference("answer", &found, script, room))?;
        let output = self.other.output()[..end.min(found.written as usize)].to_vec();
        let model = self.written(&wanted);
        self.find_what_cannot_be((wanted.refusal, model), (found.refusal, &output))?;
        self.compare_sectors(model, &output)?;
        self.compare_step(before, loan.memory, end, wanted, found)
    }

    /// Finds what cannot be in the records of each side, and in its chip if it did not refuse, so
    /// that what both agree on is found too.
    pub fn find_what_cannot_be(
        &self,
        (wanted, model): (u8, &[u8]),
        (found, other): (u8, &[u8]),
    ) -> Result<(), String> {
        let (moments, chip) = (&self.moments, self.expected.image());
        as_error(enable::difference("the model's ", wanted, model, moments, &chip))?;
        as_error(enable::difference("", found, other, moments, &self.other.image()))
    }

    /// Holds the records of both sides to those that are due, as far as they tell verdict 9.
    fn compare_sectors(&self, model: &[u8], found: &[u8]) -> Result<(), String> {
        as_error(sectors_difference("the model's record", &self.due, model))?;
        as_error(sectors_difference("record", &self.due, found))
    }

    /// A loan of so many bytes of memory and of the whole SFDP area.
    fn loan(&self, memory: usize) -> Loan {
        Loan { memory, area: self.area_length }
    }

    /// Compares all that came of an event or a run, given the other side's chip before it, the
    /// memory length and the end of the output that it was lent, and gives the answer.
    fn compare_step(
        &mut self,
        before: &Image,
        length: usize,
        output_end: usize,
        wanted: Answer,
        found: Answer,
    ) -> Result<Answer, String> {
        if wanted != found {
            let (wanted, found) = (answer_words(&wanted), answer_words(&found));
            return Err(format!("answer: {found}\nin place of {wanted}"));
        }
        self.compare_areas(length.max(self.length) + GUARD, output_end)?;
        match wanted.refusal {
            0 => self.compare_state()?,
            _ => as_error(image_difference(before, &self.other.image()))?,
        }
        self.differs = false;
        Ok(wanted)
    }

    /// Puts the chip that is expected in the place of the other side's.
    fn hand_over(&mut self) -> Result<Answer, String> {
        self.other.put(&self.expected.chip, &self.expected.image())?;
        Ok(NO_ANSWER)
    }

    /// Asks both readers for the table of an identity; of the answer only the refusal is given.
    fn find(&mut self, identity: u8) -> Result<Answer, String> {
        let wanted = sfdp::find(self.area(), identity);
        let found = self.other.find(self.area_length, identity)?;
        if wanted != found {
            let (wanted, found) = (found_words(&wanted), found_words(&found));
            return Err(format!("identity {identity:02X}h: {found}\nin place of {wanted}"));
        }
        self.compare_sfdp()?;
        Ok(Answer { refusal: wanted.refusal, ..NO_ANSWER })
    }

    /// Holds the part's own area to the second program's and to the file.
    fn own_area(&mut self) -> Result<Answer, String> {
        let found = self.other.own_area()?;
        as_error(area_difference("own area", &sfdp::CONTENT, &found))?;
        as_error(area_difference("own area, to the file's,", OWN_AREA_FILE, &found))?;
        Ok(NO_ANSWER)
    }

    /// Asks both script writers for a programming's script, holds each of them to the harness's own
    /// reckoning, and compares; of the answer only the refusal and the bytes written are given.
    fn write_script(&mut self, asked: &Programming) -> Result<Answer, String> {
        self.differs = true;
        let end = asked.room + GUARD;
        mark_output(&mut self.output[..end]);
        mark_output(&mut self.other.output()[..end]);
        let Programming { memory, address, data, room } = asked;
        let wanted = writer::write_program(*memory, *address, data, &mut self.output[..*room]);
        let found = self.other.write_program(asked)?;
        as_error(writing_difference("the model's ", asked, wanted, &self.output[..end]))?;
        as_error(writing_difference("", asked, found, &self.other.output()[..end]))?;
        self.compare_areas(self.length + GUARD, end)?;
        self.differs = false;
        Ok(Answer::to_run(found.refusal, 0, found.written as u64, 0))
    }

    /// Asks for a programming's script, and uses it if it is not refused.
    fn use_script(&mut self, asked: &Programming, used: Use) -> Result<Answer, String> {
        let answer = self.write_script(asked)?;
        let script = self.other.output()[..answer.written as usize].to_vec();
        match used {
            _ if answer.refusal != 0 => {}
            Use::Read => {}
            Use::HoldText => {
                as_error(text_difference(&script, self.other.script_of_line(asked)))?;
            }
            Use::Run => return self.keep_promise(asked, &script),
        }
        Ok(answer)
    }

    /// Runs a programming's script, in a byte less than its room, if it has any, and in the exact
    /// room. If the promise is about the chip as it is, both sides are held to it: the run has
    /// compared their records and cells, so that it is enough to look at one side's.
    pub fn keep_promise(&mut self, asked: &Programming, script: &[u8]) -> Result<Answer, String> {
        let (length, room) = (self.length, promise::room(asked));
        let promised = asked.is_promised(&self.expected.chip, length);
        let promise = promised.then(|| Promise::new(asked, &self.memory[..length]));
        let (model, other) = (self.expected.image(), self.other.image());
        if room > 0 && self.run(length, script, room - 1)?.refusal != 7 {
            return Err(format!("{}: not refused by 7 in {} bytes", promise::DIFFERENCE, room - 1));
        }
        let answer = self.run(length, script, room)?;
        let Some(promise) = promise else { return Ok(answer) };
        as_error(promise.answer_difference(&answer))?;
        as_error(promise.cells_difference(&self.output, &self.memory[..length]))?;
        as_error(promise.chip_difference("the model's ", &model, &self.expected.image()))?;
        as_error(promise.chip_difference("", &other, &self.other.image()))?;
        Ok(answer)
    }

    /// The model's answer to one event.
    fn model_event(&mut self, length: usize, event: Event) -> Answer {
        let area = &self.sfdp[GUARD..GUARD + self.area_length];
        let memory = &mut self.memory[..length];
        self.due.clear();
        self.moments.clear();
        let (before, answer) = self.expected.event_with_due(memory, area, event, &mut self.due);
        self.moments.extend(Moment::of(&before, answer.record));
        Answer::to_event(answer.refusal, record_bytes(answer.record), answer.ticks)
    }

    /// The model's answer to a run.
    fn model_run(&mut self, length: usize, script: &[u8], room: usize) -> Answer {
        let mut chip = self.expected.chip.clone();
        let (memory, output) = (&mut self.memory[..length], &mut self.output[..room]);
        let area = &self.sfdp[GUARD..GUARD + self.area_length];
        let answer = model::run(&mut chip, memory, area, script, output);
        self.follow(length, script, &chip, answer)
    }

    /// The model's answer to a run that carries the report on: but for 18 the one of a plain run.
    fn model_run_report(
        &mut self,
        length: usize,
        script: &[u8],
        room: usize,
        allowances: &Allowances,
    ) -> Answer {
        let (mut chip, mut plain_chip) = (self.expected.chip.clone(), self.expected.chip.clone());
        let (memory, output) = (&mut self.memory[..length], &mut self.output[..room]);
        let (area, report) = (&self.sfdp[GUARD..GUARD + self.area_length], &mut self.report);
        let answer =
            model::run_with_report(&mut chip, memory, area, script, output, allowances, report);
        if answer.refusal != 18 {
            let (memory, mut output) = (&mut self.scratch[..length], vec![0; room]);
            let plain = model::run(&mut plain_chip, memory, area, script, &mut output);
            assert!((answer, &chip) == (plain, &plain_chip), "the model's runs are not the same");
        }
        self.follow(length, script, &chip, answer)
    }

    /// Lets the chip that is expected follow a run that is done event by event, for the model's run
    /// does not say which of them ended a job, and gives the answer to it.
    fn follow(&mut self, length: usize, script: &[u8], chip: &Chip, answer: RunAnswer) -> Answer {
        let area = &self.sfdp[GUARD..GUARD + self.area_length];
        self.due.clear();
        self.moments.clear();
        self.jobs.clear();
        if answer.refusal == 0 {
            let (memory, mut watch) = (&mut self.scratch[..length], Watch::default());
            for event in seen_events(&events_of(script).0) {
                let (before, done) =
                    self.expected.event_with_due(memory, area, event, &mut self.due);
                self.moments.extend(Moment::of(&before, done.record));
                self.jobs.extend(watch.follow(&before, event, done.record, length));
            }
            assert!(self.expected.chip == *chip, "the model's run is not its events one by one");
        }
        let (offset, written) = (answer.offset as u64, answer.written as u64);
        Answer::to_run(answer.refusal, offset, written, answer.ticks)
    }

    /// Compares the SFDP areas, which are only read, and their guards.
    fn compare_sfdp(&mut self) -> Result<(), String> {
        as_error(area_difference("SFDP area and its guards", &self.sfdp, self.other.sfdp()))
    }

    /// Compares the memories and the outputs up to the ends given, and the SFDP areas.
    fn compare_areas(&mut self, memory_end: usize, output_end: usize) -> Result<(), String> {
        let memory = &self.memory[..memory_end];
        let different = area_difference("memory", memory, &self.other.memory()[..memory_end]);
        let output = &self.output[..output_end];
        let too = area_difference("output", output, &self.other.output()[..output_end]);
        as_error(different.or(too))?;
        self.compare_sfdp()
    }

    /// Does a whole case and gives its first difference and the step that it is at.
    pub fn replay(&mut self, case: &Case) -> Option<(usize, String)> {
        if let Err(difference) = self.start(case) {
            return Some((0, difference));
        }
        for (number, step) in case.steps.iter().enumerate() {
            if let Err(difference) = self.perform(step) {
                return Some((number + 1, difference));
            }
        }
        self.compare_legal().err().map(|difference| (case.steps.len(), difference))
    }
}

/// A difference as an error.
fn as_error(difference: Option<String>) -> Result<(), String> {
    difference.map_or(Ok(()), Err)
}
