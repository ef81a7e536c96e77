// A copy of the model as the other side, with a planted fault or none, to test the harness itself.

use crate::areas::LONGEST_TAKEN;
use crate::bench::ROOM_DIFFERENCE;
use crate::case::LENGTHS;
use crate::clock::seen_events;
use crate::enable;
use crate::event::{events_of, kind, room_needed, Event, LONGEST};
use crate::expected::Expected;
use crate::image::{flags_of, with_flags, Image};
use crate::margins::{self, Allowances, Report};
use crate::model::{self, Chip, EventAnswer, Job, JobKind, Record};
use crate::programming::{self, Programming};
use crate::protection;
use crate::sfdp::{self, Found, CONTENT};
use crate::side::{
    record_bytes, Answer, Loan, Side, GUARD, MEMORY_AREA, NO_RECORD, OUTPUT_AREA, SFDP_AREA,
};
use crate::writer::{self, Written};
use crate::wrong_report::{self, Happened, Watch};
use crate::{
    text, wrong_deselect, wrong_enable, wrong_reader, wrong_reads, wrong_room, wrong_sectors,
    wrong_stamp, wrong_wait, wrong_writer,
};

/// The faults that have no file of their own, in words; the first five are errors that look right.
const FAULTS: [&str; 30] = [
    "a load is laid down from the page start",
    "a program stores its bytes where cells only lose bits",
    "verdict 9 or 10 clears WEN",
    "a spoiled program replaces a suspended program's load",
    "a read begun while running answers once the job has ended",
    "the last step leaves WEN",
    "many ticks in one event do one step too few",
    "a read stops at the top",
    "a refused run clears a byte of output",
    "a run writes one byte too many",
    "an event that is refused by 6 disarms",
    "a frame's address of 2^24 counts as legal",
    "an event with a kind above 255 is taken modulo 256",
    "a power cut raises WP",
    "a script of 65,536 bytes is refused",
    "a flag of 2 is taken as 1",
    "the last step leaves the job's load behind",
    "an erase begun keeps the old load",
    "a reset without a job keeps a load that is left",
    "a program blanks the part of its load that is done",
    "a 5Ah place is reduced by the memory length",
    "the dummy of a 5Ah frame drives FFh",
    "the data of a 5Ah frame begin at byte 5",
    "the area is read in a circle past its end",
    "after FFFFFFh a 5Ah place is 2^24",
    "a 5Ah frame clears the byte after the area",
    "13 is tested after 2",
    "13 is tested before 1",
    "an area of 257 bytes is taken",
    "the part's own area has zeros for its third header",
];

/// The number of the first fault of the wait, of WEN beside a job, of deselects, of reads of cells,
/// of verdict 9's records, of the room, of the reader, of stamps, of reports, and of the script
/// writer, and the number of the text form's.
const WAIT: usize = FAULTS.len();
const ENABLE: usize = WAIT + wrong_wait::FAULTS.len();
const DESELECTS: usize = ENABLE + wrong_enable::FAULTS.len();
const READS: usize = DESELECTS + wrong_deselect::FAULTS.len();
const SECTORS: usize = READS + wrong_reads::FAULTS.len();
const ROOM: usize = SECTORS + wrong_sectors::FAULTS.len();
const READER: usize = ROOM + wrong_room::FAULTS.len();
const STAMPS: usize = READER + wrong_reader::FAULTS.len();
const REPORTS: usize = STAMPS + wrong_stamp::FAULTS.len();
const WRITER: usize = REPORTS + wrong_report::FAULTS.len();
const TEXT: usize = WRITER + wrong_writer::TEXT;

/// All faults, in words, the script writer's and the text form's last.
pub fn all_faults() -> impl Iterator<Item = &'static str> {
    let files = [
        &wrong_wait::FAULTS[..],
        &wrong_enable::FAULTS,
        &wrong_deselect::FAULTS,
        &wrong_reads::FAULTS,
        &wrong_sectors::FAULTS,
        &wrong_room::FAULTS,
        &wrong_reader::FAULTS,
        &wrong_stamp::FAULTS,
        &wrong_report::FAULTS,
        &wrong_writer::FAULTS,
    ];
    FAULTS.into_iter().chain(files.into_iter().flatten().copied())
}

/// What the words about a fault have to begin with: where the harness's own reckoning has to find
/// it, a difference from the model alone is not enough.
pub fn words_begin(fault: usize) -> &'static str {
    match fault {
        ENABLE..DESELECTS if wrong_enable::is_reckoned(fault - ENABLE) => enable::DIFFERENCE,
        SECTORS..ROOM if wrong_sectors::is_reckoned(fault - SECTORS) => protection::DIFFERENCE,
        ROOM..READER if wrong_room::is_reckoned(fault - ROOM) => ROOM_DIFFERENCE,
        REPORTS..WRITER if wrong_report::is_reckoned(fault - REPORTS) => margins::DIFFERENCE,
        WRITER..TEXT => programming::DIFFERENCE,
        TEXT => programming::TEXT_DIFFERENCE,
        _ => "",
    }
}

/// The copy: its chip, memory and output, and the number of its fault.
pub struct WrongCopy {
    expected: Expected,
    /// The chip's numbers: those that it was given until something is done.
    image: Image,
    memory: Vec<u8>,
    output: Vec<u8>,
    /// The SFDP area with its guards.
    sfdp: Vec<u8>,
    /// A memory whose content does not matter.
    scratch: Vec<u8>,
    /// The chip before the run that is done at present.
    run_began: Option<Chip>,
    /// The last stamp of the run before.
    last_stamp: Option<u16>,
    /// What is carried through a run with a report.
    watch: Option<Watch>,
    fault: Option<usize>,
}

impl WrongCopy {
    /// A copy with a fault of the list, or none.
    pub fn new(fault: Option<usize>) -> WrongCopy {
        let (memory, scratch) = (vec![0; MEMORY_AREA], vec![0; MEMORY_AREA]);
        let (expected, image) = (Expected::fresh(0), Expected::fresh(0).image());
        let (output, sfdp) = (vec![0; OUTPUT_AREA], vec![0; SFDP_AREA]);
        let (run_began, last_stamp, watch) = (None, None, None);
        WrongCopy {
            expected,
            image,
            memory,
            output,
            sfdp,
            scratch,
            run_began,
            last_stamp,
            watch,
            fault,
        }
    }

    /// Whether a fault is the planted one.
    fn has(&self, fault: usize) -> bool {
        self.fault == Some(fault)
    }

    /// Takes the numbers of the chip as it now is, with the fault.
    fn take_numbers(&mut self) {
        self.image = self.expected.image();
        if self.has(19) && self.image.kind == 2 {
            let done = 16 * self.image.done as usize;
            self.image.held[..done].fill(0xFF);
        }
    }

    /// The refusal that the fault puts before the model's, if it does.
    fn early_refusal(&self, Loan { memory, area }: Loan) -> Option<u8> {
        if area <= LONGEST_TAKEN {
            return None;
        }
        let known = LENGTHS.contains(&memory);
        match self.fault {
            Some(26) if known && !self.expected.chip.legal(memory) => Some(2),
            Some(27) => Some(13),
            _ => None,
        }
    }

    /// The length of the area as the copy sees it, with the fault.
    fn area_length(&self, loan: Loan) -> usize {
        match loan.area {
            257 if self.has(28) => LONGEST_TAKEN,
            length => length,
        }
    }

    /// Applies one event, with the fault.
    fn apply(&mut self, loan: Loan, (kind, body): Event) -> Answer {
        if let Some(refusal) = self.early_refusal(loan) {
            return Answer::to_event(refusal, NO_RECORD, 0);
        }
        let (kind, body) = match kind {
            256.. if self.has(12) => (kind % 256, body),
            kind::TICKS if self.has(6) && body > 2 && body < 65_536 => (kind, body - 1),
            _ => (kind, body),
        };
        let (before, area_length) = (self.expected.clone(), self.area_length(loan));
        if self.has(11) && before.chip.frame.address == 1 << 24 {
            self.expected.chip.frame.address = 0;
        }
        let (memory, area) = (&mut self.memory[..loan.memory], &self.sfdp[GUARD..][..area_length]);
        let EventAnswer { refusal, mut record, ticks } = match self.fault {
            Some(fault @ WAIT..ENABLE) => {
                wrong_wait::event(fault - WAIT, &mut self.expected, memory, area, (kind, body))
            }
            Some(fault @ ENABLE..DESELECTS) => {
                let (in_run, expected) = (self.run_began.is_some(), &mut self.expected);
                wrong_enable::event(fault - ENABLE, in_run, expected, memory, area, (kind, body))
            }
            Some(fault @ DESELECTS..READS) => {
                let (fault, expected) = (fault - DESELECTS, &mut self.expected);
                wrong_deselect::event(fault, expected, memory, area, (kind, body))
            }
            _ => self.expected.event(memory, area, (kind, body)),
        };
        if refusal == 0 {
            self.spoil_state(&before.chip, kind, record);
            self.spoil_leftovers(&before, kind, record);
            record = self.spoil_record(&before.chip, record, loan.memory);
            record = self.spoil_area_read(&before.chip, record, loan);
        } else if refusal == 6 && self.has(10) {
            self.expected.chip.armed = false;
            self.image.flags = flags_of(&self.expected.chip).map(u8::from);
        }
        Answer::to_event(refusal, record_bytes(record), ticks)
    }

    /// Plants the faults that are seen in the state or in memory.
    fn spoil_state(&mut self, before: &Chip, kind: u64, record: Record) {
        let program = matches!(before.frame.opcode, 0x02 | 0x0A);
        let (job, ticks) = (before.job.as_ref(), matches!(kind, kind::TICK | kind::TICKS));
        let chip = &mut self.expected.chip;
        match (record, self.fault) {
            (Record::Verdict(2), Some(0)) if program => {
                let offset = before.frame.address as usize % 256;
                if let Some(Job { kind: JobKind::Program(load), .. }) = &mut chip.job {
                    load.rotate_left(offset);
                }
            }
            (Record::Protected { .. } | Record::Verdict(10), Some(2)) => {
                chip.wen = before.job.is_some();
            }
            (Record::Verdict(4), Some(3)) if program && before.suspended => {
                if let Some(Job { kind: JobKind::Program(load), .. }) = &mut chip.job {
                    *load = before.frame.load;
                }
            }
            (Record::None, Some(1)) if ticks => self.store(job),
            (Record::None, Some(5)) if ticks => chip.wen |= job.is_some(),
            (Record::None, Some(13)) if kind == kind::POWER_CUT => chip.wp_high = true,
            _ => {}
        }
    }

    /// Stores a load that had steps to do, up to the step that was done last.
    fn store(&mut self, job: Option<&Job>) {
        let Some(Job { kind: JobKind::Program(load), place, steps_done }) = job else { return };
        let end = self.expected.chip.job.as_ref().map_or(16, |job| job.steps_done);
        let part = 16 * *steps_done as usize..16 * end as usize;
        let page = &mut self.memory[*place as usize..][..256];
        page[part.clone()].copy_from_slice(&load[part]);
    }

    /// Plants the faults that are seen in what a gone job leaves.
    fn spoil_leftovers(&mut self, before: &Expected, kind: u64, record: Record) {
        let Chip { job, frame, .. } = &before.chip;
        let kept = match (record, self.fault) {
            (Record::None, Some(16)) => {
                matches!(kind, kind::TICK | kind::TICKS) && self.expected.chip.job.is_none()
            }
            (Record::Verdict(2), Some(17)) => {
                matches!(frame.opcode, 0x20 | 0xD7 | 0xD8 | 0x60 | 0xC7)
            }
            (Record::Verdict(1), Some(18)) => frame.opcode == 0x99 && job.is_none(),
            _ => false,
        };
        if kept {
            self.expected.left.held = before.image().held;
        }
    }

    /// Plants the faults that are seen in a record.
    fn spoil_record(&mut self, before: &Chip, record: Record, length: usize) -> Record {
        if let Some(fault @ SECTORS..ROOM) = self.fault {
            let run_began = self.run_began.as_ref();
            return wrong_sectors::record(fault - SECTORS, before, run_began, length, record);
        }
        let frame = &before.frame;
        let read = matches!(frame.opcode, 0x03 | 0x0B);
        let late = read && frame.judgement == Some(6) && before.job.is_none();
        if self.has(4) && late && frame.byte_count >= 5 && record == Record::Floating {
            return Record::Driven(self.memory[0]);
        }
        let top = length as u32 - 1;
        if self.has(7) && read && frame.read_place == top && matches!(record, Record::Driven(_)) {
            self.expected.chip.frame.read_place = top;
        }
        record
    }

    /// Plants the faults that are seen in a 5Ah frame.
    fn spoil_area_read(&mut self, before: &Chip, record: Record, loan: Loan) -> Record {
        let frame = &before.frame;
        if frame.opcode != 0x5A || frame.judgement.is_some() {
            return record;
        }
        let driven = matches!(record, Record::Driven(_));
        let dummy = record == Record::Floating && frame.byte_count == 4;
        let (place, next) = (frame.read_place as usize, &mut self.expected.chip.frame.read_place);
        let area = &mut self.sfdp[GUARD..];
        match self.fault {
            Some(20) => *next %= loan.memory as u32,
            Some(21) if dummy => return Record::Driven(0xFF),
            Some(22) if dummy => {
                *next = (*next + 1) % (1 << 24);
                return Record::Driven(area[..loan.area].get(place).copied().unwrap_or(0xFF));
            }
            Some(23) if driven && loan.area > 0 => return Record::Driven(area[place % loan.area]),
            Some(24) if driven && *next == 0 => *next = 1 << 24,
            Some(25) if driven => area[loan.area] = 0,
            _ => {}
        }
        record
    }

    /// The room that a script asks for, with the fault of that number.
    fn wrong_need(&mut self, fault: usize, loan: Loan, script: &[u8]) -> i64 {
        let mut chip = self.expected.chip.clone();
        let (memory, area) = (&mut self.scratch[..loan.memory], &self.sfdp[GUARD..][..loan.area]);
        let mut needed = 0;
        for (kind, body) in seen_events(&events_of(script).0) {
            let record = model::event(&mut chip, memory, area, kind, body).record;
            needed += wrong_room::room_of(fault, (kind, body), record);
        }
        needed
    }

    /// The room that the model is told of: by a fault that counts it, enough or just too little as
    /// that count says.
    fn room_told(&mut self, loan: Loan, script: &[u8], room: usize) -> usize {
        let Some(fault @ ROOM..READER) = self.fault else { return room };
        let enough = self.wrong_need(fault - ROOM, loan, script) <= room as i64;
        room_needed(script) as usize - usize::from(!enough)
    }

    /// Runs the events of a script that the model takes, one by one, with the fault.
    fn run_events(&mut self, loan: Loan, script: &[u8]) -> Answer {
        let stamps = self.stamp_fault().unwrap_or(wrong_stamp::NO_FAULT);
        let mut clock = wrong_stamp::Clock::new(stamps, self.last_stamp);
        let (mut written, mut ticks) = (0, 0);
        self.run_began = Some(self.expected.chip.clone());
        let events = events_of(script).0;
        let mut rest = &events[..];
        while let [first @ (source, _), after @ ..] = rest {
            if let Some(taken) = self.take_read(loan, rest) {
                written += self.write_at(written, &taken.records);
                if self.has(READS + wrong_reads::CLEARS_CLOCK) {
                    clock = wrong_stamp::Clock::new(stamps, None);
                }
                rest = &rest[taken.events..];
                continue;
            }
            for event in clock.seen(*first, &self.expected.chip) {
                let done = self.apply_watched(loan, *source, event);
                written += self.write_at(written, done.record.written());
                ticks += if wrong_stamp::counts(stamps, *source) { done.ticks } else { 0 };
            }
            rest = after;
        }
        (self.run_began, self.last_stamp) = (None, clock.last());
        if self.has(ROOM + wrong_room::WRITTEN) {
            written = room_needed(script) as usize;
        }
        Answer::to_run(0, 0, written as u64, ticks)
    }

    /// Writes records at a place of the output and gives the number of their bytes.
    fn write_at(&mut self, written: usize, records: &[u8]) -> usize {
        self.output[written..written + records.len()].copy_from_slice(records);
        records.len()
    }

    /// Takes a row or a whole frame of a read of cells that events begin with in one go. The copy
    /// without a fault does so too, and rightly: what is found in the others is their fault alone.
    fn take_read(&mut self, loan: Loan, events: &[Event]) -> Option<wrong_reads::Taken> {
        let fault = match self.fault {
            None => wrong_reads::NO_FAULT,
            Some(fault @ READS..SECTORS) => fault - READS,
            _ => return None,
        };
        let memory = &self.memory[..loan.memory];
        let taken = wrong_reads::take(fault, &mut self.expected.chip, memory, events);
        if fault == wrong_reads::LOSES_REPORT && taken.is_some() {
            self.watch = None;
        }
        taken
    }

    /// Applies an event of a run, which has a kind of its own in the script, and lets the watch, if
    /// there is one, follow it.
    fn apply_watched(&mut self, loan: Loan, source: u64, event: Event) -> Answer {
        let Some(mut watch) = self.watch.take() else { return self.apply(loan, event) };
        let before = self.expected.chip.clone();
        let done = self.apply(loan, event);
        let record = match done.record.written() {
            [0x82, verdict] => Record::Verdict(*verdict),
            _ => Record::None,
        };
        let (before, after, worked) = (&before, &self.expected.chip, done.ticks);
        watch.follow(&Happened { source, event, before, after, record, worked });
        self.watch = Some(watch);
        done
    }

    /// The planted fault, if it is one of stamps.
    fn stamp_fault(&self) -> Option<usize> {
        let fault = self.fault.filter(|fault| (STAMPS..REPORTS).contains(fault));
        fault.map(|fault| fault - STAMPS)
    }

    /// The planted fault, if it is one of reports.
    fn report_fault(&self) -> Option<usize> {
        let fault = self.fault.filter(|fault| (REPORTS..WRITER).contains(fault));
        fault.map(|fault| fault - REPORTS)
    }

    /// The number and the offset that the model refuses a run by.
    fn model_refusal(&mut self, loan: Loan, script: &[u8], room: usize) -> (u8, u64) {
        let (mut chip, mut output) = (self.expected.chip.clone(), vec![0; room]);
        let area = &self.sfdp[GUARD..][..self.area_length(loan)];
        let memory = &mut self.scratch[..loan.memory];
        let answer = model::run(&mut chip, memory, area, script, &mut output);
        (answer.refusal, answer.offset as u64)
    }

    /// The number and the offset that a run is refused by, with the fault.
    fn refusal_of(&mut self, loan: Loan, script: &[u8], room: usize) -> (u8, u64) {
        if let Some(refusal) = self.early_refusal(loan) {
            return (refusal, 0);
        }
        let told = self.room_told(loan, script, room);
        if let Some(fault) = self.stamp_fault() {
            let ticks = wrong_stamp::ticks_for_stamps(script);
            let otherwise = self.model_refusal(loan, &ticks, told);
            return wrong_stamp::refusal(fault, self.last_stamp, script, otherwise);
        }
        match self.model_refusal(loan, script, told) {
            (0, _) if self.has(14) && script.len() == LONGEST => (3, 0),
            refusal => refusal,
        }
    }

    /// Runs a script, with the fault.
    fn run_script(&mut self, loan: Loan, script: &[u8], room: usize) -> Answer {
        let (refusal, offset) = self.refusal_of(loan, script, room);
        if refusal != 0 {
            if self.has(8) && refusal >= 4 && room > 0 {
                self.output[room - 1] = 0;
            }
            return Answer::to_run(refusal, offset, 0, 0);
        }
        let answer = self.run_events(loan, script);
        if self.has(9) && (answer.written as usize) < room {
            self.output[answer.written as usize] = 0;
        }
        self.take_numbers();
        answer
    }
}

/// The chip that numbers would mean if a flag of 2 were 1.
fn lenient_chip(chip: &Chip, image: &Image) -> Chip {
    let flags = image.flags.map(|flag| matches!(flag, 1 | 2));
    Chip { level: image.level, ..with_flags(chip, flags) }
}

impl Side for WrongCopy {
    fn fresh(&mut self, status: u8) -> Result<(), String> {
        (self.expected, self.last_stamp) = (Expected::fresh(status), None);
        self.take_numbers();
        Ok(())
    }

    fn put(&mut self, chip: &Chip, image: &Image) -> Result<(), String> {
        self.expected = Expected::lent(chip, image);
        if self.has(15) && image.flags.contains(&2) {
            self.expected.chip = lenient_chip(chip, image);
        }
        match self.fault {
            Some(fault @ WAIT..ENABLE) => {
                wrong_wait::overlook(fault - WAIT, &mut self.expected.chip);
            }
            Some(fault @ ENABLE..DESELECTS) => {
                wrong_enable::overlook(fault - ENABLE, &mut self.expected.chip);
            }
            _ => {}
        }
        self.image = *image;
        Ok(())
    }

    fn image(&self) -> Image {
        self.image
    }

    fn legal(&mut self, length: usize) -> Result<bool, String> {
        Ok(self.expected.chip.legal(length))
    }

    fn event(&mut self, loan: Loan, event: Event, _: bool) -> Result<Answer, String> {
        let stamps = self.stamp_fault().unwrap_or(wrong_stamp::NO_FAULT);
        let event = wrong_stamp::alone(stamps, event, &self.expected.chip);
        let mut answer = self.apply(loan, event);
        if answer.refusal == 0 {
            self.take_numbers();
        }
        if let Some(fault @ SECTORS..ROOM) = self.fault {
            answer.record = wrong_sectors::answered(fault - SECTORS, answer.record);
        }
        Ok(answer)
    }

    fn run(&mut self, loan: Loan, script: &[u8], room: usize) -> Result<Answer, String> {
        Ok(match self.fault {
            Some(fault @ DESELECTS..READS) => {
                let taken = wrong_deselect::script_taken(fault - DESELECTS, script);
                let answer = self.run_script(loan, &taken.bytes, room);
                wrong_deselect::run_answer(fault - DESELECTS, script, &taken, answer)
            }
            Some(fault @ READS..SECTORS) => {
                let room = wrong_reads::room_taken(fault - READS, script, room);
                let taken = wrong_reads::script_taken(fault - READS, script);
                let answer = self.run_script(loan, taken, room);
                wrong_reads::answered(fault - READS, script, answer)
            }
            _ => self.run_script(loan, script, room),
        })
    }

    fn run_report(
        &mut self,
        loan: Loan,
        script: &[u8],
        room: usize,
        allowances: &Allowances,
        report: &mut Report,
    ) -> Result<Answer, String> {
        let over = allowances.iter().any(|allowance| *allowance > margins::LARGEST);
        let otherwise = if over { self.refusal_of(loan, script, room).0 } else { 0 };
        let fault = self.report_fault();
        let watch = Watch::new(fault, &self.expected.chip, allowances, report);
        if wrong_report::refuses(fault, allowances, otherwise) {
            *report = watch.report_after(18);
            return Ok(Answer::to_run(18, 0, 0, 0));
        }
        self.watch = Some(watch);
        let mut answer = self.run(loan, script, room)?;
        if let Some(watch) = self.watch.take() {
            answer.ticks += watch.ticks_more();
            *report = watch.report_after(answer.refusal);
        }
        Ok(answer)
    }

    fn find(&mut self, area: usize, identity: u8) -> Result<Found, String> {
        let area = &self.sfdp[GUARD..GUARD + area];
        Ok(match self.fault {
            Some(fault @ READER..WRITER) => wrong_reader::find(area, identity, fault - READER),
            _ => sfdp::find(area, identity),
        })
    }

    fn own_area(&mut self) -> Result<[u8; CONTENT.len()], String> {
        let mut area = CONTENT;
        if self.has(29) {
            area[0x18..0x20].fill(0);
        }
        Ok(area)
    }

    fn write_program(&mut self, asked: &Programming) -> Result<Written, String> {
        let Programming { memory, address, data, room } = asked;
        Ok(match self.fault {
            Some(fault @ WRITER..TEXT) => {
                wrong_writer::write(fault - WRITER, asked, &mut self.output)
            }
            _ => writer::write_program(*memory, *address, data, &mut self.output[..*room]),
        })
    }

    fn script_of_line(&self, asked: &Programming) -> Result<Vec<u8>, String> {
        if self.has(TEXT) {
            Ok(wrong_writer::script(wrong_writer::TEXT, asked))
        } else {
            text::script_of_text(&asked.line())
        }
    }

    fn memory(&mut self) -> &mut [u8] {
        &mut self.memory
    }

    fn sfdp(&mut self) -> &mut [u8] {
        &mut self.sfdp
    }

    fn output(&mut self) -> &mut [u8] {
        &mut self.output
    }
}
