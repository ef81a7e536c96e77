// What has occurred in the wait of a suspend: after which of the job's steps, in which frames that
// were begun in it, in which events its tick has come, and with which lent states.

use crate::case::LENGTHS;
use crate::class::{Class, LONG_JOBS};
use crate::commands::{COMMANDS, UNKNOWN};
use crate::event::{kind, Event};
use crate::job_table::{all_steps, JobTable, LONGER, WRITE_STATUS};
use crate::model::{Chip, Record};
use crate::tally::{print_cells, Tally};

/// What can occur in a wait after the job's k steps, beside that the job is suspended, which is one
/// of its fates: a suspend begins it, is read as running, turns a second one and a resume away, and
/// the job ends, is reset or is cut.
const MOMENTS: [&str; 7] = ["B0h, 1", "status", "B0h, 11", "30h, 6", "ended", "reset", "cut"];

/// How many different k a moment has to be seen at for a job.
fn wanted(job: usize, moment: &str) -> usize {
    match (job, moment) {
        // B0h is verdict 11 while a write status runs.
        (WRITE_STATUS, _) => 0,
        // The step that ends a job is its last, another one on each of the longer parts.
        (LONGER, "ended") => LENGTHS.len() - 1,
        (_, "ended") => 1,
        // On the longer parts a suspend is sent at every k, and its wait is read; the others some.
        (LONGER, "B0h, 11" | "30h, 6" | "reset" | "cut") => 1,
        _ => all_steps(job),
    }
}

/// What has come of a wait when a frame that was begun in it ends.
const ENDS: [&str; 3] = ["waiting", "sus", "ended"];

/// The number of an end, from the chip before the deselect.
fn end_of(chip: &Chip) -> usize {
    match (chip.waiting, chip.suspended) {
        (true, _) => 0,
        (_, true) => 1,
        _ => 2,
    }
}

/// The verdict that is due for a whole frame of an opcode that was begun in a wait: what is turned
/// away while a job runs keeps that verdict, and a suspend gets what it finds at its end.
fn due_verdict(opcode: Option<u8>, chip: &Chip) -> u8 {
    match opcode {
        None => 3,
        Some(0x05) => 0,
        Some(0x66) => 1,
        Some(0x99) if chip.armed => 1,
        Some(0x99) => 11,
        Some(0xB0) if chip.suspended => 7,
        Some(0xB0) => 11,
        _ => 6,
    }
}

/// The events that the tick of a wait can come in; a stamp of so many ticks only in a run.
const TICKS: [&str; 7] =
    ["04h", "05h of 1", "05h of 2", "05h of more", "stamp of 1", "stamp of 2", "stamp of more"];

/// The row of the first stamps.
const STAMPS: usize = 4;

/// The row of an event of so many ticks, of a kind that has them.
fn ticks_row((kind, ticks): Event) -> usize {
    let more = if kind == kind::STAMP { STAMPS } else { 1 };
    match (kind, ticks) {
        (kind::TICK, _) => 0,
        (_, 1) => more,
        (_, 2) => more + 1,
        _ => more + 2,
    }
}

/// What has to occur, beside the cells of the tables; the first four as `LONG_JOBS` has their jobs.
const SITUATIONS: [&str; 13] = [
    "lent in the wait of a program, taken",
    "lent in the wait of a small sector erase, taken",
    "lent in the wait of a sector erase, taken",
    "lent in the wait of a chip erase, taken",
    "status read over the tick, RDY, then SUS",
    "status read over the last step, RDY, then none",
    "read begun in the wait, floats in suspension",
    "read begun in the wait, floats after the end",
    "B0h spoiled in the wait, 4",
    "B0h after the tick in its frame, judged 7",
    "WP changed in the wait",
    "run that begins in the wait",
    "run that ends in the wait",
];

/// All that has occurred about waits.
pub struct WaitCoverage {
    moments: JobTable,
    /// Frames begun in a wait that got the verdict that is due, by opcode and by what had come of
    /// the wait.
    frames: [[u64; ENDS.len()]; UNKNOWN + 1],
    /// Events of ticks of which the first worked alone, by entry point: those that suspended, and
    /// those that ended the job.
    ticks: [[u64; 6]; TICKS.len()],
    situations: Tally,
    /// The entry point of the present step.
    entry: usize,
    /// The open frame was begun in a wait.
    begun_in_wait: bool,
    /// The tick of a wait fell after the select of the open frame and before its first byte.
    ticked_before_byte: bool,
}

impl WaitCoverage {
    /// Nothing yet.
    pub fn new() -> WaitCoverage {
        WaitCoverage {
            moments: JobTable::new(&MOMENTS),
            frames: [[0; ENDS.len()]; UNKNOWN + 1],
            ticks: [[0; 6]; TICKS.len()],
            situations: Tally::new(&SITUATIONS),
            entry: 0,
            begun_in_wait: false,
            ticked_before_byte: false,
        }
    }

    /// Takes note of a state that is lent.
    pub fn note_lent(&mut self, chip: &Chip, length: usize) {
        let job = chip.job.as_ref().map(Class::of);
        if let Some(number) = LONG_JOBS.iter().position(|class| Some(*class) == job) {
            self.situations.saw(SITUATIONS[number], chip.waiting && chip.legal(length));
        }
    }

    /// Takes note of the entry point of a step.
    pub fn note_step(&mut self, entry: usize) {
        self.entry = entry;
    }

    /// Takes note of a run as a whole.
    pub fn note_run(&mut self, before: &Chip, after: &Chip) {
        self.situations.saw("run that begins in the wait", before.waiting);
        self.situations.saw("run that ends in the wait", after.waiting);
    }

    /// Forgets the frame that has ended.
    pub fn close_frame(&mut self) {
        (self.begun_in_wait, self.ticked_before_byte) = (false, false);
    }

    /// Takes note of an event that begins a wait, or comes in one, after the job's k steps.
    pub fn note_job(
        &mut self,
        before: &Chip,
        event: Event,
        record: Record,
        after: &Chip,
        length: usize,
    ) {
        let Some(job) = &before.job else { return };
        let gone = after.job.is_none() && !after.waiting && !after.suspended && !after.wen;
        let moment = match (event.0, record, before.frame.opcode) {
            (kind::DESELECT, Record::Verdict(1), 0xB0) if after.waiting => "B0h, 1",
            _ if !before.waiting => return,
            (kind::EXCHANGE, Record::Driven(byte), 0x05) if byte & 0x43 == 0x03 => "status",
            (kind::DESELECT, Record::Verdict(11), 0xB0) if after.waiting => "B0h, 11",
            (kind::DESELECT, Record::Verdict(6), 0x30) if after.waiting => "30h, 6",
            (kind::TICK | kind::TICKS, _, _) if gone => "ended",
            (kind::DESELECT, Record::Verdict(1), 0x99) if gone => "reset",
            (kind::POWER_CUT, _, _) if gone => "cut",
            _ => return,
        };
        self.moments.saw(moment, job, length, job.steps_done);
    }

    /// Takes note of ticks, of which so many worked.
    pub fn note_ticks(&mut self, before: &Chip, event: Event, after: &Chip, worked: u64) {
        if before.waiting && worked == 1 && !after.waiting {
            let column = self.entry + 3 * usize::from(after.job.is_none());
            self.ticks[ticks_row(event)][column] += 1;
            self.ticked_before_byte = before.selected && before.frame.byte_count == 0;
        }
    }

    /// Takes note of a WP level.
    pub fn note_wp(&mut self, before: &Chip, after: &Chip) {
        let changed = before.wp_high != after.wp_high;
        self.situations.saw("WP changed in the wait", before.waiting && changed);
    }

    /// Takes note of an exchange, with the status byte that the frame drove before it, if it did.
    pub fn note_exchange(&mut self, before: &Chip, record: Record, last_status: Option<u8>) {
        let frame = &before.frame;
        if frame.byte_count == 0 {
            self.begun_in_wait = before.selected && before.waiting;
        }
        if !self.begun_in_wait || before.waiting {
            return;
        }
        let was_running = last_status.is_some_and(|last| last & 0x41 == 0x01);
        let floats = matches!(frame.opcode, 0x03 | 0x0B) && record == Record::Floating;
        let data = floats && frame.byte_count >= 5;
        let tally = &mut self.situations;
        if before.suspended {
            let shown = matches!(record, Record::Driven(byte) if byte & 0x41 == 0x40);
            tally.saw("status read over the tick, RDY, then SUS", was_running && shown);
            tally.saw("read begun in the wait, floats in suspension", data);
        } else {
            let shown = matches!(record, Record::Driven(byte) if byte & 0x41 == 0x00);
            tally.saw("status read over the last step, RDY, then none", was_running && shown);
            tally.saw("read begun in the wait, floats after the end", data);
        }
    }

    /// Takes note of a deselect and its verdict, with the row of the frame's opcode.
    pub fn note_deselect(&mut self, row: usize, before: &Chip, verdict: u8) {
        let suspend = before.frame.opcode == 0xB0;
        let judged_7 = suspend && before.frame.judgement == Some(7);
        let tally = &mut self.situations;
        tally.saw("B0h spoiled in the wait, 4", suspend && before.waiting && verdict == 4);
        tally.saw(
            "B0h after the tick in its frame, judged 7",
            judged_7 && verdict == 7 && self.ticked_before_byte,
        );
        if self.begun_in_wait && verdict == due_verdict(COMMANDS[row].opcode, before) {
            self.frames[row][end_of(before)] += 1;
        }
    }

    /// Prints the tables and gives the number of cells that are empty, or filled and should not be.
    pub fn report(&self) -> usize {
        let faults = self.report_moments() + self.report_frames() + self.report_ticks();
        println!("\nwaits beside these");
        faults + self.situations.report()
    }

    /// Prints what occurred in waits by the job's steps.
    fn report_moments(&self) -> usize {
        println!("\nwaits of a suspend by job: at how many k, of how many");
        println!("(- cannot occur: B0h is 11 while a write status runs)");
        self.moments.report(wanted)
    }

    /// Prints the frames that were begun in waits.
    fn report_frames(&self) -> usize {
        println!("\nframes begun in the wait with the verdict that is due, by what it has come to");
        println!("{:24}{:>8}{:>8}{:>8}", "", ENDS[0], ENDS[1], ENDS[2]);
        let mut faults = 0;
        for (command, counts) in COMMANDS.iter().zip(&self.frames) {
            print!("{}", command.head());
            faults += print_cells(counts, |_| true);
        }
        faults
    }

    /// Prints the events that the tick of a wait came in.
    fn report_ticks(&self) -> usize {
        println!("\nthe tick of a wait, the one that worked, by entry point");
        println!("{:24}{:>24}{:>24}", "", "suspended after it", "the last step");
        let names = ["event", "lent", "run"].repeat(2);
        let head: String = names.iter().map(|name| format!("{name:>8}")).collect();
        println!("{:24}{head}", "");
        let mut faults = 0;
        for (row, (name, counts)) in TICKS.iter().zip(&self.ticks).enumerate() {
            print!("{name:24}");
            faults += print_cells(counts, |column| row < STAMPS || column % 3 == 2);
        }
        faults
    }
}
