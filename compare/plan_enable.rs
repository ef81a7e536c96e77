// The planned cases about WEN beside a job: rows of lines that are written out, programs and erases
// in suspension, write disables beside every job, and lent states that are suspended with WEN 0.

use crate::case::{Content, Start, Step, LENGTHS};
use crate::class::{Class, ALL_JOBS, LONG_JOBS};
use crate::enable_coverage::JOB_OPCODES;
use crate::event::{kind, script_of, Event};
use crate::generate::Writer;
use crate::model::Chip;
use crate::plan_stamps::FORMS;
use crate::plan_waits::{
    without_floating, Line, BEGUN, DONE, IDLE, NOTHING, NOT_IN_SUSPENSION, NOT_WHILE_RUNNING,
    POINTLESS, RUNNING, SPOILED, SUSPENDED,
};
use crate::session::{Entry, Outcome, Session, EVERY_ENTRY};
use crate::states;

/// Lines on a fresh part of so many sectors and of a status, with the number of working ticks.
type Row = (usize, u8, &'static [Line], u64);

/// The record of a program or an erase with WEN 0, and the one where sector 1 is protected.
const DISABLED: &[u8] = &[0x82, 8];
const PROTECTED: &[u8] = &[0x83, 1, 1];
/// The records of a status read of one byte at level 1: SUS and WEN, and RDY and WEN.
const SUSPENDED_AT_1: &[u8] = &[0x81, 0x46, 0x82, 0];
const RUNNING_AT_1: &[u8] = &[0x81, 0x07, 0x82, 0];

/// What is written out.
const WRITTEN_OUT: [Row; 8] = [
    (
        // A write disable is turned away as long as there is a job, and WEN stays 1.
        1,
        0x00,
        &[
            ("frame 06", DONE),
            ("frame 02 00 00 00 5A", BEGUN),
            ("frame 04", NOT_WHILE_RUNNING),
            ("frame 05 +1", RUNNING),
            ("frame B0", DONE),
            ("frame 04", NOT_WHILE_RUNNING),
            ("frame 05 +1", RUNNING),
            ("tick", NOTHING),
            ("frame 04", NOT_IN_SUSPENSION),
            ("frame 04 00", NOT_IN_SUSPENSION),
            ("frame 05 +1", SUSPENDED),
            ("frame 30", DONE),
            ("frame 05 +1", RUNNING),
            ("ticks 15", NOTHING),
            ("frame 05 +1", IDLE),
        ],
        16,
    ),
    (
        // So is one that the job is suspended in, before its byte or after it, or ends in.
        1,
        0x00,
        &[
            ("frame 06", DONE),
            ("frame 20 00 00 00", BEGUN),
            ("frame B0", DONE),
            ("select", NOTHING),
            ("send 04", NOTHING),
            ("tick", NOTHING),
            ("deselect", NOT_WHILE_RUNNING),
            ("frame 05 +1", SUSPENDED),
            ("frame 30", DONE),
            ("frame B0", DONE),
            ("select", NOTHING),
            ("tick", NOTHING),
            ("send 04", NOTHING),
            ("deselect", NOT_IN_SUSPENSION),
            ("frame 05 +1", SUSPENDED),
            ("frame 30", DONE),
            ("select", NOTHING),
            ("send 04", NOTHING),
            ("ticks 14", NOTHING),
            ("deselect", NOT_WHILE_RUNNING),
            ("frame 05 +1", IDLE),
        ],
        16,
    ),
    (
        // Every program and erase begins in suspension without a write enable; the last step of the
        // last one clears WEN.
        1,
        0x00,
        &[
            ("frame 06", DONE),
            ("frame 02 00 00 00 5A", BEGUN),
            ("frame B0", DONE),
            ("tick", NOTHING),
            ("frame 0A 00 01 00 5A", BEGUN),
            ("frame B0", DONE),
            ("tick", NOTHING),
            ("frame 20 00 00 00", BEGUN),
            ("frame B0", DONE),
            ("tick", NOTHING),
            ("frame D7 00 10 00", BEGUN),
            ("frame B0", DONE),
            ("tick", NOTHING),
            ("frame D8 00 00 00", BEGUN),
            ("frame B0", DONE),
            ("tick", NOTHING),
            ("frame 60", BEGUN),
            ("frame B0", DONE),
            ("tick", NOTHING),
            ("frame C7", BEGUN),
            ("frame B0", DONE),
            ("tick", NOTHING),
            ("frame 05 +1", SUSPENDED),
            ("frame 02 00 00 00 A5", BEGUN),
            ("frame 05 +1", RUNNING),
            ("ticks 16", NOTHING),
            ("frame 05 +1", IDLE),
            ("frame 02 00 00 00 A5", DISABLED),
        ],
        23,
    ),
    (
        // Those that are spoiled leave the suspended job where it is.
        1,
        0x00,
        &[
            ("frame 06", DONE),
            ("frame D8 00 00 00", BEGUN),
            ("frame B0", DONE),
            ("tick", NOTHING),
            ("frame 02 00 00 00", SPOILED),
            ("frame 0A", SPOILED),
            ("frame 20 00 00", SPOILED),
            ("frame D7 00 00 00 00", SPOILED),
            ("frame D8 00", SPOILED),
            ("frame 60 00", SPOILED),
            ("select", NOTHING),
            ("send C7", NOTHING),
            ("loose 1", SPOILED),
            ("frame 05 +1", SUSPENDED),
            ("frame 30", DONE),
            ("ticks 254", NOTHING),
            ("frame 05 +1", RUNNING),
            ("tick", NOTHING),
            ("frame 05 +1", IDLE),
        ],
        256,
    ),
    (
        // Those over a protected sector are 9, as on an idle part with WEN 1.
        2,
        0x04,
        &[
            ("frame 06", DONE),
            ("frame 02 00 00 00 5A", BEGUN),
            ("frame B0", DONE),
            ("tick", NOTHING),
            ("frame 02 01 00 00 5A", PROTECTED),
            ("frame 0A 01 FF FF 5A", PROTECTED),
            ("frame 20 01 00 00", PROTECTED),
            ("frame D7 01 F0 00", PROTECTED),
            ("frame D8 01 00 00", PROTECTED),
            ("frame 60", PROTECTED),
            ("frame C7", PROTECTED),
            ("frame 05 +1", SUSPENDED_AT_1),
            ("frame 04", NOT_IN_SUSPENSION),
            ("frame D8 00 00 00", BEGUN),
            ("frame 05 +1", RUNNING_AT_1),
        ],
        1,
    ),
    (
        // A reset in suspension takes the job with WEN, and a program then is 8.
        1,
        0x00,
        &[
            ("frame 06", DONE),
            ("frame 60", BEGUN),
            ("frame B0", DONE),
            ("ticks 9", NOTHING),
            ("frame 05 +1", SUSPENDED),
            ("frame 66", DONE),
            ("frame 99", DONE),
            ("frame 05 +1", IDLE),
            ("frame 30", POINTLESS),
            ("frame 0A 00 00 00 5A", DISABLED),
            ("frame 04", DONE),
            ("frame 05 +1", IDLE),
        ],
        1,
    ),
    (
        // So does a power cut.
        1,
        0x00,
        &[
            ("frame 06", DONE),
            ("frame 20 00 00 00", BEGUN),
            ("frame B0", DONE),
            ("tick", NOTHING),
            ("frame 05 +1", SUSPENDED),
            ("power", NOTHING),
            ("frame 05 +1", IDLE),
            ("frame 30", POINTLESS),
            ("frame C7", DISABLED),
        ],
        1,
    ),
    (
        // Without a job a write disable is done; the next job needs a write enable.
        1,
        0x00,
        &[
            ("frame 06", DONE),
            ("frame 04", DONE),
            ("frame 05 +1", IDLE),
            ("frame D7 00 00 00", DISABLED),
            ("frame 06", DONE),
            ("frame D7 00 00 00", BEGUN),
            ("frame 66", DONE),
            ("frame 99", DONE),
            ("frame D8 00 00 00", DISABLED),
            ("frame 06", DONE),
            ("frame D8 00 00 00", BEGUN),
            ("power", NOTHING),
            ("frame 60", DISABLED),
        ],
        0,
    ),
];

/// A good event of every kind that is one alone.
const EVENTS: [Event; 7] = [
    (kind::SELECT, 0),
    (kind::EXCHANGE, 0x5A),
    (kind::DESELECT, 0),
    (kind::TICK, 0),
    (kind::TICKS, 3),
    (kind::WP_LEVEL, 0),
    (kind::POWER_CUT, 0),
];

impl Session<'_> {
    /// WEN beside a job: what is written out, write disables, programs and erases in suspension,
    /// and lent states that are suspended with WEN 0.
    pub fn enable(&mut self) -> Outcome {
        for (sectors, status, lines, ticks) in WRITTEN_OUT {
            for entry in EVERY_ENTRY {
                self.open_fresh(sectors * Chip::SECTOR, status)?;
                self.written_lines(lines, ticks, entry)?;
                self.close()?;
            }
        }
        for class in ALL_JOBS {
            for entry in EVERY_ENTRY {
                self.write_disables(class, entry)?;
            }
        }
        for opcode in JOB_OPCODES {
            for class in LONG_JOBS {
                self.begun_in_suspension(class, opcode)?;
                self.suspended_without_wen(class, opcode)?;
            }
            self.turned_away_in_suspension(opcode)?;
        }
        Ok(())
    }

    /// Write disables at an entry point while a job of a class runs and, if it can be suspended, in
    /// its wait and in its suspension; the status read behind each shows WEN.
    fn write_disables(&mut self, class: Class, entry: Entry) -> Outcome {
        let lines = [("frame 04", NOT_WHILE_RUNNING), ("frame 05 +1", RUNNING)];
        let suspended = [("frame 04", NOT_IN_SUSPENSION), ("frame 05 +1", SUSPENDED)];
        self.open_fresh(LENGTHS[0], 0)?;
        self.calm_run(|writer| writer.begin(class))?;
        self.written_lines(&lines, 0, entry)?;
        if LONG_JOBS.contains(&class) {
            self.calm_run(|writer| writer.frame(&[0xB0]))?;
            self.written_lines(&lines, 0, entry)?;
            self.calm_run(|writer| writer.pass_wait())?;
            self.written_lines(&suspended, 0, entry)?;
        }
        self.close()
    }

    /// A run that a writer writes, with nothing between the bytes of its frames.
    fn calm_run(&mut self, scene: impl FnOnce(&mut Writer)) -> Outcome {
        let events = self.write(|writer| {
            writer.calm = true;
            scene(writer);
        });
        self.one_run(&events)
    }

    /// A frame of an opcode that begins a job in the place of a suspended one of a class, at each
    /// entry point.
    fn begun_in_suspension(&mut self, class: Class, opcode: u8) -> Outcome {
        self.open_fresh(LENGTHS[0], 0)?;
        for entry in EVERY_ENTRY {
            self.calm_run(|writer| writer.suspend_job(class))?;
            let frame = self.write(|writer| {
                writer.calm = true;
                let address = writer.address();
                let bytes = writer.whole_frame(opcode, address);
                writer.frame(&bytes);
            });
            let said = self.said_at(entry, &frame)?;
            self.hold_to(&without_floating(&said.records), BEGUN)?;
        }
        self.close()
    }

    /// Frames of an opcode that are turned away in suspension, at each entry point: with bits
    /// loose, of the wrong length, and over a protected sector.
    fn turned_away_in_suspension(&mut self, opcode: u8) -> Outcome {
        for entry in EVERY_ENTRY {
            let class = self.rng.pick(&LONG_JOBS[..3]);
            self.open_fresh(LENGTHS[1], 0x04)?;
            self.calm_run(|writer| writer.suspend_job(class))?;
            let events = self.write(|writer| {
                writer.calm = true;
                turn_away(writer, opcode);
            });
            let said = self.said_at(entry, &events)?;
            let row = [SPOILED, SPOILED, PROTECTED].concat();
            self.hold_to(&without_floating(&said.records), &row)?;
            self.close()?;
        }
        Ok(())
    }

    /// A lent state with a suspended job of a class and WEN 0, in a frame of an opcode: every event
    /// is refused by 2 at every entry point. With WEN 1 the end of the frame begins a job.
    fn suspended_without_wen(&mut self, class: Class, opcode: u8) -> Outcome {
        let chip = states::suspended_without_wen(&mut self.rng, LENGTHS[0], class, opcode);
        let enabled = Chip { wen: true, ..chip.clone() };
        let edit = self.any_edit();
        self.open(LENGTHS[0], Start::Lent(Box::new(chip), edit.clone()), Content::Blank)?;
        for event in EVENTS {
            for lent in [false, true] {
                let answer = self.step(Step::Event { event, lent, length: None })?;
                self.hold_refusal(&answer, 2, 0)?;
            }
            for allowances in FORMS {
                let answer = self.run_form(script_of(&[event]), 0, allowances)?;
                self.hold_refusal(&answer, 2, 0)?;
            }
        }
        self.close()?;
        self.open(LENGTHS[0], Start::Lent(Box::new(enabled), edit), Content::Blank)?;
        let entry = self.rng.pick(&EVERY_ENTRY);
        let said = self.said_at(entry, &[(kind::DESELECT, 0)])?;
        self.hold_to(&said.records, BEGUN)?;
        self.close()
    }
}

/// Frames of an opcode: with bits loose, of the wrong length, and over a protected sector.
fn turn_away(writer: &mut Writer, opcode: u8) {
    let sector = writer.sector(true).unwrap_or(0);
    let address = writer.address_in(sector);
    let bytes = writer.whole_frame(opcode, address);
    writer.select();
    writer.send(&bytes);
    writer.end_loose();
    writer.frame(&[opcode, 0, 0]);
    writer.frame(&bytes);
}
