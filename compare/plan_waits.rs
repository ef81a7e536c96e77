// The planned cases about the wait of a suspend: rows of lines that are written out, frames that
// the wait ends in, and every event that its tick can come in. What becomes of a job in the wait
// after each of its steps is planned with the other fates.

use crate::case::LENGTHS;
use crate::class::{Class, LONG_JOBS};
use crate::commands::{COMMANDS, UNKNOWN};
use crate::event::{events_of, kind, Event};
use crate::generate::Writer;
use crate::protection::first_record;
use crate::session::{Entry, Outcome, Session, EVERY_ENTRY};
use crate::text;

/// A line of the text form, and the records of its events but for the bytes that float.
pub type Line = (&'static str, &'static [u8]);

/// The records of a frame that is done, of one that begins a job, and of those turned away.
pub const DONE: &[u8] = &[0x82, 1];
pub const BEGUN: &[u8] = &[0x82, 2];
pub const SPOILED: &[u8] = &[0x82, 4];
pub const NOT_WHILE_RUNNING: &[u8] = &[0x82, 6];
pub const NOT_IN_SUSPENSION: &[u8] = &[0x82, 7];
pub const POINTLESS: &[u8] = &[0x82, 11];
/// The records of a status read of one byte: RDY and WEN, SUS and WEN, and none of them.
pub const RUNNING: &[u8] = &[0x81, 0x03, 0x82, 0];
pub const SUSPENDED: &[u8] = &[0x81, 0x42, 0x82, 0];
pub const IDLE: &[u8] = &[0x81, 0x00, 0x82, 0];
/// No record but of bytes that float.
pub const NOTHING: &[u8] = &[];

/// What is written out, each row on a fresh one-sector part, with the number of working ticks.
const WRITTEN_OUT: [(&[Line], u64); 10] = [
    (
        // In the wait the part is running.
        &[
            ("frame 06", DONE),
            ("frame 02 00 00 00 5A", BEGUN),
            ("frame B0", DONE),
            ("frame 05 +1", RUNNING),
            ("frame B0", POINTLESS),
            ("frame B0 00", SPOILED),
            ("frame 30", NOT_WHILE_RUNNING),
            ("frame 03 00 00 00 +1", NOT_WHILE_RUNNING),
            ("wp low", NOTHING),
            ("frame 05 +1", RUNNING),
            ("tick", NOTHING),
            ("frame 05 +1", SUSPENDED),
            ("frame B0", NOT_IN_SUSPENSION),
            ("frame 30", DONE),
            ("frame 05 +1", RUNNING),
        ],
        1,
    ),
    (
        // Of many ticks in one event one works.
        &[
            ("frame 06", DONE),
            ("frame 20 00 00 00", BEGUN),
            ("frame B0", DONE),
            ("ticks 65535", NOTHING),
            ("frame 05 +1", SUSPENDED),
            ("tick", NOTHING),
            ("frame 30", DONE),
            ("ticks 14", NOTHING),
            ("frame 05 +1", RUNNING),
            ("tick", NOTHING),
            ("frame 05 +1", IDLE),
        ],
        16,
    ),
    (
        // The last step ends the job, and nothing is suspended.
        &[
            ("frame 06", DONE),
            ("frame D8 00 00 00", BEGUN),
            ("ticks 255", NOTHING),
            ("frame B0", DONE),
            ("frame 05 +1", RUNNING),
            ("tick", NOTHING),
            ("frame 05 +1", IDLE),
            ("frame 30", POINTLESS),
            ("frame B0", POINTLESS),
        ],
        256,
    ),
    (
        // The same as the first of many ticks in one event.
        &[
            ("frame 06", DONE),
            ("frame 60", BEGUN),
            ("ticks 255", NOTHING),
            ("frame B0", DONE),
            ("ticks 3", NOTHING),
            ("frame 05 +1", IDLE),
        ],
        256,
    ),
    (
        // Frames that the job is suspended in: one judged 6 floats, one of B0h is judged at its end.
        &[
            ("frame 06", DONE),
            ("frame C7", BEGUN),
            ("frame B0", DONE),
            ("select", NOTHING),
            ("send 03 00 00 00 +1", NOTHING),
            ("tick", NOTHING),
            ("send 00 +2", NOTHING),
            ("deselect", NOT_WHILE_RUNNING),
            ("frame 30", DONE),
            ("frame B0", DONE),
            ("select", NOTHING),
            ("send B0", NOTHING),
            ("tick", NOTHING),
            ("deselect", NOT_IN_SUSPENSION),
            ("frame 30", DONE),
            ("frame B0", DONE),
            ("select", NOTHING),
            ("tick", NOTHING),
            ("send B0", NOTHING),
            ("deselect", NOT_IN_SUSPENSION),
            ("frame 05 +1", SUSPENDED),
        ],
        3,
    ),
    (
        // Frames that the job ends in.
        &[
            ("frame 06", DONE),
            ("frame 0A 00 00 00 5A", BEGUN),
            ("ticks 15", NOTHING),
            ("frame B0", DONE),
            ("select", NOTHING),
            ("send B0", NOTHING),
            ("tick", NOTHING),
            ("deselect", POINTLESS),
            ("frame 06", DONE),
            ("frame D7 00 00 00", BEGUN),
            ("ticks 15", NOTHING),
            ("frame B0", DONE),
            ("select", NOTHING),
            ("send 0B 00 00 00 00 +1", NOTHING),
            ("tick", NOTHING),
            ("send 00 +2", NOTHING),
            ("deselect", NOT_WHILE_RUNNING),
            ("frame 05 +1", IDLE),
        ],
        32,
    ),
    (
        // A status read over the tick, and over the one that does the last step.
        &[
            ("frame 06", DONE),
            ("frame 20 00 00 00", BEGUN),
            ("ticks 14", NOTHING),
            ("frame B0", DONE),
            ("select", NOTHING),
            ("send 05 +1", &[0x81, 0x03]),
            ("tick", NOTHING),
            ("send 00", &[0x81, 0x42]),
            ("deselect", &[0x82, 0]),
            ("frame 30", DONE),
            ("frame B0", DONE),
            ("select", NOTHING),
            ("send 05 +1", &[0x81, 0x03]),
            ("tick", NOTHING),
            ("send 00", &[0x81, 0x00]),
            ("deselect", &[0x82, 0]),
        ],
        16,
    ),
    (
        // A reset takes the mark away: the next job runs on.
        &[
            ("frame 06", DONE),
            ("frame 02 00 00 00 5A", BEGUN),
            ("frame B0", DONE),
            ("frame 66", DONE),
            ("frame 99", DONE),
            ("frame 05 +1", IDLE),
            ("frame 06", DONE),
            ("frame 20 00 00 00", BEGUN),
            ("ticks 2", NOTHING),
            ("frame 05 +1", RUNNING),
            ("frame B0", DONE),
        ],
        2,
    ),
    (
        // So does a power cut.
        &[
            ("frame 06", DONE),
            ("frame 20 00 00 00", BEGUN),
            ("tick", NOTHING),
            ("frame B0", DONE),
            ("power", NOTHING),
            ("frame 05 +1", IDLE),
            ("frame 06", DONE),
            ("frame 02 00 00 00 5A", BEGUN),
            ("ticks 2", NOTHING),
            ("frame 05 +1", RUNNING),
        ],
        3,
    ),
    (
        // A job begun in suspension has no mark, and one after a last step in the wait has none.
        &[
            ("frame 06", DONE),
            ("frame 20 00 00 00", BEGUN),
            ("frame B0", DONE),
            ("tick", NOTHING),
            ("frame 02 00 00 00 5A", BEGUN),
            ("ticks 15", NOTHING),
            ("frame 05 +1", RUNNING),
            ("frame B0", DONE),
            ("tick", NOTHING),
            ("frame 06", DONE),
            ("frame 02 00 00 00 5A", BEGUN),
            ("ticks 15", NOTHING),
            ("frame 05 +1", RUNNING),
        ],
        32,
    ),
];

/// The events that a wait's tick can come in.
const TICKS: [Event; 6] = [
    (kind::TICK, 0),
    (kind::TICKS, 1),
    (kind::TICKS, 2),
    (kind::TICKS, 3),
    (kind::TICKS, 256),
    (kind::TICKS, 65_535),
];

/// What comes of a wait while a frame that was begun in it is open: nothing yet, or its tick, which
/// suspends the job or ends it.
#[derive(Clone, Copy, PartialEq)]
enum End {
    Open,
    Suspended,
    Ended,
}

impl Session<'_> {
    /// The wait of a suspend: what is written out, frames that it ends in, and its tick.
    pub fn waits(&mut self) -> Outcome {
        for (lines, ticks) in WRITTEN_OUT {
            for entry in EVERY_ENTRY {
                self.open_fresh(LENGTHS[0], 0)?;
                self.written_lines(lines, ticks, entry)?;
                self.close()?;
            }
        }
        self.frames_over_waits()?;
        for class in LONG_JOBS {
            self.ticks_of_waits(class)?;
        }
        Ok(())
    }

    /// Lines that are written out, at an entry point, on the part as it is.
    pub fn written_lines(&mut self, lines: &[Line], ticks: u64, entry: Entry) -> Outcome {
        let texts: Vec<&str> = lines.iter().map(|(line, _)| *line).collect();
        let script = text::script_of_text(&texts.join("\n")).expect("lines of the text form");
        let said = self.said_at(entry, &events_of(&script).0)?;
        let row: Vec<u8> = lines.iter().flat_map(|(_, records)| *records).copied().collect();
        self.hold_to(&without_floating(&said.records), &row)?;
        self.hold_to(&said.ticks.to_be_bytes(), &ticks.to_be_bytes())
    }

    /// Frames of every opcode, and of bytes that are none, that begin in a wait and end in it, in
    /// the suspension after it, or after the job's last step.
    fn frames_over_waits(&mut self) -> Outcome {
        for command in &COMMANDS[..=UNKNOWN] {
            self.open_fresh(LENGTHS[0], 0)?;
            for end in [End::Open, End::Suspended, End::Ended] {
                let events = self.write(|writer| frame_over_wait(writer, command.opcode, end));
                self.deliver(&events)?;
            }
            self.close()?;
        }
        Ok(())
    }

    /// The tick of a wait in every event that it can come in, at each entry point, before the last
    /// step of a job and as the last.
    fn ticks_of_waits(&mut self, class: Class) -> Outcome {
        self.open_fresh(LENGTHS[0], 0)?;
        for entry in EVERY_ENTRY {
            for event in TICKS {
                for last in [false, true] {
                    let events = self.write(|writer| begin_wait_of(writer, class, last));
                    self.one_run(&events)?;
                    self.said_at(entry, &[event])?;
                }
            }
        }
        self.close()
    }
}

/// Brings the chip to the wait of a job of a class, which does its last step or another.
fn begin_wait_of(writer: &mut Writer, class: Class, last: bool) {
    writer.calm = true;
    writer.begin(class);
    let before_last = writer.steps_left() - 1;
    let any = writer.rng.below(before_last as usize) as u32;
    writer.ticks(if last { before_last } else { any });
    writer.frame(&[0xB0]);
}

/// A frame of an opcode, or of a byte that is none, that begins in a wait, whose end it sees or not.
fn frame_over_wait(writer: &mut Writer, opcode: Option<u8>, end: End) {
    let class = writer.rng.pick(&LONG_JOBS);
    begin_wait_of(writer, class, end == End::Ended);
    let opcode = opcode.unwrap_or_else(|| writer.unknown());
    let address = writer.address_for(opcode);
    let bytes = writer.whole_frame(opcode, address);
    if end == End::Open {
        return writer.frame(&bytes);
    }
    let before = 1 + writer.rng.below(bytes.len());
    writer.split_by_tick(&bytes, before);
    writer.end();
}

/// A row of records without those of bytes that float.
pub fn without_floating(row: &[u8]) -> Vec<u8> {
    let (mut kept, mut rest) = (Vec::new(), row);
    while let Some((record, after)) = first_record(rest) {
        if record != [0x80] {
            kept.extend_from_slice(record);
        }
        rest = after;
    }
    kept
}
