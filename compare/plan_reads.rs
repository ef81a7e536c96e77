// The planned cases about whole reads of cells: rows of lines that are written out, headers that
// are cut short or shared by two scripts, and frames on a chip in every state, beside every other
// frame and beside every job.

use crate::case::LENGTHS;
use crate::class::{Class, ALL_JOBS, LONG_JOBS};
use crate::commands::{COMMANDS, EMPTY, UNSELECTED};
use crate::event::{events_of, frame_of, script_of};
use crate::generate::Writer;
use crate::plan_rows::{begin, exchanges, END};
use crate::plan_stamps::{script_of_lines, FORMS};
use crate::plan_waits::{
    without_floating, Line, BEGUN, DONE, IDLE, NOTHING, NOT_WHILE_RUNNING, POINTLESS, RUNNING,
};
use crate::read_coverage::STATES;
use crate::row_coverage::READS;
use crate::session::{Entry, Outcome, Session};

/// The records of a read's frame that drives nothing, and those of one that drives FFh.
const READ: &[u8] = &[0x82, 0];
const ONE_BLANK: &[u8] = &[0x81, 0xFF, 0x82, 0];
const TWO_BLANK: &[u8] = &[0x81, 0xFF, 0x81, 0xFF, 0x82, 0];
/// The record of a frame that is sent asleep.
const ASLEEP: &[u8] = &[0x82, 5];

/// What is written out, each row on a fresh and blank one-sector part, with the number of working
/// ticks.
const WRITTEN_OUT: [(&[Line], u64); 6] = [
    (
        // After the top comes 0, whatever the address has above it.
        &[
            ("program 00FFFE A1 A2", &[0x82, 1, 0x82, 2]),
            ("program 000000 B1 B2 B3", &[0x82, 1, 0x82, 2]),
            ("frame 03 00 FF FE +2", &[0x81, 0xA1, 0x81, 0xA2, 0x82, 0]),
            ("frame 03 00 FF FF +3", &[0x81, 0xA2, 0x81, 0xB1, 0x81, 0xB2, 0x82, 0]),
            ("frame 0B 00 FF FF 00 +2", &[0x81, 0xA2, 0x81, 0xB1, 0x82, 0]),
            ("frame 03 12 FF FE +1", &[0x81, 0xA1, 0x82, 0]),
            ("frame 0B FF 00 01 00 +2", &[0x81, 0xB2, 0x81, 0xB3, 0x82, 0]),
            ("frame 0B 00 FF FE 00", READ),
            ("frame 03 00 FF FE", READ),
            // A frame goes on where it was, a select in it or not, and is a read to its end.
            ("select", NOTHING),
            ("send 03 00 FF FE +1", &[0x81, 0xA1]),
            ("send 00 +1", &[0x81, 0xA2, 0x81, 0xB1]),
            ("select", NOTHING),
            ("tick", NOTHING),
            ("send 03", &[0x81, 0xB2]),
            ("wp low", NOTHING),
            ("send 00", &[0x81, 0xB3]),
            ("loose 3", READ),
            ("select", NOTHING),
            ("send 0B 00 FF", NOTHING),
            ("send FF", NOTHING),
            ("send 00 +1", &[0x81, 0xA2]),
            ("power", NOTHING),
            ("send 00 +20", NOTHING),
            ("deselect", READ),
        ],
        32,
    ),
    (
        // A read disarms, with a byte of data or without one, loose or not; exchanges without a
        // frame do not.
        &[
            ("frame 66", DONE),
            ("frame 03 00 00 00 +1", ONE_BLANK),
            ("frame 99", POINTLESS),
            ("frame 66", DONE),
            ("frame 0B", READ),
            ("frame 99", POINTLESS),
            ("frame 66", DONE),
            ("select", NOTHING),
            ("send 0B 00 00 00 00 +2", &[0x81, 0xFF, 0x81, 0xFF]),
            ("loose 1", READ),
            ("frame 99", POINTLESS),
            ("frame 66", DONE),
            ("send 03 00 00 00 +2", NOTHING),
            ("frame 99", DONE),
        ],
        0,
    ),
    (
        // While a job runs a read floats to its end, that of the job or not.
        &[
            ("frame 06", DONE),
            ("frame 20 00 00 00", BEGUN),
            ("frame 03 00 00 00 +20", NOT_WHILE_RUNNING),
            ("frame 66", DONE),
            ("frame 0B", NOT_WHILE_RUNNING),
            ("frame 99", POINTLESS),
            ("select", NOTHING),
            ("send 03 00 00 00 +3", NOTHING),
            ("ticks 16", NOTHING),
            ("send 00 +20", NOTHING),
            ("deselect", NOT_WHILE_RUNNING),
            ("frame 03 00 00 00 +2", TWO_BLANK),
        ],
        16,
    ),
    (
        // In the wait of a suspend it floats, and in the suspension it does not.
        &[
            ("frame 06", DONE),
            ("frame 02 00 00 0F 5A A5", BEGUN),
            ("frame B0", DONE),
            ("frame 0B 00 00 0F 00 +2", NOT_WHILE_RUNNING),
            ("tick", NOTHING),
            ("frame 0B 00 00 0F 00 +2", &[0x81, 0x5A, 0x81, 0xFF, 0x82, 0]),
            ("frame 66", DONE),
            ("frame 03 00 00 0F +1", &[0x81, 0x5A, 0x82, 0]),
            ("frame 99", POINTLESS),
            ("frame 30", DONE),
            ("ticks 15", NOTHING),
            ("frame 03 00 00 0F +2", &[0x81, 0x5A, 0x81, 0xA5, 0x82, 0]),
        ],
        16,
    ),
    (
        // Asleep it is turned away.
        &[
            ("frame B9", DONE),
            ("frame 03 00 00 00 +2", ASLEEP),
            ("frame 0B", ASLEEP),
            ("frame AB 00 00 00 +1", &[0x81, 0x88, 0x82, 1]),
            ("frame 0B 00 00 00 00 +1", ONE_BLANK),
        ],
        0,
    ),
    (
        // What looks like a whole read behind a select in an open frame is more of that frame.
        &[
            ("frame 06", DONE),
            ("select", NOTHING),
            ("send 02 00 00 00 A1", NOTHING),
            ("select", NOTHING),
            ("send 03 00 FF 00 00", NOTHING),
            ("deselect", BEGUN),
            ("ticks 16", NOTHING),
            ("frame 03 00 00 00 +3", &[0x81, 0xA1, 0x81, 0x03, 0x81, 0x00, 0x82, 0]),
            ("select", NOTHING),
            ("send 03 00 00 01 +1", &[0x81, 0x03]),
            ("select", NOTHING),
            ("send 0B 00", &[0x81, 0x00, 0x81, 0xFF]),
            ("send 00 00 00", &[0x81, 0x00, 0x81, 0x00, 0x81, 0xFF]),
            ("deselect", READ),
        ],
        16,
    ),
];

/// A row on the same part with stamps, which are none alone: the counter goes on over a row.
const WITH_STAMPS: &[Line] = &[
    ("stamp 65530", NOTHING),
    ("frame 03 00 00 00 +1", ONE_BLANK),
    ("frame 06", DONE),
    ("frame 20 00 00 00", BEGUN),
    ("stamp 9", NOTHING),
    ("frame 05 +1", RUNNING),
    ("stamp 10", NOTHING),
    ("frame 05 +1", IDLE),
];

impl Session<'_> {
    /// Reads of cells: what is written out, headers, and some rows.
    pub fn reads(&mut self) -> Outcome {
        for (lines, ticks) in WRITTEN_OUT {
            self.written_reads(lines, ticks)?;
        }
        self.open_lending(LENGTHS[0], Vec::new())?;
        self.written_lines(WITH_STAMPS, 16, Entry::Run)?;
        self.close()?;
        self.headers(0)?;
        self.headers(1)?;
        self.some_rows()
    }

    /// All rows, and reads in every state of a chip, beside every job and every other frame.
    pub fn all_reads(&mut self) -> Outcome {
        self.all_rows()?;
        for read in 0..READS.len() {
            for state in STATES {
                self.reads_in_state(read, state)?;
            }
        }
        for class in ALL_JOBS {
            self.reads_beside_job(class)?;
        }
        (0..COMMANDS.len()).try_for_each(|row| self.reads_beside(row))
    }

    /// Lines that are written out, as one script, and each line as a script of its own.
    fn written_reads(&mut self, lines: &[Line], ticks: u64) -> Outcome {
        self.open_lending(LENGTHS[0], Vec::new())?;
        self.written_lines(lines, ticks, Entry::Run)?;
        self.close()?;
        self.open_lending(LENGTHS[0], Vec::new())?;
        for (line, records) in lines {
            let said = self.said_at(Entry::Run, &events_of(&script_of_lines(line)).0)?;
            self.hold_to(&without_floating(&said.records), records)?;
        }
        self.close()
    }

    /// Frames that end inside their header or right behind it, and those that the next script goes
    /// on with there.
    fn headers(&mut self, read: usize) -> Outcome {
        self.open_fresh(LENGTHS[0], 0)?;
        let cell = self.rng.below(LENGTHS[0]);
        let begun = begin(read, self.any_address(cell));
        for bytes in 0..begun.len() {
            let (before, after) = begun.split_at(1 + bytes);
            for end in [END, self.loose_end()] {
                self.one_run(&[before, &[end]].concat())?;
            }
            self.one_run(before)?;
            let row = exchanges(self.rng.pick(&[1, 5, 17]));
            self.one_run(&[after, &row, &[END]].concat())?;
        }
        self.close()
    }

    /// Whole frames with headers cut short and with more and more data, on a chip in a state, ended
    /// cleanly and loosely; they stand in the script that leads to the state or in the next.
    fn reads_in_state(&mut self, read: usize, state: &str) -> Outcome {
        self.open_fresh(LENGTHS[0], 0)?;
        let (_, header) = READS[read];
        let with_data = [1, 2, 4, 5, 16, 17, 64, 100].map(|data| header + data);
        for (number, bytes) in (1..=header).chain(with_data).enumerate() {
            let before = self.write(|writer| bring_to(writer, state));
            let cell = self.rng.below(LENGTHS[0]);
            let mut frame = [begin(read, self.any_address(cell)), exchanges(bytes)].concat();
            frame.truncate(1 + bytes);
            frame.push(if number % 2 == 0 { END } else { self.loose_end() });
            if state == SELECTED || self.rng.once_in(2) {
                self.one_run(&before)?;
                self.one_run(&frame[usize::from(state == SELECTED)..])?;
            } else {
                self.one_run(&[before, frame].concat())?;
            }
        }
        self.close()
    }

    /// Both reads between frames of a row of the table of commands, or exchanges without one, on an
    /// idle chip and on one with WEN 1.
    fn reads_beside(&mut self, row: usize) -> Outcome {
        for first in [0x05, 0x06] {
            self.open_fresh(LENGTHS[0], 0)?;
            let mut events = frame_of([first]);
            for read in 0..READS.len() {
                events.extend(self.write(|writer| other_frame(writer, row)));
                let cell = self.rng.below(LENGTHS[0]);
                events.extend(begin(read, self.any_address(cell)));
                events.extend(exchanges(20));
                events.push(END);
            }
            events.extend(self.write(|writer| other_frame(writer, row)));
            self.one_run(&events)?;
            self.close()?;
        }
        Ok(())
    }

    /// Both reads while a job of a class runs, in its wait and its suspension if it has them, and
    /// after its end, in one script of each form.
    fn reads_beside_job(&mut self, class: Class) -> Outcome {
        for allowances in FORMS {
            self.open_fresh(LENGTHS[0], 0)?;
            let events = self.write(|writer| {
                writer.calm = true;
                read_beside_job(writer, class);
            });
            self.run_form(script_of(&events), 0, allowances)?;
            self.close()?;
        }
        Ok(())
    }
}

/// The state of a chip that was selected before a script began.
const SELECTED: &str = STATES[STATES.len() - 1];

/// Brings the chip to a state of the list.
fn bring_to(writer: &mut Writer, state: &str) {
    writer.calm = true;
    match state {
        "running" | "running, armed" => writer.run_some(),
        "in the wait" => writer.begin_wait(),
        "suspended" | "suspended, armed" => writer.suspend_some(),
        "asleep" => writer.sleep(),
        _ => writer.idle(),
    }
    match state {
        "idle" => writer.frame(&[0x04]),
        "WEN 1" => writer.frame(&[0x06]),
        "armed" | "running, armed" | "suspended, armed" => writer.frame(&[0x66]),
        SELECTED => writer.select(),
        _ => {}
    }
}

/// A frame of a row of the table of commands, or some exchanges without one.
fn other_frame(writer: &mut Writer, row: usize) {
    match (row, COMMANDS[row].opcode) {
        (_, Some(opcode)) => {
            let address = writer.address_for(opcode);
            let bytes = writer.whole_frame(opcode, address);
            writer.events.extend(frame_of(bytes));
        }
        (EMPTY, _) => writer.events.extend(frame_of([])),
        (UNSELECTED, _) => writer.events.extend(exchanges(3)),
        _ => {
            let byte = writer.unknown();
            writer.events.extend(frame_of([byte]));
        }
    }
}

/// Both reads, of a few cells.
fn read_both(writer: &mut Writer) {
    for (opcode, _) in READS {
        let address = writer.address();
        let mut bytes = Writer::with_address(opcode, address);
        bytes.resize(24, 0);
        writer.frame(&bytes);
    }
}

/// Both reads beside a job of a class in all that it can be doing, and after it.
fn read_beside_job(writer: &mut Writer, class: Class) {
    writer.begin(class);
    read_both(writer);
    if LONG_JOBS.contains(&class) {
        writer.frame(&[0xB0]);
        read_both(writer);
        writer.pass_wait();
        read_both(writer);
        writer.ticks(5);
    }
    writer.finish_job();
    read_both(writer);
}
