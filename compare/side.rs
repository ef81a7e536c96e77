// The side that is held to the model: what it can be asked, and the areas that it holds.

use crate::event::Event;
use crate::image::Image;
use crate::margins::{Allowances, Report};
use crate::model::{Chip, Record};
use crate::programming::Programming;
use crate::sfdp::{Found, CONTENT};
use crate::text;
use crate::writer::Written;

/// Bytes of memory that both sides hold: 64 sectors, and one more that nothing may touch.
pub const MEMORY_AREA: usize = 65 * Chip::SECTOR;
/// Bytes of output that both sides hold: more than enough for a script of 131,072 bytes, which asks
/// for most room where all of it is deselects, and a guard.
pub const OUTPUT_AREA: usize = 7 * Chip::SECTOR;
/// Bytes after a lent buffer that are compared as well; the SFDP area has as many before it.
pub const GUARD: usize = 64;
/// The longest SFDP area that is lent.
pub const LONGEST_AREA: usize = 300;
/// Bytes of the SFDP area that both sides hold, those before and after what is lent included.
pub const SFDP_AREA: usize = GUARD + LONGEST_AREA + GUARD;

/// How many bytes of memory and of the SFDP area are lent to an event or a run.
#[derive(Clone, Copy)]
pub struct Loan {
    pub memory: usize,
    pub area: usize,
}

/// The bytes of the longest record, that of verdict 9.
pub const LONGEST_RECORD: usize = 3;

/// A record as bytes: how many it has, and all places for them, 0 where it has none.
#[derive(Clone, Copy, Debug, PartialEq, Eq)]
pub struct RecordBytes {
    pub length: u8,
    pub bytes: [u8; LONGEST_RECORD],
}

impl RecordBytes {
    /// The bytes that a run writes for the record.
    pub fn written(&self) -> &[u8] {
        &self.bytes[..LONGEST_RECORD.min(usize::from(self.length))]
    }
}

/// No record.
pub const NO_RECORD: RecordBytes = RecordBytes { length: 0, bytes: [0; LONGEST_RECORD] };

/// The bytes of a record, the same in the answer to an event and in the output of a run.
pub fn record_bytes(record: Record) -> RecordBytes {
    let (length, bytes) = match record {
        Record::None => return NO_RECORD,
        Record::Floating => (1, [0x80, 0, 0]),
        Record::Driven(byte) => (2, [0x81, byte, 0]),
        Record::Verdict(verdict) => (2, [0x82, verdict, 0]),
        Record::Protected { first, last } => (3, [0x83, first, last]),
    };
    RecordBytes { length, bytes }
}

/// The verdict that a record tells, if it is a deselect's.
pub fn verdict_of(record: Record) -> Option<u8> {
    match record {
        Record::Verdict(verdict) => Some(verdict),
        Record::Protected { .. } => Some(9),
        _ => None,
    }
}

/// The answer to an event or a run; what only the other one has is no record or 0.
#[derive(Clone, Copy, Debug, PartialEq, Eq)]
pub struct Answer {
    pub refusal: u8,
    pub record: RecordBytes,
    pub offset: u64,
    pub written: u64,
    pub ticks: u64,
}

impl Answer {
    /// The answer to an event.
    pub fn to_event(refusal: u8, record: RecordBytes, ticks: u64) -> Answer {
        Answer { refusal, record, offset: 0, written: 0, ticks }
    }

    /// The answer to a run.
    pub fn to_run(refusal: u8, offset: u64, written: u64, ticks: u64) -> Answer {
        Answer { refusal, record: NO_RECORD, offset, written, ticks }
    }
}

/// One side that is held to the model; an error says that it could not answer.
pub trait Side {
    /// Makes the chip fresh from a status byte.
    fn fresh(&mut self, status: u8) -> Result<(), String>;
    /// Puts a chip in the place of the present one: the model's, with the numbers that it gets.
    fn put(&mut self, chip: &Chip, image: &Image) -> Result<(), String>;
    /// The chip as numbers.
    fn image(&self) -> Image;
    /// Whether the side says that its chip is legal.
    fn legal(&mut self, length: usize) -> Result<bool, String>;
    /// Applies one event alone, by value or through a lent chip record.
    fn event(&mut self, loan: Loan, event: Event, lent: bool) -> Result<Answer, String>;
    /// Runs a script with that much room for its output.
    fn run(&mut self, loan: Loan, script: &[u8], room: usize) -> Result<Answer, String>;
    /// Runs a script with that much room for its output, and carries a report on.
    fn run_report(
        &mut self,
        loan: Loan,
        script: &[u8],
        room: usize,
        allowances: &Allowances,
        report: &mut Report,
    ) -> Result<Answer, String>;
    /// Finds the table of an identity in an SFDP area of that length.
    fn find(&mut self, area: usize, identity: u8) -> Result<Found, String>;
    /// The part's own SFDP area.
    fn own_area(&mut self) -> Result<[u8; CONTENT.len()], String>;
    /// Writes the script of a programming to the output, in the room that it is given there.
    fn write_program(&mut self, asked: &Programming) -> Result<Written, String>;
    /// What the text form makes of a programming's line. Its tool is no part of a side, but a copy
    /// may have a fault in its place.
    fn script_of_line(&self, asked: &Programming) -> Result<Vec<u8>, String> {
        text::script_of_text(&asked.line())
    }
    /// The whole memory area.
    fn memory(&mut self) -> &mut [u8];
    /// The whole SFDP area; what is lent of it stands after the first guard.
    fn sfdp(&mut self) -> &mut [u8];
    /// The whole output area.
    fn output(&mut self) -> &mut [u8];
}
