// A case: what both sides start from, and the steps that are done to both.

use crate::event::{room_needed, Event};
use crate::image::Edit;
use crate::margins::{Allowances, Report};
use crate::model::Chip;
use crate::programming::Programming;
use crate::side::{GUARD, OUTPUT_AREA};

/// The six memory lengths.
pub const LENGTHS: [usize; 6] = [
    Chip::SECTOR,
    2 * Chip::SECTOR,
    4 * Chip::SECTOR,
    8 * Chip::SECTOR,
    16 * Chip::SECTOR,
    32 * Chip::SECTOR,
];

/// The state that a case starts from.
#[derive(Clone, Debug, PartialEq)]
pub enum Start {
    Fresh(u8),
    Lent(Box<Chip>, Edit),
}

/// What memory holds when a case starts.
#[derive(Clone, Copy, Debug, PartialEq)]
pub enum Content {
    Blank,
    Noise(u64),
}

/// One thing done to both sides.
#[derive(Clone, Debug, PartialEq)]
pub enum Step {
    /// One event alone, by value or through a lent chip record, perhaps over a length not the case's.
    Event { event: Event, lent: bool, length: Option<usize> },
    /// A run, its room being that of refusal 7 and some bytes more or less; with allowances it is
    /// one that carries the report on.
    Run { script: Vec<u8>, spare: i64, length: Option<usize>, allowances: Option<Allowances> },
    /// A report takes the place of the one that the case has carried so far, an empty one at first.
    Report(Report),
    /// The chip that is expected takes the place of the other side's.
    HandOver,
    /// Another SFDP area is lent from here on.
    Lend(Vec<u8>),
    /// The reader is asked for the table of an identity in the area that is lent.
    Find(u8),
    /// The part's own area is asked for.
    OwnArea,
    /// The script writer is asked for a programming's script, which is used if it is not refused.
    Script(Programming, Use),
}

/// What a script that is written is used for.
#[derive(Clone, Copy, Debug, PartialEq)]
pub enum Use {
    /// It is only looked at.
    Read,
    /// What the text form makes of the same programming is held to it.
    HoldText,
    /// It is run, in a byte less than its room and in the exact room.
    Run,
}

/// A start and the steps after it.
#[derive(Clone, Debug)]
pub struct Case {
    pub length: usize,
    pub start: Start,
    pub content: Content,
    /// The SFDP area that is lent at first.
    pub area: Vec<u8>,
    pub steps: Vec<Step>,
}

/// The length of the output that a run is lent.
pub fn room(script: &[u8], spare: i64) -> usize {
    let longest = (OUTPUT_AREA - GUARD) as i64;
    (room_needed(script) + spare).clamp(0, longest) as usize
}
