// Records of verdict 9 with one fault, for the wrong copies that have it.

use crate::model::{Chip, Record};
use crate::protection::{ends, target_sector};
use crate::side::RecordBytes;

/// The faults, in words; the last two are seen in the answer to an event alone.
pub const FAULTS: [&str; 12] = [
    "verdict 9 names the protected sectors of the target alone",
    "verdict 9 names the last sector first",
    "verdict 9 names the sector after the last one",
    "verdict 9 names the sector before the first one",
    "verdict 9 keeps the record 82h 09h",
    "a chip erase names all sectors whatever the level",
    "verdict 9 names sectors at the top whatever TB is",
    "verdict 9 names more sectors than a cut part has",
    "a run names the sectors that were protected when it began",
    "the sector before the last protected one is free",
    "an event alone answers verdict 9 by two bytes",
    "an event alone leaves a byte behind a record of two",
];

/// Whether the harness's own reckoning has to find a fault: all but the last, which leaves the
/// records themselves as they are.
pub fn is_reckoned(fault: usize) -> bool {
    fault < FAULTS.len() - 1
}

/// A record with the fault of that number, from the right one, the chip before the event, and the
/// chip before the run that the event is in.
pub fn record(
    fault: usize,
    before: &Chip,
    run_began: Option<&Chip>,
    length: usize,
    right: Record,
) -> Record {
    let Record::Protected { first, last } = right else { return right };
    let (sectors, sector) = ((length / Chip::SECTOR) as u8, target_sector(before, length) as u8);
    let chip_erase = matches!(before.frame.opcode, 0x60 | 0xC7);
    let (first, last) = match fault {
        0 if !chip_erase => (sector, sector),
        1 => (last, first),
        2 => (first, last + 1),
        3 => (first.wrapping_sub(1), last),
        4 => return Record::Verdict(9),
        5 if chip_erase => (0, sectors - 1),
        6 => (sectors - 1 - (last - first), sectors - 1),
        7 if before.tb => (0, sectors_of_real_part(before.level) - 1),
        7 => (sectors.wrapping_sub(sectors_of_real_part(before.level)), sectors - 1),
        8 => run_began
            .and_then(|chip| ends(chip, length))
            .map_or((first, last), |(first, last)| (first as u8, last as u8)),
        9 if !chip_erase && first < sector && sector + 1 == last => return Record::Verdict(2),
        _ => (first, last),
    };
    Record::Protected { first, last }
}

/// The sectors that a level from 1 on protects of the real part.
fn sectors_of_real_part(level: u8) -> u8 {
    match level {
        1..=5 => 1 << (level - 1),
        _ => 32,
    }
}

/// The bytes that an event alone is answered with, with the fault of that number.
pub fn answered(fault: usize, right: RecordBytes) -> RecordBytes {
    match (fault, right) {
        (10, RecordBytes { length: 3, bytes: [mark, first, _] }) => {
            RecordBytes { length: 2, bytes: [mark, first, 0] }
        }
        (11, RecordBytes { length: 2, bytes: [mark, body, _] }) => {
            RecordBytes { length: 2, bytes: [mark, body, body] }
        }
        _ => right,
    }
}
