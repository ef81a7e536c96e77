// The protected sectors by the harness's own reckoning, which goes from sector to sector, and the
// records that are held to it.

use crate::class::Class;
use crate::model::{Chip, Record};
use crate::side::{record_bytes, verdict_of, RecordBytes};

/// What the words of a difference that this reckoning finds begin with.
pub const DIFFERENCE: &str = "protected sectors";

/// Whether a sector is protected on a chip: levels 1 to 5 protect the smaller of 2^(level - 1) and
/// all sectors, 6 and 7 all; they are those at the top with TB 0, at the bottom with TB 1.
pub fn protected(chip: &Chip, sector: usize, sectors: usize) -> bool {
    let count = match chip.level {
        0 => 0,
        level @ 1..=5 => sectors.min(1 << (level - 1)),
        _ => sectors,
    };
    if chip.tb {
        sector < count
    } else {
        sector + count >= sectors
    }
}

/// The first and the last of some sectors.
pub type Ends = (usize, usize);

/// The first and the last protected sector of a chip, if one is protected.
pub fn ends(chip: &Chip, length: usize) -> Option<Ends> {
    let sectors = length / Chip::SECTOR;
    let mut found = (0..sectors).filter(|sector| protected(chip, *sector, sectors));
    let first = found.next()?;
    Some((first, found.last().unwrap_or(first)))
}

/// The sector that the address of a chip's frame is in.
pub fn target_sector(chip: &Chip, length: usize) -> usize {
    chip.frame.address as usize % length / Chip::SECTOR
}

/// Whether the target of the job that a chip's frame asks for is protected; a chip erase needs
/// level 0.
fn target_protected(chip: &Chip, length: usize) -> bool {
    match Class::begun_by(chip.frame.opcode) {
        None | Some(Class::WriteStatus) => false,
        Some(Class::Chip) => chip.level != 0,
        Some(_) => protected(chip, target_sector(chip, length), length / Chip::SECTOR),
    }
}

/// The record that is due for an event, from the chip before it and the model's record: which of 2
/// and 9 a verdict is, and what a 9 names, is decided here once more.
pub fn due_record(before: &Chip, length: usize, answered: Record) -> RecordBytes {
    if !matches!(verdict_of(answered), Some(2 | 9)) {
        return record_bytes(answered);
    }
    record_bytes(match ends(before, length) {
        Some((first, last)) if target_protected(before, length) => {
            Record::Protected { first: first as u8, last: last as u8 }
        }
        _ => Record::Verdict(2),
    })
}

/// The first record of a row of them, as far as the row goes, and what comes after it.
pub fn first_record(row: &[u8]) -> Option<(&[u8], &[u8])> {
    let length = match row.first()? {
        0x80 => 1,
        0x83 => 3,
        _ => 2,
    };
    Some(row.split_at(length.min(row.len())))
}

/// Whether a record tells verdict 9, be it in the wrong form.
fn tells_9(record: &[u8]) -> bool {
    matches!(record, [0x83, ..] | [0x82, 9, ..])
}

/// The first record in which a side's row differs from the row that is due, in words, if one of the
/// two tells verdict 9; any other difference is for the comparison with the model to find.
pub fn sectors_difference(side: &str, due: &[u8], found: &[u8]) -> Option<String> {
    let (mut due, mut found) = (due, found);
    while let (Some((wanted, more_due)), Some((record, more_found))) =
        (first_record(due), first_record(found))
    {
        if wanted != record {
            let words = format!("{DIFFERENCE}: {side} {record:02X?} in place of {wanted:02X?}");
            return (tells_9(wanted) || tells_9(record)).then_some(words);
        }
        (due, found) = (more_due, more_found);
    }
    None
}
