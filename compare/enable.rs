// WEN beside a job, and the verdicts that there are, by the harness's own reckoning: what cannot
// be, though both sides agree on it.

use crate::commands::VERDICTS;
use crate::image::Image;
use crate::model::{Chip, Record};
use crate::protection::first_record;

/// What the words of a difference that this reckoning finds begin with.
pub const DIFFERENCE: &str = "cannot be";

/// The bits of a status byte that tell of a job, running or suspended, and the one that it means.
const RDY_AND_SUS: u8 = 0x41;
const WEN: u8 = 0x02;

/// The opcode of a status read.
const READ_STATUS: u8 = 0x05;

/// What is known of the moment of a record, from the chip before its event.
#[derive(Clone, Copy)]
pub struct Moment {
    /// There is a job, and so WEN is 1.
    pub job: bool,
    /// A byte that is driven is the status.
    pub status: bool,
}

impl Moment {
    /// The moment of an event, if it has a record.
    pub fn of(before: &Chip, record: Record) -> Option<Moment> {
        let (job, status) = (before.job.is_some(), before.frame.opcode == READ_STATUS);
        (record != Record::None).then_some(Moment { job, status })
    }
}

/// What a record tells that cannot be, in words; where its moment is not known, only a verdict that
/// there is none of.
fn record_words(record: &[u8], moment: Option<&Moment>) -> Option<String> {
    let (job, status) = moment.map_or((false, false), |moment| (moment.job, moment.status));
    match record {
        [0x82, verdict] if !VERDICTS.contains(verdict) => {
            Some(format!("verdict {verdict}: there is none"))
        }
        [0x82, 8] if job => Some("verdict 8 with a job: it means WEN 1".to_string()),
        [0x81, byte] if status && byte & RDY_AND_SUS != 0 && byte & WEN == 0 => {
            Some(format!("status {byte:02X}h: a job means WEN 1"))
        }
        _ => None,
    }
}

/// The first record of a side's row that tells what cannot be, in words, given the moments of the
/// records that are due.
fn row_difference(side: &str, row: &[u8], moments: &[Moment]) -> Option<String> {
    let (mut rest, mut moments) = (row, moments.iter());
    while let Some((record, after)) = first_record(rest) {
        if let Some(words) = record_words(record, moments.next()) {
            return Some(format!("{DIFFERENCE}: {side}{words}"));
        }
        rest = after;
    }
    None
}

/// What a chip has beside WEN 0 that means WEN 1, in words: SUS, or a job.
fn without_wen(chip: &Image) -> Option<&'static str> {
    let [_, _, wen, suspended, ..] = chip.flags;
    match (wen, suspended, chip.kind) {
        (1.., ..) | (0, 0, 0) => None,
        (0, 0, _) => Some("a job with WEN 0"),
        _ => Some("SUS 1 with WEN 0"),
    }
}

/// What a side says of its chip's legality, in words, if it takes a job with WEN 0 as legal.
pub fn legal_difference(side: &str, legal: bool, chip: &Image) -> Option<String> {
    let words = without_wen(chip).filter(|_| legal)?;
    Some(format!("{DIFFERENCE}: {side}chip is legal, {words}"))
}

/// What has come of an event or a run that cannot be, in words: in a side's records, or in its chip
/// if it did not refuse.
pub fn difference(
    side: &str,
    refusal: u8,
    row: &[u8],
    moments: &[Moment],
    chip: &Image,
) -> Option<String> {
    row_difference(side, row, moments).or_else(|| {
        let words = without_wen(chip).filter(|_| refusal == 0)?;
        Some(format!("{DIFFERENCE}: {side}chip has {words}"))
    })
}
