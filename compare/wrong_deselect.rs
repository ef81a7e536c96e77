// Deselects with one fault, for the wrong copies that have it: in what their body means, in which
// bodies and kinds are taken, in how a script is read, and in what loose bits do.

use crate::deselect_coverage::OLD_KIND;
use crate::event::{body_length, kind, Event};
use crate::expected::Expected;
use crate::model::{Chip, EventAnswer, Record};
use crate::side::{verdict_of, Answer};

/// The faults, in words: those of the body, of the bodies and the kinds that are taken, of a
/// script, and of the verdict and the chip after loose bits.
pub const FAULTS: [&str; 27] = [
    "a deselect on the byte boundary is taken as loose",
    "a deselect of 1 bit is taken as on the byte boundary",
    "a deselect of an even number of bits is taken as on the byte boundary",
    "a deselect of 8 bits is taken, alone",
    "a deselect of 8 bits is taken, in a run",
    "a deselect of 7 bits is refused by 6",
    "a deselect of too many bits is refused by 5",
    "of a deselect's body the low byte is looked at",
    "of a deselect's body the low 32 bits are looked at",
    "a deselect's body from 2^63 on is taken, alone",
    "a deselect's body from 128 on is taken, in a run",
    "08h is still a loose deselect, alone",
    "08h is still a loose deselect, in a run",
    "08h is still known, but with no body in its range",
    "a deselect's body is not counted in a script",
    "a script that ends with 03h is done as if the body were 0",
    "a script that ends with 03h is refused by 6",
    "a script that ends with 03h is refused at its end",
    "loose bits of a read give verdict 4",
    "loose bits of a judged frame give verdict 4",
    "loose bits of an empty frame give verdict 4",
    "loose bits without a frame give verdict 4",
    "loose bits are tested after WEN",
    "a frame with loose bits gets verdict 4 and is done all the same",
    "a frame with loose bits does not disarm",
    "an empty frame with loose bits disarms",
    "loose bits leave the frame open",
];

/// A deselect that is refused by 6.
const REFUSED: Event = (kind::DESELECT, 8);

/// The event that is taken in the place of one, with the fault of that number.
fn event_taken(fault: usize, event: Event) -> Event {
    match (fault, event) {
        (11, (OLD_KIND, bits @ 1..=7)) => (kind::DESELECT, bits),
        (13, (OLD_KIND, _)) => REFUSED,
        (_, (kind::DESELECT, bits)) => (kind::DESELECT, bits_taken(fault, bits)),
        _ => event,
    }
}

/// The body that is taken in the place of a deselect's, with the fault of that number.
fn bits_taken(fault: usize, bits: u64) -> u64 {
    match (fault, bits) {
        (0, 0) => 1,
        (1, 1) | (2, 2 | 4 | 6) => 0,
        (3, 8) => 7,
        (5, 7) => 8,
        (7, _) => bits & 0xFF,
        (8, _) => bits & 0xFFFF_FFFF,
        (9, _) if bits >> 63 == 1 => 7,
        _ => bits,
    }
}

/// Applies one event, with the fault of that number.
pub fn event(
    fault: usize,
    expected: &mut Expected,
    memory: &mut [u8],
    area: &[u8],
    event: Event,
) -> EventAnswer {
    let before = expected.clone();
    let (kind, bits) = event_taken(fault, event);
    let mut answer = expected.event(memory, area, (kind, bits));
    if kind != kind::DESELECT || bits == 0 {
        return answer;
    }
    if answer.refusal != 0 {
        answer.refusal -= u8::from(fault == 6 && answer.refusal == 6);
        return answer;
    }
    let mut clean = before.clone();
    let clean_record = clean.event(memory, area, (kind::DESELECT, 0)).record;
    if fault == 23 {
        *expected = clean;
    }
    spoil_chip(fault, &before.chip, &mut expected.chip);
    answer.record = wrong_record(fault, &before.chip, answer.record, clean_record);
    answer
}

/// Plants the faults of the chip after a deselect with loose bits.
fn spoil_chip(fault: usize, before: &Chip, chip: &mut Chip) {
    let (armed, empty) = (before.armed, before.frame.byte_count == 0);
    match fault {
        24 => chip.armed |= armed,
        25 if before.selected && empty => chip.armed = false,
        26 => *chip = before.clone(),
        _ => {}
    }
}

/// The record of a deselect with loose bits with the fault of that number, from the right one, the
/// chip before it, and the record that no loose bits would have given.
fn wrong_record(fault: usize, before: &Chip, right: Record, clean: Record) -> Record {
    let (selected, empty) = (before.selected, before.frame.byte_count == 0);
    let verdict = verdict_of(right);
    let spoiled = match fault {
        18 => selected && !empty && verdict == Some(0),
        19 => matches!(verdict, Some(3 | 5 | 6 | 7)),
        20 => selected && empty,
        21 => !selected,
        _ => false,
    };
    match (fault, clean) {
        _ if spoiled => Record::Verdict(4),
        (22, Record::Verdict(8)) => clean,
        _ => right,
    }
}

/// A script as a copy takes it: its bytes, and the places of those that the script itself has not.
pub struct Taken {
    pub bytes: Vec<u8>,
    added: Vec<usize>,
}

/// The script that is taken in the place of one, with the fault of that number.
pub fn script_taken(fault: usize, script: &[u8]) -> Taken {
    let (mut bytes, mut added, mut rest) = (Vec::new(), Vec::new(), script);
    while let Some(kind) = rest.first() {
        let body = match (fault, u64::from(*kind)) {
            (12 | 13, OLD_KIND) => 1,
            (14, kind::DESELECT) => 0,
            (_, kind) => body_length(kind).unwrap_or(rest.len()),
        };
        let (event, after) = rest.split_at(rest.len().min(1 + body));
        bytes.extend(bytes_taken(fault, event));
        if bytes.len() + after.len() > script.len() + added.len() {
            added.push(bytes.len() - 1);
        }
        rest = after;
    }
    Taken { bytes, added }
}

/// The bytes that are taken in the place of those of an event in a script, with the fault of that
/// number; at the script's end some may be missing.
fn bytes_taken(fault: usize, event: &[u8]) -> Vec<u8> {
    match (fault, event) {
        (4, [3, 8]) | (10, [3, 128..=255]) => vec![3, 7],
        (5, [3, 7]) => vec![3, 8],
        (12, [8, bits @ 1..=7]) => vec![3, *bits],
        (13, [8, _]) => vec![3, 8],
        (13, [8]) => vec![3],
        (14 | 15, [3]) => vec![3, 0],
        _ => event.to_vec(),
    }
}

/// The answer to a run with the fault of that number, from the one to the script that was taken in
/// the place of its own.
pub fn run_answer(fault: usize, script: &[u8], taken: &Taken, answer: Answer) -> Answer {
    let at = answer.offset as usize;
    let offset = at - taken.added.iter().filter(|added| **added < at).count();
    let (refusal, offset) = match (fault, answer.refusal, script.get(offset)) {
        (6, 6, Some(3)) => (5, offset),
        (16, 4, Some(3)) => (6, offset),
        (17, 4, Some(3)) => (4, script.len()),
        (_, refusal, _) => (refusal, offset),
    };
    Answer { refusal, offset: offset as u64, ..answer }
}
