// Reads of cells that a run takes in one go, the data bytes of a row and whole frames, rightly or
// with one fault, for the copies that do so; and scripts that are taken wrongly behind a row.

use crate::event::{events_of, kind, Event};
use crate::model::{Chip, Frame};
use crate::row_coverage::{read_by, READS};
use crate::side::Answer;

/// The faults, in words: those of where a row is, of how its exchanges are counted, of what it
/// leaves and of where it begins; those of a whole frame's bytes, of when one is taken and of its
/// end; and those of what a run carries over a row and of its script.
pub const FAULTS: [&str; 34] = [
    "a row past the top drives FFh",
    "a row over the top goes on with the second cell",
    "a row up to the top leaves its place there",
    "a place in a row is counted in 16 bits",
    "the bytes of a row are counted in 8 bits",
    "the last of 16 exchanges in a row floats",
    "the last of 64 exchanges in a row has no record",
    "the event behind 16 exchanges is taken for one more",
    "the event behind 64 exchanges is taken for one more",
    "of four exchanges in a row the third may be any event",
    "a row leaves the byte count as it was",
    "a row leaves its place one too far",
    "a row leaves its place where it began",
    "a row leaves its place in the address too",
    "a row that is gone on with begins at the address",
    "a row of 0Bh begins with the dummy",
    "a row of a frame that is judged 6 is driven",
    "a row of a 5Ah frame drives cells",
    "a whole 0Bh frame drives its dummy",
    "a whole frame drives FFh at an address past the length",
    "a whole frame leaves the part armed",
    "a whole frame is answered while a job runs",
    "a whole frame is answered in the wait of a suspend",
    "a whole frame is answered asleep",
    "a whole frame is turned away by 6 in suspension",
    "a whole frame begins anew behind a select in an open one",
    "a whole frame with loose bits gets verdict 4",
    "a whole frame without data has no verdict",
    "a whole frame that is cut short in its header stays open",
    "a row clears the clock of its run",
    "a row loses the report of its run",
    "a script that ends inside an exchange behind 16 others is done without it",
    "what is bad behind 16 exchanges is refused at the first of them",
    "of the room for a row what is over blocks of 4 exchanges is left out",
];

/// The number that is no fault's.
pub const NO_FAULT: usize = FAULTS.len();

/// The faults of what a run carries over a row: its clock, and its report.
pub const CLEARS_CLOCK: usize = 29;
pub const LOSES_REPORT: usize = 30;

/// What is taken in one go: the number of its events, and the bytes of their records.
pub struct Taken {
    pub events: usize,
    pub records: Vec<u8>,
}

/// Takes the whole frame or the row that events begin with, if they do, with the fault of that
/// number.
pub fn take(fault: usize, chip: &mut Chip, memory: &[u8], events: &[Event]) -> Option<Taken> {
    take_frame(fault, chip, memory, events).or_else(|| take_row(fault, chip, memory, events))
}

/// Takes the row of data bytes that events begin with.
fn take_row(fault: usize, chip: &mut Chip, memory: &[u8], events: &[Event]) -> Option<Taken> {
    let (frame, length) = (&mut chip.frame, memory.len());
    let more = usize::from(frame.byte_count).checked_sub(header_of(fault, frame)?)?;
    let count = exchanges_taken(fault, events);
    if count == 0 {
        return None;
    }
    let first = match fault {
        14 if more > 0 => frame.address as usize % length,
        _ => frame.read_place as usize,
    };
    let mut records = Vec::new();
    (0..count).for_each(|at| put_byte(fault, memory, first, at, &mut records));
    if fault != 10 {
        frame.byte_count = 6.min(usize::from(frame.byte_count) + count) as u8;
    }
    let end = first + count;
    frame.read_place = match fault {
        2 if end == length => end,
        3 => in_16_bits(first, end) % length,
        11 => (end + 1) % length,
        12 => first,
        _ => end % length,
    } as u32;
    if fault == 13 {
        frame.address = frame.read_place;
    }
    Some(Taken { events: count, records })
}

/// The bytes before the data of a frame, if it is one that drives cells.
fn header_of(fault: usize, frame: &Frame) -> Option<usize> {
    match (fault, frame.opcode, frame.judgement) {
        (15, 0x0B, None) => Some(4),
        (17, 0x5A, None) => Some(5),
        (16, opcode, Some(6)) | (_, opcode, None) => {
            read_by(u64::from(opcode)).map(|read| READS[read].1)
        }
        _ => None,
    }
}

/// How many exchanges events begin with.
fn exchanges(events: &[Event]) -> usize {
    events.iter().take_while(|event| event.0 == kind::EXCHANGE).count()
}

/// How many events are taken for a row.
fn exchanges_taken(fault: usize, events: &[Event]) -> usize {
    let count = exchanges(events);
    let more = usize::from(count > 0 && count < events.len());
    let is_four = |four: &&[Event]| exchanges(four) >= 2 && exchanges(&four[3..]) == 1;
    match fault {
        7 if count % 16 == 0 => count + more,
        8 if count % 64 == 0 => count + more,
        9 => {
            let fours = 4 * events.chunks_exact(4).take_while(is_four).count();
            fours + exchanges(&events[fours..])
        }
        _ => count,
    }
}

/// A place whose low 16 bits alone have moved on from the first one.
fn in_16_bits(first: usize, place: usize) -> usize {
    first & !0xFFFF | place & 0xFFFF
}

/// Adds the record of a byte of a row, given the row's first cell.
fn put_byte(fault: usize, memory: &[u8], first: usize, at: usize, records: &mut Vec<u8>) {
    let (length, place) = (memory.len(), first + at);
    let byte = match fault {
        0 | 19 if place >= length => 0xFF,
        1 if place >= length => memory[(place + 1) % length],
        3 => memory[in_16_bits(first, place) % length],
        4 => memory[(first + at % 256) % length],
        5 if at % 16 == 15 => return records.push(0x80),
        6 if at % 64 == 63 => return,
        _ => memory[place % length],
    };
    records.extend([0x81, byte]);
}

/// Takes the whole frame of a read that events begin with.
fn take_frame(fault: usize, chip: &mut Chip, memory: &[u8], events: &[Event]) -> Option<Taken> {
    let [(kind::SELECT, _), rest @ ..] = events else { return None };
    let (sent, behind) = rest.split_at(exchanges(rest));
    let read = read_by(sent.first()?.1)?;
    let (kind::DESELECT, bits) = *behind.first()? else { return None };
    if !is_taken(fault, chip) {
        return None;
    }
    let header = if fault == 18 { 4 } else { READS[read].1 };
    let address = sent.iter().take(4).fold(0, |bytes, event| bytes << 8 | event.1 as usize);
    let address = address % (1 << 24);
    let first = if fault == 19 { address } else { address % memory.len() };
    let mut records = vec![0x80; sent.len().min(header)];
    for at in 0..sent.len().saturating_sub(header) {
        match fault {
            24 if chip.suspended => records.push(0x80),
            _ => put_byte(fault, memory, first, at, &mut records),
        }
    }
    records.extend(verdict(fault, chip, bits, sent.len() > header));
    end_frame(fault, chip, sent.len() < header);
    Some(Taken { events: 1 + sent.len() + 1, records })
}

/// Whether a whole frame is taken on a chip.
fn is_taken(fault: usize, chip: &Chip) -> bool {
    let with_job = match chip {
        Chip { job: None, .. } => true,
        Chip { suspended: true, .. } => fault == 24,
        Chip { waiting: true, .. } => fault == 22,
        _ => fault == 21,
    };
    let (selected, asleep) = (chip.selected && fault != 25, chip.deep && fault != 23);
    with_job && !selected && !asleep && (!chip.armed || fault == 20)
}

/// The record of a whole frame's end with some bits loose, given whether it has data.
fn verdict(fault: usize, chip: &Chip, bits: u64, data: bool) -> Vec<u8> {
    match fault {
        24 if chip.suspended => vec![0x82, 6],
        26 if bits > 0 => vec![0x82, 4],
        27 if !data => vec![],
        _ => vec![0x82, 0],
    }
}

/// Leaves a chip behind a whole frame, given whether it was cut short in its header: as it was, or
/// without the frame that it began anew in.
fn end_frame(fault: usize, chip: &mut Chip, cut_short: bool) {
    match fault {
        25 => (chip.selected, chip.frame) = (false, Chip::fresh(0).frame),
        28 => chip.selected = cut_short,
        _ => {}
    }
}

/// How many exchanges the events of a script end with.
fn last_exchanges(script: &[u8]) -> usize {
    let events = events_of(script).0;
    events.iter().rev().take_while(|event| event.0 == kind::EXCHANGE).count()
}

/// The script that is taken in the place of one.
pub fn script_taken(fault: usize, script: &[u8]) -> &[u8] {
    match script {
        [before @ .., 2] if fault == 31 && events_of(script).1 == [2] => {
            if last_exchanges(before) >= 16 {
                before
            } else {
                script
            }
        }
        _ => script,
    }
}

/// The room that a run is taken to have: what a wrong count leaves out is not missed.
pub fn room_taken(fault: usize, script: &[u8], room: usize) -> usize {
    let (events, _) = events_of(script);
    let rows = events.split(|event| event.0 != kind::EXCHANGE);
    let over: usize = rows.map(|row| row.len() % 4).sum();
    if fault == 33 {
        room + 2 * over
    } else {
        room
    }
}

/// The answer to a run of a script, from the right one.
pub fn answered(fault: usize, script: &[u8], answer: Answer) -> Answer {
    let row = last_exchanges(&script[..answer.offset as usize]);
    let moved = fault == 32 && matches!(answer.refusal, 4..=6) && row >= 16;
    Answer { offset: answer.offset - if moved { 2 * row as u64 } else { 0 }, ..answer }
}
