// The wait of a suspend with one fault, for the wrong copies that have it.

use crate::class::Class;
use crate::event::{kind, Event};
use crate::expected::Expected;
use crate::model::{Chip, EventAnswer, Record};

/// The faults, in words: those of its begin and its tick, of what ends it, of the frames in it and
/// those that it ends in, and of its legality.
pub const FAULTS: [&str; 24] = [
    "a suspend works at once",
    "two ticks of one event work in the wait",
    "all ticks of one event work in the wait",
    "the tick of the wait does no step",
    "the tick of the wait is not counted as a working one",
    "a tick inside a frame leaves the wait open",
    "the mark stays when the job is suspended",
    "the last step in the wait leaves the mark",
    "the last step in the wait leaves WEN",
    "the last step in the wait leaves the job suspended",
    "a reset leaves the mark",
    "a power cut leaves the mark",
    "a job begun in suspension has the mark",
    "a second suspend takes the mark away",
    "a resume takes the mark away",
    "a second suspend is done as the first",
    "SUS is shown in the wait",
    "RDY is not shown in the wait",
    "a read begun in the wait answers once the job is suspended",
    "a read begun in the wait is verdict 0 once the job is suspended",
    "a suspend begun in the wait is 11 once the job is suspended",
    "the mark is legal with a suspended job",
    "the mark is legal with a write status",
    "the mark is legal without a job",
];

/// Whether an event is one of ticks.
fn is_ticks((kind, _): Event) -> bool {
    matches!(kind, kind::TICK | kind::TICKS)
}

/// Applies one event, with the fault of that number.
pub fn event(
    fault: usize,
    expected: &mut Expected,
    memory: &mut [u8],
    area: &[u8],
    event: Event,
) -> EventAnswer {
    let before = expected.chip.clone();
    let ticked = before.waiting && is_ticks(event);
    if fault == 3 && ticked {
        (expected.chip.suspended, expected.chip.waiting) = (true, false);
    }
    let mut answer = expected.event(memory, area, event);
    if answer.refusal != 0 {
        expected.chip = before;
        return answer;
    }
    if ticked {
        answer.ticks += overwork(fault, expected, memory, area, event);
        answer.ticks -= u64::from(fault == 4);
        spoil_end(fault, &before, &mut expected.chip);
    }
    spoil_mark(fault, &before, event, answer.record, &mut expected.chip);
    answer.record = wrong_record(fault, &before, answer.record, memory);
    answer
}

/// Lets ticks of an event work that find the job suspended by the first one, with the fault of that
/// number, and gives how many do.
fn overwork(
    fault: usize,
    expected: &mut Expected,
    memory: &mut [u8],
    area: &[u8],
    (kind, body): Event,
) -> u64 {
    let more = match (fault, kind) {
        (1, kind::TICKS) => body.min(2) - 1,
        (2, kind::TICKS) => body - 1,
        _ => 0,
    };
    if more == 0 || !expected.chip.suspended {
        return 0;
    }
    expected.chip.suspended = false;
    let worked = expected.event(memory, area, (kind::TICKS, more)).ticks;
    expected.chip.suspended = expected.chip.job.is_some();
    worked
}

/// Plants the faults of what the tick of a wait leaves: a job that is suspended, or none.
fn spoil_end(fault: usize, before: &Chip, chip: &mut Chip) {
    match (fault, chip.suspended) {
        (5, true) if before.selected => (chip.suspended, chip.waiting) = (false, true),
        (6, true) | (7, false) => chip.waiting = true,
        (8, false) => chip.wen = true,
        (9, false) => {
            chip.job = before.job.clone();
            (chip.suspended, chip.wen) = (true, true);
        }
        _ => {}
    }
}

/// Plants the faults of the events that begin a wait, end it, or leave it alone, ticks aside.
fn spoil_mark(fault: usize, before: &Chip, event: Event, record: Record, chip: &mut Chip) {
    let opcode = before.frame.opcode;
    match (fault, record) {
        (0, Record::Verdict(1)) if opcode == 0xB0 => {
            (chip.suspended, chip.waiting) = (true, false);
        }
        (10, Record::Verdict(1)) if opcode == 0x99 => chip.waiting = before.waiting,
        (11, Record::None) if event.0 == kind::POWER_CUT => chip.waiting = before.waiting,
        (12, Record::Verdict(2)) if before.suspended => chip.waiting = true,
        (13, Record::Verdict(11)) if opcode == 0xB0 => chip.waiting = false,
        (14, Record::Verdict(6)) if opcode == 0x30 => chip.waiting = false,
        _ => {}
    }
}

/// A record with the fault of that number, from the right one and the chip before the event.
fn wrong_record(fault: usize, before: &Chip, right: Record, memory: &[u8]) -> Record {
    let (frame, opcode, waiting) = (&before.frame, before.frame.opcode, before.waiting);
    let late_read = matches!(opcode, 0x03 | 0x0B) && before.suspended;
    let judged_6 = frame.judgement == Some(6);
    match (fault, right) {
        (14, Record::Verdict(6)) if opcode == 0x30 && waiting => Record::Verdict(1),
        (15, Record::Verdict(11)) if opcode == 0xB0 && waiting => Record::Verdict(1),
        (16, Record::Driven(byte)) if opcode == 0x05 && waiting => Record::Driven(byte | 0x40),
        (17, Record::Driven(byte)) if opcode == 0x05 && waiting => Record::Driven(byte & !0x01),
        (18, Record::Floating) if late_read && judged_6 && frame.byte_count >= 5 => {
            Record::Driven(memory[0])
        }
        (19, Record::Verdict(6)) if late_read => Record::Verdict(0),
        (20, Record::Verdict(7)) if opcode == 0xB0 && frame.judgement.is_none() => {
            Record::Verdict(11)
        }
        _ => right,
    }
}

/// Takes the mark from a lent chip that the fault of that number takes as legal with it.
pub fn overlook(fault: usize, chip: &mut Chip) {
    let job = chip.job.as_ref().map(Class::of);
    chip.waiting &= match fault {
        21 => !chip.suspended,
        22 => job != Some(Class::WriteStatus),
        23 => job.is_some(),
        _ => true,
    };
}
