// WEN beside a job, and the verdicts, with one fault, for the wrong copies that have it; and what
// both sides could agree on, though it cannot be.

use crate::event::{kind, Event};
use crate::expected::Expected;
use crate::model::{Chip, EventAnswer, Job, JobKind, Record};

/// The faults, in words: those of verdicts, of what clears WEN beside a job, of the status, of the
/// states that are legal, and of what leaves WEN without the job.
pub const FAULTS: [&str; 16] = [
    "a program or an erase begun in suspension is told 12",
    "a program or an erase begun in suspension is told 12, in a run",
    "a write disable in suspension is told 12",
    "a program or an erase in suspension is told 8",
    "a write disable in suspension is done",
    "a write disable in the wait of a suspend is done",
    "a write disable while a job runs is done",
    "the tick that suspends a job clears WEN",
    "a resume clears WEN",
    "a job begun in suspension clears WEN",
    "the status hides WEN in suspension",
    "the status hides WEN in suspension, in a run",
    "a suspended state with WEN 0 is legal",
    "a suspended state with WEN 0 is not refused by 2, and a program or an erase there is told 12",
    "a reset in suspension leaves WEN",
    "a power cut in suspension leaves WEN",
];

/// Whether the harness's own reckoning has to find a fault: all but the last two, which leave what
/// can be.
pub fn is_reckoned(fault: usize) -> bool {
    fault < FAULTS.len() - 2
}

/// Applies one event, in a run or alone, with the fault of that number.
pub fn event(
    fault: usize,
    in_run: bool,
    expected: &mut Expected,
    memory: &mut [u8],
    area: &[u8],
    event: Event,
) -> EventAnswer {
    let before = expected.clone();
    if fault == 13 && before.chip.suspended && !before.chip.wen {
        return answer_without_wen(expected, memory, area, event);
    }
    let mut answer = expected.event(memory, area, event);
    if answer.refusal == 0 {
        answer.record = wrong_record(fault, in_run, &before.chip, answer.record);
        spoil(fault, &before, event, answer.record, expected);
    }
    answer
}

/// The answer in a state that is suspended with WEN 0: 12 where a job would begin with WEN 1, and
/// otherwise the refusal.
fn answer_without_wen(
    expected: &mut Expected,
    memory: &mut [u8],
    area: &[u8],
    event: Event,
) -> EventAnswer {
    let mut enabled = expected.clone();
    enabled.chip.wen = true;
    match enabled.event(memory, area, event) {
        begun @ EventAnswer { record: Record::Verdict(2), .. } => {
            EventAnswer { record: Record::Verdict(12), ..begun }
        }
        _ => expected.event(memory, area, event),
    }
}

/// Whether a write disable is done that has to be turned away, with the fault of that number.
fn disables(fault: usize, Chip { job, suspended, waiting, frame, .. }: &Chip) -> bool {
    let here = match fault {
        4 => *suspended,
        5 => *waiting,
        6 => job.is_some() && !suspended && !waiting,
        _ => false,
    };
    here && frame.opcode == 0x04 && frame.byte_count == 1
}

/// A record with the fault of that number, from the right one and the chip before the event.
fn wrong_record(fault: usize, in_run: bool, before: &Chip, right: Record) -> Record {
    let (opcode, suspended) = (before.frame.opcode, before.suspended);
    match (fault, right) {
        (1 | 11, _) if !in_run => right,
        (0 | 1, Record::Verdict(2)) if suspended => Record::Verdict(12),
        (2, Record::Verdict(7)) if opcode == 0x04 => Record::Verdict(12),
        (3, Record::Verdict(2)) if suspended => Record::Verdict(8),
        (_, Record::Verdict(6 | 7)) if disables(fault, before) => Record::Verdict(1),
        (10 | 11, Record::Driven(byte)) if opcode == 0x05 && suspended => {
            Record::Driven(byte & !0x02)
        }
        _ => right,
    }
}

/// Plants the faults that are seen in the chip, from the chip before the event and the record.
fn spoil(fault: usize, before: &Expected, event: Event, record: Record, after: &mut Expected) {
    let (opcode, suspended) = (before.chip.frame.opcode, before.chip.suspended);
    let chip = &mut after.chip;
    match (fault, record) {
        (3, Record::Verdict(8)) if suspended => {
            (chip.job, chip.suspended) = (before.chip.job.clone(), true);
            after.left = before.left;
        }
        (_, Record::Verdict(1)) if disables(fault, &before.chip) => chip.wen = false,
        (7, Record::None) if before.chip.waiting => chip.wen &= !chip.suspended,
        (8, Record::Verdict(1)) if opcode == 0x30 => chip.wen = false,
        (9, Record::Verdict(2)) if suspended => chip.wen = false,
        (14, Record::Verdict(1)) if opcode == 0x99 => chip.wen |= suspended,
        (15, Record::None) if event.0 == kind::POWER_CUT => chip.wen |= suspended,
        _ => {}
    }
}

/// Gives WEN to a lent chip that the fault of that number takes as legal without it.
pub fn overlook(fault: usize, chip: &mut Chip) {
    chip.wen |= fault == 12 && chip.suspended;
}

/// What both sides could agree on: its words, the chip that they have, the row of records that they
/// say, and whether it is one that cannot be.
pub type Agreement = (&'static str, Chip, &'static [u8], bool);

/// A chip with a job, running or suspended.
fn with_job(suspended: bool, wen: bool) -> Chip {
    let job = Job { kind: JobKind::SmallSectorErase, place: 0, steps_done: 1 };
    Chip { job: Some(job), suspended, wen, ..Chip::fresh(0) }
}

/// What cannot be, and what is like it and can be.
pub fn agreements() -> Vec<Agreement> {
    let rows: [(&str, &[u8], bool); 9] = [
        ("verdict 12", &[0x82, 12], true),
        ("verdict 12 behind a byte that floats", &[0x80, 0x82, 12], true),
        ("verdict 12 behind a byte that is driven", &[0x81, 0x82, 0x82, 12], true),
        ("verdict 12 behind a verdict 9", &[0x83, 0, 12, 0x82, 12], true),
        ("verdict 255", &[0x82, 255], true),
        ("verdict 11", &[0x82, 11], false),
        ("verdict 9, sectors 0 to 12", &[0x83, 0, 12], false),
        ("0Ch driven", &[0x81, 12], false),
        ("82h driven, then verdict 0", &[0x81, 0x82, 0x82, 0], false),
    ];
    let chips = [
        ("a suspended chip with WEN 0", with_job(true, false), true),
        ("a chip with a job that runs and WEN 0", with_job(false, false), true),
        ("a suspended chip with WEN 1", with_job(true, true), false),
        ("a chip without a job and with WEN 0", Chip::fresh(0), false),
    ];
    let of_rows = rows.into_iter().map(|(words, row, wrong)| (words, Chip::fresh(0), row, wrong));
    let of_chips = chips.into_iter().map(|(words, chip, wrong)| (words, chip, &[][..], wrong));
    of_rows.chain(of_chips).collect()
}
