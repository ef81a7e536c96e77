// The planned cases about deselects: every number of loose bits at the end of every sort of frame,
// every body and the old kind alone, and scripts with each of them that are done or refused. What
// is due is written out here, or reckoned from the rule: loose bits spoil what is no read.

use crate::case::{Step, LENGTHS};
use crate::class::Class;
use crate::commands::{Command, COMMANDS, UNKNOWN};
use crate::deselect_coverage::{BITS, OLD_KIND};
use crate::event::{events_of, frame_of, kind, script_of, Event};
use crate::session::{Entry, Outcome, Session, EVERY_ENTRY};
use crate::side::Answer;
use crate::text;

/// The records of the verdicts that a deselect gives here.
const NOTHING: &[u8] = &[0x82, 0];
const DONE: &[u8] = &[0x82, 1];
const UNKNOWN_OPCODE: &[u8] = &[0x82, 3];
const SPOILED: &[u8] = &[0x82, 4];
const ASLEEP: &[u8] = &[0x82, 5];
const NOT_WHILE_RUNNING: &[u8] = &[0x82, 6];
const NOT_IN_SUSPENSION: &[u8] = &[0x82, 7];
const NOT_ENABLED: &[u8] = &[0x82, 8];
const PROTECTED: &[u8] = &[0x83, 0, 0];
const LOCKED: &[u8] = &[0x82, 10];
const POINTLESS: &[u8] = &[0x82, 11];

/// What stands before a deselect: the status byte that the part is fresh from, lines of the text
/// form, and the records of a deselect on the byte boundary and of one with loose bits.
type Open = (u8, &'static str, &'static [u8], &'static [u8]);

/// What is written out to be ended: no frame and empty ones, on an armed chip too; reads; frames
/// that are turned away by their opcode; spoiled ones; and those that only loose bits spoil.
const OPEN: [Open; 28] = [
    (0, "tick", NOTHING, NOTHING),
    (0, "frame 66", NOTHING, NOTHING),
    (0, "select", NOTHING, NOTHING),
    (0, "frame 66\nselect", NOTHING, NOTHING),
    (0, "frame 06\nframe 60\nselect", NOTHING, NOTHING),
    (0, "select\nsend 05", NOTHING, NOTHING),
    (0, "select\nsend 05 +2", NOTHING, NOTHING),
    (0, "frame 06\nframe 60\nselect\nsend 05 +1", NOTHING, NOTHING),
    (0, "select\nsend 03 00 00 00 +2", NOTHING, NOTHING),
    (0, "select\nsend 0B 00", NOTHING, NOTHING),
    (0, "select\nsend 9F +5", NOTHING, NOTHING),
    (0, "select\nsend 5A 00 00 00 00 +1", NOTHING, NOTHING),
    (0, "select\nsend 77", UNKNOWN_OPCODE, UNKNOWN_OPCODE),
    (0, "frame B9\nselect\nsend 06", ASLEEP, ASLEEP),
    (0, "frame B9\nselect\nsend 05 +1", ASLEEP, ASLEEP),
    (0, "frame 06\nframe 60\nselect\nsend 06", NOT_WHILE_RUNNING, NOT_WHILE_RUNNING),
    (
        // A read that was begun too early stays turned away.
        0,
        "frame 06\nframe 60\nselect\nsend 03\nticks 256\nsend 00 00 00 +1",
        NOT_WHILE_RUNNING,
        NOT_WHILE_RUNNING,
    ),
    (
        0,
        "frame 06\nframe 60\nframe B0\ntick\nselect\nsend 06",
        NOT_IN_SUSPENSION,
        NOT_IN_SUSPENSION,
    ),
    (
        // A suspend that is turned away at its end, which is before the loose bits.
        0,
        "frame 06\nframe 60\nframe B0\nselect\nsend B0\ntick",
        NOT_IN_SUSPENSION,
        NOT_IN_SUSPENSION,
    ),
    (0, "select\nsend 06 00", SPOILED, SPOILED),
    (0, "frame 06\nselect\nsend 02 00 00 00", SPOILED, SPOILED),
    (0, "select\nsend 60", NOT_ENABLED, SPOILED),
    (0x04, "frame 06\nselect\nsend 60", PROTECTED, SPOILED),
    (0x80, "frame 06\nwp low\nselect\nsend 01 00", LOCKED, SPOILED),
    (0, "select\nsend 99", POINTLESS, SPOILED),
    (0, "frame 66\nselect\nsend 30", POINTLESS, SPOILED),
    (0, "frame 66\nselect\nsend 99", DONE, SPOILED),
    (0, "frame 66\nselect\nsend 66", DONE, SPOILED),
];

/// Bodies that are wider than those of one byte, most of which would be good if a part of them were
/// all that counts.
const WIDE: [u64; 14] = [
    1 << 16,
    (1 << 16) + 1,
    (1 << 16) + 7,
    (1 << 16) + 8,
    (1 << 31) + 1,
    (1 << 32) - 1,
    1 << 32,
    (1 << 32) + 1,
    (1 << 32) + 7,
    (1 << 32) + 8,
    1 << 56,
    1 << 63,
    (1 << 63) + 7,
    u64::MAX,
];

/// Scripts that are refused, with the number and the offset; those at the end are of frames whose
/// deselects have no body, or are of the old kind.
const REFUSED: [(&[u8], u8, u64); 24] = [
    (&[3], 4, 0),
    (&[1, 3], 4, 1),
    (&[1, 2, 6, 3], 4, 3),
    (&[3, 0, 3], 4, 2),
    (&[3, 3, 3], 4, 2),
    (&[2, 3, 3], 4, 2),
    (&[6, 1, 3], 4, 2),
    (&[5, 0, 3, 3], 4, 3),
    (&[3, 8], 6, 0),
    (&[3, 0, 3, 255], 6, 2),
    (&[3, 8, 3], 6, 0),
    (&[3, 8, 8, 1], 6, 0),
    (&[3, 9, 0x80], 6, 0),
    (&[6, 3, 3, 8], 6, 0),
    (&[8], 5, 0),
    (&[8, 3], 5, 0),
    (&[8, 1, 3, 0], 5, 0),
    (&[3, 7, 8], 5, 2),
    (&[3, 7, 8, 3], 5, 2),
    (&[0x80, 3], 5, 0),
    (&[3, 8, 8], 6, 0),
    (&[1, 2, 6, 3, 1, 2, 5, 2, 0, 3], 4, 9),
    (&[1, 2, 6, 3, 6, 0, 3], 5, 5),
    (&[1, 2, 6, 8, 3, 1, 2, 5, 2, 0, 3], 5, 3),
];

/// Scripts that are done on a fresh part, with their records: in each of them the body of a
/// deselect is the number of a kind as well, and most would be done otherwise if it were one.
const TAKEN: [(&[u8], &[u8]); 12] = [
    (&[3, 3], &[0x82, 0]),
    (&[3, 3, 3, 3], &[0x82, 0, 0x82, 0]),
    (&[2, 3, 3, 3], &[0x80, 0x82, 0]),
    (&[1, 2, 6, 3, 3], &[0x80, 0x82, 4]),
    (&[3, 1, 2, 5, 2, 0], &[0x82, 0, 0x80, 0x80]),
    (&[3, 2, 3, 0], &[0x82, 0, 0x82, 0]),
    (&[3, 5, 3, 3, 4], &[0x82, 0, 0x82, 0]),
    (&[3, 6, 1, 2, 6, 3, 0], &[0x82, 0, 0x80, 0x82, 1]),
    (&[1, 2, 6, 3, 7, 3, 0], &[0x80, 0x82, 4, 0x82, 0]),
    (&[1, 2, 6, 3, 4, 4], &[0x80, 0x82, 4]),
    (&[1, 2, 6, 3, 1, 2, 5, 2, 0, 3, 4], &[0x80, 0x82, 4, 0x80, 0x80, 0x82, 0]),
    (&[1, 2, 6, 3, 1, 2, 5, 2, 0, 3, 0], &[0x80, 0x82, 4, 0x80, 0x80, 0x82, 0]),
];

impl Session<'_> {
    /// Deselects at the end of every sort of frame, alone with every body, and in scripts.
    pub fn deselects(&mut self) -> Outcome {
        for open in &OPEN {
            self.ended_with_all_bits(open)?;
        }
        for command in &COMMANDS[..UNKNOWN] {
            self.taken_or_spoiled(command)?;
        }
        for kind in [kind::DESELECT, OLD_KIND] {
            self.bodies_alone(kind)?;
        }
        self.refused_scripts()?;
        self.taken_scripts()?;
        self.cut_scripts()
    }

    /// What is written out, ended with each number of bits at each entry point.
    fn ended_with_all_bits(&mut self, (status, lines, clean, loose): &Open) -> Outcome {
        let script = text::script_of_text(lines).expect("lines of the text form");
        for entry in EVERY_ENTRY {
            for bits in BITS {
                self.open_fresh(LENGTHS[0], *status)?;
                self.run(script.clone(), 0)?;
                let due = if bits == 0 { clean } else { loose };
                self.end_with(entry, bits, due)?;
                self.close()?;
            }
        }
        Ok(())
    }

    /// Ends what is open with so many bits at an entry point, and holds the record to the one that
    /// is due.
    fn end_with(&mut self, entry: Entry, bits: u8, due: &[u8]) -> Outcome {
        let said = self.said_at(entry, &[(kind::DESELECT, u64::from(bits))])?;
        self.hold_to(&said.records, due)
    }

    /// Frames of an opcode that a part takes, on a chip that would, ended with each number of bits
    /// at each entry point: a read ends all the same, the others come to nothing by one bit.
    fn taken_or_spoiled(&mut self, command: &Command) -> Outcome {
        let Some(opcode) = command.opcode else { return Ok(()) };
        let accepted = accepted_verdict(opcode);
        let loose = if accepted == 0 { 0 } else { 4 };
        self.open_fresh(LENGTHS[0], 0)?;
        for entry in EVERY_ENTRY {
            for bits in BITS {
                let mut events = self.write(|writer| {
                    writer.calm = true;
                    writer.reach(Some(opcode), accepted);
                });
                events.pop();
                self.one_run(&events)?;
                self.end_with(entry, bits, &[0x82, if bits == 0 { accepted } else { loose }])?;
            }
        }
        self.close()
    }

    /// Events of a kind, alone, by value and lent, with every body: from 8 on a deselect is refused
    /// by 6, and any other kind here by 5 whatever its body; both leave the open frame as it is.
    pub fn bodies_alone(&mut self, kind: u64) -> Outcome {
        self.open_fresh(LENGTHS[0], 0)?;
        for body in (0..=300).chain(WIDE) {
            for lent in [false, true] {
                self.open_write_enable()?;
                let event = (kind, body);
                let answer = self.step(Step::Event { event, lent, length: None })?;
                let due = match (kind, body) {
                    (kind::DESELECT, 0..=7) => 0,
                    (kind::DESELECT, _) => 6,
                    _ => 5,
                };
                self.hold_refusal(&answer, due, 0)?;
            }
        }
        self.close()
    }

    /// Opens a frame of 06h on an idle chip, if none is open.
    fn open_write_enable(&mut self) -> Outcome {
        if self.bench.expected.chip.selected {
            return Ok(());
        }
        let frame = frame_of([0x06]);
        self.one_run(&frame[..2])
    }

    /// Holds an answer to the refusal and the offset that are due.
    pub fn hold_refusal(&self, answer: &Answer, refusal: u8, offset: u64) -> Outcome {
        if (answer.refusal, answer.offset) == (refusal, offset) {
            return Ok(());
        }
        let found = format!("refused by {} at {}", answer.refusal, answer.offset);
        Err(self.failure(format!("{found}\nin place of {refusal} at {offset}")))
    }

    /// Scripts that are refused: those that are written out, and every bad body and every byte
    /// behind 08h, at the script's start and behind a good frame.
    fn refused_scripts(&mut self) -> Outcome {
        self.open_fresh(LENGTHS[0], 0)?;
        for (script, refusal, offset) in REFUSED {
            self.refused_script(script, refusal, offset)?;
        }
        let good = script_of(&frame_of([0x05, 0]));
        let offset = good.len() as u64;
        for byte in 0..=255 {
            let mut bad = vec![(OLD_KIND as u8, 5)];
            bad.extend((byte >= 8).then_some((kind::DESELECT as u8, 6)));
            for (kind, refusal) in bad {
                self.refused_script(&[kind, byte], refusal, 0)?;
                self.refused_script(&[&good[..], &[kind, byte, 4]].concat(), refusal, offset)?;
            }
        }
        self.close()
    }

    /// A script that is refused whatever its room, with a frame open and without one.
    pub fn refused_script(&mut self, script: &[u8], refusal: u8, offset: u64) -> Outcome {
        for spare in [-1, 0, 5] {
            let step = self.any_run(script.to_vec(), spare);
            let answer = self.step(step)?;
            self.hold_refusal(&answer, refusal, offset)?;
            if spare == 0 {
                self.open_write_enable()?;
            }
        }
        self.one_by_one(&[(kind::DESELECT, 0)])
    }

    /// Scripts that are done: those that are written out, and a write enable ended with each number
    /// of bits, whose WEN is read; in a byte less than their room they are refused by 7.
    fn taken_scripts(&mut self) -> Outcome {
        for (script, records) in TAKEN {
            self.taken_script(script, records)?;
        }
        for bits in BITS {
            let script = [1, 2, 6, 3, bits, 1, 2, 5, 2, 0, 3, bits];
            let (verdict, status) = if bits == 0 { (1, 2) } else { (4, 0) };
            let records = [0x80, 0x82, verdict, 0x80, 0x81, status, 0x82, 0];
            self.taken_script(&script, &records)?;
        }
        Ok(())
    }

    /// A script that is done on a fresh part in the exact room, and refused by 7 in a byte less.
    fn taken_script(&mut self, script: &[u8], records: &[u8]) -> Outcome {
        self.open_fresh(LENGTHS[0], 0)?;
        for (spare, refusal) in [(-1, 7), (0, 0)] {
            let step = self.any_run(script.to_vec(), spare);
            let answer = self.step(step)?;
            self.hold_refusal(&answer, refusal, 0)?;
            if refusal == 0 {
                self.hold_to(self.bench.written(&answer), records)?;
            }
        }
        self.close()
    }

    /// A script with deselects of every number of bits, cut off after each of its bytes: inside an
    /// event it is refused by 4 at that event, else done.
    fn cut_scripts(&mut self) -> Outcome {
        let script = script_of(&frames_with_all_bits());
        self.open_fresh(LENGTHS[0], 0)?;
        for end in 0..=script.len() {
            let cut = script[..end].to_vec();
            let unfinished = events_of(&cut).1.len();
            let step = self.any_run(cut, 0);
            let answer = self.step(step)?;
            match unfinished {
                0 => self.hold_refusal(&answer, 0, 0)?,
                _ => self.hold_refusal(&answer, 4, (end - unfinished) as u64)?,
            }
        }
        self.close()
    }
}

/// The verdict on a frame of an opcode that a part takes: 0 for the reads, 2 for what begins a job,
/// and 1 for the others.
fn accepted_verdict(opcode: u8) -> u8 {
    match (opcode, Class::begun_by(opcode)) {
        (0x05 | 0x03 | 0x0B | 0x9F | 0x5A, _) => 0,
        (_, Some(_)) => 2,
        _ => 1,
    }
}

/// Write enables and status reads, ended with each number of bits, and other events between them.
fn frames_with_all_bits() -> Vec<Event> {
    let mut events = Vec::new();
    for bits in BITS {
        let between = [(kind::TICKS, 3), (kind::WP_LEVEL, 1), (kind::TICK, 0)];
        for mut frame in [frame_of([0x06]), frame_of([0x05, 0])] {
            frame.pop();
            events.extend(frame);
            events.push((kind::DESELECT, u64::from(bits)));
        }
        events.extend(between);
    }
    events
}
