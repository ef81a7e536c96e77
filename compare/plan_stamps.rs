// The planned cases about stamps: rows of lines that are written out, every move in every state of a
// job, every place in a frame, stamps of two runs, stamps that went back, and stamps alone.

use crate::areas;
use crate::case::{Content, Start, Step, LENGTHS};
use crate::event::{kind, LONGEST};
use crate::margins::Allowances;
use crate::model::Chip;
use crate::plan_waits::without_floating;
use crate::session::{Outcome, Session};
use crate::states;
use crate::text;

/// A run on a fresh one-sector part: lines of the text form, the records of their events but for the
/// bytes that float, and the number of working ticks.
type Row = (&'static str, &'static [u8], u64);

/// What is written out.
const WRITTEN_OUT: [Row; 14] = [
    // The first stamp sets the clock, whatever it says.
    ("frame 06\nframe 20 00 00 00\nstamp 0", &[0x82, 1, 0x82, 2], 0),
    (
        "frame 06\nframe 20 00 00 00\nstamp 65535\nframe 05 +1",
        &[0x82, 1, 0x82, 2, 0x81, 3, 0x82, 0],
        0,
    ),
    // A later one gives what the counter moved on, an equal one nothing.
    ("frame 06\nframe 20 00 00 00\nstamp 10\nstamp 13", &[0x82, 1, 0x82, 2], 3),
    ("frame 06\nframe 20 00 00 00\nstamp 10\nstamp 10\nstamp 11", &[0x82, 1, 0x82, 2], 1),
    // The counter rolls over, once and twice.
    ("frame 06\nframe 20 00 00 00\nstamp 65535\nstamp 0", &[0x82, 1, 0x82, 2], 1),
    ("frame 06\nframe D8 00 00 00\nstamp 65520\nstamp 9", &[0x82, 1, 0x82, 2], 25),
    (
        "stamp 65000\nstamp 30000\nstamp 60000\nframe 06\nframe D8 00 00 00\nstamp 60005\nstamp 4",
        &[0x82, 1, 0x82, 2],
        256,
    ),
    // Other ticks count beside those of stamps.
    ("frame 06\nframe 20 00 00 00\nstamp 5\nticks 3\nstamp 6\ntick", &[0x82, 1, 0x82, 2], 5),
    // A power cut leaves the clock alone, and so do frames and WP.
    (
        "stamp 65534\npower\nframe 06\nframe 20 00 00 00\nwp low\nstamp 2\nframe 05 +1",
        &[0x82, 1, 0x82, 2, 0x81, 3, 0x82, 0],
        4,
    ),
    ("stamp 100\nstamp 130\nframe 06\nframe 20 00 00 00\nstamp 131", &[0x82, 1, 0x82, 2], 1),
    // Suspended, the part idles; the clock goes on.
    (
        "frame 06\nframe 20 00 00 00\nframe B0\ntick\nstamp 0\nstamp 32767\nframe 30\nstamp 32770",
        &[0x82, 1, 0x82, 2, 0x82, 1, 0x82, 1],
        4,
    ),
    // In the wait a stamp without ticks leaves all as it is, and of those of another one works.
    (
        "frame 06\nframe 20 00 00 00\nframe B0\nstamp 7\nstamp 7\nframe 05 +1\nstamp 12\nframe 05 +1",
        &[0x82, 1, 0x82, 2, 0x82, 1, 0x81, 3, 0x82, 0, 0x81, 0x42, 0x82, 0],
        1,
    ),
    (
        "frame 06\nframe 20 00 00 00\nticks 15\nframe B0\nstamp 65535\nstamp 3\nframe 05 +1",
        &[0x82, 1, 0x82, 2, 0x82, 1, 0x81, 0, 0x82, 0],
        16,
    ),
    // Ticks left over by a job are not the next one's.
    (
        "stamp 0\nframe 06\nframe 20 00 00 00\nstamp 20\nframe 06\nframe 20 00 00 00\nstamp 22",
        &[0x82, 1, 0x82, 2, 0x82, 1, 0x82, 2],
        18,
    ),
];

/// What a stamp finds: lines that bring a fresh part there.
const FOUND: [&str; 4] = [
    "wp high",
    "frame 06\nframe 60",
    "frame 06\nframe 60\nframe B0",
    "frame 06\nframe 60\nframe B0\ntick",
];

/// Lines with the last stamp of every sort of move.
const MOVES: [&str; 8] = [
    "stamp 500",
    "stamp 500\nstamp 500",
    "stamp 500\nstamp 501",
    "stamp 500\nstamp 507",
    "stamp 500\nstamp 33267",
    "stamp 65535\nstamp 0",
    "stamp 60000\nstamp 4000",
    "stamp 32769\nstamp 0",
];

/// Scripts that are refused, with the number and the offset: by how much a stamp went back, what
/// comes before it and what behind it, and stamps without all of their body.
const REFUSED: [(&[u8], u8, u64); 31] = [
    (&[9, 0, 5, 9, 0, 4], 8, 3),
    (&[9, 0, 0, 9, 255, 255], 8, 3),
    (&[9, 0, 0, 9, 128, 0], 8, 3),
    (&[9, 128, 0, 9, 0, 0], 8, 3),
    (&[9, 0, 0, 9, 128, 1], 8, 3),
    (&[9, 255, 255, 9, 127, 255], 8, 3),
    (&[9, 156, 64, 9, 28, 64], 8, 3),
    (&[9, 0, 0, 9, 200, 0], 8, 3),
    (&[9, 0, 1, 9, 0, 2, 9, 0, 1], 8, 6),
    (&[9, 255, 255, 9, 0, 0, 9, 255, 255], 8, 6),
    (&[9, 0, 9, 7, 9, 0, 8], 8, 4),
    (&[9, 0, 9, 7, 1, 2, 6, 9, 0, 8, 3, 0], 8, 7),
    (&[1, 2, 6, 9, 0, 9, 9, 0, 8, 3, 0], 8, 6),
    (&[9, 0, 9, 4, 5, 0, 1, 6, 1, 9, 0, 8, 4], 8, 9),
    (&[9, 0, 5, 9, 0, 4, 0x0A], 8, 3),
    (&[9, 0, 5, 9, 0, 4, 0x80, 0], 8, 3),
    (&[9, 0, 5, 9, 0, 4, 6, 2], 8, 3),
    (&[9, 0, 5, 9, 0, 4, 5, 0, 0], 8, 3),
    (&[9, 0, 5, 9, 0, 4, 2], 8, 3),
    (&[9, 0, 5, 9, 0, 4, 9, 0], 8, 3),
    (&[9, 0, 5, 9, 0, 4, 9, 0, 3], 8, 3),
    (&[9, 0, 5, 0x80, 9, 0, 4], 5, 3),
    (&[9, 0, 5, 8, 9, 0, 4], 5, 3),
    (&[9, 0, 5, 6, 2, 9, 0, 4], 6, 3),
    (&[9, 0, 5, 5, 0, 0, 9, 0, 4], 6, 3),
    (&[9], 4, 0),
    (&[9, 0], 4, 0),
    (&[9, 0, 5, 9], 4, 3),
    (&[9, 0, 5, 9, 0], 4, 3),
    (&[9, 1, 0, 9, 0], 4, 3),
    (&[4, 9, 0, 5, 4, 9, 1], 4, 5),
];

/// The two forms of a run: plain, and with a report.
pub const FORMS: [Option<Allowances>; 2] = [None, Some([300; 5])];

impl Session<'_> {
    /// Stamps in runs, those that went back, and those alone.
    pub fn stamps(&mut self) -> Outcome {
        for allowances in FORMS {
            for (lines, records, ticks) in WRITTEN_OUT {
                self.written_run(lines, records, ticks, allowances)?;
            }
            self.moves_everywhere(allowances)?;
            self.waits_over_by_stamps(allowances)?;
            self.places_in_frame(allowances)?;
            self.stamps_of_two_runs(allowances)?;
            self.stamps_that_went_back(allowances)?;
        }
        self.bodies_alone(kind::STAMP)?;
        self.stamps_alone()
    }

    /// Lines that are written out, run on a fresh one-sector part.
    fn written_run(
        &mut self,
        lines: &str,
        records: &[u8],
        ticks: u64,
        allowances: Option<Allowances>,
    ) -> Outcome {
        self.open_fresh(LENGTHS[0], 0)?;
        let answer = self.run_form(script_of_lines(lines), 0, allowances)?;
        self.hold_to(&without_floating(self.bench.written(&answer)), records)?;
        self.hold_to(&answer.ticks.to_be_bytes(), &ticks.to_be_bytes())?;
        self.close()
    }

    /// Every move in every state of a job, outside a frame and inside one.
    fn moves_everywhere(&mut self, allowances: Option<Allowances>) -> Outcome {
        for found in FOUND {
            for frame in ["", "select\nsend 05"] {
                for moves in MOVES {
                    self.open_fresh(LENGTHS[0], 0)?;
                    let script = script_of_lines(&[found, frame, moves].join("\n"));
                    let answer = self.run_form(script, 0, allowances)?;
                    self.hold_refusal(&answer, 0, 0)?;
                    self.close()?;
                }
            }
        }
        Ok(())
    }

    /// The tick of a wait as the first of each number that a stamp can give, before the last step of
    /// an erase and as the last.
    fn waits_over_by_stamps(&mut self, allowances: Option<Allowances>) -> Outcome {
        for moved in [1, 2, 3, 300, 32_767] {
            for (done, status) in [(3, 0x42), (15, 0x00)] {
                let lines = format!(
                    "frame 06\nframe 20 00 00 00\nticks {done}\nframe B0\nstamp 65535\nstamp {}\n\
                     frame 05 +1",
                    moved - 1
                );
                let records = [0x82, 1, 0x82, 2, 0x82, 1, 0x81, status, 0x82, 0];
                self.written_run(&lines, &records, done + 1, allowances)?;
            }
        }
        Ok(())
    }

    /// Stamps after each byte of a frame, whose program is begun all the same and then ended by the
    /// stamps after it.
    fn places_in_frame(&mut self, allowances: Option<Allowances>) -> Outcome {
        let bytes = ["02", "00", "00", "00", "5A", "A5", "3C"];
        for place in 0..=bytes.len() {
            let send = |bytes: &[&str]| match bytes {
                [] => String::new(),
                _ => format!("send {}", bytes.join(" ")),
            };
            let (before, after) = (send(&bytes[..place]), send(&bytes[place..]));
            let lines = format!(
                "frame 06\nselect\n{before}\nstamp 65530\nstamp 3\n{after}\ndeselect\nstamp 19"
            );
            self.written_run(&lines, &[0x82, 1, 0x82, 2], 16, allowances)?;
        }
        Ok(())
    }

    /// The clock is not kept: the first stamp of a run gives nothing and is never behind, be it
    /// before or after the last one of the run before, or of one that was refused.
    fn stamps_of_two_runs(&mut self, allowances: Option<Allowances>) -> Outcome {
        let rows: [(&str, u8, u64); 8] = [
            ("frame 06\nframe D8 00 00 00\nstamp 100", 0, 0),
            ("stamp 99", 0, 0),
            ("stamp 150\nstamp 152", 0, 2),
            ("stamp 155", 0, 0),
            ("stamp 5000\nstamp 4999", 8, 0),
            ("stamp 4000\nstamp 4001", 0, 1),
            ("tick\nstamp 4000", 0, 1),
            ("stamp 4010", 0, 0),
        ];
        self.open_fresh(LENGTHS[0], 0)?;
        for (lines, refusal, ticks) in rows {
            let answer = self.run_form(script_of_lines(lines), 0, allowances)?;
            self.hold_to(&[answer.refusal, answer.ticks as u8], &[refusal, ticks as u8])?;
        }
        self.close()
    }

    /// Scripts that are refused, whatever their room, with a frame open and without one.
    fn stamps_that_went_back(&mut self, allowances: Option<Allowances>) -> Outcome {
        self.open_fresh(LENGTHS[0], 0)?;
        for (script, refusal, offset) in REFUSED {
            for spare in [-1, 0] {
                let answer = self.run_form(script.to_vec(), spare, allowances)?;
                self.hold_refusal(&answer, refusal, offset)?;
            }
            self.refused_script(script, refusal, offset)?;
        }
        self.close()
    }

    /// Scripts about the longest with stamps at both ends: done, refused by 8 at the last event, and
    /// by 3; and one of stamps alone.
    pub fn long_scripts_with_stamps(&mut self) -> Outcome {
        self.open_fresh(LENGTHS[0], 0)?;
        for (last, refusal) in [(6, 0), (4, 8)] {
            let mut script = vec![9, 0, 5];
            script.resize(LONGEST - 3, kind::TICK as u8);
            script.extend([9, 0, last]);
            for allowances in FORMS {
                let answer = self.run_form(script.clone(), 0, allowances)?;
                let offset = if refusal == 8 { LONGEST as u64 - 3 } else { 0 };
                self.hold_refusal(&answer, refusal, offset)?;
            }
            script.push(kind::TICK as u8);
            let answer = self.run_form(script, 0, None)?;
            self.hold_refusal(&answer, 3, 0)?;
        }
        let stamps = [9, 0, 0, 9, 127, 255, 9, 255, 254].repeat(LONGEST / 9);
        self.run(stamps, 0)?;
        self.close()
    }

    /// Stamps alone in every state of a job, inside a frame, and where 1, 13 or 2 comes before 5.
    fn stamps_alone(&mut self) -> Outcome {
        for lines in [FOUND[0], FOUND[1], FOUND[3], "select\nsend 05"] {
            self.open_fresh(LENGTHS[0], 0)?;
            self.run(script_of_lines(lines), 0)?;
            self.stamp_alone(None, 5)?;
            self.stamp_alone(Some(3 * Chip::SECTOR), 1)?;
            let area = areas::too_long(&mut self.rng);
            self.step(Step::Lend(area))?;
            self.stamp_alone(None, 13)?;
            self.close()?;
        }
        let (chip, edit) = states::with_bad_flag(&mut self.rng, LENGTHS[0], 0, 2);
        self.open(LENGTHS[0], Start::Lent(Box::new(chip), edit), Content::Blank)?;
        self.stamp_alone(None, 2)?;
        self.close()
    }

    /// Stamps alone, by value and lent, refused by a number.
    fn stamp_alone(&mut self, length: Option<usize>, refusal: u8) -> Outcome {
        for lent in [false, true] {
            for body in [0, 1, 32_768, 65_535, 65_536, u64::MAX] {
                let event = (kind::STAMP, body);
                let answer = self.step(Step::Event { event, lent, length })?;
                self.hold_refusal(&answer, refusal, 0)?;
            }
        }
        Ok(())
    }
}

/// The script of lines of the text form.
pub fn script_of_lines(lines: &str) -> Vec<u8> {
    text::script_of_text(lines).expect("lines of the text form")
}
