// The planned cases about protection: what verdict 9 names, and the room that a deselect is given.

use crate::case::{Content, Start, LENGTHS};
use crate::class::{Class, LONG_JOBS};
use crate::event::{frame_of, kind, script_of, Event, LONGEST};
use crate::generate::Writer;
use crate::image::Edit;
use crate::model::Chip;
use crate::protection::ends;
use crate::session::{Outcome, Session, EVERY_ENTRY};

/// A case that is written out: the part's sectors, the status byte that it is fresh from (the level
/// times 4, and 20h for TB), a frame that is sent after a write enable, and the record of its end.
type WrittenOut = (usize, u8, &'static [u8], &'static [u8]);

/// The cases that are written out: what a level protects at the top or at the bottom, all of it
/// whatever the target; the sectors beside it, which are free; and parts with too few sectors.
const WRITTEN_OUT: [WrittenOut; 14] = [
    (8, 0x0C, &[0x60], &[0x83, 4, 7]),
    (8, 0x2C, &[0x60], &[0x83, 0, 3]),
    (8, 0x0C, &[0xD8, 0x05, 0x00, 0x00], &[0x83, 4, 7]),
    (8, 0x2C, &[0x20, 0x02, 0x40, 0x00], &[0x83, 0, 3]),
    (8, 0x0C, &[0xD8, 0x03, 0xFF, 0xFF], &[0x82, 2]),
    (8, 0x2C, &[0xD8, 0x04, 0x00, 0x00], &[0x82, 2]),
    (32, 0x04, &[0x02, 0x1F, 0x00, 0x00, 0x5A], &[0x83, 31, 31]),
    (32, 0x04, &[0x02, 0x1E, 0xFF, 0xFF, 0x5A], &[0x82, 2]),
    (32, 0x34, &[0x0A, 0x07, 0x12, 0x34, 0x5A], &[0x83, 0, 15]),
    (32, 0x14, &[0xC7], &[0x83, 16, 31]),
    (32, 0x18, &[0xD7, 0x00, 0x00, 0x00], &[0x83, 0, 31]),
    (4, 0x10, &[0x60], &[0x83, 0, 3]),
    (1, 0x14, &[0x02, 0x00, 0x00, 0x00, 0x5A], &[0x83, 0, 0]),
    (1, 0x3C, &[0xC7], &[0x83, 0, 0]),
];

impl Session<'_> {
    /// What verdict 9 names and in which sectors, at every level of every part, and the rooms of runs
    /// with deselects.
    pub fn protection(&mut self) -> Outcome {
        for case in &WRITTEN_OUT {
            self.written_out(case)?;
        }
        for length in LENGTHS {
            for level in 1..=7 {
                self.turned_away_at(length, level << 2)?;
                self.turned_away_at(length, level << 2 | 0x20)?;
            }
            for level in 0..=7 {
                self.every_sector_at(length, level << 2)?;
                self.every_sector_at(length, level << 2 | 0x20)?;
            }
            self.levels_of_one_run(length)?;
        }
        self.lent_and_protected()?;
        self.rooms_of_deselects()
    }

    /// A case that is written out, at each entry point.
    fn written_out(&mut self, (sectors, status, frame, record): &WrittenOut) -> Outcome {
        let events = [frame_of([0x06]), frame_of(frame.iter().copied())].concat();
        let floating = vec![0x80; frame.len()];
        let row = [&[0x80, 0x82, 0x01], &floating[..], record].concat();
        for entry in EVERY_ENTRY {
            self.open_fresh(sectors * Chip::SECTOR, *status)?;
            let said = self.said_at(entry, &events)?;
            self.hold_to(&said.records, &row)?;
            self.close()?;
        }
        Ok(())
    }

    /// A level of a part: jobs on its protected sectors are turned away, those beside begin. A large
    /// memory, which takes long to compare, is compared once.
    fn turned_away_at(&mut self, length: usize, status: u8) -> Outcome {
        self.open_fresh(length, status)?;
        let events = self.write(|writer| {
            writer.calm = true;
            turn_away(writer);
            begin_beside(writer);
        });
        if length > LENGTHS[3] {
            self.one_run(&events)?;
        } else {
            self.deliver(&events)?;
        }
        self.close()
    }

    /// A job in one sector after the other, in one run; one that begins is cut before its first step.
    fn every_sector_at(&mut self, length: usize, status: u8) -> Outcome {
        self.open_fresh(length, status)?;
        let events = self.write(|writer| {
            writer.calm = true;
            for sector in 0..length / Chip::SECTOR {
                writer.enable();
                let class = writer.rng.pick(&LONG_JOBS[..3]);
                send_job(writer, class, sector);
                if writer.chip.job.is_some() {
                    writer.put(kind::POWER_CUT, 0);
                }
            }
        });
        self.one_run(&events)?;
        self.close()
    }

    /// Chip erases turned away at one level after another, all in one run.
    fn levels_of_one_run(&mut self, length: usize) -> Outcome {
        self.open_fresh(length, 0x04)?;
        let events = self.write(|writer| {
            writer.calm = true;
            for status in [0x04, 0x24, 0x08, 0x2C, 0x1C, 0x30, 0x14, 0x3C] {
                writer.write_status(status);
                writer.enable();
                writer.frame(&[0x60]);
            }
        });
        self.one_run(&events)?;
        self.close()
    }

    /// A lent frame over the middle of the protected sectors.
    fn lent_and_protected(&mut self) -> Outcome {
        let mut chip = Chip::fresh(0x2C);
        (chip.wen, chip.selected) = (true, true);
        (chip.frame.opcode, chip.frame.byte_count, chip.frame.address) = (0xD8, 4, 0x01_0000);
        self.open(LENGTHS[3], Start::Lent(Box::new(chip), Edit::None), Content::Blank)?;
        self.one_by_one(&[(kind::DESELECT, 0)])?;
        self.close()
    }

    /// Scripts with each sort of deselect on a protected part, in the rooms about what they ask for;
    /// the last ones are a deselect alone, of a frame that was opened before.
    fn rooms_of_deselects(&mut self) -> Outcome {
        self.open_fresh(LENGTHS[3], 0x0C)?;
        self.one_run(&frame_of([0x06]))?;
        let (read, turned_away) = (frame_of([0x05, 0]), frame_of([0x60]));
        let loose = [&turned_away[..2], &[(kind::DESELECT, 3)]].concat();
        self.rooms_about(&[(kind::EXCHANGE, 0); 3])?;
        self.rooms_about(&read)?;
        self.rooms_about(&[&turned_away[..], &read].concat())?;
        self.rooms_about(&loose)?;
        self.rooms_about(&[&loose[..], &read].concat())?;
        self.rooms_about(&[&loose[..], &turned_away, &loose].concat())?;
        self.rooms_about(&turned_away.repeat(LONGEST / script_of(&turned_away).len()))?;
        for frame in [read, turned_away, loose] {
            let (opened, end) = frame.split_at(frame.len() - 1);
            self.one_run(opened)?;
            self.rooms_about(end)?;
        }
        self.close()
    }

    /// A run of events in less room than it asks for, and in the exact room.
    fn rooms_about(&mut self, events: &[Event]) -> Outcome {
        let deselects = events.iter().filter(|event| event.0 == kind::DESELECT).count() as i64;
        for spare in [-deselects, -1, 0] {
            self.run(script_of(events), spare)?;
        }
        Ok(())
    }
}

/// Sends frames of every job over the first, a middle and the last of the protected sectors.
fn turn_away(writer: &mut Writer) {
    let Some((first, last)) = ends(&writer.chip, writer.length()) else { return };
    writer.enable();
    for class in LONG_JOBS {
        for sector in [first, (first + last) / 2, last] {
            send_job(writer, class, sector);
        }
    }
}

/// Begins a job in the sector on either side of the protected ones, where there is one; while it is
/// suspended, the protected sectors are tried once more.
fn begin_beside(writer: &mut Writer) {
    let sectors = writer.length() / Chip::SECTOR;
    let Some((first, last)) = ends(&writer.chip, writer.length()) else { return };
    for sector in [first.wrapping_sub(1), last + 1] {
        if sector < sectors {
            writer.enable();
            let class = writer.rng.pick(&LONG_JOBS[..3]);
            send_job(writer, class, sector);
            writer.suspend();
            turn_away(writer);
            writer.reset();
        }
    }
}

/// Sends the frame of a job of a class over a sector.
fn send_job(writer: &mut Writer, class: Class, sector: usize) {
    let opcode = class.opcode(writer.rng);
    let address = writer.address_in(sector);
    let bytes = writer.whole_frame(opcode, address);
    writer.frame(&bytes);
}
