// The programmings that are planned: scripts that are written out, every edge and every offset of
// the script writer, and runs of its scripts from states of every sort.

use crate::case::{Content, Start, Step, Use, LENGTHS};
use crate::event::frame_of;
use crate::image::Edit;
use crate::model::Chip;
use crate::programming::{Programming, MOST_DATA, MOST_PIECES};
use crate::programming_coverage::COUNTS;
use crate::protection::protected;
use crate::session::{Outcome, Session};
use std::ops::Range;

/// A programming that is written out: its address and its data on the real part, and its script.
type WrittenOut = (usize, &'static [u8], &'static [u8]);

/// The programmings that are written out: over a page edge, up to the top, and none.
const WRITTEN_OUT: [WrittenOut; 3] = [
    (
        0x0000FE,
        &[0xA1, 0xA2, 0xA3],
        &[
            0x01, 0x02, 0x06, 0x03, 0x00, // write enable
            0x01, 0x02, 0x02, 0x02, 0x00, 0x02, 0x00, 0x02, 0xFE, // program at 0000FEh
            0x02, 0xA1, 0x02, 0xA2, 0x03, 0x00, // two bytes, which are the end of the page
            0x05, 0x00, 0x10, // 16 ticks
            0x01, 0x02, 0x06, 0x03, 0x00, // write enable
            0x01, 0x02, 0x02, 0x02, 0x00, 0x02, 0x01, 0x02, 0x00, // program at 000100h
            0x02, 0xA3, 0x03, 0x00, // the third byte
            0x05, 0x00, 0x10, // 16 ticks
        ],
    ),
    (
        0x1FFFFF,
        &[0x5A],
        &[
            0x01, 0x02, 0x06, 0x03, 0x00, // write enable
            0x01, 0x02, 0x02, 0x02, 0x1F, 0x02, 0xFF, 0x02, 0xFF, // program at 1FFFFFh
            0x02, 0x5A, 0x03, 0x00, // one byte
            0x05, 0x00, 0x10, // 16 ticks
        ],
    ),
    (0x012345, &[], &[]),
];

impl Session<'_> {
    /// The script writer: what is written out, and its edges on the shortest part.
    pub fn script_writer(&mut self) -> Outcome {
        for case in &WRITTEN_OUT {
            self.written_script(case)?;
        }
        self.writer_edges(LENGTHS[0])
    }

    /// What takes longer of the script writer: scripts run from states of every sort, its edges on
    /// the other parts, and every offset in a page.
    pub fn scripts_run(&mut self) -> Outcome {
        self.all_pieces()?;
        for length in LENGTHS {
            for level in 0..=7 {
                self.run_at_level(length, level, false)?;
                self.run_at_level(length, level, true)?;
            }
        }
        for length in &LENGTHS[1..] {
            self.writer_edges(*length)?;
        }
        for offset in 0..256 {
            self.writer_offset(offset)?;
        }
        Ok(())
    }

    /// A script that is written out.
    fn written_script(&mut self, (address, data, script): &WrittenOut) -> Outcome {
        self.open_lending(LENGTHS[0], Vec::new())?;
        let (memory, data) = (LENGTHS[5], data.to_vec());
        let asked = Programming { memory, address: *address, data, room: 0 }.with_spare(0);
        let answer = self.step(Step::Script(asked, Use::HoldText))?;
        self.hold_to(self.bench.written(&answer), script)?;
        self.close()
    }

    /// A programming of so many bytes of noise, in a room with some bytes to spare or too few.
    fn programming(
        &mut self,
        memory: usize,
        address: usize,
        count: usize,
        spare: i64,
    ) -> Programming {
        let mut data = vec![0; count];
        self.rng.fill(&mut data);
        Programming { memory, address, data, room: 0 }.with_spare(spare)
    }

    /// Every mixture of a memory length, a number of bytes, an address and a room that are about an
    /// edge, so that every refusal comes from both sides, alone and before every other.
    fn writer_edges(&mut self, length: usize) -> Outcome {
        for memory in [length - 1, length, length + 1, 3 * length, usize::MAX] {
            for count in COUNTS.into_iter().chain([2]) {
                self.open_lending(LENGTHS[0], Vec::new())?;
                for address in addresses_about(length, count) {
                    for spare in [-1, 0, 1] {
                        let asked = self.programming(memory, address, count, spare);
                        self.step(Step::Script(asked, Use::Read))?;
                    }
                }
                self.close()?;
            }
        }
        Ok(())
    }

    /// An offset in a page with every number of bytes, on every part, and once as text.
    fn writer_offset(&mut self, offset: usize) -> Outcome {
        self.open_lending(LENGTHS[0], Vec::new())?;
        for count in COUNTS {
            for length in LENGTHS {
                let pages = (length - count - offset) / 256 + 1;
                let address = 256 * self.rng.below(pages) + offset;
                let asked = self.programming(length, address, count, 0);
                let used = if length == LENGTHS[5] { Use::HoldText } else { Use::Read };
                self.step(Step::Script(asked, used))?;
            }
        }
        self.close()
    }

    /// Scripts of every number of pieces, as text and run.
    fn all_pieces(&mut self) -> Outcome {
        self.open_fresh(LENGTHS[0], 0)?;
        for pieces in 0..=MOST_PIECES {
            let asked = self.in_pieces(pieces);
            for used in [Use::Read, Use::HoldText, Use::Run] {
                self.step(Step::Script(asked.clone(), used))?;
            }
        }
        self.close()
    }

    /// A programming on the shortest part that is cut into so many pieces: the first and the last
    /// are not more than a page together, so that they can be 17.
    fn in_pieces(&mut self, pieces: usize) -> Programming {
        let first = 1 + self.rng.below(255);
        let last = 1 + self.rng.below(256 - first);
        let count = match pieces {
            0 => 0,
            1 => first,
            _ => first + 256 * (pieces - 2) + last,
        };
        let page = 1 + self.rng.below(200);
        self.programming(LENGTHS[0], 256 * page - first, count, 0)
    }

    /// Scripts run on a part at a level, from a state that is lent: one of no bytes, and some in the
    /// sectors that are free, from their start on, up to their end, and over an edge between two.
    fn run_at_level(&mut self, length: usize, level: u8, tb: bool) -> Outcome {
        let mut chip = Chip::fresh(level << 2 | u8::from(tb) << 5);
        chip.wp_high = level % 2 == 0;
        chip.srwp = !chip.wp_high || self.rng.once_in(2);
        let number = level + 2 * u8::from(tb);
        (chip.wen, chip.armed) = start_of(number);
        let edit = if tb { Edit::Free(self.rng.next()) } else { Edit::None };
        let (free, content) = (free_sectors(&chip, length), Content::Noise(self.rng.next()));
        self.open(length, Start::Lent(Box::new(chip), edit), content)?;
        let nowhere = self.rng.below(length);
        self.run_some_at(length, nowhere, 0)?;
        if !free.is_empty() {
            self.run_in(length, free, number, level == 0)?;
        }
        self.close()
    }

    /// Scripts run in free sectors, with WEN and arming as they are and then otherwise; of the last
    /// cells as many as can be, if asked for.
    fn run_in(&mut self, length: usize, free: Range<usize>, number: u8, most: bool) -> Outcome {
        let [start, end] = [free.start, free.end].map(|sector| sector * Chip::SECTOR);
        let counts = [1, 2, 255, 256, 257, 300, 700];
        let count = self.rng.pick(&counts);
        self.run_some_at(length, start, count)?;
        let count = if most { MOST_DATA } else { self.rng.pick(&counts) };
        self.make_ready(number + 1)?;
        self.run_some_at(length, end - count, count)?;
        if free.len() > 1 {
            let before = 1 + self.rng.below(300);
            let count = before + self.rng.pick(&counts);
            self.make_ready(number + 2)?;
            self.run_some_at(length, start + Chip::SECTOR - before, count)?;
        }
        Ok(())
    }

    /// Brings WEN and the arming to a start, on a chip that is idle.
    fn make_ready(&mut self, number: u8) -> Outcome {
        let (wen, armed) = start_of(number);
        let opcodes = [(true, 0x04), (wen, 0x06), (armed, 0x66)];
        let sent = opcodes.into_iter().filter(|(sent, _)| *sent);
        let events: Vec<_> = sent.flat_map(|(_, opcode)| frame_of([opcode])).collect();
        self.one_run(&events)
    }

    /// Runs the script of so many bytes of noise at an address.
    fn run_some_at(&mut self, length: usize, address: usize, count: usize) -> Outcome {
        let asked = self.programming(length, address, count, 0);
        self.step(Step::Script(asked, Use::Run)).map(|_| ())
    }

    /// Any programmings, and one that is run on the chip as it is, but idle, awake and unselected.
    pub fn any_programmings(&mut self) -> Outcome {
        for _ in 0..1 + self.rng.below(3) {
            let asked = self.any_programming();
            let used = self.rng.pick(&[Use::Read, Use::Read, Use::Read, Use::HoldText]);
            self.step(Step::Script(asked, used))?;
        }
        let events = self.write(|writer| {
            writer.calm = true;
            writer.idle();
        });
        self.one_run(&events)?;
        self.run_anywhere()
    }

    /// Any programming, often about an edge.
    fn any_programming(&mut self) -> Programming {
        let (near, any) = (self.rng.below(5), self.rng.below(1 << 25));
        let length = self.rng.pick(&LENGTHS);
        let memory = self.rng.pick(&[length, length, length, length + near - 2, any]);
        let count = self.any_count();
        let inside = self.rng.below(length);
        let address = match self.rng.below(8) {
            0 => self.rng.next() as usize,
            1 => any,
            2 => length + near - 2,
            3 => (length + near - 2).saturating_sub(count),
            4 => inside | 0xFF,
            _ => inside,
        };
        let few = self.rng.below(9_000) as i64;
        let spare = self.rng.pick(&[0, 0, 0, 1, few, -1, -1, -few]);
        self.programming(memory, address, count, spare)
    }

    /// Any number of data bytes, seldom a large one.
    fn any_count(&mut self) -> usize {
        match self.rng.below(12) {
            0 => 0,
            1 => self.rng.pick(&COUNTS),
            2 => self.rng.below(5_000),
            3 | 4 => self.rng.below(800),
            _ => 1 + self.rng.below(20),
        }
    }

    /// Runs the script of some bytes that begin in any free sector, or of none if there is no such.
    fn run_anywhere(&mut self) -> Outcome {
        let (chip, length) = (self.bench.expected.chip.clone(), self.bench.length);
        let free = free_sectors(&chip, length);
        let count = if free.is_empty() { 0 } else { self.any_count().min(MOST_DATA) };
        let sector = free.start + self.rng.below(free.len().max(1));
        let address = sector * Chip::SECTOR + self.rng.below(Chip::SECTOR);
        let most = (free.end * Chip::SECTOR).saturating_sub(address);
        self.run_some_at(length, address, count.min(most))
    }
}

/// Addresses about the edges for so many bytes on a part of a length.
fn addresses_about(length: usize, count: usize) -> [usize; 9] {
    let top = length - count;
    [0, top - 1, top, top + 1, length - 1, length, length + 1, 1 << 24, usize::MAX]
}

/// WEN and arming of the start of a number, of four.
fn start_of(number: u8) -> (bool, bool) {
    (number & 1 != 0, number & 2 != 0)
}

/// The sectors that a chip leaves free, which are those at one end.
fn free_sectors(chip: &Chip, length: usize) -> Range<usize> {
    let sectors = length / Chip::SECTOR;
    let mut free = (0..sectors).filter(|sector| !protected(chip, *sector, sectors));
    free.next().map_or(0..0, |first| first..free.last().unwrap_or(first) + 1)
}
