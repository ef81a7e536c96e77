// The planned cases about the SFDP area: its lengths, its reads, its reader, and the part's own.

use crate::areas::{self, header, with_headers, IDENTITIES, LONGEST_TAKEN};
use crate::case::{Content, Start, Step, LENGTHS};
use crate::event::{frame_of, kind, script_of};
use crate::image::Edit;
use crate::model::Chip;
use crate::session::{Outcome, Session};
use crate::sfdp::CONTENT;
use crate::side::LONGEST_AREA;

/// What the run of the README's example writes: five bytes that float, the first 16 bytes of the
/// part's own area, and verdict 0.
const FIRST_BYTES: [u8; 39] = [
    0x80, 0x80, 0x80, 0x80, 0x80, // opcode, address and dummy
    0x81, 0x53, 0x81, 0x46, 0x81, 0x44, 0x81, 0x50, // 00h
    0x81, 0x05, 0x81, 0x01, 0x81, 0x02, 0x81, 0xFF, // 04h
    0x81, 0x00, 0x81, 0x00, 0x81, 0x01, 0x81, 0x10, // 08h
    0x81, 0x40, 0x81, 0x00, 0x81, 0x00, 0x81, 0xFF, // 0Ch
    0x82, 0x00,
];

impl Session<'_> {
    /// The part's own area, the reader, and reads of an area; its lengths are apart, for they take
    /// longer.
    pub fn areas(&mut self) -> Outcome {
        self.own_area()?;
        self.first_bytes()?;
        self.all_identities()?;
        self.reader_edges()?;
        self.damaged_headers()?;
        self.damaged_areas()?;
        for length in LENGTHS {
            self.reads_past_memory(length)?;
        }
        self.lent_at_last_place()
    }

    /// Areas of every length.
    pub fn area_lengths(&mut self) -> Outcome {
        for length in 0..=LONGEST_AREA {
            self.area_of_length(length)?;
        }
        Ok(())
    }

    /// The part's own area.
    fn own_area(&mut self) -> Outcome {
        self.open_lending(LENGTHS[0], CONTENT.to_vec())?;
        self.step(Step::OwnArea)?;
        self.close()
    }

    /// The README's example, samples/read-sfdp.script, on the part's own area.
    fn first_bytes(&mut self) -> Outcome {
        self.open_lending(LENGTHS[0], CONTENT.to_vec())?;
        let data = std::iter::repeat_n(0, 16);
        let script = script_of(&frame_of([0x5A, 0, 0, 0, 0].into_iter().chain(data)));
        let step = self.any_run(script, 0);
        let answer = self.step(step)?;
        self.hold_to(self.bench.written(&answer), &FIRST_BYTES)?;
        self.close()
    }

    /// Every identity on the part's own area.
    fn all_identities(&mut self) -> Outcome {
        self.open_lending(LENGTHS[0], CONTENT.to_vec())?;
        for identity in 0..=255 {
            self.step(Step::Find(identity))?;
        }
        self.close()
    }

    /// Headers and tables that end at the area's end, a byte before it and a byte past it.
    fn reader_edges(&mut self) -> Outcome {
        for count in [1, 2, 3, 30, 31] {
            let end = 8 + 8 * count;
            for length in [end - 1, end, end + 1] {
                self.tables_about_the_end(count, length)?;
            }
            self.tables_about_the_end(count, LONGEST_TAKEN)?;
        }
        Ok(())
    }

    /// An area of a length with so many headers, of which the last two have one identity, and their
    /// tables end about the area's end: the last one's at it.
    fn tables_about_the_end(&mut self, count: usize, length: usize) -> Outcome {
        self.open_lending(LENGTHS[0], Vec::new())?;
        for (words, past) in [(0_u8, 0), (0, 1), (1, 0), (1, 1), (2, -1), (3, 4), (255, 0)] {
            let pointer = (length as isize + past - 4 * words as isize).max(0) as usize;
            let mut headers = vec![header(0x01, 0, length); count];
            headers[count.saturating_sub(2)] = header(0x62, words, pointer);
            if count > 1 {
                headers[count - 1] = header(0x62, 0, length);
            }
            self.step(Step::Lend(with_headers(&headers, length)))?;
            self.questions()?;
        }
        self.close()
    }

    /// The part's own area with a byte of its header or of its parameter headers changed.
    fn damaged_headers(&mut self) -> Outcome {
        for place in 0..32 {
            self.open_lending(LENGTHS[0], Vec::new())?;
            let byte = CONTENT[place];
            let any = self.rng.byte();
            for changed in [0, 1, byte ^ 1, byte ^ 0x20, byte.wrapping_add(1), !byte, any] {
                let mut area = CONTENT.to_vec();
                area[place] = changed;
                self.step(Step::Lend(area))?;
                self.questions()?;
            }
            self.close()?;
        }
        Ok(())
    }

    /// The part's own area, damaged in any way.
    fn damaged_areas(&mut self) -> Outcome {
        self.open_lending(LENGTHS[0], Vec::new())?;
        for _ in 0..100 {
            let area = areas::damaged(&mut self.rng);
            self.step(Step::Lend(area))?;
            self.questions()?;
        }
        self.close()
    }

    /// Areas of a length: read about their end, and looked for tables in; or refused by 13.
    fn area_of_length(&mut self, length: usize) -> Outcome {
        let area = areas::of_length(&mut self.rng, length);
        self.open_lending(LENGTHS[0], area)?;
        if length > LONGEST_TAKEN {
            self.refused_by(13)?;
            self.wrong_length()?;
        } else {
            let events = self.write(|writer| writer.read_over_area_end());
            self.deliver(&events)?;
        }
        self.questions()?;
        let area = areas::near_the_end(&mut self.rng, length);
        self.step(Step::Lend(area))?;
        self.questions()?;
        let mut area = CONTENT.to_vec();
        area.resize(length, 0xFF);
        self.step(Step::Lend(area))?;
        self.questions()?;
        self.close()
    }

    /// Reads of places past the memory length, over FFFFFFh, and of a whole area that is as long as
    /// can be, from its first byte past its end.
    fn reads_past_memory(&mut self, length: usize) -> Outcome {
        let area = areas::noise(&mut self.rng, LONGEST_TAKEN);
        self.open_lending(length, area)?;
        let events = self.write(|writer| {
            writer.read_past_memory();
            writer.read_over_last_place();
            writer.read_area_at(0, LONGEST_TAKEN + 4, false);
        });
        self.deliver(&events)?;
        self.close()
    }

    /// A frame of 5Ah that is lent at the last place, which the place 0 comes after; the area is
    /// another one from its second byte on.
    fn lent_at_last_place(&mut self) -> Outcome {
        let mut chip = Chip::fresh(0);
        chip.selected = true;
        (chip.frame.opcode, chip.frame.byte_count) = (0x5A, 6);
        chip.frame.read_place = (1 << 24) - 1;
        self.open(LENGTHS[0], Start::Lent(Box::new(chip), Edit::None), Content::Blank)?;
        for identity in IDENTITIES {
            self.step(Step::Lend(with_headers(&[header(identity, 0, 0)], LONGEST_TAKEN)))?;
            self.one_by_one(&[(kind::EXCHANGE, u64::from(identity))])?;
        }
        self.close()
    }
}
