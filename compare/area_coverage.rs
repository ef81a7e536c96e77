// What has occurred about the SFDP area: long ones at each entry point, 5Ah frames, and the reader.

use crate::case::LENGTHS;
use crate::model::{Chip, Record};
use crate::sfdp;
use crate::side::LONGEST_AREA;
use crate::tally::{print_cells, print_head, print_line, print_seen, Tally};
use std::collections::BTreeSet;

/// The opcode of a read of the area.
const READ_SFDP: u8 = 0x5A;
/// The last place that such a read has.
const LAST_PLACE: u32 = 0xFF_FFFF;

/// The numbers that the reader answers with.
const READER: [u8; 6] = [0, 13, 14, 15, 16, 17];

/// What has to occur in frames and in lent states.
const SITUATIONS: [&str; 14] = [
    "5Ah byte driven inside the area",
    "5Ah byte driven at the area's end",
    "5Ah byte driven past the area's end",
    "5Ah byte driven on an empty area",
    "5Ah frame across the area's end",
    "5Ah frame across the end of an area of 256",
    "5Ah frame, another area lent between two bytes",
    "5Ah dummy floats",
    "5Ah frame ended loosely",
    "5Ah frame judged 6, ended without a job",
    "lent 5Ah frame at FFFFFFh, taken",
    "lent 5Ah frame at 2^24, refused by 2",
    "lent 5Ah frame beyond the memory, taken",
    "lent other frame beyond the memory, refused by 2",
];

/// What the reader has to be asked.
const QUESTIONS: [&str; 8] = [
    "table that ends at the area's end",
    "table that ends one byte past it, 17",
    "table of 0 words at the area's end",
    "table of 0 words one byte past it, 17",
    "last header that ends at the area's end",
    "last header that ends one byte past it, 15",
    "identity that a later header has too",
    "first header of an identity 17, a later one good",
];

/// All that has occurred about the area.
pub struct AreaCoverage {
    /// The area that is lent.
    pub lent: Vec<u8>,
    /// The place of the last byte that the open frame of 5Ah drove, since that area is lent.
    last_place: Option<u32>,
    /// The open frame of 5Ah drove a byte of an area before this one.
    changed: bool,
    lengths: BTreeSet<usize>,
    lengths_read: BTreeSet<usize>,
    /// Steps with an area over 256 bytes, by entry point and what an empty area would get.
    too_long: [[u64; 9]; 4],
    /// Those of them on numbers that are no state, refused by 13.
    no_state: [u64; 4],
    /// Frames of 5Ah past the memory length and over FFFFFFh, by memory length.
    crossed: [[u64; 2]; 6],
    reader: [u64; READER.len()],
    situations: Tally,
    questions: Tally,
}

impl AreaCoverage {
    /// Nothing yet.
    pub fn new() -> AreaCoverage {
        AreaCoverage {
            lent: Vec::new(),
            last_place: None,
            changed: false,
            lengths: BTreeSet::new(),
            lengths_read: BTreeSet::new(),
            too_long: [[0; 9]; 4],
            no_state: [0; 4],
            crossed: [[0; 2]; 6],
            reader: [0; READER.len()],
            situations: Tally::new(&SITUATIONS),
            questions: Tally::new(&QUESTIONS),
        }
    }

    /// Takes note of an area that is lent from here on.
    pub fn lend(&mut self, area: &[u8]) {
        self.lent = area.to_vec();
        self.changed |= self.last_place.take().is_some();
    }

    /// Forgets the frame that has ended.
    pub fn close_frame(&mut self) {
        self.last_place = None;
        self.changed = false;
    }

    /// Takes note of an event or a run that was answered.
    pub fn note_step(&mut self) {
        self.lengths.insert(self.lent.len());
    }

    /// Takes note of a step with too long an area, from its entry point, its answer and the number
    /// that it would get with an empty area: 1 has to stay, all else to be 13, also on numbers that
    /// are no state.
    pub fn note_too_long(&mut self, entry: usize, answered: u8, otherwise: u8, no_state: bool) {
        let right = if otherwise == 1 { 1 } else { 13 };
        self.too_long[entry][usize::from(otherwise)] += u64::from(answered == right);
        self.no_state[entry] += u64::from(no_state && answered == 13);
    }

    /// Takes note of the first step on a state that is lent with a frame.
    pub fn note_lent_frame(&mut self, chip: &Chip, refusal: u8, length: usize) {
        let (opcode, place) = (chip.frame.opcode, chip.frame.read_place);
        let beyond = place <= LAST_PLACE && place as usize >= length;
        let mut mended = chip.clone();
        mended.frame.read_place = 0;
        let alone = refusal == 2 && mended.legal(length);
        let tally = &mut self.situations;
        if opcode == READ_SFDP {
            tally.saw("lent 5Ah frame at FFFFFFh, taken", refusal == 0 && place == LAST_PLACE);
            tally.saw("lent 5Ah frame beyond the memory, taken", refusal == 0 && beyond);
            tally.saw("lent 5Ah frame at 2^24, refused by 2", alone && place == LAST_PLACE + 1);
        } else {
            tally.saw("lent other frame beyond the memory, refused by 2", alone && beyond);
        }
    }

    /// Takes note of an exchange.
    pub fn note_exchange(&mut self, before: &Chip, record: Record, length: usize) {
        let frame = &before.frame;
        if frame.opcode != READ_SFDP {
            return;
        }
        match record {
            Record::Driven(_) => self.note_driven(frame.read_place, length),
            _ => {
                let dummy = frame.judgement.is_none() && frame.byte_count == 4;
                self.situations.saw("5Ah dummy floats", dummy);
            }
        }
    }

    /// Takes note of a byte that a 5Ah frame drives.
    fn note_driven(&mut self, place: u32, length: usize) {
        let (at, end) = (place as usize, self.lent.len());
        let after = |last: usize| at == last + 1 && self.last_place == Some(last as u32);
        let over_end = end > 0 && after(end - 1);
        let over_length = after(length - 1);
        let over_last = place == 0 && self.last_place == Some(LAST_PLACE);
        if let Some(number) = LENGTHS.iter().position(|known| *known == length) {
            self.crossed[number][0] += u64::from(over_length);
            self.crossed[number][1] += u64::from(over_last);
        }
        let tally = &mut self.situations;
        tally.saw("5Ah byte driven inside the area", at < end);
        tally.saw("5Ah byte driven at the area's end", at == end);
        tally.saw("5Ah byte driven past the area's end", at > end);
        tally.saw("5Ah byte driven on an empty area", end == 0);
        tally.saw("5Ah frame across the area's end", over_end);
        tally.saw("5Ah frame across the end of an area of 256", over_end && end == 256);
        tally.saw("5Ah frame, another area lent between two bytes", self.changed);
        self.last_place = Some(place);
    }

    /// Takes note of a deselect with its verdict.
    pub fn note_deselect(&mut self, before: &Chip, loose: bool, verdict: u8) {
        let frame = &before.frame;
        let (read, late) = (frame.opcode == READ_SFDP, before.job.is_none());
        self.situations.saw("5Ah frame ended loosely", read && loose && verdict == 0);
        self.situations.saw(
            "5Ah frame judged 6, ended without a job",
            read && late && frame.judgement == Some(6),
        );
    }

    /// Takes note of a question to the reader.
    pub fn note_find(&mut self, identity: u8) {
        let refusal = sfdp::find(&self.lent, identity).refusal;
        let column = READER.iter().position(|number| *number == refusal);
        self.reader[column.expect("a number of the reader")] += 1;
        self.lengths_read.insert(self.lent.len());
        if !matches!(refusal, 13 | 14) && self.lent.len() >= 8 {
            self.note_last_header();
        }
        if matches!(refusal, 0 | 17) {
            self.note_tables(identity, refusal);
        }
    }

    /// Where the last header of the area ends.
    fn headers_end(&self) -> usize {
        8 + 8 * (usize::from(self.lent[6]) + 1)
    }

    /// Takes note of where the last header ends.
    fn note_last_header(&mut self) {
        let (headers_end, end) = (self.headers_end(), self.lent.len());
        let tally = &mut self.questions;
        tally.saw("last header that ends at the area's end", headers_end == end);
        tally.saw("last header that ends one byte past it, 15", headers_end == end + 1);
    }

    /// Takes note of where the tables of an identity end: the first decides.
    fn note_tables(&mut self, identity: u8, refusal: u8) {
        let (end, headers) = (self.lent.len(), self.lent[8..self.headers_end()].chunks_exact(8));
        let alike = headers.filter(|header| header[0] == identity);
        let tables: Vec<(usize, usize)> = alike.map(table_of).collect();
        let (place, length) = tables[0];
        let (full, table_end) = (length > 0, place + length);
        let other = tables.iter().any(|table| *table != tables[0]);
        let good = tables.iter().any(|(place, length)| place + length <= end);
        let tally = &mut self.questions;
        tally.saw("table that ends at the area's end", full && table_end == end);
        tally.saw("table that ends one byte past it, 17", full && table_end == end + 1);
        tally.saw("table of 0 words at the area's end", !full && place == end);
        tally.saw("table of 0 words one byte past it, 17", !full && place == end + 1);
        tally.saw("identity that a later header has too", refusal == 0 && other);
        tally.saw("first header of an identity 17, a later one good", refusal == 17 && good);
    }

    /// Prints the tables and gives the number of cells that are empty, or filled and should not be.
    pub fn report(&self, entries: &[(&str, &[u8])]) -> usize {
        self.report_too_long(entries) + self.report_reader() + self.report_situations()
    }

    /// Prints what came of areas that are too long, by entry points.
    fn report_too_long(&self, entries: &[(&str, &[u8])]) -> usize {
        println!("\nareas over 256 bytes, by what an empty one would get: 1 stays, all else is 13");
        print_head(&[0, 1, 2, 3, 4, 5, 6, 7, 8]);
        let mut faults = 0;
        for ((name, numbers), counts) in entries.iter().zip(&self.too_long) {
            print!("{name:24}");
            faults += print_cells(counts, |number| numbers.contains(&(number as u8)));
        }
        println!("\nareas over 256 bytes on numbers that are no state, refused by 13");
        for ((name, _), count) in entries.iter().zip(self.no_state) {
            faults += print_line(name, count);
        }
        faults
    }

    /// Prints the reader's numbers, and the lengths of areas.
    fn report_reader(&self) -> usize {
        println!("\nthe reader's numbers");
        print_head(&READER);
        print!("{:24}", "reader");
        let faults = print_cells(&self.reader, |_| true);
        println!("\nlengths of areas, of 0 to {LONGEST_AREA}");
        faults
            + print_seen("lent to events and runs", self.lengths.len(), LONGEST_AREA + 1)
            + print_seen("lent to the reader", self.lengths_read.len(), LONGEST_AREA + 1)
    }

    /// Prints the situations and the questions to the reader.
    fn report_situations(&self) -> usize {
        println!("\nreads of areas and questions to the reader");
        let mut faults = self.situations.report();
        for (length, counts) in LENGTHS.iter().zip(self.crossed) {
            faults += print_line(&format!("5Ah past the top of {length}"), counts[0]);
            faults += print_line(&format!("5Ah over FFFFFFh beside {length}"), counts[1]);
        }
        faults + self.questions.report()
    }
}

/// The place and the length in bytes of a header's table.
fn table_of(header: &[u8]) -> (usize, usize) {
    let [words, low, middle, high] = [3, 4, 5, 6].map(|at| usize::from(header[at]));
    (low | middle << 8 | high << 16, 4 * words)
}
