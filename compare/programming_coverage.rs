// What has occurred about the script writer: its numbers, the edges of its range, the pieces of its
// scripts, and the states that these were run on.

use crate::case::{Use, LENGTHS};
use crate::expected::{Expected, NOTHING};
use crate::model::Chip;
use crate::programming::{Programming, MOST_PIECES, REFUSALS};
use crate::protection::ends;
use crate::protection_coverage::SECTORS;
use crate::tally::{print_cells, print_head, print_seen, Tally};
use std::collections::BTreeSet;

/// The numbers that the writer answers with.
const NUMBERS: [u8; 6] = [0, 1, 20, 21, 22, 23];

/// The numbers of data bytes that have to occur at every offset in a page and on every part.
pub const COUNTS: [usize; 7] = [0, 1, 255, 256, 257, 4_096, 4_097];

/// The number that is due for so many data bytes, as far as they decide it.
fn due_for(count: usize) -> u8 {
    20 * u8::from(count == COUNTS[6])
}

/// An edge of the writer's range on a part of a length: its name, the number that is due there, and
/// whether a programming is at it.
type Edge = (&'static str, u8, fn(&Programming, usize) -> bool);

/// The edges, most of them from both sides.
const EDGES: [Edge; 15] = [
    ("memory a byte short, 1", 1, |asked, length| asked.memory == length - 1),
    ("memory a byte longer, 1", 1, |asked, length| asked.memory == length + 1),
    ("no bytes, last cell", 0, |asked, length| is_at(asked, length, length - 1, 0)),
    ("no bytes, at the end, 21", 21, |asked, length| is_at(asked, length, length, 0)),
    ("a byte, last cell", 0, |asked, length| is_at(asked, length, length - 1, 1)),
    ("a byte, at the end, 21", 21, |asked, length| is_at(asked, length, length, 1)),
    ("2 bytes, last cell, 22", 22, |asked, length| is_at(asked, length, length - 1, 2)),
    ("ends at the top", 0, |asked, length| ends_at(asked, length, length)),
    ("ends past the top, 22", 22, |asked, length| ends_at(asked, length, length + 1)),
    ("4,096 at the top", 0, |asked, length| is_at(asked, length, length - 4_096, 4_096)),
    ("4,097 at the top, 20", 20, |asked, length| is_at(asked, length, length - 4_097, 4_097)),
    ("exact room", 0, |asked, length| has_room(asked, length, 0)),
    ("room a byte short, 23", 23, |asked, length| has_room(asked, length, -1)),
    ("room a byte longer", 0, |asked, length| has_room(asked, length, 1)),
    ("no bytes, no room", 0, has_nothing),
];

/// Whether a programming on a part of a length is one of so many bytes at an address.
fn is_at(asked: &Programming, length: usize, address: usize, count: usize) -> bool {
    (asked.memory, asked.address, asked.data.len()) == (length, address, count)
}

/// Whether a programming on a part of a length has bytes and ends at a place.
fn ends_at(asked: &Programming, length: usize, end: usize) -> bool {
    let count = asked.data.len();
    asked.memory == length && count > 0 && asked.address.checked_add(count) == Some(end)
}

/// Whether a programming on a part of a length has bytes and so many bytes of room to spare.
fn has_room(asked: &Programming, length: usize, spare: i64) -> bool {
    let needed = asked.script_length() as i64;
    asked.memory == length && needed > 0 && asked.room as i64 == needed + spare
}

/// Whether a programming on a part of a length has no bytes and no room.
fn has_nothing(asked: &Programming, length: usize) -> bool {
    (asked.memory, asked.data.len(), asked.room) == (length, 0, 0)
}

/// What a script is used for, as `Use` has it.
const USES: [&str; 3] = ["read", "text", "run"];

/// The states that a script is run on, by WEN and arming, for some bytes and for none.
const STARTS: [&str; 8] = [
    "WEN 0, unarmed",
    "WEN 1, unarmed",
    "WEN 0, armed",
    "WEN 1, armed",
    "no bytes, WEN 0, unarmed",
    "no bytes, WEN 1, unarmed",
    "no bytes, WEN 0, armed",
    "no bytes, WEN 1, armed",
];

/// The levels, of which the last two protect all.
const LEVELS: usize = 8;

/// What has to occur, beside the cells of the tables.
const SITUATIONS: [&str; 11] = [
    "address of 2^24, 21",
    "address of 2^64 - 1, 21",
    "memory of 2^64 - 1, 1",
    "run over a sector edge",
    "run up to the protected sectors",
    "run from the protected sectors on",
    "run of no bytes, all sectors protected",
    "run with SRWP 1 and WP low",
    "run with WP high",
    "run on leftovers",
    "run of no bytes on leftovers",
];

/// All that has occurred about the script writer.
pub struct ProgrammingCoverage {
    numbers: [u64; NUMBERS.len()],
    /// Programmings by the number that was told and by another one that would refuse them.
    order: [[u64; 5]; 5],
    edges: [[u64; 6]; EDGES.len()],
    /// Numbers of data bytes by the part's length.
    counts: [[u64; 6]; COUNTS.len()],
    /// The offsets in a page at which so many data bytes have begun.
    offsets: [BTreeSet<usize>; COUNTS.len()],
    pieces: [[u64; USES.len()]; MOST_PIECES + 1],
    starts: [[u64; 6]; STARTS.len()],
    /// Runs that end at the top, by length.
    tops: [u64; 6],
    /// Runs of some bytes by TB, level and length.
    levels: [[[u64; 6]; LEVELS]; 2],
    situations: Tally,
}

impl ProgrammingCoverage {
    /// Nothing yet.
    pub fn new() -> ProgrammingCoverage {
        ProgrammingCoverage {
            numbers: [0; NUMBERS.len()],
            order: [[0; 5]; 5],
            edges: [[0; 6]; EDGES.len()],
            counts: [[0; 6]; COUNTS.len()],
            offsets: std::array::from_fn(|_| BTreeSet::new()),
            pieces: [[0; USES.len()]; MOST_PIECES + 1],
            starts: [[0; 6]; STARTS.len()],
            tops: [0; 6],
            levels: [[[0; 6]; LEVELS]; 2],
            situations: Tally::new(&SITUATIONS),
        }
    }

    /// Takes note of a programming, from the chip before and the number answered, and of what its
    /// script was used for. A run counts if the promise is about that chip.
    pub fn note_script(
        &mut self,
        before: &Expected,
        asked: &Programming,
        used: Use,
        number: u8,
        length: usize,
    ) {
        self.note_number(asked, number);
        self.note_order(asked, number);
        self.note_edges(asked, number);
        self.note_count(asked, number);
        if number == 0 && (used != Use::Run || asked.is_promised(&before.chip, length)) {
            self.pieces[asked.pieces()][used as usize] += 1;
            if used == Use::Run {
                self.note_run(asked, before, length);
            }
        }
    }

    /// Takes note of the number that was answered.
    fn note_number(&mut self, asked: &Programming, number: u8) {
        let column = NUMBERS.iter().position(|known| *known == number);
        self.numbers[column.expect("a number of the writer")] += 1;
        let tally = &mut self.situations;
        tally.saw("address of 2^24, 21", number == 21 && asked.address == 1 << 24);
        tally.saw("address of 2^64 - 1, 21", number == 21 && asked.address == usize::MAX);
        tally.saw("memory of 2^64 - 1, 1", number == 1 && asked.memory == usize::MAX);
    }

    /// Takes note of the number that is told where another one would refuse too.
    fn note_order(&mut self, asked: &Programming, number: u8) {
        let Some(told) = REFUSALS.iter().position(|known| *known == number) else { return };
        for (other, count) in self.order[told].iter_mut().enumerate() {
            *count += u64::from(other != told && asked.is_refused_by(REFUSALS[other]));
        }
    }

    /// Takes note of the edges that a programming is at.
    fn note_edges(&mut self, asked: &Programming, number: u8) {
        for ((_, due, is_at), counts) in EDGES.iter().zip(&mut self.edges) {
            for (length, count) in LENGTHS.iter().zip(counts) {
                *count += u64::from(number == *due && is_at(asked, *length));
            }
        }
    }

    /// Takes note of the number of data bytes, and of the offset at which they begin.
    fn note_count(&mut self, asked: &Programming, number: u8) {
        let count = COUNTS.iter().position(|count| *count == asked.data.len());
        let length = LENGTHS.iter().position(|known| *known == asked.memory);
        let (Some(count), Some(length)) = (count, length) else { return };
        if number == due_for(COUNTS[count]) {
            self.counts[count][length] += 1;
            self.offsets[count].insert(asked.address % 256);
        }
    }

    /// Takes note of a script that was run on a chip that the promise is about.
    fn note_run(&mut self, asked: &Programming, before: &Expected, length: usize) {
        let (chip, none) = (&before.chip, asked.data.is_empty());
        let Some(column) = LENGTHS.iter().position(|known| *known == length) else { return };
        let start = [chip.wen, chip.armed, none].map(usize::from);
        self.starts[start[0] + 2 * start[1] + 4 * start[2]][column] += 1;
        if !none {
            self.levels[usize::from(chip.tb)][usize::from(chip.level)][column] += 1;
        }
        self.tops[column] += u64::from(ends_at(asked, length, length));
        self.note_range(asked, chip, length);
        self.note_pins(asked, before);
    }

    /// Takes note of where the range of a run is, beside the top and the protected sectors.
    fn note_range(&mut self, asked: &Programming, chip: &Chip, length: usize) {
        let (some, end) = (!asked.data.is_empty(), asked.address + asked.data.len());
        let protected = ends(chip, length);
        let up_to = protected.is_some_and(|(first, _)| end == first * Chip::SECTOR);
        let from = protected.is_some_and(|(_, last)| asked.address == (last + 1) * Chip::SECTOR);
        let all = protected == Some((0, length / Chip::SECTOR - 1));
        let tally = &mut self.situations;
        tally.saw("run over a sector edge", asked.sectors().len() > 1);
        tally.saw("run up to the protected sectors", some && up_to);
        tally.saw("run from the protected sectors on", some && from);
        tally.saw("run of no bytes, all sectors protected", !some && all);
    }

    /// Takes note of the pins and of the leftovers that a run began with.
    fn note_pins(&mut self, asked: &Programming, before: &Expected) {
        let (chip, left) = (&before.chip, before.left != NOTHING);
        let some = !asked.data.is_empty();
        let tally = &mut self.situations;
        tally.saw("run with SRWP 1 and WP low", some && chip.srwp && !chip.wp_high);
        tally.saw("run with WP high", some && chip.wp_high);
        tally.saw("run on leftovers", some && left);
        tally.saw("run of no bytes on leftovers", !some && left);
    }

    /// Prints the tables and gives the number of cells that are empty, or filled and should not be.
    pub fn report(&self) -> usize {
        let mut faults = self.report_numbers();
        faults += self.report_edges();
        faults += self.report_pieces();
        faults += self.report_runs();
        println!("\nprogrammings beside these");
        faults + self.situations.report()
    }

    /// Prints the writer's numbers, and which of two is told.
    fn report_numbers(&self) -> usize {
        println!("\nthe script writer's numbers");
        print_head(&NUMBERS);
        print!("{:24}", "writer");
        let mut faults = print_cells(&self.numbers, |_| true);
        println!("\nthe number that is told, by another that would refuse too (- cannot occur)");
        print_head(&REFUSALS);
        for (told, counts) in self.order.iter().enumerate() {
            print!("{:24}", format!("{} is told", REFUSALS[told]));
            faults += print_cells(counts, |other| other > told);
        }
        faults
    }

    /// Prints the edges, the numbers of data bytes and their offsets.
    fn report_edges(&self) -> usize {
        println!("\nprogrammings at an edge, by the part's sectors; a number behind it refuses");
        print_head(&SECTORS);
        let mut faults = 0;
        for ((name, ..), counts) in EDGES.iter().zip(&self.edges) {
            print!("{name:24}");
            faults += print_cells(counts, |_| true);
        }
        for (count, counts) in COUNTS.iter().zip(&self.counts) {
            print!("{:24}", count_words(*count));
            faults += print_cells(counts, |_| true);
        }
        println!("\noffsets in a page, of 256, at which so many bytes began");
        for (count, offsets) in COUNTS.iter().zip(&self.offsets) {
            faults += print_seen(&count_words(*count), offsets.len(), 256);
        }
        faults
    }

    /// Prints what scripts were used for, by their pieces.
    fn report_pieces(&self) -> usize {
        println!("\nscripts by their pieces: read, held to the text form, run in their exact room");
        println!("{:24}{:>8}{:>8}{:>8}", "", USES[0], USES[1], USES[2]);
        let mut faults = 0;
        for (pieces, counts) in self.pieces.iter().enumerate() {
            print!("{:24}", format!("{pieces}"));
            faults += print_cells(counts, |_| true);
        }
        faults
    }

    /// Prints the states that scripts were run on, by the part's sectors.
    fn report_runs(&self) -> usize {
        println!("\nscripts run as the promise says, by the part's sectors");
        println!("(- cannot occur: the level protects all)");
        print_head(&SECTORS);
        let mut faults = 0;
        for (name, counts) in STARTS.iter().zip(&self.starts) {
            print!("{name:24}");
            faults += print_cells(counts, |_| true);
        }
        print!("{:24}", "up to the top");
        faults += print_cells(&self.tops, |_| true);
        for (tb, by_level) in self.levels.iter().enumerate() {
            for (level, counts) in by_level.iter().enumerate() {
                print!("{:24}", format!("TB {tb}, level {level}"));
                faults += print_cells(counts, |length| (1 << level) / 2 < SECTORS[length]);
            }
        }
        faults
    }
}

/// A number of data bytes in words, with the number that refuses it.
fn count_words(count: usize) -> String {
    match (count, due_for(count)) {
        (1, _) => "1 byte".to_string(),
        (_, 0) => format!("{count} bytes"),
        (_, number) => format!("{count} bytes, {number}"),
    }
}
