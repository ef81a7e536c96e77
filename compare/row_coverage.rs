// What has occurred about rows: the data bytes of a read of cells that a script has one after
// another, with no other event between them. By how many they are, by where they end and by what
// stands before and behind them; and as long rows of exchanges that are no data bytes.

use crate::case::LENGTHS;
use crate::commands::{row_of, COMMANDS, EMPTY};
use crate::event::{kind, Event, LONGEST};
use crate::model::Chip;
use crate::tally::{print_cells, print_names, print_seen, Tally};
use std::collections::BTreeSet;

/// The reads of cells: their opcodes, each with the number of bytes before its data.
pub const READS: [(u8, usize); 2] = [(0x03, 4), (0x0B, 5)];

/// The rows by the number of their bytes: a name and the least number of it. They part where a run
/// may count a row in blocks of 4, 16 or 64.
const CLASSES: [(&str, usize); 12] = [
    ("no byte", 0),
    ("1", 1),
    ("2", 2),
    ("3", 3),
    ("4", 4),
    ("5 to 15", 5),
    ("16", 16),
    ("17 to 63", 17),
    ("64", 64),
    ("65 to 255", 65),
    ("256 to 999", 256),
    ("1,000 and more", 1_000),
];

/// Where the last cell of a row is: below the top, the top itself, the first one after it, or one
/// further on. A row needs as many bytes as the number of its place here to end there.
pub const TOPS: [&str; 4] = ["below", "top", "over 1", "over"];

/// What a row stands between: its header in the script and a clean deselect, a loose one or the
/// script's end, or the script's begin and whatever comes behind.
const SHAPES: [&str; 4] = ["clean", "loose", "left open", "gone on with"];

/// The number of the last shape.
const GONE_ON: usize = 3;

/// What can come behind a row.
const BEHIND: [&str; 9] = [
    "a deselect",
    "a loose deselect",
    "a select",
    "a tick",
    "ticks",
    "a WP level",
    "a power cut",
    "a stamp",
    "the script's end",
];

/// The rows of 1 byte to so many have to come before each of these: all places in a block of 64,
/// and the first of the next.
pub const ALL_PLACES: usize = 65;

/// The bytes of a row that is a long one where it is no row of data.
const LONG: usize = 64;

/// The bytes of the read that takes long.
pub const LONG_READ: usize = 30_000;

/// What has to occur, beside the cells of the tables.
const SITUATIONS: [&str; 5] = [
    "03h, 30,000 data bytes in one script",
    "0Bh, 30,000 data bytes in one script",
    "script of 65,536 bytes that is one row",
    "frame that reads more cells than the part has",
    "row that floats behind the end of the job it was judged by",
];

/// The number of the read of cells that an opcode begins, if it begins one.
pub fn read_by(byte: u64) -> Option<usize> {
    READS.iter().position(|(opcode, _)| u64::from(*opcode) == byte)
}

/// The number of the read of cells that a chip's frame is, if it is one and is not turned away.
pub fn read_of(chip: &Chip) -> Option<usize> {
    let frame = &chip.frame;
    read_by(u64::from(frame.opcode)).filter(|_| frame.judgement.is_none())
}

/// The number of the read of cells that drives a data byte next, if a chip's frame is one.
pub fn data_of(chip: &Chip) -> Option<usize> {
    read_of(chip).filter(|read| usize::from(chip.frame.byte_count) >= READS[*read].1)
}

/// The number of the last class, of some with their least numbers, that so many bytes are of.
pub fn class_of(classes: &[(&str, usize)], count: usize) -> usize {
    classes.iter().rposition(|(_, least)| *least <= count).unwrap_or(0)
}

/// What stands before an event in its script.
#[derive(Clone, Copy, PartialEq)]
enum Before {
    Nothing,
    /// The last byte of a read's header.
    Header,
    Other,
}

/// A row that is read at present.
struct Row {
    read: usize,
    before: Before,
    /// The address of its frame, and its own first cell.
    address: usize,
    first: usize,
    count: usize,
}

impl Row {
    /// A row of no bytes that begins on a chip.
    fn new(read: usize, before: Before, chip: &Chip) -> Row {
        let (address, first) = (chip.frame.address as usize, chip.frame.read_place as usize);
        Row { read, before, address, first, count: 0 }
    }

    /// The column of where it ends.
    fn top(&self, length: usize) -> usize {
        let past = (self.first + self.count).checked_sub(length);
        past.map_or(0, |past| (1 + past).min(TOPS.len() - 1))
    }

    /// Whether it goes over the edge of two sectors, the last and the first one aside.
    fn is_over_edge(&self, length: usize) -> bool {
        let last = self.first + self.count.max(1) - 1;
        last < length && self.first / Chip::SECTOR != last / Chip::SECTOR
    }

    /// Its shape, if it has one, given the event behind it.
    fn shape(&self, behind: Option<Event>) -> Option<usize> {
        match (self.before, behind) {
            (Before::Nothing, _) => Some(GONE_ON),
            (Before::Header, Some((kind::DESELECT, 0))) => Some(0),
            (Before::Header, Some((kind::DESELECT, _))) => Some(1),
            (Before::Header, None) => Some(2),
            _ => None,
        }
    }
}

/// The place in its list of what comes behind a row.
fn place_behind(behind: Option<Event>) -> usize {
    match behind {
        Some((kind::DESELECT, 0)) => 0,
        Some((kind::DESELECT, _)) => 1,
        Some((kind::SELECT, _)) => 2,
        Some((kind::TICK, _)) => 3,
        Some((kind::TICKS, _)) => 4,
        Some((kind::WP_LEVEL, _)) => 5,
        Some((kind::POWER_CUT, _)) => 6,
        Some(_) => 7,
        None => 8,
    }
}

/// All that has occurred about rows.
pub struct RowCoverage {
    /// Rows by read, class, shape and where they end.
    rows: [[[[u64; TOPS.len()]; SHAPES.len()]; CLASSES.len()]; READS.len()],
    /// Rows behind their header by read, memory length, whether their address is below it, and
    /// where they end.
    tops: [[[[u64; TOPS.len()]; 2]; LENGTHS.len()]; READS.len()],
    /// Rows over the edge of two sectors by read and memory length.
    edges: [[u64; LENGTHS.len()]; READS.len()],
    /// Rows with a shape by the form of their run.
    forms: [[[u64; 2]; SHAPES.len()]; READS.len()],
    /// The numbers of bytes of the rows before each thing that can come behind one.
    behind: [[BTreeSet<usize>; READS.len()]; BEHIND.len()],
    /// Long rows that are no row of data, by what they are in.
    long: [u64; COMMANDS.len()],
    situations: Tally,
    before: Before,
    row: Option<Row>,
    /// The exchanges of the present row that is no row of data.
    others: usize,
    /// The cells that the open frame has read.
    cells: usize,
    form: usize,
}

impl RowCoverage {
    /// Nothing yet.
    pub fn new() -> RowCoverage {
        RowCoverage {
            rows: [[[[0; TOPS.len()]; SHAPES.len()]; CLASSES.len()]; READS.len()],
            tops: [[[[0; TOPS.len()]; 2]; LENGTHS.len()]; READS.len()],
            edges: [[0; LENGTHS.len()]; READS.len()],
            forms: [[[0; 2]; SHAPES.len()]; READS.len()],
            behind: Default::default(),
            long: [0; COMMANDS.len()],
            situations: Tally::new(&SITUATIONS),
            before: Before::Other,
            row: None,
            others: 0,
            cells: 0,
            form: 0,
        }
    }

    /// Takes note of the begin of a run, with a report or without one.
    pub fn begin_run(&mut self, report: bool) {
        (self.before, self.row, self.others) = (Before::Nothing, None, 0);
        self.form = usize::from(report);
    }

    /// Takes note of an event of a run, from the chip before it.
    pub fn note_event(&mut self, chip: &Chip, event: Event, length: usize) {
        let exchange = event.0 == kind::EXCHANGE;
        if let (true, Some(read)) = (exchange, data_of(chip)) {
            let before = self.before;
            self.row.get_or_insert_with(|| Row::new(read, before, chip)).count += 1;
            self.cells += 1;
            let all = self.cells > length;
            self.situations.saw("frame that reads more cells than the part has", all);
            return;
        }
        self.end_row(chip, Some(event), length);
        if exchange {
            self.others += 1;
        } else {
            self.end_others(chip);
        }
        let counted = usize::from(chip.frame.byte_count) + 1;
        let header = exchange && read_of(chip).is_some_and(|read| counted == READS[read].1);
        self.before = if header { Before::Header } else { Before::Other };
        self.cells *= usize::from(chip.selected);
    }

    /// Takes note of the end of a run whose script has so many bytes, from the chip after it.
    pub fn end_run(&mut self, chip: &Chip, script: usize, length: usize) {
        let whole = self.row.as_ref().is_some_and(|row| row.before == Before::Nothing);
        let one_row = whole && script == LONGEST;
        self.situations.saw("script of 65,536 bytes that is one row", one_row);
        self.end_row(chip, None, length);
        self.end_others(chip);
    }

    /// Takes note of the end of a row, if one is read, from the chip behind it and the event there;
    /// right behind a header there is one of no bytes.
    fn end_row(&mut self, chip: &Chip, behind: Option<Event>, length: usize) {
        let empty = data_of(chip).filter(|_| self.before == Before::Header);
        let empty = empty.map(|read| Row::new(read, Before::Header, chip));
        let Some(row) = self.row.take().or(empty) else { return };
        self.before = Before::Other;
        let (read, top) = (row.read, row.top(length));
        self.behind[place_behind(behind)][read].insert(row.count);
        if row.count == LONG_READ {
            let name = format!("{:02X}h, 30,000 data bytes in one script", READS[read].0);
            self.situations.saw(&name, true);
        }
        if let Some(shape) = row.shape(behind) {
            self.rows[read][class_of(&CLASSES, row.count)][shape][top] += 1;
            self.forms[read][shape][self.form] += 1;
        }
        let Some(part) = LENGTHS.iter().position(|known| *known == length) else { return };
        self.edges[read][part] += u64::from(row.is_over_edge(length));
        if row.before == Before::Header && row.count > 0 {
            let beyond = usize::from(row.address >= length);
            self.tops[read][part][beyond][top] += 1;
        }
    }

    /// Takes note of the end of a row of exchanges that are no data bytes, from the chip behind it.
    fn end_others(&mut self, chip: &Chip) {
        let long = self.others >= LONG;
        self.others = 0;
        self.long[row_of(chip)] += u64::from(long);
        let judged = chip.frame.judgement == Some(6) && chip.job.is_none();
        let floats = long && judged && read_by(u64::from(chip.frame.opcode)).is_some();
        self.situations.saw("row that floats behind the end of the job it was judged by", floats);
    }

    /// Prints the tables and gives the number of cells that are empty, or filled and should not be.
    pub fn report(&self) -> usize {
        let mut faults = self.report_rows() + self.report_tops();
        println!("\nrows of 1 to {ALL_PLACES} data bytes before other events: all of them");
        for (name, by_read) in BEHIND.iter().zip(&self.behind) {
            for ((opcode, _), counts) in READS.iter().zip(by_read) {
                let seen = counts.range(1..=ALL_PLACES).count();
                faults += print_seen(&format!("{opcode:02X}h, {name}"), seen, ALL_PLACES);
            }
        }
        println!("\nrows of 64 exchanges and more that are no data bytes of a read of cells");
        for (row, (command, count)) in COMMANDS.iter().zip(&self.long).enumerate() {
            print!("{}", command.head());
            faults += print_cells(&[*count], |_| row != EMPTY);
        }
        println!("\nreads of cells beside these");
        faults + self.situations.report()
    }

    /// Prints rows by their bytes, by what they stand between and by where they end.
    fn report_rows(&self) -> usize {
        let (mut faults, heads) = (0, SHAPES.map(|shape| format!("{shape:>32}")).concat());
        for ((opcode, _), by_class) in READS.iter().zip(&self.rows) {
            println!("\nrows of {opcode:02X}h by their data bytes, and by where the last one is");
            println!("(- cannot occur: too few bytes; none is no row to go on with)");
            println!("{:24}{heads}", "");
            print_names(&TOPS.repeat(SHAPES.len()));
            for ((name, least), by_shape) in CLASSES.iter().zip(by_class) {
                print!("{name:24}");
                faults += print_cells(by_shape.as_flattened(), |column| {
                    let gone_on = column / TOPS.len() == GONE_ON;
                    column % TOPS.len() <= *least && !(gone_on && *least == 0)
                });
            }
        }
        faults
    }

    /// Prints rows by the part's sectors and by the form of their run.
    fn report_tops(&self) -> usize {
        println!("\nrows by the part's sectors: address below the length, at or past it, and");
        println!("over the edge of two sectors (- cannot occur: the part has one)");
        print_names(&[&TOPS[..], &TOPS, &["edge"]].concat());
        let mut faults = 0;
        for (read, (opcode, _)) in READS.iter().enumerate() {
            for (part, length) in LENGTHS.iter().enumerate() {
                let sectors = length / Chip::SECTOR;
                let edge = [self.edges[read][part]];
                print!("{:24}", format!("{opcode:02X}h, S = {sectors}"));
                let counts = [self.tops[read][part].as_flattened(), &edge].concat();
                faults += print_cells(&counts, |column| column < 2 * TOPS.len() || sectors > 1);
            }
        }
        println!("\nrows by the form of their run");
        print_names(&["plain", "report"]);
        for ((opcode, _), by_shape) in READS.iter().zip(&self.forms) {
            for (shape, counts) in SHAPES.iter().zip(by_shape) {
                print!("{:24}", format!("{opcode:02X}h, {shape}"));
                faults += print_cells(counts, |_| true);
            }
        }
        faults
    }
}
