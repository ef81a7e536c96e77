// What has occurred about reads of cells in runs: whole frames by what the chip is doing, by their
// bytes and by the frames and jobs beside them, headers that two scripts share, rows that scripts
// are refused behind, and all rows.

use crate::case::Step;
use crate::class::Class;
use crate::commands::{row_of, COMMANDS, EMPTY, UNSELECTED};
use crate::event::{events_of, kind, Event};
use crate::kind_table::KindTable;
use crate::model::Chip;
use crate::row_coverage::{class_of, data_of, read_by, read_of, RowCoverage, READS};
use crate::side::Answer;
use crate::tally::{print_cells, print_names, Tally};

/// What a chip can be doing when a read's frame begins: without a job, with one, asleep; and that
/// it was selected before the script began.
pub const STATES: [&str; 10] = [
    "idle",
    "WEN 1",
    "armed",
    "running",
    "running, armed",
    "in the wait",
    "suspended",
    "suspended, armed",
    "asleep",
    "selected before",
];

/// The number of the last of them.
const SELECTED: usize = 9;

/// The bytes of a whole frame, those of a header that is cut short first: a name and the least
/// number. Where there are data, 03h is counted with a dummy.
const BYTES: [(&str, usize); 9] = [
    ("1", 1),
    ("2", 2),
    ("3", 3),
    ("4", 4),
    ("dummy", 5),
    ("1 data", 6),
    ("4 on", 9),
    ("16 on", 21),
    ("64 on", 69),
];

/// The column of a frame that ends with the dummy, and the number of 03h, which has none.
const DUMMY: usize = 4;
const WITHOUT_DUMMY: usize = 0;

/// Where another frame is beside a read.
const BESIDE: [&str; 2] = ["before", "behind"];

/// The rows that a script is refused behind, or done with in its exact room: a name and the least
/// number of bytes.
const ROWS: [(&str, usize); 4] = [("1 on", 1), ("16 on", 16), ("64 on", 64), ("256 on", 256)];

/// The numbers of those refusals, 0 where the script is done.
const REFUSALS: [u8; 5] = [0, 4, 5, 6, 7];

/// What the job of a run with a report is doing when a read's frame goes by.
const JOBS: [&str; 4] = ["running, 6", "in the wait, 6", "in suspension", "gone"];

/// What has to occur, beside the cells of the tables.
const SITUATIONS: [&str; 2] = [
    "bytes of a whole read behind a select in an open frame",
    "stamps with a row between them, a job running",
];

/// What a chip is doing that is not selected.
fn state_of(Chip { wen, armed, deep, suspended, waiting, job, .. }: &Chip) -> usize {
    let name = match (job, *armed) {
        _ if *deep => "asleep",
        _ if *waiting => "in the wait",
        (Some(_), true) if *suspended => "suspended, armed",
        (Some(_), false) if *suspended => "suspended",
        (Some(_), true) => "running, armed",
        (Some(_), false) => "running",
        (None, true) => "armed",
        (None, false) if *wen => "WEN 1",
        _ => "idle",
    };
    STATES.iter().position(|known| *known == name).expect("a name of the list")
}

/// The column of a whole frame of a read that has so many bytes.
fn column_of(read: usize, bytes: usize) -> usize {
    let (_, header) = READS[read];
    class_of(&BYTES, if bytes > header { bytes - header + DUMMY + 1 } else { bytes })
}

/// The row of data bytes that events end with, a deselect behind it aside, if a chip answers it:
/// the number of its read, whether the frame was open before the events, and its bytes.
fn last_row(chip: &Chip, events: &[Event]) -> Option<(usize, bool, usize)> {
    let events = match events {
        [before @ .., (kind::DESELECT, _)] => before,
        _ => events,
    };
    let exchanges = events.iter().rev().take_while(|event| event.0 == kind::EXCHANGE).count();
    let idle = !chip.selected && !chip.deep && chip.job.is_none();
    match events.split_at(events.len() - exchanges) {
        ([], _) => data_of(chip).map(|read| (read, true, exchanges)),
        ([(kind::SELECT, _)], [(_, opcode), ..]) if idle => {
            let read = read_by(*opcode)?;
            Some((read, false, exchanges.checked_sub(READS[read].1)?))
        }
        _ => None,
    }
}

/// What stands before a frame: the row of what it is, and the number of the read if it is a whole
/// one.
type Last = (usize, Option<usize>);

/// A frame that the present script has begun, or has found without a byte.
struct Present {
    state: usize,
    bytes: usize,
    /// It has only exchanges inside.
    plain: bool,
    last: Option<Last>,
}

/// All that has occurred about reads of cells in runs.
pub struct ReadCoverage {
    rows: RowCoverage,
    /// Whole frames by read, by what the chip is doing and by their bytes.
    frames: [[[u64; BYTES.len()]; STATES.len()]; READS.len()],
    /// The same by whether they end loosely.
    ends: [[[u64; 2]; STATES.len()]; READS.len()],
    /// Headers that a script goes on with, by the bytes that they had before it.
    headers: [[u64; 6]; READS.len()],
    /// Other frames by where they are beside a whole one of each read.
    beside: [[[u64; BESIDE.len()]; READS.len()]; COMMANDS.len()],
    /// Scripts that are refused behind a row, or done, by whether its frame was open before.
    refused: [[[[u64; ROWS.len()]; REFUSALS.len()]; 2]; READS.len()],
    jobs: KindTable,
    situations: Tally,
    in_run: bool,
    report: bool,
    frame: Option<Present>,
    last: Option<Last>,
    /// The exchanges behind a select in an open frame, as long as they may be those of a read.
    again: Option<usize>,
    /// The kind of the job before the last event, and of the last one that is gone.
    job: Option<Class>,
    gone: Option<Class>,
    /// Whether a data byte was driven since the last stamp of the run, if there was one.
    row_since: Option<bool>,
}

impl ReadCoverage {
    /// Nothing yet.
    pub fn new() -> ReadCoverage {
        ReadCoverage {
            rows: RowCoverage::new(),
            frames: [[[0; BYTES.len()]; STATES.len()]; READS.len()],
            ends: [[[0; 2]; STATES.len()]; READS.len()],
            headers: [[0; 6]; READS.len()],
            beside: [[[0; BESIDE.len()]; READS.len()]; COMMANDS.len()],
            refused: [[[[0; ROWS.len()]; REFUSALS.len()]; 2]; READS.len()],
            jobs: KindTable::new(&JOBS),
            situations: Tally::new(&SITUATIONS),
            in_run: false,
            report: false,
            frame: None,
            last: None,
            again: None,
            job: None,
            gone: None,
            row_since: None,
        }
    }

    /// Takes note of a step that was answered, from the chip before it.
    pub fn note_step(&mut self, chip: &Chip, step: &Step, answer: &Answer) {
        let Step::Run { script, spare, .. } = step else { return };
        let events = match (answer.refusal, spare) {
            (4..=6, _) => events_of(&script[..answer.offset as usize]).0,
            (0, 0) | (7, -1) => events_of(script).0,
            _ => return,
        };
        let number = REFUSALS.iter().position(|number| *number == answer.refusal);
        if let (Some((read, open, bytes @ 1..)), Some(number)) = (last_row(chip, &events), number) {
            self.refused[read][usize::from(open)][number][class_of(&ROWS, bytes)] += 1;
        }
    }

    /// Takes note of the begin of a run that is done, with a report or without one.
    pub fn begin_run(&mut self, chip: &Chip, events: &[Event], report: bool) {
        (self.in_run, self.report) = (true, report);
        (self.last, self.again, self.row_since) = (None, None, None);
        (self.job, self.gone) = (None, None);
        let (count, empty) = (usize::from(chip.frame.byte_count), row_of(chip) == EMPTY);
        let found = Present { state: SELECTED, bytes: 0, plain: true, last: None };
        self.frame = empty.then_some(found);
        self.rows.begin_run(report);
        let Some((kind::EXCHANGE, byte)) = events.first() else { return };
        let begun = read_of(chip).filter(|read| count <= READS[*read].1);
        if let Some(read) = begun.or(read_by(*byte).filter(|_| empty)) {
            self.headers[read][count] += 1;
        }
    }

    /// Takes note of an event of a run, from the chip before it; one alone is none.
    pub fn note_event(&mut self, chip: &Chip, event: Event, length: usize) {
        if !self.in_run {
            return;
        }
        self.rows.note_event(chip, event, length);
        let job = chip.job.as_ref().map(Class::of);
        self.gone = self.job.or(self.gone).filter(|_| job.is_none());
        self.job = job;
        match event.0 {
            kind::EXCHANGE => self.note_exchange(chip, event.1),
            kind::DESELECT => self.end_frame(chip, event.1 > 0),
            kind::SELECT if !chip.selected => {
                let (state, last) = (state_of(chip), self.last.take());
                self.frame = Some(Present { state, bytes: 0, plain: true, last });
            }
            kind => self.note_other(chip, kind),
        }
    }

    /// Takes note of an exchange.
    fn note_exchange(&mut self, chip: &Chip, byte: u64) {
        self.row_since = self.row_since.map(|since| since || data_of(chip).is_some());
        self.again = match self.again {
            Some(0) => read_by(byte).map(|_| 1),
            more => more.map(|exchanges| exchanges + 1),
        };
        if let Some(frame) = &mut self.frame {
            frame.bytes += 1;
        }
        if !chip.selected {
            self.note_beside(UNSELECTED, None);
        }
    }

    /// Takes note of an event that is no part of a whole frame.
    fn note_other(&mut self, chip: &Chip, kind: u64) {
        if let Some(frame) = &mut self.frame {
            frame.plain = false;
        }
        self.last = None;
        self.again = (kind == kind::SELECT && chip.frame.byte_count > 0).then_some(0);
        if kind == kind::STAMP {
            let running = self.row_since == Some(true) && chip.job.is_some() && !chip.suspended;
            self.situations.saw("stamps with a row between them, a job running", running);
            self.row_since = Some(false);
        }
    }

    /// Takes note of a deselect, loose or not.
    fn end_frame(&mut self, chip: &Chip, loose: bool) {
        let again = self.again.take().is_some_and(|exchanges| exchanges > 4);
        self.situations.saw("bytes of a whole read behind a select in an open frame", again);
        let frame = self.frame.take().filter(|frame| frame.plain);
        let opcode = u64::from(chip.frame.opcode);
        let read = frame.as_ref().and_then(|_| read_by(opcode));
        if let (Some(frame), Some(read)) = (&frame, read) {
            self.frames[read][frame.state][column_of(read, frame.bytes)] += 1;
            self.ends[read][frame.state][usize::from(loose)] += 1;
            self.note_read_beside_job(chip);
        }
        self.last = frame.and_then(|frame| frame.last);
        self.note_beside(row_of(chip), read);
    }

    /// Takes note of a frame, of which `last` says what stands before it, and lets it stand before
    /// the next: its row, and the number of the read if it is a whole one.
    fn note_beside(&mut self, row: usize, read: Option<usize>) {
        if let Some((before, read_before)) = self.last {
            if let Some(read) = read {
                self.beside[before][read][0] += 1;
            }
            if let Some(read) = read_before {
                self.beside[row][read][1] += 1;
            }
        }
        self.last = Some((row, read));
    }

    /// Takes note of a read's whole frame in a run with a report, beside a job or after one.
    fn note_read_beside_job(&mut self, chip: &Chip) {
        let name = match chip {
            _ if !self.report => return,
            Chip { job: None, .. } => "gone",
            Chip { suspended: true, .. } => "in suspension",
            Chip { waiting: true, .. } => "in the wait, 6",
            _ => "running, 6",
        };
        if let Some(class) = self.job.or(self.gone) {
            self.jobs.saw(name, class, true);
        }
    }

    /// Takes note of the end of a run whose script has so many bytes, from the chip after it.
    pub fn end_run(&mut self, chip: &Chip, script: usize, length: usize) {
        self.rows.end_run(chip, script, length);
        self.in_run = false;
    }

    /// Prints the tables and gives the number of cells that are empty, or filled and should not be.
    pub fn report(&self) -> usize {
        let mut faults = self.rows.report() + self.situations.report();
        faults += self.report_frames() + self.report_headers() + self.report_beside();
        faults += self.report_refused();
        println!("\nwhole reads of cells in runs with a report, by the job beside them");
        println!("(- cannot occur: a write status does not wait and is not suspended)");
        faults + self.jobs.report(|name| matches!(name, "running, 6" | "gone"))
    }

    /// Prints whole frames.
    fn report_frames(&self) -> usize {
        println!("\nwhole reads of cells by what the chip is doing and by their bytes");
        println!("(- cannot occur: 03h has no dummy)");
        print_names(&[&BYTES.map(|(name, _)| name)[..], &["clean", "loose"]].concat());
        let mut faults = 0;
        for (read, (opcode, _)) in READS.iter().enumerate() {
            for (state, name) in STATES.iter().enumerate() {
                print!("{:24}", format!("{opcode:02X}h, {name}"));
                let counts = [&self.frames[read][state][..], &self.ends[read][state]].concat();
                faults += print_cells(&counts, |at| at != DUMMY || read != WITHOUT_DUMMY);
            }
        }
        faults
    }

    /// Prints headers that two scripts share.
    fn report_headers(&self) -> usize {
        println!("\nreads of cells that a script goes on with, by their bytes before it");
        println!("(- cannot occur: 03h has no dummy)");
        print_names(&["0", "1", "2", "3", "4", "5"]);
        let mut faults = 0;
        for ((opcode, header), counts) in READS.iter().zip(&self.headers) {
            print!("{:24}", format!("{opcode:02X}h"));
            faults += print_cells(counts, |bytes| bytes <= *header);
        }
        faults
    }

    /// Prints the frames beside whole reads.
    fn report_beside(&self) -> usize {
        println!("\nframes right before a whole 03h and behind it, and the same of 0Bh");
        print_names(&BESIDE.repeat(READS.len()));
        let mut faults = 0;
        for (command, by_read) in COMMANDS.iter().zip(&self.beside) {
            print!("{}", command.head());
            faults += print_cells(by_read.as_flattened(), |_| true);
        }
        faults
    }

    /// Prints the rows that scripts are refused behind.
    fn report_refused(&self) -> usize {
        println!("\nscripts refused right behind a row, those by 7 for want of a byte; by 0: done");
        print_names(&ROWS.map(|(name, _)| name));
        let mut faults = 0;
        for ((opcode, _), by_open) in READS.iter().zip(&self.refused) {
            for (open, by_number) in ["", ", open before"].iter().zip(by_open) {
                for (number, counts) in REFUSALS.iter().zip(by_number) {
                    print!("{:24}", format!("{opcode:02X}h{open}, {number}"));
                    faults += print_cells(counts, |_| true);
                }
            }
        }
        faults
    }
}
