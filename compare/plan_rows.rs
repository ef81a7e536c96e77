// The planned cases about rows of data bytes: of every number about the blocks that a run may take
// them in, wherever they end and whatever stands before and behind them; with each event that may
// come into them; with what a script is refused by behind them; and rows that are none of data.

use crate::case::LENGTHS;
use crate::commands::{COMMANDS, EMPTY, UNSELECTED};
use crate::event::{exchanges_of, kind, script_of, Event, LONGEST};
use crate::generate::Writer;
use crate::model::Chip;
use crate::row_coverage::{ALL_PLACES, LONG_READ, READS, TOPS};
use crate::session::{Outcome, Session};

/// The numbers of data bytes of a row: those about 4, 16, 64 and 256, and a large one.
const COUNTS: [usize; 25] = [
    0, 1, 2, 3, 4, 5, 15, 16, 17, 31, 32, 33, 63, 64, 65, 67, 68, 69, 127, 128, 129, 255, 256, 257,
    1_000,
];

/// Some of them, each with the column of where its row ends.
const FEW_ROWS: [(usize, usize); 5] = [(0, 0), (1, 1), (16, 3), (64, 0), (257, 2)];

/// What a script is refused by: its last bytes, and the number.
const REFUSED: [(&[u8], u8); 6] =
    [(&[2], 4), (&[3], 4), (&[5, 2], 4), (&[0x0A], 5), (&[3, 8], 6), (&[6, 2], 6)];

/// What may come into a row. The bodies look like exchanges where they are taken as events, as the
/// bytes of the rows about them do where they are taken a byte too early or too late.
const INTO_ROWS: [Event; 9] = [
    END,
    (kind::DESELECT, 2),
    (kind::SELECT, 0),
    (kind::TICK, 0),
    (kind::TICKS, 0x0202),
    (kind::WP_LEVEL, 0),
    (kind::WP_LEVEL, 1),
    (kind::POWER_CUT, 0),
    (kind::STAMP, 0x0202),
];

/// A deselect on the byte boundary.
pub const END: Event = (kind::DESELECT, 0);

/// The events that begin a read of cells: a select, and the exchanges of its header.
pub fn begin(read: usize, address: u32) -> Vec<Event> {
    let (opcode, header) = READS[read];
    let mut bytes = Writer::with_address(opcode, address);
    bytes.resize(header, 0);
    [(kind::SELECT, 0)].into_iter().chain(exchanges_of(bytes)).collect()
}

/// So many exchanges, which look the same where they are taken a byte too early or too late.
pub fn exchanges(count: usize) -> Vec<Event> {
    exchanges_of(vec![kind::EXCHANGE as u8; count]).collect()
}

/// The first cell of a row that ends where a column of the table of rows says, those past the top
/// being so many if that is the last column; none if the row has too few bytes.
fn first_cell(top: usize, count: usize, length: usize, past: usize) -> Option<usize> {
    match top {
        0 => Some(length / 3),
        _ => {
            let past = [0, 0, 1, past.max(2)][top];
            (past < count).then(|| length + past - count)
        }
    }
}

impl Session<'_> {
    /// Some rows: on a part of one sector, with other events, before what is refused, and over the
    /// edge of two sectors.
    pub fn some_rows(&mut self) -> Outcome {
        self.rows_of(0, &FEW_ROWS)?;
        self.rows_with_events(1, 4)?;
        self.refused_behind(0)?;
        self.rows_over_edges(LENGTHS[1])
    }

    /// All rows.
    pub fn all_rows(&mut self) -> Outcome {
        for read in 0..READS.len() {
            for count in COUNTS {
                self.rows_of(read, &[(count, 0), (count, 1), (count, 2), (count, 3)])?;
            }
            self.rows_with_events(read, ALL_PLACES)?;
            self.refused_behind(read)?;
        }
        for length in LENGTHS {
            self.rows_on(length)?;
            self.rows_over_edges(length)?;
        }
        for row in (0..COMMANDS.len()).filter(|row| *row != EMPTY) {
            self.long_row_in(row)?;
        }
        self.long_reads()
    }

    /// Any address that means a cell on the part of the present case.
    pub fn any_address(&mut self, cell: usize) -> u32 {
        let length = self.bench.length;
        (cell % length + length * self.rng.below((1 << 24) / length)) as u32
    }

    /// A deselect with some bits loose.
    pub fn loose_end(&mut self) -> Event {
        (kind::DESELECT, 1 + self.rng.below(7) as u64)
    }

    /// So many exchanges of any bytes.
    fn any_exchanges(&mut self, count: usize) -> Vec<Event> {
        let mut bytes = vec![0; count];
        self.rng.fill(&mut bytes);
        exchanges_of(bytes).collect()
    }

    /// Rows of some numbers of data bytes, each with the column of where it ends, if it can end
    /// there, in every shape.
    fn rows_of(&mut self, read: usize, rows: &[(usize, usize)]) -> Outcome {
        self.open_fresh(LENGTHS[0], 0)?;
        for (count, top) in rows {
            let past = self.rng.below(*count.max(&1));
            if let Some(first) = first_cell(*top, *count, LENGTHS[0], past) {
                self.row_in_all_shapes(read, first, *count)?;
            }
        }
        self.close()
    }

    /// A row behind its header that is ended cleanly, loosely and by the script, which the next one
    /// goes on with; and one that stands at a script's begin.
    fn row_in_all_shapes(&mut self, read: usize, first: usize, count: usize) -> Outcome {
        let begun = begin(read, self.any_address(first));
        let row = self.any_exchanges(count);
        for end in [END, self.loose_end()] {
            self.one_run(&[&begun[..], &row, &[end]].concat())?;
        }
        self.one_run(&[&begun[..], &row].concat())?;
        let more = exchanges(self.rng.pick(&[0, 1, 1, 16, 17]));
        let end = self.loose_end();
        self.one_run(&[more, vec![end]].concat())?;
        let before = self.rng.below(6);
        let begun = begin(read, self.any_address(self.bench.length + first - before));
        self.one_run(&[begun, exchanges(before)].concat())?;
        self.one_run(&[&row[..], &[END]].concat())
    }

    /// Rows on a part of a length, wherever they can end.
    fn rows_on(&mut self, length: usize) -> Outcome {
        self.open_fresh(length, 0)?;
        for read in 0..READS.len() {
            for top in 0..TOPS.len() {
                let count = self.rng.pick(&[16, 33, 68, 130]);
                if let Some(first) = first_cell(top, count, length, count / 2) {
                    self.row_at_two_addresses(read, first, count)?;
                }
            }
        }
        self.close()
    }

    /// A row at an address below the part's length, and then at one past it, which the next script
    /// goes on with by 300 bytes.
    fn row_at_two_addresses(&mut self, read: usize, first: usize, count: usize) -> Outcome {
        let length = self.bench.length;
        let past = length * (1 + self.rng.below((1 << 24) / length - 1));
        let row = self.any_exchanges(count);
        let whole = [begin(read, first as u32), row.clone(), vec![END]].concat();
        self.one_run(&[whole, begin(read, (past + first) as u32), row].concat())?;
        self.one_run(&[exchanges(300), vec![END]].concat())
    }

    /// Rows over the edge of two sectors, the first two and any two, if a part has more than one.
    fn rows_over_edges(&mut self, length: usize) -> Outcome {
        self.open_fresh(length, 0)?;
        let sectors = length / Chip::SECTOR;
        let edges = [1, 1 + self.rng.below(sectors)];
        for edge in edges.into_iter().filter(|edge| *edge < sectors) {
            for read in 0..READS.len() {
                let (count, below) = (self.rng.pick(&[18, 70]), 1 + self.rng.below(16));
                let begun = begin(read, (edge * Chip::SECTOR - below) as u32);
                let row = self.any_exchanges(count);
                self.one_run(&[&begun[..], &row, &[END]].concat())?;
                self.one_run(&[begun, row].concat())?;
                self.one_run(&[END])?;
            }
        }
        self.close()
    }

    /// Scripts that end in all ways right behind a row whose frame they begin, and behind one whose
    /// frame was open before.
    fn refused_behind(&mut self, read: usize) -> Outcome {
        self.open_fresh(LENGTHS[0], 0)?;
        for count in [3, 16, 64, 300] {
            let begun = begin(read, self.any_address(LENGTHS[0] - count / 2));
            let row = exchanges(count);
            self.refused_and_done(&[&begun[..], &row].concat())?;
            self.one_run(&begun)?;
            self.refused_and_done(&row)?;
        }
        self.close()
    }

    /// Scripts of events that are refused by what stands behind them, and with a deselect there for
    /// want of a byte of room, and then done in the exact one.
    fn refused_and_done(&mut self, events: &[Event]) -> Outcome {
        let good = script_of(events);
        for (bad, refusal) in REFUSED {
            let step = self.any_run([&good[..], bad].concat(), 5);
            let answer = self.step(step)?;
            self.hold_refusal(&answer, refusal, good.len() as u64)?;
        }
        let ended = [good, script_of(&[END])].concat();
        for (spare, refusal) in [(-1, 7), (0, 0)] {
            let step = self.any_run(ended.clone(), spare);
            let answer = self.step(step)?;
            self.hold_refusal(&answer, refusal, 0)?;
        }
        Ok(())
    }

    /// Rows of 1 data byte to so many, with each event that may come into them and more exchanges
    /// behind it, or left open; some stand at a script's begin.
    fn rows_with_events(&mut self, read: usize, most: usize) -> Outcome {
        self.open_fresh(LENGTHS[0], 0)?;
        for count in 1..=most {
            let first = LENGTHS[0] - self.rng.pick(&[1, 40, 2_000]);
            let begun = begin(read, self.any_address(first));
            let row = exchanges(count);
            for event in INTO_ROWS {
                let rest = [&[event], &exchanges(5)[..], &[END]].concat();
                self.one_run(&[&begun[..], &row, &rest].concat())?;
                if matches!(count, 1 | 16 | 17 | 64) {
                    self.one_run(&begun)?;
                    self.one_run(&[&row[..], &rest].concat())?;
                }
            }
            self.one_run(&[begun, row].concat())?;
            self.one_run(&[END])?;
        }
        self.close()
    }

    /// A long row of exchanges in a frame of a row of the table of commands that drives no cell, or
    /// without a frame; reads of cells are begun while a job runs, and go on behind its end.
    fn long_row_in(&mut self, row: usize) -> Outcome {
        self.open_fresh(LENGTHS[0], 0)?;
        let events = self.write(|writer| {
            writer.calm = true;
            let opcode = COMMANDS[row].opcode.unwrap_or_else(|| writer.unknown());
            let job = READS.iter().any(|read| read.0 == opcode);
            if job {
                writer.run_some();
            }
            if row != UNSELECTED {
                writer.select();
                writer.send(&[opcode]);
            }
            let steps = writer.steps_left();
            writer.ticks(steps);
            writer.events.extend(exchanges(70));
            writer.events.push(END);
        });
        self.one_run(&events)?;
        self.close()
    }

    /// The longest rows: a whole frame of 30,000 data bytes that goes over the top, and a frame
    /// that goes once round the part and on, in three scripts.
    fn long_reads(&mut self) -> Outcome {
        self.open_fresh(LENGTHS[0], 0)?;
        let row = self.any_exchanges(LONGEST / 2);
        self.one_run(&[&begin(1, 50_000)[..], &row[..LONG_READ], &[END]].concat())?;
        self.one_run(&[&begin(0, 7)[..], &row[..LONG_READ]].concat())?;
        self.one_run(&row)?;
        let end = self.loose_end();
        self.one_run(&[&row[..4_000], &[end]].concat())?;
        self.close()
    }
}
