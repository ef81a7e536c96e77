// What has occurred about deselects: the bits that they left loose by what they ended, and the
// bodies, kinds and scripts that are refused.

use crate::case::Step;
use crate::commands::{COMMANDS, UNKNOWN};
use crate::event::{kind, Event, LONGEST};
use crate::model::Chip;
use crate::side::Answer;
use crate::tally::{print_cells, print_head, print_line, Tally};

/// The bits that a deselect can leave loose; with none of them it is on the byte boundary.
pub const BITS: [u8; 8] = [0, 1, 2, 3, 4, 5, 6, 7];

/// The kind that was a deselect with loose bits once, and is unknown.
pub const OLD_KIND: u64 = 0x08;

/// What a deselect can end: no frame, an empty one, a read, a frame that is turned away by its
/// opcode (3, 5, 6 or 7), one that is spoiled, and one that is judged as a whole.
const ENDED: [&str; 6] = ["none", "empty", "read", "judged", "4", "other"];

/// The column of the frames that are judged as a whole, which loose bits come before.
const WHOLE: usize = 5;

/// The column of a deselect, from the chip before it and its verdict.
fn column_of(before: &Chip, verdict: u8) -> usize {
    match verdict {
        _ if !before.selected => 0,
        _ if before.frame.byte_count == 0 => 1,
        0 => 2,
        3 | 5 | 6 | 7 => 3,
        4 => 4,
        _ => WHOLE,
    }
}

/// Numbers of an event alone: their name, the refusal that is due, and whether an event has them.
type Alone = (&'static str, u8, fn(Event) -> bool);

/// What is refused alone: bodies from the first bad one on, those of which a part would be a good
/// one, and the old kind, whatever comes with it.
const ALONE: [Alone; 10] = [
    ("03h, 8", 6, |event| is_deselect(event, 8, 8)),
    ("03h, 9 to 255", 6, |event| is_deselect(event, 9, 255)),
    ("03h, 256 to 263", 6, |event| is_deselect(event, 256, 263)),
    ("03h, 2^16 and 0 to 7", 6, |event| is_deselect(event, 1 << 16, (1 << 16) + 7)),
    ("03h, low 32 bits good", 6, |(kind, body)| {
        kind == kind::DESELECT && body >> 32 > 0 && body as u32 <= 7
    }),
    ("03h, 2^63", 6, |event| is_deselect(event, 1 << 63, 1 << 63)),
    ("03h, 2^64 - 1", 6, |event| is_deselect(event, u64::MAX, u64::MAX)),
    ("08h, 0", 5, |event| event == (OLD_KIND, 0)),
    ("08h, 1 to 7", 5, |(kind, body)| kind == OLD_KIND && (1..=7).contains(&body)),
    ("08h, 8 and above", 5, |(kind, body)| kind == OLD_KIND && body >= 8),
];

/// Whether an event is a deselect with a body from a first one to a last one.
fn is_deselect((kind, body): Event, first: u64, last: u64) -> bool {
    kind == kind::DESELECT && (first..=last).contains(&body)
}

/// Bytes of a script from a bad event on: their name with the refusal, the refusal that is due, and
/// whether bytes are such.
type InRun = (&'static str, u8, fn(&[u8]) -> bool);

/// What is refused in a run.
const IN_RUN: [InRun; 9] = [
    ("03h, the last byte of a script, 4", 4, |bytes| matches!(bytes, [3])),
    ("03h with 8, 6", 6, |bytes| matches!(bytes, [3, 8, ..])),
    ("03h with 9 to 255, 6", 6, |bytes| matches!(bytes, [3, 9..=255, ..])),
    ("03h with a bad body, the last bytes, 6", 6, |bytes| matches!(bytes, [3, 8..=255])),
    ("03h with a bad body, then an unknown kind, 6", 6, |bytes| {
        matches!(bytes, [3, 8..=255, 0 | 8 | 10..=255, ..])
    }),
    ("08h with 1 to 7 behind it, 5", 5, |bytes| matches!(bytes, [8, 1..=7, ..])),
    ("08h with 0 behind it, 5", 5, |bytes| matches!(bytes, [8, 0, ..])),
    ("08h with 8 to 255 behind it, 5", 5, |bytes| matches!(bytes, [8, 8..=255, ..])),
    ("08h, the last byte of a script, 5", 5, |bytes| matches!(bytes, [8])),
];

/// What has to occur, beside the cells of the tables.
const SITUATIONS: [&str; 16] = [
    "script of 03h alone, 4",
    "03h, the last of 65,536 bytes, 4",
    "03h, the first of 65,537 bytes, 3",
    "bad deselect and too little room, 6",
    "03h refused by 6 inside a frame",
    "08h refused by 5 inside a frame",
    "body that is the number of a kind, done in a run",
    "03h 03h in a run, done as one deselect",
    "03h 01h in a run, then exchanges unselected",
    "only loose deselects, exact room, done",
    "only loose deselects, a byte less, 7",
    "65,536 bytes of clean deselects, done",
    "65,536 bytes of loose deselects, done",
    "arming kept over an empty frame with loose bits",
    "arming kept over loose bits without a frame",
    "arming lost by a frame with loose bits",
];

/// All that has occurred about deselects.
pub struct DeselectCoverage {
    /// Deselects by entry point, bits and what they ended.
    ended: [[[u64; ENDED.len()]; BITS.len()]; 3],
    /// Frames that a clean deselect reads by, does or begins, by opcode and bits.
    taken: [[u64; BITS.len()]; UNKNOWN],
    alone: [[u64; 2]; ALONE.len()],
    in_run: [u64; IN_RUN.len()],
    situations: Tally,
    /// The entry point of the present step.
    entry: usize,
}

impl DeselectCoverage {
    /// Nothing yet.
    pub fn new() -> DeselectCoverage {
        DeselectCoverage {
            ended: [[[0; ENDED.len()]; BITS.len()]; 3],
            taken: [[0; BITS.len()]; UNKNOWN],
            alone: [[0; 2]; ALONE.len()],
            in_run: [0; IN_RUN.len()],
            situations: Tally::new(&SITUATIONS),
            entry: 0,
        }
    }

    /// Takes note of a step at an entry point that was answered, from the chip before it.
    pub fn note_step(&mut self, before: &Chip, step: &Step, entry: usize, answer: &Answer) {
        self.entry = entry;
        match step {
            Step::Event { event, .. } => self.note_event(before, *event, answer.refusal),
            Step::Run { script, spare, .. } => self.note_script(script, *spare, answer),
            _ => {}
        }
    }

    /// Takes note of an event alone, which may be refused.
    fn note_event(&mut self, before: &Chip, event: Event, refusal: u8) {
        for ((_, due, has), counts) in ALONE.iter().zip(&mut self.alone) {
            counts[self.entry] += u64::from(refusal == *due && has(event));
        }
        let (inside, tally) = (before.frame.byte_count > 0, &mut self.situations);
        let (kind, six, five) = (event.0, refusal == 6, refusal == 5);
        tally.saw("03h refused by 6 inside a frame", inside && six && kind == kind::DESELECT);
        tally.saw("08h refused by 5 inside a frame", inside && five && kind == OLD_KIND);
    }

    /// Takes note of a script, which may be refused.
    fn note_script(&mut self, script: &[u8], spare: i64, answer: &Answer) {
        let (refusal, offset) = (answer.refusal, answer.offset as usize);
        let (bytes, length) = (&script[offset..], script.len());
        for ((_, due, has), count) in IN_RUN.iter().zip(&mut self.in_run) {
            *count += u64::from(refusal == *due && has(bytes));
        }
        let (bad, last) = (matches!(bytes, [3, 8..=255, ..]), refusal == 4 && *bytes == [3]);
        let tally = &mut self.situations;
        tally.saw("script of 03h alone, 4", last && length == 1);
        tally.saw("03h, the last of 65,536 bytes, 4", last && length == LONGEST);
        tally.saw(
            "03h, the first of 65,537 bytes, 3",
            refusal == 3 && bytes[0] == 3 && length == LONGEST + 1,
        );
        tally.saw("bad deselect and too little room, 6", refusal == 6 && bad && spare < 0);
    }

    /// Takes note of a run that was done or refused by 7, from its events.
    pub fn note_room(&mut self, events: &[Event], spare: i64, refusal: u8) {
        let done = refusal == 0;
        let of_kind = |event: &&Event| event.0 == kind::DESELECT;
        let deselects: Vec<u64> = events.iter().filter(of_kind).map(|event| event.1).collect();
        let loose = !deselects.is_empty() && deselects.iter().all(|bits| *bits > 0);
        let clean = deselects.iter().all(|bits| *bits == 0);
        let longest = done && deselects.len() == LONGEST / 2;
        let floats = |row: &[Event]| row[0] == (kind::DESELECT, 1) && row[1].0 == kind::EXCHANGE;
        let unselected = done && events.windows(2).any(floats);
        let tally = &mut self.situations;
        tally.saw(
            "body that is the number of a kind, done in a run",
            done && deselects.iter().any(|bits| *bits > 0),
        );
        tally.saw("03h 03h in a run, done as one deselect", done && deselects.contains(&3));
        tally.saw("03h 01h in a run, then exchanges unselected", unselected);
        tally.saw("only loose deselects, exact room, done", loose && done && spare == 0);
        tally.saw("only loose deselects, a byte less, 7", loose && refusal == 7 && spare == -1);
        tally.saw("65,536 bytes of clean deselects, done", longest && clean);
        tally.saw("65,536 bytes of loose deselects, done", longest && loose);
    }

    /// Takes note of a deselect that was done, from the chip before it, its bits, its verdict and
    /// the one that no loose bits would have given. More bits than there can be have no row: that
    /// both sides took them is for the plan to say.
    pub fn note_deselect(&mut self, before: &Chip, bits: u64, verdict: u8, clean: u8) {
        let Some(bits) = BITS.iter().position(|known| u64::from(*known) == bits) else { return };
        let column = column_of(before, verdict);
        self.ended[self.entry][bits][column] += 1;
        let opcode = Some(before.frame.opcode);
        let row = COMMANDS[..UNKNOWN].iter().position(|command| command.opcode == opcode);
        if let (Some(row), 2.., 0..=2) = (row, column, clean) {
            self.taken[row][bits] += 1;
        }
        let (armed, tally) = (bits > 0 && before.armed, &mut self.situations);
        tally.saw("arming kept over an empty frame with loose bits", armed && column == 1);
        tally.saw("arming kept over loose bits without a frame", armed && column == 0);
        tally.saw("arming lost by a frame with loose bits", armed && column == 4);
    }

    /// Prints the tables and gives the number of cells that are empty, or filled and should not be.
    pub fn report(&self, entries: &[(&str, &[u8])]) -> usize {
        let mut faults = self.report_ended(entries) + self.report_taken();
        faults += self.report_alone();
        println!("\ndeselects in scripts, and beside these");
        for ((name, ..), count) in IN_RUN.iter().zip(self.in_run) {
            faults += print_line(name, count);
        }
        faults + self.situations.report()
    }

    /// Prints deselects by their bits and by what they ended.
    fn report_ended(&self, entries: &[(&str, &[u8])]) -> usize {
        println!("\ndeselects by bits and by what they end (- cannot occur: 4 comes before)");
        let head: String = ENDED.iter().map(|name| format!("{name:>8}")).collect();
        println!("{:24}{head}", "");
        let mut faults = 0;
        for ((name, _), by_bits) in entries.iter().zip(&self.ended) {
            for (bits, counts) in BITS.iter().zip(by_bits) {
                print!("{:24}", format!("{name}, {bits}"));
                faults += print_cells(counts, |column| *bits == 0 || column != WHOLE);
            }
        }
        faults
    }

    /// Prints the frames that a clean deselect takes, by opcode and bits.
    fn report_taken(&self) -> usize {
        println!("\nframes that a deselect of 0 gives 0, 1 or 2, by the bits of theirs");
        print_head(&BITS);
        let mut faults = 0;
        for (command, counts) in COMMANDS.iter().zip(&self.taken) {
            print!("{}", command.head());
            faults += print_cells(counts, |_| true);
        }
        faults
    }

    /// Prints what is refused alone, by entry point.
    fn report_alone(&self) -> usize {
        println!("\nbodies and kinds of deselects refused alone: 03h by 6, 08h by 5");
        println!("{:24}{:>8}{:>8}", "", "event", "lent");
        let mut faults = 0;
        for ((name, ..), counts) in ALONE.iter().zip(&self.alone) {
            print!("{name:24}");
            faults += print_cells(counts, |_| true);
        }
        faults
    }
}
