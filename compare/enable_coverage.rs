// What has occurred about WEN beside a job: programs and erases sent in suspension, write disables
// that are turned away, what clears WEN and takes the job with it, and lent states that are
// suspended with WEN 0.

use crate::class::{Class, LONG_JOBS};
use crate::commands::{COMMANDS, VERDICTS};
use crate::event::{kind, Event};
use crate::kind_table::KindTable;
use crate::model::{Chip, Record};
use crate::side::verdict_of;
use crate::tally::{print_cells, print_head, print_names};

/// The opcodes of programs and erases, rows of tables.
pub const JOB_OPCODES: [u8; 7] = [0x02, 0x0A, 0x20, 0xD7, 0xD8, 0x60, 0xC7];

/// The opcode of a write disable, and that of a reset.
const WRITE_DISABLE: u8 = 0x04;
const RESET: u8 = 0x99;

/// The jobs that can be suspended, as `LONG_JOBS` has them.
const SUSPENDED: [&str; LONG_JOBS.len()] = ["program", "small", "sector", "chip"];

/// The entry points.
const ENTRIES: [&str; 4] = ["event", "lent", "run", "report"];

/// The verdicts that a program or an erase can end with in suspension: it begins, is spoiled or is
/// protected, or was turned away before the job was suspended. 8 cannot, since a job means WEN 1.
const IN_SUSPENSION: [u8; 4] = [2, 4, 6, 9];

/// Where a write disable can be turned away, with its verdict.
const TURNED_AWAY: [&str; 3] = ["running, 6", "in the wait, 6", "in suspension, 7"];

/// What clears WEN while there is a job.
const CLEARED: [&str; 5] =
    ["last step", "reset", "reset in suspension", "power cut", "power cut in suspension"];

/// Whether something of these two lists can occur to a write status, which is not suspended.
fn to_status(name: &str) -> bool {
    matches!(name, "running, 6" | "last step" | "reset" | "power cut")
}

/// The kinds of event that are sent alone, from 01h on.
const KINDS: [&str; 7] = ["select", "exchange", "deselect", "tick", "ticks", "WP level", "power"];

/// The number of a job among those that can be suspended.
fn column_of(chip: &Chip) -> Option<usize> {
    let class = chip.job.as_ref().map(Class::of);
    LONG_JOBS.iter().position(|long| Some(*long) == class)
}

/// The row of the opcode of a chip's frame, if it is that of a program or an erase.
fn row_of(chip: &Chip) -> Option<usize> {
    JOB_OPCODES.iter().position(|opcode| *opcode == chip.frame.opcode)
}

/// All that has occurred about WEN beside a job.
pub struct EnableCoverage {
    /// Frames that began a job in suspension with WEN 1 before and after, by opcode and by the job
    /// that was dropped for it.
    begun: [[u64; LONG_JOBS.len()]; JOB_OPCODES.len()],
    /// Frames that ended in suspension, by opcode and verdict.
    verdicts: [[u64; VERDICTS.len()]; JOB_OPCODES.len()],
    turned_away: KindTable,
    cleared: KindTable,
    /// Steps that were refused by 2 in a state that is suspended with WEN 0, by job and entry.
    refused: [[u64; ENTRIES.len()]; LONG_JOBS.len()],
    /// Those among them that begin with the end of a frame which begins a job with WEN 1, by its
    /// opcode and entry.
    ends: [[u64; ENTRIES.len()]; JOB_OPCODES.len()],
    /// Those among them that are an event alone, by its kind and entry.
    alone: [[u64; 2]; KINDS.len()],
}

impl EnableCoverage {
    /// Nothing yet.
    pub fn new() -> EnableCoverage {
        EnableCoverage {
            begun: [[0; LONG_JOBS.len()]; JOB_OPCODES.len()],
            verdicts: [[0; VERDICTS.len()]; JOB_OPCODES.len()],
            turned_away: KindTable::new(&TURNED_AWAY),
            cleared: KindTable::new(&CLEARED),
            refused: [[0; ENTRIES.len()]; LONG_JOBS.len()],
            ends: [[0; ENTRIES.len()]; JOB_OPCODES.len()],
            alone: [[0; 2]; KINDS.len()],
        }
    }

    /// Takes note of an event beside a job, and of whether its frame came with a lent state.
    pub fn note_event(
        &mut self,
        before: &Chip,
        event: Event,
        record: Record,
        after: &Chip,
        lent: bool,
    ) {
        let Some(class) = before.job.as_ref().map(Class::of) else { return };
        self.note_cleared(before, event, record, after, class);
        if let (Some(verdict), false) = (verdict_of(record), lent) {
            self.note_write_disable(before, verdict, after, class);
            self.note_in_suspension(before, verdict, after);
        }
    }

    /// Takes note of what has cleared WEN, if the job has gone with it.
    fn note_cleared(
        &mut self,
        before: &Chip,
        event: Event,
        record: Record,
        after: &Chip,
        class: Class,
    ) {
        let suspended = before.suspended;
        let name = match (event.0, record, before.frame.opcode) {
            (kind::TICK | kind::TICKS, ..) => "last step",
            (kind::DESELECT, Record::Verdict(1), RESET) if suspended => "reset in suspension",
            (kind::DESELECT, Record::Verdict(1), RESET) => "reset",
            (kind::POWER_CUT, ..) if suspended => "power cut in suspension",
            (kind::POWER_CUT, ..) => "power cut",
            _ => return,
        };
        let gone = after.job.is_none() && !after.suspended;
        self.cleared.saw(name, class, before.wen && !after.wen && gone);
    }

    /// Takes note of a write disable that is turned away, where WEN stays 1.
    fn note_write_disable(&mut self, before: &Chip, verdict: u8, after: &Chip, class: Class) {
        if before.frame.opcode != WRITE_DISABLE {
            return;
        }
        let name = match (verdict, before.waiting, before.suspended) {
            (6, false, false) => "running, 6",
            (6, true, _) => "in the wait, 6",
            (7, _, true) => "in suspension, 7",
            _ => return,
        };
        self.turned_away.saw(name, class, before.wen && after.wen);
    }

    /// Takes note of a program or an erase that ends in suspension.
    fn note_in_suspension(&mut self, before: &Chip, verdict: u8, after: &Chip) {
        let (Some(row), true) = (row_of(before), before.suspended) else { return };
        self.verdicts[row][usize::from(verdict)] += 1;
        if let (2, true, Some(job)) = (verdict, before.wen && after.wen, column_of(before)) {
            self.begun[row][job] += 1;
        }
    }

    /// Takes note of a step that was refused by 2 in a state that is suspended with WEN 0 and legal
    /// otherwise, by its first event, and by whether a deselect would begin a job there with WEN 1.
    pub fn note_refused(&mut self, chip: &Chip, first: Option<Event>, entry: usize, begins: bool) {
        if let Some(job) = column_of(chip) {
            self.refused[job][entry] += 1;
        }
        if let (Some(row), true, Some((kind::DESELECT, 0))) = (row_of(chip), begins, first) {
            self.ends[row][entry] += 1;
        }
        if let (Some((kind @ kind::SELECT..=kind::POWER_CUT, _)), 0 | 1) = (first, entry) {
            self.alone[(kind - kind::SELECT) as usize][entry] += 1;
        }
    }

    /// Prints the tables and gives the number of cells that are empty, or filled and should not be.
    pub fn report(&self) -> usize {
        let mut faults = self.report_in_suspension();
        println!("\n04h turned away, WEN 1 before and after");
        println!("(- cannot occur: a write status does not wait and is not suspended)");
        faults += self.turned_away.report(to_status);
        println!("\nWEN cleared, and the job gone with it, by");
        faults += self.cleared.report(to_status);
        faults + self.report_refused()
    }

    /// Prints the programs and erases that ended in suspension.
    fn report_in_suspension(&self) -> usize {
        println!("\nprograms and erases begun in suspension, WEN 1 before and after, by its job");
        print_names(&SUSPENDED);
        let faults = print_opcodes(&self.begun, |_| true);
        println!("\nprograms and erases that end in suspension by verdict");
        println!("(- cannot occur: a suspended part has WEN 1; 6 is for frames begun before it)");
        print_head(&VERDICTS);
        faults + print_opcodes(&self.verdicts, |at| IN_SUSPENSION.contains(&VERDICTS[at]))
    }

    /// Prints the steps that were refused in states that are suspended with WEN 0.
    fn report_refused(&self) -> usize {
        println!("\nsuspended with WEN 0, legal otherwise, refused by 2: by the job");
        print_names(&ENTRIES);
        let mut faults = 0;
        for (name, counts) in SUSPENDED.iter().zip(&self.refused) {
            print!("{name:24}");
            faults += print_cells(counts, |_| true);
        }
        println!("\nthe same: the end of a frame that begins a job with WEN 1");
        print_names(&ENTRIES);
        faults += print_opcodes(&self.ends, |_| true);
        println!("\nthe same: events alone");
        print_names(&ENTRIES[..2]);
        for (number, (name, counts)) in (1..).zip(KINDS.iter().zip(&self.alone)) {
            print!("{:24}", format!("{number:02X}h {name}"));
            faults += print_cells(counts, |_| true);
        }
        faults
    }
}

/// Prints a row of counts for each opcode of a program or an erase, and gives the number of those
/// that are not as they should be.
fn print_opcodes<const COLUMNS: usize>(
    counts: &[[u64; COLUMNS]; JOB_OPCODES.len()],
    can: fn(usize) -> bool,
) -> usize {
    let mut faults = 0;
    for (opcode, counts) in JOB_OPCODES.iter().zip(counts) {
        let command = COMMANDS.iter().find(|command| command.opcode == Some(*opcode));
        print!("{}", command.map_or(String::new(), |command| command.head()));
        faults += print_cells(counts, can);
    }
    faults
}
