// What has occurred about margin reports: jobs by their margins, by what became of them and by the
// ticks that they used; lines by what they took in; and what is refused.

use crate::case::LENGTHS;
use crate::class::Class;
use crate::event::{kind, Event, LONGEST};
use crate::kind_table::KindTable;
use crate::margins::{
    last_step, margin_of, place_of, Allowances, Begun, Report, Watch, EMPTY, KINDS, LARGEST,
    NO_JOBS,
};
use crate::model::{Chip, Line, Record};
use crate::tally::{print_cells, print_head, Tally};

/// Margins of jobs, and the allowances at both ends of what is taken.
const MARGINS: [&str; 7] = [
    "margin below -1",
    "margin -1",
    "margin 0",
    "margin 1",
    "margin above 1",
    "allowance 0",
    "allowance 1,000,000",
];

/// What can become of a job in a run with a report.
const FATES: [&str; 9] = [
    "begun and ended",
    "ended in the wait",
    "begun in suspension, ended",
    "begun, goes on",
    "stood, ended",
    "dropped by another",
    "dropped by a reset",
    "dropped by a power cut",
    "stood, dropped",
];

/// What cannot become of a write status, which B0h does not suspend and which is turned away in
/// suspension: it uses one tick.
const NOT_OF_STATUS: [&str; 6] = [
    "margin below -1",
    "ended in the wait",
    "begun in suspension, ended",
    "dropped by another",
    "in suspension",
    "in the wait",
];

/// Where the ticks that a counted job used came from, and those that it did not use.
const TICKS: [&str; 7] = [
    "04h",
    "05h",
    "a stamp",
    "inside a frame",
    "in suspension",
    "in the wait",
    "left over by its last event",
];

/// What becomes of a line.
const LINES: [&str; 14] = [
    "0 with margins, no job",
    "0 with margins, a job",
    "a count, no job",
    "two jobs and more",
    "smallest falls",
    "largest rises",
    "neither moves",
    "4,294,967,294, a job",
    "4,294,967,295, a job",
    "ceiling, smallest falls",
    "ceiling, largest rises",
    "crossed, no job",
    "crossed, a job",
    "margins at the ends, a job",
];

/// What a run may be refused by, or not, if its allowances were good.
const OTHERWISE: [u8; 10] = [0, 1, 2, 3, 4, 5, 6, 7, 8, 13];

/// The refusals that leave a report, columns of their table.
const REFUSALS: [u8; 10] = [1, 2, 3, 4, 5, 6, 7, 8, 13, 18];

/// The lines that a refused run leaves as they are.
const LEFT: [&str; 3] = ["a count", "0 with margins", "crossed"];

/// What has to occur, beside the cells of the tables.
const SITUATIONS: [&str; 12] = [
    "report carried over ten scripts, jobs crossing",
    "plain run between two with a report",
    "job begun without a report, ended in a run with one",
    "all five kinds in one script",
    "empty script, margins of a count of 0 cleared",
    "script of 65,536 bytes with a report",
    "latest job of the real part, allowance 0",
    "latest job of the real part, allowance 1,000,000",
    "18 by 1,000,001",
    "18 by 4,294,967,295",
    "18 by more than one allowance",
    "stamps alone that give no ticks, a job stands",
];

/// The ticks that only the latest jobs that a script can have use.
const LATE: i32 = 1_431_000_000;

/// The present run with a report.
struct Present {
    allowances: Allowances,
    watch: Watch,
    /// The kind of the job that stood at the start, while it is there.
    stood: Option<Class>,
    /// Whether the run's last job was begun in suspension, and where its ticks came from.
    in_suspension: bool,
    sources: [bool; TICKS.len()],
    /// The jobs that it counts.
    jobs: Vec<Begun>,
    /// A job stood at the start.
    crossing: bool,
}

/// All that has occurred about reports.
pub struct ReportCoverage {
    margins: KindTable,
    fates: KindTable,
    ticks: KindTable,
    lines: KindTable,
    /// Runs refused by 18 for one allowance, by what they would be refused by otherwise.
    eighteen: [[u64; OTHERWISE.len()]; KINDS.len()],
    /// Lines that a refused run left as they were.
    left: [[u64; REFUSALS.len()]; LEFT.len()],
    situations: Tally,
    present: Option<Present>,
    /// The report of the last step, as handed in and as it was after it.
    handed: Report,
    after: Report,
    /// Runs that the present report was carried over, and jobs that crossed their ends.
    carried: usize,
    crossed: usize,
    /// The last run was a plain one after one with a report.
    plain_between: bool,
    /// A job was begun since the last run with a report.
    begun_without: bool,
}

impl ReportCoverage {
    /// Nothing yet.
    pub fn new() -> ReportCoverage {
        ReportCoverage {
            margins: KindTable::new(&MARGINS),
            fates: KindTable::new(&FATES),
            ticks: KindTable::new(&TICKS),
            lines: KindTable::new(&LINES),
            eighteen: [[0; OTHERWISE.len()]; KINDS.len()],
            left: [[0; REFUSALS.len()]; LEFT.len()],
            situations: Tally::new(&SITUATIONS),
            present: None,
            handed: EMPTY,
            after: EMPTY,
            carried: 0,
            crossed: 0,
            plain_between: false,
            begun_without: false,
        }
    }

    /// Takes note of the start of a case, or of a report that is handed in.
    pub fn note_start(&mut self) {
        (self.carried, self.crossed) = (0, 0);
        (self.plain_between, self.begun_without) = (false, false);
    }

    /// Takes note of the report before a step and after it.
    pub fn note_reports(&mut self, handed: &Report, after: &Report) {
        (self.handed, self.after) = (*handed, *after);
    }

    /// Takes note of a run that was refused by a number, and would be by another one if its
    /// allowances were good.
    pub fn note_refused(&mut self, allowances: &Allowances, refusal: u8, otherwise: u8) {
        let bad: Vec<usize> =
            (0..KINDS.len()).filter(|place| allowances[*place] > LARGEST).collect();
        let column = OTHERWISE.iter().position(|number| *number == otherwise);
        if let ([place], 18, Some(column)) = (&bad[..], refusal, column) {
            self.eighteen[*place][column] += 1;
        }
        let (eighteen, tally) = (refusal == 18, &mut self.situations);
        tally.saw("18 by 1,000,001", eighteen && allowances.contains(&(LARGEST + 1)));
        tally.saw("18 by 4,294,967,295", eighteen && allowances.contains(&u32::MAX));
        tally.saw("18 by more than one allowance", eighteen && bad.len() > 1);
        let column = REFUSALS.iter().position(|number| *number == refusal);
        let column = column.expect("a refusal of the table");
        for line in self.handed.iter().filter(|_| self.handed == self.after) {
            let is = [line.count > 0, is_odd(line), line.count > 0 && is_crossed(line)];
            for (is, counts) in is.into_iter().zip(&mut self.left) {
                counts[column] += u64::from(is);
            }
        }
    }

    /// Takes note of a run that is done, before its events are noted: one with a report has
    /// allowances.
    pub fn begin_run(&mut self, before: &Chip, allowances: Option<&Allowances>) {
        let stood = before.job.as_ref().map(Class::of);
        self.present = allowances.map(|allowances| Present {
            allowances: *allowances,
            watch: Watch::default(),
            stood,
            in_suspension: false,
            sources: [false; TICKS.len()],
            jobs: Vec::new(),
            crossing: stood.is_some(),
        });
    }

    /// Takes note of an event of the run that a chip saw, given the kind that it has in the script.
    pub fn follow(
        &mut self,
        source: u64,
        before: &Chip,
        event: Event,
        record: Record,
        length: usize,
    ) {
        let Some(mut present) = self.present.take() else {
            self.begun_without |= record == Record::Verdict(2);
            return;
        };
        let (begun, left) = (present.watch.job, ticks_left_over(before, event, length));
        if matches!(event.0, kind::TICK | kind::TICKS) {
            present.note_ticks(source, before, left);
        }
        self.note_dropped(&mut present, before, event, record);
        let ended = present.watch.follow(before, event, record, length);
        if let Some(job) = ended {
            self.note_counted(&present, before, job, length);
            present.jobs.push(job);
        }
        if let Some(class) = present.stood.filter(|_| begun.is_none() && left.is_some()) {
            self.fates.saw("stood, ended", class, true);
            self.situations
                .saw("job begun without a report, ended in a run with one", self.begun_without);
            present.stood = None;
        }
        if record == Record::Verdict(2) {
            (present.sources, present.in_suspension) = ([false; TICKS.len()], before.suspended);
        }
        self.present = Some(present);
    }

    /// Takes note of a job that is dropped by an event.
    fn note_dropped(&mut self, present: &mut Present, before: &Chip, event: Event, record: Record) {
        let name = match (event.0, record, before.frame.opcode) {
            (kind::POWER_CUT, ..) => "dropped by a power cut",
            (kind::DESELECT, Record::Verdict(1), 0x99) => "dropped by a reset",
            (kind::DESELECT, Record::Verdict(2), _) => "dropped by another",
            _ => return,
        };
        if let Some(job) = present.watch.job {
            self.fates.saw(name, job.class, true);
        } else if let Some(class) = present.stood.take() {
            self.fates.saw("stood, dropped", class, true);
        }
    }

    /// Takes note of a job that is counted: its margin, and where its ticks came from.
    fn note_counted(&mut self, present: &Present, before: &Chip, job: Begun, length: usize) {
        let (class, margin) = (job.class, margin_of(job, &present.allowances));
        let name = match margin {
            ..=-2 => "margin below -1",
            -1 => "margin -1",
            0 => "margin 0",
            1 => "margin 1",
            _ => "margin above 1",
        };
        let allowance = present.allowances[place_of(class)];
        self.margins.saw(name, class, true);
        self.margins.saw("allowance 0", class, allowance == 0);
        self.margins.saw("allowance 1,000,000", class, allowance == LARGEST);
        self.fates.saw("begun and ended", class, true);
        self.fates.saw("ended in the wait", class, before.waiting);
        self.fates.saw("begun in suspension, ended", class, present.in_suspension);
        for (name, is) in TICKS.iter().zip(present.sources) {
            self.ticks.saw(name, class, is);
        }
        let late = length == LENGTHS[5] && margin <= LARGEST as i32 - LATE;
        let tally = &mut self.situations;
        tally.saw("latest job of the real part, allowance 0", late && allowance == 0);
        tally.saw("latest job of the real part, allowance 1,000,000", late && allowance == LARGEST);
    }

    /// Takes note of the end of a run that was done, from its script and its events.
    pub fn end_run(&mut self, script: &[u8], events: &[Event]) {
        let Some(present) = self.present.take() else {
            self.plain_between = self.carried > 0;
            return;
        };
        for (place, (_, class)) in KINDS.iter().enumerate() {
            let jobs = present.jobs.iter().filter(|job| job.class == *class).count();
            self.note_line(place, jobs);
        }
        if let Some(job) = present.watch.job {
            self.fates.saw("begun, goes on", job.class, true);
        }
        self.carried += 1;
        self.crossed += usize::from(present.crossing);
        self.note_situations(&present, script, events);
        (self.plain_between, self.begun_without) = (false, false);
    }

    /// Takes note of a run with a report as a whole.
    fn note_situations(&mut self, present: &Present, script: &[u8], events: &[Event]) {
        let kinds = KINDS.iter().filter(|kind| present.jobs.iter().any(|job| job.class == kind.1));
        let cleared = self.handed.iter().any(is_odd);
        let stamps = !events.is_empty() && events.iter().all(|event| event.0 == kind::STAMP);
        let (carried, crossed) = (self.carried, self.crossed);
        let tally = &mut self.situations;
        tally.saw(
            "report carried over ten scripts, jobs crossing",
            carried >= 10 && crossed >= 3 && self.after != EMPTY,
        );
        tally.saw("plain run between two with a report", self.plain_between);
        tally.saw("all five kinds in one script", kinds.count() == KINDS.len());
        tally.saw("empty script, margins of a count of 0 cleared", script.is_empty() && cleared);
        tally.saw("script of 65,536 bytes with a report", script.len() == LONGEST);
        tally.saw(
            "stamps alone that give no ticks, a job stands",
            stamps && events.iter().all(|event| *event == events[0]) && present.stood.is_some(),
        );
    }

    /// Takes note of what became of a line that so many jobs joined.
    fn note_line(&mut self, place: usize, jobs: usize) {
        let (old, new) = (self.handed[place], self.after[place]);
        let (joined, counted, ceiling) = (jobs > 0, old.count > 0, old.count == u32::MAX);
        let (falls, rises) = (new.smallest < old.smallest, new.largest > old.largest);
        let ends = old.smallest == i32::MIN || old.largest == i32::MAX;
        let is = [
            is_odd(&old) && !joined && new == NO_JOBS,
            is_odd(&old) && joined,
            counted && !joined && new == old,
            jobs > 1,
            counted && joined && falls,
            counted && joined && rises,
            counted && joined && !falls && !rises,
            old.count == u32::MAX - 1 && joined && new.count == u32::MAX,
            ceiling && joined && new.count == u32::MAX,
            ceiling && joined && falls,
            ceiling && joined && rises,
            counted && is_crossed(&old) && !joined && new == old,
            counted && is_crossed(&old) && joined,
            counted && ends && joined,
        ];
        for (name, is) in LINES.iter().zip(is) {
            self.lines.saw_at(name, place, is);
        }
    }

    /// Prints the tables and gives the number of cells that are empty, or filled and should not be.
    pub fn report(&self) -> usize {
        let to_status = |name: &str| !NOT_OF_STATUS.contains(&name);
        println!("\njobs that a report counts, by margin");
        let mut faults = self.margins.report(to_status);
        println!(
            "\njobs in runs with a report (- cannot occur: B0h is 11, and 01h in suspension 7)"
        );
        faults += self.fates.report(to_status);
        println!("\nticks of jobs that a report counts");
        faults += self.ticks.report(to_status);
        println!("\nlines of reports");
        faults += self.lines.report(to_status);
        faults += self.report_refused();
        println!("\nreports beside these");
        faults + self.situations.report()
    }

    /// Prints what is refused by 18, and the lines that refused runs leave.
    fn report_refused(&self) -> usize {
        println!("\n18 for one allowance, by what the run would be refused by otherwise");
        print_head(&OTHERWISE);
        let mut faults = 0;
        for ((name, _), counts) in KINDS.iter().zip(&self.eighteen) {
            print!("{name:24}");
            faults += print_cells(counts, |_| true);
        }
        println!("\nlines that a refused run leaves, by the refusal");
        print_head(&REFUSALS);
        for (name, counts) in LEFT.iter().zip(&self.left) {
            print!("{name:24}");
            faults += print_cells(counts, |_| true);
        }
        faults
    }
}

impl Present {
    /// Takes note of where ticks come from that the job uses, and of those that it does not.
    fn note_ticks(&mut self, source: u64, before: &Chip, left_over: Option<u64>) {
        let is = [
            source == kind::TICK,
            source == kind::TICKS,
            source == kind::STAMP,
            before.frame.byte_count > 0,
            before.suspended,
            before.waiting,
            left_over.is_some_and(|left| left > 0),
        ];
        if self.watch.job.is_some() {
            for (seen, is) in self.sources.iter_mut().zip(is) {
                *seen |= is;
            }
        }
    }
}

/// The ticks of an event that are left over after the last step of a chip's job, if it is done.
fn ticks_left_over(before: &Chip, event: Event, length: usize) -> Option<u64> {
    let ticks = match event {
        (kind::TICK, _) => 1,
        (kind::TICKS, ticks) => ticks,
        _ => return None,
    };
    last_step(before, length).and_then(|last| ticks.checked_sub(last))
}

/// Whether a line has margins but no job.
fn is_odd(line: &Line) -> bool {
    line.count == 0 && *line != NO_JOBS
}

/// Whether the smallest margin of a line is above the largest.
fn is_crossed(line: &Line) -> bool {
    line.smallest > line.largest
}
