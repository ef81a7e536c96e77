// What has occurred: opcodes by verdicts, refusals by entry points, jobs by fates, and situations.

use crate::area_coverage::AreaCoverage;
use crate::areas::LONGEST_TAKEN;
use crate::case::{room, Case, Start, Step, LENGTHS};
use crate::class::Class;
use crate::clock::{seen_events, Clock};
use crate::commands::{row_of, COMMANDS, EMPTY, UNKNOWN, VERDICTS};
use crate::deselect_coverage::DeselectCoverage;
use crate::enable_coverage::EnableCoverage;
use crate::event::{events_of, kind, Event, LONGEST};
use crate::expected::{Expected, NOTHING};
use crate::image::{Edit, FLAGS};
use crate::job_table::{all_steps, JobTable, LONGER, WRITE_STATUS};
use crate::margins::{last_step, Report};
use crate::model::{self, Chip, Record};
use crate::programming_coverage::ProgrammingCoverage;
use crate::protection_coverage::ProtectionCoverage;
use crate::read_coverage::ReadCoverage;
use crate::report_coverage::ReportCoverage;
use crate::side::{verdict_of, Answer};
use crate::stamp_coverage::StampCoverage;
use crate::states::RULES;
use crate::tally::{print_cells, print_head, print_line, required, Tally};
use crate::wait_coverage::WaitCoverage;

/// Why a verdict cannot occur in the rows that do not list it.
const REASONS: [&str; VERDICTS.len()] = [
    "of the opcodes only the five reads end so; ABh is none of them",
    "a read is 0 before, and what begins a job is 2",
    "only programs, erases and write status begin a job",
    "only a byte without a row of the table",
    "a read is 0 before, an unknown opcode 3 before, and an empty frame has no length",
    "ABh is taken asleep; an unknown opcode is 3 before",
    "05h, B0h, 66h and 99h are taken while a job runs; an unknown opcode is 3 before",
    "05h, 03h, 0Bh, programs, erases, 30h, 66h and 99h are taken while suspended",
    "only programs, erases and write status need WEN",
    "only programs and erases have a target",
    "only write status looks at SRWP and WP",
    "only suspend, resume and reset can be without a point",
];

/// The refusals, columns of their table.
const REFUSALS: [u8; 11] = [0, 1, 2, 3, 4, 5, 6, 7, 8, 13, 18];

/// The entry points, rows of the table of refusals, each with the numbers that can occur.
/// A single event has no script, so that 3, 4, 7 and 8 cannot: its kind and body are two numbers. A
/// plain run has no allowances.
const ENTRIES: [(&str, &[u8]); 4] = [
    ("event", &[0, 1, 2, 5, 6, 13]),
    ("event, lent", &[0, 1, 2, 5, 6, 13]),
    ("run", &[0, 1, 2, 3, 4, 5, 6, 7, 8, 13]),
    ("run, report", &REFUSALS),
];

/// The entry point of a plain run, which a run with a report is counted as where the form of a run
/// makes no difference.
const RUN: usize = 2;

/// What can become of a job after its k steps, the one of a wait counted in those of a suspension;
/// what ends a job in the wait has a table of its own.
const FATES: [&str; 8] =
    ["ended", "suspended", "resumed", "dropped", "reset", "reset sus", "cut", "cut sus"];

/// How many different k a fate has to be seen at for a job.
fn wanted(job: usize, fate: &str) -> usize {
    match (job, fate) {
        // A write status cannot be suspended: B0h is verdict 11 while it runs.
        (WRITE_STATUS, "ended" | "reset" | "cut") => 1,
        (WRITE_STATUS, _) => 0,
        // No tick suspends at k = 0, since the wait does a step; a lent state may stand there, as
        // those of the shorter jobs do.
        (_, "suspended") | (LONGER, "resumed") => all_steps(job) - 1,
        // Of the 512 to 8,192 k of the larger parts some have the other fates.
        (LONGER, _) => 1,
        _ => all_steps(job),
    }
}

/// Situations that have to occur, beside the cells of the tables.
const SITUATIONS: [&str; 32] = [
    "working tick inside a frame",
    "last step inside a frame",
    "frame judged 6, ended without a job",
    "load that wraps",
    "load of more than 256 bytes",
    "address beyond the memory length",
    "status read while running",
    "status read while suspended",
    "status read, changed by ticks between two bytes",
    "select while selected",
    "exchange unselected",
    "device ID driven asleep",
    "JEDEC cycle come round",
    "arming kept over an empty frame",
    "arming lost by another frame",
    "job begun while suspended after ticks",
    "run that begins inside a frame",
    "run that ends inside a frame",
    "run with the exact room",
    "script of 65,536 bytes done",
    "empty script done",
    "lent frame, ended",
    "lent frame, byte driven",
    "lent frame, job begun",
    "leftovers kept",
    "leftovers gone by a last step",
    "leftovers gone by the reset of a job",
    "leftovers gone by a reset without a job",
    "leftovers gone by a power cut",
    "leftovers gone by an erase begun",
    "leftovers gone by a write status begun",
    "leftovers replaced by a program begun",
];

/// All that has occurred.
pub struct Coverage {
    verdicts: [[u64; VERDICTS.len()]; COMMANDS.len()],
    refusals: [[u64; REFUSALS.len()]; ENTRIES.len()],
    fates: JobTable,
    waits: WaitCoverage,
    enable: EnableCoverage,
    situations: Tally,
    areas: AreaCoverage,
    deselects: DeselectCoverage,
    stamps: StampCoverage,
    reports: ReportCoverage,
    protection: ProtectionCoverage,
    programmings: ProgrammingCoverage,
    reads: ReadCoverage,
    over_top: [[u64; 2]; 6],
    rules: [u64; RULES.len()],
    flags: [[u64; ENTRIES.len()]; FLAGS.len()],
    /// The flag of the case that is a byte above 1.
    bad_flag: Option<usize>,
    /// The numbers of the case are no state: a flag above 1, or a job that is none of the five.
    no_state: bool,
    frame_lent: bool,
    frame_bytes: usize,
    last_status: Option<u8>,
    memory: Vec<u8>,
}

impl Coverage {
    /// Nothing yet.
    pub fn new() -> Coverage {
        Coverage {
            verdicts: [[0; VERDICTS.len()]; COMMANDS.len()],
            refusals: [[0; REFUSALS.len()]; ENTRIES.len()],
            fates: JobTable::new(&FATES),
            waits: WaitCoverage::new(),
            enable: EnableCoverage::new(),
            situations: Tally::new(&SITUATIONS),
            areas: AreaCoverage::new(),
            deselects: DeselectCoverage::new(),
            stamps: StampCoverage::new(),
            reports: ReportCoverage::new(),
            protection: ProtectionCoverage::new(),
            programmings: ProgrammingCoverage::new(),
            reads: ReadCoverage::new(),
            over_top: [[0; 2]; 6],
            rules: [0; RULES.len()],
            flags: [[0; ENTRIES.len()]; FLAGS.len()],
            bad_flag: None,
            no_state: false,
            frame_lent: false,
            frame_bytes: 0,
            last_status: None,
            memory: vec![0; LENGTHS[5]],
        }
    }

    /// Takes note of a situation, if it has occurred.
    fn saw(&mut self, name: &str, occurred: bool) {
        self.situations.saw(name, occurred);
    }

    /// Takes note of the start of a case.
    pub fn note_start(&mut self, Case { length, start, area, .. }: &Case) {
        self.bad_flag = match start {
            Start::Lent(_, Edit::Flag(flag, _)) => Some(*flag),
            _ => None,
        };
        let no_job = matches!(start, Start::Lent(_, Edit::JobKind(_)));
        self.no_state = no_job || self.bad_flag.is_some();
        self.stamps.note_start();
        self.reports.note_start();
        self.close_frame();
        if let Start::Lent(chip, _) = start {
            self.frame_lent = chip.frame.byte_count > 0;
            self.waits.note_lent(chip, *length);
        }
        self.areas.lend(area);
    }

    /// Takes note of the report before a step and after it.
    pub fn note_reports(&mut self, handed: &Report, after: &Report) {
        self.reports.note_reports(handed, after);
    }

    /// Takes note of a rule of legality that was broken alone and refused.
    pub fn note_rule(&mut self, rule: usize) {
        self.rules[rule] += 1;
    }

    /// Takes note of a step that was answered, from the chip before it, and gives the number of its
    /// events; what is refused counts as one, and so does a programming, be its script run or not.
    pub fn note_step(
        &mut self,
        before: &Expected,
        step: &Step,
        answer: &Answer,
        length: usize,
    ) -> u64 {
        let entry = match step {
            Step::Event { lent, .. } => usize::from(*lent),
            Step::Run { allowances, .. } => RUN + usize::from(allowances.is_some()),
            _ => return self.note_other(before, step, answer.refusal, length),
        };
        self.note_answer(before, step, entry, answer.refusal, length);
        self.deselects.note_step(&before.chip, step, entry.min(RUN), answer);
        self.stamps.note_step(&before.chip, step, entry, answer);
        self.reads.note_step(&before.chip, step, answer);
        match step {
            Step::Run { script, spare, .. } if answer.refusal == 7 => {
                self.note_short_room(before, script, *spare, length);
                1
            }
            _ if answer.refusal != 0 => 1,
            Step::Run { .. } => self.note_done(before, step, length),
            Step::Event { event, .. } => {
                self.replay(before.clone(), &[*event], length);
                1
            }
            _ => 0,
        }
    }

    /// Takes note of a step that is neither an event nor a run, and gives the number of events that
    /// it counts as.
    fn note_other(&mut self, before: &Expected, step: &Step, refusal: u8, length: usize) -> u64 {
        match step {
            Step::Find(identity) => self.areas.note_find(*identity),
            Step::Script(asked, used) => {
                self.programmings.note_script(before, asked, *used, refusal, length);
            }
            Step::Lend(area) => self.areas.lend(area),
            Step::Report(_) => self.reports.note_start(),
            _ => {}
        }
        u64::from(matches!(step, Step::Find(_) | Step::Script(..)))
    }

    /// Takes note of a run that was done, from the chip before it, and gives the number of its
    /// events.
    fn note_done(&mut self, before: &Expected, step: &Step, length: usize) -> u64 {
        let Step::Run { script, spare, allowances, .. } = step else { return 0 };
        let events = events_of(script).0;
        self.stamps.begin_run(&events, script);
        self.reports.begin_run(&before.chip, allowances.as_ref());
        self.reads.begin_run(&before.chip, &events, allowances.is_some());
        let (after, records) = self.replay(before.clone(), &events, length);
        self.note_run(&before.chip, script, *spare, &after.chip);
        self.reports.end_run(script, &events);
        self.reads.end_run(&after.chip, script.len(), length);
        self.protection.note_room(&events, &records, *spare, 0);
        self.deselects.note_room(&events, *spare, 0);
        events.len() as u64
    }

    /// Takes note of the refusal, or of none, that an event or a run got at an entry point.
    fn note_answer(
        &mut self,
        before: &Expected,
        step: &Step,
        entry: usize,
        refusal: u8,
        length: usize,
    ) {
        let column = REFUSALS.iter().position(|number| *number == refusal);
        self.refusals[entry][column.expect("a refusal of the table")] += 1;
        if let (Some(flag), 2) = (self.bad_flag, refusal) {
            self.flags[flag][entry] += 1;
        }
        if refusal == 2 {
            self.note_without_wen(&before.chip, step, entry, length);
        }
        if self.frame_lent && self.frame_bytes == 0 {
            self.areas.note_lent_frame(&before.chip, refusal, length);
        }
        self.areas.note_step();
        self.protection.note_step(entry.min(RUN));
        self.waits.note_step(entry.min(RUN));
        if self.areas.lent.len() > LONGEST_TAKEN && refusal != 18 {
            let otherwise = self.refusal_with(&[], before, step, length);
            self.areas.note_too_long(entry, refusal, otherwise, self.no_state);
        }
        if let (Step::Run { allowances: Some(allowances), .. }, 1..) = (step, refusal) {
            let area = self.areas.lent.clone();
            let otherwise = match refusal {
                18 => self.refusal_with(&area, before, step, length),
                _ => refusal,
            };
            self.reports.note_refused(allowances, refusal, otherwise);
        }
    }

    /// Takes note of a step that is refused by 2, if its chip is suspended and WEN 0 alone is wrong
    /// with it.
    fn note_without_wen(&mut self, chip: &Chip, step: &Step, entry: usize, length: usize) {
        let enabled = Chip { wen: true, ..chip.clone() };
        if chip.wen || !chip.suspended || !enabled.legal(length) {
            return;
        }
        let first = match step {
            Step::Event { event, .. } => Some(*event),
            Step::Run { script, .. } => events_of(script).0.first().copied(),
            _ => None,
        };
        let begins = self.clean_verdict(&enabled, length) == Some(2);
        self.enable.note_refused(chip, first, entry, begins);
    }

    /// The number that an event or a plain run would be refused by with an area, 0 for none.
    fn refusal_with(&mut self, area: &[u8], before: &Expected, step: &Step, length: usize) -> u8 {
        let (Step::Event { length: other, .. } | Step::Run { length: other, .. }) = step else {
            return 0;
        };
        let length = other.unwrap_or(length);
        if !LENGTHS.contains(&length) {
            return 1;
        }
        let (mut chip, memory) = (before.chip.clone(), &mut self.memory[..length]);
        match step {
            Step::Event { event: (kind, body), .. } => {
                model::event(&mut chip, memory, area, *kind, *body).refusal
            }
            Step::Run { script, spare, .. } => {
                let mut output = vec![0; room(script, *spare)];
                model::run(&mut chip, memory, area, script, &mut output).refusal
            }
            _ => 0,
        }
    }

    /// Takes note of a run as a whole.
    fn note_run(&mut self, before: &Chip, script: &[u8], spare: i64, after: &Chip) {
        self.saw(
            "run that begins inside a frame",
            before.frame.byte_count > 0 && !script.is_empty(),
        );
        self.saw("run that ends inside a frame", after.frame.byte_count > 0 && !script.is_empty());
        self.saw("run with the exact room", spare == 0 && !script.is_empty());
        self.saw("script of 65,536 bytes done", script.len() == LONGEST);
        self.saw("empty script done", script.is_empty());
        if !script.is_empty() {
            self.waits.note_run(before, after);
        }
    }

    /// Takes note of a run that was refused by 7, with the records that its events would yield, but
    /// for the bytes of cells.
    fn note_short_room(&mut self, before: &Expected, script: &[u8], spare: i64, length: usize) {
        let (mut chip, memory) = (before.chip.clone(), &mut self.memory[..length]);
        let (events, mut records) = (seen_events(&events_of(script).0), Vec::new());
        for (kind, body) in &events {
            let answer = model::event(&mut chip, memory, &self.areas.lent, *kind, *body);
            records.push(answer.record);
        }
        self.protection.note_room(&events, &records, spare, 7);
        self.deselects.note_room(&events, spare, 7);
    }

    /// Applies events to the chip once more, over a memory whose content does not matter, and gives
    /// the chip after them and their records, but for the bytes of cells.
    fn replay(
        &mut self,
        mut after: Expected,
        events: &[Event],
        length: usize,
    ) -> (Expected, Vec<Record>) {
        let (mut records, mut clock) = (Vec::new(), Clock::default());
        for event in events {
            if event.0 == kind::STAMP {
                let last = last_step(&after.chip, length);
                self.stamps.note_stamp(&after.chip, &clock, event.1, last);
            }
            self.reads.note_event(&after.chip, *event, length);
            let mut record = Record::None;
            if let Some(seen) = clock.seen(*event) {
                record = self.replay_seen(&mut after, event.0, seen, length);
            }
            records.push(record);
        }
        self.stamps.end_run(&clock);
        (after, records)
    }

    /// Applies an event that a chip sees once more, given the kind that it has in its script, and
    /// gives its record.
    fn replay_seen(
        &mut self,
        after: &mut Expected,
        source: u64,
        event: Event,
        length: usize,
    ) -> Record {
        let before = after.clone();
        let answer = after.event(&mut self.memory[..length], &self.areas.lent, event);
        self.note_leftovers(&before, event, answer.record, after);
        let (before, after) = (&before.chip, &after.chip);
        self.note_job(before, event, answer.record, after, length);
        self.enable.note_event(before, event, answer.record, after, self.frame_lent);
        self.reports.follow(source, before, event, answer.record, length);
        if source != kind::STAMP {
            self.stamps.note_other(event, answer.record == Record::Verdict(2));
        }
        match event.0 {
            kind::SELECT => self.saw("select while selected", before.selected),
            kind::EXCHANGE => self.note_exchange(before, answer.record, length),
            kind::DESELECT => self.note_deselect(before, answer.record, event.1, length),
            kind::TICK | kind::TICKS => {
                self.note_ticks(before, (source, event.1), after, answer.ticks);
            }
            kind::WP_LEVEL => self.waits.note_wp(before, after),
            kind::POWER_CUT => self.close_frame(),
            _ => {}
        }
        answer.record
    }

    /// Takes note of what an event does to leftovers; the load of a program is counted among them,
    /// for it is what the program might leave.
    fn note_leftovers(
        &mut self,
        before: &Expected,
        event: Event,
        record: Record,
        after: &Expected,
    ) {
        self.saw("leftovers kept", before.left != NOTHING && before.left == after.left);
        let job = after.chip.job.as_ref().map(Class::of);
        let name = match (event.0, record, before.chip.frame.opcode) {
            (kind::TICK | kind::TICKS, _, _) if job.is_none() => "leftovers gone by a last step",
            (kind::DESELECT, Record::Verdict(1), 0x99) if before.chip.job.is_none() => {
                "leftovers gone by a reset without a job"
            }
            (kind::DESELECT, Record::Verdict(1), 0x99) => "leftovers gone by the reset of a job",
            (kind::DESELECT, Record::Verdict(2), _) => match job {
                Some(Class::WriteStatus) => "leftovers gone by a write status begun",
                Some(Class::Program) => "leftovers replaced by a program begun",
                _ => "leftovers gone by an erase begun",
            },
            (kind::POWER_CUT, _, _) => "leftovers gone by a power cut",
            _ => return,
        };
        self.saw(name, before.holds_something() && after.left == NOTHING);
    }

    /// Forgets the frame that has ended.
    fn close_frame(&mut self) {
        self.frame_lent = false;
        self.frame_bytes = 0;
        self.last_status = None;
        self.areas.close_frame();
        self.waits.close_frame();
    }

    /// Takes note of an exchange.
    fn note_exchange(&mut self, before: &Chip, record: Record, length: usize) {
        self.saw("exchange unselected", !before.selected);
        self.frame_bytes += usize::from(before.selected);
        self.areas.note_exchange(before, record, length);
        self.waits.note_exchange(before, record, self.last_status);
        let Record::Driven(byte) = record else { return };
        self.saw("lent frame, byte driven", self.frame_lent);
        let frame = &before.frame;
        match frame.opcode {
            0x05 => {
                self.saw("status read while running", byte & 1 == 1);
                self.saw("status read while suspended", byte & 0x40 != 0);
                self.saw(
                    "status read, changed by ticks between two bytes",
                    self.last_status.is_some_and(|last| last != byte),
                );
                self.last_status = Some(byte);
            }
            0xAB => self.saw("device ID driven asleep", before.deep),
            0x9F => {
                self.saw("JEDEC cycle come round", frame.read_place == 0 && self.frame_bytes > 2)
            }
            0x03 | 0x0B => {
                let fast = usize::from(frame.opcode == 0x0B);
                let crossed = frame.read_place == 0 && self.frame_bytes > 5 + fast;
                if let Some(number) = LENGTHS.iter().position(|known| *known == length) {
                    self.over_top[number][fast] += u64::from(crossed);
                }
            }
            _ => {}
        }
    }

    /// Takes note of ticks.
    fn note_ticks(&mut self, before: &Chip, event: Event, after: &Chip, ticks: u64) {
        self.waits.note_ticks(before, event, after, ticks);
        let inside = before.frame.byte_count > 0;
        self.saw("working tick inside a frame", inside && ticks > 0);
        self.saw("last step inside a frame", inside && ticks > 0 && after.job.is_none());
    }

    /// The verdict that a deselect on the byte boundary would give.
    fn clean_verdict(&mut self, before: &Chip, length: usize) -> Option<u8> {
        let (mut chip, memory) = (before.clone(), &mut self.memory[..length]);
        verdict_of(model::event(&mut chip, memory, &[], kind::DESELECT, 0).record)
    }

    /// Takes note of a deselect with some bits loose, or none, and of its verdict.
    fn note_deselect(&mut self, before: &Chip, record: Record, bits: u64, length: usize) {
        let Some(verdict) = verdict_of(record) else { return };
        let clean = if bits > 0 { self.clean_verdict(before, length) } else { None };
        let frame = &before.frame;
        self.areas.note_deselect(before, bits > 0, verdict);
        self.deselects.note_deselect(before, bits, verdict, clean.unwrap_or(verdict));
        self.protection.note_deselect(before, record, length, self.frame_lent);
        let row = row_of(before);
        if row <= UNKNOWN {
            self.waits.note_deselect(row, before, verdict);
        }
        self.saw("lent frame, ended", self.frame_lent);
        self.saw("lent frame, job begun", self.frame_lent && verdict == 2);
        if !self.frame_lent {
            self.verdicts[row][usize::from(verdict)] += 1;
            self.note_load(before, verdict, length);
        }
        self.saw(
            "frame judged 6, ended without a job",
            frame.judgement == Some(6) && before.job.is_none(),
        );
        self.saw("arming kept over an empty frame", row == EMPTY && before.armed);
        self.saw(
            "arming lost by another frame",
            row < EMPTY && before.armed && !matches!(frame.opcode, 0x66 | 0x99),
        );
        self.close_frame();
    }

    /// Takes note of the address and the load of a job that begins.
    fn note_load(&mut self, before: &Chip, verdict: u8, length: usize) {
        if verdict != 2 {
            return;
        }
        let address = before.frame.address as usize;
        self.saw("address beyond the memory length", address >= length);
        if matches!(before.frame.opcode, 0x02 | 0x0A) {
            let data = self.frame_bytes.saturating_sub(4);
            self.saw("load that wraps", address % 256 + data > 256);
            self.saw("load of more than 256 bytes", data > 256);
        }
    }

    /// Takes note of what an event does to a job after its k steps.
    fn note_job(
        &mut self,
        before: &Chip,
        event: Event,
        record: Record,
        after: &Chip,
        length: usize,
    ) {
        self.waits.note_job(before, event, record, after, length);
        let Some(job) = &before.job else { return };
        let waited = before.waiting && after.suspended;
        let fate = match (event.0, record, before.frame.opcode) {
            (kind::TICK | kind::TICKS, _, _) if waited => "suspended",
            _ if before.waiting => return,
            (kind::TICK | kind::TICKS, _, _) if after.job.is_none() => "ended",
            (kind::DESELECT, Record::Verdict(1), 0x30) => "resumed",
            (kind::DESELECT, Record::Verdict(2), _) => "dropped",
            (kind::DESELECT, Record::Verdict(1), 0x99) if before.suspended => "reset sus",
            (kind::DESELECT, Record::Verdict(1), 0x99) => "reset",
            (kind::POWER_CUT, _, _) if before.suspended => "cut sus",
            (kind::POWER_CUT, _, _) => "cut",
            _ => return,
        };
        let k = job.steps_done + u32::from(waited);
        self.saw("job begun while suspended after ticks", fate == "dropped" && k > 0);
        self.fates.saw(fate, job, length, k);
    }

    /// Prints the tables and gives the number of cells that are empty, or filled and should not be.
    pub fn report(&self) -> usize {
        let mut faults = self.report_verdicts();
        faults += self.report_refusals();
        faults += self.deselects.report(&ENTRIES);
        faults += self.stamps.report();
        faults += self.reports.report();
        faults += self.areas.report(&ENTRIES);
        faults += self.protection.report(&ENTRIES);
        faults += self.programmings.report();
        faults += self.report_fates();
        faults += self.waits.report();
        faults += self.enable.report();
        faults += self.reads.report();
        faults += self.report_situations();
        println!("\n{} cells have to be filled", required());
        faults
    }

    /// Prints opcodes by verdicts.
    fn report_verdicts(&self) -> usize {
        println!("frames by verdict (- cannot occur)");
        print_head(&VERDICTS);
        let mut faults = 0;
        for (command, counts) in COMMANDS.iter().zip(&self.verdicts) {
            let can = |verdict: usize| command.verdicts.contains(&(verdict as u8));
            print!("{}", command.head());
            faults += print_cells(counts, can);
        }
        for (verdict, reason) in REASONS.iter().enumerate() {
            println!("  - under {verdict}: {reason}");
        }
        faults
    }

    /// Prints refusals by entry points.
    fn report_refusals(&self) -> usize {
        println!("\nrefusals by entry point (- cannot occur: a single event has no script and no output)");
        print_head(&REFUSALS);
        let mut faults = 0;
        for ((name, numbers), counts) in ENTRIES.iter().zip(&self.refusals) {
            print!("{name:24}");
            faults += print_cells(counts, |column| numbers.contains(&REFUSALS[column]));
        }
        faults + self.report_rules()
    }

    /// Prints the rules of legality that were broken, and the flags above 1 by entry points.
    fn report_rules(&self) -> usize {
        let mut faults = 0;
        println!("\nstates that break one rule of legality alone, refused by 2");
        for ((name, _), count) in RULES.iter().zip(&self.rules) {
            faults += print_line(name, *count);
        }
        println!("\nflags that are a byte above 1, refused by 2 at each entry point");
        println!("{:24}{:>8}{:>8}{:>8}{:>8}", "", "event", "lent", "run", "report");
        for (name, counts) in FLAGS.iter().zip(&self.flags) {
            print!("{name:24}");
            faults += print_cells(counts, |_| true);
        }
        faults
    }

    /// Prints jobs by fates.
    fn report_fates(&self) -> usize {
        println!("\njobs by fate: at how many k, of how many (- cannot occur: B0h then is 11)");
        self.fates.report(wanted)
    }

    /// Prints the situations.
    fn report_situations(&self) -> usize {
        println!("\nsituations");
        let mut faults = self.situations.report();
        for (length, counts) in LENGTHS.iter().zip(self.over_top) {
            faults += print_line(&format!("03h over the top of {length}"), counts[0]);
            faults += print_line(&format!("0Bh over the top of {length}"), counts[1]);
        }
        faults
    }
}
