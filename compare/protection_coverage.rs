// What has occurred about protection: what verdict 9 names, where its targets are, and the rooms.

use crate::case::LENGTHS;
use crate::class::{Class, LONG_JOBS};
use crate::event::{kind, room_of, Event};
use crate::model::{Chip, Record};
use crate::protection::{ends, target_sector, Ends};
use crate::side::{record_bytes, verdict_of};
use crate::tally::{count_required, mark, print_cells, print_head, print_line, Tally};

/// The jobs that can have a protected target, as `LONG_JOBS` has them.
const TARGETS: [&str; 4] = ["a program", "a small sector erase", "a sector erase", "a chip erase"];

/// The levels that protect something.
const LEVELS: [u8; 7] = [1, 2, 3, 4, 5, 6, 7];

/// The sectors of the six lengths.
pub const SECTORS: [u8; 6] = [1, 2, 4, 8, 16, 32];

/// Where the sector of a target can be, with the fewest sectors that the part then has.
const PLACES: [(&str, u8); 5] = [
    ("the only one", 1),
    ("the first", 2),
    ("the last", 2),
    ("between the two", 4),
    ("beside them, begun", 2),
];

/// The row of the sectors that are neither the first protected one nor the last.
const BETWEEN: usize = 3;
/// The row of the sectors next to the protected ones, where a job begins.
const BESIDE: usize = 4;

/// The row of a protected sector.
fn place_of(sector: usize, (first, last): Ends) -> usize {
    match sector {
        _ if first == last => 0,
        _ if sector == first => 1,
        _ if sector == last => 2,
        _ => BETWEEN,
    }
}

/// Scripts by what they have that yields records, and by whether a verdict is, or would be, 9.
const SCRIPTS: [&str; 7] = [
    "exchanges alone",
    "clean deselects, no 9",
    "clean deselects, a 9",
    "loose deselects, no 9",
    "loose deselects, a 9",
    "both deselects, no 9",
    "both deselects, a 9",
];

/// Whether a record tells verdict 9.
fn is_9(record: &Record) -> bool {
    verdict_of(*record) == Some(9)
}

/// Whether an event is a deselect with bits loose.
fn is_loose((kind, body): &Event) -> bool {
    *kind == kind::DESELECT && *body > 0
}

/// The row of a script, from its events and their records; none where nothing yields a record.
fn script_of_room(events: &[Event], records: &[Record]) -> Option<usize> {
    let has = |is: fn(&Event) -> bool| events.iter().any(is);
    let nine = usize::from(records.iter().any(is_9));
    match (has(|event| *event == (kind::DESELECT, 0)), has(is_loose)) {
        (false, false) => has(|event| event.0 == kind::EXCHANGE).then_some(0),
        (true, false) => Some(1 + nine),
        (false, true) => Some(3 + nine),
        (true, true) => Some(5 + nine),
    }
}

/// The rooms that a run is lent: what it asks for, done; a byte less, and two bytes for each
/// deselect, both refused by 7.
const ROOMS: [&str; 3] = ["exact", "1 short", "2 each"];

/// Whether a run of such a script can be lent such a room: a loose deselect is no verdict 9, and
/// without a deselect two bytes for each of them are the exact room.
fn can_be_lent(script: usize, room: usize) -> bool {
    script != 4 && !(script == 0 && room == 2)
}

/// What has to occur, beside the cells of the tables; the first three as `LONG_JOBS` has their jobs.
const SITUATIONS: [&str; 12] = [
    "program, its sector between the two ends",
    "small sector erase, its sector between them",
    "sector erase, its sector between them",
    "chip erase, level 3 of 8 sectors, TB 0: 4 7",
    "chip erase, level 3 of 8 sectors, TB 1: 0 3",
    "verdict 9 in suspension",
    "verdict 9, address beyond the memory length",
    "verdict 9 of a lent frame",
    "verdicts 9 of one run that name other sectors",
    "records that would fit, refused by 7",
    "exact room, not all of it written",
    "exact room, all of it written, 83h last",
];

/// All that has occurred about protection.
pub struct ProtectionCoverage {
    /// Verdicts 9 with the right ends, by job, TB, length and level.
    named: [[[[u64; LEVELS.len()]; 6]; 2]; 4],
    /// Targets that are a sector or a part of one, by TB, place and length.
    places: [[[u64; 6]; PLACES.len()]; 2],
    /// The sectors, a bit each, in which such a job began or was turned away, by TB, length and level.
    asked: [[[u32; 8]; 6]; 2],
    /// Verdicts 9 by entry point.
    entries: [u64; 3],
    rooms: [[u64; ROOMS.len()]; SCRIPTS.len()],
    situations: Tally,
    /// The entry point of the present step, and the ends that it named last.
    entry: usize,
    last_ends: Option<Ends>,
}

impl ProtectionCoverage {
    /// Nothing yet.
    pub fn new() -> ProtectionCoverage {
        ProtectionCoverage {
            named: [[[[0; LEVELS.len()]; 6]; 2]; 4],
            places: [[[0; 6]; PLACES.len()]; 2],
            asked: [[[0; 8]; 6]; 2],
            entries: [0; 3],
            rooms: [[0; ROOMS.len()]; SCRIPTS.len()],
            situations: Tally::new(&SITUATIONS),
            entry: 0,
            last_ends: None,
        }
    }

    /// Takes note of the entry point of a step.
    pub fn note_step(&mut self, entry: usize) {
        (self.entry, self.last_ends) = (entry, None);
    }

    /// Takes note of a deselect, of a frame that came with a lent state or not.
    pub fn note_deselect(&mut self, before: &Chip, record: Record, length: usize, lent: bool) {
        let class = Class::begun_by(before.frame.opcode);
        let job = LONG_JOBS.iter().position(|long| Some(*long) == class);
        let size = LENGTHS.iter().position(|known| *known == length);
        let (Some(job), Some(size)) = (job, size) else { return };
        let tb = usize::from(before.tb);
        if LONG_JOBS[job] != Class::Chip && matches!(verdict_of(record), Some(2 | 9)) {
            let asked = &mut self.asked[tb][size][usize::from(before.level)];
            *asked |= 1 << target_sector(before, length);
        }
        let Some(ends) = ends(before, length) else { return };
        match record {
            Record::Protected { first, last } if (first.into(), last.into()) == ends => {
                self.named[job][tb][size][usize::from(before.level - 1)] += 1;
                self.note_named(before, length, ends, lent);
                if LONG_JOBS[job] == Class::Chip {
                    self.note_chip_erase(before, length, ends);
                } else {
                    let place = place_of(target_sector(before, length), ends);
                    self.places[tb][place][size] += 1;
                    self.situations.saw(SITUATIONS[job], place == BETWEEN);
                }
            }
            Record::Verdict(2) => {
                let sector = target_sector(before, length);
                let beside = sector + 1 == ends.0 || sector == ends.1 + 1;
                self.places[tb][BESIDE][size] += u64::from(beside);
            }
            _ => {}
        }
    }

    /// Takes note of a verdict 9, whatever its target.
    fn note_named(&mut self, before: &Chip, length: usize, ends: Ends, lent: bool) {
        self.entries[self.entry] += 1;
        let other = self.last_ends.replace(ends).is_some_and(|last| last != ends);
        let beyond = before.frame.address as usize >= length;
        let tally = &mut self.situations;
        tally.saw("verdict 9 in suspension", before.suspended);
        tally.saw("verdict 9, address beyond the memory length", beyond);
        tally.saw("verdict 9 of a lent frame", lent);
        tally.saw("verdicts 9 of one run that name other sectors", other);
    }

    /// Takes note of a chip erase that is turned away, where half of a part is protected.
    fn note_chip_erase(&mut self, before: &Chip, length: usize, ends: Ends) {
        if length == 8 * Chip::SECTOR && before.level == 3 {
            let tally = &mut self.situations;
            tally.saw("chip erase, level 3 of 8 sectors, TB 0: 4 7", !before.tb && ends == (4, 7));
            tally.saw("chip erase, level 3 of 8 sectors, TB 1: 0 3", before.tb && ends == (0, 3));
        }
    }

    /// Takes note of the room of a run that was done or refused by 7, from the records that its
    /// events yield, or would.
    pub fn note_room(&mut self, events: &[Event], records: &[Record], spare: i64, refusal: u8) {
        let Some(script) = script_of_room(events, records) else { return };
        let deselects = records.iter().filter(|record| verdict_of(**record).is_some()).count();
        let (exact, short) = (refusal == 0 && spare == 0, refusal == 7);
        let lent = [exact, short && spare == -1, short && spare == -(deselects as i64)];
        for (count, lent) in self.rooms[script].iter_mut().zip(lent) {
            *count += u64::from(lent);
        }
        let needed: i64 = events.iter().map(|event| room_of(event.0)).sum();
        let real: i64 = records.iter().map(|record| i64::from(record_bytes(*record).length)).sum();
        let filled = exact && real == needed && records.last().is_some_and(is_9);
        let tally = &mut self.situations;
        tally.saw("records that would fit, refused by 7", short && real <= needed + spare);
        tally.saw("exact room, not all of it written", exact && real < needed);
        tally.saw("exact room, all of it written, 83h last", filled);
    }

    /// Prints the tables and gives the number of cells that are empty, or filled and should not be.
    pub fn report(&self, entries: &[(&str, &[u8])]) -> usize {
        let mut faults = self.report_named() + self.report_places();
        faults += self.report_asked() + self.report_rooms();
        println!("\nverdict 9 and rooms");
        for ((name, _), count) in entries.iter().zip(self.entries) {
            faults += print_line(&format!("verdict 9, {name}"), count);
        }
        faults + self.situations.report()
    }

    /// Prints verdicts 9 by level.
    fn report_named(&self) -> usize {
        let mut faults = 0;
        for (name, by_tb) in TARGETS.iter().zip(&self.named) {
            println!("\nverdict 9 on {name}, as 83h with the right ends, by level");
            print_head(&LEVELS);
            for (tb, by_length) in by_tb.iter().enumerate() {
                for (sectors, counts) in SECTORS.iter().zip(by_length) {
                    print!("{:24}", format!("TB {tb}, S = {sectors}"));
                    faults += print_cells(counts, |_| true);
                }
            }
        }
        faults
    }

    /// Prints the sectors of targets by the part's sectors.
    fn report_places(&self) -> usize {
        println!("\nsectors of targets among the protected ones, by the part's sectors");
        println!("(- cannot occur: the part has too few)");
        print_head(&SECTORS);
        let mut faults = 0;
        for (tb, by_place) in self.places.iter().enumerate() {
            for ((name, fewest), counts) in PLACES.iter().zip(by_place) {
                print!("{:24}", format!("TB {tb}, {name}"));
                faults += print_cells(counts, |length| SECTORS[length] >= *fewest);
            }
        }
        faults
    }

    /// Prints how many sectors of each part have been asked, which have to be all.
    fn report_asked(&self) -> usize {
        println!("\nsectors in which a job began or was turned away, by level: all of them");
        print_head(&[0, 1, 2, 3, 4, 5, 6, 7]);
        let mut faults = 0;
        for (tb, by_length) in self.asked.iter().enumerate() {
            for (sectors, by_level) in SECTORS.iter().zip(by_length) {
                print!("{:24}", format!("TB {tb}, S = {sectors}"));
                for asked in by_level {
                    let bad = asked.count_ones() != u32::from(*sectors);
                    count_required(true);
                    print!("{:>8}", asked.count_ones().to_string() + mark(bad));
                    faults += usize::from(bad);
                }
                println!();
            }
        }
        faults
    }

    /// Prints the rooms of runs by scripts.
    fn report_rooms(&self) -> usize {
        println!("\nrooms of runs: the exact one done, less refused by 7");
        println!("(- cannot occur: a loose frame is 4 before; two bytes for each of no deselect)");
        println!("{:24}{:>8}{:>8}{:>8}", "", ROOMS[0], ROOMS[1], ROOMS[2]);
        let mut faults = 0;
        for (script, (name, counts)) in SCRIPTS.iter().zip(&self.rooms).enumerate() {
            print!("{name:24}");
            faults += print_cells(counts, |room| can_be_lent(script, room));
        }
        faults
    }
}
