// What has occurred about stamps: how far they moved the counter and where they fell, those that went
// back, and those that are refused alone.

use crate::case::Step;
use crate::clock::{Clock, WENT_BACK};
use crate::event::{body_length, events_of, kind, Event, LONGEST};
use crate::model::Chip;
use crate::side::Answer;
use crate::tally::{print_cells, print_head, print_line, Tally};

/// Stamps alone: their name, the number that refuses them, and whether one has such a body on such a
/// chip. By 5 all are refused that nothing comes before.
type Alone = (&'static str, u8, fn(u64, &Chip) -> bool);

/// What is refused alone.
const ALONE: [Alone; 9] = [
    ("body 0", 5, |body, _| body == 0),
    ("body 1 to 65,535", 5, |body, _| (1..=65_535).contains(&body)),
    ("body from 65,536 on", 5, |body, _| body > 65_535),
    ("inside a frame", 5, |_, chip| chip.frame.byte_count > 0),
    ("while a job runs", 5, |_, chip| chip.job.is_some() && !chip.suspended),
    ("in suspension", 5, |_, chip| chip.suspended),
    ("1 comes before", 1, |_, _| true),
    ("13 comes before", 13, |_, _| true),
    ("2 comes before", 2, |_, _| true),
];

/// How far a stamp moves the counter; one that rolls over is in two rows.
const MOVES: [&str; 6] = ["first", "equal", "by 1", "by 2 to 32,766", "by 32,767", "over 65,535"];

/// What a stamp finds: a chip without a job, a job that runs, waits or is suspended; outside a frame
/// and inside one.
const FOUND: [&str; 4] = ["idle", "runs", "waits", "sus"];

/// The column of a chip in the table of moves.
fn column_of(chip: &Chip) -> usize {
    let job = match (&chip.job, chip.suspended, chip.waiting) {
        (None, ..) => 0,
        (_, true, _) => 3,
        (_, _, true) => 2,
        _ => 1,
    };
    job + if chip.selected { FOUND.len() } else { 0 }
}

/// The bytes that an open frame has had when a stamp falls, 6 meaning six or more.
const BYTES: [u8; 7] = [0, 1, 2, 3, 4, 5, 6];

/// How a stamp went back, in the order of their tests.
const BACK: [&str; 7] = [
    "by 32,768",
    "by 32,769 to 65,534",
    "by 65,535, that is by one",
    "from the first of the run",
    "from a later one",
    "over a power cut",
    "inside a frame",
];

/// A script that is refused: the number, the bytes from the bad event on, the clock before it, and
/// what its room has beyond what it asks for.
struct Refused<'a> {
    refusal: u8,
    bytes: &'a [u8],
    clock: Clock,
    spare: i64,
}

impl Refused<'_> {
    /// Whether the event after the bad one is a stamp that went back.
    fn back_behind(&self) -> bool {
        let length = 1 + body_length(u64::from(self.bytes[0])).unwrap_or(0);
        match events_of(&self.bytes[length..]).0.first() {
            Some((kind::STAMP, body)) => went_back(&self.clock, *body),
            _ => false,
        }
    }

    /// The bytes behind a stamp that went back.
    fn behind(&self) -> &[u8] {
        if self.refusal == 8 {
            &self.bytes[3..]
        } else {
            &[]
        }
    }
}

/// Whether a stamp of that body went back.
fn went_back(clock: &Clock, body: u64) -> bool {
    clock.move_to(body as u16).is_some_and(|moved| moved >= WENT_BACK)
}

/// What decides among the refusals of a script, and whether a refused one is so.
const ORDER: [(&str, fn(&Refused) -> bool); 11] = [
    ("8, then an unknown kind", |script| matches!(script.behind(), [0 | 8 | 10..=255, ..])),
    ("8, then a body out of range", |script| {
        matches!(script.behind(), [3, 8..=255, ..] | [6, 2..=255, ..] | [5, 0, 0, ..])
    }),
    ("8, then an unfinished event", |script| {
        matches!(script.behind(), [2 | 3 | 5 | 6 | 9] | [5 | 9, _])
    }),
    ("8, then a stamp further back", |script| {
        let clock = script.clock;
        matches!(script.behind(), [9, high, low, ..]
            if went_back(&clock, u64::from(u16::from_be_bytes([*high, *low]))))
    }),
    ("8 and too little room", |script| script.refusal == 8 && script.spare < 0),
    ("5, then a stamp that went back", |script| script.refusal == 5 && script.back_behind()),
    ("6, then a stamp that went back", |script| script.refusal == 6 && script.back_behind()),
    ("4, a stamp without its body", |script| script.refusal == 4 && *script.bytes == [9]),
    ("4, a stamp without its low byte", |script| {
        script.refusal == 4 && matches!(script.bytes, [9, _])
    }),
    ("4, a stamp whose high byte went back", |script| {
        matches!(script.bytes, [9, high]
            if script.refusal == 4 && went_back(&script.clock, u64::from(*high) << 8))
    }),
    ("4 behind good stamps", |script| script.refusal == 4 && script.clock.last.is_some()),
];

/// What has to occur, beside the cells of the tables.
const SITUATIONS: [&str; 16] = [
    "first stamp 0",
    "first stamp 65,535",
    "two roll-overs in one run",
    "stamp over a power cut, ticks given",
    "job begun between two stamps",
    "ticks of 04h or 05h between two stamps",
    "last step by a stamp, no tick left over",
    "last step by a stamp, ticks left over",
    "wait left open by a stamp without ticks",
    "run of stamps alone",
    "script of 65,536 bytes that ends with a stamp",
    "stamp that went back, the last of 65,536 bytes, 8",
    "stamp that went back in 65,537 bytes, 3",
    "first stamp behind that of the run before",
    "first stamp past that of the run before, a job runs",
    "first stamp behind that of a refused run",
];

/// All that has occurred about stamps.
pub struct StampCoverage {
    alone: [[u64; 2]; ALONE.len()],
    moves: [[u64; 2 * FOUND.len()]; MOVES.len()],
    /// Stamps in open frames by the bytes before them: those without ticks, and those with.
    bytes: [[u64; BYTES.len()]; 2],
    /// Stamps that went back, by the form of the run.
    back: [[u64; 2]; BACK.len()],
    order: [u64; ORDER.len()],
    situations: Tally,
    /// The last stamp of the run before, one that was done and one that was refused.
    last_done: Option<u16>,
    last_refused: Option<u16>,
    roll_overs: usize,
    /// What fell since the stamp before.
    cut_between: bool,
    begun_between: bool,
    ticked_between: bool,
}

impl StampCoverage {
    /// Nothing yet.
    pub fn new() -> StampCoverage {
        StampCoverage {
            alone: [[0; 2]; ALONE.len()],
            moves: [[0; 2 * FOUND.len()]; MOVES.len()],
            bytes: [[0; BYTES.len()]; 2],
            back: [[0; 2]; BACK.len()],
            order: [0; ORDER.len()],
            situations: Tally::new(&SITUATIONS),
            last_done: None,
            last_refused: None,
            roll_overs: 0,
            cut_between: false,
            begun_between: false,
            ticked_between: false,
        }
    }

    /// Takes note of the start of a case.
    pub fn note_start(&mut self) {
        (self.last_done, self.last_refused) = (None, None);
    }

    /// Takes note of a step at an entry point that was answered, from the chip before it.
    pub fn note_step(&mut self, before: &Chip, step: &Step, entry: usize, answer: &Answer) {
        match step {
            Step::Event { event: (kind::STAMP, body), .. } => {
                for ((_, due, has), counts) in ALONE.iter().zip(&mut self.alone) {
                    counts[entry] += u64::from(answer.refusal == *due && has(*body, before));
                }
            }
            Step::Run { script, spare, allowances, .. } if answer.refusal != 0 => {
                self.note_refused(script, *spare, answer);
                if answer.refusal == 8 {
                    self.note_back(before, script, answer, usize::from(allowances.is_some()));
                }
            }
            _ => {}
        }
    }

    /// Takes note of a script that was refused.
    fn note_refused(&mut self, script: &[u8], spare: i64, answer: &Answer) {
        let (refusal, offset) = (answer.refusal, answer.offset as usize);
        let mut clock = Clock::default();
        for event in events_of(&script[..offset]).0 {
            clock.seen(event);
        }
        let refused = Refused { refusal, bytes: &script[offset..], clock, spare };
        if matches!(refusal, 4..=6 | 8) {
            for ((_, has), count) in ORDER.iter().zip(&mut self.order) {
                *count += u64::from(has(&refused));
            }
        }
        let first = first_back(script);
        let tally = &mut self.situations;
        tally.saw(
            "stamp that went back in 65,537 bytes, 3",
            refusal == 3 && script.len() == LONGEST + 1 && first.is_some(),
        );
        tally.saw(
            "stamp that went back, the last of 65,536 bytes, 8",
            refusal == 8 && script.len() == LONGEST && offset == LONGEST - 3,
        );
        self.last_refused = last_stamp(script);
    }

    /// Takes note of a stamp that went back in a run of one of the two forms.
    fn note_back(&mut self, before: &Chip, script: &[u8], answer: &Answer, form: usize) {
        let Some(Back { moved, stamps, cut, inside }) =
            first_back(script).filter(|back| back.stamps > 0)
        else {
            return;
        };
        let inside = inside.unwrap_or(before.selected);
        let is = [
            moved == WENT_BACK,
            moved > WENT_BACK && moved < u16::MAX,
            moved == u16::MAX,
            stamps == 1,
            stamps > 1,
            cut,
            inside,
        ];
        for (is, counts) in is.into_iter().zip(&mut self.back) {
            counts[form] += u64::from(is && answer.refusal == 8);
        }
    }

    /// Takes note of a run that was done, before its events are noted one by one.
    pub fn begin_run(&mut self, events: &[Event], script: &[u8]) {
        self.roll_overs = 0;
        (self.cut_between, self.begun_between, self.ticked_between) = (false, false, false);
        let stamps = events.iter().filter(|event| event.0 == kind::STAMP).count();
        let tally = &mut self.situations;
        tally.saw("run of stamps alone", stamps > 1 && stamps == events.len());
        tally.saw(
            "script of 65,536 bytes that ends with a stamp",
            script.len() == LONGEST && events.last().is_some_and(|event| event.0 == kind::STAMP),
        );
    }

    /// Takes note of the end of a run that was done, with its clock.
    pub fn end_run(&mut self, clock: &Clock) {
        if clock.last.is_some() {
            (self.last_done, self.last_refused) = (clock.last, None);
        }
    }

    /// Takes note of an event of a run that was done, if it is no stamp.
    pub fn note_other(&mut self, event: Event, begun: bool) {
        self.cut_between |= event.0 == kind::POWER_CUT;
        self.begun_between |= begun;
        self.ticked_between |= matches!(event.0, kind::TICK | kind::TICKS);
    }

    /// Takes note of a stamp of a run that was done, from the chip and the clock before it, and the
    /// number of ticks after which the chip's job does its last step, if ticks alone make it.
    pub fn note_stamp(&mut self, before: &Chip, clock: &Clock, body: u64, last_step: Option<u64>) {
        let (counter, moved) = (body as u16, clock.move_to(body as u16));
        let rolled = clock.last.is_some_and(|last| counter < last);
        self.roll_overs += usize::from(rolled);
        let row = match moved {
            None => 0,
            Some(0) => 1,
            Some(1) => 2,
            Some(2..=32_766) => 3,
            _ => 4,
        };
        let column = column_of(before);
        self.moves[row][column] += 1;
        self.moves[5][column] += u64::from(rolled);
        let ticks = u64::from(moved.unwrap_or(0));
        if before.selected {
            self.bytes[usize::from(ticks > 0)][usize::from(before.frame.byte_count)] += 1;
        }
        match moved {
            None => self.note_first(before, counter),
            Some(_) => self.note_later(before, ticks, last_step),
        }
        (self.cut_between, self.begun_between, self.ticked_between) = (false, false, false);
    }

    /// Takes note of the first stamp of a run.
    fn note_first(&mut self, before: &Chip, counter: u16) {
        let from = |last: Option<u16>| last.map_or(0, |last| counter.wrapping_sub(last));
        let (done, refused) = (from(self.last_done), from(self.last_refused));
        let runs = before.job.is_some() && !before.suspended;
        let tally = &mut self.situations;
        tally.saw("first stamp 0", counter == 0);
        tally.saw("first stamp 65,535", counter == u16::MAX);
        tally.saw("first stamp behind that of the run before", done >= WENT_BACK);
        tally.saw(
            "first stamp past that of the run before, a job runs",
            runs && (1..WENT_BACK).contains(&done),
        );
        tally.saw("first stamp behind that of a refused run", refused >= WENT_BACK);
    }

    /// Takes note of a later stamp of a run, which gives some ticks, or none.
    fn note_later(&mut self, before: &Chip, ticks: u64, last_step: Option<u64>) {
        let ended = last_step.filter(|last| *last <= ticks);
        let tally = &mut self.situations;
        tally.saw("two roll-overs in one run", self.roll_overs == 2);
        tally.saw("stamp over a power cut, ticks given", self.cut_between && ticks > 0);
        tally.saw("job begun between two stamps", self.begun_between && ticks > 0);
        tally.saw("ticks of 04h or 05h between two stamps", self.ticked_between);
        tally.saw("last step by a stamp, no tick left over", ended == Some(ticks));
        tally.saw("last step by a stamp, ticks left over", ended.is_some_and(|last| last < ticks));
        tally.saw("wait left open by a stamp without ticks", before.waiting && ticks == 0);
    }

    /// Prints the tables and gives the number of cells that are empty, or filled and should not be.
    pub fn report(&self) -> usize {
        let faults = self.report_alone() + self.report_moves() + self.report_back();
        println!("\nrefusals of scripts with stamps, and beside these");
        let order = ORDER.iter().zip(self.order).map(|((name, _), count)| print_line(name, count));
        faults + order.sum::<usize>() + self.situations.report()
    }

    /// Prints what is refused alone.
    fn report_alone(&self) -> usize {
        println!("\nstamps alone, refused by 5 whatever their body, after 1, 13 and 2");
        println!("{:24}{:>8}{:>8}", "", "event", "lent");
        let mut faults = 0;
        for ((name, ..), counts) in ALONE.iter().zip(&self.alone) {
            print!("{name:24}");
            faults += print_cells(counts, |_| true);
        }
        faults
    }

    /// Prints stamps by their moves and by what they fell in.
    fn report_moves(&self) -> usize {
        println!("\nstamps by move and by what they find, outside a frame and inside one");
        let head: String = FOUND.repeat(2).iter().map(|name| format!("{name:>8}")).collect();
        println!("{:24}{head}", "");
        let mut faults = 0;
        for (name, counts) in MOVES.iter().zip(&self.moves) {
            print!("{name:24}");
            faults += print_cells(counts, |_| true);
        }
        println!("\nstamps inside frames, by the bytes before them");
        print_head(&BYTES);
        for (name, counts) in ["no ticks", "ticks"].iter().zip(&self.bytes) {
            print!("{name:24}");
            faults += print_cells(counts, |_| true);
        }
        faults
    }

    /// Prints stamps that went back.
    fn report_back(&self) -> usize {
        println!("\nstamps that went back, 8, by the form of the run");
        println!("{:32}{:>8}{:>8}", "", "plain", "report");
        let mut faults = 0;
        for (name, counts) in BACK.iter().zip(&self.back) {
            print!("  {name:30}");
            faults += print_cells(counts, |_| true);
        }
        faults
    }
}

/// A stamp that went back: by how much, after how many stamps, whether the power was cut since the
/// one before, and whether a frame is open there, if the script says so.
struct Back {
    moved: u16,
    stamps: usize,
    cut: bool,
    inside: Option<bool>,
}

/// The first stamp of a script that went back.
fn first_back(script: &[u8]) -> Option<Back> {
    let (mut clock, mut stamps, mut cut, mut inside) = (Clock::default(), 0, false, None);
    for event in events_of(script).0 {
        match event.0 {
            kind::SELECT => inside = Some(true),
            kind::DESELECT => inside = Some(false),
            kind::POWER_CUT => (inside, cut) = (Some(false), true),
            kind::STAMP => {
                let moved = clock.move_to(event.1 as u16).unwrap_or(0);
                if moved >= WENT_BACK {
                    return Some(Back { moved, stamps, cut, inside });
                }
                (stamps, cut) = (stamps + 1, false);
            }
            _ => {}
        }
        clock.seen(event);
    }
    None
}

/// The last stamp of a script.
fn last_stamp(script: &[u8]) -> Option<u16> {
    let (events, _) = events_of(script);
    events.iter().rev().find(|event| event.0 == kind::STAMP).map(|event| event.1 as u16)
}
