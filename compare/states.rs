// States that are lent: legal ones of every sort, and those that break one rule of legality alone.

use crate::class::{Class, ALL_JOBS, LONG_JOBS};
use crate::commands::{COMMANDS, UNKNOWN};
use crate::image::{flags_of, with_flags, Edit, FLAGS};
use crate::model::{Chip, Frame, Job, JobKind};
use crate::rng::Rng;
use crate::side::LONGEST_AREA;

/// A rule of legality: its words, and whether a chip over a memory length keeps it.
pub type Rule = (&'static str, fn(&Chip, usize) -> bool);

/// The place in a 9Fh frame's cycle is below this number.
const CYCLE: u32 = 4;
/// Addresses are below this number, and so is the read place in a 5Ah frame.
const ADDRESSES: u32 = 1 << 24;

/// The rules of legality, one by one. That the load place is below 256 is none of them: the library
/// has no room for another. The last two are rules of the library alone: the model has no room for
/// another job or flag.
pub const RULES: [Rule; 18] = [
    ("level at most 7", |chip, _| chip.level <= 7),
    ("job inside memory", |chip, length| job(chip, |job| (job.place as usize) < length)),
    ("job aligned to its size", |chip, _| job(chip, |job| job.place % size(job) == 0)),
    ("fewer steps than the total", |chip, length| {
        job(chip, |job| job.steps_done < Class::of(job).steps(length))
    }),
    ("a job means WEN 1", |chip, _| chip.job.is_none() || chip.wen),
    ("suspended means a program or erase", |chip, _| {
        let class = chip.job.as_ref().map(Class::of);
        !chip.suspended || !matches!(class, None | Some(Class::WriteStatus))
    }),
    ("waiting means a job", |chip, _| !chip.waiting || chip.job.is_some()),
    ("waiting means no write status", |chip, _| {
        !chip.waiting || job(chip, |job| Class::of(job) != Class::WriteStatus)
    }),
    ("waiting means not suspended", |chip, _| !chip.waiting || !chip.suspended),
    ("deep means no job", |chip, _| !chip.deep || chip.job.is_none()),
    ("deep means not armed", |chip, _| !chip.deep || !chip.armed),
    ("address below 2^24", |chip, _| chip.frame.address < ADDRESSES),
    ("read place inside", |chip, length| {
        chip.frame.read_place < read_end(chip.frame.opcode, length)
    }),
    ("byte count at most 6", |chip, _| chip.frame.byte_count <= 6),
    ("judgement none, 3, 5, 6 or 7", |chip, _| {
        matches!(chip.frame.judgement, None | Some(3 | 5 | 6 | 7))
    }),
    ("unselected or no byte means an empty frame", |chip, _| {
        (chip.selected && chip.frame.byte_count > 0) || chip.frame == Chip::fresh(0).frame
    }),
    ("a job that is one of the five", |_, _| true),
    ("flags that are 0 or 1", |_, _| true),
];

/// The number that the read place of an opcode's frame is below.
fn read_end(opcode: u8, length: usize) -> u32 {
    match opcode {
        0x9F => CYCLE,
        0x5A => ADDRESSES,
        _ => length as u32,
    }
}

/// Whether a chip has no job, or one that keeps a rule.
fn job(chip: &Chip, keeps: impl Fn(&Job) -> bool) -> bool {
    chip.job.as_ref().is_none_or(keeps)
}

/// The bytes that a job's place is aligned to; a write status and a chip erase are at 0.
fn size(job: &Job) -> u32 {
    match Class::of(job) {
        Class::Program => 256,
        Class::SmallSector => 4_096,
        Class::Sector => 65_536,
        Class::WriteStatus | Class::Chip => u32::MAX,
    }
}

/// A job of a class, legal over a memory length.
fn legal_job(rng: &mut Rng, class: Class, length: usize) -> Job {
    let mut load = [0xFF; 256];
    let kind = match class {
        Class::WriteStatus => JobKind::WriteStatus(rng.byte()),
        Class::Program => {
            rng.fill(&mut load);
            JobKind::Program(load)
        }
        Class::SmallSector => JobKind::SmallSectorErase,
        Class::Sector => JobKind::SectorErase,
        Class::Chip => JobKind::ChipErase,
    };
    let total = class.steps(length) as usize;
    let any = rng.below(total);
    let steps_done = rng.pick(&[0, any, any, total - 1]) as u32;
    let mut job = Job { kind, place: 0, steps_done };
    if LONG_JOBS[..3].contains(&class) {
        let places = length as u32 / size(&job);
        let any = rng.below(places as usize) as u32;
        job.place = rng.pick(&[0, any, any, places - 1]) * size(&job);
    }
    job
}

/// A chip without a frame, legal over a memory length, with a job of a class or none.
pub fn legal_unselected(rng: &mut Rng, length: usize, class: Option<Class>) -> Chip {
    let mut chip = Chip::fresh(rng.byte());
    chip.wp_high = rng.once_in(2);
    chip.armed = rng.once_in(3);
    chip.wen = rng.once_in(2);
    if let Some(class) = class {
        chip.job = Some(legal_job(rng, class, length));
        chip.wen = true;
        if class != Class::WriteStatus {
            let ways = [(false, false), (false, true), (true, false)];
            (chip.suspended, chip.waiting) = rng.pick(&ways);
        }
    } else if rng.once_in(4) {
        chip.deep = true;
        chip.armed = false;
    }
    chip
}

/// Selects a chip and gives it a frame of an opcode, with bytes enough to be one, but otherwise
/// any that is legal, also such as no bytes could have led to.
fn open_frame(rng: &mut Rng, chip: &mut Chip, opcode: u8, length: usize) {
    let address_end = ADDRESSES as usize;
    let place_end = read_end(opcode, length) as usize;
    let any = rng.below(address_end);
    chip.selected = true;
    let frame = &mut chip.frame;
    frame.opcode = opcode;
    frame.byte_count = 1 + rng.below(6) as u8;
    frame.address =
        rng.pick(&[0, any, any, length - 1, length % address_end, address_end - 1]) as u32;
    frame.read_place = rng.below(place_end) as u32;
    if rng.once_in(3) {
        frame.read_place = place_end as u32 - 1;
    } else if opcode == 0x5A && rng.once_in(2) {
        frame.read_place = rng.below(LONGEST_AREA) as u32;
    }
    frame.load_place = rng.byte().into();
    frame.judgement = rng.pick(&[None, None, None, Some(3), Some(5), Some(6), Some(7)]);
    if rng.once_in(2) {
        rng.fill(&mut frame.load);
    }
}

/// Any opcode, or a byte that is none.
fn any_opcode(rng: &mut Rng) -> u8 {
    let number = rng.below(UNKNOWN + 2);
    COMMANDS.get(number).and_then(|command| command.opcode).unwrap_or(rng.byte())
}

/// Any opcode but 5Ah, or a byte that is none.
fn other_opcode(rng: &mut Rng) -> u8 {
    match any_opcode(rng) {
        0x5A => 0x03,
        opcode => opcode,
    }
}

/// A job's class or none.
fn any_class(rng: &mut Rng) -> Option<Class> {
    let [program, small, sector, whole] = LONG_JOBS.map(Some);
    rng.pick(&[None, None, Some(Class::WriteStatus), program, small, sector, whole])
}

/// Any legal state, fresh ones aside.
pub fn legal(rng: &mut Rng, length: usize) -> Chip {
    let class = any_class(rng);
    let mut chip = legal_unselected(rng, length, class);
    chip.selected = rng.once_in(2);
    if chip.selected && !rng.once_in(6) {
        let opcode = any_opcode(rng);
        open_frame(rng, &mut chip, opcode, length);
    }
    chip
}

/// A legal state with an open frame of an opcode and a byte count, often one that can begin a job.
pub fn with_frame(rng: &mut Rng, length: usize, opcode: u8, count: u8) -> Chip {
    let class = any_class(rng);
    let mut chip = legal_unselected(rng, length, class);
    if rng.once_in(2) {
        chip = legal_unselected(rng, length, None);
        (chip.deep, chip.wen, chip.level) = (false, true, 0);
    }
    open_frame(rng, &mut chip, opcode, length);
    chip.frame.byte_count = count;
    if !rng.once_in(4) {
        chip.frame.judgement = None;
    }
    chip
}

/// A state with a suspended job of a class and an open frame of an opcode that its end begins a job
/// by, legal but for WEN 0.
pub fn suspended_without_wen(rng: &mut Rng, length: usize, class: Class, opcode: u8) -> Chip {
    let mut chip = legal_unselected(rng, length, Some(class));
    (chip.suspended, chip.waiting, chip.level, chip.wen) = (true, false, 0, false);
    open_frame(rng, &mut chip, opcode, length);
    chip.frame.judgement = None;
    chip.frame.byte_count = match Class::begun_by(opcode) {
        Some(Class::Program) => rng.pick(&[5, 6]),
        Some(Class::Chip) => 1,
        _ => 4,
    };
    chip
}

/// A state with a job, legal but for what a change does to it.
fn spoilt_job(
    rng: &mut Rng,
    length: usize,
    class: Class,
    change: impl Fn(&mut Chip, &mut Job),
) -> Chip {
    let mut chip = legal_unselected(rng, length, Some(class));
    if let Some(mut job) = chip.job.take() {
        change(&mut chip, &mut job);
        chip.job = Some(job);
    }
    chip
}

/// A state with an open frame, legal but for what a change does to it.
fn spoilt_frame(rng: &mut Rng, length: usize, opcode: u8, change: impl Fn(&mut Chip)) -> Chip {
    let class = any_class(rng);
    let mut chip = legal_unselected(rng, length, class);
    open_frame(rng, &mut chip, opcode, length);
    change(&mut chip);
    chip
}

/// The same with a frame of any opcode.
fn spoilt_any_frame(rng: &mut Rng, length: usize, change: impl Fn(&mut Chip)) -> Chip {
    let opcode = any_opcode(rng);
    spoilt_frame(rng, length, opcode, change)
}

/// States that break one rule about the job alone.
fn broken_jobs(rng: &mut Rng, length: usize) -> Vec<Chip> {
    let mut states = Vec::new();
    for class in ALL_JOBS {
        states.extend(unaligned_jobs(rng, length, class));
        states.extend(overdone_jobs(rng, length, class));
        states.push(spoilt_job(rng, length, class, |chip, _| chip.wen = false));
        states.push(spoilt_job(rng, length, class, |chip, _| {
            (chip.deep, chip.armed) = (true, false);
        }));
    }
    for class in &LONG_JOBS[..3] {
        states.extend(outside_jobs(rng, length, *class));
    }
    states.push(spoilt_job(rng, length, Class::WriteStatus, |chip, _| chip.suspended = true));
    states.push(spoilt_job(rng, length, Class::WriteStatus, |chip, _| chip.waiting = true));
    for class in LONG_JOBS {
        states.push(spoilt_job(rng, length, class, |chip, _| {
            (chip.suspended, chip.waiting) = (true, true);
        }));
    }
    states
}

/// Jobs inside memory that begin at no multiple of their size.
fn unaligned_jobs(rng: &mut Rng, length: usize, class: Class) -> [Chip; 3] {
    let distances = match class {
        Class::Program => [1, 255, 128],
        Class::SmallSector => [1, 256, 4_095],
        Class::Sector => [1, 256, 4_096],
        Class::Chip | Class::WriteStatus => [1, 256, length as u32 - 256],
    };
    distances.map(|distance| spoilt_job(rng, length, class, |_, job| job.place += distance))
}

/// Jobs with as many steps done as they have, or more.
fn overdone_jobs(rng: &mut Rng, length: usize, class: Class) -> [Chip; 3] {
    let total = class.steps(length);
    let counts = [total, total + 1, u32::MAX];
    counts.map(|done| spoilt_job(rng, length, class, |_, job| job.steps_done = done))
}

/// Jobs that are aligned, but not inside memory.
fn outside_jobs(rng: &mut Rng, length: usize, class: Class) -> [Chip; 3] {
    let places = [length as u32, 2 * length as u32, 1 << 31];
    places.map(|place| spoilt_job(rng, length, class, |_, job| job.place = place))
}

/// States that break one rule alone, about neither job nor frame.
fn broken_flags(rng: &mut Rng, length: usize) -> Vec<Chip> {
    let mut states = Vec::new();
    for level in [8, 9, 15, 128, 255] {
        let class = any_class(rng);
        let mut chip = legal_unselected(rng, length, class);
        chip.level = level;
        states.push(chip);
    }
    let changes: [fn(&mut Chip); 3] = [
        |chip| chip.suspended = true,
        |chip| chip.waiting = true,
        |chip| (chip.deep, chip.armed) = (true, true),
    ];
    for change in changes {
        let mut chip = legal_unselected(rng, length, None);
        change(&mut chip);
        states.push(chip);
    }
    states
}

/// States that break one rule about an open frame alone.
fn broken_frames(rng: &mut Rng, length: usize) -> Vec<Chip> {
    let end = length as u32;
    let addresses = [ADDRESSES, ADDRESSES + 1, u32::MAX];
    let judgements = [1, 2, 4, 8, 9, 10, 11, 12, 13, 255];
    [
        spoilt_frames(rng, length, &addresses, |frame, address| frame.address = address),
        spoilt_frames(rng, length, &[7, 8, 255], |frame, count| frame.byte_count = count),
        spoilt_frames(rng, length, &judgements, |frame, verdict| frame.judgement = Some(verdict)),
        broken_places(rng, length, other_opcode, [end, end + 1, u32::MAX]).to_vec(),
        broken_places(rng, length, other_opcode, [end, 2 * end, ADDRESSES - 1]).to_vec(),
        broken_places(rng, length, |_| 0x9F, [CYCLE, CYCLE + 1, end - 1]).to_vec(),
        broken_places(rng, length, |_| 0x5A, [ADDRESSES, ADDRESSES + 1, u32::MAX]).to_vec(),
    ]
    .concat()
}

/// States with an open frame of any opcode, one for each value that a change puts into it.
fn spoilt_frames<T: Copy>(
    rng: &mut Rng,
    length: usize,
    values: &[T],
    change: impl Fn(&mut Frame, T),
) -> Vec<Chip> {
    let mut states = Vec::new();
    for value in values {
        states.push(spoilt_any_frame(rng, length, |chip| change(&mut chip.frame, *value)));
    }
    states
}

/// States with an open frame whose read place its opcode does not allow: past the memory, in 9Fh
/// past the cycle, in 5Ah past the addresses.
fn broken_places(
    rng: &mut Rng,
    length: usize,
    opcode: fn(&mut Rng) -> u8,
    places: [u32; 3],
) -> [Chip; 3] {
    places.map(|place| {
        let opcode = opcode(rng);
        spoilt_frame(rng, length, opcode, |chip| chip.frame.read_place = place)
    })
}

/// States whose frame is not empty though they are unselected or have no byte.
fn broken_empty_frames(rng: &mut Rng, length: usize) -> Vec<Chip> {
    let mut states = Vec::new();
    for selected in [false, true] {
        states.extend(filled_empty_frames(rng, length, selected));
    }
    for count in 1..=6 {
        let mut chip = legal_unselected(rng, length, None);
        chip.frame.byte_count = count;
        states.push(chip);
    }
    states.push(spoilt_any_frame(rng, length, |chip| chip.selected = false));
    states
}

/// States without a byte whose frame has, in one place, what only a byte could have left there.
fn filled_empty_frames(rng: &mut Rng, length: usize, selected: bool) -> [Chip; 9] {
    let changes: [fn(&mut Frame); 9] = [
        |frame| frame.opcode = 0x05,
        |frame| frame.opcode = 0xFF,
        |frame| frame.address = 1,
        |frame| frame.read_place = 1,
        |frame| frame.load_place = 1,
        |frame| frame.judgement = Some(6),
        |frame| frame.load[0] = 0,
        |frame| frame.load[128] = 0x7F,
        |frame| frame.load[255] = 0xFE,
    ];
    changes.map(|change| {
        let class = any_class(rng);
        let mut chip = legal_unselected(rng, length, class);
        chip.selected = selected;
        change(&mut chip.frame);
        chip
    })
}

/// A legal state that stays legal with a flag 0 and with it 1.
fn with_free_flag(rng: &mut Rng, length: usize, flag: usize) -> Chip {
    let class = match FLAGS[flag] {
        "WEN" | "deep" => None,
        "suspended" | "waiting" => Some(rng.pick(&LONG_JOBS)),
        _ => any_class(rng),
    };
    let mut chip = legal_unselected(rng, length, class);
    match FLAGS[flag] {
        "deep" => chip.armed = false,
        "armed" => chip.deep = false,
        "suspended" => chip.waiting = false,
        "waiting" => chip.suspended = false,
        _ => {}
    }
    if FLAGS[flag] != "selected" && rng.once_in(2) {
        let opcode = any_opcode(rng);
        open_frame(rng, &mut chip, opcode, length);
    }
    for value in [false, true] {
        let mut flags = flags_of(&chip);
        flags[flag] = value;
        let changed = with_flags(&chip, flags);
        assert!(changed.legal(length), "{} {value} is not legal: {chip:?}", FLAGS[flag]);
    }
    chip
}

/// A state that is legal but for one flag, a byte above 1; the model's chip has too high a level.
pub fn with_bad_flag(rng: &mut Rng, length: usize, flag: usize, byte: u8) -> (Chip, Edit) {
    let mut chip = with_free_flag(rng, length, flag);
    chip.level += 8;
    (chip, Edit::Flag(flag, byte))
}

/// States that are not legal and that the model has no room for; its chip is not legal in a near way.
fn broken_images(rng: &mut Rng, length: usize) -> Vec<(Chip, Edit)> {
    let mut states = unknown_jobs(rng, length).to_vec();
    states.extend(places_above_32_bits(rng, length));
    states.extend(flags_above_1(rng, length));
    states
}

/// States with a job that is none of the five.
fn unknown_jobs(rng: &mut Rng, length: usize) -> [(Chip, Edit); 4] {
    let change = |chip: &mut Chip, job: &mut Job| {
        (chip.suspended, chip.waiting) = (false, false);
        job.place = u32::MAX;
    };
    let kinds = [6, 7, 128, 255];
    kinds.map(|kind| (spoilt_job(rng, length, Class::Program, change), Edit::JobKind(kind)))
}

/// States with a read place that takes more than 32 bits.
fn places_above_32_bits(rng: &mut Rng, length: usize) -> [(Chip, Edit); 4] {
    [1 << 32, (1 << 32) + 2, 1 << 63, u64::MAX].map(|place| {
        let chip = spoilt_any_frame(rng, length, |chip| chip.frame.read_place = u32::MAX);
        (chip, Edit::Place(place))
    })
}

/// States with a flag that is a byte above 1, every flag in some ways.
fn flags_above_1(rng: &mut Rng, length: usize) -> Vec<(Chip, Edit)> {
    let mut states = Vec::new();
    for flag in 0..FLAGS.len() {
        let bytes = [2, 3, 255, 2 << rng.below(7), rng.byte().max(2)];
        states.extend(bytes.map(|byte| with_bad_flag(rng, length, flag, byte)));
    }
    states
}

/// Every way of breaking a rule alone, with the number of that rule.
pub fn broken(rng: &mut Rng, length: usize) -> Vec<(usize, Chip, Edit)> {
    let mut states = broken_flags(rng, length);
    states.extend(broken_jobs(rng, length));
    states.extend(broken_frames(rng, length));
    states.extend(broken_empty_frames(rng, length));
    let edited = broken_images(rng, length);
    let plain = states.into_iter().map(|chip| (broken_rule(&chip, length), chip, Edit::None));
    plain.chain(edited.into_iter().map(|(chip, edit)| (rule_of(&edit), chip, edit))).collect()
}

/// The number of the one rule that a chip breaks.
fn broken_rule(chip: &Chip, length: usize) -> usize {
    let broken: Vec<usize> =
        (0..RULES.len()).filter(|rule| !RULES[*rule].1(chip, length)).collect();
    assert_eq!(broken.len(), 1, "a state that breaks not one rule alone: {broken:?} {chip:?}");
    broken[0]
}

/// The number of the rule that an edit breaks.
fn rule_of(edit: &Edit) -> usize {
    let broken = match edit {
        Edit::Flag(..) => "flags that are 0 or 1",
        Edit::JobKind(_) => "a job that is one of the five",
        _ => "read place inside",
    };
    RULES.iter().position(|(name, _)| *name == broken).expect("a rule of the list")
}
