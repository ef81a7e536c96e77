// A chip as the library has it: how it is made from the model's chip, and how two are compared.

use crate::model::{Chip, JobKind};
use crate::rng::Rng;

/// The numbers of a chip, laid out as the library has them on a 64-bit machine. Its job is `kind`,
/// `value`, `start`, `done` and `held`; `place` is its frame's read place and `slot` the load place.
#[repr(C)]
#[derive(Clone, Copy, PartialEq, Eq)]
pub struct Image {
    pub flags: [u8; 9],
    pub level: u8,
    pub kind: u8,
    pub value: u8,
    pub opcode: u8,
    pub slot: u8,
    pub count: u8,
    pub judgement: u8,
    pub start: u32,
    pub done: u32,
    pub address: u32,
    pub place: u64,
    pub load: [u8; 256],
    pub held: [u8; 256],
}

/// The names of an image's flags, in their order.
pub const FLAGS: [&str; 9] =
    ["TB", "SRWP", "WEN", "suspended", "waiting", "WP high", "deep", "armed", "selected"];

/// A load with nothing in it.
pub const BLANK: [u8; 256] = [0xFF; 256];

/// A way in which the library's chip is to differ from the conversion of the model's chip.
#[derive(Clone, Debug, PartialEq)]
pub enum Edit {
    /// It does not differ.
    None,
    /// What a legal state leaves free is filled from a seed.
    Free(u64),
    /// The job has a number that is no job's; the model's chip is not legal either.
    JobKind(u8),
    /// The read place is a number the model has no room for; its chip is not legal either.
    Place(u64),
    /// The flag of that number is a byte above 1, and the level is taken modulo 8; the model's chip
    /// is not legal either, for its level is above 7.
    Flag(usize, u8),
}

/// The flags of a chip, in their order.
pub fn flags_of(chip: &Chip) -> [bool; 9] {
    let Chip { tb, srwp, wen, suspended, waiting, wp_high, deep, armed, selected, .. } = *chip;
    [tb, srwp, wen, suspended, waiting, wp_high, deep, armed, selected]
}

/// A chip with other flags.
pub fn with_flags(chip: &Chip, flags: [bool; 9]) -> Chip {
    let [tb, srwp, wen, suspended, waiting, wp_high, deep, armed, selected] = flags;
    Chip { tb, srwp, wen, suspended, waiting, wp_high, deep, armed, selected, ..chip.clone() }
}

/// The number, the write status byte and the load of a job's kind.
fn job_numbers(kind: &JobKind) -> (u8, u8, [u8; 256]) {
    match kind {
        JobKind::WriteStatus(value) => (1, *value, BLANK),
        JobKind::Program(load) => (2, 0, *load),
        JobKind::SmallSectorErase => (3, 0, BLANK),
        JobKind::SectorErase => (4, 0, BLANK),
        JobKind::ChipErase => (5, 0, BLANK),
    }
}

/// The model's chip as the library has it: the one conversion between the two.
pub fn image_of(chip: &Chip) -> Image {
    let (frame, job) = (&chip.frame, chip.job.as_ref());
    let (kind, value, held) = job.map_or((0, 0, BLANK), |job| job_numbers(&job.kind));
    Image {
        flags: flags_of(chip).map(u8::from),
        level: chip.level,
        kind,
        value,
        opcode: frame.opcode,
        slot: frame.load_place as u8,
        count: frame.byte_count,
        judgement: frame.judgement.unwrap_or(0),
        start: job.map_or(0, |job| job.place),
        done: job.map_or(0, |job| job.steps_done),
        address: frame.address,
        place: u64::from(frame.read_place),
        load: frame.load,
        held,
    }
}

/// The converted chip with an edit made to it.
pub fn edited_image(chip: &Chip, edit: &Edit) -> Image {
    let mut image = image_of(chip);
    match edit {
        Edit::None => {}
        Edit::Free(seed) => fill_free(&mut image, &mut Rng::new(*seed)),
        Edit::Place(place) => image.place = *place,
        Edit::JobKind(number) => {
            image.kind = *number;
            image.start = 0;
            image.done = 0;
        }
        Edit::Flag(flag, byte) => {
            image.flags[*flag] = *byte;
            image.level %= 8;
        }
    }
    image
}

/// Fills what a legal state leaves free: all of no job, the status byte or load of a job without.
fn fill_free(image: &mut Image, rng: &mut Rng) {
    if image.kind == 0 {
        image.start = rng.next() as u32;
        image.done = rng.next() as u32;
    }
    if image.kind != 1 {
        image.value = rng.next() as u8;
    }
    if image.kind != 2 {
        rng.fill(&mut image.held);
    }
}

/// The single numbers of an image with their names.
fn numbers(image: &Image) -> Vec<(&'static str, u64)> {
    let mut list: Vec<_> = FLAGS.into_iter().zip(image.flags.map(u64::from)).collect();
    list.extend([
        ("level", u64::from(image.level)),
        ("job's kind", u64::from(image.kind)),
        ("job's status byte", u64::from(image.value)),
        ("job's start", u64::from(image.start)),
        ("job's steps done", u64::from(image.done)),
        ("frame's opcode", u64::from(image.opcode)),
        ("frame's byte count", u64::from(image.count)),
        ("frame's judgement", u64::from(image.judgement)),
        ("frame's address", u64::from(image.address)),
        ("frame's read place", image.place),
        ("frame's load place", u64::from(image.slot)),
    ]);
    list
}

/// The fields in which two images differ, in words.
pub fn image_difference(wanted: &Image, found: &Image) -> Option<String> {
    if wanted == found {
        return None;
    }
    let mut words = Vec::new();
    for ((name, wanted), (_, found)) in numbers(wanted).into_iter().zip(numbers(found)) {
        if wanted != found {
            words.push(format!("{name} {found:X}h in place of {wanted:X}h"));
        }
    }
    for (name, wanted, found) in
        [("frame's load", &wanted.load, &found.load), ("job's load", &wanted.held, &found.held)]
    {
        if let Some(at) = (0..256).find(|at| wanted[*at] != found[*at]) {
            let (wanted, found) = (wanted[at], found[at]);
            words.push(format!("{name} at {at}: {found:02X}h in place of {wanted:02X}h"));
        }
    }
    Some(format!("state: {}", words.join(", ")))
}
