// The chip that a side is to have: the model's, and what stands in its numbers without a job.

use crate::event::{kind, Event};
use crate::image::{image_difference, image_of, Image, BLANK};
use crate::model::{self, Chip, EventAnswer, Record};
use crate::protection::due_record;

/// The opcode of a reset.
const RESET: u8 = 0x99;

/// What stands where the model has nothing: the job's load without a program, the job's start and
/// steps done without a job. A lent state may have any.
#[derive(Clone, Copy, PartialEq, Eq)]
pub struct Leftovers {
    pub held: [u8; 256],
    pub start: u32,
    pub done: u32,
}

/// What a gone job leaves.
pub const NOTHING: Leftovers = Leftovers { held: BLANK, start: 0, done: 0 };

/// The model's chip, and the leftovers beside it: nothing where the chip has a job for them.
#[derive(Clone)]
pub struct Expected {
    pub chip: Chip,
    pub left: Leftovers,
}

impl Expected {
    /// A fresh chip.
    pub fn fresh(status: u8) -> Expected {
        Expected { chip: Chip::fresh(status), left: NOTHING }
    }

    /// A chip that is lent with those numbers.
    pub fn lent(chip: &Chip, image: &Image) -> Expected {
        let mut left = NOTHING;
        if image.kind != 2 {
            left.held = image.held;
        }
        if image.kind == 0 {
            (left.start, left.done) = (image.start, image.done);
        }
        Expected { chip: chip.clone(), left }
    }

    /// The numbers of the chip.
    pub fn image(&self) -> Image {
        let mut image = image_of(&self.chip);
        if image.kind != 2 {
            image.held = self.left.held;
        }
        if image.kind == 0 {
            (image.start, image.done) = (self.left.start, self.left.done);
        }
        image
    }

    /// Applies one event and gives the model's answer. A job's last step, a reset that is done and
    /// a power cut leave nothing of a job, and one that begins starts with nothing left; every
    /// other event leaves the leftovers as they are.
    pub fn event(&mut self, memory: &mut [u8], area: &[u8], (kind, body): Event) -> EventAnswer {
        let (job, opcode) = (self.chip.job.is_some(), self.chip.frame.opcode);
        let answer = model::event(&mut self.chip, memory, area, kind, body);
        let cleared = match (kind, answer.record) {
            (kind::TICK | kind::TICKS, _) => job && self.chip.job.is_none(),
            (_, Record::Verdict(1)) => opcode == RESET,
            (_, Record::Verdict(2)) => true,
            _ => kind == kind::POWER_CUT,
        };
        if cleared && answer.refusal == 0 {
            self.left = NOTHING;
        }
        answer
    }

    /// Applies one event, adds the bytes of the record that is due to a row, and gives the chip
    /// before it and the model's answer.
    pub fn event_with_due(
        &mut self,
        memory: &mut [u8],
        area: &[u8],
        event: Event,
        due: &mut Vec<u8>,
    ) -> (Chip, EventAnswer) {
        let before = self.chip.clone();
        let answer = self.event(memory, area, event);
        due.extend_from_slice(due_record(&before, memory.len(), answer.record).written());
        (before, answer)
    }

    /// Whether its numbers hold what has to go with a job: leftovers, or a program's load.
    pub fn holds_something(&self) -> bool {
        self.left != NOTHING || self.image().held != BLANK
    }

    /// The fields, among those that can be seen, in which a side's chip differs.
    pub fn difference(&self, found: &Image) -> Option<String> {
        let (mut wanted, mut found) = (self.image(), *found);
        forget_unseen(&mut wanted, &self.chip);
        forget_unseen(&mut found, &self.chip);
        image_difference(&wanted, &found)
    }
}

/// The bits of a frame's address that the rest of the frame, or its deselect, can still see; and
/// all that a read has taken, which both sides keep.
fn seen_address(opcode: u8, count: u8) -> u32 {
    let taken = match count {
        1 => 0,
        2 => 0xFF,
        3 => 0xFFFF,
        _ => 0xFF_FFFF,
    };
    match opcode {
        0x01 if count == 2 => 0xFF,                // the byte to write
        0x03 | 0x0B | 0x5A => taken,               // those of a read stay to its end
        0x20 | 0xD7 | 0xD8 if count <= 4 => taken, // longer ones are verdict 4
        0x02 | 0x0A => taken,
        _ => 0,
    }
}

/// Sets to 0 what nothing can see any more of a chip's frame, given the model's chip:
/// - of a frame that is judged, floats and keeps its verdict: address, both places and load;
/// - of any other frame: the address unless a later byte or the deselect uses it, or it is that of
///   a read (the library takes address bytes in every frame, the model only where they mean
///   something), the read place but in 03h, 0Bh and 5Ah from byte 4 on and in 9Fh, the load place
///   and the load but in a program.
///
/// Of an empty frame nothing is left out, for a legal state says what it is, and nothing of a job.
fn forget_unseen(image: &mut Image, chip: &Chip) {
    let frame = &chip.frame;
    let (opcode, count) = (frame.opcode, frame.byte_count);
    let judged = frame.judgement.is_some();
    let program = matches!(opcode, 0x02 | 0x0A) && !judged;
    let read = matches!(opcode, 0x03 | 0x0B | 0x5A) && count >= 4 || opcode == 0x9F;
    if count > 0 {
        image.address &= if judged { 0 } else { seen_address(opcode, count) };
        image.place *= u64::from(read && !judged);
        image.slot *= u8::from(program && count >= 4);
        image.load = if program { image.load } else { [0; 256] };
    }
}
