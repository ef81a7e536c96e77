// The kinds of job, apart from where a job is and what it holds.

use crate::model::{Job, JobKind};
use crate::rng::Rng;

/// The kinds of job, by the numbers that the library gives them.
#[derive(Clone, Copy, PartialEq, Eq, Debug)]
pub enum Class {
    WriteStatus = 1,
    Program = 2,
    SmallSector = 3,
    Sector = 4,
    Chip = 5,
}

/// The jobs that can be suspended.
pub const LONG_JOBS: [Class; 4] = [Class::Program, Class::SmallSector, Class::Sector, Class::Chip];

/// All jobs, those that can be suspended first.
pub const ALL_JOBS: [Class; 5] =
    [Class::Program, Class::SmallSector, Class::Sector, Class::Chip, Class::WriteStatus];

impl Class {
    /// The class of a job.
    pub fn of(job: &Job) -> Class {
        match job.kind {
            JobKind::WriteStatus(_) => Class::WriteStatus,
            JobKind::Program(_) => Class::Program,
            JobKind::SmallSectorErase => Class::SmallSector,
            JobKind::SectorErase => Class::Sector,
            JobKind::ChipErase => Class::Chip,
        }
    }

    /// The class of the job that an opcode begins, if it begins one.
    pub fn begun_by(opcode: u8) -> Option<Class> {
        match opcode {
            0x01 => Some(Class::WriteStatus),
            0x02 | 0x0A => Some(Class::Program),
            0x20 | 0xD7 => Some(Class::SmallSector),
            0xD8 => Some(Class::Sector),
            0x60 | 0xC7 => Some(Class::Chip),
            _ => None,
        }
    }

    /// The steps of a job of this class from begin to end.
    pub fn steps(self, length: usize) -> u32 {
        match self {
            Class::WriteStatus => 1,
            Class::Program | Class::SmallSector => 16,
            Class::Sector => 256,
            Class::Chip => (length / 256) as u32,
        }
    }

    /// An opcode that begins a job of this class.
    pub fn opcode(self, rng: &mut Rng) -> u8 {
        match self {
            Class::WriteStatus => 0x01,
            Class::Program => rng.pick(&[0x02, 0x0A]),
            Class::SmallSector => rng.pick(&[0x20, 0xD7]),
            Class::Sector => 0xD8,
            Class::Chip => rng.pick(&[0x60, 0xC7]),
        }
    }
}
