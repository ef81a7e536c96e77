// Random cases, as many as are asked for.

use crate::areas::{self, IDENTITIES};
use crate::case::{Content, Start, Step};
use crate::image::FLAGS;
use crate::margins::any_report;
use crate::model::Chip;
use crate::session::{Outcome, Session};
use crate::states;

impl Session<'_> {
    /// Random cases until so many events more are done, some of them from a state with a bad flag.
    pub fn random(&mut self, events: u64) -> Outcome {
        let end = self.events + events;
        while self.events < end {
            let sectors = self.rng.pick(&[1, 1, 1, 1, 1, 1, 1, 2, 2, 4, 4, 8, 16, 32]);
            let length = sectors * Chip::SECTOR;
            if self.rng.once_in(10) {
                let (flag, byte) = (self.rng.below(FLAGS.len()), self.rng.byte().max(2));
                let (chip, edit) = states::with_bad_flag(&mut self.rng, length, flag, byte);
                self.broken_state(length, chip, edit)?;
            } else {
                self.random_case(length)?;
            }
        }
        Ok(())
    }

    /// One random case: a start and scenes, with refusals, hand-overs, other areas, other reports,
    /// questions to the reader and programmings between them.
    fn random_case(&mut self, length: usize) -> Outcome {
        let (seed, status) = (self.rng.next(), self.rng.byte());
        let content = self.rng.pick(&[Content::Blank, Content::Noise(seed), Content::Noise(seed)]);
        let start = match self.rng.below(6) {
            0 | 1 => Start::Fresh(status),
            2 => Start::Fresh(0),
            _ => {
                let edit = self.any_edit();
                Start::Lent(Box::new(states::legal(&mut self.rng, length)), edit)
            }
        };
        self.open(length, start, content)?;
        if self.bench.expected.chip.selected && self.rng.once_in(2) {
            let events = self.write(|writer| writer.go_on());
            self.deliver(&events)?;
        }
        for _ in 0..4 + self.rng.below(20) {
            match self.rng.below(15) {
                0 => self.step(Step::HandOver).map(|_| ())?,
                1..=3 => self.refusal()?,
                4 => self.other_area()?,
                5 => self.questions()?,
                6 => self.any_programmings()?,
                7 if self.rng.once_in(2) => self.other_report()?,
                _ => self.scene()?,
            }
        }
        self.close()
    }

    /// Another area, at times after one that is too long, which refuses all that is done.
    fn other_area(&mut self) -> Outcome {
        if self.rng.once_in(4) {
            let area = areas::too_long(&mut self.rng);
            self.step(Step::Lend(area))?;
            self.refusal()?;
            self.scene()?;
        }
        let area = areas::taken(&mut self.rng);
        self.step(Step::Lend(area)).map(|_| ())
    }

    /// Another report, in place of the one that is carried.
    fn other_report(&mut self) -> Outcome {
        let report = any_report(&mut self.rng);
        self.step(Step::Report(report)).map(|_| ())
    }

    /// Some questions to the reader, about any identity or one that an area is likely to have.
    pub fn questions(&mut self) -> Outcome {
        for identity in IDENTITIES {
            self.step(Step::Find(identity))?;
        }
        let any = self.rng.byte();
        self.step(Step::Find(any)).map(|_| ())
    }
}
