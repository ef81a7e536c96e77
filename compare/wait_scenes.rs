// The scenes of a suspend that waits for its tick: what is done in the wait, and over its end.

use crate::class::LONG_JOBS;
use crate::commands::{COMMANDS, UNKNOWN};
use crate::event::kind;
use crate::generate::Writer;

impl Writer<'_> {
    /// Brings the chip to the wait of a suspend, of a job that has done any number of its steps and
    /// often has but the last one left.
    pub fn begin_wait(&mut self) {
        self.settle();
        if self.chip.waiting {
            return;
        }
        let class = self.rng.pick(&LONG_JOBS);
        self.begin(class);
        let left = self.steps_left().max(1);
        let any = self.rng.below(left as usize) as u32;
        let done = self.rng.pick(&[0, any, any, left - 1]);
        self.ticks(done);
        self.frame(&[0xB0]);
    }

    /// A wait with some things done in it; what follows finds it open, or over.
    pub fn wait_some(&mut self) {
        self.begin_wait();
        for _ in 0..self.rng.below(4) {
            self.act_in_wait();
        }
        if self.rng.once_in(3) {
            self.pass_wait();
        }
    }

    /// Something that a wait may meet: what leaves it open, and what ends it.
    fn act_in_wait(&mut self) {
        match self.rng.below(16) {
            0 | 1 => self.frame(&[0x05, 0, 0]),
            2 | 3 => self.watch_status(),
            4 | 5 => self.frame(&[0xB0]),
            6 => self.frame(&[0x30]),
            7 => self.wp(),
            8 => self.reset(),
            9 => self.put(kind::POWER_CUT, 0),
            10 | 11 => self.frame_over_tick(0xB0),
            12 | 13 => {
                let opcode = self.rng.pick(&[0x03, 0x0B]);
                self.frame_over_tick(opcode);
            }
            _ => {
                let number = self.rng.below(UNKNOWN);
                self.frame_over_tick(COMMANDS[number].opcode.unwrap_or(0));
            }
        }
    }

    /// Sends what the part answers in a wait without a change to it: a status read, a second
    /// suspend and a resume.
    pub fn look_at_wait(&mut self) {
        self.frame(&[0x05, 0]);
        self.frame(&[0xB0]);
        self.frame(&[0x30]);
    }

    /// A frame of an opcode with the tick inside that ends the wait, perhaps before its first byte.
    fn frame_over_tick(&mut self, opcode: u8) {
        let address = self.address_for(opcode);
        let bytes = self.whole_frame(opcode, address);
        let before = self.rng.below(bytes.len() + 1);
        self.split_by_tick(&bytes, before);
        let loose = self.rng.once_in(6);
        self.finish(loose);
    }

    /// The bytes of a frame, with the tick that ends a wait after so many of them.
    pub fn split_by_tick(&mut self, bytes: &[u8], before: usize) {
        self.settle();
        self.select();
        self.send(&bytes[..before]);
        self.pass_wait();
        self.send(&bytes[before..]);
    }
}
