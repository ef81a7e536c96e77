// The frames and scenes that a writer can write: every opcode with every verdict, and the rest.

use crate::class::{Class, LONG_JOBS};
use crate::commands::{COMMANDS, READ_SFDP, UNKNOWN};
use crate::event::kind;
use crate::generate::Writer;

impl Writer<'_> {
    /// Sends a frame of an opcode that is to end with a verdict.
    pub fn reach(&mut self, opcode: Option<u8>, verdict: u8) {
        let Some(opcode) = opcode else {
            self.settle();
            let bytes = [self.unknown(), self.rng.byte(), self.rng.byte()];
            let length = 1 + self.rng.below(3);
            return self.frame(&bytes[..length]);
        };
        match verdict {
            0 => self.reach_read(opcode),
            1 => self.reach_done(opcode),
            2 => self.reach_begun(opcode),
            4 => self.reach_spoiled(opcode),
            5 => self.sleep(),
            6 => self.run_some(),
            7 => self.suspend_some(),
            8 => self.reach_disabled(),
            9 => self.reach_protected(opcode),
            10 => self.reach_locked(),
            11 => self.reach_pointless(opcode),
            _ => {}
        }
        if matches!(verdict, 5..=8) {
            let address = self.address_for(opcode);
            let bytes = self.whole_frame(opcode, address);
            self.frame(&bytes);
        }
    }

    /// Brings the chip to a state in which an opcode is taken.
    fn allow(&mut self, opcode: u8) {
        self.settle();
        match opcode {
            0xB0 if !self.running() || self.chip.waiting => {
                let class = self.rng.pick(&LONG_JOBS);
                self.begin(class);
            }
            0xB0 => {}
            0x30 => self.suspend_some(),
            0xAB if self.rng.once_in(2) => self.sleep(),
            0x05 | 0x66 | 0x99 => self.wake(),
            0x03 | 0x0B if self.rng.once_in(3) => self.suspend_some(),
            0x20 | 0xD7 | 0xD8 | 0x60 | 0xC7 | 0x02 | 0x0A if self.rng.once_in(3) => {
                self.suspend_some();
            }
            _ => self.idle(),
        }
    }

    /// A read, loose or not.
    fn reach_read(&mut self, opcode: u8) {
        self.allow(opcode);
        let address = self.address_for(opcode);
        let mut bytes = Self::with_address(opcode, address);
        let length = 1 + self.rng.below(20);
        bytes.resize(length, self.rng.byte());
        self.settle();
        self.select();
        self.send(&bytes);
        let loose = self.rng.once_in(3);
        self.finish(loose);
    }

    /// A frame that is done at once.
    fn reach_done(&mut self, opcode: u8) {
        if matches!(opcode, 0x66 | 0x99) && self.rng.once_in(2) {
            self.run_some();
        }
        self.allow(opcode);
        if opcode == 0x99 {
            self.frame(&[0x66]);
        }
        let bytes = self.whole_frame(opcode, 0);
        self.frame(&bytes);
    }

    /// A frame that begins a job, perhaps in the place of a suspended one.
    fn reach_begun(&mut self, opcode: u8) {
        self.allow(opcode);
        if self.chip.job.is_none() {
            if let Some(class) = Class::begun_by(opcode) {
                self.unprotect(class);
            }
            self.enable();
        }
        if self.chip.srwp && !self.chip.wp_high && self.rng.once_in(2) {
            self.put(kind::WP_LEVEL, 1);
        }
        let sector = self.sector(false).unwrap_or(0);
        let address = self.address_in(sector);
        let bytes = self.whole_frame(opcode, address);
        self.frame(&bytes);
    }

    /// A frame that is loose or of the wrong length.
    fn reach_spoiled(&mut self, opcode: u8) {
        self.allow(opcode);
        let address = self.address();
        let mut bytes = self.whole_frame(opcode, address);
        let loose = opcode == 0xAB || self.rng.once_in(2);
        if !loose {
            let right = bytes.len().min(5);
            let lengths: Vec<usize> = match opcode {
                0x02 | 0x0A => (1..=4).collect(),
                _ => (1..=7).filter(|length| *length != right).collect(),
            };
            let length = self.rng.pick(&lengths);
            bytes.resize(length, self.rng.byte());
        }
        self.settle();
        self.select();
        self.send(&bytes);
        self.finish(loose);
    }

    /// Brings the chip to WEN 0 without a job.
    fn reach_disabled(&mut self) {
        self.idle();
        if self.chip.wen {
            self.frame(&[0x04]);
        }
    }

    /// A frame over a protected target, now and then while suspended.
    fn reach_protected(&mut self, opcode: u8) {
        if self.chip.level == 0 || self.sector(true).is_none() {
            let status = (1 + self.rng.byte() % 7) << 2 | self.rng.pick(&[0x00, 0x20, 0x80]);
            self.write_status(status);
        }
        if self.rng.once_in(3) && self.sector(false).is_some() && !self.chip.suspended {
            let class = self.rng.pick(&LONG_JOBS[..3]);
            self.suspend_job(class);
        }
        if !self.chip.suspended {
            self.idle();
            self.enable();
        }
        let sector = self.sector(true).unwrap_or(0);
        let address = self.address_in(sector);
        let bytes = self.whole_frame(opcode, address);
        self.frame(&bytes);
    }

    /// A write status with SRWP 1 and WP low.
    fn reach_locked(&mut self) {
        if !self.chip.srwp {
            let status = self.rng.byte() | 0x80;
            self.write_status(status);
        }
        self.idle();
        self.put(kind::WP_LEVEL, 0);
        self.enable();
        let status = self.rng.byte();
        self.frame(&[0x01, status]);
    }

    /// A suspend with nothing to suspend or while another waits, a resume with nothing suspended, a
    /// reset unarmed.
    fn reach_pointless(&mut self, opcode: u8) {
        match opcode {
            0xB0 if self.rng.once_in(3) => self.begin(Class::WriteStatus),
            0xB0 if self.rng.once_in(2) => self.begin_wait(),
            0x99 => {
                self.wake();
                if self.chip.armed {
                    self.frame(&[0x05]);
                }
            }
            _ => self.idle(),
        }
        self.frame(&[opcode]);
    }
}

/// The scenes that a random row of events is made of.
pub const SCENES: [fn(&mut Writer); 16] = [
    |writer| writer.go_on(),
    |writer| writer.any_cell(),
    |writer| writer.any_cell(),
    |writer| writer.any_cell(),
    |writer| writer.any_cell(),
    |writer| writer.wild_frame(),
    |writer| writer.wild_frame(),
    |writer| writer.loose_ends(),
    |writer| writer.read_over_top(),
    |writer| writer.long_load(),
    |writer| writer.read_while_running(),
    |writer| writer.spoil_while_suspended(),
    |writer| writer.wait_some(),
    |writer| writer.wait_some(),
    |writer| writer.watch_status(),
    |writer| writer.pass_time(),
];

impl Writer<'_> {
    /// Some events that end no job and begin none.
    pub fn leave_alone(&mut self) {
        for _ in 0..2 + self.rng.below(4) {
            match self.rng.below(10) {
                0 => self.frame(&[0x05, 0, 0]),
                1 => self.frame(&[0x03, 0, 0, 0, 0, 0]),
                2 => self.reach_spoiled_here(0x02),
                3 => self.wp(),
                4 if self.chip.job.is_none() => {
                    self.frame(&[0xB9]);
                    self.frame(&[0xAB]);
                }
                4 if self.chip.suspended => self.frame(&[0x30]),
                4 => self.frame(&[0xB0]),
                5 if !self.chip.armed => self.frame(&[0x99]),
                6 if !self.chip.wen => self.frame(&[0x20, 0, 0, 0]),
                7 => self.frame(&[0x66]),
                _ if !self.running() => self.some_ticks(),
                _ if self.steps_left() > 1 => self.ticks(1),
                _ => self.put(kind::EXCHANGE, 0x99),
            }
        }
    }

    /// More of the frame that is open, its end, and time for the job that it may have begun.
    pub fn go_on(&mut self) {
        let mut bytes = vec![0; self.rng.pick(&[0, 1, 1, 2, 3, 4, 5, 8])];
        self.rng.fill(&mut bytes);
        self.send(&bytes);
        let loose = self.rng.once_in(5);
        self.finish(loose);
        self.some_ticks();
    }

    /// Any opcode but 5Ah, or a byte that is none, with any verdict that it can get.
    fn any_cell(&mut self) {
        let number = self.rng.below(UNKNOWN);
        let command = &COMMANDS[if number == READ_SFDP { UNKNOWN } else { number }];
        let verdict = self.rng.pick(command.verdicts);
        self.reach(command.opcode, verdict);
    }

    /// A frame of any opcode but 5Ah, or of any byte, on the chip as it is.
    fn wild_frame(&mut self) {
        let opcode = match self.rng.below(8) {
            0 => self.rng.byte(),
            _ => {
                let number = self.rng.below(READ_SFDP);
                COMMANDS[number].opcode.unwrap_or(0)
            }
        };
        self.wild_frame_of(opcode);
    }

    /// A frame of an opcode on the chip as it is, ended in any way or left open.
    pub fn wild_frame_of(&mut self, opcode: u8) {
        let address = self.address_for(opcode);
        let mut bytes = Self::with_address(opcode, address);
        let length = self.rng.below(9);
        bytes.resize(length, self.rng.byte());
        self.select();
        self.send(&bytes);
        match self.rng.below(12) {
            0 => self.put(kind::POWER_CUT, 0),
            1 => {}
            2 | 3 => self.end_loose(),
            _ => self.end(),
        }
    }

    /// Events without much sense: unselected exchanges and deselects, WP, ticks, power cuts.
    fn loose_ends(&mut self) {
        for _ in 0..1 + self.rng.below(5) {
            match self.rng.below(9) {
                0 => self.select(),
                1 => self.put(kind::EXCHANGE, 0xAB),
                2 => self.end(),
                3 => self.end_loose(),
                4 => self.wp(),
                5 => self.put(kind::POWER_CUT, 0),
                6 => self.put(kind::TICK, 0),
                7 => {
                    let any = 1 + self.rng.below(65_535) as u64;
                    self.put(kind::TICKS, any);
                }
                _ => self.some_ticks(),
            }
        }
    }

    /// A read of cells that crosses the top.
    fn read_over_top(&mut self) {
        let opcode = self.rng.pick(&[0x03, 0x0B]);
        self.over_top(opcode);
    }

    /// A frame of 03h or 0Bh that reads the last cells and then the first.
    pub fn over_top(&mut self, opcode: u8) {
        self.allow(opcode);
        let below_top = 1 + self.rng.below(4);
        let copies = (1 << 24) / self.length();
        let address = (1 + self.rng.below(copies)) * self.length() - below_top;
        let mut bytes = Self::with_address(opcode, address as u32);
        let data = below_top + 1 + self.rng.below(6) + usize::from(opcode == 0x0B);
        bytes.resize(4 + data, self.rng.byte());
        self.frame(&bytes);
    }

    /// A program whose load wraps or runs past 256 bytes, and its steps.
    fn long_load(&mut self) {
        self.allow(0x02);
        if self.chip.job.is_none() {
            self.unprotect(Class::Program);
            self.enable();
        }
        let sector = self.sector(false).unwrap_or(0);
        let address = self.address_in(sector) | self.rng.pick(&[0, 0xF8, 0xFF, 0x80]);
        let mut bytes = Self::with_address(self.rng.pick(&[0x02, 0x0A]), address);
        let data = self.rng.pick(&[2, 9, 130, 256, 257, 260, 400]);
        bytes.extend((0..data).map(|_| self.rng.byte()));
        self.frame(&bytes);
        let done = self.rng.pick(&[1, 8, 15, 16, 17]);
        self.ticks(done);
    }

    /// A frame begun while a job runs, which goes on after the job has ended.
    fn read_while_running(&mut self) {
        self.run_some();
        let opcode = self.rng.pick(&[0x03, 0x0B, 0x9F, 0xAB, 0x02, 0x20, 0x05, 0xB0]);
        self.outlast_job(opcode);
    }

    /// A frame of an opcode, during which the job that runs ends, or is suspended in a wait.
    pub fn outlast_job(&mut self, opcode: u8) {
        let address = self.address_for(opcode);
        let mut bytes = Self::with_address(opcode, address);
        let length = self.rng.pick(&[1, 4, 5, 6, 7, 8]);
        bytes.resize(length, self.rng.byte());
        let before = self.rng.below(bytes.len()) + 1;
        self.settle();
        self.select();
        self.send(&bytes[..before]);
        let left = self.steps_left();
        self.ticks(left);
        self.send(&bytes[before..]);
        self.end();
    }

    /// A spoiled program sent while a program is suspended, and the end of the suspended one.
    fn spoil_while_suspended(&mut self) {
        self.suspend_job(Class::Program);
        let opcode = self.rng.pick(&[0x02, 0x0A]);
        self.reach_spoiled_here(opcode);
        self.finish_job();
    }

    /// A loose program frame with data, or one too short, on the chip as it is.
    fn reach_spoiled_here(&mut self, opcode: u8) {
        let address = self.address();
        let mut bytes = self.whole_frame(opcode, address);
        let loose = self.rng.once_in(2);
        if !loose {
            bytes.truncate(4);
        }
        self.select();
        self.send(&bytes);
        self.finish(loose);
    }

    /// A status read with ticks between its bytes.
    pub fn watch_status(&mut self) {
        self.settle();
        self.select();
        self.send(&[0x05]);
        for _ in 0..1 + self.rng.below(4) {
            self.send(&[0]);
            self.some_ticks();
        }
        self.send(&[0]);
        self.end();
    }

    /// Ticks for the job that there is, or for a new one.
    fn pass_time(&mut self) {
        if self.chip.job.is_none() {
            self.run_some();
        }
        for _ in 0..1 + self.rng.below(3) {
            self.some_ticks();
        }
    }
}
