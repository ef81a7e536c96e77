// Writes rows of events for a chip, looking at what the model's chip is doing.

use crate::class::{Class, ALL_JOBS, LONG_JOBS};
use crate::commands::COMMANDS;
use crate::event::{kind, Event};
use crate::model::{self, Chip};
use crate::protection::protected;
use crate::rng::Rng;

/// Writes events for a chip, which it keeps up with over a memory whose content does not matter.
pub struct Writer<'a> {
    pub rng: &'a mut Rng,
    pub chip: Chip,
    pub events: Vec<Event>,
    /// Nothing is put into frames but what they are made of.
    pub calm: bool,
    /// The length of the SFDP area that 5Ah frames aim at; what it holds does not matter.
    pub area: usize,
    memory: &'a mut [u8],
}

impl<'a> Writer<'a> {
    /// A writer for a chip as it is now, with an empty SFDP area.
    pub fn new(rng: &'a mut Rng, chip: Chip, memory: &'a mut [u8]) -> Writer<'a> {
        Writer { rng, chip, events: Vec::new(), calm: false, area: 0, memory }
    }

    /// The memory length.
    pub fn length(&self) -> usize {
        self.memory.len()
    }

    /// Writes one event.
    pub fn put(&mut self, kind: u64, body: u64) {
        let refusal = model::event(&mut self.chip, self.memory, &[], kind, body).refusal;
        debug_assert_eq!(refusal, 0);
        self.events.push((kind, body));
    }

    /// Selects.
    pub fn select(&mut self) {
        self.put(kind::SELECT, 0);
    }

    /// Exchanges bytes, now and then with something else between them.
    pub fn send(&mut self, bytes: &[u8]) {
        for byte in bytes {
            if !self.calm && self.rng.once_in(24) {
                self.disturb();
            }
            self.put(kind::EXCHANGE, u64::from(*byte));
        }
    }

    /// Something that may fall inside a frame.
    pub fn disturb(&mut self) {
        match self.rng.below(8) {
            0 => self.select(),
            1 => self.wp(),
            2 => self.some_ticks(),
            3 => self.put(kind::TICKS, 1),
            _ => self.put(kind::TICK, 0),
        }
    }

    /// Any WP level.
    pub fn wp(&mut self) {
        let level = self.rng.below(2) as u64;
        self.put(kind::WP_LEVEL, level);
    }

    /// Ends a frame on a byte boundary.
    pub fn end(&mut self) {
        self.put(kind::DESELECT, 0);
    }

    /// Ends a frame with one to seven bits loose.
    pub fn end_loose(&mut self) {
        let bits = 1 + self.rng.below(7) as u64;
        self.put(kind::DESELECT, bits);
    }

    /// Ends a frame in one of the two ways.
    pub fn finish(&mut self, loose: bool) {
        if loose {
            self.end_loose();
        } else {
            self.end();
        }
    }

    /// Ends the frame, if one is open.
    pub fn settle(&mut self) {
        if self.chip.selected {
            self.end();
        }
    }

    /// Sends a whole frame on its own.
    pub fn frame(&mut self, bytes: &[u8]) {
        self.settle();
        self.select();
        self.send(bytes);
        self.end();
    }

    /// Lets ticks pass, 65,535 at most in one event, as single ticks if they are few.
    pub fn ticks(&mut self, mut count: u32) {
        if count <= 3 && self.rng.once_in(2) {
            (0..count).for_each(|_| self.put(kind::TICK, 0));
            return;
        }
        while count > 0 {
            let part = count.min(65_535);
            self.put(kind::TICKS, u64::from(part));
            count -= part;
        }
    }

    /// The steps that the job has left; 0 without a job.
    pub fn steps_left(&self) -> u32 {
        let job = self.chip.job.as_ref();
        job.map_or(0, |job| Class::of(job).steps(self.length()) - job.steps_done)
    }

    /// Some ticks: few, or about as many as the job has left, or very many.
    pub fn some_ticks(&mut self) {
        let left = self.steps_left();
        let few = 1 + self.rng.below(20) as u32;
        let about = [left.max(2) - 1, left, left + 1, left / 2];
        let counts = [1, 2, few, about[0], about[1], about[2], about[3], 32_767, 65_535];
        let count = self.rng.pick(&counts);
        self.put(kind::TICKS, u64::from(count.clamp(1, 65_535)));
    }

    /// Whether a job is running; in the wait of a suspend it still is.
    pub fn running(&self) -> bool {
        self.chip.job.is_some() && !self.chip.suspended
    }

    /// Brings the chip out of deep power-down.
    pub fn wake(&mut self) {
        self.settle();
        if self.chip.deep {
            if self.rng.once_in(5) {
                self.put(kind::POWER_CUT, 0);
            } else {
                let length = 1 + self.rng.below(7);
                let bytes = vec![0xAB; length];
                self.frame(&bytes);
            }
        }
    }

    /// Brings the chip to a state without a job, awake and unselected.
    pub fn idle(&mut self) {
        self.wake();
        if self.chip.job.is_none() {
            return;
        }
        match self.rng.below(6) {
            0 => self.put(kind::POWER_CUT, 0),
            1 => self.reset(),
            _ => {
                self.run_on();
                let more = self.rng.pick(&[0, 0, 1, 3]);
                self.ticks(self.steps_left() + more);
            }
        }
        if self.chip.job.is_some() {
            self.put(kind::POWER_CUT, 0);
        }
    }

    /// Sends reset enable and reset.
    pub fn reset(&mut self) {
        self.frame(&[0x66]);
        self.frame(&[0x99]);
    }

    /// Brings WEN to 1; a job has it already.
    pub fn enable(&mut self) {
        if self.chip.job.is_none() && !self.chip.wen {
            self.frame(&[0x06]);
        }
    }

    /// Gives the status bits that can be written new values.
    pub fn write_status(&mut self, status: u8) {
        self.idle();
        if self.chip.srwp && !self.chip.wp_high {
            self.put(kind::WP_LEVEL, 1);
        }
        self.enable();
        self.frame(&[0x01, status]);
        self.ticks(1);
    }

    /// A sector that is, or is not, protected.
    pub fn sector(&mut self, wanted: bool) -> Option<usize> {
        let sectors = self.length() / Chip::SECTOR;
        let first = self.rng.below(sectors);
        let order = (first..sectors).chain(0..first);
        order.into_iter().find(|sector| protected(&self.chip, *sector, sectors) == wanted)
    }

    /// An address inside a sector, often at an edge, its bits above the memory length any.
    pub fn address_in(&mut self, sector: usize) -> u32 {
        let any = self.rng.below(Chip::SECTOR);
        let inside =
            self.rng.pick(&[0, 1, 0xFFFF, 0xFFFE, 0xFFF, 0x1000, any, any, any, any | 0xFF]);
        let high = self.rng.below(256) * self.length();
        ((high + sector * Chip::SECTOR + inside) % (1 << 24)) as u32
    }

    /// Any address, often near the top.
    pub fn address(&mut self) -> u32 {
        if self.rng.once_in(4) {
            let below_top = 1 + self.rng.below(8);
            let copies = (1 << 24) / self.length();
            return ((1 + self.rng.below(copies)) * self.length() - below_top) as u32;
        }
        let sector = self.rng.below(self.length() / Chip::SECTOR);
        self.address_in(sector)
    }

    /// Any address of the SFDP area: inside it, about its end, far past it, about the memory length
    /// or near FFFFFFh.
    pub fn area_address(&mut self) -> u32 {
        let near = self.rng.below(6);
        let address = match self.rng.below(8) {
            0..=2 => self.rng.below(self.area.max(1)),
            3 | 4 => (self.area + 2).saturating_sub(near),
            5 => self.rng.below(1 << 24),
            6 => self.length() + 2 - near,
            _ => (1 << 24) - 1 - near,
        };
        address as u32
    }

    /// Any address that an opcode may take.
    pub fn address_for(&mut self, opcode: u8) -> u32 {
        if opcode == 0x5A {
            self.area_address()
        } else {
            self.address()
        }
    }

    /// The number of data bytes of a program, seldom a large one.
    pub fn data_length(&mut self) -> usize {
        let any = 1 + self.rng.below(600);
        match self.rng.below(12) {
            0 => self.rng.pick(&[255, 256, 257, 260, 300, 512, 513, any]),
            1 => 1 + self.rng.below(40),
            _ => 1 + self.rng.below(6),
        }
    }

    /// An opcode with the bytes of an address.
    pub fn with_address(opcode: u8, address: u32) -> Vec<u8> {
        let [_, high, middle, low] = address.to_be_bytes();
        vec![opcode, high, middle, low]
    }

    /// A frame of the right length for an opcode, over an address.
    pub fn whole_frame(&mut self, opcode: u8, address: u32) -> Vec<u8> {
        let mut bytes = Self::with_address(opcode, address);
        match opcode {
            0x20 | 0xD7 | 0xD8 => {}
            0x02 | 0x0A => {
                let data = self.data_length();
                bytes.extend((0..data).map(|_| self.rng.byte()));
            }
            0x01 => bytes = vec![opcode, self.rng.byte()],
            0x03 | 0x0B | 0x5A | 0x05 | 0x9F | 0xAB => {
                let length = 1 + self.rng.below(12);
                bytes.resize(length, self.rng.byte());
            }
            _ => bytes.truncate(1),
        }
        bytes
    }

    /// A frame that begins a job of a class, if there is a target that is not protected.
    pub fn job_frame(&mut self, class: Class) -> Vec<u8> {
        let opcode = class.opcode(self.rng);
        let sector = self.sector(false).unwrap_or(0);
        let address = self.address_in(sector);
        self.whole_frame(opcode, address)
    }

    /// Makes sure that a job of a class finds a target that is not protected.
    pub fn unprotect(&mut self, class: Class) {
        let blocked = match class {
            Class::WriteStatus => false,
            Class::Chip => self.chip.level != 0,
            _ => self.sector(false).is_none(),
        };
        if blocked {
            let other_bits = self.rng.pick(&[0x00, 0x20, 0x80, 0xA0]);
            self.write_status(other_bits);
        }
    }

    /// Begins a job of a class on an idle chip.
    pub fn begin(&mut self, class: Class) {
        self.idle();
        self.unprotect(class);
        if class == Class::WriteStatus && self.chip.srwp && !self.chip.wp_high {
            self.put(kind::WP_LEVEL, 1);
        }
        self.enable();
        let bytes = self.job_frame(class);
        self.frame(&bytes);
    }

    /// Begins a job of a class in the place of the suspended one.
    pub fn drop_by(&mut self, class: Class) {
        let bytes = self.job_frame(class);
        self.frame(&bytes);
    }

    /// Lets the tick fall that a suspend waits for, if one does, alone or as the first of many.
    pub fn pass_wait(&mut self) {
        if self.chip.waiting {
            let more = self.rng.pick(&[0, 0, 0, 1, 2, 300, 65_534]);
            self.ticks(1 + more);
        }
    }

    /// Suspends the job that runs, which does one step more; if it is the last one, the job ends.
    pub fn suspend(&mut self) {
        self.frame(&[0xB0]);
        self.pass_wait();
    }

    /// Lets a job that is suspended, or is about to be, run on.
    pub fn run_on(&mut self) {
        self.pass_wait();
        if self.chip.suspended {
            self.frame(&[0x30]);
        }
    }

    /// Lets a job do all the steps that it has left.
    pub fn finish_job(&mut self) {
        self.run_on();
        if self.chip.job.is_some() {
            self.put(kind::TICKS, u64::from(self.steps_left()));
        }
    }

    /// Begins a job of a class and suspends it after some of its steps.
    pub fn suspend_job(&mut self, class: Class) {
        self.begin(class);
        // The wait does a step more, which is not to be the last.
        let before_wait = self.rng.below(self.steps_left().max(2) as usize - 1);
        self.ticks(before_wait as u32);
        self.suspend();
    }

    /// Begins a job that can be suspended, lets it do some steps, and suspends it.
    pub fn suspend_some(&mut self) {
        if self.chip.suspended {
            return self.settle();
        }
        let class = self.rng.pick(&LONG_JOBS);
        self.suspend_job(class);
    }

    /// Brings the chip to deep power-down.
    pub fn sleep(&mut self) {
        self.settle();
        if !self.chip.deep {
            self.idle();
            self.frame(&[0xB9]);
        }
    }

    /// Begins any job.
    pub fn run_some(&mut self) {
        if self.running() {
            return self.settle();
        }
        let class = self.rng.pick(&ALL_JOBS);
        self.begin(class);
    }

    /// A byte that is no opcode.
    pub fn unknown(&mut self) -> u8 {
        loop {
            let byte = self.rng.byte();
            if COMMANDS.iter().all(|command| command.opcode != Some(byte)) {
                return byte;
            }
        }
    }
}
