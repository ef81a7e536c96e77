// A second, independent model of the LE25S161: one chip, its events and its runs.

#[path = "report.rs"]
mod report;

#[allow(unused_imports)]
pub use report::{run_with_report, Line};

/// The opcodes, by the names of the commands they start.
pub(crate) mod opcode {
    pub const WRITE_ENABLE: u8 = 0x06;
    pub const WRITE_DISABLE: u8 = 0x04;
    pub const READ_STATUS: u8 = 0x05;
    pub const WRITE_STATUS: u8 = 0x01;
    pub const LOW_POWER_READ: u8 = 0x03;
    pub const HIGH_SPEED_READ: u8 = 0x0B;
    pub const SMALL_SECTOR_ERASE: u8 = 0x20;
    pub const SMALL_SECTOR_ERASE_TOO: u8 = 0xD7;
    pub const SECTOR_ERASE: u8 = 0xD8;
    pub const CHIP_ERASE: u8 = 0x60;
    pub const CHIP_ERASE_TOO: u8 = 0xC7;
    pub const PAGE_PROGRAM: u8 = 0x02;
    pub const LOW_POWER_PROGRAM: u8 = 0x0A;
    pub const SUSPEND: u8 = 0xB0;
    pub const RESUME: u8 = 0x30;
    pub const JEDEC_ID: u8 = 0x9F;
    pub const DEVICE_ID: u8 = 0xAB;
    pub const READ_SFDP: u8 = 0x5A;
    pub const DEEP_POWER_DOWN: u8 = 0xB9;
    pub const RESET_ENABLE: u8 = 0x66;
    pub const RESET: u8 = 0x99;
}

/// The kinds of event a script is made of.
pub(crate) mod kind {
    pub const SELECT: u8 = 0x01;
    pub const EXCHANGE: u8 = 0x02;
    pub const DESELECT: u8 = 0x03;
    pub const TICK: u8 = 0x04;
    pub const TICKS: u8 = 0x05;
    pub const WP_LEVEL: u8 = 0x06;
    pub const POWER_CUT: u8 = 0x07;
    pub const STAMP: u8 = 0x09;
}

/// Length rule of a frame that may have any length.
const ANY: u8 = 0;
/// Length rule of a page program, five bytes or more; the other rules are exact lengths.
const FIVE_OR_MORE: u8 = 5;
/// The table's word for a command that is not taken.
const NO: u8 = 0;
/// The table's word for a command that is taken.
const YES: u8 = 1;

/// The opcode facts, one row an opcode: opcode, length rule, allowed running, allowed suspended.
const COMMANDS: [[u8; 4]; 21] = [
    [opcode::WRITE_ENABLE, 1, NO, NO],
    [opcode::WRITE_DISABLE, 1, NO, NO],
    [opcode::READ_STATUS, ANY, YES, YES],
    [opcode::WRITE_STATUS, 2, NO, NO],
    [opcode::LOW_POWER_READ, ANY, NO, YES],
    [opcode::HIGH_SPEED_READ, ANY, NO, YES],
    [opcode::SMALL_SECTOR_ERASE, 4, NO, YES],
    [opcode::SMALL_SECTOR_ERASE_TOO, 4, NO, YES],
    [opcode::SECTOR_ERASE, 4, NO, YES],
    [opcode::CHIP_ERASE, 1, NO, YES],
    [opcode::CHIP_ERASE_TOO, 1, NO, YES],
    [opcode::PAGE_PROGRAM, FIVE_OR_MORE, NO, YES],
    [opcode::LOW_POWER_PROGRAM, FIVE_OR_MORE, NO, YES],
    [opcode::SUSPEND, 1, YES, NO],
    [opcode::RESUME, 1, NO, YES],
    [opcode::JEDEC_ID, ANY, NO, NO],
    [opcode::DEVICE_ID, ANY, NO, NO],
    [opcode::READ_SFDP, ANY, NO, NO],
    [opcode::DEEP_POWER_DOWN, 1, NO, NO],
    [opcode::RESET_ENABLE, 1, YES, YES],
    [opcode::RESET, 1, YES, YES],
];

/// Mark of an opcode byte that no row of the table has.
const NO_ROW: u8 = 0xFF;

/// The row number of each opcode byte, worked out from the table once.
const ROW_OF: [u8; 256] = {
    let mut rows = [NO_ROW; 256];
    let mut row = 0;
    while row < COMMANDS.len() {
        rows[COMMANDS[row][0] as usize] = row as u8;
        row += 1;
    }
    rows
};

/// The four-byte code that a 9Fh frame drives in a cycle, the reserve code last.
const JEDEC_CYCLE: [u8; 4] = [0x62, 0x16, 0x15, 0x00];
/// The device ID that an ABh frame drives.
const DEVICE_ID_BYTE: u8 = 0x88;
/// Bytes that one step of a program handles.
const PROGRAM_STEP: usize = 16;
/// Steps of a program from begin to end.
pub(crate) const PROGRAM_STEPS: usize = Chip::PAGE / PROGRAM_STEP;
/// Bytes that one step of an erase handles.
const ERASE_STEP: usize = 256;
/// The longest script that a run takes.
const LONGEST_SCRIPT: usize = 65_536;
/// The byte count that means six or more.
const COUNT_CAP: u8 = 6;
/// Addresses are below this number, and so are the places that a 5Ah frame reads.
const ADDRESS_END: u32 = 1 << 24;
/// The longest SFDP area that is lent.
const LONGEST_AREA: usize = 256;
/// The most bits that a deselect can leave loose: with an eighth the byte would be whole.
const MOST_LOOSE_BITS: u64 = 7;
/// From this move on a counter is taken to have gone back: half of its round, from where the way
/// back is no longer than the way on.
const WENT_BACK: u16 = 32_768;

/// What a job does, with the load of a program or the value of a write status.
#[derive(Clone, Debug, PartialEq, Eq)]
pub enum JobKind {
    Program([u8; Chip::PAGE]),
    SmallSectorErase,
    SectorErase,
    ChipErase,
    WriteStatus(u8),
}

/// A job that has begun and not ended, running or suspended.
#[derive(Clone, Debug, PartialEq, Eq)]
pub struct Job {
    pub kind: JobKind,
    pub place: u32,
    pub steps_done: u32,
}

/// What a chip keeps of the bytes that have gone in since its select.
#[derive(Clone, Debug, PartialEq, Eq)]
pub struct Frame {
    pub opcode: u8,
    pub address: u32,
    pub read_place: u32,
    pub load_place: u32,
    pub byte_count: u8,
    pub judgement: Option<u8>,
    pub load: [u8; Chip::PAGE],
}

/// The whole state of a chip but its memory.
#[derive(Clone, Debug, PartialEq, Eq)]
pub struct Chip {
    pub level: u8,
    pub tb: bool,
    pub srwp: bool,
    pub wen: bool,
    pub wp_high: bool,
    pub deep: bool,
    pub armed: bool,
    pub selected: bool,
    pub suspended: bool,
    /// The waiting mark: a suspend is accepted, but the job still has the next tick's step to do.
    pub waiting: bool,
    pub job: Option<Job>,
    pub frame: Frame,
}

/// What one event yields. Verdict 9 is never a plain verdict: its record says which sectors were
/// in the way, the first and the last of all the protected ones.
#[derive(Clone, Copy, Debug, PartialEq, Eq)]
pub enum Record {
    None,
    Floating,
    Driven(u8),
    Verdict(u8),
    Protected { first: u8, last: u8 },
}

/// The answer to one event applied alone.
#[allow(dead_code)]
#[derive(Clone, Copy, Debug, PartialEq, Eq)]
pub struct EventAnswer {
    pub refusal: u8,
    pub record: Record,
    pub ticks: u64,
}

/// The answer to a run: the refusal and its offset, or the output bytes written and working ticks.
#[allow(dead_code)]
#[derive(Clone, Copy, Debug, PartialEq, Eq)]
pub struct RunAnswer {
    pub refusal: u8,
    pub offset: usize,
    pub written: usize,
    pub ticks: u64,
}

/// The bench's counter as a run knows it: the last stamp, none before the first. It belongs to the
/// run and not to the chip, so a power cut leaves it alone and the next run starts without one.
#[derive(Default)]
struct Clock {
    last: Option<u16>,
}

/// What an event of a run has done, as far as someone who watches its jobs needs to know: the
/// record, the ticks that passed and the working ones among them.
struct Done {
    record: Record,
    ticks: u64,
    working: u64,
}

impl Clock {
    /// Takes a stamp and gives how far the counter has moved on since the one before, over its
    /// roll-over too. The first has nothing to be measured from and only sets the clock.
    fn take(&mut self, stamp: u16) -> u16 {
        let moved = self.last.map_or(0, |last| stamp.wrapping_sub(last));
        self.last = Some(stamp);
        moved
    }
}

impl RunAnswer {
    /// The answer to a run that is refused.
    fn refused(refusal: u8, offset: usize) -> RunAnswer {
        RunAnswer { refusal, offset, written: 0, ticks: 0 }
    }
}

impl Job {
    /// The bytes that a job's place is aligned to; chip erase and write status sit at 0.
    fn size(&self, memory_length: usize) -> usize {
        match self.kind {
            JobKind::Program(_) => Chip::PAGE,
            JobKind::SmallSectorErase => Chip::SMALL_SECTOR,
            JobKind::SectorErase => Chip::SECTOR,
            JobKind::ChipErase | JobKind::WriteStatus(_) => memory_length,
        }
    }

    /// The steps of a job from begin to end.
    fn total_steps(&self, memory_length: usize) -> u32 {
        let steps = match self.kind {
            JobKind::Program(_) => PROGRAM_STEPS,
            JobKind::WriteStatus(_) => 1,
            _ => self.size(memory_length) / ERASE_STEP,
        };
        steps as u32
    }

    /// Does a row of steps to the memory, the first being the next one.
    fn do_steps(&self, memory: &mut [u8], steps: u32) {
        let place = self.place as usize;
        let first = self.steps_done as usize;
        let end = first + steps as usize;
        match &self.kind {
            JobKind::Program(load) => {
                let part = first * PROGRAM_STEP..end * PROGRAM_STEP;
                let cells = &mut memory[place + part.start..place + part.end];
                for (cell, byte) in cells.iter_mut().zip(&load[part]) {
                    *cell &= byte;
                }
            }
            JobKind::WriteStatus(_) => {}
            _ => memory[place + first * ERASE_STEP..place + end * ERASE_STEP].fill(0xFF),
        }
    }

    /// Whether a job is one that a legal state may have.
    fn legal(&self, memory_length: usize) -> bool {
        let place = self.place as usize;
        place < memory_length
            && place % self.size(memory_length) == 0
            && self.steps_done < self.total_steps(memory_length)
    }
}

impl Frame {
    /// The empty frame of a fresh state.
    const EMPTY: Frame = Frame {
        opcode: 0,
        address: 0,
        read_place: 0,
        load_place: 0,
        byte_count: 0,
        judgement: None,
        load: [0xFF; Chip::PAGE],
    };

    /// Whether a frame is one that a legal selected state may have.
    fn legal(&self, memory_length: usize) -> bool {
        let read_end = match self.opcode {
            opcode::JEDEC_ID => JEDEC_CYCLE.len(),
            opcode::READ_SFDP => ADDRESS_END as usize,
            _ => memory_length,
        };
        self.address < ADDRESS_END
            && (self.read_place as usize) < read_end
            && (self.load_place as usize) < Chip::PAGE
            && self.byte_count <= COUNT_CAP
            && matches!(self.judgement, None | Some(3 | 5 | 6 | 7))
            && (self.byte_count > 0 || *self == Frame::EMPTY)
    }

    /// Shifts an address byte in when the byte just counted is 2, 3 or 4.
    fn take_address(&mut self, byte: u8) {
        if (2..=4).contains(&self.byte_count) {
            self.address = (self.address << 8 | u32::from(byte)) % ADDRESS_END;
        }
    }

    /// Takes one byte of a 03h or 0Bh frame and drives a cell from the first data byte on.
    #[inline]
    fn read_cell(&mut self, memory: &[u8], byte: u8, first_data: u8) -> Record {
        self.take_address(byte);
        if self.byte_count == 4 {
            self.read_place = self.address % memory.len() as u32;
        }
        if self.byte_count < first_data {
            return Record::Floating;
        }
        let place = self.read_place as usize;
        self.read_place = if place + 1 == memory.len() { 0 } else { self.read_place + 1 };
        Record::Driven(memory[place])
    }

    /// Takes one byte of a 5Ah frame and drives the SFDP area, FFh past its end, from byte 6 on.
    fn read_sfdp(&mut self, area: &[u8], byte: u8) -> Record {
        self.take_address(byte);
        if self.byte_count == 4 {
            self.read_place = self.address;
        }
        if self.byte_count < 6 {
            return Record::Floating;
        }
        let place = self.read_place as usize;
        self.read_place = (self.read_place + 1) % ADDRESS_END;
        Record::Driven(area.get(place).copied().unwrap_or(0xFF))
    }

    /// Takes one byte of a page program frame, from byte 5 on into its load.
    fn take_load(&mut self, byte: u8) {
        self.take_address(byte);
        if self.byte_count == 4 {
            self.load_place = self.address % Chip::PAGE as u32;
        }
        if self.byte_count > 4 {
            self.load[self.load_place as usize] = byte;
            self.load_place = (self.load_place + 1) % Chip::PAGE as u32;
        }
    }

    /// Drives the next byte of the JEDEC cycle.
    fn read_jedec(&mut self) -> Record {
        let place = self.read_place as usize;
        self.read_place = ((place + 1) % JEDEC_CYCLE.len()) as u32;
        Record::Driven(JEDEC_CYCLE[place])
    }
}

impl Chip {
    /// Bytes of a page.
    pub const PAGE: usize = 256;
    /// Bytes of a small sector.
    pub const SMALL_SECTOR: usize = 4_096;
    /// Bytes of a sector.
    pub const SECTOR: usize = 65_536;

    /// The fresh state made from a status byte.
    pub fn fresh(status: u8) -> Chip {
        let mut chip = Chip {
            level: 0,
            tb: false,
            srwp: false,
            wen: false,
            wp_high: true,
            deep: false,
            armed: false,
            selected: false,
            suspended: false,
            waiting: false,
            job: None,
            frame: Frame::EMPTY,
        };
        chip.set_status(status);
        chip
    }

    /// The status byte that a 05h frame would drive now.
    pub fn status_byte(&self) -> u8 {
        u8::from(self.running())
            | u8::from(self.wen) << 1
            | self.level << 2
            | u8::from(self.tb) << 5
            | u8::from(self.suspended) << 6
            | u8::from(self.srwp) << 7
    }

    /// Whether this state is legal over a memory of that length.
    pub fn legal(&self, memory_length: usize) -> bool {
        if !memory_length_known(memory_length) || self.level > 7 {
            return false;
        }
        let job_legal = match &self.job {
            Some(job) => self.wen && !self.deep && job.legal(memory_length),
            None => true,
        };
        job_legal
            && (!self.suspended || self.has_program_or_erase())
            && (!self.waiting || self.runs_program_or_erase())
            && !(self.deep && self.armed)
            && self.frame.legal(memory_length)
            && (self.selected || self.frame == Frame::EMPTY)
    }

    /// Takes bits 2 to 5 and 7 of a status byte.
    fn set_status(&mut self, status: u8) {
        self.level = status >> 2 & 7;
        self.tb = status & 0x20 != 0;
        self.srwp = status & 0x80 != 0;
    }

    /// Whether a job is running, that is, present and not suspended. In the wait it still is.
    fn running(&self) -> bool {
        self.job.is_some() && !self.suspended
    }

    /// Whether the job, running or suspended, is a program or erase.
    fn has_program_or_erase(&self) -> bool {
        matches!(&self.job, Some(job) if !matches!(job.kind, JobKind::WriteStatus(_)))
    }

    /// Whether a program or erase is running, the only job that a suspend can act on.
    fn runs_program_or_erase(&self) -> bool {
        self.running() && self.has_program_or_erase()
    }

    /// The job that an accepted frame would begin, if its opcode begins one.
    fn job_of_frame(&self, memory_length: usize) -> Option<Job> {
        let frame = &self.frame;
        let kind = match frame.opcode {
            opcode::PAGE_PROGRAM | opcode::LOW_POWER_PROGRAM => JobKind::Program(frame.load),
            opcode::SMALL_SECTOR_ERASE => JobKind::SmallSectorErase,
            opcode::SMALL_SECTOR_ERASE_TOO => JobKind::SmallSectorErase,
            opcode::SECTOR_ERASE => JobKind::SectorErase,
            opcode::CHIP_ERASE | opcode::CHIP_ERASE_TOO => JobKind::ChipErase,
            opcode::WRITE_STATUS => JobKind::WriteStatus(frame.address as u8),
            _ => return None,
        };
        let mut job = Job { kind, place: 0, steps_done: 0 };
        let address = frame.address as usize % memory_length;
        job.place = (address - address % job.size(memory_length)) as u32;
        Some(job)
    }

    /// The first and last protected sector by level, TB and memory length, if any is protected.
    fn protected_sectors(&self, memory_length: usize) -> Option<(u8, u8)> {
        let sectors = (memory_length / Chip::SECTOR) as u8;
        let count = match self.level {
            0 => return None,
            level @ 1..=5 => sectors.min(1 << (level - 1)),
            _ => sectors,
        };
        if self.tb {
            Some((0, count - 1))
        } else {
            Some((sectors - count, sectors - 1))
        }
    }

    /// Whether a job's target is protected; any protected sector is in a chip erase's way.
    fn protects(&self, job: &Job, memory_length: usize) -> bool {
        let Some((first, last)) = self.protected_sectors(memory_length) else {
            return false;
        };
        let sector = (job.place as usize / Chip::SECTOR) as u8;
        match job.kind {
            JobKind::WriteStatus(_) => false,
            JobKind::ChipErase => true,
            _ => (first..=last).contains(&sector),
        }
    }

    /// Drops the job and clears WEN, SUS and the waiting mark, as a reset does.
    fn reset(&mut self) {
        self.job = None;
        self.wen = false;
        self.suspended = false;
        self.waiting = false;
    }

    /// Leaves the chip unselected with the empty frame.
    fn end_frame(&mut self) {
        self.selected = false;
        self.frame = Frame::EMPTY;
    }
}

/// Whether a memory length is one of the six.
pub(crate) fn memory_length_known(length: usize) -> bool {
    length % Chip::SECTOR == 0 && matches!(length / Chip::SECTOR, 1 | 2 | 4 | 8 | 16 | 32)
}

/// The table's row for an opcode, if it has one.
fn row(opcode: u8) -> Option<&'static [u8; 4]> {
    COMMANDS.get(ROW_OF[opcode as usize] as usize)
}

/// The judgement of an opcode on the state as it is: none, or verdict 3, 5, 6 or 7.
fn judge_opcode(chip: &Chip, opcode: u8) -> Option<u8> {
    let Some([_, _, while_running, while_suspended]) = row(opcode) else {
        return Some(3);
    };
    if chip.deep && opcode != opcode::DEVICE_ID {
        Some(5)
    } else if chip.running() && *while_running == NO {
        Some(6)
    } else if chip.suspended && *while_suspended == NO {
        Some(7)
    } else {
        None
    }
}

/// The verdict that a deselect gives the frame of a selected chip.
pub(crate) fn verdict(chip: &Chip, memory_length: usize, loose: bool) -> u8 {
    let frame = &chip.frame;
    if frame.byte_count == 0 {
        return 0;
    }
    if let Some(judged) = frame.judgement.or_else(|| judge_opcode(chip, frame.opcode)) {
        return judged;
    }
    if is_read(frame.opcode) {
        return 0;
    }
    if loose || !length_fits(frame) {
        return 4;
    }
    match chip.job_of_frame(memory_length) {
        Some(job) => judge_job(chip, &job, memory_length),
        None => judge_without_job(chip),
    }
}

/// Whether an opcode is one of the five reads, whose unjudged frames end with verdict 0.
fn is_read(opcode: u8) -> bool {
    use opcode::{HIGH_SPEED_READ, JEDEC_ID, LOW_POWER_READ, READ_SFDP, READ_STATUS};
    matches!(opcode, READ_STATUS | LOW_POWER_READ | HIGH_SPEED_READ | JEDEC_ID | READ_SFDP)
}

/// Whether a frame's byte count fits the length rule of its opcode.
fn length_fits(frame: &Frame) -> bool {
    match row(frame.opcode) {
        Some([_, ANY, _, _]) => true,
        Some([_, FIVE_OR_MORE, _, _]) => frame.byte_count >= FIVE_OR_MORE,
        Some([_, exact, _, _]) => frame.byte_count == *exact,
        None => false,
    }
}

/// The verdict on a frame of the right length that would begin a job. A suspended job keeps WEN at
/// 1, so verdict 8 is for an idle chip alone; number 12, once the verdict for WEN 0 in suspension,
/// is unused.
fn judge_job(chip: &Chip, job: &Job, memory_length: usize) -> u8 {
    let write_status = matches!(job.kind, JobKind::WriteStatus(_));
    if !chip.wen {
        8
    } else if write_status && chip.srwp && !chip.wp_high {
        10
    } else if chip.protects(job, memory_length) {
        9
    } else {
        2
    }
}

/// The verdict on a frame of the right length that would begin no job. A suspend that waits already
/// leaves a second one nothing to act on.
fn judge_without_job(chip: &Chip) -> u8 {
    let acceptable = match chip.frame.opcode {
        opcode::SUSPEND => chip.runs_program_or_erase() && !chip.waiting,
        opcode::RESUME => chip.suspended,
        opcode::RESET => chip.armed,
        _ => true,
    };
    if acceptable { 1 } else { 11 }
}

/// The record of a verdict on the state that was judged, whose protected sectors verdict 9 names.
fn verdict_record(chip: &Chip, memory_length: usize, verdict: u8) -> Record {
    match (verdict, chip.protected_sectors(memory_length)) {
        (9, Some((first, last))) => Record::Protected { first, last },
        _ => Record::Verdict(verdict),
    }
}

/// Ends the frame of a chip and gives the record of its verdict.
#[inline]
fn deselect(chip: &mut Chip, memory_length: usize, loose: bool) -> Record {
    if !chip.selected {
        return Record::Verdict(0);
    }
    let verdict = verdict(chip, memory_length, loose);
    let record = verdict_record(chip, memory_length, verdict);
    match verdict {
        1 => do_accepted(chip),
        // No mark to clear here: in the wait the part is running, and no job begins then.
        2 => {
            chip.job = chip.job_of_frame(memory_length);
            chip.suspended = false;
        }
        _ => {}
    }
    if chip.frame.byte_count > 0 {
        chip.armed = verdict == 1 && chip.frame.opcode == opcode::RESET_ENABLE;
    }
    chip.end_frame();
    record
}

/// Does what a frame with verdict 1 asks for, arming aside. Of a suspend that is the waiting mark
/// alone; the job is suspended by the next tick.
fn do_accepted(chip: &mut Chip) {
    match chip.frame.opcode {
        opcode::WRITE_ENABLE => chip.wen = true,
        opcode::WRITE_DISABLE => chip.wen = false,
        opcode::SUSPEND => chip.waiting = true,
        opcode::RESUME => chip.suspended = false,
        opcode::DEVICE_ID => chip.deep = false,
        opcode::DEEP_POWER_DOWN => chip.deep = true,
        opcode::RESET => chip.reset(),
        _ => {}
    }
}

/// Takes one byte on SI and gives what the chip drives meanwhile.
#[inline]
fn exchange(chip: &mut Chip, memory: &[u8], area: &[u8], byte: u8) -> Record {
    if !chip.selected {
        return Record::Floating;
    }
    if chip.frame.byte_count == 0 {
        chip.frame.judgement = judge_opcode(chip, byte);
        chip.frame.opcode = byte;
        chip.frame.byte_count = 1;
        return Record::Floating;
    }
    let frame = &mut chip.frame;
    frame.byte_count = COUNT_CAP.min(frame.byte_count + 1);
    if frame.judgement.is_some() {
        return Record::Floating;
    }
    match frame.opcode {
        opcode::READ_STATUS => return Record::Driven(chip.status_byte()),
        opcode::LOW_POWER_READ => return frame.read_cell(memory, byte, 5),
        opcode::HIGH_SPEED_READ => return frame.read_cell(memory, byte, 6),
        opcode::JEDEC_ID => return frame.read_jedec(),
        opcode::READ_SFDP => return frame.read_sfdp(area, byte),
        opcode::DEVICE_ID if frame.byte_count >= 5 => return Record::Driven(DEVICE_ID_BYTE),
        opcode::PAGE_PROGRAM | opcode::LOW_POWER_PROGRAM => frame.take_load(byte),
        opcode::SMALL_SECTOR_ERASE | opcode::SMALL_SECTOR_ERASE_TOO => frame.take_address(byte),
        opcode::SECTOR_ERASE | opcode::WRITE_STATUS => frame.take_address(byte),
        _ => {}
    }
    Record::Floating
}

/// Lets ticks pass and gives the number of working ticks among them. In the wait only the first can
/// work: the others find the job suspended, or ended if that step was its last. With no tick, as an
/// equal stamp has it, the wait goes on too.
fn pass_ticks(chip: &mut Chip, memory: &mut [u8], ticks: u64) -> u64 {
    if ticks == 0 || chip.suspended {
        return 0;
    }
    let Some(job) = &mut chip.job else {
        return 0;
    };
    let steps_left = job.total_steps(memory.len()) - job.steps_done;
    let most_steps = if chip.waiting { 1 } else { steps_left };
    let steps = ticks.min(u64::from(most_steps)) as u32;
    job.do_steps(memory, steps);
    job.steps_done += steps;
    if steps == steps_left {
        end_job(chip);
    } else if chip.waiting {
        end_wait(chip);
    }
    u64::from(steps)
}

/// Ends a job after its last step, which for a write status sets the bits. A suspend that waited
/// for that step has come too late and is forgotten.
fn end_job(chip: &mut Chip) {
    if let Some(Job { kind: JobKind::WriteStatus(value), .. }) = chip.job {
        chip.set_status(value);
    }
    chip.job = None;
    chip.wen = false;
    chip.waiting = false;
}

/// Suspends a job after the step that its suspend waited for, where steps are left.
fn end_wait(chip: &mut Chip) {
    chip.waiting = false;
    chip.suspended = true;
}

/// Cuts the power and powers the chip up again.
fn cut_power(chip: &mut Chip) {
    chip.reset();
    chip.deep = false;
    chip.armed = false;
    chip.end_frame();
}

/// The body length of an event kind, if a script may have the kind.
pub(crate) fn body_length(kind: u8) -> Option<usize> {
    match kind {
        kind::SELECT | kind::TICK | kind::POWER_CUT => Some(0),
        kind::EXCHANGE | kind::DESELECT | kind::WP_LEVEL => Some(1),
        kind::TICKS | kind::STAMP => Some(2),
        _ => None,
    }
}

/// Whether a body value is inside the range of its kind.
fn body_in_range(kind: u8, body: u64) -> bool {
    match kind {
        kind::EXCHANGE => body <= 0xFF,
        kind::DESELECT => body <= MOST_LOOSE_BITS,
        kind::TICKS => (1..=65_535).contains(&body),
        kind::WP_LEVEL => body <= 1,
        _ => true,
    }
}

/// Applies an event that has passed every check and gives its record and working ticks.
#[inline]
fn apply(
    chip: &mut Chip,
    memory: &mut [u8],
    area: &[u8],
    kind: u8,
    body: u64,
) -> (Record, u64) {
    match kind {
        kind::SELECT => chip.selected = true,
        kind::EXCHANGE => return (exchange(chip, memory, area, body as u8), 0),
        // One loose bit spoils a frame as much as seven do.
        kind::DESELECT => return (deselect(chip, memory.len(), body > 0), 0),
        kind::TICK => return (Record::None, pass_ticks(chip, memory, 1)),
        kind::TICKS => return (Record::None, pass_ticks(chip, memory, body)),
        kind::WP_LEVEL => chip.wp_high = body == 1,
        kind::POWER_CUT => cut_power(chip),
        _ => {}
    }
    (Record::None, 0)
}

/// The refusal number of what is lent, the state included, 0 when there is none.
fn lent_refusal(chip: &Chip, memory_length: usize, area_length: usize) -> u8 {
    if !memory_length_known(memory_length) {
        1
    } else if area_length > LONGEST_AREA {
        13
    } else if !chip.legal(memory_length) {
        2
    } else {
        0
    }
}

/// The refusal number of an event alone, 0 when there is none.
fn event_refusal(chip: &Chip, memory: &[u8], area: &[u8], kind: u64, body: u64) -> u8 {
    let lent = lent_refusal(chip, memory.len(), area.len());
    if lent != 0 {
        return lent;
    }
    match u8::try_from(kind) {
        // Alone there is no run whose clock a stamp could set or move, so it is no kind here.
        Ok(kind::STAMP) => 5,
        Ok(kind) if body_length(kind).is_some() => {
            if body_in_range(kind, body) { 0 } else { 6 }
        }
        _ => 5,
    }
}

/// Applies one event alone, or refuses it and changes nothing.
#[allow(dead_code)]
pub fn event(
    chip: &mut Chip,
    memory: &mut [u8],
    area: &[u8],
    kind: u64,
    body: u64,
) -> EventAnswer {
    let refusal = event_refusal(chip, memory, area, kind, body);
    if refusal != 0 {
        return EventAnswer { refusal, record: Record::None, ticks: 0 };
    }
    let (record, ticks) = apply(chip, memory, area, kind as u8, body);
    EventAnswer { refusal, record, ticks }
}

/// The body value of an event whose body bytes, at most two, are given, high byte first.
fn body_value(body: &[u8]) -> u64 {
    match body {
        [high, low] => u64::from(*high) << 8 | u64::from(*low),
        [byte] => u64::from(*byte),
        _ => 0,
    }
}

/// The output room that an event of a kind is given, whatever its record turns out to be.
fn output_room(kind: u8) -> usize {
    match kind {
        kind::EXCHANGE => 2,
        kind::DESELECT => 3,
        _ => 0,
    }
}

/// The refusal number of a body in a script, 0 when there is none. No stamp is out of range in
/// itself: what can be wrong with one depends on the stamp before it.
fn script_body_refusal(clock: &mut Clock, kind: u8, body: u64) -> u8 {
    if kind == kind::STAMP {
        return if clock.take(body as u16) < WENT_BACK { 0 } else { 8 };
    }
    if body_in_range(kind, body) { 0 } else { 6 }
}

/// The output room that a script needs, or the refusal and offset of its first bad event.
fn check_script(script: &[u8]) -> Result<usize, (u8, usize)> {
    let mut room = 0;
    let mut offset = 0;
    let mut clock = Clock::default();
    while offset < script.len() {
        let kind = script[offset];
        // Most events are exchanges, and any byte is in their range.
        if kind == kind::EXCHANGE && offset + 1 < script.len() {
            room += output_room(kind);
            offset += 2;
            continue;
        }
        let length = body_length(kind).ok_or((5, offset))?;
        let end = offset + 1 + length;
        let body = body_value(script.get(offset + 1..end).ok_or((4, offset))?);
        let refusal = script_body_refusal(&mut clock, kind, body);
        if refusal != 0 {
            return Err((refusal, offset));
        }
        room += output_room(kind);
        offset = end;
    }
    Ok(room)
}

/// Every check of a run in order, giving the refusal and offset of the first that fails.
fn check_run(
    chip: &Chip,
    memory_length: usize,
    area_length: usize,
    script: &[u8],
    output_length: usize,
) -> Result<(), (u8, usize)> {
    let lent = lent_refusal(chip, memory_length, area_length);
    if lent != 0 {
        return Err((lent, 0));
    }
    if script.len() > LONGEST_SCRIPT {
        return Err((3, 0));
    }
    let room = check_script(script)?;
    if output_length < room {
        return Err((7, 0));
    }
    Ok(())
}

/// Writes a record at the start of the output and gives its length in bytes.
fn write_record(output: &mut [u8], record: Record) -> usize {
    match record {
        Record::None => 0,
        Record::Floating => write_bytes(output, [0x80]),
        Record::Driven(byte) => write_bytes(output, [0x81, byte]),
        Record::Verdict(verdict) => write_bytes(output, [0x82, verdict]),
        Record::Protected { first, last } => write_bytes(output, [0x83, first, last]),
    }
}

/// Writes bytes at the start of the output and gives their number.
fn write_bytes<const LENGTH: usize>(output: &mut [u8], bytes: [u8; LENGTH]) -> usize {
    output[..LENGTH].copy_from_slice(&bytes);
    LENGTH
}

/// The kind and body of an event of a run, a stamp being replaced by the ticks that it gives.
fn without_stamp(clock: &mut Clock, kind: u8, body: u64) -> (u8, u64) {
    if kind == kind::STAMP {
        (kind::TICKS, u64::from(clock.take(body as u16)))
    } else {
        (kind, body)
    }
}

/// The ticks that an event lets pass, working or not.
fn ticks_of(kind: u8, body: u64) -> u64 {
    match kind {
        kind::TICK => 1,
        kind::TICKS => body,
        _ => 0,
    }
}

/// Runs a whole script, or refuses it and changes nothing.
#[allow(dead_code)]
pub fn run(
    chip: &mut Chip,
    memory: &mut [u8],
    area: &[u8],
    script: &[u8],
    output: &mut [u8],
) -> RunAnswer {
    run_watched(chip, memory, area, script, output, |_, _| {})
}

/// A run that shows a watcher what each event has done and the chip after it. Exchanges are not
/// shown: they let no tick pass and no job begin or end.
#[inline]
fn run_watched(
    chip: &mut Chip,
    memory: &mut [u8],
    area: &[u8],
    script: &[u8],
    output: &mut [u8],
    watcher: impl FnMut(&Chip, Done),
) -> RunAnswer {
    match check_run(chip, memory.len(), area.len(), script, output.len()) {
        Ok(()) => run_checked(chip, memory, area, script, output, watcher),
        Err((refusal, offset)) => RunAnswer::refused(refusal, offset),
    }
}

/// Runs a script that has passed every check.
#[inline]
fn run_checked(
    chip: &mut Chip,
    memory: &mut [u8],
    area: &[u8],
    script: &[u8],
    output: &mut [u8],
    mut watcher: impl FnMut(&Chip, Done),
) -> RunAnswer {
    let mut answer = RunAnswer { refusal: 0, offset: 0, written: 0, ticks: 0 };
    let mut clock = Clock::default();
    let mut rest = script;
    while let [kind, after @ ..] = rest {
        // Most events are exchanges.
        if let (&kind::EXCHANGE, [byte, next @ ..]) = (kind, after) {
            let record = exchange(chip, memory, area, *byte);
            answer.written += write_record(&mut output[answer.written..], record);
            rest = next;
            continue;
        }
        let (body, next) = after.split_at(body_length(*kind).unwrap_or(0));
        let (kind, body) = without_stamp(&mut clock, *kind, body_value(body));
        let (record, working) = apply(chip, memory, area, kind, body);
        answer.written += write_record(&mut output[answer.written..], record);
        answer.ticks += working;
        watcher(chip, Done { record, ticks: ticks_of(kind, body), working });
        rest = next;
    }
    answer
}
