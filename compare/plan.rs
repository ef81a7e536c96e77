// The cases that are planned, so that whatever can occur does, at any seed.

use crate::area_scenes::any_scene;
use crate::case::{Content, Start, LENGTHS};
use crate::class::{Class, ALL_JOBS, LONG_JOBS};
use crate::commands::{Command, COMMANDS, UNKNOWN};
use crate::event::{events_of, frame_of, kind, script_of, Event, LONGEST};
use crate::generate::Writer;
use crate::image::Edit;
use crate::margins::LARGEST;
use crate::session::{Outcome, Session};
use crate::states;

impl Session<'_> {
    /// Does what is planned; what takes long comes last, so that most faults are found early. WEN
    /// beside a job comes before all random frames, so that a chip that cannot be is seen after the
    /// very event that made it so.
    pub fn planned(&mut self) -> Outcome {
        self.fresh_states()?;
        self.enable()?;
        self.reads()?;
        self.deselects()?;
        self.stamps()?;
        self.reports()?;
        self.waits()?;
        self.areas()?;
        self.script_writer()?;
        self.protection()?;
        self.leftovers()?;
        self.broken_states(LENGTHS[0])?;
        self.all_refusals()?;
        self.area_lengths()?;
        self.all_cells()?;
        self.lent_frames()?;
        self.all_fates()?;
        for length in LENGTHS {
            self.some_fates(length)?;
            self.erase_walk(length)?;
        }
        self.long_scripts_with_stamps()?;
        for allowance in [0, LARGEST] {
            self.latest_jobs(allowance)?;
        }
        for length in &LENGTHS[1..] {
            self.broken_states(*length)?;
        }
        self.all_reads()?;
        self.scripts_run()?;
        self.limits(LENGTHS[0])?;
        self.limits(LENGTHS[5])
    }

    /// Fresh states from every status byte, read back.
    fn fresh_states(&mut self) -> Outcome {
        for status in 0..=255 {
            self.open(LENGTHS[0], Start::Fresh(status), Content::Blank)?;
            self.one_run(&frame_of([0x05, 0]))?;
            self.close()?;
        }
        Ok(())
    }

    /// States with a job of each class or none that are lent with leftovers: whatever leaves jobs
    /// alone keeps them, and each event that has to clear them does.
    fn leftovers(&mut self) -> Outcome {
        for class in ALL_JOBS.into_iter().map(Some).chain([None]) {
            for end in ENDS.repeat(if class.is_none() { 16 } else { 4 }) {
                self.leftovers_until(class, end)?;
            }
        }
        Ok(())
    }

    /// A state with a job of a class or none, lent with leftovers, and what may become of them.
    fn leftovers_until(&mut self, class: Option<Class>, end: fn(&mut Writer)) -> Outcome {
        let length = self.rng.pick(&LENGTHS[..2]);
        let mut chip = states::legal_unselected(&mut self.rng, length, class);
        (chip.deep, chip.srwp, chip.level) = (false, false, 0);
        let (edit, content) = (Edit::Free(self.rng.next()), Content::Blank);
        self.open(length, Start::Lent(Box::new(chip), edit), content)?;
        let events = self.write(|writer| {
            writer.calm = true;
            writer.leave_alone();
            end(writer);
            writer.leave_alone();
        });
        self.deliver(&events)?;
        self.close()
    }

    /// States that break one rule alone, every rule in every way.
    fn broken_states(&mut self, length: usize) -> Outcome {
        for (rule, chip, edit) in states::broken(&mut self.rng, length) {
            self.broken_state(length, chip, edit)?;
            self.coverage.note_rule(rule);
        }
        Ok(())
    }

    /// Every opcode with every verdict that it can get, by events and by runs, on all lengths.
    fn all_cells(&mut self) -> Outcome {
        for length in LENGTHS {
            self.reads_over_top(length)?;
            for command in &COMMANDS[..=UNKNOWN] {
                self.all_verdicts(length, command)?;
            }
        }
        self.without_opcode()
    }

    /// Both reads of cells, across the top.
    fn reads_over_top(&mut self, length: usize) -> Outcome {
        self.open_fresh(length, 0)?;
        for opcode in [0x03, 0x0B] {
            let events = self.write(|writer| writer.over_top(opcode));
            self.deliver(&events)?;
        }
        Ok(())
    }

    /// An opcode, or bytes that are none, with every verdict that it can get.
    fn all_verdicts(&mut self, length: usize, command: &Command) -> Outcome {
        self.open_fresh(length, 0)?;
        for verdict in command.verdicts {
            let events = self.write(|writer| {
                writer.calm = true;
                writer.reach(command.opcode, *verdict);
            });
            self.deliver(&events)?;
        }
        self.close()
    }

    /// Empty frames, and deselects with and without loose bits and an exchange without a frame.
    fn without_opcode(&mut self) -> Outcome {
        let (select, deselect) = ((kind::SELECT, 0), (kind::DESELECT, 0));
        let (three_loose, seven_loose) = ((kind::DESELECT, 3), (kind::DESELECT, 7));
        self.open_fresh(LENGTHS[0], 0)?;
        self.one_by_one(&[select, deselect, deselect])?;
        self.one_by_one(&[select, three_loose, seven_loose, (kind::EXCHANGE, 0)])?;
        self.close()
    }

    /// Frames of every opcode and byte count that come with a lent state, gone on with and ended.
    fn lent_frames(&mut self) -> Outcome {
        for command in &COMMANDS[..=UNKNOWN] {
            for count in [1, 2, 3, 4, 5, 6].repeat(8) {
                self.lent_frame(command, count)?;
            }
        }
        Ok(())
    }

    /// One lent frame of an opcode, or of any byte, and a byte count.
    fn lent_frame(&mut self, command: &Command, count: u8) -> Outcome {
        let length = self.rng.pick(&[LENGTHS[0], LENGTHS[0], LENGTHS[1], LENGTHS[3]]);
        let opcode = command.opcode.unwrap_or(self.rng.byte());
        let chip = states::with_frame(&mut self.rng, length, opcode, count);
        let (edit, content) = (self.any_edit(), Content::Noise(self.rng.next()));
        self.open(length, Start::Lent(Box::new(chip), edit), content)?;
        let events = self.write(|writer| writer.go_on());
        self.deliver(&events)?;
        self.close()
    }

    /// Every fate of every job after every k steps, on the one-sector part.
    fn all_fates(&mut self) -> Outcome {
        for class in LONG_JOBS {
            for fate in FATES {
                self.fate_after_each_step(class, fate)?;
            }
            self.lent_fates(class)?;
        }
        self.write_status_fates()
    }

    /// One fate of a job of a class, after every k steps.
    fn fate_after_each_step(&mut self, class: Class, fate: Fate) -> Outcome {
        self.open_fresh(LENGTHS[0], 0)?;
        for k in 0..class.steps(LENGTHS[0]) {
            let events = self.write(|writer| fate_after(writer, class, fate, k));
            self.deliver(&events)?;
        }
        self.close()
    }

    /// Every fate of jobs that are lent: suspended before their first step, where no event leads,
    /// since a wait does one; and in the wait of their first, of any and of their last step.
    fn lent_fates(&mut self, class: Class) -> Outcome {
        let last = class.steps(LENGTHS[0]) - 1;
        for fate in FATES {
            let any = self.rng.below(last as usize) as u32;
            for (suspended, done) in [(true, 0), (false, 0), (false, any), (false, last)] {
                self.lent_fate(class, fate, suspended, done)?;
            }
        }
        Ok(())
    }

    /// One fate of a job that is lent after so many steps, suspended or in the wait.
    fn lent_fate(&mut self, class: Class, fate: Fate, suspended: bool, done: u32) -> Outcome {
        let mut chip = states::legal_unselected(&mut self.rng, LENGTHS[0], Some(class));
        (chip.level, chip.suspended, chip.waiting) = (0, suspended, !suspended);
        if let Some(job) = &mut chip.job {
            job.steps_done = done;
        }
        let (edit, content) = (self.any_edit(), Content::Noise(self.rng.next()));
        self.open(LENGTHS[0], Start::Lent(Box::new(chip), edit), content)?;
        let events = self.write(|writer| {
            writer.calm = true;
            fate(writer);
        });
        self.deliver(&events)?;
        self.close()
    }

    /// The fates of a write status: it has one step and cannot be suspended.
    fn write_status_fates(&mut self) -> Outcome {
        self.open_fresh(LENGTHS[0], 0)?;
        for fate in FATES {
            let events = self.write(|writer| fate_after(writer, Class::WriteStatus, fate, 0));
            self.one_by_one(&events)?;
        }
        self.close()
    }

    /// Every fate of a chip erase after some k steps.
    fn some_fates(&mut self, length: usize) -> Outcome {
        self.open_fresh(length, 0)?;
        let total = Class::Chip.steps(length);
        for fate in FATES {
            for k in [0, 1, total / 2, total - 1, self.rng.below(total as usize) as u32] {
                let events = self.write(|writer| fate_after(writer, Class::Chip, fate, k));
                self.one_run(&events)?;
            }
        }
        self.close()
    }

    /// A chip erase with a suspend before every step, its status read in each wait and after it,
    /// and a resume; the last step ends it in the wait.
    fn erase_walk(&mut self, length: usize) -> Outcome {
        self.open_fresh(length, 0)?;
        let events = self.write(|writer| {
            writer.calm = true;
            writer.begin(Class::Chip);
        });
        self.one_run(&events)?;
        let (suspend, resume, tick) = (frame_of([0xB0]), frame_of([0x30]), vec![(kind::TICK, 0)]);
        let status = frame_of([0x05, 0]);
        let one_step = [suspend, status.clone(), tick, status, resume].concat();
        while self.bench.expected.chip.job.is_some() {
            self.one_run(&one_step.repeat(64))?;
        }
        self.close()
    }

    /// Scripts of 65,536 bytes and more, and the rooms about what they ask for.
    fn limits(&mut self, length: usize) -> Outcome {
        self.open_fresh(length, 0)?;
        for event in [(kind::TICK, 0), (kind::DESELECT, 0), (kind::DESELECT, 7)] {
            self.long_scripts_of(event)?;
        }
        self.long_and_bad()?;
        for extra in [0, 1, 2, LONGEST] {
            self.rooms_of(LONGEST + extra)?;
        }
        self.close()
    }

    /// Scripts about the longest, of one event over and over: just too long, of the longest length
    /// in the exact room and in a byte less, and just shorter, where an event of two bytes goes
    /// without its body at the end.
    fn long_scripts_of(&mut self, event: Event) -> Outcome {
        let bytes = script_of(&[event]).repeat(LONGEST + 1);
        for (length, spare) in [(LONGEST, -1), (LONGEST, 0), (LONGEST - 1, 5), (LONGEST + 1, 0)] {
            self.run(bytes[..length].to_vec(), spare)?;
        }
        Ok(())
    }

    /// The longest script, its last event an exchange or a deselect without its byte; and a script
    /// that is a byte too long and has unknown kinds alone, where 3 comes before 5.
    fn long_and_bad(&mut self) -> Outcome {
        for kind in [kind::EXCHANGE, kind::DESELECT] {
            let mut script = script_of(&vec![(kind::TICK, 0); LONGEST]);
            script[LONGEST - 1] = kind as u8;
            self.run(script, 0)?;
        }
        self.run(vec![0x80; LONGEST + 1], 0)
    }

    /// Random scripts of so many bytes, with just too little room, enough, and more.
    fn rooms_of(&mut self, bytes: usize) -> Outcome {
        for spare in [-1, 0, 1] {
            let script = self.long_script(bytes);
            self.run(script, spare)?;
        }
        Ok(())
    }

    /// A script of so many bytes for the chip as it is: where they end inside an event there are
    /// ticks in its place, so that the script can be refused by its room alone.
    fn long_script(&mut self, bytes: usize) -> Vec<u8> {
        let events = self.write(|writer| {
            while script_of(&writer.events).len() + 5_000 < bytes {
                let from = writer.events.len();
                while writer.events.len() < from + 1_000 {
                    any_scene(writer.rng)(writer);
                }
            }
        });
        let mut script = script_of(&events);
        script.truncate(bytes);
        let unfinished = events_of(&script).1.len();
        script.truncate(script.len() - unfinished);
        script.resize(bytes, kind::TICK as u8);
        script
    }

    /// Every sort of refusal, many times, on an armed chip too, between the scenes of one case.
    fn all_refusals(&mut self) -> Outcome {
        self.open_fresh(LENGTHS[0], 0x08)?;
        for _ in 0..400 {
            if self.rng.once_in(4) {
                let events = self.write(|writer| writer.frame(&[0x66]));
                self.one_run(&events)?;
            }
            self.refusal()?;
            if self.rng.once_in(4) {
                self.scene()?;
            }
        }
        self.close()
    }
}

/// What may become of leftovers: nothing, or that they go by the job's last step, by a reset, by a
/// power cut, or by a job that begins, in the place of a suspended one if there is one.
const ENDS: [fn(&mut Writer); 9] = [
    |_| {},
    |writer| writer.finish_job(),
    |writer| writer.reset(),
    |writer| writer.put(kind::POWER_CUT, 0),
    |writer| begin_here(writer, Class::WriteStatus),
    |writer| begin_here(writer, Class::Program),
    |writer| begin_here(writer, Class::SmallSector),
    |writer| begin_here(writer, Class::Sector),
    |writer| begin_here(writer, Class::Chip),
];

/// Begins a job of a class, in the place of the suspended one if there is one.
fn begin_here(writer: &mut Writer, class: Class) {
    if writer.chip.suspended {
        writer.drop_by(class);
    } else {
        writer.begin(class);
    }
}

/// Something that becomes of a job.
type Fate = fn(&mut Writer);

/// What may become of a job: it is suspended, and then resumed and ended, dropped for another, reset
/// or cut; it is reset or cut while it runs, or in the wait, after a look at it. Where the wait does
/// the last step, the job is gone before what it was suspended for.
const FATES: [Fate; 8] = [
    |writer| {
        writer.suspend();
        writer.finish_job();
    },
    |writer| {
        writer.suspend();
        let next = writer.rng.pick(&LONG_JOBS);
        writer.drop_by(next);
    },
    |writer| {
        writer.suspend();
        writer.reset();
    },
    |writer| {
        writer.suspend();
        writer.put(kind::POWER_CUT, 0);
    },
    |writer| writer.reset(),
    |writer| writer.put(kind::POWER_CUT, 0),
    |writer| {
        writer.frame(&[0xB0]);
        writer.look_at_wait();
        writer.reset();
    },
    |writer| {
        writer.frame(&[0xB0]);
        writer.look_at_wait();
        writer.put(kind::POWER_CUT, 0);
    },
];

/// Begins a job, lets it do k steps, and lets a fate come over it.
fn fate_after(writer: &mut Writer, class: Class, fate: Fate, k: u32) {
    writer.calm = true;
    if writer.chip.level > 0 {
        writer.write_status(0);
    }
    writer.begin(class);
    writer.ticks(k);
    fate(writer);
}
