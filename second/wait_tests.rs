// Tests of the wait after an accepted suspend: the tick that still works, the mark and its end.

use super::model::{event, run, Chip, EventAnswer, Job, JobKind, Record, RunAnswer};
use super::{addressed, driven, mixed, program, random_chip, refused, used_bench};
use super::{Bench, Dice, OPCODES, RUNNING_YES, SECTORS};

/// Events of one tick or more, of which in the wait one alone can work.
const TICK_EVENTS: [(u64, u64); 4] = [(4, 0), (5, 1), (5, 2), (5, 65_535)];

/// A program or erase that can be suspended, over used cells of one sector.
struct Subject {
    frame: Vec<u8>,
    kind: JobKind,
    place: usize,
    steps: usize,
    step_bytes: usize,
    cells: Vec<u8>,
}

impl Subject {
    /// The job of a frame, with its place, its steps and the bytes of each given by hand.
    fn new(frame: Vec<u8>, kind: JobKind, place: usize, steps: [usize; 2]) -> Subject {
        let [steps, step_bytes] = steps;
        Subject { frame, kind, place, steps, step_bytes, cells: used_bench(1, 0).memory }
    }

    /// A bench on which the job has begun and done that many steps.
    fn begun(&self, steps_done: usize) -> Bench {
        let mut bench = Bench::new(1, 0);
        bench.memory.copy_from_slice(&self.cells);
        assert_eq!(bench.frame(&[0x06]), 1);
        assert_eq!(bench.frame(&self.frame), 2);
        for _ in 0..steps_done {
            assert_eq!(bench.apply(4, 0), (Record::None, 1));
        }
        bench
    }

    /// A bench on which a suspend of the job waits, that many steps being done.
    fn waiting(&self, steps_done: usize) -> Bench {
        let mut bench = self.begun(steps_done);
        assert_eq!(bench.frame(&[0xB0]), 1);
        bench
    }

    /// The state in which the job runs with that many steps done and no suspend waits.
    fn running_chip(&self, steps_done: usize) -> Chip {
        let (kind, place) = (self.kind.clone(), self.place as u32);
        let job = Some(Job { kind, place, steps_done: steps_done as u32 });
        Chip { wen: true, job, ..Chip::fresh(0) }
    }

    /// The state in which a suspend of the job waits.
    fn waiting_chip(&self, steps_done: usize) -> Chip {
        Chip { waiting: true, ..self.running_chip(steps_done) }
    }

    /// The state that the wait's tick leaves: suspended, or ended if its step was the last.
    fn chip_after_wait(&self, steps_done: usize) -> Chip {
        if steps_done == self.steps {
            return Chip::fresh(0);
        }
        Chip { suspended: true, ..self.running_chip(steps_done) }
    }

    /// Does the first steps of the job to cells, cell by cell.
    fn lay(&self, cells: &mut [u8], steps_done: usize) {
        for offset in 0..steps_done * self.step_bytes {
            let cell = &mut cells[self.place + offset];
            *cell = match &self.kind {
                JobKind::Program(load) => *cell & load[offset],
                _ => 0xFF,
            };
        }
    }

    /// Checks the whole state, and that the memory has exactly that many steps in it.
    fn check(&self, bench: &Bench, chip: &Chip, steps_done: usize) {
        let mut cells = self.cells.clone();
        self.lay(&mut cells, steps_done);
        assert_eq!(bench.chip, *chip);
        assert!(bench.memory == cells, "{:02X} {steps_done}", self.frame[0]);
    }

    /// Checks that the wait is over and has done one step, that many being done now.
    fn check_after_wait(&self, bench: &Bench, steps_done: usize) {
        self.check(bench, &self.chip_after_wait(steps_done), steps_done);
    }

    /// One of two numbers: that of a wait which ends in suspension, or of one which ends the job.
    fn by_end(&self, steps_done: usize, suspended: u8, ended: u8) -> u8 {
        if steps_done == self.steps { ended } else { suspended }
    }
}

/// The jobs of every opcode that begins a program or erase.
fn subjects() -> Vec<Subject> {
    let data = mixed(256);
    let load = JobKind::Program(data[..].try_into().unwrap());
    let small = JobKind::SmallSectorErase;
    vec![
        Subject::new(addressed(0x02, 0x1200, &data), load.clone(), 0x1200, [16, 16]),
        Subject::new(addressed(0x0A, 0xFF00, &data), load, 0xFF00, [16, 16]),
        Subject::new(addressed(0x20, 0x3456, &[]), small.clone(), 0x3000, [16, 256]),
        Subject::new(addressed(0xD7, 0xFFFF, &[]), small, 0xF000, [16, 256]),
        Subject::new(addressed(0xD8, 0x89AB, &[]), JobKind::SectorErase, 0, [256, 256]),
        Subject::new(vec![0x60], JobKind::ChipErase, 0, [256, 256]),
        Subject::new(vec![0xC7], JobKind::ChipErase, 0, [256, 256]),
    ]
}

/// Shows a check every such job with every number of steps that it can have done.
fn at_every_step(check: impl Fn(&Subject, usize)) {
    for subject in subjects() {
        for done in 0..subject.steps {
            check(&subject, done);
        }
    }
}

/// Shows a check what a bench in the wait becomes by each way to let its tick pass.
fn after_the_tick(waiting: &Bench, check: impl Fn(Bench)) {
    for (kind, body) in TICK_EVENTS {
        let mut bench = waiting.clone();
        assert_eq!(bench.apply(kind, body), (Record::None, 1));
        check(bench);
    }
}

#[test]
fn each_step_shows_in_the_cells() {
    at_every_step(|subject, done| {
        let [mut before, mut after] = [subject.cells.clone(), subject.cells.clone()];
        subject.lay(&mut before, done);
        subject.lay(&mut after, done + 1);
        assert!(before != after, "{:02X} {done}", subject.frame[0]);
    });
}

#[test]
fn example_of_a_program_with_3_steps_done() {
    let program = &subjects()[0];
    let mut bench = program.waiting(3);
    assert_eq!(bench.apply(4, 0), (Record::None, 1));
    assert_eq!(bench.chip.job.as_ref().map(|job| job.steps_done), Some(4));
    assert!(bench.chip.suspended && !bench.chip.waiting);
    assert_eq!(bench.status(), 0x42);
    program.check_after_wait(&bench, 4);
}

#[test]
fn example_of_a_program_with_15_steps_done() {
    let program = &subjects()[0];
    let mut bench = program.waiting(15);
    assert_eq!(bench.apply(4, 0), (Record::None, 1));
    assert_eq!(bench.chip.job, None);
    assert!(!bench.chip.suspended && !bench.chip.waiting && !bench.chip.wen);
    assert_eq!(bench.status(), 0x00);
    program.check_after_wait(&bench, 16);
}

#[test]
fn suspend_waits_for_one_tick_at_every_step() {
    at_every_step(|subject, done| {
        let waiting = subject.waiting(done);
        subject.check(&waiting, &subject.waiting_chip(done), done);
        after_the_tick(&waiting, |mut bench| {
            subject.check_after_wait(&bench, done + 1);
            assert_eq!(bench.apply(4, 0), (Record::None, 0));
            assert_eq!(bench.ticks(65_535), 0);
            subject.check_after_wait(&bench, done + 1);
        });
    });
}

#[test]
fn without_a_suspend_no_tick_is_held_back() {
    at_every_step(|subject, done| {
        let mut bench = subject.begun(done);
        let left = subject.steps - done;
        if left > 1 {
            assert_eq!(bench.ticks(left as u64 - 1), left as u64 - 1);
            subject.check(&bench, &subject.running_chip(subject.steps - 1), subject.steps - 1);
        }
        assert_eq!(bench.ticks(65_535), 1);
        subject.check(&bench, &Chip::fresh(0), subject.steps);
    });
}

#[test]
fn status_in_the_wait_and_after_its_tick() {
    at_every_step(|subject, done| {
        let mut bench = subject.waiting(done);
        let after = subject.by_end(done + 1, 0x42, 0x00);
        assert_eq!(bench.status(), 0x03);
        let in_the_wait = bench.send(&[0x05, 0, 0]);
        assert_eq!(in_the_wait[1..], [Record::Driven(0x03); 2]);
        assert_eq!(bench.apply(4, 0), (Record::None, 1));
        assert_eq!(bench.apply(2, 0).0, Record::Driven(after));
        assert_eq!(bench.end(), 0);
        assert_eq!(bench.status(), after);
        subject.check_after_wait(&bench, done + 1);
    });
}

#[test]
fn commands_in_the_wait_by_the_table() {
    let verdict = |opcode: u8| match opcode {
        0x05 => 0,
        0x66 => 1,
        0xB0 | 0x99 => 11,
        _ => 6,
    };
    for subject in subjects() {
        let waiting = subject.waiting(3);
        for opcode in OPCODES {
            let mut bench = waiting.clone();
            assert_eq!(verdict(opcode) == 6, !RUNNING_YES.contains(&opcode));
            assert_eq!(bench.frame(&[opcode]), verdict(opcode), "{opcode:02X}");
            let armed = opcode == 0x66;
            subject.check(&bench, &Chip { armed, ..subject.waiting_chip(3) }, 3);
            assert_eq!(bench.ticks(9), 1);
            subject.check(&bench, &Chip { armed, ..subject.chip_after_wait(4) }, 4);
        }
        let mut bench = waiting.clone();
        assert_eq!(bench.frame(&[0x00]), 3);
        subject.check(&bench, &subject.waiting_chip(3), 3);
    }
}

#[test]
fn second_suspend_in_the_wait() {
    at_every_step(|subject, done| {
        let mut bench = subject.waiting(done);
        assert_eq!(bench.frame(&[0xB0]), 11);
        assert_eq!(bench.frame(&[0xB0]), 11);
        assert_eq!(bench.frame(&[0xB0, 0]), 4);
        bench.send(&[0xB0]);
        assert_eq!(bench.end_loose(), 4);
        subject.check(&bench, &subject.waiting_chip(done), done);
        assert_eq!(bench.ticks(65_535), 1);
        subject.check_after_wait(&bench, done + 1);
        assert_eq!(bench.frame(&[0xB0]), subject.by_end(done + 1, 7, 11));
        subject.check_after_wait(&bench, done + 1);
    });
}

#[test]
fn spoiled_suspend_sets_no_mark() {
    at_every_step(|subject, done| {
        let mut bench = subject.begun(done);
        assert_eq!(bench.frame(&[0xB0, 0xB0]), 4);
        bench.send(&[0xB0]);
        assert_eq!(bench.end_loose(), 4);
        bench.send(&[]);
        assert_eq!(bench.end_loose(), 0);
        subject.check(&bench, &subject.running_chip(done), done);
        assert_eq!(bench.ticks(65_535), (subject.steps - done) as u64);
        subject.check(&bench, &Chip::fresh(0), subject.steps);
    });
}

#[test]
fn suspend_frame_of_the_wait_open_while_the_tick_falls() {
    at_every_step(|subject, done| {
        let mut open = subject.waiting(done);
        assert_eq!(open.send(&[0xB0]), [Record::Floating]);
        assert_eq!(open.chip.frame.judgement, None);
        after_the_tick(&open, |mut bench| {
            let mut loose = bench.clone();
            assert_eq!(bench.end(), subject.by_end(done + 1, 7, 11));
            subject.check_after_wait(&bench, done + 1);
            assert_eq!(loose.end_loose(), subject.by_end(done + 1, 7, 4));
            subject.check_after_wait(&loose, done + 1);
        });
        assert_eq!(open.apply(4, 0), (Record::None, 1));
        assert_eq!(open.apply(2, 0), (Record::Floating, 0));
        assert_eq!(open.end(), subject.by_end(done + 1, 7, 4));
        subject.check_after_wait(&open, done + 1);
    });
}

#[test]
fn first_suspend_frame_open_while_the_tick_falls() {
    at_every_step(|subject, done| {
        let mut bench = subject.begun(done);
        bench.send(&[0xB0]);
        assert_eq!(bench.apply(4, 0), (Record::None, 1));
        if done + 1 == subject.steps {
            assert_eq!(bench.end(), 11);
            return subject.check(&bench, &Chip::fresh(0), subject.steps);
        }
        assert_eq!(bench.end(), 1);
        subject.check(&bench, &subject.waiting_chip(done + 1), done + 1);
        assert_eq!(bench.ticks(65_535), 1);
        subject.check_after_wait(&bench, done + 2);
    });
}

#[test]
fn resume_in_the_wait() {
    at_every_step(|subject, done| {
        let mut bench = subject.waiting(done);
        assert_eq!(bench.frame(&[0x30]), 6);
        subject.check(&bench, &subject.waiting_chip(done), done);
        bench.send(&[0x30]);
        assert_eq!(bench.apply(4, 0), (Record::None, 1));
        assert_eq!(bench.end(), 6);
        subject.check_after_wait(&bench, done + 1);
        assert_eq!(bench.frame(&[0x30]), subject.by_end(done + 1, 1, 11));
    });
}

#[test]
fn frame_begun_in_the_wait_floats_to_its_end() {
    for subject in subjects() {
        for done in [0, subject.steps - 2, subject.steps - 1] {
            let waiting = subject.waiting(done);
            for opcode in OPCODES.iter().filter(|opcode| !RUNNING_YES.contains(opcode)) {
                let mut open = waiting.clone();
                assert_eq!(open.send(&[*opcode, 0]), [Record::Floating; 2]);
                after_the_tick(&open, |mut bench| {
                    assert_eq!(bench.send(&[0; 8]), [Record::Floating; 8]);
                    assert_eq!(bench.clone().end_loose(), 6);
                    assert_eq!(bench.end(), 6);
                    subject.check_after_wait(&bench, done + 1);
                });
            }
        }
    }
}

#[test]
fn cell_read_begun_in_the_wait() {
    at_every_step(|subject, done| {
        for opcode in [0x03, 0x0B] {
            let mut bench = subject.waiting(done);
            assert_eq!(bench.send(&addressed(opcode, 0, &[0; 3])), [Record::Floating; 7]);
            assert_eq!(bench.apply(4, 0), (Record::None, 1));
            assert_eq!(bench.send(&[0; 3]), [Record::Floating; 3]);
            assert_eq!(bench.end(), 6);
            subject.check_after_wait(&bench, done + 1);
            assert_eq!(driven(&bench.read(0x1200, 300)), bench.memory[0x1200..][..300]);
        }
    });
}

#[test]
fn job_frame_begun_in_the_wait_begins_nothing() {
    for subject in subjects() {
        for begun_in_wait in subjects() {
            for done in [0, subject.steps - 1] {
                let mut bench = subject.waiting(done);
                bench.send(&begun_in_wait.frame);
                assert_eq!(bench.apply(4, 0), (Record::None, 1));
                assert_eq!(bench.end(), 6);
                subject.check_after_wait(&bench, done + 1);
                assert_eq!(bench.ticks(65_535), 0);
            }
        }
    }
}

#[test]
fn write_status_knows_no_wait() {
    for ticks in TICK_EVENTS {
        let mut bench = Bench::new(1, 0);
        bench.frame(&[0x06]);
        assert_eq!(bench.frame(&[0x01, 0xBC]), 2);
        let begun = bench.chip.clone();
        assert_eq!(bench.frame(&[0xB0]), 11);
        assert_eq!(bench.chip, begun);
        assert!(!bench.chip.waiting);
        bench.send(&[0xB0]);
        assert_eq!(bench.apply(ticks.0, ticks.1), (Record::None, 1));
        assert_eq!(bench.end(), 11);
        assert_eq!(bench.chip, Chip::fresh(0xBC));
    }
}

/// A bench in the wait whose TB, SRWP and low WP are to outlast the job.
fn waiting_with_kept_bits(subject: &Subject, done: usize) -> Bench {
    let mut bench = subject.waiting(done);
    (bench.chip.tb, bench.chip.srwp) = (true, true);
    bench.apply(6, 0);
    assert_eq!(bench.status(), 0xA3);
    bench
}

/// The state that a reset or power cut leaves of such a bench.
fn kept_bits() -> Chip {
    Chip { wp_high: false, ..Chip::fresh(0xA0) }
}

#[test]
fn reset_in_the_wait() {
    at_every_step(|subject, done| {
        let mut bench = waiting_with_kept_bits(subject, done);
        assert_eq!(bench.frame(&[0x66]), 1);
        assert!(bench.chip.waiting && bench.chip.armed);
        assert_eq!(bench.frame(&[0x99]), 1);
        subject.check(&bench, &kept_bits(), done);
        assert_eq!(bench.status(), 0xA0);
        assert_eq!(bench.ticks(65_535), 0);
        subject.check(&bench, &kept_bits(), done);
    });
}

#[test]
fn reset_after_the_tick_of_the_wait() {
    at_every_step(|subject, done| {
        let mut armed = waiting_with_kept_bits(subject, done);
        assert_eq!(armed.frame(&[0x66]), 1);
        let mut open = armed.clone();
        open.send(&[0x99]);
        for mut bench in [armed, open] {
            assert_eq!(bench.ticks(65_535), 1);
            if !bench.chip.selected {
                bench.send(&[0x99]);
            }
            assert_eq!(bench.end(), 1);
            subject.check(&bench, &kept_bits(), done + 1);
        }
    });
}

#[test]
fn unarmed_reset_in_the_wait_clears_nothing() {
    at_every_step(|subject, done| {
        let mut bench = subject.waiting(done);
        assert_eq!(bench.frame(&[0x99]), 11);
        subject.check(&bench, &subject.waiting_chip(done), done);
        bench.frame(&[0x66]);
        assert_eq!(bench.frame(&[0xB0]), 11);
        assert_eq!(bench.frame(&[0x99]), 11);
        subject.check(&bench, &subject.waiting_chip(done), done);
    });
}

#[test]
fn power_cut_in_the_wait() {
    at_every_step(|subject, done| {
        let frames: [&[u8]; 5] = [&[], &[0xB0], &[0x05, 0], &[0x66], &[0x02, 1, 2, 3, 4]];
        for bytes in frames {
            let mut bench = waiting_with_kept_bits(subject, done);
            bench.frame(&[0x66]);
            bench.send(bytes);
            assert_eq!(bench.apply(7, 0), (Record::None, 0));
            subject.check(&bench, &kept_bits(), done);
            assert_eq!(bench.ticks(65_535), 0);
            subject.check(&bench, &kept_bits(), done);
        }
    });
}

#[test]
fn mark_does_not_outlast_its_job() {
    let next = &subjects()[0];
    for subject in subjects() {
        let last = subject.steps - 1;
        let mut ended = subject.waiting(last);
        ended.ticks(1);
        let mut reset = subject.waiting(last);
        reset.frame(&[0x66]);
        reset.frame(&[0x99]);
        let mut cut = subject.waiting(last);
        cut.apply(7, 0);
        for mut bench in [ended, reset, cut] {
            assert_eq!(bench.frame(&[0x06]), 1);
            assert_eq!(bench.frame(&next.frame), 2);
            assert_eq!(bench.chip, next.running_chip(0));
            assert_eq!(bench.ticks(65_535), 16);
            assert_eq!(bench.chip, Chip::fresh(0));
        }
    }
}

#[test]
fn job_begun_in_suspension_has_no_mark() {
    for old in subjects() {
        for new in subjects() {
            let mut bench = old.waiting(5);
            bench.ticks(1);
            old.check_after_wait(&bench, 6);
            let mut cells = bench.memory.clone();
            assert_eq!(bench.frame(&new.frame), 2);
            assert_eq!(bench.chip, new.running_chip(0));
            assert_eq!(bench.ticks(7), 7);
            assert_eq!(bench.frame(&[0xB0]), 1);
            assert_eq!(bench.chip, new.waiting_chip(7));
            assert_eq!(bench.ticks(7), 1);
            assert_eq!(bench.chip, new.chip_after_wait(8));
            new.lay(&mut cells, 8);
            assert!(bench.memory == cells);
        }
    }
}

#[test]
fn resume_goes_on_with_the_next_step() {
    at_every_step(|subject, done| {
        if done + 1 == subject.steps {
            return;
        }
        let mut bench = subject.waiting(done);
        assert_eq!(bench.ticks(65_535), 1);
        assert_eq!(bench.frame(&[0x30]), 1);
        subject.check(&bench, &subject.running_chip(done + 1), done + 1);
        let mut again = bench.clone();
        let left = (subject.steps - done - 1) as u64;
        assert_eq!(bench.ticks(65_535), left);
        subject.check(&bench, &Chip::fresh(0), subject.steps);
        assert_eq!(again.frame(&[0xB0]), 1);
        assert_eq!(again.ticks(65_535), 1);
        subject.check_after_wait(&again, done + 2);
    });
}

#[test]
fn suspended_and_resumed_at_every_step() {
    for subject in subjects() {
        let mut bench = subject.begun(0);
        for done in 0..subject.steps {
            assert_eq!(bench.frame(&[0xB0]), 1);
            assert_eq!(bench.ticks(65_535), 1);
            subject.check_after_wait(&bench, done + 1);
            assert_eq!(bench.frame(&[0x30]), subject.by_end(done + 1, 1, 11));
        }
        subject.check(&bench, &Chip::fresh(0), subject.steps);
    }
}

#[test]
fn wp_in_the_wait_changes_wp_alone() {
    for subject in subjects() {
        for wp_high in [false, true] {
            let mut bench = subject.waiting(9);
            bench.chip.srwp = true;
            assert_eq!(bench.apply(6, u64::from(wp_high)), (Record::None, 0));
            let kept = |chip: Chip| Chip { srwp: true, wp_high, ..chip };
            subject.check(&bench, &kept(subject.waiting_chip(9)), 9);
            assert_eq!(bench.ticks(65_535), 1);
            subject.check(&bench, &kept(subject.chip_after_wait(10)), 10);
        }
    }
}

/// Each kind of job, or none, with whether it can be suspended.
fn job_kinds() -> [(Option<JobKind>, bool); 6] {
    [
        (None, false),
        (Some(JobKind::WriteStatus(0xFF)), false),
        (Some(JobKind::Program([0x0F; 256])), true),
        (Some(JobKind::SmallSectorErase), true),
        (Some(JobKind::SectorErase), true),
        (Some(JobKind::ChipErase), true),
    ]
}

/// A state with a job of that kind, if any, at its begin.
fn chip_with(kind: Option<JobKind>) -> Chip {
    let wen = kind.is_some();
    let job = kind.map(|kind| Job { kind, place: 0, steps_done: 0 });
    Chip { wen, job, ..Chip::fresh(0) }
}

/// States that only the mark keeps from being legal: no job, a write status, a job suspended.
fn bad_marks() -> Vec<Chip> {
    let deep = Chip { deep: true, ..Chip::fresh(0) };
    let enabled = Chip { wen: true, ..Chip::fresh(0) };
    let mut chips = vec![deep, enabled];
    for (kind, suspended) in job_kinds() {
        chips.push(Chip { suspended, ..chip_with(kind) });
    }
    assert!(chips.iter().all(|chip| chip.legal(Chip::SECTOR)));
    chips.into_iter().map(|chip| Chip { waiting: true, ..chip }).collect()
}

#[test]
fn fresh_has_no_mark() {
    for status in 0..=255 {
        assert!(!Chip::fresh(status).waiting);
    }
}

#[test]
fn mark_is_legal_only_with_a_running_program_or_erase() {
    for length in SECTORS.map(|sectors| sectors * Chip::SECTOR) {
        let mut legal_marks = 0;
        for (number, (kind, suspendable)) in (0..64).flat_map(|n| job_kinds().map(|k| (n, k))) {
            let flag = |bit: usize| number >> bit & 1 == 1;
            let mut chip = chip_with(kind);
            (chip.wen, chip.wp_high, chip.deep) = (flag(0), flag(1), flag(2));
            (chip.armed, chip.selected, chip.suspended) = (flag(3), flag(4), flag(5));
            let legal = chip.legal(length) && suspendable && !chip.suspended;
            chip.waiting = true;
            assert_eq!(chip.legal(length), legal, "{chip:?}");
            legal_marks += usize::from(legal);
        }
        // WP, arming and select are free; WEN, awake and SUS 0 are not.
        assert_eq!(legal_marks, 4 * 2 * 2 * 2);
    }
}

#[test]
fn mark_is_legal_to_the_last_step() {
    at_every_step(|subject, done| assert!(subject.waiting_chip(done).legal(Chip::SECTOR)));
    for subject in subjects() {
        assert!(!subject.waiting_chip(subject.steps).legal(Chip::SECTOR));
    }
}

#[test]
fn bad_mark_is_refused_alone_and_changes_nothing() {
    for chip in bad_marks() {
        let mut bench = used_bench(1, 0);
        bench.chip = chip.clone();
        let before = bench.clone();
        for kind in 0..=10 {
            let answer = event(&mut bench.chip, &mut bench.memory, &bench.area, kind, 1);
            assert_eq!(answer, EventAnswer { refusal: 2, record: Record::None, ticks: 0 });
            assert!(bench.chip == chip && bench.memory == before.memory);
        }
    }
}

#[test]
fn bad_mark_is_refused_in_a_run_and_changes_nothing() {
    let scripts: [&[u8]; 7] =
        [&[], &[4], &[5, 0, 9], &[7], &[1, 2, 0xB0, 3, 0], &[10], &[4; 65_537]];
    for chip in bad_marks() {
        let mut bench = used_bench(1, 0);
        bench.chip = chip;
        for script in scripts {
            assert_eq!(refused(&mut bench, script, 0), (2, 0));
            assert_eq!(refused(&mut bench, script, 20), (2, 0));
        }
        bench.area.resize(257, 0);
        assert_eq!(refused(&mut bench, &[4], 0), (13, 0));
        bench.memory.pop();
        assert_eq!(refused(&mut bench, &[4], 0), (1, 0));
    }
}

#[test]
fn wait_in_a_run() {
    for (done, after, ticks) in [(3, 0x42, 4), (15, 0x00, 16)] {
        let mut script = vec![1, 2, 0x06, 3, 0, 1, 2, 0x02, 2, 0, 2, 0, 2, 0, 2, 0x55, 3, 0];
        script.extend([5, 0, done, 1, 2, 0xB0, 3, 0, 1, 2, 0xB0, 3, 0, 1, 2, 0x30, 3, 0]);
        script.extend([1, 2, 0x05, 2, 0, 4, 2, 0, 3, 0, 4, 5, 0xFF, 0xFF]);
        let mut expected = vec![0x80, 0x82, 1, 0x80, 0x80, 0x80, 0x80, 0x80, 0x82, 2];
        expected.extend([0x80, 0x82, 1, 0x80, 0x82, 11, 0x80, 0x82, 6]);
        expected.extend([0x80, 0x81, 0x03, 0x81, after, 0x82, 0]);
        let mut bench = Bench::new(1, 0);
        let mut output = [0xEE; 64];
        let answer = run(&mut bench.chip, &mut bench.memory, &bench.area, &script, &mut output);
        let written = expected.len();
        assert_eq!(answer, RunAnswer { refusal: 0, offset: 0, written, ticks });
        assert_eq!(output[..written], expected);
        assert_eq!(bench.chip.status_byte(), after);
        let text = program::report(&script);
        let end = format!("\n39 03\n42 {after:02X}\n44 V0\nanswer 0 ticks {ticks}\n");
        assert!(text.ends_with(&end), "{text}");
    }
}

#[test]
fn ticks_of_one_event_are_ticks_one_by_one() {
    let mut dice = Dice(7);
    let (mut suspended, mut ended) = (0, 0);
    for _ in 0..6_000 {
        let mut many = used_bench(2, 0);
        many.chip = random_chip(&mut dice, many.memory.len());
        let mut single = many.clone();
        let waited = many.chip.waiting;
        let count = 1 + dice.below_one_of(&[3, 30, 600]);
        let (_, ticks) = many.apply(5, count);
        assert_eq!(ticks, (0..count).map(|_| single.apply(4, 0).1).sum());
        assert!(many.chip == single.chip && many.memory == single.memory);
        assert!(!many.chip.waiting);
        suspended += usize::from(waited && many.chip.suspended);
        ended += usize::from(waited && many.chip.job.is_none());
    }
    assert!(suspended > 100 && ended > 20, "{suspended} {ended}");
}

/// A job by the rules read off one after another: the steps left of it, the mark and SUS.
struct PlainJob {
    steps_left: usize,
    waiting: bool,
    suspended: bool,
}

impl PlainJob {
    /// A job of that many steps, just begun.
    fn begun(steps: usize) -> PlainJob {
        PlainJob { steps_left: steps, waiting: false, suspended: false }
    }

    /// One tick, and whether it works.
    fn tick(&mut self) -> bool {
        if self.suspended || self.steps_left == 0 {
            return false;
        }
        self.steps_left -= 1;
        self.suspended = self.waiting && self.steps_left > 0;
        self.waiting = false;
        true
    }

    /// A whole B0h or 30h frame, and its verdict.
    fn frame(&mut self, opcode: u8) -> u8 {
        let verdict = match (opcode, self.steps_left, self.suspended) {
            (_, 0, _) => 11,
            (0xB0, _, true) => 7,
            (0xB0, _, false) if self.waiting => 11,
            (0x30, _, false) => 6,
            _ => 1,
        };
        if verdict == 1 {
            self.waiting = opcode == 0xB0;
            self.suspended = false;
        }
        verdict
    }
}

#[test]
fn working_ticks_of_random_suspends_and_resumes() {
    let mut dice = Dice(8);
    for subject in subjects() {
        for _ in 0..60 {
            let mut bench = subject.begun(0);
            let mut plain = PlainJob::begun(subject.steps);
            for _ in 0..40 {
                let opcode = [0xB0, 0x30][dice.below(2) as usize];
                assert_eq!(bench.frame(&[opcode]), plain.frame(opcode));
                let count = 1 + dice.below_one_of(&[1, 2, 20]);
                let worked = (0..count).filter(|_| plain.tick()).count();
                assert_eq!(bench.ticks(count), worked as u64);
                let chip = &bench.chip;
                let marks = (chip.waiting, chip.suspended, chip.job.is_some());
                assert_eq!(marks, (plain.waiting, plain.suspended, plain.steps_left > 0));
            }
            subject.check(&bench, &bench.chip, subject.steps - plain.steps_left);
        }
    }
}
