// Tests that a job keeps WEN at 1: no frame in suspension meets WEN 0, and verdict 12 is unused.

use super::model::{verdict, Chip, Record};
use super::{alone, bytes_of, events_of, random_chip, random_script, refused, room_of};
use super::{run_in_room, used_bench, verdict_of, Bench, Dice};

/// A frame of the right length for every opcode that begins a program or erase.
const JOB_FRAMES: [&[u8]; 7] = [
    &[0x02, 0, 0x12, 0, 0x55],
    &[0x0A, 0, 0x12, 0xFF, 1, 2, 3],
    &[0x20, 0, 0x30, 0],
    &[0xD7, 0, 0, 0],
    &[0xD8, 0, 0x80, 0],
    &[0x60],
    &[0xC7],
];
/// Scripts that a legal state would run, each kind of event among them.
const SCRIPTS: [&[u8]; 11] = [
    &[],
    &[1],
    &[2, 0x20],
    &[3, 0],
    &[3, 5],
    &[4],
    &[5, 0, 9],
    &[6, 1],
    &[7],
    &[9, 0, 0],
    &[7, 1, 2, 0x06, 3, 0],
];
/// WEN in the status byte.
const WEN: u8 = 0x02;
/// SUS in the status byte.
const SUS: u8 = 0x40;

/// A bench on which the job of a frame runs.
fn running(bytes: &[u8]) -> Bench {
    let mut bench = used_bench(1, 0);
    assert_eq!(bench.frame(&[0x06]), 1);
    assert_eq!(bench.frame(bytes), 2);
    bench
}

/// A bench on which the job of a frame still has the step to do that its suspend waits for.
fn waiting(bytes: &[u8]) -> Bench {
    let mut bench = running(bytes);
    assert_eq!(bench.frame(&[0xB0]), 1);
    bench
}

/// A bench on which the job of a frame is suspended.
fn suspended(bytes: &[u8]) -> Bench {
    let mut bench = running(bytes);
    bench.suspend();
    bench
}

/// The bench with the bytes of a frame gone in.
fn opened(mut bench: Bench, bytes: &[u8]) -> Bench {
    bench.send(bytes);
    bench
}

/// Takes WEN from a legal chip in suspension and checks that every event and run is refused by 2.
fn check_refused_without_wen(mut bench: Bench) {
    assert!(bench.chip.suspended && bench.chip.legal(bench.memory.len()));
    bench.chip.wen = false;
    assert!(!bench.chip.legal(bench.memory.len()));
    for script in SCRIPTS {
        assert_eq!(refused(&mut bench, script, room_of(script)), (2, 0));
        for (kind, body) in events_of(script) {
            assert_eq!(alone(&mut bench, kind, body).refusal, 2, "{kind}");
        }
    }
}

#[test]
fn suspended_without_wen_is_refused_by_2() {
    for bench in JOB_FRAMES.map(suspended) {
        for bytes in JOB_FRAMES {
            check_refused_without_wen(opened(bench.clone(), bytes));
        }
        check_refused_without_wen(bench);
    }
}

#[test]
fn list_of_verdicts_has_8_where_it_had_12() {
    for bench in JOB_FRAMES.map(suspended) {
        for bytes in JOB_FRAMES {
            let mut chip = opened(bench.clone(), bytes).chip;
            chip.wen = false;
            // No event comes to ask this, the state not being legal.
            assert_eq!(verdict(&chip, Chip::SECTOR, false), 8);
        }
    }
}

#[test]
fn write_disable_is_turned_away_while_there_is_a_job() {
    let mut cases = vec![(running(&[0x01, 0x80]), 6)];
    for job in JOB_FRAMES {
        cases.extend([(running(job), 6), (waiting(job), 6), (suspended(job), 7)]);
    }
    for (mut bench, expected) in cases {
        let before = bench.chip.clone();
        assert_eq!(bench.frame(&[0x04]), expected);
        assert_eq!(bench.chip, before);
        assert_eq!(bench.status() & WEN, WEN);
        // Left to be judged at its end, as a legal state may have it, the frame does no more.
        bench.send(&[0x04]);
        bench.chip.frame.judgement = None;
        assert_eq!(bench.end(), expected);
        assert_eq!(bench.chip, before);
    }
}

#[test]
fn write_disable_begun_in_the_wait_and_ended_in_suspension() {
    for mut bench in JOB_FRAMES.map(waiting) {
        bench.send(&[0x04]);
        assert_eq!(bench.apply(4, 0), (Record::None, 1));
        assert_eq!(bench.end(), 6);
        assert_eq!(bench.status(), SUS | WEN);
    }
}

#[test]
fn job_frame_in_suspension_is_2_or_9_and_never_8() {
    for bench in JOB_FRAMES.map(suspended) {
        for bytes in JOB_FRAMES {
            assert_eq!(bench.clone().frame(bytes), 2);
            let mut protected = bench.clone();
            protected.chip.level = 7;
            assert_eq!(protected.frame(bytes), 9);
            assert_eq!(protected.status() & (SUS | WEN), SUS | WEN);
        }
    }
}

#[test]
fn what_clears_wen_takes_the_suspended_job() {
    for job in JOB_FRAMES {
        let [mut ended, mut reset, mut cut] = [(); 3].map(|_| suspended(job));
        assert_eq!(ended.frame(&[0x30]), 1);
        assert!(ended.chip.wen);
        ended.ticks(65_535);
        assert_eq!(reset.frame(&[0x66]), 1);
        assert!(reset.chip.wen);
        assert_eq!(reset.frame(&[0x99]), 1);
        cut.apply(7, 0);
        for mut bench in [ended, reset, cut] {
            assert_eq!(bench.chip, Chip::fresh(0));
            assert_eq!(bench.frame(job), 8);
        }
    }
}

/// How often random events have met suspension: in the state after them, and at the end of a frame
/// of at least one whole byte, by its verdict.
#[derive(Debug, Default)]
struct Met {
    states: usize,
    frames: [usize; 12],
}

impl Met {
    /// Checks and counts what an event has made of the state before it, and its record.
    fn take(&mut self, before: &Chip, after: &Chip, record: Record) {
        assert!(after.wen || !after.suspended);
        assert_ne!(after.status_byte() & (SUS | WEN), SUS);
        self.states += usize::from(after.suspended);
        if let Record::Verdict(_) | Record::Protected { .. } = record {
            let in_suspension = before.suspended && before.frame.byte_count > 0;
            self.frames[usize::from(verdict_of(record))] += usize::from(in_suspension);
        }
    }
}

#[test]
fn at_random_sus_comes_with_wen_and_verdicts_end_with_11() {
    let mut dice = Dice(12);
    let mut met = Met::default();
    let mut bench = used_bench(2, 0);
    for _ in 0..400 {
        bench.chip = random_chip(&mut dice, bench.memory.len());
        let script = random_script(&mut dice);
        let mut whole = bench.clone();
        let mut records = Vec::new();
        for (kind, body) in events_of(&script) {
            let before = bench.chip.clone();
            let (record, _) = bench.apply(kind, body);
            met.take(&before, &bench.chip, record);
            records.extend(bytes_of(record));
        }
        assert_eq!(run_in_room(&mut whole, &script, room_of(&script)), records);
    }
    let Met { states, frames } = met;
    assert!(states > 10_000 && frames.iter().sum::<usize>() > 2_000, "{states} {frames:?}");
    // Begun, turned away and protected, but never for want of WEN.
    assert!([2, 7, 9].iter().all(|verdict| frames[*verdict] > 50), "{frames:?}");
    assert_eq!(frames[8], 0);
}
