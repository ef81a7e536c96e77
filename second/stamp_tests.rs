// Tests of the bench's stamps and of the margin report that a run can carry on.

use super::model::{event, run, run_with_report};
use super::model::{Chip, EventAnswer, Job, JobKind, Line, Record, RunAnswer};
use super::{addressed, bytes_of, events_of, program, random_script, refused, room_of};
use super::{run_in_room, used_bench, Bench, Dice, REAL, SAMPLE, SECTORS};

/// The lines of a report and their allowances, by their places.
const WRITE_STATUS: usize = 0;
const PROGRAM: usize = 1;
const SMALL_SECTOR: usize = 2;
const SECTOR: usize = 3;
const CHIP: usize = 4;

/// A frame that begins a small sector erase, a job of 16 steps.
const ERASE: [u8; 4] = [0x20, 0, 0x30, 0];
/// The frame of every opcode that begins a job, its line and its steps on a one-sector part.
const JOBS: [(&[u8], usize, u64); 8] = [
    (&[0x01, 0x80], WRITE_STATUS, 1),
    (&[0x02, 0, 0x12, 0, 0x55], PROGRAM, 16),
    (&[0x0A, 0, 0x12, 0xFF, 1, 2, 3], PROGRAM, 16),
    (&ERASE, SMALL_SECTOR, 16),
    (&[0xD7, 0, 0, 0], SMALL_SECTOR, 16),
    (&[0xD8, 0, 0x80, 0], SECTOR, 256),
    (&[0x60], CHIP, 256),
    (&[0xC7], CHIP, 256),
];

/// A line without a job.
const NO_JOBS: Line = Line { count: 0, smallest: 0, largest: 0 };
/// A report without a job.
const EMPTY: [Line; 5] = [NO_JOBS; 5];
/// A report in which every number is odd: counts of 0 with margins, crossed and extreme margins.
const ODD: [Line; 5] = [
    Line { count: 0, smallest: 7, largest: -7 },
    Line { count: 3, smallest: 50, largest: -50 },
    Line { count: u32::MAX, smallest: i32::MIN, largest: i32::MAX },
    Line { count: 0, smallest: i32::MAX, largest: i32::MIN },
    Line { count: 1, smallest: i32::MAX, largest: i32::MIN },
];
/// Allowances that make a margin the ticks used, taken from 0.
const NOTHING: [u32; 5] = [0; 5];

/// The script of a stamp.
fn stamp(counter: u16) -> Vec<u8> {
    [&[9], &counter.to_be_bytes()[..]].concat()
}

/// The script of one event of that many ticks.
fn ticks(count: u16) -> Vec<u8> {
    [&[5], &count.to_be_bytes()[..]].concat()
}

/// The script of a whole frame.
fn frame(bytes: &[u8]) -> Vec<u8> {
    let mut script = vec![1];
    script.extend(bytes.iter().flat_map(|byte| [2, *byte]));
    script.extend([3, 0]);
    script
}

/// The script of a write enable and a frame that begins a job.
fn begin(bytes: &[u8]) -> Vec<u8> {
    [frame(&[0x06]), frame(bytes)].concat()
}

/// The script of an armed reset.
fn reset() -> Vec<u8> {
    [frame(&[0x66]), frame(&[0x99])].concat()
}

/// Runs a good script in exactly its room and gives its working ticks.
fn working(bench: &mut Bench, script: &[u8]) -> u64 {
    let mut output = vec![0; room_of(script)];
    let answer = run(&mut bench.chip, &mut bench.memory, &bench.area, script, &mut output);
    assert_eq!((answer.refusal, answer.offset), (0, 0));
    answer.ticks
}

/// A bench on which an erase of 16 steps has begun.
fn erasing() -> Bench {
    let mut bench = used_bench(1, 0);
    assert_eq!(working(&mut bench, &begin(&ERASE)), 0);
    bench
}

/// The working ticks of a script while an erase of 16 steps has just begun.
fn worked(script: &[u8]) -> u64 {
    working(&mut erasing(), script)
}

/// Runs a script with a report and checks that all but the report is as in the plain run.
fn reported(
    bench: &mut Bench,
    script: &[u8],
    allowances: &[u32; 5],
    report: &mut [Line; 5],
) -> RunAnswer {
    let mut plain = bench.clone();
    let mut output = vec![0xEE; script.len() * 2];
    let mut plain_output = output.clone();
    let Bench { chip, memory, area } = bench;
    let answer = run_with_report(chip, memory, area, script, &mut output, allowances, report);
    let Bench { chip, memory, area } = &mut plain;
    assert_eq!(run(chip, memory, area, script, &mut plain_output), answer);
    assert!(output == plain_output && *chip == bench.chip && *memory == bench.memory);
    answer
}

/// Carries a report over a script that must be done.
fn carried(
    bench: &mut Bench,
    script: &[u8],
    allowances: &[u32; 5],
    mut report: [Line; 5],
) -> [Line; 5] {
    let answer = reported(bench, script, allowances, &mut report);
    assert_eq!((answer.refusal, answer.offset), (0, 0));
    report
}

/// The report of a good script on a fresh part without allowances.
fn report_of(script: &[u8]) -> [Line; 5] {
    carried(&mut used_bench(1, 0), script, &NOTHING, EMPTY)
}

/// A report in which one line alone has a job.
fn only(place: usize, line: Line) -> [Line; 5] {
    let mut report = EMPTY;
    report[place] = line;
    report
}

/// The line of one job with that margin.
fn one(margin: i32) -> Line {
    Line { count: 1, smallest: margin, largest: margin }
}

/// The ticks used of an erase of 16 steps that begins and must end in a script, those events being
/// what comes after its begin.
fn used(after: &[u8]) -> i32 {
    let report = report_of(&[&begin(&ERASE)[..], after].concat());
    let used = -report[SMALL_SECTOR].smallest;
    assert_eq!(report, only(SMALL_SECTOR, one(-used)));
    used
}

#[test]
fn first_stamp_only_sets_the_clock() {
    for counter in [0, 1, 16, 255, 256, 32_767, 32_768, 65_535] {
        let mut bench = erasing();
        let before = bench.clone();
        assert_eq!(working(&mut bench, &stamp(counter)), 0);
        assert!(bench.chip == before.chip && bench.memory == before.memory);
    }
}

#[test]
fn later_stamps_give_the_move_as_ticks() {
    for moved in 0..=20 {
        let mut by_stamp = erasing();
        let mut by_ticks = erasing();
        let script = [stamp(1_000), stamp(1_000 + moved)].concat();
        let ticks_alone = vec![4; usize::from(moved)];
        assert_eq!(working(&mut by_stamp, &script), u64::from(moved.min(16)));
        assert_eq!(working(&mut by_ticks, &ticks_alone), u64::from(moved.min(16)));
        assert!(by_stamp.chip == by_ticks.chip && by_stamp.memory == by_ticks.memory);
    }
}

#[test]
fn high_byte_of_a_stamp_comes_first() {
    assert_eq!(worked(&[9, 1, 0, 9, 1, 3]), 3);
    assert_eq!(worked(&[9, 0, 255, 9, 1, 1]), 2);
    assert_eq!(refused(&mut erasing(), &[9, 1, 0, 9, 0, 3], 0), (8, 3));
}

#[test]
fn counter_rolls_over() {
    assert_eq!(worked(&[stamp(65_535), stamp(0)].concat()), 1);
    assert_eq!(worked(&[stamp(65_534), stamp(1)].concat()), 3);
    assert_eq!(worked(&[stamp(65_530), stamp(65_535), stamp(4)].concat()), 10);
    assert_eq!(worked(&[stamp(40_000), stamp(7_231)].concat()), 16);
}

#[test]
fn equal_stamp_gives_no_tick() {
    for counter in [0, 1, 32_768, 65_535] {
        assert_eq!(worked(&stamp(counter).repeat(30)), 0);
        let moved = counter.wrapping_add(2);
        let script = [stamp(counter), stamp(moved), stamp(moved), stamp(moved)].concat();
        assert_eq!(worked(&script), 2);
    }
}

#[test]
fn equal_stamp_leaves_the_wait_after_a_suspend() {
    let mut bench = erasing();
    let script = [frame(&[0xB0]), stamp(5), stamp(5)].concat();
    assert_eq!(working(&mut bench, &script), 0);
    assert!(bench.chip.waiting && !bench.chip.suspended);
    assert_eq!(working(&mut bench, &[stamp(5), stamp(5), stamp(6)].concat()), 1);
    assert!(bench.chip.suspended && !bench.chip.waiting);
}

#[test]
fn counter_back_by_one_is_refused_by_8() {
    for counter in [0u16, 1, 9, 32_768, 65_535] {
        let back = counter.wrapping_sub(1);
        let script = [stamp(counter), stamp(back)].concat();
        assert_eq!(refused(&mut erasing(), &script, 0), (8, 3));
    }
}

#[test]
fn move_of_32767_is_good_and_32768_is_refused_by_8() {
    for counter in [0u16, 1, 32_767, 32_768, 40_000, 65_535] {
        let script = [stamp(counter), stamp(counter.wrapping_add(32_767))].concat();
        assert_eq!(worked(&script), 16);
        let script = [stamp(counter), stamp(counter.wrapping_add(32_768))].concat();
        assert_eq!(refused(&mut erasing(), &script, 0), (8, 3));
    }
}

#[test]
fn every_move_is_good_or_refused_by_8() {
    let Bench { mut chip, mut memory, .. } = used_bench(1, 0);
    for from in [0, 1, 32_767, 32_768, 65_535] {
        for moved in 0..=65_535 {
            let to = ((u32::from(from) + moved) % 65_536) as u16;
            let script = [stamp(from), stamp(to)].concat();
            let answer = run(&mut chip, &mut memory, &[], &script, &mut []);
            let good = moved < 32_768;
            assert_eq!((answer.refusal, answer.offset), if good { (0, 0) } else { (8, 3) });
        }
    }
}

#[test]
fn stamp_is_measured_from_the_one_before_and_not_from_the_first() {
    let counters = [0, 30_000, 60_000, 24_464, 54_464, 18_928];
    let script: Vec<u8> = counters.into_iter().flat_map(stamp).collect();
    assert_eq!(worked(&script), 16);
    assert_eq!(worked(&[stamp(0), stamp(5), stamp(7)].concat()), 7);
    let back = [&script[..], &stamp(18_927)].concat();
    assert_eq!(refused(&mut erasing(), &back, 0), (8, 18));
}

#[test]
fn ticks_between_stamps_are_ticks_of_their_own() {
    assert_eq!(worked(&[stamp(10), ticks(5), stamp(12)].concat()), 7);
    assert_eq!(worked(&[stamp(10), vec![4], stamp(10), vec![4], stamp(11)].concat()), 3);
}

#[test]
fn clock_is_not_kept_between_runs() {
    let mut bench = erasing();
    assert_eq!(working(&mut bench, &[stamp(10), stamp(12)].concat()), 2);
    assert_eq!(working(&mut bench, &stamp(15)), 0);
    assert_eq!(working(&mut bench, &stamp(3)), 0);
    assert_eq!(working(&mut bench, &[stamp(0), stamp(4)].concat()), 4);
    assert_eq!(bench.chip.job.as_ref().map(|job| job.steps_done), Some(6));
}

#[test]
fn clock_outlasts_a_power_cut() {
    let script = [stamp(10), vec![7], begin(&ERASE), stamp(13)].concat();
    assert_eq!(working(&mut used_bench(1, 0), &script), 3);
    assert_eq!(worked(&[stamp(10), stamp(12), vec![7], stamp(15)].concat()), 2);
    let back = [stamp(10), vec![7], stamp(9)].concat();
    assert_eq!(refused(&mut erasing(), &back, 0), (8, 4));
    let script = [stamp(10), reset(), begin(&ERASE), stamp(13)].concat();
    assert_eq!(worked(&script), 3);
}

#[test]
fn stamps_in_a_frame_work_and_leave_the_frame() {
    let status = [&[1, 2, 5, 2, 0][..], &stamp(65_530), &[2, 0], &stamp(9), &[2, 0]].concat();
    let script = [&status[..], &stamp(10), &[2, 0, 3, 0]].concat();
    let records = [0x80, 0x81, 3, 0x81, 3, 0x81, 3, 0x81, 0, 0x82, 0];
    let mut bench = erasing();
    assert_eq!(run_in_room(&mut bench, &script, 13), records);
    let erase_frame = [1, 2, 0x20, 9, 0, 1, 2, 0, 9, 2, 3, 2, 0x40, 9, 2, 3, 2, 0, 9, 3, 0, 3, 0];
    let script = [&frame(&[6])[..], &erase_frame].concat();
    let mut bench = used_bench(1, 0);
    let records = [0x80, 0x82, 1, 0x80, 0x80, 0x80, 0x80, 0x82, 2];
    assert_eq!(run_in_room(&mut bench, &script, 16), records);
    let job = Job { kind: JobKind::SmallSectorErase, place: 0x4000, steps_done: 0 };
    assert_eq!(bench.chip.job, Some(job));
}

#[test]
fn stamps_go_on_across_jobs() {
    let script = [stamp(7), begin(&[0x01, 0]), stamp(27), begin(&ERASE), stamp(30)].concat();
    let mut bench = used_bench(1, 0);
    assert_eq!(working(&mut bench, &script), 4);
    let script = [stamp(0), stamp(50), begin(&[0x60]), stamp(60), stamp(70)].concat();
    assert_eq!(working(&mut bench, &script), 13 + 20);
}

#[test]
fn stamps_in_the_wait_and_in_suspension() {
    let mut bench = erasing();
    let script = [stamp(0), stamp(3), frame(&[0xB0]), stamp(9), stamp(500)].concat();
    assert_eq!(working(&mut bench, &script), 4);
    assert!(bench.chip.suspended);
    let script = [stamp(0), stamp(900), frame(&[0x30]), stamp(902)].concat();
    assert_eq!(working(&mut bench, &script), 2);
    assert_eq!(bench.chip.job.as_ref().map(|job| job.steps_done), Some(6));
}

#[test]
fn stamps_make_no_record_and_need_no_room() {
    let mut bench = used_bench(1, 0);
    assert_eq!(run_in_room(&mut bench, &[stamp(0), stamp(9)].concat(), 0), []);
    let script = [&stamp(3)[..], &SAMPLE, &stamp(4)].concat();
    let records = run_in_room(&mut used_bench(1, 0), &SAMPLE, 12);
    assert_eq!(run_in_room(&mut bench, &script, 12), records);
}

#[test]
fn within_an_event_5_then_4_then_6_or_8() {
    let cases: [(&[u8], (u8, usize)); 12] = [
        (&[9], (4, 0)),
        (&[9, 0], (4, 0)),
        (&[9, 255], (4, 0)),
        (&[9, 9, 9, 9], (4, 3)),
        (&[9, 0, 5, 9], (4, 3)),
        (&[9, 0, 5, 9, 0], (4, 3)),
        (&[9, 0, 5, 9, 255], (4, 3)),
        (&[9, 0, 5, 9, 0, 4], (8, 3)),
        (&[9, 0, 5, 9, 128, 5], (8, 3)),
        (&[9, 0, 5, 8, 0, 4], (5, 3)),
        (&[9, 0, 5, 10, 0, 4], (5, 3)),
        (&[9, 0, 5, 5, 0, 0], (6, 3)),
    ];
    for (script, expected) in cases {
        assert_eq!(refused(&mut erasing(), script, 0), expected, "{script:?}");
        assert_eq!(refused(&mut erasing(), script, 99), expected, "{script:?}");
    }
}

#[test]
fn first_bad_event_decides_with_stamps_too() {
    let cases: [(&[u8], (u8, usize)); 12] = [
        (&[9, 0, 5, 9, 0, 4, 10], (8, 3)),
        (&[9, 0, 5, 10, 9, 0, 4], (5, 3)),
        (&[9, 0, 5, 9, 0, 4, 5, 0, 0], (8, 3)),
        (&[9, 0, 5, 5, 0, 0, 9, 0, 4], (6, 3)),
        (&[9, 0, 5, 9, 0, 4, 9], (8, 3)),
        (&[9, 0, 5, 9, 0, 4, 9, 0, 3], (8, 3)),
        (&[9, 0, 5, 6, 2, 9, 0, 4], (6, 3)),
        (&[9, 0, 5, 3, 8, 9, 0, 4], (6, 3)),
        (&[9, 0, 5, 9, 0, 4, 3, 8], (8, 3)),
        (&[9, 0, 5, 9, 0, 6, 9, 0, 5], (8, 6)),
        (&[4, 9, 0, 5, 1, 2, 6, 9, 0, 4, 3, 0], (8, 7)),
        (&[2, 9, 3, 7, 9, 0, 5, 2, 9, 9, 0, 4], (8, 9)),
    ];
    for (script, expected) in cases {
        assert_eq!(refused(&mut erasing(), script, 0), expected, "{script:?}");
        assert_eq!(refused(&mut erasing(), script, 99), expected, "{script:?}");
    }
}

#[test]
fn refusal_8_comes_after_what_is_lent_and_before_7() {
    let back = [stamp(5), stamp(4)].concat();
    let mut bench = erasing();
    assert_eq!(refused(&mut bench, &[&[1, 2, 6, 3, 0][..], &back].concat(), 0), (8, 8));
    let mut long = back.clone();
    long.resize(65_537, 4);
    assert_eq!(refused(&mut bench, &long, 0), (3, 0));
    assert_eq!(refused(&mut bench, &long[..65_536], 0), (8, 3));
    bench.chip.level = 8;
    assert_eq!(refused(&mut bench, &back, 0), (2, 0));
    bench.area.resize(257, 0);
    assert_eq!(refused(&mut bench, &back, 0), (13, 0));
    bench.memory.pop();
    assert_eq!(refused(&mut bench, &back, 0), (1, 0));
}

/// The refusal and offset of a script's first bad event, read event by event with the last stamp.
fn plain_fault(script: &[u8]) -> Option<(u8, usize)> {
    let mut last = None;
    let mut offset = 0;
    while offset < script.len() {
        let rest = &script[offset..];
        let length = match rest[0] {
            1 | 4 | 7 => 1,
            2 | 3 | 6 => 2,
            5 | 9 => 3,
            _ => return Some((5, offset)),
        };
        if rest.len() < length {
            return Some((4, offset));
        }
        if matches!(rest, [3, 8..=255, ..] | [5, 0, 0, ..] | [6, 2..=255, ..]) {
            return Some((6, offset));
        }
        if let [9, high, low, ..] = rest {
            let now = i32::from(*high) * 256 + i32::from(*low);
            if last.is_some_and(|last| (now - last + 65_536) % 65_536 >= 32_768) {
                return Some((8, offset));
            }
            last = Some(now);
        }
        offset += length;
    }
    None
}

#[test]
fn random_scripts_are_good_or_bad_by_the_rules_read_plainly() {
    let mut dice = Dice(20);
    let mut seen = [0; 9];
    let Bench { mut chip, mut memory, .. } = used_bench(1, 0);
    for _ in 0..100_000 {
        let bytes = [9, 9, 9, 9, 0, 1, 3, 4, 5, 6, 7, 2, 127, 128, 255, dice.below(256) as u8];
        let length = 1 + dice.below(24);
        let mut byte = || bytes[dice.below(16) as usize];
        let script: Vec<u8> = (0..length).map(|_| byte()).collect();
        let answer = run(&mut chip, &mut memory, &[], &script, &mut [0; 99]);
        let expected = plain_fault(&script).unwrap_or((0, 0));
        assert_eq!((answer.refusal, answer.offset), expected, "{script:?}");
        seen[usize::from(answer.refusal)] += 1;
    }
    assert!([0, 4, 5, 6, 8].iter().all(|refusal| seen[*refusal] > 1_000), "{seen:?}");
}

#[test]
fn alone_a_stamp_is_refused_by_5_whatever_its_body() {
    let bodies = [0, 1, 2, 255, 256, 32_767, 32_768, 65_535, 65_536, 1 << 32, u64::MAX];
    let answer_of = |refusal| EventAnswer { refusal, record: Record::None, ticks: 0 };
    let mut bench = erasing();
    let check = |bench: &mut Bench, refusal: u8| {
        let before = bench.clone();
        for body in bodies {
            let answer = event(&mut bench.chip, &mut bench.memory, &bench.area, 9, body);
            assert_eq!(answer, answer_of(refusal));
            assert!(bench.chip == before.chip && bench.memory == before.memory);
        }
    };
    check(&mut bench, 5);
    bench.chip.level = 8;
    check(&mut bench, 2);
    bench.area.resize(257, 0);
    check(&mut bench, 13);
    bench.memory.pop();
    check(&mut bench, 1);
}

#[test]
fn longest_script_of_stamps() {
    let mut script: Vec<u8> =
        (0..21_845).flat_map(|j: u32| stamp((j * 32_767 % 65_536) as u16)).collect();
    script.push(4);
    assert_eq!(script.len(), 65_536);
    assert_eq!(worked(&script), 16);
    assert_eq!(refused(&mut erasing(), &[&script[..], &[4]].concat(), 0), (3, 0));
    let last = script.len() - 4;
    script[last..last + 3].copy_from_slice(&stamp(0));
    assert_eq!(refused(&mut erasing(), &script, 0), (8, last));
}

#[test]
fn program_knows_stamps_and_prints_no_line_for_them() {
    let enable = [&stamp(5)[..], &[1, 2, 6], &stamp(5), &[3, 0]].concat();
    let erase = [stamp(9), frame(&[0x60])].concat();
    let good = [&enable[..], &erase, &stamp(209), &stamp(265), &[3, 0]].concat();
    let text = "part 65536\n4 --\n9 V1\n15 --\n17 V2\n25 V0\nanswer 0 ticks 256\n";
    assert_eq!(program::report(&good), text);
    let back = [&enable[..], &erase, &stamp(8)].concat();
    assert_eq!(program::report(&back), "part 65536\nanswer 8 at 19\n");
    assert_eq!(program::report(&[9, 0]), "part 65536\nanswer 4 at 0\n");
    assert_eq!(program::report(&stamp(9)), "part 65536\nanswer 0 ticks 0\n");
}

/// A script with stamps strewn in between its events, inside frames too, and the same script with
/// each stamp replaced by its ticks.
fn strewn(dice: &mut Dice, script: &[u8]) -> (Vec<u8>, Vec<u8>) {
    let (mut with_stamps, mut with_ticks) = (Vec::new(), Vec::new());
    let mut counter = dice.below(65_536) as u16;
    let mut first = true;
    let mut rest = script;
    while let [kind, ..] = rest {
        if dice.below(4) == 0 {
            let moved = dice.below_one_of(&[1, 2, 20, 300, 32_768]) as u16;
            counter = counter.wrapping_add(moved);
            with_stamps.extend(stamp(counter));
            if moved > 0 && !first {
                with_ticks.extend(ticks(moved));
            }
            first = false;
        }
        let (event, after) = rest.split_at([0, 1, 2, 2, 1, 3, 2, 1][usize::from(*kind)]);
        with_stamps.extend(event);
        with_ticks.extend(event);
        rest = after;
    }
    (with_stamps, with_ticks)
}

#[test]
fn a_stamp_is_its_ticks() {
    let mut dice = Dice(21);
    for _ in 0..300 {
        let script = random_script(&mut dice);
        let (with_stamps, with_ticks) = strewn(&mut dice, &script);
        let allowances = EMPTY.map(|_| dice.below(1_000_001) as u32);
        let mut by_stamps = used_bench(2, dice.below(256) as u8 & 0x84);
        let mut by_ticks = by_stamps.clone();
        let room = room_of(&script);
        let records = run_in_room(&mut by_stamps.clone(), &with_stamps, room);
        assert_eq!(records, run_in_room(&mut by_ticks.clone(), &with_ticks, room));
        let [mut one, mut other] = [ODD, ODD];
        let answer = reported(&mut by_stamps, &with_stamps, &allowances, &mut one);
        assert_eq!(answer, reported(&mut by_ticks, &with_ticks, &allowances, &mut other));
        assert_eq!(one, other);
        assert!(by_stamps.chip == by_ticks.chip && by_stamps.memory == by_ticks.memory);
    }
}

#[test]
fn each_kind_of_job_has_its_line() {
    let allowances = [100, 200, 300, 4_000, 5_000];
    for (bytes, place, steps) in JOBS {
        let script = [begin(bytes), ticks(65_535)].concat();
        let margin = allowances[place] as i32 - steps as i32;
        let report = carried(&mut used_bench(1, 0), &script, &allowances, EMPTY);
        assert_eq!(report, only(place, one(margin)), "{:02X}", bytes[0]);
    }
    for sectors in SECTORS {
        let script = [begin(&[0x60]), ticks(65_535)].concat();
        let report = carried(&mut used_bench(sectors, 0), &script, &allowances, EMPTY);
        assert_eq!(report, only(CHIP, one(5_000 - 256 * sectors as i32)));
    }
}

#[test]
fn all_five_kinds_in_one_script() {
    let every: Vec<u8> = JOBS.iter().flat_map(|job| [begin(job.0), ticks(400)].concat()).collect();
    let line = |count, margin| Line { count, smallest: margin, largest: margin };
    let expected = [line(1, 9), line(2, -6), line(2, -6), line(1, 0), line(2, 1)];
    let allowances = [10, 10, 10, 256, 257];
    assert_eq!(carried(&mut used_bench(1, 0), &every, &allowances, EMPTY), expected);
}

#[test]
fn ticks_used_run_from_the_begin_to_the_last_step() {
    assert_eq!(used(&ticks(16)), 16);
    assert_eq!(used(&[4; 16]), 16);
    assert_eq!(used(&[stamp(0), stamp(16)].concat()), 16);
    assert_eq!(used(&[vec![4; 3], ticks(4), stamp(0), stamp(5), stamp(9)].concat()), 16);
    assert_eq!(report_of(&[begin(&ERASE), ticks(15)].concat()), EMPTY);
    assert_eq!(report_of(&[begin(&[0x01, 0]), vec![4]].concat()), only(0, one(-1)));
}

#[test]
fn ticks_after_the_last_step_are_nobodys() {
    assert_eq!(used(&ticks(17)), 16);
    assert_eq!(used(&ticks(65_535)), 16);
    assert_eq!(used(&[4; 40]), 16);
    assert_eq!(used(&[stamp(0), stamp(32_767), ticks(9), stamp(37_767)].concat()), 16);
    let script = [begin(&ERASE), ticks(500), vec![4], begin(&[0x01, 0]), ticks(500)].concat();
    let report = report_of(&script);
    assert_eq!((report[SMALL_SECTOR], report[WRITE_STATUS]), (one(-16), one(-1)));
}

#[test]
fn ticks_before_the_begin_are_not_used() {
    let late_begin = [&ticks(50)[..], &frame(&[6]), &ticks(60), &[1, 2, 0x60, 4, 5, 0, 9, 3, 0]];
    let script = [&late_begin.concat()[..], &ticks(256)].concat();
    assert_eq!(report_of(&script), only(CHIP, one(-256)));
    let script = [&stamp(5)[..], &[1, 2, 0x06], &stamp(90), &[3, 0, 1, 2, 0x60], &stamp(99)];
    let script = [&script.concat()[..], &[3, 0], &stamp(99), &stamp(400)].concat();
    assert_eq!(report_of(&script), only(CHIP, one(-256)));
}

#[test]
fn suspended_ticks_are_used_too() {
    let by_ticks = [vec![4; 3], frame(&[0xB0]), vec![4], ticks(100), frame(&[0x30]), ticks(12)];
    assert_eq!(used(&by_ticks.concat()), 3 + 1 + 100 + 12);
    let by_stamps = [stamp(3), frame(&[0xB0]), stamp(4), stamp(104), frame(&[0x30]), stamp(300)];
    assert_eq!(used(&by_stamps.concat()), 1 + 100 + 15);
    let mut twice = Vec::new();
    for _ in 0..2 {
        twice.extend([frame(&[0xB0]), ticks(1_000), frame(&[0x30]), ticks(2)].concat());
    }
    assert_eq!(used(&[&twice[..], &ticks(60_000)].concat()), 2 * 1_002 + 10);
}

#[test]
fn the_step_of_a_suspends_wait_is_a_tick_like_the_others() {
    assert_eq!(used(&[frame(&[0xB0]), ticks(50), frame(&[0x30]), ticks(15)].concat()), 65);
    assert_eq!(used(&[ticks(15), frame(&[0xB0]), vec![4]].concat()), 16);
    assert_eq!(used(&[ticks(15), frame(&[0xB0]), ticks(500)].concat()), 16);
    let equal = [ticks(15), frame(&[0xB0]), stamp(8), stamp(8), stamp(99)].concat();
    assert_eq!(used(&equal), 16);
    let script = [begin(&ERASE), ticks(14), frame(&[0xB0]), ticks(500)].concat();
    assert_eq!(report_of(&script), EMPTY);
    let turned_away = [frame(&[0xB0]), frame(&[0x30]), ticks(7), frame(&[0x30]), ticks(99)];
    assert_eq!(used(&turned_away.concat()), 7 + 15);
}

#[test]
fn ticks_inside_frames_are_used_too() {
    let status = [&[1, 2, 5, 4][..], &ticks(5), &[2, 0], &stamp(0), &stamp(6), &[3, 0, 4]].concat();
    assert_eq!(used(&[&status[..], &ticks(3)].concat()), 16);
    let read = [&[1, 2, 3, 2, 0][..], &ticks(20), &[2, 0, 2, 0, 2, 0, 3, 0]].concat();
    assert_eq!(used(&read), 16);
    let idle = [&frame(&[0xB0])[..], &[4, 1, 2, 3], &ticks(30), &[2, 0, 3, 2], &frame(&[0x30])];
    assert_eq!(used(&[&idle.concat()[..], &ticks(15)].concat()), 46);
}

#[test]
fn frames_that_begin_no_job_leave_the_watch() {
    let refused_frames: [&[u8]; 5] = [&[0x20, 0, 0, 0], &[0x60], &[0x01, 0], &[0x06], &[0x77]];
    let between: Vec<u8> = refused_frames.iter().flat_map(|bytes| frame(bytes)).collect();
    assert_eq!(used(&[&ticks(3)[..], &between, &[6, 0, 6, 1], &ticks(13)].concat()), 16);
    let suspended = [&frame(&[0xB0])[..], &ticks(9), &[1, 2, 0x60, 3, 1], &frame(&[0x20, 0])];
    let script = [&suspended.concat()[..], &frame(&[0x01, 0]), &frame(&[0x30]), &ticks(15)];
    assert_eq!(used(&script.concat()), 24);
    assert_eq!(report_of(&[frame(&[0x60]), ticks(300)].concat()), EMPTY);
    let protected = [begin(&[0x60]), ticks(300)].concat();
    assert_eq!(carried(&mut used_bench(1, 0x1C), &protected, &NOTHING, EMPTY), EMPTY);
}

#[test]
fn job_dropped_by_a_reset_is_not_counted() {
    for before in [vec![4; 3], [frame(&[0xB0]), ticks(9)].concat(), frame(&[0xB0])] {
        for (bytes, ..) in &JOBS[1..] {
            let script = [begin(bytes), before.clone(), reset(), ticks(500)].concat();
            assert_eq!(report_of(&script), EMPTY);
            let script = [&script[..], &begin(&ERASE), &ticks(500)].concat();
            assert_eq!(report_of(&script), only(SMALL_SECTOR, one(-16)));
        }
    }
    let script = [begin(&[0x01, 0]), reset(), ticks(500)].concat();
    assert_eq!(report_of(&script), EMPTY);
    assert_eq!(used(&[frame(&[0x99]), frame(&[0x66]), ticks(16)].concat()), 16);
}

#[test]
fn job_dropped_by_a_power_cut_is_not_counted() {
    for before in [vec![], vec![4], [frame(&[0xB0]), ticks(9)].concat(), vec![1, 2, 5, 4]] {
        for (bytes, ..) in &JOBS[1..] {
            let script = [begin(bytes), before.clone(), vec![7], ticks(500)].concat();
            assert_eq!(report_of(&script), EMPTY);
            let script = [&script[..], &begin(&ERASE), &[4, 4], &ticks(500)].concat();
            assert_eq!(report_of(&script), only(SMALL_SECTOR, one(-16)));
        }
    }
    assert_eq!(report_of(&[begin(&[0x01, 0]), vec![7, 4]].concat()), EMPTY);
}

#[test]
fn job_begun_in_suspension_counts_from_its_own_begin() {
    for (bytes, place, steps) in &JOBS[1..] {
        let suspended = [begin(&ERASE), ticks(5), frame(&[0xB0]), ticks(700)].concat();
        let script = [suspended, frame(bytes), vec![4; 5], ticks(600)].concat();
        assert_eq!(report_of(&script), only(*place, one(-(*steps as i32))));
        let script = [&script[..], &frame(&[0x30]), &ticks(500)].concat();
        assert_eq!(report_of(&script), only(*place, one(-(*steps as i32))));
    }
}

#[test]
fn job_begun_in_suspension_can_be_suspended_and_resumed_itself() {
    let suspended = [begin(&[0x60]), ticks(5), frame(&[0xB0]), ticks(700)].concat();
    let script = [suspended, frame(&ERASE), frame(&[0xB0]), ticks(30), frame(&[0x30])].concat();
    let report = report_of(&[script, ticks(500)].concat());
    assert_eq!(report, only(SMALL_SECTOR, one(-45)));
}

#[test]
fn job_that_stood_at_the_start_is_not_counted() {
    let suspend = [frame(&[0xB0]), ticks(3)].concat();
    for (bytes, ..) in JOBS {
        let mut bench = used_bench(1, 0);
        working(&mut bench, &begin(bytes));
        assert_eq!(carried(&mut bench, &ticks(500), &NOTHING, EMPTY), EMPTY);
        assert_eq!(bench.chip.job, None);
        let script = [begin(&ERASE), ticks(500)].concat();
        let expected = only(SMALL_SECTOR, one(-16));
        assert_eq!(carried(&mut bench, &script, &NOTHING, EMPTY), expected);
    }
    let mut bench = erasing();
    working(&mut bench, &suspend);
    let resumed = [frame(&[0x30]), ticks(500)].concat();
    assert_eq!(carried(&mut bench.clone(), &resumed, &NOTHING, EMPTY), EMPTY);
    let dropped = [frame(&[0x60]), ticks(500)].concat();
    assert_eq!(carried(&mut bench, &dropped, &NOTHING, EMPTY), only(CHIP, one(-256)));
    let mut bench = erasing();
    assert_eq!(working(&mut bench, &[ticks(15), frame(&[0xB0])].concat()), 15);
    assert_eq!(carried(&mut bench, &ticks(9), &NOTHING, EMPTY), EMPTY);
}

#[test]
fn frame_open_at_the_start_can_begin_a_job_of_this_script() {
    let mut bench = used_bench(1, 0);
    working(&mut bench, &[&frame(&[6])[..], &[1, 2, 0x60]].concat());
    let script = [&[4, 3, 0][..], &ticks(300)].concat();
    assert_eq!(carried(&mut bench, &script, &NOTHING, EMPTY), only(CHIP, one(-256)));
}

#[test]
fn job_that_goes_on_after_its_script_is_counted_in_neither() {
    for done in [0, 1, 15] {
        let mut bench = used_bench(1, 0);
        let first = [begin(&ERASE), vec![4; done]].concat();
        assert_eq!(carried(&mut bench, &first, &NOTHING, EMPTY), EMPTY);
        assert_eq!(carried(&mut bench, &ticks(500), &NOTHING, EMPTY), EMPTY);
        assert_eq!(bench.chip.job, None);
    }
    let mut bench = used_bench(1, 0);
    let first = [begin(&ERASE), ticks(20), begin(&[0x60]), ticks(255)].concat();
    let report = carried(&mut bench, &first, &NOTHING, EMPTY);
    assert_eq!(report, only(SMALL_SECTOR, one(-16)));
    let second = [vec![4], begin(&ERASE), ticks(16)].concat();
    let both = Line { count: 2, smallest: -16, largest: -16 };
    assert_eq!(carried(&mut bench, &second, &NOTHING, report), only(SMALL_SECTOR, both));
}

#[test]
fn margins_on_each_side_of_zero() {
    for (bytes, place, steps) in JOBS {
        for difference in [-1, 0, 1] {
            let mut allowances = [777_777; 5];
            allowances[place] = (steps as i32 + difference) as u32;
            let script = [begin(bytes), ticks(400)].concat();
            let report = carried(&mut used_bench(1, 0), &script, &allowances, EMPTY);
            assert_eq!(report, only(place, one(difference)));
        }
    }
}

#[test]
fn largest_allowance_is_good() {
    for (bytes, place, steps) in JOBS {
        let script = [begin(bytes), ticks(400)].concat();
        let report = carried(&mut used_bench(1, 0), &script, &[1_000_000; 5], EMPTY);
        assert_eq!(report, only(place, one(1_000_000 - steps as i32)));
    }
    let late = [frame(&[0xB0]), ticks(65_535).repeat(16), frame(&[0x30]), ticks(15)].concat();
    let script = [begin(&ERASE), late].concat();
    let report = carried(&mut used_bench(1, 0), &script, &[1_000_000; 5], EMPTY);
    assert_eq!(report, only(SMALL_SECTOR, one(1_000_000 - 16 * 65_535 - 15)));
}

/// A real part on which one deselect begins a chip erase.
fn open_chip_erase() -> Bench {
    let mut bench = Bench::new(32, 0);
    assert_eq!(bench.frame(&[0x06]), 1);
    bench.send(&[0x60]);
    assert_eq!((bench.memory.len(), bench.chip.frame.byte_count), (REAL, 1));
    bench
}

// The begin takes at least a deselect, the suspend and the resume a frame each; what is left of the
// script is ticks. In the event of the last step only the steps left count.
#[test]
fn latest_possible_job() {
    let suspended = [frame(&[0xB0]), vec![4], ticks(65_535).repeat(21_840)].concat();
    let script = [vec![3, 0], suspended, frame(&[0x30]), ticks(65_535)].concat();
    assert_eq!(script.len(), 65_536);
    let used = 1 + 21_840 * 65_535 + 8_191;
    for allowance in [0, 1_000_000] {
        let mut report = ODD;
        let mut bench = open_chip_erase();
        let answer = reported(&mut bench, &script, &[allowance; 5], &mut report);
        assert_eq!((answer.refusal, answer.ticks), (0, 8_192));
        let margin = allowance as i32 - used;
        assert_eq!(report[CHIP], Line { count: 2, smallest: margin, largest: margin });
    }
    assert_eq!(used, 1_431_292_592);
}

#[test]
fn several_jobs_join_by_minimum_and_maximum() {
    let idle = |count| [frame(&[0xB0]), ticks(count), frame(&[0x30]), ticks(15)].concat();
    let job = |count| [begin(&ERASE), idle(count)].concat();
    let allowances = [0, 0, 100, 0, 0];
    for order in [[10, 200, 50], [200, 10, 50], [50, 10, 200], [10, 50, 200]] {
        let script: Vec<u8> = order.into_iter().flat_map(job).collect();
        let report = carried(&mut used_bench(1, 0), &script, &allowances, EMPTY);
        let line = Line { count: 3, smallest: 100 - 215, largest: 100 - 25 };
        assert_eq!(report, only(SMALL_SECTOR, line));
    }
}

#[test]
fn count_stops_at_the_ceiling_and_the_margins_go_on() {
    let line = |count, smallest, largest| Line { count, smallest, largest };
    let erase = [begin(&ERASE), ticks(16)].concat();
    let join = |allowance, before| {
        let report = only(SMALL_SECTOR, before);
        carried(&mut used_bench(1, 0), &erase, &[allowance; 5], report)[SMALL_SECTOR]
    };
    let most = u32::MAX;
    assert_eq!(join(16, line(most - 2, 0, 0)), line(most - 1, 0, 0));
    assert_eq!(join(16, line(most - 1, 0, 0)), line(most, 0, 0));
    assert_eq!(join(16, line(most, 0, 0)), line(most, 0, 0));
    assert_eq!(join(15, line(most, 0, 0)), line(most, -1, 0));
    assert_eq!(join(17, line(most, 0, 0)), line(most, 0, 1));
    let script = erase.repeat(3);
    let report = only(SMALL_SECTOR, line(most - 1, 5, 5));
    let after = carried(&mut used_bench(1, 0), &script, &[26; 5], report);
    assert_eq!(after[SMALL_SECTOR], line(most, 5, 10));
}

#[test]
fn margins_of_a_count_of_0_are_not_read() {
    let erase = [begin(&ERASE), ticks(16)].concat();
    for (smallest, largest) in [(-99, 99), (99, -99), (i32::MIN, i32::MAX), (i32::MAX, i32::MIN)] {
        let odd = [Line { count: 0, smallest, largest }; 5];
        let report = carried(&mut used_bench(1, 0), &erase, &[20; 5], odd);
        assert_eq!(report, only(SMALL_SECTOR, one(4)));
        for script in [vec![], vec![4], begin(&ERASE), [stamp(0), stamp(9)].concat()] {
            assert_eq!(carried(&mut used_bench(1, 0), &script, &[20; 5], odd), EMPTY);
        }
    }
}

#[test]
fn lines_with_jobs_stay_where_no_job_is_added() {
    for script in [vec![], ticks(9), [begin(&ERASE), ticks(15)].concat(), vec![7]] {
        let mut expected = ODD;
        (expected[0], expected[3]) = (NO_JOBS, NO_JOBS);
        assert_eq!(carried(&mut used_bench(1, 0), &script, &[5; 5], ODD), expected);
    }
}

#[test]
fn crossed_margins_join_each_on_its_own() {
    let line = |count, smallest, largest| Line { count, smallest, largest };
    let erase = [begin(&ERASE), ticks(16)].concat();
    let idle = [frame(&[0xB0]), ticks(60), frame(&[0x30]), ticks(15)].concat();
    let join = |script: &[u8], allowance, before| {
        let report = only(SMALL_SECTOR, before);
        carried(&mut used_bench(1, 0), script, &[allowance; 5], report)[SMALL_SECTOR]
    };
    assert_eq!(join(&erase, 16, line(3, 50, -50)), line(4, 0, 0));
    assert_eq!(join(&erase, 76, line(3, 50, -50)), line(4, 50, 60));
    let late = [begin(&ERASE), idle].concat();
    assert_eq!(join(&late, 15, line(3, 50, -50)), line(4, -60, -50));
    assert_eq!(join(&erase, 16, line(1, i32::MAX, i32::MIN)), line(2, 0, 0));
    assert_eq!(join(&erase, 16, line(1, i32::MIN, i32::MAX)), line(2, i32::MIN, i32::MAX));
}

#[test]
fn report_is_carried_from_script_to_script() {
    let mut bench = used_bench(1, 0);
    let idle = |count| [frame(&[0xB0]), ticks(count), frame(&[0x30]), ticks(15)].concat();
    let scripts = [
        [begin(&ERASE), ticks(16)].concat(),
        [begin(&[0x60]), ticks(400), begin(&ERASE), idle(34)].concat(),
        vec![],
        [begin(&ERASE), ticks(3)].concat(),
        [ticks(13), begin(&[0x01, 0]), vec![4]].concat(),
        [begin(&ERASE), idle(4)].concat(),
    ];
    let allowances = [1, 2, 30, 4, 500];
    let mut report = EMPTY;
    for script in &scripts {
        report = carried(&mut bench, script, &allowances, report);
    }
    let erases = Line { count: 3, smallest: -19, largest: 14 };
    assert_eq!(report, [one(0), NO_JOBS, erases, NO_JOBS, one(244)]);
    report = carried(&mut bench, &scripts[0], &[1_000_000; 5], report);
    assert_eq!(report[SMALL_SECTOR], Line { count: 4, smallest: -19, largest: 999_984 });
}

/// Runs a script with a report that must be refused, checks that nothing has changed and gives the
/// refusal and offset.
fn refused_report(
    bench: &mut Bench,
    script: &[u8],
    room: usize,
    allowances: &[u32; 5],
) -> (u8, usize) {
    let before = bench.clone();
    let mut output = vec![0xEE; room];
    let mut report = ODD;
    let Bench { chip, memory, area } = bench;
    let answer = run_with_report(chip, memory, area, script, &mut output, allowances, &mut report);
    assert_eq!((answer.written, answer.ticks), (0, 0));
    assert_eq!(report, ODD);
    assert!(*chip == before.chip && *memory == before.memory);
    assert!(output.iter().all(|byte| *byte == 0xEE));
    (answer.refusal, answer.offset)
}

/// Benches and scripts with the refusal that the plain run gives each, none of them 0.
fn refusals() -> Vec<(Bench, Vec<u8>, (u8, usize))> {
    let erase = [begin(&ERASE), ticks(16)].concat();
    let with = |bad: &[u8]| [&erase[..], bad].concat();
    let at = erase.len();
    let idle = used_bench(1, 0);
    let mut illegal = idle.clone();
    illegal.chip.level = 8;
    let mut long_area = idle.clone();
    long_area.area.resize(257, 0);
    let mut short = idle.clone();
    short.memory.pop();
    vec![
        (short, erase.clone(), (1, 0)),
        (long_area, erase.clone(), (13, 0)),
        (illegal, erase.clone(), (2, 0)),
        (idle.clone(), with(&[4; 65_537]), (3, 0)),
        (idle.clone(), with(&[5, 1]), (4, at)),
        (idle.clone(), with(&[9, 1]), (4, at)),
        (idle.clone(), with(&[10]), (5, at)),
        (idle.clone(), with(&[8, 1]), (5, at)),
        (idle.clone(), with(&[5, 0, 0]), (6, at)),
        (idle.clone(), with(&[3, 8]), (6, at)),
        (idle.clone(), with(&[9, 0, 5, 9, 0, 4]), (8, at + 3)),
        (idle, erase, (7, 0)),
    ]
}

#[test]
fn refused_script_leaves_the_report_as_handed_in() {
    for (mut bench, script, expected) in refusals() {
        let room = if expected.0 == 7 { room_of(&script) - 1 } else { 131_072 };
        assert_eq!(refused(&mut bench, &script, room), expected);
        assert_eq!(refused_report(&mut bench, &script, room, &[1_000_000; 5]), expected);
        assert_eq!(refused_report(&mut bench, &script, room, &NOTHING), expected);
    }
}

#[test]
fn refusal_18_for_each_of_the_five() {
    let erase = [begin(&ERASE), ticks(16)].concat();
    for place in 0..5 {
        for bad in [1_000_001, 1_000_002, 1 << 31, u32::MAX] {
            for others in [0, 1_000_000] {
                let mut allowances = [others; 5];
                allowances[place] = bad;
                for script in [&[][..], &[4], &erase] {
                    let mut bench = used_bench(1, 0);
                    let answer = refused_report(&mut bench, script, 99, &allowances);
                    assert_eq!(answer, (18, 0));
                }
            }
        }
    }
    assert_eq!(refused_report(&mut used_bench(1, 0), &erase, 99, &[u32::MAX; 5]), (18, 0));
}

#[test]
fn refusal_18_comes_before_every_other() {
    for (mut bench, script, expected) in refusals() {
        let room = if expected.0 == 7 { 0 } else { 131_072 };
        for place in 0..5 {
            let mut allowances = NOTHING;
            allowances[place] = 1_000_001;
            assert_eq!(refused_report(&mut bench, &script, room, &allowances), (18, 0));
        }
    }
}

#[test]
fn report_needs_the_room_of_the_plain_run() {
    let script = [&SAMPLE[..], &stamp(0), &begin(&ERASE), &stamp(16)].concat();
    let room = room_of(&script);
    let mut bench = used_bench(1, 0);
    assert_eq!(refused_report(&mut bench, &script, room - 1, &NOTHING), (7, 0));
    let mut output = vec![0xEE; room];
    let mut report = EMPTY;
    let Bench { chip, memory, area } = &mut bench;
    let answer = run_with_report(chip, memory, area, &script, &mut output, &NOTHING, &mut report);
    let written = answer.written;
    assert_eq!(answer, RunAnswer { refusal: 0, offset: 0, written, ticks: 16 });
    assert_eq!(report, only(SMALL_SECTOR, one(-16)));
    assert!(output[written..].iter().all(|byte| *byte == 0xEE));
}

/// The line of the job that an opcode begins.
fn line_of(opcode: u8) -> usize {
    JOBS.iter().find(|(bytes, ..)| bytes[0] == opcode).map_or(usize::MAX, |(_, place, _)| *place)
}

/// A run by hand, one event and one tick at a time, that lists the jobs it sees from begin to end,
/// each with its line and the ticks it used, and the bytes of all records.
struct ByHand {
    bench: Bench,
    clock: Option<u64>,
    open: Option<(usize, i64)>,
    jobs: Vec<(usize, i64)>,
    records: Vec<u8>,
}

impl ByHand {
    /// Takes a whole script.
    fn new(bench: &Bench, script: &[u8]) -> ByHand {
        let bench = bench.clone();
        let mut by_hand =
            ByHand { bench, clock: None, open: None, jobs: Vec::new(), records: Vec::new() };
        for (kind, body) in events_of(script) {
            by_hand.take(kind, body);
        }
        by_hand
    }

    /// Takes one event.
    fn take(&mut self, kind: u64, body: u64) {
        match kind {
            4 => self.tick(),
            5 => (0..body).for_each(|_| self.tick()),
            9 => {
                let last = self.clock.replace(body).unwrap_or(body);
                (0..(body + 65_536 - last) % 65_536).for_each(|_| self.tick());
            }
            _ => {
                let line = line_of(self.bench.chip.frame.opcode);
                let (record, _) = self.bench.apply(kind, body);
                self.records.extend(bytes_of(record));
                if record == Record::Verdict(2) {
                    self.open = Some((line, 0));
                } else if self.bench.chip.job.is_none() {
                    self.open = None;
                }
            }
        }
    }

    /// Lets one tick pass.
    fn tick(&mut self) {
        self.bench.apply(4, 0);
        if let Some((line, used)) = self.open {
            self.open = Some((line, used + 1));
            if self.bench.chip.job.is_none() {
                self.jobs.extend(self.open.take());
            }
        }
    }
}

/// A report after more jobs, line by line from the list of all the margins that count.
fn report_after(before: &[Line; 5], allowances: &[u32; 5], jobs: &[(usize, i64)]) -> [Line; 5] {
    let mut report = EMPTY;
    for (place, line) in report.iter_mut().enumerate() {
        let margin = |(_, used): &(usize, i64)| (i64::from(allowances[place]) - used) as i32;
        let new = jobs.iter().filter(|(line, _)| *line == place).map(margin);
        let [mut smallest, mut largest]: [Vec<i32>; 2] = [new.clone().collect(), new.collect()];
        let count = u64::from(before[place].count) + smallest.len() as u64;
        if before[place].count > 0 {
            smallest.push(before[place].smallest);
            largest.push(before[place].largest);
        }
        line.count = count.min(u64::from(u32::MAX)) as u32;
        line.smallest = smallest.into_iter().min().unwrap_or(0);
        line.largest = largest.into_iter().max().unwrap_or(0);
    }
    report
}

/// Random ticks of every form.
fn random_ticks(dice: &mut Dice, counter: &mut u16) -> Vec<u8> {
    let count = dice.below_one_of(&[3, 20, 600, 600]) as u16;
    match dice.below(3) {
        0 => vec![4; usize::from(count.min(20))],
        1 => ticks(count.max(1)),
        _ => {
            *counter = counter.wrapping_add(count);
            stamp(*counter)
        }
    }
}

/// A random script of jobs that are suspended, resumed, dropped and ended, with ticks in frames.
fn random_jobs(dice: &mut Dice) -> Vec<u8> {
    let mut script = Vec::new();
    let mut counter = dice.below(65_536) as u16;
    for _ in 0..dice.below(40) {
        let piece = match dice.below(20) {
            0..=4 => begin(JOBS[dice.below(8) as usize].0),
            5 => frame(JOBS[dice.below(8) as usize].0),
            6..=7 => frame(&[0xB0]),
            8..=9 => frame(&[0x30]),
            10 if dice.below(3) == 0 => reset(),
            11 if dice.below(3) == 0 => vec![7],
            12 => vec![1, 2, [0x05, 0x60, 0x03, 0x06][dice.below(4) as usize]],
            13 => vec![3, dice.below_one_of(&[1, 1, 8]) as u8],
            14 => frame(&addressed(0x02, dice.below(65_536) as u32, &[0x0F])),
            _ => random_ticks(dice, &mut counter),
        };
        script.extend(piece);
    }
    script
}

#[test]
fn report_of_random_scripts_by_hand() {
    let mut dice = Dice(22);
    let mut seen = [0; 5];
    for _ in 0..100 {
        let mut bench = used_bench(1 + dice.below(2) as usize, 0);
        let mut report = if dice.below(2) == 0 { EMPTY } else { ODD };
        for _ in 0..10 {
            let script = random_jobs(&mut dice);
            let allowances = EMPTY.map(|_| dice.below_one_of(&[2, 40, 600, 1_000_001]) as u32);
            let by_hand = ByHand::new(&bench, &script);
            let expected = report_after(&report, &allowances, &by_hand.jobs);
            let records = run_in_room(&mut bench.clone(), &script, room_of(&script));
            assert_eq!(records, by_hand.records);
            report = carried(&mut bench, &script, &allowances, report);
            assert_eq!(report, expected);
            assert!(bench.chip == by_hand.bench.chip && bench.memory == by_hand.bench.memory);
            by_hand.jobs.iter().for_each(|(line, _)| seen[*line] += 1);
        }
    }
    assert!(seen.iter().all(|jobs| *jobs > 20), "{seen:?}");
}

#[test]
fn ticks_used_are_the_steps_and_the_suspended_ticks() {
    let mut dice = Dice(23);
    for (bytes, place, steps) in &JOBS[1..] {
        for _ in 0..30 {
            let mut script = begin(bytes);
            let (mut used, mut left) = (*steps as i32, *steps as i32);
            while left > 1 {
                let (before, idle) = (dice.below(left as u64) as i32, dice.below(500) as i32);
                script.extend(vec![4; before as usize]);
                script.extend(frame(&[0xB0]));
                script.extend(ticks(1 + idle as u16));
                script.extend(frame(&[0x30]));
                left -= before + 1;
                // The last step of a job leaves nothing to suspend, and its event no tick to use.
                used += if left > 0 { idle } else { 0 };
            }
            script.extend(ticks(65_535));
            assert_eq!(report_of(&script), only(*place, one(-used)), "{:02X}", bytes[0]);
        }
    }
}

#[test]
fn state_with_any_job_at_the_start_reports_nothing_of_it() {
    let load = [0x3C; Chip::PAGE];
    let kinds = [
        JobKind::WriteStatus(4),
        JobKind::Program(load),
        JobKind::SmallSectorErase,
        JobKind::SectorErase,
        JobKind::ChipErase,
    ];
    for kind in kinds {
        let mut bench = used_bench(1, 0);
        bench.chip.wen = true;
        bench.chip.job = Some(Job { kind, place: 0, steps_done: 0 });
        bench.chip.selected = true;
        let script = [vec![4, 4, 3, 0], stamp(0), stamp(400)].concat();
        assert_eq!(carried(&mut bench, &script, &[9; 5], EMPTY), EMPTY);
        assert_eq!((bench.chip.job, bench.chip.wen), (None, false));
    }
}
