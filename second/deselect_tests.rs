// Tests of the deselect and its body: how many bits were loose, and what bad bodies are refused by.

use super::model::{body_length, event, run, verdict};
use super::model::{Chip, EventAnswer, JobKind, Record, RunAnswer};
use super::{alone, bytes_of, program, random_chip, refused, room_of, run_in_room};
use super::{used_bench, verdict_of, Bench, Dice, OPCODES, SAMPLE};

/// Every body that a deselect may have.
const BODIES: std::ops::RangeInclusive<u64> = 0..=7;
/// The bodies of deselects with bits loose.
const LOOSE: std::ops::RangeInclusive<u64> = 1..=7;
/// Bodies past the range that a byte can have.
const BAD_BYTES: [u64; 7] = [8, 9, 15, 16, 127, 128, 255];
/// Bodies wider than a byte, most of which would be in the range if only a part of them counted.
const WIDE_BODIES: [u64; 10] =
    [256, 257, 263, 264, 65_536, 65_543, 1 << 32, (1 << 32) + 7, 1 << 63, u64::MAX];
/// Bodies that 08h is tried with. It is no kind, so none of them can matter.
const ANY_BODIES: [u64; 13] = [0, 1, 2, 3, 4, 5, 6, 7, 8, 255, 256, 257, u64::MAX];

/// Bytes of a frame, the verdict of a clean deselect after them and the verdict of a loose one.
type Row = (&'static [u8], u8, u8);

/// Frames on an idle chip without WEN.
const IDLE_ROWS: [Row; 16] = [
    (&[], 0, 0),
    (&[0x06], 1, 4),
    (&[0x06, 0], 4, 4),
    (&[0x05], 0, 0),
    (&[0x05, 0, 0], 0, 0),
    (&[0x03, 0, 0, 0, 0], 0, 0),
    (&[0x0B, 0], 0, 0),
    (&[0x9F, 0, 0], 0, 0),
    (&[0x5A, 0, 0, 0, 0, 0, 0], 0, 0),
    (&[0x77], 3, 3),
    (&[0x77, 0, 0, 0], 3, 3),
    (&[0xB9], 1, 4),
    (&[0x66], 1, 4),
    (&[0x99], 11, 4),
    (&[0x60], 8, 4),
    (&[0x20, 0, 0, 0], 8, 4),
];
/// Frames on an idle chip with WEN.
const ENABLED_ROWS: [Row; 10] = [
    (&[0x04], 1, 4),
    (&[0x01, 0xBC], 2, 4),
    (&[0x20, 0, 0x30, 0], 2, 4),
    (&[0xD7, 0, 0x30], 4, 4),
    (&[0xD8, 0, 0, 0], 2, 4),
    (&[0x60], 2, 4),
    (&[0xC7], 2, 4),
    (&[0x02, 0, 0, 0xFE, 1, 2, 3], 2, 4),
    (&[0x0A, 0, 0, 0, 0], 2, 4),
    (&[0x0A, 0, 0, 0], 4, 4),
];
/// Frames on an armed chip.
const ARMED_ROWS: [Row; 5] =
    [(&[], 0, 0), (&[0x99], 1, 4), (&[0x05], 0, 0), (&[0x77], 3, 3), (&[0xB0], 11, 4)];
/// Frames in deep power-down.
const DEEP_ROWS: [Row; 5] =
    [(&[], 0, 0), (&[0xAB], 1, 4), (&[0xAB, 0, 0, 0, 0], 1, 4), (&[0x06], 5, 5), (&[0x77], 3, 3)];
/// Frames while an erase runs.
const RUNNING_ROWS: [Row; 5] =
    [(&[], 0, 0), (&[0xB0], 1, 4), (&[0x05, 0], 0, 0), (&[0x06], 6, 6), (&[0x30], 6, 6)];
/// Frames while an erase is suspended.
const SUSPENDED_ROWS: [Row; 6] = [
    (&[], 0, 0),
    (&[0x30], 1, 4),
    (&[0x60], 2, 4),
    (&[0x03, 0, 0, 0, 0], 0, 0),
    (&[0x06], 7, 7),
    (&[0xB0], 7, 7),
];
/// Frames on a chip that protects its cells and, WP being low, its status.
const PROTECTED_ROWS: [Row; 2] = [(&[0x60], 9, 4), (&[0x01, 0], 10, 4)];

/// A bench with a frame open, whose next event is to be a deselect, and the verdicts it can give.
struct Open {
    bench: Bench,
    clean: u8,
    loose: u8,
}

/// A bench with used cells on which whole frames have been accepted.
fn after_frames(status: u8, frames: &[&[u8]]) -> Bench {
    let mut bench = used_bench(1, status);
    for bytes in frames {
        assert!(matches!(bench.frame(bytes), 1 | 2));
    }
    bench
}

/// Unselected benches, one for each table of rows.
fn unselected() -> Vec<(Bench, &'static [Row])> {
    let erase: &[u8] = &[0x20, 0, 0x30, 0];
    let running = after_frames(0, &[&[0x06], erase]);
    let mut suspended = running.clone();
    suspended.suspend();
    let mut protected = after_frames(0x9C, &[&[0x06]]);
    protected.apply(6, 0);
    vec![
        (after_frames(0, &[]), &IDLE_ROWS),
        (after_frames(0, &[&[0x06]]), &ENABLED_ROWS),
        (after_frames(0, &[&[0x06], &[0x66]]), &ARMED_ROWS),
        (after_frames(0, &[&[0xB9]]), &DEEP_ROWS),
        (running, &RUNNING_ROWS),
        (suspended, &SUSPENDED_ROWS),
        (protected, &PROTECTED_ROWS),
    ]
}

/// The bench of every row, its bytes having gone in.
fn opens() -> Vec<Open> {
    let mut opens = Vec::new();
    for (before, rows) in unselected() {
        for (bytes, clean, loose) in rows {
            let mut bench = before.clone();
            bench.send(bytes);
            opens.push(Open { bench, clean: *clean, loose: *loose });
        }
    }
    opens
}

/// Every bench above, with a frame open or unselected.
fn benches() -> Vec<Bench> {
    let closed = unselected().into_iter().map(|(bench, _)| bench);
    closed.chain(opens().into_iter().map(|open| open.bench)).collect()
}

/// The state that a frame without effect leaves: unselected, and disarmed if a whole byte went in.
fn without_effect(before: &Chip) -> Chip {
    let armed = before.armed && before.frame.byte_count == 0;
    Chip { selected: false, armed, frame: Chip::fresh(0).frame, ..before.clone() }
}

/// Runs a script that must be good in exactly its room and gives its output and working ticks.
fn run_good(bench: &mut Bench, script: &[u8]) -> (Vec<u8>, u64) {
    let mut output = vec![0; room_of(script)];
    let answer = run(&mut bench.chip, &mut bench.memory, &bench.area, script, &mut output);
    assert_eq!((answer.refusal, answer.offset), (0, 0));
    output.truncate(answer.written);
    (output, answer.ticks)
}

/// The refusal and offset of a script that is bad in itself, so that the room cannot matter.
fn bad_script(bench: &mut Bench, script: &[u8]) -> (u8, usize) {
    let without_room = refused(bench, script, 0);
    assert_eq!(refused(bench, script, 64), without_room);
    without_room
}

#[test]
fn body_0_is_the_byte_boundary() {
    for Open { bench, clean, .. } in opens() {
        let mut after = bench.clone();
        assert_eq!(verdict_of(after.deselect(0)), clean, "{:02X}", bench.chip.frame.opcode);
        let acted = matches!(clean, 1 | 2);
        assert_eq!(after.chip != without_effect(&bench.chip), acted);
        assert!(after.memory == bench.memory);
    }
}

#[test]
fn bodies_1_to_7_are_loose_and_all_alike() {
    for Open { bench, loose, .. } in opens() {
        for bits in LOOSE {
            let mut after = bench.clone();
            let record = Record::Verdict(loose);
            assert_eq!(alone(&mut after, 3, bits), EventAnswer { refusal: 0, record, ticks: 0 });
            assert_eq!(after.chip, without_effect(&bench.chip));
            assert!(after.memory == bench.memory);
        }
    }
}

#[test]
fn alone_a_body_past_7_is_refused_by_6() {
    for mut bench in benches() {
        for body in BAD_BYTES.into_iter().chain(WIDE_BODIES) {
            assert_eq!(alone(&mut bench, 3, body).refusal, 6, "{body}");
        }
    }
    let Bench { mut chip, mut memory, .. } = after_frames(0, &[&[0x06]]);
    let before = chip.clone();
    for body in 8..=70_000 {
        assert_eq!(event(&mut chip, &mut memory, &[], 3, body).refusal, 6, "{body}");
    }
    assert_eq!(chip, before);
}

#[test]
fn alone_08h_is_unknown_with_any_body() {
    for mut bench in benches() {
        for body in ANY_BODIES {
            assert_eq!(alone(&mut bench, 8, body).refusal, 5, "{body}");
        }
    }
}

#[test]
fn alone_the_known_kinds_are_1_to_7() {
    for kind in (0..=600).chain([(1 << 32) + 3, (1 << 56) + 3, u64::MAX - 4]) {
        let mut bench = used_bench(1, 0);
        let known = (1..=7).contains(&kind);
        assert_eq!(alone(&mut bench, kind, 1).refusal, if known { 0 } else { 5 }, "{kind}");
        if !known {
            assert_eq!(alone(&mut bench, kind, u64::MAX).refusal, 5);
        }
    }
}

#[test]
fn body_lengths_of_the_known_kinds() {
    let lengths = [(1, 0), (2, 1), (3, 1), (4, 0), (5, 2), (6, 1), (7, 0), (9, 2)];
    for kind in 0..=255 {
        let expected = lengths.iter().find(|(known, _)| *known == kind);
        assert_eq!(body_length(kind), expected.map(|(_, length)| *length), "{kind}");
    }
}

#[test]
fn what_is_lent_is_refused_before_any_deselect() {
    let events = [(3, 0), (3, 8), (3, u64::MAX), (8, 1), (8, u64::MAX)];
    let scripts: [&[u8]; 5] = [&[3, 0], &[3], &[3, 8], &[8, 1], &[8]];
    let check = |bench: &mut Bench, refusal: u8| {
        for (kind, body) in events {
            assert_eq!(alone(bench, kind, body).refusal, refusal);
        }
        for script in scripts {
            assert_eq!(bad_script(bench, script), (refusal, 0));
        }
    };
    let mut bench = after_frames(0, &[&[0x06]]);
    bench.send(&[0x60]);
    bench.chip.level = 8;
    check(&mut bench, 2);
    bench.area.resize(257, 0);
    check(&mut bench, 13);
    bench.memory.pop();
    check(&mut bench, 1);
}

#[test]
fn script_that_ends_with_03h_is_refused_by_4() {
    for mut bench in benches() {
        assert_eq!(bad_script(&mut bench, &[3]), (4, 0));
        assert_eq!(bad_script(&mut bench, &[1, 2, 6, 3]), (4, 3));
        assert_eq!(bad_script(&mut bench, &[3, 0, 3]), (4, 2));
        assert_eq!(bad_script(&mut bench, &[3, 3, 3]), (4, 2));
        assert_eq!(bad_script(&mut bench, &[2, 3, 3]), (4, 2));
        assert_eq!(bad_script(&mut bench, &[6, 1, 3]), (4, 2));
        assert_eq!(bad_script(&mut bench, &[7, 3]), (4, 1));
        assert_eq!(bad_script(&mut bench, &[5, 0, 3, 3]), (4, 3));
    }
}

#[test]
fn script_with_a_body_past_7_is_refused_by_6() {
    let mut bench = after_frames(0, &[&[0x06]]);
    bench.send(&[0x60]);
    for body in 8..=255 {
        assert_eq!(bad_script(&mut bench, &[3, body]), (6, 0));
        assert_eq!(bad_script(&mut bench, &[3, 0, 4, 3, body]), (6, 3));
        assert_eq!(bad_script(&mut bench, &[2, 3, 3, body, 3, 0]), (6, 2));
    }
}

#[test]
fn script_with_08h_is_refused_by_5() {
    let mut bench = after_frames(0, &[&[0x06]]);
    bench.send(&[0x60]);
    assert_eq!(bad_script(&mut bench, &[8]), (5, 0));
    assert_eq!(bad_script(&mut bench, &[3, 0, 8]), (5, 2));
    for after in 0..=255 {
        assert_eq!(bad_script(&mut bench, &[8, after]), (5, 0));
        assert_eq!(bad_script(&mut bench, &[3, 0, 4, 8, after]), (5, 3));
        assert_eq!(bad_script(&mut bench, &[2, 8, 8, after, 3, 0]), (5, 2));
    }
}

#[test]
fn first_bad_event_decides() {
    let cases: [(&[u8], (u8, usize)); 14] = [
        (&[3, 8, 8, 0], (6, 0)),
        (&[8, 0, 3, 8], (5, 0)),
        (&[8, 3], (5, 0)),
        (&[10, 3], (5, 0)),
        (&[3, 8, 3], (6, 0)),
        (&[3, 255, 10], (6, 0)),
        (&[3, 0, 3, 8, 10], (6, 2)),
        (&[3, 7, 8, 3], (5, 2)),
        (&[3, 7, 10, 3, 8], (5, 2)),
        (&[1, 2, 6, 3, 0, 8, 1], (5, 5)),
        (&[1, 2, 6, 3, 1, 3, 9, 8], (6, 5)),
        (&[6, 3, 3, 8], (6, 0)),
        (&[4, 3, 9, 5], (6, 1)),
        (&[3, 0, 5, 3], (4, 2)),
    ];
    for (script, expected) in cases {
        for mut bench in [used_bench(1, 0), after_frames(0, &[&[0x06], &[0x60]])] {
            assert_eq!(bad_script(&mut bench, script), expected, "{script:?}");
        }
    }
}

#[test]
fn two_bytes_03h_are_one_deselect_of_three_bits() {
    let mut bench = used_bench(1, 0);
    assert_eq!(run_in_room(&mut bench, &[3, 3], 3), [0x82, 0]);
    assert_eq!(run_in_room(&mut bench, &[1, 2, 6, 3, 3], 5), [0x80, 0x82, 4]);
    assert_eq!(bench.chip, Chip::fresh(0));
    assert_eq!(run_in_room(&mut bench, &[3, 3, 3, 3], 6), [0x82, 0, 0x82, 0]);
    assert_eq!(run_in_room(&mut bench, &[2, 3, 3, 3], 5), [0x80, 0x82, 0]);
    assert_eq!(program::report(&[3, 3]), "part 65536\n0 V0\nanswer 0 ticks 0\n");
}

#[test]
fn body_is_never_taken_for_a_kind() {
    let running = after_frames(0, &[&[0x06], &[0x20, 0, 0x30, 0]]);
    let mut one_tick_on = running.clone();
    one_tick_on.apply(4, 0);
    for body in 0..=7 {
        let mut bench = running.clone();
        assert_eq!(run_good(&mut bench, &[3, body, 4]), (vec![0x82, 0], 1), "{body}");
        assert!(bench.chip == one_tick_on.chip && bench.memory == one_tick_on.memory);
        let mut bench = running.clone();
        let records = vec![0x82, 0, 0x82, 0];
        assert_eq!(run_good(&mut bench, &[3, body, 3, body, 4]), (records, 1));
        assert!(bench.chip == one_tick_on.chip && bench.memory == one_tick_on.memory);
    }
}

#[test]
fn body_1_selects_nothing() {
    let mut bench = used_bench(1, 0);
    assert_eq!(run_in_room(&mut bench, &[3, 1, 2, 5, 2, 0], 7), [0x82, 0, 0x80, 0x80]);
    assert_eq!(bench.chip, Chip::fresh(0));
    let script = [1, 2, 6, 3, 1, 2, 5, 2, 0, 3, 0];
    let records = [0x80, 0x82, 4, 0x80, 0x80, 0x82, 0];
    assert_eq!(run_in_room(&mut bench, &script, 12), records);
    assert_eq!(bench.chip, Chip::fresh(0));
}

#[test]
fn deselect_needs_room_3_whatever_its_body() {
    let mut bench = used_bench(1, 0);
    for body in 0..=7 {
        assert_eq!(run_in_room(&mut bench, &[3, body], 3), [0x82, 0]);
        assert_eq!(run_in_room(&mut bench, &[3, body].repeat(5), 15), [0x82, 0].repeat(5));
        assert_eq!(run_in_room(&mut bench, &[2, body, 3, body], 5), [0x80, 0x82, 0]);
        assert_eq!(run_in_room(&mut bench, &[1, 3, body, 4, 3, 0], 6), [0x82, 0, 0x82, 0]);
        let records = [0x80, 0x80, 0x82, 3];
        assert_eq!(run_in_room(&mut bench, &[1, 2, 0x77, 2, 3, 3, body], 7), records);
    }
}

#[test]
fn longest_scripts_of_deselects() {
    let mut bench = used_bench(1, 0);
    for body in [0, 7] {
        let script = [3, body].repeat(32_768);
        assert_eq!(run_in_room(&mut bench, &script, 98_304), [0x82, 0].repeat(32_768));
    }
    let but_one = [3, 7].repeat(32_767);
    assert_eq!(bad_script(&mut bench, &[&but_one[..], &[4, 3]].concat()), (4, 65_535));
    assert_eq!(bad_script(&mut bench, &[&but_one[..], &[3, 8]].concat()), (6, 65_534));
    assert_eq!(bad_script(&mut bench, &[&but_one[..], &[8, 3]].concat()), (5, 65_534));
    assert_eq!(bad_script(&mut bench, &[&but_one[..], &[3, 0, 3]].concat()), (3, 0));
}

/// The sample with the bodies of its deselects left out. The first 03h takes the 01h behind it for
/// its body, so that one bit is loose and no select follows; the last 03h has nothing behind it.
const BODILESS: [u8; 10] = [1, 2, 6, 3, 1, 2, 5, 2, 0, 3];

#[test]
fn script_without_the_bodies_ends_inside_its_last_deselect() {
    let mut bench = used_bench(1, 0);
    assert_eq!(bad_script(&mut bench, &BODILESS), (4, 9));
    assert_eq!(program::report(&BODILESS), "part 65536\nanswer 4 at 9\n");
    let completed = [&BODILESS[..], &[0]].concat();
    let text = "part 65536\n1 --\n3 V4\n5 --\n7 --\n9 V0\nanswer 0 ticks 0\n";
    assert_eq!(program::report(&completed), text);
    let with_bodies = [&BODILESS[..4], &[0], &BODILESS[4..], &[0]].concat();
    assert_eq!(with_bodies, SAMPLE);
}

/// The room of a script, or its refusal and offset, by the table of kinds read event by event. The
/// script has to be too short for a second stamp, so that none can go back.
fn plain_check(script: &[u8]) -> Result<usize, (u8, usize)> {
    let (mut room, mut offset) = (0, 0);
    while offset < script.len() {
        let (length, in_range, needed) = match (script[offset], &script[offset + 1..]) {
            (1 | 4 | 7, _) => (1, true, 0),
            (2 | 3 | 5 | 6 | 9, []) | (5 | 9, [_]) => return Err((4, offset)),
            (2, _) => (2, true, 2),
            (3, [loose_bits, ..]) => (2, *loose_bits < 8, 3),
            (5, [high, low, ..]) => (3, *high > 0 || *low > 0, 0),
            (6, [level, ..]) => (2, *level < 2, 0),
            (9, [_, _, ..]) => (3, true, 0),
            _ => return Err((5, offset)),
        };
        if !in_range {
            return Err((6, offset));
        }
        room += needed;
        offset += length;
    }
    Ok(room)
}

/// Every script of that many bytes in which only the kinds, their neighbours and FFh come.
fn scripts_of(length: usize) -> Vec<Vec<u8>> {
    let mut scripts = vec![Vec::new()];
    for _ in 0..length {
        let longer = |script: &Vec<u8>| {
            let script = script.clone();
            (0..=10).chain([255]).map(move |byte| [&script[..], &[byte]].concat())
        };
        scripts = scripts.iter().flat_map(longer).collect();
    }
    scripts
}

#[test]
fn every_short_script_by_the_table() {
    let mut open = after_frames(0, &[&[0x06]]);
    open.send(&[0x60]);
    let mut seen = [0; 7];
    for script in (0..=4).flat_map(scripts_of) {
        let mut bench = open.clone();
        let mut output = [0xEE; 12];
        let answer = run(&mut bench.chip, &mut bench.memory, &[], &script, &mut output);
        match plain_check(&script) {
            Err((refusal, offset)) => {
                assert_eq!(answer, RunAnswer { refusal, offset, written: 0, ticks: 0 });
                assert!(bench.chip == open.chip && bench.memory == open.memory);
                assert_eq!(output, [0xEE; 12]);
            }
            Ok(room) => {
                assert_eq!((answer.refusal, answer.offset), (0, 0), "{script:?}");
                let records = run_in_room(&mut open.clone(), &script, room);
                assert_eq!(output[..answer.written], records);
            }
        }
        seen[usize::from(answer.refusal)] += 1;
    }
    assert!([0, 4, 5, 6].iter().all(|refusal| seen[*refusal] > 500), "{seen:?}");
}

#[test]
fn run_of_one_deselect_is_the_event_alone() {
    for bench in benches() {
        for bits in BODIES {
            let (mut by_run, mut by_event) = (bench.clone(), bench.clone());
            let (records, ticks) = run_good(&mut by_run, &[3, bits as u8]);
            assert_eq!((records, ticks), (bytes_of(by_event.deselect(bits)), 0));
            assert!(by_run.chip == by_event.chip && by_run.memory == by_event.memory);
        }
    }
}

/// Random legal states of a two-sector part that a check can be shown, with their memory.
fn at_random(seed: u64, mut check: impl FnMut(Chip, &mut [u8])) {
    let mut dice = Dice(seed);
    let Bench { mut memory, .. } = used_bench(2, 0);
    let before = memory.clone();
    for _ in 0..4_000 {
        check(random_chip(&mut dice, memory.len()), &mut memory);
    }
    assert!(memory == before);
}

#[test]
fn unselected_every_body_is_verdict_0_and_does_nothing() {
    let mut seen = 0;
    at_random(9, |chip, memory| {
        if chip.selected {
            return;
        }
        for bits in BODIES {
            let mut after = chip.clone();
            let answer = event(&mut after, memory, &[], 3, bits);
            let record = Record::Verdict(0);
            assert_eq!(answer, EventAnswer { refusal: 0, record, ticks: 0 });
            assert_eq!(after, chip);
        }
        seen += 1;
    });
    assert!(seen > 1_000, "{seen}");
}

#[test]
fn empty_frame_is_verdict_0_loose_or_not() {
    let (mut seen, mut armed) = (0, 0);
    at_random(10, |chip, memory| {
        if chip.selected {
            return;
        }
        for bits in BODIES {
            let mut after = Chip { selected: true, ..chip.clone() };
            let answer = event(&mut after, memory, &[], 3, bits);
            assert_eq!((answer.refusal, answer.record), (0, Record::Verdict(0)));
            assert_eq!(after, chip);
        }
        seen += 1;
        armed += usize::from(chip.armed);
    });
    assert!(seen > 1_000 && armed > 100, "{seen} {armed}");
}

#[test]
fn read_is_verdict_0_loose_or_not() {
    let check = |bench: &Bench, opcodes: &[u8]| {
        for (opcode, length) in opcodes.iter().flat_map(|byte| (1..=8).map(move |n| (*byte, n))) {
            let mut open = bench.clone();
            open.send(&vec![opcode; length]);
            for bits in BODIES {
                let mut chip = open.chip.clone();
                let answer = event(&mut chip, &mut open.memory, &open.area, 3, bits);
                assert_eq!((answer.refusal, answer.record), (0, Record::Verdict(0)));
                assert_eq!(chip, without_effect(&open.chip));
            }
        }
    };
    check(&after_frames(0xBC, &[&[0x06], &[0x66]]), &[0x05, 0x03, 0x0B, 0x9F, 0x5A]);
    let mut busy = after_frames(0, &[&[0x06], &[0x60]]);
    check(&busy, &[0x05]);
    busy.suspend();
    check(&busy, &[0x05, 0x03, 0x0B]);
}

#[test]
fn judgement_stands_even_a_wrong_one_loose_or_not() {
    let Bench { mut chip, mut memory, .. } = after_frames(0, &[&[0x06], &[0x66]]);
    chip.selected = true;
    for (opcode, judged) in (0..=255).flat_map(|opcode| [3, 5, 6, 7].map(|v| (opcode, v))) {
        chip.frame.opcode = opcode;
        chip.frame.judgement = Some(judged);
        for byte_count in 1..=6 {
            chip.frame.byte_count = byte_count;
            for bits in BODIES {
                let mut after = chip.clone();
                let answer = event(&mut after, &mut memory, &[], 3, bits);
                assert_eq!((answer.refusal, answer.record), (0, Record::Verdict(judged)));
                assert_eq!(after, without_effect(&chip));
            }
        }
    }
}

#[test]
fn loose_write_enable_and_disable_leave_wen() {
    for (wen, status) in [(false, 0x00), (true, 0x02)] {
        for (opcode, bits) in [0x06, 0x04].into_iter().flat_map(|op| LOOSE.map(move |n| (op, n))) {
            let mut bench = used_bench(1, 0);
            bench.chip.wen = wen;
            let before = bench.chip.clone();
            bench.send(&[opcode]);
            assert_eq!(bench.deselect(bits), Record::Verdict(4));
            assert_eq!(bench.chip, before);
            let script = [1, 2, opcode, 3, bits as u8, 1, 2, 5, 2, 0, 3, 0];
            let records = vec![0x80, 0x82, 4, 0x80, 0x81, status, 0x82, 0];
            assert_eq!(run_good(&mut bench, &script), (records, 0));
            bench.send(&[opcode]);
            assert_eq!(bench.deselect(0), Record::Verdict(1));
            assert_eq!(bench.chip.wen, opcode == 0x06);
        }
    }
}

#[test]
fn every_command_loose_by_every_count() {
    let reads = [0x05, 0x03, 0x0B, 0x9F, 0x5A];
    for (opcode, length) in OPCODES.iter().flat_map(|opcode| (1..=6).map(move |n| (opcode, n))) {
        let mut bench = after_frames(0, &[&[0x06], &[0x66]]);
        let mut bytes = vec![0; length];
        bytes[0] = *opcode;
        bench.send(&bytes);
        for bits in LOOSE {
            let mut chip = bench.chip.clone();
            let answer = event(&mut chip, &mut bench.memory, &[], 3, bits);
            let expected = if reads.contains(opcode) { 0 } else { 4 };
            assert_eq!(answer.record, Record::Verdict(expected), "{opcode:02X} {length}");
            assert_eq!(chip, without_effect(&bench.chip));
        }
    }
}

/// A state with an unjudged frame of a command open in place of any other.
fn with_frame(chip: &Chip, opcode: u8, byte_count: u8) -> Chip {
    let mut chip = Chip { selected: true, frame: Chip::fresh(0).frame, ..chip.clone() };
    (chip.frame.opcode, chip.frame.byte_count) = (opcode, byte_count);
    chip
}

/// Commands with a byte count that fits them, so that only loose bits can spoil their frames.
const FITTING: [(u8, u8); 8] =
    [(0x06, 1), (0x60, 1), (0xB0, 1), (0x30, 1), (0x99, 1), (0x01, 2), (0x20, 4), (0x02, 5)];

#[test]
fn loose_bits_change_the_verdict_only_past_the_reads() {
    let mut seen = [0; 12];
    let mut check = |chip: &Chip, memory: &mut [u8]| {
        let clean = verdict(chip, memory.len(), false);
        let loose = if matches!(clean, 0 | 3 | 5 | 6 | 7) { clean } else { 4 };
        for bits in BODIES {
            let mut after = chip.clone();
            let answer = event(&mut after, memory, &[], 3, bits);
            assert_eq!(verdict_of(answer.record), if bits == 0 { clean } else { loose });
            if bits > 0 {
                assert_eq!(after, without_effect(chip));
            }
        }
        seen[usize::from(clean)] += 1;
    };
    at_random(11, |chip, memory| {
        if chip.selected {
            check(&chip, memory);
        }
        for (opcode, byte_count) in OPCODES.into_iter().zip((1..=6).cycle()) {
            check(&with_frame(&chip, opcode, byte_count), memory);
        }
        for (opcode, byte_count) in FITTING {
            check(&with_frame(&chip, opcode, byte_count), memory);
        }
    });
    assert!(seen.iter().all(|times| *times > 100), "{seen:?}");
}

#[test]
fn program_prints_one_line_a_deselect_at_its_kind() {
    let text = "part 65536\n1 --\n3 V4\n5 V0\n8 V0\n10 --\n12 V0\nanswer 0 ticks 0\n";
    let script = [1, 2, 6, 3, 2, 3, 3, 1, 3, 5, 2, 3, 3, 0];
    assert_eq!(program::report(&script), text);
    for body in 0..=7 {
        let text = "part 65536\n0 V0\n3 V0\nanswer 0 ticks 0\n";
        assert_eq!(program::report(&[3, body, 4, 3, body]), text);
        let verdict = if body == 0 { 1 } else { 4 };
        let text = format!("part 65536\n1 --\n3 V{verdict}\nanswer 0 ticks 0\n");
        assert_eq!(program::report(&[1, 2, 6, 3, body]), text);
    }
}

#[test]
fn program_refuses_what_a_run_refuses() {
    let answers: [(&[u8], &str); 7] = [
        (&[3], "answer 4 at 0"),
        (&[1, 2, 6, 3], "answer 4 at 3"),
        (&[3, 8], "answer 6 at 0"),
        (&[3, 0, 3, 255], "answer 6 at 2"),
        (&[8, 1], "answer 5 at 0"),
        (&[8], "answer 5 at 0"),
        (&[3, 7, 8, 3], "answer 5 at 2"),
    ];
    for (script, answer) in answers {
        assert_eq!(program::report(script), format!("part 65536\n{answer}\n"));
    }
    let full = [&[4][..], &[3, 0].repeat(2_047), &[3]].concat();
    assert_eq!(program::report(&full), "part 65536\nanswer 4 at 4095\n");
    assert_eq!(program::report(&[&full[..], &[0]].concat()), "too long\n");
}

/// One of the paper's cases as a script: the part, its status, some cells, and what comes of it.
struct Case {
    sectors: usize,
    status: u8,
    cells: &'static [(usize, u8)],
    script: &'static [u8],
    output: &'static [u8],
    ticks: u64,
}

impl Case {
    /// Runs the script on a blank part with the cells and checks its output and working ticks.
    fn check(&self) {
        let mut bench = Bench::new(self.sectors, self.status);
        for (place, cell) in self.cells {
            bench.memory[*place] = *cell;
        }
        let (output, ticks) = run_good(&mut bench, self.script);
        assert_eq!((&output[..], ticks), (self.output, self.ticks));
    }
}

#[test]
fn p1_to_p5_as_scripts() {
    let p1 = Case {
        sectors: 32,
        status: 0,
        cells: &[(2_097_151, 0x12), (0, 0x34)],
        script: &[1, 2, 0x03, 2, 0x1F, 2, 0xFF, 2, 0xFF, 2, 0, 2, 0, 3, 0],
        output: &[0x80, 0x80, 0x80, 0x80, 0x81, 0x12, 0x81, 0x34, 0x82, 0],
        ticks: 0,
    };
    let p3 = Case {
        sectors: 1,
        status: 0,
        cells: &[],
        script: &[
            1, 2, 0x06, 3, 0, // write enable
            1, 2, 0x05, 2, 0, 3, 0, // status
            1, 2, 0x02, 2, 0, 2, 0, 2, 0, 2, 0, 3, 0, // program
            1, 2, 0x05, 2, 0, 3, 0, // status
            1, 2, 0xB0, 3, 0, 4, // suspend and its tick
            1, 2, 0x05, 2, 0, 3, 0, // status
        ],
        output: &[
            0x80, 0x82, 1, // write enable
            0x80, 0x81, 0x02, 0x82, 0, // status
            0x80, 0x80, 0x80, 0x80, 0x80, 0x82, 2, // program
            0x80, 0x81, 0x03, 0x82, 0, // status
            0x80, 0x82, 1, // suspend
            0x80, 0x81, 0x42, 0x82, 0, // status
        ],
        ticks: 1,
    };
    let p4 = Case {
        sectors: 1,
        status: 0,
        cells: &[],
        script: &[1, 2, 0x06, 3, 0, 1, 2, 0x01, 2, 0xFF, 3, 0, 4, 1, 2, 0x05, 2, 0, 3, 0],
        output: &[0x80, 0x82, 1, 0x80, 0x80, 0x82, 2, 0x80, 0x81, 0xBC, 0x82, 0],
        ticks: 1,
    };
    let p5 = Case {
        sectors: 1,
        status: 0,
        cells: &[(7, 0xF0)],
        script: &[
            1, 2, 0x06, 3, 0, // write enable
            1, 2, 0x02, 2, 0, 2, 0, 2, 7, 2, 0x0F, 3, 0, 5, 0, 16, // program and its ticks
            1, 2, 0x03, 2, 0, 2, 0, 2, 7, 2, 0, 3, 0, // read
        ],
        output: &[
            0x80, 0x82, 1, // write enable
            0x80, 0x80, 0x80, 0x80, 0x80, 0x82, 2, // program
            0x80, 0x80, 0x80, 0x80, 0x81, 0x00, 0x82, 0, // read
        ],
        ticks: 16,
    };
    [p1, p3, p4, p5].iter().for_each(Case::check);
}

#[test]
fn p6_to_p10_as_scripts() {
    let p6 = Case {
        sectors: 32,
        status: 0x04,
        cells: &[],
        script: &[
            1, 2, 0x06, 3, 0, // write enable
            1, 2, 0x20, 2, 0x1F, 2, 0, 2, 0, 3, 0, // 1F0000h
            1, 2, 0x20, 2, 0x1E, 2, 0xFF, 2, 0xFF, 3, 0, // 1EFFFFh
        ],
        output: &[
            0x80, 0x82, 1, 0x80, 0x80, 0x80, 0x80, 0x83, 31, 31, 0x80, 0x80, 0x80, 0x80, 0x82, 2,
        ],
        ticks: 0,
    };
    let p7 = |status| Case {
        sectors: 1,
        status,
        cells: &[],
        script: &[
            1, 2, 0x06, 3, 0, // write enable
            1, 2, 0x20, 2, 0, 2, 0, 2, 0, 3, 0, // the first cell
            1, 2, 0x20, 2, 0, 2, 0xFF, 2, 0xFF, 3, 0, // the last cell
        ],
        output: &[
            0x80, 0x82, 1, 0x80, 0x80, 0x80, 0x80, 0x83, 0, 0, 0x80, 0x80, 0x80, 0x80, 0x83, 0, 0,
        ],
        ticks: 0,
    };
    let p8 = Case {
        sectors: 1,
        status: 0,
        cells: &[],
        script: &[1, 2, 0x66, 3, 0, 1, 2, 0x05, 3, 0, 1, 2, 0x99, 3, 0],
        output: &[0x80, 0x82, 1, 0x80, 0x82, 0, 0x80, 0x82, 11],
        ticks: 0,
    };
    let p10 = Case {
        sectors: 1,
        status: 0,
        cells: &[],
        script: &[1, 2, 0x06, 3, 0, 1, 2, 0x20, 2, 0, 2, 0, 3, 0],
        output: &[0x80, 0x82, 1, 0x80, 0x80, 0x80, 0x82, 4],
        ticks: 0,
    };
    [p6, p7(0x14), p7(0x34), p8, p10].iter().for_each(Case::check);
}

#[test]
fn p2_as_a_script() {
    let mut script = vec![1, 2, 0x06, 3, 0, 1, 2, 0x02, 2, 0, 2, 0, 2, 250];
    script.extend((0..260).flat_map(|j| [2, (j % 251) as u8]));
    script.extend([3, 0]);
    let mut bench = Bench::new(32, 0);
    let records = [&[0x80, 0x82, 1][..], &[0x80; 264], &[0x82, 2]].concat();
    assert_eq!(run_good(&mut bench, &script), (records, 0));
    let job = bench.chip.job.unwrap();
    let JobKind::Program(load) = job.kind else { panic!() };
    assert_eq!([250, 253, 254, 255, 0, 249].map(|place| load[place]), [5, 8, 4, 5, 6, 4]);
}

#[test]
fn p9_as_a_script() {
    let mut bench = Bench::new(1, 0);
    bench.memory.fill(0x5A);
    let mut script = vec![1, 2, 0x06, 3, 0, 1, 2, 0x20, 2, 0, 2, 0x10, 2, 0, 3, 0, 5, 0, 15];
    script.extend([1, 2, 0x05, 2, 0, 3, 0]);
    let mut records = vec![0x80, 0x82, 1, 0x80, 0x80, 0x80, 0x80, 0x82, 2];
    records.extend([0x80, 0x81, 0x03, 0x82, 0]);
    assert_eq!(run_good(&mut bench, &script), (records, 15));
    assert!(bench.memory[0x1000..0x1F00].iter().all(|cell| *cell == 0xFF));
    assert!(bench.memory[0x1F00..0x2000].iter().all(|cell| *cell == 0x5A));
    let last = run_good(&mut bench, &[4, 1, 2, 0x05, 2, 0, 3, 0]);
    assert_eq!(last, (vec![0x80, 0x81, 0x00, 0x82, 0], 1));
    assert!(bench.memory[0x1000..0x2000].iter().all(|cell| *cell == 0xFF));
    assert_eq!((bench.memory[0x0FFF], bench.memory[0x2000]), (0x5A, 0x5A));
}
