// Tests of the script writer: its refusals, the bytes of its scripts and what a run of them does.

use super::model::{run, Chip, RunAnswer};
use super::sfdp::CONTENT;
use super::writer::{script_of, write_program, Written, LONGEST_DATA};
use super::{events_of, mixed, protected_walk, refused, room_of, used_bench};
use super::{Bench, Dice, REAL, SECTORS};

/// The lengths of data that the tests go through, on each side of a page and at both ends.
const DATA_LENGTHS: [usize; 6] = [0, 1, 255, 256, 257, 4_096];
/// Room that no script of the writer needs.
const AMPLE: usize = 20_000;

/// The lengths that a memory may have.
fn memory_lengths() -> [usize; 6] {
    SECTORS.map(|sectors| sectors * Chip::SECTOR)
}

/// The number of pages that a range touches, each of which takes a piece.
fn pieces_of(address: usize, length: usize) -> usize {
    match length {
        0 => 0,
        _ => (address + length - 1) / 256 - address / 256 + 1,
    }
}

/// Bytes of a piece's script but for its data: a write enable frame (select, opcode, deselect), a
/// 02h frame (select, opcode and three address bytes, deselect) and the ticks.
const PIECE: usize = (1 + 2 + 2) + (1 + 4 * 2 + 2) + 3;

/// The length of the script for a range: each data byte is an exchange.
fn script_length(address: usize, length: usize) -> usize {
    PIECE * pieces_of(address, length) + 2 * length
}

/// The script for data at an address, written by a walk over the cells that looks for page edges.
fn walked_script(address: usize, data: &[u8]) -> Vec<u8> {
    let mut script = Vec::new();
    for (j, byte) in data.iter().enumerate() {
        let place = address + j;
        let [_, high, middle, low] = (place as u32).to_be_bytes();
        if j == 0 || place % 256 == 0 {
            script.extend([1, 2, 0x06, 3, 0]);
            script.extend([1, 2, 0x02, 2, high, 2, middle, 2, low]);
        }
        script.extend([2, *byte]);
        if j + 1 == data.len() || place % 256 == 255 {
            script.extend([3, 0, 5, 0, 16]);
        }
    }
    script
}

/// What the writer answers when it refuses.
fn refused_by(refusal: u8) -> Written {
    Written { refusal, written: 0 }
}

/// The writer's refusal of a range in an output of that room, 0 when there is none, after a check
/// of the output: untouched if refused, and otherwise only in its first bytes. No byte written can
/// hide, since each stands out from one of the two fillings.
fn answer_in(memory_length: usize, address: usize, data_length: usize, room: usize) -> u8 {
    let data = mixed(data_length);
    let answers = [0x00, 0xFF].map(|filling| {
        let mut output = vec![filling; room];
        let answer = write_program(memory_length, address, &data, &mut output);
        assert!(output[answer.written..].iter().all(|byte| *byte == filling));
        if answer.refusal == 0 {
            assert!(output[..answer.written] == walked_script(address, &data));
        } else {
            assert_eq!(answer, refused_by(answer.refusal));
        }
        answer
    });
    assert_eq!(answers[0], answers[1]);
    answers[0].refusal
}

/// The writer's refusal of a range where there is room enough.
fn answer(memory_length: usize, address: usize, data_length: usize) -> u8 {
    answer_in(memory_length, address, data_length, AMPLE)
}

/// The script of a range that nothing refuses, from an output that it fills to the last byte.
fn good_script(memory_length: usize, address: usize, data: &[u8]) -> Vec<u8> {
    let mut output = vec![0xEE; script_length(address, data.len())];
    let answer = write_program(memory_length, address, data, &mut output);
    assert_eq!(answer, Written { refusal: 0, written: output.len() });
    output
}

#[test]
fn writer_1_for_all_but_the_six_lengths() {
    for sectors in 0..=64 {
        let length = sectors * Chip::SECTOR;
        let known = SECTORS.contains(&sectors);
        for data_length in [0, 1] {
            assert_eq!(answer(length, 0, data_length), if known { 0 } else { 1 });
            assert_eq!(answer(length + 1, 0, data_length), 1);
            assert_eq!(answer(length.wrapping_sub(1), 0, data_length), 1);
        }
    }
    for length in [usize::MAX, usize::MAX - 65_535, usize::MAX / 2 + 1, (1 << 31) + Chip::SECTOR] {
        assert_eq!(answer(length, 0, 0), 1);
        assert_eq!(answer(length, usize::MAX, 4_097), 1);
    }
}

#[test]
fn writer_20_past_4096_bytes() {
    assert_eq!(LONGEST_DATA, 4_096);
    for length in memory_lengths() {
        for address in [0, 1, length - 4_097] {
            assert_eq!(answer(length, address, 4_095), 0);
            assert_eq!(answer(length, address, 4_096), 0);
            assert_eq!(answer(length, address, 4_097), 20);
            assert_eq!(answer(length, address, 65_536), 20);
        }
    }
}

#[test]
fn writer_21_at_or_past_the_end() {
    for length in memory_lengths() {
        for data_length in [0, 1] {
            assert_eq!(answer(length, length - 1, data_length), 0);
            for address in [length, length + 1, REAL, 1 << 24, usize::MAX - 1, usize::MAX] {
                assert_eq!(answer(length, address, data_length), 21, "{length} {address}");
            }
        }
    }
}

#[test]
fn writer_22_past_the_top() {
    for length in memory_lengths() {
        for data_length in [2, 255, 256, 257, 4_095, 4_096] {
            assert_eq!(answer(length, length - data_length, data_length), 0);
            assert_eq!(answer(length, length - data_length + 1, data_length), 22);
            assert_eq!(answer(length, length - 1, data_length), 22);
        }
        assert_eq!(answer(length, length - 1, 0), 0);
        assert_eq!(answer(length, length - 1, 1), 0);
    }
}

#[test]
fn writer_23_in_every_room() {
    for (address, data_length, needed) in [(0, 0, 0), (9, 1, 21), (255, 2, 42), (0, 256, 531)] {
        for room in 0..needed {
            assert_eq!(answer_in(Chip::SECTOR, address, data_length, room), 23);
        }
        for room in needed..needed + 4 {
            assert_eq!(answer_in(Chip::SECTOR, address, data_length, room), 0);
        }
    }
}

#[test]
fn writer_refusals_in_their_order() {
    let pairs = [
        (65_535, 0, 4_097, AMPLE, 1),
        (65_535, 65_535, 0, AMPLE, 1),
        (65_535, 65_534, 2, AMPLE, 1),
        (65_535, 0, 1, 0, 1),
        (65_536, 65_536, 4_097, AMPLE, 20),
        (65_536, 65_535, 4_097, AMPLE, 20),
        (65_536, 0, 4_097, 0, 20),
        (65_536, 65_536, 1, AMPLE, 21),
        (65_536, 65_536, 1, 0, 21),
        (65_536, 65_535, 2, 0, 22),
    ];
    for (length, address, data_length, room, first) in pairs {
        assert_eq!(answer_in(length, address, data_length, room), first);
    }
    let one_fault_less_each = [
        (usize::MAX, usize::MAX, 4_097, 0, 1),
        (65_536, usize::MAX, 4_097, 0, 20),
        (65_536, usize::MAX, 4_096, 0, 21),
        (65_536, 61_441, 4_096, 0, 22),
        (65_536, 61_440, 4_096, 0, 23),
        (65_536, 61_440, 4_096, 8_495, 23),
        (65_536, 61_440, 4_096, 8_496, 0),
    ];
    for (length, address, data_length, room, first) in one_fault_less_each {
        assert_eq!(answer_in(length, address, data_length, room), first);
    }
}

/// The refusal by the rules read off one after another, in numbers that cannot overflow.
fn plain_refusal(memory_length: usize, address: usize, data_length: usize, room: usize) -> u8 {
    let length = memory_length as u128;
    let end = address as u128 + data_length as u128;
    let faults = [
        (1, [1, 2, 4, 8, 16, 32].iter().all(|sectors| sectors * 65_536 != length)),
        (20, data_length > 4_096),
        (21, address as u128 >= length),
        (22, end > length),
    ];
    match faults.iter().find(|(_, applies)| *applies) {
        Some((number, _)) => *number,
        None if script_length(address, data_length) > room => 23,
        None => 0,
    }
}

#[test]
fn writer_refusals_where_the_numbers_meet() {
    let small_lengths = [
        0, 1, 65_535, 65_536, 65_537, 131_072, 196_608, 2_097_151, 2_097_152, 2_097_153, 4_194_304,
    ];
    let huge_lengths = [usize::MAX - 65_535, usize::MAX];
    let small_addresses = [
        0, 1, 255, 256, 61_440, 61_441, 65_535, 65_536, 65_537, 131_071, 131_072, 2_093_056,
        2_097_151, 2_097_152, 16_777_216,
    ];
    let huge_addresses = [usize::MAX - 4_096, usize::MAX - 4_095, usize::MAX];
    let mut seen = [0; 24];
    for length in small_lengths.into_iter().chain(huge_lengths) {
        for address in small_addresses.into_iter().chain(huge_addresses) {
            for data_length in [0, 1, 2, 256, 4_095, 4_096, 4_097] {
                let needed = script_length(address % 256, data_length);
                for room in [0, needed.saturating_sub(1), needed, needed + 1] {
                    let expected = plain_refusal(length, address, data_length, room);
                    let refusal = answer_in(length, address, data_length, room);
                    assert_eq!(refusal, expected, "{length} {address} {data_length} {room}");
                    seen[usize::from(refusal)] += 1;
                }
            }
        }
    }
    assert!([0, 1, 20, 21, 22, 23].iter().all(|refusal| seen[*refusal] > 20), "{seen:?}");
}

#[test]
fn no_bytes_no_script() {
    for length in memory_lengths() {
        for address in [0, 1, 255, 256, length - 256, length - 1] {
            let answer = write_program(length, address, &[], &mut []);
            assert_eq!(answer, Written { refusal: 0, written: 0 });
            let mut output = [0xEE; 20];
            assert_eq!(write_program(length, address, &[], &mut output), answer);
            assert_eq!(output, [0xEE; 20]);
        }
        assert_eq!(write_program(length, length, &[], &mut []), refused_by(21));
        assert_eq!(write_program(length + 1, 0, &[], &mut []), refused_by(1));
    }
}

#[test]
fn script_over_one_page_edge() {
    let script = [
        1, 2, 0x06, 3, 0, // write enable
        1, 2, 0x02, 2, 0x01, 2, 0x23, 2, 0xFE, 2, 0xA1, 2, 0xB2, 3, 0, // two bytes at 0123FEh
        5, 0, 16, // the ticks of a program
        1, 2, 0x06, 3, 0, // write enable
        1, 2, 0x02, 2, 0x01, 2, 0x24, 2, 0x00, 2, 0xC3, 3, 0, // one byte at 012400h
        5, 0, 16, // the ticks of a program
    ];
    let mut output = [0xEE; 49];
    let answer = write_program(REAL, 0x01_23FE, &[0xA1, 0xB2, 0xC3], &mut output);
    assert_eq!(answer, Written { refusal: 0, written: 44 });
    assert_eq!(output[..44], script);
    assert_eq!(output[44..], [0xEE; 5]);
    assert_eq!(script_of(0x01_23FE, &[0xA1, 0xB2, 0xC3]), script);
    let mut short = [0xEE; 43];
    assert_eq!(write_program(REAL, 0x01_23FE, &[0xA1, 0xB2, 0xC3], &mut short), refused_by(23));
    assert_eq!(short, [0xEE; 43]);
}

#[test]
fn script_of_the_last_cell() {
    let enable = [1, 2, 0x06, 3, 0];
    let program = [1, 2, 0x02, 2, 0x1F, 2, 0xFF, 2, 0xFF, 2, 0x00, 3, 0];
    let script = [&enable[..], &program, &[5, 0, 16]].concat();
    assert_eq!(good_script(REAL, 0x1F_FFFF, &[0]), script);
}

#[test]
fn every_deselect_written_is_clean() {
    for (address, length) in [(0, 0), (0, 1), (255, 2), (3, 4_096), (0xF000, 4_096)] {
        let events = events_of(&good_script(Chip::SECTOR, address, &mixed(length)));
        let deselects: Vec<_> = events.iter().filter(|(kind, _)| *kind == 3).collect();
        assert_eq!(deselects.len(), 2 * pieces_of(address, length));
        assert!(deselects.iter().all(|(_, loose_bits)| *loose_bits == 0));
        assert!(events.iter().all(|(kind, _)| [1, 2, 3, 5].contains(kind)));
    }
}

#[test]
fn script_of_any_number_has_its_low_three_bytes() {
    for address in [1 << 24, 0x7700_0000, usize::MAX - 0xFF_FFFF] {
        assert_eq!(script_of(address + 254, &mixed(600)), walked_script(254, &mixed(600)));
    }
    let over_the_end = [walked_script(0xFF_FFFF, &[1]), walked_script(0, &[2])].concat();
    assert_eq!(script_of(usize::MAX, &[1, 2]), over_the_end);
}

/// The longest script, from what a piece is made of. 4,096 bytes are 16 pages full; set off a page
/// edge they touch 17 pages, and so there are 17 pieces of 19 bytes each beside the data.
const LONGEST_SCRIPT: usize = 17 * PIECE + 4_096 * 2;

#[test]
fn longest_script_in_numbers() {
    assert_eq!(PIECE, 19);
    assert_eq!(LONGEST_SCRIPT, 323 + 8_192);
    assert_eq!(LONGEST_SCRIPT, 8_515);
    assert!(LONGEST_SCRIPT < 65_536);
}

#[test]
fn longest_script_is_met_off_a_page_edge_and_never_passed() {
    let length_at = |address| good_script(REAL, address, &mixed(4_096)).len();
    let top = REAL - 4_096;
    for page in [0, 0x1_0000, top] {
        assert_eq!(length_at(page), 16 * PIECE + 8_192);
    }
    for offset in 1..256 {
        assert_eq!(length_at(offset), LONGEST_SCRIPT);
        assert_eq!(length_at(top - offset), LONGEST_SCRIPT);
    }
    for offset in 0..256 {
        for length in 0..4_096 {
            assert!(script_length(offset, length) < LONGEST_SCRIPT, "{offset} {length}");
        }
    }
}

#[test]
fn longest_script_needs_its_last_byte_of_room() {
    for address in [1, 128, 255, 0xEFFF] {
        assert_eq!(answer_in(Chip::SECTOR, address, 4_096, LONGEST_SCRIPT - 1), 23);
        assert_eq!(answer_in(Chip::SECTOR, address, 4_096, LONGEST_SCRIPT), 0);
    }
}

#[test]
fn script_of_every_length() {
    for offset in [0, 1, 100, 255] {
        for length in 0..=4_096 {
            let data = mixed(length);
            let script = good_script(Chip::SECTOR, offset, &data);
            assert!(script == walked_script(offset, &data), "{offset} {length}");
            assert!(script.len() <= LONGEST_SCRIPT);
        }
    }
}

/// The output of a script for a range: every exchange floats, and of each piece's two frames the
/// first is done at once and the second begins a job.
fn records(address: usize, length: usize) -> Vec<u8> {
    let mut records = Vec::new();
    for page in 0..pieces_of(address, length) {
        let first = address.max((address / 256 + page) * 256);
        let end = (address + length).min((address / 256 + page + 1) * 256);
        records.extend([0x80, 0x82, 1]);
        records.resize(records.len() + 4 + end - first, 0x80);
        records.extend([0x82, 2]);
    }
    records
}

/// Whether the promise is made of a range on a bench: a legal state, idle, awake, unselected, and
/// no sector touched that is protected.
fn promised(bench: &Bench, address: usize, length: usize) -> bool {
    let chip = &bench.chip;
    let sectors = bench.memory.len() / Chip::SECTOR;
    let walk = protected_walk(sectors, usize::from(chip.level), chip.tb);
    let touched = |sector: &usize| {
        let start = sector * Chip::SECTOR;
        length > 0 && address < start + Chip::SECTOR && start < address + length
    };
    chip.legal(bench.memory.len())
        && chip.job.is_none()
        && !chip.deep
        && !chip.selected
        && !walk.iter().any(touched)
}

/// Runs the script for data at an address where the promise is made, checks the whole of the
/// promise and gives the bench afterwards.
fn keep_promise(before: &Bench, address: usize, data: &[u8]) -> Bench {
    assert!(promised(before, address, data.len()));
    let mut bench = before.clone();
    let script = good_script(bench.memory.len(), address, data);
    let pieces = pieces_of(address, data.len());
    let mut output = vec![0xEE; 2 * (5 * pieces + data.len()) + 3 * 2 * pieces];
    assert_eq!(output.len(), room_of(&script));
    let answer = run(&mut bench.chip, &mut bench.memory, &bench.area, &script, &mut output);
    let (written, ticks) = (9 * pieces + data.len(), 16 * pieces as u64);
    assert_eq!(answer, RunAnswer { refusal: 0, offset: 0, written, ticks });
    assert!(output[..written] == records(address, data.len()));
    assert!(output[written..].iter().all(|byte| *byte == 0xEE));
    assert_eq!(bench.chip, chip_after(&before.chip, pieces));
    check_cells(&before.memory, &bench.memory, address, data);
    bench
}

/// The state that a run leaves: as before, but that each piece clears WEN and disarms.
fn chip_after(before: &Chip, pieces: usize) -> Chip {
    let mut chip = before.clone();
    if pieces > 0 {
        (chip.wen, chip.armed) = (false, false);
    }
    chip
}

/// Checks that the cells of the range are ANDed with the data and every other is as before.
fn check_cells(before: &[u8], after: &[u8], address: usize, data: &[u8]) {
    let end = address + data.len();
    assert_eq!(before.len(), after.len());
    assert!(before[..address] == after[..address] && before[end..] == after[end..]);
    for (j, byte) in data.iter().enumerate() {
        assert_eq!(after[address + j], before[address + j] & byte, "{address} {j}");
    }
}

#[test]
fn promise_at_every_offset_of_a_page() {
    let bench = used_bench(1, 0);
    for offset in 0..256 {
        for length in DATA_LENGTHS {
            keep_promise(&bench, 0x4300 + offset, &mixed(length));
        }
    }
}

#[test]
fn promise_on_blank_cells_leaves_the_data() {
    for offset in [0, 1, 128, 255] {
        let data = mixed(4_096);
        let bench = keep_promise(&Bench::new(1, 0), 0x4300 + offset, &data);
        assert!(bench.memory[0x4300 + offset..][..4_096] == data);
    }
}

#[test]
fn promise_at_the_top_of_each_length() {
    for sectors in SECTORS {
        let bench = used_bench(sectors, 0);
        let length = bench.memory.len();
        for data_length in DATA_LENGTHS {
            let address = (length - data_length).min(length - 1);
            keep_promise(&bench, address, &mixed(data_length));
            keep_promise(&bench, 0, &mixed(data_length));
            let one_up = answer(length, address + 1, data_length);
            assert_eq!(one_up, if data_length < 2 { 21 } else { 22 });
        }
    }
}

/// Every state without a job, awake and unselected that a chip can be in.
fn idle_chips() -> Vec<Chip> {
    let mut chips = Vec::new();
    for number in 0..256 {
        let flag = |bit: usize| number >> bit & 1 == 1;
        let mut chip = Chip::fresh(0);
        chip.level = (number % 8) as u8;
        (chip.tb, chip.srwp, chip.wp_high) = (flag(3), flag(4), flag(5));
        (chip.wen, chip.armed) = (flag(6), flag(7));
        chips.push(chip);
    }
    chips
}

/// The number of idle states in which the promise is made of a range, each having kept it.
fn idle_states_promised(bench: &mut Bench, address: usize, data: &[u8]) -> usize {
    let mut promised_states = 0;
    for chip in idle_chips() {
        bench.chip = chip;
        if promised(bench, address, data.len()) {
            keep_promise(bench, address, data);
            promised_states += 1;
        }
    }
    promised_states
}

#[test]
fn promise_in_every_idle_state_of_one_sector() {
    let mut bench = used_bench(1, 0);
    for (address, length) in [(0, 1), (0x80FF, 2), (0xF001, 4_095), (300, 4_096)] {
        assert_eq!(idle_states_promised(&mut bench, address, &mixed(length)), 32);
    }
    assert_eq!(idle_states_promised(&mut bench, 0x1234, &[]), 256);
}

#[test]
fn promise_in_every_idle_state_with_sectors_protected_elsewhere() {
    let mut bench = used_bench(4, 0);
    // How many levels, from 0 up, leave each range free: first those of TB 0, then those of TB 1.
    let cases = [
        (0x0_0000, 4_096, 3, 1), // sector 0
        (0x0_FFFF, 2, 3, 1),     // sectors 0 and 1
        (0x1_0000, 1, 3, 2),     // sector 1 from its start
        (0x1_F3F1, 3_087, 3, 2), // sector 1 up to its end
        (0x1_F3F1, 3_088, 2, 2), // sectors 1 and 2
        (0x3_F000, 4_096, 1, 3), // sector 3
    ];
    // Each level comes with every SRWP, WP, WEN and arming.
    for (address, length, top_levels, bottom_levels) in cases {
        let states = idle_states_promised(&mut bench, address, &mixed(length));
        assert_eq!(states, 16 * (top_levels + bottom_levels), "{address:X} {length}");
    }
}

#[test]
fn promise_beside_the_protected_sectors_of_the_real_part() {
    for (level, first_free) in [(1, 1), (2, 2), (3, 4), (4, 8), (5, 16)] {
        let edge = first_free * Chip::SECTOR;
        let mut bottom = used_bench(32, level << 2 | 0xA0);
        bottom.chip.armed = true;
        keep_promise(&bottom, edge, &mixed(4_096));
        assert!(!promised(&bottom, edge - 1, 2));
        let mut top = used_bench(32, level << 2);
        top.chip.wen = true;
        keep_promise(&top, REAL - edge - 4_096, &mixed(4_096));
        assert!(!promised(&top, REAL - edge - 1, 2));
    }
}

#[test]
fn protected_sector_in_the_way_stops_its_piece_only() {
    let mut bench = used_bench(8, 0x0C);
    let before = bench.clone();
    let edge = 4 * Chip::SECTOR;
    let script = good_script(bench.memory.len(), edge - 1, &[0, 0]);
    let mut output = vec![0xEE; room_of(&script)];
    let answer = run(&mut bench.chip, &mut bench.memory, &bench.area, &script, &mut output);
    assert_eq!((answer.refusal, answer.ticks), (0, 16));
    let first = [0x80, 0x82, 1, 0x80, 0x80, 0x80, 0x80, 0x80, 0x82, 2];
    let second = [0x80, 0x82, 1, 0x80, 0x80, 0x80, 0x80, 0x80, 0x83, 4, 7];
    assert_eq!(output[..answer.written], [&first[..], &second[..]].concat());
    check_cells(&before.memory, &bench.memory, edge - 1, &[0]);
    assert!(bench.chip.wen);
}

#[test]
fn promise_with_any_area() {
    let mut bench = used_bench(1, 0);
    for area in [&[][..], &[0], &CONTENT, &[0; 255], &[0x5A; 256]] {
        bench.area = area.to_vec();
        keep_promise(&bench, 0x01F0, &mixed(300));
        keep_promise(&bench, 0x01F0, &[]);
    }
}

#[test]
fn script_is_good_in_any_room() {
    let mut bench = used_bench(1, 0);
    for (address, length) in [(0, 1), (255, 2), (255, 257), (1, 4_096)] {
        let script = good_script(bench.memory.len(), address, &mixed(length));
        let room = 16 * pieces_of(address, length) + 2 * length;
        assert_eq!(refused(&mut bench, &script, room - 1), (7, 0));
        assert_eq!(refused(&mut bench, &script, 0), (7, 0));
    }
}

#[test]
fn promise_in_states_that_events_lead_to() {
    let mut bench = used_bench(2, 0);
    bench.frame(&[0x06]);
    assert_eq!(bench.frame(&[0x01, 0xA4]), 2);
    bench.ticks(1);
    bench.apply(6, 0);
    assert_eq!(bench.status(), 0xA4);
    let protected_below = keep_promise(&bench, 0x1_0000, &mixed(4_096));
    assert!(!protected_below.chip.wp_high);
    assert_eq!(bench.frame(&[0x06]), 1);
    keep_promise(&bench, 0x1_0801, &mixed(700));
    assert_eq!(bench.frame(&[0x66]), 1);
    assert!(bench.chip.wen && bench.chip.armed);
    keep_promise(&bench, 0x1_0801, &mixed(700));
    keep_promise(&bench, 0x1_0801, &[]);
    assert_eq!(bench.frame(&[0x20, 1, 0, 0]), 2);
    bench.ticks(5);
    assert!(!promised(&bench, 0x1_0000, 1));
    bench.apply(7, 0);
    keep_promise(&bench, 0x1_0400, &mixed(400));
    bench.frame(&[0xB9]);
    assert!(!promised(&bench, 0x1_0000, 1));
    bench.frame(&[0xAB]);
    let after = keep_promise(&bench, 0x1_FFF0, &mixed(16));
    assert_eq!(after.chip.status_byte(), 0xA4);
}

#[test]
fn promise_again_after_a_run() {
    let data = mixed(4_096);
    let first = keep_promise(&used_bench(1, 0x80), 0x1001, &data);
    let same_again = keep_promise(&first, 0x1001, &data);
    assert!(same_again.memory == first.memory);
    let second = keep_promise(&first, 0x1800, &[0x0F; 4_096]);
    let third = keep_promise(&second, 0x1700, &[0xF0; 257]);
    assert_eq!(third.memory[0x1800], 0);
}

#[test]
fn promise_at_random() {
    let mut dice = Dice(6);
    let (mut kept, mut beside_protected) = (0, 0);
    let chips = idle_chips();
    let mut benches = [1, 2, 4, 8].map(|sectors| used_bench(sectors, 0));
    while kept < 1_500 {
        let bench = &mut benches[dice.below(4) as usize];
        bench.chip = chips[dice.below(256) as usize].clone();
        bench.area = CONTENT[..dice.below(209) as usize].to_vec();
        let length = dice.below_one_of(&[4, 300, 4_097]) as usize;
        let address = dice.below((bench.memory.len() - length) as u64 + 1) as usize;
        if address == bench.memory.len() || !promised(bench, address, length) {
            continue;
        }
        let data: Vec<u8> = (0..length).map(|_| dice.below(256) as u8).collect();
        keep_promise(bench, address, &data);
        kept += 1;
        beside_protected += usize::from(bench.chip.level > 0 && length > 0);
    }
    assert!(beside_protected > 100, "{beside_protected}");
}
