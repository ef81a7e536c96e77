// Tests of the read model: records, refusals, what it does not take, and random scripts.

mod reads;

use reads::{run, Answer};

const SECTOR: usize = 65_536;
const UNTOUCHED: u8 = 0xA5;

/// A memory in which neighbouring cells differ, and cells one, two or four sectors apart too.
fn memory_of(sectors: usize) -> Vec<u8> {
    (0..sectors * SECTOR).map(|place| (place % 251) as u8 ^ (place / SECTOR * 37) as u8).collect()
}

/// A closed frame with the given bytes on SI.
fn frame(bytes: &[u8], loose_bits: u8) -> Vec<u8> {
    let mut script = vec![0x01];
    for byte in bytes {
        script.extend([0x02, *byte]);
    }
    script.extend([0x03, loose_bits]);
    script
}

/// A closed read frame with the given number of data bytes; those on SI look like kinds, to mislead
/// a careless search.
fn read_frame(opcode: u8, address: u32, data: usize) -> Vec<u8> {
    let [_, high, middle, low] = address.to_be_bytes();
    let mut bytes = vec![opcode, high, middle, low];
    if opcode == 0x0B {
        bytes.push(0x03);
    }
    bytes.extend((0..data).map(|index| (index % 5) as u8));
    frame(&bytes, 0)
}

fn done(written: usize) -> Option<Answer> {
    Some(Answer { refusal: 0, offset: 0, written })
}

fn refused(refusal: u8, offset: usize) -> Option<Answer> {
    Some(Answer { refusal, offset, written: 0 })
}

/// Runs with plenty of room, looks that the output beyond the written bytes is as it was, and gives
/// the written ones.
fn run_with_room(memory: &[u8], script: &[u8]) -> (Option<Answer>, Vec<u8>) {
    let mut output = vec![UNTOUCHED; script.len() + 100];
    let answer = run(memory, script, &mut output);
    let written = answer.map_or(0, |answer| answer.written);
    assert!(output[written..].iter().all(|byte| *byte == UNTOUCHED));
    output.truncate(written);
    (answer, output)
}

fn assert_records(memory: &[u8], script: &[u8], records: &[u8]) {
    let (answer, output) = run_with_room(memory, script);
    assert_eq!(answer, done(records.len()));
    assert_eq!(output, records);
}

fn assert_stopped(script: &[u8], expected: Option<Answer>) {
    assert_eq!(run_with_room(&memory_of(1), script).0, expected, "script {script:02X?}");
}

/// The records of a read: so many floating exchanges, the cells from the place on, the verdict.
fn records_of_read(memory: &[u8], floating: usize, place: usize, data: usize) -> Vec<u8> {
    let mut records = vec![0x80; floating];
    for index in 0..data {
        records.extend([0x81, memory[(place + index) % memory.len()]]);
    }
    records.extend([0x82, 0]);
    records
}

#[test]
fn empty_script_is_done() {
    assert_records(&memory_of(1), &[], &[]);
    assert_eq!(run(&memory_of(32), &[], &mut []), done(0));
}

#[test]
fn low_power_read_drives_from_byte_5() {
    let memory = memory_of(1);
    let script = [1, 2, 0x03, 2, 0x00, 2, 0x01, 2, 0x02, 2, 0xFF, 2, 0x00, 3, 0];
    let records = [0x80, 0x80, 0x80, 0x80, 0x81, memory[0x102], 0x81, memory[0x103], 0x82, 0];
    assert_records(&memory, &script, &records);
}

#[test]
fn high_speed_read_drives_from_byte_6_after_the_dummy() {
    let memory = memory_of(1);
    let script = [1, 2, 0x0B, 2, 0x00, 2, 0x01, 2, 0x02, 2, 0xFF, 2, 0x00, 3, 0];
    let records = [0x80, 0x80, 0x80, 0x80, 0x80, 0x81, memory[0x102], 0x82, 0];
    assert_records(&memory, &script, &records);
}

#[test]
fn frames_shorter_than_their_header_float() {
    for opcode in [0x03, 0x0B] {
        for length in 1..=5 {
            let bytes = [opcode, 0x00, 0x12, 0x34, 0x56];
            let floating = if opcode == 0x03 { length.min(4) } else { length };
            let records = records_of_read(&memory_of(1), floating, 0x1234, length - floating);
            assert_records(&memory_of(1), &frame(&bytes[..length], 0), &records);
        }
    }
}

#[test]
fn a_read_wraps_at_the_top() {
    let memory = memory_of(32);
    let script = read_frame(0x03, 0x1F_FFFF, 2);
    assert_records(
        &memory,
        &script,
        &[0x80, 0x80, 0x80, 0x80, 0x81, memory[2_097_151], 0x81, memory[0], 0x82, 0],
    );
    for below_top in 1..40 {
        let place = memory.len() - below_top;
        for data in 0..80 {
            let script = read_frame(0x0B, place as u32, data);
            assert_records(&memory, &script, &records_of_read(&memory, 5, place, data));
        }
    }
}

#[test]
fn a_long_read_wraps_in_the_smallest_memory() {
    let memory = memory_of(1);
    let script = read_frame(0x03, 0x00_F000, 30_000);
    assert_records(&memory, &script, &records_of_read(&memory, 4, 0xF000, 30_000));
}

#[test]
fn the_address_is_taken_modulo_each_memory_length() {
    for sectors in [1, 2, 4, 8, 16, 32] {
        let memory = memory_of(sectors);
        for address in [0xFF_FFFF, 0xE0_0000, 0x1F_FFFE, 0x12_3456, 0x01_0000, 0x00_8000] {
            let place = address as usize % memory.len();
            assert_records(
                &memory,
                &read_frame(0x03, address, 3),
                &records_of_read(&memory, 4, place, 3),
            );
            assert_records(
                &memory,
                &read_frame(0x0B, address, 3),
                &records_of_read(&memory, 5, place, 3),
            );
        }
    }
}

#[test]
fn loose_deselects_give_verdict_0() {
    for loose_bits in 0..=7 {
        assert_records(&memory_of(1), &frame(&[0x03], loose_bits), &[0x80, 0x82, 0]);
    }
}

#[test]
fn rows_of_every_length_up_to_1200_are_read() {
    let memory = memory_of(2);
    for data in 0..1200 {
        let mut script = read_frame(0x03, 100, data);
        script.extend(read_frame(0x0B, 300, data % 7));
        script.extend(read_frame(0x03, 500, 600));
        let mut records = records_of_read(&memory, 4, 100, data);
        records.extend(records_of_read(&memory, 5, 300, data % 7));
        records.extend(records_of_read(&memory, 4, 500, 600));
        assert_records(&memory, &script, &records);
    }
}

#[test]
fn memory_of_another_length_is_refused_1() {
    let sound = read_frame(0x03, 0, 1);
    for length in
        [0, 1, 256, SECTOR - 1, SECTOR + 1, 3 * SECTOR, 32 * SECTOR - 1, 33 * SECTOR, 64 * SECTOR]
    {
        assert_eq!(run_with_room(&vec![0; length], &sound).0, refused(1, 0), "length {length}");
    }
}

#[test]
fn a_script_of_65_536_bytes_is_accepted_and_one_more_refused_3() {
    let mut script = read_frame(0x03, 7, 16_000);
    let length = script.len();
    script.extend(read_frame(0x03, 9, (65_536 - length - 11) / 2));
    assert_eq!(script.len(), 65_536);
    let mut records = records_of_read(&memory_of(1), 4, 7, 16_000);
    records.extend(records_of_read(&memory_of(1), 4, 9, (65_536 - length - 11) / 2));
    assert_records(&memory_of(1), &script, &records);
    script.push(0x01);
    assert_stopped(&script, refused(3, 0));
}

#[test]
fn a_script_ending_inside_an_event_is_refused_4() {
    let sound = read_frame(0x03, 5, 40);
    for (end, offset) in
        [(2, 1), (4, 3), (sound.len() - 3, sound.len() - 4), (sound.len() - 1, sound.len() - 2)]
    {
        assert_stopped(&sound[..end], refused(4, offset));
        let twice = [&sound[..], &sound[..end]].concat();
        assert_stopped(&twice, refused(4, sound.len() + offset));
    }
    for tail in [&[0x02][..], &[0x03], &[0x05], &[0x05, 0], &[0x06], &[0x09], &[0x09, 7]] {
        assert_stopped(&[&sound[..], tail].concat(), refused(4, sound.len()));
    }
}

#[test]
fn an_unknown_kind_is_refused_5_wherever_it_stands() {
    let sound = read_frame(0x0B, 5, 300);
    for kind in (0..=255).filter(|kind| !matches!(kind, 0x01..=0x07 | 0x09)) {
        assert_stopped(&[kind], refused(5, 0));
        assert_stopped(&[&sound[..], &[kind, 0]].concat(), refused(5, sound.len()));
    }
    for offset in (1..sound.len()).step_by(2) {
        let mut script = [&sound[..], &sound[..]].concat();
        script[offset] = 0x08;
        assert_stopped(&script, refused(5, offset));
    }
}

#[test]
fn a_body_out_of_range_is_refused_6() {
    let sound = read_frame(0x03, 5, 20);
    for loose_bits in 8..=255 {
        let script = [&sound[..], &frame(&[0x03, 1, 2, 3, 4], loose_bits)].concat();
        assert_stopped(&script, refused(6, script.len() - 2));
        assert_stopped(&[0x01, 0x03, loose_bits], refused(6, 1));
        assert_stopped(&[0x03, loose_bits], refused(6, 0));
    }
    assert_stopped(&[&sound[..], &[0x05, 0, 0]].concat(), refused(6, sound.len()));
    assert_stopped(&[&sound[..], &[0x06, 2]].concat(), refused(6, sound.len()));
}

#[test]
fn room_is_2_an_exchange_and_3_a_deselect() {
    let memory = memory_of(1);
    let script = [read_frame(0x03, 5, 20), frame(&[0x0B], 0)].concat();
    let room = 2 * (24 + 1) + 3 * 2;
    let mut records = records_of_read(&memory, 4, 5, 20);
    records.extend([0x80, 0x82, 0]);
    let mut output = vec![UNTOUCHED; room];
    assert_eq!(run(&memory, &script, &mut output), done(records.len()));
    assert_eq!(output[..records.len()], records);
    let mut output = vec![UNTOUCHED; room - 1];
    assert_eq!(run(&memory, &script, &mut output), refused(7, 0));
    assert_eq!(output, vec![UNTOUCHED; room - 1]);
}

#[test]
fn refusals_come_in_their_order() {
    let overlong = vec![0xFF; 65_537];
    assert_eq!(run(&[0; 100], &overlong, &mut []), refused(1, 0));
    assert_eq!(run(&memory_of(1), &overlong, &mut []), refused(3, 0));
    assert_eq!(run(&memory_of(1), &overlong[1..], &mut []), refused(5, 0));
    assert_eq!(run(&memory_of(1), &[0x01, 0x03, 8], &mut []), refused(6, 1));
    assert_eq!(run(&memory_of(1), &frame(&[0x03], 0), &mut []), refused(7, 0));
    // From the left, whatever the number.
    assert_stopped(&[&frame(&[0x03], 9)[..], &[0x08]].concat(), refused(6, 3));
    assert_stopped(&[&frame(&[0x03], 7)[..], &[0x08, 0x03]].concat(), refused(5, 5));
}

#[test]
fn scripts_outside_the_model_give_none() {
    let sound = read_frame(0x03, 5, 70);
    let inside = &sound[..sound.len() - 2];
    for event in [&[0x01][..], &[0x04], &[0x05, 0, 1], &[0x06, 1], &[0x07], &[0x09, 0, 0]] {
        assert_stopped(&[inside, event, &[0x03, 0]].concat(), None);
        if event != [0x01] {
            assert_stopped(&[&sound[..], event].concat(), None);
        }
    }
    for unselected in [&[0x02, 0x03][..], &[0x03, 0]] {
        assert_stopped(unselected, None);
        assert_stopped(&[&sound[..], unselected].concat(), None);
    }
    for open in [&[0x01][..], inside, &sound[..3]] {
        assert_stopped(&[&sound[..], open].concat(), None);
    }
    assert_stopped(&[0x01, 0x03, 0], None);
    for opcode in (0..=255).filter(|opcode| !matches!(opcode, 0x03 | 0x0B)) {
        assert_stopped(&frame(&[opcode, 0, 0, 0, 0, 0], 0), None);
    }
}

#[test]
fn none_goes_before_a_later_bad_event_and_before_refusal_7() {
    assert_stopped(&[0x04, 0x08], None);
    assert_stopped(&[0x01, 0x02, 0x9F, 0x02], None);
    assert_stopped(&[0x01, 0x03, 0, 0x03, 8], None);
    assert_eq!(run(&memory_of(1), &[0x01, 0x02, 0x03], &mut []), None);
}

/// The same model, an event at a time: None, or the answer and the records.
fn naive_run(memory: &[u8], script: &[u8], room: usize) -> (Option<Answer>, Vec<u8>) {
    let mut frame: Option<Vec<u8>> = None;
    let (mut records, mut asked_room, mut at) = (vec![], 0, 0);
    while at < script.len() {
        let length = match script[at] {
            1 | 4 | 7 => 1,
            2 | 3 | 6 => 2,
            5 | 9 => 3,
            _ => return (refused(5, at), vec![]),
        };
        if at + length > script.len() {
            return (refused(4, at), vec![]);
        }
        let (kind, body) = (script[at], &script[at + 1..at + length]);
        if kind == 3 && body[0] > 7 || kind == 5 && body == [0, 0] || kind == 6 && body[0] > 1 {
            return (refused(6, at), vec![]);
        }
        match (kind, &mut frame) {
            (1, None) => frame = Some(vec![]),
            (2, Some(bytes)) => {
                bytes.push(body[0]);
                asked_room += 2;
                let header = match bytes[0] {
                    0x03 => 4,
                    0x0B => 5,
                    _ => return (None, vec![]),
                };
                if bytes.len() > header {
                    let address =
                        bytes[1] as usize * 65_536 + bytes[2] as usize * 256 + bytes[3] as usize;
                    records.extend([
                        0x81,
                        memory[(address + bytes.len() - header - 1) % memory.len()],
                    ]);
                } else {
                    records.push(0x80);
                }
            }
            (3, Some(bytes)) if !bytes.is_empty() => {
                frame = None;
                asked_room += 3;
                records.extend([0x82, 0]);
            }
            _ => return (None, vec![]),
        }
        at += length;
    }
    match frame {
        Some(_) => (None, vec![]),
        None if room < asked_room => (refused(7, 0), vec![]),
        None => (done(records.len()), records),
    }
}

struct Random(u64);

impl Random {
    fn below(&mut self, bound: usize) -> usize {
        self.0 ^= self.0 << 13;
        self.0 ^= self.0 >> 7;
        self.0 ^= self.0 << 17;
        (self.0 >> 11) as usize % bound
    }
}

/// Some frames, mostly whole reads; now and then a byte of the script is spoiled or its end cut
/// off.
fn random_script(random: &mut Random) -> Vec<u8> {
    let mut script = vec![];
    for _ in 0..random.below(6) {
        let length = match random.below(4) {
            0 => 1 + random.below(7),
            1 => 1 + random.below(40),
            2 => 1 + random.below(400),
            _ => 1 + random.below(3000),
        };
        let few_values = random.below(2) == 0;
        let mut bytes: Vec<u8> =
            (0..length).map(|_| random.below(if few_values { 5 } else { 256 }) as u8).collect();
        bytes[0] = if random.below(2) == 0 { 0x03 } else { 0x0B };
        if random.below(2) == 0 && length > 3 {
            bytes[1..4].copy_from_slice(&[0xFF, 0xFF, random.below(256) as u8]);
        }
        script.extend(frame(&bytes, random.below(8) as u8));
    }
    if random.below(3) == 0 && !script.is_empty() {
        let place = random.below(script.len());
        let values = if random.below(2) == 0 { 12 } else { 256 };
        script[place] = random.below(values) as u8;
    }
    if random.below(5) == 0 {
        script.truncate(random.below(script.len() + 1));
    }
    script
}

#[test]
fn random_scripts_are_answered_as_the_naive_model_answers() {
    let memories = [1, 2, 4, 8, 16, 32].map(memory_of);
    let mut random = Random(0x9E37_79B9_7F4A_7C15);
    let mut seen = [0; 9];
    for _ in 0..20_000 {
        let memory = &memories[random.below(6)];
        let script = random_script(&mut random);
        let room = if random.below(8) == 0 {
            random.below(script.len() + 2)
        } else {
            script.len() + random.below(3)
        };
        let mut output = vec![UNTOUCHED; room];
        let answer = run(memory, &script, &mut output);
        let (expected, records) = naive_run(memory, &script, room);
        assert_eq!(answer, expected, "script {script:02X?}");
        assert_eq!(output[..records.len()], records);
        assert!(output[records.len()..].iter().all(|byte| *byte == UNTOUCHED));
        seen[answer.map_or(8, |answer| answer.refusal as usize)] += 1;
    }
    // Every outcome that such scripts can have was met often enough to mean something.
    assert!([0, 4, 5, 6, 7, 8].iter().all(|outcome| seen[*outcome] > 50), "{seen:?}");
}
