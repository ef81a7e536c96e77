// Tests of the second model: the paper's cases, refusals, verdicts and errors that look right.

#[path = "deselect_tests.rs"]
mod deselect_tests;

#[path = "model.rs"]
mod model;

#[allow(dead_code)]
#[path = "program.rs"]
mod program;

#[path = "sfdp.rs"]
mod sfdp;

#[path = "stamp_tests.rs"]
mod stamp_tests;

#[path = "wait_tests.rs"]
mod wait_tests;

#[path = "wen_tests.rs"]
mod wen_tests;

#[path = "writer.rs"]
mod writer;

#[path = "writer_tests.rs"]
mod writer_tests;

use model::{event, run, Chip, EventAnswer, Frame, Job, JobKind, Record, RunAnswer};
use sfdp::{find, table, Found, CONTENT};

/// The numbers of sectors that a part may have.
const SECTORS: [usize; 6] = [1, 2, 4, 8, 16, 32];
/// The length of the real part's memory.
const REAL: usize = 32 * Chip::SECTOR;

/// A chip with its memory and SFDP area, driven by single events.
#[derive(Clone)]
struct Bench {
    chip: Chip,
    memory: Vec<u8>,
    area: Vec<u8>,
}

impl Bench {
    /// A fresh chip over a blank memory of that many sectors and an empty area.
    fn new(sectors: usize, status: u8) -> Bench {
        let memory = vec![0xFF; sectors * Chip::SECTOR];
        Bench { chip: Chip::fresh(status), memory, area: Vec::new() }
    }

    /// A fresh chip over a memory of 77h of that many sectors and an area.
    fn with_area(sectors: usize, area: &[u8]) -> Bench {
        let memory = vec![0x77; sectors * Chip::SECTOR];
        Bench { chip: Chip::fresh(0), memory, area: area.to_vec() }
    }

    /// Applies one event that must not be refused and gives its record and working ticks.
    fn apply(&mut self, kind: u64, body: u64) -> (Record, u64) {
        let answer = event(&mut self.chip, &mut self.memory, &self.area, kind, body);
        assert_eq!(answer.refusal, 0);
        assert!(self.chip.legal(self.memory.len()));
        (answer.record, answer.ticks)
    }

    /// Selects and sends bytes, giving what was driven during each.
    fn send(&mut self, bytes: &[u8]) -> Vec<Record> {
        self.apply(1, 0);
        bytes.iter().map(|byte| self.apply(2, u64::from(*byte)).0).collect()
    }

    /// Deselects on a byte boundary and gives the verdict.
    fn end(&mut self) -> u8 {
        verdict_of(self.deselect(0))
    }

    /// Deselects with some bits loose and gives the verdict.
    fn end_loose(&mut self) -> u8 {
        verdict_of(self.deselect(3))
    }

    /// Deselects with that many bits loose and gives the record.
    fn deselect(&mut self, loose_bits: u64) -> Record {
        let (record, ticks) = self.apply(3, loose_bits);
        assert_eq!(ticks, 0);
        record
    }

    /// Sends a whole frame and gives its verdict.
    fn frame(&mut self, bytes: &[u8]) -> u8 {
        verdict_of(self.frame_record(bytes))
    }

    /// Sends a whole frame and gives the record of its verdict.
    fn frame_record(&mut self, bytes: &[u8]) -> Record {
        self.send(bytes);
        self.deselect(0)
    }

    /// Lets ticks pass and gives the number of working ticks.
    fn ticks(&mut self, count: u64) -> u64 {
        self.apply(5, count).1
    }

    /// Suspends a job with more than one step left: B0h, and the tick whose step is still done.
    fn suspend(&mut self) {
        assert_eq!(self.frame(&[0xB0]), 1);
        assert_eq!(self.apply(4, 0), (Record::None, 1));
        assert!(self.chip.suspended);
    }

    /// The status byte as a 05h frame reads it.
    fn status(&mut self) -> u8 {
        let records = self.send(&[0x05, 0]);
        assert_eq!(self.end(), 0);
        let Record::Driven(status) = records[1] else { panic!("{records:?}") };
        assert_eq!(status, self.chip.status_byte());
        status
    }

    /// Cells read with 03h.
    fn read(&mut self, address: u32, count: usize) -> Vec<Record> {
        let mut bytes = vec![0x03];
        bytes.extend(&address.to_be_bytes()[1..]);
        bytes.resize(4 + count, 0);
        let records = self.send(&bytes);
        assert_eq!(self.end(), 0);
        records[4..].to_vec()
    }

    /// Bytes of the area read with 5Ah.
    fn read_sfdp(&mut self, address: u32, count: usize) -> Vec<u8> {
        let records = self.send(&addressed(0x5A, address, &vec![0; 1 + count]));
        assert_eq!(records[..5], [Record::Floating; 5]);
        assert_eq!(self.end(), 0);
        driven(&records[5..])
    }
}

/// The verdict of a deselect's record: 0 to 11, of which 9 has a case of its own. Number 12 is
/// unused, and a record that has it is a failure like any other that no deselect gives.
fn verdict_of(record: Record) -> u8 {
    match record {
        Record::Protected { .. } => 9,
        Record::Verdict(verdict @ (0..=8 | 10 | 11)) => verdict,
        other => panic!("{other:?}"),
    }
}

/// The bytes of records that must all be driven.
fn driven(records: &[Record]) -> Vec<u8> {
    let byte = |record: &Record| match record {
        Record::Driven(byte) => *byte,
        other => panic!("{other:?}"),
    };
    records.iter().map(byte).collect()
}

/// A frame of an opcode, an address and data bytes.
fn addressed(opcode: u8, address: u32, data: &[u8]) -> Vec<u8> {
    let mut bytes = vec![opcode];
    bytes.extend(&address.to_be_bytes()[1..]);
    bytes.extend(data);
    bytes
}

/// Data of that length in which every value comes, neighbours differ and pages differ.
fn mixed(length: usize) -> Vec<u8> {
    (0..length).map(|j| (j * 37 + j / 256 * 11 + 5) as u8).collect()
}

/// A fresh bench of that many sectors whose cells are not blank and differ from page to page.
fn used_bench(sectors: usize, status: u8) -> Bench {
    let mut bench = Bench::new(sectors, status);
    for (page, cells) in bench.memory.chunks_exact_mut(256).enumerate() {
        let cell = |offset: usize| (offset * 89 + page * 53 + 0x30) as u8 | 0x18;
        cells.iter_mut().enumerate().for_each(|(offset, byte)| *byte = cell(offset));
    }
    bench
}

/// Small repeatable random numbers.
struct Dice(u64);

impl Dice {
    /// The next number below the bound.
    fn below(&mut self, bound: u64) -> u64 {
        self.0 = self.0.wrapping_mul(6364136223846793005).wrapping_add(1442695040888963407);
        (self.0 >> 33) % bound
    }

    /// The next number below one of the bounds.
    fn below_one_of(&mut self, bounds: &[u64]) -> u64 {
        let bound = bounds[self.below(bounds.len() as u64) as usize];
        self.below(bound)
    }
}

#[test]
fn p1_read_over_the_end() {
    let mut bench = Bench::new(32, 0);
    bench.memory[2_097_151] = 0x12;
    bench.memory[0] = 0x34;
    let expected = vec![Record::Driven(0x12), Record::Driven(0x34)];
    assert_eq!(bench.read(0x1F_FFFF, 2), expected);
    assert_eq!(bench.read(0xFF_FFFF, 2), expected);
    let fast = bench.send(&[0x0B, 0x1F, 0xFF, 0xFF, 0, 0, 0]);
    assert_eq!(fast[..5], [Record::Floating; 5]);
    assert_eq!(fast[5..], expected);
}

#[test]
fn p2_load_of_260_bytes() {
    let mut bench = Bench::new(32, 0);
    let data: Vec<u8> = (0..260).map(|j| (j % 251) as u8).collect();
    bench.frame(&[0x06]);
    assert_eq!(bench.frame(&addressed(0x02, 250, &data)), 2);
    let Some(Job { kind: JobKind::Program(load), place: 0, steps_done: 0 }) = &bench.chip.job else {
        panic!()
    };
    let seen = [load[250], load[253], load[254], load[255], load[0], load[249]];
    assert_eq!(seen, [5, 8, 4, 5, 6, 4]);
    assert_eq!(bench.ticks(16), 16);
    assert_eq!(bench.memory[250], 5);
    assert_eq!(bench.memory[0], 6);
}

#[test]
fn p3_status_through_a_program() {
    let mut bench = Bench::new(1, 0);
    assert_eq!(bench.frame(&[0x06]), 1);
    assert_eq!(bench.status(), 0x02);
    assert_eq!(bench.frame(&addressed(0x02, 0, &[0])), 2);
    assert_eq!(bench.status(), 0x03);
    assert_eq!(bench.frame(&[0xB0]), 1);
    assert_eq!(bench.status(), 0x03);
    assert_eq!(bench.apply(4, 0), (Record::None, 1));
    assert_eq!(bench.status(), 0x42);
}

#[test]
fn p4_write_status() {
    let mut bench = Bench::new(1, 0);
    bench.frame(&[0x06]);
    assert_eq!(bench.frame(&[0x01, 0xFF]), 2);
    assert_eq!(bench.status(), 0x03);
    assert_eq!(bench.apply(4, 0), (Record::None, 1));
    assert_eq!(bench.status(), 0xBC);
}

#[test]
fn p5_program_only_clears_bits() {
    let mut bench = Bench::new(1, 0);
    bench.memory[7] = 0xF0;
    bench.frame(&[0x06]);
    bench.frame(&addressed(0x0A, 7, &[0x0F]));
    bench.ticks(65_535);
    assert_eq!(bench.memory[7], 0x00);
    assert_eq!(bench.memory[8], 0xFF);
}

#[test]
fn p6_level_1_at_the_top() {
    let mut bench = Bench::new(32, 0x04);
    bench.frame(&[0x06]);
    let last_sector = Record::Protected { first: 31, last: 31 };
    assert_eq!(bench.frame_record(&addressed(0x20, 0x1F_0000, &[])), last_sector);
    assert_eq!(bench.frame_record(&addressed(0x20, 0x1E_FFFF, &[])), Record::Verdict(2));
}

#[test]
fn p7_level_5_on_one_sector() {
    for status in [0x14, 0x34] {
        let mut bench = Bench::new(1, status);
        bench.frame(&[0x06]);
        for address in [0, 0x8000, 0xFFFF] {
            let record = bench.frame_record(&addressed(0x02, address, &[0]));
            assert_eq!(record, Record::Protected { first: 0, last: 0 });
        }
    }
}

#[test]
fn p8_disarmed_by_a_read() {
    let mut bench = Bench::new(1, 0);
    let verdicts = [bench.frame(&[0x66]), bench.frame(&[0x05]), bench.frame(&[0x99])];
    assert_eq!(verdicts, [1, 0, 11]);
}

#[test]
fn p9_small_sector_erase_by_steps() {
    let mut bench = Bench::new(1, 0);
    bench.memory.fill(0x5A);
    bench.frame(&[0x06]);
    assert_eq!(bench.frame(&addressed(0xD7, 0x1234, &[])), 2);
    assert_eq!(bench.ticks(15), 15);
    assert!(bench.memory[0x1000..0x1F00].iter().all(|cell| *cell == 0xFF));
    assert!(bench.memory[0x1F00..0x2000].iter().all(|cell| *cell == 0x5A));
    assert_eq!(bench.status(), 0x03);
    assert_eq!(bench.ticks(9), 1);
    assert!(bench.memory[0x1000..0x2000].iter().all(|cell| *cell == 0xFF));
    assert_eq!(bench.memory[0x0FFF], 0x5A);
    assert_eq!(bench.memory[0x2000], 0x5A);
    assert_eq!(bench.status(), 0x00);
}

#[test]
fn p10_short_erase_frame() {
    let mut bench = Bench::new(1, 0);
    bench.frame(&[0x06]);
    assert_eq!(bench.frame(&[0x20, 0, 0]), 4);
    assert_eq!(bench.status(), 0x02);
}

#[test]
fn longest_script_accepted_and_one_more_refused() {
    let mut bench = Bench::new(1, 0);
    let script = vec![0x04; 65_537];
    let answer = run(&mut bench.chip, &mut bench.memory, &bench.area, &script[..65_536], &mut []);
    assert_eq!(answer, RunAnswer { refusal: 0, offset: 0, written: 0, ticks: 0 });
    let answer = run(&mut bench.chip, &mut bench.memory, &bench.area, &script, &mut []);
    assert_eq!(answer, RunAnswer { refusal: 3, offset: 0, written: 0, ticks: 0 });
}

/// The script of the paper's sample.
const SAMPLE: [u8; 12] = [1, 2, 6, 3, 0, 1, 2, 5, 2, 0, 3, 0];

#[test]
fn sample_records() {
    let mut bench = Bench::new(1, 0);
    let mut output = [0xEE; 12];
    let answer = run(&mut bench.chip, &mut bench.memory, &bench.area, &SAMPLE, &mut output);
    assert_eq!(answer, RunAnswer { refusal: 0, offset: 0, written: 8, ticks: 0 });
    assert_eq!(output[..8], [0x80, 0x82, 1, 0x80, 0x81, 2, 0x82, 0]);
    assert_eq!(output[8..], [0xEE; 4]);
}

#[test]
fn program_texts() {
    let text = "part 65536\n1 --\n3 V1\n6 --\n8 02\n10 V0\nanswer 0 ticks 0\n";
    assert_eq!(program::report(&SAMPLE), text);
    assert_eq!(program::report(&[]), "part 65536\nanswer 0 ticks 0\n");
    assert_eq!(program::report(&[4, 10]), "part 65536\nanswer 5 at 1\n");
    assert_eq!(program::report(&[4; 4_097]), "too long\n");
    assert!(program::report(&[4; 4_096]).ends_with("answer 0 ticks 0\n"));
    let erase = [1, 2, 6, 3, 0, 1, 2, 0x60, 3, 0, 5, 1, 44];
    assert!(program::report(&erase).ends_with("\n8 V2\nanswer 0 ticks 256\n"));
}

#[test]
fn program_names_the_sectors_in_the_way() {
    for level in 1..=7 {
        for bottom in [0x00, 0x20] {
            let protect = [1, 2, 6, 3, 0, 1, 2, 1, 2, bottom | level << 2, 3, 0, 4];
            let erase = [1, 2, 6, 3, 0, 1, 2, 0x60, 3, 0, 1, 2, 0xD8, 2, 1, 2, 2, 2, 3, 3, 0];
            let text = "part 65536\n1 --\n3 V1\n6 --\n8 --\n10 V2\n14 --\n16 V1\n19 --\n\
                21 V9 0 0\n24 --\n26 --\n28 --\n30 --\n32 V9 0 0\nanswer 0 ticks 1\n";
            assert_eq!(program::report(&[&protect[..], &erase[..]].concat()), text);
        }
    }
}

#[test]
fn program_lines_of_verdict_9_are_decimal() {
    let script = [6, 1, 3, 0, 1, 2, 0, 3, 7, 2, 0, 3, 0];
    let output = [0x83, 31, 31, 0x80, 0x83, 16, 31, 0x81, 31, 0x82, 11];
    let text = "2 V9 31 31\n5 --\n7 V9 16 31\n9 1F\n11 V11\n";
    assert_eq!(program::record_lines(&script, &output), text);
}

#[test]
fn program_has_room_for_every_script() {
    for event in [[3, 0], [3, 1], [3, 7], [2, 0]] {
        for events in (0..10).chain([2_047, 2_048]) {
            let script = event.repeat(events);
            let text = program::report(&script);
            assert!(text.ends_with("\nanswer 0 ticks 0\n"), "{event:?} {events}");
            assert_eq!(text.lines().count(), events + 2);
            let odd = [&[4][..], &script].concat();
            let fits = odd.len() <= 4_096;
            assert_eq!(program::report(&odd).lines().count(), if fits { events + 2 } else { 1 });
        }
    }
    let protect = [1, 2, 6, 3, 0, 1, 2, 1, 2, 4, 3, 0, 4, 1, 2, 6, 3, 0];
    let script = [&protect[..], &[1, 2, 0x60, 3, 0].repeat(815)].concat();
    assert_eq!(script.len(), 4_093);
    assert!(program::report(&script).ends_with("\n4091 V9 0 0\nanswer 0 ticks 1\n"));
}

/// Runs a script that must be refused and checks that nothing has changed.
fn refused(bench: &mut Bench, script: &[u8], output_length: usize) -> (u8, usize) {
    let before = bench.clone();
    let mut output = vec![0xEE; output_length];
    let answer = run(&mut bench.chip, &mut bench.memory, &bench.area, script, &mut output);
    assert_eq!((answer.written, answer.ticks), (0, 0));
    assert!(bench.chip == before.chip && bench.memory == before.memory);
    assert!(output.iter().all(|byte| *byte == 0xEE));
    (answer.refusal, answer.offset)
}

/// Applies one event alone and checks that a refusal yields nothing and changes nothing.
fn alone(bench: &mut Bench, kind: u64, body: u64) -> EventAnswer {
    let before = bench.clone();
    let answer = event(&mut bench.chip, &mut bench.memory, &bench.area, kind, body);
    if answer.refusal != 0 {
        assert_eq!((answer.record, answer.ticks), (Record::None, 0));
        assert!(bench.chip == before.chip && bench.memory == before.memory);
    }
    answer
}

#[test]
fn run_refusals() {
    let mut bench = Bench::new(1, 0);
    assert_eq!(refused(&mut bench, &[1, 2, 6, 10], 9), (5, 3));
    assert_eq!(refused(&mut bench, &[1, 0], 9), (5, 1));
    assert_eq!(refused(&mut bench, &[1, 2], 9), (4, 1));
    assert_eq!(refused(&mut bench, &[5, 0], 9), (4, 0));
    assert_eq!(refused(&mut bench, &[4, 5, 0, 0, 10], 9), (6, 1));
    assert_eq!(refused(&mut bench, &[6, 2], 9), (6, 0));
    assert_eq!(refused(&mut bench, &[3, 8], 9), (6, 0));
    assert_eq!(refused(&mut bench, &[8, 0], 9), (5, 0));
    assert_eq!(refused(&mut bench, &[1, 2, 6, 3], 9), (4, 3));
    assert_eq!(refused(&mut bench, &[1, 2, 6, 3, 0], 4), (7, 0));
    assert_eq!(refused(&mut bench, &[3, 1], 2), (7, 0));
    assert_eq!(refused(&mut bench, &[3, 0, 10], 0), (5, 2));
    assert_eq!(refused(&mut bench, &[10; 65_537], 0), (3, 0));
    bench.chip.level = 8;
    assert_eq!(refused(&mut bench, &[10; 65_537], 0), (2, 0));
    bench.memory.pop();
    assert_eq!(refused(&mut bench, &[10; 65_537], 0), (1, 0));
}

#[test]
fn memory_lengths() {
    for sectors in 0..=64 {
        let mut bench = Bench::new(sectors, 0);
        let known = SECTORS.contains(&sectors);
        let answer = event(&mut bench.chip, &mut bench.memory, &bench.area, 1, 0);
        assert_eq!(answer.refusal, if known { 0 } else { 1 });
        let answer = run(&mut bench.chip, &mut bench.memory, &bench.area, &[], &mut []);
        assert_eq!(answer.refusal, if known { 0 } else { 1 });
    }
}

#[test]
fn event_refusals() {
    let cases = [
        (0, 0, 5), (8, 1, 5), (10, 0, 5), (u64::MAX, u64::MAX, 5), (257, 0, 5), (259, 0, 5),
        (2, 255, 0), (2, 256, 6), (5, 0, 6), (5, 1, 0), (5, 65_535, 0), (5, 65_536, 6),
        (6, 0, 0), (6, 1, 0), (6, 2, 6), (3, 0, 0), (3, 7, 0), (3, 8, 6), (3, 256, 6),
        (3, u64::MAX, 6), (1, u64::MAX, 0), (4, u64::MAX, 0), (7, u64::MAX, 0),
    ];
    for (kind, body, refusal) in cases {
        let mut bench = Bench::new(1, 0);
        let answer = event(&mut bench.chip, &mut bench.memory, &bench.area, kind, body);
        assert_eq!(answer.refusal, refusal, "{kind} {body}");
        if refusal != 0 {
            assert_eq!((answer.record, answer.ticks), (Record::None, 0));
            assert_eq!(bench.chip, Chip::fresh(0));
        }
    }
    let mut bench = Bench::new(1, 0);
    bench.chip.suspended = true;
    assert_eq!(event(&mut bench.chip, &mut bench.memory, &bench.area, 10, 0).refusal, 2);
    bench.memory.clear();
    assert_eq!(event(&mut bench.chip, &mut bench.memory, &bench.area, 10, 0).refusal, 1);
}

#[test]
fn verdict_0() {
    let mut bench = Bench::new(1, 0);
    assert_eq!(bench.end(), 0);
    assert_eq!(bench.end_loose(), 0);
    assert_eq!(bench.apply(2, 0x06), (Record::Floating, 0));
    bench.send(&[]);
    assert_eq!(bench.end(), 0);
    bench.send(&[]);
    assert_eq!(bench.end_loose(), 0);
    for opcode in [0x05, 0x03, 0x0B, 0x9F, 0x5A] {
        for length in 1..8 {
            assert_eq!(bench.frame(&vec![opcode; length]), 0);
            bench.send(&vec![opcode; length]);
            assert_eq!(bench.end_loose(), 0);
        }
    }
}

#[test]
fn verdict_1_of_each_command() {
    let mut bench = Bench::new(1, 0);
    assert_eq!(bench.frame(&[0x06]), 1);
    assert!(bench.chip.wen);
    assert_eq!(bench.frame(&[0x04]), 1);
    assert!(!bench.chip.wen);
    assert_eq!(bench.frame(&[0xB9]), 1);
    assert!(bench.chip.deep);
    assert_eq!(bench.frame(&[0xAB]), 1);
    assert!(!bench.chip.deep);
    assert_eq!(bench.frame(&[0xAB, 0, 0]), 1);
    assert_eq!(bench.frame(&[0x66]), 1);
    assert!(bench.chip.armed);
    assert_eq!(bench.frame(&[0x99]), 1);
    assert!(!bench.chip.armed);
}

#[test]
fn verdict_2_of_each_command() {
    let cases: [(&[u8], usize); 8] = [
        (&[0x01, 0], 1),
        (&[0x20, 0, 0, 0], 16),
        (&[0xD7, 0, 0, 0], 16),
        (&[0xD8, 0, 0, 0], 256),
        (&[0x60], 512),
        (&[0xC7], 512),
        (&[0x02, 0, 0, 0, 0], 16),
        (&[0x0A, 0, 0, 0, 0], 16),
    ];
    for (bytes, steps) in cases {
        let mut bench = Bench::new(2, 0);
        bench.frame(&[0x06]);
        assert_eq!(bench.frame(bytes), 2);
        assert_eq!(bench.ticks(65_535), steps as u64);
        assert_eq!(bench.status(), 0);
        assert_eq!(bench.ticks(65_535), 0);
    }
}

#[test]
fn verdict_3_unknown() {
    let mut bench = Bench::new(1, 0);
    for opcode in [0x00, 0x59, 0x5B, 0x3B, 0xBB, 0xFF] {
        assert_eq!(bench.send(&[opcode, 1, 2, 3, 4, 5, 6]), [Record::Floating; 7]);
        assert_eq!(bench.end(), 3);
        bench.send(&[opcode]);
        assert_eq!(bench.end_loose(), 3);
    }
}

#[test]
fn verdict_4_lengths() {
    let rules: [(&[u8], &[usize]); 4] = [
        (&[0x06, 0x04, 0x60, 0xC7, 0xB0, 0x30, 0xB9, 0x66, 0x99], &[1]),
        (&[0x01], &[2]),
        (&[0x20, 0xD7, 0xD8], &[4]),
        (&[0x02, 0x0A], &[5, 6, 7, 8]),
    ];
    for (opcodes, fits) in rules {
        let lengths = |opcode| (1..=8).map(move |length| (opcode, length));
        for (opcode, length) in opcodes.iter().flat_map(lengths) {
            let mut bytes = vec![0; length];
            bytes[0] = *opcode;
            assert_eq!(Bench::new(1, 0).frame(&bytes) == 4, !fits.contains(&length));
            let mut bench = Bench::new(1, 0);
            bench.send(&bytes);
            assert_eq!(bench.end_loose(), 4);
        }
    }
    let mut bench = Bench::new(1, 0);
    bench.frame(&[0xB9]);
    bench.send(&[0xAB, 0, 0, 0, 0]);
    assert_eq!(bench.end_loose(), 4);
    assert!(bench.chip.deep);
}

#[test]
fn verdict_5_deep() {
    let mut bench = Bench::new(1, 0);
    bench.frame(&[0xB9]);
    for opcode in [0x06, 0x05, 0x03, 0x9F, 0x5A, 0x66, 0x99, 0xB9] {
        assert_eq!(bench.send(&[opcode, 0, 0, 0, 0, 0]), [Record::Floating; 6]);
        assert_eq!(bench.end(), 5);
    }
    assert_eq!(bench.frame(&[0x00]), 3);
    let records = bench.send(&[0xAB, 0, 0, 0, 0, 0, 0]);
    assert_eq!(records[..4], [Record::Floating; 4]);
    assert_eq!(records[4..], [Record::Driven(0x88); 3]);
    assert!(bench.chip.deep);
    assert_eq!(bench.end(), 1);
    assert_eq!(bench.status(), 0);
}

/// Every opcode that has a command.
const OPCODES: [u8; 21] = [
    0x06, 0x04, 0x05, 0x01, 0x03, 0x0B, 0x20, 0xD7, 0xD8, 0x60, 0xC7, 0x02, 0x0A, 0xB0, 0x30, 0x9F,
    0xAB, 0x5A, 0xB9, 0x66, 0x99,
];
/// The opcodes whose commands are taken while running.
const RUNNING_YES: [u8; 4] = [0x05, 0xB0, 0x66, 0x99];

#[test]
fn verdicts_6_and_7_by_the_table() {
    let suspended_yes = [
        0x05, 0x03, 0x0B, 0x20, 0xD7, 0xD8, 0x60, 0xC7, 0x02, 0x0A, 0x30, 0x66, 0x99,
    ];
    let mut bench = Bench::new(1, 0);
    bench.frame(&[0x06]);
    bench.frame(&[0x60]);
    for opcode in OPCODES {
        let mut one = bench.clone();
        assert_eq!(one.frame(&[opcode]) == 6, !RUNNING_YES.contains(&opcode));
    }
    bench.suspend();
    for opcode in OPCODES {
        let mut one = bench.clone();
        assert_eq!(one.frame(&[opcode]) == 7, !suspended_yes.contains(&opcode));
    }
}

#[test]
fn verdict_8_without_wen() {
    let mut bench = Bench::new(1, 0x9C);
    bench.apply(6, 0);
    let frames: [&[u8]; 4] = [&[0x01, 0], &[0x60], &[0x20, 0, 0, 0], &[0x02, 0, 0, 0, 0]];
    for bytes in frames {
        assert_eq!(bench.frame(bytes), 8);
    }
}

/// The protected sectors by the rules, counted from the end that TB names.
fn protected_walk(sectors: usize, level: usize, tb: bool) -> Vec<usize> {
    let count = sectors.min([0, 1, 2, 4, 8, 16, 32, 32][level]);
    let from_the_end = |sector: usize| if tb { sector } else { sectors - 1 - sector };
    (0..sectors).filter(|sector| from_the_end(*sector) < count).collect()
}

/// The record of a good frame: a job begun, or the ends of the walk where it is in the way.
fn expected_record(walk: &[usize], in_the_way: bool) -> Record {
    if !in_the_way {
        return Record::Verdict(2);
    }
    Record::Protected { first: walk[0] as u8, last: walk[walk.len() - 1] as u8 }
}

/// Every length, level and TB.
fn protections() -> Vec<(usize, usize, bool)> {
    let mut cases = Vec::new();
    for sectors in SECTORS {
        for level in 0..8 {
            cases.extend([(sectors, level, false), (sectors, level, true)]);
        }
    }
    cases
}

/// A blank bench of that many sectors, level and TB, write enabled.
fn protected_bench(sectors: usize, level: usize, tb: bool) -> Bench {
    let mut bench = Bench::new(sectors, (level << 2) as u8 | u8::from(tb) << 5);
    assert_eq!(bench.frame(&[0x06]), 1);
    bench
}

#[test]
fn verdict_9_of_every_sector() {
    for (sectors, level, tb) in protections() {
        let walk = protected_walk(sectors, level, tb);
        let mut bench = protected_bench(sectors, level, tb);
        let enabled = bench.chip.clone();
        for sector in 0..sectors {
            let in_the_way = walk.contains(&sector);
            let expected = expected_record(&walk, in_the_way);
            for offset in [0, 0x0FFF, 0x8000, 0xFFFF, bench.memory.len()] {
                let address = (sector * Chip::SECTOR + offset) as u32;
                for opcode in [0x20, 0xD7, 0xD8, 0x02, 0x0A] {
                    let data: &[u8] = if matches!(opcode, 0x02 | 0x0A) { &[0; 2] } else { &[] };
                    let record = bench.frame_record(&addressed(opcode, address, data));
                    assert_eq!(record, expected, "{sectors} {level} {tb} {opcode:X} {address:X}");
                    assert_eq!(bench.chip == enabled, in_the_way);
                    bench.chip = enabled.clone();
                }
            }
        }
        assert!(bench.memory.iter().all(|cell| *cell == 0xFF));
    }
}

#[test]
fn verdict_9_of_chip_erase() {
    for (sectors, level, tb) in protections() {
        let expected = expected_record(&protected_walk(sectors, level, tb), level != 0);
        let mut bench = protected_bench(sectors, level, tb);
        let enabled = bench.chip.clone();
        for opcode in [0x60, 0xC7] {
            assert_eq!(bench.frame_record(&[opcode]), expected, "{sectors} {level} {tb}");
            assert_eq!(bench.chip == enabled, level != 0);
            bench.chip = enabled.clone();
        }
    }
}

#[test]
fn verdict_9_ends_by_the_datasheet() {
    let upper = [(0x1F_0000, 1), (0x1E_0000, 2), (0x1C_0000, 3), (0x18_0000, 4), (0x10_0000, 5)];
    let lower = [(0x00_FFFF, 1), (0x01_FFFF, 2), (0x03_FFFF, 3), (0x07_FFFF, 4), (0x0F_FFFF, 5)];
    let ends = |level, tb, first_address: u32, last_address: u32| {
        let first = (first_address / Chip::SECTOR as u32) as u8;
        let last = (last_address / Chip::SECTOR as u32) as u8;
        let mut bench = protected_bench(32, level, tb);
        assert_eq!(bench.frame_record(&[0x60]), Record::Protected { first, last });
        for address in [first_address, last_address] {
            let record = bench.frame_record(&addressed(0xD8, address, &[]));
            assert_eq!(record, Record::Protected { first, last });
        }
    };
    for (first_address, level) in upper {
        ends(level, false, first_address, 0x1F_FFFF);
    }
    for (last_address, level) in lower {
        ends(level, true, 0, last_address);
    }
    for (level, tb) in [(6, false), (6, true), (7, false), (7, true)] {
        ends(level, tb, 0, 0x1F_FFFF);
    }
}

#[test]
fn verdict_9_ends_are_of_the_whole_range() {
    let ends = |first, last| Record::Protected { first, last };
    let mut top = protected_bench(8, 3, false);
    let mut bottom = protected_bench(8, 3, true);
    assert_eq!(top.frame_record(&[0x60]), ends(4, 7));
    assert_eq!(bottom.frame_record(&[0x60]), ends(0, 3));
    assert_eq!(top.frame_record(&addressed(0x02, 0x05_1234, &[0])), ends(4, 7));
    assert_eq!(bottom.frame_record(&addressed(0x20, 0x02_0000, &[])), ends(0, 3));
    assert_eq!(protected_bench(32, 1, false).frame_record(&[0xC7]), ends(31, 31));
    assert_eq!(protected_bench(32, 1, true).frame_record(&[0xC7]), ends(0, 0));
    assert_eq!(protected_bench(1, 5, false).frame_record(&[0xC7]), ends(0, 0));
    assert_eq!(protected_bench(1, 5, true).frame_record(&[0xC7]), ends(0, 0));
}

#[test]
fn verdict_9_changes_nothing_but_the_arming() {
    let mut bench = protected_bench(2, 1, false);
    bench.memory.fill(0x5A);
    let before = bench.clone();
    let protected = Record::Protected { first: 1, last: 1 };
    let frames = [vec![0x60], addressed(0xD8, 0x1_0000, &[]), addressed(0x02, 0x1_0000, &[0; 9])];
    for bytes in &frames {
        bench.frame(&[0x66]);
        assert!(bench.chip.armed);
        assert_eq!(bench.frame_record(bytes), protected);
        assert_eq!(bench.status(), 0x06);
        assert_eq!(bench.ticks(65_535), 0);
        assert!(bench.chip == before.chip && bench.memory == before.memory);
    }
    assert_eq!(bench.frame(&addressed(0x20, 0, &[])), 2);
    assert_eq!(bench.ticks(2), 2);
    bench.suspend();
    let before = bench.clone();
    for bytes in &frames {
        assert_eq!(bench.frame_record(bytes), protected);
        assert_eq!(bench.status(), 0x46);
        assert!(bench.chip == before.chip && bench.memory == before.memory);
    }
    bench.frame(&[0x30]);
    assert_eq!(bench.ticks(65_535), 13);
}

#[test]
fn verdict_9_comes_after_the_others() {
    let mut bench = Bench::new(1, 0x9C);
    assert_eq!(bench.frame(&[0x60]), 8);
    bench.frame(&[0x06]);
    assert_eq!(bench.frame(&[0x20, 0, 0]), 4);
    bench.send(&[0x20, 0, 0, 0]);
    assert_eq!(bench.end_loose(), 4);
    bench.apply(6, 0);
    assert_eq!(bench.frame(&[0x01, 0]), 10);
    bench.apply(6, 1);
    assert_eq!(bench.frame_record(&[0x60]), Record::Protected { first: 0, last: 0 });
    assert_eq!(bench.frame(&[0x01, 0]), 2);
}

/// Runs a script in exactly the room it needs, one byte less being refused by 7, and gives the
/// bytes written.
fn run_in_room(bench: &mut Bench, script: &[u8], room: usize) -> Vec<u8> {
    if room > 0 {
        assert_eq!(refused(bench, script, room - 1), (7, 0));
        assert_eq!(refused(bench, script, 0), (7, 0));
    }
    let mut output = vec![0xEE; room];
    let answer = run(&mut bench.chip, &mut bench.memory, &bench.area, script, &mut output);
    assert_eq!((answer.refusal, answer.offset), (0, 0));
    assert!(output[answer.written..].iter().all(|byte| *byte == 0xEE));
    output.truncate(answer.written);
    output
}

#[test]
fn room_is_2_an_exchange_and_3_a_deselect() {
    let mut bench = Bench::new(1, 0);
    assert_eq!(run_in_room(&mut bench, &[], 0), []);
    assert_eq!(run_in_room(&mut bench, &[4, 5, 0, 1, 6, 1, 1, 7], 0), []);
    assert_eq!(run_in_room(&mut bench, &[2, 0x60], 2), [0x80]);
    assert_eq!(run_in_room(&mut bench, &[3, 0], 3), [0x82, 0]);
    assert_eq!(run_in_room(&mut bench, &[3, 1], 3), [0x82, 0]);
    assert_eq!(run_in_room(&mut bench, &[3, 0, 3, 7, 3, 0], 9), [0x82, 0, 0x82, 0, 0x82, 0]);
    assert_eq!(run_in_room(&mut bench, &SAMPLE, 12), [0x80, 0x82, 1, 0x80, 0x81, 2, 0x82, 0]);
    assert_eq!(run_in_room(&mut bench, &[1, 2, 0x00, 3, 2], 5), [0x80, 0x82, 3]);
    assert_eq!(run_in_room(&mut bench, &[1, 2, 0xB9, 2, 0, 3, 0], 7), [0x80, 0x80, 0x82, 4]);
    assert_eq!(run_in_room(&mut bench, &[1, 2, 0x60, 3, 7], 5), [0x80, 0x82, 4]);
    assert_eq!(run_in_room(&mut bench, &[1, 2, 0x99, 3, 0], 5), [0x80, 0x82, 11]);
    assert_eq!(run_in_room(&mut bench, &[1, 2, 0x60, 3, 0], 5), [0x80, 0x82, 2]);
}

#[test]
fn room_of_protected_frames() {
    let mut bench = protected_bench(8, 3, false);
    assert_eq!(run_in_room(&mut bench, &[1, 2, 0x60, 3, 0], 5), [0x80, 0x83, 4, 7]);
    assert_eq!(run_in_room(&mut bench, &[1, 2, 0x60, 3, 1], 5), [0x80, 0x82, 4]);
    let erase = [1, 2, 0xD8, 2, 6, 2, 0, 2, 0, 3, 0];
    assert_eq!(run_in_room(&mut bench, &erase, 11), [0x80, 0x80, 0x80, 0x80, 0x83, 4, 7]);
    let three = [1, 2, 0xC7, 3, 0, 3, 0, 1, 2, 0x60, 3, 0];
    let records = [0x80, 0x83, 4, 7, 0x82, 0, 0x80, 0x83, 4, 7];
    assert_eq!(run_in_room(&mut bench, &three, 13), records);
}

#[test]
fn written_is_2_for_verdict_4_and_3_for_verdict_9() {
    let mut bench = protected_bench(32, 1, false);
    bench.send(&[0xC7]);
    assert_eq!(run_in_room(&mut bench.clone(), &[3, 1], 3), [0x82, 4]);
    assert_eq!(run_in_room(&mut bench.clone(), &[3, 0], 3), [0x83, 31, 31]);
    let mut output = [0xEE; 8];
    let answer = run(&mut bench.chip, &mut bench.memory, &bench.area, &[3, 0, 3, 5], &mut output);
    assert_eq!(answer, RunAnswer { refusal: 0, offset: 0, written: 5, ticks: 0 });
    assert_eq!(output, [0x83, 31, 31, 0x82, 0, 0xEE, 0xEE, 0xEE]);
}

#[test]
fn verdict_10_srwp_and_wp_low() {
    let mut bench = Bench::new(1, 0x80);
    bench.frame(&[0x06]);
    bench.apply(6, 0);
    assert_eq!(bench.frame(&[0x01, 0]), 10);
    assert_eq!(bench.status(), 0x82);
    bench.apply(6, 1);
    assert_eq!(bench.frame(&[0x01, 0]), 2);
    bench.ticks(1);
    assert_eq!(bench.status(), 0);
}

#[test]
fn verdict_11_nothing_to_act_on() {
    let mut bench = Bench::new(1, 0);
    assert_eq!(bench.frame(&[0xB0]), 11);
    assert_eq!(bench.frame(&[0x30]), 11);
    assert_eq!(bench.frame(&[0x99]), 11);
    bench.frame(&[0x06]);
    bench.frame(&[0x01, 0]);
    assert_eq!(bench.frame(&[0xB0]), 11);
    bench.ticks(1);
    bench.frame(&[0x06]);
    bench.frame(&[0x20, 0, 0, 0]);
    bench.ticks(15);
    bench.send(&[0xB0]);
    bench.ticks(1);
    assert_eq!(bench.end(), 11);
}

#[test]
fn jedec_cycle_of_four() {
    let mut bench = Bench::new(1, 0);
    let driven = [0x62, 0x16, 0x15, 0x00, 0x62, 0x16, 0x15, 0x00, 0x62].map(Record::Driven);
    let records = bench.send(&[0x9F, 1, 2, 3, 4, 5, 6, 7, 8, 9]);
    assert_eq!(records[0], Record::Floating);
    assert_eq!(records[1..], driven);
    assert_eq!(bench.chip.frame.read_place, 1);
}

#[test]
fn status_read_follows_the_job() {
    let mut bench = Bench::new(1, 0);
    bench.frame(&[0x06]);
    bench.frame(&[0x01, 0x04]);
    assert_eq!(bench.send(&[0x05, 0])[1], Record::Driven(0x03));
    bench.ticks(1);
    assert_eq!(bench.apply(2, 0).0, Record::Driven(0x04));
}

#[test]
fn arming() {
    let mut bench = Bench::new(1, 0);
    bench.frame(&[0x66]);
    bench.send(&[]);
    bench.end_loose();
    assert!(bench.chip.armed);
    bench.send(&[0x66]);
    assert_eq!(bench.end_loose(), 4);
    assert!(!bench.chip.armed);
    bench.frame(&[0x66]);
    assert_eq!(bench.frame(&[0x00]), 3);
    assert!(!bench.chip.armed);
    bench.frame(&[0x66]);
    assert_eq!(bench.frame(&[0x66]), 1);
    assert!(bench.chip.armed);
    assert_eq!(bench.frame(&[0x99, 0]), 4);
    assert_eq!(bench.frame(&[0x99]), 11);
}

#[test]
fn reset_and_power_cut_drop_the_job() {
    for cut in [false, true] {
        let mut bench = Bench::new(1, 0xA0);
        bench.memory.fill(0);
        bench.apply(6, 0);
        bench.frame(&[0x06]);
        assert_eq!(bench.frame(&[0xC7]), 2);
        bench.ticks(2);
        bench.suspend();
        assert_eq!(bench.frame(&[0x66]), 1);
        if cut {
            bench.send(&[0x02, 1, 2, 3, 4]);
            bench.apply(7, 0);
        } else {
            assert_eq!(bench.frame(&[0x99]), 1);
        }
        let mut expected = Chip::fresh(0xA0);
        expected.wp_high = false;
        assert_eq!(bench.chip, expected);
        assert_eq!(bench.ticks(10), 0);
        assert_eq!((bench.memory[767], bench.memory[768]), (0xFF, 0));
    }
    let mut bench = Bench::new(1, 0);
    bench.frame(&[0xB9]);
    bench.apply(7, 0);
    assert_eq!(bench.chip, Chip::fresh(0));
}

#[test]
fn suspend_resume_and_a_new_job() {
    let mut bench = Bench::new(1, 0);
    bench.memory.fill(0);
    bench.frame(&[0x06]);
    bench.frame(&[0x20, 0, 0, 0]);
    bench.ticks(1);
    bench.suspend();
    assert_eq!(bench.ticks(500), 0);
    assert_eq!(bench.frame(&[0x30]), 1);
    assert_eq!(bench.status(), 0x03);
    bench.suspend();
    assert_eq!(bench.frame(&[0x20, 0, 0x20, 0]), 2);
    assert_eq!(bench.status(), 0x03);
    assert_eq!(bench.ticks(500), 16);
    assert_eq!(bench.status(), 0);
    assert_eq!((bench.memory[767], bench.memory[768]), (0xFF, 0));
    assert!(bench.memory[0x2000..0x3000].iter().all(|cell| *cell == 0xFF));
}

#[test]
fn error_last_256_bytes_laid_from_the_start_or_the_address() {
    let mut bench = Bench::new(1, 0);
    let data: Vec<u8> = (0..300u32).map(|j| (j * 7 % 256) as u8).collect();
    bench.frame(&[0x06]);
    bench.frame(&addressed(0x02, 0x1C8, &data));
    bench.ticks(16);
    for j in 44..300 {
        assert_eq!(bench.memory[0x100 + (0xC8 + j) % 256], data[j]);
    }
}

#[test]
fn error_storing_where_the_cell_only_loses_bits() {
    let mut bench = Bench::new(1, 0);
    bench.memory[0] = 0x3C;
    bench.frame(&[0x06]);
    bench.frame(&addressed(0x02, 0, &[0xF0]));
    bench.ticks(1);
    assert_eq!(bench.memory[0], 0x30);
}

#[test]
fn error_clearing_wen_after_9_or_10() {
    let mut bench = Bench::new(1, 0x98);
    bench.frame(&[0x06]);
    bench.apply(6, 0);
    let record = bench.frame_record(&[0x20, 0, 0, 0]);
    assert_eq!(record, Record::Protected { first: 0, last: 0 });
    assert_eq!(bench.status(), 0x9A);
    assert_eq!(bench.frame(&[0x01, 0]), 10);
    assert_eq!(bench.status(), 0x9A);
}

#[test]
fn error_spoiled_frame_over_a_suspended_load() {
    let mut bench = Bench::new(1, 0);
    bench.frame(&[0x06]);
    bench.frame(&addressed(0x02, 0, &[0x11; 256]));
    bench.ticks(3);
    bench.suspend();
    bench.send(&addressed(0x02, 0, &[0x22; 256]));
    assert_eq!(bench.end_loose(), 4);
    assert_eq!(bench.frame(&addressed(0x02, 0, &[])), 4);
    bench.frame(&[0x30]);
    assert_eq!(bench.ticks(100), 12);
    assert!(bench.memory[..256].iter().all(|cell| *cell == 0x11));
}

#[test]
fn error_answering_a_read_begun_while_running() {
    for opcode in [0x03, 0x0B] {
        let mut bench = Bench::new(1, 0);
        bench.frame(&[0x06]);
        bench.frame(&[0x01, 0]);
        bench.send(&[opcode, 0]);
        bench.ticks(1);
        for _ in 0..10 {
            assert_eq!(bench.apply(2, 0).0, Record::Floating);
        }
        assert_eq!(bench.end(), 6);
    }
}

#[test]
fn each_clause_of_legal() {
    let base = Chip::fresh(0);
    let job = |kind, place, steps_done| Some(Job { kind, place, steps_done });
    let load = [0; 256];
    let check = |legal: bool, change: &dyn Fn(&mut Chip)| {
        let mut chip = base.clone();
        change(&mut chip);
        assert_eq!(chip.legal(2 * Chip::SECTOR), legal, "{chip:?}");
    };
    check(true, &|_| {});
    check(false, &|c| c.level = 8);
    for (kind, size, steps) in [
        (JobKind::Program(load), 256, 16),
        (JobKind::SmallSectorErase, 4_096, 16),
        (JobKind::SectorErase, 65_536, 256),
    ] {
        let at = |c: &mut Chip, wen, place, done| {
            c.wen = wen;
            c.job = job(kind.clone(), place, done);
        };
        check(true, &|c| at(c, true, size, steps - 1));
        check(false, &|c| at(c, false, size, 0));
        check(false, &|c| at(c, true, size, steps));
        check(false, &|c| at(c, true, size / 2, 0));
        check(false, &|c| at(c, true, 2 * 65_536, 0));
    }
    for (kind, steps) in [(JobKind::ChipErase, 512), (JobKind::WriteStatus(9), 1)] {
        let at = |c: &mut Chip, place, done| {
            c.wen = true;
            c.job = job(kind.clone(), place, done);
        };
        check(true, &|c| at(c, 0, steps - 1));
        check(false, &|c| at(c, 0, steps));
        check(false, &|c| at(c, 65_536, 0));
    }
}

#[test]
fn each_clause_of_legal_but_the_job() {
    let check = |legal: bool, change: &dyn Fn(&mut Chip)| {
        let mut chip = Chip::fresh(0);
        change(&mut chip);
        assert_eq!(chip.legal(Chip::SECTOR), legal, "{chip:?}");
    };
    let with_job = |c: &mut Chip, kind| {
        c.wen = true;
        c.job = Some(Job { kind, place: 0, steps_done: 0 });
    };
    check(false, &|c| c.suspended = true);
    check(false, &|c| { with_job(c, JobKind::WriteStatus(0)); c.suspended = true });
    check(true, &|c| { with_job(c, JobKind::ChipErase); c.suspended = true });
    check(false, &|c| { with_job(c, JobKind::ChipErase); c.deep = true });
    check(true, &|c| c.deep = true);
    check(false, &|c| { c.deep = true; c.armed = true });
    let full = |c: &mut Chip| {
        c.selected = true;
        c.frame = Frame {
            opcode: 3, address: 0xFF_FFFF, read_place: 0xFFFF, load_place: 255,
            byte_count: 6, judgement: Some(7), load: [0; 256],
        };
    };
    check(true, &|c| full(c));
    check(false, &|c| { full(c); c.selected = false });
    check(false, &|c| { full(c); c.frame.address = 1 << 24 });
    check(false, &|c| { full(c); c.frame.read_place = 0x1_0000 });
    check(false, &|c| { full(c); c.frame.load_place = 256 });
    check(false, &|c| { full(c); c.frame.byte_count = 7 });
    check(false, &|c| { full(c); c.frame.byte_count = 0 });
    check(true, &|c| { full(c); c.frame.judgement = None });
    check(false, &|c| { full(c); c.frame.judgement = Some(4) });
    check(false, &|c| { full(c); c.frame.opcode = 0x9F });
    check(true, &|c| { full(c); c.frame.opcode = 0x9F; c.frame.read_place = 3 });
    check(false, &|c| { full(c); c.frame.opcode = 0x9F; c.frame.read_place = 4 });
    check(false, &|c| { c.selected = true; c.frame.load[255] = 0 });
}

#[test]
fn fresh_keeps_its_bits() {
    for status in 0..=255 {
        let chip = Chip::fresh(status);
        assert_eq!(chip.status_byte(), status & 0xBC);
        assert!(chip.legal(REAL));
    }
}

/// A small sector erase and its suspend, which random frames in a row seldom are.
const ERASE_AND_SUSPEND: [u8; 21] =
    [1, 2, 0x06, 3, 0, 1, 2, 0x20, 2, 0, 2, 0x30, 2, 0, 3, 0, 1, 2, 0xB0, 3, 0];

/// A random script of mostly sensible frames.
fn random_script(dice: &mut Dice) -> Vec<u8> {
    let opcodes = [
        0x06, 0x06, 0x06, 0x04, 0x05, 0x01, 0x03, 0x0B, 0x20, 0xD7, 0xD8, 0x60, 0xC7, 0x02, 0x0A,
        0xB0, 0xB0, 0x30, 0x9F, 0xAB, 0xAB, 0xB9, 0x66, 0x99, 0x5A,
    ];
    let mut script = Vec::new();
    for _ in 0..60 {
        if dice.below(20) == 0 {
            script.extend(ERASE_AND_SUSPEND);
        }
        script.push(1);
        script.extend([2, opcodes[dice.below(opcodes.len() as u64) as usize]]);
        for _ in 0..[0, 0, 1, 3, 4, dice.below(9)][dice.below(6) as usize] {
            script.extend([2, dice.below(256) as u8]);
        }
        if dice.below(8) == 0 {
            script.push(4);
        }
        match dice.below(12) {
            0 => script.extend([3, 1 + dice.below(7) as u8]),
            1 => script.push(7),
            _ => script.extend([3, 0]),
        }
        match dice.below(6) {
            0 => script.push(4),
            1 => script.extend([5, dice.below(2) as u8, 1 + dice.below(30) as u8]),
            2 => script.extend([6, dice.below(2) as u8]),
            _ => {}
        }
    }
    script
}

/// The events of a good script, each a kind and a body.
fn events_of(script: &[u8]) -> Vec<(u64, u64)> {
    let mut events = Vec::new();
    let mut rest = script;
    while let [kind, after @ ..] = rest {
        let (body, next) = after.split_at(model::body_length(*kind).unwrap());
        let value = body.iter().fold(0, |value, byte| value * 256 + u64::from(*byte));
        events.push((u64::from(*kind), value));
        rest = next;
    }
    events
}

/// The room of a good script: 2 an exchange, 3 a deselect, clean or loose.
fn room_of(script: &[u8]) -> usize {
    events_of(script).iter().map(|(kind, _)| [0, 0, 2, 3, 0, 0, 0, 0, 0, 0][*kind as usize]).sum()
}

/// The output bytes of a record.
fn bytes_of(record: Record) -> Vec<u8> {
    match record {
        Record::None => vec![],
        Record::Floating => vec![0x80],
        Record::Driven(byte) => vec![0x81, byte],
        Record::Verdict(verdict) => vec![0x82, verdict],
        Record::Protected { first, last } => vec![0x83, first, last],
    }
}

#[test]
fn a_run_is_its_events_one_by_one() {
    let mut dice = Dice(1);
    let (mut protected, mut waits) = (0, 0);
    for _ in 0..300 {
        let sectors = 1 << dice.below(3);
        let script = random_script(&mut dice);
        let kept_bits = [0x84, 0x84, 0xBC][dice.below(3) as usize];
        let mut whole = Bench::new(sectors as usize, dice.below(256) as u8 & kept_bits);
        whole.area = CONTENT[..dice.below(209) as usize].to_vec();
        let mut single = whole.clone();
        let room = room_of(&script);
        if room > 0 {
            assert_eq!(refused(&mut whole, &script, room - 1), (7, 0));
        }
        let mut output = vec![0; room];
        let answer = run(&mut whole.chip, &mut whole.memory, &whole.area, &script, &mut output);
        assert_eq!(answer.refusal, 0);
        let (mut records, mut ticks) = (Vec::new(), 0);
        for (kind, body) in events_of(&script) {
            let waited = single.chip.waiting;
            let (record, worked) = single.apply(kind, body);
            records.extend(bytes_of(record));
            ticks += worked;
            protected += usize::from(matches!(record, Record::Protected { .. }));
            waits += usize::from(waited && worked == 1);
        }
        assert_eq!(records, output[..answer.written]);
        assert_eq!(ticks, answer.ticks);
        assert!(whole.chip == single.chip && whole.memory == single.memory);
    }
    assert!(protected > 20 && waits > 20, "{protected} {waits}");
}

/// A random legal state, most of them out of reach from a fresh one.
fn random_chip(dice: &mut Dice, memory_length: usize) -> Chip {
    loop {
        let mut chip = Chip::fresh(dice.below(256) as u8);
        let mut flag = || dice.below(2) == 1;
        (chip.wen, chip.wp_high, chip.deep, chip.armed) = (flag(), flag(), flag(), flag());
        (chip.selected, chip.suspended, chip.waiting) = (flag(), flag(), flag());
        let kind = match dice.below(7) {
            0 => Some(JobKind::Program([dice.below(256) as u8; 256])),
            1 => Some(JobKind::SmallSectorErase),
            2 => Some(JobKind::SectorErase),
            3 => Some(JobKind::ChipErase),
            4 => Some(JobKind::WriteStatus(dice.below(256) as u8)),
            _ => None,
        };
        let place = [0, 256, 4_096, 65_536][dice.below(4) as usize];
        let steps_done = dice.below(20) as u32;
        chip.job = kind.map(|kind| Job { kind, place, steps_done });
        if chip.selected {
            chip.frame = random_frame(dice);
        }
        if chip.legal(memory_length) {
            return chip;
        }
    }
}

/// A random frame for a random chip, legal or not.
fn random_frame(dice: &mut Dice) -> Frame {
    let opcodes = [
        0x01, 0x02, 0x03, 0x05, 0x0B, 0x20, 0xD8, 0x60, 0x9F, 0xAB, 0xB0, 0x30, 0x77, 0x5A, 0x5A,
    ];
    Frame {
        opcode: opcodes[dice.below(15) as usize],
        address: dice.below(1 << 24) as u32,
        read_place: [0, 3, 65_535, 131_071, 0xFF_FFFF, 0x100_0000][dice.below(6) as usize],
        load_place: dice.below(257) as u32,
        byte_count: dice.below(8) as u8,
        judgement: [None, None, Some(3), Some(5), Some(6), Some(7)][dice.below(6) as usize],
        load: [dice.below(256) as u8; 256],
    }
}

#[test]
fn legal_states_stay_legal() {
    let mut dice = Dice(2);
    for _ in 0..3_000 {
        let mut bench = Bench::new(2, 0);
        bench.chip = random_chip(&mut dice, bench.memory.len());
        for _ in 0..20 {
            match dice.below(12) {
                0 => bench.apply(1, 0),
                1 => bench.apply(3, 0),
                2 => bench.apply(3, 1 + dice.below(7)),
                3 => bench.apply(4, 0),
                4 => bench.apply(5, 1 + dice.below(600)),
                5 => bench.apply(6, dice.below(2)),
                6 if dice.below(4) == 0 => bench.apply(7, 0),
                _ => bench.apply(2, dice.below(256)),
            };
        }
    }
}

/// An area of that length whose byte at place p is 255 less p, never FFh but at 0, where it is 80h.
fn sloped(length: usize) -> Vec<u8> {
    (0..length).map(|place| if place == 0 { 0x80 } else { 255 - place as u8 }).collect()
}

/// The byte that a 5Ah frame is to drive at a place.
fn area_byte(area: &[u8], place: u32) -> u8 {
    if (place as usize) < area.len() { area[place as usize] } else { 0xFF }
}

#[test]
fn sfdp_dummy_floats_and_data_from_byte_6() {
    let mut bench = Bench::with_area(1, &sloped(16));
    let records = bench.send(&addressed(0x5A, 2, &[0; 4]));
    assert_eq!(records[..5], [Record::Floating; 5]);
    assert_eq!(records[5..], [253, 252, 251].map(Record::Driven));
    assert_eq!(bench.chip.frame.read_place, 5);
    assert_eq!(bench.end(), 0);
    assert_eq!(bench.chip, Chip::fresh(0));
}

#[test]
fn sfdp_place_not_reduced_by_the_memory() {
    for sectors in SECTORS {
        let length = (sectors * Chip::SECTOR) as u32;
        let mut bench = Bench::with_area(sectors, &sloped(16));
        bench.send(&addressed(0x5A, length + 3, &[]));
        assert_eq!(bench.chip.frame.read_place, length + 3);
        bench.end();
        assert_eq!(bench.read_sfdp(length + 3, 3), [0xFF; 3]);
        bench.send(&addressed(0x5A, length - 1, &[0, 0, 0]));
        assert_eq!(bench.chip.frame.read_place, length + 1);
        bench.end();
        assert_eq!(bench.read_sfdp(length - 1, 3), [0xFF; 3]);
        assert_eq!(bench.read_sfdp(0x80_0000, 1), [0xFF]);
    }
}

#[test]
fn sfdp_area_ends_and_ff_follows() {
    for length in 0..=256 {
        let area = sloped(length);
        let mut bench = Bench::with_area(1, &area);
        let mut whole = area.clone();
        whole.extend([0xFF; 4]);
        assert_eq!(bench.read_sfdp(0, length + 4), whole);
        assert_eq!(bench.read_sfdp(length as u32, 2), [0xFF; 2]);
        if length > 0 {
            let last = [area[length - 1], 0xFF];
            assert_eq!(bench.read_sfdp(length as u32 - 1, 2), last);
        }
    }
}

#[test]
fn sfdp_wraps_after_the_last_place() {
    for length in [0, 1, 256] {
        let area = sloped(length);
        for sectors in [1, 32] {
            let mut bench = Bench::with_area(sectors, &area);
            bench.send(&addressed(0x5A, 0xFF_FFFE, &[0, 0]));
            assert_eq!(bench.chip.frame.read_place, 0xFF_FFFF);
            assert_eq!(bench.apply(2, 0).0, Record::Driven(0xFF));
            assert_eq!(bench.chip.frame.read_place, 0);
            for place in 0..300 {
                assert_eq!(bench.apply(2, 0).0, Record::Driven(area_byte(&area, place)));
                assert_eq!(bench.chip.frame.read_place, place + 1);
            }
            assert_eq!(bench.end(), 0);
        }
    }
}

#[test]
fn sfdp_at_any_address() {
    let mut dice = Dice(3);
    for _ in 0..2_000 {
        let area: Vec<u8> = (0..dice.below(257)).map(|_| dice.below(256) as u8).collect();
        let address = dice.below_one_of(&[300, 1 << 24]) as u32;
        let mut bench = Bench::with_area(1, &area);
        let places = (0..20).map(|j| (address + j) % (1 << 24));
        let expected: Vec<u8> = places.map(|place| area_byte(&area, place)).collect();
        assert_eq!(bench.read_sfdp(address, 20), expected);
    }
}

#[test]
fn sfdp_judged_at_the_opcode_byte() {
    let floats = |bench: &mut Bench, verdict: u8| {
        for loose in [false, true] {
            let records = bench.send(&addressed(0x5A, 0x12_3456, &[0; 4]));
            assert_eq!(records, [Record::Floating; 8]);
            let frame = &bench.chip.frame;
            assert_eq!((frame.address, frame.read_place, frame.byte_count), (0, 0, 6));
            assert_eq!(frame.judgement, Some(verdict));
            assert_eq!(if loose { bench.end_loose() } else { bench.end() }, verdict);
        }
    };
    let mut bench = Bench::with_area(1, &sloped(256));
    bench.frame(&[0xB9]);
    floats(&mut bench, 5);
    bench.frame(&[0xAB]);
    bench.frame(&[0x06]);
    bench.frame(&[0x60]);
    floats(&mut bench, 6);
    assert_eq!(bench.frame(&[0xB0]), 1);
    floats(&mut bench, 6);
    assert_eq!(bench.ticks(1), 1);
    floats(&mut bench, 7);
    bench.frame(&[0x30]);
    bench.send(&[0x5A]);
    assert_eq!(bench.ticks(256), 255);
    for _ in 0..8 {
        assert_eq!(bench.apply(2, 0).0, Record::Floating);
    }
    assert_eq!(bench.end(), 6);
    assert_eq!(bench.read_sfdp(0, 2), [0x80, 254]);
}

#[test]
fn sfdp_frame_unjudged_on_a_busy_state() {
    let states: [(u8, fn(&mut Chip)); 4] = [
        (5, |chip| chip.deep = true),
        (6, |chip| {
            chip.wen = true;
            chip.job = Some(Job { kind: JobKind::ChipErase, place: 0, steps_done: 0 });
        }),
        (6, |chip| {
            chip.wen = true;
            chip.waiting = true;
            chip.job = Some(Job { kind: JobKind::ChipErase, place: 0, steps_done: 0 });
        }),
        (7, |chip| {
            chip.wen = true;
            chip.suspended = true;
            chip.job = Some(Job { kind: JobKind::ChipErase, place: 0, steps_done: 0 });
        }),
    ];
    for (verdict, change) in states {
        let mut bench = Bench::with_area(1, &sloped(256));
        bench.send(&addressed(0x5A, 7, &[0]));
        change(&mut bench.chip);
        assert_eq!(bench.apply(2, 0).0, Record::Driven(248));
        assert_eq!(bench.clone().end_loose(), verdict);
        assert_eq!(bench.end(), verdict);
    }
}

#[test]
fn sfdp_loose_at_each_length() {
    for length in 1..=8 {
        let mut bench = Bench::with_area(1, &sloped(256));
        bench.send(&[0x5A, 0, 0, 1, 0, 0, 0, 0][..length]);
        assert_eq!(bench.clone().end(), 0);
        assert_eq!(bench.end_loose(), 0);
        assert_eq!(bench.chip, Chip::fresh(0));
    }
}

#[test]
fn sfdp_disarms_and_keeps_wen() {
    let mut bench = Bench::with_area(1, &sloped(256));
    bench.frame(&[0x06]);
    bench.frame(&[0x66]);
    assert_eq!(bench.frame(&[0x5A]), 0);
    assert_eq!(bench.frame(&[0x99]), 11);
    assert_eq!(bench.status(), 0x02);
}

#[test]
fn sfdp_frame_is_kept_as_a_high_speed_read_frame() {
    let mut dice = Dice(4);
    for _ in 0..200 {
        let mut sfdp = Bench::with_area(32, &sloped(256));
        let mut fast = sfdp.clone();
        sfdp.send(&[0x5A]);
        fast.send(&[0x0B]);
        for count in 2..=9 {
            let byte = dice.below(256);
            sfdp.apply(2, byte);
            fast.apply(2, byte);
            let mut frame = sfdp.chip.frame.clone();
            assert_eq!(frame.read_place % REAL as u32, fast.chip.frame.read_place);
            if count == 4 {
                assert_eq!(frame.read_place, frame.address);
            }
            frame.opcode = 0x0B;
            frame.read_place = fast.chip.frame.read_place;
            assert_eq!(frame, fast.chip.frame);
        }
    }
}

#[test]
fn sfdp_legal_read_places() {
    let legal = |length: usize, opcode: u8, judgement: Option<u8>, read_place: usize| {
        let mut bench = Bench::new(1, 0);
        bench.memory.resize(length, 0xFF);
        bench.chip.selected = true;
        let read_place = read_place as u32;
        bench.chip.frame.opcode = opcode;
        bench.chip.frame.judgement = judgement;
        bench.chip.frame.read_place = read_place;
        bench.chip.frame.byte_count = 6;
        let legal = bench.chip.legal(length);
        let refusal = event(&mut bench.chip, &mut bench.memory, &bench.area, 6, 1).refusal;
        assert_eq!(refusal, if legal { 0 } else { 2 });
        legal
    };
    for length in SECTORS.map(|sectors| sectors * Chip::SECTOR) {
        for judgement in [None, Some(3), Some(5), Some(6), Some(7)] {
            assert!(legal(length, 0x5A, judgement, (1 << 24) - 1));
            assert!(!legal(length, 0x5A, judgement, 1 << 24));
            assert!(!legal(length, 0x5A, judgement, u32::MAX as usize));
            for opcode in [0x00, 0x03, 0x0B, 0x02, 0x05, 0x59, 0x5B, 0xFF] {
                assert!(legal(length, opcode, judgement, length - 1));
                assert!(!legal(length, opcode, judgement, length));
                assert!(!legal(length, opcode, judgement, (1 << 24) - 1));
            }
            assert!(legal(length, 0x9F, judgement, 3));
            assert!(!legal(length, 0x9F, judgement, 4));
        }
    }
}

#[test]
fn sfdp_state_at_the_last_place_reads_on() {
    let mut bench = Bench::with_area(1, &sloped(256));
    bench.send(&addressed(0x5A, 0, &[0, 0]));
    bench.chip.frame.read_place = 0xFF_FFFF;
    assert_eq!(bench.apply(2, 0).0, Record::Driven(0xFF));
    assert_eq!(bench.apply(2, 0).0, Record::Driven(0x80));
    bench.chip.frame.read_place = 1 << 24;
    let answer = event(&mut bench.chip, &mut bench.memory, &bench.area, 2, 0);
    assert_eq!((answer.refusal, answer.record), (2, Record::None));
    assert_eq!(refused(&mut bench, &[2, 0], 2), (2, 0));
}

#[test]
fn refusal_13_and_its_order() {
    let mut bench = Bench::with_area(1, &[0; 256]);
    assert_eq!(bench.apply(1, 0), (Record::None, 0));
    let answer = run(&mut bench.chip, &mut bench.memory, &bench.area, &[3, 0], &mut [0; 3]);
    assert_eq!(answer, RunAnswer { refusal: 0, offset: 0, written: 2, ticks: 0 });
    bench.area.push(0);
    let before = bench.clone();
    let alone = |bench: &mut Bench, kind, body| {
        let answer = event(&mut bench.chip, &mut bench.memory, &bench.area, kind, body);
        assert_eq!((answer.record, answer.ticks), (Record::None, 0));
        answer.refusal
    };
    for (kind, body) in [(1, 0), (2, 0x5A), (2, 256), (3, 8), (10, 0)] {
        assert_eq!(alone(&mut bench, kind, body), 13);
        assert!(bench.chip == before.chip && bench.memory == before.memory);
    }
    let scripts: [&[u8]; 5] = [&[], &[1, 2, 0x5A, 3, 0], &[1, 10], &[1, 2], &[10; 65_537]];
    for script in scripts {
        assert_eq!(refused(&mut bench, script, 0), (13, 0));
    }
    bench.chip.level = 8;
    assert_eq!(refused(&mut bench, &[10], 0), (13, 0));
    assert_eq!(alone(&mut bench, 10, 0), 13);
    bench.area.pop();
    assert_eq!(refused(&mut bench, &[10], 0), (2, 0));
    assert_eq!(alone(&mut bench, 10, 0), 2);
    bench.area.push(0);
    bench.memory.pop();
    assert_eq!(refused(&mut bench, &[10], 0), (1, 0));
    assert_eq!(alone(&mut bench, 10, 0), 1);
}

#[test]
fn sfdp_in_a_run_and_in_the_program() {
    let mut script = vec![1];
    script.extend(addressed(0x5A, 0, &[0; 17]).iter().flat_map(|byte| [2, *byte]));
    script.extend([3, 0]);
    let mut bench = Bench::with_area(1, &CONTENT);
    let mut output = [0xEE; 60];
    let answer = run(&mut bench.chip, &mut bench.memory, &bench.area, &script, &mut output);
    assert_eq!(answer, RunAnswer { refusal: 0, offset: 0, written: 39, ticks: 0 });
    let mut expected = vec![0x80; 5];
    expected.extend(CONTENT[..16].iter().flat_map(|byte| [0x81, *byte]));
    expected.extend([0x82, 0]);
    assert_eq!(output[..39], expected);
    assert!(output[39..].iter().all(|byte| *byte == 0xEE));
    let text = "part 65536\n1 --\n3 --\n5 --\n7 --\n9 --\n11 FF\n13 V0\nanswer 0 ticks 0\n";
    assert_eq!(program::report(&[1, 2, 0x5A, 2, 0, 2, 0, 2, 0, 2, 0, 2, 0, 3, 0]), text);
}

/// An area of that length, FFh but for the signature, the last header's number and the headers.
fn area_of(length: usize, last: u8, headers: &[[u8; 8]]) -> Vec<u8> {
    let mut area = b"SFDP\x05\x01\x00\xFF".to_vec();
    area[6] = last;
    area.extend(headers.iter().flatten());
    area.resize(length, 0xFF);
    area
}

/// A header of an identity, a length in words and a pointer.
fn header(identity: u8, words: u8, pointer: u32) -> [u8; 8] {
    let [low, middle, high, _] = pointer.to_le_bytes();
    [identity, 0, 1, words, low, middle, high, 0xFF]
}

/// What the reader answers when it refuses.
fn no_table(refusal: u8) -> Found {
    Found { refusal, place: 0, length: 0 }
}

/// What the reader answers when it finds a table.
fn found(place: usize, length: usize) -> Found {
    Found { refusal: 0, place, length }
}

/// What the reader finds, after a check that the table handed back is that part of the area.
fn both(area: &[u8], identity: u8) -> Found {
    let found = find(area, identity);
    let part = table(area, identity);
    assert_eq!(part.len(), found.length);
    assert_eq!(part, &area[found.place..][..found.length]);
    if found.refusal == 0 {
        assert_eq!(part.as_ptr(), area[found.place..].as_ptr());
    }
    found
}

#[test]
fn reader_13_first() {
    let good = area_of(257, 0, &[header(1, 1, 16)]);
    assert_eq!(both(&good[..256], 1), found(16, 4));
    assert_eq!(both(&good, 1), no_table(13));
    assert_eq!(both(&[0; 257], 1), no_table(13));
    assert_eq!(both(&[0; 256], 1), no_table(14));
    assert_eq!(both(&area_of(300, 255, &[]), 1), no_table(13));
}

#[test]
fn reader_14_before_15() {
    let good = area_of(20, 0, &[header(1, 1, 16)]);
    for length in 0..4 {
        assert_eq!(both(&good[..length], 1), no_table(14));
    }
    for place in 0..4 {
        let mut bad = good.clone();
        bad[place] ^= 0x20;
        for length in 4..=20 {
            assert_eq!(both(&bad[..length], 1), no_table(14));
        }
    }
    assert_eq!(both(b"PDFS\x05\x01\x00\xFF\x01\x00\x01\x00\x00\x00\x00\xFF", 1), no_table(14));
}

#[test]
fn reader_15_headers_inside_the_area() {
    for length in 4..16 {
        assert_eq!(both(&area_of(length, 0, &[]), 0xFF), no_table(15), "{length}");
    }
    for last in 0..=255 {
        let end = 8 + 8 * (usize::from(last) + 1);
        for length in 8..=256 {
            let mut area = area_of(length, last, &[header(1, 0, 0)]);
            area.truncate(length);
            let fits = end <= length;
            let expected = if fits { found(0, 0) } else { no_table(15) };
            assert_eq!(both(&area, 1), expected, "{last} {length}");
        }
    }
    assert_eq!(both(&area_of(256, 30, &[header(1, 0, 256)]), 1), found(256, 0));
    assert_eq!(both(&area_of(256, 31, &[header(1, 0, 256)]), 1), no_table(15));
    assert_eq!(both(&area_of(23, 1, &[header(1, 0, 24)]), 1), no_table(15));
    assert_eq!(both(&area_of(23, 1, &[header(1, 9, 24)]), 2), no_table(15));
}

#[test]
fn reader_16_and_the_number_of_headers() {
    let headers = [header(1, 1, 0), header(2, 1, 4), header(3, 1, 8)];
    for last in 0..3 {
        let area = area_of(32, last, &headers);
        for identity in 0..=255 {
            let there = (1..=last + 1).contains(&identity);
            let place = 4 * usize::from(identity.wrapping_sub(1));
            let expected = if there { found(place, 4) } else { no_table(16) };
            assert_eq!(both(&area, identity), expected);
        }
    }
    assert_eq!(both(&area_of(16, 0, &[header(1, 255, 0xFF_FFFF)]), 2), no_table(16));
}

#[test]
fn reader_17_and_the_table_end() {
    for words in 0..=60 {
        let length = 16 + 4 * usize::from(words);
        let good = area_of(length, 0, &[header(1, words, 16)]);
        assert_eq!(both(&good, 1), found(16, length - 16));
        let past = area_of(length, 0, &[header(1, words, 17)]);
        assert_eq!(both(&past, 1), no_table(17));
        if words > 0 {
            assert_eq!(both(&good[..length - 1], 1), no_table(17));
        }
    }
    for length in 16..=256 {
        let end = length as u32;
        assert_eq!(both(&area_of(length, 0, &[header(1, 0, end)]), 1), found(length, 0));
        assert_eq!(both(&area_of(length, 0, &[header(1, 0, end + 1)]), 1), no_table(17));
        assert_eq!(both(&area_of(length, 0, &[header(1, 1, end - 4)]), 1), found(length - 4, 4));
        assert_eq!(both(&area_of(length, 0, &[header(1, 1, end - 3)]), 1), no_table(17));
    }
    assert_eq!(both(&area_of(256, 0, &[header(1, 64, 0)]), 1), found(0, 256));
    assert_eq!(both(&area_of(256, 0, &[header(1, 65, 0)]), 1), no_table(17));
    assert_eq!(both(&area_of(256, 0, &[header(1, 0, 0xFF_FFFF)]), 1), no_table(17));
    assert_eq!(both(&area_of(256, 0, &[header(1, 255, 0xFF_FFFF)]), 1), no_table(17));
}

#[test]
fn reader_first_header_of_an_identity_counts() {
    let bad = header(1, 9, 0xFF_FFFF);
    let area = area_of(40, 2, &[header(2, 0, 0), bad, header(1, 1, 32)]);
    assert_eq!(both(&area, 1), no_table(17));
    let area = area_of(40, 2, &[header(2, 0, 0), header(1, 2, 32), bad]);
    assert_eq!(both(&area, 1), found(32, 8));
    let area = area_of(40, 2, &[header(1, 0, 1), header(1, 0, 2), header(1, 0, 3)]);
    assert_eq!(both(&area, 1), found(1, 0));
}

#[test]
fn reader_pointer_low_first_and_bytes_not_looked_at() {
    let of = |header| area_of(256, 0, &[header]);
    assert_eq!(both(&of([1, 0, 1, 4, 0xC0, 0, 0, 0xFF]), 1), found(0xC0, 16));
    assert_eq!(both(&of([1, 0, 1, 4, 0, 0, 0xC0, 0xFF]), 1), no_table(17));
    assert_eq!(both(&of([1, 0, 1, 0, 0, 1, 0, 0xFF]), 1), found(256, 0));
    assert_eq!(both(&of([1, 0, 1, 0, 0, 0, 1, 0xFF]), 1), no_table(17));
    for byte in 0..=255 {
        assert_eq!(both(&of([1, 0, 1, 4, 0xC0, 0, 0, byte]), 1), found(0xC0, 16));
        assert_eq!(both(&of([1, byte, byte, 4, 0xC0, 0, 0, 0xFF]), 1), found(0xC0, 16));
        let mut area = of([1, 0, 1, 4, 0xC0, 0, 0, 0xFF]);
        (area[4], area[5], area[7]) = (byte, byte, byte);
        assert_eq!(both(&area, 1), found(0xC0, 16));
    }
}

#[test]
fn content_as_the_request_says() {
    assert_eq!(CONTENT[..4], *b"SFDP");
    assert_eq!(CONTENT[0x10..0x18], [0x62, 0x00, 0x01, 0x04, 0xC0, 0x00, 0x00, 0xFF]);
    assert_eq!(both(&CONTENT, 0x62), found(0xC0, 16));
    assert_eq!(both(&CONTENT, 0x00), found(0x40, 64));
    assert_eq!(both(&CONTENT, 0xFF), no_table(17));
    for identity in (0x01..=0xFE).filter(|identity| *identity != 0x62) {
        assert_eq!(both(&CONTENT, identity), no_table(16));
    }
    assert!(CONTENT[0x18..0x40].iter().all(|byte| *byte == 0xFF));
    assert!(CONTENT[0x80..0xC0].iter().all(|byte| *byte == 0xFF));
    assert_eq!(both(&CONTENT[..0xCF], 0x62), no_table(17));
    assert_eq!(both(&CONTENT[..0xCF], 0x00), found(0x40, 64));
    let mut padded = CONTENT.to_vec();
    padded.resize(256, 0xFF);
    assert_eq!(both(&padded, 0x62), found(0xC0, 16));
    assert_eq!(both(&padded, 0xFF), no_table(17));
}

/// A word of table 15: its place and the bit columns, high bit, low bit and value.
type BitColumns = (usize, &'static [(u32, u32, u32)]);

/// The bit columns of table 15, with the hex column where there is a dash for the bits.
const BIT_COLUMNS: [BitColumns; 20] = [
    (0x40, &[
        (1, 0, 0b01), (2, 2, 0b1), (3, 3, 0b0), (4, 4, 0b0), (7, 5, 0b111),
        (15, 8, 0b0010_0000), (16, 16, 0b1), (18, 17, 0b00), (19, 19, 0b0), (20, 20, 0b1),
        (21, 21, 0b0), (22, 22, 0b0), (23, 23, 0b1), (31, 24, 0b1111_1111),
    ]),
    (0x44, &[(31, 0, 0x00FF_FFFF)]),
    (0x48, &[
        (4, 0, 0b0_0000), (7, 5, 0b000), (15, 8, 0b1111_1111),
        (20, 16, 0b0_0000), (23, 21, 0b000), (31, 24, 0b1111_1111),
    ]),
    (0x4C, &[
        (4, 0, 0b0_1000), (7, 5, 0b000), (15, 8, 0b0011_1011),
        (20, 16, 0b0_0100), (23, 21, 0b000), (31, 24, 0b1011_1011),
    ]),
    (0x50, &[(0, 0, 0b0), (3, 1, 0b111), (4, 4, 0b0), (7, 5, 0b111), (31, 8, 0xFF_FFFF)]),
    (0x54, &[(15, 0, 0xFFFF), (20, 16, 0b0_0000), (23, 21, 0b000), (31, 24, 0b1111_1111)]),
    (0x58, &[(15, 0, 0xFFFF), (20, 16, 0b0_0000), (23, 21, 0b000), (31, 24, 0b1111_1111)]),
    (0x5C, &[
        (7, 0, 0b0000_1100), (15, 8, 0b0010_0000), (23, 16, 0b0001_0000), (31, 24, 0b1101_1000),
    ]),
    (0x60, &[
        (7, 0, 0b0000_0000), (15, 8, 0b1111_1111), (23, 16, 0b0000_0000), (31, 24, 0b1111_1111),
    ]),
    (0x64, &[
        (3, 0, 0b0100), (10, 4, 0b00_01001), (17, 11, 0b00_01110),
        (24, 18, 0b00_00000), (31, 25, 0b00_00000),
    ]),
    (0x68, &[
        (3, 0, 0b0010), (7, 4, 0b1000), (13, 8, 0b1_00110), (18, 14, 0b1_1111),
        (23, 19, 0b0_0000), (30, 24, 0b00_01100), (31, 31, 0b0),
    ]),
    (0x6C, &[
        (3, 0, 0b1101), (7, 4, 0b1111), (8, 8, 0b0), (12, 9, 0b0000), (19, 13, 0b10_00100),
        (23, 20, 0b0000), (30, 24, 0b10_00100), (31, 31, 0b0),
    ]),
    (0x70, &[
        (7, 0, 0b0011_0000), (15, 8, 0b1011_0000), (23, 16, 0b0011_0000), (31, 24, 0b1011_0000),
    ]),
    (0x74, &[
        (1, 0, 0b00), (7, 2, 0b0000_01), (14, 8, 0b10_00100), (22, 15, 0b1010_1011),
        (30, 23, 0b1011_1001), (31, 31, 0b0),
    ]),
    (0x78, &[
        (3, 0, 0b0000), (8, 4, 0b0_0000), (9, 9, 0b0), (15, 10, 0b00_0000), (19, 16, 0b0000),
        (22, 20, 0b000), (23, 23, 0b0), (31, 24, 0b0000_0000),
    ]),
    (0x7C, &[
        (6, 0, 0b001_1001), (7, 7, 0b0), (13, 8, 0b01_0000), (23, 14, 0b00_0000_0000),
        (31, 24, 0b0000_0000),
    ]),
    (0xC0, &[(15, 0, 0x1950), (31, 16, 0x1650)]),
    (0xC4, &[
        (0, 0, 0b0), (1, 1, 0b0), (2, 2, 0b1), (3, 3, 0b0), (4, 4, 0b1), (5, 5, 0b0),
        (7, 6, 0b00), (31, 8, 0xFF_FFFF),
    ]),
    (0xC8, &[
        (7, 0, 0b1001_1111), (15, 8, 0b0110_0010), (23, 16, 0b0001_0110), (31, 24, 0b0001_0101),
    ]),
    (0xCC, &[(7, 0, 0b1010_1011), (15, 8, 0b1000_1000), (31, 16, 0xFFFF)]),
];

#[test]
fn content_agrees_with_the_bit_columns() {
    for (place, columns) in BIT_COLUMNS {
        let mut word = 0;
        let mut next = 0;
        for (high, low, value) in columns {
            assert_eq!(*low, next, "{place:02X}");
            assert!(u64::from(*value) < 1 << (high - low + 1));
            word |= value << low;
            next = high + 1;
        }
        assert_eq!(next, 32);
        assert_eq!(CONTENT[place..place + 4], word.to_le_bytes(), "{place:02X}");
    }
    let places: Vec<usize> = BIT_COLUMNS.iter().map(|(place, _)| *place).collect();
    assert_eq!(places, (0x40..0x80).chain(0xC0..0xD0).step_by(4).collect::<Vec<_>>());
}

/// The reader's answer by the rules read off one after another, place by place.
fn plain_answer(area: &[u8], identity: u8) -> Found {
    if area.len() > 256 {
        return no_table(13);
    }
    if area.len() < 4 || area[..4] != [0x53, 0x46, 0x44, 0x50] {
        return no_table(14);
    }
    if area.len() < 8 || (0..=usize::from(area[6])).any(|h| 8 + 8 * h + 8 > area.len()) {
        return no_table(15);
    }
    for place in (0..=usize::from(area[6])).map(|h| 8 + 8 * h) {
        if area[place] == identity {
            let [low, middle, high] = [4, 5, 6].map(|j| usize::from(area[place + j]));
            let (start, words) = (low + 256 * middle + 65_536 * high, usize::from(area[place + 3]));
            let ends_past = start + 4 * words > area.len();
            return if ends_past { no_table(17) } else { found(start, 4 * words) };
        }
    }
    no_table(16)
}

/// A random area: the part's own or a made one, cut, lengthened or damaged.
fn random_area(dice: &mut Dice) -> Vec<u8> {
    let pointer = |dice: &mut Dice| dice.below_one_of(&[260, 260, 1 << 24]) as u32;
    let headers: Vec<[u8; 8]> = (0..1 + dice.below(5))
        .map(|_| header(dice.below(4) as u8, dice.below(30) as u8, pointer(dice)))
        .collect();
    let made = area_of(256, dice.below(6) as u8, &headers);
    let mut area = if dice.below(2) == 0 { made } else { CONTENT.to_vec() };
    for _ in 0..dice.below(3) {
        let place = dice.below_one_of(&[8, 32]) as usize;
        area[place] = dice.below(256) as u8;
    }
    if dice.below(2) == 0 {
        area.resize(dice.below(301) as usize, dice.below(256) as u8);
    }
    area
}

#[test]
fn what_the_wire_shows_is_what_the_reader_gives() {
    let mut dice = Dice(5);
    let mut seen = [0; 18];
    for _ in 0..3_000 {
        let area = random_area(&mut dice);
        let identity = [0x00, 0x01, 0x02, 0x03, 0x62, 0xFF][dice.below(6) as usize];
        let answer = both(&area, identity);
        assert_eq!(answer, plain_answer(&area, identity));
        seen[usize::from(answer.refusal)] += 1;
        if answer.refusal == 0 {
            let mut bench = Bench::with_area(1, &area);
            let bytes = bench.read_sfdp(answer.place as u32, answer.length);
            assert_eq!(bytes, table(&area, identity));
        }
    }
    assert!([0, 13, 14, 15, 16, 17].iter().all(|refusal| seen[*refusal] > 20), "{seen:?}");
}
