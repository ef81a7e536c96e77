// What a run of a written script promises, by the harness's own arithmetic: the answer, the records
// one by one, the cells and the chip's numbers.

use crate::image::{image_difference, Image, BLANK, FLAGS};
use crate::programming::Programming;
use crate::side::Answer;

/// What the words of a difference that this arithmetic finds begin with.
pub const DIFFERENCE: &str = "promise";

/// The flags that a program leaves 0 whatever they were.
const CLEARED: [&str; 2] = ["WEN", "armed"];

/// The room that a run of a programming's script asks for: 2 bytes for each exchange, of which a
/// piece has 5 and one for each byte, and 3 for each of its two deselects.
pub fn room(asked: &Programming) -> usize {
    (2 * 5 + 3 * 2) * asked.pieces() + 2 * asked.data.len()
}

/// The records: each piece is 06h with verdict 1, then opcode, address and data of 02h, which float,
/// with verdict 2.
fn records(asked: &Programming) -> Vec<u8> {
    let mut records = Vec::new();
    for at in 0..asked.data.len() {
        if asked.begins_piece(at) {
            records.extend([0x80, 0x82, 0x01, 0x80, 0x80, 0x80, 0x80]);
        }
        records.push(0x80);
        if at + 1 == asked.data.len() || asked.begins_piece(at + 1) {
            records.extend([0x82, 0x02]);
        }
    }
    records
}

/// A chip's numbers after the run, from those before it. With no piece they are as they were; with
/// one WEN and the arming are gone, and nothing is left of a job. The byte of a write status that
/// there is none of comes back as 0 either way.
fn numbers(asked: &Programming, before: &Image) -> Image {
    let mut after = Image { value: 0, ..*before };
    if asked.pieces() > 0 {
        for (name, flag) in FLAGS.iter().zip(&mut after.flags) {
            *flag *= u8::from(!CLEARED.contains(name));
        }
        (after.start, after.done, after.held) = (0, 0, BLANK);
    }
    after
}

/// All that is promised of a run.
pub struct Promise {
    answer: Answer,
    records: Vec<u8>,
    memory: Vec<u8>,
    asked: Programming,
}

impl Promise {
    /// The promise of a programming's script over a memory: its cells ANDed with the data.
    pub fn new(asked: &Programming, memory: &[u8]) -> Promise {
        let mut memory = memory.to_vec();
        for (cell, byte) in memory[asked.address..].iter_mut().zip(&asked.data) {
            *cell &= byte;
        }
        let (records, ticks) = (records(asked), 16 * asked.pieces() as u64);
        let answer = Answer::to_run(0, 0, records.len() as u64, ticks);
        Promise { answer, records, memory, asked: asked.clone() }
    }

    /// What is wrong with the answer to the run, in words.
    pub fn answer_difference(&self, answer: &Answer) -> Option<String> {
        let (Answer { refusal, written, ticks, .. }, due) = (answer, &self.answer);
        let words = format!("{refusal}, written {written}, ticks {ticks}");
        let due_words = format!("in place of 0, {}, {}", due.written, due.ticks);
        (answer != due).then(|| format!("{DIFFERENCE}: {words} {due_words}"))
    }

    /// What is wrong with the records and the cells after the run, in words.
    pub fn cells_difference(&self, output: &[u8], memory: &[u8]) -> Option<String> {
        if !output.starts_with(&self.records) {
            return Some(format!("{DIFFERENCE}: other records"));
        }
        if *memory == self.memory {
            return None;
        }
        let at = (0..memory.len()).find(|at| memory[*at] != self.memory[*at])?;
        let (due, found) = (self.memory[at], memory[at]);
        Some(format!("{DIFFERENCE}: cell {at:X}h is {found:02X}h in place of {due:02X}h"))
    }

    /// What is wrong with a side's chip after the run, in words, given its numbers before.
    pub fn chip_difference(&self, side: &str, before: &Image, after: &Image) -> Option<String> {
        let words = image_difference(&numbers(&self.asked, before), after)?;
        Some(format!("{DIFFERENCE}: {side}{words}"))
    }
}
