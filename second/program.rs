// The small program: runs a script from standard input on a blank one-sector part.

#[path = "model.rs"]
mod model;

use model::{kind, Chip};
use std::io::{self, Read, Write};

/// The longest script the program reads.
const LONGEST_SCRIPT: usize = 4_096;
/// Bytes of an event that has a record, be it an exchange or a deselect.
const EVENT_WITH_RECORD: usize = 2;
/// The most output room that such an event can need, which is a deselect's. Spread over its two
/// bytes that is one and a half for each, the most that one byte of a script can need.
const ROOM_PER_EVENT: usize = 3;
/// The program's SFDP area, which is empty.
const AREA: [u8; 0] = [];

/// Everything the program prints for a script.
pub fn report(script: &[u8]) -> String {
    if script.len() > LONGEST_SCRIPT {
        return "too long\n".to_string();
    }
    let mut chip = Chip::fresh(0x00);
    let mut memory = vec![0xFF; Chip::SECTOR];
    let mut output = vec![0; room_for(script.len())];
    let mut text = format!("part {}\n", memory.len());
    let answer = model::run(&mut chip, &mut memory, &AREA, script, &mut output);
    if answer.refusal != 0 {
        text += &format!("answer {} at {}\n", answer.refusal, answer.offset);
    } else {
        text += &record_lines(script, &output[..answer.written]);
        text += &format!("answer 0 ticks {}\n", answer.ticks);
    }
    text
}

/// Output room that is enough for every good script of that length. A byte left over by the
/// halving is no whole event with a record and needs none.
fn room_for(script_length: usize) -> usize {
    script_length / EVENT_WITH_RECORD * ROOM_PER_EVENT
}

/// One line a record, each with the offset of its event in a script that has run.
pub fn record_lines(script: &[u8], output: &[u8]) -> String {
    let mut text = String::new();
    let mut records = output.iter();
    let mut offset = 0;
    while offset < script.len() {
        let kind = script[offset];
        if matches!(kind, kind::EXCHANGE | kind::DESELECT) {
            text += &format!("{offset} {}\n", record_word(&mut records));
        }
        offset += 1 + model::body_length(kind).unwrap_or(0);
    }
    text
}

/// The word of the next record in the output.
fn record_word(records: &mut std::slice::Iter<u8>) -> String {
    match records.next() {
        Some(0x81) => records.next().map(|byte| format!("{byte:02X}")),
        Some(0x82) => records.next().map(|verdict| format!("V{verdict}")),
        Some(0x83) => {
            let ends = records.next().zip(records.next());
            ends.map(|(first, last)| format!("V9 {first} {last}"))
        }
        _ => Some("--".to_string()),
    }
    .unwrap_or_default()
}

/// Reads the script, one byte past the longest at most, and prints its report.
fn main() -> io::Result<()> {
    let mut script = Vec::new();
    io::stdin().lock().take(LONGEST_SCRIPT as u64 + 1).read_to_end(&mut script)?;
    io::stdout().lock().write_all(report(&script).as_bytes())
}
