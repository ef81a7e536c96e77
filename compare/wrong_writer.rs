// A script writer with one fault, for the wrong copies that have it, and wrong scripts by themselves.

use crate::case::LENGTHS;
use crate::programming::{Programming, REFUSALS};
use crate::writer::Written;

/// The faults, in words: those of the script, those of the answer and of the output, and last one
/// that is not the writer's but the text form's.
pub const FAULTS: [&str; 26] = [
    "a piece runs over a page edge",
    "the last piece is lost",
    "a piece is given 15 ticks",
    "the address is not carried on from piece to piece",
    "a piece has data beyond its page",
    "no bytes give a script that is not empty",
    "a program's frame ends with a bit loose",
    "a deselect has no body",
    "4,096 bytes are refused by 20",
    "4,097 bytes are not refused by 20",
    "an address at the end is not refused by 21",
    "the last cell is refused by 21",
    "no bytes are not refused by 21",
    "a range that ends one past the top is not refused by 22",
    "a range that ends at the top is refused by 22",
    "a room that is a byte short is not refused by 23",
    "the exact room is refused by 23",
    "the room is counted without the 19 bytes of a piece",
    "20 is tested before 1",
    "21 is tested before 20",
    "22 is tested before 21",
    "23 is tested before 22",
    "a byte beyond the script is written",
    "the output is written to when it is refused",
    "a refused call says the script's length",
    "the text form's line is not cut at the page edge",
];

/// How many of the faults are in the script itself, the first ones.
const SCRIPTS: usize = 8;

/// The number of the text form's fault.
pub const TEXT: usize = FAULTS.len() - 1;

/// The order in which the fault of that number tests its refusals.
fn order(fault: usize) -> [u8; 5] {
    let mut order = REFUSALS;
    if let 18..=21 = fault {
        order.swap(fault - 18, fault - 17);
    }
    order
}

/// Whether a number refuses, with the fault of that number.
fn is_refused_by(fault: usize, asked: &Programming, number: u8) -> bool {
    let Programming { memory, address, data, room } = asked;
    let (count, end) = (data.len(), address.saturating_add(data.len()));
    match (number, fault) {
        (20, 8) => count >= 4_096,
        (20, 9) => count > 4_097,
        (21, 10) => address > memory,
        (21, 11) => address.saturating_add(1) >= *memory,
        (21, 12) => count > 0 && address >= memory,
        (22, 13) => end > memory + 1,
        (22, 14) => end >= *memory,
        (23, 15) => room + 1 < asked.script_length(),
        (23, 16) => count > 0 && *room <= asked.script_length(),
        (23, 17) => *room < 2 * count,
        _ => asked.is_refused_by(number),
    }
}

/// The pieces of the data, each with its address, with the fault of that number.
fn pieces(fault: usize, asked: &Programming) -> Vec<(usize, &[u8])> {
    let Programming { address, data, .. } = asked;
    let (mut pieces, mut at) = (Vec::new(), 0);
    while at < data.len() || fault == 5 && pieces.is_empty() {
        let place = address + at;
        let left = if matches!(fault, 0 | TEXT) { 256 } else { 256 - place % 256 };
        let end = data.len().min(at + left);
        let beyond = usize::from(fault == 4 && end < data.len());
        pieces.push((if fault == 3 { *address } else { place }, &data[at..end + beyond]));
        at = end;
    }
    if fault == 1 {
        pieces.pop();
    }
    pieces
}

/// The script of a programming, with the fault of that number.
pub fn script(fault: usize, asked: &Programming) -> Vec<u8> {
    let ticks = if fault == 2 { 15 } else { 16 };
    let loose = u8::from(fault == 6);
    let end: &[u8] = if fault == 7 { &[3] } else { &[3, loose] };
    let mut script = Vec::new();
    for (address, bytes) in pieces(fault, asked) {
        let [.., high, middle, low] = address.to_be_bytes();
        script.extend([1, 2, 0x06, 3, 0, 1, 2, 0x02, 2, high, 2, middle, 2, low]);
        script.extend(bytes.iter().flat_map(|byte| [2, *byte]));
        script.extend(end);
        script.extend([5, 0, ticks]);
    }
    script
}

/// A programming whose script a fault of the script makes wrong: over two page edges, or of no bytes.
fn sample(fault: usize) -> Programming {
    let count = if fault == 5 { 0 } else { 300 };
    let data = (0..count).map(|at| (at * 7 + 1) as u8).collect();
    Programming { memory: LENGTHS[0], address: 0x01F0, data, room: 0 }.with_spare(0)
}

/// Programmings with wrong scripts, and what is wrong in words: the faults of the script, and two
/// more whose cells come out right. Run on a chip with WEN 1, each of them breaks the promise.
pub fn wrong_scripts() -> Vec<(&'static str, Programming, Vec<u8>)> {
    let wrong = |fault| (FAULTS[fault], sample(fault), script(fault, &sample(fault)));
    let mut scripts: Vec<_> = (0..SCRIPTS).map(wrong).collect();
    let asked = sample(0);
    let right = script(TEXT - 1, &asked); // a fault of the answer alone
    scripts.push(("WP is lowered at the end", asked.clone(), [&right[..], &[6, 0]].concat()));
    let unarmed = [&[1, 2, 0x99, 3, 0], &right[5..]].concat();
    scripts.push(("a reset that is not armed is the first frame", asked, unarmed));
    scripts
}

/// Writes a programming's script to an output that goes on beyond the room, with the fault of that
/// number.
pub fn write(fault: usize, asked: &Programming, output: &mut [u8]) -> Written {
    let refused = order(fault).into_iter().find(|number| is_refused_by(fault, asked, *number));
    if let Some(refusal) = refused {
        if fault == 23 && asked.room > 0 {
            output[0] = !output[0];
        }
        let written = if fault == 24 { asked.script_length() } else { 0 };
        return Written { refusal, written };
    }
    let script = script(fault, asked);
    output[..script.len()].copy_from_slice(&script);
    if fault == 22 && script.len() < asked.room {
        output[script.len()] = !output[script.len()];
    }
    Written { refusal: 0, written: script.len() }
}
