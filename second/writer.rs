// The script writer for drivers' authors: from "these bytes at this address" to a script.

use super::model::{kind, memory_length_known, opcode, Chip, PROGRAM_STEPS};

/// The writer's answer: the refusal, 0 when there is none, and the bytes of the script written.
#[allow(dead_code)]
#[derive(Clone, Copy, Debug, PartialEq, Eq)]
pub struct Written {
    pub refusal: u8,
    pub written: usize,
}

/// The most data that one script programs.
pub const LONGEST_DATA: usize = 4_096;

/// The ticks that one piece is given: a program does a step a tick and must end before the next
/// piece, whose frames would be turned away while it runs.
const TICKS_A_PIECE: u16 = PROGRAM_STEPS as u16;

/// The body of a deselect on a byte boundary; with any other the frame would come to nothing.
const NO_BITS_LOOSE: u8 = 0;

/// Writes the script that programs the data at the address, or refuses and writes nothing. Output
/// beyond the script keeps its content.
#[allow(dead_code)]
pub fn write_program(
    memory_length: usize,
    address: usize,
    data: &[u8],
    output: &mut [u8],
) -> Written {
    let refusal = range_refusal(memory_length, address, data.len());
    if refusal != 0 {
        return Written { refusal, written: 0 };
    }
    let script = script_of(address, data);
    match output.get_mut(..script.len()) {
        Some(room) => room.copy_from_slice(&script),
        None => return Written { refusal: 23, written: 0 },
    }
    Written { refusal: 0, written: script.len() }
}

/// The refusal number of a range, 0 when there is none. The cells up to the top are counted only
/// for an address below it, so no number here can overflow, however wrong what is given.
fn range_refusal(memory_length: usize, address: usize, data_length: usize) -> u8 {
    if !memory_length_known(memory_length) {
        1
    } else if data_length > LONGEST_DATA {
        20
    } else if address >= memory_length {
        21
    } else if data_length > memory_length - address {
        22
    } else {
        0
    }
}

/// The script for data at an address, without refusals; no bytes give no script. It is cut at page
/// edges because a load goes round inside its page. Of the address only the three bytes that a
/// frame has room for count, so any number is one.
pub fn script_of(address: usize, data: &[u8]) -> Vec<u8> {
    let mut script = Vec::new();
    let mut place = address;
    let mut rest = data;
    while !rest.is_empty() {
        let page_left = Chip::PAGE - place % Chip::PAGE;
        let (piece, after) = rest.split_at(page_left.min(rest.len()));
        add_piece(&mut script, place, piece);
        place = place.wrapping_add(piece.len());
        rest = after;
    }
    script
}

/// Adds the events of one piece, which lies inside a page. Each piece has a write enable of its
/// own, since the end of the program before has cleared WEN.
fn add_piece(script: &mut Vec<u8>, place: usize, piece: &[u8]) {
    let [.., high, middle, low] = place.to_be_bytes();
    add_frame(script, &[opcode::WRITE_ENABLE]);
    add_frame(script, &[&[opcode::PAGE_PROGRAM, high, middle, low], piece].concat());
    add_ticks(script, TICKS_A_PIECE);
}

/// Adds a whole frame: a select, an exchange for each byte and a deselect on the byte boundary.
fn add_frame(script: &mut Vec<u8>, bytes: &[u8]) {
    script.push(kind::SELECT);
    script.extend(bytes.iter().flat_map(|byte| [kind::EXCHANGE, *byte]));
    script.extend([kind::DESELECT, NO_BITS_LOOSE]);
}

/// Adds one event of many ticks, the high byte of their number first.
fn add_ticks(script: &mut Vec<u8>, ticks: u16) {
    script.push(kind::TICKS);
    script.extend(ticks.to_be_bytes());
}
