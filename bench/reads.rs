//! The read path of the flash part alone: runs scripts of closed 03h and 0Bh frames on an idle,
//! awake, unselected, unarmed chip, checking the whole script in a first pass and writing the
//! records in a second.

const SELECT: u8 = 0x01;
const EXCHANGE: u8 = 0x02;
const DESELECT: u8 = 0x03;
const TICK: u8 = 0x04;
const TICKS: u8 = 0x05;
const WP_LEVEL: u8 = 0x06;
const POWER_CUT: u8 = 0x07;
const STAMP: u8 = 0x09;
const MOST_LOOSE_BITS: u8 = 7;

const LOW_POWER_READ: u8 = 0x03;
const HIGH_SPEED_READ: u8 = 0x0B;

const FLOATING: u8 = 0x80;
const DRIVEN: u8 = 0x81;
/// The record of a deselect, with the verdict on a read.
const DESELECTED: [u8; 2] = [0x82, 0];

const SECTOR: usize = 65_536;
const MOST_SECTORS: usize = 32;
const LONGEST_SCRIPT: usize = 65_536;

/// The answer to a run: refusal (0 done), the offset of the bad event for 4 to 6 (and otherwise 0),
/// the bytes written.
#[derive(Debug, PartialEq, Eq, Clone, Copy)]
pub struct Answer {
    pub refusal: u8,
    pub offset: usize,
    pub written: usize,
}

/// Runs a script of read frames; None where the script is none (some event, or frame, that is not
/// of this model).
///
/// Refusals 1 and 3 are given whatever the script holds. Then the first event from the left that
/// does not carry on a row of closed read frames decides: if it is bad the answer is its refusal
/// (4, 5 or 6), otherwise None, so nothing after an unsupported event is looked at. A good script
/// that ends inside a frame gives None too, and refusal 7 is left to scripts that are of this model
/// to their end. Only an answer with refusal 0 has touched the output.
pub fn run(memory: &[u8], script: &[u8], output: &mut [u8]) -> Option<Answer> {
    if !is_permitted_length(memory.len()) {
        return Some(refused(1, 0));
    }
    if script.len() > LONGEST_SCRIPT {
        return Some(refused(3, 0));
    }
    let frames = match split_into_frames(script) {
        Ok(frames) => frames,
        Err(stop) => {
            return refusal_of_first_event(stop)
                .map(|refusal| refused(refusal, script.len() - stop.len()))
        }
    };
    // The room asked for, 2 bytes an exchange and 3 a deselect, is just what such frames take up in
    // the script: 2 an exchange, 1 for the select and 2 for the deselect.
    let room = output.len();
    if room < script.len() {
        return Some(refused(7, 0));
    }
    let mut left = output;
    for exchanges in &frames {
        left = write_frame(memory, exchanges, left);
    }
    Some(Answer { refusal: 0, offset: 0, written: room - left.len() })
}

fn is_permitted_length(length: usize) -> bool {
    length.is_power_of_two() && (SECTOR..=MOST_SECTORS * SECTOR).contains(&length)
}

fn refused(refusal: u8, offset: usize) -> Answer {
    Answer { refusal, offset, written: 0 }
}

/// The exchanges of each frame; or what is left of the script from the first event that carries on
/// no read frame.
fn split_into_frames(script: &[u8]) -> Result<Vec<&[u8]>, &[u8]> {
    let mut frames = Vec::new();
    let mut rest = script;
    while let [kind, after_select @ ..] = rest {
        if *kind != SELECT {
            return Err(rest);
        }
        if !matches!(after_select, [EXCHANGE, LOW_POWER_READ | HIGH_SPEED_READ, ..]) {
            return Err(after_select);
        }
        let after_exchanges = skip_exchanges(after_select);
        let [DESELECT, 0..=MOST_LOOSE_BITS, after_frame @ ..] = after_exchanges else {
            return Err(after_exchanges);
        };
        frames.push(&after_select[..after_select.len() - after_exchanges.len()]);
        rest = after_frame;
    }
    Ok(frames)
}

/// The kinds among four events of two bytes, as a little-endian number.
const KINDS: u64 = 0x00FF_00FF_00FF_00FF;
const FOUR_EXCHANGES: u64 = 0x0002_0002_0002_0002;

/// What follows the whole exchanges that the events begin with, found in ever smaller steps.
fn skip_exchanges(events: &[u8]) -> &[u8] {
    let mut events = skip_blocks::<32>(skip_blocks::<128>(skip_blocks::<512>(events)));
    while let Some((four_events, after)) = events.split_first_chunk() {
        let other_kinds = differences(four_events) & KINDS;
        if other_kinds != 0 {
            let exchanges_before = other_kinds.trailing_zeros() as usize / 16;
            return &events[2 * exchanges_before..];
        }
        events = after;
    }
    while let [EXCHANGE, _, after @ ..] = events {
        events = after;
    }
    events
}

/// What follows the blocks of N bytes, all of them exchanges, that the events begin with.
fn skip_blocks<const N: usize>(mut events: &[u8]) -> &[u8] {
    while let Some((block, after)) = events.split_first_chunk::<N>() {
        if !are_exchanges(block) {
            break;
        }
        events = after;
    }
    events
}

fn are_exchanges<const N: usize>(block: &[u8; N]) -> bool {
    // A glance at two kinds rejects most blocks that a deselect falls into: frames are of odd
    // length, so after it the kinds lie where the bytes on SI were. The rest has no early way out,
    // so that the compiler compares many at once.
    block[N / 2 - 2] == EXCHANGE
        && block[N - 2] == EXCHANGE
        && block.as_chunks().0.iter().fold(0, |sum, four_events| sum | differences(four_events))
            & KINDS
            == 0
}

/// How four events differ from exchanges; only what KINDS covers tells.
fn differences(four_events: &[u8; 8]) -> u64 {
    u64::from_le_bytes(*four_events) ^ FOUR_EXCHANGES
}

/// The refusal of the event that the bytes begin with; None if it is good, or if there is none.
#[cold]
fn refusal_of_first_event(bytes: &[u8]) -> Option<u8> {
    let (&kind, after_kind) = bytes.split_first()?;
    let body_length = match kind {
        SELECT | TICK | POWER_CUT => 0,
        EXCHANGE | DESELECT | WP_LEVEL => 1,
        TICKS | STAMP => 2,
        _ => return Some(5),
    };
    let Some(body) = after_kind.get(..body_length) else {
        return Some(4);
    };
    let in_range = match kind {
        DESELECT => body[0] <= MOST_LOOSE_BITS,
        TICKS => body != [0, 0],
        WP_LEVEL => body[0] <= 1,
        // A first stamp in a run only sets the clock, so any will do.
        _ => true,
    };
    (!in_range).then_some(6)
}

/// Writes the records of one frame, and gives the output that is left after them.
fn write_frame<'o>(memory: &[u8], exchanges: &[u8], output: &'o mut [u8]) -> &'o mut [u8] {
    let &[_, opcode, _, high, _, middle, _, low, ref after_address @ ..] = exchanges else {
        return write_frame_without_data(exchanges.len() / 2, output);
    };
    let (header, data) = match (opcode, after_address) {
        (LOW_POWER_READ, data) => (4, data),
        (_, [_, _dummy, data @ ..]) => (5, data),
        _ => return write_frame_without_data(4, output),
    };
    // One too many after 03h, which the next record covers: a store of fixed length is the quicker
    // one.
    output[..5].copy_from_slice(&[FLOATING; 5]);
    let (driven, after_driven) = output[header..].split_at_mut(data.len());
    let address = (usize::from(high) << 16) | (usize::from(middle) << 8) | usize::from(low);
    // The memory length is a power of two, so this is the address modulo that length.
    write_cells(memory, address & (memory.len() - 1), driven);
    let (deselected, left) = after_driven.split_at_mut(DESELECTED.len());
    deselected.copy_from_slice(&DESELECTED);
    left
}

#[cold]
fn write_frame_without_data(exchanges: usize, output: &mut [u8]) -> &mut [u8] {
    let (floating, after_floating) = output.split_at_mut(exchanges);
    floating.fill(FLOATING);
    let (deselected, left) = after_floating.split_at_mut(DESELECTED.len());
    deselected.copy_from_slice(&DESELECTED);
    left
}

/// Fills the output with the records of the cells from the place on. A script is too short for more
/// than one wrap.
fn write_cells(memory: &[u8], place: usize, output: &mut [u8]) {
    let (records, _) = output.as_chunks_mut();
    let to_the_top = &memory[place..];
    for (record, cell) in records.iter_mut().zip(to_the_top) {
        *record = [DRIVEN, *cell];
    }
    if records.len() > to_the_top.len() {
        for (record, cell) in records[to_the_top.len()..].iter_mut().zip(memory) {
            *record = [DRIVEN, *cell];
        }
    }
}
