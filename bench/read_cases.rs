// Scripts of read frames, sound and spoilt: engine, read model and plain model answer them alike.

use crate::bench::Bench;
use crate::case::room;
use crate::event::{frame_of, script_of, Event, LONGEST};
use crate::image::image_difference;
use crate::linked::Linked;
use crate::model::Chip;
use crate::reads;
use crate::rng::Rng;
use crate::side::{Answer, Side};
use crate::{as_many_as_fit, fresh_case, run_step, NOISE};
use std::iter::{repeat, repeat_n};

/// The sectors of the part that is read.
const SECTORS: usize = 32;
/// The bytes of that part.
pub const LENGTH: usize = SECTORS * Chip::SECTOR;
/// The data bytes of the frame that is alone in its script.
const LONG: usize = 30_000;
/// The data bytes of the frames that fill a script.
const SHORT: [usize; 3] = [16, 64, 256];
/// How far on a frame reads from where the one before did, modulo the part: a prime, so that the
/// frames are spread over the part and begin anywhere in a cache line.
const STRIDE: usize = 99_991;
/// What the read model's output holds before a run; no record begins with it.
const UNTOUCHED: u8 = 0xA5;

/// A script of read frames with its words, the number of its frames, and the ratio to the read
/// model's time that the engine is to stay within.
pub struct ReadCase {
    pub words: String,
    pub events: Vec<Event>,
    pub frames: usize,
    pub target: Option<f64>,
}

/// A script to run, the bytes of room more or less than it asks for, and the refusal that is due.
struct Trial {
    words: &'static str,
    script: Vec<u8>,
    spare: i64,
    refusal: u8,
}

/// What the part holds.
pub fn cells() -> Vec<u8> {
    let mut cells = vec![0; LENGTH];
    Rng::new(NOISE).fill(&mut cells);
    cells
}

/// The address of the frame of a number, with so many data bytes. If they go over the top, at least
/// one lies on each side of it, and the next frame is parted elsewhere.
fn address(number: usize, bytes: usize, over_top: bool) -> usize {
    if over_top {
        LENGTH - 1 - (bytes / 2 + number) % (bytes - 1)
    } else {
        (number + 1) * STRIDE % (LENGTH - bytes)
    }
}

/// The events of the frame of a number.
fn frame(opcode: u8, number: usize, bytes: usize, over_top: bool) -> Vec<Event> {
    let [.., high, middle, low] = address(number, bytes, over_top).to_be_bytes();
    let dummies = usize::from(opcode == 0x0B);
    frame_of([opcode, high, middle, low].into_iter().chain(repeat_n(0, dummies + bytes)))
}

/// The case of one long frame.
fn long_case(opcode: u8, over_top: bool) -> ReadCase {
    let words = words(opcode, "30,000 bytes", over_top);
    ReadCase { words, events: frame(opcode, 0, LONG, over_top), frames: 1, target: Some(2.0) }
}

/// The case of as many frames of so many data bytes as a script has room for.
fn short_case(opcode: u8, bytes: usize, over_top: bool) -> ReadCase {
    let words = words(opcode, &format!("frames of {bytes}"), over_top);
    let events = as_many_as_fit(|number| frame(opcode, number, bytes, over_top));
    let frames = events.len() / frame(opcode, 0, bytes, over_top).len();
    ReadCase { words, events, frames, target: None }
}

/// The words of a case.
fn words(opcode: u8, frames: &str, over_top: bool) -> String {
    format!("{opcode:02X}h, {frames}{}", if over_top { ", over the top" } else { "" })
}

/// All cases.
pub fn all() -> Vec<ReadCase> {
    let mut cases = Vec::new();
    for over_top in [false, true] {
        for opcode in [0x03, 0x0B] {
            cases.push(long_case(opcode, over_top));
            cases.extend(SHORT.map(|bytes| short_case(opcode, bytes, over_top)));
        }
    }
    cases
}

/// The script of a row of events, over and over until one event makes it too long.
fn too_long(events: &[Event]) -> Vec<u8> {
    let mut script = Vec::new();
    let mut row = events.iter().cycle();
    while script.len() <= LONGEST {
        script.extend(row.next().into_iter().flat_map(|event| script_of(&[*event])));
    }
    script
}

/// The script of a case as it is, and spoilt so that each refusal that reads can meet is due once.
fn trials(events: &[Event]) -> Vec<Trial> {
    let script = script_of(events);
    let (middle, last) = (script_of(&events[..events.len() / 2]).len(), script.len() - 1);
    let with = |place: usize, byte: u8| [&script[..place], &[byte], &script[place + 1..]].concat();
    let trial = |words, script, spare, refusal| Trial { words, script, spare, refusal };
    vec![
        trial("as it is", script.clone(), 0, 0),
        trial("an event too long", too_long(events), 0, 3),
        trial("without the last byte", script[..last].to_vec(), 0, 4),
        trial("with a bad kind in the middle", with(middle, 0x08), 0, 5),
        trial("with 8 loose bits at the last deselect", with(last, 8), 0, 6),
        trial("with a byte too little room", script.clone(), -1, 7),
    ]
}

/// Holds the read model to an answer, and to the output that belongs to it.
fn hold_read_model(
    cells: &[u8],
    trial: &Trial,
    answer: Answer,
    written: &[u8],
) -> Result<(), String> {
    let mut output = vec![UNTOUCHED; room(&trial.script, trial.spare)];
    let Some(found) = reads::run(cells, &trial.script, &mut output) else {
        return Err("the read model does not take the script".to_string());
    };
    let found = Answer::to_run(found.refusal, found.offset as u64, found.written as u64, 0);
    if found != answer {
        return Err(format!("the read model's answer is {found:?}\nin place of {answer:?}"));
    }
    let due = written.iter().chain(repeat(&UNTOUCHED));
    let wrong = output.iter().zip(due).position(|(found, due)| found != due);
    wrong.map_or(Ok(()), |at| Err(format!("the read model's output differs at {at:X}h")))
}

/// Holds engine, read model and plain model to each other on a script. The bench compares engine
/// and plain model; the read model has no chip and writes no memory, so both of them are to leave
/// theirs as they were.
fn hold_trial(engine: &mut Linked, cells: &[u8], trial: &Trial) -> Result<(), String> {
    let case = fresh_case(SECTORS, vec![run_step(trial.script.clone(), trial.spare)]);
    let mut bench = Bench::new(engine);
    bench.start(&case)?;
    let before = bench.expected.image();
    let answer = bench.perform(&case.steps[0])?;
    if answer.refusal != trial.refusal {
        return Err(format!("refusal {} in place of {}", answer.refusal, trial.refusal));
    }
    hold_read_model(cells, trial, answer, bench.written(&answer))?;
    if engine.memory()[..LENGTH] != *cells {
        return Err("the memory is no longer as it was".to_string());
    }
    image_difference(&before, &engine.image()).map_or(Ok(()), Err)
}

/// Holds engine, read model and plain model to each other on all cases.
pub fn hold(engine: &mut Linked, cases: &[ReadCase]) -> Result<(), String> {
    let (cells, mut scripts) = (cells(), 0);
    for ReadCase { words, events, .. } in cases {
        for trial in trials(events) {
            hold_trial(engine, &cells, &trial)
                .map_err(|difference| format!("{words}, {}: {difference}", trial.words))?;
            scripts += 1;
        }
    }
    println!("{scripts} scripts of read frames, no difference between the engine and either model");
    Ok(())
}
