// The times of the cases, on the engine and on the plain model in turn, as ratios of medians.

use crate::case::{Case, Step};
use crate::event::room_needed;
use crate::linked::Linked;
use crate::model::{self, Chip};
use crate::side::{Loan, Side, OUTPUT_AREA};
use std::hint::black_box;
use std::time::{Duration, Instant};

/// Rounds of each case; the middle one counts.
pub const ROUNDS: usize = 31;

/// A case with its words, the number of bytes that a plain fill would set in its place, and the
/// ratio that it is to stay within: to the fill where there is one, otherwise to the plain model.
pub struct Row {
    pub words: &'static str,
    pub case: Case,
    pub filled: Option<usize>,
    pub target: Option<f64>,
}

/// The room that the records of each step of a case ask for.
pub fn rooms(case: &Case) -> Vec<usize> {
    let room = |step: &Step| match step {
        Step::Run { script, .. } => room_needed(script) as usize,
        _ => 0,
    };
    case.steps.iter().map(room).collect()
}

/// The time of the steps of a case on the plain model, its state behind `&mut`.
fn time_model(case: &Case, rooms: &[usize], memory: &mut [u8], output: &mut [u8]) -> Duration {
    let mut chip = Chip::fresh(0);
    let begun = Instant::now();
    for (step, room) in case.steps.iter().zip(rooms) {
        match step {
            Step::Event { event: (kind, body), .. } => {
                black_box(model::event(&mut chip, memory, &case.area, *kind, *body));
            }
            Step::Run { script, .. } => {
                black_box(model::run(&mut chip, memory, &case.area, script, &mut output[..*room]));
            }
            _ => {}
        }
    }
    begun.elapsed()
}

/// Allowances for the runs with a report; the times do not depend on them.
const ALLOWANCES: [u32; 5] = [1_000; 5];

/// The time of the runs of a case on the engine, each with a report that is carried on.
fn time_reports(engine: &mut Linked, case: &Case, rooms: &[usize]) -> Result<Duration, String> {
    engine.fresh(0)?;
    let loan = Loan { memory: case.length, area: case.area.len() };
    let mut report = Default::default();
    let begun = Instant::now();
    for (step, room) in case.steps.iter().zip(rooms) {
        if let Step::Run { script, .. } = step {
            black_box(engine.run_report(loan, script, *room, &ALLOWANCES, &mut report)?);
        }
    }
    Ok(begun.elapsed())
}

/// The time of the steps of a case on the engine.
pub fn time_engine(engine: &mut Linked, case: &Case, rooms: &[usize]) -> Result<Duration, String> {
    engine.fresh(0)?;
    let loan = Loan { memory: case.length, area: case.area.len() };
    let begun = Instant::now();
    for (step, room) in case.steps.iter().zip(rooms) {
        match step {
            Step::Event { event, lent, .. } => {
                black_box(engine.event(loan, *event, *lent)?);
            }
            Step::Run { script, .. } => {
                black_box(engine.run(loan, script, *room)?);
            }
            _ => {}
        }
    }
    Ok(begun.elapsed())
}

/// The time of a plain fill.
fn time_fill(memory: &mut [u8]) -> Duration {
    let begun = Instant::now();
    black_box(&mut *memory).fill(0xFF);
    black_box(memory);
    begun.elapsed()
}

/// The middle of a row of times, in seconds.
pub fn median(mut times: Vec<Duration>) -> f64 {
    times.sort_unstable();
    times[times.len() / 2].as_secs_f64()
}

/// One line of the table; gives the engine's time.
fn line(engine: &mut Linked, row: &Row) -> Result<f64, String> {
    let (case, length) = (&row.case, row.case.length);
    let rooms = rooms(case);
    let (mut memory, mut output) = (vec![0; length], vec![0; OUTPUT_AREA]);
    let (mut ours, mut plain, mut fill) = (Vec::new(), Vec::new(), Vec::new());
    for round in 0..ROUNDS {
        memory.fill(round as u8);
        plain.push(time_model(case, &rooms, &mut memory, &mut output));
        engine.memory()[..length].fill(round as u8);
        ours.push(time_engine(engine, case, &rooms)?);
        if let Some(bytes) = row.filled {
            memory.fill(round as u8);
            fill.push(time_fill(&mut memory[..bytes]));
        }
    }
    let ours = median(ours);
    let to_fill = row.filled.map(|_| ours / median(fill));
    println!(
        "  {:<36}{:>12}{:>12}{:>12}",
        row.words,
        number(Some(ours / median(plain))),
        number(to_fill),
        number(row.target)
    );
    Ok(ours)
}

/// The engine's time for the runs of a case with a report, to its own without.
fn report_line(engine: &mut Linked, row: &Row) -> Result<(), String> {
    let rooms = rooms(&row.case);
    let (mut with, mut without) = (Vec::new(), Vec::new());
    for round in 0..ROUNDS {
        engine.memory()[..row.case.length].fill(round as u8);
        without.push(time_engine(engine, &row.case, &rooms)?);
        engine.memory()[..row.case.length].fill(round as u8);
        with.push(time_reports(engine, &row.case, &rooms)?);
    }
    let ratio = median(with) / median(without);
    println!("  {:<36}{:>12}{:>12}{:>12}", row.words, number(Some(ratio)), "", number(Some(1.3)));
    Ok(())
}

/// A ratio in words, or a stroke for none.
pub fn number(ratio: Option<f64>) -> String {
    ratio.map_or("-".to_string(), |ratio| format!("{ratio:.2}"))
}

/// The table: each case's time on the engine as a ratio to the plain model's and to a plain fill's;
/// the engine's time for many idle ticks, and for stamps, as a ratio to its own for few ticks; and its
/// time for runs with a report as a ratio to its own for plain ones.
pub fn table(engine: &mut Linked, rows: &[Row]) -> Result<(), String> {
    println!("medians of {ROUNDS} rounds, as ratios");
    println!("  {:<36}{:>12}{:>12}{:>12}", "engine to", "plain model", "plain fill", "at most");
    let mut ticks = Vec::new();
    for row in rows {
        let ours = line(engine, row)?;
        if row.words.starts_with(['e', 'g']) {
            ticks.push(ours);
        }
    }
    if let [many, few, stamps, worked, stamped] = ticks[..] {
        println!("  e, the engine itself, 65,535 idle ticks to 1: {:.2}", many / few);
        println!("  e, the engine itself, a stamp of 1 idle tick to an 05h: {:.2}", stamps / few);
        println!("  g, the engine itself, a stamp of 1 working tick to an 05h: {:.2}", stamped / worked);
    }
    println!("  {:<36}{:>12}{:>12}{:>12}", "engine with a report to", "without", "", "at most");
    for row in rows.iter().filter(|row| row.words.starts_with(['a', 'b', 'c', 'd', 'h'])) {
        report_line(engine, row)?;
    }
    Ok(())
}
