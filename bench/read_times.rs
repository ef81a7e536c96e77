// The times of the scripts of read frames, on the engine and both plain models in turn, as ratios.

use crate::case::room;
use crate::event::script_of;
use crate::linked::Linked;
use crate::model::{self, Chip};
use crate::read_cases::{cells, ReadCase, LENGTH};
use crate::reads;
use crate::side::{Loan, Side};
use crate::timing::{median, number, ROUNDS};
use std::hint::black_box;
use std::time::{Duration, Instant};

/// Runs of a round, which are timed together: the read model's take a few microseconds each, too
/// little to be timed alone.
const RUNS: usize = 20;

/// The medians of the time of one run, in seconds.
struct Times {
    engine: f64,
    read: f64,
    plain: f64,
}

/// The time of the runs of a round.
fn time_runs<A>(mut run: impl FnMut() -> Result<A, String>) -> Result<Duration, String> {
    let begun = Instant::now();
    for _ in 0..RUNS {
        black_box(run()?);
    }
    Ok(begun.elapsed())
}

/// The times of a script on a fresh chip. Each side has a memory and an output of its own, and the
/// memories hold something: pages that nothing was written to are all the same page.
fn times(engine: &mut Linked, script: &[u8]) -> Result<Times, String> {
    let (room, loan) = (room(script, 0), Loan { memory: LENGTH, area: 0 });
    let (read_memory, mut read_output) = (cells(), vec![0; room]);
    let (mut memory, mut output, mut chip) = (cells(), vec![0; room], Chip::fresh(0));
    engine.fresh(0)?;
    engine.memory()[..LENGTH].copy_from_slice(&memory);
    let (mut ours, mut read, mut plain) = (Vec::new(), Vec::new(), Vec::new());
    for _ in 0..ROUNDS {
        ours.push(time_runs(|| engine.run(loan, black_box(script), room))?);
        read.push(time_runs(|| Ok(reads::run(&read_memory, black_box(script), &mut read_output)))?);
        plain.push(time_runs(|| {
            Ok(model::run(&mut chip, &mut memory, &[], black_box(script), &mut output))
        })?);
    }
    let [engine, read, plain] = [ours, read, plain].map(|times| median(times) / RUNS as f64);
    Ok(Times { engine, read, plain })
}

/// One line of the table.
fn line(engine: &mut Linked, case: &ReadCase) -> Result<(), String> {
    let times = times(engine, &script_of(&case.events))?;
    println!(
        "  {:<36}{:>12}{:>12}{:>12}{:>12.0}",
        case.words,
        number(Some(times.engine / times.read)),
        number(Some(times.engine / times.plain)),
        number(case.target),
        times.engine / case.frames as f64 * 1e9
    );
    Ok(())
}

/// The table: each script's time on the engine as a ratio to the read model's and to the plain
/// model's, and what a frame of it takes the engine.
pub fn table(engine: &mut Linked, cases: &[ReadCase]) -> Result<(), String> {
    println!("scripts of read frames, {RUNS} runs a round");
    println!(
        "  {:<36}{:>12}{:>12}{:>12}{:>12}",
        "engine to", "read model", "plain model", "at most", "ns a frame"
    );
    cases.iter().try_for_each(|case| line(engine, case))
}
