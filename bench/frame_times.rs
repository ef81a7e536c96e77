// The engine's times for a frame, sent as a script of its own and event by event, in nanoseconds.

use crate::event::frame_of;
use crate::linked::Linked;
use crate::timing::{median, rooms, time_engine, ROUNDS};
use crate::{short, single, SHORT};

/// One line of the table.
fn line(engine: &mut Linked, words: &'static str, bytes: &[u8]) -> Result<(), String> {
    let events = frame_of(bytes.iter().copied()).repeat(SHORT);
    let ways = [short(words, bytes), single(words, &events, false), single(words, &events, true)];
    let ways = ways.map(|row| (rooms(&row.case), row.case));
    let mut times = [Vec::new(), Vec::new(), Vec::new()];
    for _ in 0..ROUNDS {
        for ((rooms, case), times) in ways.iter().zip(&mut times) {
            times.push(time_engine(engine, case, rooms)?);
        }
    }
    let [script, value, lent] = times.map(|times| median(times) / SHORT as f64 * 1e9);
    println!("  {words:<36}{script:>12.0}{value:>12.0}{lent:>12.0}");
    Ok(())
}

/// The table: three frames, each as one script, by single events, and by single events on a lent
/// chip.
pub fn table(engine: &mut Linked) -> Result<(), String> {
    println!("a frame on the engine, in nanoseconds");
    println!("  {:<36}{:>12}{:>12}{:>12}", "", "one script", "events", "lent chip");
    line(engine, "06h", &[0x06])?;
    line(engine, "05h and a byte", &[0x05, 0])?;
    line(engine, "03h and 16 data bytes", &[&[0x03, 0, 0, 0][..], &[0; 16]].concat())
}
