// The bench's counter in a run: what a part sees of a script with stamps. The harness has a clock of
// its own, so that it does not learn from the model how many ticks a stamp gives.

use crate::event::{kind, Event};

/// The moves from which on a counter went back.
pub const WENT_BACK: u16 = 32_768;

/// The clock of a run: the stamp before, none at its start.
#[derive(Clone, Copy, Default)]
pub struct Clock {
    pub last: Option<u16>,
}

impl Clock {
    /// How far a stamp is from the one before it, if there is one.
    pub fn move_to(&self, stamp: u16) -> Option<u16> {
        self.last.map(|last| stamp.wrapping_sub(last))
    }

    /// What a part sees of an event of a script: of a stamp its ticks, if it gives any.
    pub fn seen(&mut self, event: Event) -> Option<Event> {
        let (kind::STAMP, body) = event else { return Some(event) };
        let moved = self.move_to(body as u16).unwrap_or(0);
        self.last = Some(body as u16);
        (moved > 0).then_some((kind::TICKS, u64::from(moved)))
    }
}

/// What a part sees of the events of a script, one after the other.
pub fn seen_events(events: &[Event]) -> Vec<Event> {
    let mut clock = Clock::default();
    events.iter().filter_map(|event| clock.seen(*event)).collect()
}
