// Stamps in random scripts: ticks written as moves of the bench's counter, so that a part sees the
// same, and stamps that are refused.

use crate::clock::{Clock, WENT_BACK};
use crate::event::{kind, Event};
use crate::rng::Rng;

/// The ticks of an event, if a stamp can give them.
fn ticks_of((kind, body): Event) -> Option<u16> {
    match kind {
        kind::TICK => Some(1),
        kind::TICKS => u16::try_from(body).ok().filter(|ticks| *ticks < WENT_BACK),
        _ => None,
    }
}

/// Any counter, often about its roll-over.
fn any_counter(rng: &mut Rng) -> u16 {
    let any = rng.next() as u16;
    let near = rng.below(40) as u16;
    rng.pick(&[0, 1, near, any, any, 32_767, 32_768, u16::MAX - near, u16::MAX])
}

/// The events of a run with stamps in the place of some ticks, and others that give none: the first
/// of the run and those that say what the one before them said.
pub fn with_stamps(rng: &mut Rng, events: &[Event]) -> Vec<Event> {
    let mut clock = Clock::default();
    let mut stamped = Vec::new();
    let often = rng.pick(&[4, 12]);
    for event in events {
        let ticks = ticks_of(*event);
        if clock.last.is_none() && (ticks.is_some() || rng.once_in(often)) {
            clock.last = Some(any_counter(rng));
            stamped.extend(clock.last.map(stamp));
        }
        match (clock.last, ticks) {
            (Some(last), Some(ticks)) if !rng.once_in(4) => {
                clock.last = Some(last.wrapping_add(ticks));
                stamped.extend(clock.last.map(stamp));
            }
            _ => stamped.push(*event),
        }
        if rng.once_in(often) {
            stamped.extend(clock.last.map(stamp));
        }
    }
    stamped
}

/// The event of a stamp.
pub fn stamp(counter: u16) -> Event {
    (kind::STAMP, u64::from(counter))
}

/// Two stamps of which the second went back, or nearly: by one, by half of the counter's round, by
/// one less than that, or by any number.
pub fn any_move(rng: &mut Rng) -> [Event; 2] {
    let (first, any) = (any_counter(rng), rng.next() as u16);
    let moved = rng.pick(&[WENT_BACK - 1, WENT_BACK, WENT_BACK, WENT_BACK + 1, u16::MAX, any]);
    [stamp(first), stamp(first.wrapping_add(moved))]
}
