// Stamps with one fault, for the wrong copies that have it: in the clock of a run, in what went back,
// in how 8 is told, and in a stamp alone.

use crate::clock::WENT_BACK;
use crate::event::{body_length, events_of, kind, script_of, Event};
use crate::model::Chip;

/// The faults, in words: those of the clock, of the ticks, of 8, and of a stamp alone.
pub const FAULTS: [&str; 28] = [
    "the clock is kept between runs",
    "the first stamp gives ticks, from 0 on",
    "a power cut clears the clock",
    "a deselect clears the clock",
    "each stamp is held to the first",
    "a stamp in suspension does not move the clock",
    "an equal stamp clears the clock",
    "stamps are read low byte first",
    "a counter that rolls over gives no ticks",
    "an equal stamp gives 65,536 ticks",
    "an equal stamp gives one tick",
    "a stamp gives one tick too few",
    "a stamp inside a frame gives no ticks",
    "a stamp without ticks gives one in the wait of a suspend",
    "a stamp's ticks are not counted as working ones",
    "a move of 32,768 is taken",
    "a move of 32,767 is refused",
    "a counter that rolls over went back",
    "a counter that went back gives no ticks",
    "8 is told with offset 0",
    "8 is told with the offset of the stamp before",
    "8 comes before 4 where a stamp is without its low byte",
    "8 comes after the events behind it",
    "8 comes after 7",
    "a counter that went back is refused by 6",
    "a stamp alone is taken and does nothing",
    "a stamp alone gives as many ticks as its body says",
    "a stamp alone is refused by 6",
];

/// The number that is no fault's.
pub const NO_FAULT: usize = FAULTS.len();

/// The clock of a run with the fault of that number.
#[derive(Clone, Copy)]
pub struct Clock {
    fault: usize,
    last: Option<u16>,
}

impl Clock {
    /// The clock at the start of a run, given the last stamp of the run before.
    pub fn new(fault: usize, kept: Option<u16>) -> Clock {
        Clock { fault, last: if fault == 0 { kept } else { None } }
    }

    /// The last stamp of the run, which a clock that is kept has after it.
    pub fn last(&self) -> Option<u16> {
        self.last
    }

    /// The counter that a stamp's body is read as.
    fn counter(&self, body: u64) -> u16 {
        let counter = body as u16;
        if self.fault == 7 {
            counter.swap_bytes()
        } else {
            counter
        }
    }

    /// Whether a counter went back.
    fn went_back(&self, counter: u16) -> bool {
        let Some(last) = self.last else { return false };
        let moved = counter.wrapping_sub(last);
        match self.fault {
            15 => moved > WENT_BACK,
            16 => moved >= WENT_BACK - 1,
            17 => counter < last,
            18 => false,
            _ => moved >= WENT_BACK,
        }
    }

    /// The ticks that a counter gives.
    fn ticks(&self, counter: u16, chip: &Chip) -> u64 {
        let Some(last) = self.last else {
            return if self.fault == 1 { u64::from(counter) } else { 0 };
        };
        let moved = u64::from(counter.wrapping_sub(last));
        match self.fault {
            8 if counter < last => 0,
            9 if moved == 0 => 65_536,
            10 if moved == 0 => 1,
            11 => moved.max(1) - 1,
            12 if chip.frame.byte_count > 0 => 0,
            13 if moved == 0 && chip.waiting => 1,
            18 if moved >= u64::from(WENT_BACK) => 0,
            _ => moved,
        }
    }

    /// Takes note of an event.
    fn pass(&mut self, event: Event, suspended: bool) {
        match (self.fault, event.0) {
            (2, kind::POWER_CUT) | (3, kind::DESELECT) => self.last = None,
            (4, kind::STAMP) if self.last.is_some() => {}
            (5, kind::STAMP) if suspended => {}
            (6, kind::STAMP) if self.last == Some(self.counter(event.1)) => self.last = None,
            (_, kind::STAMP) => self.last = Some(self.counter(event.1)),
            _ => {}
        }
    }

    /// What a chip sees of an event of a script.
    pub fn seen(&mut self, event: Event, chip: &Chip) -> Vec<Event> {
        let ticks = match event.0 {
            kind::STAMP => self.ticks(self.counter(event.1), chip),
            _ => 0,
        };
        self.pass(event, chip.suspended);
        match (event.0, ticks) {
            (kind::STAMP, 0) => Vec::new(),
            (kind::STAMP, 1..=65_535) => vec![(kind::TICKS, ticks)],
            (kind::STAMP, _) => vec![(kind::TICKS, 65_535), (kind::TICKS, ticks - 65_535)],
            _ => vec![event],
        }
    }
}

/// Whether working ticks are counted that an event of that kind gave.
pub fn counts(fault: usize, kind: u64) -> bool {
    fault != 14 || kind != kind::STAMP
}

/// A script with a tick in the place of each stamp, refused as it is but for its stamps.
pub fn ticks_for_stamps(script: &[u8]) -> Vec<u8> {
    let (events, rest) = events_of(script);
    let tick = |(kind, body)| if kind == kind::STAMP { (kind::TICKS, 1) } else { (kind, body) };
    let mut bytes = script_of(&events.into_iter().map(tick).collect::<Vec<_>>());
    bytes.extend_from_slice(rest);
    let last = bytes.len() - rest.len();
    if rest.first() == Some(&(kind::STAMP as u8)) {
        bytes[last] = kind::TICKS as u8;
    }
    bytes
}

/// Where the first stamp of a script stands that went back, and where the one before it.
fn first_back(mut clock: Clock, script: &[u8]) -> Option<(u64, u64)> {
    let (events, rest) = events_of(script);
    let (mut offset, mut before) = (0, 0);
    for event in events {
        if event.0 == kind::STAMP {
            if clock.went_back(clock.counter(event.1)) {
                return Some((offset, before));
            }
            before = offset;
        }
        clock.pass(event, false);
        offset += 1 + body_length(event.0).unwrap_or(0) as u64;
    }
    let [9, high] = rest else { return None };
    let back = clock.fault == 21 && clock.went_back(u16::from(*high) << 8);
    back.then_some((offset, before))
}

/// The refusal of a run and its offset with the fault of that number, from the last stamp of the run
/// before, the script, and what it is refused by with ticks in the place of its stamps.
pub fn refusal(fault: usize, kept: Option<u16>, script: &[u8], otherwise: (u8, u64)) -> (u8, u64) {
    let Some((offset, before)) = first_back(Clock::new(fault, kept), script) else {
        return otherwise;
    };
    let comes_first = match otherwise {
        (0, _) => true,
        (7, _) => fault != 23,
        (4, at) if fault == 21 => offset <= at,
        (4..=6, at) => fault != 22 && offset < at,
        _ => false,
    };
    match fault {
        _ if !comes_first => otherwise,
        19 => (8, 0),
        20 => (8, before),
        24 => (6, offset),
        _ => (8, offset),
    }
}

/// The event alone that is taken in the place of one, with the fault of that number.
pub fn alone(fault: usize, event: Event, chip: &Chip) -> Event {
    match (fault, event) {
        // The level that the pin has already changes nothing.
        (25, (kind::STAMP, _)) => (kind::WP_LEVEL, u64::from(chip.wp_high)),
        (26, (kind::STAMP, body @ 1..=65_535)) => (kind::TICKS, body),
        (27, (kind::STAMP, _)) => (kind::TICKS, 0),
        _ => event,
    }
}
