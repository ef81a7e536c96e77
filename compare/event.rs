// Events as numbers, and the scripts that are made of them.

#[path = "../tools/kind.rs"]
pub mod kind;

/// The longest script that a run takes.
pub const LONGEST: usize = 65_536;

/// An event as numbers: its kind and its body.
pub type Event = (u64, u64);

/// The events of a frame: a select, an exchange for each byte, and a deselect on the byte boundary.
pub fn frame_of(bytes: impl IntoIterator<Item = u8>) -> Vec<Event> {
    let (select, deselect) = ([(kind::SELECT, 0)], [(kind::DESELECT, 0)]);
    select.into_iter().chain(exchanges_of(bytes)).chain(deselect).collect()
}

/// An exchange for each byte.
pub fn exchanges_of(bytes: impl IntoIterator<Item = u8>) -> impl Iterator<Item = Event> {
    bytes.into_iter().map(|byte| (kind::EXCHANGE, u64::from(byte)))
}

/// The bytes that the body of an event has in a script, if its kind is known. The harness has a
/// table of its own, so that it does not learn from the model where an event ends.
pub fn body_length(kind: u64) -> Option<usize> {
    match kind {
        kind::SELECT | kind::TICK | kind::POWER_CUT => Some(0),
        kind::EXCHANGE | kind::DESELECT | kind::WP_LEVEL => Some(1),
        kind::TICKS | kind::STAMP => Some(2),
        _ => None,
    }
}

/// The first event of a script and the bytes after it; none at the end, or where the first event
/// is bad, being of an unknown kind or without its whole body.
fn first_event(script: &[u8]) -> Option<(Event, &[u8])> {
    let (kind, rest) = script.split_first()?;
    let kind = u64::from(*kind);
    let (body, rest) = rest.split_at_checked(body_length(kind)?)?;
    let body = body.iter().fold(0, |value, byte| value << 8 | u64::from(*byte));
    Some(((kind, body), rest))
}

/// A script as its events, and its bytes from the first bad event on.
pub fn events_of(script: &[u8]) -> (Vec<Event>, &[u8]) {
    let (mut events, mut rest) = (Vec::new(), script);
    while let Some((event, after)) = first_event(rest) {
        events.push(event);
        rest = after;
    }
    (events, rest)
}

/// The script of a row of events whose kinds are known.
pub fn script_of(events: &[Event]) -> Vec<u8> {
    let mut script = Vec::new();
    for (kind, body) in events {
        script.push(*kind as u8);
        let length = body_length(*kind).unwrap_or(0);
        script.extend_from_slice(&body.to_be_bytes()[8 - length..]);
    }
    script
}

/// The room that a run asks for an event of a kind: a deselect gets that of the longest record,
/// whatever its body says and its verdict turns out to be.
pub fn room_of(kind: u64) -> i64 {
    match kind {
        kind::EXCHANGE => 2,
        kind::DESELECT => 3,
        _ => 0,
    }
}

/// The room that a run of a script asks for.
pub fn room_needed(script: &[u8]) -> i64 {
    let (mut room, mut rest) = (0, script);
    while let Some(((kind, _), after)) = first_event(rest) {
        room += room_of(kind);
        rest = after;
    }
    room
}
