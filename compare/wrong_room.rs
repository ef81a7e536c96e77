// The room that a script asks for, counted with one fault, for the wrong copies that have it.

use crate::event::{self, kind, Event};
use crate::model::Record;
use crate::side::record_bytes;

/// The faults, in words; the last one is in what a run says that it wrote.
pub const FAULTS: [&str; 6] = [
    "room is counted with 2 bytes a deselect",
    "room is counted with 2 bytes a loose deselect",
    "room is counted with 3 bytes an exchange",
    "room is counted with 3 bytes only for a deselect of verdict 9",
    "room is counted with the bytes that are written",
    "a run says that it wrote all the room that it asks for",
];

/// The number of the last fault.
pub const WRITTEN: usize = FAULTS.len() - 1;

/// Whether the harness's own reckoning has to find a fault: all that count the room.
pub fn is_reckoned(fault: usize) -> bool {
    fault != WRITTEN
}

/// The room for an event that yields a record, with the fault of that number.
pub fn room_of(fault: usize, (kind, body): Event, record: Record) -> i64 {
    let deselect = kind == kind::DESELECT;
    match fault {
        0 if deselect => 2,
        1 if deselect && body > 0 => 2,
        2 if kind == kind::EXCHANGE => 3,
        3 if deselect && !matches!(record, Record::Protected { .. }) => 2,
        4 => i64::from(record_bytes(record).length),
        _ => event::room_of(kind),
    }
}
