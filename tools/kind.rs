//! The kinds of event, as the numbers that an event alone is given; in a script a kind is one byte.
//! The text form, the comparison and the benchmark have them from here; the second program, which
//! is independent of all three, has its own.

/// CS goes low.
pub const SELECT: u64 = 0x01;
/// A byte goes in, and one may come out.
pub const EXCHANGE: u64 = 0x02;
/// CS goes high; the body is the number of bits of a byte that had gone in, 0 on a byte boundary.
pub const DESELECT: u64 = 0x03;
/// One tick.
pub const TICK: u64 = 0x04;
/// As many ticks as the body says.
pub const TICKS: u64 = 0x05;
/// The level of the WP pin.
pub const WP_LEVEL: u64 = 0x06;
/// Power is cut and comes back.
pub const POWER_CUT: u64 = 0x07;
/// The bench's counter as it then stands, of which a run makes ticks; alone it is no kind.
pub const STAMP: u64 = 0x09;
