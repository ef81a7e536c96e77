// The opcodes, each with the verdicts that a frame of it can get.

use crate::model::Chip;

/// The verdicts that there are. 12 was one in earlier versions; the number stays unused.
pub const VERDICTS: [u8; 12] = [0, 1, 2, 3, 4, 5, 6, 7, 8, 9, 10, 11];

/// A row of the table of verdicts: an opcode, or none for the rows after the opcodes.
pub struct Command {
    pub opcode: Option<u8>,
    pub name: &'static str,
    /// The verdicts that can occur.
    pub verdicts: &'static [u8],
}

impl Command {
    /// The head of its row in a table.
    pub fn head(&self) -> String {
        let opcode = self.opcode.map_or("  ".to_string(), |opcode| format!("{opcode:02X}"));
        format!("{opcode}h {:20}", self.name)
    }
}

/// A row of an opcode.
const fn command(opcode: u8, name: &'static str, verdicts: &'static [u8]) -> Command {
    Command { opcode: Some(opcode), name, verdicts }
}

/// A row without an opcode.
const fn other(name: &'static str, verdicts: &'static [u8]) -> Command {
    Command { opcode: None, name, verdicts }
}

/// The opcodes, the bytes that are none, and the deselects without an opcode, each with the
/// verdicts that can occur on a legal state after a frame that was sent byte by byte. (A frame that
/// came with a lent state may carry any judgement and is not counted here.)
pub const COMMANDS: [Command; 24] = [
    command(0x06, "write enable", &[1, 4, 5, 6, 7]),
    command(0x04, "write disable", &[1, 4, 5, 6, 7]),
    command(0x05, "read status", &[0, 5]),
    command(0x01, "write status", &[2, 4, 5, 6, 7, 8, 10]),
    command(0x03, "low-power read", &[0, 5, 6]),
    command(0x0B, "high-speed read", &[0, 5, 6]),
    command(0x20, "small sector erase", &[2, 4, 5, 6, 8, 9]),
    command(0xD7, "small sector erase", &[2, 4, 5, 6, 8, 9]),
    command(0xD8, "sector erase", &[2, 4, 5, 6, 8, 9]),
    command(0x60, "chip erase", &[2, 4, 5, 6, 8, 9]),
    command(0xC7, "chip erase", &[2, 4, 5, 6, 8, 9]),
    command(0x02, "page program", &[2, 4, 5, 6, 8, 9]),
    command(0x0A, "page program", &[2, 4, 5, 6, 8, 9]),
    command(0xB0, "suspend", &[1, 4, 5, 7, 11]),
    command(0x30, "resume", &[1, 4, 5, 6, 11]),
    command(0x9F, "JEDEC ID", &[0, 5, 6, 7]),
    command(0xAB, "device ID, wake", &[1, 4, 6, 7]),
    command(0xB9, "deep power-down", &[1, 4, 5, 6, 7]),
    command(0x66, "reset enable", &[1, 4, 5]),
    command(0x99, "reset", &[1, 4, 5, 11]),
    command(0x5A, "read SFDP", &[0, 5, 6, 7]),
    other("unknown", &[3]),
    other("empty frame", &[0]),
    other("unselected", &[0]),
];

/// The row of 5Ah, the last of the opcodes.
pub const READ_SFDP: usize = 20;
/// The rows after the opcodes.
pub const UNKNOWN: usize = 21;
pub const EMPTY: usize = 22;
pub const UNSELECTED: usize = 23;

/// The row of what a deselect of a chip would end.
pub fn row_of(Chip { selected, frame, .. }: &Chip) -> usize {
    match (selected, frame.byte_count) {
        (false, _) => UNSELECTED,
        (_, 0) => EMPTY,
        _ => {
            let opcode = Some(frame.opcode);
            COMMANDS.iter().position(|command| command.opcode == opcode).unwrap_or(UNKNOWN)
        }
    }
}
