// A programming that the script writer is asked for, and the harness's own reckoning of what is due:
// by counting, and by reading a script back, where both writers write one.

use crate::case::LENGTHS;
use crate::model::Chip;
use crate::protection::protected;
use crate::writer::Written;

/// What the words of a difference begin with that this reckoning finds in an answer of the writer.
pub const DIFFERENCE: &str = "script writer";
/// What the words of a difference begin with that is between the writer and the text form.
pub const TEXT_DIFFERENCE: &str = "text form";

/// The bytes of a page.
const PAGE: usize = 256;
/// The most bytes that a script is written for.
pub const MOST_DATA: usize = 4_096;
/// The most pieces that so many bytes can be cut into.
pub const MOST_PIECES: usize = 17;

/// The numbers that the writer refuses by, in their order.
pub const REFUSALS: [u8; 5] = [1, 20, 21, 22, 23];

/// These bytes at this address of a memory of a length, and the room that the script is given.
#[derive(Clone, Debug, PartialEq)]
pub struct Programming {
    pub memory: usize,
    pub address: usize,
    pub data: Vec<u8>,
    pub room: usize,
}

/// A piece as a script has it: its address, its bytes, and the script after it.
type Piece<'a> = (usize, Vec<u8>, &'a [u8]);

impl Programming {
    /// The same with the room that the script asks for, and some bytes more or less.
    pub fn with_spare(mut self, spare: i64) -> Programming {
        self.room = (self.script_length() as i64 + spare).max(0) as usize;
        self
    }

    /// Whether a piece begins at a byte of the data: the first one, or one at a page's start.
    pub fn begins_piece(&self, at: usize) -> bool {
        at == 0 || (self.address % PAGE + at) % PAGE == 0
    }

    /// How many pieces the data are cut into.
    pub fn pieces(&self) -> usize {
        (0..self.data.len()).filter(|at| self.begins_piece(*at)).count()
    }

    /// The bytes of the script: 19 a piece and 2 a byte.
    pub fn script_length(&self) -> usize {
        19 * self.pieces() + 2 * self.data.len()
    }

    /// Whether a number of the writer's refuses, the others aside.
    pub fn is_refused_by(&self, number: u8) -> bool {
        let end = self.address.checked_add(self.data.len());
        match number {
            1 => !LENGTHS.contains(&self.memory),
            20 => self.data.len() > MOST_DATA,
            21 => self.address >= self.memory,
            22 => end.is_none_or(|end| end > self.memory),
            23 => self.room < self.script_length(),
            _ => false,
        }
    }

    /// The answer that is due: the first number that refuses, or none and the script's length.
    pub fn due(&self) -> Written {
        match REFUSALS.into_iter().find(|number| self.is_refused_by(*number)) {
            Some(refusal) => Written { refusal, written: 0 },
            None => Written { refusal: 0, written: self.script_length() },
        }
    }

    /// What is wrong with a side's answer, or with the script at the start of its output, in words.
    pub fn difference(&self, side: &str, answer: Written, output: &[u8]) -> Option<String> {
        let due = self.due();
        let words = if answer != due {
            let Written { refusal, written } = answer;
            format!("{refusal}, written {written} in place of {}, {}", due.refusal, due.written)
        } else if due.refusal == 0 {
            self.script_fault(&output[..due.written])?
        } else {
            return None;
        };
        Some(format!("{DIFFERENCE}: {side}{words}"))
    }

    /// What is wrong with a script, in words, if it is not the data in their order, each piece at
    /// its place and none but the last one short of its page's end.
    fn script_fault(&self, script: &[u8]) -> Option<String> {
        let (mut at, mut rest) = (0, script);
        while !rest.is_empty() {
            let offset = script.len() - rest.len();
            let Some((address, bytes, after)) = first_piece(rest) else {
                return Some(format!("no piece at offset {offset}"));
            };
            let ends = (at + 1..self.data.len()).find(|at| self.begins_piece(*at));
            let due = &self.data[at..ends.unwrap_or(self.data.len())];
            if address != self.address + at || bytes != due || due.is_empty() {
                let (found, wanted) = (bytes.len(), due.len());
                let place = self.address + at;
                return Some(format!(
                    "the piece at offset {offset} has {found} bytes at {address:X}h in place of \
                     {wanted} at {place:X}h, or others"
                ));
            }
            (at, rest) = (at + bytes.len(), after);
        }
        (at < self.data.len()).then(|| format!("{at} bytes in place of {}", self.data.len()))
    }

    /// The line of the text form.
    pub fn line(&self) -> String {
        let bytes: Vec<String> = self.data.iter().map(|byte| format!(" {byte:02X}")).collect();
        format!("program {:06X}{}", self.address, bytes.concat())
    }

    /// The sectors that the data touch.
    pub fn sectors(&self) -> std::ops::Range<usize> {
        match self.data.len() {
            0 => 0..0,
            count => self.address / Chip::SECTOR..(self.address + count - 1) / Chip::SECTOR + 1,
        }
    }

    /// Whether the script's promise is about a chip over a memory of a length: it is legal, idle,
    /// awake and unselected, and protects none of the sectors that the data touch.
    pub fn is_promised(&self, chip: &Chip, length: usize) -> bool {
        let ready = chip.legal(length) && chip.job.is_none() && !chip.deep && !chip.selected;
        let all = length / Chip::SECTOR;
        let free = !self.sectors().any(|sector| protected(chip, sector, all));
        self.memory == length && ready && free
    }

    /// Programmings that are plainer, if only in one thing; what the room has to spare stays.
    pub fn plainer(&self) -> Vec<Programming> {
        let (count, spare) = (self.data.len(), self.room as i64 - self.script_length() as i64);
        let counts = [0, 1, count / 2, count.saturating_sub(1)].map(|less| less.min(count));
        let data = counts.map(|count| self.data[..count].to_vec()).into_iter();
        let shorter = data.chain([vec![0; count]]).map(|data| Programming { data, ..self.clone() });
        let addresses = [0, self.address % PAGE, self.address / 2];
        let lower = addresses.map(|address| Programming { address, ..self.clone() });
        let plainer = shorter.chain(lower).map(|plainer| plainer.with_spare(spare));
        plainer.filter(|plainer| plainer != self).collect()
    }
}

/// The first piece of a script: a 06h frame; a 02h frame with an address and bytes; 16 ticks. Both
/// frames end with no bit loose, for with one they would come to nothing.
fn first_piece(script: &[u8]) -> Option<Piece<'_>> {
    let frame = script.strip_prefix(&[0x01, 0x02, 0x06, 0x03, 0x00])?;
    let [0x01, 0x02, 0x02, 0x02, high, 0x02, middle, 0x02, low, sent @ ..] = frame else {
        return None;
    };
    let address = [high, middle, low].iter().fold(0, |sum, byte| sum << 8 | usize::from(**byte));
    let (mut bytes, mut rest) = (Vec::new(), sent);
    while let [0x02, byte, after @ ..] = rest {
        bytes.push(*byte);
        rest = after;
    }
    Some((address, bytes, rest.strip_prefix(&[0x03, 0x00, 0x05, 0x00, 0x10])?))
}
