// A reader of SFDP areas with one fault, for the wrong copies that have it.

use crate::sfdp::Found;

/// The faults, in words.
pub const FAULTS: [&str; 7] = [
    "the reader takes byte 6 as the number of headers",
    "the reader takes a pointer high byte first",
    "the reader takes the last header of an identity",
    "the reader finds a table that ends one byte past the area",
    "the reader refuses a table that ends at the area's end",
    "the reader takes a header that ends one byte past the area",
    "the reader refuses a header that ends at the area's end",
];

/// Finds the table of an identity with the fault of that number.
pub fn find(area: &[u8], identity: u8, fault: usize) -> Found {
    match search(area, identity, fault) {
        Ok((place, length)) => Found { refusal: 0, place, length },
        Err(refusal) => Found { refusal, place: 0, length: 0 },
    }
}

/// The place and the length of a table, or the refusal, with the fault of that number.
fn search(area: &[u8], identity: u8, fault: usize) -> Result<(usize, usize), u8> {
    if area.len() > 256 {
        return Err(13);
    }
    if !area.starts_with(b"SFDP") {
        return Err(14);
    }
    let byte = |at: usize| area.get(at).map_or(0xFF, |byte| usize::from(*byte));
    let count = byte(6) + usize::from(fault != 0);
    if area.len() < 8 || 8 + 8 * count > end(area, fault, 5, 6) {
        return Err(15);
    }
    let headers = (0..count).map(|number| 8 + 8 * number);
    let mut alike = headers.filter(|at| byte(*at) == usize::from(identity));
    let header = if fault == 2 { alike.next_back() } else { alike.next() }.ok_or(16)?;
    let [mut low, middle, mut high] = [4, 5, 6].map(|at| byte(header + at));
    if fault == 1 {
        (low, high) = (high, low);
    }
    let (place, length) = (low | middle << 8 | high << 16, 4 * byte(header + 3));
    if place + length > end(area, fault, 3, 4) {
        return Err(17);
    }
    Ok((place, length))
}

/// The area's end, or one byte more or one less by the faults of those numbers.
fn end(area: &[u8], fault: usize, more: usize, less: usize) -> usize {
    area.len() + usize::from(fault == more) - usize::from(fault == less)
}
