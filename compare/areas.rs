// SFDP areas to lend: noise, the part's own, damaged ones, and such as the reader gets far in.

use crate::rng::Rng;
use crate::sfdp::CONTENT;
use crate::side::LONGEST_AREA;

/// The longest area that is not refused.
pub const LONGEST_TAKEN: usize = 256;

/// Identities that the headers of an area have and that are asked for: those of the part's own
/// area, that of its undescribed header, and one more.
pub const IDENTITIES: [u8; 4] = [0x00, 0x62, 0xFF, 0x01];

/// A header of an identity, of a table's length in words and of a pointer to it.
pub fn header(identity: u8, words: u8, pointer: usize) -> [u8; 8] {
    let [low, middle, high, ..] = pointer.to_le_bytes();
    [identity, 0x00, 0x01, words, low, middle, high, 0xFF]
}

/// An area of a length with some headers, FFh after them; it may end inside of them.
pub fn with_headers(headers: &[[u8; 8]], length: usize) -> Vec<u8> {
    let count = (headers.len() - 1) as u8;
    let mut area = [b"SFDP\x05\x01", &[count, 0xFF][..], &headers.concat()].concat();
    area.resize(length, 0xFF);
    area
}

/// An area of a length with a few headers of few identities, whose tables end near its end.
pub fn near_the_end(rng: &mut Rng, length: usize) -> Vec<u8> {
    let mut headers = vec![[0; 8]; 1 + rng.below(4)];
    for place in &mut headers {
        let (identity, words) = (rng.pick(&IDENTITIES), rng.pick(&[0, 1, 2, 4]));
        let near = (length + 2).saturating_sub(4 * usize::from(words) + rng.below(5));
        let pointer = match rng.below(8) {
            0 => rng.below(1 << 24),
            1 => rng.below(LONGEST_AREA),
            _ => near,
        };
        *place = header(identity, words, pointer);
        place[7] = rng.byte();
    }
    let mut area = with_headers(&headers, length);
    if let Some(rest) = area.get_mut(8 + 8 * headers.len()..) {
        rng.fill(rest);
    }
    area
}

/// Does some damage to the part's own area, or to what is left of it.
fn damage(rng: &mut Rng, area: &mut Vec<u8>) {
    let header = 8 + 8 * rng.below(3);
    match rng.below(6) {
        0 => area.truncate(rng.below(CONTENT.len())),
        _ if area.len() < 32 => {}
        1 => area[rng.below(32)] = rng.byte(),
        2 => area[header + rng.pick(&[4, 4, 5, 6])] = rng.byte(),
        3 => area[6] = rng.pick(&[0, 1, 3, 24, 25, 30, 31, 255]),
        4 => area[header] = area[8 + 8 * rng.below(3)],
        _ => area.resize(CONTENT.len() + rng.below(49), rng.byte()),
    }
}

/// The part's own area with one damage or more.
pub fn damaged(rng: &mut Rng) -> Vec<u8> {
    let mut area = CONTENT.to_vec();
    damage(rng, &mut area);
    while rng.once_in(3) {
        damage(rng, &mut area);
    }
    area
}

/// An area of a length full of noise.
pub fn noise(rng: &mut Rng, length: usize) -> Vec<u8> {
    let mut area = vec![0; length];
    rng.fill(&mut area);
    area
}

/// An area of a length: noise, FFh, the part's own or a damaged one cut or filled, or one in which
/// the reader gets far.
pub fn of_length(rng: &mut Rng, length: usize) -> Vec<u8> {
    let mut area = match rng.below(5) {
        0 => noise(rng, length),
        1 => Vec::new(),
        2 => CONTENT.to_vec(),
        3 => damaged(rng),
        _ => near_the_end(rng, length),
    };
    area.resize(length, 0xFF);
    area
}

/// Any area that is not refused, often of a length at an edge, or the part's own.
pub fn taken(rng: &mut Rng) -> Vec<u8> {
    if rng.once_in(4) {
        return CONTENT.to_vec();
    }
    let any = rng.below(LONGEST_TAKEN + 1);
    let length = rng.pick(&[0, 1, 15, 16, 255, 256, 256, any, any, any]);
    of_length(rng, length)
}

/// Any area that is too long, often by one byte.
pub fn too_long(rng: &mut Rng) -> Vec<u8> {
    let any = 1 + rng.below(LONGEST_AREA - LONGEST_TAKEN);
    let length = LONGEST_TAKEN + rng.pick(&[1, any, any]);
    of_length(rng, length)
}
