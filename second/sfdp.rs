// The SFDP area of the LE25S161 and a reader of any such area.

/// Where a parameter table lies in the area, in bytes; both numbers are 0 if refused.
#[allow(dead_code)]
#[derive(Clone, Copy, Debug, PartialEq, Eq)]
pub struct Found {
    pub refusal: u8,
    pub place: usize,
    pub length: usize,
}

/// The longest area that is read.
const LONGEST_AREA: usize = 256;
/// The four bytes that an area starts with.
const SIGNATURE: [u8; 4] = *b"SFDP";
/// Place of the byte that is one less than the number of headers.
const COUNT_PLACE: usize = 6;
/// Place of the first header.
const HEADERS_PLACE: usize = 8;
/// Bytes of a header.
const HEADER: usize = 8;
/// Bytes of one word of a table's length.
const WORD: usize = 4;

/// Finds the table of the first header that has the identity, or says why there is none.
#[allow(dead_code)]
pub fn find(area: &[u8], identity: u8) -> Found {
    match search(area, identity) {
        Ok((place, length)) => Found { refusal: 0, place, length },
        Err(refusal) => Found { refusal, place: 0, length: 0 },
    }
}

/// The table that `find` finds, as a part of the area, empty if refused.
#[allow(dead_code)]
pub fn table(area: &[u8], identity: u8) -> &[u8] {
    let Found { place, length, .. } = find(area, identity);
    &area[place..place + length]
}

/// The place and length of an identity's table, or the refusal number.
fn search(area: &[u8], identity: u8) -> Result<(usize, usize), u8> {
    let headers = headers(area)?;
    let header = headers.chunks_exact(HEADER).find(|header| header[0] == identity).ok_or(16)?;
    let (place, length) = table_of(header);
    if place + length > area.len() {
        return Err(17);
    }
    Ok((place, length))
}

/// The bytes of all the headers of an area, or the refusal number.
fn headers(area: &[u8]) -> Result<&[u8], u8> {
    if area.len() > LONGEST_AREA {
        return Err(13);
    }
    if !area.starts_with(&SIGNATURE) {
        return Err(14);
    }
    let last = *area.get(COUNT_PLACE).ok_or(15)?;
    let end = HEADERS_PLACE + HEADER * (usize::from(last) + 1);
    area.get(HEADERS_PLACE..end).ok_or(15)
}

/// The place and length in bytes that a header gives its table.
fn table_of(header: &[u8]) -> (usize, usize) {
    let place = u32::from_le_bytes([header[4], header[5], header[6], 0]);
    (place as usize, WORD * usize::from(header[3]))
}

/// Table 14: the header, 00h to 07h, and the two described parameter headers, 08h to 17h.
const HEADER_BYTES: [u8; 24] = [
    0x53, 0x46, 0x44, 0x50, // 00h signature, given as 50444653h: low byte first it is "SFDP"
    0x05, 0x01, 0x02, 0xFF, // 04h minor, major, three parameter headers, unused
    0x00, 0x00, 0x01, 0x10, // 08h identity 00h, minor, major, 16 words
    0x40, 0x00, 0x00, 0xFF, // 0Ch pointer 000040h, unused
    0x62, 0x00, 0x01, 0x04, // 10h identity 62h, minor, major, 4 words
    0xC0, 0x00, 0x00, 0xFF, // 14h pointer 0000C0h, unused
];

/// Table 15: the basic flash parameters, 40h to 7Fh.
const BASIC_BYTES: [u8; 64] = [
    0xE5, 0x20, 0x91, 0xFF, // 40h
    // 44h to 47h, decided: one number for four bytes. 000 has lost a digit (00FFFFFh), 001 has all
    // eight (00FFFFFFh), and 16 Mbits less one is that number; low byte first.
    0xFF, 0xFF, 0xFF, 0x00, // 44h
    0x00, 0xFF, 0x00, 0xFF, // 48h
    0x08, 0x3B, 0x04, 0xBB, // 4Ch
    0xEE, 0xFF, 0xFF, 0xFF, // 50h
    0xFF, 0xFF, 0x00, 0xFF, // 54h
    0xFF, 0xFF, 0x00, 0xFF, // 58h
    0x0C, 0x20, 0x10, 0xD8, // 5Ch
    0x00, 0xFF, 0x00, 0xFF, // 60h
    // 64h to 67h, decided: fields run over byte ends, and 000 puts 10:4 beside 65h and has lost a
    // zero of both 24:18 and 31:25, which 001 has. The fields give 00007094h, as the hex column.
    0x94, 0x70, 0x00, 0x00, // 64h
    // 69h and 6Ah, decided: the first byte's time, 1_1111b, is 18:14, its low two bits in 69h.
    0x82, 0xE6, 0x07, 0x0C, // 68h
    // 6Ch, decided: 000 has lost bits 3:0 and gives their 1101b to 7:4; 001 has 3:0 1101b and 7:4
    // 1111b, which is FDh, as the hex column of both.
    // 6Dh and 6Eh, decided: the program's latency, 10_00100b, is 19:13, its low three bits in 6Dh.
    0xFD, 0x80, 0x08, 0x44, // 6Ch
    0x30, 0xB0, 0x30, 0xB0, // 70h
    // 75h to 77h, decided: ABh is 22:15 and B9h is 30:23, the low bit of each in the byte before.
    0x04, 0xC4, 0xD5, 0x5C, // 74h
    // 79h and 7Bh, decided: 000 has lost a zero of 15:10 and of 31:24; 001 has all.
    0x00, 0x00, 0x00, 0x00, // 78h
    // 7Eh, decided: 000 has lost a zero of 23:16; 001 has all.
    0x19, 0x10, 0x00, 0x00, // 7Ch
];

/// Table 15: the maker's parameters, C0h to CFh.
const MAKER_BYTES: [u8; 16] = [
    // C0h to C3h, decided: the comments' 1950h and 1650h, low byte first as the hex column is.
    0x50, 0x19, 0x50, 0x16, // C0h
    0x14, 0xFF, 0xFF, 0xFF, // C4h
    0x9F, 0x62, 0x16, 0x15, // C8h
    0xAB, 0x88, 0xFF, 0xFF, // CCh
];

/// The part's own area, 00h to CFh. What the tables leave open is FFh, decided by the request:
/// 18h to 1Fh (the third header, counted and not described), 20h to 3Fh and 80h to BFh.
#[allow(dead_code)]
pub const CONTENT: [u8; 208] = {
    let open = [0xFF; 208];
    let content = lay(open, 0x00, &HEADER_BYTES);
    let content = lay(content, 0x40, &BASIC_BYTES);
    lay(content, 0xC0, &MAKER_BYTES)
};

/// An area with bytes laid over it from a place on.
const fn lay(mut area: [u8; 208], place: usize, bytes: &[u8]) -> [u8; 208] {
    let mut offset = 0;
    while offset < bytes.len() {
        area[place + offset] = bytes[offset];
        offset += 1;
    }
    area
}
