//! The text form of a script, and the script bytes that a text stands for.
//!
//! One event a line. `#` starts a comment, blank lines are skipped, a byte is two hex digits, and
//! a count is a decimal number from 1 to 65535; a counter may also be 0.
//!
//! ```text
//! select               01h
//! send 02 00 FA        02h and the byte, once for each byte
//! send 05 +4           the same, and then four more exchanges of 00, to read four bytes
//! deselect             03h and 0: no bit is loose
//! loose 3              03h and the number of bits, 1 to 7
//! tick                 04h
//! ticks 16             05h and the count, high byte first
//! wp low, wp high      06h and 0 or 1
//! power                07h: power cut and power-up
//! stamp 40000          09h and the bench's counter, 0 to 65535, high byte first
//! frame 03 00 00 00 +4 shorthand: select, the exchanges as after send, deselect
//! program 0000FE A1 A2 shorthand: what it takes to program these bytes from the address on
//! bytes 08 03          these script bytes as they stand, for scripts that are to be refused
//! repeat 10 tick       shorthand: the rest of the line that many times
//! ```
//!
//! `program` takes an address of six hex digits and at most 4096 bytes, and cuts the bytes at page
//! edges, which a page program does not cross. Each piece is a write enable (`frame 06`), a page
//! program (`frame 02`, the piece's address and its bytes) and `ticks 16`, for its 16 steps. No
//! bytes make no piece, and so no script. The last address is FFFFFF; the text form does not know
//! how long the memory is, and an address past its end is taken modulo its length by the run.
//!
//! Bad text has no bytes, and one line that says so: `line N: reason`.
//!
//! A program that has this file for a module has `kind.rs` as `kind` at its root.

use crate::kind;

/// The largest count of ticks, reads and repeats.
const LARGEST_COUNT: usize = 65_535;
/// The largest number that the bench's counter shows, before it rolls over to 0.
const LARGEST_COUNTER: usize = 65_535;
/// The largest number of bits that may be loose at a deselect.
const LARGEST_BITS: usize = 7;
/// The body of a deselect on a byte boundary.
const NO_BITS: u8 = 0;
/// The most bytes that come of a text: far more than a run takes, and a stop to a slip in a count.
const LONGEST_SCRIPT: usize = 1 << 20;
/// The words that a line may start with.
const WORDS: &str =
    "select, send, deselect, tick, ticks, stamp, wp, power, loose, frame, program, bytes, repeat";
/// The byte sent when only the answer matters.
const FILLER: u8 = 0x00;
/// The opcode of a write enable.
const WRITE_ENABLE: u8 = 0x06;
/// The opcode of a page program.
const PAGE_PROGRAM: u8 = 0x02;
/// The bytes of a page.
const PAGE: usize = 256;
/// The ticks that a page program takes, one for each of its steps.
const PROGRAM_TICKS: u16 = 16;
/// The most bytes that one line programs, as many as the library's writer takes.
const MOST_PROGRAMMED: usize = 4_096;
/// The last address that three bytes name.
const LAST_ADDRESS: usize = 0xFF_FFFF;

/// The script bytes of a text, or the line and reason why it has none.
pub fn script_of_text(text: &str) -> Result<Vec<u8>, String> {
    let mut script = Vec::new();
    for (index, line) in text.lines().enumerate() {
        add_line(&mut script, line).map_err(|reason| format!("line {}: {reason}", index + 1))?;
    }
    Ok(script)
}

/// The text that the input's bytes are, or the first line that is none. Only a program that reads
/// its text from outside has a use for it.
#[allow(dead_code)]
pub fn text_of_input(input: &[u8]) -> Result<&str, String> {
    std::str::from_utf8(input).map_err(|error| {
        let good = &input[..error.valid_up_to()];
        let line = 1 + good.iter().filter(|byte| **byte == b'\n').count();
        format!("line {line}: not text in UTF-8")
    })
}

/// Adds the events of one line, as often as it says, to the script.
fn add_line(script: &mut Vec<u8>, line: &str) -> Result<(), String> {
    let words = words_of_line(line);
    let (count, event) = match words.as_slice() {
        [] => return Ok(()),
        ["repeat"] => return Err("\"repeat\" needs a count and an event".to_string()),
        ["repeat", count, event @ ..] => (number(count, LARGEST_COUNT)?, event),
        event => (1, event),
    };
    let events = events_of_words(event)?;
    if script.len() + count * events.len() > LONGEST_SCRIPT {
        return Err(format!("the script grows past {LONGEST_SCRIPT} bytes"));
    }
    script.extend(events.repeat(count));
    Ok(())
}

/// The words of a line, its comment left out.
fn words_of_line(line: &str) -> Vec<&str> {
    let before_comment = line.split('#').next().unwrap_or_default();
    before_comment.split_whitespace().collect()
}

/// The script bytes of one line's words, none of them a repeat.
fn events_of_words(words: &[&str]) -> Result<Vec<u8>, String> {
    match words {
        ["select"] => Ok(event(kind::SELECT, &[])),
        ["deselect"] => Ok(event(kind::DESELECT, &[NO_BITS])),
        ["tick"] => Ok(event(kind::TICK, &[])),
        ["power"] => Ok(event(kind::POWER_CUT, &[])),
        ["wp", "low"] => Ok(event(kind::WP_LEVEL, &[0])),
        ["wp", "high"] => Ok(event(kind::WP_LEVEL, &[1])),
        ["ticks", count] => Ok(ticks(number(count, LARGEST_COUNT)? as u16)),
        ["stamp", counter] => Ok(stamp(number_from(0, counter, LARGEST_COUNTER)? as u16)),
        ["loose", bits] => Ok(event(kind::DESELECT, &[number(bits, LARGEST_BITS)? as u8])),
        ["send", words @ ..] if !words.is_empty() => Ok(exchanges(&sent(words)?)),
        ["frame", words @ ..] if !words.is_empty() => Ok(frame(&sent(words)?)),
        ["program", start, words @ ..] => program(address(start)?, &bytes(words)?),
        ["bytes", words @ ..] if !words.is_empty() => bytes(words),
        [word, ..] => Err(misuse(word)),
        [] => Err("\"repeat\" needs an event after its count".to_string()),
    }
}

/// The script bytes of an event: its kind, which is one byte there, and its body.
fn event(kind: u64, body: &[u8]) -> Vec<u8> {
    [&[kind as u8], body].concat()
}

/// The event of that many ticks, high byte first.
fn ticks(count: u16) -> Vec<u8> {
    event(kind::TICKS, &count.to_be_bytes())
}

/// The event of a stamp, high byte first.
fn stamp(counter: u16) -> Vec<u8> {
    event(kind::STAMP, &counter.to_be_bytes())
}

/// One exchange for each byte.
fn exchanges(sent: &[u8]) -> Vec<u8> {
    sent.iter().flat_map(|byte| event(kind::EXCHANGE, &[*byte])).collect()
}

/// A select, the exchanges and a deselect on the byte boundary.
fn frame(sent: &[u8]) -> Vec<u8> {
    [event(kind::SELECT, &[]), exchanges(sent), event(kind::DESELECT, &[NO_BITS])].concat()
}

/// The script that programs the bytes from the address on, or why not: too many for one line, or
/// some of them past the last address, where three bytes would name the first cells again.
fn program(start: usize, data: &[u8]) -> Result<Vec<u8>, String> {
    let count = data.len();
    if count > MOST_PROGRAMMED {
        return Err(format!("\"program\" takes at most {MOST_PROGRAMMED} bytes, not {count}"));
    }
    if start + count > LAST_ADDRESS + 1 {
        return Err(format!("{count} bytes from {start:06X} on run past {LAST_ADDRESS:06X}"));
    }
    Ok(page_programs(start, data))
}

/// A page program for each page that the bytes reach. They are cut at page edges because a load
/// stays in its page: what is sent past the page's end lands at its start.
fn page_programs(start: usize, data: &[u8]) -> Vec<u8> {
    let (mut script, mut address, mut rest) = (Vec::new(), start, data);
    while !rest.is_empty() {
        let room = PAGE - address % PAGE;
        let (piece, later) = rest.split_at(room.min(rest.len()));
        script.extend(page_program(address, piece));
        address += piece.len();
        rest = later;
    }
    script
}

/// One page program, whole: its own write enable, since the end of a job takes WEN away, its
/// frame, and the ticks that end it.
fn page_program(address: usize, piece: &[u8]) -> Vec<u8> {
    let [.., high, middle, low] = address.to_be_bytes();
    let sent = [&[PAGE_PROGRAM, high, middle, low], piece].concat();
    [frame(&[WRITE_ENABLE]), frame(&sent), ticks(PROGRAM_TICKS)].concat()
}

/// The bytes that the words name, and as many more of the filler as a last word `+N` says.
fn sent(words: &[&str]) -> Result<Vec<u8>, String> {
    let (named, more) = match words {
        [named @ .., last] if last.starts_with('+') => (named, number(&last[1..], LARGEST_COUNT)?),
        _ => (words, 0),
    };
    Ok([bytes(named)?, vec![FILLER; more]].concat())
}

/// The bytes that the words name, one each.
fn bytes(words: &[&str]) -> Result<Vec<u8>, String> {
    words.iter().map(|word| byte(word)).collect()
}

/// The byte that two hex digits name.
fn byte(word: &str) -> Result<u8, String> {
    if word.starts_with('+') {
        return Err(format!("{word:?} may stand only at the end of a send or a frame"));
    }
    match hex(word, 2) {
        Some(byte) => Ok(byte as u8),
        None => Err(format!("{word:?} is not a byte of two hex digits")),
    }
}

/// The address that six hex digits name: three bytes, all written, so that none is guessed.
fn address(word: &str) -> Result<usize, String> {
    hex(word, 6).ok_or_else(|| format!("{word:?} is not an address of six hex digits"))
}

/// The number that a word of so many hex digits, and of nothing else, names.
fn hex(word: &str, digits: usize) -> Option<usize> {
    let hex_only = word.bytes().all(|digit| digit.is_ascii_hexdigit());
    let number = usize::from_str_radix(word, 16).ok()?;
    (hex_only && word.len() == digits).then_some(number)
}

/// The decimal number from 1 to the largest that a word names.
fn number(word: &str, largest: usize) -> Result<usize, String> {
    number_from(1, word, largest)
}

/// The decimal number from the smallest to the largest that a word names.
fn number_from(smallest: usize, word: &str, largest: usize) -> Result<usize, String> {
    let digits_only = word.bytes().all(|digit| digit.is_ascii_digit());
    match word.parse() {
        Ok(number) if digits_only && (smallest..=largest).contains(&number) => Ok(number),
        _ => Err(format!("{word:?} is not a decimal number from {smallest} to {largest}")),
    }
}

/// Why a line that starts with this word, and has the rest wrong, is bad.
fn misuse(word: &str) -> String {
    let takes = match word {
        "select" | "deselect" | "tick" | "power" => "nothing after it",
        "ticks" => "one count, 1 to 65535",
        "stamp" => "one counter, 0 to 65535",
        "loose" => "one number of bits, 1 to 7",
        "wp" => "one level, low or high",
        "send" | "frame" | "bytes" => "at least one byte",
        "program" => "an address and bytes",
        "repeat" => "no other repeat",
        _ => return format!("{word:?} is none of {WORDS}"),
    };
    format!("{word:?} takes {takes}")
}

#[cfg(test)]
mod tests {
    use super::*;

    /// The script bytes of a piece beside its data: two frames of three bytes and their exchanges,
    /// one of the write enable and four of the page program, and the ticks.
    const PIECE: usize = (3 + 2) + (3 + 2 * 4) + 3;

    /// Asserts the script bytes of a good text.
    fn gives(text: &str, script: &[u8]) {
        assert_eq!(script_of_text(text), Ok(script.to_vec()), "{text:?}");
    }

    /// Asserts the one line said of a bad text.
    fn says(text: &str, reason: &str) {
        assert_eq!(script_of_text(text), Err(reason.to_string()), "{text:?}");
    }

    /// A line that programs that many bytes 5Ah from the address on.
    fn program_line(address: &str, count: usize) -> String {
        format!("program {address}{}", " 5A".repeat(count))
    }

    /// Asserts how many script bytes come of a good text.
    fn gives_length(text: &str, length: usize) {
        assert_eq!(script_of_text(text).map(|script| script.len()), Ok(length), "{text:?}");
    }

    #[test]
    fn each_kind_has_a_word() {
        gives("select", &[0x01]);
        gives("send 06", &[0x02, 0x06]);
        gives("deselect", &[0x03, 0]);
        gives("tick", &[0x04]);
        gives("ticks 16", &[0x05, 0x00, 0x10]);
        gives("wp low\nwp high", &[0x06, 0, 0x06, 1]);
        gives("power", &[0x07]);
        gives("loose 3", &[0x03, 3]);
        gives("stamp 40000", &[0x09, 0x9C, 0x40]);
    }

    #[test]
    fn send_makes_one_exchange_a_byte() {
        gives("send 02 00 fA", &[0x02, 0x02, 0x02, 0x00, 0x02, 0xFA]);
        gives("send 05 +2", &[0x02, 0x05, 0x02, 0x00, 0x02, 0x00]);
        gives("send +1", &[0x02, 0x00]);
    }

    #[test]
    fn frame_selects_sends_and_deselects() {
        gives("frame 06\nframe 05 +1", &[1, 2, 6, 3, 0, 1, 2, 5, 2, 0, 3, 0]);
    }

    #[test]
    fn counts_reach_both_ends() {
        gives("ticks 1", &[0x05, 0x00, 0x01]);
        gives("ticks 258", &[0x05, 0x01, 0x02]);
        gives("ticks 65535", &[0x05, 0xFF, 0xFF]);
        gives("loose 1\nloose 7", &[0x03, 1, 0x03, 7]);
        gives("stamp 0\nstamp 258\nstamp 65535", &[9, 0, 0, 9, 1, 2, 9, 0xFF, 0xFF]);
    }

    #[test]
    fn program_cuts_at_a_page_edge() {
        let first = [
            1, 2, 0x06, 3, 0, // write enable
            1, 2, 0x02, 2, 0x00, 2, 0x00, 2, 0xFE, 2, 0xA1, 2, 0xA2, 3, 0, // A1 A2 at 0000FE
            5, 0x00, 0x10, // 16 ticks
        ];
        let second = [
            1, 2, 0x06, 3, 0, // write enable
            1, 2, 0x02, 2, 0x00, 2, 0x01, 2, 0x00, 2, 0xA3, 3, 0, // A3 at 000100
            5, 0x00, 0x10, // 16 ticks
        ];
        gives("program 0000FE A1 A2", &first);
        gives("program 000100 A3", &second);
        gives("program 0000FE A1 A2 A3", &[&first[..], &second[..]].concat());
    }

    #[test]
    fn program_is_the_lines_that_it_stands_for() {
        let line = |page: &str, sent: &str| format!("frame 06\nframe 02 {page} {sent}\nticks 16\n");
        let whole_page = vec!["5A"; PAGE].join(" ");
        let pieces =
            [line("12 34 FF", "5A"), line("12 35 00", &whole_page), line("12 36 00", "5A 5A")];
        let script = script_of_text(&pieces.concat());
        assert_eq!(script_of_text(&program_line("1234FF", 1 + PAGE + 2)), script);
        assert_eq!(script_of_text(&program_line("1234ff", 1 + PAGE + 2)), script);
    }

    #[test]
    fn program_makes_no_empty_piece() {
        gives("program 0000FE", &[]);
        gives("program FFFFFF", &[]);
        gives_length(&program_line("0000FE", 2), PIECE + 2 * 2);
        gives_length(&program_line("000100", PAGE), PIECE + 2 * PAGE);
        gives_length(&program_line("0000FF", 1 + PAGE), 2 * PIECE + 2 * (1 + PAGE));
    }

    #[test]
    fn program_is_repeated_like_any_line() {
        let once = [1, 2, 6, 3, 0, 1, 2, 2, 2, 0, 2, 0, 2, 0, 2, 0x5A, 3, 0, 5, 0, 16];
        gives("repeat 2 program 000000 5A", &[once, once].concat());
        gives("repeat 2 program 000000", &[]);
        says("repeat 2 program", "line 1: \"program\" takes an address and bytes");
    }

    #[test]
    fn program_takes_4096_bytes() {
        gives_length(&program_line("000000", 4_096), 16 * PIECE + 2 * 4_096);
        gives_length(&program_line("000001", 4_096), 17 * PIECE + 2 * 4_096);
        for address in ["000000", "FFFFFF"] {
            let reason = "line 1: \"program\" takes at most 4096 bytes, not 4097";
            says(&program_line(address, 4_097), reason);
        }
    }

    #[test]
    fn program_stops_at_the_last_address() {
        gives_length("program FFFFFF A1", PIECE + 2);
        gives_length(&program_line("FFF000", 4_096), 16 * PIECE + 2 * 4_096);
        says("program FFFFFF A1 A2", "line 1: 2 bytes from FFFFFF on run past FFFFFF");
        says("program fffffe A1 A2 A3", "line 1: 3 bytes from FFFFFE on run past FFFFFF");
        says(&program_line("FFF001", 4_096), "line 1: 4096 bytes from FFF001 on run past FFFFFF");
    }

    #[test]
    fn bad_programs_are_told() {
        says("program", "line 1: \"program\" takes an address and bytes");
        for word in ["FE", "00000FE", "0x00FE", "+000FE", "0000FG", "0000FEh", "ééé", "+4"] {
            let reason = format!("line 1: {word:?} is not an address of six hex digits");
            says(&format!("program {word}"), &reason);
            says(&format!("program {word} A1"), &reason);
        }
        says("program 0000FE A1 A", "line 1: \"A\" is not a byte of two hex digits");
        says("program 0000FE 000100", "line 1: \"000100\" is not a byte of two hex digits");
        let reason = "line 1: \"+4\" may stand only at the end of a send or a frame";
        says("program 0000FE +4", reason);
        says("program 0000FE A1 +4", reason);
        says("program 0000FE +4 A1", reason);
    }

    #[test]
    fn raw_bytes_stand_as_they_are() {
        gives("bytes 08 03", &[0x08, 0x03]);
        gives("bytes 03", &[0x03]);
    }

    #[test]
    fn repeat_repeats_the_rest_of_the_line() {
        gives("repeat 3 tick", &[4, 4, 4]);
        gives("repeat 2 frame 06", &[1, 2, 6, 3, 0, 1, 2, 6, 3, 0]);
    }

    #[test]
    fn comments_blanks_and_line_ends_are_skipped() {
        gives("", &[]);
        gives("# all comment\n\n   \t\n", &[]);
        gives("  select\t# comment\r\ndeselect#comment\r\n", &[0x01, 0x03, 0]);
    }

    #[test]
    fn bad_words_are_told_with_their_line() {
        says("select\n\n# three\nslect", &format!("line 4: \"slect\" is none of {WORDS}"));
        says("Select", &format!("line 1: \"Select\" is none of {WORDS}"));
        says("tick 3", "line 1: \"tick\" takes nothing after it");
        says("deselect 0", "line 1: \"deselect\" takes nothing after it");
        says("ticks", "line 1: \"ticks\" takes one count, 1 to 65535");
        says("ticks 1 2", "line 1: \"ticks\" takes one count, 1 to 65535");
        says("loose", "line 1: \"loose\" takes one number of bits, 1 to 7");
        says("stamp", "line 1: \"stamp\" takes one counter, 0 to 65535");
        says("stamp 1 2", "line 1: \"stamp\" takes one counter, 0 to 65535");
        says("wp 0", "line 1: \"wp\" takes one level, low or high");
        says("send", "line 1: \"send\" takes at least one byte");
        says("frame # 06", "line 1: \"frame\" takes at least one byte");
        says("bytes", "line 1: \"bytes\" takes at least one byte");
    }

    #[test]
    fn bad_bytes_are_told() {
        for word in ["6", "006", "6h", "0x06", "G0", "é"] {
            let reason = format!("line 1: {word:?} is not a byte of two hex digits");
            says(&format!("send {word}"), &reason);
            says(&format!("bytes 01 {word}"), &reason);
        }
        says("send +2 06", "line 1: \"+2\" may stand only at the end of a send or a frame");
        says("bytes 01 +2", "line 1: \"+2\" may stand only at the end of a send or a frame");
    }

    #[test]
    fn bad_numbers_are_told() {
        for word in ["0", "65536", "-1", "1F", "99999999999999999999999"] {
            let reason = format!("{word:?} is not a decimal number from 1 to 65535");
            says(&format!("ticks {word}"), &format!("line 1: {reason}"));
            says(&format!("send 05 +{word}"), &format!("line 1: {reason}"));
            says(&format!("repeat {word} tick"), &format!("line 1: {reason}"));
        }
        says("send 05 +", "line 1: \"\" is not a decimal number from 1 to 65535");
        says("send 05 ++1", "line 1: \"+1\" is not a decimal number from 1 to 65535");
        says("loose 0", "line 1: \"0\" is not a decimal number from 1 to 7");
        says("loose 8", "line 1: \"8\" is not a decimal number from 1 to 7");
        says("stamp 65536", "line 1: \"65536\" is not a decimal number from 0 to 65535");
        says("stamp -1", "line 1: \"-1\" is not a decimal number from 0 to 65535");
    }

    #[test]
    fn bad_repeats_are_told() {
        says("repeat", "line 1: \"repeat\" needs a count and an event");
        says("repeat 2", "line 1: \"repeat\" needs an event after its count");
        says("repeat 2 repeat 2 tick", "line 1: \"repeat\" takes no other repeat");
        says("repeat 2 ticks 0", "line 1: \"0\" is not a decimal number from 1 to 65535");
    }

    #[test]
    fn length_has_a_stop() {
        let most = "repeat 65535 send 00 +7\nrepeat 16 tick\n".to_string();
        assert_eq!(script_of_text(&most).map(|script| script.len()), Ok(LONGEST_SCRIPT));
        says(&(most + "tick"), "line 3: the script grows past 1048576 bytes");
        says("repeat 65535 send +65535", "line 1: the script grows past 1048576 bytes");
    }

    #[test]
    fn input_that_is_no_text_is_told_with_its_line() {
        assert_eq!(text_of_input(b"tick\n"), Ok("tick\n"));
        assert_eq!(text_of_input(b"tick\n\xFF"), Err("line 2: not text in UTF-8".to_string()));
    }
}
