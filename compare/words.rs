// Cases in words, for the report of a difference.

use crate::case::{room, Case, Start, Step, Use};
use crate::event::{events_of, kind, Event};
use crate::image::BLANK;
use crate::margins::{line_words, Report, KINDS};
use crate::programming::Programming;
use crate::sfdp::CONTENT;

/// One event in words.
fn event_words((kind, body): Event) -> String {
    match (kind, body) {
        (kind::SELECT, _) => "select".to_string(),
        (kind::EXCHANGE, 0..=255) => format!("exchange {body:02X}h"),
        (kind::DESELECT, 0) => "deselect".to_string(),
        (kind::DESELECT, 1) => "deselect, 1 bit loose".to_string(),
        (kind::DESELECT, 2..=7) => format!("deselect, {body} bits loose"),
        (kind::TICK, _) => "tick".to_string(),
        (kind::TICKS, 1..=65_535) => format!("{body} ticks"),
        (kind::WP_LEVEL, 0) => "WP low".to_string(),
        (kind::WP_LEVEL, 1) => "WP high".to_string(),
        (kind::POWER_CUT, _) => "power cut".to_string(),
        (kind::STAMP, 0..=65_535) => format!("stamp {body}"),
        _ => format!("event of kind {kind:X}h with body {body:X}h"),
    }
}

/// How many lines are shown of the start, and of the end, of a long run.
const SHOWN: usize = 40;

/// Events in words, one line for those that are alike and follow each other.
fn event_lines(events: &[Event]) -> Vec<String> {
    let mut alike: Vec<(Event, usize)> = Vec::new();
    for event in events {
        match alike.last_mut() {
            Some((last, times)) if last == event => *times += 1,
            _ => alike.push((*event, 1)),
        }
    }
    let line = |(event, times)| match times {
        1 => event_words(event),
        _ => format!("{}, {times} times", event_words(event)),
    };
    alike.into_iter().map(line).collect()
}

/// How many bytes are shown of an SFDP area, or of the data of a programming.
const SHOWN_BYTES: usize = 48;

/// Bytes in words, or the first ones of many.
fn byte_words(bytes: &[u8]) -> String {
    let shown = &bytes[..bytes.len().min(SHOWN_BYTES)];
    let words: String = shown.iter().map(|byte| format!(" {byte:02X}")).collect();
    words + if shown.len() < bytes.len() { " and more" } else { "" }
}

/// An SFDP area in words: its length, and its bytes, or the first ones of many.
fn area_words(area: &[u8]) -> String {
    if *area == CONTENT {
        return "the part's own SFDP area".to_string();
    }
    format!("an SFDP area of {} bytes{}", area.len(), byte_words(area))
}

/// A programming in words, with the use of its script.
fn programming_words(asked: &Programming, used: Use) -> String {
    let Programming { memory, address, data, room } = asked;
    let (count, bytes) = (data.len(), byte_words(data));
    let used = match used {
        Use::Read => "written",
        Use::HoldText => "written, also by text",
        Use::Run => "written and run",
    };
    format!("{count} bytes at {address:X}h of {memory},{bytes}: {used}, room {room}")
}

/// A report in words, a line for each kind of job.
fn report_words(report: &Report) -> String {
    let words = KINDS.iter().zip(report);
    words.map(|((name, _), line)| format!("\n      {name}: {}", line_words(line))).collect()
}

/// A script in words, one line an event, or the first and the last lines of many.
fn script_words(script: &[u8]) -> String {
    let (events, rest) = events_of(script);
    let (lines, mut text) = (event_lines(&events), String::new());
    for (number, line) in lines.iter().enumerate() {
        if number < SHOWN || number + SHOWN >= lines.len() {
            text += &format!("\n      {line}");
        } else if number == SHOWN {
            text += &format!("\n      {} lines more", lines.len() - 2 * SHOWN);
        }
    }
    if !rest.is_empty() {
        text += &format!("\n      then the bytes {:02X?}", &rest[..rest.len().min(8)]);
    }
    text
}

/// A step in words.
fn step_words(step: &Step) -> String {
    let over = |length: &Option<usize>| {
        length.map_or(String::new(), |length| format!(", memory length {length}"))
    };
    match step {
        Step::HandOver => "the expected chip is handed over".to_string(),
        Step::Lend(area) => format!("{} is lent", area_words(area)),
        Step::Find(identity) => format!("the reader is asked for identity {identity:02X}h"),
        Step::OwnArea => "the part's own SFDP area is asked for".to_string(),
        Step::Script(asked, used) => programming_words(asked, *used),
        Step::Event { event, lent, length } => {
            let way = if *lent { " (lent record)" } else { "" };
            format!("{}{way}{}", event_words(*event), over(length))
        }
        Step::Run { script, spare, length, allowances } => {
            let (count, room, over) = (script.len(), room(script, *spare), over(length));
            let with = allowances.map_or(String::new(), |numbers| {
                format!(", with a report, allowances {numbers:?}")
            });
            format!("run of {count} bytes, room {room}{over}{with}{}", script_words(script))
        }
        Step::Report(report) => format!("a report is handed in{}", report_words(report)),
    }
}

/// A start in words, the frame's and the job's load only where they are not plain.
fn start_words(start: &Start) -> String {
    let Start::Lent(chip, edit) = start else {
        let Start::Fresh(status) = start else { return String::new() };
        return format!("fresh from status {status:02X}h");
    };
    let text = format!("lent state {chip:?}, edit {edit:?}");
    text.replace(&format!("{BLANK:?}"), "blank").replace(&format!("{:?}", [0; 256]), "zeros")
}

/// A case in words.
pub fn case_words(case: &Case) -> String {
    let mut text = format!("  memory length {}, {:?}\n", case.length, case.content);
    text += &format!("  {}\n", area_words(&case.area));
    text += &format!("  {}\n", start_words(&case.start));
    for step in &case.steps {
        text += &format!("    {}\n", step_words(step));
    }
    text
}
