// The engine against the plain Rust models: the same cases on each, compared, then timed as ratios.

#[allow(dead_code)]
#[path = "../compare/bench.rs"]
mod bench;
#[allow(dead_code)]
#[path = "../compare/case.rs"]
mod case;
#[path = "../compare/class.rs"]
mod class;
#[allow(dead_code)]
#[path = "../compare/clock.rs"]
mod clock;
#[allow(dead_code)]
#[path = "../compare/commands.rs"]
mod commands;
#[path = "../compare/enable.rs"]
mod enable;
#[path = "../compare/event.rs"]
mod event;
#[allow(dead_code)]
#[path = "../compare/expected.rs"]
mod expected;
mod frame_times;
#[allow(dead_code)]
#[path = "../compare/generate.rs"]
mod generate;
#[allow(dead_code)]
#[path = "../compare/image.rs"]
mod image;
mod linked;
#[allow(dead_code)]
#[path = "../compare/margins.rs"]
mod margins;
#[path = "../second/model.rs"]
mod model;
#[allow(dead_code)]
#[path = "../compare/programming.rs"]
mod programming;
#[path = "../compare/promise.rs"]
mod promise;
#[allow(dead_code)]
#[path = "../compare/protection.rs"]
mod protection;
mod read_cases;
mod read_times;
mod reads;
#[path = "../compare/rng.rs"]
mod rng;
#[allow(dead_code)]
#[path = "../compare/scenes.rs"]
mod scenes;
#[path = "../second/sfdp.rs"]
mod sfdp;
#[path = "../compare/side.rs"]
mod side;
#[path = "../tools/text.rs"]
mod text;
mod timing;
#[allow(dead_code)]
#[path = "../compare/wait_scenes.rs"]
mod wait_scenes;
#[path = "../second/writer.rs"]
mod writer;

use bench::Bench;
use case::{Case, Content, Start, Step};
use event::{frame_of, kind, script_of, Event, LONGEST};
use generate::Writer;
use model::Chip;
use rng::Rng;
use side::Side;
use std::process::ExitCode;
use timing::Row;

/// Events of the case of single events.
const SINGLE: usize = 20_000;
/// Events of the cases of idle ticks.
const IDLE: usize = 20_000;
/// Steps of the cases of single working ticks.
const WORKED: usize = 8_000;
/// Scripts of the cases of one frame a script.
const SHORT: usize = 1_000;
/// The seed of what memory holds when a case starts.
const NOISE: u64 = 1;

/// The events of a job: write enable, its frame, and its ticks.
fn job(bytes: Vec<u8>, ticks: u64) -> Vec<Event> {
    [frame_of([0x06]), frame_of(bytes), vec![(kind::TICKS, ticks)]].concat()
}

/// The events of as many parts, each made from its number, as a script has room for.
fn as_many_as_fit(part: impl Fn(usize) -> Vec<Event>) -> Vec<Event> {
    let (mut events, mut length) = (Vec::new(), 0);
    for number in 0.. {
        let more = part(number);
        length += script_of(&more).len();
        if length > LONGEST {
            break;
        }
        events.extend(more);
    }
    events
}

/// The events of as many page programs of so many bytes as a script has room for.
fn programs(bytes: usize) -> Vec<Event> {
    as_many_as_fit(|page| {
        let [.., high, low] = (page * 256).to_be_bytes();
        let data = (0..bytes).map(|at| (at + page) as u8);
        job([0x02, 0, high, low].into_iter().chain(data).collect(), 16)
    })
}

/// The events of a mixed script of the longest length, by the random scenes of compare/.
fn mixed(length: usize) -> Vec<Event> {
    let (mut rng, mut memory) = (Rng::new(1), vec![0xFF; length]);
    let mut writer = Writer::new(&mut rng, Chip::fresh(0), &mut memory);
    while script_of(&writer.events).len() < LONGEST {
        let scene = writer.rng.pick(&scenes::SCENES);
        scene(&mut writer);
    }
    let mut events = writer.events;
    while script_of(&events).len() > LONGEST {
        events.pop();
    }
    let short = LONGEST - script_of(&events).len();
    events.extend(std::iter::repeat_n((kind::TICK, 0), short));
    events
}

/// The events of a chip erase with these ticks.
fn worked(ticks: Vec<Event>) -> Vec<Event> {
    [frame_of([0x06]), frame_of([0x60]), ticks].concat()
}

/// A step of one run, its room being that of refusal 7 and some bytes more or less.
fn run_step(script: Vec<u8>, spare: i64) -> Step {
    Step::Run { script, spare, length: None, allowances: None }
}

/// A case of one run over a memory of so many sectors.
fn run(words: &'static str, sectors: usize, events: &[Event], target: Option<f64>) -> Row {
    row(words, sectors, vec![run_step(script_of(events), 0)], target)
}

/// A case of many short scripts over one sector, each a frame of these bytes.
fn short(words: &'static str, bytes: &[u8]) -> Row {
    let script = script_of(&frame_of(bytes.iter().copied()));
    row(words, 1, vec![run_step(script, 0); SHORT], None)
}

/// A case of one erase of so many bytes of the 2 MiB part, held to a plain fill.
fn erase(words: &'static str, bytes: Vec<u8>, filled: usize) -> Row {
    let events = job(bytes, (filled / 256) as u64);
    Row { filled: Some(filled), ..run(words, 32, &events, Some(2.0)) }
}

/// A case of single events over one sector.
fn single(words: &'static str, events: &[Event], lent: bool) -> Row {
    let step = |event: &Event| Step::Event { event: *event, lent, length: None };
    row(words, 1, events.iter().map(step).collect(), None)
}

/// The steps of a case on a fresh chip with an empty SFDP area.
fn fresh_case(sectors: usize, steps: Vec<Step>) -> Case {
    let (length, start, content) = (sectors * Chip::SECTOR, Start::Fresh(0), Content::Noise(NOISE));
    Case { length, start, content, area: Vec::new(), steps }
}

/// A case on a fresh chip, with no plain fill to be held to.
fn row(words: &'static str, sectors: usize, steps: Vec<Step>, target: Option<f64>) -> Row {
    Row { words, case: fresh_case(sectors, steps), filled: None, target }
}

/// All cases.
fn rows() -> Vec<Row> {
    let data = std::iter::repeat_n(0, 30_000);
    let low_power = frame_of([0x03, 0, 0, 0].into_iter().chain(data.clone()));
    let high_speed = frame_of([0x0B, 0, 0, 0, 0].into_iter().chain(data));
    let mix = mixed(Chip::SECTOR);
    let (many_idle, one_idle) = (vec![(kind::TICKS, 65_535); IDLE], vec![(kind::TICKS, 1); IDLE]);
    let stamps: Vec<Event> = (0..IDLE as u64).map(|at| (kind::STAMP, at)).collect();
    let (worked, stamped) = (worked(vec![(kind::TICKS, 1); WORKED]), worked(stamps[..=WORKED].to_vec()));
    vec![
        run("a  read of 30,000 bytes, 03h", 32, &low_power, Some(1.5)),
        run("a  read of 30,000 bytes, 0Bh", 32, &high_speed, Some(1.5)),
        run("b  page programs of 256 bytes", 32, &programs(256), Some(1.5)),
        run("b  page programs of 300 bytes", 32, &programs(300), Some(1.5)),
        run("c  mixed script of 65,536 bytes", 1, &mix, Some(2.0)),
        erase("d  erase of a sector", vec![0xD8, 0, 0, 0], Chip::SECTOR),
        erase("d  erase of the 2 MiB part", vec![0x60], 32 * Chip::SECTOR),
        run("e  20,000 times 65,535 idle ticks", 1, &many_idle, None),
        run("e  20,000 times 1 idle tick", 1, &one_idle, None),
        run("e  20,000 stamps, each 1 idle tick", 1, &stamps, None),
        run("g  8,000 steps, 05h of 1 tick each", 32, &worked, None),
        run("g  8,000 steps, a stamp each", 32, &stamped, None),
        short("h  1,000 scripts of one frame, 06h", &[0x06]),
        short("h  1,000 scripts of one frame, 05h", &[0x05, 0]),
        single("f  single events", &mix[..SINGLE], false),
        single("f  single events, lent chip", &mix[..SINGLE], true),
    ]
}

/// Compares every case, then prints the tables of ratios and of times.
fn all() -> Result<(), String> {
    let rows = rows();
    let mut engine = linked::Linked::new();
    for row in &rows {
        if let Some((step, words)) = Bench::new(&mut engine as &mut dyn Side).replay(&row.case) {
            return Err(format!("{}: a difference at step {step}: {words}", row.words));
        }
    }
    println!("{} cases, no difference between the engine and the plain model", rows.len());
    let read_cases = read_cases::all();
    read_cases::hold(&mut engine, &read_cases)?;
    timing::table(&mut engine, &rows)?;
    read_times::table(&mut engine, &read_cases)?;
    frame_times::table(&mut engine)
}

fn main() -> ExitCode {
    match all() {
        Ok(()) => ExitCode::SUCCESS,
        Err(words) => {
            eprintln!("bench: {words}");
            ExitCode::FAILURE
        }
    }
}
