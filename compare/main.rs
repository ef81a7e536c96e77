// Random scripts: the library held to the second model after each event and each run.

#[path = "../second/model.rs"]
mod model;
#[path = "../second/sfdp.rs"]
mod sfdp;
#[path = "../tools/text.rs"]
mod text;
#[path = "../second/writer.rs"]
mod writer;

mod area_coverage;
mod area_scenes;
mod areas;
mod bench;
mod case;
mod class;
mod clock;
mod commands;
mod coverage;
mod deselect_coverage;
mod enable;
mod enable_coverage;
mod event;
mod expected;
mod faults;
mod generate;
mod image;
mod job_table;
mod kind_table;
mod library;
mod margins;
mod plan;
mod plan_areas;
mod plan_deselects;
mod plan_enable;
mod plan_programming;
mod plan_protection;
mod plan_reads;
mod plan_reports;
mod plan_rows;
mod plan_stamps;
mod plan_waits;
mod programming;
mod programming_coverage;
mod promise;
mod protection;
mod protection_coverage;
mod random;
mod read_coverage;
mod read_scenes;
mod refusals;
mod report_coverage;
mod rng;
mod row_coverage;
mod scenes;
mod session;
mod shrink;
mod side;
mod stamp_coverage;
mod stamps;
mod states;
mod tally;
mod wait_coverage;
mod wait_scenes;
mod words;
mod wrong_deselect;
mod wrong_enable;
mod wrong_reader;
mod wrong_reads;
mod wrong_report;
mod wrong_room;
mod wrong_sectors;
mod wrong_stamp;
mod wrong_wait;
mod wrong_writer;

use bench::Bench;
use case::{Case, Content, Start, LENGTHS};
use event::kind; // text.rs looks for it here
use image::Edit;
use model::Chip;
use programming::Programming;
use session::Session;
use side::Side;
use std::process::ExitCode;
use std::time::Duration;
use words::case_words;

/// Random events of the quick run, after those that are planned.
const QUICK: u64 = 600_000;
/// Random events that a planted fault is given to show itself.
const SELF_TEST: u64 = 200_000;
/// The time that a case with a difference is given to get small.
const PATIENCE: Duration = Duration::from_secs(20);
/// The time that a case with a planted fault is given: what is wrong is known.
const SELF_PATIENCE: Duration = Duration::from_millis(500);

/// Runs the plan and a number of random events; prints the tables, or the difference made small.
/// What is not well, a difference or empty cells, is an error in words. A planted fault needs no
/// tables and less patience.
fn compare(other: &mut dyn Side, seed: u64, events: u64, planted: bool) -> Result<(), String> {
    let mut session = Session::new(Bench::new(other), seed);
    let failed = session.planned().and_then(|()| session.random(events)).err();
    let Some(failure) = failed else {
        println!("seed {seed}: {} cases, {} events, no difference", session.cases, session.events);
        let faults = if planted { 0 } else { session.coverage.report() };
        if faults == 0 {
            return Ok(());
        }
        let words =
            format!("{faults} cells marked ! are empty, or filled and listed as impossible");
        println!("\n{words}");
        return Err(words);
    };
    let number = session.cases;
    println!("seed {seed}: a difference in case {number}, after {} events", session.events);
    println!("{}", failure.difference);
    let patience = if planted { SELF_PATIENCE } else { PATIENCE };
    let (small, difference) = shrink::shrink(&mut session.bench, failure.case, patience);
    println!("made smaller:\n{}", case_words(&small));
    println!("{}", difference.unwrap_or("it does not come again".to_string()));
    Err(failure.difference)
}

/// Whether a planted fault was found, by words that begin as those of what has to find it; says so
/// if not.
fn is_found(difference: Option<String>, begin: &str) -> bool {
    let found = difference.is_some_and(|words| words.starts_with(begin));
    if !found {
        println!("NOT FOUND, or not by the reckoning that has to find it");
    }
    found
}

/// A case without steps that lends a chip.
fn case_of(chip: Chip, length: usize) -> Case {
    let start = Start::Lent(Box::new(chip), Edit::None);
    Case { length, start, content: Content::Blank, area: Vec::new(), steps: Vec::new() }
}

/// What the check of the promise says of a wrong script that is run on a true copy with WEN 1.
fn broken_promise(asked: &Programming, script: &[u8]) -> Option<String> {
    let mut copy = faults::WrongCopy::new(None);
    let mut bench = Bench::new(&mut copy);
    let started = bench.start(&case_of(Chip { wen: true, ..Chip::fresh(0) }, asked.memory));
    started.and_then(|()| bench.keep_promise(asked, script)).err()
}

/// What is found where the model and a true copy of it have one chip and say one row of records.
fn found_in_agreement(chip: Chip, row: &[u8]) -> Option<String> {
    let mut copy = faults::WrongCopy::new(None);
    let mut bench = Bench::new(&mut copy);
    let started = bench.start(&case_of(chip, LENGTHS[0]));
    started.and_then(|()| bench.find_what_cannot_be((0, row), (0, row))).err()
}

/// Tests the harness: a true copy of the model must pass, each wrong copy must be found out, and so
/// must each wrong script that is run on a true one, and what both sides agree on and cannot be.
fn self_test(seed: u64) -> bool {
    println!("a true copy");
    let mut good = compare(&mut faults::WrongCopy::new(None), seed, SELF_TEST, false).is_ok();
    let (mut planted, mut found) = (0, 0);
    for (number, words) in faults::all_faults().enumerate() {
        println!("\nfault {number}: {words}");
        let mut copy = faults::WrongCopy::new(Some(number));
        let difference = compare(&mut copy, seed, SELF_TEST, true).err();
        planted += 1;
        found += usize::from(is_found(difference, faults::words_begin(number)));
    }
    for (words, asked, script) in wrong_writer::wrong_scripts() {
        println!("\nfault {planted}: in a script, {words}");
        let difference = broken_promise(&asked, &script);
        println!("{}", difference.as_deref().unwrap_or("the promise is kept"));
        planted += 1;
        found += usize::from(is_found(difference, promise::DIFFERENCE));
    }
    let in_the_model = format!("{}: the model's", enable::DIFFERENCE);
    for (words, chip, row, wrong) in wrong_enable::agreements() {
        let name = if wrong { format!("fault {planted}") } else { "no fault".to_string() };
        println!("\n{name}: both sides agree on {words}");
        let difference = found_in_agreement(chip, row);
        println!("{}", difference.as_deref().unwrap_or("nothing is found"));
        good &= wrong || difference.is_none();
        planted += usize::from(wrong);
        found += usize::from(wrong && is_found(difference, &in_the_model));
    }
    println!("\n{found} of {planted} planted faults found");
    good && found == planted
}

/// A number on the command line, or what stands for it.
fn number(word: Option<&String>, otherwise: u64) -> Result<u64, String> {
    word.map_or(Ok(otherwise), |word| word.parse().map_err(|_| format!("{word} is no number")))
}

/// Does what the command line asks for and says whether all is well.
fn compare_as_asked(words: &[String]) -> Result<bool, String> {
    let split = words.iter().position(|word| word == "--").unwrap_or(words.len());
    let (asked, rest) = (&words[..split], words.get(split + 1..).unwrap_or(&[]));
    let mode = asked.first().map_or("quick", String::as_str);
    let (events, seed) = match mode {
        "quick" => (QUICK, number(asked.get(1), 1)?),
        "long" => (number(asked.get(1), 1)? * 1_000_000, number(asked.get(2), 1)?),
        "self" => return Ok(self_test(number(asked.get(1), 1)?)),
        _ => return Err(format!("{mode} is none of quick, long and self")),
    };
    let [shared, command @ ..] = rest else { return Err("no library process".to_string()) };
    println!("seed {seed}");
    let mut library = library::Library::new(shared, command)?;
    Ok(compare(&mut library, seed, events, false).is_ok())
}

/// The command line: quick [SEED], long MILLIONS [SEED] or self [SEED]; then, for the first two,
/// `--`, the shared file, and the command that starts the library process over it.
fn main() -> ExitCode {
    let words: Vec<String> = std::env::args().skip(1).collect();
    match compare_as_asked(&words) {
        Ok(true) => ExitCode::SUCCESS,
        Ok(false) => ExitCode::from(1),
        Err(error) => {
            eprintln!("compare: {error}");
            ExitCode::from(2)
        }
    }
}
