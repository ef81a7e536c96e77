//! Turns the text form of a script, which `text.rs` describes, into its bytes, from standard input
//! to standard output.
//!
//! Bad text gives no bytes, one line on standard error (`line N: reason`) and exit status 1.

mod kind;
mod text;

use std::io::{self, Read, Write};
use std::process::ExitCode;
use text::{script_of_text, text_of_input};

/// Reads the whole text and writes its script, all of it or nothing.
fn convert() -> Result<(), String> {
    let mut input = Vec::new();
    io::stdin().read_to_end(&mut input).map_err(|error| format!("cannot read: {error}"))?;
    let script = script_of_text(text_of_input(&input)?)?;
    let mut output = io::stdout().lock();
    let written = output.write_all(&script).and_then(|()| output.flush());
    written.map_err(|error| format!("cannot write: {error}"))
}

/// Converts, or says on one line why not.
fn main() -> ExitCode {
    match convert() {
        Ok(()) => ExitCode::SUCCESS,
        Err(reason) => {
            eprintln!("{reason}");
            ExitCode::FAILURE
        }
    }
}
