//! The floor: the oracle's timed runs with the crate as `oracle/build-floor` lays
//! it out, with nothing tested.

// The setups are timed by the oracle alone.
#[allow(dead_code)]
#[path = "../../src/speed.rs"]
mod speed;

use std::io::{self, BufWriter, Write};
use std::process::ExitCode;

const USAGE: &str = "\
usage: floor speed RUN SIZE RECORDS CALLS
                 what `oracle speed` prints for the same, sooner";

fn main() -> ExitCode {
    let arguments: Vec<String> = std::env::args().skip(1).collect();
    let Some([run, size, records, calls]) = numbers(&arguments) else {
        eprintln!("{USAGE}");
        return ExitCode::from(2);
    };
    let mut out = BufWriter::new(io::stdout().lock());
    match speed::write(&mut out, run, size, records, calls).and_then(|()| out.flush()) {
        Ok(()) => ExitCode::SUCCESS,
        Err(error) => {
            eprintln!("floor: {error}");
            ExitCode::FAILURE
        }
    }
}

/// The numbers of the one command, unless the arguments are something else.
fn numbers(arguments: &[String]) -> Option<[u32; 4]> {
    let [command, run, size, records, calls] = arguments else {
        return None;
    };
    if command != "speed" {
        return None;
    }
    let number = |word: &String| word.parse().ok();
    Some([number(run)?, number(size)?, number(records)?, number(calls)?])
}
