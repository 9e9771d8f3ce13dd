//! Plays the run file on standard input and writes the report, or the line of a refusal, to standard output:
//! `rustc --edition 2021 -O second/play.rs -o target/second/play`, then `target/second/play < FILE`.

mod bench;

use std::io::{self, Read, Write};
use std::process::ExitCode;

/// Every report fits in here.
const AREA_LENGTH: usize = 65_536;

fn run() -> io::Result<()> {
    // One byte more than the longest lawful file is enough to tell that a file is too long.
    let mut file = Vec::new();
    io::stdin().lock().take(bench::LONGEST_FILE as u64 + 1).read_to_end(&mut file)?;
    let mut area = vec![0; AREA_LENGTH];
    let length = bench::play(&file, &mut area);
    let text = &area[..length.max(0) as usize];
    let mut output = io::stdout().lock();
    output.write_all(text)?;
    output.flush()
}

fn main() -> ExitCode {
    match run() {
        Ok(()) => ExitCode::SUCCESS,
        Err(fault) => {
            eprintln!("{fault}");
            ExitCode::FAILURE
        }
    }
}
