//! Plays drawn run files by the proved bench and by the second one, and compares the answers and every byte of the
//! areas.
//!
//! `compare SEED COUNT` takes the files 0 to COUNT - 1 of the seed's series (1 and 20,000 if not said);
//! `compare SEED INDEX only` takes that one file.

mod bench;
mod files;
mod host;

use files::Random;
use std::collections::BTreeMap;
use std::fs::File;
use std::io::{Seek, SeekFrom, Write};
use std::process::ExitCode;
use std::{env, fs, io};

/// Every report fits in an area of this length.
const USUAL_AREA: usize = 65_536;
/// How many bytes behind the area are watched.
const GUARD: usize = 64;
/// The areas are filled with these before the call. They differ, so that a byte that neither of the two wrote shows.
const HOST_FILLING: u8 = 0xA5;
const SECOND_FILLING: u8 = 0x5A;

struct Difference {
    index: u64,
    area_length: usize,
    host: i64,
    second: i64,
    what: String,
}

/// What a bench made of a file: its answer, the area, and the guard behind the area.
struct Outcome {
    answer: i64,
    bytes: Vec<u8>,
}

impl Outcome {
    fn of(play: fn(&[u8], &mut [u8]) -> i64, file: &[u8], area_length: usize, filling: u8) -> Outcome {
        let mut bytes = vec![filling; area_length + GUARD];
        let answer = play(file, &mut bytes[..area_length]);
        Outcome { answer, bytes }
    }

    fn area(&self) -> &[u8] {
        &self.bytes[..self.bytes.len() - GUARD]
    }

    fn guard(&self) -> &[u8] {
        &self.bytes[self.bytes.len() - GUARD..]
    }

    /// A report, or the words of the refusal up to its number.
    fn name(&self) -> String {
        if self.answer < 0 {
            return format!("answer {}", self.answer);
        }
        let line = self.area().split(|&byte| byte == b'\n').next().unwrap_or(&[]);
        match String::from_utf8_lossy(line).split(' ').collect::<Vec<_>>()[..] {
            ["refused", layer, number, _] => format!("refused {layer} {number}"),
            _ => "report".to_string(),
        }
    }
}

/// How often each outcome was met.
type Tally = BTreeMap<String, u64>;

/// Plays the file in one area by both; answers the text's length, or what differs.
fn compare_in_area(index: u64, file: &[u8], area_length: usize, tally: &mut Tally) -> Result<usize, Difference> {
    let host = Outcome::of(host::play, file, area_length, HOST_FILLING);
    let second = Outcome::of(bench::play, file, area_length, SECOND_FILLING);
    if let Some(what) = difference(&host, &second) {
        return Err(Difference { index, area_length, host: host.answer, second: second.answer, what });
    }
    *tally.entry(second.name()).or_insert(0) += 1;
    Ok(second.answer.max(0) as usize)
}

fn difference(host: &Outcome, second: &Outcome) -> Option<String> {
    if host.area() != second.area() {
        let place = host.area().iter().zip(second.area()).position(|(one, other)| one != other)?;
        let (one, other) = (host.area()[place], second.area()[place]);
        return Some(format!("first differing byte of the area: {place} (host {one:#04x}, second {other:#04x})"));
    }
    if host.guard().iter().any(|&byte| byte != HOST_FILLING) {
        return Some("the host wrote behind the area".to_string());
    }
    if host.answer != second.answer {
        return Some("the areas are the same, the answers differ".to_string());
    }
    None
}

/// Plays the file in the usual area, and many files in a second area, which often is too short.
fn compare_file(seed: u64, index: u64, file: &[u8], tally: &mut Tally) -> Result<(), Difference> {
    let text_length = compare_in_area(index, file, USUAL_AREA, tally)?;
    // A stream of its own, so that the lengths are not tied to what the file drew.
    let mut random = Random::of(!seed, index);
    if random.percent(50) {
        compare_in_area(index, file, drawn_area_length(&mut random, text_length), tally)?;
    }
    Ok(())
}

/// Lengths about which something changes, and others up to past the text.
fn drawn_area_length(random: &mut Random, text_length: usize) -> usize {
    match random.below(16) {
        0 => random.below(2),
        1..=3 => random.between(19, 22),
        4 => text_length,
        5..=6 => text_length - 1,
        7 => text_length + 1,
        8..=9 => random.below(64),
        10..=14 => random.below(text_length + 2),
        _ => random.below(2 * USUAL_AREA),
    }
}

fn compare_files(seed: u64, first: u64, count: u64, tally: &mut Tally) -> Result<(), Difference> {
    let mut note = File::create("target/second/playing");
    for index in first..first + count {
        note_playing(&mut note, seed, index);
        compare_file(seed, index, &files::run_file(seed, index), tally)?;
        if (index - first + 1) % 100_000 == 0 {
            eprintln!("{} files so far", index - first + 1);
        }
    }
    Ok(())
}

/// Leaves word of the file for the script, in case a call ends the whole process. It is written over the word of the
/// file before, which is never longer. The comparison itself can do without.
fn note_playing(note: &mut io::Result<File>, seed: u64, index: u64) {
    if let Ok(file) = note {
        let _ = file.seek(SeekFrom::Start(0)).and_then(|_| writeln!(file, "{seed} {index} only"));
    }
}

fn tell_difference(seed: u64, difference: &Difference) {
    let Difference { index, area_length, host, second, what } = difference;
    let file = files::run_file(seed, *index);
    println!("difference: seed {seed}, file {index} ({} bytes), area of {area_length} bytes", file.len());
    println!("the host answers {host}, the second implementation {second}");
    println!("{what}");
    let kept = fs::create_dir_all("target").and_then(|()| fs::write("target/difference.run", file));
    match kept {
        Ok(()) => println!("the file is in target/difference.run"),
        Err(fault) => println!("the file could not be written to target/difference.run: {fault}"),
    }
    println!("to repeat: scripts/compare {seed} {index} only");
}

/// The seed, the first file's index and how many files.
fn arguments() -> Option<(u64, u64, u64)> {
    let words: Vec<String> = env::args().skip(1).collect();
    let number = |index: usize, usual: u64| words.get(index).map_or(Some(usual), |word| word.parse().ok());
    match words.len() {
        0..=2 => Some((number(0, 1)?, 0, number(1, 20_000)?)),
        3 if words[2] == "only" => Some((number(0, 1)?, number(1, 0)?, 1)),
        _ => None,
    }
}

fn main() -> ExitCode {
    let (seed, first, count) = match arguments() {
        Some(settings) => settings,
        None => {
            eprintln!("usage: compare [SEED [COUNT]], or compare SEED INDEX only");
            return ExitCode::from(2);
        }
    };
    let mut tally = Tally::new();
    if let Err(difference) = compare_files(seed, first, count, &mut tally) {
        tell_difference(seed, &difference);
        return ExitCode::from(1);
    }
    println!("calls by outcome, seed {seed}:");
    for (outcome, times) in &tally {
        println!("{times:>9}  {outcome}");
    }
    println!("{count} {}, 0 differences", if count == 1 { "file" } else { "files" });
    ExitCode::SUCCESS
}
