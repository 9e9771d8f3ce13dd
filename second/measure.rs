//! What the proved bench's call costs, beside the second implementation: instructions, counted by callgrind, and time.
//!
//! `measure` prints the tables; `measure BENCH FILE` makes one counted call and is what callgrind is started with.

mod bench;
mod files;
mod host;

use std::process::{Command, ExitCode};
use std::time::{Duration, Instant};
use std::{env, fs, io};

const AREA_LENGTH: usize = 65_536;
const WORKED_FILE: &str = "crates/list_run/stdin";
const VARIANTS: u64 = 8;

/// Callgrind counts a repeated store once for each byte, so the C library is told to fill memory without it.
const NO_REPEATS: &str = "glibc.cpu.x86_rep_stosb_threshold=1000000000:glibc.cpu.x86_rep_movsb_threshold=1000000000";

type Play = fn(&[u8], &mut [u8]) -> i64;

/// The file's name, and what it is for.
const FILES: [(&str, &str); 4] = [
    ("worked", "the worked file"),
    ("long", "1 slot, 8 threads, nearly all schedule"),
    ("record", "64 slots, 4 threads, nearly full record"),
    ("threads", "64 slots, 64 threads"),
];

/// The long schedule's file, cut down to quarters of the schedule.
const GROWTH: [&str; 4] = ["long-0", "long-1", "long-2", "long"];

fn file_named(name: &str, variant: u64) -> io::Result<Vec<u8>> {
    let parts = match name {
        "worked" => return fs::read(WORKED_FILE),
        "long-0" => files::long_schedule(0, variant),
        "long-1" => files::long_schedule(1, variant),
        "long-2" => files::long_schedule(2, variant),
        "long" => files::long_schedule(4, variant),
        "record" => files::nearly_full_record(variant),
        "threads" => files::many_threads(variant),
        _ => return Err(io::Error::new(io::ErrorKind::NotFound, format!("no file is named {name}"))),
    };
    Ok(parts.bytes())
}

fn bench_named(name: &str) -> io::Result<Play> {
    match name {
        "host" => Ok(host::play),
        "second" => Ok(bench::play),
        _ => Err(io::Error::new(io::ErrorKind::NotFound, format!("no bench is named {name}"))),
    }
}

/// Callgrind counts inside of this function only, so it may not be merged into its caller.
#[no_mangle]
#[inline(never)]
fn counted_call(play: Play, file: &[u8], area: &mut [u8]) -> i64 {
    play(file, area)
}

fn call_once(bench: &str, file: &str) -> io::Result<()> {
    let (play, file) = (bench_named(bench)?, file_named(file, 0)?);
    let mut area = vec![0; AREA_LENGTH];
    // What only a process's first call costs is not counted.
    let first = play(&file, &mut area);
    let second = counted_call(play, &file, &mut area);
    if first != second {
        return Err(fault("two calls for one file gave different answers"));
    }
    Ok(())
}

fn fault(what: &str) -> io::Error {
    io::Error::new(io::ErrorKind::Other, what)
}

/// How many instructions one call has, in a process of its own.
fn instructions(bench: &str, file: &str) -> io::Result<f64> {
    let output = Command::new("valgrind")
        .args(["--tool=callgrind", "--callgrind-out-file=/dev/null", "--toggle-collect=counted_call"])
        .arg(env::current_exe()?)
        .args([bench, file])
        .env("GLIBC_TUNABLES", NO_REPEATS)
        .output()?;
    let told = String::from_utf8_lossy(&output.stderr);
    let count = told.lines().find_map(|line| line.split("Collected :").nth(1)?.trim().parse().ok());
    match count {
        Some(count) if output.status.success() && count > 0.0 => Ok(count),
        _ => Err(fault(&format!("callgrind counted nothing:\n{told}"))),
    }
}

/// The time of one call in nanoseconds, over the variants of a file: the best of several samples, each long enough
/// for the clock. Of a single file the processor would learn the branches by heart, of a short one sooner than of a
/// long one.
fn nanoseconds(play: Play, name: &str) -> io::Result<f64> {
    let variants = (0..VARIANTS).map(|variant| file_named(name, variant)).collect::<io::Result<Vec<_>>>()?;
    let mut area = vec![0; AREA_LENGTH];
    let mut rounds = 1;
    while sample(play, &variants, &mut area, rounds) < Duration::from_millis(20) {
        rounds *= 2;
    }
    let best = (0..9).map(|_| sample(play, &variants, &mut area, rounds)).min().unwrap_or_default();
    Ok(best.as_nanos() as f64 / (f64::from(rounds) * VARIANTS as f64))
}

fn sample(play: Play, variants: &[Vec<u8>], area: &mut [u8], rounds: u32) -> Duration {
    let begin = Instant::now();
    for _ in 0..rounds {
        for file in variants {
            counted_call(play, file, area);
        }
    }
    begin.elapsed()
}

/// What a call of each of the two costs.
struct Cost {
    host: f64,
    second: f64,
}

impl Cost {
    fn in_instructions(file: &str) -> io::Result<Cost> {
        Ok(Cost { host: instructions("host", file)?, second: instructions("second", file)? })
    }

    fn in_nanoseconds(file: &str) -> io::Result<Cost> {
        Ok(Cost { host: nanoseconds(host::play, file)?, second: nanoseconds(bench::play, file)? })
    }

    fn ratio(&self) -> f64 {
        self.host / self.second
    }
}

/// How many entries of the record the file's report has; none if the file is refused.
fn entries(file: &[u8]) -> usize {
    let mut area = vec![0; AREA_LENGTH];
    let length = bench::play(file, &mut area).max(0) as usize;
    area[..length].iter().filter(|&&byte| byte == b'\n').count().saturating_sub(2)
}

fn print_costs() -> io::Result<()> {
    println!("One call in an area of {AREA_LENGTH} bytes; ratios are host to second implementation.");
    println!();
    println!("                          instructions                    microseconds");
    println!("   bytes entries        host      second  ratio        host    second  ratio  file");
    for (name, what) in FILES {
        let file = file_named(name, 0)?;
        let (counted, timed) = (Cost::in_instructions(name)?, Cost::in_nanoseconds(name)?);
        print!("{:>8} {:>7}", file.len(), entries(&file));
        print!(" {:>11} {:>11} {:>6.2}", counted.host, counted.second, counted.ratio());
        println!(" {:>11.2} {:>9.2} {:>6.2}  {what}", timed.host / 1e3, timed.second / 1e3, timed.ratio());
    }
    Ok(())
}

/// The same file with more and more of its schedule: the cost for each further schedule entry should stay the same.
fn print_growth() -> io::Result<()> {
    println!();
    println!("Growth with the schedule: what each schedule entry costs beyond the same file without a schedule.");
    println!();
    println!("                      instructions of an entry   nanoseconds of an entry");
    println!("schedule   entries          host     second          host     second");
    let bare = file_named(GROWTH[0], 0)?;
    let (bare_counted, bare_timed) = (Cost::in_instructions(GROWTH[0])?, Cost::in_nanoseconds(GROWTH[0])?);
    for name in &GROWTH[1..] {
        let file = file_named(name, 0)?;
        let (counted, timed) = (Cost::in_instructions(name)?, Cost::in_nanoseconds(name)?);
        let schedule = (file.len() - bare.len()) as f64;
        print!("{schedule:>8} {:>9}", entries(&file));
        print!(" {:>13.1}", (counted.host - bare_counted.host) / schedule);
        print!(" {:>10.1}", (counted.second - bare_counted.second) / schedule);
        print!(" {:>13.2}", (timed.host - bare_timed.host) / schedule);
        println!(" {:>10.2}", (timed.second - bare_timed.second) / schedule);
    }
    Ok(())
}

fn run() -> io::Result<()> {
    let words: Vec<String> = env::args().skip(1).collect();
    match &words[..] {
        [] => print_costs().and_then(|()| print_growth()),
        [bench, file] => call_once(bench, file),
        _ => Err(fault("usage: measure, or measure BENCH FILE")),
    }
}

fn main() -> ExitCode {
    match run() {
        Ok(()) => ExitCode::SUCCESS,
        Err(fault) => {
            eprintln!("{fault}");
            ExitCode::FAILURE
        }
    }
}
