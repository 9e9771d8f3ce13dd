//! Plays the run file that is named on the command line, or the one on standard input, and prints the report.

mod queue_bench;

use std::io::{self, Read, Write};
use std::{env, fs};

fn main() -> io::Result<()> {
    let file = match env::args_os().nth(1) {
        Some(name) => fs::read(name)?,
        None => {
            let mut file = Vec::new();
            io::stdin().read_to_end(&mut file)?;
            file
        }
    };
    io::stdout().write_all(&queue_bench::report(&file))
}

#[cfg(test)]
mod tests {
    use super::queue_bench::{play, report};

    const WORKED: &[u8] = include_bytes!("../../crates/queue_bench/stdin");
    const PRINTED: &[u8] = include_bytes!("../../crates/queue_bench/stdout");

    #[test]
    fn plays_the_worked_file() {
        assert_eq!(report(WORKED), PRINTED);
    }

    #[test]
    fn tells_why_there_is_no_report() {
        assert_eq!(report(b""), b"refused file 10 0\n");
        assert_eq!(play(WORKED, &mut [1; 40]), Some(&b"refused report 14 39\n"[..]));
    }

    #[test]
    fn leaves_a_short_area_zero() {
        let mut area = [1; 20];
        assert_eq!(play(WORKED, &mut area), None);
        assert_eq!(area, [0; 20]);
    }

    #[test]
    fn takes_empty_slices() {
        assert_eq!(play(&[], &mut []), None);
    }
}
