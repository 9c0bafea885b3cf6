//! Lines of text: `tsevents` beside a plain Rust program that reads the same text and only decodes it.

use crate::rounds::{alternate, compare, Clock};
use crate::streams::Stream;
use std::fs::{self, File};
use std::path::Path;
use std::process::{self, Command, Stdio};
use std::{env, io};

const LINES: usize = 1_000_000;

fn run_on(program: &Path, log: &Path) -> io::Result<()> {
    let status = Command::new(program).stdin(File::open(log)?).stdout(Stdio::null()).status()?;
    if status.success() {
        Ok(())
    } else {
        Err(io::Error::new(io::ErrorKind::Other, format!("{}: {}", program.display(), status)))
    }
}

pub fn run(program: &Path, rounds: usize) -> io::Result<()> {
    let decoder = env::current_exe()?.with_file_name("decode_only");
    let log = env::temp_dir().join(format!("songpigeon-benchmark-{}", process::id()));
    fs::write(&log, Stream::new(LINES, 3, 8, false).text())?;
    run_on(program, &log)?;
    run_on(&decoder, &log)?;
    let times = alternate(
        Clock::Wall,
        rounds,
        || usize::from(run_on(program, &log).is_ok()),
        || usize::from(run_on(&decoder, &log).is_ok()),
    );
    println!("text ({} lines a round), ns for each line: tsevents, decoding alone, ratio", LINES);
    compare("lines", LINES, &times);
    let mut lines: Vec<f64> = times.iter().map(|t| LINES as f64 / t.0.as_secs_f64()).collect();
    lines.sort_by(f64::total_cmp);
    println!("tsevents: {:.2} million lines a second (median)", lines[lines.len() / 2] / 1e6);
    fs::remove_file(&log)
}
