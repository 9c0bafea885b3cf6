//! The product held against the reference: `differential [--seconds N] [--seed S] [--tsevents PROGRAM]`.
//!
//! Logs, clean and hostile, over the exported calls; states that nobody's calls made; test data sections; severities;
//! and, with a program, text logs. After each call everything is compared. The last line counts the rounds; a round
//! that differs is printed with its seed, and `--seed` of that number begins with it.

mod calls;
mod coverage;
mod random;
mod streams;
mod testdata;
mod text;

use calls::Pair;
use coverage::Coverage;
use random::Random;
use std::path::{Path, PathBuf};
use std::time::{Duration, Instant};
use std::{env, fs, process};
use streams::Stream;

struct Options {
    time: Duration,
    seed: u64,
    program: Option<PathBuf>,
}

fn options() -> Options {
    let mut options = Options { time: Duration::from_secs(30), seed: 1, program: None };
    let words: Vec<String> = env::args().skip(1).collect();
    for pair in words.chunks(2) {
        let value = pair.get(1).map_or("", String::as_str);
        match (pair[0].as_str(), value.parse::<u64>()) {
            ("--seconds", Ok(n)) => options.time = Duration::from_secs(n),
            ("--seed", Ok(n)) => options.seed = n,
            ("--tsevents", _) => options.program = Some(PathBuf::from(value)),
            _ => {
                eprintln!("differential [--seconds N] [--seed S] [--tsevents PROGRAM]");
                process::exit(2);
            }
        }
    }
    options
}

/// Everything once, from one seed: a log of calls, then the rest.
fn round(seed: u64, program: Option<&Path>, folder: &Path, seen: &mut Coverage) -> Result<(), String> {
    let random = &Random::new(seed);
    let start = random.pick(&[0, random.below(1 << 62), 1 << 61, (1 << 62) - random.below(1 << 32)]);
    let mut stream = Stream::new(random);
    let mut pair = Pair::open(start, random)?;
    let forged = random.once_in(2);
    for number in 1..=random.pick(&[20, 300, 2_000]) {
        let called = if forged && random.once_in(10) {
            pair.forged_call(&mut stream, random, seen)
        } else {
            pair.call(&mut stream, random, seen)
        };
        called.map_err(|what| format!("call {}: {}", number, what))?;
    }
    for _ in 0..20 {
        testdata::round(random, seen)?;
        testdata::bytes_round(random, seen)?;
        testdata::descriptors_round(random, seen)?;
        calls::severities(random, seen)?;
    }
    calls::refused_openings(random, seen)?;
    match program {
        Some(program) => text::round(program, folder, random, seen),
        None => Ok(()),
    }
}

fn main() {
    let options = options();
    let folder = env::temp_dir().join(format!("songpigeon-differential-{}", process::id()));
    if let Err(what) = fs::create_dir_all(&folder) {
        eprintln!("{}: {}", folder.display(), what);
        process::exit(2);
    }
    let begun = Instant::now();
    let mut seen = Coverage::default();
    let (mut passed, mut failed) = (0u64, 0u64);
    for seed in options.seed.. {
        if begun.elapsed() >= options.time || failed == 10 {
            break;
        }
        match round(seed, options.program.as_deref(), &folder, &mut seen) {
            Ok(()) => passed += 1,
            Err(what) => {
                failed += 1;
                println!("seed {}: {}", seed, what);
            }
        }
    }
    seen.print();
    for what in seen.missing(options.program.is_some()) {
        failed += 1;
        println!("not met: {}", what);
    }
    if failed == 0 {
        // logs on which the program differs are kept there
        let _ = fs::remove_dir_all(&folder);
    }
    println!("{} passed, {} failed", passed, failed);
    process::exit(i32::from(failed > 0));
}
