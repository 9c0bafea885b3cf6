//! Text logs, whole, cut and spoiled, through the program and through the reference.

use crate::coverage::Coverage;
use crate::random::Random;
use crate::streams::Stream;
use songpigeon_reference::text::run;
use std::fs::{self, File};
use std::path::Path;
use std::process::Command;

fn log(random: &Random) -> Vec<u8> {
    let mut stream = Stream::new(random);
    let mut time = random.pick(&[0, random.below(1 << 40), (1 << 62) - random.below(1 << 30)]);
    let mut log = format!("{}\t-\n", time);
    for _ in 0..random.below(60) {
        time = match random.below(60) {
            0..=4 => time,
            5..=9 => time + random.below(60_000_000),
            10 if random.once_in(5) => time.saturating_sub(1),
            _ => time + random.below(3_000),
        };
        if random.once_in(5) {
            log += &format!("{}\t-\n", time);
        } else {
            let hex: String = stream.packet(random).iter().map(|byte| format!("{:02x}", byte)).collect();
            log += &format!("{}\t{}\n", time, hex);
        }
    }
    log.into_bytes()
}

fn spoil(log: &mut Vec<u8>, random: &Random) {
    let place = random.size(log.len());
    match random.below(8) {
        0 | 1 => log.truncate(place),
        2 => log[place] = random.pick(&[b'\n', b'\r', b'\t', b'-', b' ', b'0', b'F', b'g', 0, 0xFF, random.byte()]),
        3 => log.insert(place, random.pick(&[b'\n', b'\r', b'\t', b'-', b'0', b'9', random.byte()])),
        4 => {
            log.remove(place);
        }
        5 => {
            // a time of many digits
            let n = random.pick(&[1, 18, 19, 20, 21, 40, 5_000]);
            log.splice(0..0, (0..n).map(|_| b'9'));
        }
        _ => {}
    }
}

/// What is said on standard error: the refused line, if there is one.
fn said(text: &str) -> String {
    let words: Vec<&str> = text.lines().last().unwrap_or("").split('\t').collect();
    match words[..] {
        ["line", n, "refused", number] => {
            let meaning = match number {
                "4" => "time above 2^62",
                "6" => "time below the one before",
                "8" => "malformed line",
                other => panic!("no log is refused with {}", other),
            };
            format!("tsevents: line {} refused with {}: {}\n", n, number, meaning)
        }
        _ => String::new(),
    }
}

/// One log through both; the program reads it from a file in `folder`.
pub fn round(program: &Path, folder: &Path, random: &Random, seen: &mut Coverage) -> Result<(), String> {
    let mut log = log(random);
    spoil(&mut log, random);
    let mut expected = Vec::new();
    run(&log[..], &mut expected).map_err(|e| e.to_string())?;
    let file = folder.join("log");
    fs::write(&file, &log).map_err(|e| e.to_string())?;
    let stdin = File::open(&file).map_err(|e| e.to_string())?;
    let output = Command::new(program).stdin(stdin).output().map_err(|e| e.to_string())?;
    if output.stdout != expected {
        let kept = folder.join(format!("differs-{}", random.number()));
        fs::write(&kept, &log).map_err(|e| e.to_string())?;
        return Err(format!("{} prints another text for {}", program.display(), kept.display()));
    }
    let text = String::from_utf8_lossy(&expected);
    if String::from_utf8_lossy(&output.stderr) != said(&text) || !output.status.success() {
        return Err(format!("{} says {:?} on {:?}", program.display(), output, text));
    }
    seen.met(match text.lines().last().and_then(|line| line.split("\trefused\t").nth(1)) {
        Some(number) => format!("text refused {}", number),
        None => "text whole".to_string(),
    });
    Ok(())
}
