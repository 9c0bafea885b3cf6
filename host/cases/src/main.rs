//! Writes the kept cases of `tests/tsevents` and `tests/host`: `cargo run -p songpigeon-cases -- ../tests`.
//!
//! A case is a log, a sentence that says why, and the events that the paper gives for it, written here by hand beside
//! the log. Nothing is written unless the reference agrees with every one of them.
#![forbid(unsafe_code)]

mod continuity;
mod list;
mod night;
mod sections;
mod streams;
mod sync;
mod text;
mod watches;

use songpigeon_reference::streams::Packet;
use songpigeon_reference::text::run;
use std::path::Path;
use std::{env, fs, io, process};

/// Lines of a log.
#[derive(Clone, Default)]
pub struct Log(Vec<u8>);

impl Log {
    /// The first line: it opens.
    pub fn open(time: u64) -> Log {
        Log::default().clock(time)
    }

    pub fn clock(self, time: u64) -> Log {
        self.raw(&format!("{}\t-\n", time))
    }

    pub fn packet(self, time: u64, packet: &Packet) -> Log {
        self.raw(&format!("{}\t{}\n", time, packet.hex()))
    }

    /// Packets one after the other, at the times from `time` on.
    pub fn packets(self, time: u64, packets: &[Packet]) -> Log {
        (time..).zip(packets).fold(self, |log, (t, p)| log.packet(t, p))
    }

    /// Bytes as they are.
    pub fn raw(mut self, bytes: &str) -> Log {
        self.0.extend(bytes.bytes());
        self
    }
}

pub struct Case {
    name: &'static str,
    why: &'static str,
    stdin: Vec<u8>,
    stdout: String,
}

/// The printed text: the header, then each line, its columns parted by tabs.
fn printed(lines: &[&str]) -> String {
    let mut text = String::from("time\tfault\tcause\tid\n");
    for line in lines {
        text += &line.replace(' ', "\t");
        text += "\n";
    }
    text
}

pub fn case(name: &'static str, why: &'static str, log: Log, lines: &[&str]) -> Case {
    Case { name, why, stdin: log.0, stdout: printed(lines) }
}

fn by_reference(stdin: &[u8]) -> String {
    let mut out = Vec::new();
    run(stdin, &mut out).expect("memory can be written");
    String::from_utf8(out).expect("the text is ASCII")
}

fn write(root: &Path, case: &Case) -> io::Result<()> {
    let place = root.join(case.name);
    fs::create_dir_all(&place)?;
    fs::write(place.join("stdin"), &case.stdin)?;
    fs::write(place.join("stdout"), &case.stdout)?;
    fs::write(place.join("why"), format!("{}\n", case.why))
}

/// One log that is cut behind each of its bytes: `cuts` has, for each range of lengths, the file with what is printed.
fn write_cuts(root: &Path) -> io::Result<bool> {
    let (stdin, rows) = text::cuts();
    let place = root.join("cut-at-every-byte");
    fs::create_dir_all(&place)?;
    let mut cuts = String::new();
    let mut agrees = true;
    let mut from = 0;
    for (length, name, lines) in rows {
        let stdout = printed(lines);
        agrees &= (from..from + length).all(|n| by_reference(&stdin.0[..n]) == stdout);
        cuts += &format!("{} {} stdout-{}\n", from, from + length - 1, name);
        fs::write(place.join(format!("stdout-{}", name)), stdout)?;
        from += length;
    }
    fs::write(place.join("stdin"), &stdin.0)?;
    fs::write(place.join("cuts"), cuts)?;
    fs::write(
        place.join("why"),
        "A last line without LF is malformed, wherever the log is cut; whole lines before it count.\n",
    )?;
    Ok(agrees && from == stdin.0.len() + 1)
}

fn main() -> io::Result<()> {
    let root = env::args().nth(1).unwrap_or_else(|| "tests".to_string());
    let parts = [
        text::cases(),
        watches::cases(),
        sync::cases(),
        continuity::cases(),
        sections::cases(),
        list::cases(),
        night::cases(),
    ];
    let cases: Vec<Case> = parts.into_iter().flatten().collect();
    let mut differ = 0;
    for case in &cases {
        let found = by_reference(&case.stdin);
        if found != case.stdout {
            differ += 1;
            eprintln!("{}: the paper gives\n{}the reference gives\n{}", case.name, case.stdout, found);
        }
        if cases.iter().filter(|other| other.name == case.name).count() != 1 {
            differ += 1;
            eprintln!("{}: two cases have this name", case.name);
        }
    }
    if differ > 0 {
        process::exit(1);
    }
    if !streams::write(&Path::new(&root).join("host"))?.is_empty() {
        process::exit(1);
    }
    let root = &Path::new(&root).join("tsevents");
    for case in &cases {
        write(root, case)?;
    }
    if !write_cuts(root)? {
        eprintln!("cut-at-every-byte: the reference gives another text");
        process::exit(1);
    }
    println!("{} cases", cases.len() + 1);
    Ok(())
}
