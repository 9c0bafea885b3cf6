//! A host in Rust: takes a recorded stream of 188-byte packets on standard input, as if it came at a constant rate, and
//! prints its events as `tsevents` does.
//!
//!     host [BITS_A_SECOND] < recording.ts
//!
//! It ends at the last packet: a recording does not say what came behind it. It ends with 0 where the stream was read to
//! its end, 1 where a call was refused, 2 where something failed.

use songpigeon::{lent, Event, Probe, Refusal};
use std::ffi::OsString;
use std::fmt::Display;
use std::io::{self, Read, Write};
use std::path::Path;
use std::process::ExitCode;
use std::{env, fs};

const PACKET: usize = 188;
/// As much of the stream as is read at once: just below 64 KiB.
const BLOCK: usize = 348 * PACKET;
/// 188 bytes at one bit a second, in ticks of 27 MHz.
const PACKET_TICKS: u64 = 188 * 8 * 27_000_000;

/// When each packet of a stream arrives, the opening being at 0.
struct Clock {
    rate: u64,
    time: u64,
    /// what the whole ticks so far leave over, in parts of `rate`
    over: u64,
}

impl Clock {
    fn next(&mut self) -> u64 {
        self.over += PACKET_TICKS % self.rate;
        self.time += PACKET_TICKS / self.rate + self.over / self.rate;
        self.over %= self.rate;
        self.time
    }
}

fn print(out: &mut impl Write, events: &[Event]) -> io::Result<()> {
    for e in events {
        writeln!(out, "{}\t{:04x}\t{}\t{:04x}", e.stamp, e.fault, e.cause, e.id)?;
    }
    Ok(())
}

/// The next packet, or as much of one as the stream still has.
fn read_packet(stream: &mut impl Read, packet: &mut [u8; PACKET]) -> io::Result<usize> {
    let mut length = 0;
    while length < PACKET {
        match stream.read(&mut packet[length..]) {
            Ok(0) => break,
            Ok(n) => length += n,
            Err(e) if e.kind() == io::ErrorKind::Interrupted => {}
            Err(e) => return Err(e),
        }
    }
    Ok(length)
}

/// Judges the stream to its end, or up to the packet that is refused.
fn judge(stream: &mut impl Read, out: &mut impl Write, rate: u64) -> io::Result<Result<(), Refusal>> {
    let mut probe = match Probe::open(0) {
        Ok(probe) => probe,
        Err(refusal) => return Ok(Err(refusal)),
    };
    let mut clock = Clock { rate, time: 0, over: 0 };
    let mut packet = [0; PACKET];
    loop {
        let length = read_packet(stream, &mut packet)?;
        if length == 0 {
            return Ok(Ok(()));
        }
        match probe.packet(clock.next(), &packet[..length]) {
            Ok(events) => print(out, events)?,
            Err(refusal) => return Ok(Err(refusal)),
        }
    }
}

fn run(rate: u64) -> io::Result<Result<(), Refusal>> {
    let mut out = io::BufWriter::new(io::stdout().lock());
    writeln!(out, "time\tfault\tcause\tid")?;
    let judged = judge(&mut io::BufReader::with_capacity(BLOCK, io::stdin().lock()), &mut out, rate)?;
    if let Err(refusal) = judged {
        writeln!(out, "refused\t{}", refusal.0)?;
    }
    out.flush()?;
    Ok(judged)
}

/// Whether a standard stream was closed. Rust then puts /dev/null in its place, open for reading and writing: what is read
/// there is an empty recording, and what is written is lost, so that either would look like a stream without events.
fn was_closed(stream: u32) -> bool {
    let file = fs::read_link(format!("/proc/self/fd/{}", stream));
    let flags = fs::read_to_string(format!("/proc/self/fdinfo/{}", stream)).unwrap_or_default();
    let both_ways = flags.lines().any(|line| line.starts_with("flags:") && line.ends_with('2'));
    both_ways && file.map_or(false, |file| file == Path::new("/dev/null"))
}

/// Says what went wrong; where nobody hears it, the exit status still tells.
fn say(what: &dyn Display) {
    let _ = writeln!(io::stderr(), "host: {}", what);
}

fn main() -> ExitCode {
    let words: Vec<OsString> = env::args_os().skip(1).collect();
    let rate = match &words[..] {
        [] => 38_000_000,
        [rate] => rate.to_str().and_then(|rate| rate.parse().ok()).unwrap_or(0),
        _ => 0,
    };
    if !(1..=1_000_000_000_000).contains(&rate) {
        say(&"usage: host [BITS_A_SECOND] < recording.ts");
        return ExitCode::from(2);
    }
    if lent::version() / 10_000 != lent::VERSION / 10_000 {
        say(&"the library is of another version than the crate");
        return ExitCode::from(2);
    }
    if was_closed(0) || was_closed(1) {
        say(&"standard input or output is closed");
        return ExitCode::from(2);
    }
    match run(rate) {
        Ok(Ok(())) => ExitCode::SUCCESS,
        Ok(Err(refusal)) => {
            say(&refusal);
            ExitCode::from(1)
        }
        Err(error) => {
            say(&error);
            ExitCode::from(2)
        }
    }
}
