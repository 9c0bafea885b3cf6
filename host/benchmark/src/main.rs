//! The product beside ordinary Rust: `benchmark [--rounds N] [--packets N] [--tsevents PROGRAM]`; or `benchmark --write
//! FILE [--packets N]`, which writes a stream as common multiplexers do, for other programs to read.
//!
//! Both judge the same packets in one process, in rounds that alternate; a line gives the time for a packet of each and
//! the ratio (product by reference: below 1 the product is faster), each as the median with the least and the greatest
//! over the rounds. Then the same for CRC_32, as reading test data sections of 4,096 bytes shows it, and, with a
//! program, for text.

mod rounds;
mod streams;
mod text;

use rounds::{alternate, compare, opaque, Clock};
use songpigeon::lent;
use songpigeon_reference::{probe, testdata, Event};
use std::path::PathBuf;
use std::{env, fs, process};
use streams::Stream;

struct Options {
    rounds: usize,
    packets: usize,
    program: Option<PathBuf>,
    file: Option<PathBuf>,
}

fn options() -> Options {
    let mut options = Options { rounds: 9, packets: 1_000_000, program: None, file: None };
    let words: Vec<String> = env::args().skip(1).collect();
    for pair in words.chunks(2) {
        let value = pair.get(1).map_or("", String::as_str);
        match (pair[0].as_str(), value.parse::<usize>()) {
            ("--rounds", Ok(n)) => options.rounds = n.max(1),
            ("--packets", Ok(n)) => options.packets = n.max(1),
            ("--tsevents", _) => options.program = Some(PathBuf::from(value)),
            ("--write", _) => options.file = Some(PathBuf::from(value)),
            _ => {
                eprintln!("benchmark [--rounds N] [--packets N] [--tsevents PROGRAM] [--write FILE]");
                process::exit(2);
            }
        }
    }
    options
}

/// All packets of a stream by the product: the number of events.
fn by_product(stream: &Stream) -> usize {
    let (mut times, mut words) = ([0; lent::TIMES], [0; lent::WORDS]);
    let mut counters = vec![0; lent::COUNTERS];
    let mut memory = Box::new([0; lent::MEMORY]);
    let mut numbers = [0; lent::NUMBERS];
    let mut events = [lent::Event::default(); lent::EVENT_ROOM];
    lent::open(&mut times, &mut words, 0, &mut counters);
    let mut n = 0;
    for (time, packet) in stream.packets() {
        n +=
            lent::packet(&mut times, &mut words, time, packet, &mut counters, &mut memory, &mut numbers, &mut events).n;
    }
    n
}

/// The same by the reference.
fn by_reference(stream: &Stream) -> usize {
    let mut counters = vec![0; probe::COUNTERS];
    let mut memory = Box::new([0; lent::MEMORY]);
    let mut events = [Event::default(); probe::EVENT_ROOM];
    let mut state = probe::open(0, &mut counters).state;
    let mut n = 0;
    for (time, packet) in stream.packets() {
        n += probe::packet(&mut state, &mut memory, time, packet, &mut counters, &mut events).unwrap_or(0);
    }
    n
}

fn packets(options: &Options) {
    println!("packets ({} a round), ns for each: product, reference, ratio", options.packets);
    for programmes in [0, 8, 16] {
        for share in [0, 1, 3, 5] {
            let name = format!("{:>2} programmes, {} % tables", programmes, share);
            beside(options, &name, &Stream::new(options.packets, share, programmes, false));
            if share > 0 {
                beside(options, "   with adaptation fields", &Stream::new(options.packets, share, programmes, true));
            }
        }
    }
    beside(options, "3.4 % PAT and 3.4 % PMT", &Stream::common(options.packets));
    for programmes in [1, 8, 16] {
        let name = format!("PAT of {:>2} programmes alone", programmes);
        beside(options, &name, &Stream::pats(options.packets / 10, programmes));
    }
}

/// One stream by both.
fn beside(options: &Options, name: &str, stream: &Stream) {
    assert_eq!(by_product(stream), by_reference(stream), "the two give other events");
    let times = alternate(Clock::Processor, options.rounds, || by_product(stream), || by_reference(stream));
    compare(name, stream.packets().count(), &times);
}

fn crc(options: &Options) {
    const SECTIONS: usize = 2_000;
    let section = streams::test_data();
    assert!(testdata::read(&section).is_ok());
    assert!(songpigeon::testdata::read(&section).is_ok());
    let times = alternate(
        Clock::Processor,
        options.rounds,
        || (0..SECTIONS).filter(|_| songpigeon::testdata::read(opaque(&section[..])).is_ok()).count(),
        || (0..SECTIONS).filter(|_| testdata::read(opaque(&section[..])).is_ok()).count(),
    );
    println!("CRC_32 (test data sections of 4,096 bytes read), ns for each byte: product, reference, ratio");
    compare("test data section", SECTIONS * section.len(), &times);
}

fn main() {
    let options = options();
    if let Some(file) = &options.file {
        if let Err(what) = fs::write(file, Stream::common(options.packets).bytes()) {
            eprintln!("{}: {}", file.display(), what);
            process::exit(1);
        }
        return;
    }
    packets(&options);
    crc(&options);
    if let Some(program) = &options.program {
        if let Err(what) = text::run(program, options.rounds) {
            eprintln!("{}", what);
            process::exit(1);
        }
    }
}
