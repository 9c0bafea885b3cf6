//! Streams of packets for the example hosts, as if they came at a constant rate: packet n, from 1, arrives at n * 188 * 8 *
//! 27,000,000 / rate ticks, whole ticks counted, behind an opening at 0. The events are worked out beside each stream, from
//! the paper; a host ends with the last packet, and so says nothing of the time behind it.

use crate::printed;
use songpigeon_reference::probe::{self, Event};
use songpigeon_reference::streams::*;
use std::path::Path;
use std::{fs, io};

struct Stream {
    name: &'static str,
    /// bits a second
    rate: u64,
    bytes: Vec<u8>,
    lines: Vec<&'static str>,
}

fn bytes(packets: &[Packet]) -> Vec<u8> {
    packets.iter().flat_map(|packet| packet.bytes()).collect()
}

fn damaged() -> Vec<u8> {
    bytes(&[
        Packet::sections(PAT_PID, 0, &[&pat(&[(1, 0x0100)])]),
        Packet::sections(0x0100, 0, &[&pmt(1)]),
        Packet::on(0x0123, 0).first(0x46),
        Packet::on(0x0100, 5).error(),
        Packet::on(0x0100, 1).scrambled(2),
        Packet::sections(SDT_PID, 0, &[&torn(sdt())]),
    ])
}

/// A PAT with two programmes and the PMT of each, then the first one's PMT alone, one packet in a tenth of a second.
fn slow() -> Vec<u8> {
    let mut packets = vec![
        Packet::sections(PAT_PID, 0, &[&pat(&[(1, 0x0100), (2, 0x0101)])]),
        Packet::sections(0x0100, 0, &[&pmt(1)]),
        Packet::sections(0x0101, 0, &[&pmt(2)]),
    ];
    packets.extend((1..8).map(|k| Packet::sections(0x0100, k, &[&pmt(1)])));
    bytes(&packets)
}

/// 1.4 seconds in which PAT and PMT come every 0.2 s, and at whose end nothing is late.
fn healthy() -> Vec<u8> {
    let pair = |k: u8| [Packet::sections(PAT_PID, k, &[&pat(&[(1, 0x0100)])]), Packet::sections(0x0100, k, &[&pmt(1)])];
    let packets: Vec<Packet> = (0..7).flat_map(pair).collect();
    bytes(&packets)
}

fn streams() -> Vec<Stream> {
    let mut cut = damaged();
    cut.pop();
    vec![
        // 1,068.63 ticks a packet: the third arrives at 3,205, the sixth at 6,411
        Stream {
            name: "damaged",
            rate: 38_000_000,
            bytes: damaged(),
            lines: vec!["3205 000d 0 0123", "4274 0011 0 0100", "5343 000f 3 0100", "6411 0012 0 0011"],
        },
        // the last packet has lost its last byte
        Stream {
            name: "cut",
            rate: 38_000_000,
            bytes: cut,
            lines: vec!["3205 000d 0 0123", "4274 0011 0 0100", "5343 000f 3 0100", "refused 1"],
        },
        Stream { name: "empty", rate: 38_000_000, bytes: Vec::new(), lines: vec![] },
        // 2,700,000 ticks a packet. The PAT of the first is half a second old at 16,200,000, which the seventh packet, at
        // 18,900,000, is the first to exceed; programme 2's PMT, of the third packet, at 21,600,000, which the eighth just
        // reaches and the ninth exceeds. Programme 1's comes in every packet.
        Stream {
            name: "slow",
            rate: 15_040,
            bytes: slow(),
            lines: vec!["16200000 0009 1 0000", "21600000 000f 1 0002"],
        },
        // a healthy stream, at whose end nothing is said
        Stream { name: "healthy", rate: 15_040, bytes: healthy(), lines: vec![] },
    ]
}

/// The lines by the reference.
fn by_reference(stream: &Stream) -> String {
    let mut counters = vec![0; probe::COUNTERS];
    let mut memory = Box::new([0; probe::MEMORY]);
    let mut events = [Event::default(); probe::EVENT_ROOM];
    let mut state = probe::open(0, &mut counters).state;
    let mut lines = Vec::new();
    for (k, packet) in stream.bytes.chunks(188).enumerate() {
        let time = (k as u64 + 1) * 188 * 8 * 27_000_000 / stream.rate;
        match probe::packet(&mut state, &mut memory, time, packet, &mut counters, &mut events) {
            Ok(n) => lines
                .extend(events[..n].iter().map(|e| format!("{} {:04x} {} {:04x}", e.stamp, e.fault, e.cause, e.id))),
            Err(refusal) => {
                lines.push(format!("refused {}", refusal));
                break;
            }
        }
    }
    printed(&lines.iter().map(String::as_str).collect::<Vec<_>>())
}

/// Writes the streams; the names of those with which the reference does not agree.
pub fn write(root: &Path) -> io::Result<Vec<&'static str>> {
    let mut differ = Vec::new();
    for stream in streams() {
        let stdout = printed(&stream.lines);
        if by_reference(&stream) != stdout {
            differ.push(stream.name);
            eprintln!("{}: the paper gives\n{}the reference gives\n{}", stream.name, stdout, by_reference(&stream));
            continue;
        }
        let place = root.join(stream.name);
        fs::create_dir_all(&place)?;
        fs::write(place.join("stream"), &stream.bytes)?;
        fs::write(place.join("rate"), format!("{}\n", stream.rate))?;
        fs::write(place.join("stdout"), stdout)?;
    }
    Ok(differ)
}
