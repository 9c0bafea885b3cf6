//! A multiplex of 60 Mbit/s: so many packets in a hundred carry tables, the others pictures and sound, half of them
//! scrambled, one in twenty with a clock reference, one in twenty a null packet. And a file as common multiplexers write
//! it, with PAT and PMT far more often than needed.

use songpigeon_reference::streams::*;
use songpigeon_reference::testdata::{self, Head, Section, Syntax};

/// Ticks of 27 MHz from packet to packet.
const TICKS: u64 = 188 * 8 * 27 / 60;

const HEX: &[u8; 16] = b"0123456789abcdef";

pub struct Stream(Vec<u8>);

impl Stream {
    /// So many packets, numbered from 0 on, each with the next counter of its PID.
    fn counted(packets: usize, packet_at: impl Fn(usize) -> [u8; 188]) -> Stream {
        let mut bytes = Vec::with_capacity(188 * packets);
        let mut counters = [15u8; 8_192];
        for k in 0..packets {
            let mut packet = packet_at(k);
            let pid = usize::from(u16::from_be_bytes([packet[1], packet[2]]) & 0x1FFF);
            counters[pid] = (counters[pid] + 1) & 15;
            packet[3] |= counters[pid];
            bytes.extend(&packet[..]);
        }
        Stream(bytes)
    }

    /// So many packets in a hundred carry tables, each, where `fields` is set, behind an adaptation field of length 0.
    pub fn new(packets: usize, share: usize, programmes: u16, fields: bool) -> Stream {
        let tables = Tables::new(programmes, fields);
        Stream::counted(packets, |k| {
            // the first packet lists the programmes in every mix
            let table = k == 0 || k % 100 < share;
            let number = if k == 0 { 0 } else { k / 100 * share + k % 100 };
            if table {
                tables.packet(number)
            } else {
                other(k)
            }
        })
    }

    /// One programme: of 500 packets 17 carry the PAT and 17 the PMT, half are null packets, and the others are pictures
    /// and sound in the clear.
    pub fn common(packets: usize) -> Stream {
        // PCR_PID, no descriptors, and three streams without descriptors
        let mut body = vec![0xE1, 0x00, 0xF0, 0x00];
        for (kind, pid) in [(0x1B, 0), (0x0F, 1), (0x06, 2)] {
            body.extend([kind, 0xE1, pid, 0xF0, 0x00]);
        }
        let pat = Packet::sections(PAT_PID, 0, &[&pat(&[(1, 0x1000)])]).bytes();
        let pmt = Packet::sections(0x1000, 0, &[&section(0x02, 1, &body)]).bytes();
        let null = Packet::on(NULL_PID, 0).bytes();
        // 241 has no divisor in common with 500: each kind is spread over the 500
        Stream::counted(packets, |k| match k % 500 * 241 % 500 {
            0..=16 => pat,
            100..=116 => pmt,
            250..=499 => null,
            _ => Packet::on(0x0100 + (k % 3) as u16, 0).bytes(),
        })
    }

    /// The PAT of so many programmes, again and again.
    pub fn pats(packets: usize, programmes: u16) -> Stream {
        let tables = Tables::new(programmes, false);
        Stream::counted(packets, |_| tables.packet(0))
    }

    pub fn bytes(&self) -> &[u8] {
        &self.0
    }

    pub fn packets(&self) -> impl Iterator<Item = (u64, &[u8])> {
        self.0.chunks_exact(188).enumerate().map(|(k, packet)| (TICKS * k as u64, packet))
    }

    pub fn text(&self) -> Vec<u8> {
        let mut text = b"0\t-\n".to_vec();
        for (time, packet) in self.packets() {
            text.extend(format!("{}\t", time).bytes());
            text.extend(packet.iter().flat_map(|&byte| [HEX[usize::from(byte >> 4)], HEX[usize::from(byte & 15)]]));
            text.push(b'\n');
        }
        text
    }
}

/// The packet number k, of no table, with counter 0.
fn other(k: usize) -> [u8; 188] {
    let packet = Packet::on(0x0400 + (k % 37) as u16, 0).scrambled(if k % 2 == 0 { 2 } else { 0 });
    match k % 20 {
        7 => Packet::on(NULL_PID, 0).bytes(),
        13 => packet.field(3, 7, 0x10).bytes(),
        _ => packet.bytes(),
    }
}

/// The tables' packets in turn, with counter 0: PAT, a PMT for each programme, and the SI, of which NIT, SDT and EIT take
/// two, three and five packets.
struct Tables(Vec<[u8; 188]>);

impl Tables {
    fn new(programmes: u16, fields: bool) -> Tables {
        let list: Vec<(u16, u16)> = (1..=programmes).map(|n| (n, 0x0100 + n)).collect();
        let mut all = packets(PAT_PID, &pat(&list), fields);
        for &(number, pid) in &list {
            all.extend(packets(pid, &section(0x02, number, &[0x5A; 60]), fields));
        }
        all.extend(packets(NIT_PID, &section(0x40, 1, &[0x5A; 250]), fields));
        all.extend(packets(SDT_PID, &section(0x42, 1, &[0x5A; 500]), fields));
        all.extend(packets(EIT_PID, &section(0x4E, 1, &[0x5A; 900]), fields));
        all.extend(packets(TDT_PID, &tdt(), fields));
        Tables(all)
    }

    fn packet(&self, number: usize) -> [u8; 188] {
        self.0[number % self.0.len()]
    }
}

/// A section in as many packets as it takes, the last filled up with stuffing; each packet, where `fields` is set, with an
/// adaptation field of length 0.
fn packets(pid: u16, section: &[u8], fields: bool) -> Vec<[u8; 188]> {
    let with = |packet: Packet| if fields { packet.field(3, 0, 0).bytes() } else { packet.bytes() };
    let room = if fields { 183 } else { 184 };
    let (first, rest) = section.split_at(section.len().min(room - 1));
    let mut all = vec![with(Packet::sections(pid, 0, &[first]))];
    all.extend(rest.chunks(room).map(|bytes| with(Packet::on(pid, 0).payload(bytes))));
    all
}

/// A test data section of 4,096 bytes.
pub fn test_data() -> Vec<u8> {
    let data: Vec<u8> = (0..4_082u32).map(|k| (k * 31) as u8).collect();
    let section = Section {
        head: Head { table_id: 0x11, priority: 0, reserved: 7 },
        syntax: Some(Syntax { current_next: 1, ..Syntax::default() }),
        descriptors: &[],
        data: &data,
    };
    let mut place = vec![0; 4_096];
    let n = testdata::write(&section, &mut place).expect("it fits");
    place.truncate(n);
    place
}
