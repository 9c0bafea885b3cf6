//! Songpigeon for hosts in Rust: a probe that takes transport packets with their arrival times and says what is late,
//! torn or missing.
//!
//! [`Probe`] owns all memory that the engine is lent. [`lent`] has the calls as the static library exports them, for
//! hosts that keep the state themselves. [`testdata`] reads and writes the sections of DVB A046. Times are ticks of 27
//! MHz, 0 to 2^62.
//!
//! A call reads and writes what it is lent and nothing else: probes in different threads know nothing of each other. It
//! needs at most 64 KiB of stack.

pub mod lent;
pub mod testdata;

pub use lent::{Event, Memory, Numbers, Times, Words};

use std::error::Error;
use std::fmt;

/// The number under which a call was refused (document 01). A refused call changes nothing.
#[derive(Clone, Copy, Debug, PartialEq, Eq, Hash)]
pub struct Refusal(pub u32);

impl Refusal {
    pub const PACKET: Refusal = Refusal(1);
    pub const COUNTERS: Refusal = Refusal(2);
    pub const EVENTS: Refusal = Refusal(3);
    pub const TIME: Refusal = Refusal(4);
    pub const STATE: Refusal = Refusal(5);
    pub const ORDER: Refusal = Refusal(6);
    pub const KIND: Refusal = Refusal(7);
    pub const LINE: Refusal = Refusal(8);
    pub const LENGTH: Refusal = Refusal(11);
    pub const CRC: Refusal = Refusal(12);
    pub const UNFIT: Refusal = Refusal(13);
    pub const DESCRIPTOR_SIZE: Refusal = Refusal(14);
    pub const PLACE: Refusal = Refusal(15);

    /// What it means, in a few words.
    pub fn meaning(self) -> &'static str {
        match self {
            Refusal::PACKET => "the packet is not 188 bytes",
            Refusal::COUNTERS => "the counter table is not 8,192 bytes",
            Refusal::EVENTS => "the event list has too few records",
            Refusal::TIME => "the time is above 2^62",
            Refusal::STATE => "the state is none that calls leave",
            Refusal::ORDER => "the time is below the latest accepted one",
            Refusal::KIND => "the kind of table is not listed",
            Refusal::LINE => "the line is malformed",
            Refusal::LENGTH => "the section's length is not right",
            Refusal::CRC => "the section's CRC_32 is wrong",
            Refusal::UNFIT => "something runs past its end, or a number is too wide for its field",
            Refusal::DESCRIPTOR_SIZE => "a descriptor of fixed size has another",
            Refusal::PLACE => "the lent place is too short",
            Refusal(_) => "no meaning is known",
        }
    }
}

impl fmt::Display for Refusal {
    fn fmt(&self, f: &mut fmt::Formatter<'_>) -> fmt::Result {
        write!(f, "refused with {}: {}", self.0, self.meaning())
    }
}

impl Error for Refusal {}

/// Fault numbers, those of Table A.3 of DVB A046.
pub mod fault {
    pub const NIT: u16 = 0x0001;
    pub const SDT: u16 = 0x0002;
    pub const EIT: u16 = 0x0004;
    pub const TDT: u16 = 0x0008;
    pub const PAT: u16 = 0x0009;
    pub const SYNC_LOSS: u16 = 0x000C;
    pub const SYNC_BYTE: u16 = 0x000D;
    pub const CONTINUITY: u16 = 0x000E;
    pub const PMT: u16 = 0x000F;
    pub const TRANSPORT: u16 = 0x0011;
    pub const CRC: u16 = 0x0012;
}

/// Causes: what parts the ways to one fault.
pub mod cause {
    pub const NONE: u8 = 0;
    pub const LATE: u8 = 1;
    pub const FOREIGN: u8 = 2;
    pub const SCRAMBLED: u8 = 3;
    pub const NOT_ALLOWED: u8 = 4;
}

/// What a severity is asked for.
#[derive(Clone, Copy, Debug, PartialEq, Eq)]
pub enum Kind {
    Pat,
    Pmt,
    Eit0,
    Eit1,
    Eit2And3,
    Stt,
}

/// The classes of a gap as a set (TOA 16, POA 8, CM 4, QOS 2, TNC 1), how many they are, and the worst.
#[derive(Clone, Copy, Debug, Default, PartialEq, Eq)]
pub struct Severity {
    pub set: u32,
    pub classes: u32,
    pub worst: u32,
}

/// The severity of a gap in ticks, by A/78.
pub fn severity(kind: Kind, gap: u64) -> Severity {
    let verdict = lent::severity(kind as usize, gap);
    Severity { set: verdict.set, classes: verdict.number, worst: verdict.worst }
}

/// An open probe with its state, its counter table, its section memory and room for the events of a call.
pub struct Probe {
    times: Times,
    words: Words,
    counters: Box<[u8; lent::COUNTERS]>,
    memory: Box<Memory>,
    numbers: Box<Numbers>,
    events: Box<[Event; lent::EVENT_ROOM]>,
}

impl Probe {
    /// Opens at a time; 4 where it is above 2^62.
    pub fn open(time: u64) -> Result<Probe, Refusal> {
        let mut probe = Probe {
            times: [0; lent::TIMES],
            words: [0; lent::WORDS],
            counters: Box::new([0; lent::COUNTERS]),
            memory: Box::new([0; lent::MEMORY]),
            numbers: Box::new([0; lent::NUMBERS]),
            events: Box::new([Event::default(); lent::EVENT_ROOM]),
        };
        match lent::open(&mut probe.times, &mut probe.words, time, &mut *probe.counters).refusal {
            0 => Ok(probe),
            refusal => Err(Refusal(refusal)),
        }
    }

    /// Judges a packet of 188 bytes: its events, late ones first. 1 for another length, 4 or 6 for its time.
    pub fn packet(&mut self, time: u64, packet: &[u8]) -> Result<&[Event], Refusal> {
        let reply = lent::packet(
            &mut self.times,
            &mut self.words,
            time,
            packet,
            &mut *self.counters,
            &mut self.memory,
            &mut self.numbers,
            &mut *self.events,
        );
        self.events_of(reply)
    }

    /// Lets time pass without a packet: what became late. 4 or 6 for its time.
    pub fn clock(&mut self, time: u64) -> Result<&[Event], Refusal> {
        let reply =
            lent::clock(&mut self.times, &mut self.words, time, &self.memory, &mut self.numbers, &mut *self.events);
        self.events_of(reply)
    }

    fn events_of(&self, reply: lent::Reply) -> Result<&[Event], Refusal> {
        match reply.refusal {
            0 => Ok(&self.events[..reply.n]),
            refusal => Err(Refusal(refusal)),
        }
    }
}
