//! One call each, and its lines.

use songpigeon_reference::probe::{EVENT_ROOM, MEMORY};
use songpigeon_reference::{clock, open, packet, Entry, Event, Memory, State};

pub const GREATEST: u64 = 1 << 62;
pub const ABOVE: u64 = GREATEST + 1;

/// What the records hold before a call.
pub const MARK: Event = Event { stamp: 7, fault: 7, cause: 7, id: 7 };

/// What a log carries from call to call.
#[derive(Clone)]
pub struct Log {
    pub state: State,
    pub counters: Vec<u8>,
    pub memory: Memory,
}

/// A refusal is number n, an accepted call 0; its events are in the list.
pub struct Answer {
    pub refusal: u32,
    pub n: usize,
    pub list: Vec<Event>,
}

impl Log {
    /// Opened at a time, with memory of zeros.
    pub fn opened(time: u64) -> Self {
        let mut counters = vec![0; 8192];
        let state = open(time, &mut counters).state;
        Log { state, counters, memory: [0; MEMORY] }
    }

    /// Programmes 1 and 2, on the PIDs 0x1000 and 0x1001.
    pub fn two_listed(mut self) -> Self {
        self.state.entries[0] = Entry { number: 1, pid: 0x1000, since: 0 };
        self.state.entries[1] = Entry { number: 2, pid: 0x1001, since: 0 };
        self.state.count = 2;
        self
    }

    /// The same with one part changed.
    pub fn with(&self, change: impl FnOnce(&mut State)) -> Self {
        let mut log = self.clone();
        change(&mut log.state);
        log
    }

    /// A packet call with the least room for events.
    pub fn packet_call(&mut self, time: u64, bytes: &[u8]) -> Answer {
        let mut list = vec![MARK; EVENT_ROOM];
        let result = packet(&mut self.state, &mut self.memory, time, bytes, &mut self.counters, &mut list);
        Answer { refusal: result.err().unwrap_or(0), n: result.unwrap_or(0), list }
    }

    /// A clock call with the least room for events.
    pub fn clock_call(&mut self, time: u64) -> Answer {
        let mut list = vec![MARK; EVENT_ROOM];
        let result = clock(&mut self.state, &self.memory, time, &mut list);
        Answer { refusal: result.err().unwrap_or(0), n: result.unwrap_or(0), list }
    }

    /// A packet call and its lines; the half-built length is that of a room.
    pub fn given(&mut self, name: &str, time: u64, bytes: &[u8], room: usize) {
        let answer = self.packet_call(time, bytes);
        let half = self.state.half[room];
        println!("{}{} half {}{}", name, self.answered(&answer), half, self.digests());
        answer.print_events();
    }

    /// The same of a packet of 188 bytes that begins with the given ones.
    pub fn packet(&mut self, name: &str, time: u64, bytes: &[u8], room: usize) {
        self.given(name, time, &filled(bytes), room);
    }

    /// A clock call and its lines.
    pub fn clock(&mut self, name: &str, time: u64) {
        let answer = self.clock_call(time);
        println!("{}{}", name, self.answered(&answer));
        answer.print_events();
    }

    pub fn answered(&self, answer: &Answer) -> String {
        format!(": refusal {} n {}{}", answer.refusal, answer.n, of_state(&self.state))
    }

    pub fn digests(&self) -> String {
        format!(" table {:016x} memory {:016x}", digest(&self.counters), digest(&self.memory))
    }
}

impl Answer {
    /// Stamp and cause decimal, fault and id four hex digits.
    pub fn print_events(&self) {
        let (events, others) = self.list.split_at(self.n);
        for event in events {
            println!("  {} {:04x} {} {:04x}", event.stamp, event.fault, event.cause, event.id);
        }
        if others.iter().any(|event| *event != MARK) {
            println!("  a record past the events is written");
        }
    }
}

/// An opening and its line.
pub fn opening(name: &str, time: u64, counters: &mut [u8]) {
    let opening = open(time, counters);
    let state = of_state(&opening.state);
    println!("{}: refusal {} n 0{} table {:016x}", name, opening.refusal, state, digest(counters));
}

fn of_state(state: &State) -> String {
    format!(" latest {} lost {} run {} count {}", state.latest, u8::from(state.lost), state.run, state.count)
}

/// The given bytes, then 0xFF up to 188.
pub fn filled(bytes: &[u8]) -> Vec<u8> {
    let mut packet = bytes.to_vec();
    packet.resize(188, 0xFF);
    packet
}

/// Turns of xorshift64, each with a byte: a byte written anywhere shows.
fn digest(bytes: &[u8]) -> u64 {
    bytes.iter().fold(1, |mut h, &byte| {
        h ^= h << 13;
        h ^= h >> 7;
        h ^= h << 17;
        h ^ u64::from(byte)
    })
}
