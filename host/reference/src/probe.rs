//! The calls: "The calls and their numbers" and "Watches and lateness" of document 01.

use crate::judging::Call;
use crate::sections::{self, Progress, FIXED_ROOMS, ROOMS};

/// The latest time there is: 2^62 ticks of 27 MHz.
pub const LATEST_TIME: u64 = 1 << 62;
pub const PACKET: usize = 188;
pub const COUNTERS: usize = 8_192;
pub const MEMORY: usize = 24_576;
pub const EVENT_ROOM: usize = 96;
pub const PROGRAMMES: usize = 16;

/// Half-built sections, lent beside the state and part of it in every sentence of the paper.
pub type Memory = [u8; MEMORY];

pub(crate) const NULL_PID: u16 = 0x1FFF;

/// The numbers of Table A.3 in DVB A046.
pub mod fault {
    pub const NIT: u16 = 0x0001;
    pub const SDT: u16 = 0x0002;
    pub const EIT: u16 = 0x0004;
    pub const TDT: u16 = 0x0008;
    pub const PAT: u16 = 0x0009;
    pub const SYNC_LOSS: u16 = 0x000C;
    pub const SYNC_BYTE: u16 = 0x000D;
    pub const CONTINUITY: u16 = 0x000E;
    pub const PMT: u16 = 0x000F;
    pub const TRANSPORT: u16 = 0x0011;
    pub const CRC: u16 = 0x0012;
}

/// The causes: none named, late, foreign table_id, scrambled, bad list or bad section_length.
pub mod cause {
    pub const NONE: u8 = 0;
    pub const LATE: u8 = 1;
    pub const FOREIGN: u8 = 2;
    pub const SCRAMBLED: u8 = 3;
    pub const BAD: u8 = 4;
}

/// A fixed watch; its room has the same number as its row.
pub(crate) struct Table {
    pub(crate) pid: u16,
    pub(crate) table_id: u8,
    limit: u64,
    fault: u16,
}

pub(crate) const TABLES: [Table; FIXED_ROOMS] = [
    Table { pid: 0x0000, table_id: 0x00, limit: 13_500_000, fault: fault::PAT },
    Table { pid: 0x0010, table_id: 0x40, limit: 270_000_000, fault: fault::NIT },
    Table { pid: 0x0011, table_id: 0x42, limit: 54_000_000, fault: fault::SDT },
    Table { pid: 0x0012, table_id: 0x4E, limit: 54_000_000, fault: fault::EIT },
    Table { pid: 0x0014, table_id: 0x70, limit: 810_000_000, fault: fault::TDT },
];
pub(crate) const PMT_TABLE_ID: u8 = 0x02;
const PMT_LIMIT: u64 = 13_500_000;

#[derive(Clone, Copy, Debug, Default, PartialEq, Eq)]
pub struct Event {
    pub stamp: u64,
    pub fault: u16,
    pub cause: u8,
    pub id: u16,
}

/// A listed programme and the start of its present gap.
#[derive(Clone, Copy, Debug, Default, PartialEq, Eq)]
pub struct Entry {
    pub number: u16,
    pub pid: u16,
    pub since: u64,
}

/// The state beside section memory. A watch needs no more than the start of its gap: a call at t after the latest time
/// p hands over the stamps from p up to, not with, t.
#[derive(Clone, Debug, Default, PartialEq, Eq)]
pub struct State {
    pub latest: u64,
    pub lost: bool,
    /// wrong first bytes running in sync, right ones while lost
    pub run: u8,
    pub since: [u64; FIXED_ROOMS],
    pub count: usize,
    pub entries: [Entry; PROGRAMMES],
    pub half: [u16; ROOMS],
}

impl State {
    fn opened(time: u64) -> State {
        State { latest: time, since: [time; FIXED_ROOMS], ..State::default() }
    }

    /// The listed programmes. (A count above sixteen is refused before anything is read.)
    pub fn listed(&self) -> &[Entry] {
        &self.entries[..self.count]
    }

    /// The room of a PMT PID is that of its first place in the list.
    pub(crate) fn room(&self, pid: u16) -> Option<usize> {
        let fixed = TABLES.iter().position(|table| table.pid == pid);
        fixed.or_else(|| place(self.listed(), pid).map(|k| FIXED_ROOMS + k))
    }

    pub(crate) fn is_listed(&self, pid: u16) -> bool {
        place(self.listed(), pid).is_some()
    }

    pub(crate) fn drop_half_built(&mut self, pid: u16) {
        if let Some(room) = self.room(pid) {
            self.half[room] = 0;
        }
    }
}

pub(crate) fn place(list: &[Entry], pid: u16) -> Option<usize> {
    list.iter().position(|entry| entry.pid == pid)
}

/// What an opening answers: 0 and the state, or the refusal and the state of an opening at time 0.
#[derive(Clone, Debug, PartialEq, Eq)]
pub struct Opening {
    pub refusal: u32,
    pub state: State,
}

// REFUSALS

/// Refusal 5, as far as it is the state's.
fn is_sound(state: &State, memory: &Memory) -> bool {
    if state.count > PROGRAMMES || state.latest > LATEST_TIME || state.since.iter().any(|&t| t > LATEST_TIME) {
        return false;
    }
    let list = state.listed();
    let entry_is_sound = |(k, e): (usize, &Entry)| {
        let twice = list[..k].iter().any(|earlier| earlier.number == e.number);
        e.since <= LATEST_TIME && e.number != 0 && !twice && (0x0020..=0x1FFE).contains(&e.pid)
    };
    let greatest_run = if state.lost { 4 } else { 1 };
    let is_unfinished = |room: usize| {
        let half = state.half[room];
        half == 0 || matches!(sections::progress(room, sections::half_built(memory, room, half)), Progress::Missing(_))
    };
    state.run <= greatest_run && list.iter().enumerate().all(entry_is_sound) && (0..ROOMS).all(is_unfinished)
}

/// 0 unseen, 16+c last counter c, 48+c the same and repeated once.
fn is_table_byte(byte: u8) -> bool {
    matches!(byte, 0 | 16..=31 | 48..=63)
}

fn pid_of(packet: &[u8]) -> u16 {
    u16::from_be_bytes([packet[1], packet[2]]) & 0x1FFF
}

fn time_refusal(state: &State, time: u64) -> Option<u32> {
    (time < state.latest).then_some(6)
}

fn packet_refusal(
    state: &State,
    memory: &Memory,
    time: u64,
    packet: &[u8],
    counters: &[u8],
    room: usize,
) -> Option<u32> {
    if packet.len() != PACKET {
        Some(1)
    } else if counters.len() != COUNTERS {
        Some(2)
    } else if room < EVENT_ROOM {
        Some(3)
    } else if time > LATEST_TIME {
        Some(4)
    } else if !is_sound(state, memory) || !is_table_byte(counters[usize::from(pid_of(packet))]) {
        Some(5)
    } else {
        time_refusal(state, time)
    }
}

fn clock_refusal(state: &State, memory: &Memory, time: u64, room: usize) -> Option<u32> {
    if room < EVENT_ROOM {
        Some(3)
    } else if time > LATEST_TIME {
        Some(4)
    } else if !is_sound(state, memory) {
        Some(5)
    } else {
        time_refusal(state, time)
    }
}

// THE CALLS

/// Opens at a time and sets the counter table to 0.
pub fn open(time: u64, counters: &mut [u8]) -> Opening {
    let refusal = if counters.len() != COUNTERS {
        2
    } else if time > LATEST_TIME {
        4
    } else {
        counters.fill(0);
        return Opening { refusal: 0, state: State::opened(time) };
    };
    Opening { refusal, state: State::opened(0) }
}

/// Judges a packet: the number of events, or the refusal, which changes nothing.
pub fn packet(
    state: &mut State,
    memory: &mut Memory,
    time: u64,
    packet: &[u8],
    counters: &mut [u8],
    events: &mut [Event],
) -> Result<usize, u32> {
    if let Some(refusal) = packet_refusal(state, memory, time, packet, counters, events.len()) {
        return Err(refusal);
    }
    let mut log = Log { events, n: 0 };
    late_events(state, time, &mut log);
    state.latest = time;
    let mut call = Call { state, memory, log, time, packet, pid: pid_of(packet) };
    call.judge(&mut counters[usize::from(pid_of(packet))]);
    Ok(call.log.n)
}

/// Lets time pass: the number of events, or the refusal, which changes nothing.
pub fn clock(state: &mut State, memory: &Memory, time: u64, events: &mut [Event]) -> Result<usize, u32> {
    if let Some(refusal) = clock_refusal(state, memory, time, events.len()) {
        return Err(refusal);
    }
    let mut log = Log { events, n: 0 };
    late_events(state, time, &mut log);
    state.latest = time;
    Ok(log.n)
}

/// The events of a call, laid one after the other into the lent list.
pub(crate) struct Log<'a> {
    events: &'a mut [Event],
    pub(crate) n: usize,
}

impl Log<'_> {
    pub(crate) fn add(&mut self, stamp: u64, fault: u16, cause: u8, id: u16) {
        self.events[self.n] = Event { stamp, fault, cause, id };
        self.n += 1;
    }
}

/// Each stamp that this call is the first to exceed: the fixed tables' in their order, then the programmes'.
fn late_events(state: &State, time: u64, log: &mut Log) {
    let due = |since: u64, limit: u64| (state.latest..time).contains(&(since + limit)).then_some(since + limit);
    for (table, &since) in TABLES.iter().zip(&state.since) {
        if let Some(stamp) = due(since, table.limit) {
            log.add(stamp, table.fault, cause::LATE, table.pid);
        }
    }
    for entry in state.listed() {
        if let Some(stamp) = due(entry.since, PMT_LIMIT) {
            log.add(stamp, fault::PMT, cause::LATE, entry.number);
        }
    }
}
