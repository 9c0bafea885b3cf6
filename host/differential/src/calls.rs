//! Each call made on both sides, and everything compared after it: refusal, events with the records behind them, numbers,
//! counter table, section memory and state.

use crate::coverage::Coverage;
use crate::random::Random;
use crate::streams::Stream;
use songpigeon::lent::{self, place};
use songpigeon_reference::probe::{self, EVENT_ROOM, LATEST_TIME};
use songpigeon_reference::sections::base;
use songpigeon_reference::streams::NULL_PID;
use songpigeon_reference::{case_met, Entry, Event, State};
use std::array;

/// Lent memory is longer than it need be, so that other lengths can be handed in.
const COUNTER_ROOM: usize = probe::COUNTERS + 8;
const RECORDS: usize = EVENT_ROOM + 4;

/// One side's memory is the reference's, the other the product's.
pub struct Pair {
    state: State,
    memory: Box<lent::Memory>,
    counters: Vec<u8>,
    events: Vec<Event>,
    times: lent::Times,
    words: lent::Words,
    product_memory: Box<lent::Memory>,
    product_counters: Vec<u8>,
    product_events: Vec<lent::Event>,
    numbers: lent::Numbers,
}

pub fn lay(state: &State, times: &mut lent::Times, words: &mut lent::Words) {
    times[place::LATEST] = state.latest;
    times[place::GAPS..place::SINCES].copy_from_slice(&state.since);
    for (k, entry) in state.entries.iter().enumerate() {
        times[place::SINCES + k] = entry.since;
        words[place::NUMBERS + k] = entry.number;
        words[place::PIDS + k] = entry.pid;
    }
    words[place::HALVES..place::LOST].copy_from_slice(&state.half);
    words[place::LOST] = u16::from(state.lost);
    words[place::RUN] = u16::from(state.run);
    words[place::COUNT] = state.count as u16;
}

pub fn laid(times: &lent::Times, words: &lent::Words) -> State {
    let mut state = State { latest: times[place::LATEST], lost: words[place::LOST] != 0, ..State::default() };
    state.since.copy_from_slice(&times[place::GAPS..place::SINCES]);
    for (k, entry) in state.entries.iter_mut().enumerate() {
        *entry =
            Entry { number: words[place::NUMBERS + k], pid: words[place::PIDS + k], since: times[place::SINCES + k] };
    }
    state.half.copy_from_slice(&words[place::HALVES..place::LOST]);
    state.run = u8::try_from(words[place::RUN]).unwrap_or(u8::MAX);
    state.count = usize::from(words[place::COUNT]);
    state
}

fn same_event(a: &Event, b: &lent::Event) -> bool {
    (a.stamp, a.fault, a.cause, a.id) == (b.stamp, b.fault, b.cause, b.id)
}

fn replied(result: Result<usize, u32>) -> lent::Reply {
    match result {
        Ok(n) => lent::Reply { refusal: 0, n },
        Err(refusal) => lent::Reply { refusal, n: 0 },
    }
}

impl Pair {
    /// Both opened at a time, over memory that holds anything.
    pub fn open(time: u64, random: &Random) -> Result<Pair, String> {
        let mut memory = Box::new([0; lent::MEMORY]);
        memory.copy_from_slice(&random.bytes(lent::MEMORY));
        let counters = random.bytes(COUNTER_ROOM);
        let mut pair = Pair {
            state: State::default(),
            product_memory: memory.clone(),
            memory,
            product_counters: counters.clone(),
            counters,
            events: vec![Event::default(); RECORDS],
            times: [random.number(); lent::TIMES],
            words: [random.number() as u16; lent::WORDS],
            product_events: vec![lent::Event::default(); RECORDS],
            numbers: array::from_fn(|_| random.number()),
        };
        let opening = probe::open(time, &mut pair.counters[..probe::COUNTERS]);
        let reply = lent::open(&mut pair.times, &mut pair.words, time, &mut pair.product_counters[..lent::COUNTERS]);
        if opening.refusal != 0 || reply != (lent::Reply { refusal: 0, n: 0 }) {
            return Err(format!("opening at {}: {} and {:?}", time, opening.refusal, reply));
        }
        pair.state = opening.state;
        pair.compare(Ok(0), reply)?;
        pair.compare_arrays(false, [0; lent::TIMES], [0; lent::WORDS])?;
        Ok(pair)
    }

    fn compare(&self, expected: Result<usize, u32>, found: lent::Reply) -> Result<(), String> {
        if replied(expected) != found {
            return Err(format!("reference {:?}, product {:?}", expected, found));
        }
        if let Some(k) = (0..RECORDS).find(|&k| !same_event(&self.events[k], &self.product_events[k])) {
            return Err(format!("event {}: reference {:?}, product {:?}", k, self.events[k], self.product_events[k]));
        }
        if let Some(k) = differs(&self.counters, &self.product_counters) {
            return Err(format!("table byte {:04x}: {} and {}", k, self.counters[k], self.product_counters[k]));
        }
        if let Some(k) = differs(&self.memory[..], &self.product_memory[..]) {
            return Err(format!("section memory at {}: {} and {}", k, self.memory[k], self.product_memory[k]));
        }
        let state = laid(&self.times, &self.words);
        if state != self.state {
            return Err(format!("state: reference {:?}, product {:?}", self.state, state));
        }
        Ok(())
    }

    /// The two arrays themselves: as they were where the call is refused, else exactly those of the state.
    fn compare_arrays(&self, refused: bool, mut times: lent::Times, mut words: lent::Words) -> Result<(), String> {
        if !refused {
            lay(&self.state, &mut times, &mut words);
        }
        if (times, words) != (self.times, self.words) {
            return Err(format!("arrays: {:?} {:?}, product {:?} {:?}", times, words, self.times, self.words));
        }
        Ok(())
    }

    /// The numbers, of anything before the call: the call's events laid over them, four numbers to an event.
    fn compare_numbers(&self, n: usize, mut numbers: lent::Numbers) -> Result<(), String> {
        for (place, event) in numbers.chunks_exact_mut(lent::WIDTH).zip(&self.events[..n]) {
            place.copy_from_slice(&[event.stamp, event.fault.into(), event.cause.into(), event.id.into()]);
        }
        match (0..lent::NUMBERS).find(|&k| numbers[k] != self.numbers[k]) {
            Some(k) => Err(format!("number {}: {}, product {}", k, numbers[k], self.numbers[k])),
            None => Ok(()),
        }
    }

    fn packet(&mut self, time: u64, packet: &[u8], table: usize, room: usize) -> Result<Result<usize, u32>, String> {
        let (times, words, numbers) = (self.times, self.words, self.numbers);
        let expected = probe::packet(
            &mut self.state,
            &mut self.memory,
            time,
            packet,
            &mut self.counters[..table],
            &mut self.events[..room],
        );
        let found = lent::packet(
            &mut self.times,
            &mut self.words,
            time,
            packet,
            &mut self.product_counters[..table],
            &mut self.product_memory,
            &mut self.numbers,
            &mut self.product_events[..room],
        );
        self.compare(expected, found)?;
        self.compare_arrays(expected.is_err(), times, words)?;
        self.compare_numbers(found.n, numbers)?;
        Ok(expected)
    }

    fn clock(&mut self, time: u64, room: usize) -> Result<Result<usize, u32>, String> {
        let (times, words, numbers) = (self.times, self.words, self.numbers);
        let expected = probe::clock(&mut self.state, &self.memory, time, &mut self.events[..room]);
        let found = lent::clock(
            &mut self.times,
            &mut self.words,
            time,
            &self.product_memory,
            &mut self.numbers,
            &mut self.product_events[..room],
        );
        self.compare(expected, found)?;
        self.compare_arrays(expected.is_err(), times, words)?;
        self.compare_numbers(found.n, numbers)?;
        Ok(expected)
    }

    /// Often next to a limit, now and then backwards or past the end of time.
    fn time(&self, random: &Random) -> u64 {
        let latest = self.state.latest;
        let near = match random.below(40) {
            0..=4 => latest,
            5..=8 => {
                let limits = [13_500_000, 270_000_000, 54_000_000, 54_000_000, 810_000_000];
                let k = random.size(5 + self.state.count.min(16));
                let (since, limit) = if k < 5 {
                    (self.state.since[k], limits[k])
                } else {
                    (self.state.entries[k - 5].since, 13_500_000)
                };
                since.saturating_add(limit + random.below(3)).max(latest)
            }
            9 => latest.saturating_add(random.below(30_000_000)),
            10 => return latest.saturating_sub(1 + random.below(3)),
            11 if random.once_in(20) => return random.pick(&[LATEST_TIME + 1, u64::MAX, random.number() | 1 << 63]),
            12 if random.once_in(200) => return LATEST_TIME,
            _ => latest.saturating_add(random.below(2_000)),
        };
        near.min(LATEST_TIME)
    }

    /// The case of step 4 that a packet is, where it comes so far in sync.
    fn continuity_case(&self, packet: &[u8]) -> Option<String> {
        let whole =
            packet.len() == probe::PACKET && packet[0] == 0x47 && packet[1] & 0x80 == 0 && packet[3] & 0x30 != 0;
        if !whole || self.state.lost {
            return None;
        }
        let pid = u16::from_be_bytes([packet[1] & 0x1F, packet[2]]);
        let (case, wrong_length) = case_met(packet, self.counters[usize::from(pid)]);
        let length = if wrong_length { ", wrong length" } else { "" };
        (pid != NULL_PID).then(|| format!("step 4 {:?}{}", case, length))
    }

    /// One call of a log. Says what came of it.
    pub fn call(&mut self, stream: &mut Stream, random: &Random, seen: &mut Coverage) -> Result<(), String> {
        let time = self.time(random);
        let (mut table, mut room) = (probe::COUNTERS, random.pick(&[EVENT_ROOM, EVENT_ROOM, EVENT_ROOM + 1, RECORDS]));
        let clock = random.once_in(6);
        let odd = random.once_in(100);
        if odd {
            table = random.pick(&[0, 1, 8_191, 8_192, 8_193]);
            room = random.pick(&[0, 1, EVENT_ROOM - 1, EVENT_ROOM]);
        }
        let (kind, result) = if clock {
            ("clock", self.clock(time, room)?)
        } else {
            let mut packet = stream.packet(random).to_vec();
            if odd {
                packet.resize(random.pick(&[0, 1, 187, 188, 188, 188, 189, 376]), 0x47);
            }
            let case = self.continuity_case(&packet);
            let result = self.packet(time, &packet, table, room)?;
            if let (Ok(_), Some(case)) = (result, case) {
                seen.met(case);
            }
            ("packet", result)
        };
        match result {
            Err(refusal) => seen.met(format!("{} refused {}", kind, refusal)),
            Ok(n) => {
                seen.met("call accepted".to_string());
                for event in &self.events[..n] {
                    seen.met(format!("event {:04x} {}", event.fault, event.cause));
                }
            }
        }
        Ok(())
    }

    /// A call on a state that nobody's calls made; where it is refused, the state before it is put back.
    pub fn forged_call(&mut self, stream: &mut Stream, random: &Random, seen: &mut Coverage) -> Result<(), String> {
        let (state, memory, counters) = (self.state.clone(), self.memory.clone(), self.counters.clone());
        for _ in 0..1 + random.below(3) {
            self.forge(random);
        }
        self.product_memory = self.memory.clone();
        self.product_counters = self.counters.clone();
        lay(&self.state, &mut self.times, &mut self.words);
        if self.state.lost && random.once_in(4) {
            self.words[place::LOST] = random.pick(&[2, 0x100, u16::MAX]);
        }
        if self.state.run > 4 && random.once_in(2) {
            self.words[place::RUN] = u16::MAX;
            self.state.run = u8::MAX;
        }
        let packet = stream.packet(random);
        let time = if random.once_in(2) { self.state.latest } else { self.time(random) };
        let (kind, result) = if random.once_in(4) {
            ("clock", self.clock(time, RECORDS)?)
        } else {
            ("packet", self.packet(time, &packet, probe::COUNTERS, RECORDS)?)
        };
        match result {
            Ok(_) => seen.met("forged state accepted".to_string()),
            Err(refusal) => seen.met(format!("{} refused {}", kind, refusal)),
        }
        if result.is_err() || random.once_in(3) {
            (self.state, self.memory, self.counters) = (state, memory, counters);
            self.product_memory = self.memory.clone();
            self.product_counters = self.counters.clone();
            lay(&self.state, &mut self.times, &mut self.words);
        }
        Ok(())
    }

    /// One thing of the state changed.
    fn forge(&mut self, random: &Random) {
        let latest = self.state.latest;
        let time = random.pick(&[0, latest, latest.saturating_sub(13_500_000), LATEST_TIME, LATEST_TIME + 1, u64::MAX]);
        let k = random.size(16);
        let room = random.size(21);
        let state = &mut self.state;
        match random.below(12) {
            0 => state.latest = time,
            1 => state.since[k % 5] = time,
            2 => state.count = random.pick(&[0, 1, 2, 5, 15, 16, 17, 255, 65_535]),
            3 => state.entries[k].number = random.pick(&[0, 1, 2, 3, u16::MAX]),
            4 => state.entries[k].pid = random.pick(&[0, 0x1F, 0x20, 0x100, 0x1FFE, 0x1FFF, 0x2020, u16::MAX]),
            5 => state.entries[k].since = time,
            6 => {
                state.lost = !state.lost;
                state.run = random.pick(&[0, 1, 2, 3, 4, 5, 255]);
            }
            7 => state.run = random.pick(&[0, 1, 2, 4, 5, 255]),
            8 => {
                // sixteen places that are as they should be
                state.count = 16;
                for (n, entry) in state.entries.iter_mut().enumerate() {
                    let pid = random.pick(&[0x20, 0x21, 0x100, 0x101, 0x1000, 0x1FFE]);
                    *entry = Entry { number: n as u16 + 1, pid, since: latest };
                }
            }
            9 => {
                state.half[room] = random.pick(&[0, 1, 2, 3, 11, 12, 100, 1_023, 1_024, 1_025, 4_095, 4_096, u16::MAX])
            }
            10 => {
                // a half-built section with a header of its own
                let at = base(room);
                state.half[room] = random.pick(&[1, 2, 3, 4, 7, 8, 9, 500]);
                self.memory[at] = random.pick(&[0, 2, 0x42, 0x73, 0xFF, random.byte()]);
                self.memory[at + 1] = random.pick(&[0xB0, 0x80, 0x00, 0xB3, 0x33, 0xBF, random.byte()]);
                self.memory[at + 2] = random.pick(&[0, 3, 4, 5, 8, 9, 0xFD, 0xFE, random.byte()]);
            }
            _ => {
                let pid = random.pick(&[0, 0x10, 0x11, 0x12, 0x14, 0x20, 0x21, 0x100, 0x101, 0x1000, 0x1FFE, 0x1FFF]);
                self.counters[pid] = random.pick(&[0, 1, 15, 16, 31, 32, 47, 48, 63, 64, 255, random.byte()]);
            }
        }
    }
}

fn differs(a: &[u8], b: &[u8]) -> Option<usize> {
    if a == b {
        return None;
    }
    (0..a.len()).find(|&k| a[k] != b[k])
}

/// Openings that are refused: nothing that is lent is written.
pub fn refused_openings(random: &Random, seen: &mut Coverage) -> Result<(), String> {
    let (mut times, mut words) = ([random.number(); lent::TIMES], [random.number() as u16; lent::WORDS]);
    let mut counters = random.bytes(COUNTER_ROOM);
    let before = (times, words, counters.clone());
    let table = random.pick(&[0, 1, 8_191, 8_192, 8_193]);
    let time = random.pick(&[LATEST_TIME + 1, LATEST_TIME + 1 + random.below(1 << 61), u64::MAX]);
    let expected = probe::open(time, &mut counters[..table]).refusal;
    let reply = lent::open(&mut times, &mut words, time, &mut counters[..table]);
    if reply != (lent::Reply { refusal: expected, n: 0 }) || (times, words, counters) != before {
        return Err(format!("opening at {} with a table of {}: {} and {:?}", time, table, expected, reply));
    }
    seen.met(format!("opening refused {}", expected));
    Ok(())
}

pub fn severities(random: &Random, seen: &mut Coverage) -> Result<(), String> {
    let limits = [100, 200, 400, 500, 800, 1_000, 2_000, 2_500, 3_000, 5_000, 6_000, 15_000, 60_000, 120_000, 300_000];
    let kind = random.pick(&[0, 1, 2, 3, 4, 5, 6, 7, random.number() as u32]);
    let gap = random.pick(&[0, u64::MAX, random.number(), 27_000 * random.pick(&limits) + random.below(2)]);
    let found = lent::severity(kind as usize, gap);
    let expected = match songpigeon_reference::severity::severity(kind, gap) {
        Ok(v) => (0, u32::from(v.set), u32::from(v.classes), u32::from(v.worst)),
        Err(refusal) => (refusal, 0, 0, 0),
    };
    if expected != (found.refusal, found.set, found.number, found.worst) {
        return Err(format!("severity of kind {}, gap {}: {:?} and {:?}", kind, gap, expected, found));
    }
    seen.met(if found.refusal == 0 {
        "severity given".to_string()
    } else {
        format!("severity refused {}", found.refusal)
    });
    Ok(())
}
