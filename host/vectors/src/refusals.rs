//! Refusals 1, 2 and 4 to 6, forged states, and every byte of the counter table.

use crate::lines::{filled, opening, Log, ABOVE, GREATEST};
use songpigeon_reference::probe::MEMORY;
use songpigeon_reference::Entry;

const ON_0100: &[u8] = b"\x47\x01\x00\x10";

pub fn all() {
    openings();
    packets();
    clocks();
    forged_times();
    forged_lists();
    forged_syncs();
    half_built();
    every_room();
    table_bytes();
}

fn openings() {
    opening("open, table of 8191, time above 2^62", ABOVE, &mut [9; 8191]);
    opening("open, table of 8193, time 5", 5, &mut [9; 8193]);
    let mut counters = [9; 8192];
    opening("open, time above 2^62", ABOVE, &mut counters);
    opening("open, time 2^62", GREATEST, &mut counters);
    opening("open, time 0", 0, &mut [255; 8192]);
}

/// Latest time 1000, and memory that is no zero anywhere.
fn sound() -> Log {
    let mut log = Log::opened(100);
    log.state.latest = 1000;
    log.memory = [90; MEMORY];
    log
}

fn short_table(name: &str, log: &mut Log, packet: &[u8]) {
    let answer = log.packet_call(ABOVE, packet);
    println!("{}{}{}", name, log.answered(&answer), log.digests());
    answer.print_events();
}

fn packets() {
    let mut forged = sound().with(|state| state.run = 2);
    let mut short = forged.clone();
    short.counters.pop();
    let mut packet = [71; 188];
    packet[1..4].copy_from_slice(&[0x01, 0x00, 0x10]);
    short_table("packet, 1, 2, 4 and 5", &mut short, &[71; 187]);
    short_table("packet, 189 bytes", &mut short, &[71; 189]);
    short_table("packet, no byte", &mut short, &[]);
    short_table("packet, 2, 4 and 5", &mut short, &packet);
    forged.given("packet, 4 and 5", ABOVE, &packet, 0);
    forged.given("packet, 5 and 6", 999, &packet, 0);
    let mut sound = sound();
    sound.given("packet, 6", 999, &packet, 0);
    sound.given("packet, none", 1000, &packet, 0);
}

fn clocks() {
    let mut forged = sound().with(|state| (state.lost, state.run) = (true, 5));
    forged.clock("clock, 4 and 5", ABOVE);
    forged.clock("clock, 5 and 6", 999);
    sound().clock("clock, 6", 999);
    sound().clock("clock, none", 1000);
    sound().clock("clock, time 2^62", GREATEST);
}

/// The refusal and the number of events of a packet call and of a clock call.
fn both(name: &str, log: &Log, time: u64) {
    let packet = log.clone().packet_call(time, &filled(ON_0100));
    let clock = log.clone().clock_call(time);
    println!("{}: packet {} {} clock {} {}", name, packet.refusal, packet.n, clock.refusal, clock.n);
}

fn forged_times() {
    let log = Log::opened(1000);
    both("a fresh state", &log, 1000);
    both("latest 2^62", &log.with(|state| state.latest = GREATEST), GREATEST);
    both("latest above 2^62", &log.with(|state| state.latest = ABOVE), GREATEST);
    for (table, name) in ["PAT", "NIT", "SDT", "EIT", "TDT"].iter().enumerate() {
        both(&format!("{} since above 2^62", name), &log.with(|state| state.since[table] = ABOVE), 1000);
    }
    both("TDT since 2^62, after the latest time", &log.with(|state| state.since[4] = GREATEST), 1000);
}

fn forged_lists() {
    let log = Log::opened(1000).two_listed();
    let counted = |name, count| both(name, &log.with(|state| state.count = count), 1000);
    let listed = |name, place: usize, number, pid, since| {
        both(name, &log.with(|state| state.entries[place] = Entry { number, pid, since }), 1000)
    };
    counted("two programmes", 2);
    counted("17 programmes", 17);
    listed("number 0", 1, 0, 0x1001, 0);
    listed("a number twice", 1, 1, 0x1001, 0);
    listed("a PID twice", 1, 2, 0x1000, 0);
    listed("PID 0x001F", 1, 2, 0x001F, 0);
    listed("PID 0x0020", 1, 2, 0x0020, 0);
    listed("PID 0x1FFE", 1, 2, 0x1FFE, 0);
    listed("PID 0x1FFF", 1, 2, 0x1FFF, 0);
    listed("PID 0xFFFF", 1, 2, 0xFFFF, 0);
    listed("since above 2^62", 1, 2, 0x1001, ABOVE);
    listed("all of it in an unlisted place", 2, 1, 0xFFFF, ABOVE);
    counted("16 programmes, most of number 0", 16);
}

fn forged_syncs() {
    let log = Log::opened(1000);
    let runs = [
        ("in sync, run 1", false, 1),
        ("in sync, run 2", false, 2),
        ("lost, run 4", true, 4),
        ("lost, run 5", true, 5),
        ("lost, run 255", true, 255),
    ];
    for (name, lost, run) in runs {
        both(name, &log.with(|state| (state.lost, state.run) = (lost, run)), 1000);
    }
}

/// A room that holds the first three bytes of a section, half-built up to two and three.
fn half_built() {
    let headers = [
        ("length 1021", 0, 0, [0x00, 0xB3, 0xFD]),
        ("length 1022", 0, 0, [0x00, 0xB3, 0xFE]),
        ("length 9", 0, 0, [0x00, 0xB0, 0x09]),
        ("length 8", 0, 0, [0x00, 0xB0, 0x08]),
        ("length 1, no syntax indicator", 0, 0, [0x00, 0x30, 0x01]),
        ("length 0, no syntax indicator", 0, 0, [0x00, 0x30, 0x00]),
        ("0x73 of length 4", 4, 7168, [0x73, 0x70, 0x04]),
        ("0x73 of length 3", 4, 7168, [0x73, 0x70, 0x03]),
        ("EIT of length 4093", 3, 3072, [0x4E, 0xFF, 0xFD]),
        ("EIT of length 4094", 3, 3072, [0x4E, 0xFF, 0xFE]),
        ("SDT of length 1022", 2, 2048, [0x42, 0xF3, 0xFE]),
    ];
    for (name, room, at, bytes) in headers {
        let mut log = Log::opened(1000);
        log.memory[at..at + 3].copy_from_slice(&bytes);
        both(&format!("{}, two bytes", name), &log.with(|state| state.half[room] = 2), 1000);
        both(&format!("{}, three bytes", name), &log.with(|state| state.half[room] = 3), 1000);
    }
}

fn every_room() {
    let log = Log::opened(1000);
    for room in 0..21 {
        both(&format!("room {}, three bytes of 0", room), &log.with(|state| state.half[room] = 3), 1000);
    }
}

fn table_bytes() {
    for byte in 0..=255 {
        let mut log = Log::opened(0);
        log.counters[256] = byte;
        let answer = log.packet_call(0, &filled(ON_0100));
        let after = log.counters[256];
        println!("table byte {}: refusal {} n {} byte {}", byte, answer.refusal, answer.n, after);
    }
}
