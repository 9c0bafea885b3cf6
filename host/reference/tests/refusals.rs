//! Refusals, in order, and what refusal 5 judges.

mod common;

use common::*;
use songpigeon_reference::probe::*;
use songpigeon_reference::sections::*;
use songpigeon_reference::streams::*;

#[test]
fn the_lowest_refusal_wins_and_changes_nothing() {
    let mut p = Probe::at(100);
    p.state.run = 9;
    let (state, memory, counters, events) = (p.state.clone(), p.memory.clone(), p.counters.clone(), p.events);
    let bytes = Packet::on(0, 0).bytes();
    let late = LATEST_TIME + 1;
    let m = &mut p.memory;
    assert_eq!(packet(&mut p.state, m, late, &bytes[1..], &mut p.counters[1..], &mut p.events[1..]), Err(1));
    assert_eq!(packet(&mut p.state, m, late, &bytes, &mut p.counters[1..], &mut p.events[1..]), Err(2));
    assert_eq!(packet(&mut p.state, m, late, &bytes, &mut p.counters, &mut p.events[1..]), Err(3));
    assert_eq!(packet(&mut p.state, m, late, &bytes, &mut p.counters, &mut p.events), Err(4));
    assert_eq!(packet(&mut p.state, m, 99, &bytes, &mut p.counters, &mut p.events), Err(5));
    assert_eq!(clock(&mut p.state, m, late, &mut p.events[1..]), Err(3));
    assert_eq!(clock(&mut p.state, m, late, &mut p.events), Err(4));
    assert_eq!(clock(&mut p.state, m, 99, &mut p.events), Err(5));
    assert_eq!((&p.state, &p.memory, &p.counters, p.events), (&state, &memory, &counters, events));
    p.state.run = 1;
    assert_eq!(p.clock(99), Err(6));
}

#[test]
fn opening_is_refused_with_the_state_of_time_0() {
    let mut table = vec![9; COUNTERS];
    let zero = open(0, &mut vec![0; COUNTERS]).state;
    assert_eq!(open(LATEST_TIME + 1, &mut table), Opening { refusal: 4, state: zero.clone() });
    assert_eq!(open(LATEST_TIME + 1, &mut table[1..]), Opening { refusal: 2, state: zero });
    assert!(table.iter().all(|&byte| byte == 9));
    assert_eq!(open(LATEST_TIME, &mut table).state.since, [LATEST_TIME; 5]);
}

fn refusal_of(forge: impl Fn(&mut Probe)) -> Option<u32> {
    let mut p = Probe::at(50);
    forge(&mut p);
    p.clock(50).err()
}

#[test]
fn refusal_5_judges_what_the_paper_names() {
    let entry = |number, pid, since| Entry { number, pid, since };
    let five: [&dyn Fn(&mut Probe); 13] = [
        &|p| p.state.latest = LATEST_TIME + 1,
        &|p| p.state.since[4] = LATEST_TIME + 1,
        &|p| p.state.count = 17,
        &|p| (p.state.count, p.state.entries[0]) = (1, entry(0, 0x20, 0)),
        &|p| (p.state.count, p.state.entries[0]) = (1, entry(1, 0x1F, 0)),
        &|p| (p.state.count, p.state.entries[0]) = (1, entry(1, 0x1FFF, 0)),
        &|p| (p.state.count, p.state.entries[0]) = (1, entry(1, 0x20, LATEST_TIME + 1)),
        &|p| (p.state.count, p.state.entries[0], p.state.entries[1]) = (2, entry(1, 0x20, 0), entry(1, 0x21, 0)),
        &|p| p.state.run = 2,
        &|p| (p.state.lost, p.state.run) = (true, 5),
        &|p| (p.state.half[PAT], p.memory[0], p.memory[1], p.memory[2]) = (3, 0, 0, 0),
        &|p| (p.state.half[PAT], p.memory[0], p.memory[1], p.memory[2]) = (3, 0, 0x80, 8),
        &|p| p.state.half[20] = u16::MAX,
    ];
    for (k, forge) in five.iter().enumerate() {
        assert_eq!(refusal_of(forge), Some(5), "{}", k);
    }
    let none: [&dyn Fn(&mut Probe); 6] = [
        &|p| p.state.since[0] = LATEST_TIME,
        &|p| p.state.entries[0] = entry(0, 0, u64::MAX),
        &|p| (p.state.count, p.state.entries[0], p.state.entries[1]) = (2, entry(1, 0x20, 0), entry(2, 0x20, 0)),
        &|p| (p.state.lost, p.state.run) = (true, 4),
        &|p| (p.state.half[PAT], p.memory[0], p.memory[1]) = (2, 0, 0xFF),
        &|p| (p.state.half[20], p.memory[23_552]) = (1, 0xFF),
    ];
    for (k, forge) in none.iter().enumerate() {
        assert_eq!(refusal_of(forge), None, "{}", k);
    }
}

#[test]
fn refusal_5_looks_at_the_byte_of_the_13_bits() {
    for (byte, refusal) in
        [(1, true), (15, true), (16, false), (31, false), (32, true), (47, true), (48, false), (63, false), (64, true)]
    {
        let mut p = Probe::at(0);
        p.counters[0x0123] = byte;
        // judged no further: wrong first byte
        assert_eq!(p.packet(0, &Packet::on(0x0123, 0).first(0)).err(), refusal.then_some(5));
        assert_eq!(p.packet(0, &Packet::on(0x0124, 0)).err(), None);
    }
}
