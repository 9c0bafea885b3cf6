//! P1 to P10 of document 01; P9 is in `severity`.

mod common;

use common::*;
use songpigeon_reference::probe::*;
use songpigeon_reference::sections::*;
use songpigeon_reference::streams::*;

#[test]
fn p1_187_and_189_bytes() {
    let mut p = Probe::at(0);
    for n in [0, 187, 189] {
        let result = packet(&mut p.state, &mut p.memory, 0, &vec![0x47; n], &mut p.counters, &mut p.events);
        assert_eq!(result, Err(1));
    }
}

#[test]
fn p2_time_equal_to_the_latest() {
    let mut p = Probe::at(100);
    assert_eq!(p.clock(100), Ok(vec![]));
    assert_eq!(p.clock(99), Err(6));
    assert_eq!(p.packet(100, &Packet::on(NULL_PID, 0)), Ok(vec![]));
    assert_eq!(p.packet(99, &Packet::on(NULL_PID, 0)), Err(6));
}

#[test]
fn p3_p4_a_gap_gives_one_event() {
    let mut p = Probe::at(0);
    assert_eq!(p.clock(13_500_000), Ok(vec![]));
    assert_eq!(p.clock(13_500_001), Ok(vec![(13_500_000, 0x0009, 1, 0)]));
    assert_eq!(p.clock(40_000_000), Ok(vec![]));
    let mut p = Probe::at(0);
    assert_eq!(p.clock(40_000_000), Ok(vec![(13_500_000, 0x0009, 1, 0)]));
    assert_eq!(p.clock(40_000_000), Ok(vec![]));
}

#[test]
fn p5_three_wrong_sync_bytes() {
    let mut p = Probe::at(0);
    let wrong = Packet::on(0x0123, 0).first(0x46);
    assert_eq!(p.next(&wrong), [(0x000D, 0, 0x0123)]);
    assert_eq!(p.next(&wrong), [(0x000D, 0, 0x0123), (0x000C, 0, 0x0123)]);
    assert_eq!(p.next(&wrong), SILENT);
}

#[test]
fn p6_the_fifth_right_byte_is_judged() {
    let mut p = Probe::at(0);
    let wrong = Packet::on(0x0123, 0).first(0);
    p.next(&wrong);
    p.next(&wrong);
    let error = Packet::on(0x0123, 0).error();
    for _ in 0..4 {
        assert_eq!(p.next(&error), SILENT);
    }
    assert_eq!(p.next(&error), [(0x0011, 0, 0x0123)]);
}

#[test]
fn p7_counters() {
    let run = |counters: &[u8]| {
        let mut p = Probe::at(0);
        counters.iter().map(|&c| p.next(&Packet::on(0x0100, c)).len()).sum::<usize>()
    };
    assert_eq!(run(&[15, 0]), 0);
    assert_eq!(run(&[3, 3]), 0);
    assert_eq!(run(&[3, 3, 3]), 1);
    assert_eq!(run(&[3, 5]), 1);
}

#[test]
fn p8_pointer_182_is_usable() {
    // a section of one byte begins at the payload's last byte
    let mut payload = vec![0xFF; 184];
    payload[183] = 0x40;
    payload[0] = 182;
    let mut p = Probe::at(0);
    p.next(&Packet::on(NIT_PID, 0).started().payload(&payload));
    assert_eq!(p.state.half[NIT], 1);
    payload[0] = 183;
    p.next(&Packet::on(NIT_PID, 1).started().payload(&payload));
    assert_eq!(p.state.half[NIT], 0);
}

#[test]
fn p10_seventeen_entries() {
    let list: Vec<(u16, u16)> = (1..=17).map(|k| (k, 0x0100 + k)).collect();
    let mut p = Probe::at(0);
    assert_eq!(p.next(&Packet::sections(PAT_PID, 0, &[&pat(&list)])), [(0x0009, 4, 0)]);
    assert_eq!(p.list(), list[..16].iter().map(|&(n, q)| (n, q, 1)).collect::<Vec<_>>());
}
