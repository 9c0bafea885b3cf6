//! Watches and the list, by their open points (docs/DECISIONS.md, W1 to W7).

mod common;

use common::*;
use songpigeon_reference::probe::*;
use songpigeon_reference::sections::*;
use songpigeon_reference::streams::*;

#[test]
fn an_arrival_one_tick_past_the_limit_is_late() {
    let mut p = Probe::at(0);
    let pat = Packet::sections(0, 0, &[&pat(&[])]);
    assert_eq!(p.packet(13_500_001, &pat), Ok(vec![(13_500_000, 0x0009, 1, 0)]));
    assert_eq!(p.clock(27_000_001), Ok(vec![]));
    assert_eq!(p.clock(27_000_002), Ok(vec![(27_000_001, 0x0009, 1, 0)]));
}

#[test]
fn lateness_is_judged_in_every_accepted_call() {
    for packet in [
        Packet::on(0, 0).first(0),
        Packet::on(0x123, 0).error(),
        Packet::on(NULL_PID, 0),
        Packet::on(0x123, 0).control(0),
    ] {
        let mut p = Probe::at(0);
        assert_eq!(p.packet(13_500_001, &packet).unwrap()[0], (13_500_000, 0x0009, 1, 0));
    }
    let mut p = Probe::at(0);
    p.next(&Packet::on(0, 0).first(0));
    p.next(&Packet::on(0, 0).first(0));
    assert_eq!(p.packet(13_500_001, &Packet::on(0, 0)), Ok(vec![(13_500_000, 0x0009, 1, 0)]));
}

#[test]
fn order_of_late_events() {
    let mut p = listing(&[(9, 0x100), (3, 0x101)]);
    let expected = [
        (13_500_001, 0x0009, 1, 0),
        (270_000_000, 0x0001, 1, 0x10),
        (54_000_000, 0x0002, 1, 0x11),
        (54_000_000, 0x0004, 1, 0x12),
        (810_000_000, 0x0008, 1, 0x14),
        (13_500_001, 0x000F, 1, 9),
        (13_500_001, 0x000F, 1, 3),
    ];
    assert_eq!(p.clock(LATEST_TIME).unwrap(), expected);
}

#[test]
fn pairs_keep_begin_and_end_their_watches() {
    let mut p = listing(&[(1, 0x100), (2, 0x101), (3, 0x102)]);
    p.next(&Packet::sections(0, 1, &[&pat(&[(3, 0x102), (2, 0x100), (1, 0x100)])]));
    // an old number on a new PID is a new pair; order is the new list's
    assert_eq!(p.list(), [(3, 0x102, 1), (2, 0x100, 2), (1, 0x100, 1)]);
    // a pair that went and came back begins anew, in one packet too
    p.next(&Packet::sections(0, 2, &[&pat(&[(1, 0x100)]), &pat(&[(1, 0x100), (3, 0x102)])]));
    assert_eq!(p.list(), [(1, 0x100, 1), (3, 0x102, 3)]);
    // a watch that ends in a call has its late event in that call
    assert_eq!(
        p.packet(13_500_004, &Packet::sections(0, 3, &[&pat(&[])])).unwrap()[1..],
        [(13_500_001, 0x000F, 1, 1), (13_500_003, 0x000F, 1, 3)]
    );
    assert_eq!(p.list(), []);
    assert_eq!(p.state.entries, [Entry::default(); 16]);
}

#[test]
fn bad_lists() {
    let of = |body: &[u8]| {
        let mut p = Probe::at(0);
        let said = p.next(&Packet::sections(0, 0, &[&section(0, 1, body)]));
        assert_eq!(p.state.since[PAT], 1);
        (said == [(0x0009, 4, 0)], p.list().into_iter().map(|e| (e.0, e.1)).collect::<Vec<_>>())
    };
    assert_eq!(
        of(&programmes(&[(1, 0x1F), (2, 0x20), (3, 0x1FFE), (4, 0x1FFF)])),
        (true, vec![(2, 0x20), (3, 0x1FFE)])
    );
    // the same pair twice; a number seen in an unusable entry
    assert_eq!(of(&programmes(&[(1, 0x20), (1, 0x20)])), (true, vec![(1, 0x20)]));
    assert_eq!(of(&programmes(&[(1, 0x1F), (1, 0x20)])), (true, vec![]));
    // programme 0 is passed over always
    assert_eq!(of(&programmes(&[(0, 0x10), (0, 0x10), (0, 0x1FFF), (1, 0x20)])), (false, vec![(1, 0x20)]));
    let mut many: Vec<(u16, u16)> = (1..=16).map(|k| (k, 0x100)).collect();
    many.push((0, 0));
    assert!(!of(&programmes(&many)).0);
    for spare in 1..4 {
        let body = [&programmes(&[(1, 0x20)])[..], &[0; 3][..spare]].concat();
        assert_eq!(of(&body), (true, vec![(1, 0x20)]));
    }
    assert_eq!(of(&[]), (false, vec![]));
}

#[test]
fn half_built_sections_follow_their_pid() {
    let mut p = listing(&[(1, 0x100), (2, 0x101), (3, 0x102)]);
    let whole = section(0x02, 2, &[0x33; 200]);
    p.next(&Packet::pointed(0x100, 0, 0, &section(0x02, 1, &[0x11; 200])));
    p.next(&Packet::pointed(0x101, 0, 0, &whole));
    assert_eq!(p.state.half[5..9], [183, 183, 0, 0]);
    // 0x101 goes to the first place under another number; 0x100 leaves
    p.next(&Packet::sections(0, 1, &[&pat(&[(7, 0x101), (2, 0x101)])]));
    assert_eq!(p.state.half[5..9], [183, 0, 0, 0]);
    assert_eq!(p.memory[8_192..8_192 + 183], whole[..183]);
    assert_eq!(p.memory[9_216..9_216 + 183], whole[..183]);
    p.next(&Packet::on(0x101, 1).payload(&whole[183..]));
    assert_eq!(p.list(), [(7, 0x101, 4), (2, 0x101, 5)]);
    // a PID that leaves loses its bytes even if it comes back in the same packet
    p.next(&Packet::pointed(0x101, 2, 0, &whole));
    p.next(&Packet::sections(0, 2, &[&pat(&[]), &pat(&[(2, 0x101)])]));
    assert_eq!(p.state.half[5..], [0; 16]);
}

#[test]
fn two_programmes_on_one_pid_are_two_watches() {
    let mut p = listing(&[(1, 0x100), (2, 0x100)]);
    p.next(&Packet::sections(0x100, 0, &[&pmt(2)]));
    assert_eq!(p.list(), [(1, 0x100, 1), (2, 0x100, 2)]);
}

#[test]
fn the_greatest_number_of_events() {
    let list: Vec<(u16, u16)> = (1..=16).map(|k| (k, 0x100)).collect();
    let mut p = listing(&list);
    let packet = Packet::on(0x100, 0).payload(&[0; 184]);
    p.next(&packet);
    // 21 late, one 0x000E, and 61 sections of three bytes
    let said = p.packet(LATEST_TIME, &Packet::on(0x100, 5).started().payload(&[0; 184])).unwrap();
    assert_eq!(said.len(), 83);
}
