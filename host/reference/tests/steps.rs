//! Steps 1 to 5, by their open points (docs/DECISIONS.md, K1 to K9).

mod common;

use common::*;
use songpigeon_reference::sections::*;
use songpigeon_reference::streams::*;

/// A probe whose SDT room holds 183 bytes, at counter 0.
fn half_built() -> Probe {
    let mut p = Probe::at(0);
    p.next(&Packet::pointed(SDT_PID, 0, 0, &section(0x42, 1, &[0; 200])));
    p
}

#[test]
fn adaptation_lengths() {
    let kept = |packets: &[Packet]| {
        let mut p = half_built();
        let said: usize = packets.iter().map(|packet| p.next(packet).len()).sum();
        (said, p.counters[0x11], p.state.half[SDT])
    };
    let on = |c| Packet::on(SDT_PID, c);
    // control 11 with a wrong length drops, also on a repeat
    assert_eq!(kept(&[on(1).field(3, 183, 0)]), (0, 17, 0));
    assert_eq!(kept(&[on(0).field(3, 255, 0)]), (0, 48, 0));
    // its indicator counts as 0
    assert_eq!(kept(&[on(5).field(3, 183, 0x80)]), (1, 21, 0));
    // control 10: equal changes nothing, another gives an event, half-built kept; a wrong length too
    assert_eq!(kept(&[on(0).field(2, 183, 0)]), (0, 16, 183));
    assert_eq!(kept(&[on(1).field(2, 183, 0)]), (1, 17, 183));
    assert_eq!(kept(&[on(0).field(2, 182, 0x80)]), (0, 16, 183));
    assert_eq!(kept(&[on(9).field(2, 0, 0)]), (1, 25, 183));
    assert_eq!(kept(&[on(0), on(0).field(2, 183, 0)]), (0, 48, 183));
    // the discontinuity indicator comes before the counter
    assert_eq!(kept(&[on(0).field(3, 1, 0x80)]), (0, 16, 0));
    assert_eq!(kept(&[on(7).field(2, 183, 0x80)]), (0, 23, 0));
    // length 0 has none
    assert_eq!(kept(&[on(0).field(3, 0, 0)]), (0, 48, 183));
}

#[test]
fn counters_of_step_4() {
    let on = |c| Packet::on(SDT_PID, c);
    let mut p = half_built();
    assert_eq!(p.next(&on(0)), SILENT);
    assert_eq!((p.counters[0x11], p.state.half[SDT]), (48, 183));
    assert_eq!(p.next(&on(0)), [(0x000E, 0, 0x11)]);
    assert_eq!((p.counters[0x11], p.state.half[SDT]), (48, 183));
    // any other: dropped, and the payload is taken
    assert_eq!(p.next(&Packet::sections(SDT_PID, 5, &[&sdt()])), [(0x000E, 0, 0x11)]);
    assert_eq!((p.counters[0x11], p.state.half[SDT], p.state.since[SDT]), (21, 0, 4));
    // a PID is seen by control 10 too
    let mut p = Probe::at(0);
    p.next(&Packet::on(0x200, 3).field(2, 183, 0));
    assert_eq!(p.counters[0x200], 19);
    assert_eq!(p.next(&Packet::on(0x200, 5)), [(0x000E, 0, 0x200)]);
}

#[test]
fn packets_judged_no_further() {
    let mut p = half_built();
    assert_eq!(p.next(&Packet::on(SDT_PID, 9).error().scrambled(1)), [(0x0011, 0, 0x11)]);
    assert_eq!(p.next(&Packet::on(SDT_PID, 9).control(0).scrambled(1)), SILENT);
    assert_eq!(p.next(&Packet::on(SDT_PID, 9).first(0x48)), [(0x000D, 0, 0x11)]);
    assert_eq!((p.counters[0x11], p.state.half[SDT], p.state.run), (16, 183, 1));
    assert_eq!(p.next(&Packet::on(NULL_PID, 9)), SILENT);
    assert_eq!((p.counters[0x1FFF], p.state.run), (0, 0));
    // the error bit comes before PID 0x1FFF
    assert_eq!(p.next(&Packet::on(NULL_PID, 9).error()), [(0x0011, 0, 0x1FFF)]);
}

#[test]
fn scrambling() {
    let mut p = listing(&[(1, 0x100), (2, 0x100)]);
    assert_eq!(p.next(&Packet::on(0, 1).scrambled(1)), [(0x0009, 3, 0)]);
    // on a repeat, without payload and with a wrong length too; after 0x000E
    assert_eq!(p.next(&Packet::on(0, 1).scrambled(2)), [(0x0009, 3, 0)]);
    assert_eq!(p.next(&Packet::on(0, 1).scrambled(3).field(2, 183, 0)), [(0x0009, 3, 0)]);
    assert_eq!(p.next(&Packet::on(0, 1).scrambled(3).field(3, 200, 0)), [(0x000E, 0, 0), (0x0009, 3, 0)]);
    // one event, with the PID, though two programmes share it
    assert_eq!(p.next(&Packet::on(0x100, 0).scrambled(1)), [(0x000F, 3, 0x100)]);
    assert_eq!(p.next(&Packet::on(0x101, 0).scrambled(1)), SILENT);
    let mut p = half_built();
    assert_eq!(p.next(&Packet::on(SDT_PID, 0).scrambled(1)), SILENT);
    assert_eq!(p.state.half[SDT], 0);
}

#[test]
fn sync() {
    // one wrong byte keeps half-built sections, the second drops all
    let mut p = half_built();
    let wrong = Packet::on(0x1FFF, 0).first(0);
    p.next(&wrong);
    assert_eq!(p.state.half[SDT], 183);
    p.next(&wrong);
    assert_eq!((p.state.half[SDT], p.state.lost, p.state.run), (0, true, 0));
    // null and erroneous packets count, clock calls do not break a run, a wrong byte does
    for _ in 0..4 {
        p.next(&Packet::on(NULL_PID, 0).error());
    }
    assert_eq!(p.state.run, 4);
    p.next(&wrong);
    assert_eq!(p.state.run, 0);
    for _ in 0..4 {
        p.next(&Packet::on(NULL_PID, 0));
        p.clock(p.time).unwrap();
    }
    // judged by the counters from before the loss
    assert_eq!(p.next(&Packet::on(SDT_PID, 2)), [(0x000E, 0, 0x11)]);
    assert!(!p.state.lost);
}
