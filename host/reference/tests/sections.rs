//! "Building sections", by its open points (docs/DECISIONS.md, S1 to S12).

mod common;

use common::*;
use songpigeon_reference::sections::*;
use songpigeon_reference::streams::*;

#[test]
fn a_bad_length_ignores_the_rest_wherever_it_stood() {
    let mut p = Probe::at(0);
    // a section that begins at the payload's end: its length comes with the next packet's first p bytes
    let mut payload = vec![0xFF; 184];
    payload[0] = 181;
    (payload[182], payload[183]) = (0x00, 0xBF);
    assert_eq!(p.next(&Packet::on(0, 0).started().payload(&payload)), SILENT);
    assert_eq!(p.state.half[PAT], 2);
    let rest = [&[0xFF][..], &pat(&[(1, 0x100)])].concat();
    assert_eq!(p.next(&Packet::pointed(0, 1, 1, &rest)), [(0x0012, 4, 0)]);
    assert_eq!((p.state.since[PAT], p.state.half[PAT]), (0, 0));
    // the next packet begins clean
    assert_eq!(p.next(&Packet::on(0, 2).payload(&pat(&[]))), SILENT);
    assert_eq!(p.next(&Packet::sections(0, 3, &[&pat(&[])])), SILENT);
    assert_eq!(p.state.since[PAT], p.time);
}

#[test]
fn what_was_finished_before_a_bad_length_counts() {
    let mut p = Probe::at(0);
    assert_eq!(p.next(&Packet::sections(0, 0, &[&pat(&[]), &[0, 0xB0, 8], &pat(&[(1, 0x100)])])), [(0x0012, 4, 0)]);
    assert_eq!((p.state.since[PAT], p.state.count), (1, 0));
}

#[test]
fn cut_off_sections_are_silent() {
    let whole = section(0x42, 1, &[0; 200]);
    for pointer in [0, 5] {
        let mut p = Probe::at(0);
        p.next(&Packet::pointed(SDT_PID, 0, 0, &whole));
        assert_eq!(p.state.half[SDT], 183);
        let bytes = [&vec![0; usize::from(pointer)][..], &sdt()].concat();
        assert_eq!(p.next(&Packet::pointed(SDT_PID, 1, pointer, &bytes)), SILENT);
        assert_eq!((p.state.half[SDT], p.state.since[SDT]), (0, 2));
    }
}

#[test]
fn nothing_begins_behind_a_continued_section() {
    let whole = section(0x42, 1, &[0; 200]);
    let mut p = Probe::at(0);
    p.next(&Packet::pointed(SDT_PID, 0, 0, &whole));
    p.next(&Packet::on(SDT_PID, 1).payload(&[&whole[183..], &torn(sdt())].concat()));
    assert_eq!((p.state.half[SDT], p.state.since[SDT]), (0, 2));
    // among the p bytes neither
    p.next(&Packet::pointed(SDT_PID, 2, 0, &whole));
    let rest = [&whole[183..], &torn(sdt()), &sdt()].concat();
    let pointer = (rest.len() - sdt().len()) as u8;
    assert_eq!(p.next(&Packet::pointed(SDT_PID, 3, pointer, &rest)), SILENT);
    assert_eq!(p.state.since[SDT], 4);
}

#[test]
fn an_unusable_pointer_is_measured_by_the_payload() {
    let whole = section(0x42, 1, &[0; 200]);
    let mut p = Probe::at(0);
    p.next(&Packet::pointed(SDT_PID, 0, 0, &whole));
    // a payload of one byte
    p.next(&Packet::on(SDT_PID, 1).started().field(3, 182, 0).payload(&[0]));
    assert_eq!(p.state.half[SDT], 0);
    // the rest would have finished the section
    p.next(&Packet::pointed(SDT_PID, 2, 0, &whole));
    assert_eq!(p.next(&Packet::pointed(SDT_PID, 3, 183, &whole[183..])), SILENT);
    assert_eq!((p.state.half[SDT], p.state.since[SDT]), (0, 0));
}

#[test]
fn stuffing_ends_the_reading_at_any_section_start() {
    let mut p = Probe::at(0);
    p.next(&Packet::sections(SDT_PID, 0, &[&nit(), &[0xFF], &sdt()]));
    assert_eq!(p.state.since[SDT], 0);
    // inside a section it is data
    p.next(&Packet::sections(SDT_PID, 1, &[&section(0x42, 0xFFFF, &[0xFF; 9])]));
    assert_eq!(p.state.since[SDT], 2);
}

#[test]
fn finished_sections() {
    let on = |pid, section: &[u8]| {
        let mut p = listing(&[(1, 0x100)]);
        let said = p.next(&Packet::sections(pid, 1, &[section]));
        (said, p.state.since.iter().position(|&t| t == 2), p.state.entries[0].since == 2)
    };
    let nothing = (vec![], None, false);
    // CRC, for any table_id where the indicator is 1, and for 0x73
    assert_eq!(on(NIT_PID, &torn(section(0x99, 1, &[]))).0, [(0x0012, 0, 0x10)]);
    assert_eq!(on(TDT_PID, &torn(tot())).0, [(0x0012, 0, 0x14)]);
    assert_eq!(on(TDT_PID, &tot()), nothing);
    assert_eq!(on(0, &torn(section(0x99, 1, &[]))).0, [(0x0012, 0, 0)]);
    // cause 2 asks neither current_next 1 nor the indicator
    assert_eq!(on(0, &section_with(0x01, 1, 0, &[])).0, [(0x0009, 2, 0)]);
    assert_eq!(on(0, &short_section(0x70, &[0; 5])).0, [(0x0009, 2, 0)]);
    assert_eq!(on(0x100, &section(0x03, 1, &[])).0, [(0x000F, 2, 0x100)]);
    assert_eq!(on(0, &short_section(0x00, &[0; 20])), nothing);
    assert_eq!(on(0x100, &short_section(0x02, &[0; 20])), nothing);
    // not yet current
    assert_eq!(on(0, &section_with(0x00, 1, 0, &[1, 2, 3])), nothing);
    assert_eq!(on(NIT_PID, &section_with(0x40, 1, 0, &[])), nothing);
    // good
    assert_eq!(on(0, &pat(&[])).1, Some(PAT));
    assert_eq!(on(NIT_PID, &nit()).1, Some(NIT));
    assert_eq!(on(SDT_PID, &sdt()).1, Some(SDT));
    assert_eq!(on(EIT_PID, &eit(7)).1, Some(EIT));
    assert_eq!(on(TDT_PID, &tdt()).1, Some(TDT));
    assert!(on(0x100, &pmt(1)).2);
    // another programme, another table, another PID
    assert_eq!(on(0x100, &pmt(2)), nothing);
    for (pid, section) in
        [(NIT_PID, section(0x41, 1, &[])), (SDT_PID, section(0x46, 1, &[])), (SDT_PID, section(0x4A, 1, &[]))]
    {
        assert_eq!(on(pid, &section), nothing);
    }
    assert_eq!(on(EIT_PID, &section(0x4F, 1, &[])), nothing);
    assert_eq!(on(EIT_PID, &section(0x50, 1, &[])), nothing);
    assert_eq!(on(SDT_PID, &eit(1)), nothing);
    // a TDT is exact; reserved bits never matter
    assert_eq!(on(TDT_PID, &short_section(0x70, &[0; 6])), nothing);
    assert_eq!(on(TDT_PID, &section(0x70, 1, &[])), nothing);
    assert_eq!(on(TDT_PID, &[0x70, 0x00, 5, 0, 0, 0, 0, 0]).1, Some(TDT));
}

#[test]
fn lengths_at_their_limits() {
    let long = |pid, id, n: usize| {
        let mut p = Probe::at(0);
        let bytes = [&[0][..], &section(id, 1, &vec![0; n - 12])].concat();
        let mut said = Vec::new();
        for (k, part) in bytes.chunks(184).enumerate() {
            let packet = Packet::on(pid, k as u8 % 16).payload(part);
            said.extend(p.next(&if k == 0 { packet.started() } else { packet }));
        }
        (said, p.state.since)
    };
    let (said, since) = long(SDT_PID, 0x42, 1_024);
    assert_eq!((said, since[SDT]), (vec![], 6));
    assert_eq!(long(SDT_PID, 0x42, 1_025).0, [(0x0012, 4, 0x11)]);
    let (said, since) = long(EIT_PID, 0x4E, 4_096);
    assert_eq!((said, since[EIT]), (vec![], 23));
    assert_eq!(long(EIT_PID, 0x4E, 4_097).0, [(0x0012, 4, 0x12)]);
}
