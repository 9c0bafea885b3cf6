//! The example of the README: five seconds of a multiplex with late, torn and missing tables.

use crate::{case, Case, Log};
use songpigeon_reference::streams::*;

/// Ticks of 27 MHz.
const MS: u64 = 27_000;

fn list() -> Vec<u8> {
    pat(&[(1, 0x0100), (2, 0x0200)])
}

fn on(pid: u16, counter: u8, section: &[u8]) -> Packet {
    Packet::sections(pid, counter, &[section])
}

pub fn cases() -> Vec<Case> {
    let log = Log::open(0)
        // all tables, and the pages of both programmes
        .packet(100 * MS, &on(PAT_PID, 0, &list()))
        .packet(110 * MS, &on(NIT_PID, 0, &nit()))
        .packet(120 * MS, &on(SDT_PID, 0, &sdt()))
        .packet(130 * MS, &on(EIT_PID, 0, &eit(1)))
        .packet(140 * MS, &on(TDT_PID, 0, &tdt()))
        .packet(200 * MS, &on(0x0100, 0, &pmt(1)))
        .packet(210 * MS, &on(0x0200, 0, &pmt(2)))
        // a torn page of programme 2, so that its next one is late
        .packet(500 * MS, &on(PAT_PID, 1, &list()))
        .packet(600 * MS, &on(0x0100, 1, &pmt(1)))
        .packet(610 * MS, &on(0x0200, 1, &torn(pmt(2))))
        // a picture stream that loses two packets
        .packet(650 * MS, &Packet::on(0x0101, 4))
        .packet(660 * MS, &Packet::on(0x0101, 7))
        .clock(750 * MS)
        .packet(800 * MS, &on(0x0200, 2, &pmt(2)))
        // a PAT that is scrambled, and then one that comes too late
        .packet(900 * MS, &on(PAT_PID, 2, &list()).scrambled(2))
        .packet(1_000 * MS, &on(0x0100, 2, &pmt(1)))
        .packet(1_050 * MS, &on(PAT_PID, 3, &list()))
        // the cable: two wrong sync bytes, then five right ones
        .packet(1_100 * MS, &Packet::on(0x0101, 8).first(0x00))
        .packet(1_101 * MS, &Packet::on(0x0101, 9).first(0x00))
        .packets(1_102 * MS, &(10..14).map(|n| Packet::on(0x0101, n)).collect::<Vec<_>>())
        .packet(1_110 * MS, &Packet::on(0x0101, 14).error())
        // a list with an entry on a PID that is kept for tables
        .packet(1_200 * MS, &on(PAT_PID, 4, &pat(&[(1, 0x0100), (2, 0x0200), (3, 0x001F)])))
        .packet(1_210 * MS, &on(0x0100, 3, &pmt(1)))
        .packet(1_220 * MS, &on(0x0200, 3, &pmt(2)))
        // no SDT and no EIT any more
        .packet(1_600 * MS, &on(PAT_PID, 5, &list()))
        .packet(1_610 * MS, &on(0x0100, 4, &pmt(1)))
        .packet(1_620 * MS, &on(0x0200, 4, &pmt(2)))
        .packet(2_000 * MS, &on(PAT_PID, 6, &list()))
        .packet(2_010 * MS, &on(0x0100, 5, &pmt(1)))
        .packet(2_020 * MS, &on(0x0200, 5, &pmt(2)))
        .clock(2_400 * MS);
    vec![case(
        "readme",
        "The example of the README: late, torn and missing tables.",
        log,
        &[
            "16470000 0012 0 0200",
            "17820000 000e 0 0101",
            "19170000 000f 1 0002",
            "24300000 0009 3 0000",
            "27000000 0009 1 0000",
            "29700000 000d 0 0101",
            "29727000 000d 0 0101",
            "29727000 000c 0 0101",
            "29970000 0011 0 0101",
            "32400000 0009 4 0000",
            "57240000 0002 1 0011",
            "57510000 0004 1 0012",
        ],
    )]
}
