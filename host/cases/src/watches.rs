//! "Watches and lateness".

use crate::{case, Case, Log};
use songpigeon_reference::streams::*;

/// A log in which a table's gap is as long as its limit, or one tick longer.
fn limit(name: &'static str, why: &'static str, gap: u64, lines: &[&str]) -> Case {
    case(name, why, Log::open(1_000).clock(1_000 + gap), lines)
}

/// A good PAT at 0 with this list.
fn listing(list: &[(u16, u16)]) -> Log {
    Log::open(0).packet(0, &Packet::sections(PAT_PID, 0, &[&pat(list)]))
}

fn on(pid: u16, counter: u8, section: &[u8]) -> Packet {
    Packet::sections(pid, counter, &[section])
}

pub fn cases() -> Vec<Case> {
    [limits(), stamps(), ends(), every_call(), programmes()].into_iter().flatten().collect()
}

fn limits() -> Vec<Case> {
    let pat = "13501000 0009 1 0000";
    let (sdt, eit) = ("54001000 0002 1 0011", "54001000 0004 1 0012");
    let nit = "270001000 0001 1 0010";
    vec![
        limit("late-pat-13500000", "P3: a PAT gap of 13,500,000 is silent.", 13_500_000, &[]),
        limit("late-pat-13500001", "P3: a PAT gap of 13,500,001 is late.", 13_500_001, &[pat]),
        limit("late-sdt-eit-54000000", "SDT and EIT gaps of 54,000,000 are silent.", 54_000_000, &[pat]),
        limit(
            "late-sdt-eit-54000001",
            "SDT and EIT gaps of 54,000,001 are late, in table order.",
            54_000_001,
            &[pat, sdt, eit],
        ),
        limit("late-nit-270000000", "A NIT gap of 270,000,000 is silent.", 270_000_000, &[pat, sdt, eit]),
        limit(
            "late-nit-270000001",
            "A NIT gap of 270,000,001 is late; the NIT stands second in the table.",
            270_000_001,
            &[pat, nit, sdt, eit],
        ),
        limit("late-tdt-810000000", "A TDT gap of 810,000,000 is silent.", 810_000_000, &[pat, nit, sdt, eit]),
        limit(
            "late-tdt-810000001",
            "A TDT gap of 810,000,001 is late; the TDT stands last.",
            810_000_001,
            &[pat, nit, sdt, eit, "810001000 0008 1 0014"],
        ),
    ]
}

fn stamps() -> Vec<Case> {
    vec![
        case(
            "late-once",
            "P4: a PAT gap of 40,000,000 gives one event, not one at each call.",
            Log::open(0)
                .clock(13_500_001)
                .clock(13_500_002)
                .packet(30_000_000, &Packet::on(NULL_PID, 0))
                .clock(40_000_000),
            &["13500000 0009 1 0000"],
        ),
        case(
            "late-once-at-one-time",
            "Two calls at one time: the first hands the event over, the second nothing.",
            Log::open(0).clock(13_500_001).clock(13_500_001),
            &["13500000 0009 1 0000"],
        ),
        case(
            "late-call-at-the-stamp",
            "An event is handed over by the first call whose time exceeds the stamp: a call at the stamp does not.",
            Log::open(0).clock(13_500_000).clock(13_500_000).clock(20_000_000),
            &["13500000 0009 1 0000"],
        ),
        case(
            "late-stamp-is-not-the-call",
            "The stamp is gap start + limit, however late the call.",
            Log::open(3).clock(50_000_000),
            &["13500003 0009 1 0000"],
        ),
        case(
            "late-again-in-the-next-gap",
            "Each gap that is too long gives its event: one before the PAT, one after it.",
            Log::open(0)
                .clock(14_000_000)
                .packet(20_000_000, &on(PAT_PID, 0, &pat(&[])))
                .clock(33_500_000)
                .clock(33_500_001),
            &["13500000 0009 1 0000", "33500000 0009 1 0000"],
        ),
        case(
            "late-arrival-past-the-limit",
            "A PAT one tick past the limit: the late event, and the next gap starts at this packet.",
            Log::open(0).packet(13_500_001, &on(PAT_PID, 0, &pat(&[]))).clock(27_000_001).clock(27_000_002),
            &["13500000 0009 1 0000", "27000001 0009 1 0000"],
        ),
        case(
            "late-arrival-at-the-limit",
            "A PAT at the limit ends the gap in time.",
            Log::open(0).packet(13_500_000, &on(PAT_PID, 0, &pat(&[]))).clock(27_000_000),
            &[],
        ),
        case(
            "late-before-the-packet",
            "Lateness is judged before the packet itself: the late event comes first, with its own stamp.",
            Log::open(0).packet(20_000_000, &Packet::on(0x0100, 0).error()),
            &["13500000 0009 1 0000", "20000000 0011 0 0100"],
        ),
    ]
}

/// A log at whose end the watch of a PID would be silent if this section had ended its gap.
fn ends_nothing(name: &'static str, why: &'static str, pid: u16, section: &[u8], end: u64, lines: &[&str]) -> Case {
    case(name, why, Log::open(0).packet(10, &on(pid, 0, section)).clock(end), lines)
}

fn ends() -> Vec<Case> {
    let pat_late = "13500000 0009 1 0000";
    let (sdt_late, eit_late) = ("54000000 0002 1 0011", "54000000 0004 1 0012");
    let two = section(0x42, 1, &[0; 200]);
    let all = Log::open(0)
        .packet(10, &on(PAT_PID, 0, &pat(&[])))
        .packet(11, &on(NIT_PID, 0, &nit()))
        .packet(12, &on(SDT_PID, 0, &sdt()))
        .packet(13, &on(EIT_PID, 0, &eit(0x1234)))
        .packet(14, &on(TDT_PID, 0, &tdt()))
        .clock(1_000_000_000);
    vec![
        case(
            "each-table-arrives",
            "A good section of each table ends its gap: every stamp counts from the arrival.",
            all,
            &[
                "13500010 0009 1 0000",
                "270000011 0001 1 0010",
                "54000012 0002 1 0011",
                "54000013 0004 1 0012",
                "810000014 0008 1 0014",
            ],
        ),
        ends_nothing(
            "pid-0-without-a-pat",
            "Not any packet on PID 0 ends the PAT gap: this one has no section.",
            PAT_PID,
            &[],
            13_500_001,
            &[pat_late],
        ),
        ends_nothing(
            "torn-pat-ends-nothing",
            "A PAT with a wrong CRC ends no gap.",
            PAT_PID,
            &torn(pat(&[])),
            13_500_001,
            &["10 0012 0 0000", pat_late],
        ),
        ends_nothing(
            "pat-not-current",
            "A PAT with current_next_indicator 0 is not good, and says nothing.",
            PAT_PID,
            &section_with(0, 1, 0, &[1, 2, 3]),
            13_500_001,
            &[pat_late],
        ),
        ends_nothing(
            "pat-without-indicator",
            "table_id 0x00 with indicator 0 on PID 0 says nothing and is not good.",
            PAT_PID,
            &short_section(0, &[0; 9]),
            13_500_001,
            &[pat_late],
        ),
        ends_nothing(
            "nit-other",
            "NIT other (0x41) ends no gap.",
            NIT_PID,
            &section(0x41, 1, &[0; 4]),
            270_000_001,
            &[pat_late, "270000000 0001 1 0010", sdt_late, eit_late],
        ),
        ends_nothing(
            "sdt-other",
            "SDT other (0x46) ends no gap.",
            SDT_PID,
            &section(0x46, 1, &[0; 3]),
            54_000_001,
            &[pat_late, sdt_late, eit_late],
        ),
        ends_nothing(
            "bat",
            "A BAT (0x4A) on the SDT's PID ends no gap and gives no event.",
            SDT_PID,
            &section(0x4A, 1, &[0; 4]),
            54_000_001,
            &[pat_late, sdt_late, eit_late],
        ),
        ends_nothing(
            "eit-other",
            "EIT present/following of another stream (0x4F) ends no gap.",
            EIT_PID,
            &section(0x4F, 1, &[0; 6]),
            54_000_001,
            &[pat_late, sdt_late, eit_late],
        ),
        ends_nothing(
            "eit-schedule",
            "An EIT schedule (0x50) ends no gap.",
            EIT_PID,
            &section(0x50, 1, &[0; 6]),
            54_000_001,
            &[pat_late, sdt_late, eit_late],
        ),
        ends_nothing(
            "eit-on-the-sdt-pid",
            "An EIT on the SDT's PID ends neither gap.",
            SDT_PID,
            &eit(1),
            54_000_001,
            &[pat_late, sdt_late, eit_late],
        ),
        ends_nothing(
            "sdt-not-current",
            "An SDT with current_next_indicator 0 ends no gap.",
            SDT_PID,
            &section_with(0x42, 1, 0, &[0; 3]),
            54_000_001,
            &[pat_late, sdt_late, eit_late],
        ),
        ends_nothing(
            "eit-of-any-service",
            "An EIT 0x4E of any service ends the gap.",
            EIT_PID,
            &eit(0xFFFF),
            54_000_001,
            &[pat_late, sdt_late],
        ),
        ends_nothing(
            "tot",
            "A TOT (0x73) ends no gap.",
            TDT_PID,
            &tot(),
            810_000_001,
            &[pat_late, "270000000 0001 1 0010", sdt_late, eit_late, "810000000 0008 1 0014"],
        ),
        ends_nothing(
            "tdt-of-length-6",
            "A TDT has section_length 5 exactly.",
            TDT_PID,
            &short_section(0x70, &[0; 6]),
            810_000_001,
            &[pat_late, "270000000 0001 1 0010", sdt_late, eit_late, "810000000 0008 1 0014"],
        ),
        ends_nothing(
            "tdt-with-indicator",
            "A TDT has indicator 0; with 1 its CRC is judged, and it ends no gap.",
            TDT_PID,
            &section(0x70, 1, &[]),
            810_000_001,
            &[pat_late, "270000000 0001 1 0010", sdt_late, eit_late, "810000000 0008 1 0014"],
        ),
        ends_nothing(
            "tdt-reserved-bits",
            "A TDT has no CRC, and its reserved bits do not matter.",
            TDT_PID,
            &[0x70, 0x00, 5, 1, 2, 3, 4, 5],
            810_000_001,
            &[pat_late, "270000000 0001 1 0010", sdt_late, eit_late],
        ),
        case(
            "arrival-is-the-completing-packet",
            "A section arrives at the time of the packet that completes it.",
            Log::open(0)
                .packet(10, &Packet::pointed(SDT_PID, 0, 0, &two))
                .packet(20, &Packet::on(SDT_PID, 1).payload(&two[183..]))
                .clock(54_000_021),
            &[pat_late, "54000020 0002 1 0011", eit_late],
        ),
    ]
}

fn every_call() -> Vec<Case> {
    let late = "13500000 0009 1 0000";
    let call =
        |name, why, packet: Packet, lines: &[&str]| case(name, why, Log::open(0).packet(13_500_001, &packet), lines);
    let lost = Log::open(0).packets(1, &[Packet::on(7, 0).first(0), Packet::on(7, 0).first(0)]);
    vec![
        call(
            "late-with-a-wrong-first-byte",
            "Lateness is judged before a packet with a wrong first byte.",
            Packet::on(0x0100, 0).first(0),
            &[late, "13500001 000d 0 0100"],
        ),
        call(
            "late-with-an-error-bit",
            "Lateness is judged before a packet with the error bit.",
            Packet::on(0x0100, 0).error(),
            &[late, "13500001 0011 0 0100"],
        ),
        call("late-with-a-null-packet", "Lateness is judged before a null packet.", Packet::on(NULL_PID, 0), &[late]),
        call(
            "late-with-control-00",
            "Lateness is judged before a packet that is judged no further.",
            Packet::on(0x0100, 0).control(0),
            &[late],
        ),
        case(
            "late-while-sync-is-lost",
            "Lateness is judged also while sync is lost.",
            lost.clone().packet(13_500_001, &Packet::on(0x0100, 0).first(0)).packet(54_000_001, &Packet::on(0x0100, 0)),
            &["1 000d 0 0007", "2 000d 0 0007", "2 000c 0 0007", late, "54000000 0002 1 0011", "54000000 0004 1 0012"],
        ),
        case(
            "pat-while-sync-is-lost",
            "A PAT in a packet that is not judged ends no gap.",
            lost.packet(3, &on(PAT_PID, 0, &pat(&[]))).clock(13_500_001),
            &["1 000d 0 0007", "2 000d 0 0007", "2 000c 0 0007", late],
        ),
    ]
}

fn programmes() -> Vec<Case> {
    let p = "13500000 0009 1 0000";
    vec![
        case(
            "late-pmt",
            "A listed programme has a watch from its PAT on; the id is the programme number.",
            listing(&[(0x1234, 0x0100)]).clock(13_500_001),
            &[p, "13500000 000f 1 1234"],
        ),
        case("late-pmt-13500000", "A PMT gap of 13,500,000 is silent.", listing(&[(1, 0x0100)]).clock(13_500_000), &[]),
        case(
            "late-pmts-in-list-order",
            "Late events of programmes come after the fixed tables', in list order.",
            listing(&[(9, 0x0100), (3, 0x0101), (5, 0x0100)]).clock(54_000_001),
            &[
                p,
                "54000000 0002 1 0011",
                "54000000 0004 1 0012",
                "13500000 000f 1 0009",
                "13500000 000f 1 0003",
                "13500000 000f 1 0005",
            ],
        ),
        case(
            "two-programmes-on-one-pid",
            "A PMT counts by table_id_extension too: programme 2's ends only its own gap.",
            listing(&[(1, 0x0100), (2, 0x0100)]).packet(10, &on(0x0100, 0, &pmt(2))).clock(13_500_011),
            &[p, "13500000 000f 1 0001", "13500010 000f 1 0002"],
        ),
        case(
            "pmt-on-another-pid",
            "A PMT of programme 1 on programme 2's PID ends no gap.",
            listing(&[(1, 0x0100), (2, 0x0101)]).packet(10, &on(0x0101, 0, &pmt(1))).clock(13_500_001),
            &[p, "13500000 000f 1 0001", "13500000 000f 1 0002"],
        ),
        case(
            "pmt-on-a-pid-not-listed",
            "Sections are built on listed PIDs only: a torn one elsewhere gives nothing.",
            listing(&[(1, 0x0100)]).packet(10, &on(0x0101, 0, &torn(pmt(1)))),
            &[],
        ),
        case(
            "pmt-not-current",
            "A PMT with current_next_indicator 0 ends no gap and gives no event.",
            listing(&[(1, 0x0100)]).packet(10, &on(0x0100, 0, &section_with(2, 1, 0, &[0; 4]))).clock(13_500_001),
            &[p, "13500000 000f 1 0001"],
        ),
        case(
            "pmt-arrives-again",
            "Each gap of a programme gives its own event.",
            listing(&[(1, 0x0100)])
                .packet(5, &on(PAT_PID, 1, &pat(&[(1, 0x0100)])))
                .packet(20_000_000, &on(0x0100, 0, &pmt(1)))
                .packet(20_000_001, &on(PAT_PID, 2, &pat(&[(1, 0x0100)])))
                .clock(33_500_001),
            &["13500005 0009 1 0000", "13500000 000f 1 0001", "33500000 000f 1 0001"],
        ),
    ]
}
