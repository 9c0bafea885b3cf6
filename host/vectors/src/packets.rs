//! Events of packets: late tables, sync, continuity, the list, sections, and a log cut anywhere.

use crate::lines::{filled, Log, GREATEST};

/// A PAT that lists programme 1 on the PID 0x1000, and a PMT of that programme.
const PAT_OF_1: &[u8] = b"\x47\x40\x00\x10\x00\x00\xb0\x0d\x00\x01\xc1\x00\x00\x00\x01\xf0\x00\x2a\xb1\x04\xb2";
const PMT_OF_1: &[u8] = b"\x47\x50\x00\x10\x00\x02\xb0\x17\x00\x01\xc1\x00\x00\xe1\x00\xf0\x00\
    \x1b\xe1\x00\xf0\x00\x0f\xe1\x01\xf0\x00\x2f\x44\xb9\x9b";

/// Programme 2 on the same PID.
const PAT_OF_2: &[u8] = b"\x47\x40\x00\x11\x00\x00\xb0\x0d\x00\x01\xc3\x00\x00\x00\x02\xf0\x00\xb6\x76\x21\x19";

/// Programme 3 on the PID 0x1001, and programme 4 on a PID below 0x0020.
const PAT_WITH_BAD_LIST: &[u8] = b"\x47\x40\x00\x12\x00\x00\xb0\x11\x00\x01\xc5\x00\x00\
    \x00\x03\xf0\x01\x00\x04\xe0\x1f\x78\xcd\xff\xf8";

/// A PMT section of 203 bytes: 183 of them, then 20.
const FIRST_PART: &[u8] = b"\x47\x50\x00\x10\x00\x02\xb0\xc8\x00\x01\xc1\x00\x00";
const LAST_PART: &[u8] = b"\x47\x10\x00\x11\xff\xff\xff\xff\xff\xff\xff\xff\
    \xff\xff\xff\xff\xff\xff\xff\xff\xa7\xb3\x07\x7c";

pub fn all() {
    late_tables();
    lost_sync();
    counters();
    adaptation();
    list_and_programme();
    scrambled();
    damaged();
    two_packets();
    cut_anywhere();
}

fn late_tables() {
    let mut log = Log::opened(0);
    log.clock("PAT gap of 13500000", 13_500_000);
    log.clock("and one tick", 13_500_001);
    log.clock("SDT and EIT", 54_000_001);
    log.clock("NIT", 270_000_001);
    log.clock("TDT", 810_000_001);
    Log::opened(0).clock("all at once", GREATEST);
}

fn lost_sync() {
    let mut log = Log::opened(0).with(|state| state.half[0] = 2);
    let firsts = [
        ("wrong byte", 0x46),
        ("right byte", 0x47),
        ("wrong byte", 0x00),
        ("second running", 0xFF),
        ("third", 0x46),
        ("right 1", 0x47),
        ("right 2", 0x47),
        ("right 3", 0x47),
        ("right 4", 0x47),
    ];
    for (time, (name, first)) in (1..).zip(firsts) {
        log.packet(name, time, &[first, 0x81, 0x00, 0x10], 0);
    }
    log.clock("late while lost", 13_500_001);
    log.packet("right 5", 13_500_002, b"\x47\x81\x00\x10", 0);
}

fn counters() {
    let mut log = Log::opened(5);
    let packets = [
        ("counter 15, unseen", 15),
        ("counter 0", 0),
        ("counter 0, a repeat", 0),
        ("counter 0 again", 0),
        ("counter 0 once more", 0),
        ("counter 1 after repeats", 1),
        ("counter 3", 3),
    ];
    for (name, counter) in packets {
        log.packet(name, 5, &[0x47, 0x01, 0x00, 0x10 | counter], 0);
    }
}

fn adaptation() {
    let mut log = Log::opened(5);
    let packets = [
        ("control 10, unseen", 0x24, 183, 0),
        ("control 10, equal counter", 0x24, 183, 0),
        ("control 10, next counter", 0x25, 183, 0),
        ("control 10, discontinuity", 0x29, 183, 0x80),
        ("control 10, length 182, its indicator unread", 0x2C, 182, 0x80),
        ("control 11, next counter", 0x3D, 182, 0),
        ("control 11, discontinuity", 0x32, 10, 0x80),
        ("control 11, length 183, its indicator unread", 0x37, 183, 0x80),
        ("control 11, length 0", 0x3A, 0, 0x80),
        ("control 00", 0x05, 183, 0x80),
    ];
    for (name, control, length, flags) in packets {
        log.packet(name, 5, &[0x47, 0x01, 0x00, control, length, flags], 0);
    }
}

fn list_and_programme() {
    let mut log = Log::opened(0);
    log.packet("PAT of 1", 100, PAT_OF_1, 0);
    log.packet("PMT of 1", 200, PMT_OF_1, 5);
    log.clock("PAT gap of 13500000", 13_500_100);
    log.clock("PAT late", 13_500_101);
    log.clock("PMT of 1 late", 13_500_201);
    log.packet("PAT of 2", 20_000_000, PAT_OF_2, 0);
    let mut again = PMT_OF_1.to_vec();
    again[3] = 0x11;
    log.packet("PMT of 1, not listed", 20_000_001, &again, 5);
    log.clock("PAT and PMT of 2 late", 33_500_001);
    log.packet("PAT with a bad list", 33_500_002, PAT_WITH_BAD_LIST, 0);
    log.clock("PMT of 3 late", 47_000_003);
}

fn scrambled() {
    let mut log = Log::opened(0).two_listed().with(|state| state.half[0] = 2);
    log.packet("scrambled on PID 0", 1, b"\x47\x00\x00\x90", 0);
    log.packet("scrambled on a PMT PID", 2, b"\x47\x10\x01\x50", 6);
    log.packet("scrambled elsewhere", 3, b"\x47\x00\x11\xd0", 2);
    log.packet("scrambled, without payload", 4, b"\x47\x10\x01\xe0\xb7\x00", 6);
}

fn damaged() {
    let good = &PAT_OF_1[5..];
    let mut wrong = good.to_vec();
    wrong[15] ^= 0x01;
    let mut log = Log::opened(0).two_listed();
    log.packet("wrong CRC_32", 1, &[b"\x47\x40\x00\x10\x00", &wrong[..]].concat(), 0);
    log.packet("section_length 1022", 2, b"\x47\x40\x00\x11\x00\x00\xb3\xfe", 0);
    log.packet("section_length 8", 3, b"\x47\x40\x00\x12\x00\x00\xb0\x08", 0);
    log.packet("table_id 0x01 on PID 0", 4, b"\x47\x40\x00\x13\x00\x01\x30\x01\x00", 0);
    log.packet("table_id 0x00 on a PMT PID", 5, b"\x47\x50\x01\x10\x00\x00\x30\x01\x00", 6);
    log.packet("EIT of length 4094", 6, b"\x47\x40\x12\x10\x00\x4e\xff\xfe", 3);
    log.state.half[3] = 2;
    log.packet("pointer 183", 7, b"\x47\x40\x12\x11\xb7", 3);
    log.packet("wrong CRC_32, then a good PAT", 8, &[b"\x47\x40\x00\x14\x00", &wrong[..], good].concat(), 0);
}

fn two_packets() {
    let mut log = Log::opened(0).two_listed();
    log.packet("183 bytes of 203", 1, FIRST_PART, 5);
    log.packet("the last 20", 2, LAST_PART, 5);
    log.clock("PAT and PMT of 2 late, not of 1", 13_500_002);
    log.clock("PMT of 1 late", 13_500_003);
}

/// The log that is cut: times, and packets where the call is no clock call.
const CALLS: [(u64, Option<&[u8]>); 7] = [
    (1000, Some(PAT_OF_1)),
    (1001, Some(FIRST_PART)),
    (1002, None),
    (1003, Some(b"\x46\x40\x00\x11")),
    (1004, Some(LAST_PART)),
    (1005, Some(b"\x47\x00\x00\x13")),
    (20_000_000, None),
];

/// The log whole; then for each of its calls the log up to it, a refused call, and the call.
fn cut_anywhere() {
    let shown = |log: &mut Log, (time, packet): (u64, Option<&[u8]>)| match packet {
        Some(bytes) => log.packet("log", time, bytes, 5),
        None => log.clock("log", time),
    };
    let mut log = Log::opened(0);
    CALLS.iter().for_each(|call| shown(&mut log, *call));
    for (k, call) in CALLS.iter().enumerate() {
        let mut log = Log::opened(0);
        for (time, packet) in &CALLS[..k] {
            match packet {
                Some(bytes) => log.packet_call(*time, &filled(bytes)),
                None => log.clock_call(*time),
            };
        }
        log.packet_call(5, b"\x47");
        shown(&mut log, *call);
    }
}
