//! What the boundary asks and gives: sizes and places of fields as `host/songpigeon.h` has them, and each call over it.

use songpigeon::lent::{self, place, Event, Found, Laid, Reply, Verdict, EVENT_ROOM, WIDTH};
use songpigeon::testdata::{self, Descriptor, Fields};
use songpigeon::{cause, fault, severity, Kind, Probe, Refusal};
use std::error::Error;
use std::fs;
use std::mem::{align_of, size_of};

#[test]
fn records_are_laid_as_c_lays_them() {
    assert_eq!((size_of::<Event>(), align_of::<Event>()), (16, 8));
    assert_eq!((size_of::<Reply>(), align_of::<Reply>()), (16, 8));
    assert_eq!((size_of::<Verdict>(), align_of::<Verdict>()), (16, 4));
    assert_eq!((size_of::<Laid>(), align_of::<Laid>()), (16, 8));
    assert_eq!((size_of::<Found>(), align_of::<Found>()), (32, 8));
    let event = Event { stamp: 1, fault: 2, cause: 3, id: 4 };
    let start = &event as *const Event as usize;
    let at = |place: usize| place - start;
    assert_eq!(at(&event.fault as *const u16 as usize), 8);
    assert_eq!(at(&event.cause as *const u8 as usize), 10);
    assert_eq!(at(&event.id as *const u16 as usize), 12);
}

#[test]
fn the_whole_case_of_the_paper() {
    let mut probe = Probe::open(0).unwrap();
    assert_eq!(probe.clock(13_500_000), Ok(&[][..]));
    let late = Event { stamp: 13_500_000, fault: 0x0009, cause: 1, id: 0 };
    assert_eq!(probe.clock(13_500_001), Ok(&[late][..]));
    assert_eq!(probe.clock(13_500_000), Err(Refusal(6)));
    assert_eq!(probe.clock((1 << 62) + 1), Err(Refusal(4)));
    assert_eq!(probe.packet(13_500_001, &[0x47; 187]), Err(Refusal(1)));
    let wrong = Event { stamp: 13_500_001, fault: 0x000D, cause: 0, id: 0 };
    assert_eq!(probe.packet(13_500_001, &[0; 188]), Ok(&[wrong][..]));
    assert_eq!(Probe::open(u64::MAX).err(), Some(Refusal(4)));
}

/// A packet on PID 0x0123 with a wrong first byte: each call with it has one event.
fn packet() -> [u8; 188] {
    let mut packet = [0; 188];
    (packet[1], packet[2]) = (0x01, 0x23);
    packet
}

#[test]
fn slices_of_every_length_are_answered() {
    let mut times = [0; lent::TIMES];
    let mut words = [0; lent::WORDS];
    let mut memory = [0; lent::MEMORY];
    let mut counters = vec![7; 10_000];
    let mut numbers = [8; lent::NUMBERS];
    let mut events = vec![Event { stamp: 9, fault: 9, cause: 9, id: 9 }; 2 * EVENT_ROOM];
    for n in [0, 1, 8_191, 8_193, 10_000] {
        assert_eq!(lent::open(&mut times, &mut words, 0, &mut counters[..n]).refusal, 2);
    }
    assert!(counters.iter().all(|&byte| byte == 7));
    assert_eq!(lent::open(&mut times, &mut words, 5, &mut counters[..8_192]), Reply { refusal: 0, n: 0 });
    assert!(counters[..8_192].iter().all(|&byte| byte == 0) && counters[8_192..].iter().all(|&byte| byte == 7));
    let (t, w) = (times, words);
    let packet = packet();
    for (p, c, e, refusal) in [
        (0, 0, 0, 1),
        (187, 8_192, EVENT_ROOM, 1),
        (188, 0, 0, 2),
        (188, 8_191, EVENT_ROOM, 2),
        (188, 8_192, EVENT_ROOM - 1, 3),
        (188, 8_192, 0, 3),
    ] {
        let (packet, counters, events) = (&packet[..p], &mut counters[..c], &mut events[..e]);
        let reply = lent::packet(&mut times, &mut words, 5, packet, counters, &mut memory, &mut numbers, events);
        assert_eq!(reply, Reply { refusal, n: 0 });
    }
    // a list that is too short is told before a time above 2^62 and a run that no call leaves
    for (time, run) in [(5, 0), ((1 << 62) + 1, 2)] {
        words[place::RUN] = run;
        for room in [0, EVENT_ROOM - 1] {
            let (counters, events) = (&mut counters[..8_192], &mut events[..room]);
            let reply =
                lent::packet(&mut times, &mut words, time, &packet, counters, &mut memory, &mut numbers, events);
            assert_eq!(reply, Reply { refusal: 3, n: 0 });
            let reply = lent::clock(&mut times, &mut words, time, &memory, &mut numbers, events);
            assert_eq!(reply, Reply { refusal: 3, n: 0 });
        }
        assert_eq!(words[place::RUN], run);
    }
    words[place::RUN] = 0;
    assert_eq!((times, words), (t, w));
    assert!(events.iter().all(|e| e.stamp == 9));
    assert_eq!(numbers, [8; lent::NUMBERS]);
    for room in [EVENT_ROOM, EVENT_ROOM + 1, 2 * EVENT_ROOM] {
        let (counters, events) = (&mut counters[..8_192], &mut events[..room]);
        let reply = lent::packet(&mut times, &mut words, 5, &packet, counters, &mut memory, &mut numbers, events);
        assert_eq!(reply.refusal, 0);
    }
    // loss of sync with the second: two events; the third is silent; the other records are untouched
    assert_eq!(events[1], Event { stamp: 5, fault: 0x000C, cause: 0, id: 0x0123 });
    assert!(events[2..].iter().all(|e| e.stamp == 9));
    // its numbers behind those of the first, the others as they were
    assert_eq!(numbers[WIDTH..2 * WIDTH], [5, 0x000C, 0, 0x0123]);
    assert!(numbers[2 * WIDTH..].iter().all(|&number| number == 8));
}

#[test]
fn an_unaligned_packet_is_a_packet() {
    let mut bytes = [0; 200];
    for shift in 0..8 {
        let mut probe = Probe::open(0).unwrap();
        bytes[shift + 1] = 0x1F;
        bytes[shift + 2] = shift as u8;
        assert_eq!(probe.packet(1, &bytes[shift..shift + 188]).unwrap()[0].id, 0x1F00 + shift as u16);
        bytes = [0; 200];
    }
}

#[test]
fn forged_states_are_answered() {
    let (mut counters, mut memory) = ([0; 8_192], [0; lent::MEMORY]);
    let (mut numbers, mut events) = ([0; lent::NUMBERS], [Event::default(); EVENT_ROOM]);
    for word in 0..lent::WORDS {
        let (mut times, mut words) = ([0; lent::TIMES], [0; lent::WORDS]);
        words[word] = u16::MAX;
        let (packet, table) = (packet(), &mut counters);
        let reply = lent::packet(&mut times, &mut words, 0, &packet, table, &mut memory, &mut numbers, &mut events);
        // a place that is not listed is not judged; `lost` has no wrong value; all others are refused
        let expected = if word < place::HALVES || word == place::LOST { 0 } else { 5 };
        assert_eq!(reply.refusal, expected, "word {}", word);
    }
    for time in 0..6 {
        let (mut times, mut words) = ([0; lent::TIMES], [0; lent::WORDS]);
        times[time] = (1 << 62) + 1;
        assert_eq!(lent::clock(&mut times, &mut words, 0, &memory, &mut numbers, &mut events).refusal, 5);
    }
}

#[test]
fn severities() {
    let v = severity(Kind::Pmt, 54_000_001);
    assert_eq!((v.set, v.classes, v.worst), (15, 4, 8));
    assert_eq!(severity(Kind::Stt, 27_000_000).set, 0);
    assert_eq!(lent::severity(6, 0), Verdict { refusal: 7, set: 0, number: 0, worst: 0 });
    assert_eq!(lent::severity(usize::MAX, u64::MAX).refusal, 7);
}

#[test]
fn test_data_there_and_back() {
    let fields = Fields {
        syntax_indicator: true,
        table_id: 0x10,
        reserved: 7,
        user_defined: 1,
        extension: 1,
        reserved_version: 3,
        current_next: 1,
        ..Fields::default()
    };
    let row = [0x40, 2, 0x01, 0x00];
    let mut place = [0xEE; 100];
    let n = testdata::write(&fields, &row, &[1, 2, 3], &mut place).unwrap();
    assert_eq!((n, place[n]), (21, 0xEE));
    let section = testdata::read(&place[..n]).unwrap();
    assert_eq!((section.fields, section.descriptors, section.data), (fields, &row[..], &[1, 2, 3][..]));
    assert_eq!(testdata::read(&place[..n - 1]).err(), Some(Refusal(11)));
    assert_eq!(testdata::read(&[]).err(), Some(Refusal(11)));
    assert_eq!(testdata::write(&fields, &row, &[], &mut []), Err(Refusal(15)));
    assert_eq!(testdata::write(&fields, &[0x40, 3], &[], &mut []), Err(Refusal(14)));
}

/// An indicator of 2 is a number too wide for its field, and a descriptor of another size comes before it.
#[test]
fn an_indicator_too_wide() {
    let mut place = [0xEE; 100];
    for indicator in [2, 3, 128, 255] {
        let mut fields = [0; lent::FIELDS];
        fields[0] = indicator;
        let written = lent::testdata_write(&fields, &[], &[], &mut place);
        assert_eq!(written, Laid { refusal: 13, length: 0 });
        assert_eq!(lent::testdata_write(&fields, &[], &[], &mut []).refusal, 13);
        assert_eq!(lent::testdata_write(&fields, &[0x40, 3], &[], &mut place).refusal, 14);
    }
    assert_eq!(place, [0xEE; 100]);
}

#[test]
fn descriptors_there_and_back() {
    let all = [
        Descriptor::ElementaryId { id_type: 7, pid: 0x1FFF },
        Descriptor::Gps { north_south: 1, latitude: 0x7F_FFFF, east_west: 0, longitude: 1, elevation: 0xFFFF },
        Descriptor::ReducedPcr { base: u32::MAX },
        Descriptor::Program { number: 0xABCD, reserved: 5, pid: 0x0123 },
        Descriptor::Other { tag: 0x41, body: b"a text" },
        Descriptor::Other { tag: 0x00, body: &[] },
    ];
    let mut row = Vec::new();
    for descriptor in all {
        let mut place = [0xEE; 20];
        let n = descriptor.write(&mut place).unwrap();
        assert!(place[n..].iter().all(|&byte| byte == 0xEE));
        assert_eq!(descriptor.write(&mut place[..n - 1]), Err(Refusal::PLACE));
        row.extend(&place[..n]);
    }
    assert_eq!(testdata::descriptors(&row).collect::<Result<Vec<_>, _>>(), Ok(all.to_vec()));
    // a refusal is the last that is given
    let mut cut = testdata::descriptors(&row[..6]);
    assert_eq!(cut.next(), Some(Ok(all[0])));
    assert_eq!(cut.next(), Some(Err(Refusal::UNFIT)));
    assert_eq!(cut.next(), None);
    assert_eq!(testdata::descriptors(&[0x45, 0]).next(), Some(Err(Refusal::DESCRIPTOR_SIZE)));
    assert_eq!(testdata::descriptors(&[]).next(), None);
    let wide = Descriptor::ElementaryId { id_type: 8, pid: 0 };
    assert_eq!(wide.write(&mut []), Err(Refusal::UNFIT));
    let other = Descriptor::Other { tag: testdata::PROGRAM, body: &[0; 5] };
    assert_eq!(other.write(&mut []), Err(Refusal::DESCRIPTOR_SIZE));
    // places of any size are answered
    let mut values = [9; lent::VALUES];
    for (at, end) in [(usize::MAX, usize::MAX), (0, usize::MAX), (usize::MAX, 0), (row.len() + 1, row.len() + 1)] {
        let found = lent::testdata_descriptor(&row, at, end, &mut values);
        assert_eq!(found, Found { refusal: 13, kind: lent::NO_MORE, tag: 0, at: 0, length: 0, next: at });
    }
    assert_eq!(values, [9; lent::VALUES]);
}

#[test]
fn a_refusal_is_an_error_that_says_what_it_is() {
    let refusal: Box<dyn Error> = Probe::open(u64::MAX).err().unwrap().into();
    assert_eq!(refusal.to_string(), "refused with 4: the time is above 2^62");
    assert_eq!(Refusal(99).to_string(), "refused with 99: no meaning is known");
}

/// The number that the header gives a name, in an `enum` or by `#define`: a number, or a product of names.
fn in_header(header: &str, name: &str) -> Option<u32> {
    let value = header.lines().find_map(|line| {
        let mut words = line.trim().trim_start_matches("#define ").splitn(2, [' ', '=']);
        if words.next() == Some(name) {
            words.next()
        } else {
            None
        }
    })?;
    let value = value.trim_start_matches([' ', '=']).split([',', '/']).next()?;
    let factor = |word: &str| match word.strip_prefix("0x") {
        Some(hex) => u32::from_str_radix(hex, 16).ok(),
        None => word.parse().ok().or_else(|| in_header(header, word)),
    };
    value.split('*').map(|word| factor(word.trim())).product()
}

/// C and Rust have the same names and numbers, and both the library's version.
#[test]
fn the_header_has_the_same_names() {
    let header = fs::read_to_string("../songpigeon.h").unwrap();
    let names = [
        ("REFUSED_PACKET", Refusal::PACKET.0),
        ("REFUSED_COUNTERS", Refusal::COUNTERS.0),
        ("REFUSED_EVENTS", Refusal::EVENTS.0),
        ("REFUSED_TIME", Refusal::TIME.0),
        ("REFUSED_STATE", Refusal::STATE.0),
        ("REFUSED_ORDER", Refusal::ORDER.0),
        ("REFUSED_KIND", Refusal::KIND.0),
        ("REFUSED_LINE", Refusal::LINE.0),
        ("REFUSED_LENGTH", Refusal::LENGTH.0),
        ("REFUSED_CRC", Refusal::CRC.0),
        ("REFUSED_UNFIT", Refusal::UNFIT.0),
        ("REFUSED_DESCRIPTOR_SIZE", Refusal::DESCRIPTOR_SIZE.0),
        ("REFUSED_PLACE", Refusal::PLACE.0),
        ("FAULT_NIT", fault::NIT.into()),
        ("FAULT_SDT", fault::SDT.into()),
        ("FAULT_EIT", fault::EIT.into()),
        ("FAULT_TDT", fault::TDT.into()),
        ("FAULT_PAT", fault::PAT.into()),
        ("FAULT_SYNC_LOSS", fault::SYNC_LOSS.into()),
        ("FAULT_SYNC_BYTE", fault::SYNC_BYTE.into()),
        ("FAULT_CONTINUITY", fault::CONTINUITY.into()),
        ("FAULT_PMT", fault::PMT.into()),
        ("FAULT_TRANSPORT", fault::TRANSPORT.into()),
        ("FAULT_CRC", fault::CRC.into()),
        ("CAUSE_NONE", cause::NONE.into()),
        ("CAUSE_LATE", cause::LATE.into()),
        ("CAUSE_FOREIGN", cause::FOREIGN.into()),
        ("CAUSE_SCRAMBLED", cause::SCRAMBLED.into()),
        ("CAUSE_NOT_ALLOWED", cause::NOT_ALLOWED.into()),
        ("KIND_PAT", Kind::Pat as u32),
        ("KIND_PMT", Kind::Pmt as u32),
        ("KIND_EIT_0", Kind::Eit0 as u32),
        ("KIND_EIT_1", Kind::Eit1 as u32),
        ("KIND_EIT_2_3", Kind::Eit2And3 as u32),
        ("KIND_STT", Kind::Stt as u32),
        ("TAG_ELEMENTARY_ID", testdata::ELEMENTARY_ID.into()),
        ("TAG_GPS", testdata::GPS.into()),
        ("TAG_REDUCED_PCR", testdata::REDUCED_PCR.into()),
        ("TAG_PROGRAM", testdata::PROGRAM.into()),
        ("NO_MORE", lent::NO_MORE.into()),
        ("OF_FIXED", lent::OF_FIXED.into()),
        ("OF_OTHER", lent::OF_OTHER.into()),
        ("TIMES", lent::TIMES as u32),
        ("WORDS", lent::WORDS as u32),
        ("COUNTERS", lent::COUNTERS as u32),
        ("MEMORY", lent::MEMORY as u32),
        ("EVENTS", EVENT_ROOM as u32),
        ("WIDTH", WIDTH as u32),
        ("NUMBERS", lent::NUMBERS as u32),
        ("AT_LATEST", place::LATEST as u32),
        ("AT_GAPS", place::GAPS as u32),
        ("AT_SINCES", place::SINCES as u32),
        ("AT_NUMBERS", place::NUMBERS as u32),
        ("AT_PIDS", place::PIDS as u32),
        ("AT_HALVES", place::HALVES as u32),
        ("AT_LOST", place::LOST as u32),
        ("AT_RUN", place::RUN as u32),
        ("AT_COUNT", place::COUNT as u32),
        ("FIELDS", lent::FIELDS as u32),
        ("PLACES", lent::PLACES as u32),
        ("VALUES", lent::VALUES as u32),
        ("SECTION", lent::SECTION as u32),
        ("DESCRIPTOR", lent::DESCRIPTOR as u32),
    ];
    for (name, number) in names {
        assert_eq!(in_header(&header, &format!("SONGPIGEON_{}", name)), Some(number), "{}", name);
    }
    assert_eq!(in_header(&header, "SONGPIGEON_NO_SUCH_NAME"), None);
    let part = |name: &str| in_header(&header, &format!("SONGPIGEON_VERSION_{}", name)).unwrap();
    let version = [part("MAJOR"), part("MINOR"), part("PATCH")];
    assert_eq!(lent::version(), version[0] * 10_000 + version[1] * 100 + version[2]);
    assert_eq!(lent::version(), lent::VERSION);
    assert_eq!(version.map(|n| n.to_string()).join("."), env!("CARGO_PKG_VERSION"));
}
