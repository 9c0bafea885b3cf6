//! "The programme list".

use crate::{case, Case, Log};
use songpigeon_reference::streams::*;

/// Nothing is late before this time but what a case is about: the PAT that each list comes with is late with it.
const END: u64 = 13_500_101;

fn read(counter: u8, sections: &[&[u8]]) -> Packet {
    Packet::sections(PAT_PID, counter, sections)
}

/// A log that reads one list at 10 and ends when every programme of it is late: the watches that there are.
fn watched(name: &'static str, why: &'static str, section: &[u8], lines: &[&str]) -> Case {
    case(name, why, Log::open(0).packet(10, &read(0, &[section])).clock(END), lines)
}

pub fn cases() -> Vec<Case> {
    [entries(), pairs(), half_built(), vec![greatest()]].into_iter().flatten().collect()
}

fn entries() -> Vec<Case> {
    let p = "13500010 0009 1 0000";
    let bad = "10 0009 4 0000";
    let (one, two) = ("13500010 000f 1 0001", "13500010 000f 1 0002");
    let with_spare = |n: usize| section(0, 1, &[&programmes(&[(1, 0x0100)])[..], &[0; 3][..n]].concat());
    let many = |n: u16| (1..=n).map(|k| (k, 0x0100 + k)).collect::<Vec<_>>();
    let sixteen: Vec<String> = (1..=16).map(|k| format!("13500010 000f 1 {:04x}", k)).collect();
    let all: Vec<&str> = std::iter::once(p).chain(sixteen.iter().map(String::as_str)).collect();
    let all_and_bad: Vec<&str> = std::iter::once(bad).chain(all.iter().copied()).collect();
    let mut with_zero = many(16);
    with_zero.push((0, 0x0010));
    vec![
        watched("list-of-sixteen", "Sixteen entries: sixteen watched, no event.", &pat(&many(16)), &all),
        watched(
            "list-of-seventeen",
            "P10: seventeen good entries: sixteen watched, cause 4.",
            &pat(&many(17)),
            &all_and_bad,
        ),
        watched(
            "list-of-forty",
            "However many entries are too many, the list gives one event.",
            &pat(&many(40)),
            &all_and_bad,
        ),
        watched(
            "list-of-sixteen-and-programme-0",
            "Programme 0 past the sixteenth is passed over.",
            &pat(&with_zero),
            &all,
        ),
        watched("list-empty", "An empty PAT is good: the gap ends, nothing is listed.", &pat(&[]), &[p]),
        watched(
            "list-pid-001f",
            "A PID below 0x0020 makes the list bad; the rest is used.",
            &pat(&[(1, 0x001F), (2, 0x0020)]),
            &[bad, p, two],
        ),
        watched(
            "list-pid-1fff",
            "PID 0x1FFF makes the list bad, 0x1FFE does not.",
            &pat(&[(1, 0x1FFE), (2, 0x1FFF)]),
            &[bad, p, one],
        ),
        watched(
            "list-pids-at-the-limits",
            "PIDs 0x0020 and 0x1FFE are usable.",
            &pat(&[(1, 0x0020), (2, 0x1FFE)]),
            &[p, one, two],
        ),
        watched(
            "list-number-twice",
            "A number seen earlier makes the list bad, on another PID too.",
            &pat(&[(1, 0x0100), (1, 0x0101), (2, 0x0102)]),
            &[bad, p, one, two],
        ),
        watched(
            "list-pair-twice",
            "The same pair twice makes the list bad.",
            &pat(&[(1, 0x0100), (1, 0x0100)]),
            &[bad, p, one],
        ),
        watched(
            "list-number-of-an-unusable-entry",
            "A number seen earlier in an unusable entry is seen: the second entry is ignored too.",
            &pat(&[(1, 0x001F), (1, 0x0100), (2, 0x0100)]),
            &[bad, p, two],
        ),
        watched(
            "list-shared-pid",
            "Two programmes may share a PID.",
            &pat(&[(1, 0x0100), (2, 0x0100)]),
            &[p, one, two],
        ),
        watched(
            "list-programme-0",
            "Programme 0 is passed over: several times, with any PID, it never makes a list bad.",
            &pat(&[(0, 0x0010), (0, 0x1FFF), (1, 0x0100), (0, 0x0000)]),
            &[p, one],
        ),
        watched("list-spare-byte", "One spare byte at the end makes the list bad.", &with_spare(1), &[bad, p, one]),
        watched("list-spare-bytes-2", "Two spare bytes at the end make the list bad.", &with_spare(2), &[bad, p, one]),
        watched(
            "list-spare-bytes-3",
            "Three spare bytes at the end make the list bad.",
            &with_spare(3),
            &[bad, p, one],
        ),
        watched(
            "list-many-faults",
            "A bad list gives one event however many faults it has, and is still a good PAT.",
            &section(0, 1, &[&programmes(&[(1, 5), (1, 5), (2, 0x1FFF)])[..], &[0]].concat()),
            &[bad, p],
        ),
        watched(
            "list-reserved-bits",
            "The three reserved bits before a PID do not matter.",
            &section(0, 1, &[0, 1, 0x01, 0x00]),
            &[p, one],
        ),
    ]
}

fn pairs() -> Vec<Case> {
    let first = || Log::open(0).packet(10, &read(0, &[&pat(&[(1, 0x0100), (2, 0x0101)])]));
    let p = |t: &'static str| t;
    vec![
        case(
            "pair-keeps-its-watch",
            "A pair that was listed before keeps its watch: its gap goes on over the new list.",
            first().packet(50, &read(1, &[&pat(&[(1, 0x0100), (2, 0x0101)])])).clock(13_500_011),
            &["13500010 000f 1 0001", "13500010 000f 1 0002"],
        ),
        case(
            "pair-new",
            "A new pair begins its watch at this arrival.",
            first().packet(50, &read(1, &[&pat(&[(1, 0x0100), (3, 0x0102)])])).clock(END),
            &[p("13500050 0009 1 0000"), "13500010 000f 1 0001", "13500050 000f 1 0003"],
        ),
        case(
            "pair-missing",
            "A missing pair ends its watch: it is late no more.",
            first().packet(50, &read(1, &[&pat(&[(2, 0x0101)])])).clock(END),
            &["13500050 0009 1 0000", "13500010 000f 1 0002"],
        ),
        case(
            "pair-old-number-on-a-new-pid",
            "An old number on a new PID is a new pair.",
            first().packet(50, &read(1, &[&pat(&[(1, 0x0101), (2, 0x0101)])])).clock(END),
            &["13500050 0009 1 0000", "13500050 000f 1 0001", "13500010 000f 1 0002"],
        ),
        case(
            "pair-order",
            "The order of late events is that of the latest good PAT.",
            first().packet(50, &read(1, &[&pat(&[(2, 0x0101), (1, 0x0100)])])).clock(END),
            &["13500050 0009 1 0000", "13500010 000f 1 0002", "13500010 000f 1 0001"],
        ),
        case(
            "pair-went-and-came-back",
            "A pair that went and came back begins anew.",
            first()
                .packet(50, &read(1, &[&pat(&[(1, 0x0100)])]))
                .packet(60, &read(2, &[&pat(&[(1, 0x0100), (2, 0x0101)])]))
                .clock(END),
            &["13500060 0009 1 0000", "13500010 000f 1 0001", "13500060 000f 1 0002"],
        ),
        case(
            "pair-went-and-came-back-in-one-packet",
            "Listed before is the list just replaced, also between two PAT sections of one packet.",
            first().packet(50, &read(1, &[&pat(&[(1, 0x0100)]), &pat(&[(1, 0x0100), (2, 0x0101)])])).clock(END),
            &["13500050 0009 1 0000", "13500010 000f 1 0001", "13500050 000f 1 0002"],
        ),
        case(
            "pair-ends-late",
            "A watch that ends in a call hands its late event over in that same call, in the old list's order.",
            first().packet(13_500_011, &read(1, &[&pat(&[])])).clock(27_000_011),
            &["13500010 0009 1 0000", "13500010 000f 1 0001", "13500010 000f 1 0002"],
        ),
        case(
            "list-of-two-bad-sections",
            "Each bad list of a packet gives its event; the list is the one in the latest.",
            Log::open(0).packet(10, &read(0, &[&pat(&[(1, 5)]), &pat(&[(3, 0x0100), (3, 0x0100)])])).clock(END),
            &["10 0009 4 0000", "10 0009 4 0000", "13500010 0009 1 0000", "13500010 000f 1 0003"],
        ),
        case(
            "list-kept-by-a-torn-pat",
            "A torn PAT, one not current and a foreign table leave list and watches as they are.",
            first()
                .packet(50, &read(1, &[&torn(pat(&[])), &section_with(0, 1, 0, &[]), &section(2, 1, &[])]))
                .clock(13_500_011),
            &[
                "50 0012 0 0000",
                "50 0009 2 0000",
                "13500010 0009 1 0000",
                "13500010 000f 1 0001",
                "13500010 000f 1 0002",
            ],
        ),
        case(
            "list-scrambled-by-the-old-list",
            "A PID that is no longer listed gives no cause 3.",
            first()
                .packet(50, &read(1, &[&pat(&[(2, 0x0101)])]))
                .packets(51, &[Packet::on(0x0100, 0).scrambled(1), Packet::on(0x0101, 0).scrambled(1)]),
            &["52 000f 3 0101"],
        ),
    ]
}

fn half_built() -> Vec<Case> {
    // a torn PMT section: 0x0012 shows that it was kept
    let long = torn(section(0x02, 2, &[0x33; 200]));
    let begun = |list: &[(u16, u16)]| {
        Log::open(0).packet(10, &read(0, &[&pat(list)])).packet(11, &Packet::pointed(0x0101, 0, 0, &long))
    };
    let rest = Packet::on(0x0101, 1).payload(&long[183..]);
    let both = [(1, 0x0100), (2, 0x0101)];
    vec![
        case(
            "half-built-stays",
            "A PID that stays listed keeps its half-built section.",
            begun(&both).packet(12, &read(1, &[&pat(&both)])).packet(13, &rest),
            &["13 0012 0 0101"],
        ),
        case(
            "half-built-moves",
            "It keeps it at another place of the list.",
            begun(&both).packet(12, &read(1, &[&pat(&[(2, 0x0101), (1, 0x0100)])])).packet(13, &rest),
            &["13 0012 0 0101"],
        ),
        case(
            "half-built-under-another-number",
            "It keeps it under another number.",
            begun(&both).packet(12, &read(1, &[&pat(&[(7, 0x0101)])])).packet(13, &rest),
            &["13 0012 0 0101"],
        ),
        case(
            "half-built-lost",
            "A PID no longer listed loses its half-built section.",
            begun(&both).packets(12, &[read(1, &[&pat(&[(1, 0x0100)])]), read(2, &[&pat(&both)]), rest.clone()]),
            &[],
        ),
        case(
            "half-built-lost-in-one-packet",
            "It loses it even if it comes back in the same packet.",
            begun(&both).packet(12, &read(1, &[&pat(&[(1, 0x0100)]), &pat(&both)])).packet(13, &rest),
            &[],
        ),
        case(
            "half-built-swapped",
            "Two PIDs that change places take their sections with them.",
            begun(&both)
                .packets(
                    12,
                    &[
                        Packet::pointed(0x0100, 0, 0, &torn(section(0x02, 1, &[0x44; 300]))),
                        read(1, &[&pat(&[(2, 0x0101), (1, 0x0100)])]),
                    ],
                )
                .packets(
                    14,
                    &[rest.clone(), Packet::on(0x0100, 1).payload(&torn(section(0x02, 1, &[0x44; 300]))[183..])],
                ),
            &["14 0012 0 0101", "15 0012 0 0100"],
        ),
        case(
            "half-built-before-it-is-listed",
            "Sections are built on listed PIDs only: what came before the list is not there.",
            Log::open(0).packets(1, &[Packet::pointed(0x0101, 0, 0, &long), read(0, &[&pat(&both)]), rest]),
            &[],
        ),
    ]
}

/// Sixteen programmes on one PID; then one packet on it, after every watch is late, with another counter and sections
/// of three bytes from end to end.
fn greatest() -> Case {
    let list: Vec<(u16, u16)> = (1..=16).map(|k| (k, 0x0100)).collect();
    let log = Log::open(0)
        .packets(0, &[read(0, &[&pat(&list)]), Packet::on(0x0100, 0)])
        .packet(900_000_000, &Packet::on(0x0100, 5).started().payload(&[0; 184]));
    let late = [
        "13500000 0009 1 0000",
        "270000000 0001 1 0010",
        "54000000 0002 1 0011",
        "54000000 0004 1 0012",
        "810000000 0008 1 0014",
    ];
    let programmes: Vec<String> = (1..=16).map(|k| format!("13500000 000f 1 {:04x}", k)).collect();
    let mut lines = late.to_vec();
    lines.extend(programmes.iter().map(String::as_str));
    lines.push("900000000 000e 0 0100");
    lines.extend(["900000000 000f 2 0100"; 61]);
    case(
        "greatest-number-of-events",
        "83 events in one call: 21 late, 0x000E, and 61 sections of three bytes.",
        log,
        &lines,
    )
}
