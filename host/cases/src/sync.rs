//! Steps 1 to 3 of "Judging one packet": sync, transport error, null packets.

use crate::{case, Case, Log};
use songpigeon_reference::streams::*;

fn wrong(pid: u16) -> Packet {
    Packet::on(pid, 0).first(0x46)
}

fn error(pid: u16) -> Packet {
    Packet::on(pid, 0).error()
}

/// Two wrong first bytes, at 1 and 2: sync is lost.
fn lost() -> Log {
    Log::open(0).packets(1, &[wrong(0x0123), wrong(0x0123)])
}

const LOST: [&str; 3] = ["1 000d 0 0123", "2 000d 0 0123", "2 000c 0 0123"];

/// An SDT section of 212 bytes with a wrong CRC, which only a finished section shows.
fn telltale() -> Vec<u8> {
    torn(section(0x42, 1, &[0; 200]))
}

fn begun() -> Log {
    Log::open(0).packet(0, &Packet::pointed(SDT_PID, 0, 0, &telltale()))
}

fn rest(counter: u8) -> Packet {
    Packet::on(SDT_PID, counter).payload(&telltale()[183..])
}

fn then(lines: &[&'static str]) -> Vec<&'static str> {
    [&LOST, lines].concat()
}

pub fn cases() -> Vec<Case> {
    [sync(), transport_error(), no_further()].into_iter().flatten().collect()
}

fn sync() -> Vec<Case> {
    let five = [error(1), error(2), error(3), error(4), error(5)];
    vec![
        case(
            "sync-three-wrong-bytes",
            "P5: three wrong sync bytes: 0x000D; 0x000D and 0x000C; none.",
            lost().packet(3, &wrong(0x0123)),
            &LOST,
        ),
        case(
            "sync-fifth-right-byte",
            "P6: after loss four right bytes are not judged, the fifth is, in full.",
            lost().packets(3, &five),
            &then(&["7 0011 0 0005"]),
        ),
        case(
            "sync-run-broken",
            "The fifth right byte running: a wrong one among them begins the count anew, without an event.",
            lost().packets(3, &five[..4]).packet(7, &wrong(9)).packets(8, &five),
            &then(&["12 0011 0 0005"]),
        ),
        case(
            "sync-run-over-clock-calls",
            "Clock calls do not break a run of right bytes.",
            lost().packet(3, &five[0]).clock(3).packet(3, &five[1]).clock(4).packets(4, &five[2..]),
            &then(&["6 0011 0 0005"]),
        ),
        case(
            "sync-run-of-null-packets",
            "Null packets and erroneous ones count in the run.",
            lost().packets(
                3,
                &[Packet::on(NULL_PID, 0), Packet::on(NULL_PID, 3), error(3), Packet::on(NULL_PID, 9), error(5)],
            ),
            &then(&["7 0011 0 0005"]),
        ),
        case(
            "sync-lost-again",
            "After sync is restored the count of wrong bytes begins anew.",
            lost().packets(3, &five).packets(8, &[wrong(1), wrong(2)]),
            &then(&["7 0011 0 0005", "8 000d 0 0001", "9 000d 0 0002", "9 000c 0 0002"]),
        ),
        case(
            "sync-wrong-bytes-apart",
            "The second such packet running loses sync: a right byte between them parts them.",
            Log::open(0).packets(1, &[wrong(1), Packet::on(NULL_PID, 0), wrong(2), wrong(3)]),
            &["1 000d 0 0001", "3 000d 0 0002", "4 000d 0 0003", "4 000c 0 0003"],
        ),
        case(
            "sync-wrong-bytes-and-clock-call",
            "A clock call is no packet: two wrong bytes on both sides of it are running.",
            Log::open(0).packet(1, &wrong(0x0123)).clock(1).packet(2, &wrong(0x0123)),
            &LOST,
        ),
        case(
            "sync-id-of-13-bits",
            "The id of a packet with a wrong first byte is its 13 PID bits as they stand, error bit and all.",
            Log::open(0).packet(1, &wrong(0x1FFF).error().started().scrambled(3)),
            &["1 000d 0 1fff"],
        ),
        case(
            "sync-one-wrong-byte-keeps",
            "One wrong byte drops no half-built section, not that of its own PID either.",
            begun().packet(1, &wrong(SDT_PID)).packet(2, &rest(1)),
            &["1 000d 0 0011", "2 0012 0 0011"],
        ),
        case(
            "sync-loss-drops-all",
            "With sync all half-built sections are lost, also when the counter goes on.",
            begun().packets(1, &[wrong(0x0123), wrong(0x0123)]).packets(3, &five[..4]).packet(7, &rest(1)),
            &LOST,
        ),
        case(
            "sync-counters-from-before",
            "The packet that restores sync is judged by the counters from before the loss.",
            Log::open(0)
                .packet(0, &Packet::on(0x0100, 3))
                .packets(1, &[wrong(0x0123), wrong(0x0123)])
                .packets(3, &five[..4])
                .packet(7, &Packet::on(0x0100, 5)),
            &then(&["7 000e 0 0100"]),
        ),
        case(
            "sync-not-judged-not-counted",
            "A packet that is judged no further leaves the counters: 3, (lost) 9, 4 is silent.",
            Log::open(0)
                .packet(0, &Packet::on(0x0100, 3))
                .packets(1, &[wrong(0x0123), wrong(0x0123)])
                .packets(3, &[Packet::on(0x0100, 9), five[1].clone(), five[2].clone(), five[3].clone()])
                .packet(7, &Packet::on(0x0100, 4)),
            &LOST,
        ),
    ]
}

fn transport_error() -> Vec<Case> {
    vec![
        case(
            "error",
            "The transport error bit gives 0x0011 with the packet's PID.",
            Log::open(0).packet(5, &error(0x1ABC)),
            &["5 0011 0 1abc"],
        ),
        case(
            "error-keeps-the-counter",
            "No further judgement: counters 3, (error) 9, 4 are silent.",
            Log::open(0).packets(1, &[Packet::on(0x0100, 3), Packet::on(0x0100, 9).error(), Packet::on(0x0100, 4)]),
            &["2 0011 0 0100"],
        ),
        case(
            "error-keeps-the-section",
            "No further judgement: the half-built section goes on after an erroneous packet.",
            begun().packet(1, &rest(1).error()).packet(2, &rest(1)),
            &["1 0011 0 0011", "2 0012 0 0011"],
        ),
        case(
            "error-before-null",
            "Step 2 comes before step 3: a null packet with the error bit gives 0x0011.",
            Log::open(0).packet(1, &error(NULL_PID)),
            &["1 0011 0 1fff"],
        ),
        case(
            "error-before-scrambling",
            "No further judgement: the scrambling bits of an erroneous packet are not looked at.",
            Log::open(0).packet(1, &error(PAT_PID).scrambled(2)),
            &["1 0011 0 0000"],
        ),
    ]
}

fn no_further() -> Vec<Case> {
    let null = |c| Packet::on(NULL_PID, c).scrambled(1);
    vec![
        case(
            "null-packets",
            "PID 0x1FFF is judged no further: neither counters nor scrambling.",
            Log::open(0).packets(1, &[null(0), null(5), null(5), null(5)]),
            &[],
        ),
        case(
            "control-00",
            "Control 00 is judged no further: no counter is seen, the scrambling bits are not looked at.",
            Log::open(0).packets(1, &[Packet::on(0, 3), Packet::on(0, 9).control(0).scrambled(1), Packet::on(0, 4)]),
            &[],
        ),
        case(
            "control-00-keeps-the-section",
            "Control 00 leaves the half-built section as it is.",
            begun().packet(1, &rest(1).control(0)).packet(2, &rest(1)),
            &["2 0012 0 0011"],
        ),
    ]
}
