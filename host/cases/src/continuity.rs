//! Steps 4 and 5 of "Judging one packet": continuity and scrambling.

use crate::{case, Case, Log};
use songpigeon_reference::streams::*;

const PID: u16 = 0x0100;

fn on(counter: u8) -> Packet {
    Packet::on(PID, counter)
}

fn run(name: &'static str, why: &'static str, packets: &[Packet], lines: &[&str]) -> Case {
    case(name, why, Log::open(0).packets(1, packets), lines)
}

/// An SDT section of 212 bytes with a wrong CRC, which only a finished section shows: if it is kept, 0x0012 comes with
/// `rest`.
fn telltale() -> Vec<u8> {
    torn(section(0x42, 1, &[0; 200]))
}

fn sdt(counter: u8) -> Packet {
    Packet::on(SDT_PID, counter)
}

fn rest(counter: u8) -> Packet {
    sdt(counter).payload(&telltale()[183..])
}

/// The first 183 bytes with counter 0 at 1, then these packets.
fn half(name: &'static str, why: &'static str, packets: &[Packet], lines: &[&str]) -> Case {
    let begun = Log::open(0).packet(1, &Packet::pointed(SDT_PID, 0, 0, &telltale()));
    case(name, why, begun.packets(2, packets), lines)
}

pub fn cases() -> Vec<Case> {
    [counters(), lengths(), indicators(), sections(), scrambling()].into_iter().flatten().collect()
}

fn counters() -> Vec<Case> {
    vec![
        run("counter-15-0", "P7: counters 15, 0 are silent.", &[on(15), on(0)], &[]),
        run("counter-3-3", "P7: counters 3, 3 are silent: a repeat.", &[on(3), on(3)], &[]),
        run("counter-3-3-3", "P7: counters 3, 3, 3 give one 0x000E.", &[on(3), on(3), on(3)], &["3 000e 0 0100"]),
        run("counter-3-5", "P7: counters 3, 5 give one 0x000E.", &[on(3), on(5)], &["2 000e 0 0100"]),
        run(
            "counter-3-five-times",
            "Counter c again: 0x000E each time, and the byte stays, so that c+1 is right afterwards.",
            &[on(3), on(3), on(3), on(3), on(3), on(4)],
            &["3 000e 0 0100", "4 000e 0 0100", "5 000e 0 0100"],
        ),
        run(
            "counter-after-a-jump",
            "After any other counter the count goes on from it: 3, 7, 7, 8 gives one event.",
            &[on(3), on(7), on(7), on(8)],
            &["2 000e 0 0100"],
        ),
        run("counter-back", "A counter one less is any other: 0x000E.", &[on(3), on(2)], &["2 000e 0 0100"]),
        run(
            "counter-first",
            "An unseen PID has no last counter: any is silent.",
            &[Packet::on(1, 9), Packet::on(2, 0), Packet::on(3, 15)],
            &[],
        ),
        run(
            "counter-of-each-pid",
            "Each PID has its own counter.",
            &[Packet::on(0x1FFE, 1), Packet::on(0x1FFD, 7), Packet::on(0x1FFE, 2), Packet::on(0x1FFD, 9)],
            &["4 000e 0 1ffd"],
        ),
        run(
            "counter-repeat-of-other-bytes",
            "A repeat is told by the counter alone: other bytes under the same counter are skipped.",
            &[Packet::sections(SDT_PID, 0, &[&nit()]), Packet::sections(SDT_PID, 0, &[&torn(nit())])],
            &[],
        ),
    ]
}

fn lengths() -> Vec<Case> {
    vec![
        run(
            "control-10-equal",
            "Control 10: an equal counter changes nothing.",
            &[on(3), on(3).field(2, 183, 0), on(4)],
            &[],
        ),
        run(
            "control-10-next",
            "Control 10: another counter gives 0x000E, c+1 too, and the count goes on from it.",
            &[on(3), on(4).field(2, 183, 0), on(5)],
            &["2 000e 0 0100"],
        ),
        run(
            "control-10-keeps-the-repeat",
            "Control 10 with an equal counter keeps 48+c: the next packet with c is the second repeat.",
            &[on(3), on(3), on(3).field(2, 183, 0), on(3)],
            &["4 000e 0 0100"],
        ),
        run(
            "control-10-first",
            "A PID first seen by control 10 is seen from then on.",
            &[on(3).field(2, 183, 0), on(5)],
            &["2 000e 0 0100"],
        ),
        run(
            "control-10-first-then-equal",
            "First seen by control 10 with c, a payload with c is a repeat.",
            &[on(3).field(2, 183, 0), on(3), on(3)],
            &["3 000e 0 0100"],
        ),
        run(
            "control-11-first-wrong",
            "A PID first seen with a wrong length is seen from then on.",
            &[on(3).field(3, 183, 0), on(5)],
            &["2 000e 0 0100"],
        ),
        run(
            "control-11-counts",
            "Control 11 counts like control 01, with a wrong length too.",
            &[on(3), on(4).field(3, 10, 0), on(5).field(3, 183, 0), on(6).field(3, 182, 0), on(8).field(3, 0, 0)],
            &["5 000e 0 0100"],
        ),
        run(
            "control-10-wrong-counts",
            "Control 10 with a wrong length is judged like control 10.",
            &[on(3), on(3).field(2, 0, 0), on(4).field(2, 184, 0)],
            &["3 000e 0 0100"],
        ),
    ]
}

fn indicators() -> Vec<Case> {
    vec![
        run(
            "discontinuity",
            "A set discontinuity indicator: no event, and the count goes on from this counter.",
            &[on(3), on(9).field(3, 1, 0x80), on(10)],
            &[],
        ),
        run(
            "discontinuity-last-counter",
            "With the last counter it is no repeat: a repeat may still follow.",
            &[on(3), on(3).field(3, 1, 0x80), on(3), on(3)],
            &["4 000e 0 0100"],
        ),
        run(
            "discontinuity-control-10",
            "Control 10 has an indicator too.",
            &[on(3), on(9).field(2, 183, 0x80), on(10)],
            &[],
        ),
        run(
            "discontinuity-other-flags",
            "The other flags of the field are no indicator.",
            &[on(3), on(9).field(3, 1, 0x7F)],
            &["2 000e 0 0100"],
        ),
        run(
            "discontinuity-of-length-0",
            "Length 0 has no indicator: the byte behind it is payload.",
            &[on(3), on(9).field(3, 0, 0).payload(&[0x80])],
            &["2 000e 0 0100"],
        ),
        run(
            "discontinuity-of-wrong-length",
            "With a wrong length the indicator counts as 0: control 11, length 183.",
            &[on(3), on(9).field(3, 183, 0x80)],
            &["2 000e 0 0100"],
        ),
        run(
            "discontinuity-of-wrong-length-10",
            "With a wrong length the indicator counts as 0: control 10, length 182.",
            &[on(3), on(9).field(2, 182, 0x80)],
            &["2 000e 0 0100"],
        ),
    ]
}

fn sections() -> Vec<Case> {
    let kept = "3 0012 0 0011";
    vec![
        half(
            "section-goes-on",
            "c+1: the payload is taken, and the section ends in it.",
            &[rest(1)],
            &["2 0012 0 0011"],
        ),
        half(
            "section-over-a-repeat",
            "A repeat's payload is skipped, and the half-built section stays.",
            &[rest(0), rest(1)],
            &[kept],
        ),
        half(
            "section-over-a-second-repeat",
            "Counter c again: 0x000E, payload skipped, and the half-built section stays.",
            &[rest(0), rest(0), rest(1)],
            &["3 000e 0 0011", "4 0012 0 0011"],
        ),
        half(
            "section-over-a-jump",
            "Any other counter drops the half-built section; the payload is taken but goes on with nothing.",
            &[rest(2)],
            &["2 000e 0 0011"],
        ),
        half(
            "section-begins-with-a-jump",
            "Any other counter: the payload is taken, so that a section in it is read.",
            &[Packet::sections(SDT_PID, 5, &[&torn(nit())])],
            &["2 000e 0 0011", "2 0012 0 0011"],
        ),
        half(
            "section-over-control-10",
            "Control 10 with an equal counter keeps the half-built section.",
            &[sdt(0).field(2, 183, 0), rest(1)],
            &[kept],
        ),
        half(
            "section-over-control-10-jump",
            "Control 10 with another counter: 0x000E, half-built section kept.",
            &[sdt(7).field(2, 183, 0), rest(8)],
            &["2 000e 0 0011", kept],
        ),
        half(
            "section-over-control-10-wrong",
            "Control 10 with a wrong length keeps the half-built section.",
            &[sdt(0).field(2, 0, 0), rest(1)],
            &[kept],
        ),
        half(
            "section-over-control-11-wrong",
            "Control 11 with a wrong length drops the half-built section.",
            &[sdt(1).field(3, 183, 0), rest(2)],
            &[],
        ),
        half(
            "section-over-control-11-wrong-repeat",
            "Control 11 with a wrong length drops the half-built section of a repeat too.",
            &[sdt(0).field(3, 183, 0), rest(1)],
            &[],
        ),
        half(
            "section-over-discontinuity",
            "A set discontinuity indicator drops the half-built section, with c+1 too.",
            &[sdt(1).field(3, 150, 0x80).payload(&telltale()[183..])],
            &[],
        ),
        half(
            "section-over-discontinuity-10",
            "Control 10 with the indicator set drops the half-built section.",
            &[sdt(0).field(2, 183, 0x80), rest(1)],
            &[],
        ),
        half(
            "section-begins-with-discontinuity",
            "With the indicator set the payload is taken.",
            &[Packet::sections(SDT_PID, 9, &[&torn(nit())]).field(3, 1, 0x80)],
            &["2 0012 0 0011"],
        ),
        half(
            "section-in-control-11",
            "The payload begins behind the adaptation field.",
            &[rest(1).field(3, 154, 0)],
            &["2 0012 0 0011"],
        ),
        half(
            "section-in-control-11-length-0",
            "An adaptation field of length 0 is one byte.",
            &[rest(1).field(3, 0, 0)],
            &["2 0012 0 0011"],
        ),
        run(
            "section-with-the-first-packet",
            "An unseen PID: payload taken.",
            &[Packet::sections(SDT_PID, 7, &[&torn(nit())])],
            &["1 0012 0 0011"],
        ),
    ]
}

fn scrambling() -> Vec<Case> {
    let listing = |packets: &[Packet]| {
        let list = pat(&[(1, 0x0100), (2, 0x0100)]);
        Log::open(0).packet(0, &Packet::sections(PAT_PID, 0, &[&list])).packets(1, packets)
    };
    let pat_on = |c| Packet::on(PAT_PID, c);
    vec![
        run(
            "scrambled-pat",
            "Scrambling bits 01, 10 and 11 on PID 0: 0x0009 cause 3.",
            &[pat_on(0).scrambled(1), pat_on(1).scrambled(2), pat_on(2).scrambled(3)],
            &["1 0009 3 0000", "2 0009 3 0000", "3 0009 3 0000"],
        ),
        case(
            "scrambled-pmt",
            "On a listed PMT PID 0x000F cause 3: once, with the PID, though two programmes share it.",
            listing(&[on(0).scrambled(1)]),
            &["1 000f 3 0100"],
        ),
        case(
            "scrambled-elsewhere",
            "Elsewhere scrambling gives no event: the other tables' PIDs, and a PID that is not listed.",
            listing(&[Packet::on(NIT_PID, 0).scrambled(1), sdt(0).scrambled(2), Packet::on(0x0101, 0).scrambled(3)]),
            &[],
        ),
        run(
            "scrambled-repeat",
            "This step judges repeats too.",
            &[pat_on(0), pat_on(0).scrambled(1)],
            &["2 0009 3 0000"],
        ),
        run(
            "scrambled-control-10",
            "This step judges packets without payload too.",
            &[pat_on(0), pat_on(0).field(2, 183, 0).scrambled(1)],
            &["2 0009 3 0000"],
        ),
        run(
            "scrambled-wrong-length",
            "This step judges packets with a wrong length too.",
            &[pat_on(0), pat_on(1).field(3, 200, 0).scrambled(1), pat_on(1).field(2, 0, 0).scrambled(1)],
            &["2 0009 3 0000", "3 0009 3 0000"],
        ),
        run(
            "scrambled-jump",
            "0x000E comes before cause 3.",
            &[pat_on(0), pat_on(5).scrambled(1)],
            &["2 000e 0 0000", "2 0009 3 0000"],
        ),
        run(
            "scrambled-counts",
            "A scrambled packet counts: 0, (scrambled) 1, 2 is silent but for cause 3.",
            &[pat_on(0), pat_on(1).scrambled(1), pat_on(2)],
            &["2 0009 3 0000"],
        ),
        run(
            "scrambled-payload-not-taken",
            "A scrambled payload is not taken: its section is not read, and the PAT gap goes on.",
            &[Packet::sections(PAT_PID, 0, &[&torn(pat(&[]))]).scrambled(1)],
            &["1 0009 3 0000"],
        ),
        half(
            "scrambled-drops-the-section",
            "The half-built section is dropped, also where scrambling gives no event.",
            &[sdt(1).scrambled(1), rest(2)],
            &[],
        ),
        half(
            "scrambled-repeat-drops-the-section",
            "The half-built section is dropped by a scrambled repeat too.",
            &[sdt(0).scrambled(1), rest(1)],
            &[],
        ),
        half(
            "scrambled-control-10-drops-the-section",
            "The half-built section is dropped by a scrambled packet without payload too.",
            &[sdt(0).field(2, 183, 0).scrambled(2), rest(1)],
            &[],
        ),
    ]
}
