//! "Building sections".

use crate::{case, Case, Log};
use songpigeon_reference::crc::crc32;
use songpigeon_reference::streams::*;

/// Packets from time 1 on.
fn run(name: &'static str, why: &'static str, packets: &[Packet], lines: &[&str]) -> Case {
    case(name, why, Log::open(0).packets(1, packets), lines)
}

/// One packet on this PID with these sections, at 1.
fn one(name: &'static str, why: &'static str, pid: u16, sections: &[&[u8]], lines: &[&str]) -> Case {
    run(name, why, &[Packet::sections(pid, 0, sections)], lines)
}

/// A section over as many packets as it needs.
fn spread(pid: u16, section: &[u8]) -> Vec<Packet> {
    let bytes = [&[0][..], section].concat();
    let packet = |(k, part): (usize, &[u8])| {
        let packet = Packet::on(pid, k as u8 % 16).payload(part);
        if k == 0 {
            packet.started()
        } else {
            packet
        }
    };
    bytes.chunks(184).enumerate().map(packet).collect()
}

/// A torn section: 0x0012 cause 0 shows that it was read to its end.
fn telltale() -> Vec<u8> {
    torn(section(0x42, 1, &[0; 3]))
}

fn long() -> Vec<u8> {
    torn(section(0x42, 1, &[0; 200]))
}

fn header(table_id: u8, flags: u8, length: u16) -> Vec<u8> {
    vec![table_id, flags | (length >> 8) as u8, length as u8]
}

pub fn cases() -> Vec<Case> {
    [pointers(), ends(), lengths(), crcs(), table_ids()].into_iter().flatten().collect()
}

fn pointers() -> Vec<Case> {
    // bytes of a payload of 184 with a section at its end
    let at_the_end = |pointer: u8, first: &[u8]| {
        let mut payload = vec![0; 184];
        payload[0] = pointer;
        payload[184 - first.len()..].copy_from_slice(first);
        Packet::on(SDT_PID, 0).started().payload(&payload)
    };
    let begun = Packet::pointed(SDT_PID, 0, 0, &long());
    let rest = long()[183..].to_vec();
    let tail = |pointer: u8, behind: &[u8]| Packet::pointed(SDT_PID, 1, pointer, &[&rest[..], behind].concat());
    vec![
        run(
            "pointer-182",
            "P8: payload 184, p 182 is usable: a section begins in the last byte.",
            &[at_the_end(182, &telltale()[..1]), Packet::on(SDT_PID, 1).payload(&telltale()[1..])],
            &["2 0012 0 0011"],
        ),
        run(
            "pointer-183",
            "P8: payload 184, p 183 is not usable: the payload is ignored.",
            &[at_the_end(183, &telltale()[..1]), Packet::on(SDT_PID, 1).payload(&telltale()[1..])],
            &[],
        ),
        run(
            "pointer-of-a-short-payload",
            "The pointer is measured by the payload's own length: behind a field of 150 bytes 33 are left, so p 32 is not usable.",
            &[begun.clone(), Packet::on(SDT_PID, 1).started().field(3, 150, 0).payload(&[&[32], &rest[..]].concat())],
            &[],
        ),
        run(
            "pointer-of-one-byte",
            "A payload of one byte has no usable pointer; the half-built section is dropped.",
            &[begun.clone(), Packet::on(SDT_PID, 1).started().field(3, 182, 0).payload(&[0]), Packet::on(SDT_PID, 2).payload(&rest)],
            &[],
        ),
        run(
            "pointer-unusable-drops",
            "An unusable pointer drops the half-built section, even where the payload would have finished it.",
            &[begun.clone(), tail(183, &[])],
            &[],
        ),
        run("pointer-finishes-and-begins", "p bytes end the half-built section, and a new one follows.", &[begun.clone(), tail(rest.len() as u8, &telltale())], &["2 0012 0 0011", "2 0012 0 0011"]),
        run(
            "pointer-too-small",
            "A section that the p bytes do not finish is dropped without an event; the one at the pointer is read.",
            &[begun.clone(), Packet::pointed(SDT_PID, 1, 5, &[&rest[..5], &telltale()].concat())],
            &["2 0012 0 0011"],
        ),
        run("pointer-0-cuts-off", "p = 0 drops the half-built section without an event.", &[begun.clone(), Packet::sections(SDT_PID, 1, &[&telltale()])], &["2 0012 0 0011"]),
        run(
            "pointer-larger",
            "Bytes after the section's end among the p are ignored: a section there is not read.",
            &[begun, tail((rest.len() + telltale().len()) as u8, &[&telltale()[..], &nit()].concat())],
            &["2 0012 0 0011"],
        ),
        run(
            "pointer-without-half-built",
            "Without a half-built section the p bytes begin nothing.",
            &[Packet::pointed(SDT_PID, 0, 15, &[&telltale()[..], &[0xFF]].concat())],
            &[],
        ),
    ]
}

fn ends() -> Vec<Case> {
    let first = Packet::pointed(SDT_PID, 0, 0, &long());
    let rest = long()[183..].to_vec();
    vec![
        one(
            "sections-back-to-back",
            "Sections follow back to back; each gives its own event, in byte order.",
            0x11,
            &[&telltale(), &nit(), &telltale()],
            &["1 0012 0 0011", "1 0012 0 0011"],
        ),
        one(
            "stuffing",
            "table_id 0xFF ends the reading at any section start.",
            0x11,
            &[&nit(), &[0xFF], &telltale()],
            &[],
        ),
        one(
            "stuffing-inside",
            "0xFF inside a section is data.",
            0x11,
            &[&torn(section(0x42, 0xFFFF, &[0xFF; 9]))],
            &["1 0012 0 0011"],
        ),
        run(
            "behind-a-continued-section",
            "Without unit start only the half-built section goes on; bytes after its end begin nothing.",
            &[first, Packet::on(SDT_PID, 1).payload(&[&rest[..], &telltale()].concat())],
            &["2 0012 0 0011"],
        ),
        run(
            "without-unit-start",
            "Without unit start and without a half-built section the payload begins nothing.",
            &[Packet::on(SDT_PID, 0).payload(&[&[0], &telltale()[..]].concat())],
            &[],
        ),
        run(
            "section-over-three-packets",
            "A section goes on over packets; other PIDs between them do not matter.",
            &[
                Packet::pointed(SDT_PID, 0, 0, &torn(section(0x42, 1, &[7; 400]))),
                Packet::on(0x0200, 0),
                Packet::on(SDT_PID, 1).payload(&torn(section(0x42, 1, &[7; 400]))[183..]),
                Packet::on(NULL_PID, 0),
                Packet::on(SDT_PID, 2).payload(&torn(section(0x42, 1, &[7; 400]))[367..]),
            ],
            &["5 0012 0 0011"],
        ),
        run(
            "two-half-built-sections",
            "Each PID has its own half-built section.",
            &[
                Packet::pointed(SDT_PID, 0, 0, &long()),
                Packet::pointed(NIT_PID, 0, 0, &torn(section(0x40, 1, &[1; 200]))),
                Packet::on(SDT_PID, 1).payload(&rest),
                Packet::on(NIT_PID, 1).payload(&torn(section(0x40, 1, &[1; 200]))[183..]),
            ],
            &["3 0012 0 0011", "4 0012 0 0010"],
        ),
    ]
}

fn lengths() -> Vec<Case> {
    let bad = ["1 0012 4 0011"];
    // the third byte of the header comes with the next packet
    let mut at_the_end = vec![0; 184];
    at_the_end[0] = 181;
    at_the_end[182..].copy_from_slice(&header(0x42, 0xB0, 0x0F00)[..2]);
    let cut = Packet::on(SDT_PID, 0).started().payload(&at_the_end);
    vec![
        run(
            "length-1021",
            "section_length 1,021 is right: a section of 1,024 bytes.",
            &spread(SDT_PID, &torn(section(0x42, 1, &[0; 1_012]))),
            &["6 0012 0 0011"],
        ),
        one("length-1022", "section_length above 1,021: 0x0012 cause 4.", 0x11, &[&header(0x42, 0xB0, 1_022)], &bad),
        run(
            "length-4093-of-the-eit",
            "section_length 4,093 is right on PID 0x0012: a section of 4,096 bytes.",
            &spread(EIT_PID, &torn(section(0x4E, 1, &[0; 4_084]))),
            &["23 0012 0 0012"],
        ),
        one(
            "length-4094-of-the-eit",
            "section_length above 4,093 on PID 0x0012: cause 4.",
            0x12,
            &[&header(0x4E, 0xB0, 4_094)],
            &["1 0012 4 0012"],
        ),
        one(
            "length-1022-of-the-eit",
            "On PID 0x0012 1,022 is no bad length.",
            0x12,
            &[&header(0x4E, 0xB0, 1_022)],
            &[],
        ),
        one(
            "length-8",
            "section_length below 9 where the indicator is 1: cause 4.",
            0x11,
            &[&header(0x42, 0xB0, 8)],
            &bad,
        ),
        one(
            "length-9",
            "section_length 9 is right: nothing but the fixed fields and the CRC.",
            0x11,
            &[&torn(section(0x42, 1, &[]))],
            &["1 0012 0 0011"],
        ),
        one(
            "length-0-without-indicator",
            "Without the indicator a section may have length 0: three bytes, on PID 0 a foreign table.",
            0,
            &[&[0x01, 0, 0], &[0x01, 0, 0]],
            &["1 0009 2 0000", "1 0009 2 0000"],
        ),
        one(
            "length-3-of-the-tot",
            "Below 4 for table_id 0x73: cause 4.",
            0x14,
            &[&short_section(0x73, &[0; 3])],
            &["1 0012 4 0014"],
        ),
        one(
            "length-8-of-a-tot-with-indicator",
            "The two limits stand side by side: 0x73 with the indicator is too short below 9.",
            0x14,
            &[&header(0x73, 0xB0, 8)],
            &["1 0012 4 0014"],
        ),
        one(
            "length-3-of-a-tot-elsewhere",
            "The rule for 0x73 holds on every PID where sections are built.",
            0x11,
            &[&short_section(0x73, &[0; 3])],
            &bad,
        ),
        run(
            "length-judged-with-the-third-byte",
            "section_length is judged with the third byte: two bytes that rule out a legal length are half-built.",
            &[cut.clone(), Packet::on(SDT_PID, 1).payload(&[0])],
            &["2 0012 4 0011"],
        ),
        run(
            "length-bad-before-the-pointer",
            "A bad length among the p bytes: the rest of that payload is ignored, the sections at the pointer too.",
            &[cut, Packet::pointed(SDT_PID, 1, 1, &[&[0], &telltale()[..]].concat())],
            &["2 0012 4 0011"],
        ),
        one(
            "length-bad-behind-a-section",
            "A section finished before the bad length counts; one behind it is not read.",
            0x11,
            &[&telltale(), &header(0x42, 0xB0, 8), &telltale()],
            &["1 0012 0 0011", "1 0012 4 0011"],
        ),
        run(
            "length-bad-then-clean",
            "The bytes of a too-long section are swallowed nowhere: the next packet starts clean.",
            &[
                Packet::sections(SDT_PID, 0, &[&header(0x42, 0xB0, 1_022)]),
                Packet::on(SDT_PID, 1),
                Packet::sections(SDT_PID, 2, &[&telltale()]),
            ],
            &["1 0012 4 0011", "3 0012 0 0011"],
        ),
        one(
            "length-bad-on-pid-0",
            "A bad length on PID 0 is 0x0012 cause 4 too, whatever the table_id.",
            0,
            &[&header(0x55, 0xB0, 8)],
            &["1 0012 4 0000"],
        ),
    ]
}

fn crcs() -> Vec<Case> {
    let listed = |section: &[u8]| {
        Log::open(0)
            .packet(0, &Packet::sections(PAT_PID, 0, &[&pat(&[(1, 0x0100)])]))
            .packet(1, &Packet::sections(0x0100, 0, &[section]))
    };
    // 0x73 with the indicator 0 and its CRC right, as three bytes and a CRC
    let mut least = vec![0x73, 0x70, 4];
    least.extend(crc32(&least).to_be_bytes());
    vec![
        one(
            "crc-of-the-pat",
            "A wrong CRC on PID 0: 0x0012 cause 0, nothing else derived.",
            0,
            &[&torn(pat(&[(1, 0x1F)]))],
            &["1 0012 0 0000"],
        ),
        case(
            "crc-of-the-pmt",
            "A wrong CRC on a listed PMT PID: 0x0012 with the PID as id.",
            listed(&torn(pmt(1))),
            &["1 0012 0 0100"],
        ),
        one(
            "crc-of-a-foreign-table",
            "The CRC is judged for any table_id where the indicator is 1.",
            0x10,
            &[&torn(section(0x99, 1, &[]))],
            &["1 0012 0 0010"],
        ),
        one(
            "crc-before-table-id",
            "The first that holds: a foreign table on PID 0 with a wrong CRC gives 0x0012 alone.",
            0,
            &[&torn(section(0x02, 1, &[]))],
            &["1 0012 0 0000"],
        ),
        one(
            "crc-of-the-tot",
            "The CRC of table_id 0x73 is judged though its indicator is 0.",
            0x14,
            &[&torn(tot())],
            &["1 0012 0 0014"],
        ),
        one("crc-of-a-good-tot", "A TOT with its CRC right says nothing.", 0x14, &[&tot(), &least], &[]),
        one(
            "crc-of-a-tot-elsewhere",
            "The CRC of 0x73 is judged on every PID where sections are built.",
            0x11,
            &[&torn(tot())],
            &["1 0012 0 0011"],
        ),
        one(
            "crc-not-of-the-tdt",
            "Without the indicator no CRC is judged: a TDT has none.",
            0x14,
            &[&short_section(0x70, &[9; 5])],
            &[],
        ),
        one(
            "crc-not-current",
            "The CRC is judged before current_next_indicator.",
            0,
            &[&torn(section_with(0, 1, 0, &[]))],
            &["1 0012 0 0000"],
        ),
    ]
}

fn table_ids() -> Vec<Case> {
    let listed = |section: &[u8], lines: &[&str], name, why| {
        let list = pat(&[(1, 0x0100), (2, 0x0100)]);
        let log = Log::open(0).packet(0, &Packet::sections(PAT_PID, 0, &[&list]));
        case(name, why, log.packet(1, &Packet::sections(0x0100, 0, &[section])), lines)
    };
    let foreign = ["1 0009 2 0000"];
    vec![
        one("foreign-table-on-pid-0", "On PID 0 a table_id other than 0x00: 0x0009 cause 2.", 0, &[&section(0x01, 1, &[])], &foreign),
        one("foreign-table-not-current", "Cause 2 asks for no current_next_indicator.", 0, &[&section_with(0x02, 1, 0, &[])], &foreign),
        one("foreign-table-without-indicator", "Cause 2 asks for no indicator and then for no CRC.", 0, &[&short_section(0x70, &[0; 5])], &foreign),
        listed(&section(0x03, 1, &[]), &["1 000f 2 0100"], "foreign-table-on-a-pmt-pid", "On a PMT PID a table_id other than 0x02: 0x000F cause 2, once, with the PID, though two programmes share it."),
        listed(&short_section(0x02, &[0; 20]), &[], "pmt-without-indicator", "table_id 0x02 with indicator 0 says nothing and is not good."),
        listed(&pmt(3), &[], "pmt-of-another-programme", "A PMT of a programme that is not listed on this PID says nothing."),
        one("foreign-tables-elsewhere", "Foreign tables on the PIDs of NIT, SDT, EIT and TDT give nothing.", 0x12, &[&nit(), &sdt(), &section(0x02, 1, &[])], &[]),
        one("tables-too-close", "Two sections of a table close together give nothing.", 0, &[&pat(&[]), &pat(&[]), &pat(&[])], &[]),
    ]
}
