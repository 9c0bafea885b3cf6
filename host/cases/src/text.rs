//! "The program's text", and the refusals that a log can show: 4, 6 and 8.

use crate::{case, Case, Log};
use songpigeon_reference::streams::*;

fn nulls() -> String {
    Packet::on(NULL_PID, 0).hex()
}

/// A log whose first line is refused with this number.
fn first(name: &'static str, why: &'static str, line: &str, refused: &str) -> Case {
    case(name, why, Log::default().raw(line), &[refused])
}

/// A good opening, and then this line.
fn second(name: &'static str, why: &'static str, line: &str, lines: &[&str]) -> Case {
    case(name, why, Log::open(0).raw(line), lines)
}

const EIGHT: &str = "line 1 refused 8";
const LATER: [&str; 1] = ["line 2 refused 8"];

pub fn cases() -> Vec<Case> {
    [whole(), lines(), columns(), packets(), times(), order()].into_iter().flatten().collect()
}

fn whole() -> Vec<Case> {
    vec![
        case("whole-case", "The whole case of the paper.", Log::open(0).clock(13_500_001), &["13500000 0009 1 0000"]),
        case("no-input", "No input prints the header only.", Log::default(), &[]),
        case("opening-only", "The first line opens, and an opening has no events.", Log::open(27_000_000), &[]),
    ]
}

fn lines() -> Vec<Case> {
    vec![
        first("lf-only", "An empty line has no time.", "\n", EIGHT),
        second("lf-only-later", "An empty line has no time, at the end of a log too.", "\n", &LATER),
        first(
            "cr-lf",
            "A line is ended by LF; CR stands in the second column, which is `-` or digits.",
            "0\t-\r\n",
            EIGHT,
        ),
        second("cr-lf-later", "CR before LF is malformed in every line.", "1\t-\r\n", &LATER),
        first("cr-alone", "CR ends no line, so this is a last line without LF.", "0\t-\r", EIGHT),
        first("cr-cr", "Lines parted by CR are one line.", "0\t-\r1\t-\n", EIGHT),
        first("first-without-lf", "A last line without LF is malformed, the first too.", "0\t-", EIGHT),
        second("last-without-lf", "A last line without LF is malformed.", "1\t-", &LATER),
        second(
            "last-without-lf-packet",
            "A packet's line without LF is malformed.",
            &format!("1\t{}", nulls()),
            &LATER,
        ),
        case(
            "events-before-a-refusal",
            "A refused line stops the program; what was printed before stays.",
            Log::open(0).clock(13_500_001).raw("x\n").clock(54_000_001),
            &["13500000 0009 1 0000", "line 3 refused 8"],
        ),
        case(
            "stops-at-a-refusal",
            "The program stops at the first refused line: line 3 would be late, line 4 malformed.",
            Log::open(5).clock(4).clock(99_000_000).raw("x\n"),
            &["line 2 refused 6"],
        ),
        case(
            "line-numbers",
            "Lines are counted from 1, clock calls and packets alike.",
            (1..12).fold(Log::open(0), |log, t| log.packet(t, &Packet::on(NULL_PID, 0))).clock(3),
            &["line 13 refused 6"],
        ),
    ]
}

fn columns() -> Vec<Case> {
    vec![
        first("no-tab", "Time and record are parted by a tab.", "0-\n", EIGHT),
        first("space-for-tab", "A space is no tab.", "0 -\n", EIGHT),
        first("two-tabs", "One tab stands between the columns.", "0\t\t-\n", EIGHT),
        first("tab-behind", "Nothing stands behind the record.", "0\t-\t\n", EIGHT),
        first("space-behind", "Nothing stands behind the record, no space either.", "0\t- \n", EIGHT),
        first("space-before", "Nothing stands before the time.", " 0\t-\n", EIGHT),
        first("no-time", "A time has at least one digit.", "\t-\n", EIGHT),
        first("time-alone", "A line has a record.", "0\n", EIGHT),
        first("no-record", "A record is `-` or 376 digits, never empty.", "0\t\n", EIGHT),
        first("leading-zero", "A time has no leading zeros: 00.", "00\t-\n", EIGHT),
        second("leading-zero-later", "A time has no leading zeros: 01.", "01\t-\n", &LATER),
        first("plus-sign", "A decimal time has digits only.", "+1\t-\n", EIGHT),
        first("minus-sign", "A decimal time has digits only.", "-1\t-\n", EIGHT),
        first("decimal-point", "A decimal time has digits only.", "1.0\t-\n", EIGHT),
        first("hexadecimal-time", "A time is decimal.", "0x10\t-\n", EIGHT),
        first("letter-in-time", "A time is decimal: the digits go to 9.", "1a\t-\n", EIGHT),
        first("byte-before-0", "The byte before `0` is no digit.", "1/\t-\n", EIGHT),
        first("byte-behind-9", "The byte behind `9` is no digit.", "1:\t-\n", EIGHT),
        first("two-dashes", "A record is one `-`.", "0\t--\n", EIGHT),
        first("nul-byte", "A NUL byte is neither digit nor tab.", "0\0\t-\n", EIGHT),
        first("byte-order-mark", "A byte order mark is no digit.", "\u{feff}0\t-\n", EIGHT),
        first("other-digits", "Digits of other scripts are no digits.", "\u{0661}\t-\n", EIGHT),
        first("header-read-back", "What the program prints is no log.", "time\tfault\tcause\tid\n", EIGHT),
    ]
}

fn packets() -> Vec<Case> {
    let hex = nulls();
    let line = |digits: &str| format!("1\t{}\n", digits);
    let upper = hex.replacen('f', "F", 1);
    let other = |byte: &str| format!("{}{}", &hex[..375], byte);
    vec![
        second("packet-376-digits", "376 lower-case digits are a packet.", &line(&hex), &[]),
        second("packet-374-digits", "374 digits are malformed: 8, not 1.", &line(&hex[..374]), &LATER),
        second("packet-375-digits", "An odd number of digits is malformed.", &line(&hex[..375]), &LATER),
        second("packet-377-digits", "An odd number of digits is malformed.", &line(&format!("{}0", hex)), &LATER),
        second("packet-378-digits", "378 digits are malformed: 8, not 1.", &line(&format!("{}00", hex)), &LATER),
        second("packet-2-digits", "Two digits are no packet.", &line("47"), &LATER),
        second("upper-case", "Hex digits are lower-case.", &line(&upper), &LATER),
        second("no-hex-digit", "The byte behind `f` is no hex digit.", &line(&other("g")), &LATER),
        second("byte-before-a", "The byte before `a` is no hex digit.", &line(&other("`")), &LATER),
        second("dash-among-digits", "A packet has digits only.", &line(&other("-")), &LATER),
        second(
            "space-among-digits",
            "A packet's digits are not parted.",
            &line(&format!("{} {}", &hex[..188], &hex[189..])),
            &LATER,
        ),
        first("first-line-a-packet", "The first line must be `-`, else 8.", &line(&hex), EIGHT),
        first(
            "first-line-a-packet-too-late",
            "The first line must be `-`: 8 whatever its time.",
            &format!("4611686018427387905\t{}\n", hex),
            EIGHT,
        ),
    ]
}

fn times() -> Vec<Case> {
    let digits = |n: usize| "9".repeat(n);
    const FOUR: &str = "line 1 refused 4";
    vec![
        first("time-2-62-plus-1", "A time above 2^62 gives 4, at the opening too.", "4611686018427387905\t-\n", FOUR),
        first(
            "time-30-digits",
            "A well-formed time above 2^62, however long, gives 4.",
            &format!("{}\t-\n", digits(30)),
            FOUR,
        ),
        first(
            "time-10000-digits",
            "A well-formed time above 2^62, however long, gives 4.",
            &format!("{}\t-\n", digits(10_000)),
            FOUR,
        ),
        first(
            "time-10000-digits-leading-zero",
            "A leading zero is malformed, however long the time.",
            &format!("0{}\t-\n", digits(9_999)),
            EIGHT,
        ),
        first(
            "time-10000-digits-then-no-record",
            "The program judges 8 first: the record is judged behind a time of any length.",
            &format!("{}\tx\n", digits(10_000)),
            EIGHT,
        ),
        first(
            "time-10000-digits-then-letter",
            "One letter behind 9,999 digits makes the line malformed.",
            &format!("{}x\t-\n", digits(9_999)),
            EIGHT,
        ),
        first("time-2-64", "2^64 does not come round to 0.", "18446744073709551616\t-\n", FOUR),
        second(
            "time-2-64-plus-1",
            "2^64 + 1 does not come round to 1.",
            "18446744073709551617\t-\n",
            &["line 2 refused 4"],
        ),
        second(
            "time-2-128",
            "2^128 does not come round to 0.",
            "340282366920938463463374607431768211456\t-\n",
            &["line 2 refused 4"],
        ),
        case("time-2-62", "2^62 is a time, and no gap is longer than 0.", Log::open(1 << 62).clock(1 << 62), &[]),
        case(
            "time-2-62-late",
            "The last stamp that can be handed over is 2^62 - 1.",
            Log::open((1 << 62) - 13_500_001).clock(1 << 62),
            &["4611686018427387903 0009 1 0000"],
        ),
        case(
            "time-2-62-silent",
            "A gap of 13,500,000 that ends with the last time there is.",
            Log::open((1 << 62) - 13_500_000).clock(1 << 62),
            &[],
        ),
        case(
            "packet-2-62-plus-1",
            "A packet's time above 2^62 gives 4.",
            Log::open(0).packet((1 << 62) + 1, &Packet::on(NULL_PID, 0)),
            &["line 2 refused 4"],
        ),
    ]
}

fn order() -> Vec<Case> {
    vec![
        case(
            "time-equal",
            "A time equal to the latest is accepted.",
            Log::open(7).clock(7).packet(7, &Packet::on(0, 0)),
            &[],
        ),
        case("time-one-less", "A time one less than the latest gives 6.", Log::open(7).clock(6), &["line 2 refused 6"]),
        case(
            "time-one-less-packet",
            "A packet's time below the latest gives 6, and the packet is not judged.",
            Log::open(7).packet(6, &Packet::on(0, 0).first(0)),
            &["line 2 refused 6"],
        ),
        case("8-before-6", "The program judges 8 first.", Log::open(7).raw("6\t--\n"), &["line 2 refused 8"]),
        first("8-before-4", "The program judges 8 first.", "4611686018427387905\t--\n", EIGHT),
        case(
            "refused-8-hides-lateness",
            "A malformed line is no accepted call: it hands over nothing.",
            Log::open(0).raw("13500001\t-\r\n"),
            &["line 2 refused 8"],
        ),
    ]
}

/// A log of three lines; then how many lengths print which lines, from the length 0 on.
#[allow(clippy::type_complexity)]
pub fn cuts() -> (Log, Vec<(usize, &'static str, &'static [&'static str])>) {
    let packet = Packet::on(0x0123, 0).first(0x46);
    let log = Log::open(0).packet(1, &packet).clock(13_500_001);
    let rows: Vec<(usize, &str, &[&str])> = vec![
        (1, "nothing", &[]),
        (3, "in-line-1", &["line 1 refused 8"]),
        (1, "line-1", &[]),
        (378, "in-line-2", &["line 2 refused 8"]),
        (1, "line-2", &["1 000d 0 0123"]),
        (10, "in-line-3", &["1 000d 0 0123", "line 3 refused 8"]),
        (1, "line-3", &["1 000d 0 0123", "13500000 0009 1 0000"]),
    ];
    (log, rows)
}
