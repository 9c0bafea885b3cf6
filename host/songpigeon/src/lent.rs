//! The calls as the static library exports them: the host lends all memory, the state as two arrays by the width of
//! their numbers.
//!
//! These are safe: the exported functions answer for all contents, the state's too (refusal 5), and what they ask of
//! their caller is what a Rust reference is: never null (not with length 0 either), aligned, alive for the call, and no
//! two of the written ones over the same bytes.

/// latest time and gap starts, see [`place`]
pub const TIMES: usize = 22;
/// the list, half-built lengths and sync, see [`place`]
pub const WORDS: usize = 56;
/// one byte for each PID
pub const COUNTERS: usize = 8_192;
/// half-built sections
pub const MEMORY: usize = 24_576;
/// the least room for events
pub const EVENT_ROOM: usize = 96;
/// the numbers of an event: stamp, fault, cause, id
pub const WIDTH: usize = 4;
/// the events of a call as numbers
pub const NUMBERS: usize = WIDTH * EVENT_ROOM;

/// Where the numbers of a state stand in its two arrays. A number that is new stands behind all of them.
pub mod place {
    /// in the times: the latest accepted time
    pub const LATEST: usize = 0;
    /// gap starts of PAT, NIT, SDT, EIT and TDT
    pub const GAPS: usize = 1;
    /// those of the sixteen places of the list
    pub const SINCES: usize = 6;
    /// in the words: programme numbers of the sixteen places of the list
    pub const NUMBERS: usize = 0;
    /// their PIDs
    pub const PIDS: usize = 16;
    /// half-built lengths, one for each room
    pub const HALVES: usize = 32;
    /// not 0: sync is lost
    pub const LOST: usize = 53;
    /// the run of wrong sync bytes; while sync is lost, of right ones
    pub const RUN: usize = 54;
    /// how many programmes are listed
    pub const COUNT: usize = 55;
}

/// the fields of a test data section, one byte each
pub const FIELDS: usize = 12;
/// descriptors at, length; data at, length
pub const PLACES: usize = 4;
/// the numbers of a descriptor of fixed size, at most
pub const VALUES: usize = 5;
/// a test data section, at most
pub const SECTION: usize = 4_096;
/// a descriptor, at most
pub const DESCRIPTOR: usize = 257;

/// The version that this crate is written for, `major * 10000 + minor * 100 + patch`. A library with another major number
/// has other arrays or other calls: see [`version`].
pub const VERSION: u32 = 20_000;

pub type Times = [u64; TIMES];
pub type Words = [u16; WORDS];
pub type Memory = [u8; MEMORY];
/// Where a call works its events out. Any contents serve before a call, and the next call needs none of them. After a call
/// it holds the call's events from the first place on, four numbers to an event; the others are as they were.
pub type Numbers = [u64; NUMBERS];

#[repr(C)]
#[derive(Clone, Copy, Debug, Default, PartialEq, Eq)]
pub struct Event {
    pub stamp: u64,
    pub fault: u16,
    pub cause: u8,
    pub id: u16,
}

/// The refusal number (0: accepted) and the number of events.
#[repr(C)]
#[derive(Clone, Copy, Debug, PartialEq, Eq)]
pub struct Reply {
    pub refusal: u32,
    pub n: usize,
}

#[repr(C)]
#[derive(Clone, Copy, Debug, PartialEq, Eq)]
pub struct Verdict {
    pub refusal: u32,
    pub set: u32,
    pub number: u32,
    pub worst: u32,
}

/// The refusal number (0: written) and the length written.
#[repr(C)]
#[derive(Clone, Copy, Debug, PartialEq, Eq)]
pub struct Laid {
    pub refusal: u8,
    pub length: usize,
}

/// What stands at a place among descriptors: the refusal number (0: none), its kind ([`NO_MORE`], [`OF_FIXED`],
/// [`OF_OTHER`]), its tag, the place and length of the body of another one, and the next place.
#[repr(C)]
#[derive(Clone, Copy, Debug, PartialEq, Eq)]
pub struct Found {
    pub refusal: u8,
    pub kind: u8,
    pub tag: u8,
    pub at: usize,
    pub length: usize,
    pub next: usize,
}

/// The end of the descriptors, or a refusal.
pub const NO_MORE: u8 = 0;
/// A descriptor of fixed size: its numbers are in the lent values.
pub const OF_FIXED: u8 = 1;
/// Another one, with the place of its body.
pub const OF_OTHER: u8 = 2;

mod exported {
    use super::{Event, Found, Laid, Reply, Verdict};

    extern "C" {
        pub fn songpigeon_open(
            times: *mut u64,
            words: *mut u16,
            time: u64,
            counters: *mut u8,
            counters_length: usize,
        ) -> Reply;
        pub fn songpigeon_packet(
            times: *mut u64,
            words: *mut u16,
            time: u64,
            packet: *const u8,
            packet_length: usize,
            counters: *mut u8,
            counters_length: usize,
            memory: *mut u8,
            numbers: *mut u64,
            events: *mut Event,
            events_length: usize,
        ) -> Reply;
        pub fn songpigeon_clock(
            times: *mut u64,
            words: *mut u16,
            time: u64,
            memory: *const u8,
            numbers: *mut u64,
            events: *mut Event,
            events_length: usize,
        ) -> Reply;
        pub fn songpigeon_severity(kind: usize, gap: u64) -> Verdict;
        pub fn songpigeon_version() -> u32;
        pub fn songpigeon_testdata_read(
            section: *const u8,
            section_length: usize,
            fields: *mut u8,
            places: *mut u64,
        ) -> u8;
        pub fn songpigeon_testdata_write(
            fields: *const u8,
            descriptors: *const u8,
            descriptors_length: usize,
            data: *const u8,
            data_length: usize,
            place: *mut u8,
            place_length: usize,
        ) -> Laid;
        pub fn songpigeon_testdata_descriptor(
            bytes: *const u8,
            bytes_length: usize,
            at: usize,
            end: usize,
            values: *mut u32,
        ) -> Found;
        pub fn songpigeon_testdata_elementary_id(id_type: u8, pid: u16, place: *mut u8, place_length: usize) -> Laid;
        pub fn songpigeon_testdata_gps(
            north_south: u8,
            latitude: u32,
            east_west: u8,
            longitude: u32,
            elevation: u16,
            place: *mut u8,
            place_length: usize,
        ) -> Laid;
        pub fn songpigeon_testdata_reduced_pcr(base: u32, place: *mut u8, place_length: usize) -> Laid;
        pub fn songpigeon_testdata_program(
            number: u16,
            reserved: u8,
            pid: u16,
            place: *mut u8,
            place_length: usize,
        ) -> Laid;
        pub fn songpigeon_testdata_other(
            tag: u8,
            body: *const u8,
            body_length: usize,
            place: *mut u8,
            place_length: usize,
        ) -> Laid;
    }
}

/// Opens at a time: writes the state of an opening, and sets the counter table to 0. Refusals 2 and 4.
pub fn open(times: &mut Times, words: &mut Words, time: u64, counters: &mut [u8]) -> Reply {
    // SAFETY: each pointer and length is that of a reference, as the module says.
    unsafe {
        exported::songpigeon_open(times.as_mut_ptr(), words.as_mut_ptr(), time, counters.as_mut_ptr(), counters.len())
    }
}

/// A packet call. Refusals 1 to 6.
pub fn packet(
    times: &mut Times,
    words: &mut Words,
    time: u64,
    packet: &[u8],
    counters: &mut [u8],
    memory: &mut Memory,
    numbers: &mut Numbers,
    events: &mut [Event],
) -> Reply {
    // SAFETY: as above.
    unsafe {
        exported::songpigeon_packet(
            times.as_mut_ptr(),
            words.as_mut_ptr(),
            time,
            packet.as_ptr(),
            packet.len(),
            counters.as_mut_ptr(),
            counters.len(),
            memory.as_mut_ptr(),
            numbers.as_mut_ptr(),
            events.as_mut_ptr(),
            events.len(),
        )
    }
}

/// A clock call. Refusals 3 to 6.
pub fn clock(
    times: &mut Times,
    words: &mut Words,
    time: u64,
    memory: &Memory,
    numbers: &mut Numbers,
    events: &mut [Event],
) -> Reply {
    // SAFETY: as above.
    unsafe {
        exported::songpigeon_clock(
            times.as_mut_ptr(),
            words.as_mut_ptr(),
            time,
            memory.as_ptr(),
            numbers.as_mut_ptr(),
            events.as_mut_ptr(),
            events.len(),
        )
    }
}

/// Severity of a gap by the number of the table's kind. Refusal 7.
pub fn severity(kind: usize, gap: u64) -> Verdict {
    // SAFETY: numbers only.
    unsafe { exported::songpigeon_severity(kind, gap) }
}

/// The version of the library, `major * 10000 + minor * 100 + patch`.
pub fn version() -> u32 {
    // SAFETY: nothing is lent.
    unsafe { exported::songpigeon_version() }
}

/// Reads a test data section: its fields, a byte each, and the places of its descriptors and its data. Refusals 11 to 14;
/// 0 where it was read.
pub fn testdata_read(section: &[u8], fields: &mut [u8; FIELDS], places: &mut [u64; PLACES]) -> u8 {
    // SAFETY: each pointer and length is that of a reference; the two arrays have the lengths that the function writes.
    unsafe {
        exported::songpigeon_testdata_read(section.as_ptr(), section.len(), fields.as_mut_ptr(), places.as_mut_ptr())
    }
}

/// Writes a test data section. Refusals 14, 13, 15 in this order.
pub fn testdata_write(fields: &[u8; FIELDS], descriptors: &[u8], data: &[u8], place: &mut [u8]) -> Laid {
    // SAFETY: as above.
    unsafe {
        exported::songpigeon_testdata_write(
            fields.as_ptr(),
            descriptors.as_ptr(),
            descriptors.len(),
            data.as_ptr(),
            data.len(),
            place.as_mut_ptr(),
            place.len(),
        )
    }
}

/// What stands at a place among descriptors that end at another. Refusals 13 and 14.
pub fn testdata_descriptor(bytes: &[u8], at: usize, end: usize, values: &mut [u32; VALUES]) -> Found {
    // SAFETY: as above.
    unsafe { exported::songpigeon_testdata_descriptor(bytes.as_ptr(), bytes.len(), at, end, values.as_mut_ptr()) }
}

/// Writes an elementary_id_descriptor. Refusals 13, then 15.
pub fn testdata_elementary_id(id_type: u8, pid: u16, place: &mut [u8]) -> Laid {
    // SAFETY: as above.
    unsafe { exported::songpigeon_testdata_elementary_id(id_type, pid, place.as_mut_ptr(), place.len()) }
}

/// Writes a GPS_descriptor. Refusals 13, then 15.
pub fn testdata_gps(
    north_south: u8,
    latitude: u32,
    east_west: u8,
    longitude: u32,
    elevation: u16,
    place: &mut [u8],
) -> Laid {
    // SAFETY: as above.
    unsafe {
        exported::songpigeon_testdata_gps(
            north_south,
            latitude,
            east_west,
            longitude,
            elevation,
            place.as_mut_ptr(),
            place.len(),
        )
    }
}

/// Writes a reduced_PCR_descriptor. Refusal 15.
pub fn testdata_reduced_pcr(base: u32, place: &mut [u8]) -> Laid {
    // SAFETY: as above.
    unsafe { exported::songpigeon_testdata_reduced_pcr(base, place.as_mut_ptr(), place.len()) }
}

/// Writes a program_descriptor. Refusals 13, then 15.
pub fn testdata_program(number: u16, reserved: u8, pid: u16, place: &mut [u8]) -> Laid {
    // SAFETY: as above.
    unsafe { exported::songpigeon_testdata_program(number, reserved, pid, place.as_mut_ptr(), place.len()) }
}

/// Writes a descriptor of any tag with its body as it is. Refusals 14, 13, 15 in this order.
pub fn testdata_other(tag: u8, body: &[u8], place: &mut [u8]) -> Laid {
    // SAFETY: as above.
    unsafe { exported::songpigeon_testdata_other(tag, body.as_ptr(), body.len(), place.as_mut_ptr(), place.len()) }
}
