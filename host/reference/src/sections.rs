//! Section memory ("Building sections"): one room for each PID on which sections are built, and how far the section in
//! it has come. A half-built section is the first `half` bytes of its room.

use crate::probe::Memory;

pub const ROOMS: usize = 21;
pub const FIXED_ROOMS: usize = 5;
pub const PAT: usize = 0;
pub const NIT: usize = 1;
pub const SDT: usize = 2;
pub const EIT: usize = 3;
pub const TDT: usize = 4;

const ROOM: usize = 1_024;
const EIT_ROOM: usize = 4_096;

pub const TABLE_STUFFING: u8 = 0xFF;
const TABLE_TOT: u8 = 0x73;

/// Where a room begins: PAT, NIT, SDT, EIT (the long one), TDT, then the sixteen places of the list.
pub fn base(room: usize) -> usize {
    room * ROOM + if room > EIT { EIT_ROOM - ROOM } else { 0 }
}

/// The half-built bytes of a room. Only a length that refusal 5 turns away could leave its room.
pub fn half_built(memory: &Memory, room: usize, half: u16) -> &[u8] {
    let from = base(room);
    &memory[from..memory.len().min(from + usize::from(half))]
}

pub fn has_syntax(section: &[u8]) -> bool {
    section[1] & 0x80 != 0
}

pub fn length(section: &[u8]) -> usize {
    usize::from(section[1] & 0x0F) << 8 | usize::from(section[2])
}

/// How far the bytes of a section have come.
#[derive(Clone, Copy, Debug, PartialEq, Eq)]
pub enum Progress {
    /// unfinished: so many bytes are missing to the next judgement
    Missing(usize),
    /// section_length is above or below what the paper allows
    BadLength,
    Whole,
}

/// section_length is judged with the third byte, which is its last.
pub fn progress(room: usize, bytes: &[u8]) -> Progress {
    if bytes.len() < 3 {
        return Progress::Missing(3 - bytes.len());
    }
    let length = length(bytes);
    let greatest = if room == EIT { 4_093 } else { 1_021 };
    let too_short = has_syntax(bytes) && length < 9 || bytes[0] == TABLE_TOT && length < 4;
    if length > greatest || too_short {
        Progress::BadLength
    } else if bytes.len() < 3 + length {
        Progress::Missing(3 + length - bytes.len())
    } else {
        Progress::Whole
    }
}

/// CRC_32 is judged where the indicator is 1, or table_id is 0x73.
pub fn is_torn(section: &[u8]) -> bool {
    (has_syntax(section) || section[0] == TABLE_TOT) && !crate::crc::ends_in_its_crc(section)
}

/// Right table_id, indicator 1, current_next_indicator 1, where the CRC was found right.
pub fn is_good(section: &[u8], table_id: u8) -> bool {
    section[0] == table_id && has_syntax(section) && section[5] & 1 == 1
}

/// The TDT has indicator 0 and section_length 5.
pub fn is_good_tdt(section: &[u8]) -> bool {
    section[0] == 0x70 && !has_syntax(section) && length(section) == 5
}

pub fn table_id_extension(section: &[u8]) -> u16 {
    u16::from_be_bytes([section[3], section[4]])
}

#[cfg(test)]
mod tests {
    use super::*;
    use crate::probe::MEMORY;

    #[test]
    fn rooms_fill_the_memory() {
        assert_eq!(base(PAT), 0);
        assert_eq!(base(SDT), 2_048);
        assert_eq!(base(EIT), 3_072);
        assert_eq!(base(TDT), 7_168);
        assert_eq!(base(FIXED_ROOMS), 8_192);
        assert_eq!(base(20) + ROOM, MEMORY);
    }

    #[test]
    fn length_rule() {
        let of = |room, id, flags: u8, length: usize| progress(room, &[id, flags | (length >> 8) as u8, length as u8]);
        assert_eq!(of(PAT, 0, 0x80, 1_021), Progress::Missing(1_021));
        assert_eq!(of(PAT, 0, 0x80, 1_022), Progress::BadLength);
        assert_eq!(of(EIT, 0x4E, 0x80, 4_093), Progress::Missing(4_093));
        assert_eq!(of(EIT, 0x4E, 0x80, 4_094), Progress::BadLength);
        assert_eq!(of(PAT, 0, 0x80, 8), Progress::BadLength);
        assert_eq!(of(PAT, 0, 0x80, 9), Progress::Missing(9));
        assert_eq!(of(PAT, 0, 0, 0), Progress::Whole);
        assert_eq!(of(TDT, 0x73, 0, 3), Progress::BadLength);
        assert_eq!(of(TDT, 0x73, 0, 4), Progress::Missing(4));
        assert_eq!(of(TDT, 0x73, 0x80, 8), Progress::BadLength);
        // two bytes that already rule out a legal length are half-built like any others
        assert_eq!(progress(PAT, &[0, 0x8F]), Progress::Missing(1));
    }
}
