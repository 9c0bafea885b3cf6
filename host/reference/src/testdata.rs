//! Test data sections of DVB A046: Table 1, and the descriptors of 5.4.

use crate::crc;

/// The length given is not that of the bytes, below the fixed fields, or above 4,096 bytes in all.
pub const WRONG_LENGTH: u8 = 11;
pub const WRONG_CRC: u8 = 12;
/// Reader: a descriptor or the loop runs past its end. Writer: too long, loop unfit, or a number too wide.
pub const UNFIT: u8 = 13;
/// A descriptor of fixed size has a body of another size.
pub const WRONG_SIZE: u8 = 14;
/// The lent place is too short.
pub const NO_ROOM: u8 = 15;

const GREATEST: usize = 4_096;
/// Bytes before the data: table_id to testdata_section_length, and then up to descriptors_length.
const HEAD: usize = 3;
const SYNTAX: usize = 7;
const CRC: usize = 4;

/// 6, 2 and 3 bits.
#[derive(Clone, Copy, Debug, Default, PartialEq, Eq)]
pub struct Head {
    pub table_id: u8,
    pub priority: u8,
    pub reserved: u8,
}

/// 8, 8, 2, 5, 1, 8, 8 and 4 bits.
#[derive(Clone, Copy, Debug, Default, PartialEq, Eq)]
pub struct Syntax {
    pub user_defined: u8,
    pub extension: u8,
    pub reserved: u8,
    pub version: u8,
    pub current_next: u8,
    pub number: u8,
    pub last: u8,
    pub reserved_loop: u8,
}

/// A section: with section_syntax_indicator 0 there is no `syntax` and there are no descriptors.
#[derive(Clone, Copy, Debug, Default, PartialEq, Eq)]
pub struct Section<'a> {
    pub head: Head,
    pub syntax: Option<Syntax>,
    pub descriptors: &'a [u8],
    pub data: &'a [u8],
}

/// A descriptor by Table 4: those of fixed size taken apart, all others by their bytes.
#[derive(Clone, Copy, Debug, PartialEq, Eq)]
pub enum Descriptor<'a> {
    /// Table 5: 3 and 13 bits
    ElementaryId {
        id_type: u8,
        pid: u16,
    },
    /// Table 14: 1, 23, 1, 23 and 16 bits
    Gps {
        north_south: u8,
        latitude: u32,
        east_west: u8,
        longitude: u32,
        elevation: u16,
    },
    /// Table 15
    ReducedPcr {
        base: u32,
    },
    /// Table 16: 16, 3 and 13 bits
    Program {
        number: u16,
        reserved: u8,
        pid: u16,
    },
    Other {
        tag: u8,
        body: &'a [u8],
    },
}

const ELEMENTARY_ID: u8 = 0x40;
const GPS: u8 = 0x45;
const REDUCED_PCR: u8 = 0x46;
const PROGRAM: u8 = 0x47;

fn fixed_size(tag: u8) -> Option<usize> {
    match tag {
        ELEMENTARY_ID => Some(2),
        GPS => Some(8),
        REDUCED_PCR | PROGRAM => Some(4),
        _ => None,
    }
}

fn is_wrong_size(tag: u8, n: usize) -> bool {
    fixed_size(tag).map_or(false, |size| size != n)
}

/// The first descriptor of a loop, as tag and body, and what follows it; `None` where it runs past the end.
fn split(bytes: &[u8]) -> Option<(u8, &[u8], &[u8])> {
    let (&tag, &n) = (bytes.first()?, bytes.get(1)?);
    let end = 2 + usize::from(n);
    Some((tag, bytes.get(2..end)?, &bytes[end..]))
}

fn is_whole_row(mut bytes: &[u8]) -> bool {
    while !bytes.is_empty() {
        match split(bytes) {
            Some((_, _, rest)) => bytes = rest,
            None => return false,
        }
    }
    true
}

/// Whether a fixed tag has another length byte than its size, stepping from the start as far as whole descriptors go.
fn has_wrong_size(mut bytes: &[u8]) -> bool {
    while bytes.len() >= 2 {
        if is_wrong_size(bytes[0], usize::from(bytes[1])) {
            return true;
        }
        match split(bytes) {
            Some((_, _, rest)) => bytes = rest,
            None => return false,
        }
    }
    false
}

fn u16_at(b: &[u8], at: usize) -> u16 {
    u16::from_be_bytes([b[at], b[at + 1]])
}

fn u24_at(b: &[u8], at: usize) -> u32 {
    u32::from_be_bytes([0, b[at], b[at + 1], b[at + 2]])
}

fn taken_apart(tag: u8, b: &[u8]) -> Descriptor<'_> {
    match tag {
        ELEMENTARY_ID => Descriptor::ElementaryId { id_type: b[0] >> 5, pid: u16_at(b, 0) & 0x1FFF },
        GPS => Descriptor::Gps {
            north_south: b[0] >> 7,
            latitude: u24_at(b, 0) & 0x7F_FFFF,
            east_west: b[3] >> 7,
            longitude: u24_at(b, 3) & 0x7F_FFFF,
            elevation: u16_at(b, 6),
        },
        REDUCED_PCR => Descriptor::ReducedPcr { base: u32::from_be_bytes([b[0], b[1], b[2], b[3]]) },
        PROGRAM => Descriptor::Program { number: u16_at(b, 0), reserved: b[2] >> 5, pid: u16_at(b, 2) & 0x1FFF },
        _ => Descriptor::Other { tag, body: b },
    }
}

/// The descriptors of a loop.
pub fn descriptors(mut bytes: &[u8]) -> Result<Vec<Descriptor<'_>>, u8> {
    let mut all = Vec::new();
    while !bytes.is_empty() {
        let (tag, body, rest) = split(bytes).ok_or(UNFIT)?;
        if is_wrong_size(tag, body.len()) {
            return Err(WRONG_SIZE);
        }
        all.push(taken_apart(tag, body));
        bytes = rest;
    }
    Ok(all)
}

/// Reads a section.
pub fn read(bytes: &[u8]) -> Result<Section<'_>, u8> {
    if bytes.len() < HEAD || bytes.len() > GREATEST {
        return Err(WRONG_LENGTH);
    }
    let length = usize::from(u16_at(bytes, 1) & 0x0FFF);
    let generic = bytes[1] & 0x80 != 0;
    let fixed = if generic { HEAD + SYNTAX + CRC } else { HEAD };
    if HEAD + length != bytes.len() || bytes.len() < fixed {
        return Err(WRONG_LENGTH);
    }
    let head = Head { table_id: bytes[0] >> 2, priority: bytes[0] & 3, reserved: bytes[1] >> 4 & 7 };
    if !generic {
        return Ok(Section { head, syntax: None, descriptors: &[], data: &bytes[HEAD..] });
    }
    if !crc::ends_in_its_crc(bytes) {
        return Err(WRONG_CRC);
    }
    let inside = &bytes[HEAD + SYNTAX..bytes.len() - CRC];
    let descriptors_length = usize::from(u16_at(bytes, 8) & 0x0FFF);
    if descriptors_length > inside.len() {
        return Err(UNFIT);
    }
    let (descriptors, data) = inside.split_at(descriptors_length);
    if !is_whole_row(descriptors) {
        return Err(UNFIT);
    }
    if has_wrong_size(descriptors) {
        return Err(WRONG_SIZE);
    }
    let syntax = Syntax {
        user_defined: bytes[3],
        extension: bytes[4],
        reserved: bytes[5] >> 6,
        version: bytes[5] >> 1 & 0x1F,
        current_next: bytes[5] & 1,
        number: bytes[6],
        last: bytes[7],
        reserved_loop: bytes[8] >> 4,
    };
    Ok(Section { head, syntax: Some(syntax), descriptors, data })
}

fn head_fits(h: &Head) -> bool {
    h.table_id < 64 && h.priority < 4 && h.reserved < 8
}

fn syntax_fits(s: &Syntax) -> bool {
    s.reserved < 4 && s.version < 32 && s.current_next < 2 && s.reserved_loop < 16
}

/// Lays bytes at the front of a place, or nothing where it is too short.
fn lay(bytes: &[u8], place: &mut [u8]) -> Result<usize, u8> {
    place.get_mut(..bytes.len()).ok_or(NO_ROOM)?.copy_from_slice(bytes);
    Ok(bytes.len())
}

/// Writes a section at the front of a place: its length. Lengths and CRC_32 are computed.
pub fn write(section: &Section, place: &mut [u8]) -> Result<usize, u8> {
    let Section { head, syntax, descriptors, data } = section;
    if has_wrong_size(descriptors) {
        return Err(WRONG_SIZE);
    }
    let fixed = if syntax.is_some() { HEAD + SYNTAX + CRC } else { HEAD };
    let total = fixed + descriptors.len() + data.len();
    let loop_fits = is_whole_row(descriptors) && (syntax.is_some() || descriptors.is_empty());
    if total > GREATEST || !loop_fits || !head_fits(head) || !syntax.as_ref().map_or(true, syntax_fits) {
        return Err(UNFIT);
    }
    let length = ((total - HEAD) as u16).to_be_bytes();
    let indicator = if syntax.is_some() { 0x80 } else { 0 };
    let mut bytes = vec![head.table_id << 2 | head.priority, indicator | head.reserved << 4 | length[0], length[1]];
    if let Some(s) = syntax {
        let loop_length = (descriptors.len() as u16).to_be_bytes();
        bytes.extend([
            s.user_defined,
            s.extension,
            s.reserved << 6 | s.version << 1 | s.current_next,
            s.number,
            s.last,
        ]);
        bytes.extend([s.reserved_loop << 4 | loop_length[0], loop_length[1]]);
    }
    bytes.extend(*descriptors);
    bytes.extend(*data);
    if syntax.is_some() {
        bytes.extend(crc::crc32(&bytes).to_be_bytes());
    }
    lay(&bytes, place)
}

/// The fields of a section as a host hands them in, a byte each: section_syntax_indicator first, then the others in the
/// order of Table 1. The first has one bit: a greater number is too wide for it, as any other may be.
pub fn write_bytes(fields: &[u8; 12], descriptors: &[u8], data: &[u8], place: &mut [u8]) -> Result<usize, u8> {
    let [indicator, table_id, priority, reserved, rest @ ..] = *fields;
    if indicator > 1 {
        return Err(if has_wrong_size(descriptors) { WRONG_SIZE } else { UNFIT });
    }
    let [user_defined, extension, reserved_version, version, current_next, number, last, reserved_loop] = rest;
    let syntax = Syntax {
        user_defined,
        extension,
        reserved: reserved_version,
        version,
        current_next,
        number,
        last,
        reserved_loop,
    };
    let head = Head { table_id, priority, reserved };
    write(&Section { head, syntax: (indicator == 1).then_some(syntax), descriptors, data }, place)
}

/// Writes one descriptor at the front of a place: its length. A tag of fixed size with a body of another gives 14
/// first.
pub fn write_descriptor(descriptor: &Descriptor, place: &mut [u8]) -> Result<usize, u8> {
    let (tag, body, fits) = match *descriptor {
        Descriptor::ElementaryId { id_type, pid } => {
            let word = u16::from(id_type) << 13 | pid & 0x1FFF;
            (ELEMENTARY_ID, word.to_be_bytes().to_vec(), id_type < 8 && pid < 0x2000)
        }
        Descriptor::Gps { north_south, latitude, east_west, longitude, elevation } => {
            let angle = |sign: u8, n: u32| (u32::from(sign) << 23 | n & 0x7F_FFFF).to_be_bytes()[1..].to_vec();
            let body = [angle(north_south, latitude), angle(east_west, longitude), elevation.to_be_bytes().to_vec()];
            let fits = north_south < 2 && latitude < 1 << 23 && east_west < 2 && longitude < 1 << 23;
            (GPS, body.concat(), fits)
        }
        Descriptor::ReducedPcr { base } => (REDUCED_PCR, base.to_be_bytes().to_vec(), true),
        Descriptor::Program { number, reserved, pid } => {
            let word = u16::from(reserved) << 13 | pid & 0x1FFF;
            (PROGRAM, [number.to_be_bytes(), word.to_be_bytes()].concat(), reserved < 8 && pid < 0x2000)
        }
        Descriptor::Other { tag, body } => (tag, body.to_vec(), body.len() < 256),
    };
    if is_wrong_size(tag, body.len()) {
        return Err(WRONG_SIZE);
    }
    if !fits {
        return Err(UNFIT);
    }
    lay(&[&[tag, body.len() as u8], &body[..]].concat(), place)
}

#[cfg(test)]
mod tests;
