//! Test data sections of DVB A046, read and written. Data and descriptors are handed over as their bytes; [`descriptors`]
//! takes those apart, and [`Descriptor::write`] makes them.

use crate::lent;
use crate::Refusal;

/// Tags of the descriptors of fixed size (Table 4).
pub const ELEMENTARY_ID: u8 = 0x40;
pub const GPS: u8 = 0x45;
pub const REDUCED_PCR: u8 = 0x46;
pub const PROGRAM: u8 = 0x47;

/// The fields of Table 1, one byte each; the last eight are of a section with section_syntax_indicator 1.
#[derive(Clone, Copy, Debug, Default, PartialEq, Eq)]
pub struct Fields {
    pub syntax_indicator: bool,
    /// 6 bits
    pub table_id: u8,
    /// 2 bits
    pub priority: u8,
    /// 3 bits, before the section's length
    pub reserved: u8,
    /// 8 bits
    pub user_defined: u8,
    /// 8 bits
    pub extension: u8,
    /// 2 bits, before version_number
    pub reserved_version: u8,
    /// 5 bits
    pub version: u8,
    /// 1 bit
    pub current_next: u8,
    /// 8 bits, section_number
    pub number: u8,
    /// 8 bits, last_section_number
    pub last: u8,
    /// 4 bits, before descriptors_length
    pub reserved_loop: u8,
}

impl Fields {
    fn bytes(&self) -> [u8; lent::FIELDS] {
        [
            u8::from(self.syntax_indicator),
            self.table_id,
            self.priority,
            self.reserved,
            self.user_defined,
            self.extension,
            self.reserved_version,
            self.version,
            self.current_next,
            self.number,
            self.last,
            self.reserved_loop,
        ]
    }

    fn of(bytes: [u8; lent::FIELDS]) -> Fields {
        Fields {
            syntax_indicator: bytes[0] != 0,
            table_id: bytes[1],
            priority: bytes[2],
            reserved: bytes[3],
            user_defined: bytes[4],
            extension: bytes[5],
            reserved_version: bytes[6],
            version: bytes[7],
            current_next: bytes[8],
            number: bytes[9],
            last: bytes[10],
            reserved_loop: bytes[11],
        }
    }
}

/// A section as it was read: parts of the bytes that were handed in.
#[derive(Clone, Copy, Debug, PartialEq, Eq)]
pub struct Section<'a> {
    pub fields: Fields,
    pub descriptors: &'a [u8],
    pub data: &'a [u8],
}

/// Reads a section. Refusals 11 to 14.
pub fn read(section: &[u8]) -> Result<Section<'_>, Refusal> {
    let mut fields = [0; lent::FIELDS];
    let mut places = [0; lent::PLACES];
    let refusal = lent::testdata_read(section, &mut fields, &mut places);
    if refusal != 0 {
        return Err(Refusal(u32::from(refusal)));
    }
    let part = |k: usize| &section[places[k] as usize..][..places[k + 1] as usize];
    Ok(Section { fields: Fields::of(fields), descriptors: part(0), data: part(2) })
}

fn length_of(laid: lent::Laid) -> Result<usize, Refusal> {
    match laid.refusal {
        0 => Ok(laid.length),
        refusal => Err(Refusal(u32::from(refusal))),
    }
}

/// Writes a section at the front of the place: its length. Refusals 14, 13, 15 in this order, and then nothing is
/// written.
pub fn write(fields: &Fields, descriptors: &[u8], data: &[u8], place: &mut [u8]) -> Result<usize, Refusal> {
    length_of(lent::testdata_write(&fields.bytes(), descriptors, data, place))
}

/// A descriptor: those of fixed size taken apart (Tables 5, 14, 15 and 16), all others by their bytes.
#[derive(Clone, Copy, Debug, PartialEq, Eq)]
pub enum Descriptor<'a> {
    /// 3 and 13 bits
    ElementaryId { id_type: u8, pid: u16 },
    /// 1, 23, 1, 23 and 16 bits
    Gps { north_south: u8, latitude: u32, east_west: u8, longitude: u32, elevation: u16 },
    /// 32 bits
    ReducedPcr { base: u32 },
    /// 16, 3 and 13 bits
    Program { number: u16, reserved: u8, pid: u16 },
    /// any other tag
    Other { tag: u8, body: &'a [u8] },
}

impl Descriptor<'_> {
    /// Writes the descriptor at the front of the place: its length. 13 for a number too wide for its field, then 15; of
    /// [`Descriptor::Other`] 14 comes first, for a tag of fixed size with a body of another. Then nothing is written.
    pub fn write(&self, place: &mut [u8]) -> Result<usize, Refusal> {
        length_of(match *self {
            Descriptor::ElementaryId { id_type, pid } => lent::testdata_elementary_id(id_type, pid, place),
            Descriptor::Gps { north_south, latitude, east_west, longitude, elevation } => {
                lent::testdata_gps(north_south, latitude, east_west, longitude, elevation, place)
            }
            Descriptor::ReducedPcr { base } => lent::testdata_reduced_pcr(base, place),
            Descriptor::Program { number, reserved, pid } => lent::testdata_program(number, reserved, pid, place),
            Descriptor::Other { tag, body } => lent::testdata_other(tag, body, place),
        })
    }
}

/// The descriptors of a loop, one after the other. A refusal, 13 or 14, is the last that is given.
#[derive(Clone, Debug)]
pub struct Descriptors<'a> {
    bytes: &'a [u8],
    at: usize,
    over: bool,
}

/// The descriptors among the bytes of a loop, as [`Section`] has them.
pub fn descriptors(bytes: &[u8]) -> Descriptors<'_> {
    Descriptors { bytes, at: 0, over: false }
}

impl<'a> Iterator for Descriptors<'a> {
    type Item = Result<Descriptor<'a>, Refusal>;

    fn next(&mut self) -> Option<Self::Item> {
        if self.over {
            return None;
        }
        let mut v = [0; lent::VALUES];
        let found = lent::testdata_descriptor(self.bytes, self.at, self.bytes.len(), &mut v);
        self.at = found.next;
        self.over = found.kind == lent::NO_MORE;
        if found.refusal != 0 {
            return Some(Err(Refusal(u32::from(found.refusal))));
        }
        // a number fits the type of its field, which is no narrower than the field
        match (found.kind, found.tag) {
            (lent::NO_MORE, _) => None,
            (lent::OF_FIXED, ELEMENTARY_ID) => {
                Some(Ok(Descriptor::ElementaryId { id_type: v[0] as u8, pid: v[1] as u16 }))
            }
            (lent::OF_FIXED, GPS) => Some(Ok(Descriptor::Gps {
                north_south: v[0] as u8,
                latitude: v[1],
                east_west: v[2] as u8,
                longitude: v[3],
                elevation: v[4] as u16,
            })),
            (lent::OF_FIXED, REDUCED_PCR) => Some(Ok(Descriptor::ReducedPcr { base: v[0] })),
            (lent::OF_FIXED, PROGRAM) => {
                Some(Ok(Descriptor::Program { number: v[0] as u16, reserved: v[1] as u8, pid: v[2] as u16 }))
            }
            (_, tag) => Some(Ok(Descriptor::Other { tag, body: &self.bytes[found.at..][..found.length] })),
        }
    }
}
