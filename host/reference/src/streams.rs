//! Packets and sections as a multiplexer makes them, for tests: right unless a field is set otherwise.

use crate::crc::crc32;

pub const PAT_PID: u16 = 0x0000;
pub const NIT_PID: u16 = 0x0010;
pub const SDT_PID: u16 = 0x0011;
pub const EIT_PID: u16 = 0x0012;
pub const TDT_PID: u16 = 0x0014;
pub const NULL_PID: u16 = 0x1FFF;

/// A transport packet, field by field (ISO/IEC 13818-1, 2.4.3.2).
#[derive(Clone, Debug)]
pub struct Packet {
    first: u8,
    error: bool,
    start: bool,
    pid: u16,
    scrambling: u8,
    control: u8,
    counter: u8,
    field: Option<(u8, u8)>,
    payload: Vec<u8>,
}

impl Packet {
    /// Control 01 with an empty payload, which is filled up with 0xFF.
    pub fn on(pid: u16, counter: u8) -> Packet {
        Packet {
            first: 0x47,
            error: false,
            start: false,
            pid,
            scrambling: 0,
            control: 1,
            counter,
            field: None,
            payload: Vec::new(),
        }
    }

    /// Unit start with the pointer 0, and these sections behind it.
    pub fn sections(pid: u16, counter: u8, sections: &[&[u8]]) -> Packet {
        Packet::pointed(pid, counter, 0, &sections.concat())
    }

    /// Unit start with this pointer, and these bytes behind it.
    pub fn pointed(pid: u16, counter: u8, pointer: u8, bytes: &[u8]) -> Packet {
        let mut packet = Packet::on(pid, counter).payload(&[pointer]).started();
        packet.payload.extend(bytes);
        packet
    }

    pub fn payload(mut self, bytes: &[u8]) -> Packet {
        self.payload = bytes.to_vec();
        self
    }

    pub fn started(mut self) -> Packet {
        self.start = true;
        self
    }

    pub fn first(mut self, byte: u8) -> Packet {
        self.first = byte;
        self
    }

    pub fn error(mut self) -> Packet {
        self.error = true;
        self
    }

    pub fn scrambled(mut self, bits: u8) -> Packet {
        self.scrambling = bits;
        self
    }

    pub fn control(mut self, control: u8) -> Packet {
        self.control = control;
        self
    }

    /// Control 11 (or, without payload, 10) with an adaptation field of this length and these flags.
    pub fn field(mut self, control: u8, length: u8, flags: u8) -> Packet {
        self.control = control;
        self.field = Some((length, flags));
        self
    }

    pub fn bytes(&self) -> [u8; 188] {
        let mut bytes = [0xFF; 188];
        bytes[0] = self.first;
        bytes[1] = u8::from(self.error) << 7 | u8::from(self.start) << 6 | (self.pid >> 8) as u8;
        bytes[2] = self.pid as u8;
        bytes[3] = self.scrambling << 6 | self.control << 4 | self.counter;
        let mut at = 4;
        if let Some((length, flags)) = self.field {
            bytes[4] = length;
            if length > 0 {
                bytes[5] = flags;
            }
            at = (5 + usize::from(length)).min(188);
        }
        let n = self.payload.len().min(188 - at);
        bytes[at..at + n].copy_from_slice(&self.payload[..n]);
        bytes
    }

    pub fn hex(&self) -> String {
        self.bytes().iter().map(|byte| format!("{:02x}", byte)).collect()
    }
}

/// A section with the indicator 1: the fields up to last_section_number, the body, and the CRC_32.
pub fn section_with(table_id: u8, extension: u16, current_next: u8, body: &[u8]) -> Vec<u8> {
    let length = (5 + body.len() + 4) as u16;
    let mut section = vec![table_id, 0xB0 | (length >> 8) as u8, length as u8];
    section.extend(extension.to_be_bytes());
    section.extend([0xC0 | current_next, 0, 0]);
    section.extend(body);
    section.extend(crc32(&section).to_be_bytes());
    section
}

pub fn section(table_id: u8, extension: u16, body: &[u8]) -> Vec<u8> {
    section_with(table_id, extension, 1, body)
}

/// A section with the indicator 0.
pub fn short_section(table_id: u8, body: &[u8]) -> Vec<u8> {
    let mut section = vec![table_id, 0x70 | (body.len() >> 8) as u8, body.len() as u8];
    section.extend(body);
    section
}

/// The same section with one bit of its CRC_32 turned.
pub fn torn(mut section: Vec<u8>) -> Vec<u8> {
    *section.last_mut().expect("a section has bytes") ^= 1;
    section
}

/// The body of a PAT: number and PID of each entry.
pub fn programmes(list: &[(u16, u16)]) -> Vec<u8> {
    list.iter().flat_map(|&(number, pid)| [number.to_be_bytes(), (0xE000 | pid).to_be_bytes()].concat()).collect()
}

pub fn pat(list: &[(u16, u16)]) -> Vec<u8> {
    section(0x00, 0x0001, &programmes(list))
}

/// A PMT without streams, PCR_PID 0x0100.
pub fn pmt(number: u16) -> Vec<u8> {
    section(0x02, number, &[0xE1, 0x00, 0xF0, 0x00])
}

pub fn nit() -> Vec<u8> {
    section(0x40, 0x3001, &[0xF0, 0x00, 0xF0, 0x00])
}

pub fn sdt() -> Vec<u8> {
    section(0x42, 0x0001, &[0x00, 0x01, 0xFF])
}

/// Present/following of a service.
pub fn eit(service: u16) -> Vec<u8> {
    section(0x4E, service, &[0x00, 0x01, 0x00, 0x01, 0x00, 0x4E])
}

/// 1993-10-13, 12:45:00, the example of EN 300 468, Annex C.
pub fn tdt() -> Vec<u8> {
    short_section(0x70, &[0xC0, 0x79, 0x12, 0x45, 0x00])
}

/// The same time with an empty loop of descriptors, and a CRC_32 though the indicator is 0.
pub fn tot() -> Vec<u8> {
    let mut section = vec![0x73, 0x70, 11, 0xC0, 0x79, 0x12, 0x45, 0x00, 0xF0, 0x00];
    section.extend(crc32(&section).to_be_bytes());
    section
}

#[cfg(test)]
mod tests {
    use super::*;

    #[test]
    fn a_pat_as_it_is_printed_elsewhere() {
        // transport_stream_id 1, one programme 1 on PID 0x1000: the PAT that common multiplexers put at the head of a
        // file
        let mut expected = vec![0x00, 0xB0, 0x0D, 0x00, 0x01, 0xC1, 0x00, 0x00, 0x00, 0x01, 0xF0, 0x00];
        expected.extend([0x2A, 0xB1, 0x04, 0xB2]);
        assert_eq!(pat(&[(1, 0x1000)]), expected);
    }

    #[test]
    fn a_packet_field_by_field() {
        let bytes = Packet::on(0x1234, 5).started().field(3, 2, 0x80).payload(&[1, 2]).bytes();
        assert_eq!(bytes[..10], [0x47, 0x52, 0x34, 0x35, 2, 0x80, 0xFF, 1, 2, 0xFF]);
        assert_eq!(Packet::on(1, 2).error().scrambled(3).control(2).first(0x46).bytes()[..4], [0x46, 0x80, 0x01, 0xE2]);
    }
}
