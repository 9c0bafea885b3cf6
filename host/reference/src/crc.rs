//! CRC_32 of ISO/IEC 13818-1, Annex A: polynomial 0x04C11DB7, all ones at start, not reflected.

const POLYNOMIAL: u32 = 0x04C1_1DB7;

/// The register after the bytes, one bit after the other.
pub fn crc32(bytes: &[u8]) -> u32 {
    let mut register = u32::MAX;
    for &byte in bytes {
        register ^= u32::from(byte) << 24;
        for _ in 0..8 {
            let out = register & 0x8000_0000 != 0;
            register <<= 1;
            if out {
                register ^= POLYNOMIAL;
            }
        }
    }
    register
}

/// Whether the last four bytes are the CRC_32 of those before them.
pub fn ends_in_its_crc(section: &[u8]) -> bool {
    match section.len().checked_sub(4) {
        Some(n) => section[n..] == crc32(&section[..n]).to_be_bytes(),
        None => false,
    }
}

#[cfg(test)]
mod tests {
    use super::*;

    #[test]
    fn published_vectors() {
        // CRC-32/MPEG-2 of the usual check string
        assert_eq!(crc32(b"123456789"), 0x0376_E6E7);
        assert_eq!(crc32(b""), 0xFFFF_FFFF);
        assert_eq!(crc32(&[0xFF, 0xFF, 0xFF, 0xFF]), 0);
        assert_eq!(crc32(&[0]), 0x4E08_BFB4);
    }

    /// The decoder model of Annex A: each bit is added to what leaves the register, and the sum is fed into the adders.
    fn by_the_model(bytes: &[u8]) -> u32 {
        let mut register = u32::MAX;
        for bit in bytes.iter().flat_map(|byte| (0..8).rev().map(move |place| u32::from(byte >> place & 1))) {
            let sum = (register >> 31) ^ bit;
            register = (register << 1) ^ (sum * POLYNOMIAL);
        }
        register
    }

    #[test]
    fn as_the_decoder_model_has_it() {
        let bytes: Vec<u8> = (0..4_096u32).map(|k| ((k * k) >> 3) as u8).collect();
        for n in [0, 1, 2, 3, 4, 12, 188, 1_024, 4_096] {
            assert_eq!(crc32(&bytes[..n]), by_the_model(&bytes[..n]));
        }
    }

    #[test]
    fn a_section_with_its_crc_leaves_zero() {
        let mut section = b"a section".to_vec();
        section.extend(crc32(&section).to_be_bytes());
        assert!(ends_in_its_crc(&section));
        assert_eq!(crc32(&section), 0);
        section[3] ^= 0x10;
        assert!(!ends_in_its_crc(&section));
        assert!(!ends_in_its_crc(&[0, 0, 0]));
    }
}
