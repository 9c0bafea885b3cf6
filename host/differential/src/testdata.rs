//! Test data sections, read and written on both sides.

use crate::coverage::Coverage;
use crate::random::Random;
use songpigeon::lent;
use songpigeon::testdata::{self as product, Fields};
use songpigeon::Refusal;
use songpigeon_reference::crc::crc32;
use songpigeon_reference::testdata::{self as reference, Head, Section, Syntax};

fn fields_of(section: &Section) -> Fields {
    let syntax = section.syntax.unwrap_or_default();
    Fields {
        syntax_indicator: section.syntax.is_some(),
        table_id: section.head.table_id,
        priority: section.head.priority,
        reserved: section.head.reserved,
        user_defined: syntax.user_defined,
        extension: syntax.extension,
        reserved_version: syntax.reserved,
        version: syntax.version,
        current_next: syntax.current_next,
        number: syntax.number,
        last: syntax.last,
        reserved_loop: syntax.reserved_loop,
    }
}

/// A row of descriptors, whole or not.
fn row(random: &Random) -> Vec<u8> {
    let mut row = Vec::new();
    for _ in 0..random.below(6) {
        let tag = random.pick(&[0x40, 0x41, 0x43, 0x45, 0x46, 0x47, random.byte()]);
        let right = match tag {
            0x40 => 2,
            0x45 => 8,
            0x46 | 0x47 => 4,
            _ => random.size(20),
        };
        let n = if random.once_in(12) { random.size(10) } else { right };
        row.push(tag);
        row.push(n as u8);
        let body = random.bytes(n);
        row.extend(body);
    }
    if random.once_in(8) {
        row.truncate(random.size(row.len() + 1));
    }
    if random.once_in(60) {
        row = random.bytes(400);
    }
    row
}

/// A number that fits so many bits, now and then one that does not.
fn fitting(bits: u32, random: &Random) -> u8 {
    let all = random.byte();
    if random.once_in(60) {
        all
    } else {
        all & (255 >> (8 - bits))
    }
}

fn random_head(random: &Random) -> Head {
    Head { table_id: fitting(6, random), priority: fitting(2, random), reserved: fitting(3, random) }
}

fn random_syntax(random: &Random) -> Syntax {
    Syntax {
        user_defined: random.byte(),
        extension: random.byte(),
        reserved: fitting(2, random),
        version: fitting(5, random),
        current_next: fitting(1, random),
        number: random.byte(),
        last: random.byte(),
        reserved_loop: fitting(4, random),
    }
}

/// Writes a section on both sides, then reads what stands there, spoiled or not, on both sides.
pub fn round(random: &Random, seen: &mut Coverage) -> Result<(), String> {
    let syntax = if random.once_in(4) { None } else { Some(random_syntax(random)) };
    let descriptors = if syntax.is_none() && !random.once_in(10) { Vec::new() } else { row(random) };
    let n = random.pick(&[0, 1, 20, 20, 200, 4_050, 4_082, 4_083, 4_093, 4_094]).min(random.size(5_000));
    let data = random.bytes(n);
    let section = Section { head: random_head(random), syntax, descriptors: &descriptors, data: &data };
    let length = random.pick(&[5_000, 5_000, 5_000, 14, random.size(200)]);
    let mut place = random.bytes(length);
    let mut product_place = place.clone();
    let expected = reference::write(&section, &mut place);
    let found = product::write(&fields_of(&section), &descriptors, &data, &mut product_place);
    if expected.map_err(|number| Refusal(u32::from(number))) != found || place != product_place {
        return Err(format!("writing {:?} into {} bytes: {:?} and {:?}", section, length, expected, found));
    }
    match expected {
        Ok(n) => {
            seen.met("test data written".to_string());
            place.truncate(n);
            spoil(&mut place, random);
            read(&place, seen)
        }
        Err(number) => {
            seen.met(format!("test data write refused {}", number));
            Ok(())
        }
    }
}

/// Twelve bytes as a host may lend them, an indicator of any number among them.
pub fn bytes_round(random: &Random, seen: &mut Coverage) -> Result<(), String> {
    let mut fields = [0; lent::FIELDS];
    let bits = [1, 6, 2, 3, 8, 8, 2, 5, 1, 8, 8, 4];
    for (field, bits) in fields.iter_mut().zip(bits) {
        *field = fitting(bits, random);
    }
    if random.once_in(3) {
        fields[0] = random.pick(&[0, 1, 2, 3, 128, 255]);
    }
    let descriptors = if random.once_in(3) { Vec::new() } else { row(random) };
    let n = random.size(40);
    let data = random.bytes(n);
    let length = random.pick(&[200, 200, 14, random.size(200)]);
    let mut place = random.bytes(length);
    let mut product_place = place.clone();
    let expected = reference::write_bytes(&fields, &descriptors, &data, &mut place);
    let found = lent::testdata_write(&fields, &descriptors, &data, &mut product_place);
    let replied = match expected {
        Ok(length) => lent::Laid { refusal: 0, length },
        Err(refusal) => lent::Laid { refusal, length: 0 },
    };
    if replied != found || place != product_place {
        return Err(format!(
            "writing {:?} {:?} into {} bytes: {:?}, {:?}",
            fields, descriptors, length, expected, found
        ));
    }
    if fields[0] > 1 {
        seen.met(format!("test data indicator too wide refused {}", found.refusal));
    }
    Ok(())
}

fn same_descriptor(a: &reference::Descriptor, b: &product::Descriptor) -> bool {
    use {product::Descriptor as P, reference::Descriptor as R};
    match (*a, *b) {
        (R::ElementaryId { id_type: t, pid: p }, P::ElementaryId { id_type, pid }) => (t, p) == (id_type, pid),
        (
            R::Gps { north_south: n, latitude: y, east_west: e, longitude: x, elevation: z },
            P::Gps { north_south, latitude, east_west, longitude, elevation },
        ) => (n, y, e, x, z) == (north_south, latitude, east_west, longitude, elevation),
        (R::ReducedPcr { base: b }, P::ReducedPcr { base }) => b == base,
        (R::Program { number: n, reserved: r, pid: p }, P::Program { number, reserved, pid }) => {
            (n, r, p) == (number, reserved, pid)
        }
        (R::Other { tag: t, body: b }, P::Other { tag, body }) => (t, b) == (tag, body),
        _ => false,
    }
}

/// The numbers of a descriptor, now and then too wide for their fields, on both sides.
fn random_descriptors<'a>(body: &'a [u8], random: &Random) -> (reference::Descriptor<'a>, product::Descriptor<'a>) {
    use {product::Descriptor as P, reference::Descriptor as R};
    let wide = |bits: u32| {
        let all = random.number() as u32;
        if random.once_in(12) {
            all
        } else {
            all & (u32::MAX >> (32 - bits))
        }
    };
    match random.below(5) {
        0 => {
            let (id_type, pid) = (wide(3) as u8, wide(13) as u16);
            (R::ElementaryId { id_type, pid }, P::ElementaryId { id_type, pid })
        }
        1 => {
            let (north_south, latitude, east_west) = (wide(1) as u8, wide(23), wide(1) as u8);
            let (longitude, elevation) = (wide(23), wide(16) as u16);
            (
                R::Gps { north_south, latitude, east_west, longitude, elevation },
                P::Gps { north_south, latitude, east_west, longitude, elevation },
            )
        }
        2 => {
            let base = wide(32);
            (R::ReducedPcr { base }, P::ReducedPcr { base })
        }
        3 => {
            let (number, reserved, pid) = (wide(16) as u16, wide(3) as u8, wide(13) as u16);
            (R::Program { number, reserved, pid }, P::Program { number, reserved, pid })
        }
        _ => {
            let tag = random.pick(&[0x40, 0x41, 0x45, 0x46, 0x47, random.byte()]);
            (R::Other { tag, body }, P::Other { tag, body })
        }
    }
}

/// A loop taken apart, and one descriptor written, on both sides.
pub fn descriptors_round(random: &Random, seen: &mut Coverage) -> Result<(), String> {
    let bytes = row(random);
    let expected = reference::descriptors(&bytes);
    let found: Result<Vec<_>, _> = product::descriptors(&bytes).collect();
    let same = match (&expected, &found) {
        (Ok(e), Ok(f)) => e.len() == f.len() && e.iter().zip(f).all(|(a, b)| same_descriptor(a, b)),
        (Err(number), Err(refusal)) => *refusal == Refusal(u32::from(*number)),
        _ => false,
    };
    if !same {
        return Err(format!("descriptors of {:?}: {:?} and {:?}", bytes, expected, found));
    }
    seen.met(match expected {
        Ok(_) => "descriptors read".to_string(),
        Err(number) => format!("descriptors refused {}", number),
    });
    let n = random.pick(&[0, 2, 4, 8, 255, 256, random.size(300)]);
    let body = random.bytes(n);
    let (by_reference, by_product) = random_descriptors(&body, random);
    let length = random.pick(&[300, 300, 0, 1, 4, 5, 6, random.size(300)]);
    let mut place = random.bytes(length);
    let mut product_place = place.clone();
    let expected = reference::write_descriptor(&by_reference, &mut place);
    let found = by_product.write(&mut product_place);
    if expected.map_err(|number| Refusal(u32::from(number))) != found || place != product_place {
        return Err(format!("writing {:?} into {} bytes: {:?} and {:?}", by_product, length, expected, found));
    }
    seen.met(match expected {
        Ok(_) => "descriptor written".to_string(),
        Err(number) => format!("descriptor write refused {}", number),
    });
    Ok(())
}

/// The CRC_32 of the bytes as they are now.
fn mend(section: &mut [u8]) {
    let n = section.len() - 4;
    let crc = crc32(&section[..n]).to_be_bytes();
    section[n..].copy_from_slice(&crc);
}

fn spoil(section: &mut Vec<u8>, random: &Random) {
    let n = section.len();
    match random.below(6) {
        0 => section.truncate(random.size(n + 1)),
        1 => section.extend(random.bytes(1 + random.size(3))),
        2 => {
            let place = random.size(n);
            section[place] ^= 1 << random.below(8);
        }
        3 if n >= 14 => {
            // the loop, and its length, changed under a right CRC
            section[9] = random.byte();
            for _ in 0..random.below(3) {
                let place = 9 + random.size(n - 13);
                section[place] = random.pick(&[0x40, 0x45, 2, 4, 8, random.byte()]);
            }
            mend(section);
        }
        4 if n >= 16 => {
            // the first descriptor under another tag
            section[10] = random.pick(&[0x40, 0x45, 0x46, 0x47]);
            mend(section);
        }
        _ => {}
    }
}

fn read(section: &[u8], seen: &mut Coverage) -> Result<(), String> {
    let expected = reference::read(section);
    let found = product::read(section);
    let same = match (&expected, &found) {
        (Ok(e), Ok(f)) => fields_of(e) == f.fields && e.descriptors == f.descriptors && e.data == f.data,
        (Err(number), Err(refusal)) => *refusal == Refusal(u32::from(*number)),
        _ => false,
    };
    if !same {
        return Err(format!("reading {:?}: {:?} and {:?}", section, expected, found));
    }
    seen.met(match expected {
        Ok(_) => "test data read".to_string(),
        Err(number) => format!("test data read refused {}", number),
    });
    Ok(())
}
