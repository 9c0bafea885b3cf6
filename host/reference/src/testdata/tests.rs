use super::*;

fn generic<'a>(descriptors: &'a [u8], data: &'a [u8]) -> Section<'a> {
    let head = Head { table_id: 0x10, priority: 0, reserved: 7 };
    let syntax =
        Syntax { user_defined: 1, extension: 1, reserved: 3, version: 0, current_next: 1, ..Syntax::default() };
    Section { head, syntax: Some(syntax), descriptors, data }
}

fn written(section: &Section) -> Result<Vec<u8>, u8> {
    let mut place = vec![0xEE; 5_000];
    let n = write(section, &mut place)?;
    assert!(place[n..].iter().all(|&byte| byte == 0xEE));
    place.truncate(n);
    Ok(place)
}

#[test]
fn annex_b_1() {
    // Table B.1: elementary_id, a text and a source identifier, 28 bytes of data; the section's length is 0x4C
    let mut row = vec![0x40, 2, 0x01, 0x00, 0x42, 0x1B];
    row.extend(b"fremesures de qualit\xE9 vid\xE9o");
    row.extend([0x42, 2, 0, 1]);
    assert_eq!(row.len(), 0x25);
    let data = [0x4A; 28];
    let bytes = written(&generic(&row, &data)).unwrap();
    assert_eq!(bytes[..10], [0x40, 0xF0, 0x4C, 1, 1, 0xC1, 0, 0, 0, 0x25]);
    assert_eq!(read(&bytes), Ok(generic(&row, &data)));
    let all = descriptors(&row).unwrap();
    assert_eq!(all[0], Descriptor::ElementaryId { id_type: 0, pid: 0x100 });
    assert_eq!(all.len(), 3);
}

#[test]
fn reader_refusals_in_order() {
    let bytes = written(&generic(&[0x41, 1, 9], &[5])).unwrap();
    for n in 0..bytes.len() {
        assert_eq!(read(&bytes[..n]), Err(11));
    }
    let mut torn = bytes;
    torn[9] = 200;
    assert_eq!(read(&torn), Err(12));
    let with_crc = |mut bytes: Vec<u8>| {
        let n = bytes.len() - 4;
        let crc = crc::crc32(&bytes[..n]).to_be_bytes();
        bytes[n..].copy_from_slice(&crc);
        bytes
    };
    assert_eq!(read(&with_crc(torn)), Err(13));
    // below the fixed fields: 13 bytes; just at them: 14
    assert_eq!(read(&with_crc(vec![0, 0xF0, 10, 0, 0, 0, 0, 0, 0, 0, 0, 0, 0])), Err(11));
    assert!(read(&with_crc(vec![0, 0xF0, 11, 0, 0, 0, 0, 0, 0, 0, 0, 0, 0, 0])).is_ok());
    // 13 over the whole loop before 14 over any descriptor
    let row = [0x40, 3, 0, 0, 0, 0x41, 1];
    let mut bytes = written(&generic(&[0x41, 5, 0, 0, 0, 0x41, 0], &[])).unwrap();
    bytes[10..17].copy_from_slice(&row);
    assert_eq!(read(&with_crc(bytes.clone())), Err(13));
    bytes[16] = 0;
    assert_eq!(read(&with_crc(bytes)), Err(14));
}

#[test]
fn plain_sections() {
    let plain = |data| Section {
        head: Head { table_id: 0x14, priority: 0, reserved: 7 },
        syntax: None,
        descriptors: &[],
        data,
    };
    assert_eq!(written(&plain(&[])).unwrap(), [0x50, 0x70, 0]);
    assert_eq!(read(&[0x50, 0x70, 1, 9]), Ok(plain(&[9])));
    assert_eq!(read(&[0x50, 0x70, 1]), Err(11));
    let data = vec![0; 4_093];
    assert_eq!(written(&plain(&data)).unwrap().len(), 4_096);
    assert_eq!(written(&plain(&vec![0; 4_094])), Err(13));
    let mut long = vec![0; 4_097];
    (long[1], long[2]) = (0x7F, 0xFE);
    assert_eq!(read(&long), Err(11));
}

#[test]
fn writer_refusals_in_order() {
    // 14 first, even where the descriptor runs past the end or a number is too wide
    let mut wide = generic(&[0x40, 3], &[]);
    wide.head.table_id = 64;
    assert_eq!(written(&wide), Err(14));
    assert_eq!(written(&generic(&[0x41, 3], &[])), Err(13));
    assert_eq!(written(&generic(&[0x41], &[])), Err(13));
    wide.descriptors = &[];
    assert_eq!(write(&wide, &mut []), Err(13));
    assert_eq!(write(&generic(&[], &[]), &mut [0; 13]), Err(15));
    assert_eq!(write(&generic(&[], &[]), &mut [0; 14]), Ok(14));
    assert_eq!(written(&generic(&[], &vec![0; 4_082])).unwrap().len(), 4_096);
    assert_eq!(written(&generic(&[], &vec![0; 4_083])), Err(13));
    let unfit = Section { syntax: None, ..generic(&[0x41, 0], &[]) };
    assert_eq!(written(&unfit), Err(13));
}

#[test]
fn descriptors_there_and_back() {
    let all = [
        Descriptor::ElementaryId { id_type: 7, pid: 0x1FFF },
        Descriptor::Gps { north_south: 1, latitude: 0x7F_FFFF, east_west: 0, longitude: 0x12_3456, elevation: 0xFFFE },
        Descriptor::ReducedPcr { base: 0xDEAD_BEEF },
        Descriptor::Program { number: 0x1234, reserved: 5, pid: 0x0FED },
        Descriptor::Other { tag: 0x43, body: &[1, 2, 3] },
    ];
    let mut row = Vec::new();
    for descriptor in &all {
        let mut place = [0; 300];
        let n = write_descriptor(descriptor, &mut place).unwrap();
        row.extend(&place[..n]);
        assert_eq!(write_descriptor(descriptor, &mut place[..n - 1]), Err(15));
    }
    assert_eq!(descriptors(&row).unwrap(), all);
    assert_eq!(write_descriptor(&Descriptor::ElementaryId { id_type: 8, pid: 0 }, &mut []), Err(13));
    assert_eq!(write_descriptor(&Descriptor::Other { tag: 0x45, body: &[0; 7] }, &mut []), Err(14));
    assert_eq!(write_descriptor(&Descriptor::Other { tag: 0x41, body: &[0; 256] }, &mut []), Err(13));
}
