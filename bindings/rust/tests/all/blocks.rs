//! Specimens 9 to 12 of document 01, and signatures.

use falgnust::semcode_decode::{
    CallableSignature, CallableValueFamily, DecodeError, DecodedAccessPath,
    DecodedAccessPathComponent, DecodedBorrowActivation, DecodedEvent, DecodedWriteExecution,
    component_number, parse_string_table_debug_and_ownership, path_number, string_number,
    symbol_number,
};

pub const BASES: [usize; 3] = [0, 1000, usize::MAX - 3];

/// Number and offset of a refusal.
fn refused(base: usize, block: &[u8], revision: u16) -> (Option<u8>, Option<usize>) {
    let error = parse_string_table_debug_and_ownership(base, block, revision).unwrap_err();
    (error.number(), error.offset())
}

#[test]
fn specimen_9() {
    for base in BASES {
        assert_eq!(refused(base, b"\x00", 22), (Some(30), Some(base)));
        assert_eq!(refused(base, b"\x01\x01", 22), (Some(31), Some(base + 2)));
    }
}

#[test]
fn specimen_10() {
    let block = parse_string_table_debug_and_ownership(0, b"\x00\x00DBG", 19).unwrap();
    assert_eq!(block.instr_start_offset, 2);
    assert!(!block.has_debug_section && !block.has_ownership_section);
    assert_eq!(block.signature, None);
    for base in BASES {
        let error = parse_string_table_debug_and_ownership(base, b"\x00\x00DBG", 20).unwrap_err();
        assert_eq!((error.number(), error.offset()), (Some(71), Some(base + 2)));
        assert!(matches!(error, DecodeError::InvalidOwnershipSection { .. }));
    }
}

#[test]
fn specimen_11() {
    let block = b"\x00\x00OWN0\x01\x00\x07\x05\x00\x00\x00\x00\x00";
    for base in BASES {
        let offset = base.saturating_add(15);
        assert_eq!(refused(base, block, 22), (Some(60), Some(offset)));
    }
}

#[test]
fn specimen_12() {
    let block = b"\x00\x00OWN0\x01\x00\x00\x00\x09\x00\x00\x00\x00\x00";
    for (revision, place) in [(21, 16), (20, 15)] {
        let error = parse_string_table_debug_and_ownership(1000, block, revision).unwrap_err();
        let expected = DecodeError::InvalidSignatureSection {
            offset: 1000 + place,
            msg: "missing SIG0 section tag",
        };
        assert_eq!(error, expected);
        assert_eq!(error.number(), Some(71));
    }

    let at_19 = parse_string_table_debug_and_ownership(0, block, 19).unwrap();
    assert_eq!(at_19.borrowed_paths[0].root_symbol_id, 2304);
    assert_eq!(at_19.borrowed_paths[0].activation, None);
    assert_eq!((at_19.signature, at_19.instr_start_offset), (None, 15));

    let signed = [&block[..], b"SIG0\x00\x00"].concat();
    let at_21 = parse_string_table_debug_and_ownership(0, &signed, 21).unwrap();
    let path = DecodedAccessPath {
        root_symbol_id: 9,
        components: vec![],
        activation: Some(DecodedBorrowActivation::FrameEntry),
        write_execution: None,
    };
    assert_eq!(at_21.borrowed_paths, std::slice::from_ref(&path));
    let none = CallableSignature { families: vec![] };
    assert_eq!(
        (at_21.signature, at_21.instr_start_offset),
        (Some(none), 22)
    );
    assert_eq!(
        path_number(0, &signed, 21, 0),
        Ok(Some(DecodedEvent::Borrow(path)))
    );
}

/// The block of no strings and no paths, with a signature of these families.
fn signed(families: &[u8]) -> Vec<u8> {
    let mut block = b"\x00\x00OWN0\x00\x00SIG0".to_vec();
    block.extend((families.len() as u16).to_le_bytes());
    block.extend(families);
    block
}

#[test]
fn every_family() {
    let bytes: Vec<u8> = (1..=15).collect();
    let block = parse_string_table_debug_and_ownership(0, &signed(&bytes), 20).unwrap();
    let families = block.signature.unwrap().families;
    let back: Vec<u8> = families.iter().map(|family| family.byte()).collect();
    assert_eq!(back, bytes);
    assert_eq!(families[0], CallableValueFamily::Quad);
    assert_eq!(families[14], CallableValueFamily::Bytes);
    for none in [0, 16, 255] {
        assert_eq!(CallableValueFamily::from_byte(none), None);
    }
}

/// Each message of 72 and that of 73, at a base where the offset does not give the place too.
#[test]
fn messages_of_signatures() {
    let whole = signed(&[1, 16]);
    let cases = [
        (&whole[..12], 12, "missing parameter count"),
        (&whole[..14], 14, "missing parameter family tag"),
        (&whole[..], 15, "unknown parameter family tag"),
    ];
    for (block, place, msg) in cases {
        for base in [0, 1000, usize::MAX] {
            let error = parse_string_table_debug_and_ownership(base, block, 20).unwrap_err();
            let offset = base.saturating_add(place);
            let expected = DecodeError::InvalidSignatureSection { offset, msg };
            assert_eq!(error, expected);
            assert_eq!(error.number(), Some(72));
        }
    }
    let many = parse_string_table_debug_and_ownership(0, &signed(&[1; 4097]), 20).unwrap_err();
    let expected = DecodeError::ResourceLimit {
        offset: 14,
        msg: "too many callable-signature parameters: 4097 (max 4096)".into(),
    };
    assert_eq!((many.number(), many), (Some(73), expected));
    let most = parse_string_table_debug_and_ownership(0, &signed(&[1; 4096]), 20).unwrap();
    assert_eq!(most.signature.unwrap().families.len(), 4096);
}

#[test]
fn numbers_that_are_not_there() {
    let block = b"\x00\x00OWN0\x01\x00\x00\x00\x09\x00\x00\x00\x00\x00SIG0\x00\x00";
    for past in [0, usize::MAX] {
        assert_eq!(string_number(0, block, 21, past), Ok(None));
        assert_eq!(symbol_number(0, block, 21, past), Ok(None));
        assert_eq!(component_number(0, block, 21, 0, past), Ok(None));
        assert_eq!(path_number(0, block, 21, past.max(1)), Ok(None));
    }
}

/// The block of these many strings, symbols, paths and families.
pub fn with(counts: [usize; 4]) -> Vec<u8> {
    let [strings, symbols, paths, families] = counts.map(|count| (count as u16).to_le_bytes());
    [
        &strings[..],
        &b"\x01\x00s".repeat(counts[0]),
        b"DBG0",
        &symbols,
        &b"\x07\x00\x00\x00\x08\x00\x00\x00\x09\x00".repeat(counts[1]),
        b"OWN0",
        &paths,
        &b"\x01\x01\x05\x00\x00\x00\x06\x00\x00\x00\x01\x00\x00\x04\x00".repeat(counts[2]),
        b"SIG0",
        &families,
        &b"\x0f".repeat(counts[3]),
    ]
    .concat()
}

/// None of each, or more than there is room for first, at bases where a refusal for a short table says its place and where it does not.
#[test]
fn more_than_a_few() {
    for mask in 0..16 {
        let counts = [0, 1, 2, 3].map(|table| 100 * (mask >> table & 1));
        let code = with(counts);
        for base in BASES {
            let block = parse_string_table_debug_and_ownership(base, &code, 21).unwrap();
            assert_eq!(block.strings, vec!["s"; counts[0]]);
            let symbols = block.debug_symbols.iter().map(|s| (s.pc, s.line, s.col));
            assert_eq!(symbols.collect::<Vec<_>>(), vec![(7, 8, 9); counts[1]]);
            let path = DecodedAccessPath {
                root_symbol_id: 6,
                components: vec![DecodedAccessPathComponent::TupleIndex(4)],
                activation: None,
                write_execution: Some(DecodedWriteExecution::MakeRecordSite(5)),
            };
            assert_eq!(block.write_paths, vec![path; counts[2]]);
            assert!(block.borrowed_paths.is_empty());
            let families = block.signature.unwrap().families;
            assert_eq!(families, vec![CallableValueFamily::Bytes; counts[3]]);
            assert_eq!(block.instr_start_offset, code.len());
            let last = path_number(base, &code, 21, 99).unwrap();
            assert_eq!(last.is_some(), counts[2] == 100);
        }
    }
}

/// A count that the block cannot hold is named as the Rust does, by what is cut, and never for a short table.
#[test]
fn counts_past_the_end() {
    assert_eq!(refused(0, b"\x00\x01", 22), (Some(32), Some(2)));
    assert_eq!(refused(0, b"\x00\x00OWN0\xff\xff", 22), (Some(41), Some(8)));
    let none = string_number(0, b"\x00\x00OWN0\xff\xff", 22, 0);
    assert_eq!(none.unwrap_err().number(), Some(41));
}

/// The count in the message of 36, at a base where the offset does not give its place.
#[test]
fn a_message_with_a_count() {
    let block = b"\x01\x00\x01\x00xDBG0\x01\x20";
    let error = parse_string_table_debug_and_ownership(usize::MAX, block, 22).unwrap_err();
    let expected = DecodeError::ResourceLimit {
        offset: usize::MAX,
        msg: "too many debug symbols: 8193 (max 8192)".into(),
    };
    assert_eq!(error, expected);
}
