//! Sections by column: what docs/COLUMNS.md says, through the crate and through the calls with lent outputs.

use crate::written::{chain, framed, op, section, witnessed};
use falgnust::calls::{self, SectionTables};
use falgnust::evr0::{RuleTable, decode_evr0_section, take_columns, write_columns};
use falgnust::raw;

const SECTION: &[u8] = include_bytes!("../../../../examples/accepted.evr0");
const COLUMNS: &[u8] = include_bytes!("../../../../examples/accepted.columns");

/// Number and offset of a refusal.
fn refused(columns: &[u8]) -> (Option<u8>, usize) {
    let error = take_columns(columns).unwrap_err();
    (error.number(), error.offset())
}

/// The example with these bytes for so many at a place.
fn with(at: usize, count: usize, bytes: &[u8]) -> Vec<u8> {
    [&COLUMNS[..at], bytes, &COLUMNS[at + count..]].concat()
}

#[test]
fn the_example() {
    assert_eq!(write_columns(SECTION, 0).as_deref(), Ok(COLUMNS));
    assert_eq!(take_columns(COLUMNS).as_deref(), Ok(SECTION));
}

#[test]
fn as_documented() {
    assert_eq!(refused(&with(82, 1, &[0x81, 0x00])), (Some(75), 83));
    assert_eq!(refused(&COLUMNS[..211]), (Some(76), 211));
    assert_eq!(refused(&with(212, 0, &[0])), (Some(76), 212));
    assert_eq!(refused(&with(4, 1, &[0x1E])), (Some(5), 291));
}

#[test]
fn round_trips() {
    for file in [
        section(&[]),
        section(&[witnessed(1)]),
        section(&[witnessed(1), op(0)]),
        chain(256),
    ] {
        let columns = write_columns(&file, 0).unwrap();
        assert_eq!(take_columns(&columns), Ok(file));
    }
}

/// Bytes around the section are not written.
#[test]
fn the_section_alone() {
    let file = [&[7; 5], SECTION, &[8; 9]].concat();
    assert_eq!(write_columns(&file, 5).as_deref(), Ok(COLUMNS));
}

#[test]
fn what_the_decoder_refuses_is_not_written() {
    let file = section(&[witnessed(1), op(1)]);
    let error = write_columns(&file, 0).unwrap_err();
    assert_eq!(error, decode_evr0_section(&file, &mut 0).unwrap_err());
    assert_eq!((error.number(), error.offset), (Some(25), 291));
    for (file, cursor) in [(SECTION, 1), (SECTION, usize::MAX), (b"", 0)] {
        let error = write_columns(file, cursor).unwrap_err();
        assert_eq!((error.number(), error.offset), (Some(1), cursor));
    }
}

#[test]
fn every_cut() {
    for end in 0..COLUMNS.len() {
        assert_eq!(refused(&COLUMNS[..end]), (Some(76), end));
    }
}

/// The place of 75 in a number, which stands at the owner or at a text's length.
#[test]
fn numbers() {
    for (number, width, due) in [
        (&[0x81, 0x00][..], 4, Some(1)),
        (&[0x80, 0x00], 4, Some(1)),
        (&[0x80, 0x80, 0x00], 4, Some(2)),
        (&[0xC8, 0x01], 4, None),
        (&[0xFF, 0xFF, 0xFF, 0xFF, 0x0F], 4, None),
        (&[0xFF, 0xFF, 0xFF, 0xFF, 0x10], 4, Some(4)),
        (&[0xFF, 0xFF, 0xFF, 0xFF, 0x8F, 0x01], 4, Some(4)),
        (&[0xFF, 0xFF, 0x04], 2, Some(2)),
        (&[0xFF, 0xFF, 0x80], 2, Some(2)),
        (&[0x80, 0x80, 0x00], 2, Some(2)),
        (&[0x81, 0x00], 2, Some(1)),
    ] {
        let at = if width == 4 { 88 } else { 78 };
        let columns = with(at, 1, number);
        match due {
            Some(place) => assert_eq!(refused(&columns), (Some(75), at + place)),
            None => assert!(take_columns(&columns).is_ok(), "{number:02x?}"),
        }
    }
    // a number that is cut may yet be right
    assert_eq!(refused(&with(78, 134, &[0x80])), (Some(76), 79));
    assert_eq!(refused(&with(78, 134, &[0xFF, 0xFF])), (Some(76), 80));
    assert_eq!(refused(&with(78, 134, &[0xFF, 0xFF, 0x80])), (Some(75), 80));
    // 65,535 is a right length, of a text that is not there
    assert_eq!(refused(&with(78, 134, &[0xFF, 0xFF, 3])), (Some(76), 81));
}

/// Under schema 2 a span is a number of 8 bytes. The columns of a section of either schema differ in the schema and in the payload length.
#[test]
fn schemas() {
    let schema_2 = |span: &[u8]| {
        let mut columns = with(178, 1, span);
        (columns[4], columns[8]) = (COLUMNS[4] + 8, 2);
        columns
    };
    let columns = schema_2(&[0x80, 0x80, 0x80, 0x80, 0x10]);
    let file = take_columns(&columns).unwrap();
    assert_eq!(file.len(), SECTION.len() + 8);
    let decoded = decode_evr0_section(&file, &mut 0).unwrap();
    assert_eq!(decoded.witnesses[0].source_end, 1 << 32);
    assert_eq!(write_columns(&file, 0), Ok(columns));
    let most = [[0xFF; 9].as_slice(), &[0x01]].concat();
    assert!(take_columns(&schema_2(&most)).is_ok());
    let more = [[0xFF; 9].as_slice(), &[0x02]].concat();
    assert_eq!(refused(&schema_2(&more)), (Some(75), 187));

    // of 4 bytes under any other, which the decoder refuses
    let mut columns = with(178, 1, &[0x80, 0x80, 0x80, 0x80, 0x10]);
    columns[8] = 3;
    assert_eq!(refused(&columns), (Some(75), 182));
    columns = COLUMNS.to_vec();
    columns[8] = 3;
    assert_eq!(refused(&columns), (Some(10), 10));
}

/// The payload length is copied and bounds nothing.
#[test]
fn payload_lengths() {
    for (length, number, offset) in [
        (0u32, 3, 4),
        (1, 5, 8),
        (100, 13, 100),
        (286, 5, 291),
        (288, 4, 8),
        (4_194_304, 4, 8),
        (4_194_305, 3, 4),
        (u32::MAX, 3, 4),
    ] {
        let columns = with(4, 4, &length.to_le_bytes());
        assert_eq!(refused(&columns), (Some(number), offset), "{length}");
    }
}

/// A count that no column follows ends at the end of the file.
#[test]
fn counts() {
    let none = [&COLUMNS[..82], &[0xFF, 0xFF, 0xFF, 0xFF, 0x0F, 0, 0, 0]].concat();
    assert_eq!(refused(&none), (Some(76), 90));
    let many = [&COLUMNS[..82], &[0, 0, 0, 0x81, 0x80, 0x10], &[0; 262_145]].concat();
    assert_eq!(refused(&many), (Some(12), 96));
}

fn message(columns: &[u8]) -> String {
    take_columns(columns).unwrap_err().to_string()
}

#[test]
fn messages() {
    assert_eq!(
        message(&with(82, 1, &[0x81, 0x00])),
        "number of a column in more groups than needed, or too large for its field at 83"
    );
    assert_eq!(
        message(b""),
        "columns cut, or bytes left over after them at 0"
    );
    assert_eq!(
        message(&with(0, 1, b"e")),
        "rebuilt section: missing mandatory EVR0 section at 0"
    );
}

/// What a call answers and leaves in tables of 1, 2 and 2 entries and in an output of so many bytes.
fn called(
    room: usize,
    call: impl FnOnce(SectionTables, &mut [u8]) -> raw::Columns,
) -> (raw::Columns, [Vec<u64>; 3], Vec<u8>) {
    let (mut tables, mut output) = ([vec![7; 1], vec![7; 2], vec![7; 2]], vec![7; room]);
    let [propositions, proofs, depths] = &mut tables;
    let lent = SectionTables {
        propositions,
        proofs,
        depths,
    };
    let answer = call(lent, &mut output);
    (answer, tables, output)
}

fn accepted(written: &[u8], room: usize) -> (raw::Columns, [Vec<u64>; 3], Vec<u8>) {
    let answer = raw::Columns {
        accepted: true,
        length: written.len(),
        ..Default::default()
    };
    let mut output = written.to_vec();
    output.resize(room, 0);
    (answer, [vec![92], vec![107, 154], vec![1, 2]], output)
}

fn zeros(
    number: u8,
    kind: u8,
    offset: usize,
    room: usize,
) -> (raw::Columns, [Vec<u64>; 3], Vec<u8>) {
    let answer = raw::Columns {
        refusal: raw::Refusal {
            kind,
            number,
            offset,
        },
        ..Default::default()
    };
    (answer, [vec![0], vec![0; 2], vec![0; 2]], vec![0; room])
}

#[test]
fn outputs() {
    for room in [212, 213, 300] {
        let write = called(room, |lent, output| {
            calls::write_columns(SECTION, 0, lent, output)
        });
        assert_eq!(write, accepted(COLUMNS, room));
    }
    for room in [295, 296, 400] {
        let take = called(room, |lent, output| {
            calls::take_columns(COLUMNS, lent, output)
        });
        assert_eq!(take, accepted(SECTION, room));
    }
    for room in [0, 1, 211] {
        let write = called(room, |lent, output| {
            calls::write_columns(SECTION, 0, lent, output)
        });
        assert_eq!(write, zeros(61, 5, 0, room));
    }
    for room in [0, 1, 294] {
        let take = called(room, |lent, output| {
            calls::take_columns(COLUMNS, lent, output)
        });
        assert_eq!(take, zeros(61, 5, 0, room));
    }
}

/// 75 and 76 before 61, 61 before the decoder; when writing the decoder before 61.
#[test]
fn which_refusal_comes_first() {
    let take = |columns: Vec<u8>, room: usize| {
        called(room, |lent, output| {
            calls::take_columns(&columns, lent, output)
        })
    };
    let write = |section: &[u8], room: usize| {
        called(room, |lent, output| {
            calls::write_columns(section, 0, lent, output)
        })
    };
    assert_eq!(take(with(82, 1, &[0x81, 0]), 0), zeros(75, 5, 83, 0));
    assert_eq!(take(with(0, 1, b"e"), 294), zeros(61, 5, 0, 294));
    assert_eq!(take(with(0, 1, b"e"), 295), zeros(1, 0, 0, 295));
    // a second proposition: tables of one entry are too short
    let two = [
        &COLUMNS[..82],
        &[2, 0, 0, 0, 1, b'k', 1, b'l', 0, 0, 0, 0, 0, 0],
    ]
    .concat();
    let mut two = two;
    two[4..6].copy_from_slice(&122u16.to_le_bytes());
    assert_eq!(take(two.clone(), 130), zeros(61, 5, 100, 130));
    assert_eq!(take(two.clone(), 129), zeros(61, 5, 0, 129));
    let section = take_columns(&two).unwrap();
    assert_eq!(write(&section, 0), zeros(61, 5, 100, 0));
    assert_eq!(write(&section[1..], 0), zeros(1, 0, 0, 0));
}

/// By other rules, and by a table that is refused.
#[test]
fn by_rules() {
    let rules = RuleTable::load(include_bytes!("../../../../examples/diocese.rules")).unwrap();
    let file = include_bytes!("../../../../examples/diocese.evr0");
    assert_eq!(write_columns(file, 0).unwrap_err().number(), Some(20));
    let columns = rules.write_columns(file, 0).unwrap();
    assert_eq!(rules.take_columns(&columns).as_deref(), Ok(&file[..]));
    assert_eq!(refused(&columns).0, Some(20));
    assert_eq!(rules.take_columns(COLUMNS).unwrap_err().number(), Some(20));
    let four = RuleTable::load(RuleTable::FOUR).unwrap();
    assert_eq!(four.write_columns(SECTION, 0).as_deref(), Ok(COLUMNS));
    assert_eq!(four.take_columns(COLUMNS).as_deref(), Ok(SECTION));
    for (columns, section) in [(COLUMNS, SECTION), (b"", b"")] {
        let write = called(9, |lent, output| {
            calls::write_columns_by_rules(&[], section, 0, lent, output)
        });
        assert_eq!(write, zeros(69, 5, 0, 9));
        let take = called(9, |lent, output| {
            calls::take_columns_by_rules(&[], columns, lent, output)
        });
        assert_eq!(take, zeros(69, 5, 0, 9));
    }
}

/// Numbers of five groups make the columns longer than the section, and a quarter more is enough.
#[test]
fn lengths_that_are_always_enough() {
    let mut payload = section(&[])[8..].to_vec();
    payload[76] = 200;
    for number in 0..200u32 {
        payload.extend([1, 0, b'A' + (number / 50) as u8]);
        for number in [u32::MAX - 200 + number, u32::MAX, 1 << 28] {
            payload.extend(number.to_le_bytes());
        }
    }
    let file = framed(&payload);
    let columns = write_columns(&file, 0).unwrap();
    assert!(file.len() < columns.len() && columns.len() <= file.len() + file.len() / 4);
    assert_eq!(take_columns(&columns), Ok(file.clone()));
    let (mut propositions, mut output) = (vec![7; 200], vec![7; file.len() + file.len() / 4]);
    let lent = SectionTables {
        propositions: &mut propositions,
        proofs: &mut [],
        depths: &mut [],
    };
    let written = calls::write_columns(&file, 0, lent, &mut output);
    assert_eq!((written.accepted, written.length), (true, columns.len()));
    assert_eq!(output[..columns.len()], columns);
    assert!(output[columns.len()..].iter().all(|byte| *byte == 0));
}
