//! The words of records: those of the readers of one record; zeros where a record is cut or the words do not fit.

use crate::written::{Proof, section, section_of};
use falgnust::calls::{
    SectionTables, decode_evr0_unmarked, parent_place, parent_words, path_words, proof_words,
    proposition_words, read_component, read_parent, read_path, read_proof, read_proposition,
    read_text, read_witness, text_words, witness_place, witness_words,
};
use falgnust::raw::Witness;
use falgnust::semcode_decode::{DecodedEvent, parse_string_table_debug_and_ownership, path_number};

fn proof(rule: &'static str, witness: Option<u8>, parents: Vec<u32>) -> Proof {
    Proof {
        proposition: 0,
        rule,
        authority: 7,
        witness,
        parents,
    }
}

/// A positive proof, a negative one, their join, and an OP on it.
fn proofs() -> [Proof; 4] {
    [
        proof("POS-WITNESS-1", Some(1), vec![]),
        proof("NEG-WITNESS-1", Some(0), vec![]),
        proof("JOIN-SAME-P-1", None, vec![0, 1]),
        proof("OP-T-ONLY-1", None, vec![2]),
    ]
}

fn file() -> Vec<u8> {
    section(&proofs())
}

#[test]
fn words_are_the_fields() {
    let file = file();
    let (mut propositions, mut proofs, mut depths) = ([0; 1], [0; 4], [0; 4]);
    let lent = SectionTables {
        propositions: &mut propositions,
        proofs: &mut proofs,
        depths: &mut depths,
    };
    let decoded = decode_evr0_unmarked(&file, 0, lent);
    assert!(decoded.accepted);
    let payload = &file[8..];

    let mut words = [9; 6];
    assert!(proposition_words(payload, &propositions, &mut words));
    let p = read_proposition(payload, propositions[0] as usize);
    let ids = [p.ast_owner_id, p.semantic_scope_id, p.type_obligation_id, 0];
    assert_eq!(words[..2], [p.kind.start as u64, p.kind.len as u64]);
    assert_eq!(words[2..], ids.map(u64::from));

    let mut words = [[9; 10]; 4];
    assert!(proof_words(payload, &proofs, words.as_flattened_mut()));
    for (start, words) in proofs.into_iter().zip(words) {
        let p = read_proof(payload, start as usize);
        assert_eq!(words[2..4], [p.rule_id.start as u64, p.rule_id.len as u64]);
        assert_eq!(
            [&words[..2], &words[4..]].concat(),
            [
                p.proof_id,
                p.proposition_index,
                p.authority_context,
                p.witness_first,
                p.witness_count,
                p.parent_first,
                p.parent_count,
                p.authorized_operation.into(),
            ]
            .map(u64::from)
        );
    }

    for witness in witnesses(payload, 1) {
        assert_eq!([witness.source_start, witness.source_end], [5, 6]);
    }

    let mut words = [9; 3];
    let first = parent_place(payload.len(), 3, 0);
    assert!(parent_words(payload, first, &mut words));
    let parents = [0, 1, 2].map(|n| read_parent(payload, parent_place(payload.len(), 3, n)));
    assert_eq!(words, parents.map(|parent| u64::from(parent.proof_id)));

    let starts = [decoded.policy_at as u64, decoded.issuer_at as u64];
    let mut words = [[9; 2]; 2];
    assert!(text_words(payload, &starts, words.as_flattened_mut()));
    let texts = starts.map(|start| read_text(payload, start as usize));
    assert_eq!(
        words,
        texts.map(|text| [text.start as u64, text.len as u64])
    );
}

/// Both witnesses of a payload with three parents, each at its place, and by its words.
fn witnesses(payload: &[u8], schema: u16) -> [Witness; 2] {
    let place = |number| witness_place(payload.len(), schema, 2, 3, number);
    let starts = [0, 1].map(|number| place(number) as u64);
    let mut words = [[9; 7]; 2];
    assert!(witness_words(
        payload,
        schema,
        &starts,
        words.as_flattened_mut()
    ));
    let read = starts.map(|start| read_witness(payload, schema, start as usize));
    for (w, words) in read.into_iter().zip(words) {
        assert!(w.accepted);
        let [number, proposition, polarity, file, start, end, origin] = words;
        assert_eq!(
            [number, proposition],
            [w.witness_id, w.proposition_index].map(u64::from)
        );
        assert_eq!(polarity, w.polarity.into());
        assert_eq!([start, end], [w.source_start, w.source_end]);
        assert_eq!(payload[file as usize..][..32], w.file_digest);
        assert_eq!(payload[origin as usize..][..32], w.origin_digest);
    }
    assert_eq!([place(2), place(u32::MAX)], [0, 0]);
    read
}

/// Spans of 64 bits, and the same bytes under every other number, which means spans of 4 bytes.
#[test]
fn words_of_schema_2() {
    let span = [1 << 32, u64::MAX];
    let file = section_of(2, span, &proofs());
    for witness in witnesses(&file[8..], 2) {
        assert_eq!([witness.source_start, witness.source_end], span);
    }
    let payload = &section(&proofs())[8..];
    let read = witnesses(payload, 1);
    for schema in [0, 3, 258, 513, u16::MAX] {
        assert_eq!(witnesses(payload, schema), read);
    }
}

/// A witness that ends the bytes is whole under its own width alone.
#[test]
fn a_witness_at_the_end() {
    let file = section_of(2, [5, 6], &[proof("POS-WITNESS-1", Some(1), vec![])]);
    let payload = &file[8..];
    for (schema, size) in [(1, 84), (2, 92)] {
        let start = payload.len() - size;
        for (at, whole) in [(start, true), (start + 1, false)] {
            let mut words = [9; 7];
            assert_eq!(
                witness_words(payload, schema, &[at as u64], &mut words),
                whole
            );
            assert_eq!(words == [0; 7], !whole);
        }
        assert_eq!(witness_place(payload.len(), schema, 1, 0, 0), start);
    }
}

#[test]
fn what_is_cut_or_does_not_fit_has_zeros() {
    let file = file();
    let end = file.len() as u64;
    for start in [end - 1, end, u64::MAX] {
        let mut words = [9; 10];
        assert!(!proposition_words(&file, &[start], &mut words));
        assert_eq!(words, [0; 10]);
        words = [9; 10];
        assert!(!proof_words(&file, &[start], &mut words));
        assert_eq!(words, [0; 10]);
        for schema in [1, 2] {
            words = [9; 10];
            assert!(!witness_words(&file, schema, &[start], &mut words));
            assert_eq!(words, [0; 10]);
        }
        words = [9; 10];
        assert!(!parent_words(&file, start as usize, &mut words));
        assert_eq!(words, [0; 10]);
    }
    let mut words = [9; 3];
    assert!(!text_words(&file, &[78, 81], &mut words));
    assert_eq!(words, [0; 3]);
}

// ---- Paths

const COMPONENTS: [&[u8]; 4] = [
    b"\x00\xff\xfe",
    b"\x01\xff\xfe\xfd\xfc",
    b"\x03\x01\x02\x03\x04",
    b"\x02\xff\xfe\xfd\xfc\xfb\xfa",
];

/// A path of revision 22, by the bytes of its event and of its components.
fn path(event: &[u8], components: &[&[u8]]) -> Vec<u8> {
    let count = components.len() as u16;
    [
        event,
        &[7, 0, 0, 0xf0],
        &count.to_le_bytes(),
        &components.concat(),
    ]
    .concat()
}

/// Two borrows with a component of each kind and two writes with one of each that they can have, and where these start.
pub fn paths() -> (Vec<u8>, [u64; 4]) {
    let (mut code, mut starts) = (vec![], [0; 4]);
    let events: [(&[u8], usize); 4] = [
        (b"\x00\x00", 4),
        (b"\x00\x01\x09\x00\x00\x80", 4),
        (b"\x01\x00\x08\x00\x00\x00", 3),
        (b"\x01\x01\x07\x00\x00\x00", 3),
    ];
    for ((event, components), start) in events.into_iter().zip(&mut starts) {
        *start = code.len() as u64;
        code.extend(path(event, &COMPONENTS[..components]));
    }
    (code, starts)
}

/// The words by the readers of one record.
fn read_one_by_one(code: &[u8], start: u64) -> Vec<u64> {
    let read = read_path(code, start as usize, 22);
    assert!(read.accepted);
    let mut words = vec![
        read.event.event.into(),
        read.event.site.into(),
        read.root_symbol_id.into(),
        read.component_count.into(),
    ];
    let mut at = read.components_start;
    for _ in 0..read.component_count {
        let read = read_component(code, at, 22, words[0] as u8 / 3);
        let part = read.component;
        let second = u64::from(part.second);
        words.push(u64::from(part.kind) + 4 * u64::from(part.first) + 17_179_869_184 * second);
        at = read.next;
    }
    words
}

#[test]
fn words_of_paths() {
    let (code, starts) = paths();
    let each = starts.map(|start| read_one_by_one(&code, start));
    for room in 0..40 {
        let mut words = vec![9; room];
        let done = path_words(&code, 22, &starts, &mut words);
        let mut fit = each[..done].concat();
        assert!(fit.len() <= room);
        assert!(done == 4 || fit.len() + each[done].len() > room);
        fit.resize(room, 0);
        assert_eq!(words, fit);
    }
}

#[test]
fn a_path_that_is_refused_ends_them() {
    let (code, starts) = paths();
    for (code, revision, starts, done) in [
        (&code[..code.len() - 1], 22, starts, 3),
        (&code, 21, starts, 0),
        (&code, 22, [0, u64::MAX, 0, 0], 1),
        (&code, 22, [code.len() as u64; 4], 0),
    ] {
        let mut words = [9; 40];
        assert_eq!(path_words(code, revision, &starts, &mut words), done);
        let sizes = starts[..done]
            .iter()
            .map(|at| read_one_by_one(code, *at).len());
        assert!(words[sizes.sum()..].iter().all(|word| *word == 0));
    }
}

/// One that has more components than the crate reads at a time, behind a few short ones and behind many.
#[test]
fn a_long_path() {
    for (before, count) in [(1, 1000), (60, 100)] {
        let components: Vec<&[u8]> = COMPONENTS.into_iter().cycle().take(count).collect();
        let short = path(b"\x00\x00", &COMPONENTS);
        let block = [
            &b"\x00\x00OWN0"[..],
            &[before as u8 + 2, 0],
            &short.repeat(before)[..],
            &path(b"\x00\x00", &components),
            &short,
            b"SIG0\x00\x00",
        ]
        .concat();
        let parse = parse_string_table_debug_and_ownership(0, &block, 22).unwrap();
        let counts = parse
            .borrowed_paths
            .iter()
            .map(|path| path.components.len());
        let expected = [vec![4; before], vec![count, 4]].concat();
        assert_eq!(counts.collect::<Vec<_>>(), expected);
        for (number, path) in parse.borrowed_paths.into_iter().enumerate() {
            let read = path_number(0, &block, 22, number).unwrap();
            assert_eq!(read, Some(DecodedEvent::Borrow(path)));
        }
    }
}
