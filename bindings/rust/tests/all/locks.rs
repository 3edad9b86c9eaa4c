//! Locks: what touches, who hinders whom, the order of the refusals, and what a refusal leaves.

use falgnust::calls::{self, BlockTables};
use falgnust::locks::{ClaimError, Lock, MAX_COMPONENTS, MAX_LOCKS, Register};
use falgnust::raw;
use falgnust::semcode_decode::{DecodeError, DecodedAccessPathComponent as Component};

/// Below revision 20: no signature, and paths without modes.
const REVISION: u16 = 19;

/// A source set like any other.
const SET: [u8; 32] = [0; 32];

const BORROW: u8 = 0;
const WRITE: u8 = 1;

/// A path's event, root and fields.
type Path<'a> = (u8, u32, &'a [u32]);

/// A block with these paths.
fn block(paths: &[Path]) -> Vec<u8> {
    let mut out = b"\x00\x00OWN0".to_vec();
    out.extend((paths.len() as u16).to_le_bytes());
    for (event, root, fields) in paths {
        out.push(*event);
        out.extend(root.to_le_bytes());
        out.extend((fields.len() as u16).to_le_bytes());
        for field in *fields {
            out.push(1);
            out.extend(field.to_le_bytes());
        }
    }
    out
}

fn claim(register: &mut Register, owner: u32, paths: &[Path]) -> Result<usize, ClaimError> {
    register.claim(owner, 0, &block(paths), REVISION, &SET)
}

/// What the second owner is answered where the first holds one path.
fn beside(held: Path, claimed: Path) -> Result<usize, ClaimError> {
    let mut register = Register::new();
    assert_eq!(claim(&mut register, 1, &[held]), Ok(1));
    let mut own = register.clone();
    assert_eq!(claim(&mut own, 1, &[claimed]), Ok(2)); // never hinders itself
    claim(&mut register, 2, &[claimed])
}

#[test]
fn what_touches() {
    for (a, b, touch) in [
        (&[][..], &[][..], true),
        (&[], &[3], true),
        (&[3], &[3], true),
        (&[3], &[3, 4, 5], true),
        (&[3], &[4], false),
        (&[3, 4], &[3, 5], false),
        (&[3, 4], &[4], false),
    ] {
        for (first, second) in [(a, b), (b, a)] {
            for (held, claimed) in [(BORROW, WRITE), (WRITE, BORROW), (WRITE, WRITE)] {
                let due = if touch { Err(ClaimError::Held) } else { Ok(2) };
                assert_eq!(beside((held, 9, first), (claimed, 9, second)), due);
                assert_eq!(beside((held, 9, first), (claimed, 8, second)), Ok(2));
            }
            assert_eq!(beside((BORROW, 9, first), (BORROW, 9, second)), Ok(2));
        }
    }
}

/// Components of one number and different kinds, and variants of different indices, do not touch.
#[test]
fn kinds_and_all_values_are_compared() {
    let path = |event: u8, component: &[u8]| {
        let mut out = b"\x00\x00OWN0\x01\x00".to_vec();
        out.extend([event, 0]);
        if event == WRITE {
            out.extend([0; 4]);
        }
        out.extend(b"\x09\x00\x00\x00\x01\x00");
        out.extend(component);
        out.extend(b"SIG0\x00\x00");
        out
    };
    let (tuple, field, sequence) = (b"\x00\x07\x00", b"\x01\x07\0\0\0", b"\x03\x07\0\0\0");
    let writes = [&tuple[..], &field[..], &sequence[..]];
    let variants = [b"\x02\x07\0\0\0\x00\x00", b"\x02\x07\0\0\0\x01\x00"];
    let borrows = writes.iter().copied().chain(variants.map(|v| &v[..]));
    for borrow in borrows {
        for write in writes {
            let mut register = Register::new();
            assert_eq!(register.claim(0, 0, &path(BORROW, borrow), 22, &SET), Ok(1));
            let answer = register.claim(u32::MAX, 0, &path(WRITE, write), 22, &SET);
            assert_eq!(answer.is_err(), borrow == write);
        }
    }
    let mut register = Register::new();
    register
        .claim(0, 0, &path(BORROW, variants[1]), 22, &SET)
        .unwrap();
    let due = Component::AdtPayload {
        variant: 7,
        index: 1,
    };
    assert_eq!(register.locks()[0].components, [due]);
}

#[test]
fn all_paths_or_none() {
    let mut register = Register::new();
    assert_eq!(claim(&mut register, 1, &[(WRITE, 5, &[1])]), Ok(1));
    let before = register.locks();
    let claimed: [Path; 3] = [(BORROW, 6, &[]), (BORROW, 5, &[2]), (BORROW, 5, &[])];
    assert_eq!(claim(&mut register, 2, &claimed), Err(ClaimError::Held));
    assert_eq!(register.locks(), before);
    assert_eq!(claim(&mut register, 2, &claimed[..2]), Ok(3));
    let lock = |owner, write, root_symbol_id, field: &[u32]| Lock {
        owner,
        write,
        root_symbol_id,
        source: SET,
        components: field.iter().map(|f| Component::FieldSymbol(*f)).collect(),
    };
    let due = [
        lock(1, true, 5, &[1]),
        lock(2, false, 6, &[]),
        lock(2, false, 5, &[2]),
    ];
    assert_eq!(register.locks(), due);
    assert_eq!(format!("{register:?}"), format!("{due:?}"));
}

#[test]
fn a_release_drops_what_an_owner_holds() {
    let mut register = Register::default();
    assert_eq!(register.release(7), 0);
    for owner in [0, 1, 0, u32::MAX, 1] {
        claim(&mut register, owner, &[(BORROW, 5, &[owner])]).unwrap();
    }
    let mut other = register.clone();
    assert_eq!((register.release(0), register.release(1)), (3, 1));
    assert_eq!((other.release(1), other.release(0)), (3, 1));
    assert_eq!(register.locks(), other.locks());
    assert_eq!(register.locks()[0].owner, u32::MAX);
    assert_eq!((register.release(2), register.held()), (1, 1));
}

#[test]
fn at_most_256() {
    let mut register = Register::new();
    let equal = vec![(BORROW, 5, &[][..]); MAX_LOCKS];
    assert_eq!(claim(&mut register, 1, &equal), Ok(MAX_LOCKS));
    for paths in [&equal[..1], &equal[..2], &equal[..]] {
        assert_eq!(claim(&mut register, 2, paths), Err(ClaimError::Full));
    }
    assert_eq!(claim(&mut register, 2, &[]), Ok(MAX_LOCKS));
    assert_eq!(
        register.claim(2, 0, b"\x00\x00", REVISION, &SET),
        Ok(MAX_LOCKS)
    ); // no OWN0
    assert_eq!(register.release(1), 0);
    assert_eq!(claim(&mut register, 2, &equal[..255]), Ok(255));
    assert_eq!(claim(&mut register, 3, &equal[..2]), Err(ClaimError::Full));
    assert_eq!(claim(&mut register, 3, &equal[..1]), Ok(256));
}

/// 66 of any path before 67 of any path before 68, and a refusal of the block before all.
#[test]
fn order_of_refusals() {
    static MOST: [u32; MAX_COMPONENTS] = [7; MAX_COMPONENTS];
    static MORE: [u32; MAX_COMPONENTS + 1] = [7; MAX_COMPONENTS + 1];
    let mut register = Register::new();
    assert_eq!(claim(&mut register, 1, &[(BORROW, 5, &MOST)]), Ok(1));
    let (long, met): (Path, Path) = ((BORROW, 6, &MORE), (WRITE, 5, &[]));
    let many = vec![(BORROW, 6, &[][..]); MAX_LOCKS];
    let with = |more: Vec<Path<'static>>| [many.clone(), more].concat();
    for (paths, due) in [
        (vec![met, long], ClaimError::TooLong),
        (with(vec![met, long]), ClaimError::TooLong),
        (with(vec![long]), ClaimError::TooLong),
        (with(vec![met]), ClaimError::Held),
        (with(vec![]), ClaimError::Full),
    ] {
        let error = claim(&mut register, 2, &paths).unwrap_err();
        assert_eq!(error, due);
        let cut = [&block(&paths)[..6], b"\xff\xff", &block(&paths)[8..]].concat();
        let ClaimError::Block(error) = register.claim(2, 1000, &cut, REVISION, &SET).unwrap_err()
        else {
            panic!("the block is refused first");
        };
        assert_eq!(error.number(), Some(41));
        assert_eq!(error.offset(), Some(1000 + cut.len()));
    }
    assert_eq!(register.held(), 1);
}

/// The counts that are lent are found out by the crate, and 61 is no answer.
#[test]
fn large_blocks() {
    let mut register = Register::new();
    let paths = vec![(BORROW, 5, &[][..]); 65_535];
    assert_eq!(claim(&mut register, 1, &paths), Err(ClaimError::Full));
    let mut code = vec![0, 1];
    code.extend([0; 2 * 256]); // strings
    code.extend(&block(&paths[..200])[2..]);
    code.extend(b"SIG0\x00\x10");
    code.extend([15; 4096]);
    assert_eq!(register.claim(1, usize::MAX, &code, 20, &SET), Ok(200));
}

#[test]
fn errors() {
    let mut register = Register::new();
    let block = register.claim(1, 1000, b"\x00\x00", 20, &SET).unwrap_err();
    let DecodeError::InvalidOwnershipSection { offset, .. } = (match &block {
        ClaimError::Block(error) => error.clone(),
        other => panic!("{other}"),
    }) else {
        panic!("OWN0 is missing");
    };
    assert_eq!((block.number(), offset), (Some(71), 1002));
    assert!(block.to_string().ends_with("at 1002"));
    for (error, number, text) in [
        (ClaimError::TooLong, 66, "path of more than 16 components"),
        (
            ClaimError::Held,
            67,
            "path touches a lock of another owner, and either is a write",
        ),
        (ClaimError::Full, 68, "more than 256 locks"),
    ] {
        assert_eq!(
            (error.number(), error.to_string()),
            (Some(number), text.into())
        );
    }
}

/// After any refusal each lent table is zeros and each word of the register as it was.
#[test]
fn what_a_refusal_leaves() {
    let mut register = Register::new();
    let most = vec![(BORROW, 5, &[][..]); MAX_LOCKS];
    let mut raw = raw::Register { words: [0; 6145] };
    let mut ask = |owner, paths: &[Path], room: usize| {
        let before = raw.words;
        let (mut strings, mut starts, mut families) = ([7; 3], vec![7; room], [7; 3]);
        let lent = BlockTables {
            strings: &mut strings,
            paths: &mut starts,
            families: &mut families,
        };
        let answer = calls::claim(&mut raw, owner, 0, &block(paths), REVISION, &SET, lent);
        let first = if answer.accepted { 8 } else { 0 };
        assert_eq!((strings, families, starts[0]), ([0; 3], [0; 3], first));
        assert_eq!(starts[room - 1], 0);
        assert_eq!(raw.words == before, !answer.accepted);
        (answer.refusal.number, answer.held)
    };
    assert_eq!(ask(1, &[(BORROW, 5, &[]), (BORROW, 6, &[])], 3), (0, 2));
    assert_eq!(ask(2, &[(BORROW, 5, &[7; 17])], 2), (66, 0));
    assert_eq!(ask(2, &[(WRITE, 5, &[])], 2), (67, 0));
    assert_eq!(ask(2, &most, 300), (68, 0));
    assert_eq!(ask(2, &most, 255), (61, 0));
    assert_eq!(register.release(1), 0);
}

/// Sets that differ in one byte, at each place, are different roots; an owner does not hinder itself, and releases what it holds, under any.
#[test]
fn source_sets() {
    let write = block(&[(WRITE, 5, &[])]);
    for at in 0..32 {
        for bit in 0..8 {
            let mut other = [0xA5; 32];
            let set = other;
            other[at] ^= 1 << bit;
            let mut register = Register::new();
            let mut ask = |owner, set| register.claim(owner, 0, &write, REVISION, set);
            assert_eq!(ask(1, &set), Ok(1));
            assert_eq!(ask(2, &set), Err(ClaimError::Held));
            assert_eq!(ask(2, &other), Ok(2));
            assert_eq!(ask(1, &other), Err(ClaimError::Held));
            assert_eq!(ask(1, &set), Ok(3));
            let sets: Vec<[u8; 32]> = register.locks().iter().map(|lock| lock.source).collect();
            assert_eq!(sets, [set, other, set]);
            assert_eq!(register.release(1), 1);
            assert_eq!(register.locks()[0].source, other);
        }
    }
}

/// 256 counts the locks of all sets, and what would be 67 under one set may be 68 under another.
#[test]
fn at_most_256_of_all_sets() {
    let mut register = Register::new();
    let write = block(&[(WRITE, 5, &[])]);
    for number in 0..=255 {
        let answer = register.claim(1, 0, &write, REVISION, &[number; 32]);
        assert_eq!(answer, Ok(usize::from(number) + 1));
    }
    let mut other = [7; 32];
    let held = register.claim(2, 0, &write, REVISION, &other);
    assert_eq!(held, Err(ClaimError::Held));
    other[31] = 8;
    let full = register.claim(2, 0, &write, REVISION, &other);
    assert_eq!(full, Err(ClaimError::Full));
}

/// Any words mean some register: counts are held at 256 and 16, numbers at their width.
#[test]
fn any_words() {
    let mut register = raw::Register {
        words: [u64::MAX; 6145],
    };
    assert_eq!(calls::held(&register), 256);
    let lock = calls::lock_number(&register, 255);
    let seen = (
        lock.owner,
        lock.write,
        lock.root_symbol_id,
        lock.component_count,
    );
    assert_eq!(seen, (u32::MAX, true, u32::MAX, 16));
    assert_eq!(lock.source, [u8::MAX; 32]);
    let part = calls::lock_part(&register, 255, 15).component;
    assert_eq!(
        (part.kind, part.first, part.second),
        (3, u32::MAX, u16::MAX)
    );
    assert_eq!(calls::lock_number(&register, 256).refusal.number, 62);
    assert_eq!(calls::lock_part(&register, 255, 16).refusal.number, 62);
    assert_eq!(calls::lock_part(&register, 256, 0).refusal.number, 62);
    assert_eq!(calls::release(&mut register, 0), 256);
    assert_eq!(calls::release(&mut register, u32::MAX), 0);
}
