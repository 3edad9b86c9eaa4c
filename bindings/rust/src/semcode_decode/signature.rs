//! The signature of a function.

/// What a parameter is at run time.
#[repr(u8)]
#[derive(Debug, Clone, Copy, PartialEq, Eq, Hash)]
#[allow(missing_docs)]
pub enum CallableValueFamily {
    Quad = 1,
    Bool = 2,
    Text = 3,
    Sequence = 4,
    Map = 5,
    Closure = 6,
    I32 = 7,
    U32 = 8,
    Fx = 9,
    F64 = 10,
    Tuple = 11,
    Record = 12,
    Adt = 13,
    Unit = 14,
    Bytes = 15,
}

impl CallableValueFamily {
    const ALL: [Self; 15] = [
        Self::Quad,
        Self::Bool,
        Self::Text,
        Self::Sequence,
        Self::Map,
        Self::Closure,
        Self::I32,
        Self::U32,
        Self::Fx,
        Self::F64,
        Self::Tuple,
        Self::Record,
        Self::Adt,
        Self::Unit,
        Self::Bytes,
    ];

    /// The format's byte.
    pub fn byte(self) -> u8 {
        self as u8
    }

    /// The family of a byte from 1 to 15. The original has an error in the place of none.
    pub fn from_byte(byte: u8) -> Option<Self> {
        let number = usize::from(byte).checked_sub(1)?;
        Self::ALL.get(number).copied()
    }
}

/// The families of a function's parameters, in their order.
#[derive(Debug, Clone, PartialEq, Eq)]
pub struct CallableSignature {
    /// One for each parameter.
    pub families: Vec<CallableValueFamily>,
}

/// That of an accepted block which has one, by the bytes of its families.
pub(super) fn signature(there: bool, families: &[u8]) -> Option<CallableSignature> {
    let known = |byte: &u8| CallableValueFamily::from_byte(*byte).expect("a family of 1 to 15");
    there.then(|| CallableSignature {
        families: families.iter().map(known).collect(),
    })
}
