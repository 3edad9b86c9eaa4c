//! Evidence sections. Places are places in the payload.

#[derive(Debug, Clone, PartialEq, Eq)]
pub struct Section {
    pub head: Head,
    pub cursor: usize,
    pub tables: Tables,
}

#[derive(Debug, Clone, Copy, PartialEq, Eq)]
pub struct Head {
    pub source_set: [u8; 32],
    pub compiler_contract: [u8; 32],
    pub epoch: u16,
    pub schema: u16,
    /// The places of both namespaces' lengths.
    pub policy: usize,
    pub issuer: usize,
    /// How many characters each has.
    pub policy_chars: usize,
    pub issuer_chars: usize,
    /// Propositions, proofs, witnesses, parents.
    pub counts: [usize; 4],
}

/// The start of each proposition and of each proof, and each proof's depth.
#[derive(Debug, Clone, PartialEq, Eq)]
pub struct Tables {
    pub propositions: Vec<u64>,
    pub proofs: Vec<u64>,
    pub depths: Vec<u64>,
}
