//! Sections, and what is asked of one by number: crates/falgnust/src/section.rt

use super::{Parent, Proof, Proposition, Refusal, Witness};

/// An evidence section. Its records stand in the payload, which is `bytes[cursor + 8..section.cursor]`.
#[repr(C)]
#[derive(Debug, Default, Clone, Copy, PartialEq, Eq)]
pub struct Section {
    /// Whether there is a section.
    pub accepted: bool,
    /// Why not.
    pub refusal: Refusal,
    /// The first digest.
    pub source_set: [u8; 32],
    /// The second digest.
    pub compiler_contract: [u8; 32],
    /// The epoch.
    pub epoch: u16,
    /// The schema, 1 or 2: a span's start and end take 4 bytes each in the payload under 1, and 8 under 2.
    pub schema: u16,
    /// The place in the payload of the policy's length.
    pub policy_at: usize,
    /// The place in the payload of the issuer's length.
    pub issuer_at: usize,
    /// How many characters the policy's namespace has.
    pub policy_chars: usize,
    /// How many characters the issuer's namespace has.
    pub issuer_chars: usize,
    /// How many propositions there are.
    pub propositions: usize,
    /// How many proofs there are.
    pub proofs: usize,
    /// How many witnesses there are.
    pub witnesses: usize,
    /// How many parent cells there are.
    pub parents: usize,
    /// The place after the section; the cursor that was brought where it is refused.
    pub cursor: usize,
}

/// The way down from a proof: a witness with the moves made, or spent with the proof reached. What does not apply is 0.
#[repr(C)]
#[derive(Debug, Default, Clone, Copy, PartialEq, Eq)]
pub struct WayDown {
    /// Whether there is a way.
    pub accepted: bool,
    /// Why not.
    pub refusal: Refusal,
    /// Whether the limit ended it.
    pub spent: bool,
    /// The witness at its end.
    pub witness: u32,
    /// The moves made to it.
    pub moves: u64,
    /// The proof reached where the limit ended it.
    pub proof: u32,
}

/// Whether a proposition is authorised.
#[repr(C)]
#[derive(Debug, Default, Clone, Copy, PartialEq, Eq)]
pub struct Authorised {
    /// Whether there is an answer.
    pub accepted: bool,
    /// Why not.
    pub refusal: Refusal,
    /// Whether some proof of it has operation 1 and mark 1.
    pub authorised: bool,
}

unsafe extern "C" {
    /// The section at a cursor: its head and counts. The start of each proposition and of each proof in the payload, each proof's depth
    /// and each proof's mark go to the four tables.
    pub fn falgnust_decode_evr0_section(
        bytes: *const u8,
        bytes_len: usize,
        cursor: usize,
        propositions: *mut u64,
        propositions_len: usize,
        proofs: *mut u64,
        proofs_len: usize,
        depths: *mut u64,
        depths_len: usize,
        marks: *mut u8,
        marks_len: usize,
    ) -> Section;

    /// The same without the marks.
    pub fn falgnust_decode_evr0_unmarked(
        bytes: *const u8,
        bytes_len: usize,
        cursor: usize,
        propositions: *mut u64,
        propositions_len: usize,
        proofs: *mut u64,
        proofs_len: usize,
        depths: *mut u64,
        depths_len: usize,
    ) -> Section;

    /// The way down from a proof: always the first parent, with at most `limit` moves. It decodes the section anew, as the others do.
    pub fn falgnust_way_down(
        bytes: *const u8,
        bytes_len: usize,
        cursor: usize,
        from: u32,
        limit: u64,
        propositions: *mut u64,
        propositions_len: usize,
        proofs: *mut u64,
        proofs_len: usize,
        depths: *mut u64,
        depths_len: usize,
    ) -> WayDown;

    /// Whether some proof of a proposition has operation 1 and mark 1. It decodes the section anew, with its marks.
    pub fn falgnust_authorised(
        bytes: *const u8,
        bytes_len: usize,
        cursor: usize,
        proposition: u32,
        propositions: *mut u64,
        propositions_len: usize,
        proofs: *mut u64,
        proofs_len: usize,
        depths: *mut u64,
        depths_len: usize,
        marks: *mut u8,
        marks_len: usize,
    ) -> Authorised;
}

/// Functions that ask about one number of the section at a cursor.
macro_rules! of_section {
    ($($(#[$doc:meta])* $name:ident -> $answer:ty;)*) => {
        unsafe extern "C" {
            $(
                $(#[$doc])*
                pub fn $name(
                    bytes: *const u8,
                    bytes_len: usize,
                    cursor: usize,
                    number: u32,
                    propositions: *mut u64,
                    propositions_len: usize,
                    proofs: *mut u64,
                    proofs_len: usize,
                    depths: *mut u64,
                    depths_len: usize,
                ) -> $answer;
            )*
        }
    };
}

of_section! {
    /// A proposition by its number. As the others here, it decodes the section anew, fills the three tables as
    /// [`falgnust_decode_evr0_unmarked`] does, and refuses with 62 a number that the section does not have.
    falgnust_proposition_number -> Proposition;
    /// A proof by its number.
    falgnust_proof_number -> Proof;
    /// A witness by its number.
    falgnust_witness_number -> Witness;
    /// A parent cell by its number.
    falgnust_parent_number -> Parent;
}
