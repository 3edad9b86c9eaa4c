//! The fields of records that start at given places, as words of a lent table: crates/falgnust/src/words.rt. Each function answers true where
//! every record is there and all its words fit, and else leaves zeros; that of paths, how many fit.

/// Functions that read records by their starts.
macro_rules! of_starts {
    ($($(#[$doc:meta])* $name:ident -> $answer:ty;)*) => {
        unsafe extern "C" {
            $(
                $(#[$doc])*
                pub fn $name(
                    payload: *const u8,
                    payload_len: usize,
                    starts: *const u64,
                    starts_len: usize,
                    words: *mut u64,
                    words_len: usize,
                ) -> $answer;
            )*
        }
    };
}

of_starts! {
    /// 5 words of each proposition: the place and the length of its kind, owner, scope, type.
    falgnust_proposition_words -> bool;
    /// 10 words of each proof: number, proposition, the place and the length of its rule's name, authority, first witness, how many witnesses,
    /// first parent, how many parents, operation.
    falgnust_proof_words -> bool;
}

unsafe extern "C" {
    /// 7 words of each witness: number, proposition, polarity, the place of its first digest, where its span starts and ends, the place of its
    /// second digest. Under schema 2 a span's start and end take 8 bytes each, under any other number 4.
    pub fn falgnust_witness_words(
        payload: *const u8,
        payload_len: usize,
        schema: u16,
        starts: *const u64,
        starts_len: usize,
        words: *mut u64,
        words_len: usize,
    ) -> bool;
    /// 2 words of each text of a section or string of a block: the place and the length of its bytes.
    pub fn falgnust_text_words(
        bytes: *const u8,
        bytes_len: usize,
        starts: *const u64,
        starts_len: usize,
        words: *mut u64,
        words_len: usize,
    ) -> bool;
    /// Of each path of a block 4 words, event, site, root and how many components, and a word for each component: kind, first and second number
    /// from the lowest bits on, 2, 32 and 16 of them. As many paths as are there and fit, from the first on: how many.
    pub fn falgnust_path_words(
        code: *const u8,
        code_len: usize,
        header_rev: u16,
        starts: *const u64,
        starts_len: usize,
        words: *mut u64,
        words_len: usize,
    ) -> usize;
    /// The parent cells from a place on, a word each.
    pub fn falgnust_parent_words(
        payload: *const u8,
        payload_len: usize,
        at: usize,
        words: *mut u64,
        words_len: usize,
    ) -> bool;
}
