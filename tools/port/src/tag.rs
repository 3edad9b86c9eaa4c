//! Fixed byte strings.

pub use falgnust::calls::tag_at;
