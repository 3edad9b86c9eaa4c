//! The proved decoders, called by bindings/rust's `calls` with tables that the caller lends, and their answers in document 01's terms.

pub mod block;
pub mod field;
pub mod functions;
pub mod locks;
pub mod number;
pub mod refusal;
pub mod section;
pub mod tag;
pub mod text;
pub mod utf8;
