//! What both decoders answer, in document 01's terms, so that answers can be compared.

pub mod block;
pub mod functions;
pub mod locks;
pub mod refusal;
pub mod section;
pub mod text;

pub type Answer<T> = Result<T, refusal::Refusal>;
