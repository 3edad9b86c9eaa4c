//! The C functions of crates/falgnust, as they are: each is proved there to give the answer of a definition. These declarations keep to
//! the order and names of the Rattle source; `tools/declarations/check` compares them.
//!
//! A slice is a pointer and a length. A pointer has to be valid for its length, and a table that is lent (`*mut`) may overlap neither
//! another one nor the bytes, nor a register. An answer is a flat struct: `accepted`, then a refusal that is all zeros where `accepted` holds, then values
//! that are all zeros where it does not. After a refusal every lent table is zeros, whole; otherwise entries past a count are zeros.
//!
//! [`calls`](crate::calls) has the same functions on slices, without `unsafe`.

mod block;
mod columns;
mod compare;
mod functions;
mod locks;
mod record;
mod rounds;
mod rules;
mod section;
mod text;
mod words;

pub use block::*;
pub use columns::*;
pub use compare::*;
pub use functions::*;
pub use locks::*;
pub use record::*;
pub use rounds::*;
pub use rules::*;
pub use section::*;
pub use text::*;
pub use words::*;
