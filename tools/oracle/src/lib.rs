//! The Rust decoders of skulmakov-oss/Semantic at commit a38c216cab, built unchanged (build.rs), with their answers in document 01's
//! terms: a refusal has a kind, a number and an offset, and a table has the start of each record. `marks`, `compare`, `locks` and `rules`
//! are what the Rust does not have; `evr0_ruled`, `evr0_wide` and `evr0_wide_ruled` are models of it with other rules, for schema 2, and with both.

include!(concat!(env!("OUT_DIR"), "/modules.rs"));

pub mod block;
pub mod functions;
pub mod lines;
pub mod messages;
pub mod records;
pub mod section;
pub mod text;
