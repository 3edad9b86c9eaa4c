//! Seeded inputs for the decoders. A section, a block or a file of functions is made as a value of fields, damaged there, and written with
//! its lengths and counts repaired, so that a fault deep inside is reached.

pub mod block;
pub mod block_conditions;
pub mod block_faults;
pub mod cases;
pub mod columns;
pub mod compared;
pub mod function_conditions;
pub mod function_faults;
pub mod functions;
pub mod locks;
pub mod marked;
pub mod random;
pub mod ruled;
pub mod section;
pub mod section_conditions;
pub mod section_faults;
pub mod shapes;
pub mod text;
pub mod wide;
