//! Evidence sections and function tables of SemCode, decoded by functions that are proved to give the answers of their definitions.
//!
//! The module [`evr0`] takes the place of the one of that name in skulmakov-oss/Semantic, whole: the same functions, types, fields and
//! messages, but for what schema 2 asks, so that a caller changes a path and little else. [`semcode_decode`] has the parts of that module that read a file's functions
//! and a function's block, which is private there; `decode_semcode` itself is missing. [`locks`] is not in the original: it keeps which paths are claimed. Behind all stands the static library that
//! tools/library writes; nothing here parses a byte.
//!
//! ```
//! use falgnust::evr0::decode_evr0_section;
//!
//! let mut file = b"EVR0\x5c\x00\x00\x00".to_vec(); // a payload of 92 bytes
//! file.extend([1, 0, 0, 0]); // schema, flags
//! file.extend([0; 32 + 32 + 2]); // two digests, epoch
//! file.extend(b"\x01\x00a\x01\x00b"); // policy, issuer
//! file.extend([0; 4 * 4]); // no propositions, proofs, witnesses, parents
//!
//! let mut cursor = 0;
//! let section = decode_evr0_section(&file, &mut cursor).unwrap();
//! assert_eq!(section.policy_namespace, "a");
//! assert_eq!(cursor, 100);
//!
//! file[8] = 2; // the other schema, in which spans are longer
//! assert_eq!(decode_evr0_section(&file, &mut 0).unwrap().schema, 2);
//!
//! file[8] = 3;
//! let error = decode_evr0_section(&file, &mut 0).unwrap_err();
//! assert_eq!(error.to_string(), "unsupported EVR0 schema at 10");
//! assert_eq!(error.number(), Some(10));
//! ```

#![deny(unsafe_code, unsafe_op_in_unsafe_fn)]
#![warn(missing_docs)]

#[allow(unsafe_code)]
pub mod calls;
pub mod evr0;
pub mod locks;
#[allow(unsafe_code)]
pub mod raw;
pub mod semcode_decode;

mod messages;
mod read;
