//! Programs and tests over the same files as the crate: the programs that are exported with it, the
//! player of transcripts, and tests of the exported calls.
#![forbid(unsafe_code)]
// The exported programs and tests may have unused functions and values. They may import traits that
// Rust finds without an import, and take a process that their macros no longer use.
#![allow(dead_code, unused_imports, unused_variables)]
// The crate supports Rust 1.85, which does not have `is_multiple_of`.
#![allow(clippy::manual_is_multiple_of)]

extern crate alloc;

#[cfg(test)]
mod api;
#[path = "../../src/exported/mod.rs"]
pub mod exported;
pub mod host;
#[path = "../../src/kit/mod.rs"]
pub mod kit;
#[warn(dead_code, unused_imports, unused_variables)]
pub mod player;
pub mod programs;
pub mod refusing;
#[cfg(test)]
mod test_support;
