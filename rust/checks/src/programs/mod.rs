//! The programs, and the crates that they share, exported.
//!
//! The exporter writes the modules. This file is written by hand, with a line for each of them.
#![allow(clippy::complexity, clippy::style, clippy::large_enum_variant)]

pub mod captures;
pub mod stun_cli;
pub mod stun_inspect;
pub mod stun_tool;
