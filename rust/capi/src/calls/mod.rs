//! The calls for C, exported, and the functions that C calls, in `border`.
//!
//! The exporter writes the modules. This file is written by hand, with a line for each of them.
#![allow(
    clippy::complexity,
    clippy::style,
    unreachable_patterns,
    unused_imports
)]
#![allow(dead_code, unused_mut)]

pub mod border;
#[deny(unsafe_code)]
pub(crate) mod stun_c;
#[deny(unsafe_code)]
pub(crate) mod stun_c_endpoint;
#[deny(unsafe_code)]
pub(crate) mod stun_handles;
#[deny(unsafe_code)]
pub(crate) mod stun_numbers;
