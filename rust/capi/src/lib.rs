//! STUN for programs in C, on top of the exported sources: the functions that `include/stunp.h`
//! and `include/stunp_endpoint.h` declare, and no others.
//!
//! `make lib` builds `libstunp.a` and `libstunp.so` from this crate. They need `core`, the
//! functions of the system that `memory.rs` and `panic.rs` name, and `memcpy`, `memmove`, `memset`
//! and `memcmp`. Five files have unsafe code. `border.rs` and `passed.rs` receive a slice as a
//! pointer and a length, `handle.rs` stores a pointer in a handle, `memory.rs` calls the allocator
//! of the program or malloc, and `panic.rs` aborts the program.
#![no_std]

extern crate alloc;

mod calls;
#[allow(dead_code, unused_imports)]
#[path = "../../src/exported/mod.rs"]
mod exported;
mod handle;
#[allow(dead_code, unused_imports)]
#[path = "../../src/kit/mod.rs"]
mod kit;
mod memory;
// In a test, `std` has a panic handler of its own.
#[cfg(not(test))]
mod panic;
mod passed;

pub use calls::border::*;
