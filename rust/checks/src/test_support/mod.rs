//! Functions that the tests of several crates share: messages, times, random numbers, and the calls
//! of both sides.

pub mod client;
pub mod datagrams;
pub mod parts;
pub mod server;
pub mod spelled;
