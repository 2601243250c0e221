//! Tests of the exported sources: public paths, texts of errors, `Debug`, types that a test
//! defines, and the loops of the documentation.
// These tests have the style of the sources, because they were exported with them once.
#![allow(clippy::complexity, clippy::style, clippy::large_enum_variant)]

use crate::host::{Fail, HostRuntime};

mod agent;
mod array_writer;
mod attributes;
mod client;
mod client_loop;
mod dialogue;
mod endpoint;
mod heaps;
mod messages;
mod paths;
mod secrets;
mod server;
mod server_loop;
mod short_term;
mod shown;
mod support;
mod table;
mod text_heaps;
mod texts;
mod writing;

/// Runs a test, and panics with the reason if it fails.
fn run(test: impl FnOnce(HostRuntime) -> Result<(), Fail>) {
    crate::host::run(test);
}
