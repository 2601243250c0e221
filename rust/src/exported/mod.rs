//! The crates of the library, exported.
//!
//! The exporter writes the modules. This file is written by hand, with a line for each of them.

// These are the lints of clippy that the sources do not follow, each with the reason.
#![allow(
    clippy::elidable_lifetime_names,
    clippy::needless_lifetimes,
    reason = "the sources name each lifetime"
)]
#![allow(
    clippy::match_same_arms,
    clippy::collapsible_match,
    clippy::single_match,
    clippy::single_match_else,
    clippy::needless_return,
    reason = "each arm is a case of a proof"
)]
#![allow(
    clippy::manual_div_ceil,
    clippy::manual_filter,
    clippy::manual_map,
    clippy::manual_ok_err,
    clippy::manual_range_contains,
    clippy::mem_replace_option_with_none,
    clippy::mem_replace_option_with_some,
    clippy::needless_range_loop,
    clippy::question_mark,
    clippy::redundant_closure,
    clippy::while_let_on_iterator,
    reason = "the sources have no such call"
)]
#![allow(
    clippy::cast_lossless,
    clippy::needless_as_bytes,
    clippy::explicit_auto_deref,
    clippy::precedence,
    clippy::semicolon_if_nothing_returned,
    reason = "the language of the sources has no shorter form"
)]
#![allow(
    clippy::ref_option,
    clippy::trivially_copy_pass_by_ref,
    clippy::needless_pass_by_value,
    reason = "a contract is stated of what is passed"
)]
#![allow(
    clippy::cast_possible_truncation,
    reason = "each is argued where it stands: `proved:`"
)]
#![allow(
    clippy::missing_errors_doc,
    clippy::missing_panics_doc,
    reason = "users read the pages of the types over these, which list errors"
)]
#![allow(
    clippy::unreadable_literal,
    clippy::many_single_char_names,
    reason = "numbers and letters are those of the RFCs"
)]
#![allow(
    clippy::too_many_arguments,
    clippy::struct_excessive_bools,
    reason = "settings are passed one by one to C too"
)]
#![allow(
    clippy::enum_variant_names,
    clippy::struct_field_names,
    clippy::iter_without_into_iter,
    clippy::wildcard_imports,
    reason = "names are those of the crates that are ported"
)]
#![allow(
    clippy::len_without_is_empty,
    clippy::new_without_default,
    reason = "users have the types over these"
)]
#![allow(clippy::inline_always, reason = "measured, where it stands")]
#![allow(
    clippy::large_enum_variant,
    reason = "these are returned, and not stored"
)]
#![allow(
    clippy::only_used_in_recursion,
    reason = "the argument is what the proof recurs on"
)]
#![allow(
    clippy::doc_lazy_continuation,
    reason = "the comments are laid out by another formatter"
)]
#![allow(
    unreachable_patterns,
    reason = "the sources are several crates, and an enum of another one may have more variants"
)]

pub mod stun_agent;
pub mod stun_attributes;
pub mod stun_auth;
pub mod stun_base;
pub mod stun_buffer;
pub mod stun_client;
pub mod stun_client_calls;
pub mod stun_client_endpoint;
pub mod stun_client_requests;
pub mod stun_endpoint;
pub mod stun_extra;
pub mod stun_ice;
pub mod stun_judging;
pub mod stun_proto;
pub mod stun_types;
