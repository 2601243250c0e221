//! Tests of messages that a server signs in a writer that the test defines, of the texts of the
//! reasons of both sides, and of what `Debug` shows of a server.
//!
//! Python's module `hmac` computed the digests.
use crate::api::array_writer::ArrayWriter;
use crate::api::run;
use crate::api::shown::{are_silent, shown};
use crate::api::support::plain_server;
use crate::exported::stun_auth::auth::{
    LongTermClientAuthErrorReason, LongTermServerAuth, LongTermServerAuthErrorReason,
};
use crate::exported::stun_judging::feature::Feature;
use crate::exported::stun_types::data::OwnedBytes;
use crate::exported::stun_types::message::MessageClass;
use crate::exported::stun_types::prelude::*;
use crate::host::Abort;
use crate::host::Fail;
use crate::kit::alloc::{Allocator, Global};
use crate::test_support::parts::{begin, message};
use crate::test_support::server::{
    FULL_REQUEST, SHA256, ZEROS, address, asked, offering_server, signed_for,
};
use crate::test_support::spelled::bytes_of;

/// A success to a client with HMAC-SHA256.
const SUCCESS: &str = "0101005c 2112a442 000000000000000000000001
    0015001d 6f624d61744a6f73327741414141414141414141414141414141414141000000
    00140005 7265616c6d000000 001d0004 00020000
    001c0020 e8f5b09d5629ab155ca941cae4fadd5ce499d03395f928b83f01830eb6543c33";

/// Returns a server that has validated a client with HMAC-SHA256 at the first address.
fn server_of_client<A: Allocator + Copy>(
    rt: &impl Abort,
    alloc: Global,
    heap: A,
) -> Result<LongTermServerAuth<A>, Fail> {
    let mut server = offering_server(alloc, heap)?;
    let request = message(alloc, MessageClass::Request, &FULL_REQUEST)?;
    let accepted = asked(&mut server, request.as_slice(), (address(1), 0), ZEROS)?;
    assert_eq!(accepted, SHA256);
    Ok(server)
}

/// A server can sign a message in a writer that the test defines.
#[test]
fn another_writer_takes_the_signed_message() {
    run(|rt| {
        let expected = bytes_of(rt.alloc(), SUCCESS)?;
        let mut server = server_of_client(&rt, rt.alloc(), rt.alloc())?;
        let writer = begin(MessageClass::Success, ArrayWriter::<192>::new())?;
        let signed = signed_for(&mut server, writer)?.finish();
        assert_eq!(signed.bytes(), expected.as_slice());
        Ok(())
    });
}

#[test]
fn a_server_names_its_reasons() {
    run(|rt| {
        const TEXTS: &[(LongTermServerAuthErrorReason, &str)] = &[
            (
                LongTermServerAuthErrorReason::Unauthorized,
                "The message is not sufficiently authenticated",
            ),
            (
                LongTermServerAuthErrorReason::IntegrityFailed,
                "The message failed integrity checks",
            ),
            (
                LongTermServerAuthErrorReason::UnsupportedFeature,
                "A required feature is not supported",
            ),
            (
                LongTermServerAuthErrorReason::BadRequest,
                "The request message is not well-formed",
            ),
            (
                LongTermServerAuthErrorReason::StaleNonce,
                "The request presented with an out of date nonce.",
            ),
            (LongTermServerAuthErrorReason::OutOfMemory, "Out of memory"),
        ];
        for (reason, text) in TEXTS {
            assert_eq!(
                crate::host::format_in!(rt.alloc(); "{reason}")?.as_str(),
                *text
            );
        }
        Ok(())
    });
}

#[test]
fn a_client_names_its_reasons() {
    run(|rt| {
        const TEXTS: &[(LongTermClientAuthErrorReason, &str)] = &[
            (
                LongTermClientAuthErrorReason::Unauthorized,
                "The message is not sufficiently authenticated",
            ),
            (
                LongTermClientAuthErrorReason::IntegrityFailed,
                "The message failed integrity checks",
            ),
            (
                LongTermClientAuthErrorReason::UnsupportedFeature,
                "A required feature is not supported",
            ),
            (LongTermClientAuthErrorReason::OutOfMemory, "Out of memory"),
        ];
        for (reason, text) in TEXTS {
            assert_eq!(
                crate::host::format_in!(rt.alloc(); "{reason}")?.as_str(),
                *text
            );
        }
        Ok(())
    });
}

/// `Debug` shows no secret with any option of the formatter, even if a write fails.
#[test]
fn debug_shows_nothing_of_a_server() {
    run(|rt| {
        // The user, the realm, the nonce, the password, and a byte of the key.
        const SECRETS: &[&str] = &["user", "realm", "AAAA", "pass", "147"];
        let server = plain_server(rt.alloc(), rt.alloc())?;
        let texts = shown(rt.alloc(), &server)?;
        assert_eq!(texts[0].as_str(), "LongTermServerAuth { .. }");
        assert!(are_silent(&texts, SECRETS));
        Ok(())
    });
}

#[test]
fn names_are_hashed_where_a_client_wants_them() {
    assert_eq!(Feature::default(), Feature::Auto);
}
