//! Tests of what `Debug` shows of a client's authenticators, of messages that a client signs in a
//! writer that the test defines, and of refusals, which name no algorithm.
//!
//! Python's module `hmac` computed the digests.
use crate::api::array_writer::ArrayWriter;
use crate::api::run;
use crate::api::shown::{are_silent, shown};
use crate::api::support::{ONES, plain_server, signed_by};
use crate::exported::stun_auth::auth::{LongTermClientAuth, LongTermServerAuth, ShortTermAuth};
use crate::exported::stun_base::instant::Instant;
use crate::exported::stun_base::words::WordSource;
use crate::exported::stun_judging::feature::Feature;
use crate::exported::stun_types::data::OwnedBytes;
use crate::exported::stun_types::message::{
    IntegrityAlgorithm, Message, MessageClass, ShortTermCredentials,
};
use crate::exported::stun_types::prelude::*;
use crate::host::Abort;
use crate::host::Fail;
use crate::kit::alloc::Global;
use crate::kit::prelude::String;
use crate::test_support::client::{RESEND, SHA1, full_client, sha1_client, told};
use crate::test_support::parts::begin;
use crate::test_support::server::address;
use crate::test_support::spelled::bytes_of;
use std::fmt::Debug;

/// Two passwords, and a byte of each key that is made of them.
const SECRETS: [&str; 4] = ["pass", "wonderland", "147", "119"];

/// The challenge of a server with HMAC-SHA1 and plain names, without a list.
const PLAIN_CHALLENGE: &str =
    "01110034 2112a442 000000000000000000000001 00090010 00000401 556e617574686f72697a6564
    00150010 41414141414141414141414141414141 00140005 7265616c6d000000";

/// The request that answers `PLAIN_CHALLENGE`.
const PLAIN_REQUEST: &str =
    "00010040 2112a442 000000000000000000000001 00150010 41414141414141414141414141414141
    00140005 7265616c6d000000 00060004 75736572 00080014 b0f2dc4f7ce5b00b393c1695d81c24a22ce5a77e";

/// A success that is signed with the key of `PLAIN_REQUEST`.
const SUCCESS: &str =
    "01010018 2112a442 000000000000000000000001 00080014 b03215c7060d52ab73f40ee4fffb1e125e43057e";

/// The challenge of a server with both algorithms.
const CHALLENGE: &str = "01110050 2112a442 000000000000000000000001
    00090010 00000401 556e617574686f72697a6564
    0015001d 6f624d61744a6f73327741414141414141414141414141414141414141000000
    00140005 7265616c6d000000 80020008 0002000000010000";

/// The request that answers `CHALLENGE`, with HMAC-SHA256 and a hashed name.
const REQUEST: &str = "0001008c 2112a442 000000000000000000000001
    0015001d 6f624d61744a6f73327741414141414141414141414141414141414141000000
    00140005 7265616c6d000000
    001e0020 6a3029116b47aa98bcaa325399733dc1a23cd57e26b81bef3ff6531ce624e2da
    80020008 0002000000010000
    001d0004 00020000 001c0020 a39a7c5e8b2f5a8ecfafa847561ba67c2da48ae2ab88cdc0e5015c77239cf963";

/// Checks what `Debug` shows of a value, and that it shows no secret with any option of the
/// formatter.
fn expect_silent<T: Debug>(
    rt: &impl Abort,
    alloc: Global,
    value: &T,
    expected: &str,
) -> Result<(), Fail> {
    assert!(are_silent(&shown(alloc, value)?, &SECRETS));
    assert_eq!(
        crate::host::format_in!(alloc; "{value:?}")?.as_str(),
        expected
    );
    Ok(())
}

/// A client whose key is confirmed.
#[test]
fn a_long_term_authenticator_is_silent() {
    run(|rt| {
        let challenge = bytes_of(rt.alloc(), PLAIN_CHALLENGE)?;
        let success = bytes_of(rt.alloc(), SUCCESS)?;
        let mut client = sha1_client(rt.alloc(), Feature::Auto)?;
        assert_eq!(told(&mut client, challenge.as_slice())?, RESEND);
        assert_eq!(told(&mut client, success.as_slice())?, SHA1);
        expect_silent(&rt, rt.alloc(), &client, "LongTermClientAuth { .. }")
    });
}

/// Returns an authenticator with short-term credentials.
fn short_term(alloc: Global, password: String) -> Result<ShortTermAuth, Fail> {
    let mut auth = ShortTermAuth::new(alloc);
    auth.set_credentials(
        ShortTermCredentials::new(password),
        IntegrityAlgorithm::Sha1,
    )?;
    Ok(auth)
}

#[test]
fn a_short_term_authenticator_is_silent() {
    run(|rt| {
        let auth = short_term(rt.alloc(), String::from_str(rt.alloc(), "wonderland")?)?;
        expect_silent(&rt, rt.alloc(), &auth, "ShortTermAuth { .. }")
    });
}

/// Returns a client with both algorithms that has accepted the challenge of a server with both.
fn challenged_client(rt: &impl Abort, alloc: Global) -> Result<LongTermClientAuth, Fail> {
    let challenge = bytes_of(alloc, CHALLENGE)?;
    let mut client = full_client(alloc, Feature::Auto)?;
    assert_eq!(told(&mut client, challenge.as_slice())?, RESEND);
    Ok(client)
}

#[test]
fn another_writer_takes_the_signed_message() {
    run(|rt| {
        let mut client = challenged_client(&rt, rt.alloc())?;
        let expected = bytes_of(rt.alloc(), REQUEST)?;
        let writer = begin(MessageClass::Request, ArrayWriter::<192>::new())?;
        let written = signed_by(&mut client, writer)?.finish();
        assert_eq!(written.bytes(), expected.as_slice());
        Ok(())
    });
}

/// Returns the algorithm in a server's refusal of a request from the second address.
fn told_by_server(
    server: &mut LongTermServerAuth,
    request: &[u8],
) -> Result<Option<IntegrityAlgorithm>, Fail> {
    let request = Message::from_bytes(request)?;
    let mut words = WordSource::new(ONES);
    match server.validate_incoming_message(&request, address(2), Instant::ZERO, &mut words) {
        Ok(_) => Err(Fail::from("the server validates the request")),
        Err(error) => Ok(error.integrity()),
    }
}

/// Returns the algorithm in a client's refusal of a challenge.
fn told_by_client(
    client: &mut LongTermClientAuth,
    challenge: &[u8],
) -> Result<Option<IntegrityAlgorithm>, Fail> {
    let challenge = Message::from_bytes(challenge)?;
    match client.validate_incoming_message(&challenge) {
        Ok(_) => Err(Fail::from("the client takes up the challenge")),
        Err(error) => Ok(error.integrity()),
    }
}

/// A server's refusal has no algorithm, even if the signature is valid and only the nonce is that
/// of another address.
#[test]
fn a_servers_refusal_tells_no_digest() {
    run(|rt| {
        let bytes = bytes_of(rt.alloc(), PLAIN_REQUEST)?;
        let mut server = plain_server(rt.alloc(), rt.alloc())?;
        assert_eq!(told_by_server(&mut server, bytes.as_slice())?, None);
        Ok(())
    });
}

/// The refusal of a client without credentials has no algorithm.
#[test]
fn a_clients_refusal_tells_no_digest() {
    run(|rt| {
        let challenge = bytes_of(rt.alloc(), CHALLENGE)?;
        let mut client = LongTermClientAuth::new(rt.alloc());
        assert_eq!(told_by_client(&mut client, challenge.as_slice())?, None);
        Ok(())
    });
}
