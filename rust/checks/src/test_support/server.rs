//! Functions that the tests of the server share.

use crate::exported::stun_auth::auth::{
    LongTermServerAuth, LongTermServerAuthErrorReason, LongTermServerValidation,
};
use crate::exported::stun_base::instant::Instant;
use crate::exported::stun_base::words::WordSource;
use crate::exported::stun_judging::feature::Feature;
use crate::exported::stun_types::attribute::PasswordAlgorithmValue;
use crate::exported::stun_types::message::{
    IntegrityAlgorithm, LongTermCredentials, Message, MessageClass, MessageHeader, MessageWriteVec,
    StunParseError, StunWriteError,
};
use crate::exported::stun_types::prelude::*;
use crate::host::Fail;
use crate::kit::alloc::{AllocError, Allocator, Global};
use crate::kit::prelude::String;
use crate::kit::prelude::Vec;
use crate::test_support::parts::{
    BOTH, FULL_NONCE, Part, SHA256_KEY, begin, message, with_parts,
};
use std::net::{IpAddr, Ipv4Addr, SocketAddr};

/// The verdict of a server.
pub type Answer = Result<IntegrityAlgorithm, LongTermServerAuthErrorReason>;

pub const SHA256: Answer = Ok(IntegrityAlgorithm::Sha256);

/// Random numbers from which a nonce with sixteen letters `A` is made.
pub const ZEROS: [u32; 16] = [0; 16];

/// The attributes of a request that `offering_server` validates.
pub const FULL_REQUEST: [Part<'static>; 6] = [
    Part::Nonce(FULL_NONCE),
    Part::Realm("realm"),
    Part::Username("user"),
    Part::List(BOTH),
    Part::Choice(PasswordAlgorithmValue::SHA256),
    Part::Sha256(&SHA256_KEY),
];

/// Returns an address in 10.0.0.0/24.
pub fn address(last: u8) -> SocketAddr {
    SocketAddr::new(IpAddr::V4(Ipv4Addr::new(10, 0, 0, last)), 12345)
}

/// Returns the user `user` with a password.
pub fn user<A: Allocator + Copy>(
    alloc: A,
    password: &str,
) -> Result<LongTermCredentials<A>, AllocError> {
    let username = String::from_str(alloc, "user")?;
    Ok(LongTermCredentials::new(
        username,
        String::from_str(alloc, password)?,
    ))
}

/// Returns a server of the realm `realm` with only HMAC-SHA1 and the user `user`, who has the
/// password `pass`.
pub fn sha1_server<A: Allocator + Copy>(
    alloc: A,
    feature: Feature,
) -> Result<LongTermServerAuth<A>, AllocError> {
    let mut server = LongTermServerAuth::new(alloc, String::from_str(alloc, "realm")?);
    server.set_anonymous_username(feature)?;
    server.add_user(user(alloc, "pass")?)?;
    Ok(server)
}

/// Returns a server like `sha1_server`, but with both algorithms.
pub fn full_server<A: Allocator + Copy>(
    alloc: A,
    feature: Feature,
) -> Result<LongTermServerAuth<A>, AllocError> {
    let mut server = sha1_server(alloc, feature)?;
    server.add_supported_integrity(IntegrityAlgorithm::Sha256);
    Ok(server)
}

/// Passes a message to a server, and returns the verdict.
pub fn asked<A: Allocator + Copy>(
    server: &mut LongTermServerAuth<A>,
    bytes: &[u8],
    (from, nanos): (SocketAddr, u64),
    words: [u32; 16],
) -> Result<Answer, StunParseError> {
    let message = Message::from_bytes(bytes)?;
    let mut source = WordSource::new(words);
    let now = Instant::from_nanos(nanos);
    match server.validate_incoming_message(&message, from, now, &mut source) {
        Ok(LongTermServerValidation::Validated(algorithm)) => Ok(Ok(algorithm)),
        Err(error) => Ok(Err(error.reason())),
    }
}

/// Passes an unsigned request to a server at time 0.
pub fn knocked<A: Allocator + Copy>(
    alloc: Global,
    server: &mut LongTermServerAuth<A>,
    from: SocketAddr,
    words: [u32; 16],
) -> Result<Answer, Fail> {
    let bytes = message(alloc, MessageClass::Request, &[])?;
    Ok(asked(server, bytes.as_slice(), (from, 0), words)?)
}

/// Signs the message in a writer for the first address.
pub fn signed_for<A: Allocator + Copy, W: MessageWrite>(
    server: &mut LongTermServerAuth<A>,
    writer: W,
) -> Result<W, StunWriteError> {
    if MessageHeader::from_bytes(writer.data()).is_err() {
        return Err(StunWriteError::NotAllowed);
    }
    server.sign_outgoing_message(writer, address(1))
}

/// Returns a message of a class with these attributes, signed for the first address.
pub fn signed_bytes<A: Allocator + Copy>(
    alloc: Global,
    server: &mut LongTermServerAuth<A>,
    class: MessageClass,
    parts: &[Part<'_>],
) -> Result<Vec<u8>, StunWriteError> {
    let writer = with_parts(begin(class, MessageWriteVec::new(alloc))?, parts)?;
    Ok(signed_for(server, writer)?.finish())
}

/// Returns a challenge to the first address.
pub fn signed_challenge<A: Allocator + Copy>(
    alloc: Global,
    server: &mut LongTermServerAuth<A>,
) -> Result<Vec<u8>, StunWriteError> {
    signed_bytes(alloc, server, MessageClass::Error, &[Part::Code(401)])
}

/// Returns a server with both algorithms and hashed names that has made a nonce for the first
/// address, and has offered its list to this address.
pub fn offering_server<A: Allocator + Copy>(
    alloc: Global,
    heap: A,
) -> Result<LongTermServerAuth<A>, Fail> {
    let mut server = full_server(heap, Feature::Auto)?;
    let _challenged = knocked(alloc, &mut server, address(1), ZEROS)?;
    let _offered = signed_challenge(alloc, &mut server)?;
    Ok(server)
}
