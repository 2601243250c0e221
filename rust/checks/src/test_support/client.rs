//! Functions that the tests of the client share.

use crate::exported::stun_auth::auth::{
    LongTermClientAuth, LongTermClientAuthErrorReason, LongTermClientValidation,
};
use crate::exported::stun_judging::feature::Feature;
use crate::exported::stun_types::message::{IntegrityAlgorithm, Message, StunParseError};
use crate::kit::alloc::{AllocError, Allocator};
use crate::test_support::server::user;

/// The result of passing a message to a client.
#[derive(Clone, Copy, Debug, PartialEq, Eq)]
pub enum Answer {
    Resend(Option<IntegrityAlgorithm>),
    Validated(IntegrityAlgorithm),
    Refused(LongTermClientAuthErrorReason),
}

pub const RESEND: Answer = Answer::Resend(None);

pub const SHA1: Answer = Answer::Validated(IntegrityAlgorithm::Sha1);

/// Returns a client of the user `user` with the password `pass`, which supports only HMAC-SHA1.
pub fn sha1_client<A: Allocator + Copy>(
    alloc: A,
    feature: Feature,
) -> Result<LongTermClientAuth<A>, AllocError> {
    let mut client = LongTermClientAuth::new(alloc);
    client.set_anonymous_username(feature);
    client.set_credentials(user(alloc, "pass")?);
    Ok(client)
}

/// Returns a client like `sha1_client`, but with both algorithms, the weaker first.
pub fn full_client<A: Allocator + Copy>(
    alloc: A,
    feature: Feature,
) -> Result<LongTermClientAuth<A>, AllocError> {
    let mut client = sha1_client(alloc, feature)?;
    client.add_supported_integrity(IntegrityAlgorithm::Sha256);
    Ok(client)
}

/// Passes a message to a client, and returns the result.
pub fn told<A: Allocator + Copy>(
    client: &mut LongTermClientAuth<A>,
    bytes: &[u8],
) -> Result<Answer, StunParseError> {
    let message = Message::from_bytes(bytes)?;
    Ok(match client.validate_incoming_message(&message) {
        Ok(LongTermClientValidation::ResendRequest(digest)) => Answer::Resend(digest),
        Ok(LongTermClientValidation::Validated(algorithm)) => Answer::Validated(algorithm),
        Err(error) => Answer::Refused(error.reason()),
    })
}
