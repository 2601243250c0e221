//! Builds messages from lists of attributes.

use crate::exported::stun_types::attribute::{
    AttributeType, ErrorCode, Nonce, PasswordAlgorithm, PasswordAlgorithmValue, PasswordAlgorithms,
    RawAttribute, Realm, Userhash, Username,
};
use crate::exported::stun_types::message::{
    BINDING, IntegrityAlgorithm, Message, MessageClass, MessageType, MessageWriteVec,
    StunWriteError, TransactionId,
};
use crate::exported::stun_types::prelude::*;
use crate::kit::alloc::Global;
use crate::kit::prelude::Vec;

/// MD5 of `user:realm:pass`, as RFC 8489, section 9.2.2, prints it.
pub const MD5_KEY: [u8; 16] = [
    0x84, 0x93, 0xfb, 0xc5, 0x3b, 0xa5, 0x82, 0xfb, 0x4c, 0x04, 0x4c, 0x45, 0x6b, 0xdc, 0x40, 0xeb,
];

/// SHA-256 of `user:realm:pass`, from Python's module `hashlib`.
pub const SHA256_KEY: [u8; 32] = [
    0x07, 0xe9, 0x34, 0x11, 0x7a, 0xbd, 0x40, 0x83, 0x6e, 0x7c, 0x63, 0x29, 0xb5, 0x47, 0x31, 0xb2,
    0xb2, 0xd2, 0xa5, 0xf9, 0xa7, 0x1f, 0x54, 0x49, 0x22, 0xd7, 0x5e, 0x07, 0x30, 0xd8, 0x25, 0x1b,
];

/// The nonce that a server with only HMAC-SHA1 and plain names makes of random numbers 0.
pub const PLAIN_NONCE: &str = "AAAAAAAAAAAAAAAA";

/// The nonce that a server with both algorithms and hashed names makes of random numbers 0.
pub const FULL_NONCE: &str = "obMatJos2wAAAAAAAAAAAAAAAAAAA";

/// The list that a server with both algorithms offers.
pub const BOTH: &[PasswordAlgorithmValue] =
    &[PasswordAlgorithmValue::SHA256, PasswordAlgorithmValue::MD5];

/// An attribute that a test adds.
#[derive(Clone, Copy)]
pub enum Part<'a> {
    Code(u16),
    Nonce(&'a str),
    Realm(&'a str),
    Username(&'a str),
    Userhash([u8; 32]),
    List(&'a [PasswordAlgorithmValue]),
    Choice(PasswordAlgorithmValue),
    /// Any type with any value.
    Raw(u16, &'a [u8]),
    /// MESSAGE-INTEGRITY with a key.
    Sha1(&'a [u8]),
    /// MESSAGE-INTEGRITY-SHA256 with a key.
    Sha256(&'a [u8]),
}

/// Begins a message of a class with ID 1 in an empty writer.
pub fn begin<W: MessageWrite>(class: MessageClass, writer: W) -> Result<W, StunWriteError> {
    let id = TransactionId::from_u128(1).ok_or(StunWriteError::NotAllowed)?;
    Message::builder(MessageType::from_class_method(class, BINDING), id, writer)
}

/// Adds an attribute after a header.
fn add<W: MessageWrite, A: Attribute>(writer: &mut W, attribute: &A) -> Result<(), StunWriteError> {
    if writer.data().len() < 20 {
        return Err(StunWriteError::NotAllowed);
    }
    writer.add_attribute(attribute)
}

/// Adds an integrity attribute after a header.
fn sign<W: MessageWrite>(
    writer: &mut W,
    key: &[u8],
    algorithm: IntegrityAlgorithm,
) -> Result<(), StunWriteError> {
    if writer.data().len() < 20 {
        return Err(StunWriteError::NotAllowed);
    }
    writer.add_message_integrity_with_key_bytes(key, algorithm)
}

fn add_part<W: MessageWrite>(writer: &mut W, part: Part<'_>) -> Result<(), StunWriteError> {
    match part {
        Part::Code(code) => add(writer, &ErrorCode::builder(code).build()?),
        Part::Nonce(text) => add(writer, &Nonce::new(text)?),
        Part::Realm(text) => add(writer, &Realm::new(text)?),
        Part::Username(text) => add(writer, &Username::new(text)?),
        Part::Userhash(hash) => add(writer, &Userhash::new(hash)),
        Part::List(list) => add(writer, &PasswordAlgorithms::new(list)),
        Part::Choice(algorithm) => add(writer, &PasswordAlgorithm::new(algorithm)),
        Part::Raw(kind, value) => add(writer, &RawAttribute::new(AttributeType::new(kind), value)),
        Part::Sha1(key) => sign(writer, key, IntegrityAlgorithm::Sha1),
        Part::Sha256(key) => sign(writer, key, IntegrityAlgorithm::Sha256),
    }
}

/// Adds attributes in their order.
pub fn with_parts<W: MessageWrite>(writer: W, parts: &[Part<'_>]) -> Result<W, StunWriteError> {
    let mut writer = writer;
    for part in parts {
        add_part(&mut writer, *part)?;
    }
    Ok(writer)
}

/// Returns a message of a class with ID 1 and these attributes.
pub fn message(
    alloc: Global,
    class: MessageClass,
    parts: &[Part<'_>],
) -> Result<Vec<u8>, StunWriteError> {
    let writer = begin(class, MessageWriteVec::new(alloc))?;
    Ok(with_parts(writer, parts)?.finish())
}
