//! Plays the calls that add attributes to a message, and that sign it.

use super::{Writer, made_text};
use crate::exported::stun_types::attribute::{AttributeType, RawAttribute, Username};
use crate::exported::stun_types::message::{
    IntegrityAlgorithm, IntegrityKey, LongTermCredentials, MessageIntegrityCredentials,
    ShortTermCredentials, StunWriteError,
};
use crate::exported::stun_types::prelude::*;
use crate::kit::alloc::Global;
use crate::kit::prelude::String as HeapString;
use crate::player::Answer;
use crate::player::stage::Stage;
use crate::player::values::{algorithm, attribute_type, phrase};
use crate::player::words::{text, unhex};

/// The result of a call that writes.
type Made = Result<(), StunWriteError>;

/// The means with which a message is signed and verified.
pub enum Signer {
    Credentials(MessageIntegrityCredentials),
    Key(IntegrityKey),
    /// The bytes of a key.
    Bytes(IntegrityKey),
    /// A key for the call that does not check its conditions.
    Unchecked(IntegrityKey),
}

impl Signer {
    /// Parses `credentials`, `key`, `bytes` or `unchecked`, and the secret.
    pub fn new(way: &str, words: &[&str]) -> Option<Signer> {
        let secret = phrase(words);
        match way {
            "credentials" => Some(Signer::Credentials(credentials(&secret)?)),
            "key" => Some(Signer::Key(key(&secret)?)),
            "bytes" => Some(Signer::Bytes(key(&secret)?)),
            "unchecked" => Some(Signer::Unchecked(key(&secret)?)),
            _ => None,
        }
    }

    fn sign<W: MessageWrite>(&self, writer: &mut W, algorithm: IntegrityAlgorithm) -> Option<Made> {
        if writer.data().len() < 20 {
            return None;
        }
        match self {
            Signer::Credentials(credentials) => {
                Some(writer.add_message_integrity(credentials, algorithm))
            }
            Signer::Key(key) => Some(writer.add_message_integrity_with_key(key, algorithm)),
            Signer::Bytes(key) => {
                let bytes = key.as_bytes();
                Some(writer.add_message_integrity_with_key_bytes(bytes, algorithm))
            }
            Signer::Unchecked(key) => sign_unchecked(writer, key, algorithm),
        }
    }
}

/// Signs with the call that does not check its conditions, if they hold.
fn sign_unchecked<W: MessageWrite>(
    writer: &mut W,
    key: &IntegrityKey,
    algorithm: IntegrityAlgorithm,
) -> Option<Made> {
    if writer.has_attribute(AttributeType::MESSAGE_INTEGRITY)
        || writer.has_attribute(AttributeType::MESSAGE_INTEGRITY_SHA256)
        || writer.data().len() > 1000
        || writer.room() < 36
    {
        return None;
    }
    let signed = writer.add_message_integrity_with_key_unchecked(key, algorithm);
    Some(signed.map_err(|_| StunWriteError::OutOfMemory))
}

/// Parses credentials: `USER:REALM:PASSWORD`, or a password.
fn credentials(word: &str) -> Option<MessageIntegrityCredentials> {
    let owned = |text: &str| HeapString::from(text.to_string());
    let Some((user, rest)) = word.split_once(':') else {
        return Some(ShortTermCredentials::new(owned(word)).into());
    };
    let (realm, password) = rest.split_once(':')?;
    let user = LongTermCredentials::new(owned(user), owned(password));
    Some(user.to_key(owned(realm)).ok()?.into())
}

/// Parses a key: `key:HEX`, or a password.
fn key(word: &str) -> Option<IntegrityKey> {
    let bytes = match word.strip_prefix("key:") {
        Some(digits) => unhex(digits)?,
        None => word.as_bytes().to_vec(),
    };
    IntegrityKey::from_bytes(Global, &bytes).ok()
}

/// Plays `write add TYPE=VALUE`: adds USERNAME with the library's own type, and any other attribute
/// with its number and its bytes: a text, or `0x` and digits.
pub fn add(stage: &mut Stage<'_>, word: &str) -> Answer {
    let (name, value) = word.split_once('=')?;
    if name == "USERNAME" {
        let value = text(value);
        return add_attribute(stage, &Username::new(&value).ok()?);
    }
    let bytes = match value.strip_prefix("0x") {
        Some(digits) => unhex(digits)?,
        None => text(value).into_bytes(),
    };
    add_attribute(stage, &RawAttribute::new(attribute_type(name)?, &bytes))
}

fn add_to<W: MessageWrite, A: Attribute>(writer: &mut W, attribute: &A) -> Option<Made> {
    (writer.data().len() >= 20).then(|| writer.add_attribute(attribute))
}

fn add_attribute<A: Attribute>(stage: &mut Stage<'_>, attribute: &A) -> Answer {
    stage.begin();
    let (made, touched) = match &mut stage.writer {
        Writer::None => return None,
        Writer::Vector(writer) => (add_to(writer, attribute)?, ""),
        Writer::Slice(slice) => slice.with(|writer| add_to(writer, attribute))?,
    };
    Some(touched.to_string() + &made_text(made))
}

/// Plays `write sign WAY ALGORITHM SECRET`.
pub fn sign(stage: &mut Stage<'_>, way: &str, word: &str, secret: &[&str]) -> Answer {
    let algorithm = algorithm(word)?;
    let signer = Signer::new(way, secret)?;
    stage.begin();
    let (made, touched) = match &mut stage.writer {
        Writer::None => return None,
        Writer::Vector(writer) => (signer.sign(writer, algorithm)?, ""),
        Writer::Slice(slice) => slice.with(|writer| signer.sign(writer, algorithm))?,
    };
    Some(touched.to_string() + &made_text(made))
}
