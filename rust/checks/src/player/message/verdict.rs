//! Plays the calls that check the signature of a message, each with every kind of key.

use crate::exported::stun_types::attribute::AttributeType;
use crate::exported::stun_types::message::{
    IntegrityAlgorithm, IntegrityKey, LongTermCredentials, Message, MessageIntegrityCredentials,
    ShortTermCredentials, StunParseError, ValidateError, long_term_key,
};
use crate::kit::alloc::Global;
use crate::player::names::validate_error;
use crate::player::stage::Stage;
use crate::player::values::attribute_type;
use crate::player::words::{text, unhex};
use crate::player::{Answer, Heap, OUT_OF_MEMORY};

type Verdict = Result<IntegrityAlgorithm, ValidateError>;

/// Returns the text of a verdict, and of each other verdict that differs from it.
fn verdict_text(verdict: Verdict, others: &[Verdict]) -> String {
    let one = |verdict: Verdict| match verdict {
        Ok(algorithm) => format!("{algorithm:?}"),
        Err(error) => validate_error(error),
    };
    let others = others.iter().filter(|other| **other != verdict);
    others.fold(one(verdict), |text, other| text + ", " + &one(*other))
}

/// Returns the verdict with the bytes of a key, and compares it with the verdict with credentials
/// that have this key.
fn by_key<'a>(
    stage: &mut Stage<'a>,
    bytes: &[u8],
    credentials: Option<MessageIntegrityCredentials<&'a Heap>>,
    message: &Message<'_>,
) -> String {
    stage.begin();
    let Ok(key) = IntegrityKey::from_bytes(stage.heap, bytes) else {
        return OUT_OF_MEMORY.to_string();
    };
    let verdict = message.validate_integrity_with_key(&key);
    let mut others = vec![message.validate_integrity_with_key_bytes(bytes)];
    others.extend(credentials.map(|credentials| message.validate_integrity(&credentials)));
    verdict_text(verdict, &others)
}

/// Returns the algorithm of the attribute that decides: the stronger algorithm, if its attribute is
/// visible.
fn deciding(message: &Message<'_>) -> IntegrityAlgorithm {
    let stronger = AttributeType::MESSAGE_INTEGRITY_SHA256;
    match message
        .iter_attributes()
        .any(|(_, attribute)| attribute.get_type() == stronger)
    {
        true => IntegrityAlgorithm::Sha256,
        false => IntegrityAlgorithm::Sha1,
    }
}

/// Returns the verdict with a user's name, realm and password: as long-term credentials, and as the
/// key that is derived from them.
fn by_user(
    stage: &mut Stage<'_>,
    [name, realm, password]: [&str; 3],
    message: &Message<'_>,
) -> Answer {
    let (name, realm) = (stage.text(name)?, stage.text(realm)?);
    let password = stage.text(password)?;
    let algorithm = deciding(message);
    let key: IntegrityKey = long_term_key(Global, algorithm, &name, &realm, &password);
    stage.begin();
    let Ok(user) = LongTermCredentials::new(name, password).to_key(realm) else {
        return Some(OUT_OF_MEMORY.to_string());
    };
    let verdict = message.validate_integrity(&MessageIntegrityCredentials::from(user));
    Some(verdict_text(
        verdict,
        &[message.validate_integrity_with_key(&key)],
    ))
}

/// Plays `message verifies KEY MESSAGE`: prints the algorithm of the valid signature, or why none
/// is valid. KEY is `key:HEX`, `USER:REALM:PASSWORD` or `PASSWORD`.
pub fn verify(stage: &mut Stage<'_>, key: &str, words: &[&str]) -> Answer {
    let bytes = stage.message(words)?;
    let message = Message::from_bytes(&bytes).ok()?;
    match key.split_once(':') {
        Some(("key", digits)) => Some(by_key(stage, &unhex(digits)?, None, &message)),
        Some((name, rest)) => {
            let (realm, password) = rest.split_once(':')?;
            by_user(stage, [name, realm, password], &message)
        }
        // A password is a short-term credential, and its bytes are the key.
        None => {
            let password = text(key);
            let credentials = ShortTermCredentials::new(stage.on_heap(&password)?);
            let credentials = MessageIntegrityCredentials::from(credentials);
            let credentials = Some(credentials);
            Some(by_key(stage, password.as_bytes(), credentials, &message))
        }
    }
}

/// Returns the verdict on a request whose signature is zeros, and the number of its visible
/// attributes.
fn zeros_verdict(stage: &Stage<'_>, words: &[&str]) -> Option<(Verdict, usize)> {
    let bytes = stage.carrier(words)?;
    let message = Message::from_bytes(&bytes).ok()?;
    let key: IntegrityKey = IntegrityKey::from_bytes(Global, b"key").ok()?;
    let verdict = message.validate_integrity_with_key(&key);
    Some((verdict, message.iter_attributes().count()))
}

/// Plays `message digest-lengths TYPE`: prints the lengths from 0 to 40 bytes at which a signature
/// of zeros is compared, both alone and before FINGERPRINT. A signature of any other length is
/// malformed.
pub fn digest_lengths(stage: &Stage<'_>, name: &str) -> Answer {
    const MALFORMED: Verdict = Err(ValidateError::Parse(StunParseError::InvalidAttributeData));
    attribute_type(name)?;
    let mut answer = "compared:".to_string();
    for length in 0..41 {
        let word = format!("{name}=0x{}", "00".repeat(length));
        let (alone, one) = zeros_verdict(stage, &[&word])?;
        let (both, two) = zeros_verdict(stage, &[&word, "FINGERPRINT=00000000"])?;
        let is_compared = alone == Err(ValidateError::IntegrityFailed);
        if alone != both || one != 1 || two != 2 || !is_compared && alone != MALFORMED {
            answer += &format!(" ?{length}");
        } else if is_compared {
            answer += &format!(" {length}");
        }
    }
    Some(answer)
}
