//! Plays the calls of short-term credentials (RFC 8489, section 9.1): `short-term NAME WORD ..`.

use super::names::{or_none, validate_error};
use super::signing::{Side, sign, sign_in_slice};
use super::stage::Stage;
use super::unchecked::sign_unchecked;
use super::values::{algorithm, phrase};
use super::words::hex;
use super::{Answer, OUT_OF_MEMORY};
use crate::exported::stun_auth::auth::ShortTermAuth;
use crate::exported::stun_types::message::{Message, ShortTermCredentials};

/// Plays `short-term NAME WORD ..`.
pub fn call(stage: &mut Stage<'_>, words: &[&str]) -> Answer {
    match words {
        ["new"] => {
            stage.begin();
            stage.short_term = ShortTermAuth::new(stage.heap);
            Some(String::new())
        }
        ["password", algorithm, words @ ..] => set_password(stage, algorithm, words),
        ["hears", words @ ..] => hear(stage, words),
        ["signs", words @ ..] => sign(stage, Side::ShortTerm, words),
        ["signs-in", room, words @ ..] => sign_in_slice(stage, Side::ShortTerm, room, words),
        ["signs-unchecked"] => sign_unchecked(stage, Side::ShortTerm),
        ["credentials"] => Some(match stage.short_term.credentials() {
            Some((credentials, algorithm)) => format!("{algorithm:?} {}", credentials.password()),
            None => "none".to_string(),
        }),
        ["key"] => Some(match stage.short_term.integrity_key() {
            Some(key) => hex(key.as_bytes()),
            None => "none".to_string(),
        }),
        // The number of bytes that signing adds.
        ["size"] => Some(stage.short_term.message_signature_bytes().to_string()),
        _ => None,
    }
}

/// Plays `short-term password ALGORITHM PASSWORD`: sets the password, and the algorithm to sign
/// with.
fn set_password(stage: &mut Stage<'_>, word: &str, words: &[&str]) -> Answer {
    let algorithm = algorithm(word)?;
    let password = stage.on_heap(&phrase(words))?;
    stage.begin();
    let credentials = ShortTermCredentials::new(password);
    match stage.short_term.set_credentials(credentials, algorithm) {
        Ok(_) => Some(String::new()),
        Err(_) => Some(OUT_OF_MEMORY.to_string()),
    }
}

/// Plays `short-term hears MESSAGE`: prints the algorithm of a message that is accepted, `none`
/// without credentials, or why it is refused.
fn hear(stage: &mut Stage<'_>, words: &[&str]) -> Answer {
    let bytes = stage.message(words)?;
    let message = Message::from_bytes(&bytes).ok()?;
    stage.begin();
    Some(match stage.short_term.validate_incoming_message(&message) {
        Ok(algorithm) => or_none(algorithm),
        Err(error) => validate_error(error),
    })
}
