//! Plays the calls of a server with long-term credentials: `server NAME WORD ..`.

use super::names::or_none;
use super::signing::{Side, sign, sign_in_slice, sign_length};
use super::stage::Stage;
use super::unchecked::sign_unchecked;
use super::values::{algorithm, feature};
use super::words::{address, number, span, text};
use super::{Answer, OUT_OF_MEMORY};
use crate::exported::stun_auth::auth::{
    LongTermServerAuth, LongTermServerValidation, minimum_nonce_expiry_duration,
};
use crate::exported::stun_base::words::WordSource;
use crate::exported::stun_types::message::{LongTermCredentials, Message};
use std::time::Duration;

/// Plays `server NAME WORD ..`.
pub fn call(stage: &mut Stage<'_>, words: &[&str]) -> Answer {
    match words {
        // The calls that judge and sign messages.
        ["hears", words @ ..] => hear(stage, words),
        ["signs", words @ ..] => sign(stage, Side::Server, words),
        ["signs-length", words @ ..] => sign_length(stage, Side::Server, words),
        ["signs-in", room, words @ ..] => sign_in_slice(stage, Side::Server, room, words),
        ["signs-unchecked"] => sign_unchecked(stage, Side::Server),
        // The calls that report the state of the server.
        ["nonce"] => Some(
            stage
                .server
                .nonce_for_client(stage.from)
                .unwrap_or("none")
                .into(),
        ),
        ["client"] => Some(match stage.server.client(stage.from) {
            Some((user, algorithm)) => format!("{user} {algorithm:?}"),
            None => "none".to_string(),
        }),
        // The number of bytes that signing adds to a request to the address, and to a response.
        ["sizes"] => {
            let size = |is_request| stage.server.message_signature_bytes(stage.from, is_request);
            Some(format!("{} {}", size(true), size(false)))
        }
        ["supported"] => Some(supported(stage)),
        ["realm"] => Some(stage.server.realm().to_string()),
        ["hashes"] => Some(format!("{:?}", stage.server.anonymous_username())),
        // The shortest nonce lifetime, in nanoseconds.
        ["expiry"] => Some(minimum_nonce_expiry_duration().as_nanos().to_string()),
        words => change(stage, words),
    }
}

/// Plays the calls that change settings, users and records.
fn change(stage: &mut Stage<'_>, words: &[&str]) -> Answer {
    match words {
        ["new", realm] => {
            let realm = stage.text(realm)?;
            stage.begin();
            stage.server = LongTermServerAuth::new(stage.heap, realm);
        }
        ["add-user", name, password] => return add_user(stage, name, password),
        ["remove-user", name] => {
            let name = text(name);
            stage.begin();
            stage.server.remove_user(&name);
        }
        ["support", word] => {
            let algorithm = algorithm(word)?;
            stage.begin();
            stage.server.add_supported_integrity(algorithm);
        }
        ["support-only", word] => {
            let algorithm = algorithm(word)?;
            stage.begin();
            stage.server.set_supported_integrity(algorithm);
        }
        ["hashes", word] => {
            let feature = feature(word)?;
            stage.begin();
            if stage.server.set_anonymous_username(feature).is_err() {
                return Some(OUT_OF_MEMORY.to_string());
            }
        }
        ["expiry", word] if *word != "max" => {
            let lifetime = span(word)?;
            if lifetime < Duration::from_secs(30) {
                return None;
            }
            stage.begin();
            stage.server.set_nonce_expiry_duration(lifetime);
        }
        words => return forget(stage, words),
    }
    Some(String::new())
}

/// Plays the calls that remove records of addresses.
fn forget(stage: &mut Stage<'_>, words: &[&str]) -> Answer {
    match words {
        ["remove-client"] => {
            stage.begin();
            stage.server.remove_client(stage.from);
        }
        // Removes the records without a client whose nonces have expired.
        ["forget"] => {
            stage.begin();
            stage.server.forget_expired(stage.now);
        }
        ["forget", word] => {
            let address = address(word)?;
            stage.begin();
            stage.server.forget(address);
        }
        // Like `forget`, for at most COUNT records from an address on. Prints the next address.
        ["forget-some", count, from @ ..] => {
            let count = usize::try_from(number(count)?).ok()?;
            let from = match from {
                [] => None,
                [word] => Some(address(word)?),
                _ => return None,
            };
            stage.begin();
            let next = stage.server.forget_expired_within(stage.now, from, count);
            return Some(or_none(next));
        }
        _ => return None,
    }
    Some(String::new())
}

fn add_user(stage: &mut Stage<'_>, name: &str, password: &str) -> Answer {
    let user = LongTermCredentials::new(stage.text(name)?, stage.on_heap(password)?);
    stage.begin();
    match stage.server.add_user(user) {
        Ok(_) => Some(String::new()),
        Err(_) => Some(OUT_OF_MEMORY.to_string()),
    }
}

/// Plays `server hears MESSAGE`: prints the algorithm of a message that is accepted, or why it is
/// refused.
fn hear(stage: &mut Stage<'_>, words: &[&str]) -> Answer {
    let bytes = stage.message(words)?;
    let message = Message::from_bytes(&bytes).ok()?;
    let mut source = WordSource::new(stage.draws);
    stage.begin();
    let (from, now) = (stage.from, stage.now);
    let verdict = stage
        .server
        .validate_incoming_message(&message, from, now, &mut source);
    Some(match verdict {
        Ok(LongTermServerValidation::Validated(algorithm)) => format!("{algorithm:?}"),
        Err(error) => format!("{:?}", error.reason()),
    })
}

/// Returns the supported algorithms, the strongest first.
fn supported(stage: &Stage<'_>) -> String {
    let algorithms = stage.server.supported_integrity().iter();
    let names: Vec<String> = algorithms.map(|one| format!("{one:?}")).collect();
    names.join(" ")
}
