//! Plays the calls of a client with long-term credentials: `client NAME WORD ..`.

use super::Answer;
use super::names::or_none;
use super::signing::{Side, sign, sign_in_slice, sign_length};
use super::stage::Stage;
use super::unchecked::sign_unchecked;
use super::values::{algorithm, feature};
use crate::exported::stun_auth::auth::{LongTermClientAuth, LongTermClientValidation};
use crate::exported::stun_types::message::{LongTermCredentials, Message};

/// Plays `client NAME WORD ..`.
pub fn call(stage: &mut Stage<'_>, words: &[&str]) -> Answer {
    match words {
        // The calls that judge and sign messages.
        ["hears", words @ ..] => hear(stage, words),
        ["signs", words @ ..] => sign(stage, Side::Client, words),
        ["signs-length", words @ ..] => sign_length(stage, Side::Client, words),
        ["signs-in", room, words @ ..] => sign_in_slice(stage, Side::Client, room, words),
        ["signs-unchecked"] => sign_unchecked(stage, Side::Client),
        // The calls that report the state of the client.
        ["user"] => Some(match stage.client.credentials() {
            Some(user) => format!("{} {}", user.username(), user.password()),
            None => "none".to_string(),
        }),
        ["hashes"] => Some(format!("{:?}", stage.client.anonymous_username())),
        ["supported"] => Some(supported(stage)),
        // The number of bytes that signing adds to a request.
        ["size"] => Some(stage.client.message_signature_bytes().to_string()),
        ["algorithm"] => Some(or_none(stage.client.signing_algorithm())),
        words => change(stage, words),
    }
}

/// Plays the calls that change the client.
fn change(stage: &mut Stage<'_>, words: &[&str]) -> Answer {
    match words {
        ["new"] => {
            stage.begin();
            stage.client = LongTermClientAuth::new(stage.heap);
        }
        ["user", name, password] => {
            let user = LongTermCredentials::new(stage.text(name)?, stage.text(password)?);
            stage.begin();
            stage.client.set_credentials(user);
        }
        ["hashes", word] => {
            let feature = feature(word)?;
            stage.begin();
            stage.client.set_anonymous_username(feature);
        }
        ["support", word] => {
            let algorithm = algorithm(word)?;
            stage.begin();
            stage.client.add_supported_integrity(algorithm);
        }
        ["support-only", word] => {
            let algorithm = algorithm(word)?;
            stage.begin();
            stage.client.set_supported_integrity(algorithm);
        }
        _ => return None,
    }
    Some(String::new())
}

/// Returns the supported algorithms, in the order in which they were added.
fn supported(stage: &Stage<'_>) -> String {
    let algorithms = stage.client.supported_integrity().iter();
    let names: Vec<String> = algorithms.map(|one| format!("{one:?}")).collect();
    names.join(" ")
}

/// Plays `client hears MESSAGE`: prints the algorithm of a response that is accepted, `resend` and
/// the algorithm of a challenge that is answered, or why the response is refused.
fn hear(stage: &mut Stage<'_>, words: &[&str]) -> Answer {
    let bytes = stage.message(words)?;
    let message = Message::from_bytes(&bytes).ok()?;
    stage.begin();
    Some(match stage.client.validate_incoming_message(&message) {
        Ok(LongTermClientValidation::ResendRequest(None)) => "resend".to_string(),
        Ok(LongTermClientValidation::ResendRequest(Some(algorithm))) => {
            format!("resend {algorithm:?}")
        }
        Ok(LongTermClientValidation::Validated(algorithm)) => format!("{algorithm:?}"),
        Err(error) => format!("{:?}", error.reason()),
    })
}
