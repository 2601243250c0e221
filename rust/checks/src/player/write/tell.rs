//! Plays the calls that report what a writer contains.

use super::Writer;
use super::steps::Signer;
use crate::exported::stun_types::attribute::Username;
use crate::exported::stun_types::message::{Message, MessageClass, MessageHeader};
use crate::exported::stun_types::prelude::*;
use crate::player::Answer;
use crate::player::names::validate_error;
use crate::player::stage::Stage;
use crate::player::values::{attribute_type, size};
use crate::player::words::hex;

/// Plays the calls that read the message.
pub fn call(stage: &mut Stage<'_>, words: &[&str]) -> Answer {
    stage.begin();
    match &mut stage.writer {
        Writer::None => Some("none".to_string()),
        Writer::Vector(writer) => told(writer, words),
        Writer::Slice(slice) => Some(slice.with(|writer| told(writer, words))?.0),
    }
}

fn told<W: MessageWrite>(writer: &W, words: &[&str]) -> Answer {
    let yes_or_no = |is_so| Some(if is_so { "yes" } else { "no" }.to_string());
    match words {
        ["bytes"] => Some(hex(writer.data())),
        // The first LENGTH bytes.
        ["bytes", length] => Some(hex(writer.data().get(..size(length)?)?)),
        ["length"] => Some(writer.data().len().to_string()),
        ["room"] => Some(writer.room().to_string()),
        // Whether the message has this attribute.
        ["has", name] => {
            let kind = attribute_type(name)?;
            (writer.data().len() >= 20).then_some(())?;
            yes_or_no(writer.has_attribute(kind))
        }
        ["username"] => username(writer.data()),
        words => {
            MessageHeader::from_bytes(writer.data()).ok()?;
            match words {
                ["class"] => Some(class(writer)),
                ["is-response"] => yes_or_no(writer.is_response()),
                ["id"] => Some(format!("{:024x}", writer.transaction_id().as_u128())),
                _ => None,
            }
        }
    }
}

/// Returns each class that the message has, which is exactly one.
fn class<W: MessageWrite>(writer: &W) -> String {
    let classes = [
        (MessageClass::Request, "request"),
        (MessageClass::Indication, "indication"),
        (MessageClass::Success, "success"),
        (MessageClass::Error, "error"),
    ];
    let classes = classes.iter().filter(|(class, _)| writer.has_class(*class));
    classes.map(|(_, name)| *name).collect()
}

/// Returns the user name that is parsed from the message.
fn username(bytes: &[u8]) -> Answer {
    let message = Message::from_bytes(bytes).ok()?;
    Some(match message.attribute::<Username<'_>>() {
        Ok(username) => username.username().to_string(),
        Err(_) => "none".to_string(),
    })
}

/// Plays `write check WAY SECRET`: prints the algorithm of the signature, or why it is refused.
pub fn check(stage: &mut Stage<'_>, way: &str, secret: &[&str]) -> Answer {
    let signer = Signer::new(way, secret)?;
    stage.begin();
    let bytes = match &stage.writer {
        Writer::None => return Some("none".to_string()),
        Writer::Vector(writer) => writer.data(),
        Writer::Slice(slice) => &slice.written,
    };
    let message = Message::from_bytes(bytes).ok()?;
    let verdict = match &signer {
        Signer::Credentials(credentials) => message.validate_integrity(credentials),
        Signer::Key(key) => message.validate_integrity_with_key(key),
        Signer::Bytes(key) => message.validate_integrity_with_key_bytes(key.as_bytes()),
        Signer::Unchecked(_) => return None,
    };
    match verdict {
        Ok(algorithm) => Some(format!("{algorithm:?}")),
        Err(error) => Some(validate_error(error)),
    }
}
