//! Plays the calls that parse attributes as their types.

use crate::exported::stun_types::attribute::{
    ErrorCode, MessageIntegrity, MessageIntegritySha256, Nonce, PasswordAlgorithm,
    PasswordAlgorithmValue, PasswordAlgorithms, RawAttribute, Realm, Userhash, Username,
    XorMappedAddress,
};
use crate::exported::stun_types::message::{Message, TransactionId};
use crate::exported::stun_types::prelude::*;
use crate::player::Answer;
use crate::player::names::parse_error_with_type;
use crate::player::words::{hex, shown_text};

/// The source of an attribute: the attribute itself, or a message with a visible attribute of this
/// type.
pub enum Found<'a> {
    Attribute(RawAttribute<'a>),
    Message(Message<'a>),
}

/// Returns the value of an attribute that is parsed as a type, or why it cannot be parsed.
fn read<'a, A: AttributeFromRaw<'a> + AttributeStaticType>(
    found: Found<'a>,
    value: impl FnOnce(A) -> String,
) -> String {
    let read = match found {
        Found::Attribute(attribute) => A::from_raw(attribute),
        Found::Message(message) => message.attribute(),
    };
    read.map_or_else(parse_error_with_type, value)
}

/// Returns the code of an error, and its phrase if there is one.
pub fn error_text(error: &ErrorCode<'_>) -> String {
    match error.reason() {
        "" => error.code().to_string(),
        reason => format!("{} {}", error.code(), shown_text(reason.as_bytes())),
    }
}

pub fn algorithm_word(algorithm: PasswordAlgorithmValue) -> &'static str {
    match algorithm {
        PasswordAlgorithmValue::MD5 => "MD5",
        PasswordAlgorithmValue::SHA256 => "SHA256",
    }
}

/// Returns the algorithms of a list, or `-`. `otherwise` follows unless all calls of the list agree
/// with these algorithms.
pub fn list_text(list: &PasswordAlgorithms<'_>) -> String {
    let values = (0..list.len()).filter_map(|at| list.get(at));
    let values: Vec<PasswordAlgorithmValue> = values.collect();
    let backward: Vec<PasswordAlgorithmValue> = values.iter().rev().copied().collect();
    let is_right = list.len() == values.len()
        && list.is_empty() == values.is_empty()
        && list.get(values.len()).is_none()
        && list.equals(&values)
        && list.equals(&backward) == (values == backward)
        && [PasswordAlgorithmValue::MD5, PasswordAlgorithmValue::SHA256]
            .iter()
            .all(|value| list.contains(*value) == values.contains(value));
    let names: Vec<&str> = values.iter().map(|value| algorithm_word(*value)).collect();
    let names = if names.is_empty() {
        "-".to_string()
    } else {
        names.join(",")
    };
    names + if is_right { "" } else { " otherwise" }
}

/// Returns the value of an attribute that is parsed as the type with this name, or why it cannot be
/// parsed.
pub fn read_as(name: &str, id: TransactionId, found: Found<'_>) -> Answer {
    Some(match name {
        "USERNAME" => read(found, |one: Username| shown_text(one.username().as_bytes())),
        "REALM" => read(found, |one: Realm| shown_text(one.realm().as_bytes())),
        "NONCE" => read(found, |one: Nonce| shown_text(one.nonce().as_bytes())),
        "ERROR-CODE" => read(found, |one: ErrorCode| error_text(&one)),
        "PASSWORD-ALGORITHM" => read(found, |one: PasswordAlgorithm| {
            algorithm_word(one.algorithm()).to_string()
        }),
        "PASSWORD-ALGORITHMS" => read(found, |one: PasswordAlgorithms| list_text(&one)),
        "USERHASH" => read(found, |one: Userhash| hex(one.hash())),
        "MESSAGE-INTEGRITY" => read(found, |one: MessageIntegrity| hex(one.hmac())),
        "MESSAGE-INTEGRITY-SHA256" => read(found, |one: MessageIntegritySha256| hex(one.hmac())),
        "XOR-MAPPED-ADDRESS" => read(found, |one: XorMappedAddress| one.addr(id).to_string()),
        // The value of any other attribute is not parsed.
        _ => {
            let Found::Attribute(attribute) = found else {
                return None;
            };
            let read = RawAttribute::from_raw(attribute);
            read.map_or_else(parse_error_with_type, |read| hex(read.value()))
        }
    })
}

/// Plays `message attribute TYPE MESSAGE`: prints the value of the first visible attribute of a
/// type.
pub fn first(name: &str, bytes: &[u8]) -> Answer {
    let message = Message::from_bytes(bytes).ok()?;
    read_as(name, message.transaction_id(), Found::Message(message))
}
