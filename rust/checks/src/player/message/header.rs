//! Plays the calls on a message as a whole: its header, its length, and its visible attributes.

use crate::exported::stun_base::words::WordSource;
use crate::exported::stun_types::message::{
    BINDING, Message, MessageClass, MessageHeader, MessageType, Method, StunParseError,
    TransactionId,
};
use crate::player::Answer;
use crate::player::names::{parse_error_with_type, type_number};
use crate::player::stage::Stage;
use crate::player::values::{attribute_type, class};
use crate::player::words::number;

const CLASSES: [(MessageClass, &str); 4] = [
    (MessageClass::Request, "request"),
    (MessageClass::Indication, "indication"),
    (MessageClass::Success, "success"),
    (MessageClass::Error, "error"),
];

/// Returns a transaction ID as `0x` and 24 digits.
fn id_text(id: TransactionId) -> String {
    format!("0x{:024x}", id.as_u128())
}

/// Returns the text of a message type: its number, its class, whether this is a response, and its
/// method.
fn type_text(kind: MessageType) -> String {
    let class = kind.class();
    let name = CLASSES.iter().find(|(other, _)| *other == class);
    let mut text = format!(
        "0x{:04x} {}",
        kind.value(),
        name.map_or("?", |(_, name)| name)
    );
    if kind.is_response() {
        text += " response";
    }
    for (other, _) in CLASSES {
        if kind.has_class(other) != (other == class) {
            text += " of another class";
        }
    }
    text + &format!(" 0x{:03x}", kind.method().value())
}

/// Returns what `MessageHeader::from_bytes` returns for the first bytes of a message.
pub fn header(bytes: &[u8]) -> String {
    match MessageHeader::from_bytes(bytes) {
        Ok(header) => {
            let (kind, id) = (
                type_text(header.get_type()),
                id_text(header.transaction_id()),
            );
            format!("{kind} id {id}, {} bytes behind", header.data_length())
        }
        Err(error) => parse_error_with_type(error),
    }
}

/// Returns `true` if the calls of a message agree with those of its type.
fn is_as_its_type(message: &Message<'_>) -> bool {
    let kind = message.get_type();
    message.class() == kind.class()
        && message.method() == kind.method()
        && message.is_response() == kind.is_response()
        && CLASSES
            .iter()
            .all(|(class, _)| message.has_class(*class) == kind.has_class(*class))
}

/// Returns what both parsers return for these bytes: the message, or the error. If the header can
/// be parsed, `header,` comes before the error.
pub fn read(bytes: &[u8]) -> String {
    let header = MessageHeader::from_bytes(bytes).err();
    match Message::from_bytes(bytes) {
        Ok(message) if header.is_none() => message_text(&message, bytes),
        Ok(_) => "no header, but a message".to_string(),
        Err(error) => refusal(header, error),
    }
}

fn message_text(message: &Message<'_>, bytes: &[u8]) -> String {
    let (kind, id) = (
        type_text(message.get_type()),
        id_text(message.transaction_id()),
    );
    let is_right = is_as_its_type(message) && message.as_bytes() == bytes;
    let otherwise = if is_right { "" } else { " otherwise" };
    format!(
        "{kind}{otherwise} id {id}, {} bytes",
        message.as_bytes().len()
    )
}

/// Returns why bytes are not a message, and whether they begin with a header.
fn refusal(header: Option<StunParseError>, error: StunParseError) -> String {
    let text = parse_error_with_type(error);
    match header {
        None => format!("header, {text}"),
        Some(other) if other != error => format!("{}, {text}", parse_error_with_type(other)),
        Some(_) => text,
    }
}

/// Plays `message attributes MESSAGE`: prints type, offset and length of each visible attribute, or
/// `none`.
pub fn attributes(bytes: &[u8]) -> Answer {
    let message = Message::from_bytes(bytes).ok()?;
    let each = message.iter_attributes().map(|(offset, attribute)| {
        let (kind, length) = (type_number(attribute.get_type()), attribute.length());
        format!("{kind}@{offset}:{length}")
    });
    let each: Vec<String> = each.collect();
    match each.is_empty() {
        true => Some("none".to_string()),
        false => Some(each.join(" ")),
    }
}

/// Plays `message type CLASS METHOD`: prints the message type of this class and method and what is
/// read from it, or `none` if there is no such method. A method is `binding`, or `0x` and four
/// digits.
pub fn type_of(class_word: &str, method: &str) -> Answer {
    let class = class(class_word)?;
    let method = match method {
        "binding" => Some(BINDING),
        digits if digits.starts_with("0x") => Method::new(attribute_type(digits)?.value()),
        _ => return None,
    };
    Some(match method {
        None => "none".to_string(),
        Some(method) => {
            let binding = if method == BINDING { ", binding" } else { "" };
            type_text(MessageType::from_class_method(class, method)) + binding
        }
    })
}

/// Plays `message ids COUNT`: prints COUNT transaction IDs that are made of the random numbers of
/// the stage.
pub fn ids(stage: &Stage<'_>, count: &str) -> Answer {
    let mut source = WordSource::new(stage.draws);
    let ids = (0..number(count)?).map(|_| id_text(TransactionId::generate(&mut source)));
    Some(ids.collect::<Vec<String>>().join(" "))
}
