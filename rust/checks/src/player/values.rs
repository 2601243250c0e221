//! Parses words that are values of the library. The result is `None` if a word is not understood.

use super::words::{id, number, span, text};
use crate::exported::stun_base::instant::Instant;
use crate::exported::stun_base::transport::TransportType;
use crate::exported::stun_judging::feature::Feature;
use crate::exported::stun_types::attribute::AttributeType;
use crate::exported::stun_types::message::{IntegrityAlgorithm, MessageClass, TransactionId};

/// Parses a number up to 4294967295.
pub fn short_number(word: &str) -> Option<u32> {
    number(word)?.try_into().ok()
}

/// Parses a number of bytes.
pub fn size(word: &str) -> Option<usize> {
    number(word)?.try_into().ok()
}

/// Parses a time, or `max` for the greatest one.
pub fn moment(word: &str) -> Option<Instant> {
    match word {
        "max" => Some(Instant::MAX),
        word => Some(Instant::from_nanos(span(word)?.as_nanos().try_into().ok()?)),
    }
}

/// Parses the number of a transaction ID.
pub fn transaction_id(word: &str) -> Option<TransactionId> {
    TransactionId::from_u128(number(word)?.into())
}

/// Parses a transaction ID: its number, or `0x` and 24 digits.
pub fn any_transaction_id(word: &str) -> Option<TransactionId> {
    let mut number = [0; 16];
    number[4..].copy_from_slice(&id(word)?);
    TransactionId::from_u128(u128::from_be_bytes(number))
}

/// Parses an attribute type: its name in RFC 8489, or `0x` and four digits.
pub fn attribute_type(word: &str) -> Option<AttributeType> {
    super::words::attribute_type(word).map(AttributeType::new)
}

/// Parses the class of a message.
pub fn class(word: &str) -> Option<MessageClass> {
    match word {
        "request" => Some(MessageClass::Request),
        "indication" => Some(MessageClass::Indication),
        "success" => Some(MessageClass::Success),
        "error" => Some(MessageClass::Error),
        _ => None,
    }
}

/// Parses `sha1` or `sha256`.
pub fn algorithm(word: &str) -> Option<IntegrityAlgorithm> {
    match word {
        "sha1" => Some(IntegrityAlgorithm::Sha1),
        "sha256" => Some(IntegrityAlgorithm::Sha256),
        _ => None,
    }
}

/// Parses whether user names are sent as a hash.
pub fn feature(word: &str) -> Option<Feature> {
    match word {
        "auto" => Some(Feature::Auto),
        "required" => Some(Feature::Required),
        "disabled" => Some(Feature::Disabled),
        _ => None,
    }
}

/// Parses `udp` or `tcp`.
pub fn transport(word: &str) -> Option<TransportType> {
    match word {
        "udp" => Some(TransportType::Udp),
        "tcp" => Some(TransportType::Tcp),
        _ => None,
    }
}

/// Joins the texts that words describe, with spaces between them.
pub fn phrase(words: &[&str]) -> String {
    let texts: Vec<String> = words.iter().map(|word| text(word)).collect();
    texts.join(" ")
}
