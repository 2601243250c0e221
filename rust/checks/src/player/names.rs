//! The texts of errors and types in answers.

use crate::exported::stun_types::attribute::AttributeType;
use crate::exported::stun_types::message::{StunParseError, StunWriteError, ValidateError};

/// Returns the name of an error of parsing.
pub fn parse_error(error: StunParseError) -> &'static str {
    match error {
        StunParseError::Truncated => "Truncated",
        StunParseError::NotStun => "NotStun",
        StunParseError::TooLarge => "TooLarge",
        StunParseError::MissingAttribute(_) => "MissingAttribute",
        StunParseError::InvalidAttributeData => "InvalidAttributeData",
    }
}

/// Returns the name of an error of parsing, followed by the type if an attribute is missing.
pub fn parse_error_with_type(error: StunParseError) -> String {
    match error {
        StunParseError::MissingAttribute(kind) => format!("MissingAttribute {}", type_number(kind)),
        error => parse_error(error).to_string(),
    }
}

/// Returns the name of an error of writing.
pub fn write_error(error: StunWriteError) -> &'static str {
    match error {
        StunWriteError::NotAllowed => "NotAllowed",
        StunWriteError::MessageIntegrityExists => "MessageIntegrityExists",
        StunWriteError::AttributeExists(_) => "AttributeExists",
        StunWriteError::TooLarge => "TooLarge",
        StunWriteError::TooSmall => "TooSmall",
        StunWriteError::IntegrityFailed => "IntegrityFailed",
        StunWriteError::OutOfMemory => super::OUT_OF_MEMORY,
    }
}

/// Returns why no signature of a message is valid.
pub fn validate_error(error: ValidateError) -> String {
    match error {
        ValidateError::Parse(error) => parse_error_with_type(error),
        ValidateError::IntegrityFailed => "IntegrityFailed".to_string(),
    }
}

/// Returns an attribute type as `0x` and four digits.
pub fn type_number(kind: AttributeType) -> String {
    format!("0x{:04x}", kind.value())
}

/// Returns a debug text, or `none`.
pub fn or_none<T: std::fmt::Debug>(value: Option<T>) -> String {
    value.map_or_else(|| "none".to_string(), |value| format!("{value:?}"))
}
