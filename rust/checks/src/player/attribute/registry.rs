//! The numbers that the library has for attribute types, error codes and algorithms.

use crate::exported::stun_types::attribute::{
    AttributeType, ErrorCode, MessageIntegrity, MessageIntegritySha256, Nonce, PasswordAlgorithm,
    PasswordAlgorithmValue, PasswordAlgorithms, Realm, Userhash, Username, XorMappedAddress,
    attribute_length,
};
use crate::exported::stun_types::prelude::*;
use crate::player::Answer;
use crate::player::message::typed::algorithm_word;
use crate::player::names::type_number;
use crate::player::values::{attribute_type, size};

/// Plays `attribute takes LENGTH`: prints how many bytes an attribute with a value of LENGTH bytes
/// takes in a message.
pub fn takes(length: &str) -> Answer {
    Some(attribute_length(size(length)?).to_string())
}

/// Returns the type that an attribute states, by its constant and by its call.
fn stated_by<A: AttributeStaticType>() -> [AttributeType; 2] {
    [A::TYPE, A::static_type()]
}

/// Returns the types that the attribute with this name states.
fn stated(name: &str) -> Vec<AttributeType> {
    match name {
        "USERNAME" => stated_by::<Username<'_>>(),
        "MESSAGE-INTEGRITY" => stated_by::<MessageIntegrity>(),
        "ERROR-CODE" => stated_by::<ErrorCode<'_>>(),
        "REALM" => stated_by::<Realm<'_>>(),
        "NONCE" => stated_by::<Nonce<'_>>(),
        "MESSAGE-INTEGRITY-SHA256" => stated_by::<MessageIntegritySha256>(),
        "PASSWORD-ALGORITHM" => stated_by::<PasswordAlgorithm>(),
        "USERHASH" => stated_by::<Userhash>(),
        "XOR-MAPPED-ADDRESS" => stated_by::<XorMappedAddress>(),
        "PASSWORD-ALGORITHMS" => stated_by::<PasswordAlgorithms<'_>>(),
        _ => return Vec::new(),
    }
    .to_vec()
}

/// Plays `attribute number TYPE`: prints the number of a type. If an attribute of the type states
/// another number, that one is printed too.
pub fn number(name: &str) -> Answer {
    let kind = attribute_type(name)?;
    let mut answer = type_number(kind);
    if AttributeType::new(kind.value()) != kind {
        answer += " otherwise";
    }
    for other in stated(name).into_iter().filter(|other| *other != kind) {
        answer += &format!(" {}", type_number(other));
    }
    Some(answer)
}

/// Plays `attribute code NAME`: prints the number of an error code.
pub fn code(name: &str) -> Answer {
    let code = match name {
        "BAD-REQUEST" => ErrorCode::BAD_REQUEST,
        "UNAUTHORIZED" => ErrorCode::UNAUTHORIZED,
        "STALE-NONCE" => ErrorCode::STALE_NONCE,
        _ => return None,
    };
    Some(code.to_string())
}

/// Parses `MD5` or `SHA256`.
pub fn password_value(word: &str) -> Option<PasswordAlgorithmValue> {
    match word {
        "MD5" => Some(PasswordAlgorithmValue::MD5),
        "SHA256" => Some(PasswordAlgorithmValue::SHA256),
        _ => None,
    }
}

/// Plays `attribute algorithm MD5` or `attribute algorithm SHA256`: prints the algorithm that its
/// keys are for, the length of that algorithm's signatures, and the password algorithm for it.
pub fn algorithm(name: &str) -> Answer {
    let digest = password_value(name)?.as_integrity();
    let length = digest.digest_length();
    let back = algorithm_word(PasswordAlgorithmValue::from_integrity(digest));
    Some(format!("{digest:?}, {length} bytes, {back}"))
}
