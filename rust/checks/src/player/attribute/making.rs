//! Attributes that the library creates and writes to a message, from which they are read again.

use super::first;
use super::registry::password_value;
use crate::exported::stun_types::attribute::{
    AttributeType, ErrorCode, ErrorCodeBuilder, Nonce, PasswordAlgorithm, PasswordAlgorithmValue,
    PasswordAlgorithms, RawAttribute, Realm, Userhash, Username, XorMappedAddress,
};
use crate::exported::stun_types::message::{
    BINDING, Message, MessageWriteVec, StunWriteError, TransactionId,
};
use crate::exported::stun_types::prelude::*;
use crate::kit::prelude::Vec as HeapVec;
use crate::player::message::typed::{Found, algorithm_word, error_text, list_text, read_as};
use crate::player::names::write_error;
use crate::player::stage::Stage;
use crate::player::values::attribute_type;
use crate::player::words::{address, hex, number, shown_text, text, unhex};
use crate::player::{Answer, Heap};

/// What to print of an attribute that is created: its value, or its bytes in a message.
struct Asked<'s, 'a> {
    stage: &'s mut Stage<'a>,
    id: TransactionId,
    is_written: bool,
}

/// The types that are parsed again as their own type. All others are parsed as raw attributes.
const READ_AGAIN: [(AttributeType, &str); 8] = [
    (AttributeType::USERNAME, "USERNAME"),
    (AttributeType::REALM, "REALM"),
    (AttributeType::NONCE, "NONCE"),
    (AttributeType::ERROR_CODE, "ERROR-CODE"),
    (AttributeType::PASSWORD_ALGORITHM, "PASSWORD-ALGORITHM"),
    (AttributeType::PASSWORD_ALGORITHMS, "PASSWORD-ALGORITHMS"),
    (AttributeType::USERHASH, "USERHASH"),
    (AttributeType::XOR_MAPPED_ADDRESS, "XOR-MAPPED-ADDRESS"),
];

/// Returns the name of the type as which an attribute is parsed again.
fn reader(kind: AttributeType) -> &'static str {
    let found = READ_AGAIN.iter().find(|(other, _)| *other == kind);
    found.map_or("raw", |(_, name)| name)
}

/// Returns the bytes of a request with an attribute, or why the attribute is not written.
fn request_with<'a, A: Attribute>(
    heap: &'a Heap,
    id: TransactionId,
    attribute: &A,
) -> Result<HeapVec<u8, &'a Heap>, StunWriteError> {
    let mut writer = Message::builder_request(BINDING, id, MessageWriteVec::new(heap))?;
    writer.add_attribute(attribute)?;
    Ok(writer.finish())
}

impl Asked<'_, '_> {
    /// Returns the answer for an attribute with this value. If the attribute is written,
    /// `otherwise` follows its bytes unless its type, its lengths and its value are those that are
    /// parsed again.
    fn answer<A: Attribute>(self, made: &A, value: &str, is_raw: bool) -> Answer {
        if !self.is_written {
            return Some(value.to_string());
        }
        self.stage.begin();
        let bytes = match request_with(self.stage.heap, self.id, made) {
            Ok(bytes) => bytes,
            Err(error) => return Some(write_error(error).to_string()),
        };
        let Ok(message) = Message::from_bytes(&bytes) else {
            return Some("no message".to_string());
        };
        let Some((offset, raw)) = message.iter_attributes().next() else {
            return Some("no attribute".to_string());
        };
        let is_as_written = made.get_type() == raw.get_type()
            && made.length() == raw.length()
            && made.padded_len() == raw.padded_len();
        let name = if is_raw {
            "raw"
        } else {
            reader(raw.get_type())
        };
        let again = read_as(name, self.id, Found::Attribute(raw))?;
        let written = hex(bytes.get(offset..)?);
        match is_as_written && again == value {
            true => Some(written),
            false => Some(format!("{written} otherwise {again}")),
        }
    }

    /// Returns the answer for an attribute that may not have been created.
    fn answer_if_made<A: Attribute>(
        self,
        made: Result<A, StunWriteError>,
        value: impl FnOnce(&A) -> String,
    ) -> Answer {
        match made {
            Ok(made) => self.answer(&made, &value(&made), false),
            Err(error) => Some(write_error(error).to_string()),
        }
    }

    fn error(self, builder: ErrorCodeBuilder<'_>) -> Answer {
        self.answer_if_made(builder.build(), error_text)
    }

    /// Creates the attribute with a name from the text of its value, and returns the answer.
    fn make(self, name: &str, value: &str) -> Answer {
        match name {
            "USERNAME" => self.answer_if_made(Username::new(&text(value)), |made| {
                shown_text(made.username().as_bytes())
            }),
            "REALM" => self.answer_if_made(Realm::new(&text(value)), |made| {
                shown_text(made.realm().as_bytes())
            }),
            "NONCE" => self.answer_if_made(Nonce::new(&text(value)), |made| {
                shown_text(made.nonce().as_bytes())
            }),
            // The code comes with the phrase that the library has for it, or with another phrase.
            "ERROR-CODE" => {
                let (code, phrase) = match value.split_once(':') {
                    Some((code, phrase)) => (code, Some(text(phrase))),
                    None => (value, None),
                };
                let builder = ErrorCode::builder(number(code)?.try_into().ok()?);
                match &phrase {
                    Some(phrase) => self.error(builder.reason(phrase)),
                    None => self.error(builder),
                }
            }
            "PASSWORD-ALGORITHM" => {
                let made = PasswordAlgorithm::new(password_value(value)?);
                self.answer(&made, algorithm_word(made.algorithm()), false)
            }
            "PASSWORD-ALGORITHMS" => {
                let list = listed(value)?;
                let made = PasswordAlgorithms::new(&list);
                self.answer(&made, &list_text(&made), false)
            }
            // The library computes the hash.
            "USERHASH" => {
                let (user, realm) = value.split_once(':')?;
                let made = Userhash::new(Userhash::compute(user, realm));
                self.answer(&made, &hex(made.hash()), false)
            }
            "XOR-MAPPED-ADDRESS" => {
                let made = XorMappedAddress::new(address(value)?, self.id);
                let address = made.addr(self.id).to_string();
                self.answer(&made, &address, false)
            }
            name => {
                let bytes = unhex(value)?;
                let made = RawAttribute::new(attribute_type(name)?, &bytes);
                self.answer(&made, &hex(made.value()), true)
            }
        }
    }
}

/// Parses algorithms with commas between them, or `-`.
fn listed(value: &str) -> Option<Vec<PasswordAlgorithmValue>> {
    match value {
        "-" => Some(Vec::new()),
        words => words.split(',').map(password_value).collect(),
    }
}

/// Plays two calls:
///
/// `attribute makes TYPE=VALUE [ID=..]` prints the value of the attribute that the library creates,
/// or why it creates none.
///
/// `attribute writes TYPE=VALUE [ID=..]` prints the bytes of the attribute in a message, from which
/// it is parsed again.
pub fn make(stage: &mut Stage<'_>, attribute: &str, id: &[&str], is_written: bool) -> Answer {
    let (name, value) = attribute.split_once('=')?;
    let bytes = stage.carrier(id)?;
    let id = Message::from_bytes(&bytes).ok()?.transaction_id();
    let asked = Asked {
        stage,
        id,
        is_written,
    };
    asked.make(name, value)
}

/// Plays `attribute rewrites PASSWORD-ALGORITHMS=VALUE`: prints the bytes of a list that was read
/// and written again.
pub fn rewrite(stage: &mut Stage<'_>, words: &[&str]) -> Answer {
    let bytes = stage.carrier(words)?;
    let message = Message::from_bytes(&bytes).ok()?;
    let read = PasswordAlgorithms::from_raw(first(&message)?).ok()?;
    let asked = Asked {
        stage,
        id: message.transaction_id(),
        is_written: true,
    };
    asked.answer(&read, &list_text(&read), false)
}
