//! Parses and writes single words of transcripts. The result is `None` if a word is not understood.

use std::net::SocketAddr;
use std::time::Duration;

const TYPES: [(&str, u16); 12] = [
    ("USERNAME", 0x0006),
    ("MESSAGE-INTEGRITY", 0x0008),
    ("ERROR-CODE", 0x0009),
    ("REALM", 0x0014),
    ("NONCE", 0x0015),
    ("MESSAGE-INTEGRITY-SHA256", 0x001c),
    ("PASSWORD-ALGORITHM", 0x001d),
    ("USERHASH", 0x001e),
    ("XOR-MAPPED-ADDRESS", 0x0020),
    ("PASSWORD-ALGORITHMS", 0x8002),
    ("SOFTWARE", 0x8022),
    ("FINGERPRINT", 0x8028),
];

pub fn number(word: &str) -> Option<u64> {
    word.replace('_', "").parse().ok()
}

/// Parses `7ns`, `7ms`, `7s`, a number of nanoseconds, or `max`.
pub fn span(word: &str) -> Option<Duration> {
    if word == "max" {
        return Some(Duration::MAX);
    }
    for (suffix, unit) in [("ns", 1), ("ms", 1_000_000), ("s", 1_000_000_000)] {
        if let Some(count) = word.strip_suffix(suffix) {
            return number(count)?.checked_mul(unit).map(Duration::from_nanos);
        }
    }
    number(word).map(Duration::from_nanos)
}

pub fn unhex(digits: &str) -> Option<Vec<u8>> {
    let pairs = digits.as_bytes().chunks(2);
    pairs
        .map(|pair| u8::from_str_radix(std::str::from_utf8(pair).ok()?, 16).ok())
        .collect::<Option<Vec<u8>>>()
        .filter(|bytes| bytes.len() * 2 == digits.len())
}

pub fn hex(bytes: &[u8]) -> String {
    bytes.iter().map(|byte| format!("{byte:02x}")).collect()
}

/// Returns a secret with this first byte, followed by zeros.
pub fn drawn(byte: u8) -> [u8; 32] {
    let mut secret = [0; 32];
    secret[0] = byte;
    secret
}

/// Parses 32 bytes, or the first of them, followed by zeros.
pub fn secret(word: &str) -> Option<[u8; 32]> {
    match unhex(word)?.as_slice() {
        [byte] => Some(drawn(*byte)),
        bytes => bytes.try_into().ok(),
    }
}

/// Parses `WORD`, `WORD*NUMBER` or `-`.
pub fn text(word: &str) -> String {
    match word.split_once('*') {
        Some((part, count)) => match count.parse() {
            Ok(count) => part.repeat(count),
            Err(_) => word.to_string(),
        },
        None if word == "-" => String::new(),
        None => word.to_string(),
    }
}

pub fn shown_text(value: &[u8]) -> String {
    let text = String::from_utf8_lossy(value).into_owned();
    let Some(first) = text.chars().next() else {
        return "-".to_string();
    };
    match text.len() > 40 && text.chars().all(|letter| letter == first) {
        true => format!("{first}*{}", text.len()),
        false => text,
    }
}

pub fn attribute_type(word: &str) -> Option<u16> {
    match TYPES.iter().find(|(name, _)| *name == word) {
        Some((_, kind)) => Some(*kind),
        None => {
            let bytes = unhex(word.strip_prefix("0x")?)?;
            bytes.try_into().ok().map(u16::from_be_bytes)
        }
    }
}

/// Returns the name of a type, if the type is shown by its name.
pub fn type_name(kind: u16) -> Option<&'static str> {
    let named = TYPES.iter().find(|(_, number)| *number == kind);
    named
        .map(|(name, _)| *name)
        .filter(|name| !["PASSWORD-ALGORITHM", "USERHASH"].contains(name))
}

/// Parses types with commas between them.
pub fn types(word: &str) -> Option<Vec<u16>> {
    word.split(',').map(attribute_type).collect()
}

pub fn address(word: &str) -> Option<SocketAddr> {
    word.parse().ok()
}

/// Parses a number, or `0x` and digits.
pub fn id(word: &str) -> Option<[u8; 12]> {
    match word.strip_prefix("0x") {
        Some(digits) => unhex(digits)?.try_into().ok(),
        None => {
            let mut id = [0; 12];
            id[4..].copy_from_slice(&number(word)?.to_be_bytes());
            Some(id)
        }
    }
}

pub fn yes(word: &str) -> Option<bool> {
    match word {
        "yes" => Some(true),
        "no" => Some(false),
        _ => None,
    }
}
