//! Plays the calls on security bits of nonces (RFC 8489, section 9.2): `nonce NAME WORD ..`.

use crate::exported::stun_judging::nonce::{LONG_TERM_RFC8489_NONCE_COOKIE, NonceSecurityBits};
use super::stage::Stage;
use super::values::phrase;
use super::words::{hex, unhex};
use super::{Answer, OUT_OF_MEMORY};

/// Plays `nonce NAME WORD ..`.
pub fn call(stage: &mut Stage<'_>, words: &[&str]) -> Answer {
    match words {
        // The text with which a nonce with security bits begins.
        ["cookie"] => Some(LONG_TERM_RFC8489_NONCE_COOKIE.to_string()),
        // The bytes of the security bits of a nonce.
        ["bits", words @ ..] => Some(match NonceSecurityBits::from_nonce(&phrase(words)) {
            Some(bits) => hex(&bits.bytes()),
            None => "none".to_string(),
        }),
        ["text", word] => text(stage, word),
        ["says", word] => Some(meaning(bits(word)?).to_string()),
        ["set", word, flags @ ..] => set(bits(word)?, flags),
        _ => None,
    }
}

/// Parses security bits: three bytes, or `default`.
fn bits(word: &str) -> Option<NonceSecurityBits> {
    match word {
        "default" => Some(NonceSecurityBits::default()),
        digits => Some(NonceSecurityBits::from_bytes(
            unhex(digits)?.try_into().ok()?,
        )),
    }
}

/// Plays `nonce text BITS`: prints the text with which a nonce with these bits begins.
fn text(stage: &mut Stage<'_>, word: &str) -> Answer {
    let bits = bits(word)?;
    stage.begin();
    match bits.as_string(stage.heap) {
        Ok(text) => Some(text.as_str().to_string()),
        Err(_) => Some(OUT_OF_MEMORY.to_string()),
    }
}

/// Returns the meaning of security bits.
fn meaning(bits: NonceSecurityBits) -> &'static str {
    match (bits.password_algorithms(), bits.username_anonymity()) {
        (true, true) => "algorithms hashes",
        (true, false) => "algorithms",
        (false, true) => "hashes",
        (false, false) => "none",
    }
}

/// Plays `nonce set BITS FLAG ..`: prints the bytes of the bits after the flags `algorithms`,
/// `hashes`, `no-algorithms` and `no-hashes` are set in their order.
fn set(mut bits: NonceSecurityBits, flags: &[&str]) -> Answer {
    for flag in flags {
        match *flag {
            "algorithms" => bits.set_password_algorithms(true),
            "no-algorithms" => bits.set_password_algorithms(false),
            "hashes" => bits.set_username_anonymity(true),
            "no-hashes" => bits.set_username_anonymity(false),
            _ => return None,
        }
    }
    Some(hex(&bits.bytes()))
}
