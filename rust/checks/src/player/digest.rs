//! Plays the calls on digests, keys and hashes: `digest NAME WORD ..`.

use super::stage::Stage;
use super::values::algorithm;
use super::words::{hex, number, text, unhex};
use super::{Answer, Heap, OUT_OF_MEMORY};
use crate::exported::stun_base::compare::is_same_text;
use crate::exported::stun_base::key::{md5_key_from_utf8, sha256_key_from_utf8, userhash};
use crate::exported::stun_types::attribute::Userhash;
use crate::exported::stun_types::message::{
    IntegrityAlgorithm, IntegrityKey, LongTermCredentials, MessageIntegrityCredentials,
    PreparedKey, hmac_sha1, hmac_sha256, long_term_key,
};
use crate::kit::alloc::Global;

/// Plays `digest NAME WORD ..`.
pub fn call(stage: &mut Stage<'_>, words: &[&str]) -> Answer {
    match words {
        ["hmac", key, words @ ..] => hmac(stage, key, words),
        ["key", word, user @ ..] => key(stage, algorithm(word)?, user),
        ["userhash", name, realm] => Some(hash(&text(name), &text(realm))),
        // Whether both have the same bytes, by the comparison without an early exit.
        ["same", one, other] => Some(is_same_text(&bytes(one)?, &bytes(other)?).to_string()),
        _ => None,
    }
}

/// Parses `LENGTH:STEP:FIRST`: the bytes `FIRST`, `FIRST + STEP` and so on, modulo 256.
fn pattern(word: &str) -> Option<Vec<u8>> {
    let (length, rest) = word.split_once(':')?;
    let (step, first) = rest.split_once(':')?;
    let step = u8::try_from(number(step)?).ok()?;
    let mut byte = u8::try_from(number(first)?).ok()?;
    let mut pattern = Vec::new();
    for _ in 0..number(length)? {
        pattern.push(byte);
        byte = byte.wrapping_add(step);
    }
    Some(pattern)
}

/// Parses bytes: `0xHEX`, `0xHEX*NUMBER`, `pattern:LENGTH:STEP:FIRST`, or the bytes of a text.
fn bytes(word: &str) -> Option<Vec<u8>> {
    if let Some(rest) = word.strip_prefix("pattern:") {
        return pattern(rest);
    }
    let Some(digits) = word.strip_prefix("0x") else {
        return Some(text(word).into_bytes());
    };
    match digits.split_once('*') {
        Some((part, count)) => Some(unhex(part)?.repeat(number(count)?.try_into().ok()?)),
        None => unhex(digits),
    }
}

/// A key, as it is and prepared for either algorithm.
struct Keys<'a> {
    bytes: Vec<u8>,
    sha1: PreparedKey<&'a Heap>,
    sha256: PreparedKey<&'a Heap>,
}

impl<'a> Keys<'a> {
    /// Prepares a key twice, if no allocation is refused.
    fn new(heap: &'a Heap, bytes: Vec<u8>) -> Option<Keys<'a>> {
        let first = IntegrityKey::from_bytes(heap, &bytes).ok()?;
        let second = IntegrityKey::from_bytes(heap, &bytes).ok()?;
        Some(Keys {
            bytes,
            sha1: PreparedKey::new(first, IntegrityAlgorithm::Sha1),
            sha256: PreparedKey::new(second, IntegrityAlgorithm::Sha256),
        })
    }

    /// Returns `true` if each call computes these digests of the text that consists of these
    /// pieces.
    fn compute(&self, pieces: &[&[u8]], digests: ([u8; 20], [u8; 32])) -> bool {
        let plain = (
            hmac_sha1(&self.bytes, pieces),
            hmac_sha256(&self.bytes, pieces),
        );
        let first = (self.sha1.hmac_sha1(pieces), self.sha1.hmac_sha256(pieces));
        let second = (
            self.sha256.hmac_sha1(pieces),
            self.sha256.hmac_sha256(pieces),
        );
        plain == digests && first == digests && second == digests
    }
}

/// Plays `digest hmac KEY TEXT`: prints HMAC-SHA1 and HMAC-SHA256 of the words after the key, with
/// spaces between them. `otherwise` follows unless each call computes the same digests if it is
/// passed the text in one, two and four pieces, and in none if the text is empty.
fn hmac(stage: &mut Stage<'_>, key: &str, words: &[&str]) -> Answer {
    let key = bytes(key)?;
    let words: Vec<Vec<u8>> = words
        .iter()
        .map(|word| bytes(word))
        .collect::<Option<_>>()?;
    let text = words.join(&b' ');
    stage.begin();
    let Some(keys) = Keys::new(stage.heap, key) else {
        return Some(OUT_OF_MEMORY.to_string());
    };
    let digests = (
        hmac_sha1(&keys.bytes, &[&text]),
        hmac_sha256(&keys.bytes, &[&text]),
    );
    let (front, back) = text.split_at(text.len() / 2);
    let are_the_same = keys.compute(&[&text], digests)
        && keys.compute(&[front, back], digests)
        && keys.compute(&[&[], front, &[], back], digests)
        && (!text.is_empty() || keys.compute(&[], digests));
    let otherwise = if are_the_same { "" } else { " otherwise" };
    Some(format!(
        "{} {}{otherwise}",
        hex(&digests.0),
        hex(&digests.1)
    ))
}

/// Returns the key of a user, realm and password in bytes, if these are texts.
fn key_of_bytes(algorithm: IntegrityAlgorithm, user: [&[u8]; 3]) -> Option<Vec<u8>> {
    let [name, realm, password] = user;
    match algorithm {
        IntegrityAlgorithm::Sha1 => Some(md5_key_from_utf8(name, realm, password)?.to_vec()),
        IntegrityAlgorithm::Sha256 => Some(sha256_key_from_utf8(name, realm, password)?.to_vec()),
    }
}

/// Plays `digest key ALGORITHM NAME REALM PASSWORD`: prints the long-term key, or `none` if the
/// bytes are not texts. `otherwise` follows unless each call computes the same key.
fn key(stage: &mut Stage<'_>, algorithm: IntegrityAlgorithm, words: &[&str]) -> Answer {
    let [name, realm, password] = words else {
        return None;
    };
    let user = [bytes(name)?, bytes(realm)?, bytes(password)?];
    let of_bytes = key_of_bytes(algorithm, user.each_ref().map(Vec::as_slice));
    let of_bytes = of_bytes.map_or_else(|| "none".to_string(), |key| hex(&key));
    let texts: Option<Vec<&str>> = user
        .iter()
        .map(|one| std::str::from_utf8(one).ok())
        .collect();
    let Some([name, realm, password]) = texts.as_deref() else {
        return Some(of_bytes);
    };
    let key: IntegrityKey = long_term_key(Global, algorithm, name, realm, password);
    let (user, realm) = (
        LongTermCredentials::new(stage.on_heap(name)?, stage.on_heap(password)?),
        stage.on_heap(realm)?,
    );
    stage.begin();
    let Ok(user) = user.to_key(realm) else {
        return Some(OUT_OF_MEMORY.to_string());
    };
    let is_of_user = user.make_key(algorithm).as_bytes() == key.as_bytes();
    let of_message = MessageIntegrityCredentials::from(user);
    let is_of_message = of_message.key(algorithm).as_bytes() == key.as_bytes();
    let key = hex(key.as_bytes());
    match is_of_user && is_of_message && key == of_bytes {
        true => Some(key),
        false => Some(format!("{key} otherwise")),
    }
}

/// Returns the hash of a user's name and realm. `otherwise` follows if two calls compute different
/// hashes.
fn hash(name: &str, realm: &str) -> String {
    let hash = Userhash::compute(name, realm);
    match userhash(name, realm) == hash {
        true => hex(&hash),
        false => format!("{} otherwise", hex(&hash)),
    }
}
