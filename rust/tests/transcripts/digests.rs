//! Digests of messages, computed without the library.

use md5::{Digest, Md5};
use sha1::Sha1;
use sha2::Sha256;

fn hmac<D: Digest>(key: &[u8], text: &[u8]) -> Vec<u8> {
    let mut pad = [0; 64];
    if key.len() > 64 {
        let digest = D::digest(key);
        pad[..digest.len()].copy_from_slice(&digest);
    } else {
        pad[..key.len()].copy_from_slice(key);
    }
    let inner = D::new()
        .chain_update(pad.map(|byte| byte ^ 0x36))
        .chain_update(text)
        .finalize();
    let outer = D::new()
        .chain_update(pad.map(|byte| byte ^ 0x5c))
        .chain_update(inner);
    outer.finalize().to_vec()
}

/// The algorithms of integrity attributes.
#[derive(Clone, Copy, PartialEq, Eq)]
pub enum Algorithm {
    Sha1,
    Sha256,
}

impl Algorithm {
    /// Returns the type of the attribute and the length of its value.
    pub fn attribute(self) -> (u16, usize) {
        match self {
            Algorithm::Sha1 => (0x0008, 20),
            Algorithm::Sha256 => (0x001c, 32),
        }
    }

    pub fn hmac(self, key: &[u8], text: &[u8]) -> Vec<u8> {
        match self {
            Algorithm::Sha1 => hmac::<Sha1>(key, text),
            Algorithm::Sha256 => hmac::<Sha256>(key, text),
        }
    }

    /// Returns the key of a user of a realm (RFC 8489, section 9.2.2).
    pub fn key(self, user: &str, realm: &str, password: &str) -> Vec<u8> {
        let text = format!("{user}:{realm}:{password}");
        match self {
            Algorithm::Sha1 => Md5::digest(text).to_vec(),
            Algorithm::Sha256 => Sha256::digest(text).to_vec(),
        }
    }
}

/// Returns the value of FINGERPRINT (RFC 8489, section 14.7).
pub fn fingerprint(bytes: &[u8]) -> u32 {
    let mut rest = u32::MAX;
    for byte in bytes {
        rest ^= u32::from(*byte);
        for _ in 0..8 {
            rest = match rest & 1 {
                0 => rest >> 1,
                _ => rest >> 1 ^ 0xedb8_8320,
            };
        }
    }
    !rest ^ 0x5354_554e
}
