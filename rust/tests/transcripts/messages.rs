//! Converts words to messages and messages to words, byte by byte and without the library.

use super::digests::{Algorithm, fingerprint};
use super::words::*;
use std::net::{IpAddr, Ipv4Addr, Ipv6Addr, SocketAddr};

const COOKIE: [u8; 4] = [0x21, 0x12, 0xa4, 0x42];
const PHRASES: [(u64, &str); 5] = [
    (400, "Bad Request"),
    (401, "Unauthorized"),
    (420, "Unknown Attribute"),
    (438, "Stale Nonce"),
    (487, "Role Conflict"),
];
const CLASSES: [(&str, u16); 4] = [
    ("request", 0x0001),
    ("indication", 0x0011),
    ("success", 0x0101),
    ("error", 0x0111),
];

/// A message that is being built.
pub struct Spelling {
    kind: u16,
    id: [u8; 12],
    attributes: Vec<u8>,
}

impl Spelling {
    /// Begins a Binding message of a class, with transaction ID 1.
    pub fn new(class: &str) -> Option<Spelling> {
        let (_, kind) = CLASSES.iter().find(|(name, _)| *name == class)?;
        let (kind, attributes) = (*kind, Vec::new());
        let id = id("1")?;
        Some(Spelling {
            kind,
            id,
            attributes,
        })
    }

    /// Parses a message.
    pub fn of(bytes: &[u8]) -> Option<Spelling> {
        Some(Spelling {
            kind: u16::from_be_bytes(bytes.get(..2)?.try_into().ok()?),
            id: bytes.get(8..20)?.try_into().ok()?,
            attributes: bytes[20..].to_vec(),
        })
    }

    /// Returns the message so far, with a length that includes this many further bytes, if 16 bits
    /// are enough for it.
    fn with_more(&self, more: usize) -> Option<Vec<u8>> {
        let length = u16::try_from(self.attributes.len() + more).ok()?;
        let header = [self.kind.to_be_bytes(), length.to_be_bytes()].concat();
        Some([&header[..], &COOKIE, &self.id, &self.attributes].concat())
    }

    pub fn finish(&self) -> Option<Vec<u8>> {
        self.with_more(0)
    }

    fn add(&mut self, kind: u16, value: &[u8]) -> Option<()> {
        let length = u16::try_from(value.len()).ok()?;
        self.attributes.extend(kind.to_be_bytes());
        self.attributes.extend(length.to_be_bytes());
        self.attributes.extend(value);
        let padded = self.attributes.len().next_multiple_of(4);
        self.attributes.resize(padded, 0);
        Some(())
    }

    fn sign(&mut self, algorithm: Algorithm, secret: &str) -> Option<()> {
        let key = match secret.split_once(':') {
            None => text(secret).into_bytes(),
            Some(("key", digits)) => unhex(digits)?,
            Some((user, rest)) => {
                let (realm, password) = rest.split_once(':')?;
                algorithm.key(user, realm, password)
            }
        };
        let (kind, length) = algorithm.attribute();
        let digest = algorithm.hmac(&key, &self.with_more(4 + length)?);
        self.add(kind, &digest)
    }

    fn add_word(&mut self, word: &str) -> Option<()> {
        if word == "FP" {
            let value = fingerprint(&self.with_more(8)?).to_be_bytes();
            return self.add(0x8028, &value);
        }
        let (name, value) = word.split_once('=')?;
        match name {
            "ID" => self.id = id(value)?,
            "TYPE" => self.kind = attribute_type(value)?,
            "MI" => self.sign(Algorithm::Sha1, value)?,
            "MI256" => self.sign(Algorithm::Sha256, value)?,
            name => {
                let value = self.value(name, value)?;
                self.add(attribute_type(name)?, &value)?;
            }
        }
        Some(())
    }

    fn value(&self, name: &str, word: &str) -> Option<Vec<u8>> {
        if let Some(digits) = word.strip_prefix("0x") {
            return unhex(digits);
        }
        match name {
            "USERNAME" | "REALM" | "NONCE" | "SOFTWARE" => Some(text(word).into_bytes()),
            "ERROR-CODE" => {
                let (code, phrase) = match word.split_once(':') {
                    Some((code, phrase)) => (number(code)?, text(phrase)),
                    None => (number(word)?, phrase_of(number(word)?).to_string()),
                };
                let class = u8::try_from(code / 100).ok()?;
                Some([&[0, 0, class, (code % 100) as u8], phrase.as_bytes()].concat())
            }
            "PASSWORD-ALGORITHM" | "PASSWORD-ALGORITHMS" => algorithms(word),
            "XOR-MAPPED-ADDRESS" => Some(xored(address(word)?, &self.id)),
            _ => unhex(word),
        }
    }
}

fn phrase_of(code: u64) -> &'static str {
    let found = PHRASES.iter().find(|(number, _)| *number == code);
    found.map_or("", |(_, phrase)| phrase)
}

fn algorithms(word: &str) -> Option<Vec<u8>> {
    let mut list = Vec::new();
    for name in word.split(',').filter(|name| *name != "-") {
        let number = ["MD5", "SHA256"].iter().position(|known| *known == name)?;
        list.extend([0, number as u8 + 1, 0, 0]);
    }
    Some(list)
}

/// Returns the value of XOR-MAPPED-ADDRESS (RFC 8489, section 14.2).
fn xored(address: SocketAddr, id: &[u8; 12]) -> Vec<u8> {
    let (family, octets) = match address.ip() {
        IpAddr::V4(ip) => (1, ip.octets().to_vec()),
        IpAddr::V6(ip) => (2, ip.octets().to_vec()),
    };
    let port = (address.port() ^ 0x2112).to_be_bytes();
    [&[0, family], &port[..], &masked(&octets, id)].concat()
}

fn masked(octets: &[u8], id: &[u8; 12]) -> Vec<u8> {
    let mask = COOKIE.iter().chain(id);
    octets.iter().zip(mask).map(|(a, b)| a ^ b).collect()
}

/// Returns the address in a value of XOR-MAPPED-ADDRESS.
pub fn address_in(value: &[u8], id: &[u8; 12]) -> Option<SocketAddr> {
    let port = u16::from_be_bytes(value.get(2..4)?.try_into().ok()?) ^ 0x2112;
    let octets = masked(&value[4..], id);
    let ip = match octets.len() {
        4 => IpAddr::from(Ipv4Addr::from(<[u8; 4]>::try_from(octets).ok()?)),
        _ => IpAddr::from(Ipv6Addr::from(<[u8; 16]>::try_from(octets).ok()?)),
    };
    Some(SocketAddr::new(ip, port))
}

/// Returns the type, the value, and the bytes with padding of each attribute, visible or not, up to
/// an attribute that is cut off.
pub fn attributes(message: &[u8]) -> Vec<(u16, &[u8], &[u8])> {
    let (mut rest, mut found) = (&message[20..], Vec::new());
    while let [a, b, c, d, ..] = *rest {
        let length = usize::from(u16::from_be_bytes([c, d]));
        let Some((whole, others)) = rest.split_at_checked(4 + length.next_multiple_of(4)) else {
            break;
        };
        found.push((u16::from_be_bytes([a, b]), &whole[4..4 + length], whole));
        rest = others;
    }
    found
}

/// The context of the words of a message: the meanings of names in the file, and stored messages.
pub trait Known {
    fn meaning(&self, name: &str) -> Option<Vec<&str>>;
    fn stored(&self, name: &str) -> Option<Vec<u8>>;
}

/// Returns the message that words describe.
pub fn message(words: &[&str], known: &impl Known) -> Option<Vec<u8>> {
    let (first, words) = words.split_first()?;
    if *first == "bytes" {
        return unhex(&words.concat());
    }
    if let Some(mut spelling) = Spelling::new(first) {
        add_words(&mut spelling, words, known)?;
        return spelling.finish();
    }
    changed(known.stored(first)?, words, known)
}

fn add_words(spelling: &mut Spelling, words: &[&str], known: &impl Known) -> Option<()> {
    for word in words {
        if word.starts_with('@') {
            for word in known.meaning(word)? {
                spelling.add_word(word)?;
            }
        } else {
            spelling.add_word(word)?;
        }
    }
    Some(())
}

/// Returns a stored message with changes.
fn changed(mut bytes: Vec<u8>, words: &[&str], known: &impl Known) -> Option<Vec<u8>> {
    match words.split_first() {
        None => Some(bytes),
        Some((&"bytes", words)) => {
            for word in words {
                let (at, digits) = word.split_once('=')?;
                let [byte] = unhex(digits)?[..] else {
                    return None;
                };
                *bytes.get_mut(usize::try_from(number(at)?).ok()?)? = byte;
            }
            Some(bytes)
        }
        Some((&"with", words)) => {
            let mut spelling = Spelling::of(&bytes)?;
            add_words(&mut spelling, words, known)?;
            spelling.finish()
        }
        Some((&"without", words)) => {
            let without = words.iter().map(|word| attribute_type(word));
            let without: Vec<u16> = without.collect::<Option<_>>()?;
            let mut spelling = Spelling::of(bytes.get(..20)?)?;
            for (kind, _, whole) in attributes(&bytes) {
                if !without.contains(&kind) {
                    spelling.attributes.extend(whole);
                }
            }
            spelling.finish()
        }
        _ => None,
    }
}

/// Returns the words that describe a message.
pub fn in_words(message: &[u8]) -> String {
    let kind = u16::from_be_bytes([message[0], message[1]]);
    let id: [u8; 12] = message[8..20].try_into().unwrap();
    let class = CLASSES.iter().find(|(_, number)| *number == kind);
    let mut words = match class {
        Some((name, _)) => name.to_string(),
        None => format!("request TYPE=0x{kind:04x}"),
    };
    if id != *b"\0\0\0\0\0\0\0\0\0\0\0\x01" {
        words += &format!(" ID=0x{}", hex(&id));
    }
    for (kind, value, _) in attributes(message) {
        words += &match type_name(kind) {
            Some(name) => format!(" {name}={}", shown_value(name, value, &id)),
            None => format!(" 0x{kind:04x}={}", hex(value)),
        };
    }
    words
}

fn shown_value(name: &str, value: &[u8], id: &[u8; 12]) -> String {
    match name {
        "REALM" | "NONCE" | "SOFTWARE" | "USERNAME" => shown_text(value),
        "ERROR-CODE" => {
            let code = u64::from(value[2]) * 100 + u64::from(value[3]);
            match phrase_of(code).as_bytes() == &value[4..] && value.len() > 4 {
                true => code.to_string(),
                false => format!("{code}:{}", shown_text(&value[4..])),
            }
        }
        "PASSWORD-ALGORITHMS" => {
            let names = value.chunks(4).map(|entry| match entry {
                [0, 1, 0, 0] => Some("MD5"),
                [0, 2, 0, 0] => Some("SHA256"),
                _ => None,
            });
            let names: Option<Vec<_>> = names.collect();
            names.map_or_else(|| format!("0x{}", hex(value)), |names| names.join(","))
        }
        "XOR-MAPPED-ADDRESS" => {
            address_in(value, id).map_or_else(|| hex(value), |address| address.to_string())
        }
        _ => hex(value),
    }
}
