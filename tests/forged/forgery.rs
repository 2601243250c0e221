//! The datagrams that an attacker forges in answer to a message of a client.

/// The transaction ID of a message.
pub type Id = [u8; 12];

const COOKIE: [u8; 4] = [0x21, 0x12, 0xA4, 0x42];
const MESSAGE_INTEGRITY: u16 = 0x0008;
const ERROR_CODE: u16 = 0x0009;
const REALM: u16 = 0x0014;
const NONCE: u16 = 0x0015;
const MESSAGE_INTEGRITY_SHA256: u16 = 0x001C;
const XOR_MAPPED_ADDRESS: u16 = 0x0020;
const PASSWORD_ALGORITHMS: u16 = 0x8002;

/// An address that no server has sent, so a client that returns it believed a forged success.
pub const FORGED_ADDRESS: [u8; 8] = [0, 1, 0, 9, 203, 0, 113, 9];

#[derive(Clone, Copy, PartialEq, Eq, Debug)]
pub enum Realm {
    Missing,
    Same,
    Other,
}

#[derive(Clone, Copy, PartialEq, Eq, Debug)]
pub enum Nonce {
    Missing,
    /// The one that the server sends now.
    Current,
    /// One that the server sent before, and does not accept any more.
    Former,
    /// The one that the server sends to another address.
    OfAnother,
    /// One without the cookie of RFC 8489, section 9.2.
    Plain,
    /// One that no server has made, with these security bits: 2 asks for password algorithms, 1
    /// allows hashed names.
    Made(u8),
}

/// The value of PASSWORD-ALGORITHMS.
#[derive(Clone, Copy, PartialEq, Eq, Debug)]
pub enum List {
    Missing,
    /// The one that the server sends.
    Same,
    /// Of these numbers, without parameters: MD5 is 1, SHA-256 is 2, and 3 is unknown.
    Of(&'static [u8]),
    /// SHA-256 with parameters, which has none.
    Parameters,
    /// An entry that is cut.
    Malformed,
}

/// The attribute that signs it. An attacker has no key.
#[derive(Clone, Copy, PartialEq, Eq, Debug)]
pub enum Signature {
    None,
    /// By another key, with HMAC-SHA1 or HMAC-SHA256.
    Wrong,
    WrongSha256,
    /// By the right key, but of another text: that of the last signed message that was seen.
    Copied,
}

/// A kind of datagram. The code 0 is a success.
#[derive(Clone, Copy, PartialEq, Eq, Debug)]
pub struct Forgery {
    pub code: u16,
    pub realm: Realm,
    pub nonce: Nonce,
    pub list: List,
    pub signature: Signature,
}

/// What an attacker has seen, and what he answers.
pub struct Seen<'a> {
    /// The transaction ID of the message that he answers.
    pub target: Id,
    /// The nonces of the server: the current one, an expired one, and that of another address.
    pub nonces: &'a [String; 3],
    /// The server's list, if it sends one.
    pub list: &'a [u8],
    /// The last attribute of the last signed message that was sent: its type and its value.
    pub signature: Option<(u16, &'a [u8])>,
}

impl Forgery {
    /// The datagram.
    pub fn bytes(&self, seen: &Seen<'_>) -> Vec<u8> {
        let mut page = Page::new(if self.code == 0 { 0x0101 } else { 0x0111 }, seen.target);
        match self.code {
            0 => page.add(XOR_MAPPED_ADDRESS, &FORGED_ADDRESS),
            code => page.add(ERROR_CODE, &[0, 0, (code / 100) as u8, (code % 100) as u8]),
        }
        match self.realm {
            Realm::Missing => {}
            Realm::Same => page.add(REALM, b"example.org"),
            Realm::Other => page.add(REALM, b"evil"),
        }
        match self.nonce {
            Nonce::Missing => {}
            Nonce::Current => page.add(NONCE, seen.nonces[0].as_bytes()),
            Nonce::Former => page.add(NONCE, seen.nonces[1].as_bytes()),
            Nonce::OfAnother => page.add(NONCE, seen.nonces[2].as_bytes()),
            Nonce::Plain => page.add(NONCE, b"x"),
            Nonce::Made(bits) => page.add(NONCE, made(bits).as_bytes()),
        }
        if let Some(list) = self.list.value(seen.list) {
            page.add(PASSWORD_ALGORITHMS, &list);
        }
        match (self.signature, seen.signature) {
            (Signature::None, _) => {}
            (Signature::WrongSha256, _) => page.add(MESSAGE_INTEGRITY_SHA256, &[7; 32]),
            (Signature::Copied, Some((kind, value))) => page.add(kind, value),
            _ => page.add(MESSAGE_INTEGRITY, &[7; 20]),
        }
        page.finish()
    }
}

impl List {
    fn value(self, same: &[u8]) -> Option<Vec<u8>> {
        match self {
            List::Missing => None,
            List::Same => (!same.is_empty()).then(|| same.to_vec()),
            List::Of(numbers) => Some(numbers.iter().flat_map(|n| [0, *n, 0, 0]).collect()),
            List::Parameters => Some(vec![0, 2, 0, 4, 1, 2, 3, 4, 0, 1, 0, 0]),
            List::Malformed => Some(vec![0, 2, 0]),
        }
    }
}

/// A nonce with these security bits, which are the first two of 24 after the cookie.
fn made(bits: u8) -> &'static str {
    [
        "obMatJos2AAAAforged",
        "obMatJos2QAAAforged",
        "obMatJos2gAAAforged",
        "obMatJos2wAAAforged",
    ][usize::from(bits)]
}

/// A message that is being written.
struct Page(Vec<u8>);

impl Page {
    fn new(kind: u16, id: Id) -> Page {
        let [first, second] = kind.to_be_bytes();
        Page([&[first, second, 0, 0], &COOKIE[..], &id[..]].concat())
    }

    fn add(&mut self, kind: u16, value: &[u8]) {
        let length = value.len() as u16;
        self.0.extend(kind.to_be_bytes());
        self.0.extend(length.to_be_bytes());
        self.0.extend(value);
        self.0.resize(self.0.len().next_multiple_of(4), 0);
    }

    fn finish(mut self) -> Vec<u8> {
        let length = (self.0.len() - 20) as u16;
        self.0[2..4].copy_from_slice(&length.to_be_bytes());
        self.0
    }
}

/// The transaction ID of a message.
pub fn id_of(message: &[u8]) -> Id {
    message[8..20].try_into().expect("a message")
}

/// The attributes of a message: type and value.
pub fn attributes(message: &[u8]) -> Vec<(u16, &[u8])> {
    let (mut at, mut found) = (20, Vec::new());
    while at + 4 <= message.len() {
        let kind = u16::from_be_bytes([message[at], message[at + 1]]);
        let length = usize::from(u16::from_be_bytes([message[at + 2], message[at + 3]]));
        found.push((kind, &message[at + 4..at + 4 + length]));
        at += 4 + length.next_multiple_of(4);
    }
    found
}

/// The attribute that signs a message.
pub fn signature_of(message: &[u8]) -> Option<(u16, &[u8])> {
    let is_signature = |kind| kind == MESSAGE_INTEGRITY || kind == MESSAGE_INTEGRITY_SHA256;
    attributes(message)
        .into_iter()
        .find(|one| is_signature(one.0))
}

// ---- the alphabets

const REALMS: [Realm; 3] = [Realm::Same, Realm::Other, Realm::Missing];
const NONCES: [Nonce; 9] = [
    Nonce::Current,
    Nonce::Former,
    Nonce::OfAnother,
    Nonce::Plain,
    Nonce::Made(0),
    Nonce::Made(1),
    Nonce::Made(2),
    Nonce::Made(3),
    Nonce::Missing,
];
const LISTS: [List; 12] = [
    List::Same,
    List::Missing,
    List::Of(&[1]),
    List::Of(&[2]),
    List::Of(&[1, 2]),
    List::Of(&[2, 1]),
    List::Of(&[3]),
    List::Of(&[3, 2, 1]),
    List::Of(&[1, 3]),
    List::Of(&[]),
    List::Parameters,
    List::Malformed,
];
const SIGNATURES: [Signature; 4] = [
    Signature::None,
    Signature::Wrong,
    Signature::WrongSha256,
    Signature::Copied,
];

/// Successes, and errors that are no challenges.
const OTHERS: [u16; 9] = [0, 300, 400, 403, 420, 437, 441, 486, 500];

/// All kinds of forged datagrams, for one alone.
pub fn all() -> Vec<Forgery> {
    let mut all = Vec::new();
    for code in [401, 438] {
        for nonce in NONCES {
            for realm in REALMS {
                for list in LISTS {
                    for signature in SIGNATURES {
                        all.push(Forgery {
                            code,
                            realm,
                            nonce,
                            list,
                            signature,
                        });
                    }
                }
            }
        }
    }
    for code in OTHERS {
        for signature in SIGNATURES {
            for (realm, nonce, list) in [
                (Realm::Missing, Nonce::Missing, List::Missing),
                (Realm::Same, Nonce::Current, List::Same),
                (Realm::Other, Nonce::Plain, List::Of(&[1])),
            ] {
                all.push(Forgery {
                    code,
                    realm,
                    nonce,
                    list,
                    signature,
                });
            }
        }
    }
    all
}

/// Those of which every pair is played in each run: challenges that differ only in whether they
/// have the nonce that the server sends now or the one that it sent before.
pub fn renewals() -> Vec<Forgery> {
    let (realm, list, signature) = (Realm::Same, List::Same, Signature::None);
    [401, 438]
        .into_iter()
        .flat_map(|code| [Nonce::Current, Nonce::Former].map(|nonce| (code, nonce)))
        .map(|(code, nonce)| Forgery {
            code,
            realm,
            nonce,
            list,
            signature,
        })
        .collect()
}

/// Those of which two are forged: unsigned ones.
pub fn some() -> Vec<Forgery> {
    let (signature, mut some) = (Signature::None, Vec::new());
    for code in [401, 438] {
        for nonce in [
            Nonce::Current,
            Nonce::Former,
            Nonce::OfAnother,
            Nonce::Plain,
            Nonce::Made(0),
            Nonce::Made(3),
        ] {
            for realm in [Realm::Same, Realm::Other] {
                for list in [
                    List::Same,
                    List::Missing,
                    List::Of(&[1]),
                    List::Of(&[3, 1, 2]),
                ] {
                    some.push(Forgery {
                        code,
                        realm,
                        nonce,
                        list,
                        signature,
                    });
                }
            }
        }
    }
    let (realm, nonce, list) = (Realm::Missing, Nonce::Missing, List::Missing);
    some.extend([400, 437, 441, 500].map(|code| Forgery {
        code,
        realm,
        nonce,
        list,
        signature,
    }));
    some
}
