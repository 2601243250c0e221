//! Plays `endpoint server ..`: a server that looks its users up.

use crate::servers::*;
use crate::stage::{Around, until_enough};
use crate::words::*;
use seatcrane_stun::auth::{NamedUser, StoredKeys};
use seatcrane_stun::endpoint::*;
use seatcrane_stun::extra::canonical;
use seatcrane_stun::types::attribute::AttributeType;
use seatcrane_stun::types::message::{IntegrityAlgorithm, LongTermCredentials};
use std::net::SocketAddr;

/// The servers, users and messages of a paragraph. They live until the process ends, because
/// look-ups borrow them.
#[derive(Default)]
pub struct LookupStage {
    settings: Option<Settings>,
    server: Option<&'static Server>,
    user: Option<&'static User>,
    waiting: Option<(Lookup<'static>, &'static [u8], SocketAddr)>,
    reply: Option<Reply>,
}

struct Settings {
    realm: String,
    secret: [u8; 32],
    previous: Option<[u8; 32]>,
    algorithms: Vec<IntegrityAlgorithm>,
    hashes: bool,
    lifetime: u64,
    understood: Vec<AttributeType>,
    software: Option<String>,
    answers_binding: bool,
    requires_fingerprint: bool,
}

impl Settings {
    fn new(realm: String) -> Settings {
        Settings {
            realm,
            secret: drawn(1),
            previous: None,
            algorithms: vec![IntegrityAlgorithm::Sha1, IntegrityAlgorithm::Sha256],
            hashes: true,
            lifetime: DEFAULT_NONCE_LIFETIME,
            understood: Vec::new(),
            software: None,
            answers_binding: false,
            requires_fingerprint: false,
        }
    }

    fn set(&mut self, name: &str, word: &str) -> Option<()> {
        match name {
            "secret" => self.secret = secret(word)?,
            "previous-secret" => self.previous = Some(secret(word)?),
            "algorithms" => self.algorithms = algorithms(word)?,
            "hashes" => self.hashes = yes(word)?,
            "lifetime" => self.lifetime = span(word)?.as_secs(),
            "understands" => self.understood = understood(word)?,
            "software" => self.software = Some(text(word)),
            "binding" => self.answers_binding = yes(word)?,
            "requires-fingerprint" => self.requires_fingerprint = yes(word)?,
            _ => return None,
        }
        Some(())
    }

    fn build(&self) -> Result<Server, BuildError> {
        let mut long_term = LongTerm::new(&*self.realm, self.secret)
            .algorithms(&self.algorithms)
            .user_hashes(self.hashes)
            .nonce_lifetime(self.lifetime);
        if let Some(previous) = self.previous {
            long_term = long_term.previous_secret(previous);
        }
        let mut builder = Server::builder(long_term).understands(&self.understood);
        if let Some(software) = &self.software {
            builder = builder.software(software);
        }
        if self.answers_binding {
            builder = builder.answer_binding(true);
        }
        if self.requires_fingerprint {
            builder = builder.require_fingerprint(true);
        }
        builder.build()
    }
}

fn is_out_of_memory(received: &Received<'_>) -> bool {
    matches!(received, Received::Dropped(DropReason::OutOfMemory))
}

fn is_done_without_memory(identified: &Identified<'_>) -> bool {
    matches!(identified, Identified::Done(received) if is_out_of_memory(received))
}

impl LookupStage {
    pub fn call(&mut self, around: &Around<'_>, words: &[&str]) -> Option<String> {
        let (name, words) = words.split_first()?;
        match *name {
            "build" => self.build(),
            "looks-up" => self.look_up(words),
            "looks-up-keys" => self.look_up_keys(words),
            "identifies" => self.identify(around, words),
            "resumes" => self.resume(),
            "responds" => respond(around, self.reply.as_ref()?, words),
            "realm" => {
                self.settings = Some(Settings::new(text(words.first()?)));
                Some(String::new())
            }
            name => {
                self.settings.as_mut()?.set(name, words.first()?)?;
                Some(String::new())
            }
        }
    }

    fn build(&mut self) -> Option<String> {
        match self.settings.as_ref()?.build() {
            Ok(server) => self.server = Some(Box::leak(Box::new(server))),
            Err(why) => return Some(format!("{why:?}")),
        }
        Some(String::new())
    }

    /// Plays `looks-up NAME PASSWORD`, or `looks-up none`.
    fn look_up(&mut self, words: &[&str]) -> Option<String> {
        self.user = match words {
            ["none"] => None,
            [name, password] => {
                let user = LongTermCredentials::new(text(name), text(password));
                Some(Box::leak(Box::new(self.server?.user(user))))
            }
            _ => return None,
        };
        Some(String::new())
    }

    /// Plays `looks-up-keys NAME KEY KEY`, with the keys for HMAC-SHA1 and HMAC-SHA256, or `-`.
    fn look_up_keys(&mut self, words: &[&str]) -> Option<String> {
        let [name, sha1, sha256] = words else {
            return None;
        };
        let key = |word: &str| (word != "-").then(|| unhex(word)).flatten();
        let keys = StoredKeys::new()
            .with_sha1(key(sha1).and_then(|key| key.try_into().ok()))
            .with_sha256(key(sha256).and_then(|key| key.try_into().ok()));
        let user = self.server?.user_with_keys(*name, keys);
        self.user = Some(Box::leak(Box::new(user)));
        Some(String::new())
    }

    fn identify(&mut self, around: &Around<'_>, words: &[&str]) -> Option<String> {
        let (server, from) = (self.server?, around.from);
        let bytes: &'static [u8] = around.message(words)?.leak();
        let now = UnixTime::from_secs(around.now.as_secs());
        let call = || server.identify(bytes, from, now);
        match until_enough(call, is_done_without_memory) {
            Identified::Done(received) => Some(self.received(received, bytes, from)),
            Identified::Lookup(lookup) => {
                let is_so = lookup.from() == canonical(from)
                    && lookup.arrived() == now
                    && lookup.transaction_id() == lookup.message().transaction_id()
                    && is_of(lookup.message(), bytes);
                let user = match lookup.user_id() {
                    NamedUser::ByName(name) => name.to_string(),
                    NamedUser::ByHash(hash) => format!("0x{}", hex(&hash)),
                };
                self.waiting = Some((lookup, bytes, from));
                Some(format!("looks up {user}{}", unless(is_so)))
            }
        }
    }

    /// Resumes the request that waits. Before that, resumes look-ups of the same datagram with too
    /// little memory.
    fn resume(&mut self) -> Option<String> {
        let (lookup, bytes, from) = self.waiting.take()?;
        let (server, user) = (self.server?, self.user);
        let arrived = lookup.arrived();
        for blocks in 0.. {
            let Identified::Lookup(again) = server.identify(bytes, from, arrived) else {
                break;
            };
            if !is_out_of_memory(&crate::limited::within(blocks, || {
                server.resume(again, user)
            })) {
                break;
            }
        }
        let received = server.resume(lookup, user);
        Some(self.received(received, bytes, from))
    }

    fn received(&mut self, received: Received<'_>, bytes: &[u8], from: SocketAddr) -> String {
        match received {
            Received::Answer(answer) => of_answer(&answer, from),
            Received::Request(request) => {
                self.reply = Some(request.reply().clone());
                of_request(&request, bytes, from)
            }
            Received::Indication(message) => {
                format!("indication{}", unless(is_of(&message, bytes)))
            }
            Received::Response(message) => format!("response{}", unless(is_of(&message, bytes))),
            Received::Dropped(why) => format!("dropped {why:?}"),
            _ => "?".to_string(),
        }
    }
}

/// Parses `sha1,sha256`, or `-` for no algorithm.
pub fn algorithms(word: &str) -> Option<Vec<IntegrityAlgorithm>> {
    let names = word.split(',').filter(|name| *name != "-");
    names.map(algorithm).collect()
}

pub fn algorithm(word: &str) -> Option<IntegrityAlgorithm> {
    match word {
        "sha1" => Some(IntegrityAlgorithm::Sha1),
        "sha256" => Some(IntegrityAlgorithm::Sha256),
        _ => None,
    }
}

pub fn understood(word: &str) -> Option<Vec<AttributeType>> {
    Some(types(word)?.into_iter().map(AttributeType::from).collect())
}
