//! A server that answers as coturn 4.6.1 does: it compares REALM, and refuses a message of another
//! realm, or another message once it has accepted one, by errors that nobody signs.

use crate::forgery::{Id, attributes, id_of, signature_of};
use seatcrane_stun::types::attribute::{ErrorCode, Nonce, Realm};
use seatcrane_stun::types::message::*;
use seatcrane_stun::types::prelude::*;

const REALM: u16 = 0x0014;
const NONCE: u16 = 0x0015;

/// How such servers differ.
#[derive(Clone, Copy, Debug)]
pub struct Strictness {
    /// It allocates: once it has accepted a request, it refuses each with another transaction ID.
    pub allocates: bool,
    /// It has a new nonce after each 438. coturn does not.
    pub renews: bool,
}

/// What it has to remember of its only client.
#[derive(Clone, Default)]
pub struct State {
    pub nonce: u64,
    /// The transaction ID of the request that it has accepted.
    pub allocation: Option<Id>,
}

pub struct Strict {
    strictness: Strictness,
    key: MessageIntegrityCredentials,
}

impl State {
    pub fn text(&self) -> String {
        format!("nonce{}", self.nonce)
    }
}

impl Strict {
    pub fn new(strictness: Strictness) -> Strict {
        let alice = LongTermCredentials::new("alice".to_string(), "wonderland".to_string());
        let key = MessageIntegrityCredentials::LongTerm(alice.to_key("example.org".to_string()));
        Strict { strictness, key }
    }

    /// Answers a request, and returns whether it is accepted.
    pub fn answer(&self, bytes: &[u8], state: &mut State) -> (Vec<u8>, bool) {
        let request = Message::from_bytes(bytes).expect("a request");
        match self.refusal(&request, bytes, state) {
            Some(code) => (self.error(&request, code, state), false),
            None => {
                state.allocation = Some(id_of(bytes));
                let mut page = Message::builder_success(&request, MessageWriteVec::new());
                page.add_message_integrity(&self.key, IntegrityAlgorithm::Sha1)
                    .expect("room");
                (page.finish(), true)
            }
        }
    }

    fn refusal(&self, request: &Message<'_>, bytes: &[u8], state: &mut State) -> Option<u16> {
        let has = |kind, text: &str| {
            attributes(bytes)
                .iter()
                .any(|one| *one == (kind, text.as_bytes()))
        };
        let allocates = self.strictness.allocates;
        if allocates && state.allocation.is_some_and(|id| id != id_of(bytes)) {
            return Some(437);
        }
        if signature_of(bytes).is_none() {
            return Some(401);
        }
        if !has(REALM, "example.org") {
            return Some(if allocates { 437 } else { 441 });
        }
        if !has(NONCE, &state.text()) {
            state.nonce += u64::from(self.strictness.renews);
            return Some(438);
        }
        match request.validate_integrity(&self.key) {
            Ok(IntegrityAlgorithm::Sha1) => None,
            _ => Some(401),
        }
    }

    fn error(&self, request: &Message<'_>, code: u16, state: &State) -> Vec<u8> {
        let mut page = Message::builder_error(request, MessageWriteVec::new());
        let error = ErrorCode::builder(code).build().expect("a code");
        page.add_attribute(&error).expect("room");
        if code == 401 || code == 438 {
            page.add_attribute(&Realm::new("example.org").expect("short"))
                .expect("room");
            page.add_attribute(&Nonce::new(&state.text()).expect("short"))
                .expect("room");
        }
        page.finish()
    }
}
