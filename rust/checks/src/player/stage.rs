//! The state on which a paragraph is played: the objects of the library, and their context.

use super::Heap;
use super::agent::Agent;
use super::drive::Drive;
use super::endpoint::Endpoint;
use super::meeting::Meeting;
use super::secret::Secrets;
use super::serve::Serving;
use super::spelling::{Known, in_words, message};
use super::transcript::Transcript;
use super::words::{hex, text};
use super::write::Writer;
use crate::exported::stun_auth::auth::{LongTermClientAuth, LongTermServerAuth, ShortTermAuth};
use crate::exported::stun_base::instant::Instant;
use crate::kit::prelude::String as HeapString;
use std::collections::HashMap;
use std::net::SocketAddr;

/// Numbers of blocks of memory.
#[derive(Clone, Copy, Default)]
pub struct Blocks {
    pub asked: u64,
    pub returned: u64,
}

/// The state of a paragraph: one object of each kind, the stored messages, and the address, the
/// time and the random numbers of the messages that arrive.
pub struct Stage<'a> {
    pub transcript: &'a Transcript<'a>,
    /// The heap on which the library allocates, and on which the player allocates what it passes to
    /// the library.
    pub heap: &'a Heap,
    pub from: SocketAddr,
    pub now: Instant,
    pub draws: [u32; 16],
    stored: HashMap<String, Vec<u8>>,
    pub server: LongTermServerAuth<&'a Heap>,
    pub client: LongTermClientAuth<&'a Heap>,
    pub short_term: ShortTermAuth<&'a Heap>,
    pub agent: Agent<'a>,
    pub writer: Writer<'a>,
    pub secrets: Secrets<'a>,
    pub drive: Drive<'a>,
    pub serving: Serving,
    pub meeting: Meeting,
    pub endpoint: Endpoint<'a>,
    /// The number of the allocation of a call that is refused, or 0 for none.
    pub nth: u64,
    /// Whether that allocation was refused.
    pub is_refused: bool,
    /// Whether the call is a run, which ends after some of its calls.
    pub is_run: bool,
    /// The blocks of the last call of the library.
    pub work: Blocks,
    /// The blocks before the call of the library that is being made.
    before: Option<Blocks>,
}

impl Known for Stage<'_> {
    fn meaning(&self, name: &str) -> Option<Vec<&str>> {
        self.transcript.meaning(name)
    }

    fn stored(&self, name: &str) -> Option<Vec<u8>> {
        self.stored.get(name).cloned()
    }
}

impl<'a> Stage<'a> {
    /// Creates a stage with the time 0, the address 10.0.0.1:12345, random numbers 0, and new
    /// objects without users and credentials.
    pub fn new(transcript: &'a Transcript<'a>, heap: &'a Heap) -> Stage<'a> {
        Stage {
            transcript,
            heap,
            from: SocketAddr::from(([10, 0, 0, 1], 12345)),
            now: Instant::ZERO,
            draws: [0; 16],
            stored: HashMap::new(),
            server: LongTermServerAuth::new(heap, HeapString::new(heap)),
            client: LongTermClientAuth::new(heap),
            short_term: ShortTermAuth::new(heap),
            agent: Agent::new(heap),
            writer: Writer::None,
            secrets: Secrets::default(),
            drive: Drive::new(heap),
            serving: Serving::new(""),
            meeting: Meeting::default(),
            endpoint: Endpoint::new(),
            nth: 0,
            is_refused: false,
            is_run: false,
            work: Blocks::default(),
            before: None,
        }
    }

    /// Returns the message that words describe.
    pub fn message(&self, words: &[&str]) -> Option<Vec<u8>> {
        message(words, self)
    }

    /// Returns a request with these attributes.
    pub fn carrier(&self, words: &[&str]) -> Option<Vec<u8>> {
        self.message(&[&["request"], words].concat())
    }

    /// Returns the words that describe a message, or `bytes` and its digits if the words describe
    /// another message.
    pub fn shown(&self, bytes: &[u8]) -> String {
        if bytes.len() >= 20 {
            let told = in_words(bytes);
            let words: Vec<&str> = told.split(' ').collect();
            if self.message(&words).as_deref() == Some(bytes) {
                return told;
            }
        }
        format!("bytes {}", hex(bytes))
    }

    /// Stores a message under a name.
    pub fn store(&mut self, name: &str, bytes: Vec<u8>) {
        self.stored.insert(name.to_string(), bytes);
    }

    /// Copies a text to the heap.
    pub fn on_heap(&self, text: &str) -> Option<HeapString<&'a Heap>> {
        HeapString::from_str(self.heap, text).ok()
    }

    /// Copies the text that a word describes to the heap.
    pub fn text(&self, word: &str) -> Option<HeapString<&'a Heap>> {
        self.on_heap(&text(word))
    }

    fn blocks(&self) -> Blocks {
        Blocks {
            asked: self.heap.allocations(),
            returned: self.heap.deallocations(),
        }
    }

    /// Marks the beginning of the library's work. From now on an allocation may be refused.
    pub fn begin(&mut self) {
        self.before = Some(self.blocks());
        self.heap.refuse(self.nth);
    }

    /// Marks the end of the library's work.
    pub fn end(&mut self) {
        if let Some(before) = self.before.take() {
            let after = self.blocks();
            self.work = Blocks {
                asked: after.asked - before.asked,
                returned: after.returned - before.returned,
            };
            self.is_refused = self.nth != 0 && !self.heap.is_waiting();
        }
        self.heap.refuse(0);
    }
}
