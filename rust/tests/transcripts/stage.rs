//! The state on which a paragraph is played.

use crate::client::ClientStage;
use crate::ice::IceStage;
use crate::limited::within;
use crate::look_ups::LookupStage;
use crate::messages::{Known, message};
use crate::open::{OpenStage, ShortTermStage};
use crate::words::{address, span};
use std::collections::HashMap;
use std::net::SocketAddr;
use std::time::Duration;

/// The context of a call: its time, the address that its message comes from, and the words of
/// messages.
pub struct Around<'a> {
    pub now: Duration,
    pub from: SocketAddr,
    meanings: &'a HashMap<&'a str, Vec<&'a str>>,
    stored: HashMap<String, Vec<u8>>,
}

impl Known for Around<'_> {
    fn meaning(&self, name: &str) -> Option<Vec<&str>> {
        self.meanings.get(name).cloned()
    }

    fn stored(&self, name: &str) -> Option<Vec<u8>> {
        self.stored.get(name).cloned()
    }
}

impl Around<'_> {
    pub fn message(&self, words: &[&str]) -> Option<Vec<u8>> {
        message(words, self)
    }

    /// Returns a request with these attributes.
    pub fn carrier(&self, words: &[&str]) -> Option<Vec<u8>> {
        self.message(&[&["request"], words].concat())
    }
}

pub struct Stage<'a> {
    around: Around<'a>,
    look_ups: LookupStage,
    open: OpenStage,
    short_term: ShortTermStage,
    ice: IceStage,
    client: ClientStage,
}

impl<'a> Stage<'a> {
    pub fn new(meanings: &'a HashMap<&'a str, Vec<&'a str>>) -> Stage<'a> {
        Stage {
            around: Around {
                now: Duration::ZERO,
                from: SocketAddr::from(([10, 0, 0, 1], 12345)),
                meanings,
                stored: HashMap::new(),
            },
            look_ups: LookupStage::default(),
            open: OpenStage::default(),
            short_term: ShortTermStage::default(),
            ice: IceStage::default(),
            client: ClientStage::default(),
        }
    }

    /// Makes a call, and returns its answer, or `?` if the line is not understood.
    pub fn answer(&mut self, call: &str) -> String {
        let words: Vec<&str> = call.split_whitespace().collect();
        self.call(&words).unwrap_or_else(|| "?".to_string())
    }

    fn call(&mut self, mut words: &[&str]) -> Option<String> {
        if words.first()?.starts_with(|c: char| c.is_ascii_digit()) {
            self.around.now = span(words[0])?;
            words = &words[1..];
        }
        match words {
            ["from", word] => {
                self.around.from = address(word)?;
                Some(String::new())
            }
            [name, "=", words @ ..] => {
                let bytes = self.around.message(words)?;
                self.around.stored.insert(name.to_string(), bytes);
                Some(String::new())
            }
            ["endpoint", "server", words @ ..] => self.look_ups.call(&self.around, words),
            ["endpoint", "open", words @ ..] => self.open.call(&self.around, words),
            ["endpoint", "short-term", words @ ..] => self.short_term.call(&self.around, words),
            ["endpoint", "ice", words @ ..] => self.ice.call(&self.around, words),
            ["endpoint", "client", words @ ..] => self.client.call(&self.around, words),
            _ => None,
        }
    }
}

/// Makes a call with so few blocks of memory that it fails, then with one block more, and so on
/// until it succeeds. Returns the last result.
pub fn until_enough<T>(mut call: impl FnMut() -> T, is_out_of_memory: impl Fn(&T) -> bool) -> T {
    for blocks in 0..100 {
        let result = within(blocks, &mut call);
        if !is_out_of_memory(&result) {
            return result;
        }
    }
    panic!("a call takes more than 100 blocks");
}
