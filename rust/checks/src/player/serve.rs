//! Plays runs of the server: `serve NAME WORD ..`. Calls are collected, one call makes them all,
//! and then the replies are printed one by one.
//!
//! A run in which an allocation is refused stops after some of its calls, and its replies are lost.
//! When the run is made again, it makes the calls that are left. The lost replies are then taken
//! from a twin of the server, on which all calls are made with enough memory. So the run, its last
//! replies and the state afterwards must be as the transcript says. Only the calls of `serve` are
//! made on the twin.

use super::names::{parse_error, write_error};
use super::stage::Stage;
use super::values::{algorithm, feature};
use super::words::{address, hex, span, text};
use super::{Answer, OUT_OF_MEMORY};
use crate::exported::stun_auth::auth::LongTermServerAuth;
use crate::exported::stun_proto::replay::{ServerCall, ServerReply, serve};
use crate::kit::alloc::{Allocator, Global};
use crate::kit::prelude::{String as HeapString, Vec as HeapVec};

/// The calls of a paragraph, and their replies.
pub struct Serving {
    calls: Vec<ServerCall>,
    /// The number of calls that were made.
    made: usize,
    replies: Vec<String>,
    /// The number of replies that were printed.
    told: usize,
    /// Whether an allocation of the last run was refused.
    is_broken: bool,
    /// A server with enough memory, which is used only after a run was interrupted.
    twin: LongTermServerAuth,
}

impl Serving {
    /// Creates a state without calls, and a twin with this realm.
    pub fn new(realm: &str) -> Serving {
        Serving {
            calls: Vec::new(),
            made: 0,
            replies: Vec::new(),
            told: 0,
            is_broken: false,
            twin: LongTermServerAuth::new(Global, HeapString::from(realm.to_string())),
        }
    }

    /// Stores the replies that a broken run lost, before the last `given` ones.
    fn store_lost(&mut self, given: usize) -> Option<()> {
        let whole = serve(Global, &mut self.twin, &self.calls).ok()?;
        let (stored, before) = (self.replies.len(), whole.len().saturating_sub(given));
        let lost = whole.iter().take(before).skip(stored);
        self.replies.extend(lost.map(reply_text));
        Some(())
    }

    /// Stores the replies of a run. Returns how many there are.
    fn finish<A: Allocator>(&mut self, given: &[ServerReply<A>]) -> Option<usize> {
        let before = self.replies.len();
        if self.is_broken {
            self.store_lost(given.len())?;
        }
        self.replies.extend(given.iter().map(reply_text));
        self.made = self.calls.len();
        self.is_broken = false;
        Some(self.replies.len() - before)
    }
}

/// Returns the text of a reply, as `server` would print the answer to the same call.
fn reply_text<A: Allocator>(reply: &ServerReply<A>) -> String {
    match reply {
        ServerReply::NotAMessage(error) => parse_error(*error).to_string(),
        ServerReply::Validated(algorithm) => format!("{algorithm:?}"),
        ServerReply::Refused(reason) => format!("{reason:?}"),
        ServerReply::Signed(bytes) => hex(bytes),
        ServerReply::SignRefused(error) => write_error(*error).to_string(),
        ServerReply::Done => "done".to_string(),
        ServerReply::TooShort => "too short".to_string(),
    }
}

/// Parses a call that is collected, which is made at the time, from the address and with the random
/// numbers of the stage. It has the form of a call of `server`.
pub fn server_call(stage: &Stage<'_>, words: &[&str]) -> Option<ServerCall> {
    let owned = |word: &str| HeapString::from(text(word));
    let message = |words| HeapVec::from_slice(Global, &stage.message(words)?).ok();
    Some(match words {
        ["hears", words @ ..] => ServerCall::Validate {
            from: stage.from,
            now: stage.now,
            message: message(words)?,
            words: stage.draws,
        },
        ["signs", words @ ..] => ServerCall::Sign {
            to: stage.from,
            message: message(words)?,
        },
        ["add-user", name, password] => ServerCall::AddUser {
            name: owned(name),
            password: owned(password),
        },
        ["remove-user", name] => ServerCall::RemoveUser(owned(name)),
        ["remove-client"] => ServerCall::RemoveClient(stage.from),
        ["forget"] => ServerCall::ForgetExpired(stage.now),
        ["forget", word] => ServerCall::Forget(address(word)?),
        ["support", word] => ServerCall::AddIntegrity(algorithm(word)?),
        ["support-only", word] => ServerCall::SetIntegrity(algorithm(word)?),
        ["hashes", word] => ServerCall::SetAnonymous(feature(word)?),
        ["expiry", word] => ServerCall::SetExpiry(span(word)?),
        _ => return None,
    })
}

/// Plays `serve NAME WORD ..`.
pub fn call(stage: &mut Stage<'_>, words: &[&str]) -> Answer {
    match words {
        // Creates a server like `server new`, and its twin.
        ["new", word] => {
            let realm = text(word);
            let copy = stage.on_heap(&realm)?;
            stage.serving = Serving::new(&realm);
            stage.begin();
            stage.server = LongTermServerAuth::new(stage.heap, copy);
        }
        ["call", words @ ..] => {
            let call = server_call(stage, words)?;
            stage.serving.calls.push(call);
        }
        ["run"] => return run(stage),
        // The next reply.
        ["reply"] => {
            let serving = &mut stage.serving;
            let Some(reply) = serving.replies.get(serving.told) else {
                return Some("none".to_string());
            };
            serving.told += 1;
            return Some(reply.clone());
        }
        _ => return None,
    }
    Some(String::new())
}

/// Plays `serve run`: makes the calls that are left, and prints how many replies there are.
fn run(stage: &mut Stage<'_>) -> Answer {
    stage.begin();
    let left = &stage.serving.calls[stage.serving.made..];
    match serve(stage.heap, &mut stage.server, left) {
        Ok(replies) => Some(format!("{} replies", stage.serving.finish(&replies)?)),
        Err(stopped) => {
            stage.serving.made += stopped.done;
            stage.serving.is_broken = true;
            stage.is_run = true;
            Some(OUT_OF_MEMORY.to_string())
        }
    }
}
