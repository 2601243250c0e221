//! Plays the calls of a server as one value: `endpoint server NAME WORD ..`.

mod heard;
mod respond;
mod settings;

use super::stage::Stage;
use super::words::drawn;
use super::{Answer, Heap, OUT_OF_MEMORY};
use crate::exported::stun_base::instant::Instant;
use crate::exported::stun_endpoint::reply::Reply;
use crate::exported::stun_endpoint::server::{BuildError, LongTerm, Server};
use crate::exported::stun_endpoint::unix_time::UnixTime;
use crate::exported::stun_endpoint::users::Users;
use crate::exported::stun_types::message::LongTermCredentials;
use crate::kit::alloc::Global;
use crate::kit::prelude::String as HeapString;

/// The settings so far, the server that was built from them, and the last reply of the server.
pub struct Endpoint<'a> {
    settings: LongTerm,
    /// Whether the list of algorithms is empty, which no set of them expresses.
    lacks_algorithms: bool,
    built: Option<Realm<'a>>,
    /// The reply to the last request that was returned to the caller.
    reply: Option<Reply<&'a Heap>>,
}

/// A server and its users.
struct Realm<'a> {
    server: Server<&'a Heap>,
    users: Users<&'a Heap>,
}

impl Endpoint<'_> {
    /// Creates the settings for an empty realm, without a server.
    pub fn new() -> Self {
        Endpoint {
            settings: LongTerm::new(Global, HeapString::new(Global), drawn(1)),
            lacks_algorithms: false,
            built: None,
            reply: None,
        }
    }
}

/// Plays `endpoint server NAME WORD ..`.
pub fn call(stage: &mut Stage<'_>, words: &[&str]) -> Answer {
    match words {
        ["build"] => build(stage),
        ["add-user", name, password] => add_user(stage, name, password),
        ["remove-user", name] => {
            stage.begin();
            stage.endpoint.built.as_mut()?.users.remove(name);
            Some(String::new())
        }
        ["nonce"] => nonce(stage),
        ["hears", words @ ..] => heard::hear(stage, words),
        ["responds", words @ ..] => respond::respond(stage, words),
        ["algorithms", "-"] => {
            stage.endpoint.lacks_algorithms = true;
            Some(String::new())
        }
        [name, word] => {
            if ["realm", "algorithms"].contains(name) {
                stage.endpoint.lacks_algorithms = false;
            }
            settings::set(&mut stage.endpoint.settings, name, word)?;
            Some(String::new())
        }
        _ => None,
    }
}

/// Plays `build`: builds a server with the settings and without users, which replaces the previous
/// server. If it cannot be built, prints why.
fn build(stage: &mut Stage<'_>) -> Answer {
    let settings = settings::on_heap(stage, &stage.endpoint.settings)?;
    stage.begin();
    match realm(stage.heap, settings) {
        // As the crate in Rust does, an empty list is refused after the other settings.
        Ok(_) if stage.endpoint.lacks_algorithms => return Some("NoAlgorithm".to_string()),
        Ok(realm) => stage.endpoint.built = Some(realm),
        Err(error) => return Some(format!("{error:?}")),
    }
    Some(String::new())
}

fn realm<'a>(heap: &'a Heap, settings: LongTerm<&'a Heap>) -> Result<Realm<'a>, BuildError> {
    let server = Server::new(heap, settings)?;
    let users = server.users().map_err(|_| BuildError::OutOfMemory)?;
    Ok(Realm { server, users })
}

/// Returns the wall-clock time: the whole seconds of the time of the stage.
fn seconds(now: Instant) -> UnixTime {
    UnixTime::from_secs(now.as_nanos() / 1_000_000_000)
}

fn add_user(stage: &mut Stage<'_>, name: &str, password: &str) -> Answer {
    let user = LongTermCredentials::new(stage.text(name)?, stage.on_heap(password)?);
    stage.begin();
    match stage.endpoint.built.as_mut()?.users.add(user) {
        Ok(_) => Some(String::new()),
        Err(_) => Some(OUT_OF_MEMORY.to_string()),
    }
}

/// Plays `nonce`: prints the nonce that is current for the address.
fn nonce(stage: &mut Stage<'_>) -> Answer {
    stage.begin();
    let server = &stage.endpoint.built.as_ref()?.server;
    match server.nonce_for(stage.from, seconds(stage.now)) {
        Ok(nonce) => Some(nonce.as_str().to_string()),
        Err(_) => Some(OUT_OF_MEMORY.to_string()),
    }
}
