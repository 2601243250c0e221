//! Plays `endpoint open ..` and `endpoint short-term ..`: servers without a realm.

use crate::look_ups::understood;
use crate::servers::*;
use crate::stage::{Around, until_enough};
use crate::words::{text, yes};
use seatcrane_stun::endpoint::*;
use seatcrane_stun::extra::canonical;
use seatcrane_stun::types::message::ShortTermCredentials;

/// Changes the setting that a line names. No call undoes a setting.
fn set(settings: &mut ResponseSettings, name: &str, word: &str) -> Option<String> {
    let old = std::mem::take(settings);
    *settings = match name {
        "software" => old.software(text(word)),
        "understands" => old.understands(&understood(word)?),
        "binding" if yes(word)? => old.answer_binding(true),
        "requires-fingerprint" if yes(word)? => old.require_fingerprint(true),
        _ => return None,
    };
    Some(String::new())
}

/// Stores a server, and returns an empty text, or the reason why it was not built.
fn built<T>(server: &mut Option<T>, made: Result<T, BuildError>) -> Option<String> {
    match made {
        Ok(made) => *server = Some(made),
        Err(why) => return Some(format!("{why:?}")),
    }
    Some(String::new())
}

#[derive(Default)]
pub struct OpenStage {
    settings: ResponseSettings,
    server: Option<OpenServer>,
    reply: Option<Reply>,
}

impl OpenStage {
    pub fn call(&mut self, around: &Around<'_>, words: &[&str]) -> Option<String> {
        let (name, words) = words.split_first()?;
        match *name {
            "build" => built(&mut self.server, OpenServer::new(self.settings.clone())),
            "hears" => self.hear(around, words),
            "responds" => respond(around, self.reply.as_ref()?, words),
            name => set(&mut self.settings, name, words.first()?),
        }
    }

    fn hear(&mut self, around: &Around<'_>, words: &[&str]) -> Option<String> {
        let (server, from) = (self.server.as_ref()?, around.from);
        let bytes = &around.message(words)?[..];
        let received = until_enough(
            || server.receive(bytes, from),
            |received| matches!(received, OpenReceived::Dropped(DropReason::OutOfMemory)),
        );
        Some(match received {
            OpenReceived::Answer(answer) => of_answer(&answer, from),
            OpenReceived::Request(request) => {
                let is_so = is_of(request.message(), bytes)
                    && request.method() == request.message().method()
                    && request.from() == canonical(from);
                self.reply = Some(request.reply().clone());
                format!("request{}", unless(is_so))
            }
            OpenReceived::Indication(message) => {
                format!("indication{}", unless(is_of(&message, bytes)))
            }
            OpenReceived::Response(message) => {
                format!("response{}", unless(is_of(&message, bytes)))
            }
            OpenReceived::Dropped(why) => format!("dropped {why:?}"),
            _ => return None,
        })
    }
}

#[derive(Default)]
pub struct ShortTermStage {
    settings: ResponseSettings,
    server: Option<ShortTermServer>,
    users: ShortTermUsers,
    reply: Option<Reply>,
}

impl ShortTermStage {
    pub fn call(&mut self, around: &Around<'_>, words: &[&str]) -> Option<String> {
        let (name, words) = words.split_first()?;
        match (*name, words) {
            ("build", _) => built(
                &mut self.server,
                ShortTermServer::new(self.settings.clone()),
            ),
            ("hears", _) => self.hear(around, words),
            ("responds", _) => respond(around, self.reply.as_ref()?, words),
            ("add-user", [user, password]) => {
                let password = ShortTermCredentials::new(text(password));
                self.users.add(text(user), password).ok()?;
                Some(String::new())
            }
            ("remove-user", [user]) => {
                self.users.remove(user);
                Some(String::new())
            }
            (name, words) => set(&mut self.settings, name, words.first()?),
        }
    }

    fn hear(&mut self, around: &Around<'_>, words: &[&str]) -> Option<String> {
        use ShortTermReceived as Received;

        let (server, from) = (self.server.as_ref()?, around.from);
        let bytes = &around.message(words)?[..];
        let received = until_enough(
            || server.receive(bytes, from, &self.users),
            |received| matches!(received, Received::Dropped(DropReason::OutOfMemory)),
        );
        Some(match received {
            Received::Answer(answer) => of_answer(&answer, from),
            Received::Request(request) => {
                self.reply = Some(request.reply().clone());
                of_request(&request, bytes, from)
            }
            Received::Indication(indication) => {
                let (user, algorithm) = (indication.user(), indication.algorithm());
                let is_so = is_of(indication.message(), bytes);
                format!("indication {user} {algorithm:?}{}", unless(is_so))
            }
            Received::Response(message) => format!("response{}", unless(is_of(&message, bytes))),
            Received::Dropped(DropReason::UnsignedIndication) => {
                "dropped NotSigned BadRequest".to_string()
            }
            Received::Dropped(DropReason::UnauthenticatedIndication) => {
                "dropped NotSigned Unauthenticated".to_string()
            }
            Received::Dropped(why) => format!("dropped {why:?}"),
            _ => return None,
        })
    }
}
