//! Plays `endpoint ice ..`: an ICE agent.

use crate::messages::{attributes, in_words};
use crate::servers::{is_of, unless};
use crate::stage::{Around, until_enough};
use crate::words::{address, id, number, text};
use seatcrane_stun::endpoint::ice::*;
use seatcrane_stun::types::attribute::{AttributeType, RawAttribute};
use seatcrane_stun::types::message::{StunWriteError, TransactionId};
use std::net::SocketAddr;

#[derive(Default)]
pub struct IceStage {
    checker: Option<Checker>,
    checks: Vec<Check>,
}

fn role(word: &str) -> Option<Role> {
    match word {
        "controlling" => Some(Role::Controlling),
        "controlled" => Some(Role::Controlled),
        _ => None,
    }
}

fn role_name(role: Role) -> &'static str {
    match role {
        Role::Controlling => "controlling",
        Role::Controlled => "controlled",
    }
}

impl IceStage {
    pub fn call(&mut self, around: &Around<'_>, words: &[&str]) -> Option<String> {
        match words {
            ["new", words @ ..] => self.build(words),
            ["offer", words @ ..] => self.offer(words),
            ["peer", words @ ..] => self.set_remote(words),
            ["role"] => Some(role_name(self.checker.as_ref()?.role()).to_string()),
            ["set-role", word] => {
                let (checker, role) = (self.checker.as_mut()?, role(word)?);
                checker.set_role(role);
                Some(unless(checker.role() == role).to_string())
            }
            ["tie-breaker", word] => {
                let (checker, tie_breaker) = (self.checker.as_mut()?, number(word)?);
                checker.set_tie_breaker(tie_breaker);
                Some(unless(checker.tie_breaker() == tie_breaker).to_string())
            }
            ["check", words @ ..] => self.check(words),
            ["check-with", words @ ..] => self.check_with(around, words),
            ["hears", words @ ..] => {
                let bytes = around.message(words)?;
                let id = bytes.get(8..20).and_then(|id| id.try_into().ok());
                let place = self.place(id.unwrap_or_default());
                self.hear(around, &bytes, place)
            }
            ["hears-for", "none", words @ ..] => self.hear(around, &around.message(words)?, None),
            ["hears-for", word, words @ ..] => {
                let place = self.place(id(word)?)?;
                self.hear(around, &around.message(words)?, Some(place))
            }
            _ => None,
        }
    }

    /// Returns the index of the last stored check with this ID.
    fn place(&self, id: [u8; 12]) -> Option<usize> {
        let id = TransactionId::from(id);
        self.checks.iter().rposition(|check| check.id() == id)
    }

    /// Plays `new NAME PASSWORD PEER-NAME PEER-PASSWORD TIE-BREAKER ROLE`.
    fn build(&mut self, words: &[&str]) -> Option<String> {
        let [name, password, peer_name, peer_password, tie_breaker, word] = words else {
            return None;
        };
        let (local, remote) = (
            (text(name), text(password)),
            (text(peer_name), text(peer_password)),
        );
        let (tie_breaker, role) = (number(tie_breaker)?, role(word)?);
        let made = until_enough(
            || {
                let (local, remote) = ((&*local.0, &*local.1), (&*remote.0, &*remote.1));
                Checker::new(local, remote, tie_breaker, role)
            },
            |made| matches!(made, Err(BuildError::OutOfMemory)),
        );
        match made {
            Ok(checker) => (self.checker, self.checks) = (Some(checker), Vec::new()),
            Err(why) => return Some(format!("{why:?}")),
        }
        Some(String::new())
    }

    /// Plays `offer NAME PASSWORD TIE-BREAKER ROLE`.
    fn offer(&mut self, words: &[&str]) -> Option<String> {
        let [name, password, tie_breaker, word] = words else {
            return None;
        };
        let local = (text(name), text(password));
        let (tie_breaker, role) = (number(tie_breaker)?, role(word)?);
        let made = until_enough(
            || Checker::offer((&*local.0, &*local.1), tie_breaker, role),
            |made| matches!(made, Err(BuildError::OutOfMemory)),
        );
        match made {
            Ok(checker) => (self.checker, self.checks) = (Some(checker), Vec::new()),
            Err(why) => return Some(format!("{why:?}")),
        }
        Some(String::new())
    }

    /// Plays `peer NAME PASSWORD`.
    fn set_remote(&mut self, words: &[&str]) -> Option<String> {
        let [name, password] = words else {
            return None;
        };
        let remote = (text(name), text(password));
        let checker = self.checker.as_mut()?;
        let set = until_enough(
            || checker.set_remote((&*remote.0, &*remote.1)),
            |set| matches!(set, Err(BuildError::OutOfMemory)),
        );
        match set {
            Ok(()) if checker.has_remote() => Some(String::new()),
            Ok(()) => None,
            Err(why) => Some(format!("{why:?}")),
        }
    }

    /// Plays `check ID ADDRESS PRIORITY [nominates]`.
    fn check(&mut self, words: &[&str]) -> Option<String> {
        let [word, to, priority, words @ ..] = words else {
            return None;
        };
        let (id, to) = (TransactionId::from(id(word)?), address(to)?);
        let priority = u32::try_from(number(priority)?).ok()?;
        let checker = self.checker.as_ref()?;
        let written = until_enough(
            || checker.check(id, to, priority, words == ["nominates"]),
            |written| matches!(written, Err(CheckError::OutOfMemory)),
        );
        let check = match written {
            Ok(check) => check,
            Err(why) => return Some(format!("{why:?}")),
        };
        Some(self.store(check, id, to))
    }

    /// Plays `check-with ID ADDRESS PRIORITY [nominates] ATTRIBUTE ..`.
    fn check_with(&mut self, around: &Around<'_>, words: &[&str]) -> Option<String> {
        let [word, to, priority, words @ ..] = words else {
            return None;
        };
        let (id, to) = (TransactionId::from(id(word)?), address(to)?);
        let priority = u32::try_from(number(priority)?).ok()?;
        let nominate = words.first() == Some(&"nominates");
        let carrier = around.carrier(&words[usize::from(nominate)..])?;
        let further: Vec<_> = attributes(&carrier)
            .into_iter()
            .map(|(kind, value, _)| RawAttribute::new(AttributeType::from(kind), value))
            .collect();
        let checker = self.checker.as_ref()?;
        let written = until_enough(
            || checker.check_with(id, to, priority, nominate, &further),
            |written| matches!(written, Err(NewCheckError::OutOfMemory)),
        );
        match written {
            Ok(check) => Some(self.store(check, id, to)),
            Err(NewCheckError::Attribute(StunWriteError::AttributeExists(kind))) => {
                Some(format!("AttributeExists 0x{:04x}", kind.value()))
            }
            Err(NewCheckError::Attribute(why)) => Some(format!("{why:?}")),
            Err(why) => Some(format!("{why:?}")),
        }
    }

    /// Stores a check of this agent, and returns its text.
    fn store(&mut self, check: Check, id: TransactionId, to: SocketAddr) -> String {
        let (role, nominates) = (role_name(check.role()), check.nominates());
        let nominates = if nominates { " nominates" } else { "" };
        let is_so = check.id() == id && check.to() == to;
        let words = in_words(check.bytes());
        self.checks.push(check);
        format!("{role}{nominates}: {words}{}", unless(is_so))
    }

    /// Returns the outcome of a datagram, judged with one of the stored checks.
    fn hear(&mut self, around: &Around<'_>, bytes: &[u8], place: Option<usize>) -> Option<String> {
        let checker = self.checker.as_mut()?;
        let check = place.map(|place| &self.checks[place]);
        let received = until_enough(
            || checker.receive(bytes, around.from, check),
            |received| matches!(received, Received::Dropped(DropReason::OutOfMemory)),
        );
        Some(match received {
            Received::Check {
                message,
                fragment,
                answer,
                judged,
            } => {
                let is_named = fragment.is_some() || !matches!(judged, Judged::Accepted { .. });
                let is_so = is_of(&message, bytes) && is_named;
                let (judged, answer) = (of_check(judged), in_words(&answer));
                format!("{judged}: {answer}{}", unless(is_so))
            }
            Received::Response(outcome) => {
                let nominates = check.is_some_and(Check::nominates);
                of_outcome(outcome, nominates)
            }
            Received::Indication(message) => {
                format!("indication{}", unless(is_of(&message, bytes)))
            }
            Received::Dropped(why) => format!("dropped {why:?}"),
            _ => return None,
        })
    }
}

fn of_check(judged: Judged) -> String {
    match judged {
        Judged::Accepted {
            priority,
            nominated,
            switched,
        } => {
            let nominated = if nominated { " nominated" } else { "" };
            let switched = if switched { " switched" } else { "" };
            format!("accepted {priority}{nominated}{switched}")
        }
        Judged::RoleConflict => "role conflict".to_string(),
        Judged::Refused(refusal) => format!("{} {refusal:?}", refusal.code()),
        other => format!("? {other:?}"),
    }
}

fn of_outcome(outcome: Outcome, nominates: bool) -> String {
    match outcome {
        Outcome::Valid { mapped } => {
            let nominated = if nominates { " nominated" } else { "" };
            format!("valid {mapped}{nominated}")
        }
        Outcome::RoleConflict { switched } => {
            let switched = if switched { ", switched" } else { "" };
            format!("role conflict{switched}")
        }
        Outcome::Failed(Failure::Error(code)) => format!("failed {code}"),
        Outcome::Failed(Failure::NotUnderstood(kind)) => {
            format!("failed NotUnderstood 0x{:04x}", kind.value())
        }
        Outcome::Failed(failure) => format!("failed {failure:?}"),
        other => format!("? {other:?}"),
    }
}
