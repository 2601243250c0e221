//! Plays `endpoint client ..`: a client as one value.

use crate::look_ups::{algorithm, algorithms, understood};
use crate::messages::{address_in, attributes, in_words};
use crate::servers::{is_of, unless};
use crate::stage::Around;
use crate::words::{address, number, secret, span, text};
use seatcrane_stun::Instant;
use seatcrane_stun::auth::Feature;
use seatcrane_stun::endpoint::*;
use seatcrane_stun::types::attribute::{AttributeType, RawAttribute};
use seatcrane_stun::types::message::{IntegrityAlgorithm, Method};
use std::time::Duration;

const PEER: u16 = 0x0012;
/// The ID of the message whose attributes make a body.
const CARRIER_ID: [u8; 12] = *b"\0\0\0\0\0\0\0\0\0\0\0\x01";

/// A client and its requests, which are numbered from 1 in the order in which they were made.
#[derive(Default)]
pub struct ClientStage {
    builder: Option<ClientBuilder>,
    client: Option<Client>,
    requests: Vec<RequestId>,
    /// The options of the next request.
    options: RequestOptions,
    /// The round-trip time of the response that was returned last.
    round_trip: Option<Duration>,
}

impl ClientStage {
    pub fn call(&mut self, around: &Around<'_>, words: &[&str]) -> Option<String> {
        let (name, words) = words.split_first()?;
        match (*name, words) {
            ("build", [word]) => self.build(secret(word)?),
            ("request", [method, words @ ..]) => self.request(around, method, words),
            ("hears", words) => self.hear(around, words),
            ("polls", []) => self.poll(around),
            ("options", words) => {
                self.options = with_option(self.options, words)?;
                Some(String::new())
            }
            ("round-trip", []) => {
                let known = self.round_trip.map(|trip| span_text(trip.as_nanos()));
                Some(known.unwrap_or_else(|| "none".to_string()))
            }
            ("cancel", [word]) => {
                let request = self.numbered(word)?;
                let is_cancelled = self.client.as_mut()?.cancel(request);
                Some(if is_cancelled { "yes" } else { "no" }.to_string())
            }
            ("dropped", [word]) => {
                let drops = self.client.as_ref()?.dropped(self.numbered(word)?);
                Some(drops.map_or_else(|| "none".to_string(), of_drops))
            }
            ("outstanding", []) => Some(self.client.as_ref()?.outstanding().to_string()),
            ("server", [word]) => {
                self.builder = Some(Client::builder(address(word)?));
                Some(String::new())
            }
            (name, words) => {
                self.builder = Some(set(self.builder.take()?, name, words)?);
                Some(String::new())
            }
        }
    }

    fn numbered(&self, word: &str) -> Option<RequestId> {
        let place = usize::try_from(number(word)?).ok()?.checked_sub(1)?;
        self.requests.get(place).copied()
    }

    fn build(&mut self, seed: [u8; 32]) -> Option<String> {
        match self.builder.clone()?.build(seed) {
            Ok(client) => (self.client, self.requests) = (Some(client), Vec::new()),
            Err(why) => return Some(format!("{why:?}")),
        }
        Some(String::new())
    }

    /// Plays `request METHOD ATTRIBUTE ..`: starts a request, and returns its number.
    fn request(&mut self, around: &Around<'_>, method: &str, words: &[&str]) -> Option<String> {
        let method = u16::from_str_radix(method.strip_prefix("0x")?, 16).ok()?;
        let carrier = around.carrier(words)?;
        let mut body = Body::new();
        for (kind, value, _) in attributes(&carrier) {
            let added = match kind {
                PEER => body.add_xor_peer_address(address_in(value, &CARRIER_ID)?),
                kind => body.add(&RawAttribute::new(AttributeType::from(kind), value)),
            };
            body = match added {
                Ok(body) => body,
                Err(why) => return Some(format!("{:?}", why.reason())),
            };
        }
        let method = Method::new(method)?;
        let client = self.client.as_mut()?;
        match client.request_with(method, body, &self.options, at(around)) {
            Ok(request) => self.requests.push(request),
            Err(why) => return Some(format!("{why:?}")),
        }
        self.options = RequestOptions::new();
        Some(format!("request {}", self.requests.len()))
    }

    fn hear(&mut self, around: &Around<'_>, words: &[&str]) -> Option<String> {
        let bytes = &around.message(words)?[..];
        let client = self.client.as_mut()?;
        Some(match client.receive(bytes, around.from, at(around)) {
            Input::Consumed => "consumed".to_string(),
            Input::Indication(message) => format!("indication{}", unless(is_of(&message, bytes))),
            Input::NotOurs => "not ours".to_string(),
            Input::Dropped(why) => format!("dropped {why:?}"),
            _ => return None,
        })
    }

    fn poll(&mut self, around: &Around<'_>) -> Option<String> {
        Some(match self.client.as_mut()?.poll(at(around)) {
            Output::Transmit { bytes, .. } => format!("sends {}", in_words(bytes)),
            Output::Ended(request, result) => {
                let place = self.requests.iter().position(|one| *one == request)?;
                self.round_trip = round_trip_of(&result);
                format!("{} {}", place + 1, of_result(result))
            }
            Output::Wait(None) => "wait".to_string(),
            Output::Wait(Some(until)) => {
                let nanos = until.duration_since(Instant::ZERO).as_nanos();
                format!("wait {}", span_text(nanos))
            }
            _ => return None,
        })
    }
}

fn at(around: &Around<'_>) -> Instant {
    Instant::ZERO + around.now
}

fn span_text(nanos: u128) -> String {
    match nanos % 1_000_000 {
        0 => format!("{}ms", nanos / 1_000_000),
        _ => format!("{nanos}ns"),
    }
}

fn plan([first, most, sends, last]: [&str; 4]) -> Option<Retransmission> {
    let sends = u32::try_from(number(sends)?).ok()?;
    Some(Retransmission::new(
        span(first)?,
        span(most)?,
        sends,
        span(last)?,
    ))
}

fn with_option(options: RequestOptions, words: &[&str]) -> Option<RequestOptions> {
    Some(match words {
        ["unsigned"] => options.unsigned(),
        ["retransmission", first, most, sends, last] => {
            options.retransmission(plan([first, most, sends, last])?)
        }
        ["from", word] => options.answered_from(address(word)?),
        _ => return None,
    })
}

fn round_trip_of(result: &Result<Response, RequestError>) -> Option<Duration> {
    match result {
        Ok(response) => response.round_trip(),
        Err(RequestError::Refused(error)) => error.round_trip(),
        Err(RequestError::Redirected(to)) => to.round_trip(),
        Err(_) => None,
    }
}

fn set(builder: ClientBuilder, name: &str, words: &[&str]) -> Option<ClientBuilder> {
    Some(match (name, words) {
        ("long-term", [name, password]) => {
            builder.credentials(Credentials::long_term(text(name), text(password)))
        }
        ("short-term", [name, password, word]) => {
            let (name, password) = (text(name), text(password));
            builder.credentials(Credentials::short_term(name, password, algorithm(word)?))
        }
        ("algorithms", [word]) => builder.algorithms(&algorithms(word)?),
        ("hashes", [word]) => builder.anonymous_username(match *word {
            "auto" => Feature::Auto,
            "required" => Feature::Required,
            "disabled" => Feature::Disabled,
            _ => return None,
        }),
        ("stream", []) => builder.transport(Transport::Stream),
        ("retransmission", [first, most, sends, last]) => {
            builder.retransmission(plan([first, most, sends, last])?)
        }
        ("challenges", [word]) => builder.challenges(u32::try_from(number(word)?).ok()?),
        ("accepts-unsigned", []) => builder.accept_unsigned(true),
        ("understands", [word]) => builder.understands(&understood(word)?),
        ("software", [word]) => builder.software(text(word)),
        ("fingerprint", []) => builder.fingerprint(true),
        ("requires-fingerprint", []) => builder.require_fingerprint(true),
        _ => return None,
    })
}

fn signer(algorithm: Option<IntegrityAlgorithm>) -> String {
    algorithm.map_or_else(|| "unsigned".to_string(), |one| format!("{one:?}"))
}

fn of_drops(drops: Drops) -> String {
    let mut words = drops.count().to_string();
    if let Some(why) = drops.last() {
        words += &format!(" {why:?}");
    }
    if let Some(code) = drops.code() {
        words += &format!(" {code}");
    }
    words
}

fn of_result(result: Result<Response, RequestError>) -> String {
    match result {
        Ok(response) => {
            let signed = signer(response.signed_by());
            format!("success {signed}: {}", in_words(&response.into_bytes()))
        }
        Err(RequestError::Refused(error)) => {
            let signed = signer(error.signed_by());
            let words = in_words(error.message().as_bytes());
            format!("refused {} {signed}: {words}", error.code())
        }
        Err(RequestError::Redirected(to)) => {
            let server = to.server().map(|server| server.to_string());
            let server = server.as_deref().unwrap_or("none");
            let domain = to.domain().unwrap_or("none");
            format!("redirected {server} {domain} {}", signer(to.signed_by()))
        }
        Err(RequestError::TimedOut(drops)) => format!("timed out, {} dropped", of_drops(drops)),
        Err(RequestError::NotUnderstood(kind)) => format!("NotUnderstood 0x{:04x}", kind.value()),
        Err(why) => format!("{why:?}"),
    }
}
