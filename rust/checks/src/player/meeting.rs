//! Plays meetings of a client and a server: `meet NAME WORD ..`.
//!
//! A meeting in which an allocation is refused ends after some of its steps. When it is made again,
//! a client that has stored the challenge signs its first request, so this request gets the answer
//! that the second request of a whole meeting would get. It is printed as the answer of the whole
//! meeting. The calls between the two requests, some of which may be missing, are made once more.

use super::names::write_error;
use super::serve::server_call;
use super::stage::Stage;
use super::values::{algorithm, feature, moment, transaction_id};
use super::{Answer, Heap, OUT_OF_MEMORY};
use crate::exported::stun_auth::auth::{
    LongTermClientAuth, LongTermClientAuthErrorReason, LongTermServerAuth,
    LongTermServerAuthErrorReason,
};
use crate::exported::stun_base::instant::Instant;
use crate::exported::stun_proto::replay::{NegotiateError, Outcome, ServerCall, negotiate, serve};
use crate::exported::stun_types::message::{LongTermCredentials, TransactionId};
use crate::kit::prelude::String as HeapString;

/// The calls of a server between the steps of a meeting.
#[derive(Default)]
pub struct Meeting {
    before_challenge: Vec<ServerCall>,
    before_second: Vec<ServerCall>,
    /// Whether an allocation of the last meeting was refused.
    is_broken: bool,
    /// Whether the client of the last meeting accepted the challenge nevertheless.
    is_challenged: bool,
}

/// Plays `meet NAME WORD ..`.
pub fn call(stage: &mut Stage<'_>, words: &[&str]) -> Answer {
    match words {
        ["before-challenge", words @ ..] => {
            let call = server_call(stage, words)?;
            stage.meeting.before_challenge.push(call);
        }
        ["before-second", words @ ..] => {
            let call = server_call(stage, words)?;
            stage.meeting.before_second.push(call);
        }
        ["run", first, second, read_first, read_second] => {
            let ids = [transaction_id(first)?, transaction_id(second)?];
            return run(stage, ids, [moment(read_first)?, moment(read_second)?]);
        }
        ["pair", client, client_hashes, server, server_hashes] => {
            return pair(stage, (client, client_hashes), (server, server_hashes));
        }
        _ => return None,
    }
    Some(String::new())
}

/// Returns `true` if the client signs its requests.
fn signs(stage: &Stage<'_>) -> bool {
    stage.client.message_signature_bytes() != 0
}

/// Plays `meet run ID ID TIME TIME`: the client and the server meet, with requests that have these
/// IDs. The server reads them at these times, each time with the random numbers of the stage. The
/// client has the address of the stage.
fn run(stage: &mut Stage<'_>, ids: [TransactionId; 2], moments: [Instant; 2]) -> Answer {
    let signed = signs(stage);
    stage.begin();
    let meeting = &stage.meeting;
    let between: [&[ServerCall]; 2] = [&meeting.before_challenge, &meeting.before_second];
    let words = [stage.draws; 2];
    let (client, server) = (&mut stage.client, &mut stage.server);
    match negotiate(
        stage.heap, client, server, stage.from, ids, moments, words, between,
    ) {
        Ok(outcome) => Some(outcome_text(whole(stage, outcome)?)),
        Err(NegotiateError::Memory) => {
            stage.is_run = true;
            stage.meeting.is_broken = true;
            stage.meeting.is_challenged = !signed && signs(stage);
            Some(OUT_OF_MEMORY.to_string())
        }
        Err(NegotiateError::Write(error)) => Some(write_error(error).to_string()),
    }
}

/// Returns the outcome of a whole meeting, of which the last meeting may be the rest.
fn whole(stage: &mut Stage<'_>, outcome: Outcome) -> Option<Outcome> {
    stage.meeting.is_broken = false;
    if !stage.meeting.is_challenged {
        return Some(outcome);
    }
    stage.meeting.is_challenged = false;
    for calls in [
        &stage.meeting.before_challenge,
        &stage.meeting.before_second,
    ] {
        serve(stage.heap, &mut stage.server, calls).ok()?;
    }
    Some(of_second(outcome))
}

/// Converts the outcome of a signed first request to the outcome that a whole meeting would have
/// after its second request: an accepted first request counts as a validated second one, and a
/// challenge that the client refuses to answer again counts as a refusal by the server.
fn of_second(outcome: Outcome) -> Outcome {
    match outcome {
        Outcome::AlreadyValidated(algorithm) => Outcome::Validated(algorithm),
        Outcome::ClientRefused(LongTermClientAuthErrorReason::Unauthorized) => {
            Outcome::ServerRefused(LongTermServerAuthErrorReason::Unauthorized)
        }
        Outcome::Validated(algorithm) => Outcome::AlreadyValidated(algorithm),
        outcome => outcome,
    }
}

fn outcome_text(outcome: Outcome) -> String {
    match outcome {
        Outcome::Validated(algorithm) => format!("validated {algorithm:?}"),
        Outcome::AlreadyValidated(algorithm) => format!("already validated {algorithm:?}"),
        Outcome::ServerRefused(reason) => format!("server refused {reason:?}"),
        Outcome::ClientRefused(reason) => format!("client refused {reason:?}"),
    }
}

/// Plays `meet pair ALGORITHMS HASHES ALGORITHMS HASHES`: a new client and a new server meet, which
/// support these algorithms and have these settings for hashed names. Both know the user `user`
/// with the password `pass`, and the realm is `realm`. The IDs are 1 and 2, and the times are 0 and
/// the time at which the nonce expires.
fn pair(stage: &mut Stage<'_>, of_client: (&str, &str), of_server: (&str, &str)) -> Answer {
    // After a refused allocation, the same client and server meet again.
    if !stage.meeting.is_broken {
        stage.client = client(stage.heap, of_client)?;
        stage.server = server(stage.heap, of_server)?;
    }
    let ids = [transaction_id("1")?, transaction_id("2")?];
    run(stage, ids, [Instant::ZERO, moment("3600s")?])
}

/// Returns the user `user` with the password `pass`.
fn user(heap: &Heap) -> Option<LongTermCredentials<&Heap>> {
    let text = |text| HeapString::from_str(heap, text).ok();
    Some(LongTermCredentials::new(text("user")?, text("pass")?))
}

fn client<'a>(
    heap: &'a Heap,
    (algorithms, hashes): (&str, &str),
) -> Option<LongTermClientAuth<&'a Heap>> {
    let mut client = LongTermClientAuth::new(heap);
    client.set_anonymous_username(feature(hashes)?);
    client.set_credentials(user(heap)?);
    let mut algorithms = algorithms.split(',').map(algorithm);
    client.set_supported_integrity(algorithms.next()??);
    for algorithm in algorithms {
        client.add_supported_integrity(algorithm?);
    }
    Some(client)
}

fn server<'a>(
    heap: &'a Heap,
    (algorithms, hashes): (&str, &str),
) -> Option<LongTermServerAuth<&'a Heap>> {
    let mut server = LongTermServerAuth::new(heap, HeapString::from_str(heap, "realm").ok()?);
    server.set_anonymous_username(feature(hashes)?).ok()?;
    server.add_user(user(heap)?).ok()?;
    let mut algorithms = algorithms.split(',').map(algorithm);
    server.set_supported_integrity(algorithms.next()??);
    for algorithm in algorithms {
        server.add_supported_integrity(algorithm?);
    }
    Some(server)
}
