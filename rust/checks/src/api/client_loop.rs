//! A client that uses an agent and an authenticator, as an application would: it sends requests,
//! waits, retransmits them, and drops forged responses.
use crate::api::dialogue::{
    CHALLENGE, RENEWED_REQUEST, REQUEST, SIGNED_REQUEST, STALE_NONCE, SUCCESS, Socket, arrivals,
    user,
};
use crate::api::run;
use crate::exported::stun_agent::agent::{StunAgent, StunAgentPollRet};
use crate::exported::stun_auth::auth::{
    LongTermClientAuth, LongTermClientAuthErrorReason as Reason, LongTermClientValidation,
};
use crate::exported::stun_base::transport::TransportType;
use crate::exported::stun_proto::replay::WordSource;
use crate::exported::stun_types::attribute::XorMappedAddress;
use crate::exported::stun_types::message::{
    BINDING, IntegrityAlgorithm, Message, MessageClass, MessageWriteVec, StunWriteError,
    TransactionId,
};
use crate::exported::stun_types::prelude::*;
use crate::host::Abort;
use crate::host::Fail;
use crate::kit::alloc::Global;
use crate::kit::prelude::Vec;
use crate::test_support::datagrams::{local, peer};
use std::net::SocketAddr;

/// The outcome of a request.
#[derive(Clone, Copy, Debug, PartialEq, Eq)]
enum End {
    /// The server sees the client at this address.
    Address(SocketAddr),
    /// The server, which knows the key, answers with an error.
    ServerError,
    /// The challenge cannot be answered.
    Refused(Reason),
    /// No answer came in time.
    NoAnswer,
    /// All requests that may be sent were challenged.
    Unanswered,
}

/// The maximum number of requests, each of which answers a challenge to the request before.
const MOST_REQUESTS: u32 = 4;

/// Asks a server for the address that it sees, and answers its challenges (RFC 8489, sections 6 and
/// 9.2).
fn ask(
    alloc: Global,
    auth: &mut LongTermClientAuth,
    socket: &mut Socket<'_>,
    server: SocketAddr,
    rng: &mut WordSource,
) -> Result<End, Fail> {
    let mut agent = StunAgent::builder(alloc, TransportType::Udp, local()).build();
    // A 401 may be forged, so the number of requests must be limited.
    for _ in 0..MOST_REQUESTS {
        let request = request(alloc, auth, rng)?;
        let sent = agent.send_request(request, server, socket.now())?;
        socket.send(sent.data, sent.to)?;
        if let Some(end) = wait_for_end(&mut agent, auth, socket)? {
            return Ok(end);
        }
    }
    Ok(End::Unanswered)
}

/// Waits until a request ends, and retransmits it meanwhile. Returns `None` if the request was
/// challenged and another one must be sent.
fn wait_for_end(
    agent: &mut StunAgent,
    auth: &mut LongTermClientAuth,
    socket: &mut Socket<'_>,
) -> Result<Option<End>, Fail> {
    for _ in 0..u64::MAX {
        let now = socket.now();
        if let Some(again) = agent.poll_transmit(now) {
            socket.send(again.data, again.to)?;
            continue;
        }
        let StunAgentPollRet::WaitUntil(until) = agent.poll(now) else {
            break;
        };
        let Some((bytes, from)) = socket.receive(until) else {
            continue;
        };
        // Drops bytes that are not a message, and messages that answer no outstanding request to
        // their sender.
        let Ok(message) = Message::from_bytes(bytes) else {
            continue;
        };
        if !is_answer(agent, &message, from) {
            continue;
        }
        // The authenticator is called before the agent, and forged responses are dropped.
        let verdict = match auth.validate_incoming_message(&message) {
            Ok(verdict) => verdict,
            Err(error) if error.reason() == Reason::IntegrityFailed => continue,
            Err(error) => return Ok(Some(End::Refused(error.reason()))),
        };
        agent.handle_stun_message_with_time(&message, from, socket.now())?;
        return match verdict {
            LongTermClientValidation::ResendRequest(_) => Ok(None),
            LongTermClientValidation::Validated(_) => Ok(Some(end_of(&message)?)),
        };
    }
    Ok(Some(End::NoAnswer))
}

/// Returns whether a message from an address answers an outstanding request to that address.
fn is_answer(agent: &StunAgent, message: &Message<'_>, from: SocketAddr) -> bool {
    match agent.request_transaction(message.transaction_id()) {
        Some(asked) => message.is_response() && asked.peer_address() == from,
        None => false,
    }
}

/// Returns a request with a new ID, which is signed if a challenge was accepted.
fn request(
    alloc: Global,
    auth: &mut LongTermClientAuth,
    rng: &mut WordSource,
) -> Result<Vec<u8>, StunWriteError> {
    let id = TransactionId::generate(rng);
    let request = Message::builder_request(BINDING, id, MessageWriteVec::new(alloc))?;
    Ok(auth.sign_outgoing_message(request)?.finish())
}

/// Returns the outcome that a validated response means.
fn end_of(message: &Message<'_>) -> Result<End, Fail> {
    if message.has_class(MessageClass::Error) {
        return Ok(End::ServerError);
    }
    let mapped: XorMappedAddress = message.attribute()?;
    Ok(End::Address(mapped.addr(message.transaction_id())))
}

/// Returns a client of the user `user`, with both algorithms.
fn client(alloc: Global, password: &str) -> Result<LongTermClientAuth, Fail> {
    let mut auth = LongTermClientAuth::new(alloc);
    auth.add_supported_integrity(IntegrityAlgorithm::Sha256);
    auth.set_credentials(user(alloc, password)?);
    Ok(auth)
}

/// Returns a source of random numbers that yields 1, 2, 3 and so on.
fn words() -> WordSource {
    WordSource::new([1, 2, 3, 4, 5, 6, 7, 8, 9, 10, 11, 12, 13, 14, 15, 16])
}

/// An unsigned 438 and an unsigned 401, with an ID that no request has, the nonce `x` and the realm
/// `evil`.
const STRAY_STALE_NONCE: &str =
    "01110024 2112a442 000000090000000900000009 0009000f 00000426 5374616c65204e6f6e636500
    00150001 78000000 00140004 6576696c";

const STRAY_CHALLENGE: &str =
    "01110024 2112a442 000000090000000900000009 00090010 00000401 556e617574686f72697a6564
    00150001 78000000 00140004 6576696c";

/// A success that answers the signed request, with XOR-MAPPED-ADDRESS 10.0.0.66:666, signed with
/// the password `guess`.
const FORGED_SUCCESS: &str = "01010068 2112a442 000000040000000500000006 00200008 00012388 2b12a400
    0015001d 6f624d61744a6f73327741414142424242424242424242424242424242000000
    00140005 7265616c6d000000
    001d0004 00020000 001c0020 b1fbbdf40c60ef6bf24dade7331bfe8cb4341632e68398c04f1a1c36f29defc1";

/// The same challenge again, as an answer to the signed request.
const CHALLENGE_AGAIN: &str =
    "01110050 2112a442 000000040000000500000006 00090010 00000401 556e617574686f72697a6564
    0015001d 6f624d61744a6f73327741414142424242424242424242424242424242000000
    00140005 7265616c6d000000
    80020008 0002000000010000";

/// A signed error 500 that answers the signed request.
const SERVER_ERROR: &str =
    "01110070 2112a442 000000040000000500000006 00090010 00000500 536572766572204572726f72
    0015001d 6f624d61744a6f73327741414142424242424242424242424242424242000000
    00140005 7265616c6d000000
    001d0004 00020000 001c0020 47a3403c2fec4d798582be3518c1d35a385eade0e6adc649d66cc6da44d34940";

/// An unsigned error 400 that answers the signed request.
const BAD_REQUEST: &str =
    "01110014 2112a442 000000040000000500000006 0009000f 00000400 426164205265717565737400";

/// Checks that a request of a client with the password `pass` over a socket has this outcome.
fn expect_end(
    rt: &impl Abort,
    alloc: Global,
    socket: &mut Socket<'_>,
    end: End,
) -> Result<(), Fail> {
    let mut auth = client(alloc, "pass")?;
    let found = ask(alloc, &mut auth, socket, peer(), &mut words())?;
    assert_eq!(found, end);
    Ok(())
}

/// Checks the outcome of a request, what the client has sent, and that all datagrams have arrived.
fn expect_sent(
    rt: &impl Abort,
    alloc: Global,
    socket: &mut Socket<'_>,
    sent: &[(u64, &str)],
    end: End,
) -> Result<(), Fail> {
    expect_end(rt, alloc, socket, end)?;
    socket.expect_sent(rt, alloc, peer(), sent)
}

/// Checks what a client sends, and the outcome of its request, if these datagrams arrive.
fn expect_dialogue(
    rt: &impl Abort,
    alloc: Global,
    coming: &[(u64, &str)],
    sent: &[(u64, &str)],
    end: End,
) -> Result<(), Fail> {
    let coming = arrivals(alloc, peer(), coming)?;
    let mut socket = Socket::new(alloc, coming.as_slice());
    expect_sent(rt, alloc, &mut socket, sent, end)
}

#[test]
fn a_client_is_answered() {
    run(|rt| {
        const COMING: &[(u64, &str)] = &[
            (100, "8000 2112a442"),
            (200, STRAY_CHALLENGE),
            (600, CHALLENGE),
            (700, STRAY_STALE_NONCE),
            (710, FORGED_SUCCESS),
            (720, SIGNED_REQUEST),
            (800, STALE_NONCE),
            (900, SUCCESS),
        ];
        const SENT: &[(u64, &str)] = &[
            (0, REQUEST),
            (500, REQUEST),
            (600, SIGNED_REQUEST),
            (800, RENEWED_REQUEST),
        ];
        expect_dialogue(&rt, rt.alloc(), COMING, SENT, End::Address(local()))
    });
}

/// Checks the outcome of a request if this datagram arrives after the challenge.
fn expect_end_after(rt: &impl Abort, alloc: Global, second: &str, end: End) -> Result<(), Fail> {
    let coming = arrivals(alloc, peer(), &[(100, CHALLENGE), (200, second)])?;
    let mut socket = Socket::new(alloc, coming.as_slice());
    expect_end(rt, alloc, &mut socket, end)
}

#[test]
fn other_ends() {
    run(|rt| {
        const ENDS: &[(&str, End)] = &[
            (CHALLENGE_AGAIN, End::Refused(Reason::Unauthorized)),
            (SERVER_ERROR, End::ServerError),
            (FORGED_SUCCESS, End::NoAnswer),
            (BAD_REQUEST, End::NoAnswer),
        ];
        for (second, end) in ENDS {
            expect_end_after(&rt, rt.alloc(), second, *end)?;
        }
        Ok(())
    });
}

#[test]
fn no_answer_comes() {
    run(|rt| {
        const SENT: &[(u64, &str)] = &[
            (0, REQUEST),
            (500, REQUEST),
            (1500, REQUEST),
            (3500, REQUEST),
            (7500, REQUEST),
            (15500, REQUEST),
            (31500, REQUEST),
        ];
        expect_dialogue(&rt, rt.alloc(), &[], SENT, End::NoAnswer)
    });
}
