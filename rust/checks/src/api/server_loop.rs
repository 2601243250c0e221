//! A server that uses an authenticator, as an application would: it judges each request, and
//! answers it, signed or not.
use crate::api::dialogue::{
    CHALLENGE, RENEWED_REQUEST, REQUEST, SIGNED_REQUEST, STALE_NONCE, SUCCESS, Socket, arrivals,
    user,
};
use crate::api::run;
use crate::exported::stun_auth::auth::{
    LongTermServerAuth, LongTermServerAuthErrorReason as Reason, LongTermServerValidation,
};
use crate::exported::stun_base::instant::Instant;
use crate::exported::stun_proto::replay::WordSource;
use crate::exported::stun_types::attribute::{ErrorCode, XorMappedAddress};
use crate::exported::stun_types::message::{
    IntegrityAlgorithm, Message, MessageClass, MessageWriteVec, StunWriteError,
};
use crate::exported::stun_types::prelude::*;
use crate::host::Abort;
use crate::host::Fail;
use crate::kit::alloc::{AllocError, Global};
use crate::kit::prelude::String;
use crate::kit::prelude::Vec;
use crate::test_support::datagrams::local;
use std::net::SocketAddr;
use std::time::Duration;

/// The lifetime of a nonce in seconds.
const EXPIRY_SECONDS: u64 = 3600;

/// Answers Binding requests with the address that they come from (RFC 8489, sections 6.3.1 and
/// 9.2.4), until no datagram is left.
fn serve(
    alloc: Global,
    auth: &mut LongTermServerAuth,
    socket: &mut Socket<'_>,
    rng: &mut WordSource,
) -> Result<(), AllocError> {
    for _ in 0..u64::MAX {
        let Some((bytes, from)) = socket.receive(Instant::MAX) else {
            break;
        };
        auth.forget_expired(before(socket.now(), Duration::from_secs(EXPIRY_SECONDS)));
        // Drops bytes that are not a message, and messages that need no answer.
        let Ok(request) = Message::from_bytes(bytes) else {
            continue;
        };
        if !request.has_class(MessageClass::Request) {
            continue;
        }
        if let Ok(Some(bytes)) = answer(alloc, auth, &request, (from, socket.now()), rng) {
            socket.send(bytes.as_slice(), from)?;
        }
    }
    Ok(())
}

/// Returns the time that is `span` before `now`, or `Instant::ZERO` if that would be earlier.
fn before(now: Instant, span: Duration) -> Instant {
    Instant::ZERO + (now - (Instant::ZERO + span))
}

/// Returns whether a user may use this server.
fn is_served(name: &str) -> bool {
    name == "user"
}

/// Returns the answer to a request, if there is one.
fn answer(
    alloc: Global,
    auth: &mut LongTermServerAuth,
    request: &Message<'_>,
    (from, now): (SocketAddr, Instant),
    rng: &mut WordSource,
) -> Result<Option<Vec<u8>>, StunWriteError> {
    let writer = MessageWriteVec::new(alloc);
    let had_nonce = auth.nonce_for_client(from).is_some();
    let code = match auth.validate_incoming_message(request, from, now, rng) {
        Ok(LongTermServerValidation::Validated(_)) => {
            // The authenticator knows the user who was validated. The USERNAME may be another.
            if !auth.client(from).is_some_and(|client| is_served(client.0)) {
                return Ok(None);
            }
            let mut success = Message::builder_success(request, writer)?;
            success.add_attribute(&XorMappedAddress::new(from, request.transaction_id()))?;
            let success = auth.sign_outgoing_message(success, from)?;
            // Without this call, a new client at this address would be challenged without a list.
            auth.remove_client(from);
            return Ok(Some(success.finish()));
        }
        Err(refusal) => match refusal.reason() {
            Reason::BadRequest if had_nonce || auth.nonce_for_client(from).is_none() => {
                ErrorCode::BAD_REQUEST
            }
            // If that call made the nonce, a bad request may repeat an offer that was forgotten.
            Reason::BadRequest | Reason::StaleNonce => ErrorCode::STALE_NONCE,
            Reason::Unauthorized => ErrorCode::UNAUTHORIZED,
            _ => return Ok(None),
        },
    };
    let mut error = Message::builder_error(request, writer)?;
    error.add_attribute(&ErrorCode::builder(code).build()?)?;
    // A 400 has neither nonce nor realm, and is not signed.
    if code != ErrorCode::BAD_REQUEST {
        error = auth.sign_outgoing_message(error, from)?;
    }
    Ok(Some(error.finish()))
}

/// Returns a server of the realm `realm` with the user `user` and both algorithms.
fn server(alloc: Global) -> Result<LongTermServerAuth, Fail> {
    let mut auth = LongTermServerAuth::new(alloc, String::from_str(alloc, "realm")?);
    auth.add_supported_integrity(IntegrityAlgorithm::Sha256);
    auth.add_user(user(alloc, "pass")?)?;
    Ok(auth)
}

/// An indication with the ID of the first request.
const INDICATION: &str = "00110000 2112a442 000000010000000200000003";

/// A request with USERNAME and MESSAGE-INTEGRITY-SHA256 that is signed with the user's key, but has
/// neither nonce nor realm.
const HALF_SIGNED: &str = "0001002c 2112a442 000000070000000700000007 00060004 75736572
    001c0020 3c149a82842a751d99afd3d24b974c151fdf18d517b09149c541c9acb4caa192";

/// The answer to `HALF_SIGNED`: ERROR-CODE 400.
const BAD_REQUEST: &str =
    "01110014 2112a442 000000070000000700000007 0009000f 00000400 426164205265717565737400";

/// Makes a server answer the datagrams that arrive at a socket.
fn serve_all(alloc: Global, socket: &mut Socket<'_>) -> Result<(), Fail> {
    let mut auth = server(alloc)?;
    // Each random number 1 becomes the letter `B`; the zeros after them become the letter `A`.
    let mut rng = WordSource::new([1; 16]);
    serve(alloc, &mut auth, socket, &mut rng)?;
    Ok(())
}

/// Makes a server answer the datagrams, and checks what it has sent, and that all datagrams have
/// arrived.
fn expect_sent(
    rt: &impl Abort,
    alloc: Global,
    socket: &mut Socket<'_>,
    sent: &[(u64, &str)],
) -> Result<(), Fail> {
    serve_all(alloc, socket)?;
    socket.expect_sent(rt, alloc, local(), sent)
}

/// Checks what a server sends if these datagrams arrive.
fn expect_dialogue(
    rt: &impl Abort,
    alloc: Global,
    coming: &[(u64, &str)],
    sent: &[(u64, &str)],
) -> Result<(), Fail> {
    let coming = arrivals(alloc, local(), coming)?;
    let mut socket = Socket::new(alloc, coming.as_slice());
    expect_sent(rt, alloc, &mut socket, sent)
}

/// A nonce is current for an hour, including the end of the hour.
#[test]
fn a_server_answers() {
    run(|rt| {
        const COMING: &[(u64, &str)] = &[
            (0, "8000 2112a442"),
            (1, INDICATION),
            (2, SUCCESS),
            (3, REQUEST),
            (3_600_004, SIGNED_REQUEST),
            (3_600_005, RENEWED_REQUEST),
            (3_600_006, HALF_SIGNED),
        ];
        const SENT: &[(u64, &str)] = &[
            (3, CHALLENGE),
            (3_600_004, STALE_NONCE),
            (3_600_005, SUCCESS),
            (3_600_006, BAD_REQUEST),
        ];
        expect_dialogue(&rt, rt.alloc(), COMING, SENT)
    });
}

/// The answer to the first request if `AAAA..` is the nonce of its address.
const CHALLENGE_AGAIN: &str =
    "01110050 2112a442 000000010000000200000003 00090010 00000401 556e617574686f72697a6564
    0015001d 6f624d61744a6f73327741414141414141414141414141414141414141000000
    00140005 7265616c6d000000
    80020008 0002000000010000";

/// The record of an address whose nonce expired an hour ago is removed. A request that repeats the
/// old offer gets a new nonce, and is validated with it. A new client at the address is challenged
/// like the first client.
#[test]
fn a_server_forgets() {
    run(|rt| {
        const COMING: &[(u64, &str)] = &[
            (3, REQUEST),
            (7_200_004, SIGNED_REQUEST),
            (7_200_005, RENEWED_REQUEST),
            (7_200_006, REQUEST),
        ];
        const SENT: &[(u64, &str)] = &[
            (3, CHALLENGE),
            (7_200_004, STALE_NONCE),
            (7_200_005, SUCCESS),
            (7_200_006, CHALLENGE_AGAIN),
        ];
        expect_dialogue(&rt, rt.alloc(), COMING, SENT)
    });
}
