//! Tests of the texts of errors of runs and of authenticators, of what `Debug` shows of calls and
//! of plain values, and of a message that a server cannot sign in a run.
use crate::api::run;
use crate::api::shown::{are_silent, shown};
use crate::exported::stun_agent::stats::StunAgentStats;
use crate::exported::stun_auth::auth::{
    LongTermClientAuth, LongTermServerAuth, LongTermServerAuthErrorReason,
};
use crate::exported::stun_judging::feature::Feature;
use crate::exported::stun_proto::replay::{
    NegotiateError, Outcome, ServerCall, ServerReply, Stopped, WordSource, negotiate, serve,
};
use crate::exported::stun_types::attribute::AttributeType;
use crate::exported::stun_types::message::{
    IntegrityAlgorithm, Message, MessageWriteVec, StunWriteError,
};
use crate::host::Abort;
use crate::host::Fail;
use crate::host::HostRuntime;
use crate::kit::alloc::Global;
use crate::kit::prelude::String;
use crate::test_support::datagrams::{address, at, id};
use crate::test_support::spelled::bytes_of;
use std::fmt::{Debug, Display};
use std::time::Duration;

/// A Binding request with id 1.
const REQUEST: &str = "000100002112a442000000000000000000000001";

/// A Binding request with ID 1 and a MESSAGE-INTEGRITY of zeros.
const NAMELESS: &str =
    "000100182112a442000000000000000000000001000800140000000000000000000000000000000000000000";

/// A Binding error with id 1, ERROR-CODE 401 and a REALM.
const REALM_ALREADY: &str = "0111001c2112a442000000000000000000000001\
    0009001000000401556e617574686f72697a65640014000461626364";

/// The statistics of a new agent.
const NO_COUNTS: &str = "StunAgentStats { requests_sent: 0, requests_received: 0, \
    responses_sent: 0, responses_received: 0, indications_sent: 0, indications_received: 0, \
    transactions_timed_out: 0, transactions_cancelled: 0, bytes_sent: 0, bytes_received: 0, \
    rtt_count: 0, rtt_min: None, rtt_max: None, rtt_total: 0 }";

/// Checks the text of a value.
fn expect_text(rt: &impl Abort, alloc: Global, value: &impl Display, text: &str) {
    match crate::host::format_in!(alloc; "{value}") {
        Ok(said) => assert_eq!(said.as_str(), text),
        Err(_) => panic!("ample memory"),
    }
}

#[test]
fn of_errors() {
    let rt = HostRuntime;
    let alloc = rt.alloc();
    let stopped = Stopped { done: 3 };
    expect_text(
        &rt,
        alloc,
        &stopped,
        "out of memory after 3 complete events or calls",
    );
    expect_text(&rt, alloc, &NegotiateError::Memory, "out of memory");
    let write = NegotiateError::Write(StunWriteError::TooSmall);
    expect_text(&rt, alloc, &write, "the writer has too little room");
}

/// Checks that a server refuses a message, and the text of its reason.
fn expect_server_refuses(
    rt: &impl Abort,
    alloc: Global,
    server: &mut LongTermServerAuth,
    digits: &str,
    text: &str,
) -> Result<(), Fail> {
    let bytes = bytes_of(alloc, digits)?;
    let message = Message::from_bytes(bytes.as_slice())?;
    let mut words = WordSource::new([0; 16]);
    match server.validate_incoming_message(&message, address(1, 5000), at(0), &mut words) {
        Ok(_) => panic!("the message is refused"),
        Err(error) => expect_text(rt, alloc, &error, text),
    }
    Ok(())
}

/// A server refuses an unsigned request, and a signed request without a name, with the right texts.
#[test]
fn of_a_refusal_of_a_server() {
    run(|rt| {
        const REFUSALS: &[(&str, &str)] = &[
            (REQUEST, "The message is not sufficiently authenticated"),
            (NAMELESS, "The request message is not well-formed"),
        ];
        let mut server = server_of(rt.alloc(), "realm")?;
        for (digits, text) in REFUSALS {
            expect_server_refuses(&rt, rt.alloc(), &mut server, digits, text)?;
        }
        Ok(())
    });
}

/// Checks that a client refuses a message, and the text of its reason.
fn expect_client_refuses(
    rt: &impl Abort,
    alloc: Global,
    client: &mut LongTermClientAuth,
    digits: &str,
    text: &str,
) -> Result<(), Fail> {
    let bytes = bytes_of(alloc, digits)?;
    let message = Message::from_bytes(bytes.as_slice())?;
    match client.validate_incoming_message(&message) {
        Ok(_) => panic!("the message is refused"),
        Err(error) => expect_text(rt, alloc, &error, text),
    }
    Ok(())
}

/// A client refuses an unsigned message and a challenge without a nonce, with the right texts.
#[test]
fn of_a_refusal_of_a_client() {
    run(|rt| {
        const REFUSALS: &[(&str, &str)] = &[
            (REQUEST, "The message failed integrity checks"),
            (
                REALM_ALREADY,
                "The message is not sufficiently authenticated",
            ),
        ];
        let mut client = LongTermClientAuth::new(rt.alloc());
        for (digits, text) in REFUSALS {
            expect_client_refuses(&rt, rt.alloc(), &mut client, digits, text)?;
        }
        Ok(())
    });
}

/// Returns a call that adds a user.
fn add_user(alloc: Global, name: &str, password: &str) -> Result<ServerCall, Fail> {
    Ok(ServerCall::AddUser {
        name: String::from_str(alloc, name)?,
        password: String::from_str(alloc, password)?,
    })
}

/// `Debug` shows no password with any option of the formatter, even if a write fails.
#[test]
fn debug_shows_no_password_of_a_call() {
    run(|rt| {
        let call = add_user(rt.alloc(), "alice", "wonderland")?;
        let texts = shown(rt.alloc(), &call)?;
        assert_eq!(texts[0].as_str(), "AddUser { .. }");
        assert!(are_silent(&texts, &["alice", "wonderland"]));
        Ok(())
    });
}

/// Checks the text that `Debug` writes of a value.
fn expect_shown(rt: &impl Abort, alloc: Global, value: &impl Debug, text: &str) {
    match crate::host::format_in!(alloc; "{value:?}") {
        Ok(said) => assert_eq!(said.as_str(), text),
        Err(_) => panic!("ample memory"),
    }
}

/// Returns a call that validates a message.
fn validate(alloc: Global, digits: &str, words: [u32; 16]) -> Result<ServerCall, Fail> {
    Ok(ServerCall::Validate {
        from: address(1, 5000),
        now: at(0),
        message: bytes_of(alloc, digits)?,
        words,
    })
}

/// Returns a call that signs a message.
fn sign(alloc: Global, digits: &str) -> Result<ServerCall, Fail> {
    Ok(ServerCall::Sign {
        to: address(1, 5000),
        message: bytes_of(alloc, digits)?,
    })
}

/// `Debug` of a call that is about an address shows only its name.
#[test]
fn debug_shows_the_name_of_a_call() {
    run(|rt| {
        let alloc = rt.alloc();
        let remove = ServerCall::RemoveClient(address(1, 5000));
        expect_shown(&rt, alloc, &remove, "RemoveClient(..)");
        expect_shown(&rt, alloc, &sign(alloc, REQUEST)?, "Sign { .. }");
        expect_shown(
            &rt,
            alloc,
            &validate(alloc, REQUEST, [7; 16])?,
            "Validate { .. }",
        );
        Ok(())
    });
}

/// `Debug` of a call that is about settings of a server shows only its name.
#[test]
fn debug_shows_the_name_of_a_setting() {
    run(|rt| {
        let alloc = rt.alloc();
        let add = ServerCall::AddIntegrity(IntegrityAlgorithm::Sha1);
        expect_shown(&rt, alloc, &add, "AddIntegrity(..)");
        let set = ServerCall::SetIntegrity(IntegrityAlgorithm::Sha1);
        expect_shown(&rt, alloc, &set, "SetIntegrity(..)");
        let anonymous = ServerCall::SetAnonymous(Feature::Auto);
        expect_shown(&rt, alloc, &anonymous, "SetAnonymous(..)");
        let expiry = ServerCall::SetExpiry(Duration::from_secs(30));
        expect_shown(&rt, alloc, &expiry, "SetExpiry(..)");
        expect_shown(
            &rt,
            alloc,
            &ServerCall::ForgetExpired(at(0)),
            "ForgetExpired(..)",
        );
        let remove = ServerCall::RemoveUser(String::from_str(alloc, "alice")?);
        expect_shown(&rt, alloc, &remove, "RemoveUser(..)");
        Ok(())
    });
}

/// `Debug` of values without a secret shows their contents: a number, a reason, the end of a run.
#[test]
fn debug_shows_plain_values() {
    run(|rt| {
        let alloc = rt.alloc();
        expect_shown(&rt, alloc, &id(7)?, "TransactionId(7)");
        let exists = StunWriteError::AttributeExists(AttributeType::REALM);
        expect_shown(&rt, alloc, &exists, "AttributeExists(AttributeType(20))");
        let stale = LongTermServerAuthErrorReason::StaleNonce;
        expect_shown(&rt, alloc, &stale, "StaleNonce");
        let end = Outcome::ServerRefused(stale);
        expect_shown(&rt, alloc, &end, "ServerRefused(StaleNonce)");
        expect_shown(&rt, alloc, &Stopped { done: 3 }, "Stopped { done: 3 }");
        expect_shown(
            &rt,
            alloc,
            &MessageWriteVec::new(alloc),
            "MessageWriteVec { bytes: [], reserved: 0 }",
        );
        Ok(())
    });
}

/// `Debug` shows each counter with its name.
#[test]
fn debug_shows_counters() {
    let rt = HostRuntime;
    expect_shown(&rt, rt.alloc(), &StunAgentStats::default(), NO_COUNTS);
}

/// Returns a server of a realm.
fn server_of(alloc: Global, realm: &str) -> Result<LongTermServerAuth, Fail> {
    Ok(LongTermServerAuth::new(
        alloc,
        String::from_str(alloc, realm)?,
    ))
}

/// Returns three calls: validate a request, sign a response that already has a REALM, and remove a
/// client.
fn calls(alloc: Global) -> Result<[ServerCall; 3], Fail> {
    Ok([
        validate(alloc, REQUEST, [0; 16])?,
        sign(alloc, REALM_ALREADY)?,
        ServerCall::RemoveClient(address(1, 5000)),
    ])
}

/// Checks that the response could not be signed, and that the run went on.
fn expect_replies(rt: &impl Abort, replies: &[ServerReply]) {
    assert_eq!(replies.len(), 3);
    let refused = ServerReply::SignRefused(StunWriteError::AttributeExists(AttributeType::REALM));
    assert_eq!(replies[1], refused);
    assert_eq!(replies[2], ServerReply::Done);
}

/// A response that already has a REALM cannot be signed, and the run goes on.
#[test]
fn a_refused_signing_is_a_reply() {
    run(|rt| {
        let mut server = server_of(rt.alloc(), "realm")?;
        let calls = calls(rt.alloc())?;
        let replies = serve(rt.alloc(), &mut server, &calls)?;
        expect_replies(&rt, replies.as_slice());
        Ok(())
    });
}

/// Returns a realm that is too long for REALM.
fn long_realm(alloc: Global) -> Result<String, Fail> {
    let mut realm = String::new(alloc);
    for _ in 0..764 {
        realm.push('r')?;
    }
    Ok(realm)
}

/// A server whose realm is too long for REALM cannot sign its challenge. The error is not that
/// memory ran out.
#[test]
fn a_refused_signing_ends_a_meeting() {
    run(|rt| {
        let alloc = rt.alloc();
        let id = id(1)?;
        let realm = long_realm(alloc)?;
        let mut server = LongTermServerAuth::new(alloc, realm);
        let mut client = LongTermClientAuth::new(alloc);
        let met = negotiate(
            alloc,
            &mut client,
            &mut server,
            address(1, 5000),
            [id, id],
            [at(0), at(0)],
            [[0; 16], [0; 16]],
            [&[], &[]],
        );
        assert_eq!(met, Err(NegotiateError::Write(StunWriteError::TooLarge)));
        Ok(())
    });
}
