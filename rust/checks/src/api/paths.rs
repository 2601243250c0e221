//! Tests that each public name has its path in `stun_proto`, the crate that users import.

use crate::api::run;
use crate::exported::stun_proto::Instant;
use crate::exported::stun_proto::agent::{
    RequestRto, StunAgent, StunAgentBuilder, StunAgentPollRet, StunError, StunRequest,
    StunRequestMut, Transmit,
};
use crate::exported::stun_proto::auth::{
    Feature, LONG_TERM_RFC8489_NONCE_COOKIE, LongTermClientAuth, LongTermClientAuthError,
    LongTermClientAuthErrorReason, LongTermClientValidation, LongTermServerAuth,
    LongTermServerAuthError, LongTermServerAuthErrorReason, LongTermServerValidation,
    NonceSecurityBits, ShortTermAuth, minimum_nonce_expiry_duration,
};
use crate::exported::stun_proto::replay::{
    AgentEvent, AgentStep, NegotiateError, Outcome, ServerCall, ServerReply, Stopped, WordSource,
    drive, negotiate, serve,
};
use crate::exported::stun_proto::stats::StunAgentStats;
use crate::exported::stun_proto::types::TransportType;
use crate::exported::stun_proto::types::attribute::{
    AttributeType, ErrorCode, ErrorCodeBuilder, MessageIntegrity, MessageIntegritySha256, Nonce,
    PasswordAlgorithm, PasswordAlgorithmValue, PasswordAlgorithms, RawAttribute, Realm, Userhash,
    Username, XorMappedAddress,
};
use crate::exported::stun_proto::types::data::{Data, OwnedBytes};
use crate::exported::stun_proto::types::message::{
    BINDING, IntegrityAlgorithm, IntegrityKey, LongTermCredentials, LongTermKeyCredentials,
    Message, MessageAttributesIter, MessageClass, MessageHeader, MessageIntegrityCredentials,
    MessageType, MessageWriteMutSlice, MessageWriteVec, Method, PreparedKey, ShortTermCredentials,
    StunParseError, StunWriteError, TransactionId, ValidateError, hmac_sha1, hmac_sha256,
    long_term_key,
};
use crate::exported::stun_proto::types::prelude::*;
use crate::host::Abort;
use crate::host::Fail;
use crate::kit::alloc::Global;
use crate::kit::prelude::String;
use crate::kit::prelude::Vec;
use crate::test_support::datagrams::{id, local, peer};
use crate::test_support::parts::MD5_KEY;

/// A Binding request with id 1 and USERNAME `a`.
const REQUEST: [u8; 28] = [
    0, 1, 0, 8, 0x21, 0x12, 0xa4, 0x42, 0, 0, 0, 0, 0, 0, 0, 0, 0, 0, 0, 1, 0, 6, 0, 1, 0x61, 0, 0,
    0,
];

/// Checks the method and the class of the request.
fn expect_message(rt: &impl Abort, message: &Message) {
    assert_eq!(message.class(), MessageClass::Request);
    assert_eq!(Some(message.method()), Method::new(1));
}

/// Checks the header of the request.
fn expect_header(rt: &impl Abort, header: &MessageHeader) {
    assert_eq!(header.data_length(), 8);
    let kind: MessageType = header.get_type();
    assert_eq!(kind.method(), BINDING);
}

/// Checks the only attribute of the request.
fn expect_attribute(rt: &impl Abort, place: usize, attribute: RawAttribute) {
    assert_eq!(place, 20);
    assert_eq!(attribute.get_type(), AttributeType::USERNAME);
    assert_eq!(attribute.value(), b"a".as_slice());
}

/// Checks that the request has one attribute.
fn expect_attributes(rt: &impl Abort, message: &Message) {
    let mut attributes: MessageAttributesIter = message.iter_attributes();
    match attributes.next() {
        Some((place, attribute)) => expect_attribute(rt, place, attribute),
        None => panic!("an attribute is found"),
    }
    assert!(attributes.next().is_none());
}

#[test]
fn reading() {
    run(|rt| {
        let message: Message = Message::from_bytes(&REQUEST)?;
        expect_message(&rt, &message);
        expect_attributes(&rt, &message);
        let header: MessageHeader = MessageHeader::from_bytes(&REQUEST)?;
        expect_header(&rt, &header);
        let refused = Message::from_bytes(&[]).err();
        assert_eq!(refused, Some(StunParseError::Truncated));
        Ok(())
    });
}

// Returns the fixed type of an attribute that can be written and parsed.
fn type_of<'a, A: Attribute + AttributeStaticType + AttributeFromRaw<'a>>() -> u16 {
    A::TYPE.value()
}

/// The types of the attributes (RFC 8489, section 18.3).
fn expect_types(rt: &impl Abort) {
    let types = [
        type_of::<Username>(),
        type_of::<Realm>(),
        type_of::<Nonce>(),
        type_of::<Userhash>(),
        type_of::<ErrorCode>(),
        type_of::<PasswordAlgorithm>(),
        type_of::<PasswordAlgorithms>(),
        type_of::<MessageIntegrity>(),
        type_of::<MessageIntegritySha256>(),
        type_of::<XorMappedAddress>(),
    ];
    let expected = [
        0x0006, 0x0014, 0x0015, 0x001e, 0x0009, 0x001d, 0x8002, 0x0008, 0x001c, 0x0020,
    ];
    assert_eq!(types, expected);
}

#[test]
fn attributes() {
    run(|rt| {
        expect_types(&rt);
        let value: PasswordAlgorithmValue = PasswordAlgorithmValue::MD5;
        assert_eq!(value.as_integrity(), IntegrityAlgorithm::Sha1);
        let builder: ErrorCodeBuilder = ErrorCode::builder(300);
        assert_eq!(builder.build()?.code(), 300);
        Ok(())
    });
}

/// Checks the key of a password.
fn expect_short_term_key(rt: &impl Abort, alloc: Global) -> Result<(), Fail> {
    let password: ShortTermCredentials =
        ShortTermCredentials::new(String::from_str(alloc, "pass")?);
    let key: IntegrityKey = password.make_key()?;
    assert_eq!(key.as_bytes(), b"pass".as_slice());
    Ok(())
}

/// Returns a user with a password.
fn user(alloc: Global) -> Result<LongTermCredentials, Fail> {
    let name = String::from_str(alloc, "user")?;
    let password = String::from_str(alloc, "pass")?;
    Ok(LongTermCredentials::new(name, password))
}

/// Returns the credentials of a user in a realm.
fn credentials_of(
    alloc: Global,
    user: LongTermCredentials,
) -> Result<MessageIntegrityCredentials, Fail> {
    let realm = String::from_str(alloc, "realm")?;
    let user: LongTermKeyCredentials = user.to_key(realm)?;
    Ok(MessageIntegrityCredentials::from(user))
}

/// Checks that these credentials cannot validate the request, because it has no MESSAGE-INTEGRITY.
fn expect_missing(rt: &impl Abort, credentials: &MessageIntegrityCredentials) -> Result<(), Fail> {
    let message = Message::from_bytes(&REQUEST)?;
    let missing = ValidateError::Parse(StunParseError::MissingAttribute(AttributeType::new(8)));
    assert_eq!(message.validate_integrity(credentials), Err(missing));
    Ok(())
}

/// Checks the key of a user in a realm, and the prepared key.
fn expect_long_term_key(rt: &impl Abort, alloc: Global) {
    let algorithm = IntegrityAlgorithm::Sha1;
    let key: IntegrityKey = long_term_key(alloc, algorithm, "user", "realm", "pass");
    assert_eq!(key.as_bytes(), MD5_KEY.as_slice());
    let prepared: PreparedKey = PreparedKey::new(key, algorithm);
    assert_eq!(prepared.key().as_bytes(), MD5_KEY.as_slice());
    // The digest of an empty text with this key, from Python's module `hmac`.
    assert_eq!(&prepared.hmac_sha1(&[])[..2], [0x87, 0xbf].as_slice());
}

/// Checks the digests of an empty text with an empty key.
fn expect_digests(rt: &impl Abort) {
    assert_eq!(&hmac_sha1(&[], &[])[..2], [0xfb, 0xdb].as_slice());
    assert_eq!(&hmac_sha256(&[], &[])[..2], [0xb6, 0x13].as_slice());
}

#[test]
fn credentials() {
    run(|rt| {
        expect_digests(&rt);
        expect_long_term_key(&rt, rt.alloc());
        expect_short_term_key(&rt, rt.alloc())?;
        let user = user(rt.alloc())?;
        let credentials = credentials_of(rt.alloc(), user)?;
        expect_missing(&rt, &credentials)
    });
}

// Writes the header of a Binding request with a writer, and returns what the writer returns.
fn write_with<W: MessageWrite + MessageWriteExt>(writer: W) -> Result<W::Output, StunWriteError> {
    let id = TransactionId::from_u128(1).ok_or(StunWriteError::NotAllowed)?;
    Ok(Message::builder_request(BINDING, id, writer)?.finish())
}

/// Checks that a writer over a slice writes the same bytes.
fn expect_written(rt: &impl Abort, written: &[u8]) -> Result<(), Fail> {
    let mut room = [0; 20];
    let writer: MessageWriteMutSlice = MessageWriteMutSlice::new(&mut room);
    assert_eq!(written, write_with(writer)?);
    let data: Data = Data::Borrowed(written);
    assert_eq!(OwnedBytes::bytes(&data), written);
    Ok(())
}

#[test]
fn writers() {
    run(|rt| {
        let writer: MessageWriteVec = MessageWriteVec::new(rt.alloc());
        let written: Vec<u8> = write_with(writer)?;
        expect_written(&rt, written.as_slice())
    });
}

/// Checks what an agent sends that is not a message.
fn expect_sent(rt: &impl Abort, agent: &mut StunAgent) -> Result<(), Fail> {
    let sent: Transmit<[u8; 2]> = agent.send_data([1, 2], peer())?;
    assert_eq!(
        (sent.transport, sent.from, sent.to),
        (TransportType::Udp, local(), peer())
    );
    let answer = agent.send([0; 4], peer(), Instant::ZERO).err();
    let refused = StunError::ParseError(StunParseError::Truncated);
    assert_eq!(answer, Some(refused));
    Ok(())
}

/// Checks that an agent has no request with this ID.
fn expect_no_request(rt: &impl Abort, agent: &mut StunAgent, id: TransactionId) {
    let request: Option<StunRequest> = agent.request_transaction(id);
    assert!(request.is_none());
    let request: Option<StunRequestMut> = agent.mut_request_transaction(id);
    assert!(request.is_none());
    let found: StunAgentPollRet = agent.poll(Instant::ZERO);
    assert_ne!(found, StunAgentPollRet::TransactionTimedOut(id));
}

#[test]
fn agents() {
    run(|rt| {
        let settings: RequestRto = RequestRto::default();
        assert_eq!(settings.slots(TransportType::Tcp), 0);
        let id = id(1)?;
        let builder: StunAgentBuilder = StunAgent::builder(rt.alloc(), TransportType::Udp, local());
        let mut agent: StunAgent = builder.stats(true).build();
        let statistics: Option<&StunAgentStats> = agent.stats();
        assert!(statistics.is_some());
        expect_sent(&rt, &mut agent)?;
        expect_no_request(&rt, &mut agent, id);
        Ok(())
    });
}

/// Checks that a client refuses a message that it cannot check.
fn expect_client_refuses(rt: &impl Abort, alloc: Global, message: &Message) {
    let mut client: LongTermClientAuth = LongTermClientAuth::new(alloc);
    let told: Result<LongTermClientValidation, LongTermClientAuthError> =
        client.validate_incoming_message(message);
    let reason: Option<LongTermClientAuthErrorReason> = told.err().map(|error| error.reason());
    assert_eq!(reason, Some(LongTermClientAuthErrorReason::IntegrityFailed));
}

/// Returns a server of the realm `realm`.
fn server(alloc: Global) -> Result<LongTermServerAuth, Fail> {
    let realm = String::from_str(alloc, "realm")?;
    let server: LongTermServerAuth = LongTermServerAuth::new(alloc, realm);
    Ok(server)
}

/// Checks that a server refuses a request of an unknown user.
fn expect_server_refuses(rt: &impl Abort, server: &mut LongTermServerAuth, message: &Message) {
    let mut rng = WordSource::new([0; 16]);
    let judged: Result<LongTermServerValidation, LongTermServerAuthError> =
        server.validate_incoming_message(message, local(), Instant::ZERO, &mut rng);
    let reason: Option<LongTermServerAuthErrorReason> = judged.err().map(|error| error.reason());
    assert_eq!(reason, Some(LongTermServerAuthErrorReason::Unauthorized));
    assert_eq!(server.anonymous_username(), Feature::Auto);
}

/// Checks that the nonce that the server made allows hashed names.
fn expect_nonce(rt: &impl Abort, server: &LongTermServerAuth) -> Result<(), Fail> {
    let nonce = server.nonce_for_client(local()).ok_or("a nonce was made")?;
    assert!(nonce.starts_with(LONG_TERM_RFC8489_NONCE_COOKIE));
    let bits: NonceSecurityBits = NonceSecurityBits::from_nonce(nonce).ok_or("it has bits")?;
    assert!(bits.username_anonymity());
    Ok(())
}

/// Checks that an authenticator without a password verifies nothing.
fn expect_unchecked(rt: &impl Abort, alloc: Global, message: &Message) {
    let mut short: ShortTermAuth = ShortTermAuth::new(alloc);
    assert_eq!(short.validate_incoming_message(message), Ok(None));
}

#[test]
fn authenticators() {
    run(|rt| {
        let message = Message::from_bytes(&REQUEST)?;
        expect_client_refuses(&rt, rt.alloc(), &message);
        expect_unchecked(&rt, rt.alloc(), &message);
        let mut server = server(rt.alloc())?;
        server.set_nonce_expiry_duration(minimum_nonce_expiry_duration());
        expect_server_refuses(&rt, &mut server, &message);
        expect_nonce(&rt, &server)
    });
}

/// Checks that an agent without events does nothing.
fn expect_no_steps(rt: &impl Abort, alloc: Global) -> Result<(), Fail> {
    let events: [(Instant, AgentEvent); 0] = [];
    let mut agent = StunAgent::builder(alloc, TransportType::Udp, local()).build();
    let steps: Result<Vec<AgentStep>, Stopped> = drive(alloc, &mut agent, &events, Instant::MAX);
    assert!(steps.ok().ok_or("no memory is wanted")?.is_empty());
    Ok(())
}

/// Checks that a server without calls gives no replies.
fn expect_no_replies(
    rt: &impl Abort,
    alloc: Global,
    server: &mut LongTermServerAuth,
) -> Result<(), Fail> {
    let calls: [ServerCall; 0] = [];
    let replies: Result<Vec<ServerReply>, Stopped> = serve(alloc, server, &calls);
    assert!(replies.ok().ok_or("no memory is wanted")?.is_empty());
    Ok(())
}

/// Checks that a client without credentials refuses the challenge of this server.
fn expect_refusal(
    rt: &impl Abort,
    alloc: Global,
    server: &mut LongTermServerAuth,
    ids: [TransactionId; 2],
) {
    let calls: [ServerCall; 0] = [];
    let mut client = LongTermClientAuth::new(alloc);
    let met: Result<Outcome, NegotiateError> = negotiate(
        alloc,
        &mut client,
        server,
        local(),
        ids,
        [Instant::ZERO, Instant::MAX],
        [[0; 16], [0; 16]],
        [&calls, &calls],
    );
    let refused = Outcome::ClientRefused(LongTermClientAuthErrorReason::Unauthorized);
    assert!(met == Ok(refused));
}

#[test]
fn runs() {
    run(|rt| {
        expect_no_steps(&rt, rt.alloc())?;
        let ids = [id(1)?, id(2)?];
        let mut server = server(rt.alloc())?;
        expect_no_replies(&rt, rt.alloc(), &mut server)?;
        expect_refusal(&rt, rt.alloc(), &mut server, ids);
        Ok(())
    });
}
