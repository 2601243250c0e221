//! Tests of the events that are recorded with the feature `tracing`: what was sent, how messages
//! were judged, how requests ended, and no secret.
#![cfg(feature = "tracing")]
use seatcrane_stun::Instant;
use seatcrane_stun::agent::{StunAgent, StunAgentPollRet};
use seatcrane_stun::auth::LongTermServerAuth;
use seatcrane_stun::types::TransportType;
use seatcrane_stun::types::message::*;
use seatcrane_stun::types::prelude::*;
use traced::Lines;
use tracing::subscriber;

mod traced;

#[test]
fn a_request_and_its_verdict_are_recorded() {
    let lines = Lines::default();
    subscriber::set_global_default(lines.clone()).unwrap();
    let (local, peer) = (
        "192.0.2.1:1".parse().unwrap(),
        "192.0.2.2:2".parse().unwrap(),
    );
    let mut agent = StunAgent::builder(TransportType::Udp, local).build();
    let id = TransactionId::from([7; 12]);
    let request = Message::builder_request_with_id(BINDING, id, MessageWriteVec::new());
    let request = request.finish();
    agent.send_request(&request, peer, Instant::ZERO).unwrap();
    let request = Message::from_bytes(&request).unwrap();
    let mut server = LongTermServerAuth::new("example.org".to_string());
    let user = LongTermCredentials::new("alice".to_string(), "wonderland".to_string());
    server.add_user(user);
    let words = [9; 16];
    let verdict =
        server.validate_incoming_message_with_words(&request, local, Instant::ZERO, words);
    assert!(verdict.is_err());
    let refusal = Message::bad_request(&request, MessageWriteVec::new()).finish();
    let refusal = Message::from_bytes(&refusal).unwrap();
    assert!(!agent.handle_stun_message(&refusal, local));
    let mut now = Instant::ZERO;
    while let StunAgentPollRet::WaitUntil(at) = agent.poll(now) {
        now = at;
        let _ = agent.poll_transmit(now);
    }
    let id = "id=0x070707070707070707070707";
    let expected = [
        format!("message=sent a request {id} to=192.0.2.2:2 bytes=20"),
        format!(
            "message=judged {id} class=Request \
             verdict=Err(LongTermAuthError {{ reason: Unauthorized }})"
        ),
        format!("message=got a message {id} from=192.0.2.1:1 is_accepted=false"),
        format!("message=sent a request again {id} to=192.0.2.2:2 bytes=20"),
        format!("message=a request timed out {id}"),
    ];
    let mut found = lines.0.lock().unwrap().clone();
    found.dedup();
    assert_eq!(found, expected);
    assert!(!found.concat().contains("wonderland"));
}
