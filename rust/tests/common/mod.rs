//! A client and a server that talk to each other.
#![allow(dead_code)]
use seatcrane_stun::Instant;
use seatcrane_stun::auth::*;
use seatcrane_stun::types::message::IntegrityAlgorithm::Sha256;
use seatcrane_stun::types::message::*;
use seatcrane_stun::types::prelude::*;
use std::net::SocketAddr;

pub const WORDS: [u32; 16] = [3, 1, 4, 1, 5, 9, 2, 6, 5, 3, 5, 8, 9, 7, 9, 3];
pub const OTHER_WORDS: [u32; 16] = [2; 16];

pub struct Conversation {
    pub client: LongTermClientAuth,
    pub server: LongTermServerAuth,
    pub from: SocketAddr,
    pub requests: u8,
}

pub fn credentials(password: &str) -> LongTermCredentials {
    LongTermCredentials::new("user".to_string(), password.to_string())
}

impl Conversation {
    pub fn new(password: &str) -> Conversation {
        let mut client = LongTermClientAuth::new();
        client.set_credentials(credentials(password));
        let mut server = LongTermServerAuth::new("realm".to_string());
        server.add_user(credentials("pass"));
        Conversation {
            client,
            server,
            from: "10.0.0.1:12345".parse().unwrap(),
            requests: 0,
        }
    }

    pub fn with_both(password: &str) -> Conversation {
        let mut both = Conversation::new(password);
        both.client.add_supported_integrity(Sha256);
        both.server.add_supported_integrity(Sha256);
        both
    }

    pub fn request(&mut self) -> Vec<u8> {
        self.requests += 1;
        let request = Message::builder_request_with_id(
            BINDING,
            TransactionId::from([self.requests; 12]),
            MessageWriteVec::new(),
        );
        self.client.sign_outgoing_message(request).unwrap().finish()
    }

    /// Returns the server's verdict on a request, and its answer.
    pub fn answer(
        &mut self,
        request: &[u8],
        now: Instant,
        words: &[u32; 16],
    ) -> (
        Result<IntegrityAlgorithm, LongTermServerAuthErrorReason>,
        Vec<u8>,
    ) {
        let request = Message::from_bytes(request).unwrap();
        let verdict = self
            .server
            .validate_incoming_message_with_words(&request, self.from, now, *words);
        let (verdict, code) = match verdict {
            Ok(LongTermServerValidation::Validated(algorithm)) => (Ok(algorithm), None),
            Err(error) => match error.reason() {
                reason @ LongTermServerAuthErrorReason::Unauthorized => (Err(reason), Some(401)),
                reason @ LongTermServerAuthErrorReason::StaleNonce => (Err(reason), Some(438)),
                reason => (Err(reason), Some(400)),
            },
        };
        let mut answer = Message::builder_success(&request, MessageWriteVec::new());
        match code {
            None => answer.add_xor_mapped_address(self.from).unwrap(),
            Some(code) => {
                answer = Message::builder_error(&request, MessageWriteVec::new());
                answer.add_error_code(code, "").unwrap();
            }
        }
        if code != Some(400) {
            answer = self
                .server
                .sign_outgoing_message(answer, self.from)
                .unwrap();
        }
        (verdict, answer.finish())
    }

    pub fn read(
        &mut self,
        answer: &[u8],
    ) -> Result<LongTermClientValidation, LongTermClientAuthErrorReason> {
        let answer = Message::from_bytes(answer).unwrap();
        self.client
            .validate_incoming_message(&answer)
            .map_err(|error| error.reason())
    }

    pub fn is_challenged(&mut self, now: Instant) {
        let request = self.request();
        let (verdict, answer) = self.answer(&request, now, &WORDS);
        assert_eq!(verdict, Err(LongTermServerAuthErrorReason::Unauthorized));
        assert_eq!(
            self.read(&answer),
            Ok(LongTermClientValidation::ResendRequest(None))
        );
    }

    pub fn is_validated(&mut self, now: Instant, algorithm: IntegrityAlgorithm) {
        let request = self.request();
        let (verdict, answer) = self.answer(&request, now, &WORDS);
        assert_eq!(verdict, Ok(algorithm));
        assert_eq!(
            self.read(&answer),
            Ok(LongTermClientValidation::Validated(algorithm))
        );
        assert_eq!(
            Message::from_bytes(&answer).unwrap().xor_mapped_address(),
            Ok(self.from)
        );
    }
}
