//! Events that record the outcomes of datagrams, if the feature `tracing` is on.

use super::{Answer, Cause, Input, Received, RequestError, RequestId, Response, ice};
use crate::message::Message;
use crate::trace::{event, id_in};
use core::net::SocketAddr;

/// The outcome of a datagram. `code` is the code of the error response that was sent or received,
/// and `reason` names the reason why the datagram is refused or dropped.
pub(crate) struct Verdict {
    kind: &'static str,
    code: Option<u16>,
    reason: Option<&'static str>,
}

impl Verdict {
    fn new(kind: &'static str) -> Verdict {
        Verdict {
            kind,
            code: None,
            reason: None,
        }
    }

    fn dropped(reason: &'static str) -> Verdict {
        Verdict {
            reason: Some(reason),
            ..Verdict::new("dropped")
        }
    }

    fn refused(code: u16, reason: &'static str) -> Verdict {
        Verdict {
            kind: "refused",
            code: Some(code),
            reason: Some(reason),
        }
    }

    fn answered<B>(answer: &Answer<B>, cause: impl FnOnce() -> Option<Cause>) -> Verdict {
        match answer.refusal() {
            Some(refusal) => {
                let reason = cause().map_or(refusal.phrase(), Cause::name);
                Verdict::refused(refusal.code(), reason)
            }
            None => Verdict::new("answered"),
        }
    }
}

/// The result of a call that judges datagrams.
pub(crate) trait Judged {
    /// Returns the outcome of the datagram. `cause` is called to find out why a server with
    /// long-term credentials refused it.
    fn verdict(&self, bytes: &[u8], cause: impl FnOnce() -> Option<Cause>) -> Verdict;
}

impl<B, R, I> Judged for Received<'_, B, R, I> {
    fn verdict(&self, _: &[u8], cause: impl FnOnce() -> Option<Cause>) -> Verdict {
        match self {
            Received::Answer(answer) => Verdict::answered(answer, cause),
            Received::Request(_) => Verdict::new("accepted"),
            Received::Indication(_) => Verdict::new("indication"),
            Received::Response(_) => Verdict::new("response"),
            Received::Dropped(why) => Verdict::dropped(why.name()),
        }
    }
}

impl Judged for Input<'_> {
    fn verdict(&self, bytes: &[u8], _: impl FnOnce() -> Option<Cause>) -> Verdict {
        let code = || Message::from_bytes(bytes).ok()?.error_code().ok();
        match self {
            Input::Consumed => Verdict {
                code: code(),
                ..Verdict::new("accepted")
            },
            Input::Indication(_) => Verdict::new("indication"),
            Input::NotOurs => Verdict::new("not ours"),
            Input::Dropped(why) => Verdict {
                code: code(),
                ..Verdict::dropped(why.name())
            },
        }
    }
}

impl<B> Judged for ice::Received<'_, B> {
    fn verdict(&self, _: &[u8], _: impl FnOnce() -> Option<Cause>) -> Verdict {
        match self {
            ice::Received::Check { judged, .. } => match judged {
                ice::Judged::Accepted { .. } => Verdict::new("accepted"),
                ice::Judged::RoleConflict => Verdict::refused(487, "RoleConflict"),
                ice::Judged::Refused(refusal) => {
                    Verdict::refused(refusal.code(), refused(*refusal))
                }
            },
            ice::Received::Response(outcome) => ended(*outcome),
            ice::Received::Indication(_) => Verdict::new("indication"),
            ice::Received::Dropped(why) => Verdict::dropped(why.name()),
        }
    }
}

fn refused(refusal: ice::Refusal) -> &'static str {
    match refusal {
        ice::Refusal::BadRequest => "BadRequest",
        ice::Refusal::Unauthenticated => "Unauthenticated",
        ice::Refusal::UnknownAttribute => "UnknownAttribute",
    }
}

/// Returns the outcome of the answer to a check.
fn ended(outcome: ice::Outcome) -> Verdict {
    let (code, reason) = match outcome {
        ice::Outcome::Valid { .. } => return Verdict::new("valid"),
        ice::Outcome::RoleConflict { .. } => (Some(487), "RoleConflict"),
        ice::Outcome::Failed(ice::Failure::Error(code)) => (Some(code), "Error"),
        ice::Outcome::Failed(ice::Failure::OtherPath) => (None, "OtherPath"),
        ice::Outcome::Failed(ice::Failure::NotUnderstood(_)) => (None, "NotUnderstood"),
        ice::Outcome::Failed(ice::Failure::Malformed) => (None, "Malformed"),
    };
    Verdict {
        kind: "failed",
        code,
        reason: Some(reason),
    }
}

/// Records the outcome of a datagram. The cause is determined only if the event has a subscriber,
/// because the server judges the request again to find it.
pub(crate) fn record(
    bytes: &[u8],
    from: SocketAddr,
    received: &impl Judged,
    cause: impl FnOnce() -> Option<Cause>,
) {
    if tracing::enabled!(target: "seatcrane_stun", tracing::Level::DEBUG) {
        let Verdict { kind, code, reason } = received.verdict(bytes, cause);
        event!(id = id_in(bytes), %from, verdict = kind, code, reason, "received");
    }
}

/// Records the event of a request that waits for its user.
pub(crate) fn record_look_up(bytes: &[u8], from: SocketAddr) {
    event!(id = id_in(bytes), %from, verdict = "look-up", "received");
}

/// Records the event of a request that has ended, with its result.
pub(crate) fn record_end(request: RequestId, result: &Result<Response, RequestError>) {
    match result {
        Ok(_) => {
            event!(?request, result = "success", "a request ended");
        }
        Err(why) => {
            event!(?request, result = %why, "a request ended");
        }
    }
}
