//! The timeouts of a request: when it is retransmitted, and when it times out.

use super::answers;
use crate::exported::stun_agent::agent::RequestRto;
use crate::player::Answer;
use crate::player::values::{short_number, transport};
use crate::player::words::span;

/// Parses the timeout after the first transmission, the longest timeout between two, the number of
/// transmissions, and the last timeout.
pub fn timeouts(initial: &str, max: &str, retransmits: &str, last: &str) -> Option<RequestRto> {
    Some(RequestRto {
        initial: span(initial)?,
        max: span(max)?,
        retransmits: short_number(retransmits)?,
        last_retransmit: span(last)?,
    })
}

/// Plays `agent rto [INITIAL MAX RETRANSMITS FINAL] ..`, for these timeouts or for the defaults:
/// `.. slots udp|tcp` prints how often a request is retransmitted, `.. timeout NUMBER` the timeout
/// after this transmission, counted from 0, `.. final-wait udp|tcp` the last timeout, and no word
/// all four settings.
pub fn tell(words: &[&str]) -> Answer {
    let (rto, words) = match words {
        [initial, max, retransmits, last, words @ ..] => {
            (timeouts(initial, max, retransmits, last)?, words)
        }
        words => (RequestRto::default(), words),
    };
    Some(match words {
        [] => {
            let (initial, max) = (answers::span(rto.initial), answers::span(rto.max));
            let last = answers::span(rto.last_retransmit);
            format!("{initial} {max} {} {last}", rto.retransmits)
        }
        ["slots", word] => rto.slots(transport(word)?).to_string(),
        ["timeout", word] => answers::span(rto.timeout(short_number(word)?)),
        ["final-wait", word] => answers::span(rto.final_wait(transport(word)?)),
        _ => return None,
    })
}
