//! The times, durations and errors of an agent as text.

use crate::exported::stun_agent::agent::StunError;
use crate::exported::stun_base::instant::Instant;
use crate::player::OUT_OF_MEMORY;
use crate::player::names::{parse_error, write_error};
use std::time::Duration;

/// Returns a number of nanoseconds as text: `Nms` if they are whole milliseconds, and otherwise
/// `Nns`.
pub fn nanos(nanos: u128) -> String {
    match nanos % 1_000_000 {
        0 => format!("{}ms", nanos / 1_000_000),
        _ => format!("{nanos}ns"),
    }
}

/// Returns a time, or `max` for the greatest one.
pub fn moment(moment: Instant) -> String {
    match moment {
        Instant::MAX => "max".to_string(),
        moment => nanos(moment.as_nanos().into()),
    }
}

/// Returns a duration, or `max` for the longest one.
pub fn span(span: Duration) -> String {
    match span {
        Duration::MAX => "max".to_string(),
        span => nanos(span.as_nanos()),
    }
}

/// Returns the name of an error of the agent.
pub fn error_name(error: StunError) -> &'static str {
    match error {
        StunError::AlreadyInProgress => "AlreadyInProgress",
        StunError::ResourceNotFound => "ResourceNotFound",
        StunError::TimedOut => "TimedOut",
        StunError::ProtocolViolation => "ProtocolViolation",
        StunError::Aborted => "Aborted",
        StunError::ParseError(error) => parse_error(error),
        StunError::WriteError(error) => write_error(error),
        StunError::OutOfMemory => OUT_OF_MEMORY,
    }
}
