//! The statistics of an agent.

use super::answers::span;
use crate::exported::stun_agent::stats::StunAgentStats;
use crate::player::stage::Stage;
use std::time::Duration;

/// The answer if the agent keeps no statistics.
const NOT_KEPT: &str = "not kept";

/// Plays `agent counts`: prints `NAME=SENT/RECEIVED` for messages and bytes, `NAME=NUMBER` for
/// requests that are outstanding or have ended, and `round-trips=NUMBER/SHORTEST/LONGEST/AVERAGE`.
/// Zeros are left out, and the answer of a new agent is `nothing`.
pub fn tell(stage: &Stage<'_>) -> String {
    let Some(stats) = stage.agent.agent.stats() else {
        return NOT_KEPT.to_string();
    };
    if *stats == StunAgentStats::default() {
        return "nothing".to_string();
    }
    let mut parts = Vec::new();
    for (name, sent, received) in [
        ("requests", stats.requests_sent(), stats.requests_received()),
        (
            "responses",
            stats.responses_sent(),
            stats.responses_received(),
        ),
        (
            "indications",
            stats.indications_sent(),
            stats.indications_received(),
        ),
        ("bytes", stats.bytes_sent(), stats.bytes_received()),
    ] {
        if sent != 0 || received != 0 {
            parts.push(format!("{name}={sent}/{received}"));
        }
    }
    for (name, number) in [
        ("outstanding", stats.outstanding_requests()),
        ("timed-out", stats.transactions_timed_out()),
        ("cancelled", stats.transactions_cancelled()),
    ] {
        if number != 0 {
            parts.push(format!("{name}={number}"));
        }
    }
    parts.extend(round_trips(stats));
    parts.join(" ")
}

/// Returns the text of the round-trip times, if there are any.
fn round_trips(stats: &StunAgentStats) -> Option<String> {
    let times = [stats.rtt_min(), stats.rtt_max(), stats.rtt_average()];
    if stats.rtt_count() == 0 && times.iter().all(Option::is_none) {
        return None;
    }
    let time = |time: Option<Duration>| time.map_or_else(|| "none".to_string(), span);
    let [shortest, longest, average] = times.map(time);
    Some(format!(
        "round-trips={}/{shortest}/{longest}/{average}",
        stats.rtt_count()
    ))
}

/// Plays `agent reset`: resets the statistics.
pub fn reset(stage: &mut Stage<'_>) -> String {
    stage.begin();
    match stage.agent.agent.stats_mut() {
        Some(stats) => {
            stats.reset();
            String::new()
        }
        None => NOT_KEPT.to_string(),
    }
}
