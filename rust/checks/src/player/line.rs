//! Plays the call of a line.

use super::stage::Stage;
use super::values::moment;
use super::words::{address, number, unhex};
use super::{Answer, agent, attribute, client, digest, drive, endpoint, meeting, message, nonce};
use super::{secret, serve, server, short_term, write};

/// The answer to a line that is not understood.
const NOT_UNDERSTOOD: &str = "?";

/// Parses up to sixteen random numbers. Missing numbers are 0. `all` and a number means sixteen
/// times that number.
fn draws(words: &[&str]) -> Option<[u32; 16]> {
    let number = |word: &&str| u32::try_from(number(word)?).ok();
    if let ["all", word] = words {
        return Some([number(word)?; 16]);
    }
    let mut draws = [0; 16];
    for (at, word) in words.iter().enumerate() {
        *draws.get_mut(at)? = number(word)?;
    }
    Some(draws)
}

/// Plays `OBJECT NAME WORD ..`.
fn call(stage: &mut Stage<'_>, object: &str, words: &[&str]) -> Answer {
    match object {
        "server" => server::call(stage, words),
        "client" => client::call(stage, words),
        "short-term" => short_term::call(stage, words),
        "agent" => agent::call(stage, words),
        "message" => message::call(stage, words),
        "attribute" => attribute::call(stage, words),
        "digest" => digest::call(stage, words),
        "write" => write::call(stage, words),
        "secret" => secret::call(stage, words),
        "nonce" => nonce::call(stage, words),
        "serve" => serve::call(stage, words),
        "meet" => meeting::call(stage, words),
        "drive" => drive::call(stage, words),
        "endpoint" => match words {
            ["server", words @ ..] => endpoint::call(stage, words),
            _ => None,
        },
        _ => None,
    }
}

/// Returns `true` if a word names an object whose calls write messages.
fn is_writer(word: &str) -> bool {
    let writers = [
        "server",
        "client",
        "short-term",
        "agent",
        "write",
        "serve",
        "meet",
    ];
    writers.contains(&word)
}

/// Plays `NAME = CALL` or `NAME = MESSAGE`: stores the message under the name. If the call writes a
/// message, the answer is the length of the message. Otherwise it is the answer of the call.
fn store(stage: &mut Stage<'_>, name: &str, words: &[&str]) -> Answer {
    if let [object, words @ ..] = words {
        if is_writer(object) && !words.is_empty() {
            let told = call(stage, object, words)?;
            let Some(bytes) = unhex(&told) else {
                return Some(told);
            };
            let length = bytes.len();
            stage.store(name, bytes);
            return Some(format!("{length} bytes"));
        }
    }
    let bytes = stage.message(words)?;
    stage.store(name, bytes);
    Some(String::new())
}

/// Sets the time that a line begins with, if it begins with a time. Returns the other words.
fn after_time<'w, 'a>(stage: &mut Stage<'_>, words: &'w [&'a str]) -> Option<&'w [&'a str]> {
    let Some((time, rest)) = words.split_first() else {
        return Some(words);
    };
    if !time.starts_with(|first: char| first.is_ascii_digit()) && *time != "max" {
        return Some(words);
    }
    stage.now = moment(time)?;
    Some(rest)
}

/// Plays the words of a line.
fn answer(stage: &mut Stage<'_>, words: &[&str]) -> Answer {
    match after_time(stage, words)? {
        [] => {}
        ["from", word] => stage.from = address(word)?,
        ["draw", words @ ..] => stage.draws = draws(words)?,
        // The number of freed blocks depends on the implementation of maps.
        ["memory"] => {
            let returned = if stage.work.returned == 0 {
                "none"
            } else {
                "some"
            };
            return Some(format!("{} asked, {returned} returned", stage.work.asked));
        }
        [name, "=", words @ ..] => return store(stage, name, words),
        [object, words @ ..] if !words.is_empty() => return call(stage, object, words),
        _ => return None,
    }
    Some(String::new())
}

/// Plays a call, and returns its answer.
pub fn answer_to(stage: &mut Stage<'_>, call: &str) -> String {
    let words: Vec<&str> = call.split_whitespace().collect();
    let answer = answer(stage, &words);
    stage.end();
    answer.unwrap_or_else(|| NOT_UNDERSTOOD.to_string())
}

/// Sets the time of a call that is not made.
pub fn pass_time(stage: &mut Stage<'_>, call: &str) {
    let words: Vec<&str> = call.split_whitespace().collect();
    // If the time is not understood, there is none to set.
    let _ = after_time(stage, &words);
}
