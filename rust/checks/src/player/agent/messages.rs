//! Plays the calls with which an agent sends and receives messages, and those about validated
//! peers.

use super::answers::error_name;
use super::usual_peer;
use crate::exported::stun_types::message::Message;
use crate::player::stage::Stage;
use crate::player::words::{address, unhex};
use crate::player::{Answer, OUT_OF_MEMORY};
use std::net::SocketAddr;

/// Returns the address that words begin with, or that of the usual peer, and the other words.
fn address_or_peer<'w, 'a>(words: &'w [&'a str]) -> (SocketAddr, &'w [&'a str]) {
    let named = words.split_first();
    let named = named.and_then(|(first, rest)| Some((address(first)?, rest)));
    named.unwrap_or((usual_peer(), words))
}

/// Plays `agent asks [ADDRESS] MESSAGE`: the agent stores a request, and returns it to be sent.
pub fn ask(stage: &mut Stage<'_>, words: &[&str]) -> Answer {
    let (to, words) = address_or_peer(words);
    let bytes = stage.message(words)?;
    let (now, way) = (stage.now, stage.agent.way);
    stage.begin();
    let answer = match stage.agent.agent.send_request(&*bytes, to, now) {
        Ok(sent) => way.text(&sent, (&bytes, to)),
        Err(error) => return Some(error_name(error).to_string()),
    };
    stage.agent.requests.add(bytes, to)?;
    Some(answer)
}

/// Plays `agent sends [ADDRESS] MESSAGE`: the agent sends an indication or a response.
pub fn send(stage: &mut Stage<'_>, words: &[&str]) -> Answer {
    let (to, words) = address_or_peer(words);
    let bytes = stage.message(words)?;
    let (now, way) = (stage.now, stage.agent.way);
    stage.begin();
    Some(match stage.agent.agent.send(&*bytes, to, now) {
        Ok(sent) => way.text(&sent, (&bytes, to)),
        Err(error) => error_name(error).to_string(),
    })
}

/// Plays `agent sends-data [ADDRESS] HEX ..`: the agent sends bytes that are not a message.
pub fn send_data(stage: &mut Stage<'_>, words: &[&str]) -> Answer {
    let (to, words) = address_or_peer(words);
    let bytes = unhex(&words.concat())?;
    let way = stage.agent.way;
    stage.begin();
    Some(match stage.agent.agent.send_data(&*bytes, to) {
        Ok(sent) => way.text(&sent, (&bytes, to)),
        Err(error) => error_name(error).to_string(),
    })
}

/// Plays `agent takes [ADDRESS] MESSAGE`: prints whether a message from this address is accepted.
/// `agent takes-timed` also passes the time to the agent.
pub fn take(stage: &mut Stage<'_>, words: &[&str], is_timed: bool) -> Answer {
    let (from, words) = address_or_peer(words);
    let bytes = stage.message(words)?;
    let message = Message::from_bytes(&bytes).ok()?;
    let now = stage.now;
    stage.begin();
    let agent = &mut stage.agent.agent;
    let is_accepted = match is_timed {
        true => agent.handle_stun_message_with_time(&message, from, now),
        false => agent.handle_stun_message(&message, from),
    };
    Some(match is_accepted {
        Ok(is_accepted) => is_accepted.to_string(),
        Err(_) => OUT_OF_MEMORY.to_string(),
    })
}

/// Plays `agent validate ADDRESS`: adds a validated peer.
pub fn validate(stage: &mut Stage<'_>, word: &str) -> Answer {
    let address = address(word)?;
    stage.begin();
    match stage.agent.agent.validated_peer(address) {
        Ok(_) => Some(String::new()),
        Err(_) => Some(OUT_OF_MEMORY.to_string()),
    }
}

/// Plays `agent is-validated ADDRESS ..`: prints for each address whether it is a validated peer.
pub fn is_validated(stage: &Stage<'_>, words: &[&str]) -> Answer {
    let each = words.iter().map(|word| {
        let is_validated = stage.agent.agent.is_validated_peer(address(word)?);
        Some(is_validated.to_string())
    });
    Some(each.collect::<Option<Vec<String>>>()?.join(" "))
}
