//! The requests that an agent stores, and the transmissions that it returns.

use crate::exported::stun_agent::agent::Transmit;
use crate::exported::stun_base::transport::TransportType;
use crate::exported::stun_types::message::{MessageHeader, TransactionId};
use crate::player::words::hex;
use std::collections::HashMap;
use std::net::SocketAddr;

/// The transport and the local address of the messages of an agent.
#[derive(Clone, Copy)]
pub struct Way {
    pub transport: TransportType,
    pub from: SocketAddr,
}

impl Way {
    fn is_that_of(self, sent: &Transmit<&[u8]>) -> bool {
        sent.transport == self.transport && sent.from == self.from
    }

    /// Returns `sent` if a transmission has these bytes, goes to this address and has the transport
    /// and address of the agent, and otherwise its parts.
    pub fn text(self, sent: &Transmit<&[u8]>, (bytes, to): (&[u8], SocketAddr)) -> String {
        match self.is_that_of(sent) && sent.data == bytes && sent.to == to {
            true => "sent".to_string(),
            false => parts(sent),
        }
    }
}

/// Returns the text of all parts of a transmission.
fn parts(sent: &Transmit<&[u8]>) -> String {
    let Transmit {
        data,
        transport,
        from,
        to,
    } = sent;
    format!("{transport} {from} to {to} {}", hex(data))
}

/// The bytes and the address of the latest request of each transaction ID.
#[derive(Default)]
pub struct Requests {
    requests: HashMap<u128, (Vec<u8>, SocketAddr)>,
}

impl Requests {
    /// Adds a request that the agent stores.
    pub fn add(&mut self, bytes: Vec<u8>, to: SocketAddr) -> Option<()> {
        let id: TransactionId = MessageHeader::from_bytes(&bytes).ok()?.transaction_id();
        self.requests.insert(id.as_u128(), (bytes, to));
        Some(())
    }

    /// Returns the number of the request that the agent returns for retransmission, if the
    /// transmission has the address of that request and the transport and address of the agent.
    /// Otherwise returns its parts, and `none` if nothing is to be sent.
    pub fn text(&self, sent: Option<Transmit<&[u8]>>, way: Way) -> String {
        let Some(sent) = sent else {
            return "none".to_string();
        };
        let mut each = self.requests.iter();
        let found = each.find(|(_, (bytes, to))| bytes == sent.data && *to == sent.to);
        match found.filter(|_| way.is_that_of(&sent)) {
            Some((id, _)) => id.to_string(),
            None => parts(&sent),
        }
    }
}
