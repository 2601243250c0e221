//! The methods of TURN, and the data of its channels.

use crate::endpoint::lent;
use crate::exported::stun_buffer::writer::BufferWriter;
use crate::exported::stun_extra::canonical_address::canonical;
use crate::exported::stun_extra::framing::{CHANNEL_HEADER_LENGTH, is_stun};
use crate::exported::stun_extra::turn::TurnMethod as Proved;
use crate::exported::stun_types::message::{
    self as proved, MessageClass, MessageType, Method, StunWriteError,
};
use crate::exported::stun_types::prelude::{MessageWrite, MessageWriteExt};
use crate::kit::prelude::Vec as KitVec;
use crate::transaction::TransactionId;
use crate::types::attribute::{Data, XorPeerAddress};
use alloc::vec::Vec;
use core::fmt;
use core::net::SocketAddr;

/// A method of TURN (RFC 8656, section 17), or of TURN with TCP to the peers (RFC 6062, section
/// 6.1).
///
/// # Examples
///
/// ```
/// use seatcrane_stun::extra::turn::TurnMethod;
/// use seatcrane_stun::types::message::{BINDING, Method};
///
/// assert_eq!(TurnMethod::Allocate.method().value(), 3);
/// assert_eq!(TurnMethod::of(Method::new(4).unwrap()), Some(TurnMethod::Refresh));
/// assert_eq!(TurnMethod::of(BINDING), None);
/// assert_eq!(TurnMethod::ConnectionBind.to_string(), "ConnectionBind");
/// ```
#[derive(Clone, Copy, Debug, PartialEq, Eq, Hash)]
#[non_exhaustive]
pub enum TurnMethod {
    /// A client requests an allocation.
    Allocate,
    /// A client refreshes its allocation, or deletes it.
    Refresh,
    /// A client sends data to a peer through the server. Only indications have this method.
    Send,
    /// A server passes the data of a peer on to the client. Only indications have this method.
    Data,
    /// A client permits a peer to send.
    CreatePermission,
    /// A client binds a channel to a peer.
    ChannelBind,
    /// A client asks the server to connect to a peer over TCP (RFC 6062).
    Connect,
    /// A client asks the server to relay a connection to a peer over the connection on which this
    /// request arrives (RFC 6062).
    ConnectionBind,
    /// A server reports that a peer has connected (RFC 6062). Only indications have this method.
    ConnectionAttempt,
}

impl TurnMethod {
    /// All methods, in the order of their numbers.
    pub const ALL: [TurnMethod; 9] = [
        TurnMethod::Allocate,
        TurnMethod::Refresh,
        TurnMethod::Send,
        TurnMethod::Data,
        TurnMethod::CreatePermission,
        TurnMethod::ChannelBind,
        TurnMethod::Connect,
        TurnMethod::ConnectionBind,
        TurnMethod::ConnectionAttempt,
    ];

    /// Returns the number of the method.
    #[must_use]
    pub fn number(self) -> u16 {
        match self {
            TurnMethod::Allocate => Proved::Allocate.number(),
            TurnMethod::Refresh => Proved::Refresh.number(),
            TurnMethod::Send => Proved::Send.number(),
            TurnMethod::Data => Proved::Data.number(),
            TurnMethod::CreatePermission => Proved::CreatePermission.number(),
            TurnMethod::ChannelBind => Proved::ChannelBind.number(),
            TurnMethod::Connect => 0x00A,
            TurnMethod::ConnectionBind => 0x00B,
            TurnMethod::ConnectionAttempt => 0x00C,
        }
    }

    /// Converts this method of TURN to a [`Method`].
    #[expect(clippy::missing_panics_doc, reason = "each number has 12 bits")]
    #[must_use]
    pub fn method(self) -> Method {
        Method::new(self.number()).expect("a number of 12 bits")
    }

    /// Converts the method of a message to a method of TURN. Returns `None` if TURN has no such
    /// method.
    #[must_use]
    pub fn of(method: Method) -> Option<TurnMethod> {
        let number = method.value();
        TurnMethod::ALL.into_iter().find(|one| one.number() == number)
    }
}

/// Writes the name, for example `Allocate`.
impl fmt::Display for TurnMethod {
    fn fmt(&self, f: &mut fmt::Formatter<'_>) -> fmt::Result {
        fmt::Debug::fmt(self, f)
    }
}

/// Converts like [`TurnMethod::method`], so that
/// [`Client::request`](crate::endpoint::Client::request) accepts a method of TURN.
impl From<TurnMethod> for Method {
    fn from(method: TurnMethod) -> Method {
        method.method()
    }
}

/// The methods of TURN (RFC 8656, section 17) and of TURN with TCP to the peers (RFC 6062, section
/// 6.1). [`TurnMethod`] is an enum of the same methods, to match on.
///
/// # Examples
///
/// ```
/// use seatcrane_stun::types::message::{BINDING, Method};
///
/// const SERVED: &[Method] = &[BINDING, Method::ALLOCATE, Method::REFRESH];
/// assert!(SERVED.contains(&Method::new(3).unwrap()));
/// assert!(!SERVED.contains(&Method::CONNECT));
/// ```
impl Method {
    /// A client requests an allocation.
    pub const ALLOCATE: Method = method(0x003);
    /// A client refreshes its allocation, or deletes it.
    pub const REFRESH: Method = method(0x004);
    /// A client sends data to a peer through the server. Only indications have this method.
    pub const SEND: Method = method(0x006);
    /// A server passes the data of a peer on to the client. Only indications have this method.
    pub const DATA: Method = method(0x007);
    /// A client permits a peer to send.
    pub const CREATE_PERMISSION: Method = method(0x008);
    /// A client binds a channel to a peer.
    pub const CHANNEL_BIND: Method = method(0x009);
    /// A client asks the server to connect to a peer over TCP (RFC 6062).
    pub const CONNECT: Method = method(0x00A);
    /// A client asks the server to relay a connection to a peer over the connection on which this
    /// request arrives (RFC 6062).
    pub const CONNECTION_BIND: Method = method(0x00B);
    /// A server reports that a peer has connected (RFC 6062). Only indications have this method.
    pub const CONNECTION_ATTEMPT: Method = method(0x00C);
}

/// Returns the method with a number that has 12 bits.
const fn method(number: u16) -> Method {
    match Method::new(number) {
        Some(method) => method,
        None => panic!("a number of 12 bits"),
    }
}

/// The kind of a datagram at a socket of a TURN client or server.
///
/// # Examples
///
/// ```
/// use seatcrane_stun::extra::turn::Packet;
///
/// fn receive(datagram: &[u8]) {
///     match Packet::of(datagram) {
///         Packet::Message => println!("for `Server::receive` or `Client::receive`"),
///         Packet::ChannelData(found) => println!("{} bytes", found.data().len()),
///         _ => {} // neither
///     }
/// }
/// # receive(b"\x40\0\0\x05media");
/// ```
#[derive(Clone, Copy, Debug, PartialEq, Eq, Hash)]
#[non_exhaustive]
pub enum Packet<'a> {
    /// The datagram begins with the header of a STUN message. Pass it to the endpoint, which checks
    /// whether the rest of it is well-formed.
    Message,
    /// The datagram is a ChannelData message.
    ChannelData(ChannelData<'a>),
    /// The datagram is neither a message nor ChannelData, or it is incomplete ChannelData.
    Other,
}

impl<'a> Packet<'a> {
    /// Distinguishes messages from ChannelData by the first byte (RFC 8656, section 12; RFC 7983).
    pub fn of(bytes: &'a [u8]) -> Packet<'a> {
        if is_stun(bytes) {
            return Packet::Message;
        }
        ChannelData::from_bytes(bytes).map_or(Packet::Other, Packet::ChannelData)
    }
}

/// Writes a Data indication into a buffer that you keep between indications, replacing its
/// contents. The indication carries data that came from a peer to the client (RFC 8656, section
/// 11.3). An address `::ffff:a.b.c.d` is written as the IPv4 address `a.b.c.d`.
///
/// An indication is not answered, so its transaction ID need not be unpredictable, and may be a
/// counter. [`Message::builder_indication`](crate::types::message::Message::builder_indication)
/// asks the operating system for random numbers, which takes longer than writing the indication.
///
/// # Errors
///
/// Returns the first of these errors that applies. The buffer is then empty.
///
/// - [`StunWriteError::TooLarge`]: the data does not fit in a message.
/// - [`StunWriteError::OutOfMemory`]: an allocation failed.
///
/// # Examples
///
/// ```
/// use seatcrane_stun::extra::attribute::Data;
/// use seatcrane_stun::extra::turn::data_indication;
/// use seatcrane_stun::types::message::{Message, TransactionId};
///
/// # fn main() -> Result<(), Box<dyn std::error::Error>> {
/// let (mut buffer, mut count, peer) =
///     (Vec::with_capacity(1500), 0_u128, "192.0.2.7:9".parse()?);
/// for payload in [&b"one"[..], b"two"] {
///     count += 1;
///     data_indication(TransactionId::from(count), peer, payload, &mut buffer)?;
///     // send the buffer to the client
///     assert_eq!(
///         Message::from_bytes(&buffer)?.attribute::<Data>()?.data(),
///         payload
///     );
/// }
/// # Ok(())
/// # }
/// ```
pub fn data_indication(
    id: TransactionId,
    peer: SocketAddr,
    data: &[u8],
    buffer: &mut Vec<u8>,
) -> Result<(), StunWriteError> {
    indication(Method::DATA, id, peer, data, buffer)
}

/// Writes a Send indication into a buffer that you keep between indications, replacing its
/// contents. The indication carries data that the server relays to a peer (RFC 8656, section 11.1).
/// It is not signed, so it needs no [`Client`], and its transaction ID may be a counter, as in
/// [`data_indication`]. An address `::ffff:a.b.c.d` is written as the IPv4 address `a.b.c.d`.
///
/// [`Client`]: crate::endpoint::Client
///
/// # Errors
///
/// Returns the first of these errors that applies. The buffer is then empty.
///
/// - [`StunWriteError::TooLarge`]: the data does not fit in a message.
/// - [`StunWriteError::OutOfMemory`]: an allocation failed.
///
/// # Examples
///
/// ```
/// use seatcrane_stun::extra::turn::send_indication;
/// use seatcrane_stun::types::message::TransactionId;
/// use std::net::{SocketAddr, UdpSocket};
///
/// fn send(
///     (socket, server): (&UdpSocket, SocketAddr),
///     (id, peer): (TransactionId, SocketAddr),
///     data: &[u8],
///     buffer: &mut Vec<u8>,
/// ) -> Result<(), Box<dyn std::error::Error>> {
///     send_indication(id, peer, data, buffer)?;
///     socket.send_to(buffer, server)?;
///     Ok(())
/// }
/// ```
pub fn send_indication(
    id: TransactionId,
    peer: SocketAddr,
    data: &[u8],
    buffer: &mut Vec<u8>,
) -> Result<(), StunWriteError> {
    indication(Method::SEND, id, peer, data, buffer)
}

/// Writes an indication with XOR-PEER-ADDRESS and DATA.
fn indication(
    method: Method,
    id: TransactionId,
    peer: SocketAddr,
    data: &[u8],
    buffer: &mut Vec<u8>,
) -> Result<(), StunWriteError> {
    let kind = MessageType::from_class_method(MessageClass::Indication, method);
    let bytes: Result<KitVec<u8>, StunWriteError> = lent(buffer, |memory| {
        let mut page = proved::Message::builder(kind, id.0, BufferWriter::over(memory))?;
        page.add_attribute(&XorPeerAddress::new(canonical(peer), id))?;
        page.add_attribute(&Data::new(data))?;
        Ok(page.finish())
    });
    *buffer = bytes.map(KitVec::into_std)?;
    Ok(())
}

/// Data on a channel (RFC 8656, section 12.4): what a client and its TURN server send in place of
/// Send and Data indications once a channel is bound.
///
/// # Examples
///
/// ```
/// use seatcrane_stun::extra::turn::ChannelData;
///
/// let data = ChannelData::new(0x4000, b"media").unwrap();
/// let mut datagram = Vec::new();
/// data.write(&mut datagram);
/// assert_eq!(datagram, b"\x40\0\0\x05media");
/// assert_eq!(ChannelData::from_bytes(&datagram), Some(data));
///
/// let mut stream = Vec::new(); // over TCP it is padded to a multiple of 4 bytes
/// data.write_padded(&mut stream);
/// assert_eq!(stream, b"\x40\0\0\x05media\0\0\0");
/// assert_eq!(ChannelData::from_bytes(&stream), Some(data));
/// ```
#[derive(Clone, Copy, PartialEq, Eq, Hash)]
pub struct ChannelData<'a> {
    channel: u16,
    length: u16,
    data: &'a [u8],
}

/// Shows how many bytes there are, but not the bytes themselves.
impl fmt::Debug for ChannelData<'_> {
    fn fmt(&self, f: &mut fmt::Formatter<'_>) -> fmt::Result {
        let (channel, length) = (self.channel, self.length);
        write!(f, "ChannelData({channel:#06x}, {length} bytes)")
    }
}

impl<'a> ChannelData<'a> {
    /// Creates a ChannelData message. Returns `None` if the channel is not from 0x4000 to 0x7FFF,
    /// or if there are more than 65535 bytes of data.
    ///
    /// RFC 8656 has only the channels 0x4000 to 0x4FFF. A server uses the other channels only with
    /// a client that implements RFC 5766 and has bound such a channel.
    #[must_use]
    pub fn new(channel: u16, data: &'a [u8]) -> Option<ChannelData<'a>> {
        let length = u16::try_from(data.len()).ok()?;
        (channel >> 14 == 1).then_some(ChannelData {
            channel,
            length,
            data,
        })
    }

    /// Reads ChannelData from a datagram, or from a frame of a stream that
    /// [`FrameBuffer::for_turn`](crate::endpoint::FrameBuffer::for_turn) has split. Returns `None`
    /// if the bytes are not ChannelData, because the first byte is not from 0x40 to 0x7F, or if the
    /// data is incomplete.
    ///
    /// Bytes after the data are ignored, because a sender may pad the data (RFC 8656, section
    /// 12.5).
    pub fn from_bytes(bytes: &'a [u8]) -> Option<ChannelData<'a>> {
        let (header, rest) = bytes.split_first_chunk::<CHANNEL_HEADER_LENGTH>()?;
        let [channel, length] =
            [[header[0], header[1]], [header[2], header[3]]].map(u16::from_be_bytes);
        ChannelData::new(channel, rest.get(..length.into())?)
    }

    /// Returns the number of the channel.
    #[must_use]
    pub fn channel(&self) -> u16 {
        self.channel
    }

    /// Returns the data.
    #[must_use]
    pub fn data(&self) -> &'a [u8] {
        self.data
    }

    /// Appends the header and the data to `bytes`, in the form for a datagram.
    pub fn write(&self, bytes: &mut Vec<u8>) {
        bytes.extend_from_slice(&self.channel.to_be_bytes());
        bytes.extend_from_slice(&self.length.to_be_bytes());
        bytes.extend_from_slice(self.data);
    }

    /// Appends the header and the data to `bytes`, in the form for a stream such as TCP: padded
    /// with zero bytes to a multiple of 4 (RFC 8656, section 12.5).
    pub fn write_padded(&self, bytes: &mut Vec<u8>) {
        self.write(bytes);
        let padding = self.data.len().next_multiple_of(4) - self.data.len();
        bytes.extend_from_slice(&[0; 3][..padding]);
    }
}
