//! The table of the further attributes. Each row has the name of a constant of `AttributeType`, the
//! RFC, and a form, which is a macro. The arguments of the form are the name of the type and, for
//! some forms, the name of its value. The comment above a row becomes the page of the type. The
//! numbers are those of the proved sources.
//!
//! The table generates the types of [`extra::attribute`](crate::extra::attribute), the constants of
//! `AttributeType`, the list of types that a client understands, and a test of each row.

use crate::address::{hidden_address, plain_address};
use crate::bytes::bytes_attribute;
use crate::copies::copy;
use crate::exported::stun_attributes as further;
use crate::exported::stun_types::attribute::{
    Attribute, AttributeFromRaw, AttributeStaticType, AttributeType, RawAttribute,
};
use crate::exported::stun_types::message::{StunParseError, StunWriteError};
use crate::exported::stun_types::prelude::MessageWrite;
use crate::family::family_attribute;
use crate::flag::flag_attribute;
use crate::newtype::forward_attribute;
use crate::number::number_attribute;
use crate::text::text_attribute;
use crate::transaction::TransactionId;
use core::fmt;
use core::net::SocketAddr;

/// Exports a type for which the proved sources have a file of its own. If the row names a module,
/// the type is in that module of `stun_extra`, and otherwise in `stun_attributes`.
macro_rules! own_attribute {
    (@test $($row:tt)*) => {};
    ($name:ident) => {
        pub use crate::exported::stun_attributes::$name;
    };
    ($name:ident, $module:ident) => {
        pub use crate::exported::stun_extra::$module::$name;
    };
}

macro_rules! table {
    ($($(#[doc = $doc:literal])* $number:ident, $rfc:literal:
        $form:ident($name:ident $($row:tt)*);)*) => {
        $($form!($(#[doc = $doc])* $name $($row)*);)*

        /// Further registered types. Their attributes are in
        /// [`extra::attribute`](crate::extra::attribute).
        impl AttributeType {
            $(
                #[doc = concat!($rfc, ".")]
                pub const $number: AttributeType = AttributeType($name::TYPE.0);
            )*
        }

        /// Returns the registered name of a type, or `None` if no row has this type.
        pub(crate) fn name_in_table(kind: AttributeType) -> Option<&'static str> {
            let rows = [$(($name::TYPE, $rfc)),*];
            let (_, text) = rows.into_iter().find(|(of, _)| *of == kind)?;
            text.split(" (").next()
        }

        /// The types of all rows.
        pub(crate) const TYPES: &[AttributeType] = &[$($name::TYPE),*];

        #[cfg(test)]
        #[test]
        fn each_row_is_written_and_read() {
            $($form!(@test $name $($row)*);)*
        }
    };
}

table! {
    // STUN (RFC 8489, section 14).

    /// MAPPED-ADDRESS (RFC 8489, section 14.1): the address that a request came from, not XORed.
    ///
    /// # Examples
    ///
    /// ```
    /// use seatcrane_stun::extra::attribute::MappedAddress;
    /// use seatcrane_stun::types::message::Message;
    /// use std::net::SocketAddr;
    ///
    /// /// Returns the address that the server saw, even if the server is an old one.
    /// fn mapped(success: &Message<'_>) -> Option<SocketAddr> {
    ///     let old = || Some(success.attribute::<MappedAddress>().ok()?.addr());
    ///     success.xor_mapped_address().ok().or_else(old)
    /// }
    /// # let success = b"\x01\x01\0\x0c\x21\x12\xa4\x42 any 12 byte\
    /// #                 \0\x01\0\x08\0\x01\x0d\x96\xc0\0\x02\x01";
    /// # let success = Message::from_bytes(success).unwrap();
    /// # assert_eq!(mapped(&success), Some("192.0.2.1:3478".parse().unwrap()));
    /// ```
    MAPPED_ADDRESS, "MAPPED-ADDRESS (RFC 8489, section 14.1)":
        plain_address(MappedAddress, addr);

    UNKNOWN_ATTRIBUTES, "UNKNOWN-ATTRIBUTES (RFC 8489, section 14.13)":
        own_attribute(UnknownAttributes, unknown);

    /// SOFTWARE (RFC 8489, section 14.14): a description of the sender's software, at most 763
    /// bytes of UTF-8.
    ///
    /// # Examples
    ///
    /// ```
    /// use seatcrane_stun::extra::attribute::Software;
    /// use seatcrane_stun::types::message::*;
    /// use seatcrane_stun::types::prelude::*;
    ///
    /// # let id = TransactionId::from(*b"any 12 bytes");
    /// let mut message =
    ///     Message::builder_request_with_id(BINDING, id, MessageWriteVec::new());
    /// message.add_attribute(&Software::new("example 1.0")?)?;
    /// let bytes = message.finish();
    ///
    /// let message = Message::from_bytes(&bytes).unwrap();
    /// assert_eq!(message.attribute::<Software>().unwrap().software(), "example 1.0");
    /// # Ok::<(), StunWriteError>(())
    /// ```
    SOFTWARE, "SOFTWARE (RFC 8489, section 14.14)":
        text_attribute(Software, further, text, software, "763");

    /// ALTERNATE-SERVER (RFC 8489, section 14.15): the server that a client should try instead.
    ///
    /// # Examples
    ///
    /// ```
    /// use seatcrane_stun::extra::attribute::AlternateServer;
    /// use seatcrane_stun::types::message::{Message, StunParseError};
    /// use std::net::SocketAddr;
    ///
    /// /// Returns the server that a 300 names.
    /// fn other_server(error: &Message<'_>) -> Result<SocketAddr, StunParseError> {
    ///     Ok(error.attribute::<AlternateServer>()?.server())
    /// }
    /// # let error = b"\x01\x11\0\x0c\x21\x12\xa4\x42 any 12 byte\
    /// #               \x80\x23\0\x08\0\x01\x0d\x96\xc0\0\x02\x01";
    /// # let error = Message::from_bytes(error).unwrap();
    /// # assert_eq!(other_server(&error), Ok("192.0.2.1:3478".parse().unwrap()));
    /// ```
    ALTERNATE_SERVER, "ALTERNATE-SERVER (RFC 8489, section 14.15)":
        plain_address(AlternateServer, server);

    /// ALTERNATE-DOMAIN (RFC 8489, section 14.16): the domain name of the server in
    /// ALTERNATE-SERVER, which its TLS certificate must contain. It has at most 255 bytes. No call
    /// checks that it is a domain name.
    ///
    /// # Examples
    ///
    /// ```
    /// use seatcrane_stun::extra::attribute::AlternateDomain;
    ///
    /// let domain = AlternateDomain::new("stun.example.org").unwrap();
    /// assert_eq!(domain.domain(), "stun.example.org");
    /// assert!(AlternateDomain::new(&"x".repeat(256)).is_err());
    /// ```
    ALTERNATE_DOMAIN, "ALTERNATE-DOMAIN (RFC 8489, section 14.16)":
        text_attribute(AlternateDomain, further, text, domain, "255");

    // ICE (RFC 8445, section 16.1).

    /// PRIORITY (RFC 8445, section 16.1): the priority of the peer-reflexive candidate that a
    /// connectivity check with this attribute may discover.
    ///
    /// # Examples
    ///
    /// ```
    /// use seatcrane_stun::extra::attribute::Priority;
    /// use seatcrane_stun::types::message::*;
    /// use seatcrane_stun::types::prelude::*;
    ///
    /// # let id = TransactionId::from(*b"any 12 bytes");
    /// let mut message =
    ///     Message::builder_request_with_id(BINDING, id, MessageWriteVec::new());
    /// message.add_attribute(&Priority::new(0x6e00_01ff))?;
    /// let bytes = message.finish();
    ///
    /// let message = Message::from_bytes(&bytes).unwrap();
    /// assert_eq!(message.attribute::<Priority>().unwrap().priority(), 0x6e00_01ff);
    /// # Ok::<(), StunWriteError>(())
    /// ```
    PRIORITY, "PRIORITY (RFC 8445, section 16.1)":
        number_attribute(Priority, number, priority: u32, "the priority");

    /// USE-CANDIDATE (RFC 8445, section 16.1): with this attribute in a connectivity check, the
    /// controlling agent nominates the candidate pair of the check. It has no value.
    ///
    /// # Examples
    ///
    /// ```
    /// use seatcrane_stun::extra::attribute::UseCandidate;
    /// use seatcrane_stun::types::message::*;
    /// use seatcrane_stun::types::prelude::*;
    ///
    /// # let id = TransactionId::from(*b"any 12 bytes");
    /// let mut check =
    ///     Message::builder_request_with_id(BINDING, id, MessageWriteVec::new());
    /// check.add_attribute(&UseCandidate)?; // nominates the pair
    /// let check = check.finish();
    ///
    /// let check = Message::from_bytes(&check).unwrap();
    /// assert!(check.attribute::<UseCandidate>().is_ok());
    /// # Ok::<(), StunWriteError>(())
    /// ```
    USE_CANDIDATE, "USE-CANDIDATE (RFC 8445, section 16.1)":
        flag_attribute(UseCandidate);

    /// ICE-CONTROLLED (RFC 8445, section 16.1): the sender is in the controlled role. The
    /// tie-breaker, a random number of 64 bits, resolves a role conflict.
    ///
    /// # Examples
    ///
    /// ```
    /// use seatcrane_stun::extra::attribute::IceControlled;
    /// use seatcrane_stun::types::message::*;
    /// use seatcrane_stun::types::prelude::*;
    ///
    /// # let id = TransactionId::from(*b"any 12 bytes");
    /// let mut message =
    ///     Message::builder_request_with_id(BINDING, id, MessageWriteVec::new());
    /// message.add_attribute(&IceControlled::new(0x0123_4567_89ab_cdef))?;
    /// let bytes = message.finish();
    ///
    /// let message = Message::from_bytes(&bytes).unwrap();
    /// let role = message.attribute::<IceControlled>().unwrap();
    /// assert_eq!(role.tie_breaker(), 0x0123_4567_89ab_cdef);
    /// # Ok::<(), StunWriteError>(())
    /// ```
    ICE_CONTROLLED, "ICE-CONTROLLED (RFC 8445, section 16.1)":
        number_attribute(IceControlled, tie_breaker, tie_breaker: u64, "the tie-breaker");

    /// ICE-CONTROLLING (RFC 8445, section 16.1): the sender is in the controlling role. The
    /// tie-breaker, a random number of 64 bits, resolves a role conflict.
    ///
    /// # Examples
    ///
    /// ```
    /// use seatcrane_stun::extra::attribute::IceControlling;
    /// use seatcrane_stun::types::message::*;
    /// use seatcrane_stun::types::prelude::*;
    ///
    /// # let id = TransactionId::from(*b"any 12 bytes");
    /// let mut message =
    ///     Message::builder_request_with_id(BINDING, id, MessageWriteVec::new());
    /// message.add_attribute(&IceControlling::new(0x0123_4567_89ab_cdef))?;
    /// let bytes = message.finish();
    ///
    /// let message = Message::from_bytes(&bytes).unwrap();
    /// let role = message.attribute::<IceControlling>().unwrap();
    /// assert_eq!(role.tie_breaker(), 0x0123_4567_89ab_cdef);
    /// # Ok::<(), StunWriteError>(())
    /// ```
    ICE_CONTROLLING, "ICE-CONTROLLING (RFC 8445, section 16.1)":
        number_attribute(IceControlling, tie_breaker, tie_breaker: u64, "the tie-breaker");

    // TURN (RFC 8656, section 18).

    CHANNEL_NUMBER, "CHANNEL-NUMBER (RFC 8656, section 18.1)":
        own_attribute(ChannelNumber);

    /// LIFETIME (RFC 8656, section 18.2): the number of seconds after which an allocation expires
    /// if it is not refreshed.
    ///
    /// # Examples
    ///
    /// ```
    /// use seatcrane_stun::extra::attribute::Lifetime;
    /// use seatcrane_stun::extra::turn::TurnMethod;
    /// use seatcrane_stun::types::message::*;
    /// use seatcrane_stun::types::prelude::*;
    ///
    /// # let id = TransactionId::from(*b"any 12 bytes");
    /// let method = TurnMethod::Refresh.method();
    /// let mut message =
    ///     Message::builder_request_with_id(method, id, MessageWriteVec::new());
    /// message.add_attribute(&Lifetime::new(0))?; // ends the allocation
    /// let bytes = message.finish();
    ///
    /// let message = Message::from_bytes(&bytes).unwrap();
    /// assert_eq!(message.attribute::<Lifetime>().unwrap().seconds(), 0);
    /// # Ok::<(), StunWriteError>(())
    /// ```
    LIFETIME, "LIFETIME (RFC 8656, section 18.2)":
        number_attribute(Lifetime, number, seconds: u32, "the number of seconds");

    /// XOR-PEER-ADDRESS (RFC 8656, section 18.3): the address of a peer of a TURN client, XORed
    /// like the address in [`XorMappedAddress`](crate::types::attribute::XorMappedAddress).
    ///
    /// # Examples
    ///
    /// A TURN client asks for permission to exchange data with a peer:
    ///
    /// ```
    /// use seatcrane_stun::extra::attribute::XorPeerAddress;
    /// use seatcrane_stun::extra::turn::TurnMethod;
    /// use seatcrane_stun::types::message::*;
    /// use seatcrane_stun::types::prelude::*;
    ///
    /// # let id = TransactionId::from(*b"any 12 bytes");
    /// # let peer = "192.0.2.15:9001".parse().unwrap();
    /// let permission = TurnMethod::CreatePermission.method();
    /// let mut request =
    ///     Message::builder_request_with_id(permission, id, MessageWriteVec::new());
    /// request.add_attribute(&XorPeerAddress::new(peer, id))?;
    /// # Ok::<(), StunWriteError>(())
    /// ```
    XOR_PEER_ADDRESS, "XOR-PEER-ADDRESS (RFC 8656, section 18.3)":
        hidden_address(XorPeerAddress, further);

    /// DATA (RFC 8656, section 18.4): the data of a datagram to or from a peer, borrowed.
    ///
    /// # Examples
    ///
    /// ```
    /// use seatcrane_stun::extra::attribute::{Data, XorPeerAddress};
    /// use seatcrane_stun::extra::turn::TurnMethod;
    /// use seatcrane_stun::types::message::*;
    /// use seatcrane_stun::types::prelude::*;
    ///
    /// # let id = TransactionId::from(*b"any 12 bytes");
    /// # let peer = "192.0.2.15:9001".parse().unwrap();
    /// let send = TurnMethod::Send.method();
    /// let send = MessageType::from_class_method(MessageClass::Indication, send);
    /// let mut send = Message::builder(send, id, MessageWriteVec::new());
    /// send.add_attribute(&XorPeerAddress::new(peer, id))?;
    /// send.add_attribute(&Data::new(b"media"))?;
    /// let send = send.finish();
    ///
    /// let send = Message::from_bytes(&send).unwrap();
    /// assert_eq!(send.attribute::<Data>().unwrap().data(), b"media");
    /// # Ok::<(), StunWriteError>(())
    /// ```
    DATA, "DATA (RFC 8656, section 18.4)":
        bytes_attribute(Data, data, "the bytes");

    /// XOR-RELAYED-ADDRESS (RFC 8656, section 18.5): the address that a TURN server relays from,
    /// XORed like the address in [`XorMappedAddress`](crate::types::attribute::XorMappedAddress).
    ///
    /// # Examples
    ///
    /// The relayed address in the success response to an Allocate request:
    ///
    /// ```
    /// use seatcrane_stun::extra::attribute::XorRelayedAddress;
    /// use seatcrane_stun::types::message::{Message, StunParseError};
    /// use std::net::SocketAddr;
    ///
    /// fn relayed(success: &Message<'_>) -> Result<SocketAddr, StunParseError> {
    ///     let relayed = success.attribute::<XorRelayedAddress>()?;
    ///     Ok(relayed.addr(success.transaction_id()))
    /// }
    /// # let success = b"\x01\x03\0\x0c\x21\x12\xa4\x42 any 12 byte\
    /// #                 \0\x16\0\x08\0\x01\xa1\x47\xe1\x12\xa6\x43";
    /// # let success = Message::from_bytes(success).unwrap();
    /// # assert_eq!(relayed(&success), Ok("192.0.2.1:32853".parse().unwrap()));
    /// ```
    XOR_RELAYED_ADDRESS, "XOR-RELAYED-ADDRESS (RFC 8656, section 18.5)":
        hidden_address(XorRelayedAddress, further);

    /// REQUESTED-ADDRESS-FAMILY (RFC 8656, section 18.6): the family of the address that a client
    /// asks a server to allocate.
    ///
    /// # Examples
    ///
    /// ```
    /// use seatcrane_stun::extra::attribute::{AddressFamily, RequestedAddressFamily};
    /// use seatcrane_stun::extra::turn::TurnMethod;
    /// use seatcrane_stun::types::message::*;
    /// use seatcrane_stun::types::prelude::*;
    ///
    /// # let id = TransactionId::from(*b"any 12 bytes");
    /// let method = TurnMethod::Allocate.method();
    /// let mut message =
    ///     Message::builder_request_with_id(method, id, MessageWriteVec::new());
    /// message.add_attribute(&RequestedAddressFamily::new(AddressFamily::Ipv6))?;
    /// let bytes = message.finish();
    ///
    /// let message = Message::from_bytes(&bytes).unwrap();
    /// let family = message.attribute::<RequestedAddressFamily>().unwrap().family();
    /// assert_eq!(family, AddressFamily::Ipv6);
    /// # Ok::<(), StunWriteError>(())
    /// ```
    REQUESTED_ADDRESS_FAMILY, "REQUESTED-ADDRESS-FAMILY (RFC 8656, section 18.6)":
        family_attribute(RequestedAddressFamily);

    EVEN_PORT, "EVEN-PORT (RFC 8656, section 18.7)":
        own_attribute(EvenPort);

    REQUESTED_TRANSPORT, "REQUESTED-TRANSPORT (RFC 8656, section 18.8)":
        own_attribute(RequestedTransport);

    /// DONT-FRAGMENT (RFC 8656, section 18.9): asks the server to set the DF bit in the datagrams
    /// that it sends to the peer. It has no value.
    ///
    /// # Examples
    ///
    /// ```
    /// use seatcrane_stun::endpoint::{AddError, Body};
    /// use seatcrane_stun::extra::attribute::DontFragment;
    ///
    /// let body = Body::new().add(&DontFragment::new())?; // for Allocate or Send
    /// # Ok::<(), AddError>(())
    /// ```
    DONT_FRAGMENT, "DONT-FRAGMENT (RFC 8656, section 18.9)":
        flag_attribute(DontFragment);

    RESERVATION_TOKEN, "RESERVATION-TOKEN (RFC 8656, section 18.10)":
        own_attribute(ReservationToken);

    /// ADDITIONAL-ADDRESS-FAMILY (RFC 8656, section 18.11): in an Allocate request, the family of a
    /// second relayed address, in addition to an IPv4 address.
    ///
    /// A client may send only IPv6. IPv4 can be parsed too, because a server must answer it with
    /// the error 400 (section 7.2).
    ///
    /// # Examples
    ///
    /// ```
    /// use seatcrane_stun::endpoint::{AddError, Body};
    /// use seatcrane_stun::extra::attribute::{AdditionalAddressFamily, AddressFamily};
    ///
    /// let body = Body::new().add(&AdditionalAddressFamily::new(AddressFamily::Ipv6))?;
    /// # Ok::<(), AddError>(())
    /// ```
    ADDITIONAL_ADDRESS_FAMILY, "ADDITIONAL-ADDRESS-FAMILY (RFC 8656, section 18.11)":
        family_attribute(AdditionalAddressFamily);

    ADDRESS_ERROR_CODE, "ADDRESS-ERROR-CODE (RFC 8656, section 18.12)":
        own_attribute(AddressErrorCode);

    ICMP, "ICMP (RFC 8656, section 18.13)":
        own_attribute(Icmp);

    // TURN: TCP allocations (RFC 6062, section 6.2.1) and mobility (RFC 8016, section 3.3).

    /// CONNECTION-ID (RFC 6062, section 6.2.1): the number of a TCP connection between a TURN
    /// server and a peer of its client.
    ///
    /// # Examples
    ///
    /// ```
    /// use seatcrane_stun::extra::attribute::ConnectionId;
    /// use seatcrane_stun::types::message::*;
    /// use seatcrane_stun::types::prelude::*;
    ///
    /// # let id = TransactionId::from(*b"any 12 bytes");
    /// let mut message =
    ///     Message::builder_request_with_id(BINDING, id, MessageWriteVec::new());
    /// message.add_attribute(&ConnectionId::new(7))?;
    /// let bytes = message.finish();
    ///
    /// let message = Message::from_bytes(&bytes).unwrap();
    /// assert_eq!(message.attribute::<ConnectionId>().unwrap().connection(), 7);
    /// # Ok::<(), StunWriteError>(())
    /// ```
    CONNECTION_ID, "CONNECTION-ID (RFC 6062, section 6.2.1)":
        number_attribute(ConnectionId, number, connection: u32, "the number of the connection");

    /// MOBILITY-TICKET (RFC 8016, section 3.3): the ticket by which a TURN server recognizes the
    /// allocation of a client that has a new address. To ask for a ticket, a client sends an empty
    /// MOBILITY-TICKET.
    ///
    /// # Examples
    ///
    /// ```
    /// use seatcrane_stun::extra::attribute::MobilityTicket;
    /// use seatcrane_stun::types::message::*;
    /// use seatcrane_stun::types::prelude::*;
    ///
    /// # let id = TransactionId::from(*b"any 12 bytes");
    /// let mut message =
    ///     Message::builder_request_with_id(BINDING, id, MessageWriteVec::new());
    /// message.add_attribute(&MobilityTicket::new(b"opaque"))?;
    /// let bytes = message.finish();
    ///
    /// let message = Message::from_bytes(&bytes).unwrap();
    /// assert_eq!(message.attribute::<MobilityTicket>().unwrap().ticket(), b"opaque");
    /// # Ok::<(), StunWriteError>(())
    /// ```
    MOBILITY_TICKET, "MOBILITY-TICKET (RFC 8016, section 3.3)":
        bytes_attribute(MobilityTicket, ticket, "the ticket");

    // Third-party authorization (RFC 7635, section 6).

    /// THIRD-PARTY-AUTHORIZATION (RFC 7635, section 6.1): the name of the STUN server, which a
    /// client passes to an authorization server when it requests a token.
    ///
    /// # Examples
    ///
    /// ```
    /// use seatcrane_stun::extra::attribute::ThirdPartyAuthorization;
    /// use seatcrane_stun::types::message::*;
    /// use seatcrane_stun::types::prelude::*;
    ///
    /// # let id = TransactionId::from(*b"any 12 bytes");
    /// let mut message =
    ///     Message::builder_request_with_id(BINDING, id, MessageWriteVec::new());
    /// message.add_attribute(&ThirdPartyAuthorization::new("turn.example.org")?)?;
    /// let bytes = message.finish();
    ///
    /// let message = Message::from_bytes(&bytes).unwrap();
    /// let third = message.attribute::<ThirdPartyAuthorization>().unwrap();
    /// assert_eq!(third.server_name(), "turn.example.org");
    /// # Ok::<(), StunWriteError>(())
    /// ```
    THIRD_PARTY_AUTHORIZATION, "THIRD-PARTY-AUTHORIZATION (RFC 7635, section 6.1)":
        text_attribute(ThirdPartyAuthorization, further, text, server_name, "65535");

    /// ACCESS-TOKEN (RFC 7635, section 6.2): the token that an authorization server has issued.
    /// Only the STUN server can decrypt it.
    ///
    /// # Examples
    ///
    /// ```
    /// use seatcrane_stun::extra::attribute::AccessToken;
    /// use seatcrane_stun::types::message::*;
    /// use seatcrane_stun::types::prelude::*;
    ///
    /// # let id = TransactionId::from(*b"any 12 bytes");
    /// let mut message =
    ///     Message::builder_request_with_id(BINDING, id, MessageWriteVec::new());
    /// message.add_attribute(&AccessToken::new(b"opaque"))?;
    /// let bytes = message.finish();
    ///
    /// let message = Message::from_bytes(&bytes).unwrap();
    /// assert_eq!(message.attribute::<AccessToken>().unwrap().token(), b"opaque");
    /// # Ok::<(), StunWriteError>(())
    /// ```
    ACCESS_TOKEN, "ACCESS-TOKEN (RFC 7635, section 6.2)":
        bytes_attribute(AccessToken, token, "the token");

    /// ECN-CHECK (RFC 6679, section 7.2.2): the ECN field with which a request arrived, and which
    /// its response echoes. The lowest bit is 1 if the two bits above it are the value of that
    /// field. All other bits are reserved: write zeros, and ignore them when you read.
    ///
    /// # Examples
    ///
    /// ```
    /// use seatcrane_stun::extra::attribute::EcnCheck;
    /// use seatcrane_stun::types::message::{Message, StunParseError};
    ///
    /// /// Returns the ECN field with which the request arrived, if the response states it.
    /// fn echoed(success: &Message<'_>) -> Result<Option<u32>, StunParseError> {
    ///     let bits = success.attribute::<EcnCheck>()?.bits();
    ///     Ok((bits & 1 == 1).then_some(bits >> 1 & 3))
    /// }
    /// # let success = b"\x01\x01\0\x08\x21\x12\xa4\x42 any 12 byte\x80\x2d\0\x04\0\0\0\x05";
    /// # assert_eq!(echoed(&Message::from_bytes(success).unwrap()), Ok(Some(2)));
    /// ```
    ECN_CHECK, "ECN-CHECK (RFC 6679, section 7.2.2)":
        number_attribute(EcnCheck, number, bits: u32, "the 32 bits");

    TRANSACTION_TRANSMIT_COUNTER, "TRANSACTION_TRANSMIT_COUNTER (RFC 7982, section 3.2)":
        own_attribute(TransactionTransmitCounter);

    // NAT behavior discovery (RFC 5780, section 7).

    CHANGE_REQUEST, "CHANGE-REQUEST (RFC 5780, section 7.2)":
        own_attribute(ChangeRequest);

    /// RESPONSE-ORIGIN (RFC 5780, section 7.3): the address from which the server sent a response.
    /// If the response arrived from a different address, there is a NAT in front of the server.
    ///
    /// # Examples
    ///
    /// ```
    /// use seatcrane_stun::extra::attribute::ResponseOrigin;
    /// use seatcrane_stun::types::message::*;
    /// use seatcrane_stun::types::prelude::*;
    ///
    /// # let id = TransactionId::from(*b"any 12 bytes");
    /// let mut message =
    ///     Message::builder_request_with_id(BINDING, id, MessageWriteVec::new());
    /// message
    ///     .add_attribute(&ResponseOrigin::new("192.0.2.1:3478".parse().unwrap()))?;
    /// let bytes = message.finish();
    ///
    /// let message = Message::from_bytes(&bytes).unwrap();
    /// let origin = message.attribute::<ResponseOrigin>().unwrap();
    /// assert_eq!(origin.addr(), "192.0.2.1:3478".parse().unwrap());
    /// # Ok::<(), StunWriteError>(())
    /// ```
    RESPONSE_ORIGIN, "RESPONSE-ORIGIN (RFC 5780, section 7.3)":
        plain_address(ResponseOrigin, addr);

    /// OTHER-ADDRESS (RFC 5780, section 7.4): the address and the port from which a server answers
    /// if a client asks for another address and another port in CHANGE-REQUEST.
    ///
    /// # Examples
    ///
    /// ```
    /// use seatcrane_stun::extra::attribute::OtherAddress;
    /// use seatcrane_stun::types::message::*;
    /// use seatcrane_stun::types::prelude::*;
    ///
    /// # let id = TransactionId::from(*b"any 12 bytes");
    /// let mut message =
    ///     Message::builder_request_with_id(BINDING, id, MessageWriteVec::new());
    /// message.add_attribute(&OtherAddress::new("192.0.2.2:3479".parse().unwrap()))?;
    /// let bytes = message.finish();
    ///
    /// let message = Message::from_bytes(&bytes).unwrap();
    /// let other = message.attribute::<OtherAddress>().unwrap();
    /// assert_eq!(other.addr(), "192.0.2.2:3479".parse().unwrap());
    /// # Ok::<(), StunWriteError>(())
    /// ```
    OTHER_ADDRESS, "OTHER-ADDRESS (RFC 5780, section 7.4)":
        plain_address(OtherAddress, addr);

    /// RESPONSE-PORT (RFC 5780, section 7.5): the port, at the address of the client, to which a
    /// server should send its response.
    ///
    /// The value is written with a length of 2, so the two bytes after the port are padding. It can
    /// be parsed with a length of 2 or 4, because senders differ in this.
    ///
    /// # Examples
    ///
    /// ```
    /// use seatcrane_stun::extra::attribute::ResponsePort;
    /// use seatcrane_stun::types::message::*;
    /// use seatcrane_stun::types::prelude::*;
    ///
    /// # let id = TransactionId::from(*b"any 12 bytes");
    /// let mut message = Message::builder_request_with_id(BINDING, id, MessageWriteVec::new());
    /// message.add_attribute(&ResponsePort::new(40_000))?;
    /// let bytes = message.finish();
    ///
    /// let message = Message::from_bytes(&bytes).unwrap();
    /// assert_eq!(message.attribute::<ResponsePort>().unwrap().port(), 40_000);
    /// # Ok::<(), StunWriteError>(())
    /// ```
    RESPONSE_PORT, "RESPONSE-PORT (RFC 5780, section 7.5)":
        number_attribute(ResponsePort, number, port: u16, "the port");

    /// PADDING (RFC 5780, section 7.6): bytes without a meaning, which make a message long enough
    /// to be sent in fragments.
    ///
    /// # Examples
    ///
    /// ```
    /// use seatcrane_stun::extra::attribute::Padding;
    /// use seatcrane_stun::types::message::*;
    /// use seatcrane_stun::types::prelude::*;
    ///
    /// # let id = TransactionId::from(*b"any 12 bytes");
    /// let mut message =
    ///     Message::builder_request_with_id(BINDING, id, MessageWriteVec::new());
    /// message.add_attribute(&Padding::new(&[0; 1500]))?;
    /// let bytes = message.finish();
    ///
    /// let message = Message::from_bytes(&bytes).unwrap();
    /// assert_eq!(message.attribute::<Padding>().unwrap().padding().len(), 1500);
    /// # Ok::<(), StunWriteError>(())
    /// ```
    PADDING, "PADDING (RFC 5780, section 7.6)":
        bytes_attribute(Padding, padding, "the padding");
}

/// Asserts that the attribute is written as `value`, that `value` is parsed as the attribute, and
/// that each of `others` is refused.
#[cfg(test)]
#[track_caller]
fn stands<'a, A>(attribute: &A, value: &'a [u8], others: &[&'a [u8]])
where
    A: AttributeFromRaw<'a> + AttributeStaticType + PartialEq + fmt::Debug,
{
    use crate::types::message::{BINDING, Message, MessageWriteVec};
    use crate::types::prelude::*;

    let id = TransactionId::from([0; 12]);
    let mut request = Message::builder_request_with_id(BINDING, id, MessageWriteVec::new());
    request.add_attribute(attribute).unwrap();
    let bytes = request.finish();
    let message = Message::from_bytes(&bytes).unwrap();
    assert_eq!(message.raw_attribute(A::TYPE).unwrap().value(), value);
    assert_eq!(A::static_type(), A::TYPE);
    let read = A::from_raw(RawAttribute::new(A::TYPE, value));
    assert_eq!(read.as_ref(), Ok(attribute));
    let other = AttributeType(A::TYPE.0 ^ 1);
    assert!(A::from_raw(RawAttribute::new(other, value)).is_err());
    for other in others {
        let read = A::from_raw(RawAttribute::new(A::TYPE, other));
        assert_eq!(read, Err(StunParseError::InvalidAttributeData));
    }
}
