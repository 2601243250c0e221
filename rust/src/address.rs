//! Attributes whose value is an address, each as a type of its own. The types with an XORed address
//! take the [`TransactionId`] of this crate, which wraps the transaction ID of the core.

use crate::exported::stun_types::attribute::{
    self as proved, Attribute, AttributeFromRaw, AttributeStaticType, AttributeType, RawAttribute,
};
use crate::exported::stun_types::message::StunParseError;
use crate::exported::stun_types::prelude::MessageWrite;
use crate::newtype::forward_attribute;
use crate::transaction::TransactionId;
use core::net::SocketAddr;

macro_rules! hidden_address {
    (@test $name:ident, $proved:ident) => {
        let id = TransactionId::from([0; 12]);
        let address = "192.0.2.1:32853".parse().unwrap();
        assert_eq!($name::new(address, id).addr(id), address);
        let mapped = "[::ffff:192.0.2.1]:32853".parse().unwrap();
        assert_eq!($name::new(mapped, id).addr(id), mapped);
        assert_eq!($name::new(mapped, id).canonical_addr(id), address);
        let value = [0, 1, 0xA1, 0x47, 0xE1, 0x12, 0xA6, 0x43];
        stands(&$name::new(address, id), &value, &[&value[1..], &[0; 8]]);
    };
    ($(#[doc = $doc:literal])* $name:ident, $proved:ident) => {
        $(#[doc = $doc])*
        #[derive(Clone, Copy, Debug, PartialEq, Eq)]
        pub struct $name($proved::$name);

        impl $name {
            /// Creates the attribute for a message with this transaction ID.
            ///
            /// The flow information and the scope ID of an IPv6 address are dropped.
            pub fn new(address: SocketAddr, id: TransactionId) -> $name {
                $name($proved::$name::new(address, id.0))
            }

            /// Returns the address. `id` must be the transaction ID of the message that the
            /// attribute is in: with any other ID the result may be a different address.
            pub fn addr(&self, id: TransactionId) -> SocketAddr {
                self.0.addr(id.0)
            }

            /// Like `addr`, but returns an address `::ffff:a.b.c.d` as the IPv4 address `a.b.c.d`.
            /// Compare this address with lists of networks, and not the result of `addr`, because
            /// the form `::ffff:127.0.0.1` is in no IPv4 network.
            pub fn canonical_addr(&self, id: TransactionId) -> SocketAddr {
                $crate::extra::canonical(self.0.addr(id.0))
            }
        }

        forward_attribute!($name, $proved::$name);
    };
}
pub(crate) use hidden_address;

macro_rules! plain_address {
    (@test $name:ident, $address:ident) => {
        let address = "192.0.2.1:3478".parse().unwrap();
        assert_eq!($name::new(address).$address(), address);
        let mapped = "[::ffff:192.0.2.1]:3478".parse().unwrap();
        assert_eq!($name::new(mapped).$address(), mapped);
        assert_eq!($name::new(mapped).canonical_addr(), address);
        let value = [0, 1, 0x0D, 0x96, 192, 0, 2, 1];
        stands(&$name::new(address), &value, &[&value[1..], &[0; 8]]);
    };
    ($(#[doc = $doc:literal])* $name:ident, $address:ident) => {
        $(#[doc = $doc])*
        #[derive(Clone, Copy, PartialEq, Eq)]
        pub struct $name(further::$name);

        impl $name {
            /// Creates the attribute from an address.
            ///
            /// The flow information and the scope ID of an IPv6 address are dropped.
            pub fn new(address: SocketAddr) -> $name {
                $name(further::$name::new(address))
            }

            /// Returns the address. The flow information and the scope ID of an IPv6 address are 0.
            pub fn $address(&self) -> SocketAddr {
                self.0.addr()
            }

            /// Like `addr`, but returns an address `::ffff:a.b.c.d` as the IPv4 address `a.b.c.d`.
            /// Compare this address with lists of networks, and not the result of `addr`, because
            /// the form `::ffff:127.0.0.1` is in no IPv4 network.
            pub fn canonical_addr(&self) -> SocketAddr {
                $crate::extra::canonical(self.0.addr())
            }
        }

        impl fmt::Debug for $name {
            fn fmt(&self, f: &mut fmt::Formatter<'_>) -> fmt::Result {
                let mut shown = f.debug_struct(stringify!($name));
                shown.field(stringify!($address), &self.$address()).finish()
            }
        }

        forward_attribute!($name, further::$name);
    };
}
pub(crate) use plain_address;

hidden_address!(
    /// XOR-MAPPED-ADDRESS (RFC 8489, section 14.2): the address that a request came from, XORed
    /// with the magic cookie and the transaction ID of its message.
    ///
    /// [`MessageWriteExt::add_xor_mapped_address`](crate::types::prelude::MessageWriteExt) adds it,
    /// and [`Message::xor_mapped_address`](crate::types::message::Message::xor_mapped_address)
    /// returns its address.
    ///
    /// # Examples
    ///
    /// ```
    /// use seatcrane_stun::types::attribute::XorMappedAddress;
    /// use seatcrane_stun::types::message::TransactionId;
    ///
    /// let (id, other) = (TransactionId::from([1; 12]), TransactionId::from([2; 12]));
    /// let address = "[2001:db8::1]:3478".parse().unwrap();
    /// let attribute = XorMappedAddress::new(address, id);
    /// assert_eq!(attribute.addr(id), address);
    /// assert_ne!(attribute.addr(other), address);
    /// ```
    XorMappedAddress,
    proved
);
