//! The attributes of a request.

use crate::copies::granted;
use crate::exported::stun_client_endpoint::body::{Body as Core, is_reserved};
use crate::exported::stun_extra::canonical_address::canonical;
use crate::exported::stun_types::attribute::Attribute;
use crate::exported::stun_types::message::MessageWriteMutSlice;
use crate::exported::stun_types::prelude::MessageWrite;
use crate::kit::alloc::Global;
use crate::message::Message;
use crate::transaction::TransactionId;
use crate::types::message::BINDING;
use crate::write::{MessageWriteExt, MessageWriteVec};
use core::fmt;
use core::net::SocketAddr;

pub use crate::exported::stun_client_endpoint::body::{BODY_LIMIT, BodyError};

/// The attributes of a request, in the order in which they were added. The client stores them,
/// because it writes the request again, with another transaction ID, when the server challenges it.
///
/// # Examples
///
/// ```
/// use seatcrane_stun::endpoint::{Body, BodyError};
/// use seatcrane_stun::extra::attribute::{Lifetime, RequestedTransport};
///
/// # fn main() -> Result<(), BodyError> {
/// let allocate = Body::new()
///     .add(&RequestedTransport::new(RequestedTransport::UDP))?
///     .add(&Lifetime::new(600))?;
///
/// // CreatePermission for two peers: several attributes may have the same type.
/// let (one, other) =
///     ("192.0.2.7:0".parse().unwrap(), "[2001:db8::7]:0".parse().unwrap());
/// let peers =
///     Body::new().add_xor_peer_address(one)?.add_xor_peer_address(other)?;
/// # Ok(())
/// # }
/// ```
#[must_use = "a body is sent by `Client::request`"]
pub struct Body {
    pub(super) core: Core<Global>,
}

impl Clone for Body {
    fn clone(&self) -> Body {
        Body {
            core: granted(self.core.cloned()),
        }
    }
}

impl Default for Body {
    fn default() -> Body {
        Body {
            core: Core::new(Global),
        }
    }
}

impl fmt::Debug for Body {
    fn fmt(&self, f: &mut fmt::Formatter<'_>) -> fmt::Result {
        write!(f, "Body({} bytes)", self.core.length())
    }
}

impl Body {
    /// Returns a body without attributes.
    pub fn new() -> Body {
        Body::default()
    }

    /// Adds an attribute. Several attributes may have the same type.
    ///
    /// # Errors
    ///
    /// The error contains the unchanged body ([`AddError::into_body`]). Its reason is the first of
    /// these that applies:
    ///
    /// - [`BodyError::NotAllowed`]: the client itself writes attributes of this type; or the value
    ///   depends on the transaction ID (to add XOR-PEER-ADDRESS, call
    ///   [`add_xor_peer_address`](Self::add_xor_peer_address)); or the attribute is ERROR-CODE,
    ///   which no request has.
    /// - [`BodyError::TooLarge`]: the attributes would have more than [`BODY_LIMIT`] bytes.
    /// - [`BodyError::OutOfMemory`]: an allocation failed.
    ///
    /// # Panics
    ///
    /// Panics if [`Attribute::write_into`] of an attribute type of your own appends anything other
    /// than the attribute that `get_type` and `length` describe.
    #[allow(clippy::should_implement_trait)] // `Add` is for numbers.
    pub fn add<A: Attribute>(mut self, attribute: &A) -> Result<Body, AddError> {
        match self.try_add(attribute) {
            Ok(()) => Ok(self),
            Err(reason) => Err(AddError { body: self, reason }),
        }
    }

    fn try_add<A: Attribute>(&mut self, attribute: &A) -> Result<(), BodyError> {
        let (kind, length) = (attribute.get_type(), attribute.length());
        if is_reserved(kind) {
            return Err(BodyError::NotAllowed);
        }
        if !self.core.has_room(length) {
            return Err(BodyError::TooLarge);
        }
        // An attribute that is allowed and not too long fits into an empty message. Most attributes
        // fit into a small buffer, which needs no allocation.
        let mut small = [0; SMALL];
        if length <= SMALL - BEFORE - PADDING {
            let page = scratch(MessageWriteMutSlice::new(&mut small), attribute)?;
            self.core.add(kind, &page.data()[BEFORE..BEFORE + length])
        } else {
            let page = scratch(MessageWriteVec::new(), attribute)?;
            self.core.add(kind, &page[BEFORE..BEFORE + length])
        }
    }

    /// Adds XOR-PEER-ADDRESS with this address (RFC 8656, section 18.3). An address
    /// `::ffff:a.b.c.d` is written as the IPv4 address `a.b.c.d`.
    ///
    /// # Errors
    ///
    /// The error contains the unchanged body ([`AddError::into_body`]). Its reason is one of these:
    ///
    /// - [`BodyError::TooLarge`]: the attributes would have more than [`BODY_LIMIT`] bytes,
    ///   counting 24 for each XOR-PEER-ADDRESS.
    /// - [`BodyError::OutOfMemory`]: an allocation failed.
    pub fn add_xor_peer_address(mut self, peer: SocketAddr) -> Result<Body, AddError> {
        match self.core.add_xor_peer_address(canonical(peer)) {
            Ok(()) => Ok(self),
            Err(reason) => Err(AddError { body: self, reason }),
        }
    }
}

/// Why an attribute was not added, with the body that was passed to the call. `?` converts it into
/// a [`BodyError`].
///
/// # Examples
///
/// ```
/// use seatcrane_stun::endpoint::{Body, BodyError};
/// use seatcrane_stun::extra::attribute::{Data, Lifetime};
///
/// # fn main() -> Result<(), BodyError> {
/// let (body, payload) = (Body::new().add(&Lifetime::new(600))?, [0; 65_000]);
/// let error = body.add(&Data::new(&payload)).unwrap_err();
/// assert_eq!(error.reason(), BodyError::TooLarge);
/// let body = error.into_body(); // it has the lifetime
/// # Ok(())
/// # }
/// ```
#[derive(Clone, Debug)]
pub struct AddError {
    body: Body,
    reason: BodyError,
}

impl AddError {
    /// Returns why the attribute was not added.
    #[must_use]
    pub fn reason(&self) -> BodyError {
        self.reason
    }

    /// Returns the body, unchanged.
    pub fn into_body(self) -> Body {
        self.body
    }
}

impl fmt::Display for AddError {
    fn fmt(&self, f: &mut fmt::Formatter<'_>) -> fmt::Result {
        fmt::Display::fmt(&self.reason, f)
    }
}

impl core::error::Error for AddError {}

impl From<AddError> for BodyError {
    fn from(error: AddError) -> BodyError {
        error.reason
    }
}

/// The length of a message in which most attributes fit.
const SMALL: usize = 128;

/// The number of bytes before the value of the first attribute of a message.
const BEFORE: usize = 24;

/// The largest number of padding bytes after the value of an attribute.
const PADDING: usize = 3;

/// Writes an attribute into a message that has no other attribute.
fn scratch<W: MessageWrite, A: Attribute>(page: W, attribute: &A) -> Result<W, BodyError> {
    let id = TransactionId::from([0; 12]);
    let mut page = Message::builder_request_with_id(BINDING, id, page);
    match page.add_attribute(attribute) {
        Ok(()) => Ok(page),
        Err(_) => Err(BodyError::OutOfMemory),
    }
}
