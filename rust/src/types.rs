//! Messages, with their attributes, writers and credentials.
//!
//! - [`message`] parses, verifies, builds and signs messages.
//! - [`attribute`] has the attributes of STUN, ICE and TURN.
//! - [`STUN`], [`ICE`] and [`TURN`] list the attribute types that implementations of STUN, ICE and
//!   TURN must understand.
//! - [`prelude`] has the traits whose methods you call on messages and attributes. Import the whole
//!   module.

pub use crate::exported::stun_base::transport::TransportType;
pub use crate::ported::{ICE, STUN, TURN};

/// Attributes: their types, their values and their raw form.
pub mod attribute {
    pub use crate::address::XorMappedAddress;
    pub use crate::attributes::Software;
    pub use crate::exported::stun_types::attribute::{
        ATTRIBUTE_HEADER_LENGTH, Attribute, AttributeFromRaw, AttributeStaticType, AttributeType,
        ErrorCode, ErrorCodeBuilder, MessageIntegrity, MessageIntegritySha256, PasswordAlgorithm,
        PasswordAlgorithmValue, PasswordAlgorithms, RawAttribute, Userhash,
    };
    // The crate `stun-types` exports all attributes here. The pages of `extra::attribute` document
    // them.
    #[doc(no_inline)]
    pub use crate::extra::attribute::*;
    pub use crate::names::AttributeExt;
    pub use crate::ported::DynAttribute;
    pub use crate::text::{Nonce, Realm, Username};
}

/// Messages: parsing, verifying, building and signing them, and the credentials for this.
pub mod message {
    pub use crate::credentials::{
        LongTermCredentials, LongTermKeyCredentials, MessageIntegrityCredentials,
        ShortTermCredentials, long_term_key,
    };
    pub use crate::exported::stun_types::message::{
        BINDING, IntegrityAlgorithm, MessageAttributesIter, MessageClass, MessageType,
        MessageWriteMutSlice, Method, StunParseError, StunWriteError, ValidateError, hmac_sha1,
        hmac_sha256,
    };
    pub use crate::keys::{IntegrityKey, PreparedKey};
    pub use crate::message::{Message, MessageHeader};
    pub use crate::ported::MAGIC_COOKIE;
    pub use crate::transaction::TransactionId;
    pub use crate::write::MessageWriteVec;
    // The crate `stun-proto` exports these types here too.
    pub use crate::types::attribute::{AttributeType, RawAttribute};
}

/// Bytes that are borrowed or owned, and values that contain bytes.
pub mod data {
    pub use crate::exported::stun_base::data::OwnedBytes;
    pub use crate::transmit::Data;
}

/// The traits of attributes and of writers, to be imported as a whole.
///
/// ```
/// use seatcrane_stun::types::prelude::*;
/// ```
pub mod prelude {
    pub use crate::exported::stun_types::prelude::MessageWrite;
    pub use crate::types::attribute::{
        Attribute, AttributeExt, AttributeFromRaw, AttributeStaticType,
    };
    pub use crate::write::MessageWriteExt;
}
