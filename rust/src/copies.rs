//! Copies of values whose memory the global allocator provides.

use crate::exported::stun_attributes::AddressErrorCode;
use crate::exported::stun_types::attribute::{
    ErrorCode, MessageIntegritySha256, Nonce, PasswordAlgorithms, RawAttribute, Realm, Username,
};
use crate::exported::stun_types::message::{IntegrityKey, MessageAttributesIter, PreparedKey};
use crate::kit::alloc::{AllocError, Global};
use crate::kit::prelude::{String, TryClone};
use alloc::alloc::{Layout, handle_alloc_error};

/// Returns the value, or aborts the program if memory ran out, as the standard collections do.
pub(crate) fn granted<T, E: Into<AllocError>>(answer: Result<T, E>) -> T {
    answer.unwrap_or_else(|_| handle_alloc_error(Layout::new::<u8>()))
}

/// Returns a copy of the value.
pub(crate) fn copy<T: TryClone>(value: &T) -> T {
    granted(value.try_clone())
}

/// Converts a `String` to the core's type of text, without copying its bytes.
pub(crate) fn text(text: alloc::string::String) -> String {
    String::from(text)
}

macro_rules! clone {
    ($($name:ty),*) => {$(
        impl Clone for $name {
            fn clone(&self) -> Self {
                copy(self)
            }
        }
    )*};
}

// Only the copy of a key of more than 32 bytes allocates.
clone!(
    AddressErrorCode<'_>,
    ErrorCode<'_>,
    MessageAttributesIter<'_>,
    MessageIntegritySha256<'_>,
    Nonce<'_>
);
clone!(
    IntegrityKey<Global>,
    PasswordAlgorithms<'_>,
    PreparedKey<Global>,
    RawAttribute<'_>,
    Realm<'_>,
    Username<'_>
);
