//! Attributes whose value is a text, each as a type of its own.

use crate::copies::copy;
use crate::exported::stun_types::attribute::{
    self as proved, Attribute, AttributeFromRaw, AttributeStaticType, AttributeType, RawAttribute,
};
use crate::exported::stun_types::message::{StunParseError, StunWriteError};
use crate::exported::stun_types::prelude::MessageWrite;
use crate::newtype::forward_attribute;
use core::fmt;

macro_rules! text_attribute {
    (@test $name:ident, $proved:ident, $read:ident, $text:ident, $limit:literal) => {
        let attribute = $name::new("a text").unwrap();
        assert_eq!(attribute.$text(), "a text");
        stands(&attribute, b"a text", &[&[0xFF]]);
        let limit: usize = $limit.parse().unwrap();
        let text = alloc::string::String::from_utf8(alloc::vec![b'x'; limit + 1]).unwrap();
        assert!($name::new(&text[1..]).is_ok());
        assert_eq!($name::new(&text), Err(StunWriteError::TooLarge));
    };
    ($(#[doc = $doc:literal])* $name:ident, $proved:ident, $read:ident, $text:ident, $limit:literal) => {
        $(#[doc = $doc])*
        #[derive(PartialEq, Eq)]
        pub struct $name<'a>($proved::$name<'a>);

        impl<'a> $name<'a> {
            /// Creates the attribute from a string, without preparing it.
            ///
            /// # Errors
            ///
            #[doc = concat!("- `TooLarge`: the text has more than ", $limit, " bytes.")]
            pub fn new(text: &'a str) -> Result<$name<'a>, StunWriteError> {
                $proved::$name::new(text).map($name)
            }

            /// Returns the text.
            pub fn $text(&self) -> &'a str {
                self.0.$read()
            }
        }

        impl Clone for $name<'_> {
            fn clone(&self) -> Self {
                $name(copy(&self.0))
            }
        }

        /// Writes the text unchanged.
        impl fmt::Display for $name<'_> {
            fn fmt(&self, f: &mut fmt::Formatter<'_>) -> fmt::Result {
                f.write_str(self.$text())
            }
        }

        impl fmt::Debug for $name<'_> {
            fn fmt(&self, f: &mut fmt::Formatter<'_>) -> fmt::Result {
                let mut shown = f.debug_struct(stringify!($name));
                shown.field("text", &self.$text()).finish()
            }
        }

        impl AsRef<str> for $name<'_> {
            fn as_ref(&self) -> &str {
                self.$text()
            }
        }

        /// Creates the attribute like `new`.
        impl<'a> TryFrom<&'a str> for $name<'a> {
            type Error = StunWriteError;

            fn try_from(text: &'a str) -> Result<$name<'a>, StunWriteError> {
                $name::new(text)
            }
        }

        forward_attribute!($name, $proved::$name<'a>, $name<'a>, 'a);
    };
}
pub(crate) use text_attribute;

text_attribute!(
    /// USERNAME (RFC 8489, section 14.3): the name of a user, at most 513 bytes of UTF-8.
    ///
    /// # Examples
    ///
    /// ```
    /// use seatcrane_stun::types::attribute::Username;
    /// use seatcrane_stun::types::message::*;
    /// use seatcrane_stun::types::prelude::*;
    ///
    /// let mut check = Message::builder_request(BINDING, MessageWriteVec::new());
    /// check.add_attribute(&Username::new("their-name:my-name")?)?;
    /// let check = check.finish();
    /// let name = Message::from_bytes(&check).unwrap().attribute::<Username>().unwrap();
    /// assert_eq!(name.username(), "their-name:my-name");
    /// assert!(Username::new(&"x".repeat(514)).is_err());
    /// # Ok::<(), StunWriteError>(())
    /// ```
    Username,
    proved,
    username,
    username,
    "513"
);

text_attribute!(
    /// REALM (RFC 8489, section 14.9): the realm of a server, at most 763 bytes of UTF-8.
    ///
    /// # Examples
    ///
    /// ```
    /// use seatcrane_stun::types::attribute::Realm;
    ///
    /// let realm = Realm::new("example.org").unwrap();
    /// assert_eq!(realm.realm(), "example.org");
    /// assert_eq!(realm.to_string(), "example.org");
    /// ```
    Realm,
    proved,
    realm,
    realm,
    "763"
);

text_attribute!(
    /// NONCE (RFC 8489, section 14.10): the nonce of a server, at most 763 bytes of UTF-8.
    ///
    /// A nonce may begin with security bits, which
    /// [`NonceSecurityBits`](crate::auth::NonceSecurityBits) parses.
    ///
    /// # Examples
    ///
    /// ```
    /// use seatcrane_stun::auth::NonceSecurityBits;
    /// use seatcrane_stun::types::attribute::Nonce;
    ///
    /// let nonce = Nonce::new("obMatJos2gAAAf//499k954d6OL34oL9FSTvy64sA").unwrap();
    /// assert!(NonceSecurityBits::from_nonce(nonce.nonce()).is_some());
    /// ```
    Nonce,
    proved,
    nonce,
    nonce,
    "763"
);
