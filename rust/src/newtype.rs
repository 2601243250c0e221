//! The macro for types of this crate that contain an attribute of the core.

/// Implements the traits of attributes for a tuple struct around an attribute of the core. For any
/// other struct, also pass an expression that gets the core's attribute from a value of the struct,
/// and a function that makes the struct from an attribute of the core.
macro_rules! forward_attribute {
    ($name:ident, $proved:ty) => {
        forward_attribute!($name, $proved, $name, 'a);
    };
    ($name:ident, $proved:ty, $type:ty, $life:lifetime) => {
        forward_attribute!(@ $type, $proved, $life, it => it.0, $name);
    };
    (@ $type:ty, $proved:ty, $life:lifetime, $it:ident => $inner:expr, $wrap:expr) => {
        impl<$life> AttributeStaticType for $type {
            const TYPE: AttributeType = <$proved>::TYPE;

            fn static_type() -> AttributeType {
                <$proved>::static_type()
            }
        }

        impl<$life> Attribute for $type {
            fn get_type(&self) -> AttributeType {
                let $it = self;
                $inner.get_type()
            }

            fn length(&self) -> usize {
                let $it = self;
                $inner.length()
            }

            fn write_into<W: MessageWrite>(&self, writer: &mut W) {
                let $it = self;
                $inner.write_into(writer);
            }
        }

        impl<$life> AttributeFromRaw<$life> for $type {
            fn from_raw(raw: RawAttribute<$life>) -> Result<Self, StunParseError> {
                <$proved>::from_raw(raw).map($wrap)
            }
        }
    };
}
pub(crate) use forward_attribute;
