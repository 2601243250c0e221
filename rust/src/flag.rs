//! Attributes that have no value, each as a type of its own.

macro_rules! flag_attribute {
    (@test $name:ident) => {
        stands(&$name, &[], &[&[0]]);
    };
    ($(#[doc = $doc:literal])* $name:ident) => {
        $(#[doc = $doc])*
        #[derive(Clone, Copy, Debug, PartialEq, Eq)]
        pub struct $name;

        impl $name {
            /// Creates the attribute.
            pub fn new() -> $name {
                $name
            }
        }

        /// Creates the attribute, like `new`.
        impl Default for $name {
            fn default() -> $name {
                $name::new()
            }
        }

        forward_attribute!(@ $name, further::$name, 'a, _flag => further::$name::new(), |_| $name);
    };
}
pub(crate) use flag_attribute;
