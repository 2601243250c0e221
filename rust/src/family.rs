//! Attributes whose value is the family of an address, each as a type of its own.

macro_rules! family_attribute {
    (@test $name:ident) => {
        let family = further::AddressFamily::Ipv6;
        assert_eq!($name::new(family).family(), family);
        stands(&$name::new(family), &[2, 0, 0, 0], &[&[2, 0, 0], &[3, 0, 0, 0], &[]]);
    };
    ($(#[doc = $doc:literal])* $name:ident) => {
        $(#[doc = $doc])*
        #[derive(Clone, Copy, PartialEq, Eq)]
        pub struct $name(further::$name);

        impl $name {
            /// Creates the attribute from a family.
            pub fn new(family: further::AddressFamily) -> $name {
                $name(further::$name::new(family))
            }

            /// Returns the family.
            pub fn family(&self) -> further::AddressFamily {
                self.0.family()
            }
        }

        impl fmt::Debug for $name {
            fn fmt(&self, f: &mut fmt::Formatter<'_>) -> fmt::Result {
                let mut shown = f.debug_struct(stringify!($name));
                shown.field("family", &self.family()).finish()
            }
        }

        forward_attribute!($name, further::$name);
    };
}
pub(crate) use family_attribute;
