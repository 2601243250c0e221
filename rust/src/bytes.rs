//! Attributes whose value is any bytes, each as a type of its own.

macro_rules! bytes_attribute {
    (@test $name:ident, $bytes:ident, $what:literal) => {
        assert_eq!($name::new(&[0, 0xFF]).$bytes(), [0, 0xFF]);
        stands(&$name::new(&[0, 0xFF]), &[0, 0xFF], &[]);
    };
    ($(#[doc = $doc:literal])* $name:ident, $bytes:ident, $what:literal) => {
        $(#[doc = $doc])*
        #[derive(PartialEq, Eq)]
        pub struct $name<'a>(further::$name<'a>);

        impl<'a> $name<'a> {
            #[doc = concat!("Creates the attribute from ", $what, ", which ",
                "[`add_attribute`](crate::types::prelude::MessageWriteExt::add_attribute) refuses ",
                "with `TooLarge` if the message would be too long.")]
            pub fn new($bytes: &'a [u8]) -> $name<'a> {
                $name(further::$name::new($bytes))
            }

            #[doc = concat!("Returns ", $what, ".")]
            pub fn $bytes(&self) -> &'a [u8] {
                self.0.bytes()
            }
        }

        impl Clone for $name<'_> {
            fn clone(&self) -> Self {
                $name(copy(&self.0))
            }
        }

        impl fmt::Debug for $name<'_> {
            fn fmt(&self, f: &mut fmt::Formatter<'_>) -> fmt::Result {
                let mut shown = f.debug_struct(stringify!($name));
                shown.field(stringify!($bytes), &self.$bytes()).finish()
            }
        }

        forward_attribute!($name, further::$name<'a>, $name<'a>, 'a);
    };
}
pub(crate) use bytes_attribute;
