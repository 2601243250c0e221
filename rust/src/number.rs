//! Attributes whose value is a number, each as a type of its own.

macro_rules! number_attribute {
    (@test $name:ident, $read:ident, $number:ident: $integer:ty, $what:literal) => {
        let number = <$integer>::MAX / 253;
        assert_eq!($name::new(number).$number(), number);
        let bytes = number.to_be_bytes();
        stands(&$name::new(number), &bytes, &[&bytes[1..], &[0; 9], &[]]);
    };
    ($(#[doc = $doc:literal])* $name:ident, $read:ident, $number:ident: $integer:ty, $what:literal) => {
        $(#[doc = $doc])*
        #[derive(Clone, Copy, PartialEq, Eq)]
        pub struct $name(further::$name);

        impl $name {
            #[doc = concat!("Creates the attribute from ", $what, ".")]
            pub fn new($number: $integer) -> $name {
                $name(further::$name::new($number))
            }

            #[doc = concat!("Returns ", $what, ".")]
            pub fn $number(&self) -> $integer {
                self.0.$read()
            }
        }

        impl fmt::Debug for $name {
            fn fmt(&self, f: &mut fmt::Formatter<'_>) -> fmt::Result {
                let mut shown = f.debug_struct(stringify!($name));
                shown.field(stringify!($number), &self.$number()).finish()
            }
        }

        forward_attribute!($name, further::$name);
    };
}
pub(crate) use number_attribute;
