//! Enums whose cases have numbers of the paper or of the C face.

macro_rules! numbered {
    (
        $(#[$about:meta])*
        $name:ident { $($(#[$of_case:meta])* $case:ident = $number:literal,)+ }
    ) => {
        $(#[$about])*
        #[derive(Clone, Copy, PartialEq, Eq, Hash, Debug)]
        #[repr(u8)]
        pub enum $name {
            $($(#[$of_case])* $case = $number,)+
        }

        impl $name {
            pub const fn number(self) -> u8 {
                self as u8
            }

            /// The case with that number, if there is one.
            pub const fn of_number(number: u8) -> Option<$name> {
                match number {
                    $($number => Some($name::$case),)+
                    _ => None,
                }
            }
        }
    };
}

pub(crate) use numbered;
