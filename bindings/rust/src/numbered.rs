//! Enums whose cases are numbers of the C interface.
use core::error::Error;
use core::fmt;

/// A byte that is none of an enum's numbers.
#[derive(Clone, Copy, Debug, PartialEq, Eq)]
pub struct UnknownNumber(pub u8);

impl fmt::Display for UnknownNumber {
    fn fmt(&self, f: &mut fmt::Formatter) -> fmt::Result {
        write!(f, "{} is not a number that the C interface uses for this", self.0)
    }
}

impl Error for UnknownNumber {}

/// Defines an enum with its conversions from and to `u8`. The text of a case is
/// its documentation and what it is displayed as.
macro_rules! numbered {
    ($(#[$attribute:meta])* pub enum $name:ident { $($case:ident = $number:ident, $text:literal;)* }) => {
        $(#[$attribute])*
        #[derive(Clone, Copy, Debug, PartialEq, Eq, Hash)]
        #[repr(u8)]
        pub enum $name {
            $(#[doc = concat!("[`", stringify!($number), "`](crate::", stringify!($number), "): ", $text, ".")]
            $case = crate::$number,)*
        }

        impl From<$name> for u8 {
            fn from(case: $name) -> u8 {
                case as u8
            }
        }

        impl TryFrom<u8> for $name {
            type Error = crate::UnknownNumber;

            fn try_from(number: u8) -> Result<$name, crate::UnknownNumber> {
                match number {
                    $(crate::$number => Ok($name::$case),)*
                    _ => Err(crate::UnknownNumber(number)),
                }
            }
        }

        impl core::fmt::Display for $name {
            fn fmt(&self, f: &mut core::fmt::Formatter) -> core::fmt::Result {
                f.pad(match self {
                    $($name::$case => $text,)*
                })
            }
        }
    };
}

pub(crate) use numbered;

/// The case for a number in an answer. Every number of the library has one; only
/// an archive of another version could have more.
pub(crate) fn known<T: TryFrom<u8, Error = UnknownNumber>>(number: u8) -> T {
    match T::try_from(number) {
        Ok(case) => case,
        Err(unknown) => panic!("libgrelfint.a is of another version than its bindings: {unknown}"),
    }
}
