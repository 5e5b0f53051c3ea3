//! Document 01's numbered refusals.

use std::error::Error;
use std::fmt;

/// The enum of the refusals, from one list: number, variant, name in the table, and the words for it.
macro_rules! refusals {
    ($($number:literal $variant:ident $name:literal $reason:literal,)*) => {
        /// Why a call was refused. A refused call has changed nothing in lent memory.
        ///
        /// ```
        /// use ht_core::Refusal;
        ///
        /// assert_eq!(Refusal::Mcs.to_string(), "refusal 2 MCS");
        /// assert_eq!(format!("{:#}", Refusal::Mcs), "the MCS is over 31 (refusal 2 MCS)");
        /// assert_eq!(Refusal::try_from(2), Ok(Refusal::Mcs));
        /// assert_eq!(u32::from(Refusal::Mcs), 2);
        /// ```
        #[derive(Clone, Copy, Debug, PartialEq, Eq, Hash)]
        #[non_exhaustive]
        pub enum Refusal {
            $(#[doc = concat!($number, ": ", $reason, ".")] $variant = $number,)*
        }

        impl Refusal {
            /// Every refusal, in the order of its number.
            pub const ALL: &'static [Refusal] = &[$(Refusal::$variant),*];

            /// The name in document 01's table.
            pub const fn name(self) -> &'static str {
                match self {
                    $(Refusal::$variant => $name,)*
                }
            }

            /// When it is given, in the words of `docs/C-API.md`.
            pub const fn reason(self) -> &'static str {
                match self {
                    $(Refusal::$variant => $reason,)*
                }
            }
        }
    };
}

refusals! {
    1 Width "WIDTH" "the width is not 20 or 40",
    2 Mcs "MCS" "the MCS is over 31",
    3 Format "FORMAT" "the format is over 1 (0 is mixed, 1 green field)",
    4 Length "LENGTH" "the length is 0 or over 65,535",
    5 Seed "SEED" "the seed is 0 or over 127",
    6 Source "SOURCE" "the signal slice to read is not 6 bytes; the payload slice is shorter than length",
    7 Place "PLACE" "the symbol, the stream or the subcarrier is not in the frame; \
        subcarriers are -32 to 31 at 20 MHz and -64 to 63 at 40",
    8 Room "ROOM" "the slice to write is too short: 6 bytes, a symbol's floats, or two floats; \
        reader: fewer floats than a symbol's, or than the frame's where it is read whole, \
        or fewer payload bytes than length",
    9 Point "POINT" "a point or a pilot is not one that the rules give at its place",
    10 Code "CODE" "no data bits whatever give these coded bits after the earlier ones",
    11 Frame "FRAME" "a service, tail or pad bit is wrong, or the seed would be 0",
    12 Closed "CLOSED" "the state is finished, ended or out of range, refused settings included",
    13 SigCrc "SIGCRC" "bits 34 to 41 are not the CRC of bits 0 to 33",
    14 SigForm "SIGFORM" "the CRC is right and another bit is not as ht_sig_write writes it, \
        an MCS over 31 and a length of 0 included",
}

impl Refusal {
    /// The number in document 01's table.
    pub const fn number(self) -> u32 {
        self as u32
    }
}

impl From<Refusal> for u32 {
    fn from(refusal: Refusal) -> u32 {
        refusal.number()
    }
}

impl TryFrom<u32> for Refusal {
    type Error = UnknownRefusal;

    fn try_from(number: u32) -> Result<Refusal, UnknownRefusal> {
        let mut all = Refusal::ALL.iter().copied();
        all.find(|refusal| refusal.number() == number)
            .ok_or(UnknownRefusal { number })
    }
}

/// Number and name, `refusal 2 MCS`; by `{:#}` the reason before them, `the MCS is over 31 (refusal 2 MCS)`.
impl fmt::Display for Refusal {
    fn fmt(&self, f: &mut fmt::Formatter<'_>) -> fmt::Result {
        let (reason, number, name) = (self.reason(), self.number(), self.name());
        if f.alternate() {
            write!(f, "{reason} (refusal {number} {name})")
        } else {
            write!(f, "refusal {number} {name}")
        }
    }
}

impl Error for Refusal {}

/// A number that is none of a refusal.
#[derive(Clone, Copy, Debug, PartialEq, Eq, Hash)]
#[non_exhaustive]
pub struct UnknownRefusal {
    /// The number that was given.
    pub number: u32,
}

impl fmt::Display for UnknownRefusal {
    fn fmt(&self, f: &mut fmt::Formatter<'_>) -> fmt::Result {
        write!(f, "no refusal has the number {}", self.number)
    }
}

impl Error for UnknownRefusal {}
