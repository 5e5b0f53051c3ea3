//! The settings of a frame, with and without its seed.

use crate::Refusal;

/// The channel width.
#[derive(Clone, Copy, Debug, PartialEq, Eq, Hash)]
pub enum Width {
    /// 20 MHz.
    Mhz20 = 20,
    /// 40 MHz.
    Mhz40 = 40,
}

impl Width {
    /// The width in MHz, which is its number.
    pub const fn mhz(self) -> u32 {
        self as u32
    }
}

impl From<Width> for u32 {
    fn from(width: Width) -> u32 {
        width.mhz()
    }
}

impl TryFrom<u32> for Width {
    type Error = Refusal;

    /// # Errors
    ///
    /// [`Refusal::Width`] for a number that is no width.
    fn try_from(mhz: u32) -> Result<Width, Refusal> {
        let mut all = [Width::Mhz20, Width::Mhz40].into_iter();
        all.find(|width| width.mhz() == mhz).ok_or(Refusal::Width)
    }
}

/// The frame format.
#[derive(Clone, Copy, Debug, PartialEq, Eq, Hash)]
pub enum Format {
    /// Mixed format, number 0.
    Mixed = 0,
    /// Green field, number 1.
    GreenField = 1,
}

impl Format {
    /// The format's number.
    pub const fn number(self) -> u32 {
        self as u32
    }
}

impl From<Format> for u32 {
    fn from(format: Format) -> u32 {
        format.number()
    }
}

impl TryFrom<u32> for Format {
    type Error = Refusal;

    /// # Errors
    ///
    /// [`Refusal::Format`] for a number that is no format.
    fn try_from(number: u32) -> Result<Format, Refusal> {
        let mut all = [Format::Mixed, Format::GreenField].into_iter();
        all.find(|format| format.number() == number)
            .ok_or(Refusal::Format)
    }
}

/// A struct of numbers, with a setter of the same name for each of them.
macro_rules! numbers {
    ($(#[$about:meta])* $name:ident $($(#[$what:meta])* $field:ident: $given:ty,)*) => {
        $(#[$about])*
        #[derive(Clone, Copy, Debug, PartialEq, Eq, Hash)]
        #[non_exhaustive]
        pub struct $name {
            $($(#[$what])* pub $field: u32,)*
        }

        impl $name {
            $(
                #[doc = concat!("Sets `", stringify!($field), "`.")]
                ///
                $(#[$what])*
                #[must_use = "the settings are returned, and not changed where they stand"]
                pub fn $field(mut self, $field: $given) -> $name {
                    self.$field = $field.into();
                    self
                }
            )*
        }
    };
}

/// The settings with and without a seed, from one list of numbers in the order of the C calls.
macro_rules! settings {
    (
        $(#[$about:meta])* $closed:ident,
        $(#[$about_open:meta])* $open:ident,
        { $($(#[$what_before:meta])* $before:ident: $given_before:ty,)* }
        { $(#[$what_seed:meta])* $seed:ident: $given_seed:ty }
        { $($(#[$what_after:meta])* $after:ident: $given_after:ty,)* }
    ) => {
        numbers! {
            $(#[$about])* $closed
            $($(#[$what_before])* $before: $given_before,)*
            $(#[$what_seed])* $seed: $given_seed,
            $($(#[$what_after])* $after: $given_after,)*
        }

        numbers! {
            $(#[$about_open])* $open
            $($(#[$what_before])* $before: $given_before,)*
            $($(#[$what_after])* $after: $given_after,)*
        }

        impl $open {
            /// The same settings with a seed.
            pub const fn with_seed(self, $seed: u32) -> $closed {
                $closed { $($before: self.$before,)* $seed, $($after: self.$after,)* }
            }
        }

        impl From<$closed> for $open {
            /// Leaves the seed out.
            fn from(settings: $closed) -> $open {
                $open { $($before: settings.$before,)* $($after: settings.$after,)* }
            }
        }
    };
}

settings! {
    /// The settings of a frame.
    ///
    /// They are numbers, which go to the core as they are: it tests each, and refuses what is out of range. So numbers from
    /// outside may be set as they come. [`Width`], [`Format`] and `bool` are taken as well.
    ///
    /// [`new`](Settings::new) takes what differs from frame to frame. The rest is as in document 01's listing: mixed format,
    /// smoothing and not sounding on, aggregation and short guard off. Each number has a setter of its name, and can be read
    /// as a field.
    ///
    /// ```
    /// use ht_core::{sig_bytes, symbol_count, Format, Refusal, Settings, Width};
    ///
    /// let s = Settings::new(Width::Mhz40, 15, 100, 1);
    /// assert_eq!(sig_bytes(s), Ok([0x8F, 0x64, 0x00, 0x07, 0x54, 0x00]));
    ///
    /// let other = s.format(Format::GreenField).smoothing(false).short_guard(true);
    /// assert_eq!((other.format, other.smoothing, other.short_guard), (1, 0, 1));
    ///
    /// let from_a_file: u32 = 41;
    /// assert_eq!(symbol_count(s.width(from_a_file)), Err(Refusal::Width));
    /// ```
    ///
    /// A later library may have further numbers. Settings are made by `new`, which sets them too, and not field by field:
    ///
    /// ```compile_fail,E0639
    /// # use ht_core::Settings;
    /// let s = Settings {
    ///     width: 40,
    ///     mcs: 15,
    ///     format: 0,
    ///     length: 100,
    ///     seed: 1,
    ///     smoothing: 1,
    ///     not_sounding: 1,
    ///     aggregation: 0,
    ///     short_guard: 0,
    /// };
    /// ```
    Settings,
    /// [`Settings`] without a seed, which the reader finds.
    ///
    /// ```
    /// use ht_core::{OpenSettings, Settings, Width};
    ///
    /// let s = Settings::new(Width::Mhz20, 7, 1500, 93).short_guard(true);
    /// let open = OpenSettings::new(Width::Mhz20, 7, 1500).short_guard(true);
    /// assert_eq!(OpenSettings::from(s), open);
    /// assert_eq!(open.with_seed(93), s);
    /// ```
    OpenSettings,
    {
        /// The channel width in MHz: 20 or 40.
        width: impl Into<u32>,
        /// The modulation and coding scheme: 0 to 31.
        mcs: u32,
        /// The frame format: 0 mixed, 1 green field.
        format: impl Into<u32>,
        /// The payload's bytes: 1 to 65,535.
        length: u32,
    }
    {
        /// The scrambler's seed: 1 to 127.
        seed: u32
    }
    {
        /// HT-SIG's flag smoothing: off at 0, on at any other number.
        smoothing: impl Into<u32>,
        /// HT-SIG's flag not sounding: off at 0, on at any other number.
        not_sounding: impl Into<u32>,
        /// HT-SIG's flag aggregation: off at 0, on at any other number.
        aggregation: impl Into<u32>,
        /// HT-SIG's flag short guard: off at 0, on at any other number.
        short_guard: impl Into<u32>,
    }
}

impl Settings {
    /// Settings of this width, MCS, payload length and seed; the rest as document 01's listing has it.
    pub const fn new(width: Width, mcs: u32, length: u32, seed: u32) -> Settings {
        OpenSettings::new(width, mcs, length).with_seed(seed)
    }
}

impl OpenSettings {
    /// Settings of this width, MCS and payload length; the rest as document 01's listing has it.
    pub const fn new(width: Width, mcs: u32, length: u32) -> OpenSettings {
        OpenSettings {
            width: width.mhz(),
            mcs,
            format: Format::Mixed.number(),
            length,
            smoothing: 1,
            not_sounding: 1,
            aggregation: 0,
            short_guard: 0,
        }
    }
}
