//! HT-SIG, written and read.

use crate::numbers::{self, answer};
use crate::{ffi, raw, Format, OpenSettings, Refusal, Settings, Width};

/// What HT-SIG says. The format and the seed are not in it.
#[derive(Clone, Copy, Debug, PartialEq, Eq, Hash)]
#[non_exhaustive]
pub struct SigFields {
    /// The channel width.
    pub width: Width,
    /// The modulation and coding scheme: 0 to 31.
    pub mcs: u32,
    /// The payload's bytes: 1 to 65,535.
    pub length: u32,
    /// The flag smoothing.
    pub smoothing: bool,
    /// The flag not sounding.
    pub not_sounding: bool,
    /// The flag aggregation.
    pub aggregation: bool,
    /// The flag short guard.
    pub short_guard: bool,
}

impl SigFields {
    /// The settings that a frame with this HT-SIG is read by, in a format that HT-SIG does not say.
    ///
    /// ```
    /// use ht_core::{frame_points, read_frame, sig_bytes, sig_read, Format, Settings, Width};
    ///
    /// let sent = Settings::new(Width::Mhz20, 4, 5, 93).format(Format::GreenField);
    /// let (sig, points) = (sig_bytes(sent)?, frame_points(sent, b"hello")?);
    ///
    /// let open = sig_read(&sig)?.open_settings(Format::GreenField);
    /// let mut payload = vec![0; open.length as usize];
    /// assert_eq!(read_frame(open, &points, &mut payload)?, 93);
    /// assert_eq!(payload, b"hello");
    /// assert_eq!(open.with_seed(93), sent);
    /// # Ok::<(), Box<dyn std::error::Error>>(())
    /// ```
    pub fn open_settings(self, format: Format) -> OpenSettings {
        OpenSettings::new(self.width, self.mcs, self.length)
            .format(format)
            .smoothing(self.smoothing)
            .not_sounding(self.not_sounding)
            .aggregation(self.aggregation)
            .short_guard(self.short_guard)
    }

    /// The settings of a frame with this HT-SIG, in a format and from a seed that HT-SIG does not say.
    pub fn settings(self, format: Format, seed: u32) -> Settings {
        self.open_settings(format).with_seed(seed)
    }
}

/// The six HT-SIG bytes.
///
/// # Errors
///
/// 1 to 5.
///
/// # Panics
///
/// Where [`check_library`](crate::check_library) gives an error.
pub fn sig_bytes(settings: Settings) -> Result<[u8; 6], Refusal> {
    let mut bytes = [0; 6];
    raw::sig_write(settings, &mut bytes)?;
    Ok(bytes)
}

/// Reads HT-SIG back.
///
/// # Errors
///
/// 6 (not six bytes), 13 (the CRC), 14 (another bit).
///
/// # Panics
///
/// Where [`check_library`](crate::check_library) gives an error.
pub fn sig_read(sig: &[u8]) -> Result<SigFields, Refusal> {
    answer(ffi::sig_read(sig)).map(numbers::sig_fields)
}
