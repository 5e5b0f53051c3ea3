//! The strict reader over a whole frame, whose points stand in one slice.

use crate::numbers::answer;
use crate::{ffi, OpenSettings, ReadRefusal, Reader, Refusal, Step};
use std::error::Error;
use std::fmt;

/// Why a frame was refused. No payload byte has changed.
#[derive(Clone, Copy, Debug, PartialEq, Eq, Hash)]
#[non_exhaustive]
pub enum FrameRefusal {
    /// 1 to 4: the settings. Nothing else was looked at.
    Settings(Refusal),
    /// 8: a lent slice is too short. No symbol was looked at.
    Room,
    /// 9: every symbol before this one is accepted, and this point, or pilot, is its first that is not one the rules give.
    Point {
        /// The symbol, from 0.
        symbol: u32,
        /// The stream, from 0.
        stream: u32,
        /// The subcarrier, from the middle of the channel.
        subcarrier: i32,
    },
    /// 10: no data bits give this symbol's coded bits after the earlier ones.
    Code {
        /// The symbol, from 0.
        symbol: u32,
    },
    /// 11: a service, tail or pad bit of this symbol is wrong, or the seed would be 0.
    Frame {
        /// The symbol, from 0.
        symbol: u32,
    },
}

/// Reads a whole frame: gives the seed, and writes the payload at the start of `payload`; the rest stays.
///
/// `points` begins with the points of all symbols, as [`write_frame`](crate::write_frame) writes them. Floats past them are
/// not looked at. A seed among the settings is not looked at either: the reader finds it. The call takes about 80 KB of
/// stack.
///
/// The core gives only the number of a refusal. Which symbol it was, and which point, is found here by a [`Reader`] with
/// bytes of its own, so a refused frame is read up to that symbol a second time.
///
/// # Errors
///
/// 1 to 4, then 8 (`points` has fewer floats than all symbols together, or `payload` fewer bytes than the length), then the
/// symbols in order, each with 9, 10, 11; the first refused symbol ends it. Unlike a [`Reader`], which writes as it reads, a
/// frame that is refused in any symbol writes no byte.
///
/// # Panics
///
/// Where [`check_library`](crate::check_library) gives an error.
///
/// ```
/// use ht_core::{frame_points, read_frame, FrameRefusal, Settings, Width};
///
/// let s = Settings::new(Width::Mhz20, 0, 11, 93);
/// let mut frame = frame_points(s, b"hello bench")?;
///
/// let mut payload = *b"........... stays";
/// assert_eq!(read_frame(s, &frame, &mut payload), Ok(93));
/// assert_eq!(&payload, b"hello bench stays");
///
/// // A negative zero is no level: the second of the lowest subcarrier, in symbol 2. The bytes of symbols 0 and 1 are not
/// // written.
/// frame[2 * 112 + 1] = -0.0;
/// let mut payload = [0; 11];
/// let refused = read_frame(s, &frame, &mut payload).unwrap_err();
/// assert_eq!(refused, FrameRefusal::Point { symbol: 2, stream: 0, subcarrier: -28 });
/// assert!(format!("{refused:#}").starts_with("symbol 2, stream 0, subcarrier -28: a point or a pilot is not one"));
/// assert_eq!(payload, [0; 11]);
/// assert_eq!(read_frame(s, &frame[1..], &mut payload), Err(FrameRefusal::Room));
/// # Ok::<(), ht_core::Refusal>(())
/// ```
pub fn read_frame(
    open: impl Into<OpenSettings>,
    points: &[f32],
    payload: &mut [u8],
) -> Result<u32, FrameRefusal> {
    let open = open.into();
    match answer(ffi::read_frame(&open, points, payload)) {
        Ok(seed) => Ok(u32::try_from(seed).expect("the core gives a seed of 1 to 127")),
        Err(settings @ (Refusal::Width | Refusal::Mcs | Refusal::Format | Refusal::Length)) => {
            Err(FrameRefusal::Settings(settings))
        }
        Err(Refusal::Room) => Err(FrameRefusal::Room),
        Err(number) => {
            let found = refused_symbol(open, points);
            assert_eq!(
                found.refusal(),
                number,
                "the core judges a frame as its steps do"
            );
            Err(found)
        }
    }
}

/// The symbol for which a frame is refused by 9, 10 or 11, where it is.
fn refused_symbol(open: OpenSettings, points: &[f32]) -> FrameRefusal {
    let mut read = vec![0; open.length as usize];
    let mut reader = Reader::start(open).expect("the frame's settings are accepted");
    for floats in points.chunks(reader.floats()) {
        let symbol = reader.symbol();
        reader = match reader.step(floats, &mut read) {
            Ok(Step::Next { reader, .. }) => reader,
            Err(ReadRefusal::Point { stream, subcarrier }) => {
                return FrameRefusal::Point {
                    symbol,
                    stream,
                    subcarrier,
                }
            }
            Err(ReadRefusal::Code) => return FrameRefusal::Code { symbol },
            Err(ReadRefusal::Frame) => return FrameRefusal::Frame { symbol },
            Ok(Step::Done { .. }) | Err(ReadRefusal::Room { .. }) => break,
        }
    }
    unreachable!("the core refuses a symbol of the frame by 9, 10 or 11")
}

impl FrameRefusal {
    /// The refusal in document 01's table.
    pub fn refusal(&self) -> Refusal {
        *self.listed()
    }

    fn listed(&self) -> &Refusal {
        match self {
            FrameRefusal::Settings(refusal) => refusal,
            FrameRefusal::Room => &Refusal::Room,
            FrameRefusal::Point { .. } => &Refusal::Point,
            FrameRefusal::Code { .. } => &Refusal::Code,
            FrameRefusal::Frame { .. } => &Refusal::Frame,
        }
    }

    /// The number, from 0, of the symbol that was refused; none where no symbol was looked at.
    pub fn symbol(&self) -> Option<u32> {
        match self {
            FrameRefusal::Settings(_) | FrameRefusal::Room => None,
            FrameRefusal::Point { symbol, .. }
            | FrameRefusal::Code { symbol }
            | FrameRefusal::Frame { symbol } => Some(*symbol),
        }
    }
}

/// The refusal and where it is, `refusal 10 CODE in symbol 2`; by `{:#}` where it is, and then the refusal with its reason.
impl fmt::Display for FrameRefusal {
    fn fmt(&self, f: &mut fmt::Formatter<'_>) -> fmt::Result {
        if !f.alternate() {
            write!(f, "{}", self.refusal())?;
            return match self {
                FrameRefusal::Settings(_) | FrameRefusal::Room => Ok(()),
                FrameRefusal::Point {
                    symbol,
                    stream,
                    subcarrier,
                } => write!(
                    f,
                    " in symbol {symbol} at stream {stream}, subcarrier {subcarrier}"
                ),
                FrameRefusal::Code { symbol } | FrameRefusal::Frame { symbol } => {
                    write!(f, " in symbol {symbol}")
                }
            };
        }
        match self {
            FrameRefusal::Settings(_) | FrameRefusal::Room => {}
            FrameRefusal::Point {
                symbol,
                stream,
                subcarrier,
            } => write!(
                f,
                "symbol {symbol}, stream {stream}, subcarrier {subcarrier}: "
            )?,
            FrameRefusal::Code { symbol } | FrameRefusal::Frame { symbol } => {
                write!(f, "symbol {symbol}: ")?
            }
        }
        write!(f, "{:#}", self.refusal())
    }
}

impl Error for FrameRefusal {
    fn source(&self) -> Option<&(dyn Error + 'static)> {
        Some(self.listed())
    }
}
