//! The strict reader: symbols 0, 1, 2 and so on in order, back to the payload and the seed.

use crate::raw::{reader_place, reader_start, reader_step, StepResult};
use crate::{floats_per_symbol, numbers, OpenSettings, Refusal};
use std::error::Error;
use std::fmt;

/// A reader that waits for a symbol.
///
/// [`start`](Reader::start) begins before symbol 0, and each [`step`](Reader::step) uses the reader up. It comes back in
/// [`Step::Next`] while there are symbols left, and in [`ReadRefusal::Room`], which changes nothing. After the last symbol
/// and after a symbol that no frame has, it is gone; so none of its steps is refused by 12.
///
/// ```
/// use ht_core::{frame_points, Reader, ReadRefusal, Settings, Step, Width};
///
/// let s = Settings::new(Width::Mhz20, 0, 11, 93);
/// let frame = frame_points(s, b"hello bench")?;
///
/// // The reader is not told the seed: it is in the answer to symbol 0, and in the last answer.
/// let read = |frame: &[f32], payload: &mut [u8]| -> Result<Option<u32>, ReadRefusal> {
///     let mut reader = Reader::start(s).unwrap();
///     for symbol in frame.chunks(reader.floats()) {
///         match reader.step(symbol, payload)? {
///             Step::Next { reader: next, seed, .. } => {
///                 assert_eq!(seed, (next.symbol() == 1).then_some(93));
///                 reader = next;
///             }
///             Step::Done { seed, .. } => return Ok(Some(seed)),
///             _ => unreachable!("no other step is known"),
///         }
///     }
///     Ok(None)
/// };
/// let mut payload = [0; 11];
/// assert_eq!(read(&frame, &mut payload), Ok(Some(93)));
/// assert_eq!(&payload, b"hello bench");
///
/// // A negative zero is no level: the second of the lowest subcarrier, in symbol 2.
/// let mut damaged = frame.clone();
/// damaged[2 * 112 + 1] = -0.0;
/// let place = ReadRefusal::Point { stream: 0, subcarrier: -28 };
/// assert_eq!(read(&damaged, &mut payload), Err(place));
/// // Symbol 0 has other pilots than symbol 1.
/// assert!(read(&frame[..112].repeat(2), &mut payload).is_err());
/// # Ok::<(), ht_core::Refusal>(())
/// ```
///
/// A reader that was refused cannot be asked again:
///
/// ```compile_fail,E0382
/// # use ht_core::{OpenSettings, Reader, Width};
/// # let s = OpenSettings::new(Width::Mhz20, 0, 1);
/// let reader = Reader::start(s).unwrap();
/// let refused = reader.step(&[f32::NAN; 112], &mut [0]).unwrap_err();
/// let again = reader.step(&[1.0; 112], &mut [0]);
/// ```
#[derive(Debug, PartialEq, Eq)]
#[must_use = "the next symbol is read from here"]
pub struct Reader {
    open: OpenSettings,
    /// A state that the start or an accepted step returned, and not that after the last symbol.
    state: u64,
    /// The seed, from symbol 1 on.
    seed: Option<u32>,
    /// The floats of a symbol, as the core writes them.
    floats: usize,
}

/// A symbol was accepted.
#[derive(Debug, PartialEq, Eq)]
#[non_exhaustive]
pub enum Step {
    /// There are more: the reader waits for the next one.
    Next {
        /// The reader after this symbol.
        reader: Reader,
        /// The frame's seed, in the answer to symbol 0.
        seed: Option<u32>,
    },
    /// It was the last: the payload is whole.
    Done {
        /// The frame's seed.
        seed: u32,
    },
}

/// Why a step was refused. No payload byte has changed.
#[derive(Debug, PartialEq, Eq)]
#[non_exhaustive]
pub enum ReadRefusal {
    /// 8: a lent slice is too short. The symbol was not looked at.
    Room {
        /// The reader as it was.
        reader: Reader,
    },
    /// 9: this point, or pilot, is the first that is not one the rules give.
    Point {
        /// The stream, from 0.
        stream: u32,
        /// The subcarrier, from the middle of the channel.
        subcarrier: i32,
    },
    /// 10: no data bits give these coded bits after the earlier ones.
    Code,
    /// 11: a service, tail or pad bit is wrong, or the seed would be 0.
    Frame,
}

impl Reader {
    /// Begins before symbol 0.
    ///
    /// # Errors
    ///
    /// 1 to 4.
    ///
    /// # Panics
    ///
    /// Where [`check_library`](crate::check_library) gives an error.
    pub fn start(open: impl Into<OpenSettings>) -> Result<Reader, Refusal> {
        let open = open.into();
        let state = reader_start(open)?;
        // A symbol's size is asked for with a seed, and does not depend on it.
        let floats = floats_per_symbol(open.with_seed(1)).expect("the settings are accepted");
        Ok(Reader {
            open,
            state,
            seed: None,
            floats,
        })
    }

    /// Reads the next symbol. `points` begins with its floats, as [`points`](crate::points()) writes them, and `payload` is
    /// for the whole payload at every step; what is longer than needed is not looked at and stays. An accepted symbol writes
    /// the payload bytes that it completes, each at its own index.
    ///
    /// # Errors
    ///
    /// 8 (`points` has fewer floats than [`floats`](Reader::floats), or `payload` fewer bytes than the length), 9, 10, 11.
    pub fn step(self, points: &[f32], payload: &mut [u8]) -> Result<Step, ReadRefusal> {
        let step = reader_step(self.open, self.state, points, payload);
        match Refusal::try_from(step.number) {
            Err(_) => Ok(self.accepted(step)),
            Ok(Refusal::Room) => Err(ReadRefusal::Room { reader: self }),
            Ok(Refusal::Point) => {
                let (stream, subcarrier) = reader_place(self.open, self.state, points)
                    .ok()
                    .flatten()
                    .expect("the core gives 9 exactly where it gives a place");
                Err(ReadRefusal::Point { stream, subcarrier })
            }
            Ok(Refusal::Code) => Err(ReadRefusal::Code),
            Ok(Refusal::Frame) => Err(ReadRefusal::Frame),
            Ok(other) => unreachable!("a waiting reader is not refused because {other}"),
        }
    }

    fn accepted(self, step: StepResult) -> Step {
        assert_eq!(step.number, 0, "the core gives 0 or a refusal's number");
        let found = numbers::seed(step.seed);
        let seed = self.seed.or(found);
        if numbers::state_ended(step.state) {
            return Step::Done {
                seed: seed.expect("the core gives the seed with symbol 0"),
            };
        }
        Step::Next {
            reader: Reader {
                state: step.state,
                seed,
                ..self
            },
            seed: found,
        }
    }

    /// The number of the symbol that is read next, from 0.
    pub fn symbol(&self) -> u32 {
        numbers::state_symbol(self.state)
    }

    /// The seed, once symbol 0 is read.
    pub fn seed(&self) -> Option<u32> {
        self.seed
    }

    /// The floats that a step needs, [`MAX_FLOATS`](crate::MAX_FLOATS) at most.
    pub fn floats(&self) -> usize {
        self.floats
    }

    /// The state as [`reader_step`] takes it.
    pub fn state(&self) -> u64 {
        self.state
    }
}

impl ReadRefusal {
    /// The refusal in document 01's table.
    pub fn refusal(&self) -> Refusal {
        *self.listed()
    }

    fn listed(&self) -> &'static Refusal {
        match self {
            ReadRefusal::Room { .. } => &Refusal::Room,
            ReadRefusal::Point { .. } => &Refusal::Point,
            ReadRefusal::Code => &Refusal::Code,
            ReadRefusal::Frame => &Refusal::Frame,
        }
    }
}

/// The refusal and where it is, `refusal 9 POINT at stream 1, subcarrier -7`; by `{:#}` where it is, and then the refusal with its reason.
impl fmt::Display for ReadRefusal {
    fn fmt(&self, f: &mut fmt::Formatter<'_>) -> fmt::Result {
        if !f.alternate() {
            write!(f, "{}", self.refusal())?;
            return match self {
                ReadRefusal::Room { reader } => write!(f, " before symbol {}", reader.symbol()),
                ReadRefusal::Point { stream, subcarrier } => {
                    write!(f, " at stream {stream}, subcarrier {subcarrier}")
                }
                ReadRefusal::Code | ReadRefusal::Frame => Ok(()),
            };
        }
        match self {
            ReadRefusal::Room { reader } => write!(f, "symbol {}: ", reader.symbol())?,
            ReadRefusal::Point { stream, subcarrier } => {
                write!(f, "stream {stream}, subcarrier {subcarrier}: ")?
            }
            ReadRefusal::Code | ReadRefusal::Frame => {}
        }
        write!(f, "{:#}", self.refusal())
    }
}

impl Error for ReadRefusal {
    fn source(&self) -> Option<&(dyn Error + 'static)> {
        Some(self.listed())
    }
}
