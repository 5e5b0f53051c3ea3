//! Safe calls of the proved HT signal core.
//!
//! The core tests every input itself, so any numbers may be passed: bad ones come back as a [`Refusal`], and a refused call
//! has changed nothing in lent memory.
//!
//! ```
//! use ht_core::{frame_points, read_frame, sig_bytes, symbol_count, Refusal, Settings, Width};
//!
//! let s = Settings::new(Width::Mhz40, 15, 100, 1);
//! assert_eq!(symbol_count(s), Ok(1));
//! assert_eq!(sig_bytes(s), Ok([0x8F, 0x64, 0x00, 0x07, 0x54, 0x00]));
//! assert_eq!(symbol_count(s.mcs(32)), Err(Refusal::Mcs));
//!
//! let frame = frame_points(s, &[0x5A; 100])?;
//! let mut payload = [0; 100];
//! assert_eq!(read_frame(s, &frame, &mut payload)?, 1); // the seed
//! assert_eq!(payload, [0x5A; 100]);
//! # Ok::<(), Box<dyn std::error::Error>>(())
//! ```
//!
//! [`points`](points()) gives any one data symbol of a frame by its number, in any order, and [`write_frame`] all of them;
//! [`carrier`](carrier()) says what one subcarrier carries. [`Reader`] takes the symbols 0, 1, 2 and so on back and gives
//! the payload and the seed, or refuses what no frame of its settings is. [`read_frame`](read_frame()) does this by one call
//! for a frame whose points stand in one slice. [`raw`] has the C calls that these leave out, as they are.
//!
//! `Errors` of a call are the numbers of document 01's refusals, in the order in which they are tested; [`Refusal`] has them
//! in words.
//!
//! # Panics
//!
//! Every call panics, before it reaches the library, where the linked library has other calls than those that this crate was
//! built for, with the words of [`WrongLibrary`]. [`check_library`] gives the same as an error. With the right library no
//! call panics: that would need an answer that the core is proved not to give.
//!
//! # Floating point
//!
//! The proofs are of the default floating-point environment: rounding to nearest, exceptions masked, as every Rust program
//! begins. Another rounding, or subnormal numbers taken as zero, changes no answer, which is tested and not proved. Among
//! the points that are read a signalling NaN raises the exception "invalid operation" and a subnormal number "denormal
//! operand"; where code outside of Rust has unmasked it, that ends the program. The proofs know one NaN and no bits of it:
//! that NaNs in lent memory keep their bits where a call writes nothing is checked in the source and tested.

#![deny(missing_docs, unsafe_code)]

#[allow(unsafe_code)]
mod ffi;
mod frame;
mod library;
mod numbers;
pub mod raw;
mod reader;
mod refusal;
mod settings;
mod signal;
mod whole_frame;

pub use frame::{
    carrier, floats_per_frame, floats_per_symbol, frame_points, points, symbol_count, write_frame,
    Carrier, MAX_FLOATS,
};
pub use library::{check_library, WrongLibrary};
pub use reader::{ReadRefusal, Reader, Step};
pub use refusal::{Refusal, UnknownRefusal};
pub use settings::{Format, OpenSettings, Settings, Width};
pub use signal::{sig_bytes, sig_read, SigFields};
pub use whole_frame::{read_frame, FrameRefusal};
