//! Whether the library that was linked is the one that this crate calls.

use crate::ffi;
use ht_core_sys::HT_CORE_ABI;
use std::error::Error;
use std::fmt;
use std::sync::atomic::{AtomicBool, Ordering};

/// Whether [`check_library`] has found the right library. It guards no memory, so that no ordering is needed.
static RIGHT: AtomicBool = AtomicBool::new(false);

/// Another library was linked than the one whose calls this crate declares.
#[derive(Clone, Copy, Debug, PartialEq, Eq, Hash)]
#[non_exhaustive]
pub struct WrongLibrary {
    /// The number of the linked library's set of calls.
    pub linked: i64,
    /// The number of the set of calls that this crate declares.
    pub declared: i64,
}

impl fmt::Display for WrongLibrary {
    fn fmt(&self, f: &mut fmt::Formatter<'_>) -> fmt::Result {
        write!(
            f,
            "the linked HT core has the calls of ABI {}, and ht-core calls those of ABI {}: build the library with \
             scripts/dist from the sources that ht-core comes with, and link that one",
            self.linked, self.declared
        )
    }
}

impl Error for WrongLibrary {}

/// Looks whether the linked library has the calls that this crate declares, by their ABI number.
///
/// Every call of this crate does so before it is the first to reach the library, and panics where this is an error. A
/// program that asks here at its start can say so in its own way.
///
/// # Errors
///
/// [`WrongLibrary`], with both numbers.
///
/// ```
/// ht_core::check_library()?;
/// # Ok::<(), ht_core::WrongLibrary>(())
/// ```
pub fn check_library() -> Result<(), WrongLibrary> {
    let (linked, declared) = (ffi::abi(), HT_CORE_ABI);
    if linked != declared {
        return Err(WrongLibrary { linked, declared });
    }
    RIGHT.store(true, Ordering::Relaxed);
    Ok(())
}

/// Panics where the wrong library was linked.
#[inline]
pub(crate) fn ready() {
    if !RIGHT.load(Ordering::Relaxed) {
        first_call();
    }
}

#[cold]
fn first_call() {
    if let Err(wrong) = check_library() {
        panic!("{wrong}");
    }
}
