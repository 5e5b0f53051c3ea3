//! The labels of data points: the core gives each point, the second program's coding chain the bits that stand on its carrier.

use crate::frame::{Carrier, Frame, Used};
use std::error::Error;

/// A data point of the core, and its carrier's label bits, first bit first.
pub struct Labelled {
    pub used: Used,
    pub label: Vec<u8>,
}

/// Every data point of stream 0, symbol by symbol, subcarriers rising.
pub fn labelled(frame: &Frame) -> Result<Vec<Labelled>, Box<dyn Error>> {
    let settings = frame.for_second();
    let bits = second::bits_per_carrier(settings.mcs);
    let symbols = second::frame_labels(&settings, &frame.payload).map_err(refused)?;
    same(symbols.len(), frame.symbols()? as usize, "symbols")?;
    let mut all = Vec::new();
    for (symbol, streams) in (0..).zip(symbols) {
        let labels = second::carrier_labels(&streams[0], bits);
        let mut data = frame.used(symbol, 0)?;
        data.retain(|used| matches!(used.carrier, Carrier::Data { .. }));
        same(labels.len(), data.len(), "data carriers")?;
        let pairs = data.into_iter().zip(labels);
        all.extend(pairs.map(|(used, label)| Labelled { used, label }));
    }
    Ok(all)
}

/// The second program's refusal, in words.
pub fn refused(number: u32) -> String {
    format!("the second program refuses the frame: {number}")
}

/// The two programs have to agree before anything of both is drawn.
pub fn same<T: PartialEq + std::fmt::Debug>(
    of_second: T,
    of_core: T,
    what: &str,
) -> Result<(), String> {
    if of_second == of_core {
        return Ok(());
    }
    Err(format!(
        "{what}: the second program has {of_second:?}, the core {of_core:?}"
    ))
}
