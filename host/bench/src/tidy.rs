//! The plain program tidied: still bit by bit and without tables, but one pass over the data bits that puts each kept bit
//! at its label place, with counters for most divisions, 32-bit numbers and levels by arithmetic.

use crate::plain::{pilot_pattern, polarity, Plan};
use ht_core::{Refusal, Settings};

/// One encoder on its way through a symbol.
#[derive(Clone, Copy)]
struct Encoder {
    /// Bit 0 is x(t-1), bit 5 is x(t-6).
    history: u8,
    /// The step's place in the puncturing period.
    phase: u32,
    /// The stream that takes the next kept bit.
    stream: usize,
    /// The next bit of that stream is `round` + `within`, `within` below the bits of one axis.
    round: u32,
    within: u32,
}

/// The points call of this program.
#[inline(never)]
pub fn points(s: Settings, payload: &[u8], symbol: u32, out: &mut [f32]) -> Result<usize, Refusal> {
    let plan = Plan::of_call(&s, payload, symbol, out)?;
    let n = symbol as usize;
    let labels = labels(&s, &plan, payload, n);
    let polarity = polarity(&s, n);
    let pilots = if s.width == 20 { 4 } else { 6 };
    let b = plan.bits_per_carrier;
    let axis = plan.axis_bits();
    for (stream, label) in labels.iter().take(plan.streams).enumerate() {
        let floats = &mut out[2 * plan.used * stream..2 * plan.used * (stream + 1)];
        let mut carrier = 0;
        let mut q = 0;
        for place in 0..plan.used {
            let (first, second) = if is_pilot(s.width, place) {
                let value = pilot_pattern(s.width, plan.streams, stream, (n + q) % pilots);
                q += 1;
                (i32::from(value * polarity), 0)
            } else {
                let bits = &label[b * carrier..b * (carrier + 1)];
                carrier += 1;
                let second = if b == 1 { 0 } else { level(&bits[axis..]) };
                (level(&bits[..axis]), second)
            };
            let (first, second) = if s.width == 40 && place >= 57 {
                (-second, first)
            } else {
                (first, second)
            };
            floats[2 * place] = first as f32;
            floats[2 * place + 1] = second as f32;
        }
    }
    Ok(plan.floats())
}

fn scrambler_step(register: u8) -> u8 {
    (register << 1 | (register >> 6 ^ register >> 3) & 1) & 0x7F
}

/// Steps 1 to 5 for symbol n: the label bits of each stream.
fn labels(s: &Settings, plan: &Plan, payload: &[u8], n: usize) -> [[u8; 648]; 4] {
    let own = n * plan.data_bits;
    let begin = own.saturating_sub(6 * plan.encoders);
    let tail = 16 + 8 * s.length as usize;
    let pad = tail + 6 * plan.encoders;
    let mut register = s.seed as u8;
    for _ in 0..begin % 127 {
        register = scrambler_step(register);
    }
    let axis = plan.axis_bits() as u32;
    let b = plan.bits_per_carrier as u32;
    let block = plan.block as u32;
    let (columns, rows, rotation) = if s.width == 20 {
        (13, 4 * b, 11 * b)
    } else {
        (18, 6 * b, 29 * b)
    };
    let rotated = [0, 2, 1, 3].map(|factor| factor * rotation % block);
    let period = plan.rate_bits as u32 - 1;
    let round_bits = axis * plan.encoders as u32;
    let mut labels = [[0; 648]; 4];
    let mut encoders = [0, axis].map(|round| Encoder {
        history: 0,
        phase: 0,
        stream: 0,
        round,
        within: 0,
    });
    let mut turn = 0;
    for d in begin..own + plan.data_bits {
        register = scrambler_step(register);
        let mut x = register & 1;
        if d >= 16 && d < tail {
            x ^= payload[d / 8 - 2] >> (d % 8) & 1;
        }
        if d >= tail && d < pad {
            x = 0;
        }
        let e = &mut encoders[turn];
        let h = e.history;
        e.history = (h << 1 | x) & 0x3F;
        if d >= own {
            let sums = [
                (x ^ h >> 1 ^ h >> 2 ^ h >> 4 ^ h >> 5) & 1,
                (x ^ h ^ h >> 1 ^ h >> 2 ^ h >> 5) & 1,
            ];
            let even = e.phase % 2 == 0;
            let kept = [e.phase == 0 || !even, even];
            for (sum, kept) in sums.into_iter().zip(kept) {
                if !kept {
                    continue;
                }
                let k = e.round + e.within;
                let column = k % columns;
                let i = rows * column + k / columns;
                let j = i - i % axis + (i + block - column) % axis;
                let back = rotated[e.stream];
                let place = if j >= back {
                    j - back
                } else {
                    j + block - back
                };
                labels[e.stream][place as usize] = sum;
                e.within += 1;
                if e.within == axis {
                    e.within = 0;
                    e.stream += 1;
                    if e.stream == plan.streams {
                        e.stream = 0;
                        e.round += round_bits;
                    }
                }
            }
            e.phase += 1;
            if e.phase == period {
                e.phase = 0;
            }
        }
        turn += 1;
        if turn == plan.encoders {
            turn = 0;
        }
    }
    labels
}

/// Whether a place among the used subcarriers is a pilot's.
fn is_pilot(width: u32, place: usize) -> bool {
    if width == 20 {
        matches!(place, 7 | 21 | 34 | 48)
    } else {
        matches!(place, 5 | 33 | 47 | 66 | 80 | 108)
    }
}

/// Step 6 for the bits of one axis: the levels are numbered by a Gray code.
fn level(bits: &[u8]) -> i32 {
    let mut gray = 0;
    let mut number = 0;
    for bit in bits {
        gray ^= i32::from(*bit);
        number = 2 * number + gray;
    }
    2 * number + 1 - (1 << bits.len())
}
