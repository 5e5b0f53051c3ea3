//! The reader's step by closed formulas of document 01, for its tests.
//!
//! Where the reader tries, deals and looks up, here each bit is calculated back
//! to its place. Only the pilots' patterns are those of the program.

use super::{Answer, OpenSettings, State};
use crate::pilots::pilot_pattern;

/// The step by closed formulas.
pub fn closed_step(
    s: &OpenSettings,
    state: &State,
    points: &[f32],
    payload: &mut [u8],
) -> (Answer, State) {
    let Some(c) = Closed::in_range(s, state) else {
        return (Answer::Refused(12), *state);
    };
    if points.len() < c.nss * c.used() * 2 || payload.len() < c.length {
        return (Answer::Refused(8), *state);
    }
    let judged = c.kept(points).and_then(|kept| {
        let (data, history) = c.inputs(&kept, state)?;
        let read = c.read(&data, state)?;
        Ok((history, read))
    });
    let (history, read) = match judged {
        Ok(judged) => judged,
        Err(answer) => {
            let ended = true;
            return (answer, State { ended, ..*state });
        }
    };

    let whole = read.bits.len() / 8;
    for m in 0..whole {
        payload[c.before() / 8 + m] = number(&read.bits[8 * m..8 * m + 8]) as u8;
    }
    let after = State {
        symbol: state.symbol + 1,
        history,
        scrambler: read.scrambler,
        part: number(&read.bits[8 * whole..]),
        ended: c.n + 1 == c.count(),
    };
    let seed = if c.n == 0 { read.seed as u32 } else { 0 };
    (Answer::Accepted { seed }, after)
}

/// What is read from the data bits.
struct Read {
    seed: u64,
    scrambler: u64,
    /// The payload bits of the state's part and of the symbol.
    bits: Vec<u8>,
}

/// The numbers of a frame and the symbol.
struct Closed {
    width: u32,
    format: usize,
    length: usize,
    n: usize,
    nss: usize,
    nes: usize,
    b: usize,
    /// The rate, above and below the line.
    above: usize,
    below: usize,
}

impl Closed {
    /// None where the state is closed.
    fn in_range(s: &OpenSettings, state: &State) -> Option<Closed> {
        if ![20, 40].contains(&s.width) || s.mcs > 31 || s.format > 1 {
            return None;
        }
        if s.length < 1 || s.length > 65_535 {
            return None;
        }
        let mut c = Closed {
            width: s.width,
            format: s.format as usize,
            length: s.length as usize,
            n: 0,
            nss: s.mcs as usize / 8 + 1,
            nes: if s.mcs < 16 { 1 } else { 2 },
            b: [1, 2, 2, 4, 4, 6, 6, 6][s.mcs as usize % 8],
            above: [1, 1, 3, 1, 3, 2, 3, 5][s.mcs as usize % 8],
            below: [2, 2, 4, 2, 4, 3, 4, 6][s.mcs as usize % 8],
        };
        if state.ended || state.symbol >= c.count() as u64 {
            return None;
        }
        c.n = state.symbol as usize;
        let scrambler = c.n == 0 || (1..=127).contains(&state.scrambler);
        let histories = state.history[0] <= 63 && state.history[1] <= 63;
        let part = state.part >> (c.before() % 8) == 0;
        (scrambler && histories && part).then_some(c)
    }

    fn used(&self) -> usize {
        if self.width == 20 {
            56
        } else {
            114
        }
    }

    fn block(&self) -> usize {
        self.b * if self.width == 20 { 52 } else { 108 }
    }

    fn d(&self) -> usize {
        self.block() * self.nss * self.above / self.below
    }

    fn count(&self) -> usize {
        (16 + 8 * self.length + 6 * self.nes).div_ceil(self.d())
    }

    /// s = max(1, B/2).
    fn axis(&self) -> usize {
        (self.b / 2).max(1)
    }

    /// The payload bits before the symbol.
    fn before(&self) -> usize {
        let bits = (self.n * self.d()) as i64 - 16;
        bits.min(8 * self.length as i64).max(0) as usize
    }

    /// The subcarrier of place p among the used.
    fn subcarrier(&self, p: usize) -> i64 {
        let p = p as i64;
        match self.width {
            20 if p < 28 => p - 28,
            20 => p - 27,
            _ if p < 57 => p - 58,
            _ => p - 55,
        }
    }

    /// The kept bits of each encoder; or 9.
    fn kept(&self, points: &[f32]) -> Result<Vec<Vec<u8>>, Answer> {
        let mut kept = vec![vec![9; self.block() * self.nss / self.nes]; self.nes];
        for i in 0..self.nss {
            let mut carrier = 0;
            for p in 0..self.used() {
                let at = 2 * (self.used() * i + p);
                let k = self.subcarrier(p);
                let Some(label) = self.label(i, k, points[at], points[at + 1]) else {
                    return Err(Answer::Point {
                        stream: i as u32,
                        subcarrier: k as i32,
                    });
                };
                if label.is_empty() {
                    continue;
                }
                for (m, bit) in label.iter().enumerate() {
                    let (encoder, number) = self.origin(i, carrier * self.b + m);
                    kept[encoder][number] = *bit;
                }
                carrier += 1;
            }
        }
        Ok(kept)
    }

    /// The label of a point of stream i, empty for a pilot; none where it
    /// fails.
    fn label(&self, i: usize, k: i64, first: f32, second: f32) -> Option<Vec<u8>> {
        let (u, v) = (whole(first)?, whole(second)?);
        // Back from (-b, a), as whole numbers.
        let (u, v) = if self.width == 40 && k > 0 {
            (v, -u)
        } else {
            (u, v)
        };
        let pilots: &[i64] = if self.width == 20 {
            &[-21, -7, 7, 21]
        } else {
            &[-53, -25, -11, 11, 25, 53]
        };
        if let Some(q) = pilots.iter().position(|pilot| *pilot == k) {
            let pattern = pilot_pattern(self.width, self.nss as u32, i as u32)?;
            let sign = pattern[(self.n + q) % pilots.len()] * self.polarity();
            return ((u, v) == (sign, 0)).then_some(Vec::new());
        }
        let mut label = self.gray(u)?;
        if self.b > 1 {
            label.extend(self.gray(v)?);
        } else if v != 0 {
            return None;
        }
        Some(label)
    }

    /// The bits of a level, which is odd, on one axis.
    fn gray(&self, level: i32) -> Option<Vec<u8>> {
        let most = (1 << self.axis()) - 1;
        if level == 0 || level.abs() > most {
            return None;
        }
        let place = (level + most) / 2;
        let code = place ^ (place >> 1);
        let bits = (0..self.axis()).rev().map(|m| (code >> m & 1) as u8);
        Some(bits.collect())
    }

    /// Polarity n + z, with z = 3 mixed and 2 green field. The seven outputs
    /// before the first of seed 127 are ones.
    fn polarity(&self) -> i32 {
        let mut outputs = vec![1; 7];
        for m in 7..134 {
            outputs.push(outputs[m - 7] ^ outputs[m - 4]);
        }
        1 - 2 * outputs[7 + (self.n + 3 - self.format) % 127]
    }

    /// The encoder and the number of the coded bit at label place r of stream i.
    fn origin(&self, i: usize, r: usize) -> (usize, usize) {
        let (columns, rows, rotation) = if self.width == 20 {
            (13, 4 * self.b, 11)
        } else {
            (18, 6 * self.b, 29)
        };
        let (block, s) = (self.block(), self.axis());
        let factor = [0, 2, 1, 3][i];
        let j = (r + factor * rotation * self.b) % block;
        let before = s * (j / s) + (j + columns * j / block) % s;
        let k = columns * before - (block - 1) * (before / rows);
        let number = i * s + self.nss * s * (k / (self.nes * s)) + k % s;
        (k / s % self.nes, number)
    }

    /// The data bits, and the histories after them; or 10.
    ///
    /// x(t) by A where A is kept, else by B; where both are, A + B must be
    /// x(t-1) + x(t-5).
    fn inputs(&self, kept: &[Vec<u8>], state: &State) -> Result<(Vec<u8>, [u64; 2]), Answer> {
        let mut data = vec![9; self.d()];
        let mut history = state.history;
        for (j, kept) in kept.iter().enumerate() {
            // The six old inputs, then the new ones.
            let mut x: Vec<u8> = (0..6).rev().map(|m| bit(state.history[j], m)).collect();
            for t in 0..self.d() / self.nes {
                let group = &kept[t / self.above * self.below..];
                let back = |m: usize| x[x.len() - m];
                let by_a = back(2) ^ back(3) ^ back(5) ^ back(6);
                let by_b = back(1) ^ back(2) ^ back(3) ^ back(6);
                let next = match t % self.above {
                    0 if group[0] ^ group[1] != back(1) ^ back(5) => {
                        return Err(Answer::Refused(10));
                    }
                    0 => group[0] ^ by_a,
                    1 => group[2] ^ by_a,
                    2 => group[3] ^ by_b,
                    3 => group[4] ^ by_a,
                    _ => group[5] ^ by_b,
                };
                x.push(next);
                data[self.nes * t + j] = next;
            }
            x.reverse();
            history[j] = number(&x[..6]);
        }
        Ok((data, history))
    }

    /// What the data bits say; or 11.
    fn read(&self, data: &[u8], state: &State) -> Result<Read, Answer> {
        // The seven outputs before the first are x7 to x1, and each later one
        // is the sum of those seven and four before it.
        let mut outputs: Vec<u8> = (0..7).rev().map(|m| bit(state.scrambler, m)).collect();
        if self.n == 0 {
            outputs.extend(&data[..7]);
            for m in (0..7).rev() {
                outputs[m] = outputs[m + 7] ^ outputs[m + 3];
            }
            outputs.truncate(7);
        }
        for m in 7..7 + self.d() {
            outputs.push(outputs[m - 7] ^ outputs[m - 4]);
        }
        let as_seed = |seven: &[u8]| {
            let mut seven = seven.to_vec();
            seven.reverse();
            number(&seven)
        };

        let seed = as_seed(&outputs[..7]);
        let tail = 16 + 8 * self.length;
        let held = self.before() % 8;
        let mut bits: Vec<u8> = (0..held).map(|m| bit(state.part, m)).collect();
        let mut wrong = seed == 0;
        for (m, input) in data.iter().enumerate() {
            let place = self.n * self.d() + m;
            let plain = input ^ outputs[7 + m];
            if (16..tail).contains(&place) {
                bits.push(plain);
            } else if (tail..tail + 6 * self.nes).contains(&place) {
                wrong |= *input == 1;
            } else {
                wrong |= plain == 1;
            }
        }
        if wrong {
            return Err(Answer::Refused(11));
        }
        Ok(Read {
            seed,
            scrambler: as_seed(&outputs[self.d()..]),
            bits,
        })
    }
}

/// The level of a float; none where it is no level.
fn whole(level: f32) -> Option<i32> {
    match level.to_bits() {
        0xC0E0_0000 => Some(-7),
        0xC0A0_0000 => Some(-5),
        0xC040_0000 => Some(-3),
        0xBF80_0000 => Some(-1),
        0x0000_0000 => Some(0),
        0x3F80_0000 => Some(1),
        0x4040_0000 => Some(3),
        0x40A0_0000 => Some(5),
        0x40E0_0000 => Some(7),
        _ => None,
    }
}

/// Bit m of a number.
fn bit(number: u64, m: usize) -> u8 {
    (number >> m & 1) as u8
}

/// The number of some bits, low bit first.
fn number(bits: &[u8]) -> u64 {
    (0..).zip(bits).map(|(m, bit)| u64::from(*bit) << m).sum()
}
