//! A plain program of document 01's steps 1 to 8: bit by bit, by the formulas as they are printed, with no table but the
//! pilot patterns. One symbol a call; a scrambler is stepped on from its seed modulo its period of 127.

use ht_core::{Refusal, Settings};

/// What follows from accepted settings.
#[derive(Clone, Copy)]
pub struct Plan {
    /// N_SS.
    pub streams: usize,
    /// N_BPSC.
    pub bits_per_carrier: usize,
    /// The code rate is `rate_bits - 1` over `rate_bits`.
    pub rate_bits: usize,
    /// N_CBPSS, the interleaver's block.
    pub block: usize,
    /// N_DBPS.
    pub data_bits: usize,
    /// N_ES.
    pub encoders: usize,
    /// N_SYM.
    pub symbols: usize,
    /// Subcarriers in use, pilots included.
    pub used: usize,
}

// Inlined, so that the compiler sees what these numbers can be where it divides by them.
impl Plan {
    /// Refusals 1 to 5.
    #[inline]
    pub fn new(s: &Settings) -> Result<Plan, Refusal> {
        if s.width != 20 && s.width != 40 {
            return Err(Refusal::Width);
        }
        if s.mcs > 31 {
            return Err(Refusal::Mcs);
        }
        if s.format > 1 {
            return Err(Refusal::Format);
        }
        if s.length == 0 || s.length > 65_535 {
            return Err(Refusal::Length);
        }
        if s.seed == 0 || s.seed > 127 {
            return Err(Refusal::Seed);
        }
        let streams = s.mcs as usize / 8 + 1;
        let (bits_per_carrier, rate_bits) = match s.mcs % 8 {
            0 => (1, 2),
            1 => (2, 2),
            2 => (2, 4),
            3 => (4, 2),
            4 => (4, 4),
            5 => (6, 3),
            6 => (6, 4),
            _ => (6, 6),
        };
        let (carriers, used) = if s.width == 20 { (52, 56) } else { (108, 114) };
        let block = carriers * bits_per_carrier;
        let data_bits = block * streams * (rate_bits - 1) / rate_bits;
        let encoders = if streams <= 2 { 1 } else { 2 };
        let bits = 16 + 8 * s.length as usize + 6 * encoders;
        Ok(Plan {
            streams,
            bits_per_carrier,
            rate_bits,
            block,
            data_bits,
            encoders,
            symbols: bits.div_ceil(data_bits),
            used,
        })
    }

    /// The plan of a points call. Refusals 1 to 8.
    #[inline]
    pub fn of_call(
        s: &Settings,
        payload: &[u8],
        symbol: u32,
        out: &[f32],
    ) -> Result<Plan, Refusal> {
        let plan = Plan::new(s)?;
        if payload.len() < s.length as usize {
            return Err(Refusal::Source);
        }
        if symbol as usize >= plan.symbols {
            return Err(Refusal::Place);
        }
        if out.len() < plan.floats() {
            return Err(Refusal::Room);
        }
        Ok(plan)
    }

    /// The floats of one symbol.
    pub fn floats(&self) -> usize {
        2 * self.used * self.streams
    }

    /// The bits of one axis of a point, s of the parser and the interleaver.
    pub fn axis_bits(&self) -> usize {
        (self.bits_per_carrier / 2).max(1)
    }
}

/// The points call of this program.
#[inline(never)]
pub fn points(s: Settings, payload: &[u8], symbol: u32, out: &mut [f32]) -> Result<usize, Refusal> {
    let plan = Plan::of_call(&s, payload, symbol, out)?;
    let n = symbol as usize;
    let coded = coded_bits(&s, &plan, payload, n);
    let polarity = polarity(&s, n);
    for stream in 0..plan.streams {
        let label = interleaved(&s, &plan, &coded, stream);
        let first = 2 * plan.used * stream;
        let floats = &mut out[first..first + 2 * plan.used];
        write_stream(&s, &plan, n, stream, polarity, &label, floats);
    }
    Ok(plan.floats())
}

/// The most coded bits of one encoder in a symbol.
const MOST_CODED: usize = 1296;

/// The most bits of one stream in a symbol.
const MOST_BLOCK: usize = 648;

/// One step of the scrambler, bit 0 its x1: the register after it, and its output.
fn scrambler_step(register: u8) -> (u8, u8) {
    let output = (register >> 6 ^ register >> 3) & 1;
    ((register << 1 | output) & 0x7F, output)
}

/// The register after some steps.
fn scrambler_after(seed: u8, steps: usize) -> u8 {
    let mut register = seed;
    for _ in 0..steps % 127 {
        register = scrambler_step(register).0;
    }
    register
}

/// Step 1 for data bit d, with the scrambler's output for it.
fn encoder_input(s: &Settings, plan: &Plan, payload: &[u8], d: usize, output: u8) -> u8 {
    let tail = 16 + 8 * s.length as usize;
    let pad = tail + 6 * plan.encoders;
    if d < 16 {
        output
    } else if d < tail {
        payload[(d - 16) / 8] >> ((d - 16) % 8) & 1 ^ output
    } else if d < pad {
        0
    } else {
        output
    }
}

/// Step 3: whether A and B of an encoder's step are kept. A0 B0 A1 B2 A3 B4, or the beginning of it.
fn kept(rate_bits: usize, step: usize) -> (bool, bool) {
    let place = match rate_bits {
        2 => 0,
        3 => step % 2,
        4 => step % 3,
        _ => step % 5,
    };
    match place {
        0 => (true, true),
        1 | 3 => (true, false),
        _ => (false, true),
    }
}

/// Steps 1 to 3 for symbol n: the kept bits of each encoder.
fn coded_bits(s: &Settings, plan: &Plan, payload: &[u8], n: usize) -> [[u8; MOST_CODED]; 2] {
    let own = n * plan.data_bits;
    // The last six inputs of each encoder before the symbol.
    let begin = own.saturating_sub(6 * plan.encoders);
    let mut register = scrambler_after(s.seed as u8, begin);
    // Bit 0 of a history is x(t-1), bit 5 is x(t-6).
    let mut histories = [0u8; 2];
    for d in begin..own {
        let (next, output) = scrambler_step(register);
        register = next;
        let x = encoder_input(s, plan, payload, d, output);
        let encoder = d % plan.encoders;
        histories[encoder] = (histories[encoder] << 1 | x) & 0x3F;
    }
    let mut coded = [[0; MOST_CODED]; 2];
    let mut counts = [0; 2];
    for d in own..own + plan.data_bits {
        let (next, output) = scrambler_step(register);
        register = next;
        let x = encoder_input(s, plan, payload, d, output);
        let encoder = d % plan.encoders;
        let h = histories[encoder];
        histories[encoder] = (h << 1 | x) & 0x3F;
        let (a, b) = kept(plan.rate_bits, (d - own) / plan.encoders);
        if a {
            coded[encoder][counts[encoder]] = (x ^ h >> 1 ^ h >> 2 ^ h >> 4 ^ h >> 5) & 1;
            counts[encoder] += 1;
        }
        if b {
            coded[encoder][counts[encoder]] = (x ^ h ^ h >> 1 ^ h >> 2 ^ h >> 5) & 1;
            counts[encoder] += 1;
        }
    }
    coded
}

/// Steps 4 and 5 for one stream: its label bits.
fn interleaved(
    s: &Settings,
    plan: &Plan,
    coded: &[[u8; MOST_CODED]; 2],
    stream: usize,
) -> [u8; MOST_BLOCK] {
    let axis = plan.axis_bits();
    let b = plan.bits_per_carrier;
    let (columns, rows, rotation) = if s.width == 20 {
        (13, 4 * b, 11)
    } else {
        (18, 6 * b, 29)
    };
    let block = plan.block;
    let rotated = (2 * stream % 3 + 3 * (stream / 3)) * rotation * b % block;
    let mut label = [0; MOST_BLOCK];
    for k in 0..block {
        let encoder = k / axis % plan.encoders;
        let round = k / (plan.encoders * axis);
        let bit = coded[encoder][stream * axis + plan.streams * axis * round + k % axis];
        let i = rows * (k % columns) + k / columns;
        let j = axis * (i / axis) + (i + block - columns * i / block) % axis;
        label[(j + block - rotated) % block] = bit;
    }
    label
}

/// Step 6 for the bits of one axis.
fn level(bits: &[u8]) -> i8 {
    match *bits {
        [0] => -1,
        [1] => 1,
        [0, 0] => -3,
        [0, 1] => -1,
        [1, 1] => 1,
        [1, 0] => 3,
        [0, 0, 0] => -7,
        [0, 0, 1] => -5,
        [0, 1, 1] => -3,
        [0, 1, 0] => -1,
        [1, 1, 0] => 1,
        [1, 1, 1] => 3,
        [1, 0, 1] => 5,
        _ => 7,
    }
}

/// The pilots' polarity in symbol n.
pub fn polarity(s: &Settings, n: usize) -> i8 {
    let first = if s.format == 0 { 3 } else { 2 };
    let (_, output) = scrambler_step(scrambler_after(127, n + first));
    1 - 2 * output as i8
}

/// Entry q of the pilot pattern of a stream: tables 11 and 12.
pub fn pilot_pattern(width: u32, streams: usize, stream: usize, q: usize) -> i8 {
    // One row for one stream, two for two, ..
    let row = streams * (streams - 1) / 2 + stream;
    if width == 20 {
        let table: [[i8; 4]; 10] = [
            [1, 1, 1, -1],
            [1, 1, -1, -1],
            [1, -1, -1, 1],
            [1, 1, -1, -1],
            [1, -1, 1, -1],
            [-1, 1, 1, -1],
            [1, 1, 1, -1],
            [1, 1, -1, 1],
            [1, -1, 1, 1],
            [-1, 1, 1, 1],
        ];
        table[row][q]
    } else {
        let table: [[i8; 6]; 10] = [
            [1, 1, 1, -1, -1, 1],
            [1, 1, -1, -1, -1, -1],
            [1, 1, 1, -1, 1, 1],
            [1, 1, -1, -1, -1, -1],
            [1, 1, 1, -1, 1, 1],
            [1, -1, 1, -1, -1, 1],
            [1, 1, -1, -1, -1, -1],
            [1, 1, 1, -1, 1, 1],
            [1, -1, 1, -1, -1, 1],
            [-1, 1, 1, 1, -1, 1],
        ];
        table[row][q]
    }
}

/// Steps 6 to 8 for one stream: its floats, subcarriers rising.
fn write_stream(
    s: &Settings,
    plan: &Plan,
    n: usize,
    stream: usize,
    polarity: i8,
    label: &[u8; MOST_BLOCK],
    floats: &mut [f32],
) {
    let b = plan.bits_per_carrier;
    let axis = plan.axis_bits();
    let (inner, outer, pilots) = if s.width == 20 {
        (1, 28, 4)
    } else {
        (2, 58, 6)
    };
    let mut carrier = 0;
    let mut q = 0;
    let mut place = 0;
    for k in -outer..=outer {
        let distance = i32::abs(k);
        if distance < inner {
            continue;
        }
        let is_pilot = if s.width == 20 {
            distance == 7 || distance == 21
        } else {
            distance == 11 || distance == 25 || distance == 53
        };
        let (first, second) = if is_pilot {
            let value = pilot_pattern(s.width, plan.streams, stream, (n + q) % pilots);
            q += 1;
            (value * polarity, 0)
        } else {
            let bits = &label[b * carrier..b * (carrier + 1)];
            carrier += 1;
            let second = if b == 1 { 0 } else { level(&bits[axis..]) };
            (level(&bits[..axis]), second)
        };
        let (first, second) = if s.width == 40 && k > 0 {
            (-second, first)
        } else {
            (first, second)
        };
        floats[2 * place] = f32::from(first);
        floats[2 * place + 1] = f32::from(second);
        place += 1;
    }
}
