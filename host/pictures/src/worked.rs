//! One symbol of a frame worked through document 01's steps. The bits are the second program's, and its points have to be the
//! core's; pilots, turn and floats are the core's alone.

use crate::frame::{Carrier, Frame, Used};
use crate::labels::{refused, same};
use second::Kept;
use std::error::Error;

pub struct Worked {
    pub shape: Shape,
    pub service_bits: usize,
    pub frame_bits: usize,
    pub counts: Counts,
    pub way: Way,
}

/// What follows from the settings.
pub struct Shape {
    pub width: u32,
    pub bits_per_carrier: u32,
    pub encoders: u32,
    pub streams: u32,
    pub rate: (u32, u32),
    pub symbols: usize,
}

/// How many bits or points leave each step for one symbol: a number for each encoder, then for each stream.
pub struct Counts {
    pub data_bits: usize,
    pub scrambled: usize,
    pub inputs: Vec<usize>,
    pub sums: Vec<usize>,
    pub kept: Vec<usize>,
    pub parsed: Vec<usize>,
    pub interleaved: Vec<usize>,
    pub data_points: Vec<usize>,
    pub pilots: Vec<usize>,
    pub points: Vec<usize>,
    pub turned: Vec<usize>,
    pub floats: usize,
}

/// Where one payload bit stands after each step, and what it is there.
pub struct Way {
    pub payload_bit: u8,
    /// Counted over the frame.
    pub data_bit: usize,
    pub encoder: usize,
    pub step: usize,
    pub input: u8,
    /// The letter of the sum that is kept of the step.
    pub sum: char,
    pub coded_bit: u8,
    pub symbol: usize,
    /// Counted over the symbol, as all that follow.
    pub kept: usize,
    pub stream: usize,
    pub stream_bit: usize,
    pub place: usize,
    pub carrier: usize,
    pub label: Vec<u8>,
    pub used: Used,
    /// The first of the point's two floats.
    pub float: usize,
}

/// The symbol that carries bit `bit` of byte `byte`.
pub fn work(frame: &Frame, byte: usize, bit: u32) -> Result<Worked, Box<dyn Error>> {
    let shape = Shape::of(frame)?;
    let coded = Coded::of(frame, &shape)?;
    let step = Step::of(&shape, &coded, plain_place(frame, byte, bit)?)?;
    let symbol = Symbol::of(frame, &shape, &coded, step.symbol)?;
    Ok(Worked {
        service_bits: plain_place(frame, 0, 0)?,
        frame_bits: coded.plain.len(),
        counts: Counts::of(frame, &shape, &coded, &symbol)?,
        way: Way::of(&shape, &coded, step, symbol)?,
        shape,
    })
}

impl Shape {
    fn of(frame: &Frame) -> Result<Shape, Box<dyn Error>> {
        let settings = frame.for_second();
        let mcs = settings.mcs;
        let symbols = second::symbol_count(&settings).map_err(refused)?;
        same(symbols, frame.symbols()?, "symbols")?;
        Ok(Shape {
            width: settings.width,
            bits_per_carrier: second::bits_per_carrier(mcs),
            encoders: second::encoders(mcs),
            streams: second::streams(mcs),
            rate: second::rate(mcs),
            symbols: symbols as usize,
        })
    }

    /// The part of one symbol, where the list is of the whole frame.
    fn of_symbol<'a, T>(&self, whole: &'a [T], symbol: usize) -> Result<&'a [T], String> {
        let part = whole.len() / self.symbols;
        if part * self.symbols != whole.len() {
            return Err(format!("{} is no number of whole symbols", whole.len()));
        }
        Ok(&whole[symbol * part..][..part])
    }

    fn encoder_inputs(&self, bits: &[u8]) -> Vec<Vec<u8>> {
        (0..self.encoders)
            .map(|encoder| second::encoder_inputs(bits, self.encoders, encoder))
            .collect()
    }

    fn parse_to_streams(&self, coded: &[Vec<u8>]) -> Vec<Vec<u8>> {
        second::deal(coded, self.streams, self.bits_per_carrier)
    }

    fn interleave(&self, streams: &[Vec<u8>]) -> Vec<Vec<u8>> {
        (0..)
            .zip(streams)
            .map(|(stream, bits)| {
                second::interleave(self.width, self.bits_per_carrier, stream, bits)
            })
            .collect()
    }
}

/// Steps 1 to 3, over the frame.
struct Coded {
    plain: Vec<u8>,
    scrambled: Vec<u8>,
    inputs: Vec<Vec<u8>>,
    sums: Vec<Vec<(u8, u8)>>,
    kept: Vec<Vec<u8>>,
}

impl Coded {
    fn of(frame: &Frame, shape: &Shape) -> Result<Coded, String> {
        let settings = frame.for_second();
        let scrambled = second::data_bits(&settings, &frame.payload).map_err(refused)?;
        let inputs = shape.encoder_inputs(&scrambled);
        let sums: Vec<_> = inputs.iter().map(|bits| second::encode(bits)).collect();
        let kept = sums.iter().map(|steps| second::puncture(steps, shape.rate));
        Ok(Coded {
            plain: second::plain_bits(&settings, &frame.payload).map_err(refused)?,
            kept: kept.collect(),
            scrambled,
            inputs,
            sums,
        })
    }
}

/// Steps 4 to 8, of one symbol.
struct Symbol {
    number: usize,
    coded: Vec<Vec<u8>>,
    parsed: Vec<Vec<u8>>,
    interleaved: Vec<Vec<u8>>,
    labels: Vec<Vec<Vec<u8>>>,
    used: Vec<Vec<Used>>,
}

impl Symbol {
    fn of(
        frame: &Frame,
        shape: &Shape,
        frame_coded: &Coded,
        number: usize,
    ) -> Result<Symbol, Box<dyn Error>> {
        let mut coded = Vec::new();
        for kept in &frame_coded.kept {
            coded.push(shape.of_symbol(kept, number)?.to_vec());
        }
        let parsed = shape.parse_to_streams(&coded);
        let interleaved = shape.interleave(&parsed);
        let (mut labels, mut used) = (Vec::new(), Vec::new());
        for (stream, bits) in (0..).zip(&interleaved) {
            let of_stream = second::carrier_labels(bits, shape.bits_per_carrier);
            let core = frame.used(number as u32, stream)?;
            same(mapped(&of_stream), data_points(&core), "data points")?;
            labels.push(of_stream);
            used.push(core);
        }
        Ok(Symbol {
            number,
            coded,
            parsed,
            interleaved,
            labels,
            used,
        })
    }
}

/// The second program's points of labels.
fn mapped(labels: &[Vec<u8>]) -> Vec<[f32; 2]> {
    let points = labels.iter().filter_map(|label| second::point(label));
    points
        .map(|point| [point.first, point.second].map(second::float))
        .collect()
}

/// The core's data points before the turn.
fn data_points(used: &[Used]) -> Vec<[f32; 2]> {
    let data = used.iter().filter(|used| is_data(used));
    data.map(|used| unturned(used.carrier)).collect()
}

fn is_data(used: &Used) -> bool {
    matches!(used.carrier, Carrier::Data { .. })
}

/// A point before the turn, as the one-subcarrier question gives it.
pub fn unturned(carrier: Carrier) -> [f32; 2] {
    match carrier {
        Carrier::Silent => [0.0, 0.0],
        Carrier::Pilot(sign) => [sign, 0.0],
        Carrier::Data { first, second } => [first, second],
        other => panic!("there is no drawing of {other:?}"),
    }
}

impl Counts {
    fn of(
        frame: &Frame,
        shape: &Shape,
        coded: &Coded,
        symbol: &Symbol,
    ) -> Result<Counts, Box<dyn Error>> {
        let number = symbol.number;
        let used = |counted: fn(&Used) -> bool| -> Vec<usize> {
            let streams = symbol.used.iter();
            streams
                .map(|used| used.iter().filter(|used| counted(used)).count())
                .collect()
        };
        let (mut inputs, mut sums) = (Vec::new(), Vec::new());
        for (bits, steps) in coded.inputs.iter().zip(&coded.sums) {
            inputs.push(shape.of_symbol(bits, number)?.len());
            sums.push(2 * shape.of_symbol(steps, number)?.len());
        }
        Ok(Counts {
            data_bits: shape.of_symbol(&coded.plain, number)?.len(),
            scrambled: shape.of_symbol(&coded.scrambled, number)?.len(),
            inputs,
            sums,
            kept: lengths(&symbol.coded),
            parsed: lengths(&symbol.parsed),
            interleaved: lengths(&symbol.interleaved),
            data_points: used(is_data),
            pilots: used(|used| matches!(used.carrier, Carrier::Pilot(_))),
            points: lengths(&symbol.used),
            turned: used(|used| used.point != unturned(used.carrier)),
            floats: frame.floats(number as u32)?.len(),
        })
    }
}

fn lengths<T>(lists: &[Vec<T>]) -> Vec<usize> {
    lists.iter().map(Vec::len).collect()
}

/// A payload bit's place among the data bits: that of a lone 1.
fn plain_place(frame: &Frame, byte: usize, bit: u32) -> Result<usize, String> {
    let mut payload = vec![0; frame.payload.len()];
    payload[byte] = 1 << bit;
    let bits = second::plain_bits(&frame.for_second(), &payload).map_err(refused)?;
    only_one(&[bits]).map(|(_, place)| place)
}

/// A data bit at its encoder: its step, and the one sum that is kept of it, counted over its symbol.
struct Step {
    data_bit: usize,
    encoder: usize,
    number: usize,
    sum: char,
    symbol: usize,
    kept: usize,
}

impl Step {
    fn of(shape: &Shape, coded: &Coded, data_bit: usize) -> Result<Step, String> {
        let mark = lone_one(&[coded.plain.len()], 0, data_bit).concat();
        let (encoder, number) = only_one(&shape.encoder_inputs(&mark))?;
        let mut steps = vec![(0, 0); coded.sums[encoder].len()];
        steps[number] = (1, 1);
        let (_, kept) = only_one(&[second::puncture(&steps, shape.rate)])?;
        let pattern = second::pattern(shape.rate);
        let share = coded.kept[encoder].len() / shape.symbols;
        Ok(Step {
            data_bit,
            encoder,
            number,
            sum: match pattern[kept % pattern.len()] {
                Kept::A(_) => 'A',
                Kept::B(_) => 'B',
            },
            symbol: kept / share,
            kept: kept % share,
        })
    }
}

impl Way {
    /// From its encoder on the bit is followed as a lone 1 that goes through each step.
    fn of(shape: &Shape, coded: &Coded, step: Step, symbol: Symbol) -> Result<Way, String> {
        let Step { encoder, kept, .. } = step;
        let mark = lone_one(&lengths(&symbol.coded), encoder, kept);
        let mark = shape.parse_to_streams(&mark);
        let (stream, stream_bit) = only_one(&mark)?;
        let (_, place) = only_one(&shape.interleave(&mark))?;
        let carrier = place / shape.bits_per_carrier as usize;
        let before: usize = lengths(&symbol.used[..stream]).iter().sum();
        let points = (before..).zip(symbol.used.into_iter().flatten().skip(before));
        let (point, used) = points
            .filter(|(_, used)| is_data(used))
            .nth(carrier)
            .ok_or("the carrier has no point")?;
        Ok(Way {
            payload_bit: coded.plain[step.data_bit],
            data_bit: step.data_bit,
            encoder,
            step: step.number,
            input: coded.inputs[encoder][step.number],
            sum: step.sum,
            coded_bit: symbol.coded[encoder][kept],
            symbol: symbol.number,
            kept,
            stream,
            stream_bit,
            place,
            carrier,
            label: symbol.labels[stream][carrier].clone(),
            used,
            float: 2 * point,
        })
    }
}

/// Lists of zeros, but for a 1 at one place of one of them.
fn lone_one(lengths: &[usize], list: usize, place: usize) -> Vec<Vec<u8>> {
    let mut lists: Vec<Vec<u8>> = lengths.iter().map(|length| vec![0; *length]).collect();
    lists[list][place] = 1;
    lists
}

/// The list and the place of the only 1.
fn only_one(lists: &[Vec<u8>]) -> Result<(usize, usize), String> {
    let bits = (0..).zip(lists).flat_map(|(list, bits)| {
        let places = (0..).zip(bits);
        places.map(move |(place, bit)| (list, place, *bit))
    });
    let ones: Vec<_> = bits.filter(|(_, _, bit)| *bit == 1).collect();
    match ones[..] {
        [(list, place, _)] => Ok((list, place)),
        _ => Err(format!("a lone 1 has become {} of them", ones.len())),
    }
}

#[cfg(test)]
mod tests {
    use super::*;

    #[test]
    fn only_a_lone_one_has_a_place() {
        assert_eq!(only_one(&lone_one(&[3, 4], 1, 2)), Ok((1, 2)));
        assert!(only_one(&[vec![0, 0]]).is_err());
        assert!(only_one(&[vec![1], vec![0, 1]]).is_err());
    }

    /// `work` refuses a symbol in which the two programs differ.
    #[test]
    fn each_symbol_of_the_tour_is_worked() {
        let frame = Frame::of_the_tour();
        // A bit of each symbol, at the last of five encoder steps: one of its sums is kept.
        for (byte, bit) in [(0, 2), (270, 2), (540, 2), (810, 2)] {
            let way = work(&frame, byte, bit).unwrap().way;
            assert_eq!(way.data_bit, 16 + 8 * byte + bit as usize);
            assert_eq!(way.symbol, way.data_bit / 2160);
            assert_eq!(way.payload_bit, frame.payload[byte] >> bit & 1);
        }
        // At the first of five both are.
        assert!(work(&frame, 0, 4).is_err());
    }
}
