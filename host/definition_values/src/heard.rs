//! A symbol before the reader, right or of other inputs: what the second program makes of it.

use crate::frame::Frame;
use crate::terms::open;
use second::carriers::{pilot_subcarriers, used_subcarriers};
use second::chain::carrier_labels;
use second::code_search::{search, Found};
use second::encoder::{encoder_inputs, Encoder};
use second::interleaver::interleave;
use second::parser::deal;
use second::point_tables::{data_table, pilot_table, read_labels};
use second::points::{floats_per_symbol, points};
use second::puncture::puncture;
use second::rates::{bits_per_carrier, encoders, rate, streams};
use second::reader::{reader_start, reader_step, OpenSettings, State};

/// The settings, the state that the earlier symbols leave, and the symbol's floats.
#[derive(Clone)]
pub struct Heard {
    pub open: OpenSettings,
    pub state: State,
    pub floats: Vec<f32>,
}

/// Symbol n of the frame, after the second program has read the symbols before it.
pub fn heard(frame: &Frame, n: u64) -> Heard {
    let s = &frame.settings;
    let open = open(s);
    let mut state = reader_start(&open).expect("accepted");
    let mut payload = vec![0; frame.payload.len()];
    let mut floats = vec![0.0; floats_per_symbol(s.width, s.mcs) as usize];
    for before in 0..n {
        points(s, &frame.payload, before, &mut floats).expect("accepted");
        (_, state) = reader_step(&open, &state, &floats, &mut payload);
    }
    points(s, &frame.payload, n, &mut floats).expect("accepted");
    Heard {
        open,
        state,
        floats,
    }
}

impl Heard {
    /// The label bits of each stream; all points are the rules'.
    pub fn labels(&self) -> Vec<Vec<u8>> {
        let o = &self.open;
        read_labels(o.width, o.mcs, o.format, self.state.symbol, &self.floats)
            .expect("no wrong point")
    }

    fn encoders_before(&self) -> [Encoder; 2] {
        self.state.history.map(|history| {
            let mut encoder = Encoder::at_zero();
            for oldest_first in (0..6).rev() {
                encoder.step((history >> oldest_first) as u8 % 2);
            }
            encoder
        })
    }

    /// The inputs that give the symbol, and the encoders after them.
    pub fn found(&self) -> Option<Found> {
        let before = self.encoders_before();
        search(self.open.width, self.open.mcs, &before, &self.labels())
    }

    /// The same state before a symbol of other inputs.
    pub fn with_inputs(&self, inputs: &[u8]) -> Heard {
        let o = &self.open;
        let (nes, b) = (encoders(o.mcs), bits_per_carrier(o.mcs));
        let mut parts = Vec::new();
        for (j, mut encoder) in (0..nes).zip(self.encoders_before()) {
            let own = encoder_inputs(inputs, nes, j);
            let steps: Vec<(u8, u8)> = own.iter().map(|bit| encoder.step(*bit)).collect();
            parts.push(puncture(&steps, rate(o.mcs)));
        }
        let mut floats = Vec::new();
        for (i, bits) in (0..).zip(deal(&parts, streams(o.mcs), b)) {
            let label_bits = interleave(o.width, b, i, &bits);
            floats.extend(self.stream_floats(i, &carrier_labels(&label_bits, b)));
        }
        Heard {
            floats,
            ..self.clone()
        }
    }

    /// A stream's floats, each point looked up among those that the rules give.
    fn stream_floats(&self, i: u32, labels: &[Vec<u8>]) -> Vec<f32> {
        let o = &self.open;
        let pilots = pilot_subcarriers(o.width);
        let mut data = labels.iter();
        let mut floats = Vec::new();
        for z in used_subcarriers(o.width) {
            let entry = match pilots.iter().position(|pilot| *pilot == z) {
                Some(q) => {
                    let n = self.state.symbol;
                    pilot_table(o.width, streams(o.mcs), i, o.format, n, q as u32).pop()
                }
                None => {
                    let label = data.next().expect("a label");
                    let mut table = data_table(o.width, bits_per_carrier(o.mcs), z).into_iter();
                    table.find(|entry| entry.label == *label)
                }
            };
            let entry = entry.expect("a point of the rules");
            floats.extend([entry.first, entry.second].map(f32::from_bits));
        }
        floats
    }
}
