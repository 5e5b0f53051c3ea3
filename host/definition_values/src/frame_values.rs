//! A frame's values, one module for each MCS and width: data bits, coded bits, labels, floats, and the answers of the calls.

use crate::frame::{frame, symbols, Frame, SYMBOLS};
use crate::random::Random;
use crate::terms::{integer, list, settings};
use crate::theorem::{Crate, Module, Row, Theorem};
use second::carriers::{pilot_subcarriers, question_range, used_subcarriers};
use second::chain::{coded_frame, symbol_labels};
use second::data_bits::{data_bits, plain_bits};
use second::parser::{axis_bits, deal};
use second::points::points;
use second::question::{carrier, Carrier};
use second::rates::{bits_per_carrier, block, data_carriers, encoders, rate, streams};
use second::rates::{coded_bits_per_symbol, data_bits_per_symbol};

/// One crate for each width and number of streams, those that take longest first.
pub fn crates() -> Vec<Crate> {
    let mut all = Vec::new();
    for width in [40, 20] {
        for streams in (1..=4).rev() {
            let mcs = (streams - 1) * 8..streams * 8;
            all.push(Crate {
                name: format!("frames_{width}_mhz_{streams}_streams"),
                modules: mcs.map(|mcs| module(mcs, width)).collect(),
                alike: true,
            });
        }
    }
    all
}

pub fn module(mcs: u32, width: u32) -> Module {
    let frame = frame(mcs, width);
    let mut random = Random::of(1000 * mcs + width);
    let mut theorems = vec![
        Theorem::new("plan", vec![plan(&frame)]),
        Theorem::new("data_bits", data_bit_rows(&frame, &mut random)),
        Theorem::new("points_answers", points_answers(&frame)),
    ];
    for n in 0..SYMBOLS {
        let mut add = |name, rows| theorems.push(Theorem::new(format!("{name}_{n}"), rows));
        add("coded", coded(&frame, n, &mut random));
        add("labels", labels(&frame, n, &mut random));
        add("questions", questions(&frame, n, &mut random));
        for i in 0..streams(mcs) {
            let name = format!("floats_{n}_{i}");
            let row = floats(&frame, n, i, &mut random);
            theorems.push(Theorem::new(name, vec![row]));
        }
    }
    theorems.push(Theorem::new("refused_questions", refused_questions(&frame)));
    Module {
        name: format!("Mcs{mcs}"),
        shared: shared(&frame),
        theorems,
    }
}

fn shared(frame: &Frame) -> String {
    format!(
        "abbrev pub s : Settings\ns = {0}\n\nabbrev pub a : RawSettings\na = {0}\n\nabbrev pub payload : List ℕ\npayload = {1}\n",
        settings(&frame.settings),
        list(&frame.payload)
    )
}

fn plan(frame: &Frame) -> Row {
    let (width, mcs) = (frame.settings.width, frame.settings.mcs);
    let (_, kept) = rate(mcs);
    let numbers = [
        width,
        streams(mcs),
        bits_per_carrier(mcs),
        kept,
        encoders(mcs),
        data_carriers(width),
        block(width, mcs),
        coded_bits_per_symbol(width, mcs),
        data_bits_per_symbol(width, mcs),
    ];
    Row::new(
        "plan_at s".into(),
        numbers.into_iter().map(u64::from).collect(),
    )
}

/// Values of a list at some places.
fn at(values: &[u8], places: &[u64]) -> Vec<u64> {
    places
        .iter()
        .map(|place| u64::from(values[*place as usize]))
        .collect()
}

/// Around the ends of service, payload, tail and frame, and at random places.
fn data_bit_rows(frame: &Frame, random: &mut Random) -> Vec<Row> {
    let plain = plain_bits(&frame.settings, &frame.payload).expect("accepted");
    let inputs = data_bits(&frame.settings, &frame.payload).expect("accepted");
    let count = plain.len() as u64;
    let payload_end = 16 + 8 * u64::from(frame.settings.length);
    let tail_end = payload_end + 6 * u64::from(encoders(frame.settings.mcs));
    let mut ds = random.some_below(4, count);
    for end in [0, 16, payload_end, tail_end, count] {
        ds.extend((end.saturating_sub(1)..=end).filter(|d| *d < count));
    }
    vec![
        Row::new(
            format!("plain_at s payload ({})", list(&ds)),
            at(&plain, &ds),
        ),
        Row::new(
            format!("inputs_at s payload ({})", list(&ds)),
            at(&inputs, &ds),
        ),
    ]
}

/// The coded bits of each encoder in symbol n.
fn parts(frame: &Frame, n: u64) -> Vec<Vec<u8>> {
    let coded = coded_frame(&frame.settings, &frame.payload).expect("accepted");
    let mcs = frame.settings.mcs;
    let share = (coded_bits_per_symbol(frame.settings.width, mcs) / encoders(mcs)) as usize;
    let from = n as usize * share;
    coded
        .iter()
        .map(|kept| kept[from..from + share].to_vec())
        .collect()
}

/// The first coded bit, which earlier inputs show in, the last one, and two between.
fn coded(frame: &Frame, n: u64, random: &mut Random) -> Vec<Row> {
    let mut rows = Vec::new();
    for (j, part) in parts(frame, n).iter().enumerate() {
        let share = part.len() as u64;
        let mut ys = vec![0, share - 1];
        ys.extend(random.some_below(2, share));
        rows.push(Row::new(
            format!("coded_at s payload {n} {j} ({})", list(&ys)),
            at(part, &ys),
        ));
    }
    rows
}

/// Of each stream a bit out of the parser and a half label; of one stream a bit of the interleaved block.
fn labels(frame: &Frame, n: u64, random: &mut Random) -> Vec<Row> {
    let mcs = frame.settings.mcs;
    let b = bits_per_carrier(mcs);
    let axis = axis_bits(b) as usize;
    let dealt = deal(&parts(frame, n), streams(mcs), b);
    let labels = symbol_labels(&frame.settings, &frame.payload, n).expect("accepted");
    let row = |what: &str, i: usize, place: u64, expected: u64| {
        let given = format!("{what} s payload {n} {i} ({place} ∷ [])");
        Row::new(given, vec![expected])
    };
    let mut rows = Vec::new();
    for (i, (dealt, label)) in dealt.iter().zip(&labels).enumerate() {
        let size = label.len() as u64;
        let k = random.below(size);
        let m = random.below(size / axis as u64);
        rows.push(row("stream_bits_at", i, k, u64::from(dealt[k as usize])));
        rows.push(row("halves_at", i, m, half(label, axis, m as usize)));
    }
    let i = random.below(labels.len() as u64) as usize;
    let r = random.below(labels[i].len() as u64);
    rows.push(row("label_bits_at", i, r, u64::from(labels[i][r as usize])));
    rows
}

/// Half m of a stream's labels: `axis` bits, the first the highest.
fn half(label: &[u8], axis: usize, m: usize) -> u64 {
    label[m * axis..(m + 1) * axis]
        .iter()
        .fold(0, |number, bit| 2 * number + u64::from(*bit))
}

/// A pilot, a data carrier below 0 and one above.
fn some_subcarriers(width: u32, random: &mut Random) -> [i64; 3] {
    let pilots = pilot_subcarriers(width);
    let used = used_subcarriers(width);
    let (data, _): (Vec<i64>, Vec<i64>) = used.iter().partition(|z| !pilots.contains(z));
    let (below, above): (Vec<i64>, Vec<i64>) = data.iter().partition(|z| **z < 0);
    [
        random.one_of(&pilots),
        random.one_of(&below),
        random.one_of(&above),
    ]
}

/// A level of a pilot, of a data carrier below 0 and of one above in stream i, the first and the second in turn; more of each where
/// there are fewer than three streams.
fn floats(frame: &Frame, n: u64, i: u32, random: &mut Random) -> Row {
    let used = used_subcarriers(frame.settings.width);
    let mut out = vec![0.0; used.len() * 8];
    points(&frame.settings, &frame.payload, n, &mut out).expect("accepted");
    let mut gs = Vec::new();
    for round in 0..4 / streams(frame.settings.mcs) {
        let zs = some_subcarriers(frame.settings.width, random);
        for (turn, z) in (n as usize + (i + round) as usize..).zip(zs) {
            let place = used.iter().position(|used| *used == z).expect("used");
            gs.push(2 * (i as usize * used.len() + place) + turn % 2);
        }
    }
    let expected = gs.iter().map(|g| u64::from(out[*g].to_bits())).collect();
    Row::new(format!("floats_at s payload {n} ({})", list(&gs)), expected)
}

/// What the question answers, as the numbers that the row's definition gives.
fn answered(answer: Result<Carrier, u32>) -> Vec<u64> {
    let (kind, first, second) = match answer {
        Ok(Carrier::Silent) => (0, 0.0, 0.0),
        Ok(Carrier::Pilot(sign)) => (1, sign, 0.0),
        Ok(Carrier::Data(first, second)) => (2, first, second),
        Err(number) => return vec![u64::from(number)],
    };
    let bits = |level: f32| u64::from(level.to_bits());
    vec![0, kind, bits(first), bits(second)]
}

fn question(frame: &Frame, payload: &[u8], n: u64, i: u64, z: i64) -> Row {
    let name = if payload.is_empty() { "[]" } else { "payload" };
    Row::new(
        format!("question_at a {name} {n} {i} {}", integer(z)),
        answered(carrier(&frame.settings, payload, n, i, z)),
    )
}

/// A pilot, a data carrier, below 0 and above in turn, and a silent subcarrier, each of some stream.
fn questions(frame: &Frame, n: u64, random: &mut Random) -> Vec<Row> {
    let width = frame.settings.width;
    let (lowest, highest) = question_range(width).expect("a width");
    let used = used_subcarriers(width);
    let silent: Vec<i64> = (lowest..=highest).filter(|z| !used.contains(z)).collect();
    let [pilot, below, above] = some_subcarriers(width, random);
    let data = if (n + u64::from(frame.settings.mcs)).is_multiple_of(2) {
        below
    } else {
        above
    };
    let streams = u64::from(streams(frame.settings.mcs));
    [pilot, data, random.one_of(&silent)]
        .map(|z| question(frame, &frame.payload, n, random.below(streams), z))
        .into()
}

/// Refusals 6 and 7, and the last places that are none.
fn refused_questions(frame: &Frame) -> Vec<Row> {
    let (lowest, highest) = question_range(frame.settings.width).expect("a width");
    let streams = u64::from(streams(frame.settings.mcs));
    let count = symbols(&frame.settings);
    let payload = &frame.payload;
    vec![
        question(frame, &[], 0, 0, 1),
        question(frame, payload, count, 0, 1),
        question(frame, payload, count - 1, streams, 1),
        question(frame, payload, count - 1, streams - 1, lowest - 1),
        question(frame, payload, count - 1, streams - 1, lowest),
        question(frame, payload, count - 1, streams - 1, highest),
        question(frame, payload, count - 1, streams - 1, highest + 1),
    ]
}

/// The points call: refusals 6, 7, 8, and the number of floats, with just enough room.
fn points_answers(frame: &Frame) -> Vec<Row> {
    let length = frame.payload.len();
    let count = symbols(&frame.settings);
    let floats =
        2 * used_subcarriers(frame.settings.width).len() * streams(frame.settings.mcs) as usize;
    let mut rows = Vec::new();
    for (bytes, symbol, room) in [
        (length - 1, count, floats - 1),
        (length, count, floats - 1),
        (length, count - 1, floats - 1),
        (length, count - 1, floats),
    ] {
        let mut out = vec![0.0; room];
        let answer = points(&frame.settings, &frame.payload[..bytes], symbol, &mut out);
        let expected = match answer {
            Ok(written) => vec![0, written as u64],
            Err(number) => vec![u64::from(number)],
        };
        rows.push(Row::new(
            format!("points_at a {bytes} {symbol} {room}"),
            expected,
        ));
    }
    rows
}
