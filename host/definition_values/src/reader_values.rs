//! The reader's values: of a symbol of each MCS and width what its points show and its coded bits force, and of short symbols more,
//! damaged ones among them.

use crate::frame::{frame, symbols, Frame, SYMBOLS};
use crate::heard::{heard, Heard};
use crate::random::Random;
use crate::terms::{counted, list, open, open_settings, settings, state};
use crate::theorem::{Crate, Module, Row, Theorem};
use second::code_search::kept_bits;
use second::rates::{data_bits_per_symbol, encoders, rate};
use second::reader::{reader_place, reader_start, reader_step, Answer, State};
use second::settings::Settings;

/// The definitions go over a symbol's inputs again and again, so only short symbols are computed whole: in data bits, the longest
/// from its label bits on, and from its inputs on.
const FROM_LABELS: u32 = 26;
const FROM_INPUTS: u32 = 216;

pub fn crates() -> Vec<Crate> {
    let of_width = |width| Crate {
        name: format!("reader_{width}_mhz"),
        modules: (0..32).map(|mcs| module(mcs, width)).collect(),
        alike: true,
    };
    [20, 40].map(of_width).into()
}

fn module(mcs: u32, width: u32) -> Module {
    let frame = frame(mcs, width);
    let mut random = Random::of(3000 + 100 * mcs + width);
    let mut theorems = vec![Theorem::new("start", vec![start(&frame)])];
    let mut shared = shared(&frame);
    let data_bits = data_bits_per_symbol(width, mcs);
    for n in 0..SYMBOLS {
        let heard = heard(&frame, n);
        shared.push_str(&shared_symbol(n, &heard));
        let mut add = |name: &str, rows| theorems.push(Theorem::new(format!("{name}_{n}"), rows));
        if n == u64::from(mcs) % SYMBOLS {
            add("shown", shown(n, &heard, &mut random));
            add("forced", forced(n, &heard, &mut random));
            add("places", places(n, &heard, &mut random));
        }
        if data_bits <= FROM_INPUTS {
            for (name, inputs) in inputs(n, &heard) {
                let other = heard.with_inputs(&inputs);
                add(&format!("{name}_inputs"), from_inputs(n, &other, &inputs));
                if data_bits <= FROM_LABELS {
                    add(&format!("{name}_labels"), from_labels(n, &other));
                }
            }
        }
        if data_bits <= FROM_LABELS {
            add("wrong_code", wrong_codes(n, &heard, &mut random));
            add("refused_steps", refused_steps(&frame, &heard));
        }
    }
    Module {
        name: format!("Mcs{mcs}"),
        shared,
        theorems,
    }
}

fn shared(frame: &Frame) -> String {
    // 1 stands for the seed that the reader does not know.
    let unknown = Settings {
        seed: 1,
        ..frame.settings
    };
    format!(
        "abbrev pub o : OpenSettings\no = {}\n\nabbrev pub s : Settings\ns = {}\n",
        open_settings(&open(&frame.settings)),
        settings(&unknown)
    )
}

fn shared_symbol(n: u64, heard: &Heard) -> String {
    format!(
        "\nabbrev pub st{n} : Reader\nst{n} = {}\n\nabbrev pub points{n} : List ℕ\npoints{n} = {}\n\nabbrev pub labels{n} : List ℕ\nlabels{n} = {}\n",
        state("o", &heard.state),
        list(&float_bits(&heard.floats)),
        list(&heard.labels().concat())
    )
}

fn float_bits(floats: &[f32]) -> Vec<u32> {
    floats.iter().map(|level| level.to_bits()).collect()
}

fn start(frame: &Frame) -> Row {
    let state = reader_start(&open(&frame.settings)).expect("accepted");
    let mut expected = vec![0];
    expected.extend(state_numbers(&state));
    Row::new("start_at o".into(), expected)
}

/// Label bits as the points show them, two of each stream.
fn shown(n: u64, heard: &Heard, random: &mut Random) -> Vec<Row> {
    let mut rows = Vec::new();
    for (i, label) in heard.labels().iter().enumerate() {
        let rs = random.some_below(2, label.len() as u64);
        rows.push(Row::new(
            format!("shown_at s points{n} {i} ({})", list(&rs)),
            rs.iter().map(|r| u64::from(label[*r as usize])).collect(),
        ));
    }
    rows
}

/// Coded bits among the label bits, the first inputs that they force after the state's histories, and what these give of the first
/// bits of the first groups.
fn forced(n: u64, heard: &Heard, random: &mut Random) -> Vec<Row> {
    let (width, mcs) = (heard.open.width, heard.open.mcs);
    let kept = kept_bits(width, mcs, &heard.labels()).expect("whole labels");
    let (_, each) = rate(mcs);
    let groups: Vec<u64> = (0..4).collect();
    let mut rows = Vec::new();
    for (j, kept) in kept.iter().enumerate() {
        let bit = |y: u64| u64::from(kept[y as usize]);
        let ys = random.some_below(6, kept.len() as u64);
        rows.push(Row::new(
            format!("coded_in_at s labels{n} {j} ({})", list(&ys)),
            ys.iter().map(|y| bit(*y)).collect(),
        ));
        rows.push(Row::new(
            format!("first_coded_at s st{n} labels{n} {j} ({})", list(&groups)),
            groups.iter().map(|g| bit(g * u64::from(each))).collect(),
        ));
    }
    let found = heard.found().expect("a right symbol");
    let ds: Vec<usize> = (0..14).collect();
    rows.push(Row::new(
        format!("heard_at s st{n} labels{n} ({})", list(&ds)),
        ds.iter().map(|d| u64::from(found.bits[*d])).collect(),
    ));
    rows
}

/// The floats with one of them made wrong.
fn damaged(heard: &Heard, random: &mut Random) -> Vec<f32> {
    let mut floats = heard.floats.clone();
    let g = random.below(floats.len() as u64) as usize;
    floats[g] = random.one_of(&[-0.0, 2.0, f32::NAN, f32::INFINITY, 0.5]);
    floats
}

/// The place of the first wrong point: of none, and of one that is damaged.
fn places(n: u64, heard: &Heard, random: &mut Random) -> Vec<Row> {
    [heard.floats.clone(), damaged(heard, random)]
        .map(|floats| {
            let expected = match reader_place(&heard.open, &heard.state, &floats) {
                Ok(None) => vec![0],
                Ok(Some((stream, z))) => vec![9, u64::from(stream), counted(i64::from(z))],
                Err(number) => vec![u64::from(number)],
            };
            let given = format!("first_wrong_at st{n} ({})", list(&float_bits(&floats)));
            Row::new(given, expected)
        })
        .into()
}

/// The symbol's inputs; with a payload bit turned over, which is another frame; with a service, tail or pad bit turned over; and at
/// symbol 0 those that would show seed 0.
fn inputs(n: u64, heard: &Heard) -> Vec<(&'static str, Vec<u8>)> {
    let right = heard.found().expect("a right symbol").bits;
    let first = n * right.len() as u64;
    let payload = 16..16 + 8 * u64::from(heard.open.length);
    let turned = |d: usize| {
        let mut inputs = right.clone();
        inputs[d] ^= 1;
        inputs
    };
    let places = |in_payload| {
        let payload = payload.clone();
        (0..right.len()).filter(move |d| payload.contains(&(first + *d as u64)) == in_payload)
    };
    let mut all = vec![("right", right.clone())];
    all.extend(places(true).next_back().map(|d| ("payload", turned(d))));
    all.extend(
        places(false)
            .find(|d| n > 0 || *d == 9)
            .map(|d| ("first", turned(d))),
    );
    all.extend(places(false).next_back().map(|d| ("last", turned(d))));
    if n == 0 {
        let mut zeros = right.clone();
        zeros[..7].fill(0);
        all.push(("no_seed", zeros));
    }
    all
}

fn state_numbers(state: &State) -> [u64; 6] {
    [
        state.symbol,
        u64::from(state.ended),
        state.history[0],
        state.history[1],
        state.scrambler,
        state.part,
    ]
}

fn step_numbers(answer: Answer, after: &State) -> Vec<u64> {
    let mut numbers = match answer {
        Answer::Accepted { seed } => vec![0, u64::from(seed), 0, 0],
        Answer::Point { stream, subcarrier } => {
            vec![9, 0, u64::from(stream), counted(i64::from(subcarrier))]
        }
        Answer::Refused(number) => vec![u64::from(number), 0, 0, 0],
    };
    numbers.extend(state_numbers(after));
    numbers
}

/// The second program's step: the lent bytes, the answer with the state, and the bytes afterwards.
fn stepped(heard: &Heard) -> (String, Vec<u64>, Vec<u64>) {
    let mut payload: Vec<u8> = (0..heard.open.length)
        .map(|j| 200 + (j % 50) as u8)
        .collect();
    let lent = list(&payload);
    let (answer, after) = reader_step(&heard.open, &heard.state, &heard.floats, &mut payload);
    let bytes = payload.iter().map(|byte| u64::from(*byte)).collect();
    (lent, step_numbers(answer, &after), bytes)
}

/// The step from a symbol's label bits on.
fn from_labels(n: u64, heard: &Heard) -> Vec<Row> {
    let (lent, answer, bytes) = stepped(heard);
    let labels = list(&heard.labels().concat());
    vec![
        Row::new(format!("code_at s st{n} ({labels})"), answer),
        Row::new(format!("code_bytes_at s st{n} ({labels}) ({lent})"), bytes),
    ]
}

/// The step from a symbol's inputs on, which give these histories.
fn from_inputs(n: u64, heard: &Heard, inputs: &[u8]) -> Vec<Row> {
    let (lent, answer, bytes) = stepped(heard);
    let nes = encoders(heard.open.mcs) as usize;
    let mut histories = heard.state.history;
    for (j, history) in histories.iter_mut().enumerate().take(nes) {
        for bit in inputs.iter().skip(j).step_by(nes) {
            *history = (2 * *history + u64::from(*bit)) % 64;
        }
    }
    let given = format!("s st{n} ({}) ({})", list(inputs), list(&histories));
    vec![
        Row::new(format!("frame_at {given}"), answer),
        Row::new(format!("frame_bytes_at {given} ({lent})"), bytes),
    ]
}

/// One data carrier's level turned over, at three carriers: no inputs give these coded bits, or others do.
fn wrong_codes(n: u64, heard: &Heard, random: &mut Random) -> Vec<Row> {
    let mut rows = Vec::new();
    // No pilot stands at the first seven places.
    for place in random.some_below(3, 7) {
        let mut other = heard.clone();
        let level = &mut other.floats[2 * place as usize];
        *level = -*level;
        rows.extend(from_labels(n, &other));
    }
    rows
}

/// The whole step where it ends before the code: refusals 12, 8 and 9.
fn refused_steps(frame: &Frame, heard: &Heard) -> Vec<Row> {
    let right = heard.state;
    let mut states = vec![right; 7];
    states[1].ended = true;
    states[2].symbol = symbols(&frame.settings);
    states[3].history = [64, 0];
    states[4].history = [0, 64];
    (states[5].symbol, states[5].scrambler) = (1, 0);
    states[6].part = 128;
    let mut rows: Vec<Row> = states[1..]
        .iter()
        .map(|state| whole_step(heard, state, &heard.floats, heard.open.length))
        .collect();
    let few = &heard.floats[1..];
    rows.push(whole_step(heard, &right, few, heard.open.length));
    rows.push(whole_step(
        heard,
        &right,
        &heard.floats,
        heard.open.length - 1,
    ));
    let mut random = Random::of(heard.state.symbol as u32);
    for _ in 0..3 {
        let floats = damaged(heard, &mut random);
        rows.push(whole_step(heard, &right, &floats, heard.open.length));
    }
    rows
}

fn whole_step(heard: &Heard, before: &State, floats: &[f32], bytes: u32) -> Row {
    let mut payload = vec![0; bytes as usize];
    let (answer, after) = reader_step(&heard.open, before, floats, &mut payload);
    let given = format!(
        "step_at ({}) ({}) {bytes}",
        state("o", before),
        list(&float_bits(floats))
    );
    Row::new(given, step_numbers(answer, &after))
}
