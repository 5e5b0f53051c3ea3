//! Values that know no frame, one crate for each width: scrambler, parser, interleaver, levels, subcarriers and pilots, most of them whole.

use crate::random::Random;
use crate::terms::{counted, integers, list};
use crate::theorem::{Crate, Module, Row, Theorem};
use second::carriers::{data_subcarriers, pilot_subcarriers, question_range, used_subcarriers};
use second::interleaver::place;
use second::mapper::level;
use second::parser::{axis_bits, deal};
use second::pilots::pilot;
use second::rates::{
    bits_per_carrier, block, coded_bits_per_symbol, data_carriers, encoders, streams,
};
use second::scrambler::{register, scrambler_sequence};

/// MCS 0, 1, 3 and 5 of each number of streams have the four numbers of bits per carrier.
const MCS_OF_BITS: [u32; 4] = [0, 1, 3, 5];

pub fn crates() -> Vec<Crate> {
    [20, 40].map(crate_of).into()
}

fn crate_of(width: u32) -> Crate {
    let mut modules = vec![
        module("Interleaver", interleaver(width)),
        module("Parser", parser(width)),
        module("Subcarriers", subcarriers(width)),
        module("Pilots", pilots(width)),
    ];
    // What knows no width stands in one of the two.
    if width == 20 {
        modules.push(module("Scrambler", scrambler()));
        modules.push(module("Levels", vec![levels()]));
    }
    Crate {
        name: format!("tables_{width}_mhz"),
        modules,
        alike: false,
    }
}

fn module(name: &str, theorems: Vec<Theorem>) -> Module {
    Module {
        name: name.into(),
        shared: String::new(),
        theorems,
    }
}

/// Every bit's place and every place's bit in closed form; some places' bits by the search that defines them.
fn interleaver(width: u32) -> Vec<Theorem> {
    let mut random = Random::of(width);
    let mut theorems = Vec::new();
    for b in [1, 2, 4, 6] {
        for stream in 0..4 {
            let size = u64::from(data_carriers(width) * b);
            let all: Vec<u64> = (0..size).collect();
            let place = |k: &u64| u64::from(place(width, b, stream, *k as u32).expect("a place"));
            let places: Vec<u64> = all.iter().map(place).collect();
            let mut sources = vec![0; all.len()];
            for (k, r) in (0..).zip(&places) {
                sources[*r as usize] = k;
            }
            let some = random.some_below(12, size);
            let found = some.iter().map(|r| sources[*r as usize]).collect();
            let row = |what: &str, at: &[u64], expected: Vec<u64>| {
                let given = format!("{what} {width} {b} {stream} ({})", list(at));
                Row::new(given, expected)
            };
            theorems.push(Theorem::new(
                format!("interleaver_{b}_{stream}"),
                vec![
                    row("places_at", &all, places),
                    row("sources_at", &some, found),
                    row("source_forms_at", &all, sources),
                ],
            ));
        }
    }
    theorems
}

/// Every bit of every stream by its encoder and number, and the other way: the second program deals the names themselves.
fn parser(width: u32) -> Vec<Theorem> {
    let mut theorems = Vec::new();
    for first in [0, 8, 16, 24] {
        for mcs in MCS_OF_BITS.map(|m| first + m) {
            let b = bits_per_carrier(mcs);
            let numbers = [axis_bits(b), streams(mcs), encoders(mcs)];
            let [s, nss, nes] = numbers.map(u64::from);
            let share = u64::from(coded_bits_per_symbol(width, mcs)) / nes;
            let names: Vec<Vec<(u64, u64)>> = (0..nes)
                .map(|j| (0..share).map(|y| (j, y)).collect())
                .collect();
            let mut back = vec![vec![0; 2 * share as usize]; nes as usize];
            let mut rows = Vec::new();
            for (i, dealt) in deal(&names, nss as u32, b).iter().enumerate() {
                let ks: Vec<u64> = (0..u64::from(block(width, mcs))).collect();
                let expected = dealt.iter().flat_map(|(j, y)| [*j, *y]).collect();
                rows.push(Row::new(
                    format!("parsed_at {s} {nss} {nes} {i} ({})", list(&ks)),
                    expected,
                ));
                for (k, (j, y)) in (0..).zip(dealt) {
                    back[*j as usize][2 * *y as usize] = i as u64;
                    back[*j as usize][2 * *y as usize + 1] = k;
                }
            }
            let ys: Vec<u64> = (0..share).collect();
            for (j, expected) in back.into_iter().enumerate() {
                rows.push(Row::new(
                    format!("unparsed_at {s} {nss} {nes} {j} ({})", list(&ys)),
                    expected,
                ));
            }
            theorems.push(Theorem::new(format!("parser_{b}_{nss}"), rows));
        }
    }
    theorems
}

/// The use of every subcarrier that the question takes, and the subcarrier at every place.
fn subcarriers(width: u32) -> Vec<Theorem> {
    let (lowest, highest) = question_range(width).expect("a width");
    let zs: Vec<i64> = (lowest..=highest).collect();
    let place = |list: &[i64], z: i64| list.iter().position(|y| *y == z);
    let (pilots, data) = (pilot_subcarriers(width), data_subcarriers(width));
    let mut uses = Vec::new();
    for z in &zs {
        uses.extend(match (place(&pilots, *z), place(&data, *z)) {
            (Some(q), _) => [1, q as u64],
            (_, Some(c)) => [2, c as u64],
            _ => [0, 0],
        });
    }
    let used = used_subcarriers(width);
    let fs: Vec<usize> = (0..used.len()).collect();
    vec![
        Theorem::new(
            "uses",
            vec![Row::new(
                format!("uses_at {width} ({})", integers(&zs)),
                uses,
            )],
        ),
        Theorem::new(
            "subcarriers",
            vec![Row::new(
                format!("subcarriers_at {width} ({})", list(&fs)),
                used.iter().map(|z| counted(*z)).collect(),
            )],
        ),
    ]
}

/// Every row of the pilots' tables in both formats, over the pattern's turns and the polarity's period.
fn pilots(width: u32) -> Vec<Theorem> {
    let places: Vec<u64> = (0..pilot_subcarriers(width).len() as u64).collect();
    let symbols = [0, 1, 2, 3, 4, 5, 6, 7, 60, 123, 124, 125, 126, 127, 20165];
    let mut theorems = Vec::new();
    for nss in 1..=4 {
        for format in [0, 1] {
            let mut rows = Vec::new();
            for (i, n) in (0..nss).flat_map(|i| symbols.map(|n| (i, n))) {
                let sign = |q: &u64| pilot(width, nss, i, format, n, *q as u32).expect("a pilot");
                rows.push(Row::new(
                    format!(
                        "pilots_at {width} {nss} {format} {n} {i} ({})",
                        list(&places)
                    ),
                    places.iter().map(|q| counted(i64::from(sign(q)))).collect(),
                ));
            }
            theorems.push(Theorem::new(format!("pilots_{nss}_{format}"), rows));
        }
    }
    theorems
}

/// Of every seed the first outputs, the state after them and the seed that seven of them show; of three seeds more than a period.
fn scrambler() -> Vec<Theorem> {
    let first: Vec<u64> = (0..16).collect();
    let mut rows = Vec::new();
    for seed in 1..128 {
        let outputs = scrambler_sequence(seed, 16);
        let mut after = register(seed);
        for _ in 0..16 {
            after.step();
        }
        let wide: Vec<u64> = outputs.iter().map(|bit| u64::from(*bit)).collect();
        let seven = list(&outputs[..7]);
        rows.push(Row::new(
            format!("scrambler_bits_at {seed} ({})", list(&first)),
            wide,
        ));
        rows.push(Row::new(
            format!("states_at {seed} (16 ∷ [])"),
            vec![u64::from(after.number())],
        ));
        rows.push(Row::new(
            format!("seed_at ({seven})"),
            vec![u64::from(seed)],
        ));
    }
    let period: Vec<u64> = (0..130).collect();
    let mut long = Vec::new();
    for seed in [1, 93, 127] {
        let outputs = scrambler_sequence(seed, 130);
        long.push(Row::new(
            format!("scrambler_bits_at {seed} ({})", list(&period)),
            outputs.iter().map(|bit| u64::from(*bit)).collect(),
        ));
    }
    vec![
        Theorem::new("scrambler_starts", rows),
        Theorem::new("scrambler_periods", long),
    ]
}

/// The level of every label of one, two and three bits.
fn levels() -> Theorem {
    let mut rows = Vec::new();
    for s in 1..=3 {
        let labels: Vec<u64> = (0..1 << s).collect();
        let level_of = |label: &u64| {
            let bits: Vec<u8> = (0..s).rev().map(|t| (label >> t) as u8 % 2).collect();
            counted(i64::from(level(&bits).expect("a level")))
        };
        let expected = labels.iter().map(level_of).collect();
        rows.push(Row::new(
            format!("levels_at {s} ({})", list(&labels)),
            expected,
        ));
    }
    Theorem::new("levels", rows)
}
