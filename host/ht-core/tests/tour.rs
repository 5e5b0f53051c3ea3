//! The numbers of docs/TOUR.md: one payload bit on its way to two floats, stop by stop.

use ht_core::{carrier, points, read_frame, symbol_count, Carrier, Settings, Width, MAX_FLOATS};

fn settings() -> Settings {
    Settings::new(Width::Mhz40, 31, 1000, 93)
        .smoothing(false)
        .not_sounding(false)
}

/// The same settings for the second program.
const SECOND: second::Settings = second::Settings {
    width: 40,
    mcs: 31,
    format: 0,
    length: 1000,
    seed: 93,
    smoothing: false,
    not_sounding: false,
    aggregation: false,
    short_guard: false,
};

fn payload() -> Vec<u8> {
    (0..1000u32).map(|j| (7 * j + 1) as u8).collect()
}

#[test]
fn stops_1_and_2_plan_and_data_bit() {
    assert_eq!(symbol_count(settings()), Ok(4));
    assert_eq!(second::rates::streams(31), 4);
    assert_eq!(second::rates::bits_per_carrier(31), 6);
    assert_eq!(second::rates::rate(31), (5, 6));
    assert_eq!(second::rates::encoders(31), 2);
    assert_eq!(second::rates::data_carriers(40), 108);
    assert_eq!(second::rates::block(40, 31), 648);
    assert_eq!(second::rates::data_bits_per_symbol(40, 31), 2160);
    let payload = payload();
    assert_eq!(payload[520], 0x39);
    let plain = second::data_bits::plain_bits(&SECOND, &payload).unwrap();
    assert_eq!(16 + 8 * 520 + 3, 4179);
    assert_eq!(plain[4179], 1);
    assert_eq!(4179 / 2160, 1);
}

#[test]
fn stops_3_to_5_scrambler_encoder_and_puncturing() {
    let outputs = second::scrambler::scrambler_sequence(93, 4180);
    assert_eq!(outputs[4179], 1);
    let bits = second::data_bits::data_bits(&SECOND, &payload()).unwrap();
    assert_eq!(bits[4179], 0);
    let inputs = second::encoder::encoder_inputs(&bits, 2, 1);
    let before: Vec<u8> = (1..=6).map(|k| inputs[2089 - k]).collect();
    assert_eq!((4179 % 2, 4179 / 2), (1, 2089));
    assert_eq!((inputs[2089], before), (0, vec![0, 0, 1, 0, 1, 0]));
    let (_, b) = second::encoder::encode(&inputs)[2089];
    assert_eq!(b, 1);
    // The last of five steps: its B stands last of the six bits of its group.
    assert_eq!((2089 / 5, 2089 % 5), (417, 4));
    assert_eq!(6 * 417 + 5, 2507);
    let coded = second::chain::coded_frame(&SECOND, &payload()).unwrap();
    assert_eq!(coded[1][2507], b);
    assert_eq!(2507 - 1296, 1211);
}

#[test]
fn stops_6_to_8_parser_interleaver_and_label() {
    // Each coded bit by its own name, dealt like the bits.
    let names: Vec<Vec<(u32, u32)>> = (0..2)
        .map(|encoder| (0..1296).map(|bit| (encoder, bit)).collect())
        .collect();
    let dealt = second::parser::deal(&names, 4, 6);
    assert_eq!(dealt[3][605], (1, 1211));
    assert_eq!(second::interleaver::place(40, 6, 3, 605), Some(556));
    let (columns, rows, s) = (18, 36, 3);
    let by_columns = rows * (605 % columns) + 605 / columns;
    assert_eq!(by_columns, 429);
    let alternated = s * (429 / s) + (429 + 648 - columns * 429 / 648) % s;
    assert_eq!(alternated, 430);
    let block = second::rates::block(40, 31);
    assert_eq!(block, 648);
    assert_eq!((430 + 648 - 3 * 29 * 6) % 648, 556);
    assert_eq!((556 / 6, 556 % 6), (92, 4));
    let labels = second::chain::symbol_labels(&SECOND, &payload(), 1).unwrap();
    assert_eq!(labels[3][92 * 6..93 * 6], [1, 0, 1, 0, 1, 1]);
    assert_eq!(second::mapper::level(&[1, 0, 1]), Some(5));
    assert_eq!(second::mapper::level(&[0, 1, 1]), Some(-3));
}

#[test]
fn stops_9_and_10_subcarrier_turn_and_floats() {
    assert_eq!(second::data_subcarriers(40)[92], 42);
    assert_eq!(second::used_subcarriers(40)[97], 42);
    let payload = payload();
    assert_eq!(
        carrier(settings(), &payload, 1, 3, 42),
        Ok(Carrier::Data {
            first: 5.0,
            second: -3.0
        })
    );
    let mut out = [0.0; MAX_FLOATS];
    assert_eq!(points(settings(), &payload, 1, &mut out), Ok(912));
    assert_eq!(3 * 228 + 2 * 97, 878);
    assert_eq!(out[878].to_bits(), 0x4040_0000);
    assert_eq!(out[879].to_bits(), 0x40A0_0000);
    assert_eq!((out[878], out[879]), (3.0, 5.0));
}

#[test]
fn and_back() {
    let payload = payload();
    let mut frame = vec![0.0; 4 * 912];
    for (symbol, floats) in (0..).zip(frame.chunks_mut(912)) {
        assert_eq!(points(settings(), &payload, symbol, floats), Ok(912));
    }
    let mut read = vec![0; 1000];
    assert_eq!(read_frame(settings(), &frame, &mut read), Ok(93));
    assert_eq!(read, payload);
}
