//! Independent second program of the 802.11n (HT) signal core.
//!
//! It is written bit by bit from document 01, in the most literal way, so that
//! another implementation can be compared with it. It is not meant to be fast.
//! Every function ends without a panic on every input.
//!
//! One module for each topic of document 01:
//!
//! - `refusal`: "Numbered refusals", the numbers by name
//! - `settings`: "Settings", the raw numbers and refusals 1 to 5
//! - `rates`: "Settings", what follows from width and MCS, and the symbol count
//! - `crc`: EWC 3.6.3, the register of the HT-SIG check bits
//! - `sig`: "Signal bits", HT-SIG written and read
//! - `listing`: "Checked by hand", the printing program
//! - `scrambler`: "From payload to points", step 1, the register
//! - `data_bits`: step 1, the data bits of a whole frame
//! - `encoder`: step 2, the encoders and their inputs
//! - `puncture`: step 3, what is kept of A and B
//! - `parser`: step 4, a symbol's bits dealt to the streams
//! - `interleaver`: step 5, the three permutations of EWC 4.4.2
//! - `chain`: steps 1 to 5 together, the label bits of a symbol
//! - `mapper`: step 6, the levels of a label
//! - `carriers`: step 7, the subcarriers of a width
//! - `pilots`: step 7, tables 11 and 12 and the polarity
//! - `points`: step 8, and the points of a symbol in the order of the slice
//! - `question`: the one-subcarrier question, before step 8
//! - `reader`: the strict reader, its start and its step, refusals 12, 8 and 11
//! - `point_tables`: refusal 9, the points that the rules give
//! - `code_search`: refusal 10, the encoder inputs that give the coded bits
//! - `whole_frame`: the strict reader over all symbols of a frame in one slice

#![forbid(unsafe_code)]

pub mod carriers;
pub mod chain;
pub mod code_search;
pub mod crc;
pub mod data_bits;
pub mod encoder;
pub mod interleaver;
pub mod listing;
pub mod mapper;
pub mod parser;
pub mod pilots;
pub mod point_tables;
pub mod points;
pub mod puncture;
pub mod question;
pub mod rates;
pub mod reader;
pub mod refusal;
#[cfg(test)]
mod samples;
pub mod scrambler;
pub mod settings;
pub mod sig;
pub mod whole_frame;

pub use carriers::{data_subcarriers, pilot_subcarriers, question_range, used_subcarriers};
pub use chain::{
    carrier_labels, check_symbol, coded_frame, frame_labels, own_labels, symbol_labels,
};
pub use code_search::{kept_bits, names_at_places, search, search_inputs, Found, Name};
pub use crc::crc8;
pub use data_bits::{data_bits, data_bits_from, plain_bits};
pub use encoder::{encode, encoder_inputs, Encoder};
pub use interleaver::{columns, interleave, place, rotation, rotation_factor, rows};
pub use listing::listing;
pub use mapper::{level, point, Point};
pub use parser::{axis_bits, deal};
pub use pilots::{pilot, pilot_pattern, polarity, polarity_offset};
pub use point_tables::{data_table, pilot_table, read_labels, Entry};
pub use points::{float, floats_per_symbol, frame_points, points, symbol_levels, turn, turned};
pub use puncture::{pattern, puncture, Kept};
pub use question::{carrier, Carrier};
pub use rates::{
    bits_per_carrier, block, coded_bits_per_symbol, data_bits_per_symbol, data_carriers, encoders,
    rate, streams, symbol_count,
};
pub use reader::{reader_place, reader_start, reader_step, Answer, OpenSettings, State};
pub use scrambler::{register, scramble, scrambler_sequence, Register};
pub use settings::{check, Settings};
pub use sig::{sig_read, sig_write, SigFields};
pub use whole_frame::{read_frame, FrameAnswer};
