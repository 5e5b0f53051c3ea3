//! The crates written to a folder: for each its code, which is empty, its rows in specs/ and its theorems in proofs/.

use crate::given::{GIVEN, READER_GIVEN};
use crate::terms::list;
use crate::theorem::{Crate, Module, Theorem};
use std::fs::{create_dir_all, write};
use std::io::Result;
use std::path::Path;

const CODE: &str =
    "// Definitions beside the second program's values: there is no code here.\n#![tactic(auto)]\n";

const USED: &str = "use Rattle.std.specs.Prelude.{true, false, List, [], ◌∷◌, ℕ, ℤ, pos}
use Rattle.laws.specs.Claim.{Claim, table}
use Rattle.laws.specs.Integers.{minus}
use Rattle.settings.specs.declared.settings.RawSettings.{RawSettings}
use Rattle.settings.specs.declared.settings.Settings.{Settings}
use Rattle.reader_state.specs.declared.state.OpenSettings.{OpenSettings}
use Rattle.reader_state.specs.declared.state.Reader.{Reader}
";

/// The definitions that stay shut unless they are named, by the module that has them.
const SHUT: [(&str, &str); 25] = [
    ("Rattle.std.specs.Float.Ieee", "to_bits of_int of_bits"),
    ("Rattle.chain.specs.Plan", "plan_of"),
    ("Rattle.chain.specs.Scrambler", "state_at seed_of"),
    ("Rattle.chain.specs.DataBits", "data_bit input_with"),
    ("Rattle.chain.specs.Encoder", "tap"),
    ("Rattle.chain.specs.Puncture", "kept_of kept_step"),
    ("Rattle.chain.specs.Parser", "axis_bits encoder_of index_of stream_of bit_of"),
    (
        "Rattle.chain.specs.Interleaver",
        "columns rows rotation block_of by_columns alternated shift_of rotated place source unrotated unalternated by_rows source_form",
    ),
    ("Rattle.chain.specs.Labels", "coded_bit stream_bit label_bit written"),
    (
        "Rattle.chain.specs.Decoder",
        "history_after sum_after coded_after forcing_bit forced_history forced_input inputs_of checks coded_in",
    ),
    ("Rattle.settings.specs.Settings", "plan_for"),
    ("Rattle.symbols.specs.Symbols", "symbols_of"),
    (
        "Rattle.signal.specs.HtSig",
        "head_bits sig_bits sig_bytes field crc_wrong form_wrong fields_in",
    ),
    (
        "Rattle.subcarriers.specs.Subcarriers",
        "used_subcarriers pilot_subcarriers data_subcarriers use_of subcarrier_at",
    ),
    ("Rattle.pilots.specs.Pilots", "pattern_of polarity_bit pilot_sign"),
    ("Rattle.mapper.specs.Levels", "level_of carrier_levels"),
    (
        "Rattle.modulator.specs.Symbol",
        "carried_levels sent_levels stream_level symbol_float",
    ),
    ("Rattle.query.specs.Query", "carried_of"),
    ("Rattle.demapper.specs.Demapped", "level_label negated_label data_given point_bit"),
    (
        "Rattle.detector.specs.Detected",
        "point_given search_of carrier_place_of shown_bit",
    ),
    ("Rattle.decoder.specs.Decoded", "history_moved"),
    ("Rattle.deframer.specs.Deframed", "input_ok framed"),
    ("Rattle.assembler.specs.Assembled", "bits_number known_bit"),
    ("Rattle.reader_state.specs.State", "closed_of"),
    (
        "Rattle.acceptance.specs.Accepted",
        "scrambler_for frame_right bytes_into",
    ),
];

pub fn write_crate(folder: &Path, krate: &Crate) -> Result<()> {
    let root = folder.join(&krate.name);
    for part in ["src", "specs", "proofs"] {
        create_dir_all(root.join(part))?;
    }
    let names: Vec<&str> = krate.modules.iter().map(|m| m.name.as_str()).collect();
    let mut specs = String::from("pub mod Given\npub mod ReaderGiven\n");
    let mut proofs = String::new();
    for name in names {
        specs.push_str(&format!("pub mod {name}\n"));
        proofs.push_str(&format!("pub mod {name}\n"));
    }
    write(root.join("src/lib.rt"), CODE)?;
    write(root.join("specs/Lib.antt"), specs)?;
    write(root.join("specs/Given.antt"), GIVEN)?;
    let reader_given = READER_GIVEN.replace("CRATE", &krate.name);
    write(root.join("specs/ReaderGiven.antt"), reader_given)?;
    write(root.join("proofs/Lib.antt"), proofs)?;
    for module in &krate.modules {
        let file = format!("{}.antt", module.name);
        write(root.join("specs").join(&file), rows(&krate.name, module))?;
        write(root.join("proofs").join(&file), proof(&krate.name, module))?;
    }
    Ok(())
}

/// The claims of a module: for each theorem a table of its rows.
fn rows(krate: &str, module: &Module) -> String {
    let mut text = format!(
        "-- Definitions at arguments, beside the second program's values.\n{USED}use Rattle.{krate}.specs.Given.{{{}}}\nuse Rattle.{krate}.specs.ReaderGiven.{{{}}}\n\n{}",
        names_declared(GIVEN),
        names_declared(READER_GIVEN),
        module.shared
    );
    for theorem in &module.theorems {
        text.push_str(&claim(theorem));
    }
    text
}

/// The names that a text declares as public, with commas.
fn names_declared(text: &str) -> String {
    let names: Vec<&str> = text
        .lines()
        .filter_map(|line| line.strip_prefix("abbrev pub ")?.split(' ').next())
        .collect();
    names.join(", ")
}

fn claim(theorem: &Theorem) -> String {
    let name = &theorem.name;
    let mut text = format!("\nabbrev pub {name} : Claim\n{name} =\n    table (");
    for row in &theorem.rows {
        let expected = list(&row.expected);
        text.push_str(&format!("agree ({}) ({expected})\n    ∷ ", row.given));
    }
    text + "[])\n"
}

/// The theorems of a module, each by its computed test.
fn proof(krate: &str, module: &Module) -> String {
    let mut text = String::from("-- The rows hold, each table by one computed test.\nuse Rattle.laws.specs.Claim.{Holds, sound}\n");
    let mut opened = String::from("unfolding");
    for (home, names) in SHUT {
        text.push_str(&format!("use {home}.{{{}}}\n", names.replace(' ', ", ")));
        opened.push_str(&format!(" {names}"));
    }
    let names: Vec<&str> = module.theorems.iter().map(|t| t.name.as_str()).collect();
    let rows = names.join(", ");
    text.push_str(&format!(
        "use Rattle.{krate}.specs.{}.{{{rows}}}\n",
        module.name
    ));
    for name in names {
        text.push_str(&format!(
            "\npub {name}_agrees : Holds {name}\n{opened}\n{name}_agrees = sound {name} tt\n"
        ));
    }
    text
}
