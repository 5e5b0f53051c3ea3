//! Writes, to the folder given, crates whose theorems say that the definitions give the values that the second program gives.
//! With `--spoil` one number of each theorem is wrong, so that a check has to refuse every one.

#![forbid(unsafe_code)]

mod frame;
mod frame_values;
mod given;
mod heard;
mod random;
mod reader_values;
mod settings_values;
mod table_values;
mod terms;
#[cfg(test)]
mod tests;
mod theorem;
mod write;

use std::path::Path;
use std::process::ExitCode;
use theorem::Crate;

fn main() -> ExitCode {
    let arguments: Vec<String> = std::env::args().skip(1).collect();
    let (folder, spoil) = match arguments.iter().map(String::as_str).collect::<Vec<_>>()[..] {
        [folder] => (folder, false),
        [folder, "--spoil"] => (folder, true),
        _ => {
            eprintln!("usage: definition_values FOLDER [--spoil]");
            return ExitCode::from(2);
        }
    };
    for mut krate in crates() {
        if spoil {
            krate.spoil();
        }
        if let Err(error) = write::write_crate(Path::new(folder), &krate) {
            eprintln!("definition_values: {}: {error}", krate.name);
            return ExitCode::FAILURE;
        }
        println!("{} {} {}", krate.name, krate.theorems(), krate.values());
    }
    ExitCode::SUCCESS
}

fn crates() -> Vec<Crate> {
    let mut all = frame_values::crates();
    all.extend(reader_values::crates());
    all.extend(table_values::crates());
    all.extend(settings_values::crates());
    all
}
