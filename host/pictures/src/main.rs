//! Writes the pictures to the folder that its one argument names.

use std::path::Path;
use std::process::ExitCode;
use std::{env, fs};

fn main() -> ExitCode {
    let mut arguments = env::args_os().skip(1);
    let (Some(folder), None) = (arguments.next(), arguments.next()) else {
        eprintln!("usage: pictures FOLDER");
        return ExitCode::from(2);
    };
    match write_all(Path::new(&folder)) {
        Ok(()) => ExitCode::SUCCESS,
        Err(reason) => {
            eprintln!("pictures: {reason}");
            ExitCode::FAILURE
        }
    }
}

/// All pictures are drawn before the first is written: a refusal leaves the folder as it was.
fn write_all(folder: &Path) -> Result<(), String> {
    for picture in pictures::draw_all().map_err(|error| error.to_string())? {
        let path = folder.join(picture.file);
        fs::write(&path, picture.svg).map_err(|error| format!("{}: {error}", path.display()))?;
    }
    Ok(())
}
