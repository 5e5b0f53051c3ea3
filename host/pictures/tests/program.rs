//! The program's files, its usage and its errors.

use std::path::{Path, PathBuf};
use std::process::{Command, Output};
use std::{env, fs, process};

/// A new folder outside the repository, removed at the end of the test whether or not it passed.
struct Folder(PathBuf);

impl Folder {
    fn new(name: &str) -> Folder {
        let path = env::temp_dir().join(format!("ht-pictures-{name}-{}", process::id()));
        fs::create_dir(&path).unwrap();
        Folder(path)
    }
}

impl Drop for Folder {
    fn drop(&mut self) {
        let _ = fs::remove_dir_all(&self.0);
    }
}

fn run(arguments: &[&Path]) -> Output {
    Command::new(env!("CARGO_BIN_EXE_pictures"))
        .args(arguments)
        .output()
        .unwrap()
}

fn said(output: &Output) -> (Option<i32>, String) {
    assert!(output.stdout.is_empty());
    let words = String::from_utf8(output.stderr.clone()).unwrap();
    (output.status.code(), words)
}

#[test]
fn writes_what_is_drawn() {
    let folder = Folder::new("drawn");
    assert_eq!(said(&run(&[&folder.0])), (Some(0), String::new()));
    let pictures = pictures::draw_all().unwrap();
    assert_eq!(fs::read_dir(&folder.0).unwrap().count(), pictures.len());
    for picture in pictures {
        let file = fs::read_to_string(folder.0.join(picture.file)).unwrap();
        assert!(file == picture.svg, "{}", picture.file);
    }
}

#[test]
fn one_argument_or_the_usage() {
    let folder = Folder::new("usage");
    let usage = (Some(2), "usage: pictures FOLDER\n".to_string());
    assert_eq!(said(&run(&[])), usage);
    assert_eq!(said(&run(&[&folder.0, &folder.0])), usage);
    assert_eq!(fs::read_dir(&folder.0).unwrap().count(), 0);
}

#[test]
fn an_error_names_the_file() {
    let folder = Folder::new("error");
    let missing = folder.0.join("missing");
    let (code, words) = said(&run(&[&missing]));
    assert_eq!(code, Some(1));
    let file = missing.join("constellation.svg");
    assert!(words.starts_with(&format!("pictures: {}: ", file.display())));
    assert!(!missing.exists());
}
