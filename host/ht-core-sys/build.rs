//! Takes the header's numbers, and links the library that `scripts/dist` writes.
//!
//! A library that cannot be linked is no error here: a check, clippy and the documentation need none. Its place is taken by
//! the name of a library that does not exist and says what is wrong, so that linking stops with these words.

use std::env;
use std::fs;
use std::path::{Path, PathBuf};
use std::process::Command;

/// The defines of the header that are constants of this crate, with their types and what they are.
const DEFINES: [(&str, &str, &str); 3] = [
    (
        "HT_CORE_ABI",
        "i64",
        "The number of the set of calls that this crate declares.",
    ),
    (
        "HT_MAX_FLOATS",
        "usize",
        "The most floats that one symbol has: four streams at 40 MHz.",
    ),
    (
        "HT_NO_PLACE",
        "u64",
        "What [`ht_reader_place`] gives where every point passes.",
    ),
];

fn main() {
    let repository = fs::canonicalize(concat!(env!("CARGO_MANIFEST_DIR"), "/../.."))
        .expect("this crate stands in host/ of the repository");
    let include = repository.join("host/include");
    let header = include.join("ht_core.h");
    watch(&header);
    let defines = read(&header);
    let out = PathBuf::from(env::var_os("OUT_DIR").expect("cargo names OUT_DIR"));
    fs::write(out.join("header.rs"), constants(&defines)).expect("OUT_DIR can be written");
    println!("cargo:include={}", include.display());

    println!("cargo:rerun-if-env-changed=HT_CORE_LIB_DIR");
    let folder = env::var_os("HT_CORE_LIB_DIR")
        .filter(|folder| !folder.is_empty())
        .map(PathBuf::from)
        .unwrap_or_else(|| repository.join("target/dist/lib"));
    match library(&folder, &repository, define(&defines, "HT_CORE_ABI")) {
        Ok(root) => {
            println!("cargo:root={}", root.display());
            println!("cargo:rustc-link-search=native={}", folder.display());
            println!("cargo:rustc-link-lib=static=ht_core");
        }
        Err(wrong) => {
            println!("cargo:warning={wrong}");
            // In the name of a library a colon and an equals sign mean something else.
            let name = wrong.replace(':', ",").replace('=', " ");
            println!("cargo:rustc-link-lib=static={name}");
        }
    }
}

/// The number that the header defines under a name.
fn define(header: &str, name: &str) -> u64 {
    header
        .lines()
        .find_map(|line| {
            let mut words = line.split_whitespace();
            let named = words.next() == Some("#define") && words.next() == Some(name);
            words.next().filter(|_| named)?.parse().ok()
        })
        .unwrap_or_else(|| panic!("ht_core.h has no line `#define {name} NUMBER`"))
}

/// The defines as Rust constants.
fn constants(header: &str) -> String {
    DEFINES
        .iter()
        .map(|(name, kind, words)| {
            let value = define(header, name);
            format!("/// {words}\npub const {name}: {kind} = {value};\n")
        })
        .collect()
}

/// The package's folder, where the library in `folder` is there, has the calls of this ABI and is built from the sources
/// that stand here; else what is wrong and what to do.
fn library(folder: &Path, repository: &Path, abi: u64) -> Result<PathBuf, String> {
    if !folder.is_absolute() {
        return Err(format!(
            "HT_CORE_LIB_DIR is {}, which is no absolute path: cargo builds in other folders",
            folder.display()
        ));
    }
    let archive = folder.join("libht_core.a");
    watch(&archive);
    if !archive.is_file() {
        return Err(format!(
            "{} is missing: run scripts/dist, or name the library's folder in HT_CORE_LIB_DIR",
            archive.display()
        ));
    }
    let root = [Some(folder), folder.parent()]
        .into_iter()
        .flatten()
        .find(|root| root.join("BUILT_FROM").is_file())
        .ok_or_else(|| {
            watch(&folder.join("BUILT_FROM"));
            format!(
                "{} has no BUILT_FROM with it, which says what it was built from: run scripts/dist",
                archive.display()
            )
        })?;
    watch(&root.join("BUILT_FROM"));
    let built_from = read(&root.join("BUILT_FROM"));
    let said = |key: &str| {
        let mut lines = built_from.lines().filter_map(|line| line.split_once(' '));
        lines.find_map(|(name, value)| (name == key).then_some(value))
    };
    if let Some(other) = said("abi").filter(|number| *number != abi.to_string()) {
        return Err(format!(
            "{} has the calls of ABI {other}, and ht-core-sys declares those of ABI {abi}: run scripts/dist",
            archive.display()
        ));
    }

    // Without the sources, as in a package, there is nothing to compare with.
    let script = repository.join("scripts/sources-hash");
    if script.is_file() && repository.join("crates").is_dir() {
        for covered in ["crates.txt", "scripts/closure", "scripts/sources-hash"] {
            watch(&repository.join(covered));
        }
        // Not a crate's out/, which every check writes.
        let crates = fs::read_dir(repository.join("crates")).map_err(|error| error.to_string())?;
        for one in crates.flatten() {
            for part in ["src", "specs", "proofs"] {
                let part = one.path().join(part);
                if part.is_dir() {
                    watch(&part);
                }
            }
        }
        let now = sources_hash(&script)?;
        if said("sources") != Some(&now) {
            return Err(format!(
                "{} is stale, built from other sources than those that stand here: run scripts/dist",
                archive.display()
            ));
        }
    }
    Ok(root.to_path_buf())
}

fn sources_hash(script: &Path) -> Result<String, String> {
    let failed = |why: String| format!("{} does not run: {why}", script.display());
    let output = Command::new(script)
        .output()
        .map_err(|error| failed(error.to_string()))?;
    if !output.status.success() {
        let said = String::from_utf8_lossy(&output.stderr);
        return Err(failed(said.trim().replace('\n', ", ")));
    }
    Ok(String::from_utf8_lossy(&output.stdout).trim().to_string())
}

fn watch(path: &Path) {
    println!("cargo:rerun-if-changed={}", path.display());
}

fn read(path: &Path) -> String {
    fs::read_to_string(path).unwrap_or_else(|error| panic!("{}: {error}", path.display()))
}
