//! crates.txt: its layers by their headings, each crate with those that it lists, and whether there is code in it.

use std::collections::BTreeSet;
use std::fs;
use std::path::Path;

pub const ROOT: &str = concat!(env!("CARGO_MANIFEST_DIR"), "/../..");

pub struct Layer {
    pub heading: String,
    pub crates: Vec<Crate>,
}

pub struct Crate {
    pub name: String,
    /// Crates, and libraries of the kit, which no layer has.
    pub needs: Vec<String>,
    /// Some crates have only definitions and laws.
    pub has_code: bool,
}

/// The repository's layers.
pub fn read() -> Result<Vec<Layer>, String> {
    let root = Path::new(ROOT);
    let mut layers = layers(&read_text(&root.join("crates.txt"))?)?;
    for one in layers.iter_mut().flat_map(|layer| &mut layer.crates) {
        one.has_code = has_code(&root.join("crates").join(&one.name).join("src"))?;
    }
    Ok(layers)
}

fn read_text(path: &Path) -> Result<String, String> {
    fs::read_to_string(path).map_err(|error| format!("{}: {error}", path.display()))
}

/// Whether a source file has more than comments and attributes of the whole, or one of a folder has.
fn has_code(path: &Path) -> Result<bool, String> {
    if !path.is_dir() {
        let text = read_text(path)?;
        let mut lines = text.lines().map(str::trim);
        return Ok(lines.any(|line| {
            !line.is_empty() && !["//", "#!["].iter().any(|start| line.starts_with(start))
        }));
    }
    let failed = |error| format!("{}: {error}", path.display());
    for entry in fs::read_dir(path).map_err(failed)? {
        if has_code(&entry.map_err(failed)?.path())? {
            return Ok(true);
        }
    }
    Ok(false)
}

/// The layers in the file's order, which does not say where code is. A heading is a comment between an empty line and a crate;
/// other comments are none.
pub fn layers(text: &str) -> Result<Vec<Layer>, String> {
    let mut layers: Vec<Layer> = Vec::new();
    let (mut after_empty, mut heading) = (true, String::new());
    for line in text.lines() {
        let (listed, comment) = line.split_once('#').unwrap_or((line, ""));
        if line.trim().is_empty() {
            (after_empty, heading) = (true, String::new());
        } else if let Some((name, needs)) = listed.split_once(':') {
            if after_empty {
                layers.push(Layer {
                    heading: std::mem::take(&mut heading),
                    crates: Vec::new(),
                });
            }
            let layer = layers.last_mut().filter(|layer| !layer.heading.is_empty());
            let layer = layer.ok_or(format!("crates.txt: {name} has no heading"))?;
            // Words after the name say what kind of library it is: `capi staticlib: ..`.
            layer.crates.push(Crate {
                name: name.split_whitespace().next().unwrap_or("").to_string(),
                needs: needs.split_whitespace().map(str::to_string).collect(),
                has_code: true,
            });
            after_empty = false;
        } else if after_empty {
            heading = format!("{heading} {}", comment.trim()).trim().to_string();
        }
    }
    rising(&layers)?;
    Ok(layers)
}

/// Each crate stands once, and after all crates that it needs.
fn rising(layers: &[Layer]) -> Result<(), String> {
    let all: Vec<&Crate> = layers.iter().flat_map(|layer| &layer.crates).collect();
    for (index, one) in all.iter().enumerate() {
        let later = &all[index..];
        let misplaced = |need: &String| later.iter().any(|other| other.name == *need);
        if one.needs.iter().any(misplaced) || later[1..].iter().any(|o| o.name == one.name) {
            return Err(format!(
                "crates.txt: {} stands in the wrong place",
                one.name
            ));
        }
    }
    Ok(())
}

pub fn find<'a>(layers: &'a [Layer], name: &str) -> Result<&'a Crate, String> {
    let mut crates = layers.iter().flat_map(|layer| &layer.crates);
    crates
        .find(|one| one.name == name)
        .ok_or(format!("crates.txt has no crate {name}"))
}

/// A crate and all that it needs.
pub fn closure(layers: &[Layer], name: &str) -> Result<BTreeSet<String>, String> {
    let mut wanted = BTreeSet::from([find(layers, name)?.name.clone()]);
    // What a crate needs stands before it.
    for one in layers.iter().rev().flat_map(|l| l.crates.iter().rev()) {
        if wanted.contains(&one.name) {
            let crates = one.needs.iter().filter(|need| find(layers, need).is_ok());
            wanted.extend(crates.cloned());
        }
    }
    Ok(wanted)
}

#[cfg(test)]
mod tests {
    use super::*;
    use std::process::Command;

    const TEXT: &str = "# About the file,
# in two lines.

# Below
a:
b: a libc # a: why

# Above,
# all of it
c: b
# a word about d
d: a io
";

    fn refusal(text: &str) -> String {
        layers(text).err().unwrap()
    }

    #[test]
    fn layers_by_their_headings() {
        let layers = layers(TEXT).unwrap();
        let shown: Vec<String> = layers
            .iter()
            .map(|layer| {
                let crates = layer.crates.iter();
                let crates = crates.map(|one| format!("{}({})", one.name, one.needs.join(" ")));
                format!(
                    "{}: {}",
                    layer.heading,
                    crates.collect::<Vec<_>>().join(" ")
                )
            })
            .collect();
        assert_eq!(
            shown,
            ["Below: a() b(a libc)", "Above, all of it: c(b) d(a io)"]
        );
    }

    #[test]
    fn a_static_library_has_its_name_alone() {
        let layers = layers("# One\na:\nb staticlib: a\n").unwrap();
        let b = find(&layers, "b").ok().unwrap();
        assert_eq!(
            (b.name.as_str(), &b.needs[..]),
            ("b", &["a".to_string()][..])
        );
    }

    /// The same by the script that the repository uses for it.
    #[test]
    fn closures_are_those_of_scripts_closure() {
        let layers = read().unwrap();
        for name in ["laws", "frame", "reader", "published", "capi"] {
            let script = Path::new(ROOT).join("scripts/closure");
            let printed = Command::new(script).arg(name).output().unwrap();
            assert!(printed.status.success());
            let printed = String::from_utf8(printed.stdout).unwrap();
            let want: BTreeSet<String> = printed.lines().map(str::to_string).collect();
            assert_eq!(closure(&layers, name), Ok(want));
        }
    }

    #[test]
    fn code_is_told_from_comments() {
        let layers = read().unwrap();
        let has_code = |name| find(&layers, name).unwrap().has_code;
        assert!(["frame", "reader", "chain", "capi"]
            .into_iter()
            .all(has_code));
        assert!(!["laws", "verdicts", "demands"].into_iter().any(has_code));
    }

    #[test]
    fn a_closure_has_crates_alone() {
        let layers = layers(TEXT).unwrap();
        let of = |name| -> Vec<String> { closure(&layers, name).unwrap().into_iter().collect() };
        assert_eq!(of("c"), ["a", "b", "c"]);
        assert_eq!(of("d"), ["a", "d"]);
        assert!(closure(&layers, "libc").is_err());
    }

    #[test]
    fn what_cannot_be_drawn_is_an_error() {
        assert_eq!(refusal("a:\n"), "crates.txt: a has no heading");
        let without_heading = format!("{TEXT}\ne:\n");
        assert_eq!(refusal(&without_heading), "crates.txt: e has no heading");
        for text in ["# One\na: b\nb:\n", "# One\na: a\n", "# One\na:\na:\n"] {
            assert_eq!(refusal(text), "crates.txt: a stands in the wrong place");
        }
    }
}
