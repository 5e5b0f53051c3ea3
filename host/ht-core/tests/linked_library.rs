//! What is linked, and what is not. A package that uses ht-core is built for itself, with a stub in place of the core that
//! ends the program where any of its calls but `ht_abi` is reached; and with folders that have no library or not the right
//! one. Each goes through cargo, this crate's build script and the C compiler, as a user's program does.

#[path = "common/every_call.rs"]
mod every_call;

use every_call::{outcomes, EVERY_CALL};
use std::collections::BTreeSet;
use std::fs;
use std::os::unix::process::ExitStatusExt;
use std::path::{Path, PathBuf};
use std::process::{Command, Output};

const HERE: &str = env!("CARGO_MANIFEST_DIR");
const DECLARATIONS: &str = include_str!("../../ht-core-sys/src/lib.rs");
const SIGABRT: i32 = 6;

/// The word after some text in each line that begins with it.
fn names_after<'a>(text: &'a str, start: &'a str) -> impl Iterator<Item = &'a str> {
    text.lines()
        .filter_map(move |line| line.strip_prefix(start))
        .map(|rest| rest.split(['(', '<']).next().unwrap())
}

fn run(command: &mut Command) -> Output {
    command
        .output()
        .unwrap_or_else(|error| panic!("{command:?}: {error}"))
}

fn text(bytes: &[u8]) -> String {
    String::from_utf8_lossy(bytes).into_owned()
}

/// The hash of the sources that stand here.
fn sources_hash() -> String {
    let output = run(&mut Command::new(
        Path::new(HERE).join("../../scripts/sources-hash"),
    ));
    assert!(output.status.success(), "{}", text(&output.stderr));
    text(&output.stdout).trim().to_string()
}

/// A package that depends on this crate, with a library folder and a target folder of its own.
struct Package {
    folder: PathBuf,
}

impl Package {
    fn new(name: &str) -> Package {
        let folder = Path::new(env!("CARGO_TARGET_TMPDIR")).join(name);
        // What an earlier run has left may be older or newer than the sources.
        let _ = fs::remove_dir_all(&folder);
        fs::create_dir_all(folder.join("src")).unwrap();
        fs::create_dir_all(folder.join("lib")).unwrap();
        let package = Package { folder };
        package.write(
            "Cargo.toml",
            &format!(
                "[package]\nname = \"user\"\nversion = \"0.1.0\"\nedition = \"2021\"\n\n\
                 [workspace]\n\n[dependencies]\nht-core = {{ path = {HERE:?} }}\n"
            ),
        );
        package.write(
            "src/main.rs",
            &format!(
                "#[path = {:?}]\nmod every_call;\n\nfn main() {{\n    \
                 for line in every_call::outcomes() {{\n        println!(\"{{line}}\");\n    }}\n}}\n",
                Path::new(HERE).join("tests/common/every_call.rs")
            ),
        );
        package
    }

    fn write(&self, file: &str, content: &str) {
        fs::write(self.folder.join(file), content).unwrap();
    }

    fn library_folder(&self) -> PathBuf {
        self.folder.join("lib")
    }

    /// A library with every declared call. `ht_abi` gives the number that is in the environment; any other call says
    /// its name and ends the program.
    fn stub(&self) {
        let mut source = String::from(
            "#include <stdint.h>\n#include <stdio.h>\n#include <stdlib.h>\n\
             int64_t ht_abi(void) { return strtoll(getenv(\"STUB_ABI\"), NULL, 10); }\n",
        );
        let calls: Vec<&str> = names_after(DECLARATIONS, "    pub fn ").collect();
        assert!(calls.contains(&"ht_abi") && calls.contains(&"ht_read_frame"));
        for call in calls.iter().filter(|call| **call != "ht_abi") {
            source += &format!(
                "int64_t {call}(void) {{ fputs(\"reached {call}\\n\", stderr); abort(); }}\n"
            );
        }
        self.write("stub.c", &source);
        let object = self.folder.join("stub.o");
        let mut compile = Command::new("cc");
        compile.args(["-std=c11", "-Wall", "-Wextra", "-Werror", "-c", "-o"]);
        compile.arg(&object).arg(self.folder.join("stub.c"));
        let archive = self.library_folder().join("libht_core.a");
        for command in [
            &mut compile,
            Command::new("ar").arg("rcs").arg(archive).arg(&object),
        ] {
            let output = run(command);
            assert!(output.status.success(), "{}", text(&output.stderr));
        }
    }

    /// What cargo says beside, where it passes.
    fn passes(&self, subcommand: &str) -> String {
        let output = self.cargo(subcommand, &self.library_folder());
        let said = text(&output.stderr);
        assert!(output.status.success(), "{subcommand}: {said}");
        said
    }

    fn cargo(&self, subcommand: &str, library_folder: &Path) -> Output {
        run(Command::new(env!("CARGO"))
            .args([subcommand, "--offline", "--manifest-path"])
            .arg(self.folder.join("Cargo.toml"))
            .arg("--target-dir")
            .arg(self.folder.join("target"))
            .env("HT_CORE_LIB_DIR", library_folder)
            .env("CARGO_TERM_COLOR", "never"))
    }

    fn run_with_abi(&self, abi: i64) -> Output {
        run(Command::new(self.folder.join("target/debug/user")).env("STUB_ABI", abi.to_string()))
    }

    /// Building fails, with these words as a warning and as an error.
    fn links_not(&self, library_folder: &Path, words: &str) {
        let output = self.cargo("build", library_folder);
        let said = text(&output.stderr);
        assert!(!output.status.success());
        let line = |start: &str, words: &str| {
            let mut lines = said.lines();
            lines.any(|line| line.starts_with(start) && line.contains(words))
        };
        assert!(line("warning: ht-core-sys@", words), "{said}");
        // The name of a library has no colon.
        assert!(line("error: ", &words.replace(':', ",")), "{said}");
        assert!(!self.folder.join("target/debug/user").exists());
    }
}

/// A library of another ABI number is refused by every call before any of its own is reached.
#[test]
fn a_library_of_another_abi() {
    let package = Package::new("another_abi");
    package.stub();
    package.write("lib/BUILT_FROM", &format!("sources {}\n", sources_hash()));
    package.passes("build");

    let declared = ht_core_sys::HT_CORE_ABI;
    for linked in [declared + 1, declared - 1, -1, i64::MAX] {
        let output = package.run_with_abi(linked);
        let (said, errors) = (text(&output.stdout), text(&output.stderr));
        assert!(output.status.success(), "{said}{errors}");
        assert!(!errors.contains("reached"), "{errors}");
        let mut lines = said.lines();
        let checked = format!(
            "check_library: Err(WrongLibrary {{ linked: {linked}, declared: {declared} }})"
        );
        assert_eq!(lines.next(), Some(&checked[..]));
        let words = format!(
            "the linked HT core has the calls of ABI {linked}, and ht-core calls those of ABI {declared}: \
             build the library with scripts/dist from the sources that ht-core comes with, and link that one"
        );
        for (name, ..) in EVERY_CALL {
            assert_eq!(lines.next(), Some(&format!("{name}: {words}")[..]));
        }
        assert_eq!(lines.next(), None);
    }

    // With the right number the same program gets to the stub's first call: the check is what kept it away.
    let output = package.run_with_abi(declared);
    assert_eq!(text(&output.stdout), "");
    assert_eq!(text(&output.stderr), "reached ht_symbol_count\n");
    assert_eq!(output.status.signal(), Some(SIGABRT));
}

/// The same calls by the library that the tests are linked with.
#[test]
fn the_right_library() {
    let mut want = vec!["check_library: Ok(())".to_string()];
    want.extend(EVERY_CALL.map(|(name, _, answer)| format!("{name}: {answer}")));
    assert_eq!(outcomes(), want);
}

/// `EVERY_CALL` has every public function of the crate but the check itself, and those of a `Reader` that was started.
#[test]
fn every_call_is_there() {
    let mut public = BTreeSet::from(["Reader::start".to_string()]);
    for file in fs::read_dir(Path::new(HERE).join("src")).unwrap() {
        let path = file.unwrap().path();
        let module = path.file_stem().unwrap().to_str().unwrap();
        let prefix = if module == "raw" { "raw::" } else { "" };
        let source = fs::read_to_string(&path).unwrap();
        public.extend(names_after(&source, "pub fn ").map(|name| format!("{prefix}{name}")));
    }
    assert!(public.remove("check_library"));
    let called = BTreeSet::from(EVERY_CALL.map(|(name, ..)| name.to_string()));
    assert_eq!(called, public);
}

#[test]
fn a_folder_without_a_library() {
    let package = Package::new("no_library");
    let folder = package.library_folder();
    let words = format!(
        "{}/libht_core.a is missing: run scripts/dist, or name the library's folder in HT_CORE_LIB_DIR",
        folder.display()
    );
    package.links_not(&folder, &words);
    package.passes("check");
    package.passes("doc");
    package.links_not(
        Path::new("target/dist/lib"),
        "HT_CORE_LIB_DIR is target/dist/lib, which is no absolute path: cargo builds in other folders",
    );
}

/// A library of other sources, of sources that nothing says, or with other calls; then the same one, said to be of these.
#[test]
fn a_library_of_other_sources() {
    let package = Package::new("other_sources");
    package.stub();
    let folder = package.library_folder();
    let archive = folder.join("libht_core.a");
    let unknown = format!(
        "{} has no BUILT_FROM with it, which says what it was built from: run scripts/dist",
        archive.display()
    );
    package.links_not(&folder, &unknown);

    let stale = format!(
        "{} is stale, built from other sources than those that stand here: run scripts/dist",
        archive.display()
    );
    let now = sources_hash();
    for other in ["", "commit 0\n", &format!("sources {}\n", &now[1..])] {
        package.write("BUILT_FROM", other);
        package.links_not(&folder, &stale);
    }
    package.passes("check");

    let declared = ht_core_sys::HT_CORE_ABI;
    let other = format!(
        "{} has the calls of ABI 11, and ht-core-sys declares those of ABI {declared}: run scripts/dist",
        archive.display()
    );
    package.write("BUILT_FROM", &format!("sources {now}\nabi 11\n"));
    package.links_not(&folder, &other);

    package.write("BUILT_FROM", &format!("abi {declared}\nsources {now}\n"));
    let said = package.passes("build");
    assert!(!said.contains("warning"), "{said}");
}
