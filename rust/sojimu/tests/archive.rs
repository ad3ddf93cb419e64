//! Which archive is linked, by build.rs and by the linker: a copy of this package is built where there is another one, or none.

use std::fs::{self, File};
use std::path::{Path, PathBuf};
use std::process::Command;
use std::time::{Duration, SystemTime};

/// A copy of this package at `rust/sojimu` in a folder of its own, two folders deep, so that all places are inside. It is outside the
/// repository, where the gate takes no source but the crates', and goes with its test.
struct Copy {
    outside: PathBuf,
}

/// What a build gave: whether it ended well, and what was said.
struct Built {
    well: bool,
    said: String,
}

impl Copy {
    /// One with nothing beside it.
    fn new(name: &str) -> Copy {
        let outside =
            std::env::temp_dir().canonicalize().unwrap().join(format!("sojimu-archive-{name}-{}", std::process::id()));
        fs::remove_dir_all(&outside).ok();
        let copy = Copy { outside };
        let own = Path::new(env!("CARGO_MANIFEST_DIR"));
        let sources = fs::read_dir(own.join("src")).unwrap().map(|file| file.unwrap().file_name());
        let files = sources.map(|name| Path::new("src").join(name)).chain(["Cargo.toml".into(), "build.rs".into()]);
        for file in files {
            copy.put(Path::new("rust/sojimu").join(&file), &fs::read(own.join(&file)).unwrap());
        }
        copy
    }

    fn root(&self) -> PathBuf {
        self.outside.join("a/b")
    }

    fn package(&self) -> PathBuf {
        self.root().join("rust/sojimu")
    }

    /// Writes a file, by its path from the root.
    fn put(&self, path: impl AsRef<Path>, bytes: &[u8]) -> PathBuf {
        let path = self.root().join(path);
        fs::create_dir_all(path.parent().unwrap()).unwrap();
        fs::write(&path, bytes).unwrap();
        path
    }

    /// Builds what cargo is told to, from another folder than the package's.
    fn build_with(&self, lib_dir: &str, arguments: &[&str]) -> Built {
        let output = Command::new(env!("CARGO"))
            .args(["build", "--offline", "--target-dir"])
            .arg(self.outside.join("target"))
            .arg("--manifest-path")
            .arg(self.package().join("Cargo.toml"))
            .args(arguments)
            .env("SOJIMU_LIB_DIR", lib_dir)
            .current_dir(std::env::temp_dir())
            .output()
            .unwrap();
        Built { well: output.status.success(), said: String::from_utf8(output.stderr).unwrap() }
    }

    /// Builds the package; an empty name is none.
    fn build(&self, lib_dir: &str) -> Built {
        self.build_with(lib_dir, &[])
    }
}

impl Drop for Copy {
    fn drop(&mut self) {
        fs::remove_dir_all(&self.outside).ok();
    }
}

impl Built {
    fn is_well(&self) {
        assert!(self.well, "{}", self.said);
        assert!(!self.said.contains("warning"), "{}", self.said);
    }

    fn fails_with(&self, words: &str) {
        assert!(!self.well && self.said.contains(words), "{words}\n{}", self.said);
    }
}

/// The archive that is linked here.
fn archive() -> Vec<u8> {
    fs::read(env!("SOJIMU_ARCHIVE")).unwrap()
}

/// The same with another version in its symbol, or without that symbol.
fn renamed(symbol: &[u8; 12]) -> Vec<u8> {
    let mut bytes = archive();
    let places: Vec<usize> = (0..bytes.len() - 12).filter(|&at| &bytes[at..at + 12] == b"sojimu_abi_6").collect();
    assert!(!places.is_empty());
    places.into_iter().for_each(|at| bytes[at..at + 12].copy_from_slice(symbol));
    bytes
}

#[test]
fn none_beside_the_package() {
    let copy = Copy::new("none");
    let package = copy.package();
    let tried =
        ["../../lib", "../../target/staticlib", "../../../../lib"].map(|folder| package.join(folder).join("libsojimu.a"));
    let tried: String = tried.iter().map(|place| format!("    {}\n", place.display())).collect();
    let built = copy.build("");
    built.fails_with(&format!(
        "sojimu: libsojimu.a is in none of the places where it is looked for:\n  {}",
        tried.replace('\n', "\n  ")
    ));
    built.fails_with(&format!("Name its folder in SOJIMU_LIB_DIR, in full or relative to {}.", package.display()));
    built.fails_with("`tools/archive` makes it");
}

#[test]
fn none_where_it_is_named() {
    let copy = Copy::new("named");
    copy.put("lib/libsojimu.a", &archive());
    let (package, root) = (copy.package(), copy.root());
    let relative = format!(
        "sojimu: SOJIMU_LIB_DIR is ../none, relative to the package's folder, {0}: there is no {0}/../none/libsojimu.a",
        package.display()
    );
    copy.build("../none").fails_with(&relative);
    let full = root.join("none");
    let there = full.join("libsojimu.a");
    let (full, there) = (full.display(), there.display());
    copy.build(&full.to_string()).fails_with(&format!("sojimu: SOJIMU_LIB_DIR is {full}: there is no {there}"));
}

#[test]
fn named_in_full_or_relative_to_the_package() {
    let copy = Copy::new("relative");
    let put = copy.put("rust/own/libsojimu.a", &archive());
    copy.build("../own").is_well();
    copy.build(&put.parent().unwrap().display().to_string()).is_well();
}

/// Each archive but the one that counts is of another version.
#[test]
fn the_first_place_counts() {
    let copy = Copy::new("places");
    let other = renamed(b"sojimu_abi_7");
    for place in ["../../lib", "target/staticlib", "lib"] {
        let put = copy.put(Path::new(place).join("libsojimu.a"), &archive());
        copy.build("").is_well();
        fs::write(put, &other).unwrap();
        copy.build("").fails_with("has version 7; this package needs version 6");
    }
}

#[test]
fn an_archive_of_another_version() {
    let copy = Copy::new("version");
    let lib = copy.put("lib/libsojimu.a", &renamed(b"sojimu_abi_5"));
    copy.build("").fails_with(&format!("sojimu: {} has version 5; this package needs version 6", lib.display()));
    fs::write(&lib, renamed(b"sojimu_other")).unwrap();
    copy.build("").fails_with(&format!("sojimu: {} names no version; this package needs version 6", lib.display()));
    fs::write(&lib, archive()).unwrap();
    copy.build("").is_well();
}

fn touch(path: &Path, hours_ago: u64) {
    let time = SystemTime::now() - Duration::from_secs(3600 * hours_ago);
    File::options().write(true).open(path).unwrap().set_modified(time).unwrap();
}

#[test]
fn an_archive_that_is_older_than_a_source() {
    for (name, source) in
        [("list", "crates.txt"), ("code", "crates/codes/src/steps.rt"), ("specs", "crates/codes/specs/A.antt")]
    {
        let copy = Copy::new(name);
        let lib = copy.put("target/staticlib/libsojimu.a", &archive());
        touch(&lib, 1);
        copy.put("crates/codes/notes.txt", b"");
        copy.put("crates/codes/out/rlib/codes.rlib/lang/src/lib.rt", b"");
        touch(&copy.put("crates.txt", b""), 2);
        touch(&copy.put(source, b""), 2);
        copy.build("").is_well();
        touch(&copy.put(source, b""), 0);
        let newer = copy.package().join("../..").join(source);
        let warning = format!(
            "warning: sojimu@6.0.0: {} is older than {}: `tools/archive` makes it anew\n",
            lib.display(),
            newer.display()
        );
        let built = copy.build("");
        assert!(built.well && built.said.contains(&warning), "{warning}{}", built.said);
        touch(&lib, 0);
        copy.build("").is_well();
    }
}

/// A release has the definitions, to be read, and files in it may have any times.
#[test]
fn a_release_is_not_older_than_its_specs() {
    let copy = Copy::new("release");
    touch(&copy.put("lib/libsojimu.a", &archive()), 1);
    copy.put("crates/codes/specs/Codes.antt", b"");
    copy.build("").is_well();
}

/// Where nothing looks at the archive first, the linker tells one of another version.
#[test]
fn another_version_does_not_link() {
    let copy = Copy::new("linker");
    let lib = copy.put("lib/libsojimu.a", &renamed(b"sojimu_abi_7"));
    let folder = lib.parent().unwrap().display().to_string();
    let lines = ["rerun-if-changed=../../lib", &format!("rustc-link-search=native={folder}"), "rustc-link-lib=static=sojimu"];
    let lines: String = lines.iter().map(|line| format!("    println!(\"cargo::{line}\");\n")).collect();
    copy.put("rust/sojimu/build.rs", format!("fn main() {{\n{lines}}}\n").as_bytes());
    let reads = "fn main() { assert!(sojimu::Table::read(b\"end\").is_ok()) }";
    let starts = "fn main() { assert!(sojimu::Table::default().fresh(200).is_err()) }";
    for (name, program) in [("reads", reads), ("starts", starts)] {
        copy.put(format!("rust/sojimu/examples/{name}.rs"), program.as_bytes());
        let build = || copy.build_with("", &["--example", name]);
        fs::write(&lib, renamed(b"sojimu_abi_7")).unwrap();
        build().fails_with("sojimu_abi_6");
        fs::write(&lib, archive()).unwrap();
        build().is_well();
    }
}
