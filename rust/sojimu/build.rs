//! Finds the static library of the proved code, `libsojimu.a`, and links it.
//!
//! `SOJIMU_LIB_DIR` names its folder, in full or relative to the folder of this package. Without it the first of the places
//! `BESIDE` counts that has the archive. One of another version is an error, one that is older than the sources a warning.

use std::env;
use std::fs;
use std::path::{Path, PathBuf};
use std::process::exit;
use std::time::SystemTime;

const ARCHIVE: &str = "libsojimu.a";
/// Where the archive is, seen from this package: in a release, in the repository, and where both are installed.
const BESIDE: [&str; 3] = ["../../lib", "../../target/staticlib", "../../../../lib"];
/// The list of the proved crates, which only the repository has, and their folders.
const SOURCES: [&str; 2] = ["../../crates.txt", "../../crates"];
/// A crate's folders of sources. What is made of them stands beside.
const FOLDERS: [&str; 3] = ["src", "specs", "proofs"];
/// With its version behind it this is a symbol of the archive.
const SYMBOL: &[u8] = b"sojimu_abi_";

fn main() {
    println!("cargo::rerun-if-env-changed=SOJIMU_LIB_DIR");
    let package = PathBuf::from(env::var_os("CARGO_MANIFEST_DIR").unwrap_or_default());
    let named = env::var_os("SOJIMU_LIB_DIR").filter(|folder| !folder.is_empty());
    let archive = match named {
        Some(folder) => there(&package, Path::new(&folder)),
        None => beside(&package),
    };
    if let Err(why) = archive.and_then(|archive| link(&package, &archive)) {
        eprintln!("sojimu: {why}");
        exit(1);
    }
}

/// The archive in the folder that is named.
fn there(package: &Path, folder: &Path) -> Result<PathBuf, String> {
    // A full path takes the place of the package's.
    let archive = package.join(folder).join(ARCHIVE);
    if archive.is_file() {
        return Ok(archive);
    }
    let relative = format!(", relative to the package's folder, {}", package.display());
    let relative = if folder.is_relative() { &relative } else { "" };
    Err(format!("SOJIMU_LIB_DIR is {}{relative}: there is no {}", folder.display(), archive.display()))
}

/// The archive where it is when nothing is named.
fn beside(package: &Path) -> Result<PathBuf, String> {
    let places = BESIDE.map(|folder| package.join(folder).join(ARCHIVE));
    let tried: String = places.iter().map(|place| format!("    {}\n", place.display())).collect();
    places.into_iter().find(|place| place.is_file()).ok_or(format!(
        "{ARCHIVE} is in none of the places where it is looked for:\n{tried}\
        Name its folder in SOJIMU_LIB_DIR, in full or relative to {}. In the repository, `tools/archive` makes it.",
        package.display()
    ))
}

/// Links the archive, where it is of this package's version.
fn link(package: &Path, archive: &Path) -> Result<(), String> {
    println!("cargo::rerun-if-changed={}", archive.display());
    let archive = archive.canonicalize().map_err(|error| format!("{}: {error}", archive.display()))?;
    let bytes = fs::read(&archive).map_err(|error| format!("{}: {error}", archive.display()))?;
    let (has, needed) = (versions(&bytes), env::var("CARGO_PKG_VERSION_MAJOR").unwrap_or_default());
    if !has.contains(&needed) {
        let has = has.first().map_or("names no version".to_string(), |has| format!("has version {has}"));
        return Err(format!("{} {has}; this package needs version {needed}", archive.display()));
    }
    if let Some(folder) = archive.parent() {
        println!("cargo::rustc-link-search=native={}", folder.display());
    }
    println!("cargo::rustc-link-lib=static=sojimu");
    println!("cargo::rustc-env=SOJIMU_ARCHIVE={}", archive.display());
    warn_where_older(package, &archive);
    Ok(())
}

/// The versions that an archive's symbols name.
fn versions(bytes: &[u8]) -> Vec<String> {
    let named = bytes.windows(SYMBOL.len()).enumerate().filter(|(_, window)| *window == SYMBOL);
    let digits =
        |at: usize| bytes[at..].iter().take_while(|byte| byte.is_ascii_digit()).map(|&byte| char::from(byte)).collect();
    named.map(|(at, _)| digits(at + SYMBOL.len())).collect()
}

/// In the repository: says that a source was changed after the archive was made.
fn warn_where_older(package: &Path, archive: &Path) {
    let [list, crates] = SOURCES.map(|source| package.join(source));
    let made = fs::metadata(archive).and_then(|about| about.modified());
    let (Ok(made), Ok(folders), true) = (made, fs::read_dir(crates), list.exists()) else { return };
    let parts = folders.flatten().flat_map(|folder| FOLDERS.map(|part| folder.path().join(part)));
    let sources: Vec<PathBuf> = [list].into_iter().chain(parts.filter(|part| part.exists())).collect();
    for source in &sources {
        println!("cargo::rerun-if-changed={}", source.display());
    }
    if let Some(newer) = sources.iter().find_map(|source| newer(source, made)) {
        let (archive, newer) = (archive.display(), newer.display());
        println!("cargo::warning={archive} is older than {newer}: `tools/archive` makes it anew");
    }
}

/// A source of the proved code, at a path or below it, that was changed later than this.
fn newer(path: &Path, than: SystemTime) -> Option<PathBuf> {
    if let Ok(folder) = fs::read_dir(path) {
        return folder.flatten().find_map(|entry| newer(&entry.path(), than));
    }
    let is_source = path.extension().is_some_and(|kind| kind == "rt" || kind == "antt") || path.ends_with("crates.txt");
    let changed = fs::metadata(path).and_then(|about| about.modified()).ok()?;
    (is_source && changed > than).then(|| path.to_path_buf())
}
