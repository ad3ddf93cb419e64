//! C programs that include the header and are linked with the archive.

use std::path::{Path, PathBuf};
use std::process::Command;

/// A file of the repository.
pub fn file(name: &str) -> PathBuf {
    Path::new(env!("CARGO_MANIFEST_DIR")).join("../..").join(name)
}

/// Compiles a program without a warning, runs it, and gives what it prints.
pub fn printed_by(source: &Path) -> String {
    let header = std::env::var_os("SOJIMU_INCLUDE_DIR").map_or_else(|| file("include"), PathBuf::from);
    let program = Path::new(env!("CARGO_TARGET_TMPDIR")).join(source.file_stem().unwrap());
    let warnings = ["-std=c11", "-O2", "-Wall", "-Wextra", "-Wpedantic", "-Wshadow", "-Wconversion", "-Werror"];
    let compiled = Command::new("cc")
        .args(warnings)
        .arg("-I")
        .arg(header)
        .arg(source)
        .arg(env!("SOJIMU_ARCHIVE"))
        .arg("-o")
        .arg(&program)
        .output()
        .unwrap();
    assert!(compiled.status.success(), "{}", String::from_utf8_lossy(&compiled.stderr));
    let ran = Command::new(program).output().unwrap();
    assert!(ran.status.success());
    String::from_utf8(ran.stdout).unwrap()
}
