//! Header, archive and wrapper belong together.

mod compiled;

use compiled::printed_by;
use sojimu::{State, Table};
use sojimu::{LONGEST_LIST, LONGEST_MESSAGE, LONGEST_REPORT, MOST_BRANCHES, MOST_FIELDS, MOST_STATES, VERSION};
use std::mem::size_of;
use std::path::Path;

#[test]
fn the_archive_is_the_wrappers() {
    assert_eq!(sojimu::version(), VERSION);
    assert!(sojimu::matches());
}

const PROGRAM: &str = r#"
#include <sojimu.h>
#include <stdio.h>

int main(void)
{
    printf("%u %u\n", (unsigned)SOJIMU_VERSION, (unsigned)sojimu_version());
    printf("%d %d %d\n", SOJIMU_STATES, SOJIMU_BRANCHES, SOJIMU_FIELDS);
    printf("%d %d %d\n", SOJIMU_MESSAGE, SOJIMU_LIST, SOJIMU_REPORT);
    printf("%zu %zu\n", sizeof(struct sojimu_table), sizeof(struct sojimu_state));
}
"#;

#[test]
fn the_header_is_the_wrappers() {
    let source = Path::new(env!("CARGO_TARGET_TMPDIR")).join("version.c");
    std::fs::write(&source, PROGRAM).unwrap();
    let sizes = (size_of::<Table>(), size_of::<State>());
    let lines = [
        format!("{VERSION} {VERSION}\n"),
        format!("{MOST_STATES} {MOST_BRANCHES} {MOST_FIELDS}\n"),
        format!("{LONGEST_MESSAGE} {LONGEST_LIST} {LONGEST_REPORT}\n"),
        format!("{} {}\n", sizes.0, sizes.1),
    ];
    assert_eq!(printed_by(&source), lines.concat());
}
