//! What a page of docs/ shows of the program is what it prints; and INSTALLING.md has no word of proofs before its last part.

use super::folder::root;
use std::process::Command;

pub fn page(name: &str) -> String {
    std::fs::read_to_string(root().join("docs").join(name)).unwrap()
}

/// What a page shows: the arguments of each indented line `$ ./sojimu ..`, and the indented lines below it.
pub fn shown(page: &str) -> Vec<(String, String)> {
    let mut all: Vec<(String, String)> = Vec::new();
    let mut open = false;
    for line in page.lines() {
        match (line.strip_prefix("    "), line.strip_prefix("    $ ./sojimu ")) {
            (_, Some(arguments)) => {
                all.push((arguments.to_string(), String::new()));
                open = true;
            }
            (Some(output), None) if open => all.last_mut().unwrap().1 += &format!("{output}\n"),
            (None, None) if open && line.is_empty() => all.last_mut().unwrap().1 += "\n",
            _ => open = false,
        }
    }
    all.iter_mut().for_each(|(_, output)| output.truncate(output.trim_end().len()));
    all
}

/// Holds the outputs that are shown to those that are printed.
pub fn check_printed(all: &[(String, String)]) {
    for (arguments, output) in all {
        let run = Command::new(env!("CARGO_BIN_EXE_sojimu")).args(arguments.split(' ')).current_dir(root()).output().unwrap();
        let printed = (String::from_utf8_lossy(&run.stdout), run.stderr.len());
        assert_eq!(printed, (format!("{output}\n").into(), 0), "{arguments}");
    }
}

#[test]
fn what_is_shown_is_printed() {
    let all = shown(&page("INSTALLING.md"));
    check_printed(&all);
    assert_eq!(all.len(), 4);
}

#[test]
fn proofs_come_last() {
    let page = page("INSTALLING.md").to_lowercase();
    let (before, last) = page.rsplit_once("\n## ").unwrap();
    assert!(["proof", "prove", "proving"].iter().all(|word| !before.contains(word)) && last.contains("proved"));
}
