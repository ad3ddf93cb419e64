//! The proved code and the second implementation on a few random inputs. `cargo run --release --bin compare` has many more.

use sojimu::Table;
use sojimu_checks::compare::KINDS;
use sojimu_checks::second::table::Raw;

#[test]
fn they_agree() {
    for kind in &KINDS {
        let (tally, disagreements) = kind.run(2, kind.cases / 50 + 1);
        assert!(tally.comparisons > 0, "{}", kind.name);
        if let Some(first) = disagreements.first() {
            panic!("{}: {}\n{}", kind.name, first.what, first.again());
        }
    }
}

#[test]
fn what_takes_nothing() {
    assert_eq!(Table::empty(), Table::from(&Raw::empty()));
}
