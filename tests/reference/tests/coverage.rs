//! The generated inputs reach every refusal, every family as the first broken
//! row and as the first multiplier out of range, every table of columns as the first
//! underpriced and every range of the data.

use epm_reference::coverage::measure;

const SEEDS: u64 = 3000;

#[test]
fn every_answer_is_reached() {
    let coverage = measure(SEEDS);
    print!("{coverage}");
    let missing = coverage.missing();
    assert!(missing.is_empty(), "not reached: {missing:?}");
}

/// Too few inputs leave counts at 0, and `missing` says so.
#[test]
fn missing_counts_are_told() {
    let missing = measure(3).missing();
    assert!(missing.len() > 10);
}
