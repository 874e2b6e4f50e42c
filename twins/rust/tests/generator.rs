//! The generator reaches every case it was made for.

use twin::gen::{capture, stats::stats};

#[test]
fn same_seed_same_capture() {
    for seed in [0, 1, 77, u64::MAX] {
        assert_eq!(capture(seed), capture(seed));
    }
}

#[test]
fn every_case_is_reached() {
    let missing = stats(0, 1000).missing();
    assert!(missing.is_empty(), "{missing:?}");
}
