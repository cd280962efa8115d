//! Wrong saves, deletes and renames in place of the library's: each must be seen.

use super::planted_lists::failures;
use crate::planted_change::{against_a_law, breaking, left_open};

#[test]
fn every_fault_planted_in_a_change_is_seen() {
    for (name, writing) in [against_a_law(), left_open(), breaking()].concat() {
        assert!(failures(writing) > 0, "{name}");
    }
}
