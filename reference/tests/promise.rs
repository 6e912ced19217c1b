//! The promise of what may be read, checked without another program to compare with.

use reference::compare::play;
use reference::flaws::Flaw;
use reference::generate::script_for;

/// The first seed whose script breaks the promise.
fn first_broken(flaw: Option<Flaw>, seeds: u64) -> Option<u64> {
    (1..=seeds).find(|seed| play(&script_for(*seed, flaw), flaw).broken.is_some())
}

#[test]
fn the_keeper_keeps_it() {
    assert_eq!(first_broken(None, 2_000), None);
}

#[test]
fn what_lost_objects_in_the_past_breaks_it() {
    for flaw in [
        Flaw::SettlesUnderFoundNumber,
        Flaw::SettlesBelowBar,
        Flaw::SettlesDroppingBar,
        Flaw::NoneKeepsBar,
        Flaw::FinishesWithoutFile,
        Flaw::FinishesWithOldBar,
        Flaw::ReadsAnyVersion,
        Flaw::SweepsBar,
        Flaw::ComesUpWithLastNumber,
    ] {
        assert!(first_broken(Some(flaw), 500).is_some(), "{flaw:?} breaks nothing");
    }
}
