//! Mistakes that can be planted in the keeper, to see that a comparison finds them.

#[derive(Clone, Copy, Debug, PartialEq, Eq)]
pub enum Flaw {
    SettlesUnderFoundNumber,
    SettlesBelowBar,
    SettlesLowest,
    SettlesFromDrivesOut,
    SettlesWithoutClearing,
    SettlesDroppingBar,
    SettlesClearingFirst,
    NoneKeepsBar,
    FinishesAtNeed,
    FinishesWithTooFew,
    FinishesWithoutFile,
    FinishesWithOldBar,
    ReadsAnyVersion,
    TidiesToHighest,
    MendsHighest,
    MendsAgain,
    SweepsBar,
    ComesUpWithLastNumber,
    StopLeavesStopWaiting,
    RefusedBeginTakesNumber,
    HealsByDrive,
}

/// Each flaw by the name that `--break` takes.
pub const FLAWS: [(&str, Flaw); 21] = [
    ("settles-under-found-number", Flaw::SettlesUnderFoundNumber),
    ("settles-below-bar", Flaw::SettlesBelowBar),
    ("settles-lowest", Flaw::SettlesLowest),
    ("settles-from-drives-out", Flaw::SettlesFromDrivesOut),
    ("settles-without-clearing", Flaw::SettlesWithoutClearing),
    ("settles-dropping-bar", Flaw::SettlesDroppingBar),
    ("settles-clearing-first", Flaw::SettlesClearingFirst),
    ("none-keeps-bar", Flaw::NoneKeepsBar),
    ("finishes-at-need", Flaw::FinishesAtNeed),
    ("finishes-with-too-few", Flaw::FinishesWithTooFew),
    ("finishes-without-file", Flaw::FinishesWithoutFile),
    ("finishes-with-old-bar", Flaw::FinishesWithOldBar),
    ("reads-any-version", Flaw::ReadsAnyVersion),
    ("tidies-to-highest", Flaw::TidiesToHighest),
    ("mends-highest", Flaw::MendsHighest),
    ("mends-again", Flaw::MendsAgain),
    ("sweeps-bar", Flaw::SweepsBar),
    ("comes-up-with-last-number", Flaw::ComesUpWithLastNumber),
    ("stop-leaves-stop-waiting", Flaw::StopLeavesStopWaiting),
    ("refused-begin-takes-number", Flaw::RefusedBeginTakesNumber),
    ("heals-by-drive", Flaw::HealsByDrive),
];

pub fn named(name: &str) -> Option<Flaw> {
    FLAWS.iter().find(|(known, _)| *known == name).map(|(_, flaw)| *flaw)
}
