//! The scripts reach what they are for: every step's every answer comes up.

use reference::compare::play;
use reference::generate::script;
use std::collections::BTreeSet;

/// Each command with the answers that must be met, by their beginnings.
const ANSWERS: [(&str, &[&str]); 19] = [
    ("begin", &["ok version", "refused 1", "refused 2", "refused 3", "stopped", "error:"]),
    ("write", &["ok", "refused 1", "refused 4", "refused 5", "stopped", "error:"]),
    ("finish", &["ok version", "refused 1", "refused 4", "refused 6", "stopped", "error:"]),
    ("read", &["ok version", "ok none", "refused 1", "refused 2", "refused 3", "refused 7"]),
    (
        "tidy",
        &["ok 0", "ok 1", "ok 2", "refused 1", "refused 2", "refused 3", "refused 5", "stopped"],
    ),
    ("mend", &["ok 0", "ok 1", "refused 1", "refused 2", "refused 3", "refused 5", "refused 7"]),
    ("mend", &["stopped", "error:"]),
    ("sweep", &["ok 0", "ok 1", "ok 2", "refused 1", "refused 5", "stopped", "error:"]),
    ("settle", &["ok found", "ok none", "refused 1", "refused 4", "stopped", "error:"]),
    ("give", &["ok unknown", "refused 1", "refused 4", "error:"]),
    ("out", &["ok", "refused 1", "error:"]),
    ("in", &["ok", "refused 1", "error:"]),
    (
        "put",
        &["ok version", "refused 1", "refused 2", "refused 3", "refused 5", "refused 6", "stopped"],
    ),
    ("heal", &["ok tidied 0 mended 0", "ok tidied 1 mended 1", "stopped", "error:"]),
    ("count", &["weak 0:", "weak 1: 0", "weak 2: 0 1", "object 0 version", "object 0 none"]),
    ("show", &["drive 0 in:", "drive 0 out:", "drive 1 in: 0:1", "error:"]),
    ("stop", &["ok", "stopped", "error:"]),
    ("wipe", &["ok", "refused 1"]),
    ("spoil", &["ok", "refused 1", "refused 7"]),
];

#[test]
fn every_answer_comes_up() {
    let mut met = BTreeSet::new();
    let mut within = 0;
    for script in (1..=1_500).map(script) {
        let played = play(&script, None);
        within += u64::from(played.within);
        for (line, answer) in played.answers {
            let command = script.lines[line].split(' ').find(|word| !word.is_empty());
            met.insert((command.unwrap_or_default().to_string(), answer));
        }
    }
    for (command, answers) in ANSWERS {
        for answer in answers {
            let hit = met.iter().any(|(met, text)| met == command && text.starts_with(answer));
            assert!(hit, "no {command} is answered {answer}");
        }
    }
    // Both kinds are there: runs within the premise, and runs that leave it.
    assert!((500..1_300).contains(&within), "{within} stayed within the premise");
}

#[test]
fn the_number_is_raised_without_a_stop() {
    let raised = |seed| {
        let played = play(&script(seed), None);
        let stopped = played.answers.iter().position(|(_, answer)| answer == "stopped");
        let before = &played.answers[..stopped.unwrap_or(played.answers.len())];
        before.iter().any(|(_, answer)| answer == "ok version 1025")
    };
    assert!((1..=1_500).any(raised));
}
