//! One script played twice: the first line whose answers differ, and the script cut down to less.

use crate::flaws::Flaw;
use crate::generate::Script;
use crate::promise::Promise;
use crate::script::{parse, Command, Rehearsal};

/// Pairs of lines are tried only in scripts of at most so many.
const MOST_FOR_PAIRS: usize = 60;

/// What is wrong at one line of a script, counted from 0.
#[derive(Clone, Debug)]
pub struct Fault {
    pub line: usize,
    pub what: String,
}

/// A script as the keeper here plays it.
pub struct Played {
    /// Every line of every answer, with the script's line that it answers.
    pub answers: Vec<(usize, String)>,
    /// Whether the run stayed within the premise to its end.
    pub within: bool,
    /// Where the answers break the promise, within the premise.
    pub broken: Option<Fault>,
}

pub fn play(script: &Script, flaw: Option<Flaw>) -> Played {
    let mut rehearsal = Rehearsal::new(script.n, script.need, flaw);
    let mut promise = Promise::new();
    let mut answers = Vec::new();
    let mut broken = None;
    for (number, line) in script.lines.iter().enumerate() {
        let answer = rehearsal.play(line);
        if let (Ok(Some(command)), Some(first), None) = (parse(line), answer.first(), &broken) {
            let kept = promise.saw(&command, first, &rehearsal);
            broken =
                kept.err().map(|what| Fault { line: number, what: format!("{first}: {what}") });
        }
        answers.extend(answer.into_iter().map(|line| (number, line)));
    }
    Played { answers, within: promise.within(), broken }
}

/// What is said of an error is free.
fn same(expected: &str, answered: &str) -> bool {
    expected == answered || (expected.starts_with("error:") && answered.starts_with("error:"))
}

/// The first line that another program answered otherwise.
fn first_difference(expected: &[(usize, String)], answered: &[String]) -> Option<Fault> {
    let mut answered = answered.iter();
    for (line, expected) in expected {
        let other = answered.next().map_or("(nothing)", String::as_str);
        if !same(expected, other) {
            let what = format!("reference: {expected}\n  program:   {other}");
            return Some(Fault { line: *line, what });
        }
    }
    let line = expected.last().map_or(0, |(line, _)| *line);
    answered.next().map(|more| Fault { line, what: format!("program says besides: {more}") })
}

/// What is wrong with a program's answers to a script: that it failed, a line that differs, or,
/// where there is none, the promise broken by both.
pub fn fault(
    script: &Script,
    played: Played,
    program: &impl Fn(&Script) -> Result<Vec<String>, String>,
) -> Option<Fault> {
    match program(script) {
        Ok(answered) => first_difference(&played.answers, &answered).or(played.broken),
        Err(what) => Some(Fault { line: script.lines.len().saturating_sub(1), what }),
    }
}

/// The script with as many lines, and then bytes, taken out as can be while it still fails.
pub fn cut_down(script: &Script, fails: impl Fn(&Script) -> bool) -> Script {
    let mut script = script.clone();
    let mut length = script.lines.len().div_ceil(2).max(1);
    loop {
        let shorter = without_parts(&script, length, &fails);
        let went = shorter.lines.len() < script.lines.len();
        script = shorter;
        if length > 1 {
            length /= 2;
        } else if !went {
            match without_pair(&script, &fails) {
                Some(shorter) => script = shorter,
                None => return shorten_bytes(script, &fails),
            }
        }
    }
}

/// The script without some lines, if it still fails, with spoilings aimed anew if need be.
fn without(script: &Script, lines: &[usize], fails: &impl Fn(&Script) -> bool) -> Option<Script> {
    let mut shorter = script.clone();
    let mut number = 0..;
    shorter.lines.retain(|_| number.next().is_some_and(|line| !lines.contains(&line)));
    if fails(&shorter) {
        return Some(shorter);
    }
    aimed_anew(&shorter).filter(|aimed| fails(aimed))
}

/// Takes out every part of that many lines, from the first on, without which it still fails.
fn without_parts(script: &Script, length: usize, fails: &impl Fn(&Script) -> bool) -> Script {
    let mut script = script.clone();
    let mut start = 0;
    while start < script.lines.len() {
        let part: Vec<usize> = (start..start + length).collect();
        match without(&script, &part, fails) {
            Some(shorter) => script = shorter,
            None => start += length,
        }
    }
    script
}

/// The script without two lines that can only go together, such as a drive's loss and return.
fn without_pair(script: &Script, fails: &impl Fn(&Script) -> bool) -> Option<Script> {
    let count = script.lines.len();
    if count > MOST_FOR_PAIRS {
        return None;
    }
    let pairs = (0..count).flat_map(|first| (first + 1..count).map(move |second| [first, second]));
    pairs.into_iter().find_map(|pair| without(script, &pair, fails))
}

/// Without earlier lines versions have other numbers: a spoiling of what is no longer there
/// becomes one of the highest version that is. None where there is nothing to change.
fn aimed_anew(script: &Script) -> Option<Script> {
    let mut rehearsal = Rehearsal::new(script.n, script.need, None);
    let mut aimed = script.clone();
    for line in &mut aimed.lines {
        if let Ok(Some(Command::Spoil(drive, object, version))) = parse(line) {
            let held = rehearsal.world.drives.get(drive as usize);
            let versions = held.map_or(Vec::new(), |held| held.versions(object as usize));
            if let (false, Some(highest)) = (versions.contains(&version), versions.last()) {
                *line = format!("spoil {drive} {object} {highest}");
            }
        }
        rehearsal.play(line);
    }
    (aimed.lines != script.lines).then_some(aimed)
}

/// Gives every object that is written one byte, or none, where it still fails then.
fn shorten_bytes(mut script: Script, fails: &impl Fn(&Script) -> bool) -> Script {
    for line in 0..script.lines.len() {
        let words: Vec<&str> = script.lines[line].split(' ').collect();
        let ["begin" | "put", object, bytes] = words[..] else { continue };
        let shorter = [String::new(), format!(" {}", bytes.get(..2).unwrap_or(bytes))];
        for bytes in shorter {
            let mut other = script.clone();
            other.lines[line] = format!("{} {object}{bytes}", words[0]);
            if other.lines[line].len() < script.lines[line].len() && fails(&other) {
                script = other;
                break;
            }
        }
    }
    script
}
