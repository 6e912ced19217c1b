//! `compare PROGRAM SEEDS .. [-- ARGUMENT ..]`: plays the scripts of the seeds (`7`, or `1-2000`)
//! with `PROGRAM ARGUMENT .. N NEED` and with the keeper here, and compares line by line, up to the
//! first script that differs or breaks the promise; that one is cut down and printed.
//! The last line is `N passed, M failed`, in scripts.

use reference::compare::{cut_down, fault, play, Fault};
use reference::generate::{self, Script};
use std::io::{Read, Write};
use std::ops::RangeInclusive;
use std::process::{Child, Command, ExitCode, Stdio};
use std::sync::mpsc;
use std::thread;
use std::time::{Duration, Instant};

/// No script takes a program this long, unless it hangs.
const PATIENCE: Duration = Duration::from_secs(30);

/// A script is cut down for so long at most.
const CUTTING: Duration = Duration::from_secs(30);

struct Arguments {
    program: String,
    seeds: Vec<RangeInclusive<u64>>,
    passed_on: Vec<String>,
}

fn seeds(word: &str) -> Option<RangeInclusive<u64>> {
    let (first, last) = word.split_once('-').unwrap_or((word, word));
    Some(first.parse().ok()?..=last.parse().ok()?)
}

fn arguments() -> Option<Arguments> {
    let mut words: Vec<String> = std::env::args().skip(1).collect();
    let own = words.iter().position(|word| word == "--").unwrap_or(words.len());
    let passed_on = words.split_off(own).into_iter().skip(1).collect();
    let (program, ranges) = words.split_first()?;
    let seeds: Option<Vec<_>> = ranges.iter().map(|word| seeds(word)).collect();
    let seeds = seeds.filter(|seeds| !seeds.is_empty())?;
    Some(Arguments { program: program.clone(), seeds, passed_on })
}

/// Feeds the script and takes the answers at the same time, so that neither waits for the other.
fn converse(child: &mut Child, script: &Script) -> Result<Vec<u8>, String> {
    let mut stdin = child.stdin.take().ok_or("no standard input")?;
    let mut stdout = child.stdout.take().ok_or("no standard output")?;
    let text = script.to_string();
    // A program that ends early is seen by its answers.
    thread::spawn(move || stdin.write_all(text.as_bytes()));
    let (sender, receiver) = mpsc::channel();
    thread::spawn(move || {
        let mut bytes = Vec::new();
        let _ = stdout.read_to_end(&mut bytes);
        sender.send(bytes)
    });
    receiver.recv_timeout(PATIENCE).map_err(|_| format!("no end after {PATIENCE:?}"))
}

impl Arguments {
    /// The lines that the program answers to a script, and one more where it fails.
    fn run(&self, script: &Script) -> Result<Vec<String>, String> {
        let mut child = Command::new(&self.program)
            .args(&self.passed_on)
            .args([script.n.to_string(), script.need.to_string()])
            .stdin(Stdio::piped())
            .stdout(Stdio::piped())
            .stderr(Stdio::null())
            .spawn()
            .map_err(|error| format!("{} can't be run: {error}", self.program))?;
        let answers = converse(&mut child, script);
        if answers.is_err() {
            let _ = child.kill();
        }
        let status = child.wait().map_err(|error| error.to_string())?;
        let text = String::from_utf8_lossy(&answers?).into_owned();
        let mut lines: Vec<String> = text.lines().map(str::to_string).collect();
        if !status.success() {
            lines.push(format!("(ended with {status})"));
        }
        Ok(lines)
    }

    fn report(&self, seed: u64, script: &Script, found: Fault) {
        println!(
            "seed {seed}, rehearse {} {}, {} lines",
            script.n,
            script.need,
            script.lines.len()
        );
        print_fault(script, &found);
        let mut start = script.clone();
        start.lines.truncate(found.line + 1);
        let faulty =
            |script: &Script| fault(script, play(script, None), &|script| self.run(script));
        let deadline = Instant::now() + CUTTING;
        let fails = |script: &Script| Instant::now() < deadline && faulty(script).is_some();
        let short = cut_down(if fails(&start) { &start } else { script }, fails);
        println!("cut down to {} lines:\n{short}", short.lines.len());
        if let Some(found) = faulty(&short) {
            print_fault(&short, &found);
        }
    }
}

fn print_fault(script: &Script, found: &Fault) {
    let line = script.lines.get(found.line).map_or("", String::as_str);
    println!("line {}: {line}\n  {}", found.line + 1, found.what);
}

fn main() -> ExitCode {
    let Some(arguments) = arguments() else {
        eprintln!("usage: compare PROGRAM SEEDS .. [-- ARGUMENT ..]   (SEEDS: 7, or 1-2000)");
        return ExitCode::from(2);
    };
    let nothing = Script { n: 2, need: 1, lines: Vec::new() };
    if let Err(what) = arguments.run(&nothing) {
        println!("{what}\n0 passed, 1 failed");
        return ExitCode::FAILURE;
    }
    let (mut passed, mut within) = (0, 0);
    for seed in arguments.seeds.iter().cloned().flatten() {
        let script = generate::script(seed);
        let played = play(&script, None);
        within += u64::from(played.within);
        if let Some(found) = fault(&script, played, &|script| arguments.run(script)) {
            arguments.report(seed, &script, found);
            println!("{passed} passed, 1 failed");
            return ExitCode::FAILURE;
        }
        passed += 1;
    }
    println!("{within} of the scripts stayed within the premise");
    println!("{passed} passed, 0 failed");
    ExitCode::SUCCESS
}
