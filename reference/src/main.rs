//! `reference [--break FLAW] N NEED`: plays lines from standard input, as `rehearse` does.
//! `reference --flaws` names the flaws that can be planted.

use reference::flaws;
use reference::script::Rehearsal;
use std::io::{self, BufRead, BufWriter, Write};
use std::process::ExitCode;

const USAGE: &str = "usage: reference [--break FLAW] N NEED (N 2 to 32, NEED 1 to N - 1)";

fn arguments() -> Option<Rehearsal> {
    let mut words: Vec<String> = std::env::args().skip(1).collect();
    let mut flaw = None;
    if words.first().is_some_and(|word| word == "--break") {
        flaw = Some(flaws::named(words.get(1)?)?);
        words.drain(..2);
    }
    let [n, need] = &words[..] else { return None };
    let (n, need) = (n.parse().ok()?, need.parse().ok()?);
    let fits = (2..=32).contains(&n) && (1..n).contains(&need);
    fits.then(|| Rehearsal::new(n, need, flaw))
}

fn play(mut rehearsal: Rehearsal) -> io::Result<()> {
    let mut out = BufWriter::new(io::stdout().lock());
    for line in io::stdin().lock().split(b'\n') {
        for answer in rehearsal.play(&String::from_utf8_lossy(&line?)) {
            writeln!(out, "{answer}")?;
        }
        out.flush()?;
    }
    Ok(())
}

fn main() -> ExitCode {
    if std::env::args().skip(1).eq(["--flaws"]) {
        flaws::FLAWS.iter().for_each(|(name, _)| println!("{name}"));
        return ExitCode::SUCCESS;
    }
    let Some(rehearsal) = arguments() else {
        eprintln!("{USAGE}");
        return ExitCode::from(2);
    };
    match play(rehearsal) {
        Ok(()) => ExitCode::SUCCESS,
        Err(error) => {
            eprintln!("reference: {error}");
            ExitCode::FAILURE
        }
    }
}
