//! `scripts SEED COUNT`: prints the scripts of COUNT seeds, from SEED on, each after a line that
//! says which it is and for how many drives.

use reference::generate;
use std::process::ExitCode;

fn arguments() -> Option<(u64, u64)> {
    let words: Vec<String> = std::env::args().skip(1).collect();
    let [seed, count] = &words[..] else { return None };
    Some((seed.parse().ok()?, count.parse().ok()?))
}

fn main() -> ExitCode {
    let Some((seed, count)) = arguments() else {
        eprintln!("usage: scripts SEED COUNT");
        return ExitCode::from(2);
    };
    for seed in (0..count).map(|i| seed.wrapping_add(i)) {
        let script = generate::script(seed);
        print!("# seed {seed}: rehearse {} {}\n{script}", script.n, script.need);
    }
    ExitCode::SUCCESS
}
