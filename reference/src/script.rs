//! Lines to commands, and a rehearsal that plays them and answers each.

use crate::flaws::Flaw;
use crate::keeper::{drive_of, object_of, Halt, Keeper, Stop, World, TOO_FEW};
use crate::slots::OBJECTS;

/// A line taken apart. Numbers are as given, and too large ones the largest that there is: which
/// objects and drives there are is for the keeper to say.
#[derive(Clone, Debug, PartialEq, Eq)]
pub enum Command {
    Begin(u64, Vec<u8>),
    Write(u64, u64),
    Finish(u64),
    Read(u64),
    Tidy(u64, u64),
    Mend(u64, u64),
    Sweep(u64),
    Settle(u64),
    GiveUp(u64),
    Out(u64),
    In(u64),
    Put(u64, Vec<u8>),
    Heal,
    Count,
    Show,
    StopNow,
    StopAt(Stop),
    Wipe(u64),
    Spoil(u64, u64, u64),
}

/// Decimal digits, of any length.
fn number(word: &str) -> Result<u64, String> {
    if !word.bytes().all(|byte| byte.is_ascii_digit()) {
        return Err(format!("`{word}` isn't a number"));
    }
    let digits = word.bytes().map(|byte| u64::from(byte - b'0'));
    Ok(digits.fold(0, |number: u64, digit| number.saturating_mul(10).saturating_add(digit)))
}

pub fn hexadecimal(word: &str) -> Result<Vec<u8>, String> {
    let digit = |byte: u8| char::from(byte).to_digit(16).map(|digit| digit as u8);
    let pair = |pair: &[u8]| match pair {
        [high, low] => Some(digit(*high)? << 4 | digit(*low)?),
        _ => None,
    };
    let bytes: Option<Vec<u8>> = word.as_bytes().chunks(2).map(pair).collect();
    bytes.ok_or_else(|| "the bytes aren't pairs of hexadecimal digits".to_string())
}

fn stop(word: &str) -> Result<Command, String> {
    Ok(match word {
        "old" => Command::StopAt(Stop::OldFile),
        "new" => Command::StopAt(Stop::NewFile),
        _ => match number(word)? {
            0 => Command::StopNow,
            k => Command::StopAt(Stop::Slot(k)),
        },
    })
}

/// The command of a line; none where the line is passed over.
pub fn parse(line: &str) -> Result<Option<Command>, String> {
    if line.starts_with('#') {
        return Ok(None);
    }
    let words: Vec<&str> = line.split(' ').filter(|word| !word.is_empty()).collect();
    Ok(Some(match words[..] {
        [] => return Ok(None),
        ["begin", o] => Command::Begin(number(o)?, Vec::new()),
        ["begin", o, bytes] => Command::Begin(number(o)?, hexadecimal(bytes)?),
        ["write", o, d] => Command::Write(number(o)?, number(d)?),
        ["finish", o] => Command::Finish(number(o)?),
        ["read", o] => Command::Read(number(o)?),
        ["tidy", o, d] => Command::Tidy(number(o)?, number(d)?),
        ["mend", o, d] => Command::Mend(number(o)?, number(d)?),
        ["sweep", d] => Command::Sweep(number(d)?),
        ["settle", o] => Command::Settle(number(o)?),
        ["give", "up", o] => Command::GiveUp(number(o)?),
        ["out", d] => Command::Out(number(d)?),
        ["in", d] => Command::In(number(d)?),
        ["put", o] => Command::Put(number(o)?, Vec::new()),
        ["put", o, bytes] => Command::Put(number(o)?, hexadecimal(bytes)?),
        ["heal"] => Command::Heal,
        ["count"] => Command::Count,
        ["show"] => Command::Show,
        ["stop", when] => stop(when)?,
        ["wipe", d] => Command::Wipe(number(d)?),
        ["spoil", d, o, v] => Command::Spoil(number(d)?, number(o)?, number(v)?),
        _ => return Err("no such command, or another number of words".to_string()),
    }))
}

pub fn to_hexadecimal(bytes: &[u8]) -> String {
    const DIGITS: &[u8; 16] = b"0123456789abcdef";
    let digits = bytes.iter().flat_map(|byte| [byte >> 4, byte & 15]);
    digits.map(|digit| char::from(DIGITS[usize::from(digit)])).collect()
}

/// The words, each with a space before it.
fn spaced(words: impl Iterator<Item = String>) -> String {
    words.map(|word| format!(" {word}")).collect()
}

#[derive(Clone)]
pub struct Rehearsal {
    pub world: World,
    pub keeper: Keeper,
}

impl Rehearsal {
    /// A first start on `n` empty drives, `need` of which give an object back.
    pub fn new(n: usize, need: usize, flaw: Option<Flaw>) -> Rehearsal {
        let world = World::empty(n);
        let keeper = Keeper::come_up(&world, need, flaw).expect("empty drives are a first start");
        Rehearsal { world, keeper }
    }

    /// The answer's lines; none where the line is passed over.
    pub fn play(&mut self, line: &str) -> Vec<String> {
        match parse(line) {
            Ok(Some(command)) => self.perform(&command),
            Ok(None) => Vec::new(),
            Err(wrong) => vec![format!("error: {wrong}")],
        }
    }

    pub fn perform(&mut self, command: &Command) -> Vec<String> {
        match self.answer(command) {
            Ok(lines) => lines,
            Err(Halt::Refused(number)) => vec![format!("refused {number}")],
            Err(Halt::Stopped) => {
                self.come_up();
                vec!["stopped".to_string()]
            }
        }
    }

    fn come_up(&mut self) {
        if !self.keeper.has(Flaw::StopLeavesStopWaiting) {
            self.world.waiting = None;
        }
        // The file is replaced before the first piece is ever written, and never goes.
        let keeper = self.keeper.comes_up_again(&self.world);
        self.keeper = keeper.expect("in memory the file always fits");
    }

    fn answer(&mut self, command: &Command) -> Result<Vec<String>, Halt> {
        Ok(match command {
            Command::Show => self.show(),
            Command::Count => self.count(),
            other => vec![self.one_line(other)?],
        })
    }

    fn one_line(&mut self, command: &Command) -> Result<String, Halt> {
        let Rehearsal { world, keeper } = self;
        Ok(match *command {
            Command::Begin(o, ref bytes) => {
                format!("ok version {}", keeper.begin(world, o, bytes)?)
            }
            Command::Write(o, d) => {
                keeper.write(world, o, d)?;
                "ok".to_string()
            }
            Command::Finish(o) => format!("ok version {}", keeper.finish(world, o)?),
            Command::Read(o) => match keeper.read(world, o)? {
                Some((version, bytes)) if bytes.is_empty() => format!("ok version {version}"),
                Some((version, bytes)) => {
                    format!("ok version {version} {}", to_hexadecimal(&bytes))
                }
                None => "ok none".to_string(),
            },
            Command::Tidy(o, d) => format!("ok {}", keeper.tidy(world, o, d)?),
            Command::Sweep(d) => format!("ok {}", keeper.sweep(world, d)?),
            Command::Mend(o, d) => format!("ok {}", u8::from(keeper.mend(world, o, d)?)),
            Command::Settle(o) => match keeper.settle(world, o)? {
                Some((found, version)) => format!("ok found {found} version {version}"),
                None => "ok none".to_string(),
            },
            Command::GiveUp(o) => {
                keeper.give_up(o)?;
                "ok unknown".to_string()
            }
            Command::Put(o, ref bytes) => format!("ok version {}", self.put(o, bytes)?),
            Command::Heal => self.heal()?,
            _ => self.by_the_world(command)?,
        })
    }

    /// What isn't the keeper's doing: stops, and what becomes of drives.
    fn by_the_world(&mut self, command: &Command) -> Result<String, Halt> {
        let world = &mut self.world;
        match *command {
            Command::StopNow => return Err(Halt::Stopped),
            Command::StopAt(stop) => world.waiting = Some(stop),
            Command::Out(d) => {
                let drive = drive_of(world, d)?;
                world.is_in[drive] = false;
            }
            Command::In(d) => {
                let drive = drive_of(world, d)?;
                world.is_in[drive] = true;
            }
            Command::Wipe(d) => {
                let drive = drive_of(world, d)?;
                world.drives[drive] = crate::slots::Drive::empty(drive);
            }
            Command::Spoil(d, o, version) => {
                let (drive, object) = (drive_of(world, d)?, object_of(o)?);
                if !world.drives[drive].spoil(object, version) {
                    return Err(TOO_FEW);
                }
            }
            _ => unreachable!("a command of the keeper's"),
        }
        Ok("ok".to_string())
    }

    fn put(&mut self, object: u64, bytes: &[u8]) -> Result<u64, Halt> {
        self.keeper.begin(&mut self.world, object, bytes)?;
        for drive in self.world.ins() {
            self.keeper.write(&mut self.world, object, drive as u64)?;
        }
        self.keeper.finish(&mut self.world, object)
    }

    fn heal(&mut self) -> Result<String, Halt> {
        let (mut tidied, mut mended) = (0, 0);
        let ins = self.world.ins();
        let objects = 0..OBJECTS;
        let mut pairs: Vec<(usize, usize)> =
            objects.flat_map(|object| ins.iter().map(move |drive| (object, *drive))).collect();
        if self.keeper.has(Flaw::HealsByDrive) {
            pairs.sort_by_key(|(object, drive)| (*drive, *object));
        }
        for (object, drive) in pairs {
            let (object, drive) = (object as u64, drive as u64);
            tidied += unless_refused(self.keeper.tidy(&mut self.world, object, drive))?;
            mended +=
                usize::from(unless_refused(self.keeper.mend(&mut self.world, object, drive))?);
        }
        Ok(format!("ok tidied {tidied} mended {mended}"))
    }

    fn show(&self) -> Vec<String> {
        let line = |drive: usize| {
            let place = if self.world.is_in[drive] { "in" } else { "out" };
            let versions = |object| self.world.drives[drive].versions(object).into_iter();
            let held = (0..OBJECTS).flat_map(|o| versions(o).map(move |v| format!("{o}:{v}")));
            format!("drive {drive} {place}:{}", spaced(held))
        };
        (0..self.world.drives.len()).map(line).collect()
    }

    fn count(&self) -> Vec<String> {
        let holders = |object| self.world.holders(object, self.keeper.bar(object));
        let mut weak: Vec<bool> = self.world.is_in.iter().map(|is_in| !is_in).collect();
        let mut objects = Vec::new();
        for object in (0..OBJECTS).filter(|object| self.keeper.bar(*object) != 0) {
            let (bar, holders) = (self.keeper.bar(object), holders(object));
            if holders.is_empty() {
                objects.push(format!("object {object} none"));
                continue;
            }
            objects.push(format!("object {object} version {bar} pieces {}", holders.len()));
            for (drive, weak) in weak.iter_mut().enumerate() {
                *weak |= !holders.contains(&drive);
            }
        }
        let drives: Vec<usize> = (0..weak.len()).filter(|drive| weak[*drive]).collect();
        let words = spaced(drives.iter().map(|drive| drive.to_string()));
        let mut lines = vec![format!("weak {}:{words}", drives.len())];
        lines.extend(objects);
        lines
    }
}

/// What a step did, and nothing where it was refused; a stop stays one.
fn unless_refused<T: Default>(step: Result<T, Halt>) -> Result<T, Halt> {
    match step {
        Err(Halt::Refused(_)) => Ok(T::default()),
        other => other,
    }
}

#[cfg(test)]
mod tests {
    use super::*;

    #[test]
    fn lines_are_words_with_spaces_between() {
        assert_eq!(parse(""), Ok(None));
        assert_eq!(parse("   "), Ok(None));
        assert_eq!(parse("#read 0"), Ok(None));
        assert!(parse(" # read 0").is_err());
        assert_eq!(parse("  give   up  007 "), Ok(Some(Command::GiveUp(7))));
        assert_eq!(parse("begin 0 0aFf"), Ok(Some(Command::Begin(0, vec![10, 255]))));
        assert_eq!(parse("put 3"), Ok(Some(Command::Put(3, vec![]))));
        assert_eq!(parse("stop 00"), Ok(Some(Command::StopNow)));
        let huge = format!("read {}", "9".repeat(400));
        assert_eq!(parse(&huge), Ok(Some(Command::Read(u64::MAX))));
        for wrong in ["read", "read x", "read 0 0", "read +1", "read -1", "read\t0", "Read 0"] {
            assert!(parse(wrong).is_err(), "{wrong}");
        }
        for wrong in ["begin", "begin 0 0", "begin 0 0g", "begin 0 00 00", "give 0", "stop later"] {
            assert!(parse(wrong).is_err(), "{wrong}");
        }
    }
}
