//! What may be read at all: checks a run's answers against what was told and begun before.
//!
//! A drive is weak for an object if it is out, or lacks a piece of the version of it that was last
//! finished: that is in the file as the object's bar, told or not. While no object ever has more
//! than N - NEED weak drives, what is read is what was last finished, or something begun since
//! that settling brought to an end; and the keeper's own steps make no drive weak.

use crate::script::{Command, Rehearsal};
use std::collections::{BTreeMap, BTreeSet};

/// An object's bytes; none where there is no object.
type Content = Option<Vec<u8>>;

/// What the answers so far say of one object.
#[derive(Clone)]
struct Past {
    /// The bytes of the versions that were named in answers, where those tell.
    contents: BTreeMap<u64, Vec<u8>>,
    /// What was last finished, as far as is known, or begun since.
    allowed: BTreeSet<Content>,
    bar: u64,
    /// The version last finished, 0 for none.
    finished: u64,
}

impl Past {
    fn new() -> Past {
        let allowed = BTreeSet::from([None]);
        Past { contents: BTreeMap::new(), allowed, bar: 0, finished: 0 }
    }

    /// From now on it is this and nothing else; it must have been one of those it may be.
    fn becomes(&mut self, content: Content) -> Result<(), String> {
        if !self.allowed.contains(&content) {
            return Err("this is neither what was last finished nor begun since".to_string());
        }
        self.allowed = BTreeSet::from([content]);
        Ok(())
    }

    fn began(&mut self, bytes: &[u8]) {
        self.allowed.insert(Some(bytes.to_vec()));
    }

    fn named(&mut self, version: u64, bytes: &[u8]) -> Result<(), String> {
        let known = self.contents.entry(version).or_insert_with(|| bytes.to_vec());
        match known == bytes {
            true => Ok(()),
            false => Err(format!("version {version} stands for two contents")),
        }
    }
}

/// The answer's words that are numbers, in order.
fn numbers(answer: &str) -> Vec<u64> {
    answer.split(' ').filter_map(|word| word.parse().ok()).collect()
}

/// Follows one run, line by line.
#[derive(Clone)]
pub struct Promise {
    pasts: BTreeMap<u64, Past>,
    within: bool,
}

impl Promise {
    pub fn new() -> Promise {
        Promise { pasts: BTreeMap::new(), within: true }
    }

    /// Whether the run has stayed within the premise so far.
    pub fn within(&self) -> bool {
        self.within
    }

    /// A command was answered, and this is how things stand after it. An error says what of the
    /// promise is broken; nothing is checked once the run has left the premise.
    pub fn saw(&mut self, command: &Command, answer: &str, now: &Rehearsal) -> Result<(), String> {
        self.note_finished(command, answer, now);
        if !self.within {
            return Ok(());
        }
        self.within = self.bearable(now);
        let by_the_world =
            matches!(command, Command::Out(_) | Command::Wipe(_) | Command::Spoil(..));
        if !self.within && !by_the_world {
            return Err("the keeper's own step made too many drives weak".to_string());
        }
        match self.within {
            true => self.check(command, answer),
            false => Ok(()),
        }
    }

    fn past(&mut self, object: u64) -> &mut Past {
        self.pasts.entry(object).or_insert_with(Past::new)
    }

    /// Which version was last finished: told, or in the file when a stop came before the telling.
    fn note_finished(&mut self, command: &Command, answer: &str, now: &Rehearsal) {
        let (object, finishes) = match *command {
            Command::Finish(o) | Command::Put(o, _) => (o, true),
            Command::Settle(o) => (o, false),
            _ => return,
        };
        if object > 255 {
            return;
        }
        let bar = now.keeper.bar(object as usize);
        let past = self.past(object);
        if finishes && answer.starts_with("ok") {
            past.finished = numbers(answer)[0];
        } else if past.bar != bar {
            past.finished = if finishes { bar } else { 0 };
        }
        past.bar = bar;
    }

    fn bearable(&self, now: &Rehearsal) -> bool {
        let world = &now.world;
        let most = world.drives.len() - now.keeper.need();
        let out = world.drives.len() - world.ins().len();
        let weak = |(object, past): (&u64, &Past)| match past.finished {
            0 => out,
            version => world.drives.len() - world.holders(*object as usize, version).len(),
        };
        out <= most && self.pasts.iter().all(|past| weak(past) <= most)
    }

    fn check(&mut self, command: &Command, answer: &str) -> Result<(), String> {
        let ok = answer.starts_with("ok");
        match command {
            Command::Begin(o, bytes) if ok => {
                self.past(*o).began(bytes);
                self.past(*o).named(numbers(answer)[0], bytes)
            }
            Command::Put(o, bytes) => self.check_put(*o, bytes, answer),
            Command::Finish(o) if ok => self.check_finish(*o, numbers(answer)[0]),
            Command::Settle(o) if ok => self.check_settle(*o, &numbers(answer)),
            Command::Read(o) => self.check_read(*o, answer),
            Command::Mend(o, _) if answer == "refused 7" => match self.past(*o).finished {
                0 => Ok(()),
                _ => Err("what was finished can't be mended".to_string()),
            },
            _ => Ok(()),
        }
    }

    fn check_put(&mut self, object: u64, bytes: &[u8], answer: &str) -> Result<(), String> {
        let past = self.past(object);
        match answer {
            // Refused by begin: nothing was begun.
            "refused 1" | "refused 2" | "refused 3" | "refused 9" => Ok(()),
            _ if answer.starts_with("ok") => {
                past.began(bytes);
                past.named(numbers(answer)[0], bytes)?;
                past.becomes(Some(bytes.to_vec()))
            }
            _ => {
                past.began(bytes);
                Ok(())
            }
        }
    }

    fn check_finish(&mut self, object: u64, version: u64) -> Result<(), String> {
        let past = self.past(object);
        past.allowed.remove(&None);
        match past.contents.get(&version) {
            Some(bytes) => past.becomes(Some(bytes.clone())),
            None => Ok(()),
        }
    }

    fn check_settle(&mut self, object: u64, versions: &[u64]) -> Result<(), String> {
        let past = self.past(object);
        let [found, version] = versions else { return past.becomes(None) };
        let Some(bytes) = past.contents.get(found).cloned() else { return Ok(()) };
        past.named(*version, &bytes)
    }

    fn check_read(&mut self, object: u64, answer: &str) -> Result<(), String> {
        let past = self.past(object);
        let words: Vec<&str> = answer.split(' ').collect();
        let (version, bytes) = match words[..] {
            ["ok", "none"] => return past.becomes(None),
            ["ok", "version", version] => (version, Vec::new()),
            ["ok", "version", version, bytes] => (version, crate::script::hexadecimal(bytes)?),
            ["refused", "7"] => return Err("what counts can't be read".to_string()),
            _ => return Ok(()),
        };
        past.named(version.parse().unwrap_or(0), &bytes)?;
        past.becomes(Some(bytes))
    }
}

impl Default for Promise {
    fn default() -> Promise {
        Promise::new()
    }
}
