//! Random scripts, each from its seed: few objects, few drives mostly, and much that goes wrong.
//!
//! The next line is chosen by how things stand, which the keeper itself is asked as the script is
//! made: else most lines would be refused. Many of the scripts stay within the premise that
//! never too many drives are weak.

use crate::flaws::Flaw;
use crate::promise::Promise;
use crate::script::{parse, to_hexadecimal, Rehearsal};
use std::fmt;

/// A script, and the numbers of drives to play it with.
#[derive(Clone, Debug)]
pub struct Script {
    pub n: usize,
    pub need: usize,
    pub lines: Vec<String>,
}

impl fmt::Display for Script {
    fn fmt(&self, f: &mut fmt::Formatter) -> fmt::Result {
        self.lines.iter().try_for_each(|line| writeln!(f, "{line}"))
    }
}

/// Vigna's splitmix64.
struct Random(u64);

impl Random {
    fn next(&mut self) -> u64 {
        self.0 = self.0.wrapping_add(0x9e37_79b9_7f4a_7c15);
        let mut z = self.0;
        z = (z ^ (z >> 30)).wrapping_mul(0xbf58_476d_1ce4_e5b9);
        z = (z ^ (z >> 27)).wrapping_mul(0x94d0_49bb_1331_11eb);
        z ^ (z >> 31)
    }

    fn below(&mut self, bound: usize) -> usize {
        (self.next() % bound as u64) as usize
    }

    /// True that many times in a hundred.
    fn chance(&mut self, percent: usize) -> bool {
        self.below(100) < percent
    }

    fn pick<T: Copy>(&mut self, from: &[T]) -> T {
        from[self.below(from.len())]
    }
}

/// Lines that are no commands.
const MALFORMED: [&str; 36] = [
    "read",
    "read x",
    "read 0 0",
    "read +0",
    "read -1",
    "read 0x0",
    "read\t0",
    "READ 0",
    " # no comment",
    "begin",
    "begin x",
    "begin 0 0",
    "begin 0 abc",
    "begin 0 0g",
    "begin 0 00 11",
    "begin 999 zz",
    "write 0",
    "write 0 0 0",
    "finish",
    "tidy 0",
    "mend 0",
    "sweep",
    "settle",
    "give 0",
    "give up",
    "giveup 0",
    "up 0",
    "out",
    "in x",
    "put",
    "put 0 5",
    "heal 0",
    "count 0",
    "show 0",
    "stop",
    "stop soon",
];

/// The numbers of drives, and of those needed, that scripts are most often for.
const SIZES: [(usize, usize); 12] = [
    (3, 2),
    (3, 2),
    (3, 2),
    (2, 1),
    (3, 1),
    (4, 2),
    (4, 2),
    (4, 3),
    (5, 3),
    (6, 4),
    (7, 2),
    (14, 10),
];

struct Writer {
    random: Random,
    rehearsal: Rehearsal,
    promise: Promise,
    /// Losses that would break the premise aren't let happen.
    bearable: bool,
    objects: Vec<usize>,
    contents: Vec<String>,
    n: usize,
    lines: Vec<String>,
}

/// The script of a seed: always the same.
pub fn script(seed: u64) -> Script {
    script_for(seed, None)
}

/// The script of a seed that fits what a keeper with a flaw answers.
pub fn script_for(seed: u64, flaw: Option<Flaw>) -> Script {
    let mut random = Random(seed);
    let (n, need) = match random.below(25) {
        0 => {
            let n = 2 + random.below(31);
            (n, 1 + random.below(n - 1))
        }
        _ => random.pick(&SIZES),
    };
    let objects: &[&[usize]] = &[&[0], &[0], &[0, 1], &[7, 255], &[0, 3, 255]];
    let objects = random.pick(objects).to_vec();
    let bearable = random.chance(40);
    let mut writer = Writer {
        random,
        rehearsal: Rehearsal::new(n, need, flaw),
        promise: Promise::new(),
        bearable,
        objects,
        contents: Vec::new(),
        n,
        lines: Vec::new(),
    };
    writer.write();
    Script { n, need, lines: writer.lines }
}

impl Writer {
    fn write(&mut self) {
        if self.random.below(150) == 0 {
            self.use_numbers_up();
        }
        for _ in 0..10 + self.random.below(50) {
            self.step();
        }
        self.say("show");
        self.close();
    }

    /// At the end everything is brought to count and read, as far as it can be.
    fn close(&mut self) {
        for object in self.objects.clone() {
            self.bring_to_count(object);
            self.say(&format!("read {object}"));
        }
        self.say("heal");
        self.say("show");
        self.say("count");
    }

    /// Adds the line and plays it; its answer's first line.
    fn say(&mut self, line: &str) -> String {
        let answer = self.rehearsal.play(line).into_iter().next().unwrap_or_default();
        if let Ok(Some(command)) = parse(line) {
            // What the promise finds is for the comparison to report.
            let _ = self.promise.saw(&command, &answer, &self.rehearsal);
        }
        self.lines.push(line.to_string());
        answer
    }

    /// Adds a line by which drives lose something, unless that is more than can be borne.
    fn lose(&mut self, line: &str) {
        let (rehearsal, promise) = (self.rehearsal.clone(), self.promise.clone());
        self.say(line);
        if self.bearable && !self.promise.within() {
            (self.rehearsal, self.promise) = (rehearsal, promise);
            self.lines.pop();
        }
    }

    fn object(&mut self) -> usize {
        self.random.pick(&self.objects)
    }

    fn drive(&mut self) -> usize {
        self.random.below(self.n)
    }

    /// An object's bytes: short mostly, and now and then some that were used before.
    fn content(&mut self) -> String {
        if !self.contents.is_empty() && self.random.chance(25) {
            return self.contents[self.random.below(self.contents.len())].clone();
        }
        let length = match self.random.below(400) {
            0 => 65_534 + self.random.below(4),
            1..=10 => self.random.below(3_000),
            11..=60 => self.random.below(100),
            61..=90 => 0,
            _ => 1 + self.random.below(9),
        };
        let byte = if self.random.chance(10) { 0 } else { 255 };
        let bytes: Vec<u8> = (0..length).map(|_| self.random.next() as u8 & byte).collect();
        let mut content = to_hexadecimal(&bytes);
        if self.random.chance(10) {
            content = content.to_uppercase();
        }
        if length < 10 {
            self.contents.push(content.clone());
        }
        content
    }

    fn step(&mut self) {
        match self.random.below(100) {
            0..=54 => self.object_line(),
            55..=57 => self.raise_a_ghost(),
            58..=66 => self.stop(),
            67..=72 => self.lose_drive(),
            73..=78 => self.return_drive(),
            79..=85 => self.spoil(),
            86..=89 => self.upkeep(),
            90..=92 => {
                let line = self.random.pick(&["show", "count"]);
                self.say(line);
            }
            93..=96 => self.odd_numbers(),
            _ => self.no_command(),
        }
    }

    /// A line that fits what is known of an object.
    fn object_line(&mut self) {
        let object = self.object();
        if self.rehearsal.keeper.is_unsure(object) {
            match self.random.below(8) {
                0 => self.any_step(object),
                1 => drop(self.say(&format!("settle {object}"))),
                _ => self.bring_to_count(object),
            }
        } else if self.rehearsal.keeper.being_written(object).is_some() {
            match self.random.below(12) {
                0 => self.any_step(object),
                1 => drop(self.say(&format!("give up {object}"))),
                2 => drop(self.say(&format!("finish {object}"))),
                3..=4 => self.bring_to_count(object),
                _ => drop(self.write_on(object)),
            }
        } else {
            self.counted_line(object);
        }
    }

    /// A line for an object that counts a version.
    fn counted_line(&mut self, object: usize) {
        let (drive, content) = (self.drive(), self.content());
        let line = match self.random.below(12) {
            0..=3 => format!("put {object} {content}"),
            4..=6 => format!("begin {object} {content}"),
            7..=8 => format!("read {object}"),
            9 => format!("tidy {object} {drive}"),
            10 => format!("mend {object} {drive}"),
            _ => return self.any_step(object),
        };
        self.say(line.trim_end());
    }

    /// Any step, whether it fits or not.
    fn any_step(&mut self, object: usize) {
        let (drive, content) = (self.drive(), self.content());
        let line = match self.random.below(9) {
            0 => format!("begin {object} {content}"),
            1 => format!("write {object} {drive}"),
            2 => format!("finish {object}"),
            3 => format!("read {object}"),
            4 => format!("tidy {object} {drive}"),
            5 => format!("mend {object} {drive}"),
            6 => format!("sweep {drive}"),
            7 => format!("settle {object}"),
            _ => format!("give up {object}"),
        };
        self.say(line.trim_end());
    }

    /// The next piece of what is being written, or finish where every drive that is in has it.
    fn write_on(&mut self, object: usize) -> String {
        let version = self.rehearsal.keeper.being_written(object).unwrap_or(0);
        let world = &self.rehearsal.world;
        let mut lacking = world.ins();
        lacking.retain(|drive| !world.drives[*drive].has(object, version));
        if lacking.is_empty() {
            return self.say(&format!("finish {object}"));
        }
        let drive = match self.random.chance(80) {
            true => lacking[0],
            false => self.random.pick(&lacking),
        };
        self.say(&format!("write {object} {drive}"))
    }

    /// Settles an object, writes it and finishes, until a stop or a refusal.
    fn bring_to_count(&mut self, object: usize) {
        if self.rehearsal.keeper.is_unsure(object) {
            self.say(&format!("settle {object}"));
        }
        while self.rehearsal.keeper.being_written(object).is_some() {
            let answer = self.write_on(object);
            if answer.starts_with("refused") {
                return self.find_a_way_out(object, &answer);
            }
            if self.random.chance(3) {
                return;
            }
        }
    }

    /// What goes on after a refusal, perhaps: a full drive is cleared by settling anew, and where
    /// too few drives are in, one comes back.
    fn find_a_way_out(&mut self, object: usize, answer: &str) {
        match (answer, self.random.chance(60)) {
            ("refused 5", true) => {
                self.say(&format!("give up {object}"));
                self.say(&format!("settle {object}"));
            }
            ("refused 6", true) => self.return_drive(),
            _ => {}
        }
    }

    /// What is begun on a few drives, goes away with them, is settled without them, and comes back
    /// with them: it must not count any more.
    fn raise_a_ghost(&mut self) {
        let (object, content) = (self.object(), self.content());
        self.bring_to_count(object);
        self.say(format!("begin {object} {content}").trim_end());
        let first = self.drive();
        let few = 1 + self.random.below(self.n - self.rehearsal.keeper.need());
        let drives: Vec<usize> = (first..first + few).map(|drive| drive % self.n).collect();
        for drive in &drives {
            self.say(&format!("write {object} {drive}"));
        }
        for drive in &drives {
            self.lose(&format!("out {drive}"));
        }
        self.break_off(object);
        self.bring_to_count(object);
        for drive in &drives {
            self.say(&format!("in {drive}"));
        }
        self.break_off(object);
        self.bring_to_count(object);
        self.say(&format!("read {object}"));
    }

    fn break_off(&mut self, object: usize) {
        match self.random.chance(70) {
            true => self.say("stop 0"),
            false => self.say(&format!("give up {object}")),
        };
    }

    fn stop(&mut self) {
        let answer = match self.random.below(8) {
            0..=1 => self.say("stop 0"),
            2..=4 => {
                let k = 1 + self.random.below(2 * self.n);
                self.say(&format!("stop {k}"))
            }
            5 => self.say("stop 1"),
            6 => self.say("stop old"),
            _ => self.say("stop new"),
        };
        if answer == "stopped" && self.random.chance(70) {
            let object = self.object();
            self.bring_to_count(object);
        }
    }

    /// A drive goes out or is emptied; where all may be lost, sometimes one after another.
    fn lose_drive(&mut self) {
        let many = !self.bearable && self.random.chance(30);
        for _ in 0..if many { self.n.div_ceil(2) } else { 1 } {
            let drive = self.drive();
            match self.random.chance(75) {
                true => self.lose(&format!("out {drive}")),
                false => self.lose(&format!("wipe {drive}")),
            }
        }
    }

    fn return_drive(&mut self) {
        let is_in = &self.rehearsal.world.is_in;
        let out: Vec<usize> = (0..self.n).filter(|drive| !is_in[*drive]).collect();
        let drive = match out.is_empty() {
            true => self.drive(),
            false => self.random.pick(&out),
        };
        self.say(&format!("in {drive}"));
        self.look_after(drive);
    }

    /// Once a drive has come back or lost something: mended, or its objects read, perhaps.
    fn look_after(&mut self, drive: usize) {
        let object = self.object();
        match self.random.below(8) {
            0 => drop(self.say(&format!("mend {object} {drive}"))),
            1 => drop(self.say(&format!("read {object}"))),
            2 => drop(self.say("heal")),
            3 => {
                self.bring_to_count(object);
                self.say(&format!("tidy {object} {drive}"));
                self.say(&format!("mend {object} {drive}"));
            }
            _ => {}
        }
    }

    /// A piece that is there, mostly, is spoilt; where all may be lost, sometimes on most drives.
    fn spoil(&mut self) {
        let object = self.object();
        let many = !self.bearable && self.random.chance(20);
        for _ in 0..if many { self.n } else { 1 } {
            self.spoil_one(object);
        }
    }

    fn spoil_one(&mut self, object: usize) {
        let drive = self.drive();
        let versions = self.rehearsal.world.drives[drive].versions(object);
        let version = match versions.is_empty() || self.random.chance(10) {
            true => self.random.below(4) as u64,
            false => self.random.pick(&versions),
        };
        self.lose(&format!("spoil {drive} {object} {version}"));
        self.look_after(drive);
    }

    fn upkeep(&mut self) {
        let drive = self.drive();
        match self.random.chance(50) {
            true => self.say("heal"),
            false => self.say(&format!("sweep {drive}")),
        };
    }

    /// Objects and drives that there aren't, numbers of many digits, and spaces.
    fn odd_numbers(&mut self) {
        let huge = "184467440737095516160000000000000000000000000000";
        let (n, own) = (self.n.to_string(), self.object().to_string());
        let zeros = format!("00000000000000000000000000{own}");
        let o = self.random.pick(&["256", "255", huge, &own, &zeros, "1000"]);
        let d = self.random.pick(&["0", "1", &n, huge, "32", "000000000000000000000000"]);
        let line = match self.random.below(14) {
            0 => format!("begin {o} 00"),
            1 => format!("write {o} {d}"),
            2 => format!("finish {o}"),
            3 => format!("read {o}"),
            4 => format!("tidy {o} {d}"),
            5 => format!("mend {o} {d}"),
            6 => format!("settle  {o} "),
            7 => format!(" give  up {o}"),
            8 => format!("sweep {d}"),
            9 => format!("put {o}"),
            10 => format!("stop {huge}"),
            11 => format!("in {d}"),
            12 => return self.lose(&format!("spoil {d} {o} {huge}")),
            _ => return self.lose(&self.random_loss(d)),
        };
        self.say(&line);
    }

    fn random_loss(&self, drive: &str) -> String {
        match self.lines.len() % 2 {
            0 => format!("wipe {drive}"),
            _ => format!("out  {drive}"),
        }
    }

    /// A line that is none, or that is passed over.
    fn no_command(&mut self) {
        let line = match self.random.below(10) {
            0 => "",
            1 => "   ",
            2 => "# settle 0",
            _ => self.random.pick(&MALFORMED),
        };
        self.say(line);
    }

    /// So many steps that the file's number must be raised without a stop.
    fn use_numbers_up(&mut self) {
        let object = self.object();
        for _ in 0..480 + self.random.below(60) {
            self.say(&format!("begin {object} 05"));
            self.say(&format!("give up {object}"));
            self.say(&format!("settle {object}"));
        }
    }
}

#[cfg(test)]
mod tests {
    use super::*;

    #[test]
    fn a_seed_gives_one_script() {
        assert_eq!(script(7).lines, script(7).lines);
        assert_ne!(script(7).lines, script(8).lines);
    }
}
