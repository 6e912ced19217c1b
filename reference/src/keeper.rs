//! The keeper's steps, on drives and a file in memory that a stop can cut anywhere.
//!
//! A step asks for its refusals first, from the lowest number on, and then does what it does to
//! the file and the slots in order. A stop ends it with `Halt::Stopped`: what is known is then
//! lost, and a new keeper comes up from the file.

use crate::flaws::Flaw;
use crate::pieces::{self, Rows};
use crate::slots::{sealed, unsealed, Drive, Writing, OBJECTS};

/// By how much the file's number is raised.
const RAISE: u64 = 1_024;
/// Versions are below this.
const VERSIONS: u64 = 1 << 63;
/// The file: the number, a bar for each object, and the sum.
const FILE: usize = 8 + 8 * OBJECTS + 4;

/// Why a step ended without doing all of what was asked.
#[derive(Clone, Copy, Debug, PartialEq, Eq)]
pub enum Halt {
    Refused(u8),
    Stopped,
}

pub const NO_SUCH: Halt = Halt::Refused(1);
pub const UNSURE: Halt = Halt::Refused(2);
pub const BEING_WRITTEN: Halt = Halt::Refused(3);
pub const WRONG_TIME: Halt = Halt::Refused(4);
pub const OUT_OR_FULL: Halt = Halt::Refused(5);
pub const NOT_ALL_HAVE_IT: Halt = Halt::Refused(6);
pub const TOO_FEW: Halt = Halt::Refused(7);
pub const BAD_FILE: Halt = Halt::Refused(8);
pub const NO_MORE_VERSIONS: Halt = Halt::Refused(9);

/// Refuses unless.
fn ensure(holds: bool, refusal: Halt) -> Result<(), Halt> {
    holds.then_some(()).ok_or(refusal)
}

/// A stop that waits.
#[derive(Clone, Copy, Debug, PartialEq, Eq)]
pub enum Stop {
    /// At the writing of a slot that many slots from now; 1 is the next.
    Slot(u64),
    /// At the next replacing of the file, before the renaming.
    OldFile,
    /// The same, after the renaming.
    NewFile,
}

/// What outlives a stop: the drives, which of them are in, and the file.
#[derive(Clone)]
pub struct World {
    pub drives: Vec<Drive>,
    pub is_in: Vec<bool>,
    pub file: Option<Vec<u8>>,
    pub waiting: Option<Stop>,
}

impl World {
    pub fn empty(n: usize) -> World {
        World {
            drives: (0..n).map(Drive::empty).collect(),
            is_in: vec![true; n],
            file: None,
            waiting: None,
        }
    }

    /// The drives that are in, from the lowest on.
    pub fn ins(&self) -> Vec<usize> {
        (0..self.drives.len()).filter(|drive| self.is_in[*drive]).collect()
    }

    /// The drives that are in and have a version of an object.
    pub fn holders(&self, object: usize, version: u64) -> Vec<usize> {
        let mut holders = self.ins();
        holders.retain(|drive| self.drives[*drive].has(object, version));
        holders
    }

    fn write(&mut self, drive: usize, writing: &Writing) -> Result<(), Halt> {
        match self.waiting {
            Some(Stop::Slot(1)) => {
                self.drives[drive].tear(writing);
                return Err(Halt::Stopped);
            }
            Some(Stop::Slot(k)) => self.waiting = Some(Stop::Slot(k - 1)),
            _ => {}
        }
        self.drives[drive].write(writing);
        Ok(())
    }

    fn write_all(&mut self, drive: usize, writings: &[Writing]) -> Result<usize, Halt> {
        for writing in writings {
            self.write(drive, writing)?;
        }
        Ok(writings.len())
    }

    fn replace_file(&mut self, new: Vec<u8>) -> Result<(), Halt> {
        match self.waiting {
            Some(Stop::OldFile) => Err(Halt::Stopped),
            Some(Stop::NewFile) => {
                self.file = Some(new);
                Err(Halt::Stopped)
            }
            _ => {
                self.file = Some(new);
                Ok(())
            }
        }
    }
}

fn decode_file(file: &[u8]) -> Option<(u64, Vec<u64>)> {
    if file.len() != FILE {
        return None;
    }
    let numbers = unsealed(file)?.chunks_exact(8);
    let mut numbers = numbers.map(|bytes| bytes.iter().fold(0, |n, b| n << 8 | u64::from(*b)));
    Some((numbers.next()?, numbers.collect()))
}

#[derive(Clone, Debug)]
enum Known {
    Unsure,
    /// 0 is no object.
    Counts(u64),
    Writing(u64, Rows),
}

/// What settling answers: the version found and the new one.
pub type Settled = Option<(u64, u64)>;

#[derive(Clone)]
pub struct Keeper {
    need: usize,
    known: Vec<Known>,
    next: u64,
    /// The file's number; 1 while there is no file.
    number: u64,
    bars: Vec<u64>,
    flaw: Option<Flaw>,
}

impl Keeper {
    /// Comes up from the file; a first start where there is none and the drives have nothing.
    pub fn come_up(world: &World, need: usize, flaw: Option<Flaw>) -> Result<Keeper, Halt> {
        let Some(file) = &world.file else {
            let nothing = world.ins().iter().all(|drive| world.drives[*drive].is_empty());
            ensure(nothing, BAD_FILE)?;
            let known = vec![Known::Counts(0); OBJECTS];
            return Ok(Keeper { need, known, next: 1, number: 1, bars: vec![0; OBJECTS], flaw });
        };
        let (number, bars) = decode_file(file).ok_or(BAD_FILE)?;
        let known = vec![Known::Unsure; OBJECTS];
        Ok(Keeper { need, known, next: number, number, bars, flaw })
    }

    /// A keeper that comes up after this one.
    pub fn comes_up_again(&self, world: &World) -> Result<Keeper, Halt> {
        let mut keeper = Keeper::come_up(world, self.need, self.flaw)?;
        if self.has(Flaw::ComesUpWithLastNumber) {
            keeper.next = self.next.max(2) - 1;
        }
        Ok(keeper)
    }

    pub fn need(&self) -> usize {
        self.need
    }

    pub fn bar(&self, object: usize) -> u64 {
        self.bars[object]
    }

    pub fn is_unsure(&self, object: usize) -> bool {
        matches!(self.known[object], Known::Unsure)
    }

    /// The version that an object is being written as.
    pub fn being_written(&self, object: usize) -> Option<u64> {
        match self.known[object] {
            Known::Writing(version, _) => Some(version),
            _ => None,
        }
    }

    pub fn has(&self, flaw: Flaw) -> bool {
        self.flaw == Some(flaw)
    }

    pub fn begin(&mut self, world: &mut World, object: u64, bytes: &[u8]) -> Result<u64, Halt> {
        let object = object_of(object)?;
        ensure(bytes.len() <= pieces::LONGEST, NO_SUCH)?;
        let counted = self.counted(object);
        if counted.is_err() && self.has(Flaw::RefusedBeginTakesNumber) {
            self.next += 1;
        }
        counted?;
        ensure(self.next < VERSIONS, NO_MORE_VERSIONS)?;
        let version = self.take_number(world)?;
        self.known[object] = Known::Writing(version, Rows::of(bytes, self.need));
        Ok(version)
    }

    pub fn write(&mut self, world: &mut World, object: u64, drive: u64) -> Result<(), Halt> {
        let (object, drive) = (object_of(object)?, drive_of(world, drive)?);
        let Known::Writing(version, rows) = &self.known[object] else { return Err(WRONG_TIME) };
        ensure(world.is_in[drive], OUT_OR_FULL)?;
        let storing = world.drives[drive].storing(object, *version, &rows.piece(drive));
        world.write(drive, &storing.ok_or(OUT_OR_FULL)?)
    }

    pub fn finish(&mut self, world: &mut World, object: u64) -> Result<u64, Halt> {
        let object = object_of(object)?;
        let version = self.being_written(object).ok_or(WRONG_TIME)?;
        let (ins, holders) = (world.ins().len(), world.holders(object, version).len());
        let all_have_it = holders == ins || self.has(Flaw::FinishesAtNeed);
        let enough = holders >= self.need || self.has(Flaw::FinishesWithTooFew);
        ensure(all_have_it && enough, NOT_ALL_HAVE_IT)?;
        if !self.has(Flaw::FinishesWithOldBar) {
            self.bars[object] = version;
        }
        if !self.has(Flaw::FinishesWithoutFile) {
            world.replace_file(self.file())?;
        }
        self.known[object] = Known::Counts(version);
        Ok(version)
    }

    /// The version that counts and the object; none where it is 0.
    pub fn read(&self, world: &World, object: u64) -> Result<Option<(u64, Vec<u8>)>, Halt> {
        let object = object_of(object)?;
        let version = self.counted(object)?;
        if version == 0 {
            return Ok(None);
        }
        let rows = if self.has(Flaw::ReadsAnyVersion) {
            self.work_out_any(world, object)
        } else {
            self.work_out(world, object, version)
        };
        let bytes = rows.and_then(|rows| rows.object()).ok_or(TOO_FEW)?;
        Ok(Some((version, bytes)))
    }

    /// How many pieces went.
    pub fn tidy(&self, world: &mut World, object: u64, drive: u64) -> Result<usize, Halt> {
        let (object, drive) = (object_of(object)?, drive_of(world, drive)?);
        let mut version = self.counted(object)?;
        ensure(world.is_in[drive], OUT_OR_FULL)?;
        if self.has(Flaw::TidiesToHighest) {
            version = world.drives[drive].versions(object).pop().unwrap_or(0);
        }
        let clearings = world.drives[drive].clearings(object, |other| other != version);
        world.write_all(drive, &clearings)
    }

    /// Whether the piece was lacking.
    pub fn mend(&self, world: &mut World, object: u64, drive: u64) -> Result<bool, Halt> {
        let (object, drive) = (object_of(object)?, drive_of(world, drive)?);
        let mut version = self.counted(object)?;
        let place = world.drives[drive].has_place_for(object, version);
        ensure(world.is_in[drive] && place, OUT_OR_FULL)?;
        if world.drives[drive].has(object, version) && !self.has(Flaw::MendsAgain) {
            return Ok(false);
        }
        ensure(version != 0, TOO_FEW)?;
        if self.has(Flaw::MendsHighest) {
            version = self.highest(world, object, 1).map_or(version, |(highest, _)| highest);
        }
        let rows = self.work_out(world, object, version).ok_or(TOO_FEW)?;
        let storing = world.drives[drive].storing(object, version, &rows.piece(drive));
        world.write(drive, &storing.ok_or(OUT_OR_FULL)?)?;
        Ok(true)
    }

    /// How many pieces went.
    pub fn sweep(&self, world: &mut World, drive: u64) -> Result<usize, Halt> {
        let drive = drive_of(world, drive)?;
        ensure(world.is_in[drive], OUT_OR_FULL)?;
        let mut swept = 0;
        for (object, bar) in self.bars.iter().enumerate() {
            let bar = if self.has(Flaw::SweepsBar) { bar + 1 } else { *bar };
            let clearings = world.drives[drive].clearings(object, |version| version < bar);
            swept += world.write_all(drive, &clearings)?;
        }
        Ok(swept)
    }

    pub fn give_up(&mut self, object: u64) -> Result<(), Halt> {
        let object = object_of(object)?;
        ensure(self.being_written(object).is_some(), WRONG_TIME)?;
        self.known[object] = Known::Unsure;
        Ok(())
    }

    pub fn settle(&mut self, world: &mut World, object: u64) -> Result<Settled, Halt> {
        let object = object_of(object)?;
        ensure(self.is_unsure(object), WRONG_TIME)?;
        ensure(self.next < VERSIONS, NO_MORE_VERSIONS)?;
        let from = if self.has(Flaw::SettlesBelowBar) { 1 } else { self.bars[object].max(1) };
        let Some((found, rows)) = self.highest(world, object, from) else {
            self.settle_to_none(world, object)?;
            return Ok(None);
        };
        if self.has(Flaw::SettlesClearingFirst) {
            self.clear_all_but(world, object, found)?;
        }
        let version = match self.has(Flaw::SettlesUnderFoundNumber) {
            true => found,
            false => self.take_number(world)?,
        };
        if !self.has(Flaw::SettlesWithoutClearing) {
            self.clear_all_but(world, object, found)?;
        }
        self.known[object] = Known::Writing(version, rows);
        Ok(Some((found, version)))
    }

    /// The next number is used up as the bar, so that nothing older counts ever again.
    fn settle_to_none(&mut self, world: &mut World, object: usize) -> Result<(), Halt> {
        if !self.has(Flaw::NoneKeepsBar) {
            self.bars[object] = self.next;
            self.raise_number();
            self.next += 1;
            world.replace_file(self.file())?;
        }
        self.known[object] = Known::Counts(0);
        Ok(())
    }

    /// Takes away all pieces of an object but those of the version found and of the bar, from
    /// the drives that are in.
    fn clear_all_but(&self, world: &mut World, object: usize, found: u64) -> Result<(), Halt> {
        let bar = if self.has(Flaw::SettlesDroppingBar) { found } else { self.bars[object] };
        for drive in world.ins() {
            let goes = |version| version != found && version != bar;
            let clearings = world.drives[drive].clearings(object, goes);
            world.write_all(drive, &clearings)?;
        }
        Ok(())
    }

    /// The highest version, of those not below `from`, that enough drives that are in have and
    /// that works out.
    fn highest(&self, world: &World, object: usize, from: u64) -> Option<(u64, Rows)> {
        let drives = match self.has(Flaw::SettlesFromDrivesOut) {
            true => (0..world.drives.len()).collect(),
            false => world.ins(),
        };
        let there = drives.iter().flat_map(|drive| world.drives[*drive].versions(object));
        let mut versions: Vec<u64> = there.filter(|version| *version >= from).collect();
        versions.sort_unstable();
        versions.dedup();
        if !self.has(Flaw::SettlesLowest) {
            versions.reverse();
        }
        let worked_out = |version| Some((version, self.rows_on(world, &drives, object, version)?));
        versions.into_iter().find_map(worked_out)
    }

    /// The rows of a version, from the lowest drives that are in and have it.
    fn work_out(&self, world: &World, object: usize, version: u64) -> Option<Rows> {
        self.rows_on(world, &world.ins(), object, version)
    }

    /// The same from the lowest of the given drives that have it.
    fn rows_on(
        &self,
        world: &World,
        drives: &[usize],
        object: usize,
        version: u64,
    ) -> Option<Rows> {
        let piece = |drive: &usize| Some((*drive, world.drives[*drive].piece(object, version)?));
        let pieces: Vec<_> = drives.iter().filter_map(piece).take(self.need).collect();
        pieces::work_out(self.need, &pieces)
    }

    /// A planted flaw: pieces of an object are put together whatever their versions are.
    fn work_out_any(&self, world: &World, object: usize) -> Option<Rows> {
        let any = |drive: &Drive| drive.versions(object).pop();
        let ins = world.ins().into_iter();
        let piece = |drive: usize| {
            let version = any(&world.drives[drive])?;
            Some((drive, world.drives[drive].piece(object, version)?))
        };
        let pieces: Vec<_> = ins.filter_map(piece).take(self.need).collect();
        pieces::work_out(self.need, &pieces)
    }

    /// The version that counts, where the object is neither unsure nor being written.
    fn counted(&self, object: usize) -> Result<u64, Halt> {
        match self.known[object] {
            Known::Unsure => Err(UNSURE),
            Known::Writing(..) => Err(BEING_WRITTEN),
            Known::Counts(version) => Ok(version),
        }
    }

    /// Uses the next number, once the file's is above it.
    fn take_number(&mut self, world: &mut World) -> Result<u64, Halt> {
        if self.raise_number() {
            world.replace_file(self.file())?;
        }
        self.next += 1;
        Ok(self.next - 1)
    }

    /// Raises the file's number where it isn't above the next version.
    fn raise_number(&mut self) -> bool {
        let due = self.number <= self.next;
        if due {
            self.number += RAISE;
        }
        due
    }

    fn file(&self) -> Vec<u8> {
        let numbers = std::iter::once(&self.number).chain(&self.bars);
        sealed(numbers.flat_map(|number| number.to_be_bytes()).collect())
    }
}

pub fn object_of(number: u64) -> Result<usize, Halt> {
    let object = usize::try_from(number).map_err(|_| NO_SUCH)?;
    ensure(object < OBJECTS, NO_SUCH).map(|()| object)
}

pub fn drive_of(world: &World, number: u64) -> Result<usize, Halt> {
    let drive = usize::try_from(number).map_err(|_| NO_SUCH)?;
    ensure(drive < world.drives.len(), NO_SUCH).map(|()| drive)
}

#[cfg(test)]
mod tests {
    use super::*;

    #[test]
    fn the_file_has_its_length_and_a_sum() {
        let mut world = World::empty(3);
        let mut keeper = Keeper::come_up(&world, 2, None).unwrap();
        assert_eq!(keeper.begin(&mut world, 3, &[]), Ok(1));
        let file = world.file.clone().unwrap();
        assert_eq!(file.len(), 2_060);
        assert_eq!(decode_file(&file), Some((1_025, vec![0; 256])));
        assert!(Keeper::come_up(&world, 2, None).is_ok());
        for place in 0..file.len() {
            let mut changed = file.clone();
            changed[place] ^= 1;
            world.file = Some(changed);
            assert_eq!(Keeper::come_up(&world, 2, None).err(), Some(BAD_FILE));
        }
        world.file = Some(file[..2_059].to_vec());
        assert_eq!(Keeper::come_up(&world, 2, None).err(), Some(BAD_FILE));
    }

    #[test]
    fn no_file_but_a_piece_is_a_bad_file() {
        let mut world = World::empty(2);
        let mut keeper = Keeper::come_up(&world, 1, None).unwrap();
        keeper.begin(&mut world, 0, &[1]).unwrap();
        keeper.write(&mut world, 0, 1).unwrap();
        world.file = None;
        assert_eq!(Keeper::come_up(&world, 1, None).err(), Some(BAD_FILE));
        world.is_in[1] = false;
        assert!(Keeper::come_up(&world, 1, None).is_ok());
    }

    #[test]
    fn versions_end_below_2_to_the_63() {
        let mut world = World::empty(2);
        let mut keeper = Keeper::come_up(&world, 1, None).unwrap();
        keeper.next = VERSIONS - 1;
        keeper.number = VERSIONS - 1;
        assert_eq!(keeper.begin(&mut world, 0, &[1]), Ok(VERSIONS - 1));
        keeper.give_up(0).unwrap();
        assert_eq!(keeper.settle(&mut world, 0), Err(NO_MORE_VERSIONS));
        assert_eq!(keeper.begin(&mut world, 1, &[1]), Err(NO_MORE_VERSIONS));
    }
}
