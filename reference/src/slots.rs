//! Records in slots, and a drive: four slots for each object, of which only those used are held.

use std::collections::BTreeMap;

/// How many objects a drive has slots for.
pub const OBJECTS: usize = 256;
/// How many slots, its places, an object has on a drive.
pub const PLACES: usize = 4;
/// The bytes of one slot.
pub const SLOT: usize = 65_559;

/// A record: 87, object, drive, version (8), the piece's length (4), the piece, Adler's sum (4).
const MARK: u8 = 87;
const HEAD: usize = 15;
const SUM: usize = 4;

/// Adler's sum, the second sum in the high half. Sums of 5,552 bytes at most are below 2^32.
pub fn adler(bytes: &[u8]) -> u32 {
    const MODULUS: u32 = 65_521;
    let (mut first, mut second) = (1, 0);
    for part in bytes.chunks(5_552) {
        for byte in part {
            first += u32::from(*byte);
            second += first;
        }
        first %= MODULUS;
        second %= MODULUS;
    }
    second << 16 | first
}

/// The bytes with their own sum behind them.
pub fn sealed(mut bytes: Vec<u8>) -> Vec<u8> {
    let sum = adler(&bytes);
    bytes.extend_from_slice(&sum.to_be_bytes());
    bytes
}

/// What stands before the sum, if the sum fits.
pub fn unsealed(bytes: &[u8]) -> Option<&[u8]> {
    let (body, sum) = bytes.split_last_chunk::<SUM>()?;
    (adler(body) == u32::from_be_bytes(*sum)).then_some(body)
}

fn record(object: usize, drive: usize, version: u64, piece: &[u8]) -> Vec<u8> {
    let mut bytes = vec![MARK, object as u8, drive as u8];
    bytes.extend_from_slice(&version.to_be_bytes());
    bytes.extend_from_slice(&(piece.len() as u32).to_be_bytes());
    bytes.extend_from_slice(piece);
    sealed(bytes)
}

/// A slot's bytes from its beginning; those that aren't held are 0. A record that stands in it is
/// held whole.
#[derive(Clone, Default)]
struct Slot {
    bytes: Vec<u8>,
}

impl Slot {
    /// The version and the piece, where the bytes are a record of this object on this drive.
    fn read(&self, object: usize, drive: usize) -> Option<(u64, &[u8])> {
        let head = self.bytes.get(..HEAD)?;
        if head[..3] != [MARK, object as u8, drive as u8] {
            return None;
        }
        let version = u64::from_be_bytes(head[3..11].try_into().ok()?);
        let length = u32::from_be_bytes(head[11..].try_into().ok()?) as usize;
        let body = unsealed(self.bytes.get(..HEAD + length + SUM)?)?;
        Some((version, &body[HEAD..]))
    }

    fn write(&mut self, new: &[u8]) {
        let length = self.bytes.len().max(new.len());
        self.bytes.resize(length, 0);
        self.bytes[..new.len()].copy_from_slice(new);
        if self.bytes.iter().all(|byte| *byte == 0) {
            self.bytes = Vec::new();
        }
    }

    /// A writing that was cut: the bytes at even places are new. The slot is then held in full,
    /// since the length that its head says may be any.
    fn tear(&mut self, new: &[u8]) {
        self.bytes.resize(SLOT, 0);
        for (old, new) in self.bytes.iter_mut().zip(new).step_by(2) {
            *old = *new;
        }
    }
}

/// What is to be written from the beginning of the slot at one place of an object on a drive.
pub struct Writing {
    object: usize,
    place: usize,
    bytes: Vec<u8>,
}

#[derive(Clone)]
pub struct Drive {
    number: usize,
    objects: BTreeMap<usize, [Slot; PLACES]>,
}

impl Drive {
    pub fn empty(number: usize) -> Drive {
        Drive { number, objects: BTreeMap::new() }
    }

    pub fn is_empty(&self) -> bool {
        (0..OBJECTS).all(|object| self.versions(object).is_empty())
    }

    /// What each place of an object reads as, copies too.
    fn places(&self, object: usize) -> [Option<(u64, &[u8])>; PLACES] {
        match self.objects.get(&object) {
            Some(slots) => slots.each_ref().map(|slot| slot.read(object, self.number)),
            None => [None; PLACES],
        }
    }

    fn place_of(&self, object: usize, version: u64) -> Option<usize> {
        let has = |read: &Option<(u64, &[u8])>| read.is_some_and(|(v, _)| v == version);
        self.places(object).iter().position(has)
    }

    pub fn has(&self, object: usize, version: u64) -> bool {
        self.place_of(object, version).is_some()
    }

    pub fn piece(&self, object: usize, version: u64) -> Option<&[u8]> {
        let read = self.places(object).into_iter().flatten();
        read.filter(|(v, _)| *v == version).map(|(_, piece)| piece).next()
    }

    /// The versions that are there, each once, from the lowest on.
    pub fn versions(&self, object: usize) -> Vec<u64> {
        let read = self.places(object).into_iter().flatten();
        let mut versions: Vec<u64> = read.map(|(version, _)| version).collect();
        versions.sort_unstable();
        versions.dedup();
        versions
    }

    /// The place that has the version, else the lowest that reads as nothing or as a version
    /// that an earlier place has.
    fn place_for(&self, object: usize, version: u64) -> Option<usize> {
        let places = self.places(object);
        let free = |place: &usize| match places[*place] {
            Some((v, _)) => places[..*place].iter().flatten().any(|(earlier, _)| *earlier == v),
            None => true,
        };
        self.place_of(object, version).or_else(|| (0..PLACES).find(free))
    }

    /// The writing of a piece; none where four other versions leave no place for it.
    pub fn storing(&self, object: usize, version: u64, piece: &[u8]) -> Option<Writing> {
        let place = self.place_for(object, version)?;
        Some(Writing { object, place, bytes: record(object, self.number, version, piece) })
    }

    pub fn has_place_for(&self, object: usize, version: u64) -> bool {
        self.place_for(object, version).is_some()
    }

    /// The writings, of zeros over the whole record, that take away what reads as a version that
    /// `goes`, copies too, from the lowest place on.
    pub fn clearings(&self, object: usize, goes: impl Fn(u64) -> bool) -> Vec<Writing> {
        let mut clearings = Vec::new();
        for (place, read) in self.places(object).into_iter().enumerate() {
            let Some((version, piece)) = read else { continue };
            if goes(version) {
                let bytes = vec![0; HEAD + piece.len() + SUM];
                clearings.push(Writing { object, place, bytes });
            }
        }
        clearings
    }

    pub fn write(&mut self, writing: &Writing) {
        self.slot(writing.object, writing.place).write(&writing.bytes);
    }

    /// A stop in the middle of a writing: a mixture is left.
    pub fn tear(&mut self, writing: &Writing) {
        self.slot(writing.object, writing.place).tear(&writing.bytes);
    }

    /// Turns the lowest bit of the first byte of a piece; false where there is no such piece.
    pub fn spoil(&mut self, object: usize, version: u64) -> bool {
        let Some(place) = self.place_of(object, version) else { return false };
        self.slot(object, place).bytes[HEAD] ^= 1;
        true
    }

    fn slot(&mut self, object: usize, place: usize) -> &mut Slot {
        &mut self.objects.entry(object).or_default()[place]
    }
}

#[cfg(test)]
mod tests {
    use super::*;

    fn drive_with(versions: &[u64]) -> Drive {
        let mut drive = Drive::empty(2);
        for version in versions {
            let writing = drive.storing(9, *version, &[1, 2, 3]).unwrap();
            drive.write(&writing);
        }
        drive
    }

    #[test]
    fn sums_as_known() {
        assert_eq!(adler(b""), 1);
        assert_eq!(adler(b"Wikipedia"), 0x11e6_0398);
        let many = vec![255u8; 65_574];
        let (mut a, mut b) = (1u64, 0u64);
        for byte in &many {
            a = (a + u64::from(*byte)) % 65_521;
            b = (b + a) % 65_521;
        }
        assert_eq!(u64::from(adler(&many)), b << 16 | a);
    }

    #[test]
    fn the_longest_record_fills_its_slot() {
        let longest = crate::pieces::Rows::of(&vec![1; crate::pieces::LONGEST], 1).piece(0);
        assert_eq!(record(0, 0, 1, &longest).len(), SLOT);
    }

    #[test]
    fn every_changed_byte_is_found() {
        let mut drive = drive_with(&[5]);
        for place in 0..HEAD + 3 + SUM {
            for bit in 0..8 {
                drive.slot(9, 0).bytes[place] ^= 1 << bit;
                assert_ne!(drive.piece(9, 5), Some(&[1, 2, 3][..]));
                drive.slot(9, 0).bytes[place] ^= 1 << bit;
            }
        }
        assert_eq!(drive.piece(9, 5), Some(&[1, 2, 3][..]));
    }

    #[test]
    fn four_versions_leave_no_place_but_their_own() {
        let mut drive = drive_with(&[4, 3, 2, 1]);
        assert_eq!(drive.versions(9), [1, 2, 3, 4]);
        assert_eq!(drive.place_for(9, 5), None);
        assert_eq!(drive.place_for(9, 2), Some(2));
        for writing in drive.clearings(9, |version| version == 3) {
            drive.write(&writing);
        }
        assert_eq!(drive.place_for(9, 5), Some(1));
    }

    #[test]
    fn a_copy_counts_as_free_and_is_taken_away() {
        let mut drive = drive_with(&[4, 3, 2, 1]);
        let copy = record(9, 2, 4, &[1, 2, 3]);
        drive.slot(9, 2).write(&copy);
        assert_eq!(drive.versions(9), [1, 3, 4]);
        assert_eq!(drive.place_for(9, 5), Some(2));
        assert_eq!(drive.clearings(9, |version| version == 4).len(), 2);
    }

    #[test]
    fn a_torn_slot_reads_as_nothing() {
        let mut drive = drive_with(&[4]);
        let other = drive.storing(9, 5, &[7, 8, 9]).unwrap();
        drive.tear(&other);
        assert_eq!(drive.versions(9), [4]);
        let clearing = drive.clearings(9, |_| true);
        drive.tear(&clearing[0]);
        assert_eq!(drive.versions(9), []);
        assert_eq!(drive.slot(9, 0).bytes[..6], [0, 9, 0, 0, 0, 0]);
    }
}
