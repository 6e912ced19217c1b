//! An object as rows of `need` bytes, its piece for each drive, and the rows worked out of pieces.
//!
//! A row is the coefficients of a polynomial; the piece on drive d has each polynomial's value
//! at d + 1. Rows are kept as columns (all coefficients of x^0, then all of x^1, ..), so that every
//! operation is one over whole columns or pieces.

use crate::gf;

/// The most bytes that an object may have.
pub const LONGEST: usize = 65_536;

/// The bytes before the object's own, in which its length stands.
const LENGTH: usize = 4;

#[derive(Clone, Debug, PartialEq, Eq)]
pub struct Rows {
    /// `columns[c][r]` is the coefficient of x^c in row r. There are `need` of them, all as long.
    columns: Vec<Vec<u8>>,
}

fn row_count(length: usize, need: usize) -> usize {
    (LENGTH + length).div_ceil(need)
}

fn point(drive: usize) -> u8 {
    drive as u8 + 1
}

impl Rows {
    /// The rows of an object of at most `LONGEST` bytes: its length, its bytes, and zeros.
    pub fn of(object: &[u8], need: usize) -> Rows {
        let mut flat = (object.len() as u32).to_be_bytes().to_vec();
        flat.extend_from_slice(object);
        flat.resize(row_count(object.len(), need) * need, 0);
        let column = |c| flat.iter().skip(c).step_by(need).copied().collect();
        Rows { columns: (0..need).map(column).collect() }
    }

    /// The piece for a drive: Horner's rule, from the highest coefficients down.
    pub fn piece(&self, drive: usize) -> Vec<u8> {
        let mut values = vec![0; self.columns[0].len()];
        for column in self.columns.iter().rev() {
            gf::multiply_and_add(&mut values, point(drive), column);
        }
        values
    }

    /// The object that has these rows; none where no object has.
    pub fn object(&self) -> Option<Vec<u8>> {
        let need = self.columns.len();
        let rows = self.columns[0].len();
        let mut flat = vec![0; rows * need];
        for (c, column) in self.columns.iter().enumerate() {
            for (byte, value) in flat.iter_mut().skip(c).step_by(need).zip(column) {
                *byte = *value;
            }
        }
        let (head, tail) = flat.split_first_chunk::<LENGTH>()?;
        let length = u32::from_be_bytes(*head) as usize;
        let fits = length <= LONGEST && rows == row_count(length, need);
        if !fits || tail[length..].iter().any(|byte| *byte != 0) {
            return None;
        }
        Some(tail[..length].to_vec())
    }
}

/// The powers 1, x, x², .. of a drive's point, `need` of them.
fn powers(drive: usize, need: usize) -> Vec<u8> {
    let next = |power: &u8| Some(gf::product(*power, point(drive)));
    std::iter::successors(Some(1), next).take(need).collect()
}

/// One equation for all rows at once: the left side's factors and the piece on the right.
struct Equation {
    factors: Vec<u8>,
    values: Vec<u8>,
}

impl Equation {
    fn scale(&mut self, factor: u8) {
        gf::scale(&mut self.factors, factor);
        gf::scale(&mut self.values, factor);
    }

    fn add_product(&mut self, factor: u8, other: &Equation) {
        gf::add_product(&mut self.factors, factor, &other.factors);
        gf::add_product(&mut self.values, factor, &other.values);
    }
}

/// The rows whose values at the given drives are the given pieces, by elimination, and only if an
/// object has them. None too where the pieces are fewer or more than `need`, of different
/// lengths, or of one drive twice.
pub fn work_out(need: usize, pieces: &[(usize, &[u8])]) -> Option<Rows> {
    let same_length = pieces.windows(2).all(|pair| pair[0].1.len() == pair[1].1.len());
    if pieces.is_empty() || pieces.len() != need || !same_length {
        return None;
    }
    let equation = |(drive, piece): &(usize, &[u8])| Equation {
        factors: powers(*drive, need),
        values: piece.to_vec(),
    };
    let mut equations: Vec<Equation> = pieces.iter().map(equation).collect();
    for column in 0..need {
        let pivot = (column..need).find(|row| equations[*row].factors[column] != 0)?;
        equations.swap(column, pivot);
        clear_column(&mut equations, column)?;
    }
    let columns = equations.into_iter().map(|equation| equation.values).collect();
    let rows = Rows { columns };
    rows.object().map(|_| rows)
}

/// Makes the factor at (column, column) 1 and every other of that column 0.
fn clear_column(equations: &mut [Equation], column: usize) -> Option<()> {
    let (above, rest) = equations.split_at_mut(column);
    let (pivot, below) = rest.split_first_mut()?;
    pivot.scale(gf::inverse(pivot.factors[column])?);
    for other in above.iter_mut().chain(below) {
        other.add_product(other.factors[column], pivot);
    }
    Some(())
}

#[cfg(test)]
mod tests {
    use super::*;

    #[test]
    fn pieces_of_5_7() {
        let rows = Rows::of(&[5, 7], 2);
        let pieces: Vec<Vec<u8>> = (0..3).map(|drive| rows.piece(drive)).collect();
        assert_eq!(pieces, [[0, 2, 2], [0, 4, 11], [0, 6, 12]]);
        for (a, b) in [(0, 1), (0, 2), (1, 2), (2, 0)] {
            let given = [(a, &pieces[a][..]), (b, &pieces[b][..])];
            assert_eq!(work_out(2, &given).unwrap().object().unwrap(), [5, 7]);
        }
    }

    #[test]
    fn what_was_cut_into_pieces_is_worked_out() {
        for need in [1, 2, 3, 4, 5, 10, 31] {
            for length in [0, 1, need - 1, need, 100, 65_535, 65_536] {
                let object: Vec<u8> = (0..length).map(|i| (i * i / 7 + 3 * i) as u8).collect();
                let rows = Rows::of(&object, need);
                let pieces: Vec<Vec<u8>> = (0..32).map(|drive| rows.piece(drive)).collect();
                let drives = (0..need).map(|i| (i * 7 + length) % 32);
                let given: Vec<(usize, &[u8])> = drives.map(|d| (d, &pieces[d][..])).collect();
                let found = work_out(need, &given).unwrap();
                assert_eq!(found, rows);
                assert_eq!(found.object().unwrap(), object);
            }
        }
    }

    #[test]
    fn what_is_no_objects_pieces_is_refused() {
        assert_eq!(work_out(2, &[(0, &[0, 2, 2])]), None);
        assert_eq!(work_out(2, &[(0, &[0, 2, 2]), (0, &[0, 2, 2])]), None);
        assert_eq!(work_out(2, &[(0, &[0, 2, 2]), (1, &[0, 4])]), None);
        assert_eq!(work_out(2, &[(0, &[]), (1, &[])]), None);
        // A length beyond the longest, another number of rows than the length asks, and a byte
        // behind the object that isn't 0.
        assert_eq!(work_out(1, &[(0, &[0, 1, 0, 1])]), None);
        assert_eq!(work_out(1, &[(0, &[0, 0, 0, 1])]), None);
        assert_eq!(work_out(1, &[(0, &[0, 0, 0, 0, 0])]), None);
        let odd = Rows { columns: vec![vec![0, 0, 5], vec![0, 1, 7]] };
        assert_eq!(odd.object(), None);
    }
}
