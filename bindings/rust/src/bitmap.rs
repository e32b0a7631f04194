//! Borrowed bits, one for each row.
#![forbid(unsafe_code)]

use crate::mask::{zeros, Mask};
use crate::Error;
use std::iter::FusedIterator;
use std::ops::Range;

/// Borrowed bits, one for each row, in the layout of Arrow's validity bitmaps: the lowest bit of a
/// byte comes first.
///
/// # Examples
///
/// ```
/// use dunkelva::{Bitmap, Error};
///
/// let bits = Bitmap::new(&[0b0110_0000, 0b1], 5, 4)?;
/// assert_eq!(bits.iter().collect::<Vec<_>>(), [true, true, false, true]);
/// assert_eq!(Bitmap::new(&[0xff], 5, 4).unwrap_err().to_string(),
///     "the bits have length 8, and 9 is needed");
/// # Ok::<(), Error>(())
/// ```
#[derive(Clone, Copy, Debug)]
pub struct Bitmap<'a> {
    bytes: &'a [u8],
    first: usize,
    rows: usize,
}

impl<'a> Bitmap<'a> {
    /// Borrows `rows` bits of a slice, from bit `first` on.
    ///
    /// # Errors
    ///
    /// [`Error::WrongLength`], if the slice has fewer than `first + rows` bits.
    pub fn new(bytes: &'a [u8], first: usize, rows: usize) -> Result<Self, Error> {
        let has = bytes.len().saturating_mul(8);
        let needs = first.saturating_add(rows);
        if needs > has {
            return Err(Error::WrongLength {
                what: "bits".into(),
                has,
                needs,
            });
        }
        Ok(Bitmap {
            bytes: &bytes[first / 8..],
            first: first % 8,
            rows,
        })
    }

    /// Returns the number of rows.
    pub fn len(&self) -> usize {
        self.rows
    }

    /// Returns `true` if there is no row.
    pub fn is_empty(&self) -> bool {
        self.rows == 0
    }

    /// Returns the bit of a row, or `None` if `row` is not less than the number of rows.
    pub fn get(&self, row: usize) -> Option<bool> {
        (row < self.rows).then(|| {
            let place = self.first + row;
            self.bytes[place / 8] >> (place % 8) & 1 == 1
        })
    }

    /// Returns an iterator over the bits, row by row.
    pub fn iter(self) -> Bits<'a> {
        Bits {
            rows: 0..self.rows,
            bitmap: self,
        }
    }

    /// Returns the number of bits that are 1.
    pub fn count_set(self) -> usize {
        let whole = (0..self.rows / 8).map(|at| self.byte(8 * at).count_ones() as usize);
        let others = (self.rows / 8 * 8..self.rows).filter(|&row| self.get(row) == Some(true));
        whole.sum::<usize>() + others.count()
    }

    /// Returns the bit of the first byte in which the rows begin, and the bytes.
    pub(crate) fn parts(self) -> (usize, &'a [u8]) {
        (self.first, self.bytes)
    }

    /// Returns a copy in which the rows begin at bit `first`, if there is memory for it.
    pub(crate) fn moved(self, first: usize) -> Result<Vec<u8>, Error> {
        let mut moved = zeros((first + self.rows) / 8 + 2)?;
        for row in (0..self.rows).step_by(8) {
            let at = (first + row) / 8;
            let [low, high] = (u16::from(self.byte(row)) << (first % 8)).to_le_bytes();
            moved[at] |= low;
            moved[at + 1] |= high;
        }
        Ok(moved)
    }

    /// Returns the bits of eight rows, from `row` on, which is a multiple of 8. The bits after the
    /// last row have no meaning.
    fn byte(self, row: usize) -> u8 {
        let at = row / 8;
        let above = self.bytes.get(at + 1).copied().unwrap_or(0);
        let pair = u16::from_le_bytes([self.bytes[at], above]);
        (pair >> self.first).to_le_bytes()[0]
    }
}

impl<'a> From<&'a Mask> for Bitmap<'a> {
    fn from(mask: &'a Mask) -> Self {
        mask.bitmap()
    }
}

impl<'a> IntoIterator for Bitmap<'a> {
    type Item = bool;
    type IntoIter = Bits<'a>;

    fn into_iter(self) -> Bits<'a> {
        self.iter()
    }
}

/// An iterator over the bits of a [`Bitmap`] or a [`Mask`], row by row.
#[derive(Clone, Debug)]
pub struct Bits<'a> {
    rows: Range<usize>,
    bitmap: Bitmap<'a>,
}

impl Iterator for Bits<'_> {
    type Item = bool;

    fn next(&mut self) -> Option<bool> {
        self.rows.next().and_then(|row| self.bitmap.get(row))
    }

    fn nth(&mut self, skipped: usize) -> Option<bool> {
        self.rows.nth(skipped).and_then(|row| self.bitmap.get(row))
    }

    fn size_hint(&self) -> (usize, Option<usize>) {
        self.rows.size_hint()
    }
}

impl DoubleEndedIterator for Bits<'_> {
    fn next_back(&mut self) -> Option<bool> {
        self.rows.next_back().and_then(|row| self.bitmap.get(row))
    }
}

impl ExactSizeIterator for Bits<'_> {}
impl FusedIterator for Bits<'_> {}

#[cfg(test)]
mod tests {
    use super::Bitmap;

    #[test]
    fn bits_move_to_any_place() {
        let bytes: Vec<u8> = (0_u32..40)
            .map(|it| it.wrapping_mul(2_654_435_761).to_be_bytes()[0])
            .collect();
        for first in 0..9 {
            for rows in [0, 1, 7, 8, 9, 63, 64, 65, 300] {
                let bits = Bitmap::new(&bytes, first, rows).unwrap();
                assert_eq!(bits.count_set(), bits.iter().filter(|it| *it).count());
                assert_eq!(bits.iter().len(), rows);
                for to in [0, 1, 5, 7, 8, 17] {
                    let moved = bits.moved(to).unwrap();
                    let again = Bitmap::new(&moved, to, rows).unwrap();
                    assert!(bits.iter().eq(again.iter()), "{first} {rows} {to}");
                }
            }
        }
    }
}
