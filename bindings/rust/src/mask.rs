//! Truth values, one for each row.
#![forbid(unsafe_code)]

use crate::bitmap::Bits;
use crate::{Bitmap, Error};
use std::fmt;
use std::ops::{BitAnd, BitOr, BitXor, Not};

/// A truth value for each row: the result of a comparison, a validity, or the rows of a column.
///
/// The layout is that of Arrow's validity bitmaps: row `i` is bit `i % 8` of byte `i / 8`. The bits
/// after the last row are 0.
///
/// # Examples
///
/// ```
/// use dunkelva::Mask;
///
/// let is_known: Mask = [true, true, false].into_iter().collect();
/// let is_old = Mask::from(vec![false, true, true]);
/// let both = &is_known & &is_old;
/// assert_eq!(both.set_indices().collect::<Vec<_>>(), [1]);
/// assert!((is_known | is_old).all());
/// ```
#[derive(Clone, Default, PartialEq, Eq, Hash)]
pub struct Mask {
    bytes: Vec<u8>,
    rows: usize,
}

impl Mask {
    /// Makes a mask whose bytes a call writes.
    pub(crate) fn written(
        rows: usize,
        call: impl FnOnce(&mut [u8]) -> Result<(), Error>,
    ) -> Result<Mask, Error> {
        let mut bytes = zeros(rows / 8 + usize::from(rows % 8 != 0))?;
        call(&mut bytes)?;
        Ok(Mask { bytes, rows })
    }

    /// Appends a row.
    pub(crate) fn push(&mut self, value: bool) {
        if self.rows % 8 == 0 {
            self.bytes.push(0);
        }
        if let Some(last) = self.bytes.last_mut() {
            *last |= u8::from(value) << (self.rows % 8);
        }
        self.rows += 1;
    }

    /// Returns the number of rows.
    pub fn len(&self) -> usize {
        self.rows
    }

    /// Returns `true` if there is no row.
    pub fn is_empty(&self) -> bool {
        self.rows == 0
    }

    /// Returns the truth value of a row, or `None` if `row` is not less than the number of rows.
    pub fn get(&self, row: usize) -> Option<bool> {
        (row < self.rows).then(|| self.bytes[row / 8] >> (row % 8) & 1 == 1)
    }

    /// Returns an iterator over the truth values, row by row.
    pub fn iter(&self) -> Bits<'_> {
        self.bitmap().iter()
    }

    /// Returns the number of rows that are true.
    pub fn count_set(&self) -> usize {
        self.bytes
            .iter()
            .map(|byte| byte.count_ones() as usize)
            .sum()
    }

    /// Returns `true` if all rows are true, or if there is no row.
    pub fn all(&self) -> bool {
        self.count_set() == self.rows
    }

    /// Returns `true` if at least one row is true.
    pub fn any(&self) -> bool {
        self.bytes.iter().any(|&byte| byte != 0)
    }

    /// Returns an iterator over the indices of the rows that are true, in ascending order.
    pub fn set_indices(&self) -> impl Iterator<Item = usize> + '_ {
        self.iter()
            .enumerate()
            .filter(|(_, is_true)| *is_true)
            .map(|(row, _)| row)
    }

    /// Borrows the bytes, each with the truth values of eight rows.
    pub fn as_bytes(&self) -> &[u8] {
        &self.bytes
    }

    /// Returns the bytes, each with the truth values of eight rows.
    pub fn into_bytes(self) -> Vec<u8> {
        self.bytes
    }

    /// Borrows the truth values as a [`Bitmap`].
    pub fn bitmap(&self) -> Bitmap<'_> {
        Bitmap::new(&self.bytes, 0, self.rows).expect("a mask has a bit for each row")
    }
}

impl Not for Mask {
    type Output = Mask;

    /// Negates each truth value.
    fn not(mut self) -> Mask {
        for byte in &mut self.bytes {
            *byte = !*byte;
        }
        if self.rows % 8 != 0 {
            if let Some(last) = self.bytes.last_mut() {
                *last &= (1 << (self.rows % 8)) - 1;
            }
        }
        self
    }
}

impl Not for &Mask {
    type Output = Mask;

    /// Negates each truth value.
    fn not(self) -> Mask {
        !self.clone()
    }
}

macro_rules! joined {
    ($($operator:ident: $call:ident, $join:tt, $assign:tt, $what:literal;)*) => {
        $(
            impl $operator<&Mask> for Mask {
                type Output = Mask;

                #[doc = $what]
                ///
                /// # Panics
                ///
                /// If the masks differ in length.
                fn $call(mut self, other: &Mask) -> Mask {
                    assert_eq!(self.rows, other.rows, "the masks differ in length");
                    for (byte, other) in self.bytes.iter_mut().zip(&other.bytes) {
                        *byte $assign other;
                    }
                    self
                }
            }

            impl $operator for Mask {
                type Output = Mask;

                #[doc = $what]
                ///
                /// # Panics
                ///
                /// If the masks differ in length.
                fn $call(self, other: Mask) -> Mask {
                    self $join &other
                }
            }

            impl $operator for &Mask {
                type Output = Mask;

                #[doc = $what]
                ///
                /// # Panics
                ///
                /// If the masks differ in length.
                fn $call(self, other: &Mask) -> Mask {
                    self.clone() $join other
                }
            }
        )*
    };
}

joined! {
    BitAnd: bitand, &, &=, "Returns a mask of the rows that are true in both masks.";
    BitOr: bitor, |, |=, "Returns a mask of the rows that are true in at least one of the masks.";
    BitXor: bitxor, ^, ^=, "Returns a mask of the rows that are true in exactly one of the masks.";
}

impl Extend<bool> for Mask {
    fn extend<I: IntoIterator<Item = bool>>(&mut self, values: I) {
        values.into_iter().for_each(|value| self.push(value));
    }
}

impl FromIterator<bool> for Mask {
    fn from_iter<I: IntoIterator<Item = bool>>(values: I) -> Mask {
        let mut mask = Mask::default();
        mask.extend(values);
        mask
    }
}

impl From<Vec<bool>> for Mask {
    /// Packs truth values into bytes, eight in each.
    fn from(values: Vec<bool>) -> Mask {
        values.into_iter().collect()
    }
}

impl From<Bitmap<'_>> for Mask {
    /// Copies the bits.
    fn from(bits: Bitmap<'_>) -> Mask {
        bits.iter().collect()
    }
}

impl<'a> IntoIterator for &'a Mask {
    type Item = bool;
    type IntoIter = Bits<'a>;

    fn into_iter(self) -> Bits<'a> {
        self.iter()
    }
}

impl fmt::Debug for Mask {
    fn fmt(&self, f: &mut fmt::Formatter<'_>) -> fmt::Result {
        f.debug_list().entries(self.iter()).finish()
    }
}

/// Returns numbers that are 0, if there is memory for them.
pub(crate) fn zeros<T: Clone + Default>(count: usize) -> Result<Vec<T>, Error> {
    let mut numbers = Vec::new();
    numbers
        .try_reserve_exact(count)
        .map_err(|_| Error::NoMemory)?;
    numbers.resize(count, T::default());
    Ok(numbers)
}
