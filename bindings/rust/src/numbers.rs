//! Columns of numbers whose type is known at compile time.
#![forbid(unsafe_code)]

use crate::arithmetic::copied;
use crate::bitmap::Bits;
use crate::lent::Content;
use crate::mask::zeros;
use crate::structs::{Structs, Typed};
use crate::types::{Integer, Number};
use crate::{calls, Array, BitBuffer, BitOperation, Bitmap, Error, Mask};
use std::fmt;
use std::iter::FusedIterator;
use std::marker::PhantomData;
use std::ops::{Deref, Range};
use std::slice;

/// An [`Array`] of numbers of type `T`, which are borrowed or owned. Rows can be null.
///
/// Arithmetic takes and returns `Numbers`, so a program that mixes number types does not compile.
/// Calls that take an `&Array` also take `&Numbers`. The calls that return one number for a whole
/// column are also methods of `Numbers`, and return a number of type `T`.
///
/// # Examples
///
/// ```
/// use dunkelva::{wrapping_add, wrapping_sub, Array, Error, Numbers};
///
/// let prices = vec![500_i64, 650, 800];
/// let prices = Numbers::from(&prices);
/// let dearer = wrapping_add(&prices, 50)?;
/// assert_eq!(dearer.values(), [550, 700, 850]);
/// let least: i64 = dearer.min()?.unwrap_or_default();
/// assert_eq!(wrapping_sub(&dearer, least)?.values(), [0, 150, 300]);
/// let articles = Array::structs(3, [("price", Array::from(dearer))])?;
/// # Ok::<(), Error>(())
/// ```
///
/// ```compile_fail,E0277
/// # use dunkelva::{wrapping_add, Numbers};
/// let prices: Numbers<i64> = vec![500, 650].into();
/// let dearer = wrapping_add(&prices, 50_i32);
/// ```
#[derive(Clone)]
pub struct Numbers<'a, T> {
    /// An array with `Content::Lent`, whose rows are kept as numbers of type `T`.
    array: Array<'a>,
    of: PhantomData<T>,
}

impl<'a, T: Number> Numbers<'a, T> {
    /// Returns the stored numbers, also those of null rows. In results of calls the numbers of null
    /// rows are 0.
    pub fn values(&self) -> &[T] {
        self.array.values().expect("numbers of this type")
    }

    /// Returns the validity, whose bit is 1 if a row is not null, or `None` if the array has no
    /// validity. Without a validity no row is null.
    pub fn validity(&self) -> Option<Bitmap<'_>> {
        self.array.validity()
    }

    /// Returns a row: `Some(Some(number))`, `Some(None)` for a null, or `None` if `row` is not less
    /// than the number of rows.
    pub fn get(&self, row: usize) -> Option<Option<T>> {
        let is_present = self.validity().map_or(Some(true), |it| it.get(row));
        let value = self.values().get(row)?;
        Some(Some(*value).filter(|_| is_present == Some(true)))
    }

    /// Returns an iterator over the rows, with `None` for nulls.
    pub fn iter(&self) -> Rows<'_, T> {
        Rows {
            values: self.values().iter(),
            validity: self.validity().map(Bitmap::iter),
        }
    }

    /// Sets which rows are null, as [`Array::with_validity`] does.
    ///
    /// # Errors
    ///
    /// [`Error::WrongLength`], if there is not one bit for each row; [`Error::NoMemory`], if an
    /// allocation fails.
    ///
    /// # Examples
    ///
    /// ```
    /// use dunkelva::{Error, Mask, Numbers};
    ///
    /// let is_known = Mask::from(vec![true, false]);
    /// let numbers = Numbers::from(vec![7_u8, 8]).with_validity(is_known)?;
    /// assert!(numbers.iter().eq([Some(7), None]));
    /// # Ok::<(), Error>(())
    /// ```
    pub fn with_validity(self, present: impl Into<BitBuffer<'a>>) -> Result<Self, Error> {
        self.array.with_validity(present).map(Numbers::kept_as)
    }

    /// Sets the format of the numbers, as [`Array::with_format`] does.
    ///
    /// # Errors
    ///
    /// The errors of [`Array::with_format`].
    pub fn with_format(self, format: &str) -> Result<Self, Error> {
        self.array.with_format(format).map(Numbers::kept_as)
    }

    /// Returns `rows` rows, from row `first` on, without a copy.
    ///
    /// # Errors
    ///
    /// [`Error::SliceOutOfBounds`], if there are fewer than `first + rows` rows.
    pub fn slice(&self, first: usize, rows: usize) -> Result<Self, Error> {
        self.array.slice(first, rows).map(Numbers::kept_as)
    }

    /// Converts into an array, without a copy.
    pub fn into_array(self) -> Array<'a> {
        self.array
    }

    /// Takes an array with `Content::Lent`, whose rows are kept as numbers of type `T`.
    fn kept_as(array: Array<'a>) -> Self {
        Numbers {
            array,
            of: PhantomData,
        }
    }
}

/// Calls that return one number for all rows.
impl<T: Integer> Numbers<'_, T> {
    /// Returns the least of all rows that are not null, or `None` if there is no such row, as
    /// [`min`](crate::min) does.
    ///
    /// # Errors
    ///
    /// [`Error::Unsupported`], if the format is [`INTERVAL_DAY_TIME`](crate::format);
    /// [`Error::NoMemory`], if an allocation fails.
    ///
    /// # Examples
    ///
    /// ```
    /// use dunkelva::{wrapping_sub, Error, Numbers};
    ///
    /// let prices: Numbers<i64> = [Some(500), Some(650), None].into_iter().collect();
    /// let least = prices.min()?.unwrap_or_default();
    /// let above = wrapping_sub(&prices, least)?;
    /// assert!(above.iter().eq([Some(0), Some(150), None]));
    /// # Ok::<(), Error>(())
    /// ```
    pub fn min(&self) -> Result<Option<T>, Error> {
        self.of_type(calls::min(self)?)
    }

    /// Returns the greatest of all rows that are not null, or `None` if there is no such row, as
    /// [`max`](crate::max) does.
    ///
    /// # Errors
    ///
    /// [`Error::Unsupported`], if the format is [`INTERVAL_DAY_TIME`](crate::format);
    /// [`Error::NoMemory`], if an allocation fails.
    pub fn max(&self) -> Result<Option<T>, Error> {
        self.of_type(calls::max(self)?)
    }

    /// Returns the least and the greatest of all rows that are not null, or `None` if there is no
    /// such row, as [`min_max`](crate::min_max) does.
    ///
    /// # Errors
    ///
    /// [`Error::Unsupported`], if the format is [`INTERVAL_DAY_TIME`](crate::format);
    /// [`Error::NoMemory`], if an allocation fails.
    pub fn min_max(&self) -> Result<Option<(T, T)>, Error> {
        let both = calls::min_max(self)?;
        let least = self.of_type(both.map(|it| it.0))?;
        Ok(least.zip(self.of_type(both.map(|it| it.1))?))
    }

    /// Returns the sum of all rows that are not null, or `None` if there is no such row, as
    /// [`wrapping_sum`](crate::wrapping_sum) does. The sum wraps around in the type `T`.
    ///
    /// # Errors
    ///
    /// [`Error::Unsupported`], if the format is [`INTERVAL_DAY_TIME`](crate::format);
    /// [`Error::NoMemory`], if an allocation fails.
    ///
    /// # Examples
    ///
    /// ```
    /// use dunkelva::{Error, Numbers};
    ///
    /// assert_eq!(Numbers::from(&[100_i8, 100]).wrapping_sum()?, Some(-56_i8));
    /// # Ok::<(), Error>(())
    /// ```
    pub fn wrapping_sum(&self) -> Result<Option<T>, Error> {
        self.of_type(calls::wrapping_sum(self)?)
    }

    /// Combines all rows that are not null bit by bit, as [`reduce_bits`](crate::reduce_bits) does.
    /// Returns `None` if there is no such row.
    ///
    /// # Errors
    ///
    /// [`Error::Unsupported`], if the format is [`INTERVAL_DAY_TIME`](crate::format);
    /// [`Error::NoMemory`], if an allocation fails.
    ///
    /// # Examples
    ///
    /// ```
    /// use dunkelva::{BitOperation, Error, Numbers};
    ///
    /// let rows = Numbers::from(&[0b1100_u8, 0b0110]);
    /// assert_eq!(rows.reduce_bits(BitOperation::Or)?, Some(0b1110_u8));
    /// # Ok::<(), Error>(())
    /// ```
    pub fn reduce_bits(&self, operation: BitOperation) -> Result<Option<T>, Error> {
        self.of_type(calls::reduce_bits(self, operation)?)
    }

    /// Converts a number that a call returned into the type of the rows, which can represent it.
    fn of_type(&self, number: Option<i128>) -> Result<Option<T>, Error> {
        let same = |number| {
            T::try_from(number).map_err(|_| Error::NotRepresentable {
                number,
                format: self.format().into(),
            })
        };
        number.map(same).transpose()
    }
}

impl<'a, T: Integer> Numbers<'a, T> {
    /// Takes an array whose plain format is that of `T`.
    pub(crate) fn of(array: &Array<'a>) -> Result<Self, Error> {
        let foreign = match &array.content {
            Content::Lent(_) => return Ok(Numbers::kept_as(array.clone())),
            Content::Foreign(foreign) => foreign,
        };
        let (first, rows) = (array.offset, array.rows);
        let numbers = match foreign.numbers::<T>(first.saturating_add(rows)) {
            Some((values, None)) => Array::numbers(values).slice(first, rows)?,
            Some((values, Some(bytes))) => Array::numbers(values)
                .with_validity(Bitmap::new(bytes, 0, values.len())?)?
                .slice(first, rows)?,
            None => copied(Typed::<T>::new(Structs::of(array)), array)?.into_array(),
        };
        let numbers = Numbers::kept_as(numbers);
        if array.format().as_bytes() == T::FORMAT.strip_suffix(b"\0").unwrap_or_default() {
            return Ok(numbers);
        }
        numbers.with_format(array.format())
    }

    /// Makes numbers that a call writes, with a bit for each that is present.
    pub(crate) fn written(
        rows: usize,
        call: impl FnOnce(&mut [T], &mut [u8]) -> Result<(), Error>,
    ) -> Result<Self, Error> {
        let mut values = zeros(rows)?;
        let present = Mask::written(rows, |present| call(&mut values, present))?;
        Ok(Numbers::kept(values, present))
    }

    /// Keeps numbers, with 0 for nulls.
    pub(crate) fn kept(mut values: Vec<T>, present: Mask) -> Self {
        if present.all() {
            return Numbers::from(values);
        }
        for (value, is_present) in values.iter_mut().zip(&present) {
            if !is_present {
                *value = T::default();
            }
        }
        Numbers::kept_as(Array::from(values).with_present(present))
    }

    /// Returns the structs of the array.
    pub(crate) fn typed(&self) -> Typed<'_, T> {
        Typed::new(Structs::of(&self.array))
    }
}

impl<'a, T> Deref for Numbers<'a, T> {
    type Target = Array<'a>;

    fn deref(&self) -> &Array<'a> {
        &self.array
    }
}

impl<'a, T> AsRef<Array<'a>> for Numbers<'a, T> {
    fn as_ref(&self) -> &Array<'a> {
        &self.array
    }
}

impl<'a, T> From<Numbers<'a, T>> for Array<'a> {
    fn from(numbers: Numbers<'a, T>) -> Self {
        numbers.array
    }
}

impl<'a, T: Number> From<&'a [T]> for Numbers<'a, T> {
    /// Borrows the numbers.
    fn from(values: &'a [T]) -> Self {
        Numbers::kept_as(Array::from(values))
    }
}

impl<'a, T: Number, const N: usize> From<&'a [T; N]> for Numbers<'a, T> {
    /// Borrows the numbers.
    fn from(values: &'a [T; N]) -> Self {
        Numbers::kept_as(Array::from(values))
    }
}

impl<'a, T: Number> From<&'a Vec<T>> for Numbers<'a, T> {
    /// Borrows the numbers.
    fn from(values: &'a Vec<T>) -> Self {
        Numbers::kept_as(Array::from(values))
    }
}

impl<T: Number> From<Vec<T>> for Numbers<'_, T> {
    /// Owns the numbers.
    fn from(values: Vec<T>) -> Self {
        Numbers::kept_as(Array::from(values))
    }
}

impl<T: Number> FromIterator<T> for Numbers<'_, T> {
    /// Copies the numbers.
    fn from_iter<I: IntoIterator<Item = T>>(rows: I) -> Self {
        Numbers::kept_as(Array::from_iter(rows))
    }
}

impl<T: Number> FromIterator<Option<T>> for Numbers<'_, T> {
    /// Copies the numbers. `None` becomes a null.
    fn from_iter<I: IntoIterator<Item = Option<T>>>(rows: I) -> Self {
        Numbers::kept_as(Array::from_iter(rows))
    }
}

impl<T: Number> PartialEq for Numbers<'_, T> {
    /// Returns `true` if formats and rows are the same. The numbers stored under nulls are ignored.
    fn eq(&self, other: &Self) -> bool {
        self.format() == other.format() && self.iter().eq(other.iter())
    }
}

impl<T: Integer> Eq for Numbers<'_, T> {}

impl<T: Number> fmt::Debug for Numbers<'_, T> {
    fn fmt(&self, f: &mut fmt::Formatter<'_>) -> fmt::Result {
        f.debug_list().entries(self.iter()).finish()
    }
}

impl<'n, T: Number> IntoIterator for &'n Numbers<'_, T> {
    type Item = Option<T>;
    type IntoIter = Rows<'n, T>;

    fn into_iter(self) -> Rows<'n, T> {
        self.iter()
    }
}

impl<'a, T: Number> IntoIterator for Numbers<'a, T> {
    type Item = Option<T>;
    type IntoIter = IntoRows<'a, T>;

    fn into_iter(self) -> IntoRows<'a, T> {
        let rows = 0..self.len();
        IntoRows {
            numbers: self,
            rows,
        }
    }
}

/// An iterator that owns [`Numbers`] and returns their rows, with `None` for nulls.
#[derive(Clone, Debug)]
pub struct IntoRows<'a, T: Number> {
    numbers: Numbers<'a, T>,
    rows: Range<usize>,
}

impl<T: Number> Iterator for IntoRows<'_, T> {
    type Item = Option<T>;

    fn next(&mut self) -> Option<Option<T>> {
        self.numbers.get(self.rows.next()?)
    }

    fn size_hint(&self) -> (usize, Option<usize>) {
        self.rows.size_hint()
    }
}

impl<T: Number> ExactSizeIterator for IntoRows<'_, T> {}
impl<T: Number> FusedIterator for IntoRows<'_, T> {}

/// An iterator over the rows of [`Numbers`], with `None` for nulls.
#[derive(Clone, Debug)]
pub struct Rows<'n, T> {
    values: slice::Iter<'n, T>,
    validity: Option<Bits<'n>>,
}

impl<T: Number> Iterator for Rows<'_, T> {
    type Item = Option<T>;

    fn next(&mut self) -> Option<Option<T>> {
        let value = self.values.next()?;
        let is_present = self.validity.as_mut().map_or(Some(true), Iterator::next);
        Some(Some(*value).filter(|_| is_present == Some(true)))
    }

    fn size_hint(&self) -> (usize, Option<usize>) {
        self.values.size_hint()
    }
}

impl<T: Number> ExactSizeIterator for Rows<'_, T> {}
impl<T: Number> FusedIterator for Rows<'_, T> {}
