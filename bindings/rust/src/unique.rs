//! States that collect distinct values.
#![forbid(unsafe_code)]

use crate::mask::zeros;
use crate::structs::Structs;
use crate::sys::{self, State, StateView, Wide};
use crate::types::bounds;
use crate::{AnyInteger, Array, Error};
use std::ops::RangeInclusive;

/// A state that collects the distinct values of arrays. Each row must be null or a number of the
/// state's range.
///
/// A state has one bit for each number of the range. It does not record how often a value came, or
/// in which rows. Parts of the rows can be appended to different states, also in other threads, and
/// the states can then be merged.
///
/// # Examples
///
/// ```
/// use dunkelva::{Array, Error, Unique};
///
/// let mut seen = Unique::new(1..=10)?;
/// seen.append(&[Some(7), None, Some(3), Some(7)].into_iter().collect::<Array>())?;
/// let mut others = Unique::new(1..=10)?;
/// others.append(&Array::numbers(&[10, 3]))?;
/// seen.merge(&others)?;
/// assert_eq!(seen.values()?, [3, 7, 10]);
/// assert_eq!((seen.count(), seen.has_null()), (4, true));
/// let error = seen.append(&Array::numbers(&[5, 11])).unwrap_err();
/// assert_eq!(error.to_string(), "a row lies outside of the range 1..=10");
/// # Ok::<(), Error>(())
/// ```
#[derive(Clone, Debug, PartialEq, Eq, Hash)]
pub struct Unique {
    least: i128,
    greatest: i128,
    bits: Vec<u64>,
    has_null: bool,
}

impl Unique {
    /// Makes an empty state for the numbers of a range.
    ///
    /// # Errors
    ///
    /// - [`Error::BadRange`], if the range is empty, or has 2^64 - 1 or more numbers.
    /// - [`Error::NoMemory`], if the bits can't be allocated.
    pub fn new<N: AnyInteger>(range: RangeInclusive<N>) -> Result<Self, Error> {
        let (least, greatest) = range.into_inner();
        let (least, greatest) = (least.widen(), greatest.widen());
        let words = sys::unique_words(&Wide::of(least), &Wide::of(greatest));
        if words == 0 {
            return Err(Error::BadRange { least, greatest });
        }
        let mut bits = zeros(words)?;
        Error::check(sys::unique_init(
            &Wide::of(least),
            &Wide::of(greatest),
            &mut bits,
        ))?;
        Ok(Unique {
            least,
            greatest,
            bits,
            has_null: false,
        })
    }

    /// Adds the rows of an array of integers of 8 to 64 bits, dates, times, timestamps, durations,
    /// or decimals of 32 and 64 bits.
    ///
    /// # Errors
    ///
    /// After an error the state is unchanged.
    ///
    /// - [`Error::OutOfUniqueRange`], if a row that is not null is outside of the range.
    /// - [`Error::NotRepresentable`], if the type of the array can't represent an end of the range.
    /// - [`Error::Unsupported`], if the array has another type.
    /// - [`Error::BadStructs`] or [`Error::BadArray`], if the structs or the offsets of a column of
    ///   another crate are wrong.
    /// - [`Error::NoMemory`], if an allocation fails.
    pub fn append(&mut self, array: &Array<'_>) -> Result<(), Error> {
        let structs = Structs::of(array);
        let lowest = array.plain_format().and_then(bounds).map(|it| it.0);
        let has_least = lowest.map_or(true, |it| it <= self.least);
        let number = if has_least { self.greatest } else { self.least };
        let range = self.range();
        self.change(|state| match sys::unique_append(state, &structs) {
            8 => Err(Error::OutOfUniqueRange { range }),
            status => Error::check_number(status, array, number),
        })
    }

    /// Adds the values of another state, and its null if it has one.
    ///
    /// # Errors
    ///
    /// [`Error::RangeMismatch`], if the states have different ranges.
    pub fn merge(&mut self, other: &Unique) -> Result<(), Error> {
        let (left, right) = (self.range(), other.range());
        if left != right {
            return Err(Error::RangeMismatch { left, right });
        }
        let other = other.view();
        self.change(|state| Error::check(sys::unique_merge(state, &other)))
    }

    /// Returns the number of distinct rows. Null counts as one, if it was appended.
    /// [`values`](Unique::values) leaves null out.
    pub fn count(&self) -> u64 {
        self.counts().1
    }

    /// Returns the distinct values in ascending order, without null.
    ///
    /// # Errors
    ///
    /// [`Error::NoMemory`], if an allocation fails.
    pub fn values(&self) -> Result<Vec<i128>, Error> {
        let count = usize::try_from(self.counts().0).map_err(|_| Error::NoMemory)?;
        let mut words = zeros(count)?;
        let mut has_null = 0;
        Error::check(sys::unique_finish(&self.view(), &mut words, &mut has_null))?;
        // A range with numbers below 0 is one of signed numbers.
        let value = |word: u64| {
            if self.least < 0 {
                i128::from(word as i64)
            } else {
                word.into()
            }
        };
        let mut values = zeros(count)?;
        values
            .iter_mut()
            .zip(words)
            .for_each(|(to, word)| *to = value(word));
        Ok(values)
    }

    /// Returns `true` if a null was appended.
    pub fn has_null(&self) -> bool {
        self.has_null
    }

    /// Returns the range of the state.
    pub fn range(&self) -> RangeInclusive<i128> {
        self.least..=self.greatest
    }

    /// Counts the distinct values without and with null.
    fn counts(&self) -> (u64, u64) {
        let (mut values, mut rows) = (0, 0);
        Error::check(sys::unique_count(&self.view(), &mut values, &mut rows))
            .expect("a state that the library made");
        (values, rows)
    }

    fn change(
        &mut self,
        call: impl FnOnce(&mut State<'_>) -> Result<(), Error>,
    ) -> Result<(), Error> {
        let ends = (Wide::of(self.least), Wide::of(self.greatest));
        let mut state = State::of(ends, &mut self.bits, self.has_null);
        call(&mut state)?;
        self.has_null = state.has_null();
        Ok(())
    }

    fn view(&self) -> StateView<'_> {
        let ends = (Wide::of(self.least), Wide::of(self.greatest));
        StateView::of(ends, &self.bits, self.has_null)
    }
}
