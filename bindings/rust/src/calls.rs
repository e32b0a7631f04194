//! Comparisons, sums and extremes of arrays.
#![forbid(unsafe_code)]

use crate::structs::Structs;
use crate::sys::{self, Wide};
use crate::{AnyInteger, Array, Error, Mask};
use std::os::raw::c_uint;

/// Options of [`equal_with`] and [`equal_counted`]. The default is the comparison of [`equal`].
///
/// # Examples
///
/// ```
/// use dunkelva::EqualOptions;
///
/// let options = EqualOptions::new().floats_by_bits(true).check_texts(true);
/// assert_ne!(options, EqualOptions::default());
/// ```
#[derive(Clone, Copy, Debug, Default, PartialEq, Eq, Hash)]
pub struct EqualOptions {
    floats_by_bits: bool,
    check_texts: bool,
}

impl EqualOptions {
    /// Returns the default options: both options are off.
    pub const fn new() -> Self {
        EqualOptions {
            floats_by_bits: false,
            check_texts: false,
        }
    }

    /// Sets whether floats are compared by their bits. A NaN is then equal to a NaN with the same
    /// bits, and -0 is not equal to 0. If not set, arrays with floats are refused.
    #[must_use]
    pub const fn floats_by_bits(self, floats_by_bits: bool) -> Self {
        EqualOptions {
            floats_by_bits,
            ..self
        }
    }

    /// Sets whether texts are checked to be UTF-8. The check takes several times as long as the
    /// comparison. If not set, texts are compared byte by byte.
    #[must_use]
    pub const fn check_texts(self, check_texts: bool) -> Self {
        EqualOptions {
            check_texts,
            ..self
        }
    }

    /// Adds a hint to the error, if the refused type needs only the option `floats_by_bits`.
    /// Returns other errors unchanged.
    fn explain(self, error: Error, left: &Array<'_>, right: &Array<'_>) -> Error {
        let by_bits = self.floats_by_bits(true);
        match &error {
            Error::Unsupported { format } if !self.floats_by_bits => {
                let would_take = |it: &Array<'_>| it.type_text() == *format && by_bits.takes(it);
                match would_take(left) || would_take(right) {
                    true => error.or_floats(),
                    false => error,
                }
            }
            _ => error,
        }
    }

    /// Says whether the library compares arrays of this type with these options.
    fn takes(self, array: &Array<'_>) -> bool {
        let no_rows = array.slice(0, 0);
        no_rows.map_or(false, |it| {
            let structs = Structs::of(&it);
            sys::equal(&structs, &structs, self.flags(), &mut []) != 5
        })
    }

    fn flags(self) -> u32 {
        u32::from(self.floats_by_bits) | u32::from(self.check_texts) << 1
    }
}

/// A comparison of two numbers, each of which can be null.
#[derive(Clone, Copy, Debug, PartialEq, Eq, Hash)]
pub enum Comparison {
    /// True if both are the same number, or both are null.
    Equal = 0,
    /// True if the numbers differ, or exactly one of them is null.
    Unequal = 1,
    /// True if the left number is less than the right number. False if one is null.
    Less = 2,
    /// True if the left number is less than or equal to the right number. False if one is null.
    LessOrEqual = 3,
    /// True if the left number is greater than the right number. False if one is null.
    Greater = 4,
    /// True if the left number is greater than or equal to the right number. False if one is null.
    GreaterOrEqual = 5,
}

/// An operation that combines numbers bit by bit.
#[derive(Clone, Copy, Debug, PartialEq, Eq, Hash)]
pub enum BitOperation {
    /// A bit is 1 if it is 1 in all numbers.
    And = 0,
    /// A bit is 1 if it is 1 in at least one number.
    Or = 1,
    /// A bit is 1 if it is 1 in an odd number of numbers.
    Xor = 2,
}

/// Compares two arrays of the same type and length, row by row. Returns `true` for equal rows.
///
/// A null is equal only to a null. Lists are compared item by item, structs field by field, and
/// dictionaries by the entries that their keys name. Two types are the same if their formats are
/// the same text, at each level, and if the fields of structs have the same names in the same
/// order.
///
/// # Errors
///
/// - [`Error::LengthMismatch`] or [`Error::TypeMismatch`], if the arrays differ in length or type.
/// - [`Error::FloatsUnsupported`], if the arrays have floats: use [`equal_with`].
/// - [`Error::Unsupported`], if a column of another crate has a type that the library does not
///   take.
/// - [`Error::BadArray`], if a key names no entry, or a view does not match its bytes.
/// - [`Error::BadStructs`], if the structs of a column of another crate are wrong.
/// - [`Error::NoMemory`], if an allocation fails.
///
/// # Examples
///
/// ```
/// use dunkelva::{equal, Array, Error};
///
/// let old: Array = [Some(1), None, Some(3), None].into_iter().collect();
/// let new: Array = [Some(1), None, Some(4), Some(5)].into_iter().collect();
/// let same = equal(&old, &new)?;
/// assert_eq!(same.iter().collect::<Vec<_>>(), [true, true, false, false]);
/// # Ok::<(), Error>(())
/// ```
pub fn equal(left: &Array<'_>, right: &Array<'_>) -> Result<Mask, Error> {
    equal_with(left, right, EqualOptions::default())
}

/// Compares two arrays of the same type and length, row by row. Returns `true` for rows that
/// differ.
///
/// The result is `!equal(left, right)`.
///
/// # Errors
///
/// The errors of [`equal`].
pub fn not_equal(left: &Array<'_>, right: &Array<'_>) -> Result<Mask, Error> {
    Ok(!equal(left, right)?)
}

/// Compares two arrays of the same type and length, row by row, with options. Returns `true` for
/// equal rows.
///
/// # Errors
///
/// The errors of [`equal`]. With [`EqualOptions::check_texts`] also [`Error::BadArray`], if a text
/// is not UTF-8.
///
/// # Examples
///
/// ```
/// use dunkelva::{equal_with, Array, EqualOptions, Error};
///
/// let left = Array::numbers(&[0.5, f64::NAN, 0.0]);
/// let right = Array::numbers(&[0.5, f64::NAN, -0.0]);
/// let same = equal_with(&left, &right, EqualOptions::new().floats_by_bits(true))?;
/// assert_eq!(same.iter().collect::<Vec<_>>(), [true, true, false]);
/// # Ok::<(), Error>(())
/// ```
pub fn equal_with(
    left: &Array<'_>,
    right: &Array<'_>,
    options: EqualOptions,
) -> Result<Mask, Error> {
    let same = of_two(left, right, |one, other, out| {
        sys::equal(one, other, options.flags(), out)
    });
    same.map_err(|error| options.explain(error, left, right))
}

/// Compares two arrays as [`equal_with`] does, and counts the leaf values that were compared. A
/// leaf value is a stored number, truth value, text or byte string. Values under null structs can
/// count too.
///
/// # Errors
///
/// The errors of [`equal_with`].
///
/// # Examples
///
/// ```
/// use dunkelva::{equal_counted, Array, EqualOptions, Error};
///
/// let lists = Array::lists(&[0, 2, 3], Array::numbers(&[1, 2, 3]))?;
/// let (same, comparisons) = equal_counted(&lists, &lists, EqualOptions::default())?;
/// assert!(same.all());
/// assert_eq!(comparisons, 3);
/// # Ok::<(), Error>(())
/// ```
pub fn equal_counted(
    left: &Array<'_>,
    right: &Array<'_>,
    options: EqualOptions,
) -> Result<(Mask, u64), Error> {
    let mut count = 0;
    let same = of_two(left, right, |one, other, out| {
        sys::equal_rows(one, other, options.flags(), out, &mut count)
    });
    let same = same.map_err(|error| options.explain(error, left, right))?;
    Ok((same, count))
}

/// Finds the null rows of an array of any type. Returns `true` for null rows.
///
/// A row of a dictionary is null if its key is null, or if the key names an entry that is null.
///
/// # Errors
///
/// - [`Error::Unsupported`], if a column of another crate has a type that the library does not
///   take.
/// - [`Error::BadArray`], if a key names no entry.
/// - [`Error::BadStructs`], if the structs of a column of another crate are wrong.
/// - [`Error::NoMemory`], if an allocation fails.
///
/// # Examples
///
/// ```
/// use dunkelva::{is_null, Array, Error};
///
/// let words = Array::from_texts([Some("a"), None, Some("b")])?;
/// assert_eq!(is_null(&words)?.set_indices().collect::<Vec<_>>(), [1]);
/// # Ok::<(), Error>(())
/// ```
pub fn is_null(array: &Array<'_>) -> Result<Mask, Error> {
    let structs = Structs::of(array);
    Mask::written(array.len(), |out| {
        Error::check_array(sys::is_null(&structs, out), array)
    })
}

/// Compares two arrays of numbers of the same type and length, row by row.
///
/// Takes arrays of integers of 8 to 64 bits, dates, times, timestamps, durations, and decimals of
/// 32 and 64 bits.
///
/// # Errors
///
/// - [`Error::LengthMismatch`] or [`Error::TypeMismatch`], if the arrays differ in length or type.
/// - [`Error::Unsupported`], if an array has another type.
/// - [`Error::BadStructs`] or [`Error::BadArray`], if the structs or the offsets of a column of
///   another crate are wrong.
/// - [`Error::NoMemory`], if an allocation fails.
///
/// # Examples
///
/// ```
/// use dunkelva::{compare, Array, Comparison, Error};
///
/// let old: Array = [Some(1), Some(2), None].into_iter().collect();
/// let less = compare(&old, Comparison::Less, &Array::numbers(&[2, 2, 2]))?;
/// assert_eq!(less.iter().collect::<Vec<_>>(), [true, false, false]);
/// # Ok::<(), Error>(())
/// ```
pub fn compare(left: &Array<'_>, comparison: Comparison, right: &Array<'_>) -> Result<Mask, Error> {
    of_two(left, right, |one, other, out| {
        sys::compare(comparison as c_uint, one, other, out)
    })
}

/// Compares each row of an array of numbers with one number, which is on the right side.
///
/// Takes arrays of integers of 8 to 64 bits, dates, times, timestamps, durations, and decimals of
/// 32 and 64 bits.
///
/// # Errors
///
/// - [`Error::NotRepresentable`], if the type of the array can't represent the number.
/// - [`Error::Unsupported`], if the array has another type.
/// - [`Error::BadStructs`] or [`Error::BadArray`], if the structs or the offsets of a column of
///   another crate are wrong.
/// - [`Error::NoMemory`], if an allocation fails.
///
/// # Examples
///
/// ```
/// use dunkelva::{compare_number, Array, Comparison, Error};
///
/// let bytes = Array::numbers(&[7_u8, 200]);
/// let large = compare_number(&bytes, Comparison::Greater, 100)?;
/// assert_eq!(large.set_indices().collect::<Vec<_>>(), [1]);
/// let error = compare_number(&bytes, Comparison::Greater, 256).unwrap_err();
/// assert_eq!(error.to_string(), "the type C (UInt8) has no number 256");
/// # Ok::<(), Error>(())
/// ```
pub fn compare_number(
    array: &Array<'_>,
    comparison: Comparison,
    number: impl AnyInteger,
) -> Result<Mask, Error> {
    let (structs, number) = (Structs::of(array), number.widen());
    Mask::written(array.len(), |out| {
        let wide = Wide::of(number);
        let status = sys::compare_number(comparison as c_uint, &structs, &wide, out);
        Error::check_number(status, array, number)
    })
}

/// Returns the sum of all rows that are not null, or `None` if there is no such row.
///
/// The sum wraps around in the number type of the array, although it is returned as an `i128`: the
/// sum of the `i8` rows 100 and 100 is -56.
///
/// Takes arrays of integers of 8 to 64 bits, dates, times, timestamps, durations, and decimals of
/// 32 and 64 bits.
///
/// # Errors
///
/// - [`Error::Unsupported`], if the array has another type.
/// - [`Error::BadStructs`] or [`Error::BadArray`], if the structs or the offsets of a column of
///   another crate are wrong.
/// - [`Error::NoMemory`], if an allocation fails.
///
/// # Examples
///
/// ```
/// use dunkelva::{wrapping_sum, Array, Error};
///
/// assert_eq!(wrapping_sum(&Array::numbers(&[1_u64, 2, u64::MAX - 3]))?, Some(u64::MAX.into()));
/// assert_eq!(wrapping_sum(&Array::numbers(&[100_i8, 100]))?, Some(-56));
/// assert_eq!(wrapping_sum(&Array::numbers::<i8>(&[]))?, None);
/// # Ok::<(), Error>(())
/// ```
pub fn wrapping_sum(array: &Array<'_>) -> Result<Option<i128>, Error> {
    let mut sum = Wide::default();
    Error::check_array(sys::sum(&Structs::of(array), &mut sum), array)?;
    Ok(sum.number())
}

/// Returns the least and the greatest of all rows that are not null, or `None` if there is no such
/// row.
///
/// Takes arrays of integers of 8 to 64 bits, dates, times, timestamps, durations, and decimals of
/// 32 and 64 bits.
///
/// # Errors
///
/// - [`Error::Unsupported`], if the array has another type.
/// - [`Error::BadStructs`] or [`Error::BadArray`], if the structs or the offsets of a column of
///   another crate are wrong.
/// - [`Error::NoMemory`], if an allocation fails.
///
/// # Examples
///
/// ```
/// use dunkelva::{min_max, Array, Error};
///
/// let rows: Array = [Some(3), None, Some(-1)].into_iter().collect();
/// assert_eq!(min_max(&rows)?, Some((-1, 3)));
/// # Ok::<(), Error>(())
/// ```
pub fn min_max(array: &Array<'_>) -> Result<Option<(i128, i128)>, Error> {
    let (mut least, mut greatest) = (Wide::default(), Wide::default());
    let status = sys::min_max(&Structs::of(array), &mut least, &mut greatest);
    Error::check_array(status, array)?;
    Ok(least.number().zip(greatest.number()))
}

/// Returns the least of all rows that are not null, or `None` if there is no such row.
///
/// Takes arrays of integers of 8 to 64 bits, dates, times, timestamps, durations, and decimals of
/// 32 and 64 bits.
///
/// # Errors
///
/// - [`Error::Unsupported`], if the array has another type.
/// - [`Error::BadStructs`] or [`Error::BadArray`], if the structs or the offsets of a column of
///   another crate are wrong.
/// - [`Error::NoMemory`], if an allocation fails.
pub fn min(array: &Array<'_>) -> Result<Option<i128>, Error> {
    Ok(min_max(array)?.map(|(least, _)| least))
}

/// Returns the greatest of all rows that are not null, or `None` if there is no such row.
///
/// Takes arrays of integers of 8 to 64 bits, dates, times, timestamps, durations, and decimals of
/// 32 and 64 bits.
///
/// # Errors
///
/// - [`Error::Unsupported`], if the array has another type.
/// - [`Error::BadStructs`] or [`Error::BadArray`], if the structs or the offsets of a column of
///   another crate are wrong.
/// - [`Error::NoMemory`], if an allocation fails.
pub fn max(array: &Array<'_>) -> Result<Option<i128>, Error> {
    Ok(min_max(array)?.map(|(_, greatest)| greatest))
}

/// Combines all rows that are not null bit by bit. Returns `None` if there is no such row.
///
/// Takes arrays of integers of 8 to 64 bits, dates, times, timestamps, durations, and decimals of
/// 32 and 64 bits.
///
/// # Errors
///
/// - [`Error::Unsupported`], if the array has another type.
/// - [`Error::BadStructs`] or [`Error::BadArray`], if the structs or the offsets of a column of
///   another crate are wrong.
/// - [`Error::NoMemory`], if an allocation fails.
///
/// # Examples
///
/// ```
/// use dunkelva::{reduce_bits, Array, BitOperation, Error};
///
/// let rows = Array::numbers(&[0b1100_u8, 0b0110]);
/// assert_eq!(reduce_bits(&rows, BitOperation::And)?, Some(0b0100));
/// assert_eq!(reduce_bits(&rows, BitOperation::Or)?, Some(0b1110));
/// assert_eq!(reduce_bits(&rows, BitOperation::Xor)?, Some(0b1010));
/// # Ok::<(), Error>(())
/// ```
pub fn reduce_bits(array: &Array<'_>, operation: BitOperation) -> Result<Option<i128>, Error> {
    let mut result = Wide::default();
    let status = sys::reduce_bits(operation as c_uint, &Structs::of(array), &mut result);
    Error::check_array(status, array)?;
    Ok(result.number())
}

/// Makes a mask of two arrays of the same length with a call that returns a status.
fn of_two(
    left: &Array<'_>,
    right: &Array<'_>,
    mut call: impl FnMut(&Structs<'_>, &Structs<'_>, &mut [u8]) -> i32,
) -> Result<Mask, Error> {
    left.has_length_of(right)?;
    let (one, other) = (Structs::of(left), Structs::of(right));
    Mask::written(left.len(), |out| match call(&one, &other, out) {
        2 => Err(Error::types_differ(left, right)),
        5 => {
            // The right type is not supported, if the left array can be compared with itself.
            let is_left = call(&one, &one, out) == 5;
            Err(Error::unsupported(if is_left { left } else { right }))
        }
        status => Error::check(status),
    })
}

/// Returns the version of the library `libdunkelva`.
pub fn library_version() -> &'static str {
    sys::version()
}

impl Wide {
    /// Splits a number into two halves of 64 bits.
    pub(crate) fn of(number: i128) -> Wide {
        let [low, high] = [number, number >> 64].map(|it| (it & i128::from(u64::MAX)) as u64);
        Wide {
            low,
            high,
            exists: 1,
        }
    }

    /// Returns the number, if it exists.
    fn number(&self) -> Option<i128> {
        let whole = u128::from(self.high) << 64 | u128::from(self.low);
        (self.exists != 0).then_some(whole as i128)
    }
}
