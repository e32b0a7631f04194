//! The errors of this crate.
#![forbid(unsafe_code)]

use crate::names::Shown;
use crate::Array;
use std::fmt;
use std::ops::RangeInclusive;

/// An error of this crate: the reason why an array can't be made, or why a call has no result.
///
/// A type is written as its format in the [Arrow C data
/// interface](https://arrow.apache.org/docs/format/CDataInterface.html), followed by the types in
/// it: `l`, `+l<u>`, `+s<id: l, name: u>`. A dictionary is written as its keys and its entries:
/// `C<u>`. The name of a field is in quotes if it has characters other than letters, digits and
/// `_`. Messages also have Arrow's name of the type: `l (Int64)`, `+l<u> (List(Utf8))`.
#[derive(Clone, Debug, PartialEq, Eq, Hash)]
#[non_exhaustive]
pub enum Error {
    /// Two arrays differ in length.
    LengthMismatch {
        /// The number of rows on the left.
        left: usize,
        /// The number of rows on the right.
        right: usize,
    },
    /// Two arrays differ in type, or an array does not have the requested type.
    TypeMismatch {
        /// The type on the left.
        left: String,
        /// The type on the right, or the requested type.
        right: String,
    },
    /// Two [`Unique`](crate::Unique)s have different ranges.
    RangeMismatch {
        /// The range on the left.
        left: RangeInclusive<i128>,
        /// The range on the right.
        right: RangeInclusive<i128>,
    },
    /// The type of an array can't represent a number.
    NotRepresentable {
        /// The number.
        number: i128,
        /// The type.
        format: String,
    },
    /// A row is outside of the range of a [`Unique`](crate::Unique).
    OutOfUniqueRange {
        /// The range.
        range: RangeInclusive<i128>,
    },
    /// A range is empty, or has 2^64 - 1 or more numbers, both ends included.
    BadRange {
        /// The lower end.
        least: i128,
        /// The upper end.
        greatest: i128,
    },
    /// A slice, a validity, or an array in another array has the wrong length.
    WrongLength {
        /// The name of the part that has the wrong length.
        what: String,
        /// Its length.
        has: usize,
        /// The length that is needed. A longer slice is also accepted.
        needs: usize,
    },
    /// The last offset is greater than the number of bytes or items.
    OffsetsPastEnd {
        /// The last offset.
        end: usize,
        /// `"bytes"` or `"items"`.
        what: &'static str,
        /// The number of bytes or items.
        has: usize,
    },
    /// The rows of a slice are outside of the array.
    SliceOutOfBounds {
        /// The first requested row.
        first: usize,
        /// The number of requested rows.
        rows: usize,
        /// The number of rows in the array.
        len: usize,
    },
    /// An offset is negative, or less than the offset before it.
    BadOffsets,
    /// Texts or byte strings have more than `i32::MAX` bytes. For more bytes use [`Array::texts`]
    /// or [`Array::binary`] with offsets of `i64`.
    TooLong,
    /// A format does not fit the number type of an array.
    BadFormat {
        /// The format.
        format: String,
        /// The type of the array.
        array: String,
    },
    /// The precision of decimals of 128 bits is not from 1 to 38.
    BadPrecision {
        /// The requested precision.
        precision: u8,
    },
    /// The name of a field contains a zero byte.
    BadName {
        /// The name.
        name: String,
    },
    /// Types are nested more than 64 levels deep.
    TooDeep,
    /// An array has more than 2^20 types in it.
    TooManyTypes,
    /// The call does not take arrays of this type.
    Unsupported {
        /// The type.
        format: String,
    },
    /// An array has floats. They are compared only by [`equal_with`](crate::equal_with) and
    /// [`equal_counted`](crate::equal_counted) with
    /// [`floats_by_bits`](crate::EqualOptions::floats_by_bits).
    FloatsUnsupported {
        /// The type of the array.
        format: String,
    },
    /// A column of another crate has its own validity, which can't be replaced.
    ForeignValidity,
    /// A key names no entry, a view does not match its bytes, or a text is not UTF-8. In a column
    /// of another crate also: an offset is less than the offset before it, or the name of a field
    /// is not UTF-8. The library does not say which of these faults it found.
    BadArray,
    /// The structs of a column of another crate break the rules of the Arrow C data interface, or
    /// have too many types or levels.
    BadStructs,
    /// The library refused an argument.
    BadArgument,
    /// An allocation failed.
    NoMemory,
    /// The library returned a status that this crate does not know.
    Unknown(i32),
}

impl Error {
    /// Makes the error of a call that does not support the type of an array.
    pub(crate) fn unsupported(array: &Array<'_>) -> Error {
        let format = array.type_text();
        Error::Unsupported { format }
    }

    /// Makes the error of a call on two arrays that differ in type.
    pub(crate) fn types_differ(left: &Array<'_>, right: &Array<'_>) -> Error {
        let (left, right) = (left.type_text(), right.type_text());
        Error::TypeMismatch { left, right }
    }

    /// Names what to call instead, if a type with floats was refused.
    pub(crate) fn or_floats(self) -> Error {
        match self {
            Error::Unsupported { format } if Shown(&format).has_floats() => {
                Error::FloatsUnsupported { format }
            }
            other => other,
        }
    }

    /// Returns nothing for the status 0, and an error for any other status.
    pub(crate) fn check(status: i32) -> Result<(), Error> {
        Err(match status {
            0 => return Ok(()),
            1 => Error::BadArray,
            4 => Error::NoMemory,
            6 => Error::BadStructs,
            7 => Error::BadArgument,
            other => Error::Unknown(other),
        })
    }

    /// Checks the status of a call on an array, whose type it may not support.
    pub(crate) fn check_array(status: i32, array: &Array<'_>) -> Result<(), Error> {
        match status {
            5 => Err(Error::unsupported(array)),
            other => Error::check(other),
        }
    }

    /// Checks the status of a call on an array and a number, which its type may lack.
    pub(crate) fn check_number(status: i32, array: &Array<'_>, number: i128) -> Result<(), Error> {
        match status {
            2 => Err(Error::NotRepresentable {
                number,
                format: array.type_text(),
            }),
            other => Error::check_array(other, array),
        }
    }
}

impl fmt::Display for Error {
    fn fmt(&self, f: &mut fmt::Formatter<'_>) -> fmt::Result {
        match self {
            Error::LengthMismatch { left, right } => {
                write!(f, "the lengths differ: {left} and {right}")
            }
            Error::RangeMismatch { left, right } => {
                write!(f, "the ranges differ: {left:?} and {right:?}")
            }
            Error::OutOfUniqueRange { range } => {
                write!(f, "a row lies outside of the range {range:?}")
            }
            Error::BadRange { least, greatest } => write!(
                f,
                "the range {least}..={greatest} is empty, or has 2^64 - 1 numbers or more"
            ),
            Error::WrongLength { what, has, needs } => {
                write!(f, "the {what} have length {has}, and {needs} is needed")
            }
            Error::OffsetsPastEnd { end, what, has } => {
                write!(f, "the offsets end at {end}, but there are {has} {what}")
            }
            Error::SliceOutOfBounds { first, rows, len } => {
                write!(
                    f,
                    "{rows} rows from row {first} on were asked for, and the array has {len}"
                )
            }
            Error::BadPrecision { precision } => write!(
                f,
                "decimals of 128 bits have a precision of 1 to 38, not {precision}"
            ),
            Error::BadName { name } => write!(f, "the name {name:?} has a byte 0"),
            Error::Unknown(status) => write!(f, "unknown status {status} of libdunkelva"),
            others => others.write_type(f),
        }
    }
}

impl Error {
    /// Writes the message, if it is about types.
    fn write_type(&self, f: &mut fmt::Formatter<'_>) -> fmt::Result {
        match self {
            Error::TypeMismatch { left, right } => {
                write!(f, "the types differ: {} and {}", Shown(left), Shown(right))
            }
            Error::NotRepresentable { number, format } => {
                write!(f, "the type {} has no number {number}", Shown(format))
            }
            Error::BadFormat { format, array } => {
                write!(
                    f,
                    "the format {format:?} does not fit the type {}",
                    Shown(array)
                )
            }
            Error::Unsupported { format } => {
                write!(f, "the call does not support the type {}", Shown(format))
            }
            Error::FloatsUnsupported { format } => {
                write!(
                    f,
                    "the call does not support the type {}: floats are compared by equal_with with \
                     floats_by_bits",
                    Shown(format)
                )
            }
            others => f.write_str(others.fixed_message()),
        }
    }

    /// Returns the message, if it is always the same.
    fn fixed_message(&self) -> &'static str {
        match self {
            Error::BadOffsets => "an offset is less than the one before it, or less than 0",
            Error::TooLong => {
                "the texts or byte strings have more than 2147483647 bytes; use `Array::texts` or \
                 `Array::binary` with offsets of `i64`"
            }
            Error::TooDeep => "the types are nested more than 64 levels deep",
            Error::TooManyTypes => "there are more than 1048576 types in types",
            Error::ForeignValidity => "a column of another crate has a validity of its own",
            Error::BadArray => {
                "a key names no entry, a view is wrong, or a text is not UTF-8; in a column of \
                 another crate also offsets or names can be wrong"
            }
            Error::BadStructs => {
                "the structs break the Arrow C data interface, or have too many types"
            }
            Error::NoMemory => "an allocation failed",
            _ => "the library refused an argument",
        }
    }
}

impl std::error::Error for Error {}
