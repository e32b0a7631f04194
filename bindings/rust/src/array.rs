//! The type of columns.
#![forbid(unsafe_code)]

use crate::lent::{inside_foreign, shared, text_of, type_text, Content, Lent, Shared};
use crate::make::{MOST_LEVELS, MOST_TYPES};
#[cfg(feature = "ffi")]
use crate::sys::Foreign;
use crate::types::sealed::Sealed;
use crate::types::{is_kept_as, numbers_of, Integer, Number};
use crate::{BitBuffer, Bitmap, Error, Mask, Numbers};
use std::ffi::CString;
use std::fmt;
use std::sync::Arc;

/// A column: rows of one type, in the memory layout of Arrow.
///
/// An array borrows the slices and owns the vectors and masks from which it is made, without a
/// copy. [`Buffer`](crate::Buffer) and [`BitBuffer`] list the types that are borrowed or owned. The
/// slices given to [`text_views`](Array::text_views), [`binary_views`](Array::binary_views) and
/// `from_raw` are always borrowed. `collect`, [`from_texts`](Array::from_texts),
/// [`from_binary`](Array::from_binary) and their variants copy the rows, and the array owns the
/// copy. An array that borrows nothing is an `Array<'static>`, which a function can return.
///
/// A validity is copied if its first bit is not at the same position in its byte as the first row
/// of the array, such as after [`slice`](Array::slice). Calls that compare rows read in place:
/// numbers of 8 to 64 bits, texts, byte strings, lists of these that are equally long on both
/// sides, and structs of these. They copy rows of other types in blocks of some thousand rows.
///
/// The rows of an array can be compared, but not read back, except whole numbers:
/// [`to_numbers`](Array::to_numbers).
///
/// Lengths are checked when an array is made, so no call reads past the end of a slice. Offsets
/// must not decrease, and must end within the bytes or items. A validity needs a bit for each row,
/// and the fields of a struct need as many rows as the struct.
///
/// A clone shares the memory of the array. Threads can share an array. An array can't outlive what
/// it borrows:
///
/// ```compile_fail,E0597
/// let array = {
///     let numbers = vec![1, 2, 3];
///     dunkelva::Array::numbers(&numbers)
/// };
/// println!("{array:?}");
/// ```
///
/// # Examples
///
/// ```
/// use dunkelva::{equal, Array, Error, Mask};
///
/// let numbers = [1, 2, 3];
/// let borrowed = Array::numbers(&numbers);
/// let collected: Array = [Some(1), None, Some(3)].into_iter().collect();
/// let same = equal(&borrowed, &collected)?;
/// assert_eq!(same.iter().collect::<Vec<_>>(), [true, false, true]);
///
/// /// Returns the cities Oslo, Bergen, Oslo, null.
/// fn cities() -> Result<Array<'static>, Error> {
///     let names = ["Oslo", "Bergen"].into_iter().collect();
///     let is_known = Mask::from(vec![true, true, true, false]);
///     Array::dictionary(vec![0_u8, 1, 0, 0], names)?.with_validity(is_known)
/// }
/// assert_eq!(cities()?.len(), 4);
/// # Ok::<(), Error>(())
/// ```
#[derive(Clone)]
pub struct Array<'a> {
    pub(crate) rows: usize,
    /// Rows of the buffers that come before the first row.
    pub(crate) offset: usize,
    pub(crate) content: Content<'a>,
    pub(crate) levels: usize,
    pub(crate) types: usize,
}

/// Changes and windows.
impl<'a> Array<'a> {
    /// Sets which rows are null: the rows whose bit in `present` is 0. No result depends on the
    /// values that are stored under nulls, except the count of
    /// [`equal_counted`](crate::equal_counted). The bits of a [`Bitmap`] or a `&Mask` are borrowed,
    /// and a [`Mask`] is owned.
    ///
    /// # Errors
    ///
    /// - [`Error::WrongLength`], if there is not one bit for each row.
    /// - [`Error::Unsupported`], if the array was made by [`nulls`](Array::nulls).
    /// - [`Error::ForeignValidity`], if the array is a column of another crate.
    /// - [`Error::NoMemory`], if the bits have to be copied, and the allocation fails.
    ///
    /// # Examples
    ///
    /// ```
    /// use dunkelva::{is_null, Array, Error, Mask};
    ///
    /// let prices = vec![500, 650, 800];
    /// let is_known: Mask = prices.iter().map(|&it| it != 650).collect();
    /// let prices = Array::numbers(&prices).with_validity(&is_known)?;
    /// assert_eq!(is_null(&prices)?, !&is_known);
    /// # Ok::<(), Error>(())
    /// ```
    pub fn with_validity(self, present: impl Into<BitBuffer<'a>>) -> Result<Self, Error> {
        let present = present.into();
        let (has, needs) = (present.bitmap().len(), self.rows);
        if has != needs {
            let what = "bits of the validity".into();
            return Err(Error::WrongLength { what, has, needs });
        }
        match &self.content {
            Content::Foreign(_) => return Err(Error::ForeignValidity),
            Content::Lent(lent) if !lent.has_validity() => return Err(Error::unsupported(&self)),
            Content::Lent(_) => {}
        }
        let validity = present.starting_at(self.offset)?;
        Ok(self.keeping(validity))
    }

    /// Sets the format of an array of `i32` or `i64`, so that its numbers are dates (`tdD`), times
    /// of day, timestamps (`tsu:UTC`), durations, or decimals of 32 and 64 bits (`d:9,2,32`, of up
    /// to 9 and 18 digits).
    ///
    /// Formats are texts of the
    /// [Arrow C data interface](https://arrow.apache.org/docs/format/CDataInterface.html). The
    /// module [`format`](crate::format) has constants for them.
    ///
    /// # Errors
    ///
    /// [`Error::BadFormat`], if the format is none of these, or if it is a format of numbers of
    /// another width.
    ///
    /// # Examples
    ///
    /// ```
    /// use dunkelva::{equal, format, Array, Error};
    ///
    /// let days = Array::numbers(&[19_000_i32, 19_001]).with_format(format::DATE32)?;
    /// let error = equal(&days, &Array::numbers(&[19_000_i32, 19_001])).unwrap_err();
    /// assert_eq!(error.to_string(), "the types differ: tdD (Date32) and i (Int32)");
    /// # Ok::<(), Error>(())
    /// ```
    pub fn with_format(mut self, format: &str) -> Result<Self, Error> {
        let fits = |lent: &Lent<'_>| lent.entries.is_none() && is_kept_as(format, &lent.format);
        match (self.lent(), CString::new(format)) {
            (Some(lent), Ok(with_end)) if fits(lent) => {
                lent.format = with_end.into_bytes_with_nul().into();
                Ok(self)
            }
            _ => Err(Error::BadFormat {
                format: format.into(),
                array: self.type_text(),
            }),
        }
    }

    /// Returns `rows` rows, from row `first` on, without a copy.
    ///
    /// # Errors
    ///
    /// [`Error::SliceOutOfBounds`], if the array has fewer than `first + rows` rows.
    ///
    /// # Examples
    ///
    /// ```
    /// use dunkelva::{wrapping_sum, Array, Error};
    ///
    /// let numbers = vec![1, 20, 300, 4000];
    /// let inner = Array::from(&numbers).slice(1, 2)?;
    /// assert_eq!(wrapping_sum(&inner)?, Some(320));
    /// # Ok::<(), Error>(())
    /// ```
    pub fn slice(&self, first: usize, rows: usize) -> Result<Self, Error> {
        if first > self.rows || rows > self.rows - first {
            let len = self.rows;
            return Err(Error::SliceOutOfBounds { first, rows, len });
        }
        Ok(Array {
            rows,
            offset: self.offset + first,
            ..self.clone()
        })
    }

    /// Returns the rows as [`Numbers`], whose number type is known at compile time.
    ///
    /// Nothing is copied, except the numbers of a column of another crate whose address is not a
    /// multiple of their size.
    ///
    /// # Errors
    ///
    /// - [`Error::TypeMismatch`], if the array stores integers of another type.
    /// - [`Error::Unsupported`], if the array does not store integers of 8 to 64 bits.
    /// - [`Error::BadStructs`], [`Error::BadArray`] or [`Error::NoMemory`], if the array is a
    ///   column of another crate, and its structs are wrong, or an allocation fails.
    ///
    /// # Examples
    ///
    /// ```
    /// use dunkelva::{Array, Error, Numbers};
    ///
    /// let array: Array = [Some(7_i64), None].into_iter().collect();
    /// let numbers: Numbers<i64> = array.to_numbers()?;
    /// assert!(numbers.iter().eq([Some(7), None]));
    /// assert!(matches!(array.to_numbers::<i32>(), Err(Error::TypeMismatch { .. })));
    /// # Ok::<(), Error>(())
    /// ```
    pub fn to_numbers<T: Integer>(&self) -> Result<Numbers<'a, T>, Error> {
        match self.plain_format() {
            Some(plain) if plain == T::FORMAT => Numbers::of(self),
            Some(_) => Err(Error::TypeMismatch {
                left: self.type_text(),
                right: text_of(T::FORMAT).into(),
            }),
            None => Err(Error::unsupported(self)),
        }
    }

    /// Returns the number of rows.
    pub fn len(&self) -> usize {
        self.rows
    }

    /// Returns `true` if there is no row.
    pub fn is_empty(&self) -> bool {
        self.rows == 0
    }

    /// Returns the format of the type in the
    /// [Arrow C data interface](https://arrow.apache.org/docs/format/CDataInterface.html): `l` for
    /// `i64`, `+s` for structs. The format of a dictionary is the format of its keys. The format is
    /// empty if a column of another crate has no format, or a format that is not UTF-8.
    pub fn format(&self) -> &str {
        match &self.content {
            Content::Lent(lent) => text_of(&lent.format),
            Content::Foreign(foreign) => text_of(foreign.format().unwrap_or_default()),
        }
    }

    /// Refuses arrays that differ in length.
    pub(crate) fn has_length_of(&self, other: &Array<'_>) -> Result<(), Error> {
        let (left, right) = (self.rows, other.rows);
        if left != right {
            return Err(Error::LengthMismatch { left, right });
        }
        Ok(())
    }

    /// Returns the format, with those of the types inside.
    pub(crate) fn type_text(&self) -> String {
        let inside = match &self.content {
            Content::Lent(lent) => lent.inside(),
            Content::Foreign(foreign) => {
                inside_foreign(foreign.type_of(), MOST_LEVELS - 1, &mut { MOST_TYPES })
            }
        };
        type_text(self.format(), &inside)
    }

    /// Returns the plain format of the whole numbers of 8 to 64 bits that the rows are kept as.
    pub(crate) fn plain_format(&self) -> Option<&'static [u8]> {
        let is_flat = match &self.content {
            Content::Lent(lent) => lent.entries.is_none(),
            Content::Foreign(foreign) => !foreign.is_nested(),
        };
        numbers_of(self.format().as_bytes()).filter(|_| is_flat)
    }

    /// Returns the numbers that are stored for the rows, if they are of this type.
    pub(crate) fn values<T: Number>(&self) -> Option<&[T]> {
        match &self.content {
            Content::Lent(lent) => {
                let values = T::seen(lent.buffers.first()?.slice())?;
                values.get(self.offset..self.offset + self.rows)
            }
            Content::Foreign(_) => None,
        }
    }

    /// Returns which rows are present by a validity, if there is one that is lent.
    pub(crate) fn validity(&self) -> Option<Bitmap<'_>> {
        match &self.content {
            Content::Lent(lent) => {
                let bytes = u8::seen(lent.validity.as_ref()?.slice())?;
                Bitmap::new(bytes, self.offset, self.rows).ok()
            }
            Content::Foreign(_) => None,
        }
    }

    /// Takes a column of another crate. Its first row comes after `offset` rows of the buffers.
    #[cfg(feature = "ffi")]
    pub(crate) fn foreign(foreign: Foreign<'a>, rows: usize, offset: usize) -> Self {
        Array {
            rows,
            offset,
            content: Content::Foreign(foreign),
            levels: 1,
            types: 1,
        }
    }

    /// Returns what the array lends, to be changed.
    fn lent(&mut self) -> Option<&mut Lent<'a>> {
        match &mut self.content {
            Content::Lent(lent) => Some(Arc::make_mut(lent)),
            Content::Foreign(_) => None,
        }
    }

    /// Sets a validity that the array owns. Bit `i` is for row `i`.
    pub(crate) fn with_present(self, present: Mask) -> Self {
        self.keeping(shared(present.into_bytes()))
    }

    /// Keeps a validity whose bits begin where the rows do.
    fn keeping(mut self, validity: Shared<'a>) -> Self {
        if let Some(lent) = self.lent() {
            lent.validity = Some(validity);
        }
        self
    }
}

impl fmt::Debug for Array<'_> {
    fn fmt(&self, f: &mut fmt::Formatter<'_>) -> fmt::Result {
        f.debug_struct("Array")
            .field("type", &self.type_text())
            .field("rows", &self.rows)
            .finish_non_exhaustive()
    }
}
