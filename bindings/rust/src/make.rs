//! Constructors of arrays from slices, vectors and other arrays.
#![forbid(unsafe_code)]

use crate::lent::{shared, Content, Field, Lent, Shared};
use crate::types::{Integer, Number, Offset};
use crate::{Array, BitBuffer, Buffer, Error};
use std::borrow::Cow;
use std::ffi::CString;
use std::sync::Arc;

/// The most levels of nested types, and the most types in all, that the library takes.
pub(crate) const MOST_LEVELS: usize = 64;
pub(crate) const MOST_TYPES: usize = 1 << 20;

/// Constructors of arrays that are not nested.
impl<'a> Array<'a> {
    /// Makes an array of numbers. A slice is borrowed, and a vector is owned. Arithmetic needs
    /// [`Numbers`](crate::Numbers) instead.
    ///
    /// # Examples
    ///
    /// ```
    /// use dunkelva::{max, Array, Error};
    ///
    /// let prices = vec![500_i64, 650, 800];
    /// assert_eq!(max(&Array::numbers(&prices))?, Some(800));
    /// # Ok::<(), Error>(())
    /// ```
    pub fn numbers<T: Number>(values: impl Into<Buffer<'a, T>>) -> Self {
        let values = values.into();
        Array::flat(values.len(), T::FORMAT, vec![shared(values)])
    }

    /// Makes an array of decimals of 128 bits. Row `i` is `values[i] * 10^-scale`. `precision` is
    /// the greatest number of digits; the values are not checked. A slice is borrowed, and a vector
    /// is owned.
    ///
    /// # Errors
    ///
    /// [`Error::BadPrecision`], if the precision is not from 1 to 38.
    ///
    /// # Examples
    ///
    /// ```
    /// use dunkelva::{not_equal, Array, Error};
    ///
    /// let old = Array::decimals(&[12_50, 3_00], 9, 2)?; // 12.50 and 3.00
    /// let new = Array::decimals(vec![12_75, 3_00], 9, 2)?;
    /// assert_eq!(not_equal(&old, &new)?.set_indices().collect::<Vec<_>>(), [0]);
    /// # Ok::<(), Error>(())
    /// ```
    pub fn decimals(
        values: impl Into<Buffer<'a, i128>>,
        precision: u8,
        scale: i8,
    ) -> Result<Self, Error> {
        if !(1..=38).contains(&precision) {
            return Err(Error::BadPrecision { precision });
        }
        let values = values.into();
        let format = format!("d:{precision},{scale}\0").into_bytes();
        Ok(Array::flat(values.len(), format, vec![shared(values)]))
    }

    /// Makes an array of truth values. A [`Bitmap`](crate::Bitmap) or a `&Mask` is borrowed, and a
    /// [`Mask`](crate::Mask) is owned.
    ///
    /// # Examples
    ///
    /// ```
    /// use dunkelva::{equal, Array, Error, Mask};
    ///
    /// let paid = Mask::from(vec![true, false, true]);
    /// let same = equal(&Array::booleans(&paid), &[true, true, true].into_iter().collect())?;
    /// assert_eq!(same, paid);
    /// # Ok::<(), Error>(())
    /// ```
    pub fn booleans(values: impl Into<BitBuffer<'a>>) -> Self {
        let (rows, offset, bytes) = match values.into() {
            BitBuffer::Borrowed(bits) => (bits.len(), bits.parts().0, shared(bits.parts().1)),
            BitBuffer::Owned(mask) => (mask.len(), 0, shared(mask.into_bytes())),
        };
        Array {
            offset,
            ..Array::flat(rows, b"b\0".as_slice(), vec![bytes])
        }
    }

    /// Makes an array of texts. The text of row `i` is `bytes[offsets[i]..offsets[i + 1]]`, so
    /// there is one more offset than there are rows. If `offsets` is empty, there is no row. Slices
    /// are borrowed, and vectors are owned.
    ///
    /// Texts are compared byte by byte. Only
    /// [`EqualOptions::check_texts`](crate::EqualOptions::check_texts) checks that they are UTF-8.
    ///
    /// # Errors
    ///
    /// - [`Error::BadOffsets`], if an offset is negative or less than the offset before it.
    /// - [`Error::OffsetsPastEnd`], if the last offset is greater than the number of bytes.
    ///
    /// # Examples
    ///
    /// ```
    /// use dunkelva::{equal, Array, Error};
    ///
    /// let (offsets, bytes) = (vec![0, 3, 3, 6], b"onetwo".to_vec());
    /// let words = Array::texts(&offsets, &bytes)?;
    /// assert!(equal(&words, &["one", "", "two"].into_iter().collect())?.all());
    /// let error = Array::texts(&[0, 3, 9], b"one").unwrap_err();
    /// assert_eq!(error.to_string(), "the offsets end at 9, but there are 3 bytes");
    /// # Ok::<(), Error>(())
    /// ```
    pub fn texts<O: Offset>(
        offsets: impl Into<Buffer<'a, O>>,
        bytes: impl Into<Buffer<'a, u8>>,
    ) -> Result<Self, Error> {
        Array::strings(O::TEXTS, offsets.into(), bytes.into())
    }

    /// Makes an array of byte strings. Row `i` is `bytes[offsets[i]..offsets[i + 1]]`, so there is
    /// one more offset than there are rows. If `offsets` is empty, there is no row. Slices are
    /// borrowed, and vectors are owned.
    ///
    /// # Errors
    ///
    /// - [`Error::BadOffsets`], if an offset is negative or less than the offset before it.
    /// - [`Error::OffsetsPastEnd`], if the last offset is greater than the number of bytes.
    pub fn binary<O: Offset>(
        offsets: impl Into<Buffer<'a, O>>,
        bytes: impl Into<Buffer<'a, u8>>,
    ) -> Result<Self, Error> {
        Array::strings(O::BINARY, offsets.into(), bytes.into())
    }

    /// Makes an array of `rows` byte strings of `width` bytes each, which are stored one after the
    /// other. A slice is borrowed, and a vector is owned.
    ///
    /// # Errors
    ///
    /// [`Error::WrongLength`], if there are fewer than `rows * width` bytes.
    pub fn fixed_size_binary(
        rows: usize,
        width: usize,
        bytes: impl Into<Buffer<'a, u8>>,
    ) -> Result<Self, Error> {
        let bytes = bytes.into();
        has_at_least("bytes", bytes.len(), rows.saturating_mul(width))?;
        let format = format!("w:{width}\0").into_bytes();
        Ok(Array::flat(rows, format, vec![shared(bytes)]))
    }

    /// Makes an array of Arrow's null type: all `rows` rows are null.
    pub fn nulls(rows: usize) -> Self {
        Array::flat(rows, b"n\0".as_slice(), Vec::new())
    }

    fn strings<O: Offset>(
        format: &'static [u8],
        offsets: Buffer<'a, O>,
        bytes: Buffer<'a, u8>,
    ) -> Result<Self, Error> {
        let rows = rows_of(&offsets, bytes.len(), "bytes")?;
        Ok(Array::flat(
            rows,
            format,
            vec![shared(offsets), shared(bytes)],
        ))
    }

    pub(crate) fn flat(
        rows: usize,
        format: impl Into<Cow<'static, [u8]>>,
        buffers: Vec<Shared<'a>>,
    ) -> Self {
        let format = format.into();
        let lent = Lent {
            format,
            validity: None,
            buffers,
            fields: Vec::new(),
            entries: None,
        };
        Array {
            rows,
            offset: 0,
            content: Content::Lent(Arc::new(lent)),
            levels: 1,
            types: 1,
        }
    }
}

/// Constructors of nested arrays.
impl<'a> Array<'a> {
    /// Makes an array of lists. The list of row `i` has the items from `offsets[i]` up to, but not
    /// including, `offsets[i + 1]`, so there is one more offset than there are rows. If `offsets`
    /// is empty, there is no row. A slice of offsets is borrowed, and a vector is owned.
    ///
    /// # Errors
    ///
    /// - [`Error::BadOffsets`], if an offset is negative or less than the offset before it.
    /// - [`Error::OffsetsPastEnd`], if the last offset is greater than the number of items.
    /// - [`Error::TooDeep`], if there are more than 64 levels of nested types.
    /// - [`Error::TooManyTypes`], if there are more than 2^20 types.
    ///
    /// # Examples
    ///
    /// ```
    /// use dunkelva::{equal, Array, Error};
    ///
    /// let (offsets, items) = (vec![0, 2, 2, 3], vec![7, 8, 9]);
    /// let lists = Array::lists(&offsets, Array::from(&items))?; // [7, 8] [] [9]
    /// let others = Array::lists(vec![0, 1, 1, 2], Array::numbers(vec![7, 9]))?; // [7] [] [9]
    /// assert_eq!(equal(&lists, &others)?.iter().collect::<Vec<_>>(), [false, true, true]);
    /// # Ok::<(), Error>(())
    /// ```
    pub fn lists<O: Offset>(
        offsets: impl Into<Buffer<'a, O>>,
        items: Array<'a>,
    ) -> Result<Self, Error> {
        let offsets = offsets.into();
        let rows = rows_of(&offsets, items.rows, "items")?;
        let buffers = vec![shared(offsets)];
        Array::nested(rows, O::LIST, buffers, Field::items(items), None)
    }

    /// Makes an array of `rows` lists of `width` items each, which come one list after the other.
    ///
    /// # Errors
    ///
    /// - [`Error::WrongLength`], if there are fewer than `rows * width` items.
    /// - [`Error::TooDeep`], if there are more than 64 levels of nested types.
    /// - [`Error::TooManyTypes`], if there are more than 2^20 types.
    pub fn fixed_size_lists(rows: usize, width: usize, items: Array<'a>) -> Result<Self, Error> {
        has_at_least("items", items.rows, rows.saturating_mul(width))?;
        let format = format!("+w:{width}\0").into_bytes();
        Array::nested(rows, format, Vec::new(), Field::items(items), None)
    }

    /// Makes an array of `rows` structs. Each field is a name and an array with the values of all
    /// rows.
    ///
    /// # Errors
    ///
    /// - [`Error::WrongLength`], if the array of a field does not have `rows` rows.
    /// - [`Error::BadName`], if a name contains a zero byte.
    /// - [`Error::TooDeep`], if there are more than 64 levels of nested types.
    /// - [`Error::TooManyTypes`], if there are more than 2^20 types.
    ///
    /// # Examples
    ///
    /// ```
    /// use dunkelva::{not_equal, Array, Error};
    ///
    /// let (ids, names) = (vec![7_u32, 8], vec![Some("Ada"), None]);
    /// let old = [("id", Array::from(&ids)), ("name", names.into_iter().collect())];
    /// let new = [("id", Array::from(&ids)), ("name", ["Ada", "Bo"].into_iter().collect())];
    /// let changed = not_equal(&Array::structs(2, old)?, &Array::structs(2, new)?)?;
    /// assert_eq!(changed.set_indices().collect::<Vec<_>>(), [1]);
    /// # Ok::<(), Error>(())
    /// ```
    pub fn structs<N: Into<String>>(
        rows: usize,
        fields: impl IntoIterator<Item = (N, Array<'a>)>,
    ) -> Result<Self, Error> {
        let field = |(name, array): (N, Array<'a>)| {
            let name = name.into();
            if array.rows != rows {
                return Err(Error::WrongLength {
                    what: format!("rows of the field {name:?}"),
                    has: array.rows,
                    needs: rows,
                });
            }
            match CString::new(name.as_str()) {
                Ok(name) => Ok(Field { name, array }),
                Err(_) => Err(Error::BadName { name }),
            }
        };
        let fields = fields.into_iter().map(field).collect::<Result<_, _>>()?;
        Array::nested(rows, b"+s\0".as_slice(), Vec::new(), fields, None)
    }

    /// Makes an array of a dictionary. Row `i` is row `keys[i]` of `entries`. A slice of keys is
    /// borrowed, and a vector is owned.
    ///
    /// The keys are not checked here. Calls return [`Error::BadArray`] if the key of a row that is
    /// not null names no entry.
    ///
    /// # Errors
    ///
    /// - [`Error::TooDeep`], if there are more than 64 levels of nested types.
    /// - [`Error::TooManyTypes`], if there are more than 2^20 types.
    ///
    /// # Examples
    ///
    /// ```
    /// use dunkelva::{equal, Array, Error};
    ///
    /// let keys = vec![1_u8, 0, 1];
    /// let cities = Array::dictionary(&keys, ["Oslo", "Bergen"].into_iter().collect())?;
    /// let others = Array::dictionary(&[0_u8, 1, 1], ["Bergen", "Moss"].into_iter().collect())?;
    /// assert_eq!(equal(&cities, &others)?.iter().collect::<Vec<_>>(), [true, false, false]);
    /// # Ok::<(), Error>(())
    /// ```
    pub fn dictionary<K: Integer>(
        keys: impl Into<Buffer<'a, K>>,
        entries: Array<'a>,
    ) -> Result<Self, Error> {
        let keys = keys.into();
        let (rows, buffers) = (keys.len(), vec![shared(keys)]);
        let entries = Some(Box::new(entries));
        Array::nested(rows, K::FORMAT, buffers, Vec::new(), entries)
    }

    fn nested(
        rows: usize,
        format: impl Into<Cow<'static, [u8]>>,
        buffers: Vec<Shared<'a>>,
        fields: Vec<Field<'a>>,
        entries: Option<Box<Array<'a>>>,
    ) -> Result<Self, Error> {
        let inside = || fields.iter().map(|it| &it.array).chain(entries.as_deref());
        let levels = 1 + inside().map(|it| it.levels).max().unwrap_or(0);
        let types = inside().fold(1, |types: usize, it| types.saturating_add(it.types));
        if levels > MOST_LEVELS {
            return Err(Error::TooDeep);
        }
        if types > MOST_TYPES {
            return Err(Error::TooManyTypes);
        }
        let lent = Lent {
            format: format.into(),
            validity: None,
            buffers,
            fields,
            entries,
        };
        Ok(Array {
            rows,
            offset: 0,
            content: Content::Lent(Arc::new(lent)),
            levels,
            types,
        })
    }
}

/// Returns how many rows offsets make, if they do not decrease and end within `has` bytes or items.
fn rows_of<O: Offset>(offsets: &[O], has: usize, what: &'static str) -> Result<usize, Error> {
    let (first, last) = match offsets {
        [] => return Ok(0),
        [first, ..] => (first.place(), offsets[offsets.len() - 1].place()),
    };
    // The loop looks at all offsets, since a loop without an early end is faster.
    let goes_back = offsets
        .windows(2)
        .fold(false, |found, it| found | (it[1] < it[0]));
    match (first, last) {
        (Some(_), Some(end)) if !goes_back && end <= has => Ok(offsets.len() - 1),
        (Some(_), Some(end)) if !goes_back => Err(Error::OffsetsPastEnd { end, what, has }),
        _ => Err(Error::BadOffsets),
    }
}

/// Returns an error if `has` is less than `needs`.
fn has_at_least(what: &str, has: usize, needs: usize) -> Result<(), Error> {
    if has < needs {
        return Err(Error::WrongLength {
            what: what.into(),
            has,
            needs,
        });
    }
    Ok(())
}
