//! Conversions of vectors, slices and iterators into arrays.
#![forbid(unsafe_code)]

use crate::lent::shared;
use crate::types::{Number, Offset};
use crate::{Array, Error, Mask};

impl<'a, T: Number> From<&'a [T]> for Array<'a> {
    /// Borrows the numbers.
    fn from(values: &'a [T]) -> Self {
        Array::numbers(values)
    }
}

impl<'a, T: Number, const N: usize> From<&'a [T; N]> for Array<'a> {
    /// Borrows the numbers.
    fn from(values: &'a [T; N]) -> Self {
        Array::numbers(values)
    }
}

impl<'a, T: Number> From<&'a Vec<T>> for Array<'a> {
    /// Borrows the numbers.
    fn from(values: &'a Vec<T>) -> Self {
        Array::numbers(values)
    }
}

impl<T: Number> From<Vec<T>> for Array<'_> {
    /// Owns the numbers.
    fn from(values: Vec<T>) -> Self {
        Array::numbers(values)
    }
}

impl<'a> From<&'a Mask> for Array<'a> {
    /// Borrows the truth values.
    fn from(values: &'a Mask) -> Self {
        Array::booleans(values)
    }
}

impl From<Mask> for Array<'_> {
    /// Owns the truth values.
    fn from(values: Mask) -> Self {
        Array::booleans(values)
    }
}

impl<T: Number> FromIterator<T> for Array<'_> {
    /// Copies the numbers.
    fn from_iter<I: IntoIterator<Item = T>>(rows: I) -> Self {
        Array::from(Vec::from_iter(rows))
    }
}

impl<T: Number> FromIterator<Option<T>> for Array<'_> {
    /// Copies the numbers. `None` becomes a null.
    fn from_iter<I: IntoIterator<Item = Option<T>>>(rows: I) -> Self {
        let (values, present): (Vec<T>, Mask) = split(rows);
        Array::from(values).with_present(present)
    }
}

impl FromIterator<bool> for Array<'_> {
    /// Copies the truth values.
    fn from_iter<I: IntoIterator<Item = bool>>(rows: I) -> Self {
        Array::from(Mask::from_iter(rows))
    }
}

impl FromIterator<Option<bool>> for Array<'_> {
    /// Copies the truth values. `None` becomes a null.
    fn from_iter<I: IntoIterator<Item = Option<bool>>>(rows: I) -> Self {
        let (values, present): (Mask, Mask) = split(rows);
        Array::from(values).with_present(present)
    }
}

macro_rules! strings {
    ($($row:ty $(, $borrowed:lifetime)?: $what:literal, $call:ident;)*) => {
        $(
            impl$(<$borrowed>)? FromIterator<$row> for Array<'_> {
                #[doc = concat!("Copies ", $what, ", as [`Array::", stringify!($call), "`] does.")]
                ///
                /// # Panics
                ///
                /// If all rows together have more than `i32::MAX` bytes.
                fn from_iter<I: IntoIterator<Item = $row>>(rows: I) -> Self {
                    rows.into_iter().map(Some).collect()
                }
            }

            impl$(<$borrowed>)? FromIterator<Option<$row>> for Array<'_> {
                #[doc = concat!("Copies ", $what, ", as [`Array::", stringify!($call), "`] does.")]
                /// `None` becomes a null.
                ///
                /// # Panics
                ///
                /// If all rows together have more than `i32::MAX` bytes.
                fn from_iter<I: IntoIterator<Item = Option<$row>>>(rows: I) -> Self {
                    Array::$call(rows).expect("at most i32::MAX bytes")
                }
            }
        )*
    };
}

strings! {
    &'t str, 't: "texts", from_texts;
    &'t String, 't: "texts", from_texts;
    String: "texts", from_texts;
    &'t [u8], 't: "byte strings", from_binary;
    &'t Vec<u8>, 't: "byte strings", from_binary;
    Vec<u8>: "byte strings", from_binary;
}

/// Constructors of arrays that copy texts and byte strings.
impl Array<'_> {
    /// Makes an array of copies of texts, such as `&str` or `String`. `None` becomes a null.
    /// `collect` does the same, but panics instead of returning an error.
    ///
    /// # Errors
    ///
    /// [`Error::TooLong`], if all texts together have more than `i32::MAX` bytes.
    ///
    /// # Examples
    ///
    /// ```
    /// use dunkelva::{equal, Array, Error};
    ///
    /// let words = vec![String::from("one"), String::from("two")];
    /// let nullable = Array::from_texts([Some("one"), None])?;
    /// let same = equal(&words.iter().collect(), &nullable)?;
    /// assert_eq!(same.iter().collect::<Vec<_>>(), [true, false]);
    /// # Ok::<(), Error>(())
    /// ```
    pub fn from_texts<S: AsRef<str>>(
        rows: impl IntoIterator<Item = Option<S>>,
    ) -> Result<Self, Error> {
        let mut strings = Strings::new();
        for row in rows {
            strings.push(row.as_ref().map(|it| it.as_ref().as_bytes()))?;
        }
        Ok(strings.into_array(i32::TEXTS))
    }

    /// Makes an array of copies of byte strings, such as `&[u8]` or `Vec<u8>`. `None` becomes a
    /// null. `collect` does the same, but panics instead of returning an error.
    ///
    /// # Errors
    ///
    /// [`Error::TooLong`], if all byte strings together have more than `i32::MAX` bytes.
    ///
    /// # Examples
    ///
    /// ```
    /// use dunkelva::{equal, Array, Error};
    ///
    /// let keys = vec![b"\x01\x02".to_vec(), b"\xff".to_vec()];
    /// let nullable = Array::from_binary([Some(b"\x01\x02"), None])?;
    /// let same = equal(&keys.iter().collect(), &nullable)?;
    /// assert_eq!(same.iter().collect::<Vec<_>>(), [true, false]);
    /// # Ok::<(), Error>(())
    /// ```
    pub fn from_binary<S: AsRef<[u8]>>(
        rows: impl IntoIterator<Item = Option<S>>,
    ) -> Result<Self, Error> {
        let mut strings = Strings::new();
        for row in rows {
            strings.push(row.as_ref().map(AsRef::as_ref))?;
        }
        Ok(strings.into_array(i32::BINARY))
    }
}

/// Byte strings that are copied one after the other, with the offsets between them.
struct Strings {
    offsets: Vec<i32>,
    bytes: Vec<u8>,
    present: Mask,
}

impl Strings {
    fn new() -> Strings {
        Strings {
            offsets: vec![0],
            bytes: Vec::new(),
            present: Mask::default(),
        }
    }

    /// Appends a row.
    fn push(&mut self, row: Option<&[u8]>) -> Result<(), Error> {
        self.bytes.extend_from_slice(row.unwrap_or_default());
        let end = i32::try_from(self.bytes.len()).map_err(|_| Error::TooLong)?;
        self.offsets.push(end);
        self.present.push(row.is_some());
        Ok(())
    }

    /// Returns the rows.
    fn into_array(self, format: &'static [u8]) -> Array<'static> {
        let buffers = vec![shared(self.offsets), shared(self.bytes)];
        Array::flat(self.present.len(), format, buffers).with_present(self.present)
    }
}

/// Returns the rows, with a default for `None`, and which of them are present.
fn split<T: Default, V: Default + Extend<T>>(
    rows: impl IntoIterator<Item = Option<T>>,
) -> (V, Mask) {
    rows.into_iter()
        .map(|row| {
            let is_some = row.is_some();
            (row.unwrap_or_default(), is_some)
        })
        .unzip()
}
