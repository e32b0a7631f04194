//! Borrowed or owned elements and bits of arrays.
#![forbid(unsafe_code)]

use crate::lent::{shared, Shared};
use crate::{Bitmap, Error, Mask};
use std::ops::Deref;

/// The numbers, offsets, keys or bytes of an [`Array`](crate::Array), in a borrowed slice or an
/// owned vector.
///
/// `&[T]`, `&[T; N]`, `&Vec<T>` and `Vec<T>` convert into a buffer, without a copy. The first three
/// are borrowed, and `Vec<T>` is owned.
///
/// # Examples
///
/// ```
/// use dunkelva::{Array, Error};
///
/// /// Returns the lists [7, 8] and [9].
/// fn lists() -> Result<Array<'static>, Error> {
///     Array::lists(vec![0, 2, 3], Array::numbers(vec![7, 8, 9]))
/// }
/// assert_eq!(lists()?.len(), 2);
/// # Ok::<(), Error>(())
/// ```
#[derive(Clone, Debug)]
pub enum Buffer<'a, T> {
    /// Borrowed elements.
    Borrowed(&'a [T]),
    /// Owned elements.
    Owned(Vec<T>),
}

impl<T> Deref for Buffer<'_, T> {
    type Target = [T];

    fn deref(&self) -> &[T] {
        match self {
            Buffer::Borrowed(elements) => elements,
            Buffer::Owned(elements) => elements,
        }
    }
}

impl<'a, T> From<&'a [T]> for Buffer<'a, T> {
    /// Borrows the elements.
    fn from(elements: &'a [T]) -> Self {
        Buffer::Borrowed(elements)
    }
}

impl<'a, T, const N: usize> From<&'a [T; N]> for Buffer<'a, T> {
    /// Borrows the elements.
    fn from(elements: &'a [T; N]) -> Self {
        Buffer::Borrowed(elements)
    }
}

impl<'a, T> From<&'a Vec<T>> for Buffer<'a, T> {
    /// Borrows the elements.
    fn from(elements: &'a Vec<T>) -> Self {
        Buffer::Borrowed(elements)
    }
}

impl<T> From<Vec<T>> for Buffer<'_, T> {
    /// Owns the elements.
    fn from(elements: Vec<T>) -> Self {
        Buffer::Owned(elements)
    }
}

/// The truth values or the validity of an [`Array`](crate::Array): borrowed or owned bits, one for
/// each row.
///
/// A [`Bitmap`], a `&Mask` and a [`Mask`] convert into a bit buffer. The bits of the first two are
/// borrowed, and a [`Mask`] is owned.
///
/// # Examples
///
/// ```
/// use dunkelva::{is_null, Array, Error, Mask};
///
/// /// Returns the rows 7 and null.
/// fn rows() -> Result<Array<'static>, Error> {
///     Array::numbers(vec![7, 8]).with_validity(Mask::from(vec![true, false]))
/// }
/// assert_eq!(is_null(&rows()?)?.set_indices().collect::<Vec<_>>(), [1]);
/// # Ok::<(), Error>(())
/// ```
#[derive(Clone, Debug)]
pub enum BitBuffer<'a> {
    /// Borrowed bits.
    Borrowed(Bitmap<'a>),
    /// Owned bits.
    Owned(Mask),
}

impl<'a> BitBuffer<'a> {
    /// Borrows the bits as a [`Bitmap`].
    pub fn bitmap(&self) -> Bitmap<'_> {
        match self {
            BitBuffer::Borrowed(bits) => *bits,
            BitBuffer::Owned(mask) => mask.bitmap(),
        }
    }

    /// Returns memory in which the rows begin at bit `first`. It is a copy where they begin at
    /// another bit, if there is memory for it.
    pub(crate) fn starting_at(self, first: usize) -> Result<Shared<'a>, Error> {
        Ok(match self {
            BitBuffer::Borrowed(bits) if bits.parts().0 == first => shared(bits.parts().1),
            BitBuffer::Owned(mask) if first == 0 => shared(mask.into_bytes()),
            others => shared(others.bitmap().moved(first)?),
        })
    }
}

impl<'a> From<Bitmap<'a>> for BitBuffer<'a> {
    /// Borrows the bits.
    fn from(bits: Bitmap<'a>) -> Self {
        BitBuffer::Borrowed(bits)
    }
}

impl<'a> From<&'a Mask> for BitBuffer<'a> {
    /// Borrows the bits.
    fn from(mask: &'a Mask) -> Self {
        BitBuffer::Borrowed(mask.bitmap())
    }
}

impl From<Mask> for BitBuffer<'_> {
    /// Owns the bits.
    fn from(mask: Mask) -> Self {
        BitBuffer::Owned(mask)
    }
}
