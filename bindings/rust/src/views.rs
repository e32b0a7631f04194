//! Columns of texts and byte strings that are stored as views.
#![forbid(unsafe_code)]

use crate::lent::{shared, Shared};
use crate::{Array, Error, Mask};

const TEXTS: &[u8] = b"vu\0";
const BINARY: &[u8] = b"vz\0";

/// The most bytes of a string that stand in its view.
const INSIDE: usize = 12;

/// The most bytes of a buffer, whose places are numbers of 32 bits.
const MOST_BYTES: usize = i32::MAX as usize;

/// Constructors of arrays of views, in which polars stores its texts.
impl<'a> Array<'a> {
    /// Makes an array of texts from views of 16 bytes, one for each row. Views and buffers are
    /// borrowed.
    ///
    /// The first four bytes of a view are the length of the text in bytes. If the length is at most
    /// 12, the other 12 bytes are the text, padded with zeros. If the text is longer, the next four
    /// bytes are its first four bytes, then come the index of the buffer that has the whole text,
    /// and the position in that buffer at which the text begins, in four bytes each. The lowest
    /// byte of each number comes first.
    ///
    /// The views are not checked here. Calls return [`Error::BadArray`] if the view of a row that
    /// is not null does not point to bytes of a buffer, or differs from the bytes to which it
    /// points.
    ///
    /// # Examples
    ///
    /// ```
    /// use dunkelva::{equal, Array, Error};
    ///
    /// let words = Array::from_texts_as_views([Some("one"), None, Some("a longer text")])?;
    /// let one = u128::from_le_bytes(*b"\x03\0\0\0one\0\0\0\0\0\0\0\0\0");
    /// let longer = u128::from_le_bytes(*b"\x0d\0\0\0a lo\0\0\0\0\x01\0\0\0");
    /// let views = [one, one, longer];
    /// let lent = Array::text_views(&views, &[b"?a longer text"]);
    /// let same: Vec<bool> = equal(&words, &lent)?.iter().collect();
    /// assert_eq!(same, [true, false, true]);
    /// # Ok::<(), Error>(())
    /// ```
    pub fn text_views(views: &'a [u128], buffers: &[&'a [u8]]) -> Self {
        Array::borrowed_views(TEXTS, views, buffers)
    }

    /// Makes an array of byte strings from views, as [`text_views`](Array::text_views) does for
    /// texts.
    pub fn binary_views(views: &'a [u128], buffers: &[&'a [u8]]) -> Self {
        Array::borrowed_views(BINARY, views, buffers)
    }

    /// Copies texts as [`from_texts`](Array::from_texts) does, and stores them as views.
    ///
    /// # Errors
    ///
    /// [`Error::TooLong`], if a text has more than `i32::MAX` bytes, or the texts need more than
    /// `i32::MAX` buffers.
    pub fn from_texts_as_views<S: AsRef<str>>(
        rows: impl IntoIterator<Item = Option<S>>,
    ) -> Result<Self, Error> {
        let mut views = Views::default();
        for row in rows {
            views.push(row.as_ref().map(|it| it.as_ref().as_bytes()))?;
        }
        Ok(views.into_array(TEXTS))
    }

    /// Copies byte strings as [`from_binary`](Array::from_binary) does, and stores them as views.
    ///
    /// # Errors
    ///
    /// [`Error::TooLong`], if a byte string has more than `i32::MAX` bytes, or the byte strings
    /// need more than `i32::MAX` buffers.
    pub fn from_binary_as_views<S: AsRef<[u8]>>(
        rows: impl IntoIterator<Item = Option<S>>,
    ) -> Result<Self, Error> {
        let mut views = Views::default();
        for row in rows {
            views.push(row.as_ref().map(AsRef::as_ref))?;
        }
        Ok(views.into_array(BINARY))
    }

    fn borrowed_views(format: &'static [u8], views: &'a [u128], buffers: &[&'a [u8]]) -> Self {
        let sizes = buffers.iter().map(|it| it.len()).collect();
        let data = buffers.iter().map(|&it| shared(it)).collect();
        Array::views(format, views.len(), shared(views), data, sizes)
    }

    fn views(
        format: &'static [u8],
        rows: usize,
        views: Shared<'a>,
        data: Vec<Shared<'a>>,
        sizes: Vec<usize>,
    ) -> Self {
        // A slice has at most `isize::MAX` bytes, so that each size is an `i64`.
        let sizes: Vec<i64> = sizes.into_iter().map(|it| it as i64).collect();
        let mut buffers = vec![views];
        buffers.extend(data);
        buffers.push(shared(sizes));
        Array::flat(rows, format, buffers)
    }
}

/// Views of byte strings that are copied, with the buffers of the long ones.
#[derive(Default)]
struct Views {
    views: Vec<u128>,
    buffers: Vec<Vec<u8>>,
    present: Mask,
}

impl Views {
    /// Appends a row.
    fn push(&mut self, row: Option<&[u8]>) -> Result<(), Error> {
        let view = view_of(row.unwrap_or_default(), &mut self.buffers, MOST_BYTES)?;
        self.views.push(view);
        self.present.push(row.is_some());
        Ok(())
    }

    /// Returns the rows.
    fn into_array(self, format: &'static [u8]) -> Array<'static> {
        let rows = self.views.len();
        let sizes = self.buffers.iter().map(Vec::len).collect();
        let data = self.buffers.into_iter().map(shared).collect();
        Array::views(format, rows, shared(self.views), data, sizes).with_present(self.present)
    }
}

/// Returns the view of a string. A long one is appended to the last buffer, or to a new one where
/// that would then have more than `most` bytes.
fn view_of(bytes: &[u8], buffers: &mut Vec<Vec<u8>>, most: usize) -> Result<u128, Error> {
    let length = i32::try_from(bytes.len()).map_err(|_| Error::TooLong)?;
    let mut view = [0; 16];
    view[..4].copy_from_slice(&length.to_le_bytes());
    if bytes.len() <= INSIDE {
        view[4..4 + bytes.len()].copy_from_slice(bytes);
        return Ok(u128::from_le_bytes(view));
    }
    let has_room = |buffer: &Vec<u8>| bytes.len() <= most.saturating_sub(buffer.len());
    if !buffers.last().map_or(false, has_room) {
        buffers.push(Vec::new());
    }
    let number = i32::try_from(buffers.len() - 1).map_err(|_| Error::TooLong)?;
    if let Some(buffer) = buffers.last_mut() {
        let start = i32::try_from(buffer.len()).map_err(|_| Error::TooLong)?;
        view[4..8].copy_from_slice(&bytes[..4]);
        view[8..12].copy_from_slice(&number.to_le_bytes());
        view[12..].copy_from_slice(&start.to_le_bytes());
        buffer.extend_from_slice(bytes);
    }
    Ok(u128::from_le_bytes(view))
}

#[cfg(test)]
mod tests {
    use super::view_of;

    #[test]
    fn long_strings_go_to_buffers_of_limited_size() {
        let mut buffers = Vec::new();
        let mut view = |text: &[u8]| view_of(text, &mut buffers, 30).unwrap().to_le_bytes();
        assert_eq!(view(b""), [0; 16]);
        assert_eq!(view(b"twelve bytes"), *b"\x0c\0\0\0twelve bytes");
        assert_eq!(view(b"thirteen here"), *b"\x0d\0\0\0thir\0\0\0\0\0\0\0\0");
        assert_eq!(
            view(b"seventeen letters"),
            *b"\x11\0\0\0seve\0\0\0\0\x0d\0\0\0"
        );
        assert_eq!(
            view(b"another thirteen"),
            *b"\x10\0\0\0anot\x01\0\0\0\0\0\0\0"
        );
        assert_eq!(
            buffers,
            [&b"thirteen hereseventeen letters"[..], b"another thirteen"]
        );
    }

    #[test]
    fn a_string_of_more_bytes_than_a_buffer_may_have_is_a_buffer_of_its_own() {
        let mut buffers = Vec::new();
        let view = view_of(b"a string of 22 letters", &mut buffers, 5).unwrap();
        assert_eq!(view.to_le_bytes(), *b"\x16\0\0\0a st\0\0\0\0\0\0\0\0");
        assert_eq!(buffers, [b"a string of 22 letters"]);
    }
}
