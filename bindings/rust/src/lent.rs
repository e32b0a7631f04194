//! The memory that an array lends.
#![forbid(unsafe_code)]

use crate::sys::{Foreign, ForeignType};
use crate::types::sealed::{Sealed, Slice};
use crate::{Array, Buffer};
use std::borrow::Cow;
use std::ffi::{c_void, CString};
use std::sync::Arc;

/// Elements that are borrowed or owned, and whose address stays the same.
pub(crate) trait Elements: Send + Sync {
    fn start(&self) -> *const c_void;
    fn slice(&self) -> Slice<'_>;
}

impl<T: Sealed> Elements for Buffer<'_, T> {
    fn start(&self) -> *const c_void {
        self.as_ptr().cast()
    }

    fn slice(&self) -> Slice<'_> {
        T::lend(self)
    }
}

/// A buffer of any elements, which arrays share.
pub(crate) type Shared<'a> = Arc<dyn Elements + 'a>;

/// Makes a buffer that arrays can share.
pub(crate) fn shared<'a, T: Sealed + 'a>(elements: impl Into<Buffer<'a, T>>) -> Shared<'a> {
    Arc::new(elements.into())
}

#[derive(Clone)]
pub(crate) enum Content<'a> {
    Lent(Arc<Lent<'a>>),
    #[cfg_attr(not(feature = "ffi"), allow(dead_code))] // nothing else makes one
    Foreign(Foreign<'a>),
}

/// The memory that the structs of an array point to.
#[derive(Clone)]
pub(crate) struct Lent<'a> {
    /// The format, with a byte 0 at its end.
    pub(crate) format: Cow<'static, [u8]>,
    pub(crate) validity: Option<Shared<'a>>,
    /// The buffers after the validity.
    pub(crate) buffers: Vec<Shared<'a>>,
    pub(crate) fields: Vec<Field<'a>>,
    /// The entries of a dictionary.
    pub(crate) entries: Option<Box<Array<'a>>>,
}

impl Lent<'_> {
    /// Says whether rows of the type can be null by a validity.
    pub(crate) fn has_validity(&self) -> bool {
        *self.format != *b"n\0"
    }

    /// Returns the texts of the types inside: fields with their names, items, entries.
    pub(crate) fn inside(&self) -> Vec<String> {
        let is_struct = *self.format == *b"+s\0";
        let field = |field: &Field<'_>| {
            let text = field.array.type_text();
            match is_struct {
                true => with_name(&field.name.to_string_lossy(), &text),
                false => text,
            }
        };
        let entries = self.entries.iter().map(|it| it.type_text());
        self.fields.iter().map(field).chain(entries).collect()
    }
}

/// Returns the text of a field. A name that has other characters than letters, digits and `_`
/// stands in quotes.
fn with_name(name: &str, text: &str) -> String {
    let is_plain = name.chars().all(|it| it.is_alphanumeric() || it == '_');
    match is_plain && !name.is_empty() {
        true => format!("{name}: {text}"),
        false => format!("{name:?}: {text}"),
    }
}

/// Returns the texts of the types inside a type of another crate, as those of [`Lent::inside`].
/// Those of more than `levels` levels, or of more than `types` types, are not looked at: `..`.
pub(crate) fn inside_foreign(
    outer: ForeignType<'_>,
    levels: usize,
    types: &mut usize,
) -> Vec<String> {
    let inside = match outer.inside(*types) {
        Some(inside) if inside.is_empty() => return Vec::new(),
        Some(inside) if levels > 0 => inside,
        _ => return vec![String::from("..")],
    };
    *types -= inside.len();
    let is_struct = outer.format() == Some(b"+s");
    let field = |it: ForeignType<'_>| {
        let format = text_of(it.format().unwrap_or_default());
        let text = type_text(format, &inside_foreign(it, levels - 1, types));
        let name = String::from_utf8_lossy(it.name().unwrap_or_default());
        match is_struct {
            true => with_name(&name, &text),
            false => text,
        }
    };
    inside.into_iter().map(field).collect()
}

/// Returns the text of a type with these types inside.
pub(crate) fn type_text(format: &str, inside: &[String]) -> String {
    match inside {
        [] => format.into(),
        inside => format!("{format}<{}>", inside.join(", ")),
    }
}

/// Returns the text of a format, without the byte 0 at its end.
pub(crate) fn text_of(format: &[u8]) -> &str {
    let format = format.strip_suffix(b"\0").unwrap_or(format);
    std::str::from_utf8(format).unwrap_or_default()
}

/// An array inside another.
#[derive(Clone)]
pub(crate) struct Field<'a> {
    pub(crate) name: CString,
    pub(crate) array: Array<'a>,
}

impl<'a> Field<'a> {
    /// Names the items of lists, whose name nothing reads.
    pub(crate) fn items(array: Array<'a>) -> Vec<Field<'a>> {
        vec![Field {
            name: CString::default(),
            array,
        }]
    }
}
