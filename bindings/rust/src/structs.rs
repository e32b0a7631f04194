//! The two structs of the Arrow C data interface, made of an array while a call runs.
#![forbid(unsafe_code)]

use crate::lent::{Content, Field, Lent};
use crate::types::Number;
use crate::Array;
use std::marker::PhantomData;
use std::os::raw::{c_char, c_void};
use std::ptr;

/// The type of a column, as the Arrow C data interface defines it.
#[repr(C)]
#[derive(Debug)]
#[allow(missing_docs)] // the interface documents the members
pub struct ArrowSchema {
    pub format: *const c_char,
    pub name: *const c_char,
    pub metadata: *const c_char,
    pub flags: i64,
    pub n_children: i64,
    pub children: *mut *mut ArrowSchema,
    pub dictionary: *mut ArrowSchema,
    pub release: Option<unsafe extern "C" fn(*mut ArrowSchema)>,
    pub private_data: *mut c_void,
}

/// The rows of a column, as the Arrow C data interface defines them.
#[repr(C)]
#[derive(Debug)]
#[allow(missing_docs)]
pub struct ArrowArray {
    pub length: i64,
    pub null_count: i64,
    pub offset: i64,
    pub n_buffers: i64,
    pub n_children: i64,
    pub buffers: *mut *const c_void,
    pub children: *mut *mut ArrowArray,
    pub dictionary: *mut ArrowArray,
    pub release: Option<unsafe extern "C" fn(*mut ArrowArray)>,
    pub private_data: *mut c_void,
}

/// Releases nothing: the structs are lent. The interface asks for a function.
extern "C" fn keep_schema(_: *mut ArrowSchema) {}

/// Releases nothing.
extern "C" fn keep_array(_: *mut ArrowArray) {}

/// The structs of an array, which they borrow, with all that they point to. What they point to lies
/// in vectors, which do not move when the structs do.
///
/// Only this module makes them, and nothing writes to them, so that they keep the rules of the
/// interface: the buffers are as long as [`Array`] has checked.
pub(crate) struct Structs<'x> {
    pub(crate) schema: ArrowSchema,
    pub(crate) array: ArrowArray,
    _inside: Vec<Structs<'x>>,
    _schemas: Vec<*mut ArrowSchema>,
    _arrays: Vec<*mut ArrowArray>,
    _buffers: Vec<*const c_void>,
    _array: PhantomData<&'x Array<'x>>,
}

impl<'x> Structs<'x> {
    /// Makes the structs of an array.
    pub(crate) fn of(array: &'x Array<'_>) -> Structs<'x> {
        match &array.content {
            Content::Lent(lent) => Structs::of_lent(array, lent),
            Content::Foreign(foreign) => Structs {
                schema: copy_schema(foreign.schema()),
                array: ArrowArray {
                    length: to_i64(array.rows),
                    offset: to_i64(array.offset),
                    ..copy_array(foreign.array())
                },
                _inside: Vec::new(),
                _schemas: Vec::new(),
                _arrays: Vec::new(),
                _buffers: Vec::new(),
                _array: PhantomData,
            },
        }
    }

    fn of_lent(array: &'x Array<'_>, lent: &'x Lent<'_>) -> Structs<'x> {
        let inside: Vec<_> = lent.fields.iter().map(Structs::of_field).collect();
        let entries = lent.entries.as_deref().map(Structs::of);
        let mut inside: Vec<_> = inside.into_iter().chain(entries).collect();
        let (mut schemas, mut arrays): (Vec<_>, Vec<_>) = inside
            .iter_mut()
            .map(|it| (ptr::addr_of_mut!(it.schema), ptr::addr_of_mut!(it.array)))
            .unzip();
        let fields = to_i64(lent.fields.len());
        let validity = lent.validity.as_ref().map_or(ptr::null(), |it| it.start());
        let mut buffers: Vec<_> = lent.buffers.iter().map(|it| it.start()).collect();
        if lent.has_validity() {
            buffers.insert(0, validity);
        }
        Structs {
            schema: ArrowSchema {
                format: lent.format.as_ptr().cast(),
                name: b"\0".as_ptr().cast(),
                metadata: ptr::null(),
                flags: 2, // can be null
                n_children: fields,
                children: schemas.as_mut_ptr(),
                dictionary: schemas
                    .get(lent.fields.len())
                    .copied()
                    .unwrap_or(ptr::null_mut()),
                release: Some(keep_schema),
                private_data: ptr::null_mut(),
            },
            array: ArrowArray {
                length: to_i64(array.rows),
                null_count: -1, // not counted
                offset: to_i64(array.offset),
                n_buffers: to_i64(buffers.len()),
                n_children: fields,
                buffers: buffers.as_mut_ptr(),
                children: arrays.as_mut_ptr(),
                dictionary: arrays
                    .get(lent.fields.len())
                    .copied()
                    .unwrap_or(ptr::null_mut()),
                release: Some(keep_array),
                private_data: ptr::null_mut(),
            },
            _inside: inside,
            _schemas: schemas,
            _arrays: arrays,
            _buffers: buffers,
            _array: PhantomData,
        }
    }

    fn of_field(field: &'x Field<'_>) -> Structs<'x> {
        let mut structs = Structs::of(&field.array);
        structs.schema.name = field.name.as_ptr();
        structs
    }
}

/// The structs of an array whose rows are numbers of type `T`, so that results of this type are
/// written for it. [`Numbers`](crate::Numbers) alone makes them.
pub(crate) struct Typed<'x, T> {
    pub(crate) structs: Structs<'x>,
    _rows: PhantomData<T>,
}

impl<'x, T> Typed<'x, T> {
    pub(crate) fn new(structs: Structs<'x>) -> Typed<'x, T> {
        Typed {
            structs,
            _rows: PhantomData,
        }
    }
}

impl<T: Number> Typed<'_, T> {
    /// Replaces the format by the plain one of the type `T`.
    pub(crate) fn into_plain(mut self) -> Self {
        self.structs.schema.format = T::FORMAT.as_ptr().cast();
        self
    }
}

/// Returns a length, or the greatest `i64` if it is greater. The library refuses that one.
fn to_i64(length: usize) -> i64 {
    i64::try_from(length).unwrap_or(i64::MAX)
}

fn copy_schema(from: &ArrowSchema) -> ArrowSchema {
    ArrowSchema { ..*from }
}

fn copy_array(from: &ArrowArray) -> ArrowArray {
    ArrowArray { ..*from }
}

#[cfg(test)]
mod tests {
    use super::{ArrowArray, ArrowSchema};
    use std::mem::size_of;

    #[test]
    fn structs_have_the_sizes_of_the_interface() {
        assert_eq!(
            (size_of::<ArrowSchema>(), size_of::<ArrowArray>()),
            (72, 80)
        );
    }
}
