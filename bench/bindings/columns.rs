//! Columns of the Arrow C data interface, which borrow what they are made of.

use std::ffi::{CString, c_char, c_void};
use std::ptr;

#[repr(C)]
struct ArrowSchema {
    format: *const c_char,
    name: *const c_char,
    metadata: *const c_char,
    flags: i64,
    n_children: i64,
    children: *mut *mut ArrowSchema,
    dictionary: *mut ArrowSchema,
    release: Option<unsafe extern "C" fn(*mut ArrowSchema)>,
    private_data: *mut c_void,
}

#[repr(C)]
struct ArrowArray {
    length: i64,
    null_count: i64,
    offset: i64,
    n_buffers: i64,
    n_children: i64,
    buffers: *mut *const c_void,
    children: *mut *mut ArrowArray,
    dictionary: *mut ArrowArray,
    release: Option<unsafe extern "C" fn(*mut ArrowArray)>,
    private_data: *mut c_void,
}

unsafe extern "C" {
    fn dunkelva_equal(
        left_type: *const ArrowSchema,
        left: *const ArrowArray,
        right_type: *const ArrowSchema,
        right: *const ArrowArray,
        flags: u32,
        out: *mut u8,
        out_bytes: usize,
    ) -> i32;
}

/// The status of a type that the library does not serve.
const NOT_SERVED: i32 = 5;

unsafe extern "C" fn keep_schema(_: *mut ArrowSchema) {}
unsafe extern "C" fn keep_array(_: *mut ArrowArray) {}

/// A column. Its buffers belong to the caller; the structs are never freed.
pub struct Column {
    schema: *mut ArrowSchema,
    array: *mut ArrowArray,
}

/// Returns a pointer to an element that is never freed.
fn kept<T>(value: T) -> *mut T {
    Box::leak(Box::new(value))
}

fn pointer<T>(slice: &[T]) -> *const c_void {
    slice.as_ptr().cast()
}

impl Column {
    fn new(
        format: &str,
        rows: usize,
        buffers: Vec<*const c_void>,
        inside: Vec<(&str, Column)>,
    ) -> Column {
        let name = |text: &str| CString::new(text).expect("no zero in a name").into_raw();
        let count = inside.len() as i64;
        let mut schemas = Vec::new();
        let mut arrays = Vec::new();
        for (field, column) in inside {
            unsafe { (*column.schema).name = name(field) };
            schemas.push(column.schema);
            arrays.push(column.array);
        }
        let buffers = buffers.leak();
        Column {
            schema: kept(ArrowSchema {
                format: name(format),
                name: name(""),
                metadata: ptr::null(),
                flags: 2,
                n_children: count,
                children: schemas.leak().as_mut_ptr(),
                dictionary: ptr::null_mut(),
                release: Some(keep_schema),
                private_data: ptr::null_mut(),
            }),
            array: kept(ArrowArray {
                length: rows as i64,
                null_count: -1,
                offset: 0,
                n_buffers: buffers.len() as i64,
                n_children: count,
                buffers: buffers.as_mut_ptr(),
                children: arrays.leak().as_mut_ptr(),
                dictionary: ptr::null_mut(),
                release: Some(keep_array),
                private_data: ptr::null_mut(),
            }),
        }
    }

    /// Numbers, with a validity or none.
    pub fn flat<T>(format: &str, rows: usize, present: Option<&[u64]>, values: &[T]) -> Column {
        let present = present.map_or(ptr::null(), pointer);
        Column::new(format, rows, vec![present, pointer(values)], vec![])
    }

    pub fn texts(offsets: &[i32], bytes: &[u8]) -> Column {
        let buffers = vec![ptr::null(), pointer(offsets), pointer(bytes)];
        Column::new("u", offsets.len() - 1, buffers, vec![])
    }

    /// Creates a column of views into one buffer.
    pub fn views(views: &[[u8; 16]], bytes: &[u8]) -> Column {
        let lengths = kept(bytes.len() as i64);
        let buffers = vec![
            ptr::null(),
            pointer(views),
            pointer(bytes),
            lengths as *const c_void,
        ];
        Column::new("vu", views.len(), buffers, vec![])
    }

    pub fn lists(offsets: &[i32], items: Column) -> Column {
        let buffers = vec![ptr::null(), pointer(offsets)];
        Column::new("+l", offsets.len() - 1, buffers, vec![("item", items)])
    }

    pub fn structs(rows: usize, fields: Vec<(&str, Column)>) -> Column {
        Column::new("+s", rows, vec![ptr::null()], fields)
    }

    pub fn dictionary(keys: &[i32], entries: Column) -> Column {
        let column = Column::flat("i", keys.len(), None, keys);
        unsafe {
            (*column.schema).dictionary = entries.schema;
            (*column.array).dictionary = entries.array;
        }
        column
    }
}

/// Compares two columns by the library for C. Returns false if the library does not serve them.
pub fn equal(left: &Column, right: &Column, bits: &mut [u8]) -> bool {
    let (out, out_bytes) = (bits.as_mut_ptr(), bits.len());
    let status = unsafe {
        dunkelva_equal(
            left.schema,
            left.array,
            right.schema,
            right.array,
            0,
            out,
            out_bytes,
        )
    };
    assert!(status == 0 || status == NOT_SERVED);
    status == 0
}
