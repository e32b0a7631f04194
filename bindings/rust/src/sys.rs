//! The calls of libdunkelva: all that the compiler can't check.
//!
//! The library reads the structs and what they point to, which is as long as the interface asks
//! ([`Structs`]). It writes only to the memory that it is lent for results, not past its end, and
//! keeps nothing. So the functions of this module are safe, except `from_raw`.

use crate::structs::{ArrowArray, ArrowSchema, Structs, Typed};
use crate::types::{numbers_of, Integer};
use std::ffi::CStr;
use std::marker::PhantomData;
use std::mem::{align_of, size_of, MaybeUninit};
use std::os::raw::{c_char, c_uint, c_void};
use std::ptr::null_mut;
use std::slice::from_raw_parts;

/// A number of 128 bits, or none.
#[repr(C)]
#[derive(Default)]
pub(crate) struct Wide {
    pub(crate) low: u64,
    pub(crate) high: u64,
    pub(crate) exists: u64,
}

/// A state of distinct values, whose bits are borrowed.
#[repr(C)]
pub(crate) struct State<'x> {
    least: Wide,
    greatest: Wide,
    bits: *mut u64,
    words: usize,
    has_null: u64,
    _bits: PhantomData<&'x mut [u64]>,
}

impl<'x> State<'x> {
    pub(crate) fn of((least, greatest): (Wide, Wide), bits: &'x mut [u64], has_null: bool) -> Self {
        let (at, words) = (bits.as_mut_ptr(), bits.len());
        let has_null = has_null.into();
        State {
            least,
            greatest,
            bits: at,
            words,
            has_null,
            _bits: PhantomData,
        }
    }

    pub(crate) fn has_null(&self) -> bool {
        self.has_null != 0
    }
}

/// A state to which nothing is written.
pub(crate) struct StateView<'x>(State<'x>);

impl<'x> StateView<'x> {
    pub(crate) fn of((least, greatest): (Wide, Wide), bits: &'x [u64], has_null: bool) -> Self {
        let (at, words) = (bits.as_ptr() as *mut u64, bits.len());
        let has_null = has_null.into();
        StateView(State {
            least,
            greatest,
            bits: at,
            words,
            has_null,
            _bits: PhantomData,
        })
    }
}

#[rustfmt::skip]
extern "C" {
    fn dunkelva_equal(lt: &ArrowSchema, l: &ArrowArray, rt: &ArrowSchema, r: &ArrowArray,
        flags: u32, out: *mut u8, out_bytes: usize) -> i32;
    fn dunkelva_equal_rows(lt: &ArrowSchema, l: &ArrowArray, l_first: i64, rt: &ArrowSchema,
        r: &ArrowArray, r_first: i64, rows: i64, flags: u32, out: *mut u8, out_bytes: usize,
        comparisons: &mut u64) -> i32;
    fn dunkelva_is_null(t: &ArrowSchema, a: &ArrowArray, out: *mut u8, out_bytes: usize,
        count: *mut u64) -> i32;
    fn dunkelva_compare(test: c_uint, lt: &ArrowSchema, l: &ArrowArray, rt: &ArrowSchema,
        r: &ArrowArray, out: *mut u8, out_bytes: usize) -> i32;
    fn dunkelva_compare_number(test: c_uint, t: &ArrowSchema, a: &ArrowArray, number: &Wide,
        out: *mut u8, out_bytes: usize) -> i32;
    fn dunkelva_sum(t: &ArrowSchema, a: &ArrowArray, sum: &mut Wide) -> i32;
    fn dunkelva_min_max(t: &ArrowSchema, a: &ArrowArray, least: &mut Wide,
        greatest: &mut Wide) -> i32;
    fn dunkelva_reduce_bits(join: c_uint, t: &ArrowSchema, a: &ArrowArray,
        result: &mut Wide) -> i32;
    fn dunkelva_count_bits(bits: c_uint, t: &ArrowSchema, a: &ArrowArray, counts: *mut u32,
        counts_len: usize) -> i32;
    fn dunkelva_arithmetic(operation: c_uint, lt: &ArrowSchema, l: &ArrowArray, rt: &ArrowSchema,
        r: &ArrowArray, values: *mut c_void, values_len: usize, present: *mut u8,
        present_bytes: usize, nulls: *mut u64) -> i32;
    fn dunkelva_arithmetic_number(operation: c_uint, side: c_uint, number: &Wide, t: &ArrowSchema,
        a: &ArrowArray, values: *mut c_void, values_len: usize, present: *mut u8,
        present_bytes: usize, nulls: *mut u64) -> i32;
    fn dunkelva_sign(sign: c_uint, t: &ArrowSchema, a: &ArrowArray, values: *mut c_void,
        values_len: usize, present: *mut u8, present_bytes: usize, nulls: *mut u64) -> i32;
    fn dunkelva_unique_words(least: &Wide, greatest: &Wide) -> usize;
    fn dunkelva_unique_init(state: *mut State<'_>, least: &Wide, greatest: &Wide, bits: *mut u64,
        words: usize) -> i32;
    fn dunkelva_unique_append(state: &mut State<'_>, t: &ArrowSchema, a: &ArrowArray) -> i32;
    fn dunkelva_unique_merge(state: &mut State<'_>, other: &State<'_>) -> i32;
    fn dunkelva_unique_count(state: &State<'_>, values: &mut u64, rows: &mut u64) -> i32;
    fn dunkelva_unique_finish(state: &State<'_>, values: *mut u64, values_len: usize,
        has_null: &mut u64) -> i32;
    fn dunkelva_version() -> *const c_char;
}

// SAFETY, of each call below: see the module's comment. A slice that is lent for a result has the
// length that is passed with it.

pub(crate) fn equal(l: &Structs<'_>, r: &Structs<'_>, flags: u32, out: &mut [u8]) -> i32 {
    let (at, len) = (out.as_mut_ptr(), out.len());
    unsafe { dunkelva_equal(&l.schema, &l.array, &r.schema, &r.array, flags, at, len) }
}

/// Compares all rows of the left array with the same number of rows of the right one.
pub(crate) fn equal_rows(
    l: &Structs<'_>,
    r: &Structs<'_>,
    flags: u32,
    out: &mut [u8],
    count: &mut u64,
) -> i32 {
    let (ls, la, rs, ra) = (&l.schema, &l.array, &r.schema, &r.array);
    let (at, len) = (out.as_mut_ptr(), out.len());
    unsafe { dunkelva_equal_rows(ls, la, 0, rs, ra, 0, la.length, flags, at, len, count) }
}

pub(crate) fn is_null(a: &Structs<'_>, out: &mut [u8]) -> i32 {
    let (at, len) = (out.as_mut_ptr(), out.len());
    unsafe { dunkelva_is_null(&a.schema, &a.array, at, len, null_mut()) }
}

pub(crate) fn compare(test: c_uint, l: &Structs<'_>, r: &Structs<'_>, out: &mut [u8]) -> i32 {
    let (at, len) = (out.as_mut_ptr(), out.len());
    unsafe { dunkelva_compare(test, &l.schema, &l.array, &r.schema, &r.array, at, len) }
}

pub(crate) fn compare_number(test: c_uint, a: &Structs<'_>, number: &Wide, out: &mut [u8]) -> i32 {
    let (at, len) = (out.as_mut_ptr(), out.len());
    unsafe { dunkelva_compare_number(test, &a.schema, &a.array, number, at, len) }
}

pub(crate) fn sum(a: &Structs<'_>, sum: &mut Wide) -> i32 {
    unsafe { dunkelva_sum(&a.schema, &a.array, sum) }
}

pub(crate) fn min_max(a: &Structs<'_>, least: &mut Wide, greatest: &mut Wide) -> i32 {
    unsafe { dunkelva_min_max(&a.schema, &a.array, least, greatest) }
}

pub(crate) fn reduce_bits(join: c_uint, a: &Structs<'_>, result: &mut Wide) -> i32 {
    unsafe { dunkelva_reduce_bits(join, &a.schema, &a.array, result) }
}

pub(crate) fn count_bits(bits: c_uint, a: &Structs<'_>, counts: &mut [u32]) -> i32 {
    let (at, len) = (counts.as_mut_ptr(), counts.len());
    unsafe { dunkelva_count_bits(bits, &a.schema, &a.array, at, len) }
}

pub(crate) fn arithmetic<T: Integer>(
    operation: c_uint,
    l: &Typed<'_, T>,
    r: &Typed<'_, T>,
    values: &mut [T],
    present: &mut [u8],
) -> i32 {
    let (ls, la, rs, ra) = (
        &l.structs.schema,
        &l.structs.array,
        &r.structs.schema,
        &r.structs.array,
    );
    let (to, len) = (values.as_mut_ptr().cast(), values.len());
    let (bits, bytes, nulls) = (present.as_mut_ptr(), present.len(), null_mut());
    unsafe { dunkelva_arithmetic(operation, ls, la, rs, ra, to, len, bits, bytes, nulls) }
}

pub(crate) fn arithmetic_number<T: Integer>(
    (operation, side): (c_uint, c_uint),
    number: &Wide,
    a: &Typed<'_, T>,
    values: &mut [T],
    present: &mut [u8],
) -> i32 {
    let (s, a) = (&a.structs.schema, &a.structs.array);
    let (to, len) = (values.as_mut_ptr().cast(), values.len());
    let (bits, bytes, nulls) = (present.as_mut_ptr(), present.len(), null_mut());
    unsafe {
        dunkelva_arithmetic_number(operation, side, number, s, a, to, len, bits, bytes, nulls)
    }
}

pub(crate) fn sign<T: Integer>(
    sign: c_uint,
    a: &Typed<'_, T>,
    values: &mut [T],
    present: &mut [u8],
) -> i32 {
    let (s, a) = (&a.structs.schema, &a.structs.array);
    let (to, len) = (values.as_mut_ptr().cast(), values.len());
    let (bits, bytes, nulls) = (present.as_mut_ptr(), present.len(), null_mut());
    unsafe { dunkelva_sign(sign, s, a, to, len, bits, bytes, nulls) }
}

pub(crate) fn unique_words(least: &Wide, greatest: &Wide) -> usize {
    unsafe { dunkelva_unique_words(least, greatest) }
}

/// Clears the bits of a state of this range.
pub(crate) fn unique_init(least: &Wide, greatest: &Wide, bits: &mut [u64]) -> i32 {
    let mut state = MaybeUninit::uninit();
    let (at, words) = (bits.as_mut_ptr(), bits.len());
    unsafe { dunkelva_unique_init(state.as_mut_ptr(), least, greatest, at, words) }
}

pub(crate) fn unique_append(state: &mut State<'_>, a: &Structs<'_>) -> i32 {
    unsafe { dunkelva_unique_append(state, &a.schema, &a.array) }
}

pub(crate) fn unique_merge(state: &mut State<'_>, other: &StateView<'_>) -> i32 {
    unsafe { dunkelva_unique_merge(state, &other.0) }
}

pub(crate) fn unique_count(state: &StateView<'_>, values: &mut u64, rows: &mut u64) -> i32 {
    unsafe { dunkelva_unique_count(&state.0, values, rows) }
}

pub(crate) fn unique_finish(state: &StateView<'_>, values: &mut [u64], has_null: &mut u64) -> i32 {
    let (at, len) = (values.as_mut_ptr(), values.len());
    unsafe { dunkelva_unique_finish(&state.0, at, len, has_null) }
}

pub(crate) fn version() -> &'static str {
    // SAFETY: the library returns a constant text.
    unsafe { CStr::from_ptr(dunkelva_version()) }
        .to_str()
        .unwrap_or_default()
}

/// Structs of another crate, which `from_raw` alone makes.
#[derive(Clone, Copy)]
pub(crate) struct Foreign<'a> {
    schema: &'a ArrowSchema,
    array: &'a ArrowArray,
}

// SAFETY: `from_raw` asks that nothing writes to the structs, or to what they point to, for 'a.
unsafe impl Send for Foreign<'_> {}
unsafe impl Sync for Foreign<'_> {}

impl<'a> Foreign<'a> {
    pub(crate) fn schema(&self) -> &'a ArrowSchema {
        self.schema
    }

    pub(crate) fn type_of(&self) -> ForeignType<'a> {
        ForeignType(self.schema)
    }

    /// Returns the format, without the byte 0 at its end. That of a dictionary is that of its keys.
    pub(crate) fn format(&self) -> Option<&'a [u8]> {
        self.type_of().format()
    }

    /// Says whether there are types inside: fields, items, or entries of a dictionary.
    pub(crate) fn is_nested(&self) -> bool {
        self.schema.n_children != 0 || !self.schema.dictionary.is_null()
    }

    pub(crate) fn array(&self) -> &'a ArrowArray {
        self.array
    }

    /// Returns the first `rows` numbers of the buffers, those before the offset too, and their
    /// validity, if there is one. Returns `None`, if the rows are fewer or are not kept as numbers
    /// of type `T`, if these do not lie at a multiple of their size, or if the structs break the
    /// rules.
    pub(crate) fn numbers<T: Integer>(&self, rows: usize) -> Option<(&'a [T], Option<&'a [u8]>)> {
        let array = self.array;
        let all = usize::try_from(array.offset.checked_add(array.length)?).ok()?;
        let is_of_type = self.format().and_then(numbers_of) == Some(T::FORMAT);
        let has_buffers = array.n_buffers == 2 && !array.buffers.is_null();
        if rows > all || self.is_nested() || !is_of_type || !has_buffers {
            return None;
        }
        // SAFETY: there are two buffers.
        let (bits, values) = unsafe { (*array.buffers, *array.buffers.add(1)) };
        let is_aligned = values as usize % align_of::<T>() == 0;
        if values.is_null() || !is_aligned || rows > isize::MAX as usize / size_of::<T>() {
            return None;
        }
        let bytes = rows / 8 + usize::from(rows % 8 != 0);
        // SAFETY: buffers of numbers are as long as the rows ask; nothing writes to them for 'a.
        let bits = (!bits.is_null()).then(|| unsafe { from_raw_parts(bits.cast(), bytes) });
        Some((unsafe { from_raw_parts(values.cast(), rows) }, bits))
    }
}

/// The schema of a column of another crate, or one inside it. Only [`Foreign`] makes the first.
#[derive(Clone, Copy)]
pub(crate) struct ForeignType<'a>(&'a ArrowSchema);

impl<'a> ForeignType<'a> {
    /// Returns the format, without the byte 0 at its end. That of a dictionary is that of its keys.
    pub(crate) fn format(self) -> Option<&'a [u8]> {
        self.bytes(self.0.format)
    }

    /// Returns the name, without the byte 0 at its end.
    pub(crate) fn name(self) -> Option<&'a [u8]> {
        self.bytes(self.0.name)
    }

    /// Returns the types inside: fields or items, then the entries of a dictionary. Returns `None`
    /// if they are more than `most`, or if one is missing or was released.
    pub(crate) fn inside(self, most: usize) -> Option<Vec<ForeignType<'a>>> {
        let (children, dictionary) = (self.0.children, self.0.dictionary);
        let count = usize::try_from(self.0.n_children).ok()?;
        let all = count.checked_add(usize::from(!dictionary.is_null()))?;
        if all > most || (count != 0 && children.is_null()) {
            return None;
        }
        // SAFETY: there are `count` pointers.
        let children = (0..count).map(|place| unsafe { *children.add(place) });
        let dictionary = Some(dictionary).filter(|it| !it.is_null());
        children
            .chain(dictionary)
            .map(|it| {
                // SAFETY: each pointer is null, or points to a schema that lives as long as the
                // outer one. A schema that was released says so by its `release` alone.
                let schema = unsafe { it.as_ref() }?;
                schema.release.map(|_| ForeignType(schema))
            })
            .collect()
    }

    /// Returns the bytes of a text of the schema.
    fn bytes(self, text: *const c_char) -> Option<&'a [u8]> {
        // SAFETY: texts of a schema that keeps the rules end with a byte 0, and live as long.
        (!text.is_null()).then(|| unsafe { CStr::from_ptr(text) }.to_bytes())
    }
}

/// Columns of other crates.
#[cfg(feature = "ffi")]
impl<'a> crate::Array<'a> {
    /// Borrows a column that another crate has exported, such as an `FFI_ArrowArray` and an
    /// `FFI_ArrowSchema` of arrow-rs, whose pointers have to be cast.
    ///
    /// The array releases nothing. The type is not checked here: calls return
    /// [`Error::Unsupported`](crate::Error::Unsupported) if they do not take the type.
    ///
    /// # Examples
    ///
    /// A column of arrow-rs, with its feature `ffi`:
    ///
    /// ```ignore
    /// use arrow::array::{Array as _, Int64Array};
    /// use dunkelva::ffi::{ArrowArray, ArrowSchema};
    ///
    /// let column = Int64Array::from(vec![Some(1), None, Some(3)]);
    /// let (array, schema) = arrow::ffi::to_ffi(&column.to_data())?;
    /// let array_at = std::ptr::addr_of!(array).cast::<ArrowArray>();
    /// let schema_at = std::ptr::addr_of!(schema).cast::<ArrowSchema>();
    /// // SAFETY: arrow-rs keeps the rules, and `schema` and `array` live longer than `lent`.
    /// let lent = unsafe { dunkelva::Array::from_raw(array_at, schema_at) }?;
    /// println!("{:?}", dunkelva::wrapping_sum(&lent)?);
    /// ```
    ///
    /// Structs that a program fills in:
    ///
    /// ```
    /// use dunkelva::ffi::{ArrowArray, ArrowSchema};
    /// use dunkelva::{wrapping_sum, Array, Error};
    /// use std::ffi::c_void;
    /// use std::ptr::{addr_of, null, null_mut};
    ///
    /// extern "C" fn keep_schema(_: *mut ArrowSchema) {}
    /// extern "C" fn keep_array(_: *mut ArrowArray) {}
    ///
    /// let numbers = [1_i64, 20, 300];
    /// let no_validity = null();
    /// let mut buffers: [*const c_void; 2] = [no_validity, numbers.as_ptr().cast()];
    /// let schema = ArrowSchema {
    ///     format: b"l\0".as_ptr().cast(),
    ///     name: null(),
    ///     metadata: null(),
    ///     flags: 0,
    ///     n_children: 0,
    ///     children: null_mut(),
    ///     dictionary: null_mut(),
    ///     release: Some(keep_schema),
    ///     private_data: null_mut(),
    /// };
    /// let array = ArrowArray {
    ///     length: 3,
    ///     null_count: 0,
    ///     offset: 0,
    ///     n_buffers: 2,
    ///     n_children: 0,
    ///     buffers: buffers.as_mut_ptr(),
    ///     children: null_mut(),
    ///     dictionary: null_mut(),
    ///     release: Some(keep_array),
    ///     private_data: null_mut(),
    /// };
    /// // SAFETY: the structs keep the rules, and all of these live longer than `lent`.
    /// let lent = unsafe { Array::from_raw(addr_of!(array), addr_of!(schema)) }?;
    /// assert_eq!(wrapping_sum(&lent)?, Some(321));
    /// # Ok::<(), Error>(())
    /// ```
    ///
    /// # Safety
    ///
    /// - Each pointer is null, or points to a struct that follows the rules of the
    ///   [Arrow C data interface](https://arrow.apache.org/docs/format/CDataInterface.html), with
    ///   buffers as long as these rules require.
    /// - During the lifetime `'a` no thread releases the structs, or writes to them or to the
    ///   memory to which they point.
    ///
    /// No argument binds `'a`, and the compiler accepts any lifetime. So the caller must make sure
    /// that the array, and everything made from it, does not outlive the structs and the buffers.
    ///
    /// # Errors
    ///
    /// [`Error::BadStructs`](crate::Error::BadStructs), if a pointer is null, if a struct was
    /// released, or if the length or the offset is negative.
    pub unsafe fn from_raw(
        array: *const ArrowArray,
        schema: *const ArrowSchema,
    ) -> Result<Self, crate::Error> {
        // SAFETY: the caller promises it.
        let structs = unsafe { schema.as_ref().zip(array.as_ref()) };
        let (schema, array) = structs.ok_or(crate::Error::BadStructs)?;
        if schema.release.is_none() || array.release.is_none() {
            return Err(crate::Error::BadStructs);
        }
        let place = |it| usize::try_from(it).map_err(|_| crate::Error::BadStructs);
        let (rows, offset) = (place(array.length)?, place(array.offset)?);
        Ok(Self::foreign(Foreign { schema, array }, rows, offset))
    }
}
