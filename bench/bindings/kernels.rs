//! The kernels alone, on arrays that the library `bench_kernels` makes once. Each function returns
//! a checksum.

use std::marker::PhantomData;

/// A slice as it crosses to the library: a pointer and a length.
#[repr(C)]
struct Rows<'a, T> {
    first: *const T,
    count: usize,
    lent: PhantomData<&'a T>,
}

fn rows<T>(slice: &[T]) -> Rows<'_, T> {
    Rows {
        first: slice.as_ptr(),
        count: slice.len(),
        lent: PhantomData,
    }
}

#[allow(improper_ctypes)]
unsafe extern "C" {
    safe fn polars_time_numbers(
        left: Rows<i64>,
        right: Rows<i64>,
        validities: Rows<u64>,
        scalar: i64,
        kernel: u32,
        number_type: u32,
        shift: usize,
        repeats: usize,
    ) -> u64;
    safe fn polars_time_strings(
        left_views: Rows<[u8; 16]>,
        right_views: Rows<[u8; 16]>,
        left_offsets: Rows<i32>,
        right_offsets: Rows<i32>,
        left_bytes: Rows<u8>,
        right_bytes: Rows<u8>,
        scalar: Rows<u8>,
        kernel: u32,
        string_type: u32,
        repeats: usize,
    ) -> u64;
    safe fn polars_time_nested(
        left_offsets: Rows<i32>,
        right_offsets: Rows<i32>,
        left_items: Rows<i32>,
        right_items: Rows<i32>,
        left_present: Rows<u64>,
        right_present: Rows<u64>,
        left_bytes: Rows<u8>,
        right_bytes: Rows<u8>,
        kernel: u32,
        nested_type: u32,
        size: usize,
        repeats: usize,
    ) -> u64;
}

/// The numbers of kernels and types in `bench_kernels`.
const TOT_EQ: u32 = 0;
const NUMBERS_TOT_EQ_MISSING: u32 = 4;
const I32: u32 = 1;
const VIEWS: u32 = 0;
const TEXTS: u32 = 1;
const NESTED_TOT_EQ_MISSING: u32 = 0;
const LISTS: u32 = 0;
const STRUCTS: u32 = 2;
const DICTIONARIES: u32 = 3;

fn widened(values: &[i32]) -> Vec<i64> {
    values.iter().map(|value| i64::from(*value)).collect()
}

/// Runs the raw comparison, or with a validity the one that sees nulls.
pub fn numbers(left: &[i32], right: &[i32], present: Option<&[u64]>, repeats: usize) -> u64 {
    let (left, right) = (widened(left), widened(right));
    let ones = vec![u64::MAX; left.len() / 64 + 2];
    let kernel = if present.is_some() {
        NUMBERS_TOT_EQ_MISSING
    } else {
        TOT_EQ
    };
    let present = present.unwrap_or(&ones);
    polars_time_numbers(
        rows(&left),
        rows(&right),
        rows(present),
        0,
        kernel,
        I32,
        0,
        repeats,
    )
}

pub fn texts(offsets: &[i32], left: &[u8], right: &[u8], repeats: usize) -> u64 {
    polars_time_strings(
        rows(&[]),
        rows(&[]),
        rows(offsets),
        rows(offsets),
        rows(left),
        rows(right),
        rows(b"abc"),
        TOT_EQ,
        TEXTS,
        repeats,
    )
}

pub fn views(views: [&[[u8; 16]]; 2], bytes: [&[u8]; 2], repeats: usize) -> u64 {
    polars_time_strings(
        rows(views[0]),
        rows(views[1]),
        rows(&[]),
        rows(&[]),
        rows(bytes[0]),
        rows(bytes[1]),
        rows(b"abc"),
        TOT_EQ,
        VIEWS,
        repeats,
    )
}

/// Runs the comparison of arrays of a nested type, which have the same offsets on both sides.
fn nested(
    nested_type: u32,
    size: usize,
    offsets: &[i32],
    items: [&[i32]; 2],
    bytes: [&[u8]; 2],
    repeats: usize,
) -> u64 {
    polars_time_nested(
        rows(offsets),
        rows(offsets),
        rows(items[0]),
        rows(items[1]),
        rows(&[]),
        rows(&[]),
        rows(bytes[0]),
        rows(bytes[1]),
        NESTED_TOT_EQ_MISSING,
        nested_type,
        size,
        repeats,
    )
}

pub fn lists(offsets: &[i32], left: &[i32], right: &[i32], repeats: usize) -> u64 {
    nested(LISTS, 0, offsets, [left, right], [&[], &[]], repeats)
}

pub fn structs(
    count: usize,
    offsets: &[i32],
    items: [&[i32]; 2],
    bytes: [&[u8]; 2],
    repeats: usize,
) -> u64 {
    nested(STRUCTS, count, offsets, items, bytes, repeats)
}

pub fn dictionaries(offsets: &[i32], bytes: &[u8], keys: [&[i32]; 2], repeats: usize) -> u64 {
    nested(DICTIONARIES, 0, offsets, keys, [bytes, bytes], repeats)
}
