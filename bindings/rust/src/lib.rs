#![doc = include_str!("../README.md")]
#![deny(missing_docs, unsafe_code, unsafe_op_in_unsafe_fn)]
#![warn(missing_debug_implementations)]

mod arithmetic;
mod array;
mod bitmap;
mod buffer;
mod calls;
mod collect;
mod counts;
mod error;
pub mod format;
mod lent;
mod make;
mod mask;
mod names;
mod numbers;
mod structs;
#[allow(unsafe_code)]
mod sys;
mod types;
mod unique;
mod views;

pub use crate::arithmetic::{
    arithmetic, wrapping_abs, wrapping_add, wrapping_floor_div, wrapping_mod, wrapping_mul,
    wrapping_neg, wrapping_sub, wrapping_trunc_div, Operand, Operation,
};
pub use crate::array::Array;
pub use crate::bitmap::{Bitmap, Bits};
pub use crate::buffer::{BitBuffer, Buffer};
pub use crate::calls::{
    compare, compare_number, equal, equal_counted, equal_with, is_null, library_version, max, min,
    min_max, not_equal, reduce_bits, wrapping_sum, BitOperation, Comparison, EqualOptions,
};
pub use crate::counts::{
    count_ones, count_zeros, leading_ones, leading_zeros, trailing_ones, trailing_zeros,
};
pub use crate::error::Error;
pub use crate::mask::Mask;
pub use crate::numbers::{IntoRows, Numbers, Rows};
pub use crate::types::{AnyInteger, Integer, Number, Offset};
pub use crate::unique::Unique;

/// The two structs of the Arrow C data interface, for [`Array::from_raw`].
#[cfg(feature = "ffi")]
pub mod ffi {
    pub use crate::structs::{ArrowArray, ArrowSchema};
}
