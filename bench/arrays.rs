//! The comparisons of arrays of numbers.

use crate::operands::{Data, NumberType, Rows, rows};
use crate::plain::{self, Window};
use crate::timing::{Asked, Kernel, plain_rows};

/// The kernels, as the library numbers them.
#[derive(Clone, Copy)]
#[repr(u32)]
enum NumberKernel {
    TotEq,
    TotLt,
    TotEqBroadcast,
    TotLtBroadcast,
    TotEqMissing,
}

#[allow(improper_ctypes)]
unsafe extern "C" {
    safe fn polars_time_numbers(
        left: Rows<i64>,
        right: Rows<i64>,
        validities: Rows<u64>,
        scalar: i64,
        kernel: NumberKernel,
        number_type: NumberType,
        shift: usize,
        repeats: usize,
    ) -> u64;
}

/// By how many bits the right validity begins after the left one.
const STRIDE: usize = 64;

/// Windows at differing places in words.
const DIFFERING: usize = 13;

/// The rows of one type, and the numbers of 64 bits that the library makes them of.
struct Arrays<'a, T> {
    name: &'static str,
    number_type: NumberType,
    left: &'a [T],
    right: &'a [T],
    data: &'a Data,
}

impl<T: Copy + PartialOrd> Arrays<'_, T> {
    /// Runs a kernel of the library. The left validity begins at bit `shift`.
    fn run(&self, kernel: NumberKernel, shift: usize, repeats: usize) -> u64 {
        polars_time_numbers(
            rows(&self.data.left_i64),
            rows(&self.data.right_i64),
            rows(&self.data.validities),
            self.data.middle(),
            kernel,
            self.number_type,
            shift,
            repeats,
        )
    }

    /// Hands each raw comparison to `each`.
    fn for_each(&self, asked: Asked, each: &mut dyn FnMut(&Kernel)) {
        let (left, right) = (self.left, self.right);
        let count = left.len();
        let constant = right.get(count / 2).copied();
        let mut hand = |name: &str, kernel: NumberKernel, plain: &dyn Fn() -> Vec<u64>| {
            each(&Kernel {
                name: &format!("{name} {}", self.name),
                asked,
                ours: &|repeats| self.run(kernel, 0, repeats),
                plain: &|repeats| plain_rows(count, repeats, plain),
                beside: None,
            });
        };
        hand("tot_eq", NumberKernel::TotEq, &|| plain::equal(left, right));
        hand("tot_lt", NumberKernel::TotLt, &|| plain::less(left, right));
        hand("tot_eq_broadcast", NumberKernel::TotEqBroadcast, &|| {
            constant.map_or(Vec::new(), |right| plain::equal_constant(left, right))
        });
        hand("tot_lt_broadcast", NumberKernel::TotLtBroadcast, &|| {
            constant.map_or(Vec::new(), |right| plain::less_constant(left, right))
        });
    }

    /// Hands to `each` the comparison that sees nulls, once with validities at differing places in
    /// words and once at the beginning of words. It is timed beside the raw comparison of the same
    /// arrays.
    fn for_each_missing(&self, each: &mut dyn FnMut(&Kernel)) {
        let (left, right) = (self.left, self.right);
        let len = left.len();
        for (place, shift) in [("", DIFFERING), (", aligned", 0)] {
            let window = |at: usize| Window {
                words: &self.data.validities,
                at,
                len,
            };
            each(&Kernel {
                name: &format!("tot_eq_missing {}{place}", self.name),
                asked: Asked::Ratio([1.05, 1.05]),
                ours: &|repeats| self.run(NumberKernel::TotEqMissing, shift, repeats),
                plain: &|repeats| {
                    plain_rows(len, repeats, || {
                        plain::equal_missing(left, right, window(shift), window(shift + STRIDE))
                    })
                },
                beside: Some(&|repeats| self.run(NumberKernel::TotEq, shift, repeats)),
            });
        }
    }
}

/// Hands each kernel to `each`.
pub fn for_each(data: &Data, each: &mut dyn FnMut(&Kernel)) {
    let asked = Asked::Ratio([0.6, 1.0]);
    Arrays {
        name: "i8",
        number_type: NumberType::I8,
        left: &data.left_i8,
        right: &data.right_i8,
        data,
    }
    .for_each(asked, each);
    let arrays = Arrays {
        name: "i32",
        number_type: NumberType::I32,
        left: &data.left_i32,
        right: &data.right_i32,
        data,
    };
    arrays.for_each(asked, each);
    arrays.for_each_missing(each);
    let arrays = Arrays {
        name: "i64",
        number_type: NumberType::I64,
        left: &data.left_i64,
        right: &data.right_i64,
        data,
    };
    arrays.for_each(asked, each);
    arrays.for_each_missing(each);
    Arrays {
        name: "i128",
        number_type: NumberType::I128,
        left: &data.left_i128,
        right: &data.right_i128,
        data,
    }
    .for_each(Asked::Ratio([1.0, 1.0]), each);
}
