//! The kernels on slices.

use crate::operands::{Data, NumberType, Rows, rows};
use crate::plain;
use crate::timing::{Asked, Kernel, plain_rows};

/// The kernels on numbers, as the library numbers them.
#[derive(Clone, Copy)]
#[repr(u32)]
enum SliceKernel {
    Equal,
    Less,
    EqualConstant,
}

/// The kernels on truth values, as the library numbers them.
#[derive(Clone, Copy)]
#[repr(u32)]
enum BoolKernel {
    FromBools,
}

#[allow(improper_ctypes)]
unsafe extern "C" {
    safe fn polars_time_slices(
        left: Rows<i64>,
        right: Rows<i64>,
        scalar: i64,
        kernel: SliceKernel,
        number_type: NumberType,
        repeats: usize,
    ) -> u64;
    safe fn polars_time_bools(values: Rows<bool>, kernel: BoolKernel, repeats: usize) -> u64;
}

/// Hands each kernel to `each`.
pub fn for_each(data: &Data, each: &mut dyn FnMut(&Kernel)) {
    let Data {
        left_i32,
        right_i32,
        left_i64,
        right_i64,
        bools,
        ..
    } = data;
    let count = bools.len();
    let mut hand = |name: &str,
                    (kernel, number_type): (SliceKernel, NumberType),
                    plain: &dyn Fn() -> Vec<u64>| {
        each(&Kernel {
            name,
            asked: Asked::Ratio([0.5, 1.0]),
            ours: &|repeats| {
                polars_time_slices(
                    rows(left_i64),
                    rows(right_i64),
                    data.middle(),
                    kernel,
                    number_type,
                    repeats,
                )
            },
            plain: &|repeats| plain_rows(count, repeats, plain),
            beside: None,
        });
    };
    hand("equal i32", (SliceKernel::Equal, NumberType::I32), &|| {
        plain::equal(left_i32, right_i32)
    });
    hand("equal i64", (SliceKernel::Equal, NumberType::I64), &|| {
        plain::equal(left_i64, right_i64)
    });
    hand("less i64", (SliceKernel::Less, NumberType::I64), &|| {
        plain::less(left_i64, right_i64)
    });
    let constant = data.middle() as i32;
    hand(
        "equal i32, constant",
        (SliceKernel::EqualConstant, NumberType::I32),
        &|| plain::equal_constant(left_i32, constant),
    );
    each(&Kernel {
        name: "from_bools",
        asked: Asked::Ratio([1.0, 1.0]),
        ours: &|repeats| polars_time_bools(rows(bools), BoolKernel::FromBools, repeats),
        plain: &|repeats| plain_rows(count, repeats, || plain::from_bools(bools)),
        beside: None,
    });
}
