//! The comparisons and the extremes of arrays of views, of texts between offsets, and of byte
//! strings of one size.

use crate::operands::{Rows, rows};
use crate::plain_strings as plain;
use crate::string_rows::{Pair, Strings, Texts, Views};
use crate::timing::{Asked, Kernel, NO_BIT, Side, plain_rows, repeat};
use std::hint::black_box;

/// The kernels, as the library numbers them.
#[derive(Clone, Copy)]
#[repr(u32)]
enum StringKernel {
    TotEq,
    TotLt,
    TotEqBroadcast,
    TotLtBroadcast,
    Min,
    Max,
}

/// The layout of strings in an array, as the library numbers it.
#[derive(Clone, Copy)]
#[repr(u32)]
enum StringType {
    Views,
    Texts,
    Sized,
}

// A view crosses as its sixteen bytes.
#[allow(improper_ctypes)]
unsafe extern "C" {
    safe fn polars_time_strings(
        left_views: Rows<u128>,
        right_views: Rows<u128>,
        left_offsets: Rows<i32>,
        right_offsets: Rows<i32>,
        left_bytes: Rows<u8>,
        right_bytes: Rows<u8>,
        scalar: Rows<u8>,
        kernel: StringKernel,
        string_type: StringType,
        repeats: usize,
    ) -> u64;
}

/// The two sides of a kernel.
#[derive(Clone, Copy)]
struct Sides<'a> {
    ours: Side<'a>,
    plain: &'a dyn Fn() -> Vec<u64>,
}

/// A comparison of two arrays of `count` strings.
struct Comparison<'a> {
    name: &'a str,
    count: usize,
    asked: Asked,
    arrays: Sides<'a>,
}

impl Comparison<'_> {
    /// Hands the kernel on arrays to `each`.
    fn hand(&self, strings: &str, each: &mut dyn FnMut(&Kernel)) {
        each(&Kernel {
            name: &format!("{} {strings}", self.name),
            asked: self.asked,
            ours: self.arrays.ours,
            plain: &|repeats| plain_rows(self.count, repeats, self.arrays.plain),
            beside: None,
        });
    }

    /// Hands the kernel on arrays to `each`, beside another way to the same result in plain Rust.
    fn hand_beside(
        &self,
        strings: &str,
        other_plain: &dyn Fn() -> Vec<u64>,
        each: &mut dyn FnMut(&Kernel),
    ) {
        each(&Kernel {
            name: &format!("{} {strings}", self.name),
            asked: Asked::Ratio([1.0, 1.0]),
            ours: self.arrays.ours,
            plain: &|repeats| plain_rows(self.count, repeats, other_plain),
            beside: None,
        });
    }

    /// Hands the kernel on an array and one string to `each`. Its peer is the kernel on arrays.
    fn hand_broadcast(&self, strings: &str, sides: Sides, each: &mut dyn FnMut(&Kernel)) {
        each(&Kernel {
            name: &format!("{}_broadcast {strings}", self.name),
            asked: Asked::Ratio([1.0, 1.0]),
            ours: sides.ours,
            plain: &|repeats| plain_rows(self.count, repeats, sides.plain),
            beside: Some(self.arrays.ours),
        });
    }
}

/// Runs a kernel of the library on views.
fn run_views(kernel: StringKernel, Pair { left, right }: &Pair<Views>, repeats: usize) -> u64 {
    polars_time_strings(
        rows(&left.views),
        rows(&right.views),
        rows(&[]),
        rows(&[]),
        rows(&left.buffers[0]),
        rows(&right.buffers[0]),
        rows(&right.middle),
        kernel,
        StringType::Views,
        repeats,
    )
}

/// Runs a kernel of the library on strings that follow one another in their bytes.
fn run_following(
    kernel: StringKernel,
    string_type: StringType,
    Pair { left, right }: &Pair<Texts>,
    repeats: usize,
) -> u64 {
    polars_time_strings(
        rows(&[]),
        rows(&[]),
        rows(&left.offsets),
        rows(&right.offsets),
        rows(&left.bytes),
        rows(&right.bytes),
        rows(right.middle()),
        kernel,
        string_type,
        repeats,
    )
}

fn run_texts(kernel: StringKernel, pair: &Pair<Texts>, repeats: usize) -> u64 {
    run_following(kernel, StringType::Texts, pair, repeats)
}

/// Runs the raw comparison of texts.
pub fn run_equal_texts(pair: &Pair<Texts>, repeats: usize) -> u64 {
    run_texts(StringKernel::TotEq, pair, repeats)
}

fn run_sized(kernel: StringKernel, pair: &Pair<Texts>, repeats: usize) -> u64 {
    run_following(kernel, StringType::Sized, pair, repeats)
}

/// Hands an extreme of the strings of an array to `each`, which sees its length.
fn hand_extreme(
    name: &str,
    ours: Side,
    plain: &dyn Fn() -> Option<usize>,
    each: &mut dyn FnMut(&Kernel),
) {
    each(&Kernel {
        name,
        asked: Asked::Ratio([1.0, 1.0]),
        ours,
        plain: &|repeats| {
            repeat(&[(); 2], repeats, |(), _| {
                plain().map_or(NO_BIT, |len| len as u64)
            })
        },
        beside: None,
    });
}

/// Hands the extremes of an array of texts to `each`.
fn for_each_text_extreme(pair: &Pair<Texts>, each: &mut dyn FnMut(&Kernel)) {
    let texts = &pair.left;
    hand_extreme(
        "min texts 6",
        &|repeats| run_texts(StringKernel::Min, pair, repeats),
        &|| plain::least_text(black_box(texts)),
        each,
    );
    hand_extreme(
        "max texts 6",
        &|repeats| run_texts(StringKernel::Max, pair, repeats),
        &|| plain::greatest_text(black_box(texts)),
        each,
    );
}

/// Hands the extremes of an array of views that hold their strings to `each`.
fn for_each_view_extreme(pair: &Pair<Views>, each: &mut dyn FnMut(&Kernel)) {
    let views = &pair.left;
    hand_extreme(
        "min views 12",
        &|repeats| run_views(StringKernel::Min, pair, repeats),
        &|| plain::least_short(black_box(views)),
        each,
    );
    hand_extreme(
        "max views 12",
        &|repeats| run_views(StringKernel::Max, pair, repeats),
        &|| plain::greatest_short(black_box(views)),
        each,
    );
}

/// Hands each kernel on views that hold their strings to `each`.
fn for_each_short(pair: &Pair<Views>, each: &mut dyn FnMut(&Kernel)) {
    let Pair { left, right } = pair;
    let eq = Comparison {
        name: "tot_eq",
        count: left.views.len(),
        asked: Asked::Ratio([1.0, 1.0]),
        arrays: Sides {
            ours: &|repeats| run_views(StringKernel::TotEq, pair, repeats),
            plain: &|| plain::equal_short(left, right),
        },
    };
    let lt = Comparison {
        name: "tot_lt",
        asked: Asked::Ratio([1.0, 1.0]),
        arrays: Sides {
            ours: &|repeats| run_views(StringKernel::TotLt, pair, repeats),
            plain: &|| plain::less_short(left, right),
        },
        ..eq
    };
    let eq_broadcast = Sides {
        ours: &|repeats| run_views(StringKernel::TotEqBroadcast, pair, repeats),
        plain: &|| plain::equal_short_constant(left, &right.middle),
    };
    let lt_broadcast = Sides {
        ours: &|repeats| run_views(StringKernel::TotLtBroadcast, pair, repeats),
        plain: &|| plain::less_short_constant(left, &right.middle),
    };
    eq.hand("views 12", each);
    lt.hand("views 12", each);
    eq.hand_broadcast("views 12", eq_broadcast, each);
    lt.hand_broadcast("views 12", lt_broadcast, each);
}

/// Hands each kernel on views whose strings lie in a buffer to `each`.
fn for_each_long(pair: &Pair<Views>, each: &mut dyn FnMut(&Kernel)) {
    let Pair { left, right } = pair;
    let eq = Comparison {
        name: "tot_eq",
        count: left.views.len(),
        asked: Asked::Ratio([1.2, 1.2]),
        arrays: Sides {
            ours: &|repeats| run_views(StringKernel::TotEq, pair, repeats),
            plain: &|| plain::equal_long(left, right),
        },
    };
    let lt = Comparison {
        name: "tot_lt",
        arrays: Sides {
            ours: &|repeats| run_views(StringKernel::TotLt, pair, repeats),
            plain: &|| plain::less_long(left, right),
        },
        ..eq
    };
    eq.hand("views 20", each);
    lt.hand("views 20", each);
}

/// Hands each kernel on texts between offsets to `each`.
fn for_each_texts(pair: &Pair<Texts>, each: &mut dyn FnMut(&Kernel)) {
    let Pair { left, right } = pair;
    let eq = Comparison {
        name: "tot_eq",
        count: left.count(),
        asked: Asked::Ratio([0.7, 0.7]),
        arrays: Sides {
            ours: &|repeats| run_texts(StringKernel::TotEq, pair, repeats),
            plain: &|| plain::equal_texts(left, right),
        },
    };
    let lt = Comparison {
        name: "tot_lt",
        asked: Asked::Ratio([0.6, 0.6]),
        arrays: Sides {
            ours: &|repeats| run_texts(StringKernel::TotLt, pair, repeats),
            plain: &|| plain::less_texts(left, right),
        },
        ..eq
    };
    let eq_broadcast = Sides {
        ours: &|repeats| run_texts(StringKernel::TotEqBroadcast, pair, repeats),
        plain: &|| plain::equal_texts_constant(left, right.middle()),
    };
    let lt_broadcast = Sides {
        ours: &|repeats| run_texts(StringKernel::TotLtBroadcast, pair, repeats),
        plain: &|| plain::less_texts_constant(left, right.middle()),
    };
    eq.hand("texts 6", each);
    lt.hand("texts 6", each);
    eq.hand_beside(
        "texts 6, beside blocks",
        &|| plain::equal_texts_by_blocks(left, right),
        each,
    );
    lt.hand_beside(
        "texts 6, beside blocks",
        &|| plain::less_texts_by_blocks(left, right),
        each,
    );
    eq.hand_broadcast("texts 6", eq_broadcast, each);
    lt.hand_broadcast("texts 6", lt_broadcast, each);
}

/// Hands each kernel on strings of one size to `each`.
fn for_each_sized(pair: &Pair<Texts>, each: &mut dyn FnMut(&Kernel)) {
    let Pair { left, right } = pair;
    let (left_bytes, right_bytes) = (&left.bytes, &right.bytes);
    let eq = Comparison {
        name: "tot_eq",
        count: left.count(),
        asked: Asked::Ratio([1.1, 1.1]),
        arrays: Sides {
            ours: &|repeats| run_sized(StringKernel::TotEq, pair, repeats),
            plain: &|| plain::equal_sized(left_bytes, right_bytes),
        },
    };
    let eq_broadcast = Sides {
        ours: &|repeats| run_sized(StringKernel::TotEqBroadcast, pair, repeats),
        plain: &|| plain::equal_texts_constant(left, right.middle()),
    };
    eq.hand("sized 16", each);
    eq.hand_broadcast("sized 16", eq_broadcast, each);
}

/// Hands each kernel to `each`.
pub fn for_each(strings: &Strings, each: &mut dyn FnMut(&Kernel)) {
    for_each_short(&strings.short, each);
    for_each_long(&strings.long, each);
    for_each_texts(&strings.texts, each);
    for_each_sized(&strings.sized, each);
    for_each_text_extreme(&strings.texts, each);
    for_each_view_extreme(&strings.short, each);
}
