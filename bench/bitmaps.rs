//! The kernels on bitmaps, and on arrays of truth values, which are bitmaps.

use crate::operands::{Numbers, Rows, rows, words};
use crate::plain::{self, Window};
use crate::plain_states::distinct_truths;
use crate::timing::{Asked, Bench, Kernel, NO_BIT, RUNS, bit_of, repeat};
use std::hint::black_box;

/// The kernels on bitmaps, as the library numbers them.
#[derive(Clone, Copy)]
#[repr(u32)]
enum BitmapKernel {
    And,
    Or,
    Xor,
    Not,
    MergeEq,
    MergeNe,
    SetBits,
    NumIntersectionsWith,
}

/// The kernels on arrays of truth values, as the library numbers them.
#[derive(Clone, Copy)]
#[repr(u32)]
enum TruthKernel {
    TotEq,
    TotLt,
    ReduceAnd,
    ReduceXor,
    Min,
    Distinct,
}

// After the words come the shift of the windows and their length in bits.
#[allow(improper_ctypes)]
unsafe extern "C" {
    safe fn polars_time_bitmaps(
        first: Rows<u64>,
        second: Rows<u64>,
        third: Rows<u64>,
        kernel: BitmapKernel,
        shift: usize,
        len: usize,
        repeats: usize,
    ) -> u64;
    safe fn polars_time_truths(
        left: Rows<u64>,
        right: Rows<u64>,
        kernel: TruthKernel,
        shift: usize,
        len: usize,
        repeats: usize,
    ) -> u64;
}

/// The call that the library runs: on three bitmaps, or on two arrays of truth values in the first
/// two.
#[derive(Clone, Copy)]
enum Ours {
    Bitmaps(BitmapKernel),
    Truths(TruthKernel),
}

/// The distance in bits between the two windows of one operand.
const STRIDE: usize = 64;

/// A kernel of the bitmaps, and its peer on three windows, which returns bit `i` or the count.
/// Its windows begin `shift`, twice and three times `shift` bits into the words.
struct Logic {
    name: &'static str,
    shift: usize,
    asked: Asked,
    ours: Ours,
    plain: fn(&[Window; 3], usize) -> u64,
}

/// Windows at differing places in words.
const DIFFERING: usize = 13;

const LOGIC: [Logic; 24] = [
    Logic {
        name: "and",
        shift: DIFFERING,
        asked: Asked::Ratio([1.0, 1.0]),
        ours: Ours::Bitmaps(BitmapKernel::And),
        plain: |w, i| bit_of(plain::and(w[0], w[1]), w[0].len, i),
    },
    Logic {
        name: "or",
        shift: DIFFERING,
        asked: Asked::Ratio([1.0, 1.0]),
        ours: Ours::Bitmaps(BitmapKernel::Or),
        plain: |w, i| bit_of(plain::or(w[0], w[1]), w[0].len, i),
    },
    Logic {
        name: "xor",
        shift: DIFFERING,
        asked: Asked::Ratio([1.0, 1.0]),
        ours: Ours::Bitmaps(BitmapKernel::Xor),
        plain: |w, i| bit_of(plain::xor(w[0], w[1]), w[0].len, i),
    },
    Logic {
        name: "not",
        shift: DIFFERING,
        asked: Asked::Ratio([1.0, 1.0]),
        ours: Ours::Bitmaps(BitmapKernel::Not),
        plain: |w, i| bit_of(plain::not(w[0]), w[0].len, i),
    },
    Logic {
        name: "merge_eq",
        shift: DIFFERING,
        asked: Asked::Ratio([1.0, 1.0]),
        ours: Ours::Bitmaps(BitmapKernel::MergeEq),
        plain: |w, i| bit_of(plain::merge_eq(w[0], w[1], w[2]), w[0].len, i),
    },
    Logic {
        name: "merge_ne",
        shift: DIFFERING,
        asked: Asked::Ratio([1.0, 1.0]),
        ours: Ours::Bitmaps(BitmapKernel::MergeNe),
        plain: |w, i| bit_of(plain::merge_ne(w[0], w[1], w[2]), w[0].len, i),
    },
    Logic {
        name: "set_bits",
        shift: DIFFERING,
        asked: Asked::Nothing,
        ours: Ours::Bitmaps(BitmapKernel::SetBits),
        plain: |w, _| plain::set_bits(w[0]) as u64,
    },
    Logic {
        name: "num_intersections_with",
        shift: DIFFERING,
        asked: Asked::Nothing,
        ours: Ours::Bitmaps(BitmapKernel::NumIntersectionsWith),
        plain: |w, _| plain::num_intersections_with(w[0], w[1]) as u64,
    },
    Logic {
        name: "and, aligned",
        shift: 0,
        asked: Asked::Ratio([1.15, 1.15]),
        ours: Ours::Bitmaps(BitmapKernel::And),
        plain: |w, i| bit_of(plain::and_aligned(w[0], w[1]), w[0].len, i),
    },
    Logic {
        name: "or, aligned",
        shift: 0,
        asked: Asked::Ratio([1.15, 1.15]),
        ours: Ours::Bitmaps(BitmapKernel::Or),
        plain: |w, i| bit_of(plain::or_aligned(w[0], w[1]), w[0].len, i),
    },
    Logic {
        name: "xor, aligned",
        shift: 0,
        asked: Asked::Ratio([1.15, 1.15]),
        ours: Ours::Bitmaps(BitmapKernel::Xor),
        plain: |w, i| bit_of(plain::xor_aligned(w[0], w[1]), w[0].len, i),
    },
    Logic {
        name: "not, aligned",
        shift: 0,
        asked: Asked::Ratio([1.15, 1.15]),
        ours: Ours::Bitmaps(BitmapKernel::Not),
        plain: |w, i| bit_of(plain::not_aligned(w[0]), w[0].len, i),
    },
    Logic {
        name: "merge_eq, aligned",
        shift: 0,
        asked: Asked::Ratio([1.15, 1.15]),
        ours: Ours::Bitmaps(BitmapKernel::MergeEq),
        plain: |w, i| bit_of(plain::merge_eq_aligned(w[0], w[1], w[2]), w[0].len, i),
    },
    Logic {
        name: "merge_ne, aligned",
        shift: 0,
        asked: Asked::Ratio([1.15, 1.15]),
        ours: Ours::Bitmaps(BitmapKernel::MergeNe),
        plain: |w, i| bit_of(plain::merge_ne_aligned(w[0], w[1], w[2]), w[0].len, i),
    },
    Logic {
        name: "set_bits, aligned",
        shift: 0,
        asked: Asked::Ratio([1.15, 1.15]),
        ours: Ours::Bitmaps(BitmapKernel::SetBits),
        plain: |w, _| plain::set_bits_aligned(w[0]) as u64,
    },
    Logic {
        name: "num_intersections_with, aligned",
        shift: 0,
        asked: Asked::Ratio([1.15, 1.15]),
        ours: Ours::Bitmaps(BitmapKernel::NumIntersectionsWith),
        plain: |w, _| plain::num_intersections_with_aligned(w[0], w[1]) as u64,
    },
    Logic {
        name: "tot_eq bool",
        shift: DIFFERING,
        asked: Asked::Ratio([1.1, 1.1]),
        ours: Ours::Truths(TruthKernel::TotEq),
        plain: |w, i| bit_of(plain::xnor(w[0], w[1]), w[0].len, i),
    },
    Logic {
        name: "tot_eq bool, aligned",
        shift: 0,
        asked: Asked::Ratio([1.1, 1.1]),
        ours: Ours::Truths(TruthKernel::TotEq),
        plain: |w, i| bit_of(plain::xnor_aligned(w[0], w[1]), w[0].len, i),
    },
    Logic {
        name: "tot_lt bool",
        shift: DIFFERING,
        asked: Asked::Ratio([1.1, 1.1]),
        ours: Ours::Truths(TruthKernel::TotLt),
        plain: |w, i| bit_of(plain::not_and(w[0], w[1]), w[0].len, i),
    },
    Logic {
        name: "tot_lt bool, aligned",
        shift: 0,
        asked: Asked::Ratio([1.1, 1.1]),
        ours: Ours::Truths(TruthKernel::TotLt),
        plain: |w, i| bit_of(plain::not_and_aligned(w[0], w[1]), w[0].len, i),
    },
    Logic {
        name: "reduce_and bool",
        shift: DIFFERING,
        asked: Asked::Ratio([1.0, 1.0]),
        ours: Ours::Truths(TruthKernel::ReduceAnd),
        plain: |w, _| plain::all_true(w[0]).map_or(NO_BIT, u64::from),
    },
    Logic {
        name: "reduce_xor bool",
        shift: DIFFERING,
        asked: Asked::Ratio([1.0, 1.0]),
        ours: Ours::Truths(TruthKernel::ReduceXor),
        plain: |w, _| plain::odd_trues(w[0]).map_or(NO_BIT, u64::from),
    },
    Logic {
        name: "min bool",
        shift: DIFFERING,
        asked: Asked::Ratio([1.0, 1.0]),
        ours: Ours::Truths(TruthKernel::Min),
        plain: |w, _| plain::all_true(w[0]).map_or(NO_BIT, u64::from),
    },
    Logic {
        name: "distinct of bool",
        shift: DIFFERING,
        asked: Asked::Nanoseconds([0.05, 0.05]),
        ours: Ours::Truths(TruthKernel::Distinct),
        plain: |w, _| distinct_truths(w[0]),
    },
];

impl Logic {
    fn ours(&self, words: &[Vec<u64>; 3], shift: usize, len: usize, repeats: usize) -> u64 {
        let [first, second, third] = words.each_ref().map(|slice| rows(slice));
        match self.ours {
            Ours::Bitmaps(kernel) => {
                polars_time_bitmaps(first, second, third, kernel, shift, len, repeats)
            }
            Ours::Truths(kernel) => polars_time_truths(first, second, kernel, shift, len, repeats),
        }
    }

    /// Runs the peer as the library runs its kernel: on two windows in turn, in copied words.
    fn plain(&self, words: &[Vec<u64>; 3], shift: usize, len: usize, repeats: usize) -> u64 {
        let copies = black_box(words.clone());
        let windows = |late: usize| {
            [0, 1, 2].map(|k| Window {
                words: &copies[k],
                at: (k + 1) * shift + late,
                len,
            })
        };
        repeat(&[windows(0), windows(STRIDE)], repeats, self.plain)
    }
}

/// Returns the words of three operands of `len` bits, wherever their windows begin.
fn operands(len: usize) -> [Vec<u64>; 3] {
    let mut numbers = Numbers::new(362_436_069_123_456_789);
    [(); 3].map(|()| words(&mut numbers, len.div_ceil(64) + 8))
}

/// Compares and times the kernels.
pub fn compare(bench: &mut Bench, run: usize) {
    let len = RUNS[run].count;
    let words = operands(len);
    for kernel in LOGIC {
        bench.compare(
            run,
            &Kernel {
                name: kernel.name,
                asked: kernel.asked,
                ours: &|repeats| kernel.ours(&words, kernel.shift, len, repeats),
                plain: &|repeats| kernel.plain(&words, kernel.shift, len, repeats),
                beside: None,
            },
        );
    }
}

/// Checks that both sides return the same bits, at lengths up to some hundreds and many places, of
/// the kernels that are to be run.
pub fn agree(bench: &Bench) {
    for len in 0..300 {
        let words = operands(len);
        let repeats = 2 * len + 4;
        for kernel in LOGIC.iter().filter(|kernel| bench.runs(kernel.name)) {
            let shifts: &[usize] = if kernel.shift == 0 {
                &[0, 64]
            } else {
                &[0, 1, 13, 31, 63, 64, 65, 127]
            };
            for shift in shifts {
                assert_eq!(
                    kernel.ours(&words, *shift, len, repeats),
                    kernel.plain(&words, *shift, len, repeats),
                    "{} of {len} bits at {shift}",
                    kernel.name
                );
            }
        }
    }
}
