//! Sums, reductions and extremes of arrays of numbers, and counts of their bits.

use crate::operands::{Data, NumberType, Numbers, Rows, rows, words};
use crate::plain::Window;
use crate::plain_reductions::{
    And, Count, Join, LeadingZeros, Max, Min, Ones, Or, Reduced, Sum, TrailingZeros, Xor, counts,
    ends, reduce, reduce_present,
};
use crate::timing::{Asked, Kernel, Side, repeat};
use std::hint::black_box;

/// The kernels, as the library numbers them.
#[derive(Clone, Copy)]
#[repr(u32)]
enum ReductionKernel {
    Sum,
    ReduceAnd,
    ReduceOr,
    ReduceXor,
    Min,
    Max,
    MinMax,
    CountOnes,
    LeadingZeros,
    TrailingZeros,
}

#[allow(improper_ctypes)]
unsafe extern "C" {
    safe fn polars_time_reductions(
        values: Rows<i64>,
        validities: Rows<u64>,
        kernel: ReductionKernel,
        number_type: NumberType,
        shift: usize,
        repeats: usize,
    ) -> u64;
}

/// The value that a side returns where there is no number.
const NO_NUMBER: u64 = 0x5555_5555_5555_5555;

/// The bit at which a validity begins in its words.
const SHIFT: usize = 13;

/// The rows that have a validity bit of 1.
#[derive(Clone, Copy)]
enum Nulls {
    NoValidity,
    Half,
    NoneMasked,
}

/// The numbers of one type, and validities of them.
struct Columns<'a, T> {
    name: &'static str,
    number_type: NumberType,
    values: &'a [T],
    data: &'a Data,
    half: &'a [u64],
    ones: &'a [u64],
    /// The ratio asked of a sum with half of the rows null, beside the sum of all rows.
    asked_of_nulls: [f64; 2],
}

/// Returns both numbers in one, if there are some.
fn pair_of<T: Reduced>(found: Option<(T, T)>) -> u64 {
    found.map_or(NO_NUMBER, |(least, greatest)| {
        least.wide().wrapping_mul(31).wrapping_add(greatest.wide())
    })
}

/// Runs a peer that returns one number a run.
fn plain_number(repeats: usize, answer: impl Fn() -> u64) -> u64 {
    repeat(&[(); 2], repeats, |(), _| black_box(answer()))
}

/// Runs a peer that makes a count of each row.
fn plain_counts(repeats: usize, make: impl Fn() -> Vec<u32>) -> u64 {
    repeat(&[(); 2], repeats, |(), i| {
        black_box(make())
            .get(i)
            .map_or(NO_NUMBER, |n| u64::from(*n))
    })
}

impl<T: Reduced> Columns<'_, T> {
    /// Runs a kernel of the library.
    fn run(&self, kernel: ReductionKernel, nulls: Nulls, repeats: usize) -> u64 {
        let validities = match nulls {
            Nulls::NoValidity => &[],
            Nulls::Half => self.half,
            Nulls::NoneMasked => self.ones,
        };
        polars_time_reductions(
            rows(&self.data.left_i64),
            rows(validities),
            kernel,
            self.number_type,
            SHIFT,
            repeats,
        )
    }

    /// Hands a reduction to `each`: of all rows, with half of them null beside a test of each bit,
    /// and the same and with a validity of ones beside that of all rows.
    fn for_each_form<J: Join>(
        &self,
        name: &str,
        kernel: ReductionKernel,
        without: u64,
        each: &mut dyn FnMut(&Kernel),
    ) {
        let answer = |found: Option<T>| found.map_or(without, |number| number.wide());
        let values = self.values;
        let plain =
            |repeats: usize| plain_number(repeats, || answer(reduce::<T, J>(black_box(values))));
        let half = |repeats: usize| {
            let window = || Window {
                words: self.half,
                at: SHIFT,
                len: values.len(),
            };
            plain_number(repeats, || {
                answer(reduce_present::<T, J>(black_box(values), window()))
            })
        };
        let all = |repeats: usize| self.run(kernel, Nulls::NoValidity, repeats);
        let mut hand = |form: &str, asked: [f64; 2], nulls: Nulls, plain, beside| {
            each(&Kernel {
                name: &format!("{name} {}{form}", self.name),
                asked: Asked::Ratio(asked),
                ours: &|repeats| self.run(kernel, nulls, repeats),
                plain,
                beside,
            });
        };
        hand("", [1.0; 2], Nulls::NoValidity, &plain as Side, None);
        hand(", half null", [0.5; 2], Nulls::Half, &half, None);
        hand(
            ", half null, of all",
            self.asked_of_nulls,
            Nulls::Half,
            &half,
            Some(&all as Side),
        );
        hand(
            ", ones, of all",
            [1.1; 2],
            Nulls::NoneMasked,
            &plain,
            Some(&all),
        );
    }

    /// Hands each kernel to `each`.
    fn for_each(&self, each: &mut dyn FnMut(&Kernel)) {
        self.for_each_form::<Sum>("sum", ReductionKernel::Sum, 0, each);
        self.for_each_form::<And>("reduce_and", ReductionKernel::ReduceAnd, NO_NUMBER, each);
        self.for_each_form::<Or>("reduce_or", ReductionKernel::ReduceOr, NO_NUMBER, each);
        self.for_each_form::<Xor>("reduce_xor", ReductionKernel::ReduceXor, NO_NUMBER, each);
        self.for_each_form::<Min>("min", ReductionKernel::Min, NO_NUMBER, each);
        self.for_each_form::<Max>("max", ReductionKernel::Max, NO_NUMBER, each);
        self.both_ends(each);
        self.counts::<Ones>("count_ones", ReductionKernel::CountOnes, each);
        self.counts::<LeadingZeros>("leading_zeros", ReductionKernel::LeadingZeros, each);
        self.counts::<TrailingZeros>("trailing_zeros", ReductionKernel::TrailingZeros, each);
    }

    /// Hands both extremes at once to `each`, beside the least one alone.
    fn both_ends(&self, each: &mut dyn FnMut(&Kernel)) {
        each(&Kernel {
            name: &format!("min_max {}, of min", self.name),
            asked: Asked::Ratio([1.3; 2]),
            ours: &|repeats| self.run(ReductionKernel::MinMax, Nulls::NoValidity, repeats),
            plain: &|repeats| plain_number(repeats, || pair_of(ends(black_box(self.values)))),
            beside: Some(&|repeats| self.run(ReductionKernel::Min, Nulls::NoValidity, repeats)),
        });
    }

    /// Hands a count of bits to `each`.
    fn counts<C: Count>(&self, name: &str, kernel: ReductionKernel, each: &mut dyn FnMut(&Kernel)) {
        each(&Kernel {
            name: &format!("{name} {}", self.name),
            asked: Asked::Ratio([1.0; 2]),
            ours: &|repeats| self.run(kernel, Nulls::NoValidity, repeats),
            plain: &|repeats| plain_counts(repeats, || counts::<T, C>(black_box(self.values))),
            beside: None,
        });
    }
}

/// Hands each kernel to `each`. Half of the rows are null at random.
pub fn for_each(data: &Data, each: &mut dyn FnMut(&Kernel)) {
    let count = data.left_i64.len().div_ceil(64) + 4;
    let half = &words(&mut Numbers::new(0x9E37_79B9_7F4A_7C15), count);
    let ones = &vec![u64::MAX; count];
    Columns {
        name: "i32",
        number_type: NumberType::I32,
        values: &data.left_i32,
        data,
        half,
        ones,
        asked_of_nulls: [2.0; 2],
    }
    .for_each(each);
    Columns {
        name: "i64",
        number_type: NumberType::I64,
        values: &data.left_i64,
        data,
        half,
        ones,
        asked_of_nulls: [2.0; 2],
    }
    .for_each(each);
    let bytes: Vec<u8> = data.left_i64.iter().map(|number| *number as u8).collect();
    Columns {
        name: "u8",
        number_type: NumberType::U8,
        values: &bytes,
        data,
        half,
        ones,
        asked_of_nulls: [3.0; 2],
    }
    .for_each(each);
}
