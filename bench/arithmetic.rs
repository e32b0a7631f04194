//! Arithmetic on arrays of numbers.

use crate::operands::{NumberType, Numbers, Rows, rows, words};
use crate::plain_arithmetic::{
    Abs, Add, FloorDiv, Mod, Mul, Neg, Number, Operation, Sub, TruncDiv, join, joined, lone,
    lone_in_place, nonzero, pairs, pairs_in_place,
};
use crate::timing::{Asked, Bench, Kernel, SHORT_RUNS};
use std::hint::black_box;
use std::marker::PhantomData;

/// The operations on two arrays, as the library numbers them.
#[derive(Clone, Copy)]
#[repr(u32)]
enum PairOperation {
    Add,
    Sub,
    Mul,
    FloorDiv,
    TruncDiv,
    Mod,
}

/// The operations on one array, or on one and a number, as the library numbers them.
#[derive(Clone, Copy)]
#[repr(u32)]
enum LoneOperation {
    Abs,
    Neg,
    Add,
    Sub,
    Mul,
    FloorDiv,
    TruncDiv,
    Mod,
}

#[allow(improper_ctypes)]
unsafe extern "C" {
    safe fn polars_time_pairs(
        left: Rows<i64>,
        right: Rows<i64>,
        words: Rows<u64>,
        operation: PairOperation,
        number_type: NumberType,
        in_place: bool,
        repeats: usize,
    ) -> u64;
    safe fn polars_time_lone(
        values: Rows<i64>,
        words: Rows<u64>,
        scalar: i64,
        operation: LoneOperation,
        number_type: NumberType,
        in_place: bool,
        repeats: usize,
    ) -> u64;
}

unsafe extern "C" {
    safe fn mallopt(parameter: i32, value: i32) -> i32;
}

/// Has the C library's allocator keep what is freed. Else it gives new numbers of many rows back to
/// the system run after run, and the time is that of the system, on either side as its memory
/// happens to lie.
fn keep_freed_memory() {
    const TRIM_THRESHOLD: i32 = -1;
    const MMAP_MAX: i32 = -4;
    mallopt(TRIM_THRESHOLD, i32::MAX);
    mallopt(MMAP_MAX, 0);
}

/// The value that a side returns for a row that is null or past the end.
const NO_NUMBER: u64 = 0x5555_5555_5555_5555;

/// The scalar that is timed.
const SCALAR: i64 = 7;

/// The scalars by which both sides are tried.
const SCALARS: [i64; 10] = [
    0,
    1,
    -1,
    2,
    SCALAR,
    -SCALAR,
    i8::MIN as i64,
    1_000_003,
    i32::MIN as i64,
    i64::MIN,
];

/// The parts from which the library makes the arrays.
struct Columns {
    left: Vec<i64>,
    /// Numbers of all magnitudes. About one in sixty-four is 0.
    right: Vec<i64>,
    /// Words of the validities, with one more than there are bits for.
    words: Vec<u64>,
}

impl Columns {
    fn new(count: usize) -> Columns {
        let mut numbers = Numbers::new(521_288_629_546_311);
        let mut divisor = || match numbers.next() % 64 {
            0 => 0,
            by => (numbers.next() as i64) >> (by - 1),
        };
        Columns {
            right: (0..count).map(|_| divisor()).collect(),
            left: (0..count).map(|_| numbers.next() as i64).collect(),
            words: words(&mut numbers, count.div_ceil(64) + 1),
        }
    }
}

/// The form of an operation that runs.
#[derive(Clone, Copy)]
struct Form {
    in_place: bool,
    nulls: bool,
}

/// The operands at one type.
struct Arrays<'a, T> {
    name: &'static str,
    number_type: NumberType,
    columns: &'a Columns,
    scalar: i64,
    numbers: PhantomData<T>,
}

/// Returns row `i` of the numbers: null where its bit is 0. Without bits all rows are present.
fn row<T: Number>(values: &[T], words: Option<&[u64]>, i: usize) -> u64 {
    let values = black_box(values);
    match values.get(i) {
        Some(value) if words.is_none_or(|words| (words[i / 64] >> (i % 64)) & 1 == 1) => {
            value.wide()
        }
        _ => NO_NUMBER,
    }
}

/// Runs a peer row after row, `repeats` times.
fn checksum(repeats: usize, mut row: impl FnMut(usize) -> u64) -> u64 {
    (0..repeats).fold(0, |sum: u64, round| {
        sum.wrapping_mul(31).wrapping_add(row(round))
    })
}

impl<'a, T: Number> Arrays<'a, T> {
    fn new(
        name: &'static str,
        number_type: NumberType,
        columns: &'a Columns,
        scalar: i64,
    ) -> Arrays<'a, T> {
        Arrays {
            name,
            number_type,
            columns,
            scalar,
            numbers: PhantomData,
        }
    }

    /// Returns the numbers that the library makes its rows of, at the type. Each side makes its
    /// operands anew.
    fn made(&self, column: &[i64]) -> Vec<T> {
        column.iter().map(|wide| T::of(*wide)).collect()
    }

    /// Returns the words of the left or, one later, of the right validity.
    fn words(&self, form: Form, place: usize) -> Option<&[u64]> {
        form.nulls
            .then(|| &self.columns.words[place..][..self.columns.left.len().div_ceil(64)])
    }

    /// Returns the words that cross to the library.
    fn lent_words(&self, form: Form) -> Rows<'_, u64> {
        rows(if form.nulls { &self.columns.words } else { &[] })
    }

    /// Returns the rows that the right array leaves present.
    fn right_words<O: Operation>(&self, right: &[T], form: Form) -> Option<Vec<u64>> {
        let words = self.words(form, 1);
        if O::DIVIDES {
            let mut present = nonzero(right);
            words.inspect(|words| join(&mut present, words));
            Some(present)
        } else {
            words.map(|words| words.to_vec())
        }
    }

    /// Runs the peer of an operation on two arrays, into new numbers.
    fn pairs_anew<O: Operation>(&self, form: Form, repeats: usize) -> u64 {
        let (left, right) = (
            self.made(&self.columns.left),
            self.made(&self.columns.right),
        );
        let left_words = self.words(form, 0);
        checksum(repeats, |round| {
            let made = pairs::<T, O>(&left, &right);
            let present = match (left_words, self.words(form, 1)) {
                (Some(words), Some(others)) if !O::DIVIDES => Some(joined(words, others)),
                _ => self.right_words::<O>(&right, form).map(|mut present| {
                    left_words.inspect(|words| join(&mut present, words));
                    present
                }),
            };
            row(&made, present.as_deref(), round)
        })
    }

    /// Runs the operation in place, over the numbers of the left array.
    fn pairs_in_place<O: Operation>(&self, form: Form, repeats: usize) -> u64 {
        let (left, right) = (
            self.made(&self.columns.left),
            self.made(&self.columns.right),
        );
        let mut values = left.clone();
        let mut present = self.words(form, 0).map(|words| words.to_vec());
        checksum(repeats, |round| {
            pairs_in_place::<T, O>(&mut values, &right);
            if O::DIVIDES {
                let others = self.right_words::<O>(&right, form);
                present = match (present.take(), others) {
                    (Some(mut present), Some(others)) => {
                        join(&mut present, &others);
                        Some(present)
                    }
                    (_, others) => others,
                };
            } else if let (Some(present), Some(others)) = (&mut present, self.words(form, 1)) {
                join(present, others);
            }
            row(&values, present.as_deref(), round)
        })
    }

    /// Runs the peer of an operation on one array, or on one and a number.
    fn lone<O: Operation>(&self, form: Form, repeats: usize) -> u64 {
        let scalar = T::of(self.scalar);
        let present = self.words(form, 0);
        if O::DIVIDES && scalar == T::ZERO {
            return checksum(repeats, |_| NO_NUMBER);
        }
        let left = self.made(&self.columns.left);
        if form.in_place {
            let mut values = left.clone();
            checksum(repeats, |round| {
                lone_in_place::<T, O>(&mut values, scalar);
                row(&values, present, round)
            })
        } else {
            checksum(repeats, |round| {
                row(&lone::<T, O>(&left, scalar), present, round)
            })
        }
    }

    /// Hands an operation on two arrays to `each`.
    fn hand_pairs<O: Operation>(
        &self,
        name: &str,
        (operation, form): (PairOperation, Form),
        each: &mut dyn FnMut(&Kernel),
    ) {
        each(&Kernel {
            name: &self.named(name, form),
            asked: asked(O::DIVIDES, form),
            ours: &|repeats| {
                polars_time_pairs(
                    rows(&self.columns.left),
                    rows(&self.columns.right),
                    self.lent_words(form),
                    operation,
                    self.number_type,
                    form.in_place,
                    repeats,
                )
            },
            plain: &|repeats| {
                if form.in_place {
                    self.pairs_in_place::<O>(form, repeats)
                } else {
                    self.pairs_anew::<O>(form, repeats)
                }
            },
            beside: None,
        });
    }

    /// Hands an operation on one array, or on one and a number, to `each`.
    fn hand_lone<O: Operation>(
        &self,
        name: &str,
        (operation, form): (LoneOperation, Form),
        each: &mut dyn FnMut(&Kernel),
    ) {
        let asked = match operation {
            LoneOperation::FloorDiv | LoneOperation::TruncDiv | LoneOperation::Mod => {
                self.asked_of_divisor(operation, form)
            }
            _ => asked(O::DIVIDES, form),
        };
        each(&Kernel {
            name: &self.named(name, form),
            asked,
            ours: &|repeats| {
                polars_time_lone(
                    rows(&self.columns.left),
                    self.lent_words(form),
                    self.scalar,
                    operation,
                    self.number_type,
                    form.in_place,
                    repeats,
                )
            },
            plain: &|repeats| self.lone::<O>(form, repeats),
            beside: None,
        });
    }

    /// Returns the ratio asked of a division by a number that stays.
    fn asked_of_divisor(&self, operation: LoneOperation, form: Form) -> Asked {
        let narrow = matches!(
            self.number_type,
            NumberType::U8 | NumberType::U16 | NumberType::U32
        );
        match operation {
            _ if form.in_place => Asked::Nothing,
            LoneOperation::Mod => Asked::Ratio([0.35, 0.35]),
            _ if narrow => Asked::Ratio([0.45, 0.45]),
            _ => Asked::Ratio([0.3, 0.3]),
        }
    }

    fn named(&self, name: &str, form: Form) -> String {
        let nulls = if form.nulls { ", nulls" } else { "" };
        let place = if form.in_place { ", in place" } else { "" };
        format!("{name} {}{nulls}{place}", self.name)
    }

    /// Hands the operations on two arrays to `each`.
    fn for_each_pair(&self, form: Form, each: &mut dyn FnMut(&Kernel)) {
        self.hand_pairs::<Add>("add", (PairOperation::Add, form), each);
        self.hand_pairs::<Sub>("sub", (PairOperation::Sub, form), each);
        self.hand_pairs::<Mul>("mul", (PairOperation::Mul, form), each);
        self.hand_pairs::<FloorDiv>("floor_div", (PairOperation::FloorDiv, form), each);
        self.hand_pairs::<TruncDiv>("trunc_div", (PairOperation::TruncDiv, form), each);
        self.hand_pairs::<Mod>("mod", (PairOperation::Mod, form), each);
    }

    /// Hands to `each` the operations on one array, and on one and a number that do not divide.
    fn for_each_lone(&self, form: Form, each: &mut dyn FnMut(&Kernel)) {
        self.hand_lone::<Abs>("abs", (LoneOperation::Abs, form), each);
        self.hand_lone::<Neg>("neg", (LoneOperation::Neg, form), each);
        self.hand_lone::<Add>("add_scalar", (LoneOperation::Add, form), each);
        self.hand_lone::<Sub>("sub_scalar", (LoneOperation::Sub, form), each);
        self.hand_lone::<Mul>("mul_scalar", (LoneOperation::Mul, form), each);
    }

    /// Hands the divisions by a number that stays to `each`.
    fn for_each_division(&self, form: Form, each: &mut dyn FnMut(&Kernel)) {
        let floor_div = (LoneOperation::FloorDiv, form);
        self.hand_lone::<FloorDiv>("floor_div_scalar", floor_div, each);
        let trunc_div = (LoneOperation::TruncDiv, form);
        self.hand_lone::<TruncDiv>("trunc_div_scalar", trunc_div, each);
        self.hand_lone::<Mod>("mod_scalar", (LoneOperation::Mod, form), each);
    }
}

/// Returns the ratio asked of all operations except divisions by a number that stays.
fn asked(divides: bool, form: Form) -> Asked {
    if divides || form.in_place {
        Asked::Ratio([1.0, 1.0])
    } else {
        Asked::Ratio([1.1, 1.1])
    }
}

/// Hands each operation at one type in one form to `each`.
fn at_type<T: Number>(arrays: &Arrays<T>, form: Form, each: &mut dyn FnMut(&Kernel)) {
    arrays.for_each_pair(form, each);
    arrays.for_each_lone(form, each);
    arrays.for_each_division(form, each);
}

/// Hands each operation at each type in one form to `each`.
fn at_all_types(columns: &Columns, scalar: i64, form: Form, each: &mut dyn FnMut(&Kernel)) {
    let i8s = Arrays::<i8>::new("i8", NumberType::I8, columns, scalar);
    at_type(&i8s, form, each);
    let i16s = Arrays::<i16>::new("i16", NumberType::I16, columns, scalar);
    at_type(&i16s, form, each);
    let i32s = Arrays::<i32>::new("i32", NumberType::I32, columns, scalar);
    at_type(&i32s, form, each);
    let i64s = Arrays::<i64>::new("i64", NumberType::I64, columns, scalar);
    at_type(&i64s, form, each);
    let u8s = Arrays::<u8>::new("u8", NumberType::U8, columns, scalar);
    at_type(&u8s, form, each);
    let u16s = Arrays::<u16>::new("u16", NumberType::U16, columns, scalar);
    at_type(&u16s, form, each);
    let u32s = Arrays::<u32>::new("u32", NumberType::U32, columns, scalar);
    at_type(&u32s, form, each);
    let u64s = Arrays::<u64>::new("u64", NumberType::U64, columns, scalar);
    at_type(&u64s, form, each);
}

const FORMS: [Form; 4] = [
    Form {
        in_place: false,
        nulls: false,
    },
    Form {
        in_place: true,
        nulls: false,
    },
    Form {
        in_place: false,
        nulls: true,
    },
    Form {
        in_place: true,
        nulls: true,
    },
];

/// Checks that both sides return the same for all scalars, at lengths up to some hundreds, of the
/// operations that are to be run.
pub fn agree(bench: &Bench) {
    for count in (0..70).chain([127, 128, 129, 300]) {
        let columns = &Columns::new(count);
        for scalar in SCALARS {
            for form in FORMS {
                at_all_types(columns, scalar, form, &mut |kernel| {
                    if !bench.runs(kernel.name) {
                        return;
                    }
                    let repeats = count + 2;
                    assert_eq!(
                        (kernel.ours)(repeats),
                        (kernel.plain)(repeats),
                        "{} of {count} rows, {scalar}",
                        kernel.name
                    );
                });
            }
        }
    }
}

/// Returns whether a line of the operation is timed. Of the types that are not among the four first
/// ones only divisions by a scalar are, and with nulls only the pairs of one type. The numbers
/// without a sign are their own distances from 0.
fn is_timed(name: &str) -> bool {
    let of_type = |types: &[&str]| {
        let mut words = name.split([' ', ',']);
        words.any(|word| types.contains(&word))
    };
    let by_scalar = name.contains("div_scalar") || name.contains("mod_scalar");
    let timed = if name.contains("nulls") {
        of_type(&["i32"]) && !name.contains("scalar") && !of_type(&["abs", "neg"])
    } else {
        by_scalar || of_type(&["i8", "i32", "i64", "u32"])
    };
    timed && !name.starts_with("abs u32")
}

/// Compares and times the operations.
pub fn compare(bench: &mut Bench, run: usize) {
    keep_freed_memory();
    let columns = &Columns::new(SHORT_RUNS[run].count);
    for form in FORMS {
        at_all_types(columns, SCALAR, form, &mut |kernel| {
            if is_timed(kernel.name) {
                bench.time(&SHORT_RUNS[run], run, kernel);
            }
        });
    }
}
